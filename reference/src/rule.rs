//! The right rules, or the right rules but one ("Plausible blunders", two
//! about closed days, seven about the tax of ten per cent, six about items paid
//! in parts and eight about the volume that an 03 takes).

#[derive(Clone, Copy, Debug, PartialEq, Eq)]
pub enum Rule {
    Right,
    /// 8.856 × k, or 9.02 × k, is cut before it is added or taken off.
    CutFirst,
    /// The band follows the raw volume in a short or long period too.
    RawBand,
    /// A meter change closes the period's days.
    MeterCloses,
    /// Late days of a part are counted from the eleventh.
    LateFromEleventh,
    /// A revision is priced at the fuel prices of the closing.
    TodaysFuel,
    /// Late days are counted from the due day before it was moved.
    UnmovedLate,
    /// A due day that is listed is kept.
    ListedKept,
    /// 9.02 × k alone is cut before it is added or taken off.
    CutFirstAtTen,
    /// The rate is still 8 per cent on day 7,213.
    RateLate,
    /// The rate is 10 per cent on day 7,212 already.
    RateEarly,
    /// A period has the rate of its first day.
    FirstDayRate,
    /// A revision is priced at the rate of the closing.
    TodaysRate,
    /// The body leaves out the tax of the day on which a part is paid.
    SettlingBody,
    /// The body leaves out the tax of the due day.
    DueBody,
    /// A part goes to the tax first.
    TaxFirst,
    /// A part goes to body and tax in proportion.
    ProRata,
    /// The interest is cut at each part.
    CutEachPart,
    /// A part exactly 10 days late adds.
    TenthDayAdds,
    /// Interest is that of the whole body from the due day to the settling day.
    WholeBody,
    /// Credit and credited nets pay late parts that add nothing.
    CreditAddsNothing,
    /// An 03 takes the volume of the period just before, of any kind.
    AbsenceEmpties,
    /// An 03 behind two or more 04 periods takes 0.
    SecondAbsenceEmpties,
    /// An 04 bills the volume that an 03 would take.
    AbsenceBilled,
    /// An 03 behind a resumption takes 0.
    ResumptionEmpties,
    /// A stop's period is passed over as an 04 period is.
    StopNotCounted,
    /// A reading behind standing estimates is passed over.
    ReadingNotCounted,
    /// A period of 0 m³ is passed over.
    ZeroPassedOver,
    /// An 03 takes the whole pool of the last real closing.
    PoolCounted,
}

impl Rule {
    pub const BLUNDERS: [(&'static str, Rule); 28] = [
        ("cut-first", Rule::CutFirst),
        ("raw-band", Rule::RawBand),
        ("meter-closes", Rule::MeterCloses),
        ("late-from-eleventh", Rule::LateFromEleventh),
        ("todays-fuel", Rule::TodaysFuel),
        ("unmoved-late", Rule::UnmovedLate),
        ("listed-kept", Rule::ListedKept),
        ("cut-first-at-ten", Rule::CutFirstAtTen),
        ("rate-late", Rule::RateLate),
        ("rate-early", Rule::RateEarly),
        ("first-day-rate", Rule::FirstDayRate),
        ("todays-rate", Rule::TodaysRate),
        ("settling-body", Rule::SettlingBody),
        ("due-body", Rule::DueBody),
        ("tax-first", Rule::TaxFirst),
        ("pro-rata", Rule::ProRata),
        ("cut-each-part", Rule::CutEachPart),
        ("tenth-day-adds", Rule::TenthDayAdds),
        ("whole-body", Rule::WholeBody),
        ("credit-adds-nothing", Rule::CreditAddsNothing),
        ("absence-empties", Rule::AbsenceEmpties),
        ("second-absence-empties", Rule::SecondAbsenceEmpties),
        ("absence-billed", Rule::AbsenceBilled),
        ("resumption-empties", Rule::ResumptionEmpties),
        ("stop-not-counted", Rule::StopNotCounted),
        ("reading-not-counted", Rule::ReadingNotCounted),
        ("zero-passed-over", Rule::ZeroPassedOver),
        ("pool-counted", Rule::PoolCounted),
    ];

    /// The right rules, unless the feature `wrong-rule` is on.
    pub fn built() -> Rule {
        if cfg!(feature = "wrong-rule") {
            Rule::RawBand
        } else {
            Rule::Right
        }
    }

    pub fn named(name: &str) -> Option<Rule> {
        Rule::BLUNDERS.iter().find(|(known, _)| *known == name).map(|(_, rule)| *rule)
    }
}
