#!/usr/bin/env python3
"""Makes tests/lives: small household files and what bill and notice print for them.

    tests/make_lives.py                                 writes NAME.in, NAME.closed and README.md
    tests/make_lives.py --expect REF_BILL REF_NOTICE    writes NAME.bill and NAME.notice too

Every field of every answer and every notice stands below, worked out by hand
from documents 01 and 02; a field that is not named is 0. What is stored is
printed by the reference programs, and is compared here with the figures below.
A case with closed days has a file NAME.closed, which the programs find as
`closed` in the folder that they run in.
"""

import datetime
import pathlib
import subprocess
import sys
import tempfile

LIVES = pathlib.Path(__file__).resolve().parent / "lives"

# --- Frames -----------------------------------------------------------------

# Fuel prices (LNG, propane).
LEVEL = (83_130, 75_000)  # 78,341.712 + 4,747.5 = 83,089.2, so 83,090: k 0
LOWER = (83_000, 75_000)  # 78,219.2 + 4,747.5 = 82,966.7, so 82,970: 120 below, k 1
HIGHER = (85_000, 75_000)  # 80,104 + 4,747.5 = 84,851.5, so 84,850: 1,760 above, k 17
FREE = (0, 0)  # 83,090 below, k 830
DEAR = (300_000, 300_000)  # 282,720 + 18,990 = 301,710: 218,620 above, k 2,186


def frame(kind, day, *fields):
    """A frame; each field is (number, bytes)."""
    return f"{kind:02x}{day:04x}" + "".join(f"{number:0{2 * width}x}" for number, width in fields)


def opening(day, dial, digits):
    return frame(1, day, (dial, 4), (digits, 1))


def read(day, dial, fuel=LEVEL):
    return frame(2, day, (dial, 4), (fuel[0], 4), (fuel[1], 4))


def missed(day, fuel=LEVEL):
    return frame(3, day, (fuel[0], 4), (fuel[1], 4))


def absent(day, fuel=LEVEL):
    return frame(4, day, (fuel[0], 4), (fuel[1], 4))


def change(day, old, new, digits):
    return frame(5, day, (old, 4), (new, 4), (digits, 1))


def stop(day, dial, fuel=LEVEL):
    return frame(6, day, (dial, 4), (fuel[0], 4), (fuel[1], 4))


def resumption(day, dial, digits):
    return frame(7, day, (dial, 4), (digits, 1))


def cancellation(day, dial, fuel=LEVEL):
    return frame(8, day, (dial, 4), (fuel[0], 4), (fuel[1], 4))


def payment(day, yen):
    return frame(9, day, (yen, 4))


def cancel_stopped(day):
    return frame(10, day)


# --- Lives ------------------------------------------------------------------


def date(day):
    return (datetime.date(2000, 1, 1) + datetime.timedelta(days=day)).strftime("%Y%m%d")


def item(kind, day, unpaid, due):
    """The notice of an item; it is due after 30 days where no closed day moves that."""
    return kind + date(day) + date(day + 30 if due is None else due) + f"{unpaid:016x}"


def interest_item(day, unpaid, due=None):
    return item("01", day, unpaid, due)


def price_item(day, unpaid, due=None):
    return item("02", day, unpaid, due)


def closed_file(days):
    """The file `closed` of some days."""
    return "".join(f"{day:04x}\n" for day in days).encode()


class Life:
    """A household file, its closed days, the answers to its lines and the items open at its end."""

    def __init__(self, name, shows):
        self.name, self.shows = name, shows
        self.input, self.answers, self.notices = b"", [], []
        self.closed = None

    def __call__(self, line, number=0, estimated=0, volumes=(), net=0, interest=0, unpaid=0, credit=0, end=b"\n"):
        """One line and its answer."""
        self.input += (line if isinstance(line, bytes) else line.encode()) + end
        self.answers.append(
            f"{number:02x}{estimated:08x}{len(volumes):02x}"
            + "".join(f"{volume:08x}" for volume in volumes)
            + f"{net % 2**32:08x}{interest:016x}{unpaid:016x}{credit:08x}"
        )

    def no(self, number, *lines):
        """Lines that are declined with a number; every other field of the answer is 0."""
        for line in lines:
            self(line, number)

    def open(self, *items):
        """The items open at the end, oldest first."""
        self.notices = list(items)

    def close(self, *days):
        """The days of the file `closed`."""
        self.closed = closed_file(days)

    def files(self):
        """Endings of the files that go in, with their bytes."""
        return {"in": self.input} if self.closed is None else {"in": self.input, "closed": self.closed}


CASES = []


def life(name, shows):
    def add(tell):
        case = Life(name, shows)
        tell(case)
        CASES.append(case)
        return tell

    return add


# Prices at k 0 over 25 to 35 days, in yen:
#    0 m³ 950             10 m³ 950 + 1,950 = 2,900      20 m³ 950 + 3,900 = 4,850
#    6 m³ 950 + 1,170     11 m³ 950 + 2,145 = 3,095      21 m³ 1,250 + 3,780 = 5,030
#         = 2,120         14 m³ 950 + 2,730 = 3,680      25 m³ 1,250 + 4,500 = 5,750
#    7 m³ 950 + 1,365     15 m³ 950 + 2,925 = 3,875      30 m³ 1,250 + 5,400 = 6,650
#         = 2,315         16 m³ 950 + 3,120 = 4,070      40 m³ 1,250 + 7,200 = 8,450
#                         17 m³ 950 + 3,315 = 4,265      80 m³ 1,250 + 14,400 = 15,650
#                                                        81 m³ 2,050 + 13,770 = 15,820
# 0 m³ in one day at k 0: 95,000 / 30 = 3,166 sen, 31 yen.
# Bodies of items before day 7,213: 4,850 − 359 = 4,491; 6,650 − 492 = 6,158; 31 − 2 = 29.
# Interest below is written body × late × 274 = yen, the division by 1,000,000 left out.

# --- Document 01's figures --------------------------------------------------


@life("example", "document 01's example: 20 m³ in 30 days 4,850; 5,000 paid, 150 over")
def _(a):
    a(opening(0, 100, 4))
    a(read(29, 120), volumes=[20], net=4_850, unpaid=4_850)
    a(payment(40, 5_000), credit=150)


@life("example_open", "its first two lines: the notice of 4,850, obligation 30 January and due 29 February 2000")
def _(a):
    a(opening(0, 100, 4))
    a(read(29, 120), volumes=[20], net=4_850, unpaid=4_850)
    a.open("02200001302000022900000000000012f2")


@life("bands", "30 days at k 0: 20 m³ 4,850; 21 5,030; 80 15,650; 81 15,820; 0 m³ 950")
def _(a):
    a(opening(0, 0, 4))
    a(read(29, 20), volumes=[20], net=4_850, unpaid=4_850)
    a(read(59, 41), volumes=[21], net=5_030, unpaid=9_880)
    a(read(89, 121), volumes=[80], net=15_650, unpaid=25_530)
    a(read(119, 202), volumes=[81], net=15_820, unpaid=41_350)
    a(read(149, 202), volumes=[0], net=950, unpaid=42_300)
    a.open(price_item(29, 4_850), price_item(59, 5_030), price_item(89, 15_650), price_item(119, 15_820), price_item(149, 950))


@life("days", "periods of 1, 24, 25, 35 and 36 days: 31, 4,600, 4,850, 4,850 and 5,040")
def _(a):
    # 1 day, 0 m³: 31. Then 20 m³ each time.
    # 24 days: 20 × 30 / 24 = 25, second band; 125,000 × 24 / 30 = 100,000; + 18,000 × 20 = 460,000 sen.
    # 25 and 35 days: whole month, first band.
    # 36 days: 20 × 30 / 36 = 16, first band; 95,000 × 36 / 30 = 114,000; + 390,000 = 504,000 sen.
    a(opening(0, 0, 4))
    a(read(0, 0), volumes=[0], net=31, unpaid=31)
    a(read(24, 20), volumes=[20], net=4_600, unpaid=4_631)
    a(read(49, 40), volumes=[20], net=4_850, unpaid=9_481)
    a(read(84, 60), volumes=[20], net=4_850, unpaid=14_331)
    a(read(120, 80), volumes=[20], net=5_040, unpaid=19_371)
    a.open(price_item(0, 31), price_item(24, 4_600), price_item(49, 4_850), price_item(84, 4_850), price_item(120, 5_040))


@life("band_by_month", "a short and a long period whose band by monthly volume is not that of the raw volume")
def _(a):
    # 1 day, 1 m³: 30 in a month, second band; 125,000 / 30 = 4,166; + 18,000 = 22,166 sen.
    # 40 days, 27 m³: 27 × 30 / 40 = 20.25, so 20, first band; 95,000 × 40 / 30 = 126,666; + 19,500 × 27 = 653,166 sen.
    # 40 days, 28 m³: 21, second band; 125,000 × 40 / 30 = 166,666; + 18,000 × 28 = 670,666 sen.
    a(opening(0, 0, 4))
    a(read(0, 1), volumes=[1], net=221, unpaid=221)
    a(read(40, 28), volumes=[27], net=6_531, unpaid=6_752)
    a(read(80, 56), volumes=[28], net=6_706, unpaid=13_458)
    a.open(price_item(0, 221), price_item(40, 6_531), price_item(80, 6_706))


@life("units", "80 m³ in 30 days at base 18,000: unit 17,991 gives 15,642 (17,992 would give 15,643), unit 18,150 15,770")
def _(a):
    # 18,000 − 8.856 = 17,991.144, cut to 17,991; × 80 = 1,439,280; + 125,000 = 1,564,280 sen.
    # 18,000 + 8.856 × 17 = 18,150.552, cut to 18,150; × 80 = 1,452,000; + 125,000 = 1,577,000 sen.
    a(opening(0, 0, 4))
    a(read(29, 80, LEVEL), volumes=[80], net=15_650, unpaid=15_650)
    a(read(59, 160, LOWER), volumes=[80], net=15_642, unpaid=31_292)
    a(read(89, 240, HIGHER), volumes=[80], net=15_770, unpaid=47_062)
    a.open(price_item(29, 15_650), price_item(59, 15_642), price_item(89, 15_770))


@life("fuel_edges", "fuel 0 and 300,000, the average rounded half up to 10, and the change cut to 100")
def _(a):
    # 0 and 0: 19,500 − 7,350.48 = 12,149.52, cut to 12,149; × 20 + 95,000 = 337,980 sen.
    # 300,000 twice: 19,500 + 19,359.216, cut to 38,859; × 20 + 95,000 = 872,180 sen.
    # 83,190 and 75,620: 78,398.256 + 4,786.746 = 83,185.002, so 83,190: 100 above, k 1; 18,008 × 80 + 125,000 = 1,565,640 sen.
    # 83,190 and 75,610: 83,184.369, so 83,180: 90 above, k 0: 15,650 yen.
    a(opening(0, 0, 4))
    a(read(29, 20, FREE), volumes=[20], net=3_379, unpaid=3_379)
    a(read(59, 40, DEAR), volumes=[20], net=8_721, unpaid=12_100)
    a(read(89, 120, (83_190, 75_620)), volumes=[80], net=15_656, unpaid=27_756)
    a(read(119, 200, (83_190, 75_610)), volumes=[80], net=15_650, unpaid=43_406)
    a.open(price_item(29, 3_379), price_item(59, 8_721), price_item(89, 15_656), price_item(119, 15_650))


@life("roll_over_4", "4 digits, dial 9990 to 15: 25 m³")
def _(a):
    a(opening(0, 9_990, 4))
    a(read(29, 15), volumes=[25], net=5_750, unpaid=5_750)
    a.open(price_item(29, 5_750))


@life("roll_over_5", "5 digits, dial 99990 to 15: 25 m³; 9990 to 10015 turns no dial of 5 over")
def _(a):
    a(opening(0, 99_990, 5))
    a(read(29, 15), volumes=[25], net=5_750, unpaid=5_750)
    a(change(29, 15, 9_990, 5), unpaid=5_750)
    a(read(59, 10_015), volumes=[25], net=5_750, unpaid=11_500)
    a.open(price_item(29, 5_750), price_item(59, 5_750))


@life("turnovers", "dials past 0 at a change, a reading, one after a miss, a stop and a cancellation, and at rest at a change")
def _(a):
    # 17 m³: 950 + 3,315 = 4,265; 9 m³: 950 + 1,755 = 2,705.
    a(opening(0, 9_990, 4))
    a(change(10, 5, 99_995, 5))  # 15 m³
    a(read(29, 5), volumes=[25], net=5_750, unpaid=5_750)  # and 10
    a(change(40, 5, 9_999, 4), unpaid=5_750)  # 0
    a(missed(59), estimated=25, net=5_750, unpaid=11_500)
    a(read(89, 41), volumes=[25, 17], net=4_265, unpaid=15_765)  # 42
    a(change(90, 41, 99_990, 5), unpaid=15_765)  # 0
    a(stop(119, 10), volumes=[20], net=4_850, unpaid=20_615)
    a(resumption(130, 9_998, 4), unpaid=20_615)
    a(cancellation(159, 7), volumes=[9], net=2_705, unpaid=23_320)
    a.open(price_item(29, 5_750), price_item(59, 5_750), price_item(89, 4_265), price_item(119, 4_850), price_item(159, 2_705))


@life("interest_days", "4,850 settled 10 days late: 0; 11 days late: 13, posted by the next closing")
def _(a):
    # 4,491 × 11 × 274 / 1,000,000 = 13.5
    a(opening(0, 0, 4))
    a(read(29, 20), volumes=[20], net=4_850, unpaid=4_850)  # due on day 59
    a(read(59, 40), volumes=[20], net=4_850, unpaid=9_700)  # due on day 89
    a(payment(69, 4_850), unpaid=4_850)
    a(read(89, 40), volumes=[0], net=950, unpaid=5_800)
    a(payment(100, 4_850), unpaid=950)
    a(read(119, 40), volumes=[0], net=950, interest=13, unpaid=1_913)
    a.open(price_item(89, 950), interest_item(119, 13), price_item(119, 950))


# --- Volumes ----------------------------------------------------------------


def one_miss(a):
    """30 m³, then a miss of 30 m³: 13,300 open, dial 130."""
    a(opening(0, 100, 4))
    a(read(29, 130), volumes=[30], net=6_650, unpaid=6_650)
    a(missed(59), estimated=30, net=6_650, unpaid=13_300)


@life("share_one_21", "one miss of 30, pool 21: 10 then 11, net −655")
def _(a):
    # 21 / 2 up = 11 for this period, 10 for the missed one; 3,095 + 2,900 − 6,650 = −655.
    one_miss(a)
    a(read(89, 151), volumes=[10, 11], net=-655, unpaid=12_645)
    a.open(price_item(29, 5_995), price_item(59, 6_650))


@life("share_one_30", "one miss of 30, pool 30: the estimate stands and this period is 0")
def _(a):
    one_miss(a)
    a(read(89, 160), volumes=[30, 0], net=950, unpaid=14_250)
    a.open(price_item(29, 6_650), price_item(59, 6_650), price_item(89, 950))


@life("share_one_29", "one miss of 30, pool 29: one less than the estimate is shared, 14 then 15")
def _(a):
    # 3,875 + 3,680 − 6,650 = 905
    one_miss(a)
    a(read(89, 159), volumes=[14, 15], net=905, unpaid=14_205)
    a.open(price_item(29, 6_650), price_item(59, 6_650), price_item(89, 905))


@life("share_one_40", "one miss of 30, pool 40: 10")
def _(a):
    one_miss(a)
    a(read(89, 170), volumes=[30, 10], net=2_900, unpaid=16_200)
    a.open(price_item(29, 6_650), price_item(59, 6_650), price_item(89, 2_900))


@life("share_one_0", "one miss of 30, pool 0: 0 and 0, net −4,750")
def _(a):
    # 950 + 950 − 6,650 = −4,750
    one_miss(a)
    a(read(89, 130), volumes=[0, 0], net=-4_750, unpaid=8_550)
    a.open(price_item(29, 1_900), price_item(59, 6_650))


@life("share_two_50", "two misses of 30, pool 50: 16, 17, 17, net −700")
def _(a):
    # 50 / 3 up = 17, 33 / 2 up = 17, 16 left; 4,265 + 4,265 + 4,070 − 13,300 = −700.
    one_miss(a)
    a(missed(89), estimated=30, net=6_650, unpaid=19_950)
    a(read(119, 180), volumes=[16, 17, 17], net=-700, unpaid=19_250)
    a.open(price_item(29, 5_950), price_item(59, 6_650), price_item(89, 6_650))


@life("share_absent", "03, 04, 03, pool 20: 6, 0, 7, 7; the 04 period keeps 0, and the 03 after it had billed 30 like the one before")
def _(a):
    # 20 / 3 up = 7, 13 / 2 up = 7, 6 left; 2,315 + 2,315 + 2,120 − (6,650 + 6,650) = −6,550.
    one_miss(a)
    a(absent(89), net=950, unpaid=14_250)
    a(missed(119), estimated=30, net=6_650, unpaid=20_900)
    a(read(149, 150), volumes=[6, 0, 7, 7], net=-6_550, unpaid=14_350)
    a.open(price_item(29, 100), price_item(59, 6_650), price_item(89, 950), price_item(119, 6_650))


@life("share_absent_between", "03, 03, 04, pool 50: 16, 17, 0, 17, net −700")
def _(a):
    # As two misses, pool 50: the 04 period takes no share and is not repriced.
    one_miss(a)
    a(missed(89), estimated=30, net=6_650, unpaid=19_950)
    a(absent(119), net=950, unpaid=20_900)
    a(read(149, 180), volumes=[16, 17, 0, 17], net=-700, unpaid=20_200)
    a.open(price_item(29, 5_950), price_item(59, 6_650), price_item(89, 6_650), price_item(119, 950))


@life("share_only_absent", "two 04 and pool 20: both stay 0 and this period takes all 20")
def _(a):
    a(opening(0, 0, 4))
    a(absent(29), net=950, unpaid=950)
    a(absent(59), net=950, unpaid=1_900)
    a(read(89, 20), volumes=[0, 0, 20], net=4_850, unpaid=6_750)
    a.open(price_item(29, 950), price_item(59, 950), price_item(89, 4_850))


@life("share_six", "six misses of 30, pool 100: five of 14, then 15 and 15, net −13,750")
def _(a):
    # 100 / 7 up = 15, 85 / 6 up = 15, 70 / 5 = 14, and 14 four times more.
    # 3,875 + 3,875 + 5 × 3,680 − 6 × 6,650 = 26,150 − 39,900 = −13,750, off 46,550 open.
    # The items of days 29 and 59 (due 59 and 89) are settled on day 239, 180 and 150 days late:
    # 6,158 × 180 × 274 = 303.7 and 6,158 × 150 × 274 = 253.09, so 556 held. 450 off the item of day 89.
    a(opening(0, 100, 4))
    a(read(29, 130), volumes=[30], net=6_650, unpaid=6_650)
    for n in range(2, 8):
        a(missed(30 * n - 1), estimated=30, net=6_650, unpaid=6_650 * n)
    a(read(239, 230), volumes=[14, 14, 14, 14, 14, 15, 15], net=-13_750, unpaid=32_800)
    a(read(269, 230), volumes=[0], net=950, interest=556, unpaid=34_306)
    a.open(
        price_item(89, 6_200),
        *(price_item(day, 6_650) for day in (119, 149, 179, 209)),
        interest_item(269, 556),
        price_item(269, 950),
    )


@life("stand_six", "six misses of 30, pool 200: all stand, and this period is 20")
def _(a):
    a(opening(0, 100, 4))
    a(read(29, 130), volumes=[30], net=6_650, unpaid=6_650)
    for n in range(2, 8):
        a(missed(30 * n - 1), estimated=30, net=6_650, unpaid=6_650 * n)
    a(read(239, 330), volumes=[30, 30, 30, 30, 30, 30, 20], net=4_850, unpaid=51_400)
    a.open(*(price_item(30 * n - 1, 6_650) for n in range(1, 8)), price_item(239, 4_850))


@life("revision", "a revised period keeps its own fuel and days: net −577 (at today's fuel it would be −561)")
def _(a):
    # Missed: 24 days at the lower fuel, 30 m³; 30 × 30 / 24 = 37, second band; 100,000 + 17,991 × 30 = 639,730 sen.
    # Pool 21: 10 and 11. Its new price: 12 a month, first band; 95,000 × 24 / 30 = 76,000; + 19,491 × 10 = 270,910 sen.
    # This period: 30 days at the higher fuel; 95,000 + 19,650 × 11 = 311,150 sen. 3,111 + 2,709 − 6,397 = −577.
    a(opening(0, 100, 4))
    a(read(29, 130), volumes=[30], net=6_650, unpaid=6_650)
    a(missed(53, LOWER), estimated=30, net=6_397, unpaid=13_047)
    a(read(83, 151, HIGHER), volumes=[10, 11], net=-577, unpaid=12_470)
    a.open(price_item(29, 6_073), price_item(53, 6_397))


@life("first_missed", "a miss before any period bills 0 m³; the next reading takes the whole pool")
def _(a):
    a(opening(0, 0, 4))
    a(missed(29), estimated=0, net=950, unpaid=950)
    a(missed(59), estimated=0, net=950, unpaid=1_900)
    a(read(89, 20), volumes=[0, 0, 20], net=4_850, unpaid=6_750)
    a.open(price_item(29, 950), price_item(59, 950), price_item(89, 4_850))


@life("miss_after_absence", "03 bills the volume of the nearest period before it that was no 04: 20, and behind an 04 the 20 of that 03")
def _(a):
    a(opening(0, 0, 4))
    a(read(29, 20), volumes=[20], net=4_850, unpaid=4_850)
    a(missed(59), estimated=20, net=4_850, unpaid=9_700)
    a(absent(89), net=950, unpaid=10_650)
    a(missed(119), estimated=20, net=4_850, unpaid=15_500)
    a(read(149, 60), volumes=[20, 0, 20, 0], net=950, unpaid=16_450)  # pool 40
    a.open(price_item(29, 4_850), price_item(59, 4_850), price_item(89, 950), price_item(119, 4_850), price_item(149, 950))


@life("miss_after_resumption", "a resumption is no new start: 03 behind it bills the 20 m³ of the stop")
def _(a):
    a(opening(0, 0, 4))
    a(stop(29, 20), volumes=[20], net=4_850, unpaid=4_850)
    a(resumption(40, 500, 4), unpaid=4_850)
    a(missed(69), estimated=20, net=4_850, unpaid=9_700)
    a(read(99, 540), volumes=[20, 20], net=4_850, unpaid=14_550)
    a.open(price_item(29, 4_850), price_item(69, 4_850), price_item(99, 4_850))


@life("meter_change", "05 closes no period: 10 m³ of the old meter and 10 of the new, 20 m³ in 30 days")
def _(a):
    a(opening(0, 9_995, 4))
    a(change(10, 5, 99_990, 5))
    a(read(29, 0), volumes=[20], net=4_850, unpaid=4_850)
    a.open(price_item(29, 4_850))


@life("meter_changes", "several meters, also two on one day, between two readings and over a miss: pool 40, less 10")
def _(a):
    a(opening(0, 0, 4))
    a(read(29, 10), volumes=[10], net=2_900, unpaid=2_900)
    a(change(40, 15, 7, 4), unpaid=2_900)  # 5
    a(change(40, 7, 9_999, 4), unpaid=2_900)  # 0
    a(missed(59), estimated=10, net=2_900, unpaid=5_800)
    a(change(70, 14, 50, 5), unpaid=5_800)  # 15
    a(read(89, 70), volumes=[10, 30], net=6_650, unpaid=12_450)  # 20
    a.open(price_item(29, 2_900), price_item(59, 2_900), price_item(89, 6_650))


@life("stopped_gas", "gas that turned while stopped is not billed: dial 120 at the stop, 500 at the resumption, 510: 10 m³")
def _(a):
    a(opening(0, 100, 4))
    a(stop(29, 120), volumes=[20], net=4_850, unpaid=4_850)
    a(resumption(60, 500, 4), unpaid=4_850)
    a(read(89, 510), volumes=[10], net=2_900, unpaid=7_750)
    a.open(price_item(29, 4_850), price_item(89, 2_900))


@life("stopped_new_meter", "a resumption with another meter: 5 digits in place of 4")
def _(a):
    a(opening(0, 9_980, 4))
    a(stop(29, 0), volumes=[20], net=4_850, unpaid=4_850)
    a(resumption(60, 99_990, 5), unpaid=4_850)
    a(read(89, 10), volumes=[20], net=4_850, unpaid=9_700)
    a.open(price_item(29, 4_850), price_item(89, 4_850))


@life("resumed_on_stop_day", "a resumption on its stop day: that day is left out, so day 64 makes 35 days, 4,850 (36 would be 5,040)")
def _(a):
    a(opening(0, 100, 4))
    a(stop(29, 120), volumes=[20], net=4_850, unpaid=4_850)
    a(resumption(29, 500, 4), unpaid=4_850)
    a.no(7, read(29, 500))
    a(read(64, 520), volumes=[20], net=4_850, unpaid=9_700)
    a.open(price_item(29, 4_850), price_item(64, 4_850))


@life("resumed_later", "a resumption on a later day: that day counts, so days 40 to 63 make 24 days, 4,600")
def _(a):
    a(opening(0, 100, 4))
    a(stop(29, 120), volumes=[20], net=4_850, unpaid=4_850)
    a(resumption(40, 500, 4), unpaid=4_850)
    a(read(63, 520), volumes=[20], net=4_600, unpaid=9_450)
    a.open(price_item(29, 4_850), price_item(63, 4_600))


@life("resumed_next_day", "a resumption on the day after the stop counts from that day: 36 days to day 65, 5,040")
def _(a):
    a(opening(0, 100, 4))
    a(stop(29, 120), volumes=[20], net=4_850, unpaid=4_850)
    a(payment(30, 4_850))
    a(resumption(30, 500, 4))
    a(read(65, 520), volumes=[20], net=5_040, unpaid=5_040)
    a.open(price_item(65, 5_040))


@life("stopped_twice", "stop and resumption on one day, twice; the second period is one day of 0 m³, 31")
def _(a):
    a(opening(0, 100, 4))
    a(stop(29, 120), volumes=[20], net=4_850, unpaid=4_850)
    a(resumption(29, 120, 4), unpaid=4_850)
    a.no(7, stop(29, 120))
    a(stop(30, 120), volumes=[0], net=31, unpaid=4_881)
    a(resumption(30, 120, 4), unpaid=4_881)
    a(stop(60, 140), volumes=[20], net=4_850, unpaid=9_731)
    a.open(price_item(29, 4_850), price_item(30, 31), price_item(60, 4_850))


# --- Ledger -----------------------------------------------------------------


@life("nine_calls", "a life through 01 to 07, 09 and 0a, with a meter change over misses and interest twice")
def _(a):
    a(opening(0, 100, 4))
    a(read(29, 130), volumes=[30], net=6_650, unpaid=6_650)
    a(payment(40, 6_650))
    a(missed(59), estimated=30, net=6_650, unpaid=6_650)
    a(absent(89), net=950, unpaid=7_600)
    a(change(100, 170, 5, 5), unpaid=7_600)  # pool 40
    a(read(119, 35), volumes=[30, 0, 40], net=8_450, unpaid=16_050)  # pool 70 − 30 = 40
    # 6,650 due on day 89, 41 days late: 6,158 × 41 × 274 = 69.2. 950 due on day 119, 11 days late: 880 × 11 × 274 = 2.7.
    a(payment(130, 7_600), unpaid=8_450)
    a(stop(149, 60), volumes=[25], net=5_750, interest=71, unpaid=14_271)
    a(resumption(160, 7, 4), unpaid=14_271)
    a(stop(189, 17), volumes=[10], net=2_900, unpaid=17_171)
    a(cancel_stopped(200), unpaid=17_171)
    # 8,450 due on day 149, 51 days late: (8,450 − 625) × 51 × 274 = 109.3. 71: none.
    # 5,750 due on day 179, 21 days late: (5,750 − 425) × 21 × 274 = 30.6. 2,900 due on day 219: in time.
    # 20,000 − 17,171 = 2,829 over; 139 posted and paid from it.
    a(payment(200, 20_000), interest=139, credit=2_690)


@life("cancellation", "01, 02, 03 and 08: a miss becomes final; a payment behind it brings interest at once")
def _(a):
    one_miss(a)
    a(cancellation(89, 170), volumes=[30, 10], net=2_900, unpaid=16_200)
    a.no(1, read(119, 170), opening(119, 170, 4), resumption(119, 170, 4), cancel_stopped(119))
    # 16,000: the item of day 29 is 30 days late, 6,158 × 30 × 274 = 50.6; that of day 59 is due today; 200 left of 2,900.
    a(payment(89, 16_000), interest=50, unpaid=250)
    a.open(price_item(89, 200), interest_item(89, 50))


@life("cancelled_by_net", "08 with net −3,800 settles an item 30 days late: its 27 interest is posted at once, 20 of it paid by the credit left")
def _(a):
    # 9,520 on day 60: the first item, 1 day late, and 2,870 of the second in time, 3,780 left, 3,288 of it body.
    # 08 on day 119: pool 0, 60 days of 0 m³ 1,900; the miss anew 950; 1,900 + 950 − 6,650 = −3,800.
    # It settles 3,780 due on day 89, 30 days late: 3,288 × 30 × 274 = 27.03. 20 over, 7 of 27 left.
    one_miss(a)
    a(payment(60, 9_520), unpaid=3_780)
    a(cancellation(119, 130), volumes=[0, 0], net=-3_800, interest=27, unpaid=7)
    a(payment(200, 100), credit=93)


@life("cancelled_by_net_open", "the same up to the cancellation: the notice of the 7 left")
def _(a):
    one_miss(a)
    a(payment(60, 9_520), unpaid=3_780)
    a(cancellation(119, 130), volumes=[0, 0], net=-3_800, interest=27, unpaid=7)
    a.open(interest_item(119, 7))


@life("cancelled_with_both", "08 with interest held and interest of its own: two items, 35 and 27, one sum 62")
def _(a):
    # As before, but the first item is paid on day 80, 21 days late: 6,158 × 21 × 274 = 35.4, held.
    # 08: 3,800 settles 3,780, then 20 of the 35; then the 27 of its own.
    one_miss(a)
    a(payment(80, 9_520), unpaid=3_780)
    a(cancellation(119, 130), volumes=[0, 0], net=-3_800, interest=62, unpaid=42)
    a.open(interest_item(119, 15), interest_item(119, 27))


@life("cancelled_with_credit", "08 with net −3,800 where 3,300 is open: 500 over pays the 23, 477 is credit")
def _(a):
    # 3,350 of the second item in time; 6,158 − 3,350 = 2,808; 2,808 × 30 × 274 = 23.08.
    one_miss(a)
    a(payment(60, 10_000), unpaid=3_300)
    a(cancellation(119, 130), volumes=[0, 0], net=-3_800, interest=23, credit=477)


@life("net_settles_late", "02 with net −3,800 settles an item 30 days late: its 27 is held until the next closing")
def _(a):
    one_miss(a)
    a(payment(60, 9_520), unpaid=3_780)
    a(read(119, 130), volumes=[0, 0], net=-3_800, credit=20)
    a(read(149, 130), volumes=[0], net=950, interest=27, unpaid=957)
    a.open(interest_item(149, 7), price_item(149, 950))


@life("net_settles_late_held", "02 with 35 held and net −3,800: 35 is posted, 20 of it paid; the 27 that it brings waits")
def _(a):
    one_miss(a)
    a(payment(80, 9_520), unpaid=3_780)
    a(read(119, 130), volumes=[0, 0], net=-3_800, interest=35, unpaid=15)
    a(read(149, 130), volumes=[0], net=950, interest=27, unpaid=992)
    a.open(interest_item(119, 15), interest_item(149, 27), price_item(149, 950))


@life("paid_after_cancellation", "each late payment on a cancelled account posts its interest at once; interest bears none")
def _(a):
    # 6,650 due on day 59, 41 days late: 69.2. 2,900 due on day 89, 61 days late: (2,900 − 214) × 61 × 274 = 44.9.
    a(opening(0, 100, 4))
    a(read(29, 130), volumes=[30], net=6_650, unpaid=6_650)
    a(cancellation(59, 140), volumes=[10], net=2_900, unpaid=9_550)
    a(payment(100, 6_650), interest=69, unpaid=2_969)
    a(payment(150, 2_969), interest=44, unpaid=44)
    a(payment(400, 40), unpaid=4)
    a(payment(500, 100), credit=96)


@life("stopped_cancellation", "0a with interest held posts 69; on the same day again it is 1; without interest it posts nothing")
def _(a):
    a(opening(0, 100, 4))
    a(read(29, 130), volumes=[30], net=6_650, unpaid=6_650)
    a(stop(59, 140), volumes=[10], net=2_900, unpaid=9_550)
    a(payment(100, 6_650), unpaid=2_900)
    a(cancel_stopped(110), interest=69, unpaid=2_969)
    a.no(1, cancel_stopped(110))
    a.open(price_item(59, 2_900), interest_item(110, 69))


@life("stopped_cancellation_credit", "0a with interest held and credit: the 69 is paid from the 450 over")
def _(a):
    a(opening(0, 100, 4))
    a(read(29, 130), volumes=[30], net=6_650, unpaid=6_650)
    a(stop(59, 140), volumes=[10], net=2_900, unpaid=9_550)
    a(payment(99, 10_000), credit=450)  # 40 days late: 6,158 × 40 × 274 = 67.4; 2,900 due on day 89, 10 days late: 0
    a(cancel_stopped(99), interest=67, credit=383)


@life("held_through_stop", "interest held through a stop, posted by the stop; what comes later by the resumed account's closing")
def _(a):
    # 4,850 due on day 59, paid on day 70: 13. The stop on day 74: 45 days of 0 m³, 95,000 × 45 / 30 = 1,425 yen, due on day 104.
    # Paid on day 115: (1,425 − 105) × 11 × 274 = 3.97.
    a(opening(0, 0, 4))
    a(read(29, 20), volumes=[20], net=4_850, unpaid=4_850)
    a(payment(70, 4_850))
    a(stop(74, 20), volumes=[0], net=1_425, interest=13, unpaid=1_438)
    a(payment(115, 1_438))
    a(resumption(120, 20, 4))
    a(read(149, 20), volumes=[0], net=950, interest=3, unpaid=953)
    a.open(interest_item(149, 3), price_item(149, 950))


@life("part_payments", "an item paid in three parts, the last yen, tax, 11 days late: none (on the whole amount it would be 13)")
def _(a):
    # The body of 4,491 is paid up by the second part, 1 day late.
    a(opening(0, 0, 4))
    a(read(29, 20), volumes=[20], net=4_850, unpaid=4_850)
    a(payment(40, 2_000), unpaid=2_850)
    a(payment(60, 2_849), unpaid=1)
    a(payment(70, 1))
    a(read(89, 20), volumes=[0], net=1_900, unpaid=1_900)
    a.open(price_item(89, 1_900))


@life("part_payments_in_time", "an item of which all but a yen is paid late, and that yen too, 10 days late: none")
def _(a):
    a(opening(0, 0, 4))
    a(read(29, 20), volumes=[20], net=4_850, unpaid=4_850)
    a(payment(69, 4_849), unpaid=1)
    a(payment(69, 1))
    a(read(89, 20), volumes=[0], net=1_900, unpaid=1_900)
    a.open(price_item(89, 1_900))


@life("oldest_paid", "a yen less than the oldest item owes, that yen, a yen more than the next owes; meter changes with items open and with none")
def _(a):
    # Two items of 4,850. The pool at the end: 1 from the first meter, 0 from the second, 9 from the third; 10 m³ in 30 days 2,900.
    a(opening(0, 100, 4))
    a(read(29, 120), volumes=[20], net=4_850, unpaid=4_850)
    a(read(59, 140), volumes=[20], net=4_850, unpaid=9_700)
    a(payment(59, 4_849), unpaid=4_851)
    a(change(59, 141, 7, 5), unpaid=4_851)
    a(payment(59, 1), unpaid=4_850)
    a(payment(60, 4_851), credit=1)
    a(change(60, 7, 9_990, 4), credit=1)
    a(payment(60, 99_999_999), credit=100_000_000)
    a(payment(61, 99_999_999), credit=199_999_999)
    a.no(11, payment(61, 0))
    a.no(3, payment(60, 1), change(60, 9_991, 0, 4))
    a(read(89, 9_999), volumes=[10], net=2_900, credit=199_997_099)


@life("credit_pays", "credit pays interest and price in the closing that posts them: 5,150 − 13 − 1,900 = 3,237")
def _(a):
    a(opening(0, 0, 4))
    a(read(29, 20), volumes=[20], net=4_850, unpaid=4_850)
    a(payment(70, 10_000), credit=5_150)
    a(read(89, 20), volumes=[0], net=1_900, interest=13, credit=3_237)
    a(read(119, 60), volumes=[40], net=8_450, unpaid=5_213)
    a.open(price_item(119, 5_213))


@life("paid_ahead", "payments before any item are credit, and what it pays is never late")
def _(a):
    # 171 days of 20 m³: 3 a month, first band; 95,000 × 171 / 30 = 541,500; + 390,000 = 931,500 sen.
    a(opening(0, 0, 4))
    a(payment(0, 5_000), credit=5_000)
    a(read(29, 20), volumes=[20], net=4_850, credit=150)
    a(payment(200, 1), credit=151)
    a(missed(200), estimated=20, net=9_315, unpaid=9_164)
    a.open(price_item(200, 9_164))


@life("several_settled", "one payment settles items 41 and 11 days late and one in time: 50 and 13, one interest item of 63")
def _(a):
    # 4,491 × 41 × 274 = 50.5; 4,491 × 11 × 274 = 13.5.
    a(opening(0, 0, 4))
    a(read(29, 20), volumes=[20], net=4_850, unpaid=4_850)
    a(read(59, 40), volumes=[20], net=4_850, unpaid=9_700)
    a(read(89, 60), volumes=[20], net=4_850, unpaid=14_550)
    a(payment(100, 14_550))
    a(read(119, 60), volumes=[0], net=950, interest=63, unpaid=1_013)
    a.open(interest_item(119, 63), price_item(119, 950))


def days_at_zero(a, first, last, before=0):
    """A reading each day with 0 m³: an item of 31 each."""
    for n, day in enumerate(range(first, last + 1), 1):
        a(read(day, 20 if before else 0), volumes=[0], net=31, unpaid=before + 31 * n)


@life("number_12", "12: 72 items of 31 stand open, the 73rd is 12; a part of the oldest paid does not help, the rest of it does")
def _(a):
    # The oldest, due on day 30 and settled on day 72: 29 × 42 × 274 = 0.3, no interest.
    a(opening(0, 0, 4))
    days_at_zero(a, 0, 71)
    a.no(12, read(72, 0), missed(72), absent(72), stop(72, 0), cancellation(72, 0))
    a(payment(72, 30), unpaid=2_202)
    a.no(12, read(72, 0))
    a(payment(72, 1), unpaid=2_201)
    a(read(72, 0), volumes=[0], net=31, unpaid=2_232)
    a.no(12, read(73, 0))
    a.open(*(price_item(day, 31) for day in range(1, 73)))


def items_to_day_99(a):
    """4,850 of day 29, then 70 items of 31: 71 open, 7,020."""
    a(opening(0, 0, 4))
    a(read(29, 20), volumes=[20], net=4_850, unpaid=4_850)
    days_at_zero(a, 30, 99, 4_850)


@life("items_held", "71 open and 50 held: a closing would make 73 and is 12; with 70 open it makes 72, interest before price")
def _(a):
    # 4,850 due on day 59, settled on day 100, 41 days late: 4,491 × 41 × 274 = 50.5.
    items_to_day_99(a)
    a(read(100, 20), volumes=[0], net=31, unpaid=7_051)
    a(payment(100, 4_850), unpaid=2_201)
    a.no(12, read(101, 20), missed(101), absent(101), stop(101, 20), cancellation(101, 20))
    a(payment(101, 31), unpaid=2_170)
    a(read(101, 20), volumes=[0], net=31, interest=50, unpaid=2_251)
    a.no(12, read(102, 20))
    a.open(*(price_item(day, 31) for day in range(31, 101)), interest_item(101, 50), price_item(101, 31))


@life("items_stopped", "a stop makes 72, a payment 71 and 50 held, and 0a posts it as the 72nd")
def _(a):
    items_to_day_99(a)
    a(stop(100, 20), volumes=[0], net=31, unpaid=7_051)
    a(payment(100, 4_850), unpaid=2_201)
    a(cancel_stopped(101), interest=50, unpaid=2_251)
    a.open(*(price_item(day, 31) for day in range(30, 101)), interest_item(101, 50))


@life("items_cancelled", "a cancellation makes 72; a payment settles one and posts its 50 at once: 72 again")
def _(a):
    items_to_day_99(a)
    a(cancellation(100, 20), volumes=[0], net=31, unpaid=7_051)
    a(payment(100, 4_850), interest=50, unpaid=2_251)
    a.open(*(price_item(day, 31) for day in range(30, 101)), interest_item(100, 50))


@life("items_net", "72 open and a closing with a net below zero: accepted, 655 settles 21 items of 31 and 4 of the next")
def _(a):
    # Settled on day 159: the items of days 0 to 3 are 129 to 126 days late, 29 × 126 × 274 = 1.001, so 1 each; 125 days give 0.
    a(opening(0, 0, 4))
    days_at_zero(a, 0, 69)
    a(read(99, 30), volumes=[30], net=6_650, unpaid=8_820)
    a(missed(129), estimated=30, net=6_650, unpaid=15_470)
    a.no(12, missed(159), absent(159))
    a(read(159, 51), volumes=[10, 11], net=-655, unpaid=14_815)
    a(read(189, 51), volumes=[0], net=950, interest=4, unpaid=15_769)
    a.open(
        price_item(21, 27),
        *(price_item(day, 31) for day in range(22, 70)),
        price_item(99, 6_650),
        price_item(129, 6_650),
        interest_item(189, 4),
        price_item(189, 950),
    )


def credit_to_the_limit(a, day, spent=0):
    """Ten payments of 99,999,999 and one of 9, and what was open: credit 999,999,999."""
    for n in range(1, 11):
        a(payment(day, 99_999_999), credit=99_999_999 * n - spent)
    a(payment(day, 9 + spent), credit=999_999_999)


@life("number_13", "13: credit 999,999,999 is accepted, a yen more is 13; a bill of 4,850 makes room for 4,850")
def _(a):
    a(opening(0, 0, 4))
    credit_to_the_limit(a, 0)
    a.no(13, payment(0, 1), payment(0, 99_999_999), payment(29, 4_850))
    a(read(29, 20), volumes=[20], net=4_850, credit=999_995_149)
    a.no(13, payment(29, 4_851))
    a(payment(29, 4_850), credit=999_999_999)


@life("credit_limit_net", "credit 999,999,999 and a net of −655: 13; the same closing with a net above zero is accepted")
def _(a):
    one_miss(a)
    credit_to_the_limit(a, 60, 13_300)
    a.no(13, read(89, 151), stop(89, 151), cancellation(89, 151))
    a(read(89, 190), volumes=[30, 30], net=6_650, credit=999_993_349)


@life("credit_limit_cancelled", "the credit of a cancelled account: what it pays of the interest posted at once leaves room")
def _(a):
    # 950 due on day 59, paid on day 77: (950 − 70) × 18 × 274 = 4.3, so 4 posted at once and paid from the credit.
    # 10 × 99,999,999 − 954 = 999,999,036; 963 more make 999,999,999.
    a(opening(0, 0, 4))
    a(cancellation(29, 0), volumes=[0], net=950, unpaid=950)
    a(payment(77, 99_999_999), interest=4, credit=99_999_045)
    for n in range(2, 11):
        a(payment(77, 99_999_999), credit=99_999_999 * n - 954)
    a.no(13, payment(77, 964))
    a(payment(77, 963), credit=999_999_999)


# --- Numbers 1 to 13, and 40 --------------------------------------------------


@life("number_01", "1: each call in each status that does not allow it, and 09 wherever the account is not new")
def _(a):
    supplied_only = [read(0, 0), missed(0), absent(0), change(0, 0, 0, 4), stop(0, 0), cancellation(0, 0)]
    # new
    a.no(1, *supplied_only, resumption(0, 0, 4), payment(0, 1), cancel_stopped(0))
    a(opening(0, 0, 4))
    # supplied
    a.no(1, opening(0, 0, 4), resumption(0, 0, 4), cancel_stopped(0))
    a(payment(0, 1), credit=1)
    a(stop(0, 0), volumes=[0], net=31, unpaid=30)
    # stopped
    a.no(1, opening(0, 0, 4), *supplied_only)
    a(payment(0, 31), credit=1)
    a(cancel_stopped(0), credit=1)
    # cancelled
    a.no(1, opening(0, 0, 4), *supplied_only, resumption(0, 0, 4), cancel_stopped(0))
    a(payment(0, 1), credit=2)


@life("number_02", "2: day 36,095 and day 65,535 in each call; day 36,094 is accepted")
def _(a):
    for day in (36_095, 65_535):
        a.no(2, opening(day, 0, 4))
    a(opening(36_094, 0, 4))
    for day in (36_095, 65_535):
        a.no(2, read(day, 0), missed(day), absent(day), change(day, 0, 0, 4), stop(day, 0), cancellation(day, 0), payment(day, 1))
    a(stop(36_094, 0), volumes=[0], net=31, unpaid=31)
    for day in (36_095, 65_535):
        a.no(2, resumption(day, 0, 4), cancel_stopped(day))
    a(resumption(36_094, 0, 4), unpaid=31)
    a.open(price_item(36_094, 31))


@life("number_03", "3: the day before the latest accepted call in each call; the same day is accepted; a declined call's day does not count")
def _(a):
    a(opening(10, 0, 4))
    a.no(3, read(9, 0), missed(9), absent(9), change(9, 0, 0, 4), stop(9, 0), cancellation(9, 0), payment(9, 1), payment(0, 1))
    a.no(11, payment(20, 0))
    a(payment(10, 1), credit=1)
    a(change(12, 0, 0, 4), credit=1)
    a.no(3, payment(11, 1))
    a(stop(12, 0), volumes=[0], net=95, unpaid=94)  # 3 days: 95,000 × 3 / 30 = 9,500 sen
    a.no(3, resumption(11, 0, 4), cancel_stopped(11))
    a(cancel_stopped(12), unpaid=94)
    a.no(3, payment(11, 1))
    a(payment(12, 94))


@life("number_04", "4: digits 0, 3, 6 and 255 in 01, 05 and 07; 4 and 5 are accepted")
def _(a):
    for digits in (0, 3, 6, 255):
        a.no(4, opening(0, 0, digits))
    a(opening(0, 0, 4))
    for digits in (0, 3, 6, 255):
        a.no(4, change(0, 0, 0, digits))
    a(change(0, 0, 0, 5))
    a(change(0, 0, 0, 4))
    a(stop(0, 0), volumes=[0], net=31, unpaid=31)
    for digits in (0, 3, 6, 255):
        a.no(4, resumption(0, 0, digits))
    a(resumption(0, 0, 5), unpaid=31)
    a.open(price_item(0, 31))


@life("number_05", "5: a reading equal to its span or above it, for 4 and 5 digits, in 01, 02, 05 (old and new dial), 06, 07 and 08")
def _(a):
    most = 2**32 - 1
    a.no(5, opening(0, 10_000, 4), opening(0, most, 4), opening(0, 100_000, 5), opening(0, most, 5))
    a(opening(0, 9_999, 4))
    for dial in (10_000, 99_999, most):
        a.no(5, read(0, dial), change(0, dial, 0, 4), change(0, 9_999, dial, 4), stop(0, dial), cancellation(0, dial))
    a.no(5, change(0, 10_000, 0, 5), change(0, 9_999, 100_000, 5))
    a(change(0, 9_999, 99_999, 5))
    for dial in (100_000, most):
        a.no(5, read(0, dial), change(0, dial, 0, 4), change(0, 99_999, dial, 5), stop(0, dial), cancellation(0, dial))
    a(stop(0, 99_999), volumes=[0], net=31, unpaid=31)
    a.no(5, resumption(0, 10_000, 4), resumption(0, 100_000, 5))
    a(resumption(0, 10_000, 5), unpaid=31)
    a.open(price_item(0, 31))


@life("number_06", "6: LNG or propane of 300,010, 300,005, 300,001, 5 or the largest number; 300,000 is accepted")
def _(a):
    a(opening(0, 0, 4))
    for wrong in (300_010, 300_005, 300_001, 299_995, 5, 2**32 - 1):
        for fuel in ((wrong, 75_000), (83_130, wrong)):
            a.no(6, read(29, 20, fuel), missed(29, fuel), absent(29, fuel), stop(29, 20, fuel), cancellation(29, 20, fuel))
    a(read(29, 20, DEAR), volumes=[20], net=8_721, unpaid=8_721)  # see fuel_edges
    a.open(price_item(29, 8_721))


@life("number_07", "7: a second closing on a closing's day, and a closing on the day of stop and resumption; an opening's day counts as one")
def _(a):
    a(opening(0, 0, 4))
    a(read(0, 0), volumes=[0], net=31, unpaid=31)
    a.no(7, read(0, 0), missed(0), absent(0), stop(0, 0), cancellation(0, 0))
    a(missed(1), estimated=0, net=31, unpaid=62)
    a.no(7, read(1, 0), missed(1), absent(1), stop(1, 0), cancellation(1, 0))
    a(stop(2, 0), volumes=[0, 0], net=31, unpaid=93)
    a(resumption(2, 0, 4), unpaid=93)
    a.no(7, read(2, 0), missed(2), absent(2), stop(2, 0), cancellation(2, 0))
    a(cancellation(3, 0), volumes=[0], net=31, unpaid=124)
    a.open(*(price_item(day, 31) for day in range(4)))


@life("number_08", "8: a seventh miss, 03 or 04; a reading makes room for six more")
def _(a):
    a(opening(0, 0, 4))
    for n in range(1, 7):
        a((missed if n % 2 else absent)(30 * n - 1), net=950, unpaid=950 * n)
    a.no(8, missed(209), absent(209))
    a(read(209, 20), volumes=[0, 0, 0, 0, 0, 0, 20], net=4_850, unpaid=10_550)
    for n in range(1, 7):
        a(missed(209 + 30 * n), estimated=20, net=4_850, unpaid=10_550 + 4_850 * n)
    a.no(8, missed(419), absent(419))
    a.open(
        *(price_item(30 * n - 1, 950) for n in range(1, 7)),
        price_item(209, 4_850),
        *(price_item(209 + 30 * n, 4_850) for n in range(1, 7)),
    )


@life("number_09_4", "9: 4 digits, advance 5,001 in 02, 05, 06 and 08; 5,000 passes")
def _(a):
    # 5,000 m³: 2,050 + 850,000 = 852,050. Dial 9,990 + 5,001 = 4,991.
    a(opening(0, 9_990, 4))
    a.no(9, read(29, 4_991), change(29, 4_991, 0, 4), change(29, 4_991, 0, 5), stop(29, 4_991), cancellation(29, 4_991))
    a.no(9, read(29, 9_989))
    a(read(29, 4_990), volumes=[5_000], net=852_050, unpaid=852_050)
    a.no(9, read(59, 9_991))
    a(change(30, 9_990, 0, 4), unpaid=852_050)
    a(stop(59, 0), volumes=[5_000], net=852_050, unpaid=1_704_100)
    a.open(price_item(29, 852_050), price_item(59, 852_050))


@life("number_09_5", "9: 5 digits, advance 50,001 in 02, 05, 06 and 08; 50,000 passes")
def _(a):
    # 50,000 m³: 2,050 + 8,500,000 = 8,502,050. Dial 99,990 + 50,001 = 49,991.
    a(opening(0, 99_990, 5))
    a.no(9, read(29, 49_991), change(29, 49_991, 0, 4), change(29, 49_991, 0, 5), stop(29, 49_991), cancellation(29, 49_991))
    a.no(9, read(29, 99_989))
    a(read(29, 49_990), volumes=[50_000], net=8_502_050, unpaid=8_502_050)
    a(change(30, 99_990, 0, 4), unpaid=8_502_050)
    a(cancellation(59, 0), volumes=[50_000], net=8_502_050, unpaid=17_004_100)
    a.open(price_item(29, 8_502_050), price_item(59, 8_502_050))


@life("number_10", "10: a pool of 99,999 through several meters is accepted, 100,000 is not, in 02, 05, 06 and 08")
def _(a):
    # 99,999 m³: 2,050 + 16,999,830 = 17,001,880.
    a(opening(0, 0, 5))
    a(change(1, 50_000, 0, 4))
    a(change(2, 5_000, 99_999, 5))
    a(change(3, 44_997, 0, 5))  # 44,998: pool 99,998
    a.no(10, change(4, 2, 0, 5), read(29, 2), stop(29, 2), cancellation(29, 2))
    a(change(4, 1, 9_999, 4))  # pool 99,999
    a.no(10, change(5, 0, 0, 4), read(29, 0), stop(29, 0), cancellation(29, 0))
    a(change(5, 9_999, 0, 4))
    a(read(29, 0), volumes=[99_999], net=17_001_880, unpaid=17_001_880)
    a(read(59, 20), volumes=[20], net=4_850, unpaid=17_006_730)
    a.open(price_item(29, 17_001_880), price_item(59, 4_850))


@life("number_10_misses", "10: the pool runs on over misses, and is empty again behind a reading")
def _(a):
    # 50,000 m³ in 30 days 8,502,050; an estimate of it the same. Pool 99,999 − 50,000 = 49,999: 2,050 + 8,499,830 = 8,501,880.
    a(opening(0, 0, 5))
    a(read(29, 50_000), volumes=[50_000], net=8_502_050, unpaid=8_502_050)
    a(change(30, 0, 0, 5), unpaid=8_502_050)  # 50,000
    a(missed(59), estimated=50_000, net=8_502_050, unpaid=17_004_100)
    a.no(10, read(89, 50_000))
    a(read(89, 49_999), volumes=[50_000, 49_999], net=8_501_880, unpaid=25_505_980)
    a.open(price_item(29, 8_502_050), price_item(59, 8_502_050), price_item(89, 8_501_880))


@life("number_11", "11: payments of 0, 100,000,000 and the largest number; 1 and 99,999,999 are accepted")
def _(a):
    a(opening(0, 0, 4))
    a.no(11, payment(0, 0), payment(0, 100_000_000), payment(0, 2**32 - 1))
    a(payment(0, 1), credit=1)
    a(payment(0, 99_999_999), credit=100_000_000)
    a(stop(0, 0), volumes=[0], net=31, credit=99_999_969)
    a.no(11, payment(0, 0), payment(0, 100_000_000))
    a(cancel_stopped(0), credit=99_999_969)
    a.no(11, payment(0, 0), payment(0, 100_000_000))


# number_12 and number_13 stand with the ledger above.


@life("number_40", "40: lines that are no frame leave the account as it was, in every status")
def _(a):
    wrong = ["", "0", "00", "000000", "0b0000", "ff0000", "1a0000", "opening", "0x01000000000064"]
    a.no(40, *wrong)
    a(opening(0, 100, 4))
    a.no(40, *wrong)
    a(stop(29, 120), volumes=[20], net=4_850, unpaid=4_850)
    a.no(40, *wrong)
    a(cancel_stopped(29), unpaid=4_850)
    a.no(40, *wrong)
    a.open(price_item(29, 4_850))


# --- Two causes: the lower number, 40 first ------------------------------------
# 2 and 3 never meet (the latest day is at most 36,094), nor do 11 and 12 (a payment never adds more items than it settles)
# or 12 and 13 (credit is 0 while an item is open).


@life("both_40_01", "40 before 1: a short frame that the status does not allow either")
def _(a):
    a.no(40, read(0, 0)[:-2], payment(0, 1) + "00", cancel_stopped(0)[:-1])
    a.no(1, read(0, 0), payment(0, 1), cancel_stopped(0))


@life("both_01_02", "1 before 2, 3, 4, 5, 6 and 11")
def _(a):
    a.no(1, read(36_495, 0), payment(36_495, 1), cancel_stopped(65_535), payment(0, 0), resumption(0, 10_000, 3), read(0, 10_000), missed(0, (5, 5)))
    a(opening(10, 0, 4))
    a.no(1, opening(36_495, 0, 4), opening(9, 0, 4), opening(10, 0, 3), opening(10, 10_000, 4), resumption(9, 0, 4), cancel_stopped(9))


@life("both_02_04", "2 before 4, 5, 6 and 11 (2 and 3 never meet)")
def _(a):
    a.no(2, opening(36_495, 0, 3), opening(36_495, 10_000, 4))
    a(opening(0, 0, 4))
    a.no(2, read(36_495, 10_000), missed(36_495, (5, 5)), change(36_495, 0, 0, 6), payment(36_495, 0), read(36_495, 5_001))


@life("both_03_04", "3 before 4, 5, 6, 7, 9 and 11")
def _(a):
    a(opening(10, 0, 4))
    a(read(10, 0), volumes=[0], net=31, unpaid=31)
    a.no(3, change(9, 0, 0, 3), read(9, 10_000), missed(9, (5, 5)), missed(9), read(9, 5_001), payment(9, 0))
    a.open(price_item(10, 31))


@life("both_04_05", "4 before 5 and 9")
def _(a):
    a.no(4, opening(0, 10_000, 3), opening(0, 100_000, 6))
    a(opening(0, 0, 4))
    a.no(4, change(0, 10_000, 0, 3), change(0, 0, 2**32 - 1, 6), change(0, 5_001, 0, 0))
    a(stop(0, 0), volumes=[0], net=31, unpaid=31)
    a.no(4, resumption(0, 10_000, 3))
    a.open(price_item(0, 31))


@life("both_05_06", "5 before 6, 7 and 9")
def _(a):
    a(opening(0, 0, 4))
    a.no(5, read(0, 10_000, (5, 5)), stop(0, 10_000, (300_010, 0)), cancellation(0, 10_000, (0, 300_010)))
    a.no(5, change(0, 5_001, 10_000, 4))
    a(read(0, 0), volumes=[0], net=31, unpaid=31)
    a.no(5, read(0, 10_000))
    a.open(price_item(0, 31))


@life("both_06_07", "6 before 7, 8 and 9")
def _(a):
    a(opening(0, 0, 4))
    for n in range(6):
        a(absent(n), net=31, unpaid=31 * (n + 1))
    bad = (300_010, 75_000)
    a.no(6, missed(5, bad), absent(5, bad), read(5, 0, bad), missed(6, bad), absent(6, bad), read(6, 5_001, bad))
    a.open(*(price_item(day, 31) for day in range(6)))


@life("both_07_08", "7 before 8: a seventh miss on the day of the sixth")
def _(a):
    a(opening(0, 0, 4))
    for n in range(6):
        a(missed(n), net=31, unpaid=31 * (n + 1))
    a.no(7, missed(5), absent(5))
    a.no(8, missed(6), absent(6))
    a.open(*(price_item(day, 31) for day in range(6)))


@life("both_07_09", "7 before 9 and 10: a second reading of the day with too great an advance or pool")
def _(a):
    a(opening(0, 0, 5))
    a(read(0, 0), volumes=[0], net=31, unpaid=31)
    a.no(7, read(0, 50_001), stop(0, 50_001), cancellation(0, 50_001))
    a(change(0, 50_000, 0, 5), unpaid=31)
    a.no(7, read(0, 50_000))
    a.no(9, read(1, 50_001))
    a.no(10, read(1, 50_000))
    a.open(price_item(0, 31))


@life("both_08_12", "8 before 12: a seventh miss where 72 items stand open")
def _(a):
    a(opening(0, 0, 4))
    days_at_zero(a, 0, 65)
    for n in range(6):
        a(missed(66 + n), net=31, unpaid=31 * (67 + n))
    a.no(8, missed(72), absent(72))
    a.no(7, missed(71))
    a.no(12, read(72, 0))
    a.open(*(price_item(day, 31) for day in range(72)))


@life("both_09_10", "9 before 10: an advance above half the span that fills the pool too")
def _(a):
    a(opening(0, 0, 5))
    a(change(0, 50_000, 0, 5))
    a.no(9, read(1, 50_001), change(1, 50_001, 0, 5), stop(1, 99_999), cancellation(1, 50_001))
    a.no(10, read(1, 50_000), change(1, 50_000, 0, 5))


@life("both_10_12", "9 and 10 before 12, where 72 items stand open; 05 adds no item and is accepted")
def _(a):
    a(opening(0, 0, 5))
    days_at_zero(a, 0, 71)
    a.no(9, read(72, 50_001))
    a(change(72, 50_000, 0, 5), unpaid=2_232)
    a.no(10, read(72, 50_000))
    a.no(12, read(72, 49_999))
    a.open(*(price_item(day, 31) for day in range(72)))


@life("both_11_13", "11 before 13: payments of 0 and 100,000,000 where the credit is full")
def _(a):
    a(opening(0, 0, 4))
    credit_to_the_limit(a, 0)
    a.no(11, payment(0, 0), payment(0, 100_000_000))
    a.no(13, payment(0, 99_999_999))


@life("declined_then_accepted", "a declined call leaves dial, pool, day, estimates and money as they were: each is followed by one that shows it")
def _(a):
    a.no(5, opening(9, 10_000, 4))
    a(opening(0, 100, 4))  # status and day
    a.no(9, read(29, 5_101))
    a(read(29, 130), volumes=[30], net=6_650, unpaid=6_650)  # dial
    a.no(4, change(35, 140, 0, 6))
    a.no(5, change(35, 140, 10_000, 4))
    a(change(34, 140, 200, 4), unpaid=6_650)  # day; pool 10
    a.no(6, missed(59, (83_135, 75_000)))
    a(missed(58), estimated=30, net=6_650, unpaid=13_300)  # day; 29 days
    a.no(7, missed(58), read(58, 211))
    a.no(11, payment(75, 0))
    a(payment(70, 6_650), unpaid=6_650)  # day; due on day 59, 11 days late: 6,158 × 11 × 274 = 18.6
    a.no(3, read(69, 211))
    a.no(9, read(88, 5_201))
    # Pool 10 + 11 = 21: 10 in 29 days 2,900 and 11 in 30 days 3,095; 5,995 − 6,650 = −655, off the item of day 58.
    a(read(88, 211), volumes=[10, 11], net=-655, interest=18, unpaid=6_013)
    a.no(1, cancel_stopped(90))
    a(payment(89, 1), unpaid=6_012)
    a.open(price_item(58, 5_994), interest_item(88, 18))


@life("same_again", "the very call that was declined with 1, 9 and 8 is accepted once its cause is gone (12 and 13: number_12, number_13)")
def _(a):
    a.no(1, read(29, 20), payment(29, 1))
    a(opening(0, 0, 4))
    a(read(29, 20), volumes=[20], net=4_850, unpaid=4_850)
    a(payment(29, 1), unpaid=4_849)
    a.no(9, read(59, 5_021))
    a(change(40, 1_020, 1_020, 4), unpaid=4_849)  # 1,000
    a(read(59, 5_021), volumes=[5_001], net=852_220, unpaid=857_069)  # + 4,001; 2,050 + 170 × 5,001
    for n in range(1, 7):
        a(absent(59 + n), net=31, unpaid=857_069 + 31 * n)
    a.no(8, absent(67))
    a(read(66, 5_021), volumes=[0, 0, 0, 0, 0, 0, 0], net=31, unpaid=857_286)
    a(absent(67), net=31, unpaid=857_317)
    a.open(price_item(29, 4_849), price_item(59, 852_220), *(price_item(day, 31) for day in range(60, 68)))


# --- The last days ------------------------------------------------------------


@life("last_day", "day 36,094 is the last: 27 October 2098, due 26 November 2098; the next closing there is 7, day 36,095 is 2")
def _(a):
    a(opening(36_094, 0, 4))
    a(read(36_094, 0), volumes=[0], net=31, unpaid=31)
    a.no(7, read(36_094, 0))
    a.no(2, read(36_095, 0))
    a(payment(36_094, 1), unpaid=30)
    a.open("022098102720981126000000000000001e")


@life("whole_century", "one period of 36,095 days, the longest: 0 m³, 95,000 × 36,095 / 30 = 114,300,833 sen, 1,143,008 yen")
def _(a):
    a(opening(0, 0, 4))
    a(read(36_094, 0), volumes=[0], net=1_143_008, unpaid=1_143_008)
    a.open("02209810272098112600000000" + f"{1_143_008:08x}")


@life("century_late", "an item of day 0 settled on day 36,094, 36,064 days late")
def _(a):
    # 0 m³ in 1 day 31, body 29; 29 × 36,064 × 274 = 286,564,544, so 286. 36,094 days of 0 m³: 95,000 × 36,094 / 30 = 114,297,666 sen.
    a(opening(0, 0, 4))
    a(read(0, 0), volumes=[0], net=31, unpaid=31)
    a(payment(36_094, 31))
    a(cancellation(36_094, 0), volumes=[0], net=1_142_976, interest=286, unpaid=1_143_262)
    a.open(interest_item(36_094, 286), price_item(36_094, 1_142_976))


@life("dates", "obligation and due dates over leap days and turns of the year, 31 each")
def _(a):
    a(opening(28, 0, 4))
    # 29 January, 29 February and 31 December 2000, 28 February 2001, 29 February 2004, 26 October 2098.
    days = [28, 59, 365, 424, 1_520, 36_093]
    # Prices of 0 m³: 1 day 31; 31 days 950; 306 days 9,690; 59 days 95,000 × 59 / 30 = 186,833; 1,096 days 3,470,666;
    # 34,573 days 109,481,166 sen.
    prices = [31, 950, 9_690, 1_868, 34_706, 1_094_811]
    for n, (day, price) in enumerate(zip(days, prices)):
        a(read(day, 0), volumes=[0], net=price, unpaid=sum(prices[: n + 1]))
    a.open(
        "022000012920000228" + f"{31:016x}",
        "022000022920000330" + f"{950:016x}",
        "022000123120010130" + f"{9_690:016x}",
        "022001022820010330" + f"{1_868:016x}",
        "022004022920040330" + f"{34_706:016x}",
        "022098102620981125" + f"{1_094_811:016x}",
    )


# --- Lines ----------------------------------------------------------------------

OPENING = opening(0, 100, 4)
READING = read(29, 120)
PAYMENT = payment(40, 5_000)
EVERY_KIND = [
    opening(0, 100, 4),
    read(29, 120),
    missed(29),
    absent(29),
    change(29, 120, 0, 4),
    stop(29, 120),
    resumption(29, 120, 4),
    cancellation(29, 120),
    payment(40, 5_000),
    cancel_stopped(29),
]


def rest_of_example(a):
    """The example goes on as if nothing had been there."""
    a(READING, volumes=[20], net=4_850, unpaid=4_850)
    a(PAYMENT, credit=150)


@life("text_empty", "an empty file: no line, nothing printed")
def _(a):
    pass


@life("text_one_lf", "a file of one LF: one empty line, 40")
def _(a):
    a.no(40, "")


@life("text_two_lf", "two LF in a row: an empty line between two frames, 40")
def _(a):
    a(OPENING)
    a.no(40, "")
    a(READING, volumes=[20], net=4_850, unpaid=4_850)
    a.no(40, "", "")
    a(PAYMENT, credit=150)
    a.no(40, "")


@life("text_no_final_lf", "a last line without LF is a line")
def _(a):
    a(OPENING)
    a(READING, volumes=[20], net=4_850, unpaid=4_850, end=b"")
    a.open(price_item(29, 4_850))


@life("text_one_line", "a file of one frame without LF")
def _(a):
    a(OPENING, end=b"")


@life("text_no_final_lf_40", "a last line without LF that is no frame: 40")
def _(a):
    a(OPENING)
    a(READING, volumes=[20], net=4_850, unpaid=4_850)
    a("0", 40, end=b"")
    a.open(price_item(29, 4_850))


@life("text_cr", "CR before LF is another character: 40")
def _(a):
    a.no(40, OPENING + "\r", "\r")
    a(OPENING)
    a.no(40, READING + "\r", "\r" + READING, READING[:15] + "\r" + READING[15:])
    rest_of_example(a)


@life("text_cr_only", "CR in place of LF ends no line: one long line, 40")
def _(a):
    a(OPENING + "\r" + READING + "\r" + PAYMENT + "\r", 40, end=b"")


@life("text_upper", "upper-case hexadecimal: 40")
def _(a):
    a(OPENING)
    a.no(40, READING.upper(), "02001D00000078000144ba000124f8", "0A0000", "0901F400000001")
    rest_of_example(a)


@life("text_spaces", "spaces and tabs before, behind and inside a frame: 40")
def _(a):
    a.no(40, " " + OPENING, OPENING + " ", OPENING[:2] + " " + OPENING[2:], " ", "\t" + OPENING, OPENING + "\t", " " + OPENING[1:])
    a(OPENING)
    a.no(40, READING[:-1] + " ", READING[:2] + "   " + READING[5:], "+" + READING[1:])
    rest_of_example(a)


@life("text_nul", "NUL bytes: 40")
def _(a):
    a.no(40, b"\0", b"\0" * 16, OPENING.encode() + b"\0", b"\0" + OPENING.encode(), OPENING[:-1].encode() + b"\0")
    a(OPENING)
    a.no(40, READING.encode().replace(b"0", b"\0"))
    rest_of_example(a)


@life("text_high", "bytes above 127: 40, also where their low seven bits are a digit's")
def _(a):
    a.no(40, b"\xb0" + OPENING[1:].encode(), bytes(byte | 128 for byte in OPENING.encode()), b"\xff" * 16, b"\x80")
    a(OPENING)
    a.no(40, "０".encode() + READING[1:].encode(), READING.encode() + b"\xa0", "\ufeff".encode() + READING.encode(), bytes(range(128, 158)))
    rest_of_example(a)


@life("text_neighbours", "the characters beside 0 to 9 and a to f, and all below 32 but LF: 40")
def _(a):
    a(OPENING)
    for character in "/:@G`g":
        a.no(40, READING[:-1] + character, character + READING[1:], READING[:14] + character + READING[15:])
    for byte in range(32):
        if byte != 10:
            a.no(40, READING[:-1].encode() + bytes([byte]))
    rest_of_example(a)


@life("text_lengths", "lines of 29, 30 and 31 characters: 40, a frame, 40")
def _(a):
    a(OPENING)
    a.no(40, READING[:29], READING + "0", READING + "8", "0" + READING, "0" * 29, "0" * 30, "0" * 31, "0" * 32)
    rest_of_example(a)


@life("text_byte_short", "each kind of frame a byte short: 40")
def _(a):
    a.no(40, *(line[:-2] for line in EVERY_KIND))
    a(OPENING)
    a.no(40, *(line[:-2] for line in EVERY_KIND))
    rest_of_example(a)


@life("text_byte_long", "each kind of frame a byte long: 40")
def _(a):
    a.no(40, *(line + "00" for line in EVERY_KIND))
    a(OPENING)
    a.no(40, *(line + "00" for line in EVERY_KIND))
    rest_of_example(a)


@life("text_digit_short", "each kind of frame a digit short: 40")
def _(a):
    a.no(40, *(line[:-1] for line in EVERY_KIND))
    a(OPENING)
    a.no(40, *(line[:-1] for line in EVERY_KIND))
    rest_of_example(a)


@life("text_digit_long", "each kind of frame a digit long: 40")
def _(a):
    a.no(40, *(line + "0" for line in EVERY_KIND))
    a(OPENING)
    a.no(40, *(line + "0" for line in EVERY_KIND))
    rest_of_example(a)


@life("text_other_kinds", "a frame of each kind with the length of each other kind: 40; kinds 00, 0b, 10 and ff: 40")
def _(a):
    a(OPENING)
    for line in EVERY_KIND:
        for length in (6, 14, 16, 22, 24, 30):
            if length != len(line):
                a.no(40, line[:2] + "0" * (length - 2))
    for kind in ("00", "0b", "10", "1a", "a0", "ff"):
        for length in (6, 14, 16, 22, 24, 30):
            a.no(40, kind + "0" * (length - 2))
    rest_of_example(a)


@life("text_long_line", "lines of 61 and 1,000 characters, and two frames on a line: 40")
def _(a):
    a(OPENING)
    a.no(40, READING + READING, READING + " " + READING, "0" * 61, "01" * 500)
    rest_of_example(a)


# --- Closed days ------------------------------------------------------------------
# Interest below is written as above; 4,850 has the body 4,491.


@life("example_closed", "its first two lines with 29 February and 1 March 2000 closed: due 2 March")
def _(a):
    a.close(59, 60)
    a(OPENING)
    a(READING, volumes=[20], net=4_850, unpaid=4_850)
    a.open("02200001302000030200000000000012f2")


@life("closed_empty", "an empty file is an empty list: due 29 February")
def _(a):
    a.close()
    a(OPENING)
    a(READING, volumes=[20], net=4_850, unpaid=4_850)
    a.open(price_item(29, 4_850, 59))


@life("closed_no_final_lf", "a file whose last line lacks its LF: due on day 61")
def _(a):
    a.closed = b"003b\n003c"
    a(OPENING)
    a(READING, volumes=[20], net=4_850, unpaid=4_850)
    a.open(price_item(29, 4_850, 61))


@life("closed_one_line", "a file of four digits: due on day 60")
def _(a):
    a.closed = b"003b"
    a(OPENING)
    a(READING, volumes=[20], net=4_850, unpaid=4_850)
    a.open(price_item(29, 4_850, 60))


@life("closed_runs", "a run that begins before day + 30, one closed day, closed days behind it, before it, and on both sides of a gap")
def _(a):
    a.close(57, 58, 59, 60, 89, 120, 121, 147, 148, 179, 181)
    a(opening(0, 0, 4))
    for n in range(1, 6):
        a(read(30 * n - 1, 20 * n), volumes=[20], net=4_850, unpaid=4_850 * n)
    a.open(
        price_item(29, 4_850, 61),
        price_item(59, 4_850, 90),
        price_item(89, 4_850, 119),
        price_item(119, 4_850, 149),
        price_item(149, 4_850, 180),
    )


@life("closed_same_day", "items of two days due on the same day, behind a run over both")
def _(a):
    # 1 day of 0 m³ 31 each.
    a.close(30, 31, 32)
    a(opening(0, 0, 4))
    days_at_zero(a, 0, 3)
    a.open(price_item(0, 31, 33), price_item(1, 31, 33), price_item(2, 31, 33), price_item(3, 31, 33))


def days_59_to_458(a):
    """400 closed days in a run, and items due on day 58, 59, 458 and 459 if none were closed: 17,547 open."""
    # 29 days of 20 m³ 4,850; 1 day of 0 m³ 31; 399 days of 0 m³: 95,000 × 399 / 30 = 1,263,500 sen.
    a.close(*range(59, 459))
    a(opening(0, 0, 4))
    a(read(28, 20), volumes=[20], net=4_850, unpaid=4_850)
    a(read(29, 20), volumes=[0], net=31, unpaid=4_881)
    a(read(428, 20), volumes=[0], net=12_635, unpaid=17_516)
    a(read(429, 20), volumes=[0], net=31, unpaid=17_547)


@life("closed_400", "400 closed days in a run: the day before it stays, its first day moves by 400, its last by one, the day behind it stays")
def _(a):
    days_59_to_458(a)
    a.open(price_item(28, 4_850, 58), price_item(29, 31, 459), price_item(428, 12_635, 459), price_item(429, 31, 459))


@life("closed_400_paid", "the same paid on day 469, 411 days late for the first and 10 for the others: 505")
def _(a):
    # 4,491 × 411 × 274 = 505.7. 41 days of 0 m³: 95,000 × 41 / 30 = 129,833 sen.
    days_59_to_458(a)
    a(payment(469, 17_547))
    a(read(470, 20), volumes=[0], net=1_298, interest=505, unpaid=1_803)
    a.open(interest_item(470, 505), price_item(470, 1_298))


@life("closed_400_late", "the same paid on day 470, 11 days late for the others: 12,635 bears 35 more, 31 none")
def _(a):
    # 4,491 × 412 × 274 = 506.98; 12,635 − 935 = 11,700: 11,700 × 11 × 274 = 35.3; 29 × 11 × 274 = 0.09.
    # 42 days of 0 m³: 95,000 × 42 / 30 = 133,000 sen.
    days_59_to_458(a)
    a(payment(470, 17_547))
    a(read(471, 20), volumes=[0], net=1_330, interest=541, unpaid=1_871)
    a.open(interest_item(471, 541), price_item(471, 1_330))


@life("closed_last_day", "an item of day 36,094 behind 400 closed days: due on day 36,524, 31 December 2099")
def _(a):
    a.close(*range(36_124, 36_524))
    a(opening(36_094, 0, 4))
    a(read(36_094, 0), volumes=[0], net=31, unpaid=31)
    a.no(2, read(36_095, 0), payment(36_095, 1))
    a.open("022098102720991231000000000000001f")


@life("closed_last_day_too", "day 36,524 closed and 399 days from 36,124 on: due on day 36,523, 30 December 2099")
def _(a):
    a.close(*range(36_124, 36_523), 36_524)
    a(opening(36_094, 0, 4))
    a(read(36_094, 0), volumes=[0], net=31, unpaid=31)
    a.open("022098102720991230000000000000001f")


@life("closed_first_and_last", "days 0 and 36,524 closed: no due day is moved")
def _(a):
    # 36,094 days of 0 m³: 114,297,666 sen.
    a.close(0, 36_524)
    a(opening(0, 0, 4))
    a(read(0, 0), volumes=[0], net=31, unpaid=31)
    a(read(36_094, 0), volumes=[0], net=1_142_976, unpaid=1_143_007)
    a.open(price_item(0, 31, 30), price_item(36_094, 1_142_976, 36_124))


@life("closed_late", "4,850 settled 10 days late from a moved day: 0; 11 days late: 13, posted by the next closing")
def _(a):
    # Due on day 62 in place of 59, and on 90 in place of 89. 4,491 × 11 × 274 = 13.5.
    # From the days before they moved it would be 13 days, 15, and 12 days, 14.
    a.close(59, 60, 61, 89)
    a(opening(0, 0, 4))
    a(read(29, 20), volumes=[20], net=4_850, unpaid=4_850)
    a(read(59, 40), volumes=[20], net=4_850, unpaid=9_700)
    a(payment(72, 4_850), unpaid=4_850)
    a(read(89, 40), volumes=[0], net=950, unpaid=5_800)
    a(payment(101, 4_850), unpaid=950)
    a(read(119, 40), volumes=[0], net=950, interest=13, unpaid=1_913)
    a.open(price_item(89, 950), interest_item(119, 13), price_item(119, 950))


@life("closed_not_late", "4,850 settled 10 and 11 days after the day it was due on but for closed days: 0 both times")
def _(a):
    # Due on day 60 in place of 59, and on 90 in place of 89: 9 and 10 days late.
    a.close(59, 89)
    a(opening(0, 0, 4))
    a(read(29, 20), volumes=[20], net=4_850, unpaid=4_850)
    a(read(59, 40), volumes=[20], net=4_850, unpaid=9_700)
    a(payment(69, 4_850), unpaid=4_850)
    a(read(89, 40), volumes=[0], net=950, unpaid=5_800)
    a(payment(100, 4_850), unpaid=950)
    a(read(119, 40), volumes=[0], net=950, unpaid=1_900)
    a.open(price_item(89, 950), price_item(119, 950))


@life("closed_late_by_net", "a net below zero settles an item 10 days late from a moved day: 0; a day later it would be 9")
def _(a):
    # 6,650 of day 59 is due on day 109 in place of 89. 02 on day 119 with net −3,800 settles it, as in net_settles_late.
    # 3,288 × 11 × 274 = 9.9.
    a.close(*range(89, 109))
    one_miss(a)
    a(payment(60, 9_520), unpaid=3_780)
    a(read(119, 130), volumes=[0, 0], net=-3_800, credit=20)
    a(read(149, 130), volumes=[0], net=950, unpaid=930)
    a.open(price_item(149, 930))


@life("closed_interest", "interest and price posted by one closing, due on day 121 in place of 119")
def _(a):
    # 4,850 due on day 59, paid on day 70: 13. 60 days of 0 m³ 1,900.
    a.close(119, 120)
    a(opening(0, 0, 4))
    a(read(29, 20), volumes=[20], net=4_850, unpaid=4_850)
    a(payment(70, 4_850))
    a(read(89, 20), volumes=[0], net=1_900, interest=13, unpaid=1_913)
    a.open(interest_item(89, 13, 121), price_item(89, 1_900, 121))


@life("closed_interest_cancelled", "a payment on a cancelled account posts 13, due on day 102 in place of 100")
def _(a):
    a.close(100, 101)
    a(opening(0, 0, 4))
    a(cancellation(29, 20), volumes=[20], net=4_850, unpaid=4_850)
    a(payment(70, 4_850), interest=13, unpaid=13)
    a.open(interest_item(70, 13, 102))


@life("closed_interest_stopped", "0a posts 13, due on day 113 in place of 110")
def _(a):
    a.close(110, 111, 112)
    a(opening(0, 0, 4))
    a(stop(29, 20), volumes=[20], net=4_850, unpaid=4_850)
    a(payment(70, 4_850))
    a(cancel_stopped(80), interest=13, unpaid=13)
    a.open(interest_item(80, 13, 113))


@life("closed_interest_of_08", "08 posts interest held and interest of its own, due on day 150 in place of 149")
def _(a):
    # As cancelled_with_both.
    a.close(149)
    one_miss(a)
    a(payment(80, 9_520), unpaid=3_780)
    a(cancellation(119, 130), volumes=[0, 0], net=-3_800, interest=62, unpaid=42)
    a.open(interest_item(119, 15, 150), interest_item(119, 27, 150))


def all_declined(a):
    """Frames, junk and empty lines, 14 each; the last without LF."""
    a.no(14, "", OPENING, READING, "opening", PAYMENT, "", READING.upper(), OPENING + "\r", "0" * 61)
    a.no(14, opening(36_095, 0, 3), cancel_stopped(0))
    a(OPENING, 14, end=b"")


# Name, what is wrong with the file, and its bytes.
BROKEN = [
    ("equal", "two equal entries", closed_file([59, 59])),
    ("equal_last", "400 entries, the last two equal", closed_file([*range(59, 458), 457])),
    ("falling", "entries that fall", closed_file([60, 59])),
    ("falling_last", "400 entries, the last below the others", closed_file([*range(59, 458), 58])),
    ("above", "an entry of 36,525", closed_file([59, 36_525])),
    ("above_all", "an entry of 65,535", closed_file([65_535])),
    ("401", "401 entries in a run", closed_file(range(59, 460))),
    ("401_apart", "401 entries, 90 days apart", closed_file(range(0, 401 * 90, 90))),
    ("1000", "1,000 entries in a run", closed_file(range(1_000))),
    ("3_digits", "a line of three digits", b"03b\n"),
    ("5_digits", "a line of five digits", b"0003b\n"),
    ("8_digits", "two days on a line", b"003b003c\n"),
    ("last_short", "a last line of three digits, without LF", b"003b\n003"),
    ("upper", "an upper-case digit", b"003B\n"),
    ("letter", "a letter that is no digit", b"003g\n"),
    ("prefix", "0x before the digits", b"0x3b\n"),
    ("cr", "CR before LF", b"003b\r\n003c\r\n"),
    ("cr_only", "CR in place of LF", b"003b\r003c\r"),
    ("blank_before", "a blank before the digits", b" 003b\n"),
    ("blank_behind", "a blank behind the digits", b"003b \n"),
    ("blank_inside", "a blank in place of a digit", b"00 b\n"),
    ("tab", "a tab behind the digits", b"003b\t\n"),
    ("nul", "a NUL byte", b"003\0\n"),
    ("high", "a byte above 127", b"003\xe2\n"),
    ("mark", "a byte order mark", b"\xef\xbb\xbf003b\n"),
    ("one_lf", "one LF alone", b"\n"),
    ("empty_first", "an empty line before the others", b"\n003b\n"),
    ("empty_between", "an empty line between others", b"003b\n\n003c\n"),
    ("empty_last", "an empty line behind the others", b"003b\n\n"),
]


def add_broken(name, wrong, file):
    @life(f"closed_bad_{name}", f"14: {wrong}")
    def _(a):
        a.closed = file
        all_declined(a)


for broken in BROKEN:
    add_broken(*broken)


@life("closed_bad_no_input", "a broken list and an input of no bytes: nothing printed")
def _(a):
    a.close(59, 59)


@life("closed_bad_one_lf_input", "a broken list and an input of one LF: one empty line, 14")
def _(a):
    a.close(59, 59)
    a.no(14, "")


# --- Consumption tax at ten per cent ------------------------------------------------
# Day 7,213 is 1 October 2019. Change of the unit before it and from it on, and the units where they count below:
#   LOWER    8.856             9.02         18,000 −: 17,991 and 17,990
#   HIGHER   150.552           153.34       18,000 +: 18,150 and 18,153
#   FREE     7,350.48          7,486.6      17,000 −: 9,649 and 9,513
#   DEAR     19,359.216        19,717.72    19,500 +: 38,859 and 39,217; 18,000 +: 37,359 and 37,717; 17,000 +: 36,359 and 36,717
# Prices over 25 to 35 days at DEAR, in sen, before it and from it on:
#   10 m³ 95,000 + 388,590 = 483,590          95,000 + 392,170 = 487,170
#   11 m³ 95,000 + 427,449 = 522,449          95,000 + 431,387 = 526,387
#   14 m³ 95,000 + 544,026 = 639,026          95,000 + 549,038 = 644,038
#   15 m³ 95,000 + 582,885 = 677,885          95,000 + 588,255 = 683,255
#   16 m³ 95,000 + 621,744 = 716,744          95,000 + 627,472 = 722,472
#   17 m³ 95,000 + 660,603 = 755,603          95,000 + 666,689 = 761,689
#   30 m³ 125,000 + 1,120,770 = 1,245,770     125,000 + 1,131,510 = 1,256,510
#   80 m³ 125,000 + 2,988,720 = 3,113,720     125,000 + 3,017,360 = 3,142,360
# Bodies before it and from it on: 4,850 − 359 = 4,491 and 4,850 − 440 = 4,410; 15,650 − 1,159 = 14,491 and 15,650 − 1,422 = 14,228.


@life("tax_units_lower_7212", "77 m³ at fuel average 82,970, closing on day 7,212: unit 17,991, 15,103 (by 9.02 it would be 17,990, 15,102)")
def _(a):
    # 125,000 + 17,991 × 77 = 1,510,307 sen.
    a(opening(7_183, 0, 4))
    a(read(7_212, 77, LOWER), volumes=[77], net=15_103, unpaid=15_103)
    a.open(price_item(7_212, 15_103))


@life("tax_units_lower_7213", "the same on day 7,213: unit 17,990, 15,102 (by 8.856, or with 9.02 cut before it is taken off, 17,991, 15,103)")
def _(a):
    # 125,000 + 17,990 × 77 = 1,510,230 sen. 80 m³ would not show it: 1,564,280 and 1,564,200 sen, 15,642 yen both.
    a(opening(7_184, 0, 4))
    a(read(7_213, 77, LOWER), volumes=[77], net=15_102, unpaid=15_102)
    a(read(7_243, 157, LOWER), volumes=[80], net=15_642, unpaid=30_744)
    a.open(price_item(7_213, 15_102), price_item(7_243, 15_642))


@life("tax_units_higher_7212", "80 m³ at fuel average 84,850, closing on day 7,212: unit 18,150, 15,770 (by 9.02 it would be 18,153, 15,772)")
def _(a):
    # 125,000 + 18,150 × 80 = 1,577,000 sen.
    a(opening(7_183, 0, 4))
    a(read(7_212, 80, HIGHER), volumes=[80], net=15_770, unpaid=15_770)
    a.open(price_item(7_212, 15_770))


@life("tax_units_higher_7213", "the same on day 7,213: unit 18,153, 15,772 (by 8.856 it would be 18,150, 15,770)")
def _(a):
    # 125,000 + 18,153 × 80 = 1,577,240 sen.
    a(opening(7_184, 0, 4))
    a(read(7_213, 80, HIGHER), volumes=[80], net=15_772, unpaid=15_772)
    a.open(price_item(7_213, 15_772))


@life("tax_closings", "02, 03, 06 and 08 from day 7,213 on, 77 m³ each: 15,102 each (by 8.856 it would be 15,103); 04 bills no unit")
def _(a):
    # As tax_units_lower_7213. The estimate of 77 m³ stands.
    a(opening(7_184, 0, 4))
    a(read(7_213, 77, LOWER), volumes=[77], net=15_102, unpaid=15_102)
    a(missed(7_243, LOWER), estimated=77, net=15_102, unpaid=30_204)
    a(absent(7_273, LOWER), net=950, unpaid=31_154)
    a(stop(7_303, 231, LOWER), volumes=[77, 0, 77], net=15_102, unpaid=46_256)
    a(resumption(7_304, 500, 4), unpaid=46_256)
    a(cancellation(7_333, 577, LOWER), volumes=[77], net=15_102, unpaid=61_358)
    a.open(*(price_item(day, 950 if day == 7_273 else 15_102) for day in (7_213, 7_243, 7_273, 7_303, 7_333)))


@life("tax_body_15650_7212", "15,650 of day 7,212 settled 11 days late: 43 (by 10/110 it would be 42)")
def _(a):
    # Due on day 7,242. 14,491 × 11 × 274 = 43.7. 60 days of 0 m³ 1,900.
    a(opening(7_183, 0, 4))
    a(read(7_212, 80), volumes=[80], net=15_650, unpaid=15_650)
    a(payment(7_253, 15_650))
    a(read(7_272, 80), volumes=[0], net=1_900, interest=43, unpaid=1_943)
    a.open(interest_item(7_272, 43), price_item(7_272, 1_900))


@life("tax_body_15650_7213", "15,650 of day 7,213, at k 0 what it was before, settled 11 days late: 42 (by 8/108 it would be 43)")
def _(a):
    # Due on day 7,243. 14,228 × 11 × 274 = 42.9.
    a(opening(7_184, 0, 4))
    a(read(7_213, 80), volumes=[80], net=15_650, unpaid=15_650)
    a(payment(7_254, 15_650))
    a(read(7_273, 80), volumes=[0], net=1_900, interest=42, unpaid=1_942)
    a.open(interest_item(7_273, 42), price_item(7_273, 1_900))


@life("tax_body_4850_7212", "4,850 of day 7,212 settled 14 days late: 17 (by 10/110 it would be 16)")
def _(a):
    # 4,491 × 14 × 274 = 17.2.
    a(opening(7_183, 0, 4))
    a(read(7_212, 20), volumes=[20], net=4_850, unpaid=4_850)
    a(payment(7_256, 4_850))
    a(read(7_272, 20), volumes=[0], net=1_900, interest=17, unpaid=1_917)
    a.open(interest_item(7_272, 17), price_item(7_272, 1_900))


@life("tax_body_4850_7213", "4,850 of day 7,213 settled 14 days late: 16 (by 8/108 it would be 17)")
def _(a):
    # 4,410 × 14 × 274 = 16.9.
    a(opening(7_184, 0, 4))
    a(read(7_213, 20), volumes=[20], net=4_850, unpaid=4_850)
    a(payment(7_257, 4_850))
    a(read(7_273, 20), volumes=[0], net=1_900, interest=16, unpaid=1_916)
    a.open(interest_item(7_273, 16), price_item(7_273, 1_900))


@life("tax_settled_later", "15,650 of day 7,152, due on day 7,182 and settled on day 7,213: 123 (by the settling day's rate it would be 120)")
def _(a):
    # 31 days late: 14,491 × 31 × 274 = 123.09; 14,228 × 31 × 274 = 120.9. 90 days of 0 m³ 2,850.
    a(opening(7_123, 0, 4))
    a(read(7_152, 80), volumes=[80], net=15_650, unpaid=15_650)
    a(payment(7_213, 15_650))
    a(read(7_242, 80), volumes=[0], net=2_850, interest=123, unpaid=2_973)
    a.open(interest_item(7_242, 123), price_item(7_242, 2_850))


@life("tax_closed_day", "4,850 of day 7,182, due on day 7,213 in place of 7,212, settled 14 days late: 17 (by the due day's rate it would be 16)")
def _(a):
    # From the day before it moved it would be 15 days, 4,491 × 15 × 274 = 18.5.
    a.close(7_212)
    a(opening(7_153, 0, 4))
    a(read(7_182, 20), volumes=[20], net=4_850, unpaid=4_850)
    a(payment(7_227, 4_850))
    a(read(7_242, 20), volumes=[0], net=1_900, interest=17, unpaid=1_917)
    a.open(interest_item(7_242, 17), price_item(7_242, 1_900))


@life("tax_both_rates", "items of days 7,212 and 7,242 settled by one payment: 230 and 109, posted as 339 (both by one rate 341 or 335)")
def _(a):
    # 58 days late, 14,491 × 58 × 274 = 230.3; by 10/110 226.1. 28 days late, 14,228 × 28 × 274 = 109.2; by 8/108 111.2.
    a(opening(7_183, 0, 4))
    a(read(7_212, 80), volumes=[80], net=15_650, unpaid=15_650)
    a(cancellation(7_242, 160), volumes=[80], net=15_650, unpaid=31_300)
    a(payment(7_300, 31_300), interest=339, unpaid=339)
    a.open(interest_item(7_300, 339))


@life("tax_across", "30 days, half of them before day 7,213: 80 m³ 31,423, wholly at the new rate (by the first day's 31,137, by half and half 31,280)")
def _(a):
    # Days 7,198 to 7,227.
    a(opening(7_168, 0, 4))
    a(read(7_197, 80, DEAR), volumes=[80], net=31_137, unpaid=31_137)
    a(read(7_227, 160, DEAR), volumes=[80], net=31_423, unpaid=62_560)
    a.open(price_item(7_197, 31_137), price_item(7_227, 31_423))


@life("tax_across_7212", "80 m³ in a period that closes on day 7,212 and in the next: 31,137 and 31,423 (a day early it would be 31,423 twice)")
def _(a):
    a(opening(7_183, 0, 4))
    a(read(7_212, 80, DEAR), volumes=[80], net=31_137, unpaid=31_137)
    a(read(7_242, 160, DEAR), volumes=[80], net=31_423, unpaid=62_560)
    a.open(price_item(7_212, 31_137), price_item(7_242, 31_423))


def missed_on_7212(a):
    """30 m³ at 8.856 on day 7,182, 12,457, then a miss of 30 m³ on day 7,212, the same; all paid in time, dial 30."""
    a(opening(7_153, 0, 4))
    a(read(7_182, 30, DEAR), volumes=[30], net=12_457, unpaid=12_457)
    a(missed(7_212, DEAR), estimated=30, net=12_457, unpaid=24_914)
    a(payment(7_212, 24_914))


@life("tax_revision", "a miss of day 7,212 revised on day 7,242: net 765 (all at the new rate 815, all at the old 711), late 4 by 10/110 (by 8/108 5)")
def _(a):
    # Pool 29: 29 / 2 up = 15 for this period, by 9.02 6,832 (by 8.856 6,778); 14 for the missed one, by 8.856 6,390 (by 9.02 6,440).
    # 6,832 + 6,390 − 12,457 = 765. With the missed one taken off at the new rate too, 12,565, it would be 707.
    # 765 due on day 7,272, 26 days late; 765 − 69 = 696; 696 × 26 × 274 = 4.96. By 8/108, 765 − 56 = 709; 709 × 26 × 274 = 5.05.
    missed_on_7212(a)
    a(read(7_242, 59, DEAR), volumes=[14, 15], net=765, unpaid=765)
    a(payment(7_298, 765))
    a(read(7_302, 59), volumes=[0], net=1_900, interest=4, unpaid=1_904)
    a.open(interest_item(7_302, 4), price_item(7_302, 1_900))


@life("tax_revision_below", "the same by 06 with pool 21: 10 and 11, net −2,359 (all at the new rate −2,323, all at the old −2,398)")
def _(a):
    # 11 m³ by 9.02 5,263 (by 8.856 5,224); 10 m³ by 8.856 4,835 (by 9.02 4,871). 5,263 + 4,835 − 12,457 = −2,359.
    missed_on_7212(a)
    a(stop(7_242, 51, DEAR), volumes=[10, 11], net=-2_359, credit=2_359)


@life("tax_revision_stands", "the same by 08 with pool 60: the estimate stands, and this period's 30 m³ are 12,565 (with the estimate at the new rate 12,673)")
def _(a):
    # The estimate is 12,457 as it was billed; by 9.02 it would be 12,565, 108 more.
    missed_on_7212(a)
    a(cancellation(7_242, 90, DEAR), volumes=[30, 30], net=12_565, unpaid=12_565)
    a.open(price_item(7_242, 12_565))


@life("tax_estimates", "misses of days 7,212 and 7,213 revised by one reading: net −2,447 (by one rate for both −2,390 or −2,508)")
def _(a):
    # The miss of day 7,213: 1 day, 30 m³, 900 a month; 205,000 / 30 = 6,833; + 36,717 × 30 = 1,101,510; 1,108,343 sen.
    # Pool 50: 50 / 3 up = 17 for this period, 7,616. 33 / 2 up = 17 for the day: 6,833 + 36,717 × 17 = 631,022 sen, 6,310;
    # by 8.856, 6,833 + 36,359 × 17 = 624,936 sen, 6,249: 61 less. 16 for the first, 7,167; by 9.02, 95,000 + 39,217 × 16 = 722,472 sen,
    # 7,224: 57 more. 7,616 + 6,310 + 7,167 − 12,457 − 11,083 = −2,447.
    a(opening(7_153, 0, 4))
    a(read(7_182, 30, DEAR), volumes=[30], net=12_457, unpaid=12_457)
    a(missed(7_212, DEAR), estimated=30, net=12_457, unpaid=24_914)
    a(missed(7_213, DEAR), estimated=30, net=11_083, unpaid=35_997)
    a(read(7_243, 80, DEAR), volumes=[16, 17, 17], net=-2_447, unpaid=33_550)
    a.open(price_item(7_182, 10_010), price_item(7_212, 12_457), price_item(7_213, 11_083))


@life("tax_six_estimates", "six misses, three before day 7,213, revised at once: net −29,352 (each of 14 m³ at the wrong rate 50 more or less)")
def _(a):
    # Periods of 31, 33, 28, 28, 35, 28 and 27 days. Pool 100 as in share_six: five of 14, then 15 and 15.
    # 6,832 + 6,832 + 2 × 6,440 + 3 × 6,390 − 3 × 12,565 − 3 × 12,457 = 45,714 − 75,066 = −29,352, off 87,523 open.
    # It settles the items of days 7,120 and 7,151, due on days 7,150 and 7,181, 180 and 149 days late; 12,457 − 922 = 11,535;
    # 11,535 × 180 × 274 = 568.9 and 11,535 × 149 × 274 = 470.9, so 1,038 held (by the settling day's rate, 11,325: 558 and 462).
    # 29,352 − 24,914 = 4,438 off the item of day 7,184.
    a(opening(7_091, 0, 4))
    a(read(7_120, 30, DEAR), volumes=[30], net=12_457, unpaid=12_457)
    a(missed(7_151, DEAR), estimated=30, net=12_457, unpaid=24_914)
    a(missed(7_184, DEAR), estimated=30, net=12_457, unpaid=37_371)
    a(missed(7_212, DEAR), estimated=30, net=12_457, unpaid=49_828)
    a(missed(7_240, DEAR), estimated=30, net=12_565, unpaid=62_393)
    a(missed(7_275, DEAR), estimated=30, net=12_565, unpaid=74_958)
    a(missed(7_303, DEAR), estimated=30, net=12_565, unpaid=87_523)
    a(read(7_330, 130, DEAR), volumes=[14, 14, 14, 14, 14, 15, 15], net=-29_352, unpaid=58_171)
    a(read(7_360, 130), volumes=[0], net=950, interest=1_038, unpaid=60_159)
    a.open(
        price_item(7_184, 8_019),
        price_item(7_212, 12_457),
        *(price_item(day, 12_565) for day in (7_240, 7_275, 7_303)),
        interest_item(7_360, 1_038),
        price_item(7_360, 950),
    )


@life("tax_extremes", "fuel 0 and 300,000 on both sides of day 7,213: units 38,859, 9,649, 9,513, 39,217 (cut before it is taken off, 9,650 and 9,514)")
def _(a):
    # 100 m³: 205,000 + 964,900 = 1,169,900 and 205,000 + 951,300 = 1,156,300 sen.
    # 20 m³: 95,000 + 777,180 = 872,180 and 95,000 + 784,340 = 879,340 sen.
    a(opening(7_153, 0, 4))
    a(read(7_182, 20, DEAR), volumes=[20], net=8_721, unpaid=8_721)
    a(read(7_212, 120, FREE), volumes=[100], net=11_699, unpaid=20_420)
    a(read(7_242, 220, FREE), volumes=[100], net=11_563, unpaid=31_983)
    a(read(7_272, 240, DEAR), volumes=[20], net=8_793, unpaid=40_776)
    a.open(price_item(7_182, 8_721), price_item(7_212, 11_699), price_item(7_242, 11_563), price_item(7_272, 8_793))


@life("tax_dearest", "the dearest price: 99,999 m³ in 36,095 days at fuel 300,000, 39,183,124 (by 8.856 it would be 38,825,128)")
def _(a):
    # 99,999 × 30 / 36,095 = 83, third band; 205,000 × 36,095 / 30 = 246,649,166; + 36,717 × 99,999 = 3,918,312,449 sen.
    a(opening(0, 0, 5))
    a(change(1, 50_000, 0, 5))
    a(read(36_094, 49_999, DEAR), volumes=[99_999], net=39_183_124, unpaid=39_183_124)
    a.open(price_item(36_094, 39_183_124))


@life("tax_dearest_unit", "the most at the dearest unit, 39,217: 25,266 m³ in 36,095 days, 11,051,575 (by 8.856 10,961,123, in the second band 11,033,535)")
def _(a):
    # 25,266 × 30 = 757,980, and 21 × 36,095 = 757,995: 20 a month, first band;
    # 95,000 × 36,095 / 30 = 114,300,833; + 39,217 × 25,266 = 1,105,157,555 sen.
    a(opening(0, 0, 5))
    a(read(36_094, 25_266, DEAR), volumes=[25_266], net=11_051_575, unpaid=11_051_575)
    a.open(price_item(36_094, 11_051_575))


@life("tax_dearest_late", "99,999 m³ of day 7,213 settled on day 36,094: 267,407,530 (by 8/108 272,359,521; with the body × 100 / 110, cut, 267,407,522)")
def _(a):
    # 7,214 days, 415 a month, third band; 205,000 × 7,214 / 30 = 49,295,666; + 36,717 × 99,999 = 3,720,958,949 sen.
    # Due on day 7,243, 28,851 days late; 37,209,589 − 3,382,689 = 33,826,900; 33,826,900 × 28,851 × 274 = 267,407,530.4.
    # 28,881 days of 0 m³: 95,000 × 28,881 / 30 = 91,456,500 sen.
    a(opening(0, 0, 5))
    a(change(1, 50_000, 0, 5))
    a(read(7_213, 49_999, DEAR), volumes=[99_999], net=37_209_589, unpaid=37_209_589)
    a(payment(36_094, 37_209_589))
    a(read(36_094, 49_999), volumes=[0], net=914_565, interest=267_407_530, unpaid=268_322_095)
    a.open(interest_item(36_094, 267_407_530), price_item(36_094, 914_565))


# --- Interest on what was really late ------------------------------------------------
# A part counts with its body share × late, and one up to 10 days late adds nothing. Bodies before day 7,213:
# 15,650 − 1,159 = 14,491; 6,650 − 492 = 6,158; 16,900 − 1,251 = 15,649.


@life("parts_spring", "14,000 of 15,650 in time, the rest in spring, 123 days late: 16 (on the whole it would be 488)")
def _(a):
    # Due on day 333, 29 November 2000; the rest on day 456, 1 April. 14,491 − 14,000 = 491; 491 × 123 × 274 = 16.5.
    # 180 days of 0 m³: 95,000 × 180 / 30 = 570,000 sen.
    a(opening(274, 0, 4))
    a(read(303, 80), volumes=[80], net=15_650, unpaid=15_650)
    a(payment(330, 14_000), unpaid=1_650)
    a(payment(456, 1_650))
    a(read(483, 80), volumes=[0], net=5_700, interest=16, unpaid=5_716)
    a.open(interest_item(483, 16), price_item(483, 5_700))


@life("parts_one_sum", "the same bill paid in one sum in spring: 488, on the whole body")
def _(a):
    # 14,491 × 123 × 274 = 488.4.
    a(opening(274, 0, 4))
    a(read(303, 80), volumes=[80], net=15_650, unpaid=15_650)
    a(payment(456, 15_650))
    a(read(483, 80), volumes=[0], net=5_700, interest=488, unpaid=6_188)
    a.open(interest_item(483, 488), price_item(483, 5_700))


def cancelled_bill(a):
    """80 m³ in 30 days and a cancellation: 15,650 open, due on day 59."""
    a(opening(0, 0, 4))
    a(cancellation(29, 80), volumes=[80], net=15_650, unpaid=15_650)


@life("parts_days", "parts 10 and 11 days late: 28, on the second only (on both 42, on the whole at the end 43)")
def _(a):
    # 14,491 − 5,000 = 9,491; 9,491 × 11 × 274 = 28.6. Tax first, 10,650 × 11 × 274 = 32.1. Body and tax in proportion,
    # 5,000 − 370 = 4,630 and 9,861 of the body, 9,861 × 11 × 274 = 29.7.
    cancelled_bill(a)
    a(payment(69, 5_000), unpaid=10_650)
    a(payment(70, 10_650), interest=28, unpaid=28)
    a.open(interest_item(70, 28))


@life("parts_closed", "the same 10 and 11 days after a due day moved by two closed days: 28 (from the day before it moved 50)")
def _(a):
    # Due on day 61. From day 59, (5,000 × 12 + 9,491 × 13) × 274 = 50.2. The interest is due on day 103 in place of 102.
    a.close(59, 60, 102)
    cancelled_bill(a)
    a(payment(71, 5_000), unpaid=10_650)
    a(payment(72, 10_650), interest=28, unpaid=28)
    a.open(interest_item(72, 28, 103))


@life("parts_many", "eight parts, three of them in time or 10 days late: 78, cut once (cut at each part 76)")
def _(a):
    # 16, 21, 31, 41 and 51 days late, the last with 14,491 − 11,000 = 3,491 of the body:
    # (1,000 × 16 + 1,000 × 21 + 1,000 × 31 + 1,000 × 41 + 3,491 × 51) × 274 = 78.6. Cut at each part 4 + 5 + 8 + 11 + 48 = 76.
    cancelled_bill(a)
    a(payment(40, 4_000), unpaid=11_650)
    a(payment(59, 1_000), unpaid=10_650)
    a(payment(69, 2_000), unpaid=8_650)
    a(payment(75, 1_000), unpaid=7_650)
    a(payment(80, 1_000), unpaid=6_650)
    a(payment(90, 1_000), unpaid=5_650)
    a(payment(100, 1_000), unpaid=4_650)
    a(payment(110, 4_650), interest=78, unpaid=78)
    a.open(interest_item(110, 78))


@life("parts_small", "eight parts of 110 on eight days, each below a yen by itself: 7, once the tax is paid too")
def _(a):
    # 950 − 70 = 880 = 8 × 110. 26 to 33 days late: 110 × 236 × 274 = 7.1; the last by itself 110 × 33 × 274 = 0.99.
    a(opening(0, 0, 4))
    a(cancellation(29, 0), volumes=[0], net=950, unpaid=950)
    for n in range(1, 9):
        a(payment(84 + n, 110), unpaid=950 - 110 * n)
    a(payment(100, 70), interest=7, unpaid=7)
    a.open(interest_item(100, 7))


@life("parts_ends", "parts that end inside the body, at its end, inside the tax and with it: 95, arisen with the last")
def _(a):
    # (10,000 × 21 + 4,491 × 31) × 274 = 95.7; + 1,000 × 41 + 159 × 71 it would be 110.01. 90 days of 0 m³ 2,850.
    a(opening(0, 0, 4))
    a(read(29, 80), volumes=[80], net=15_650, unpaid=15_650)
    a(payment(80, 10_000), unpaid=5_650)
    a(payment(90, 4_491), unpaid=1_159)
    a(payment(100, 1_000), unpaid=159)
    a(read(119, 80), volumes=[0], net=2_850, unpaid=3_009)
    a(payment(130, 159), unpaid=2_850)
    a(read(149, 80), volumes=[0], net=950, interest=95, unpaid=3_895)
    a.open(price_item(119, 2_850), interest_item(149, 95), price_item(149, 950))


@life("parts_tax_late", "the body paid on its due day, the tax 941 days late: none (on the whole 3,736)")
def _(a):
    # 14,491 × 941 × 274 = 3,736.3.
    cancelled_bill(a)
    a(payment(59, 14_491), unpaid=1_159)
    a(payment(1_000, 1_159))


@life("parts_last_yen", "all of the body but a yen in time, that yen and the tax 3,650 days late: 1 (a day earlier 0)")
def _(a):
    # 1 × 3,650 × 274 = 1.0001; 1 × 3,649 × 274 = 0.9998.
    cancelled_bill(a)
    a(payment(59, 14_490), unpaid=1_160)
    a(payment(3_709, 1_160), interest=1, unpaid=1)
    a.open(interest_item(3_709, 1))


@life("parts_net", "a net of −655 pays a part 30 days late, a payment the rest 41 days late: 67 (the payment's alone 61, on the whole 69)")
def _(a):
    # 6,158 − 655 = 5,503; (655 × 30 + 5,503 × 41) × 274 = 67.2; 5,503 × 41 × 274 = 61.8; 6,158 × 41 × 274 = 69.2.
    one_miss(a)
    a(read(89, 151), volumes=[10, 11], net=-655, unpaid=12_645)
    a(payment(100, 5_995), unpaid=6_650)
    a(read(119, 151), volumes=[0], net=950, interest=67, unpaid=7_667)
    a.open(price_item(59, 6_650), interest_item(119, 67), price_item(119, 950))


@life("parts_net_settles", "06 with net −3,800 pays the rest of an item and a part of the next, both late: 69 and 118 held, posted by 0a")
def _(a):
    # The item of day 29, 21 and 60 days late: (3,000 × 21 + 3,158 × 60) × 274 = 69.2. 150 of the net are left for that of day 59,
    # 30 and 71 days late: (150 × 30 + 6,008 × 71) × 274 = 118.1. On the whole it would be 101 and 119.
    one_miss(a)
    a(payment(80, 3_000), unpaid=10_300)
    a(stop(119, 130), volumes=[0, 0], net=-3_800, unpaid=6_500)
    a(payment(160, 6_500))
    a(cancel_stopped(170), interest=187, unpaid=187)
    a.open(interest_item(170, 187))


@life("parts_net_cancelled", "08 with net −3,800 settles an item paid in part before: 35 at once (the net's alone 27, on the whole 50)")
def _(a):
    # Day 100: the item of day 29, 6,158 × 41 × 274 = 69.2, held; 2,870 of the next, 11 days late.
    # (2,870 × 11 + 3,288 × 30) × 274 = 35.7; 3,288 × 30 × 274 = 27.03. 20 of the net are left for the 69.
    one_miss(a)
    a(payment(100, 9_520), unpaid=3_780)
    a(cancellation(119, 130), volumes=[0, 0], net=-3_800, interest=104, unpaid=84)
    a.open(interest_item(119, 49), interest_item(119, 35))


@life("parts_cancelled", "parts before the cancellation, by its net and after it: 50 at once; the next item in two parts: 132")
def _(a):
    # The item of day 29, 21, 30 and 41 days late: (3,000 × 21 + 655 × 30 + 2,503 × 41) × 274 = 50.8. 2,005 are left for that of
    # day 59, 11 and 111 days late: (2,005 × 11 + 4,153 × 111) × 274 = 132.4. On the whole it would be 69 and 187.
    one_miss(a)
    a(payment(80, 3_000), unpaid=10_300)
    a(cancellation(89, 151), volumes=[10, 11], net=-655, unpaid=9_645)
    a(payment(100, 5_000), interest=50, unpaid=4_695)
    a(payment(200, 4_695), interest=132, unpaid=132)
    a(payment(900, 132))


@life("parts_credit", "5,000 of credit used on a new item, the rest paid 41 days late: 106 (on the whole 162, with the tax first 119)")
def _(a):
    # 9,491 × 41 × 274 = 106.6; 14,491 × 41 × 274 = 162.8; 10,650 × 41 × 274 = 119.6.
    a(opening(0, 0, 4))
    a(payment(0, 5_000), credit=5_000)
    a(cancellation(29, 80), volumes=[80], net=15_650, unpaid=10_650)
    a(payment(100, 10_650), interest=106, unpaid=106)
    a.open(interest_item(100, 106))


@life("parts_credit_tax", "items that credit pays to inside the tax and to the body's end, the rest late: none (on the whole 43 and 20,928)")
def _(a):
    # 11 days late, 14,491 × 11 × 274 = 43.7. 60 days of 80 m³: 40 a month; 250,000 + 1,440,000 = 1,690,000 sen.
    # 4,881 days late, 15,649 × 4,881 × 274 = 20,928.9.
    a(opening(0, 0, 4))
    a(payment(0, 15_000), credit=15_000)
    a(read(29, 80), volumes=[80], net=15_650, unpaid=650)
    a(payment(70, 16_299), credit=15_649)
    a(cancellation(89, 160), volumes=[80], net=16_900, unpaid=1_251)
    a(payment(5_000, 1_251))


@life("parts_rates", "15,650 of days 7,182 and 7,213, paid in parts across day 7,213 and behind it: 49 and 71 (by one rate 46 or 74)")
def _(a):
    # Due on days 7,212 and 7,243, each with parts 18 and 38 days late. The first, 5,000 of it in time: 14,491 − 14,000 = 491;
    # (9,000 × 18 + 491 × 38) × 274 = 49.5; by 10/110, with 228, 46.8. The second: 14,228 − 14,000 = 228;
    # (14,000 × 18 + 228 × 38) × 274 = 71.4; by 8/108, with 491, 74.2.
    a(opening(7_153, 0, 4))
    a(read(7_182, 80), volumes=[80], net=15_650, unpaid=15_650)
    a(payment(7_212, 5_000), unpaid=10_650)
    a(cancellation(7_213, 160), volumes=[80], net=15_650, unpaid=26_300)
    a(payment(7_230, 9_000), unpaid=17_300)
    a(payment(7_250, 1_650), interest=49, unpaid=15_699)
    a(payment(7_261, 14_000), unpaid=1_699)
    a(payment(7_281, 1_699), interest=71, unpaid=71)
    a.open(interest_item(7_281, 71))


@life("parts_next", "a payment settles an item 51 days late and pays a part of the next, 21 days late: 62, and 111 with that one's rest")
def _(a):
    # 10,000 of the first in time: 4,491 × 51 × 274 = 62.8. (4,350 × 21 + 10,141 × 31) × 274 = 111.2. On the whole 202 and 123.
    a(opening(0, 0, 4))
    a(read(29, 80), volumes=[80], net=15_650, unpaid=15_650)
    a(payment(50, 10_000), unpaid=5_650)
    a(cancellation(59, 160), volumes=[80], net=15_650, unpaid=21_300)
    a(payment(110, 10_000), interest=62, unpaid=11_362)
    a(payment(120, 11_362), interest=111, unpaid=111)
    a.open(interest_item(120, 111))


@life("parts_same_day", "two parts of 4,000 on one day are as one of 8,000: 118 both times")
def _(a):
    # 21 and 41 days late: (8,000 × 21 + 6,491 × 41) × 274 = 118.95.
    a(opening(0, 0, 4))
    a(read(29, 80), volumes=[80], net=15_650, unpaid=15_650)
    a(cancellation(59, 160), volumes=[80], net=15_650, unpaid=31_300)
    a(payment(80, 4_000), unpaid=27_300)
    a(payment(80, 4_000), unpaid=23_300)
    a(payment(100, 7_650), interest=118, unpaid=15_768)
    a(payment(110, 8_000), unpaid=7_768)
    a(payment(130, 7_650), interest=118, unpaid=236)
    a.open(interest_item(100, 118), interest_item(130, 118))


@life("parts_queue", "an interest item paid in parts and the price item behind it: 13,264, on the price alone (with the interest 13,300)")
def _(a):
    # 14,491 × 21 × 274 = 83.4, held; 16,900 as in parts_credit_tax; both due on day 119. Day 3,119: 43 and 1,000.
    # (1,000 × 3,000 + 14,649 × 3,100) × 274 = 13,264.9; + 43 × 3,000 it would be 13,300.2.
    a(opening(0, 0, 4))
    a(read(29, 80), volumes=[80], net=15_650, unpaid=15_650)
    a(payment(80, 15_650))
    a(cancellation(89, 160), volumes=[80], net=16_900, interest=83, unpaid=16_983)
    a(payment(119, 40), unpaid=16_943)
    a(payment(3_119, 1_043), unpaid=15_900)
    a(payment(3_219, 15_900), interest=13_264, unpaid=13_264)
    a.open(interest_item(3_219, 13_264))


@life("parts_stopped", "parts in time and late while stopped, the rest after the resumption: 79 (on the whole 162)")
def _(a):
    # 21 and 41 days late: (5,000 × 21 + 4,491 × 41) × 274 = 79.2.
    a(opening(0, 0, 4))
    a(stop(29, 80), volumes=[80], net=15_650, unpaid=15_650)
    a(payment(50, 5_000), unpaid=10_650)
    a(payment(80, 5_000), unpaid=5_650)
    a(resumption(90, 500, 4), unpaid=5_650)
    a(payment(100, 5_650))
    a(read(119, 500), volumes=[0], net=950, interest=79, unpaid=1_029)
    a.open(interest_item(119, 79), price_item(119, 950))


@life("parts_stopped_cancellation", "0a posts 106 held from parts; an item paid in part before it brings 99 at once when settled")
def _(a):
    # 5,000 of the first item in time: 9,491 × 41 × 274 = 106.6. The second, 11 and 31 days late:
    # (4,350 × 11 + 10,141 × 31) × 274 = 99.2. On the whole 162 and 123.
    a(opening(0, 0, 4))
    a(read(29, 80), volumes=[80], net=15_650, unpaid=15_650)
    a(payment(50, 5_000), unpaid=10_650)
    a(stop(59, 160), volumes=[80], net=15_650, unpaid=26_300)
    a(payment(100, 15_000), unpaid=11_300)
    a(cancel_stopped(110), interest=106, unpaid=11_406)
    a(payment(120, 11_300), interest=99, unpaid=205)
    a.open(interest_item(110, 106), interest_item(120, 99))


@life("parts_dearest", "99,999 m³ at the dearest fuel in three parts to day 36,094: 248,746,685 (cut at each 2 less, on the whole 332,666,524)")
def _(a):
    # 1 day: 205,000 / 30 = 6,833; + 36,359 × 99,999 = 3,635,870,474 sen. 36,358,704 − 2,693,237 = 33,665,467. Due on day 30:
    # 19,970, 29,970 and 36,064 days late, the last with 33,665,467 − 29,999,999 = 3,665,468 of the body.
    # (12,345,679 × 19,970 + 17,654,320 × 29,970 + 3,665,468 × 36,064) × 274 = 907,834,617,982 × 274 = 248,746,685.3.
    # Cut at each 67,552,839 + 144,973,391 + 36,220,453 = 248,746,683.
    a(opening(0, 0, 5))
    a(change(0, 50_000, 0, 5))
    a(cancellation(0, 49_999, DEAR), volumes=[99_999], net=36_358_704, unpaid=36_358_704)
    a(payment(20_000, 12_345_679), unpaid=24_013_025)
    a(payment(30_000, 17_654_320), unpaid=6_358_705)
    a(payment(36_094, 6_358_705), interest=248_746_685, unpaid=248_746_685)
    a.open(interest_item(36_094, 248_746_685))


@life("parts_last_day", "parts in time, 10 days late and, on day 36,094, 11 days late: 12 (with the 10 days 26, on the whole 42)")
def _(a):
    # Due on day 36,083. 14,228 − 10,000 = 4,228; 4,228 × 11 × 274 = 12.7; (5,000 × 10 + 4,228 × 11) × 274 = 26.4;
    # 14,228 × 11 × 274 = 42.9.
    a(opening(36_024, 0, 4))
    a(cancellation(36_053, 80), volumes=[80], net=15_650, unpaid=15_650)
    a(payment(36_083, 5_000), unpaid=10_650)
    a(payment(36_093, 5_000), unpaid=5_650)
    a.no(2, payment(36_095, 5_650))
    a(payment(36_094, 5_650), interest=12, unpaid=12)
    a.open("012098102720981126000000000000000c")


@life("parts_declined", "declined payments between two parts pay nothing and gather nothing: 135")
def _(a):
    # 21 and 41 days late: (5,000 × 21 + 9,491 × 41) × 274 = 135.4.
    cancelled_bill(a)
    a(payment(80, 5_000), unpaid=10_650)
    a.no(2, payment(36_095, 5_000))
    a.no(3, payment(79, 5_000))
    a.no(11, payment(90, 0), payment(90, 100_000_000))
    a.no(40, payment(90, 5_000)[:-1])
    a(payment(100, 10_650), interest=135, unpaid=135)
    a.open(interest_item(100, 135))


@life("parts_no_tax", "an item of 7, without tax: 3 in time, 4 paid 2,000 days late: 2 (on the whole 3, with a yen of tax 1)")
def _(a):
    # 155,000 and 80,000: 146,072 + 5,064 = 151,136, so 151,140: 68,050 above, k 680; 19,500 + 6,022.08 is 25,522.
    # 11 m³: 95,000 + 280,742 = 375,742 sen; 3,757 + 2,900 − 6,650 = 7. 7 × 8 / 108 = 0.5.
    # Due on day 119. 4 × 2,000 × 274 = 2.2; 7 × 2,000 × 274 = 3.8; 3 × 2,000 × 274 = 1.6.
    one_miss(a)
    a(payment(59, 13_300))
    a(cancellation(89, 151, (155_000, 80_000)), volumes=[10, 11], net=7, unpaid=7)
    a(payment(100, 3), unpaid=4)
    a(payment(2_119, 4), interest=2, unpaid=2)
    a.open(interest_item(2_119, 2))


# --- Back from a long absence ---------------------------------------------------------
# 03 bills the volume of the nearest period before it that was no 04, in place of the period just before, of any kind (0 behind an 04).
# Further prices at k 0 over 25 to 35 days: 5 m³ 950 + 975 = 1,925; 12 m³ 950 + 2,340 = 3,290; 13 m³ 950 + 2,535 = 3,485.


def home_again(a):
    """30 m³, then an 04 and an 03 of 30 m³: 14,250 open, dial 130."""
    a(opening(0, 100, 4))
    a(read(29, 130), volumes=[30], net=6_650, unpaid=6_650)
    a(absent(59), net=950, unpaid=7_600)
    a(missed(89), estimated=30, net=6_650, unpaid=14_250)


@life("absence_home_again", "a reading of 30, 04, 03: 30, 6,650 (by the period just before 0, 950); pool 50 leaves 20 for the next reading")
def _(a):
    home_again(a)
    a(read(119, 180), volumes=[0, 30, 20], net=4_850, unpaid=19_100)
    a.open(price_item(29, 6_650), price_item(59, 950), price_item(89, 6_650), price_item(119, 4_850))


@life("absence_shared", "the same with pool 21: the 03 takes 10, the reading 11, the 04 keeps 0: net −655 (had the 03 billed 0: 0, 0, 21, net 5,030)")
def _(a):
    # As share_one_21.
    home_again(a)
    a(read(119, 151), volumes=[0, 10, 11], net=-655, unpaid=13_595)
    a.open(price_item(29, 5_995), price_item(59, 950), price_item(89, 6_650))


@life("absence_several", "five 04 in a row, then 03 as the sixth miss: 20, and a seventh is 8; behind a reading of 15: 03, 04, 04, 03, 15 each")
def _(a):
    a(opening(0, 0, 4))
    a(read(29, 20), volumes=[20], net=4_850, unpaid=4_850)
    for n in range(1, 6):
        a(absent(29 + 30 * n), net=950, unpaid=4_850 + 950 * n)
    a(missed(209), estimated=20, net=4_850, unpaid=14_450)
    a.no(8, missed(239), absent(239))
    a(read(239, 55), volumes=[0, 0, 0, 0, 0, 20, 15], net=3_875, unpaid=18_325)  # pool 35
    a(missed(269), estimated=15, net=3_875, unpaid=22_200)
    a(absent(299), net=950, unpaid=23_150)
    a(absent(329), net=950, unpaid=24_100)
    a(missed(359), estimated=15, net=3_875, unpaid=27_975)
    a(read(389, 95), volumes=[15, 0, 0, 15, 10], net=2_900, unpaid=30_875)  # pool 40
    a.open(
        price_item(29, 4_850),
        *(price_item(29 + 30 * n, 950) for n in range(1, 6)),
        price_item(209, 4_850),
        price_item(239, 3_875),
        price_item(269, 3_875),
        price_item(299, 950),
        price_item(329, 950),
        price_item(359, 3_875),
        price_item(389, 2_900),
    )


def by_turns(a):
    """30 m³, then three times an 04 and an 03 of 30 m³: 29,450 open, dial 130."""
    a(opening(0, 100, 4))
    a(read(29, 130), volumes=[30], net=6_650, unpaid=6_650)
    for n in range(3):
        a(absent(59 + 60 * n), net=950, unpaid=7_600 * (n + 1))
        a(missed(89 + 60 * n), estimated=30, net=6_650, unpaid=7_600 * (n + 1) + 6_650)


@life("absence_by_turns", "04, 03, 04, 03, 04, 03: 30 at each 03, and a seventh miss is 8; pool 100 leaves 10 for the reading")
def _(a):
    by_turns(a)
    a.no(8, missed(239), absent(239))
    a(read(239, 230), volumes=[0, 30, 0, 30, 0, 30, 10], net=2_900, unpaid=32_350)
    a.open(
        price_item(29, 6_650),
        price_item(59, 950),
        price_item(89, 6_650),
        price_item(119, 950),
        price_item(149, 6_650),
        price_item(179, 950),
        price_item(209, 6_650),
        price_item(239, 2_900),
    )


@life("absence_first", "04 as the first period, then 03 and 03: 0 each; then a reading of 20, 04, 03: 20")
def _(a):
    a(opening(0, 0, 4))
    a(absent(29), net=950, unpaid=950)
    a(missed(59), estimated=0, net=950, unpaid=1_900)
    a(missed(89), estimated=0, net=950, unpaid=2_850)
    a(read(119, 20), volumes=[0, 0, 0, 20], net=4_850, unpaid=7_700)
    a(absent(149), net=950, unpaid=8_650)
    a(missed(179), estimated=20, net=4_850, unpaid=13_500)
    a.open(
        price_item(29, 950),
        price_item(59, 950),
        price_item(89, 950),
        price_item(119, 4_850),
        price_item(149, 950),
        price_item(179, 4_850),
    )


@life("absence_miss_first", "03 as the first period: 0; 04, then 03: 0 again; a cancellation takes the whole pool of 20")
def _(a):
    a(opening(0, 0, 4))
    a(missed(29), estimated=0, net=950, unpaid=950)
    a(absent(59), net=950, unpaid=1_900)
    a(missed(89), estimated=0, net=950, unpaid=2_850)
    a(cancellation(119, 20), volumes=[0, 0, 0, 20], net=4_850, unpaid=7_700)
    a.open(price_item(29, 950), price_item(59, 950), price_item(89, 950), price_item(119, 4_850))


@life("absence_zero", "a reading of 0 m³ counts as any other: 04, 03 behind it bills 0, not the 30 of the reading before")
def _(a):
    a(opening(0, 100, 4))
    a(read(29, 130), volumes=[30], net=6_650, unpaid=6_650)
    a(read(59, 130), volumes=[0], net=950, unpaid=7_600)
    a(absent(89), net=950, unpaid=8_550)
    a(missed(119), estimated=0, net=950, unpaid=9_500)
    a(read(149, 150), volumes=[0, 0, 20], net=4_850, unpaid=14_350)
    a.open(price_item(29, 6_650), price_item(59, 950), price_item(89, 950), price_item(119, 950), price_item(149, 4_850))


@life("absence_rest_zero", "pool 30, the estimate takes all of it and the reading is 0 m³: 04, 03 behind it bills 0, not 30")
def _(a):
    home_again(a)
    a(read(119, 160), volumes=[0, 30, 0], net=950, unpaid=15_200)
    a(absent(149), net=950, unpaid=16_150)
    a(missed(179), estimated=0, net=950, unpaid=17_100)
    a.open(price_item(29, 6_650), price_item(59, 950), price_item(89, 6_650), *(price_item(day, 950) for day in (119, 149, 179)))


@life("absence_stop", "a stop of 10 m³ behind an 04: 03 behind the resumption bills 10, and behind another 04 10 again, not the 30 before the stop")
def _(a):
    a(opening(0, 100, 4))
    a(read(29, 130), volumes=[30], net=6_650, unpaid=6_650)
    a(absent(59), net=950, unpaid=7_600)
    a(stop(89, 140), volumes=[0, 10], net=2_900, unpaid=10_500)
    a(resumption(100, 500, 4), unpaid=10_500)
    a(missed(129), estimated=10, net=2_900, unpaid=13_400)
    a(absent(159), net=950, unpaid=14_350)
    a(missed(189), estimated=10, net=2_900, unpaid=17_250)
    a(read(219, 540), volumes=[10, 0, 10, 20], net=4_850, unpaid=22_100)  # pool 40
    a.open(
        price_item(29, 6_650),
        price_item(59, 950),
        price_item(89, 2_900),
        price_item(129, 2_900),
        price_item(159, 950),
        price_item(189, 2_900),
        price_item(219, 4_850),
    )


@life("absence_resumed", "a stop of 20 m³, resumption, 04, 03: 20; then a stop of 0 m³, resumption, 04, 03: 0")
def _(a):
    a(opening(0, 0, 4))
    a(read(29, 30), volumes=[30], net=6_650, unpaid=6_650)
    a(stop(59, 50), volumes=[20], net=4_850, unpaid=11_500)
    a(resumption(70, 500, 5), unpaid=11_500)
    a(absent(99), net=950, unpaid=12_450)
    a(missed(129), estimated=20, net=4_850, unpaid=17_300)
    a(stop(159, 520), volumes=[0, 20, 0], net=950, unpaid=18_250)
    a(resumption(170, 7, 4), unpaid=18_250)
    a(absent(199), net=950, unpaid=19_200)
    a(missed(229), estimated=0, net=950, unpaid=20_150)
    a.open(
        price_item(29, 6_650),
        price_item(59, 4_850),
        price_item(99, 950),
        price_item(129, 4_850),
        price_item(159, 950),
        price_item(199, 950),
        price_item(229, 950),
    )


@life("absence_resumed_on_stop_day", "a resumption on the stop day, then 04 and 03 of a day each: the stop's 20 m³, 3,468")
def _(a):
    # 1 day, 20 m³: 600 a month, third band; 205,000 / 30 = 6,833; + 340,000 = 346,833 sen. Days 62 to 96 are 35; pool 25.
    a(opening(0, 100, 4))
    a(read(29, 130), volumes=[30], net=6_650, unpaid=6_650)
    a(stop(59, 150), volumes=[20], net=4_850, unpaid=11_500)
    a(resumption(59, 500, 4), unpaid=11_500)
    a.no(7, absent(59), missed(59))
    a(absent(60), net=31, unpaid=11_531)
    a(missed(61), estimated=20, net=3_468, unpaid=14_999)
    a(read(96, 525), volumes=[0, 20, 5], net=1_925, unpaid=16_924)
    a.open(price_item(29, 6_650), price_item(59, 4_850), price_item(60, 31), price_item(61, 3_468), price_item(96, 1_925))


@life("absence_stopped_first", "a stop of 0 m³ as the first period, resumption, 04, 03: 0; the reading takes the whole pool of 20")
def _(a):
    a(opening(0, 0, 4))
    a(stop(0, 0), volumes=[0], net=31, unpaid=31)
    a(resumption(10, 500, 4), unpaid=31)
    a(absent(39), net=950, unpaid=981)
    a(missed(69), estimated=0, net=950, unpaid=1_931)
    a(read(99, 520), volumes=[0, 0, 20], net=4_850, unpaid=6_781)
    a.open(price_item(0, 31), price_item(39, 950), price_item(69, 950), price_item(99, 4_850))


@life("absence_meter", "meter changes behind an 04 and behind an 03, with gas and at rest: each 03 bills the reading's 30; pool 80 leaves 20")
def _(a):
    a(opening(0, 100, 4))
    a(read(29, 130), volumes=[30], net=6_650, unpaid=6_650)
    a(absent(59), net=950, unpaid=7_600)
    a(change(70, 140, 99_990, 5), unpaid=7_600)  # 10
    a(missed(89), estimated=30, net=6_650, unpaid=14_250)
    a(change(100, 5, 0, 4), unpaid=14_250)  # 15
    a(absent(119), net=950, unpaid=15_200)
    a(change(119, 0, 50, 4), unpaid=15_200)  # 0
    a(missed(149), estimated=30, net=6_650, unpaid=21_850)
    a(read(179, 105), volumes=[0, 30, 0, 30, 20], net=4_850, unpaid=26_700)  # 55
    a.open(
        price_item(29, 6_650),
        price_item(59, 950),
        price_item(89, 6_650),
        price_item(119, 950),
        price_item(149, 6_650),
        price_item(179, 4_850),
    )


@life("absence_between", "payments, declined calls and lines that are no frame between 04 and 03: the reading's 30 still")
def _(a):
    # Day 29's item is settled a day late, day 59's in time; 50 of credit for day 89's. Pool 50.
    a(opening(0, 100, 4))
    a(read(29, 130), volumes=[30], net=6_650, unpaid=6_650)
    a(absent(59), net=950, unpaid=7_600)
    a.no(7, read(59, 150), missed(59), absent(59), stop(59, 150), cancellation(59, 150))
    a(payment(60, 7_600))
    a.no(1, opening(70, 0, 4), resumption(70, 0, 4), cancel_stopped(70))
    a.no(2, read(36_095, 150), missed(36_095))
    a.no(3, read(59, 150), missed(59))
    a.no(4, change(89, 150, 0, 3))
    a.no(5, read(89, 10_000), change(89, 150, 10_000, 4))
    a.no(6, read(89, 150, (5, 5)), missed(89, (5, 5)), absent(89, (5, 5)))
    a.no(9, read(89, 5_131), change(89, 5_131, 0, 4), stop(89, 5_131), cancellation(89, 5_131))
    a.no(11, payment(89, 0))
    a.no(40, "", read(89, 150)[:-2], missed(89)[:-1], "missed")
    a(payment(89, 50), credit=50)
    a(missed(89), estimated=30, net=6_650, unpaid=6_600)
    a(read(119, 180), volumes=[0, 30, 20], net=4_850, unpaid=11_450)
    a.open(price_item(89, 6_600), price_item(119, 4_850))


@life("absence_12", "closings that are 12 between 04 and 03, a reading of 10 m³ among them: the reading's 30 still")
def _(a):
    # 70 items of 31, 6,650 and 950. The payment settles the items of days 0 and 1, due on days 30 and 31, 129 and 128 days late:
    # 29 × 129 × 274 = 1.03, 29 × 128 × 274 = 1.02. Its 2 and the 03 make 72 again.
    a(opening(0, 0, 4))
    days_at_zero(a, 0, 69)
    a(read(99, 30), volumes=[30], net=6_650, unpaid=8_820)
    a(absent(129), net=950, unpaid=9_770)
    a.no(12, read(159, 40), missed(159), absent(159), stop(159, 40), cancellation(159, 40))
    a(payment(159, 62), unpaid=9_708)
    a(missed(159), estimated=30, net=6_650, interest=2, unpaid=16_360)
    a.no(12, read(189, 60), missed(189), absent(189))
    a.open(
        *(price_item(day, 31) for day in range(2, 70)),
        price_item(99, 6_650),
        price_item(129, 950),
        interest_item(159, 2),
        price_item(159, 6_650),
    )


@life("absence_13", "closings of 11 m³ that are 13 behind 04 and 03: 30 still behind the next 04; then a net of −6,355 that the limit lets pass")
def _(a):
    # The payments settle day 29's item 31 days late, 6,158 × 31 × 274 = 52.3, and day 59's a day late. Pool 21 on day 119: net −655,
    # as absence_shared, on 999,999,947. On day 179, pool 0: 3 × 950 − 13,300 = −10,450. Pool 21: 7 each, 3 × 2,315 − 13,300 = −6,355.
    home_again(a)
    credit_to_the_limit(a, 90, 14_250)
    a.no(13, read(119, 151), stop(119, 151), cancellation(119, 151))
    a(absent(119), net=950, interest=52, credit=999_998_997)
    a(missed(149), estimated=30, net=6_650, credit=999_992_347)
    a.no(13, read(179, 130))
    a(read(179, 151), volumes=[0, 7, 0, 7, 7], net=-6_355, credit=999_998_702)


@life("absence_revised", "03 billed 30 and revised to 10 by a reading of 11: 04, 03 behind it bills 11; revised to 0 in turn, net −1,195")
def _(a):
    # As share_one_21. Then pool 0: 950 + 950 − 3,095 = −1,195.
    one_miss(a)
    a(read(89, 151), volumes=[10, 11], net=-655, unpaid=12_645)
    a(absent(119), net=950, unpaid=13_595)
    a(missed(149), estimated=11, net=3_095, unpaid=16_690)
    a(read(179, 151), volumes=[0, 0, 0], net=-1_195, unpaid=15_495)
    a.open(price_item(29, 4_800), price_item(59, 6_650), price_item(119, 950), price_item(149, 3_095))


@life("absence_remainder", "pool 49 shared by three 03, 12 each, and a reading, 13: 04, 03 bills 13; it stands, a reading is 7, and 04, 03 bills 7")
def _(a):
    # 49 / 4 up = 13, 36 / 3 = 12; 3,485 + 3 × 3,290 − 3 × 6,650 = −6,595. Then pool 20.
    by_turns(a)
    a(read(239, 179), volumes=[0, 12, 0, 12, 0, 12, 13], net=-6_595, unpaid=22_855)
    a(absent(269), net=950, unpaid=23_805)
    a(missed(299), estimated=13, net=3_485, unpaid=27_290)
    a(read(329, 199), volumes=[0, 13, 7], net=2_315, unpaid=29_605)
    a(absent(359), net=950, unpaid=30_555)
    a(missed(389), estimated=7, net=2_315, unpaid=32_870)
    a.open(
        price_item(29, 55),
        price_item(59, 950),
        price_item(89, 6_650),
        price_item(119, 950),
        price_item(149, 6_650),
        price_item(179, 950),
        price_item(209, 6_650),
        price_item(269, 950),
        price_item(299, 3_485),
        price_item(329, 2_315),
        price_item(359, 950),
        price_item(389, 2_315),
    )


@life("absence_own_price", "03 behind an 04, 20 m³ in 24 days and in 36 at fuels of their own: 4,598 and 5,070 (the reading's 4,850); net −2,909")
def _(a):
    # 0 m³: 24 days 76,000 and 36 days 114,000 sen.
    # 24 days at the lower fuel: 25 a month, second band; 100,000 + 17,991 × 20 = 459,820 sen.
    # 36 days at the higher: 16 a month, first band; 114,000 + 19,650 × 20 = 507,000 sen.
    # Pool 20: 7 for this period, 2,315; 7 for the latter, 114,000 + 19,650 × 7 = 251,550 sen; 6 for the former, 7 a month,
    # 76,000 + 19,491 × 6 = 192,946 sen. 2,315 + 2,515 + 1,929 − 4,598 − 5,070 = −2,909.
    a(opening(0, 0, 4))
    a(read(29, 20), volumes=[20], net=4_850, unpaid=4_850)
    a(absent(53, HIGHER), net=760, unpaid=5_610)
    a(missed(77, LOWER), estimated=20, net=4_598, unpaid=10_208)
    a(absent(113, DEAR), net=1_140, unpaid=11_348)
    a(missed(149, HIGHER), estimated=20, net=5_070, unpaid=16_418)
    a(read(179, 40), volumes=[0, 6, 0, 7, 7], net=-2_909, unpaid=13_509)
    a.open(price_item(29, 1_941), price_item(53, 760), price_item(77, 4_598), price_item(113, 1_140), price_item(149, 5_070))


@life("absence_tax", "04, 03 on both sides of day 7,213, 30 m³ of one reading: 12,457 and 12,565; revised, −2,623 (both by one rate −2,575 or −2,674)")
def _(a):
    # Pool 50: 17 for this period, 7,616; 17 for the latter, by 9.02 7,616 (by 8.856 7,556); 16 for the former, by 8.856 7,167
    # (by 9.02 7,224). 7,616 + 7,616 + 7,167 − 12,457 − 12,565 = −2,623.
    a(opening(7_123, 0, 4))
    a(read(7_152, 30, DEAR), volumes=[30], net=12_457, unpaid=12_457)
    a(absent(7_182, DEAR), net=950, unpaid=13_407)
    a(missed(7_212, DEAR), estimated=30, net=12_457, unpaid=25_864)
    a(absent(7_242, DEAR), net=950, unpaid=26_814)
    a(missed(7_272, DEAR), estimated=30, net=12_565, unpaid=39_379)
    a(read(7_302, 80, DEAR), volumes=[0, 16, 0, 17, 17], net=-2_623, unpaid=36_756)
    a.open(
        price_item(7_152, 9_834),
        price_item(7_182, 950),
        price_item(7_212, 12_457),
        price_item(7_242, 950),
        price_item(7_272, 12_565),
    )


@life("absence_tax_7213", "03 of day 7,213 behind an 04 of day 7,212: 30 m³ in a day 11,083, revised to 14 m³ 5,208 (by the 04's day 10,976 and 5,158)")
def _(a):
    # 1 day, third band: 6,833 + 36,717 × 30 = 1,108,343 sen; by 8.856, 6,833 + 36,359 × 30 = 1,097,603.
    # Pool 29: 15 for this period, 6,832; 14 for the day, 6,833 + 36,717 × 14 = 520,871 sen; by 8.856, 6,833 + 36,359 × 14 = 515,859.
    # 6,832 + 5,208 − 11,083 = 957.
    a(opening(7_153, 0, 4))
    a(read(7_182, 30, DEAR), volumes=[30], net=12_457, unpaid=12_457)
    a(absent(7_212, DEAR), net=950, unpaid=13_407)
    a(missed(7_213, DEAR), estimated=30, net=11_083, unpaid=24_490)
    a(read(7_243, 59, DEAR), volumes=[0, 14, 15], net=957, unpaid=25_447)
    a.open(price_item(7_182, 12_457), price_item(7_212, 950), price_item(7_213, 11_083), price_item(7_243, 957))


@life("absence_most", "99,999 m³, 04, 03: 99,999 again, 17,001,880; pool 100,000 is 10, and 99,998 is shared: 49,999 each, then 04, 03 bills that")
def _(a):
    # 49,999 m³: 2,050 + 8,499,830 = 8,501,880. 2 × 8,501,880 − 17,001,880 = 1,880.
    a(opening(0, 0, 5))
    a(change(1, 50_000, 0, 5))
    a(read(29, 49_999), volumes=[99_999], net=17_001_880, unpaid=17_001_880)
    a(absent(59), net=950, unpaid=17_002_830)
    a(missed(89), estimated=99_999, net=17_001_880, unpaid=34_004_710)
    a(change(90, 99_999, 0, 5), unpaid=34_004_710)  # 50,000
    a.no(10, read(119, 50_000))
    a(read(119, 49_998), volumes=[0, 49_999, 49_999], net=1_880, unpaid=34_006_590)
    a(absent(149), net=950, unpaid=34_007_540)
    a(missed(179), estimated=49_999, net=8_501_880, unpaid=42_509_420)
    a.open(
        price_item(29, 17_001_880),
        price_item(59, 950),
        price_item(89, 17_001_880),
        price_item(119, 1_880),
        price_item(149, 950),
        price_item(179, 8_501_880),
    )


@life("absence_interest", "late payments across two absences: 54 posted by an 04, 18 by the 03 of 30 m³ behind it; 7 by a net of −6,355")
def _(a):
    # Day 29's item, 21 and 41 days late: (3,000 × 21 + 3,158 × 41) × 274 = 52.7. Day 59's, 11 days late: 880 × 11 × 274 = 2.7.
    # Day 89's, 11 days late: 6,158 × 11 × 274 = 18.6. Pool 21: 7 each; 3 × 2,315 − 2 × 6,650 = −6,355. It settles the 54, day 119's
    # 950, 30 days late, 880 × 30 × 274 = 7.2, and the 18; 5,333 are left for day 149's item, due that day.
    a(opening(0, 100, 4))
    a(read(29, 130), volumes=[30], net=6_650, unpaid=6_650)
    a(absent(59), net=950, unpaid=7_600)
    a(payment(80, 3_000), unpaid=4_600)
    a(missed(89), estimated=30, net=6_650, unpaid=11_250)
    a(payment(100, 4_600), unpaid=6_650)
    a(absent(119), net=950, interest=54, unpaid=7_654)
    a(payment(130, 6_650), unpaid=1_004)
    a(missed(149), estimated=30, net=6_650, interest=18, unpaid=7_672)
    a(read(179, 151), volumes=[0, 7, 0, 7, 7], net=-6_355, unpaid=1_317)
    a(read(209, 151), volumes=[0], net=950, interest=7, unpaid=2_274)
    a.open(price_item(149, 1_317), interest_item(209, 7), price_item(209, 950))


@life("absence_cancellation", "08 behind 04, 03, 04, pool 21: 0, 10, 0, 11, net −655 (had the 03 billed 0: 0, 0, 0, 21, net 5,030); a further miss is 1")
def _(a):
    # As share_one_21.
    home_again(a)
    a(absent(119), net=950, unpaid=15_200)
    a(cancellation(149, 151), volumes=[0, 10, 0, 11], net=-655, unpaid=14_545)
    a.no(1, missed(179), absent(179))
    a.open(price_item(29, 5_995), price_item(59, 950), price_item(89, 6_650), price_item(119, 950))


# --- Writing ----------------------------------------------------------------------


def lines_of(answers):
    return "".join(line + "\n" for line in answers).encode()


def first_difference(name, program, got, hand):
    if got == hand:
        return True
    for n, (left, right) in enumerate(zip(got.split(b"\n"), hand.split(b"\n")), 1):
        if left != right:
            print(f"{name}: {program}, line {n}:\n  reference {left.decode()}\n  by hand   {right.decode()}")
            return False
    print(f"{name}: {program}: {got.count(10)} lines, {hand.count(10)} by hand")
    return False


def readme():
    rows = "".join(f"| `{case.name}` | {case.shows} |\n" for case in CASES)
    return f"""# Lives

Each case is a household file `NAME.in`, with what `bill` (`NAME.bill`) and `notice` (`NAME.notice`) print for it. Where there is a file
`NAME.closed`, the programs run in a folder that has it as `closed`, otherwise in one that has no such file. `tests/run` compares byte for
byte. `tests/make_lives.py` writes the files: it tells each life call by call, with every field of every answer worked out by hand from
documents 01 and 02, and stores what the reference programs print only where the two agree.

| case | what it shows |
|---|---|
{rows}"""


def printed(program, case):
    """What a program prints for a case, in a folder with its closed days."""
    with tempfile.TemporaryDirectory() as folder:
        if case.closed is not None:
            (pathlib.Path(folder) / "closed").write_bytes(case.closed)
        program = pathlib.Path(program).resolve()
        return subprocess.run([program], input=case.input, stdout=subprocess.PIPE, check=True, cwd=folder).stdout


def main(arguments):
    if arguments and (len(arguments) != 3 or arguments[0] != "--expect"):
        sys.exit(__doc__)
    names = [case.name for case in CASES]
    assert len(set(names)) == len(names), "two cases of one name"
    agreed = True
    LIVES.mkdir(exist_ok=True)
    (LIVES / "README.md").write_text(readme())
    for case in CASES:
        for end, text in case.files().items():
            (LIVES / f"{case.name}.{end}").write_bytes(text)
        for place, (program, hand) in enumerate((("bill", case.answers), ("notice", case.notices)), 1):
            stored = LIVES / f"{case.name}.{program}"
            if arguments:
                got = printed(arguments[place], case)
            else:
                got = stored.read_bytes() if stored.exists() else b""
            if not first_difference(case.name, program, got, lines_of(hand)):
                agreed = False
            elif arguments:
                stored.write_bytes(got)
    known = {f"{case.name}.{end}" for case in CASES for end in (*case.files(), "bill", "notice")} | {"README.md"}
    for path in sorted(LIVES.iterdir()):
        if path.name not in known:
            print(f"{path.name}: of no case")
            agreed = False
    print(f"{len(CASES)} cases, {sum(len(case.answers) for case in CASES)} answers" + ("" if agreed else ", with differences"))
    return 0 if agreed else 1


sys.exit(main(sys.argv[1:]))
