"""Inputs of one kind of line: some lines that lead there, then the kind over and over."""

import random

PRICES = "000144ba000124f8"  # 83,130 and 75,000: k is 0
MOST_PAID = 99_999_999
NO_FRAME = 40
VOLUME, BILL = 40, 8_450  # m³ of a household's month of 30 days, and its price


def opening(day, reading=0, digits=5):
    return f"01{day:04x}{reading:08x}{digits:02x}"


def reading(day, dial=0):
    return f"02{day:04x}{dial:08x}{PRICES}"


def missed(day):
    return f"03{day:04x}{PRICES}"


def change(day, dial=0):
    return f"05{day:04x}{dial:08x}{dial:08x}05"


def payment(day, yen):
    return f"09{day:04x}{yen:08x}"


def resumption(day):
    return f"07{day:04x}0000000005"


def month_read(month):
    """The reading at the end of a household's month, from 1."""
    return reading(30 * month - 1, VOLUME * month)


def billed(months):
    """A household that has paid nothing yet."""
    return [opening(0)] + [month_read(month) for month in range(1, months + 1)]


def month_paid(month):
    return [month_read(month), payment(30 * month + 9, BILL)]


def late_payer():
    """Two bills paid when the first was 16 days late: its interest is held."""
    return billed(2) + [payment(75, 2 * BILL)]


def missed_once():
    return [opening(0), *month_paid(1), missed(59)]


def items(count, first=0):
    """Leaves so many items open, one of each day from 0; of 31 yen, but the first for a volume."""
    return [opening(0)] + [reading(day, first) for day in range(count)]


def in_credit(digits=5):
    return [opening(0, digits=digits)] + [payment(0, MOST_PAID)] * 9


def settle_and_post(day):
    """One item settled and one posted: as many are open as before."""
    return [payment(day, 31), reading(day)]


def shared(day):
    """Six misses and the reading that shares the pool among them."""
    return [missed(day + i) for i in range(6)] + [reading(day + 6)]


def turning(count):
    """Readings of a dial of four digits, which turns over in nearly every second one, in no order."""
    chance, dial, lines = random.Random(1), 0, []
    for day in range(1, count + 1):
        dial = (dial + chance.randint(4_000, 5_000)) % 10_000
        lines.append(reading(day, dial))
    return lines


def daily(lines_of, first, step, count):
    return [line for i in range(count) for line in lines_of(first + i * step)]


def once(line):
    return lambda _: [line]


PAID_MONTH = "reading and the payment of its bill in turn"
READING = "reading, nothing open"

# Name, the number that answers each line of it, what leads there, and the kind, once or about so many times.
KINDS = [
    (PAID_MONTH, 0, [opening(0)], lambda n: daily(month_paid, 1, 1, n // 2)),
    (READING, 0, [opening(0)], once(month_read(1))),
    ("payment of the bill", 0, billed(1), once(payment(40, BILL))),
    ("payment of a part, 1 item open", 0, items(1, 20_000), lambda n: [payment(0, 1)] * n),
    ("payment of two bills, one late", 0, billed(2), once(payment(75, 2 * BILL))),
    ("reading that posts interest", 0, late_payer(), once(month_read(3))),
    ("standing order above the bill", 0, billed(1), once(payment(44, BILL + 500))),
    ("standing order, nothing open", 0, [opening(0)], lambda n: [payment(0, 1)] * n),
    ("reading that credit settles", 0, in_credit(), lambda n: daily(lambda day: [reading(day)], 1, 1, n)),
    ("missed reading", 0, [opening(0), *month_paid(1)], once(missed(59))),
    ("reading after a miss", 0, missed_once(), once(month_read(3))),
    ("reading after a miss, pool shared", 0, missed_once(), once(reading(89, VOLUME + 10))),
    ("meter change, nothing open", 0, [opening(0)], lambda n: [change(0)] * n),
    ("declined, period of 0 days", 7, billed(1), lambda n: [month_read(1)] * n),
    ("declined, wrong status", 1, [opening(0)], lambda n: [resumption(0)] * n),
    ("no frame", NO_FRAME, [opening(0)], lambda n: ["zz"] * n),
    ("payment of a part, 72 items open", 0, items(72, 20_000), lambda n: [payment(71, 1)] * n),
    ("meter change, 72 items open", 0, items(72), lambda n: [change(71)] * n),
    ("payment and reading in turn, 71 and 72 items open", 0, items(72), lambda n: daily(settle_and_post, 72, 1, n // 2)),
    ("six misses and a reading in turn, nothing open", 0, in_credit(), lambda n: daily(shared, 1, 7, n // 7)),
    ("reading that credit settles, the dial turning over at random", 0, in_credit(4), lambda n: turning(n // 2)),  # as many as the credit pays
]


# Lists of 400 closed days, as many as a list may have: for all households' files, and for kinds of line. An item of a paid month is due on an odd day; that of
# the reading of day 29 from day 59 on.
CLOSED_FOR_FILES = {"one day in 90 closed": range(0, 36_000, 90)}
CLOSED_FOR_KINDS = [
    (PAID_MONTH, "one day in 80 closed, none a due day", range(0, 32_000, 80)),
    (READING, "400 days in a row closed, due behind them", range(59, 459)),
]


def text(lines):
    return "".join(line + "\n" for line in lines)


def list_text(days):
    """The days as a file `closed` has them."""
    return text(f"{day:04x}" for day in days)
