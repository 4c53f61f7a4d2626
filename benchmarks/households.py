"""Households' files and lines of one kind, worked in one process by the library and by the fast build, in turns."""

import csv
import subprocess

import kinds
import measure

FILES = 100
ROUNDS = 1_000  # over the files: some three seconds, so that what else the machine does falls on both sides alike
SWEEPS = 6  # over all kinds of line, so that a slow spell of the machine falls on few rounds of each
KIND_ROUNDS = 100  # of lines of one kind in a sweep; the best of all sweeps counts
SAMPLED = 200  # passes under perf
REPEATED = 2_100  # lines of one kind
CALLS = ("opening", "reading", "miss", "miss, absence known", "meter change", "stop", "resumption", "cancellation", "payment", "cancellation")
# Each side of the program `beside`, with its functions that bill a file, without a list of closed days and by one.
SIDES = {
    "library": ("breccianest_bill", "breccianest_bill_closed"),
    "tuned": ("*fast::bill_into*", "*fast::bill_closed_into*"),
}


class Beside:
    """The program with both sides in it, by a list of closed days or without one."""

    def __init__(self, program, work, closed=None):
        self.program = [str(program)]
        self.work = work
        self.out = str(work / "beside.out")
        self.has_list = closed is not None
        if self.has_list:
            file = work / "closed"
            file.write_text(kinds.list_text(closed))
            self.program += ["--closed", str(file)]

    def seconds(self, *paths, rounds=KIND_ROUNDS, times=1):
        """Best and median seconds of a pass, by path and side. The outputs are compared first."""
        words = [*self.program, "--rounds", rounds, "--times", times, *paths]
        said = subprocess.check_output([str(word) for word in words], text=True)
        rows = csv.DictReader(said.splitlines(), delimiter="\t")
        return {(row["path"], row["side"]): (int(row["best"]) / 1e9, int(row["median"]) / 1e9) for row in rows}

    def alone(self, side, path, times=1):
        return [*self.program, "--only", side, "--times", str(times), str(path)]

    def instructions(self, side, path):
        """Instructions of a side's function over a pass; the profile is in the file `out`."""
        return measure.callgrind(self.alone(side, path), self.out, inside=SIDES[side][self.has_list])


def write_files(lives, work):
    folder = work / "households"
    words = [lives, "--households", FILES, "--dir", folder, "--seed", 1]
    subprocess.run([str(word) for word in words], check=True)
    return folder


def count_lines(program, folder):
    """Lines of the files by their kind; `program` tells which are declined."""
    counts = {}
    for file in sorted(folder.iterdir()):
        answers = measure.output(program, file).splitlines()
        for line, answer in zip(file.read_bytes().split(b"\n"), answers):
            kind = line_kind(line, int(answer[:2], 16))
            counts[kind] = counts.get(kind, 0) + 1
    return [(f"lines: {kind}", "", FILES, count, "lines") for kind, count in sorted(counts.items(), key=lambda pair: -pair[1])]


def line_kind(line, number):
    if number == kinds.NO_FRAME:
        return "no frame"
    return "declined" if number else CALLS[int(line[:2], 16) - 1]


def measure_files(beside, folder):
    """Seconds, instructions and copies of a pass over the files, and the functions they go to."""
    rows, profile = [], []
    for (_, side), (best, median) in beside.seconds(folder, rounds=ROUNDS).items():
        rows.append(("households", side, FILES, f"{best:.9f}", "seconds, best"))
        rows.append(("households, median", side, FILES, f"{median:.9f}", "seconds"))
    for side in SIDES:
        count = beside.instructions(side, folder)
        rows.append(("households, instructions", side, FILES, count, "instructions"))
        rows.append(("households, copies", side, FILES, measure.copies(beside.out), "calls of memcpy"))
        profile += measure.shares(side, "instructions", [(f, n / count) for f, n in measure.functions(beside.out)])
        sampled = measure.samples(beside.alone(side, folder, SAMPLED), beside.out)
        profile += measure.shares(side, "time", [(f, share / 100) for f, share in sampled])
    return rows, profile


class Line:
    """One line of a kind, by a list of closed days or by none: files of the lines that lead there, and of those and it."""

    def __init__(self, name, kind, beside):
        _, self.answered, before, repeat = kind
        lines = repeat(REPEATED)
        self.name, self.beside, self.before, self.lines = name, beside, len(before), len(lines)
        self.files = [beside.work / "led.txt", beside.work / "kind.txt"]
        self.files[0].write_text(kinds.text(before))
        self.files[1].write_text(kinds.text(before + lines))
        self.best = {}

    def time(self):
        """Takes the time again; the best seconds of a pass count."""
        times = max(1, REPEATED // self.lines)
        for key, (best, _) in self.beside.seconds(*self.files, times=times).items():
            self.best[key] = min(best / times, self.best.get(key, float("inf")))

    def costs(self):
        """Of the lines that lead there and it, less those that lead there."""
        rows = []
        for side in SIDES:
            counts = [self.beside.instructions(side, file) for file in self.files]
            seconds = [self.best[str(file), side] for file in self.files]
            rows += side_costs(self.name, side, self.lines, counts[1] - counts[0], seconds[1] - seconds[0])
        return rows


def measure_kinds(program, work, fast_bill, say):
    """Instructions and nanoseconds of one line of each kind, and of some by lists of closed days."""
    by_title = {kind[0]: kind for kind in kinds.KINDS}
    named = [(f"kind: {title}", title, None) for title in by_title]
    named += [(f"closed: {title}, {name}", title, days) for title, name, days in kinds.CLOSED_FOR_KINDS]
    lines = []
    for place, (name, title, days) in enumerate(named):
        folder = work / f"kind_{place}"
        folder.mkdir()
        line = Line(name, by_title[title], Beside(program, folder, days))
        check_answers(measure.output(fast_bill, line.files[1]), line.before, line.answered, title)
        lines.append(line)
    for sweep in range(SWEEPS):
        say(f"{len(lines)} kinds of line, sweep {sweep + 1} of {SWEEPS}")
        for line in lines:
            line.time()
    return [row for line in lines for row in line.costs()]


def side_costs(name, side, lines, count, seconds):
    """What a line costs a side: of so many lines, with their instructions and seconds."""
    return [
        (name, side, lines, f"{count / lines:.0f}", "instructions a line"),
        (f"time of {name}", side, lines, f"{1e9 * seconds / lines:.1f}", "ns a line"),
    ]


def measure_closed(program, work, folder, lines, say):
    """Households' files by lists of closed days. The files have so many lines."""
    rows = []
    for name, days in kinds.CLOSED_FOR_FILES.items():
        say(f"households' files, {name}")
        beside = Beside(program, work, days)
        spent = beside.seconds(folder, rounds=ROUNDS)
        for side in SIDES:
            rows += side_costs(f"closed: households' files, {name}", side, lines, beside.instructions(side, folder), spent[str(folder), side][0])
    return rows


def check_answers(output, before, answered, kind):
    """The lines that lead to a kind are accepted, and all of the kind have its number."""
    numbers = [int(line[:2], 16) for line in output.splitlines()]
    if any(numbers[:before]) or any(given != answered for given in numbers[before:]):
        raise SystemExit(f"a line of the kind '{kind}' is not answered with {answered}")
