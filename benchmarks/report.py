"""The stored results as tables, written between the markers of a document."""

import csv
import re
import textwrap

from kinds import CLOSED_FOR_KINDS

WIDTH = 150  # of a paragraph
PROGRAMS = ("bill", "fast_bill")
SIDES = {"library": "library", "tuned": "tuned reference"}


def read(file):
    with open(file, newline="") as rows:
        return list(csv.DictReader(rows, delimiter="\t", quoting=csv.QUOTE_NONE))


def values(rows, measure):
    """A measure's values by program and size."""
    return {(row["program"], int(row["size"])): float(row["value"]) for row in rows if row["measure"] == measure}


def table(header, rows):
    lines = [header, ["---"] + ["---:"] * (len(header) - 1), *rows]
    return "\n".join("| " + " | ".join(line) + " |" for line in lines)


def speeds(name, pair):
    """A row of two speeds: the ratio is bill's."""
    return [name, *(f"{speed:,.0f}" for speed in pair), f"{pair[0] / pair[1]:.2f}"]


def costs(name, pair, form):
    """A row of two costs: the ratio is that of the speeds."""
    return [name, *(format(cost, form) for cost in pair), f"{pair[1] / pair[0]:.2f}"]


# ---- Households' files, in one process ----


def households_text(rows, shares):
    parts = [households(rows), kinds(rows), closed(rows), profile(shares, SIDES)]
    return "\n\n".join(parts)


def households(rows):
    """The main table, the lines that it is of, and what it was measured on."""
    each = {measure: line_cost(rows, measure) for measure in ("", ", median", ", instructions", ", copies")}
    in_ns = [[1e9 * seconds for seconds in each[measure]] for measure in ("", ", median")]
    body = [
        costs("ns a line, best", in_ns[0], ",.1f"),
        costs("ns a line, median", in_ns[1], ",.1f"),
        costs("instructions a line", each[", instructions"], ",.0f"),
        ["calls of memcpy a line", *(f"{count:.2f}" for count in each[", copies"]), ""],
    ]
    header = ["", *SIDES.values(), "speed of the library, tuned reference = 1"]
    machine = next(row["value"] for row in rows if row["measure"] == "machine")
    below = textwrap.fill(f"{lines_text(rows)} Measured on {machine}.", WIDTH)
    return f"{table(header, body)}\n\n{below}"


def line_cost(rows, measure):
    """What a line costs each side."""
    found = values(rows, "households" + measure)
    lines = sum(lines_by_kind(rows).values())
    return [next(value for (program, _), value in found.items() if program == side) / lines for side in SIDES]


def lines_by_kind(rows):
    return {row["measure"][7:]: int(row["value"]) for row in rows if row["measure"].startswith("lines: ")}


def lines_text(rows):
    """How many lines the files have, and of what kinds."""
    counts = lines_by_kind(rows)
    files = next(row["size"] for row in rows if row["measure"] == "households")
    total = sum(counts.values())
    kinds = "; ".join(f"{kind} {100 * count / total:.2g} %" for kind, count in counts.items())
    return f"{files} files, {total:,} lines: {kinds}."


def speed(rows):
    """The figures in a sentence."""
    (library, tuned), counts = line_cost(rows, ""), line_cost(rows, ", instructions")
    return textwrap.fill(
        f"On households' files of twenty years the library takes {1e9 * library:,.0f} ns and {counts[0]:,.0f} instructions a line. Rust tuned for speed, in the same "
        f"process and with the same bytes, takes {1e9 * tuned:,.0f} ns and {counts[1]:,.0f}: the library has {tuned / library:.2f} of its speed.",
        WIDTH,
    )


# ---- The programs ----


def results(rows):
    body = [long_speed(rows), *small_speeds(rows), start_cost(rows), *instruction_costs(rows)]
    return table(["", *(f"`{name}`" for name in PROGRAMS), "speed of `bill`, `fast_bill` = 1"], body)


def long_speed(rows):
    long = values(rows, "long")
    size = max(size for _, size in long)
    return speeds(f"lines a second, one life of {size:,} lines", [size / long[name, size] for name in PROGRAMS])


def small_speeds(rows):
    small = values(rows, "small")
    files = max(size for _, size in small)
    lines = small["", files]
    return [
        speeds(f"lines a second, {files:,} files of about {lines / files:.0f} lines", [lines / small[name, files] for name in PROGRAMS]),
        speeds("files a second, the same", [files / small[name, files] for name in PROGRAMS]),
    ]


def start_cost(rows):
    start = {name: value / size for (name, size), value in values(rows, "start").items()}
    return costs("milliseconds to start and end, no input", [1000 * start[name] for name in PROGRAMS], ".3f")


def instruction_costs(rows):
    """Instructions a line, start and end left out, and copies a line."""
    counted, dense, copies = (values(rows, name) for name in ("instructions", "dense", "copies"))
    found = []
    for counts, life in ((counted, "the long life's first {:,} lines"), (dense, "a life of {:,} lines")):
        lines = max(size for _, size in counts)
        each = [(counts[name, lines] - counted[name, 0]) / lines for name in PROGRAMS]
        found.append(costs("instructions a line, " + life.format(lines), each, ",.0f"))
    each = [f"{value / lines:.2f}" for (_, lines), value in copies.items()]
    return [*found, ["calls of memcpy a line, the long life's first lines", *each, ""]]


def growth(rows):
    long = values(rows, "long")
    header = ["lines"]
    for name in PROGRAMS:
        header += [f"`{name}`, ms", "ns a line after the start"]
    body = []
    for size in sorted({size for _, size in long if size}):
        line = [f"{size:,}"]
        for name in PROGRAMS:
            after = long[name, size] - long[name, 0]
            line += [f"{1e3 * long[name, size]:.2f}", f"{1e9 * after / size:.0f}"]
        body.append(line)
    return table(header, body)


# ---- Kinds of lines and functions ----


def kinds(rows):
    """Instructions and time of one line of each kind."""
    return cost_table("kind of line", [(name, costs_of(rows, f"kind: {name}")) for name in names(rows, "kind: ")])


def closed(rows):
    """The same of households' files and of some kinds, by lists of closed days, each behind what it is with none closed."""
    without = {"households' files": [*line_cost(rows, ", instructions"), *(1e9 * seconds for seconds in line_cost(rows, ""))]}
    without |= {title: costs_of(rows, f"kind: {title}") for title, _, _ in CLOSED_FOR_KINDS}
    body = []
    for title, costs in without.items():
        body.append((f"{title}, none closed", costs))
        body += [(name, costs_of(rows, f"closed: {name}")) for name in names(rows, "closed: ") if name.startswith(title)]
    return cost_table("closed days", body)


def names(rows, prefix):
    return dict.fromkeys(row["measure"].removeprefix(prefix) for row in rows if row["measure"].startswith(prefix))


def costs_of(rows, measure):
    """Instructions of both sides, then nanoseconds."""
    found = ({side: value for (side, _), value in values(rows, name).items()} for name in (measure, f"time of {measure}"))
    return [by_side[side] for by_side in found for side in SIDES]


def cost_table(title, named):
    header = [f"{side}, {unit}" for unit in ("instructions", "ns") for side in SIDES.values()]
    return table([title, *header], [[name, *(f"{cost:,.0f}" for cost in costs)] for name, costs in named])


def profile(shares, programs):
    """The functions of each program, with their share of time and instructions."""
    parts = []
    for program, title in programs.items():
        found = {}
        for row in shares:
            if row["program"] == program:
                found.setdefault(row["function"], {})[row["of"]] = float(row["share"])
        order = sorted(found, key=lambda name: -max(found[name].values()))
        body = [[f"`{name}`" if "(" not in name and " " not in name else name, *(percent(found[name].get(of)) for of in ("time", "instructions"))] for name in order]
        parts.append(table([title, "time", "instructions"], body))
    return "\n\n".join(parts)


def percent(share):
    return "" if share is None else f"{100 * share:.0f} %"


def replace(text, marker, part):
    """The text with this part between `<!-- marker -->` and `<!-- end of marker -->`."""
    begin, end = f"<!-- {marker} -->", f"<!-- end of {marker} -->"
    found = re.compile(re.escape(begin) + ".*?" + re.escape(end), re.S)
    if not found.search(text):
        raise SystemExit(f"the document lacks the marker {begin}")
    return found.sub(lambda _: f"{begin}\n{part}\n{end}", text)


def write_parts(document, parts):
    text = document.read_text()
    for marker, part in parts.items():
        text = replace(text, marker, part)
    document.write_text(text)


def write(results_file, profile_file, root):
    rows, shares = read(results_file), read(profile_file)
    parts = {
        "households": households(rows),
        "kinds": kinds(rows),
        "closed": closed(rows),
        "functions": profile(shares, SIDES),
        "results": results(rows),
        "growth": growth(rows),
        "profile": profile(shares, {name: f"`{name}`" for name in PROGRAMS}),
    }
    write_parts(root / "docs/BENCHMARKS.md", parts)
    write_parts(root / "README.md", {"speed": speed(rows)})
