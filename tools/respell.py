#!/usr/bin/env python3
"""Brings the repository's own definitions and lemmas to snake case, once, behind the toolchain's port.py: run at the top of the repository.

A name that a file of specs/ or proofs/ declares (a definition, a lemma, a record's field, a constructor) and that begins with a small letter is
written in words joined by _. Names of src/, of the library and of goals stay. It prints what falls together, and then changes nothing."""

import glob
import os
import re
import sys

# names that would fall together with another of the same file or crate
ELSEWHERE = {
    "crates/frames/proofs/Numbers.antt": {"readAt": "read_from_at"},
    "crates/text/proofs/Pieces.antt": {"last_line": "last_line_lem"},
    "crates/closedfile/proofs/ClosedFile.antt": {"last_line": "last_line_lem"},
}
# definitions whose snake case is a lemma's of another crate, which doesn't see them
APART = {"readAt", "lastLine"}

TOKEN = re.compile(r"[^\s(){}\[\].,;:⌜⌝\"`]+")
HEAD = r"^[ \t]*(?:(?:abbrev|unfoldable|pub|private)[ \t]+)*"
DECLARED = re.compile(HEAD + r"([^\s(){}\[\].,;:\"=]+)[ \t]*:[ \t]", re.M)
USED = re.compile(r"^\s*(?:pub )?use (?!Rattle\.)[^{\n]*\{([^}]*)\}", re.M)
GOAL = re.compile(HEAD + r"([^\s(){}\[\].,;:\"=]+)[ \t]*:[^\n]*\b(?:tie\.|statement\b|Walk tie\.)", re.M)


def snake(name):
    words = re.sub(r"([a-z0-9])([A-Z])", r"\1_\2", name)
    return words.replace("getD", "get_or").replace("get_D", "get_or").replace("-", "_").lower() if name[0].islower() else name


def read(path):
    with open(path, encoding="utf-8") as f:
        return f.read()


def without_comments(text):
    return re.sub(r"--[^\n]*", "", text)


def fields_of(text):
    """The names that are fields of the records that a text declares."""
    fields, inside = set(), None
    for line in text.split("\n"):
        if not line.strip():
            continue
        indent = len(line) - len(line.lstrip())
        if inside is not None and indent <= inside:
            inside = None
        if re.match(r"\s*(?:pub )?record ", line):
            inside = indent
        elif inside is not None:
            fields |= set(DECLARED.findall(line))
    return fields


def table():
    """From each declared name that changes to its new one, and what falls together."""
    antt = sorted(glob.glob("crates/*/specs/**/*.antt", recursive=True) + glob.glob("crates/*/proofs/**/*.antt", recursive=True))
    declared, fields, library = set(), set(), set()
    for path in antt:
        text = without_comments(read(path))
        for names in USED.findall(text):
            library |= {n.split(".")[-1].strip() for n in names.split(",")}
        goals = set(GOAL.findall(text)) if path.endswith("Proof.antt") else set()
        declared |= set(DECLARED.findall(text)) - goals
        fields |= fields_of(text)
    changing = {n for n in declared if n not in library and re.match(r"[a-z][\w'-]*$", n) and snake(n) != n}
    taken = {n for n in declared if n not in changing and n not in fields}
    definitions = {n for n in changing if "-" not in n.replace("getD-", "")}
    names, clash = {}, []
    for old in sorted(definitions) + sorted(changing - definitions):
        new = snake(old)
        if old in APART:
            pass
        elif new in taken and old in definitions:
            clash.append(f"{old}: {new} is there already")
        elif new in taken and old not in fields:
            new += "_lem"
        if new in taken and old not in fields and old not in APART:
            clash.append(f"{old}: {new} is there already")
        if old not in fields or old in definitions:
            taken.add(new)
        names[old] = new
    return names, clash


def respelled(text, names, comment):
    """The text with its names respelled; in comments only between backquotes."""

    def words(part):
        return TOKEN.sub(lambda m: names.get(m.group(0), m.group(0)), part)

    def quoted(part):
        return re.sub(r"`[^`\n]*`", lambda m: words(m.group(0)), part)

    out = []
    for line in text.split("\n"):
        at = line.find(comment) if comment else 0
        out.append(line if at < 0 and not comment else (words(line) if at < 0 else words(line[:at]) + quoted(line[at:])))
    return "\n".join(out)


def main():
    names, clash = table()
    if "--list" in sys.argv:
        for old, new in sorted(names.items()):
            print(old, new)
    for line in clash:
        print("falls together:", line, file=sys.stderr)
    if clash and "--anyway" not in sys.argv:
        raise SystemExit(1)
    if "--list" in sys.argv:
        return
    files = [(p, "--") for p in glob.glob("crates/*/specs/**/*.antt", recursive=True) + glob.glob("crates/*/proofs/**/*.antt", recursive=True)]
    files += [(p, "//") for p in glob.glob("crates/*/src/**/*.rt", recursive=True)]
    files += [(p, "#") for p in glob.glob("crates/*/must-fail/*.edit")]
    files += [(p, "") for p in glob.glob("docs/*.md") + ["README.md"]]
    for path, comment in files:
        text = read(path)
        new = respelled(text, names | ELSEWHERE.get(path, {}), comment)
        if new != text:
            with open(path, "w", encoding="utf-8") as f:
                f.write(new)


if __name__ == "__main__":
    main()
