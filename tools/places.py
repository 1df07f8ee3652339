#!/usr/bin/env python3
"""Counts the places in crates/*/src that read like the older language, point by point of docs/DESIGN-PASS.md.

usage: tools/places.py [POINT] [FOLDER]    the counts, a line a kind, of this checkout or of another in a FOLDER;
                                          with a POINT (1 to 8) each place by file and line

What is counted says each kind's own line in `KINDS`. A place is kept where a comment `// Kept:` gives the reason: in its
line, in one of the three above it, above its function, or for more places than one at the head of the file or above
("here and .."), where it has one of the words that stand with the kind.
"""

import glob
import os
import re
import sys

FOLDERS = [word for word in sys.argv[1:] if not word.isdigit()]
ROOT = FOLDERS[0] if FOLDERS else os.path.dirname(os.path.dirname(os.path.abspath(__file__)))


def sources():
    """(path, lines) of every source file."""
    for path in sorted(glob.glob(os.path.join(ROOT, "crates", "*", "src", "**", "*.rt"), recursive=True)):
        with open(path, encoding="utf-8") as file:
            yield os.path.relpath(path, ROOT), file.read().split("\n")


def crate_of(path):
    return path.split("/")[1]


def by_line(pattern, skip=()):
    """Places whose line matches; comment lines do not count."""
    found = re.compile(pattern)

    def places():
        for path, lines in sources():
            if crate_of(path) in skip:
                continue
            for number, line in enumerate(lines):
                if not line.lstrip().startswith("//") and found.search(line):
                    yield path, number
    return places


ANSWER = re.compile(r"^\s*(Refused|Not|Unknown|End|Done|Stopped|Singular|None|Nothing)\b")


def answer_enums():
    """An enum with a variant for what is refused, missing or over."""
    for path, lines in sources():
        at = None
        for number, line in enumerate(lines):
            if re.match(r"^(pub(\(crate\))? )?enum \w+", line):
                at = number
            elif line.startswith("}"):
                at = None
            elif at is not None and ANSWER.match(line):
                yield path, at
                at = None


def functions():
    """(path, first line, text) of every function with a body, its contract in it."""
    for path, lines in sources():
        number = 0
        while number < len(lines):
            if re.match(r"^\s*(pub(\(crate\))? )?(final )?(extern \"C\" )?fn \w+", lines[number]):
                indent = len(lines[number]) - len(lines[number].lstrip())
                end = number
                while end + 1 < len(lines) and lines[end] != " " * indent + "}" and not lines[end].endswith(";"):
                    end += 1
                yield path, number, lines[number:end + 1]
                number = end
            number += 1


RECORDS = re.compile(r"hyperhyperdual|hyperdual|dual2|dual3|dual|hyper_hyper_dual|hyper_dual", re.I)


def twins():
    """A function that is another's text but for the names of records and functions, and the numbers: each but one of a group."""
    groups = {}
    for path, number, text in functions():
        body = "\n".join(line for line in text if not line.lstrip().startswith("//"))
        if crate_of(path) == "exports_c" or body.count("\n") < 4:
            continue
        name = re.search(r"fn (\w+)", body).group(1)
        body = RECORDS.sub("R", body).replace(name, "F")
        body = re.sub(r"\b\d[\w.]*", "N", re.sub(r"\beps\d*(eps\d)*(eps\d)?\b|\bv[123]\b", "P", body))
        groups.setdefault(re.sub(r"\s+", " ", body), []).append((path, number))
    for group in groups.values():
        for place in group[1:]:
            yield place


def repeated_requires():
    """A `requires` whose fact, names apart, stands in three functions or more."""
    facts = {}
    for path, lines in sources():
        for number, line in enumerate(lines):
            told = re.match(r"\s+requires (?:\w+ )?\{ (.*) \}", line)
            if told:
                fact = re.sub(r"\b\d+\b", "N", RECORDS.sub("R", told.group(1)))
                facts.setdefault(fact, []).append((path, number))
    for places in facts.values():
        if len(places) >= 3:
            yield from places


def travelling():
    """A function with two parameters that always come together in its crate, in three functions or more."""
    pairs, alone, taken = {}, {}, {}
    for path, number, text in functions():
        head = " ".join(line.strip() for line in text).split("{")[0].split("requires")[0].split("ensures")[0]
        inside = re.search(r"fn \w+(?:<[^>]*>)?\((.*?)\)\s*(?:->|$|\s)", head)
        names = [p.strip() for p in (inside.group(1) if inside else "").split(", ") if ":" in p]
        taken[(path, number)] = {(a, b) for i, a in enumerate(names) for b in names[i + 1:]}
        for pair in taken[(path, number)]:
            pairs[(crate_of(path), pair)] = pairs.get((crate_of(path), pair), 0) + 1
        for name in names:
            alone[(crate_of(path), name)] = alone.get((crate_of(path), name), 0) + 1
    for (path, number), together in taken.items():
        crate = crate_of(path)
        if any(pairs[(crate, pair)] >= 3 and all(alone[(crate, name)] == pairs[(crate, pair)] for name in pair) for pair in together):
            yield path, number


def printing():
    """A function that prints or reports, and a file whose functions put text to a `Writer`."""
    yield from by_line(r"\bfn (print|report|show)\w*")()
    for path, lines in sources():
        puts = [number for number, line in enumerate(lines) if re.search(r"\bfn \w+\(page: &mut Writer", line)]
        if puts and path.endswith(("write.rt", "table.rt", "lines.rt")):
            yield path, puts[0]


def ranges(indexing):
    """A `for` over a range of numbers: those whose number stands in an index of the loop's lines, or the others."""
    for path, lines in sources():
        for number, line in enumerate(lines):
            told = re.match(r"(\s*)for \(?(\w+)(?:, \w+\))? in (.*\.\.|.*\.enumerate\(\))", line)
            if not told or told.group(2).startswith("_") or ("enumerate" in line and not indexing):
                continue
            inside, at = [], number + 1
            while at < len(lines) and lines[at] != told.group(1) + "}":
                inside.append(lines[at])
                at += 1
            index = r"\[" + told.group(2) + r"\]" if "enumerate" in line else r"\[[^\]]*\b" + told.group(2) + r"\b[^\]]*\]"
            uses = re.search(index, "\n".join(inside))
            if bool(uses) == indexing:
                yield path, number


def counting():
    """A `while` whose lines count by one."""
    for path, lines in sources():
        for number, line in enumerate(lines):
            told = re.match(r"(\s*)while ", line)
            if told:
                at = number + 1
                while at < len(lines) and lines[at] != told.group(1) + "}":
                    at += 1
                if re.search(r"[+-]= 1;", "\n".join(lines[number:at])):
                    yield path, number


def answers():
    """A goal that an Answers.antt answers."""
    for path in sorted(glob.glob(os.path.join(ROOT, "crates", "*", "proofs", "**", "Answers.antt"), recursive=True)):
        with open(path, encoding="utf-8") as file:
            for number, line in enumerate(file.read().split("\n")):
                if re.match(r"^pub \S+ : goal\.", line):
                    yield os.path.relpath(path, ROOT), number


C = ("exports_c",)
KINDS = {
    1: [("an own enum with a variant for refused, missing or over", answer_enums, "Seen|enum"),
        ("a function that answers a refusal's number", by_line(r"\bfn .*-> u32\b|^\) -> u32", C), "number"),
        ("a refusal's number by a constant", by_line(r"\brefusals::(?!LARGEST|LEAST|SINGULAR)[A-Z][A-Z_]+\b", C), "number"),
        ("a flag or a count that says whether the value beside it is there", by_line(r"^\s+(pub )?(whole|there|found|digits|stopped): (bool|u32|usize)\b"), "digits|stopped"),
        ("a number for a kind, an entry or a width that chooses", by_line(r"\b(kind|entry): u(8|32)\b|if width == |^const (READ|WRITE|[A-Z]+_ENTRY): u"), "number")],
    2: [("a function that is another's twin", twins, "part by part|differ")],
    3: [("a `while` loop that counts by hand", counting, "loop"),
        ("a `for` over a range or an `enumerate` whose number indexes a slice", lambda: ranges(True), "loop|range|counted|place"),
        ("a `for` over a range of other numbers: rows, columns, records", lambda: ranges(False), "loop|range|counted|numbers")],
    4: [("equality, order or a copy by hand", by_line(r"\bfn (eq|ne|lt|le|gt|ge|cmp|copy|clear|clone|same_words|same_text)\b"), "by hand|=="),
        ("printing by hand", printing, "Writer|println")],
    5: [("a `requires` that three functions or more have", repeated_requires,
         "requires|contract|limit|asked|taken apart|made anew|closure|`bw`|Square|Strided|p and q|order's length|rooms|parts|no struct of both"),
        ("a function with parameters that always come together, in three", travelling,
         "parameters|come apart|beside|together|p and q|rooms|a, x|sine|no struct of both")],
    6: [("a buffer with a place beside it", by_line(r"(out|buffer|text): &(mut )?\[.*(at|p|place|end): (usize|Place)\b"), "place")],
    7: [("a choice of what to run by a number", by_line(r"\bmatch (kind|entry|width|Kind::try_from\(kind\))( |\b)|if (width|entry) == "), "enum|match|C interface|number")],
    8: [("a goal that a file answers", answers, "")],
}


def kept(path, number, words):
    """Whether a reason stands at the place or above its function, or one with such a word for more places than one."""
    if not path.endswith(".rt"):
        return False
    with open(os.path.join(ROOT, path), encoding="utf-8") as file:
        lines = file.read().split("\n")
    near = number
    while near > 0 and not re.match(r"\s*(pub(\(crate\))? )?(final )?(extern \"C\" )?fn ", lines[near]) and lines[near] != "}":
        near -= 1
    while near > 0 and lines[near - 1].lstrip().startswith(("//", "#[", "ensures", "requires")):
        near -= 1
    near = min(near, max(0, number - 3))
    for at, line in enumerate(lines[:number + 1]):
        if "// Kept:" not in line:
            continue
        if at >= near and at > 4:
            return True
        if (at < 5 or re.search(r"Kept: (here|in `|a match for each|by hand)", line)) and re.search(words, line):
            return True
    return False


def main(given):
    points = [int(word) for word in given if word.isdigit()]
    point = points[0] if points else None
    for each, kinds in KINDS.items():
        if point not in (None, each):
            continue
        for said, places, words in kinds:
            found = list(places())
            stays = [place for place in found if kept(*place, words)]
            print(f"{each}  {len(found):5}  {len(stays):5} kept  {said}")
            if point:
                for path, number in found:
                    print(f"      {path}:{number + 1}{'  (kept)' if (path, number) in stays else ''}")


main(sys.argv[1:])
