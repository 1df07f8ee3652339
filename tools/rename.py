#!/usr/bin/env python3
"""Brings this repository's own definitions and lemmas to the spelling of today's Rattle.

usage: python3 tools/rename.py            at the top of the repository, after port.py: rewrites crates/, prints the names
       python3 tools/rename.py --list     prints that alone

A name of the logic in camel case that begins with a small letter becomes snake case. In a lemma's name a dash stays
beside the name of a definition that shows as one (in camel or snake case), and becomes an underscore elsewhere. Source
names and strings stay, and so do names that the library has too; `must-fail/` is brought over by hand. Names that would
fall together are refused. A second run changes nothing.
"""

import os
import re
import sys

IDENT = r"[^\s(){}\[\],;.:@`|«»\"=⌜⌝]+"
DECLARED = re.compile(r"^\s*(?:(?:abbrev|unfoldable|pub|private|ruleset)\s+)*(" + IDENT + r")\s*:(?!=)")
TOKEN = re.compile(IDENT)
CAMEL = re.compile(r"^[a-z][A-Za-z0-9_'₀-₉]*$")
KEBAB = re.compile(r"^[A-Za-z][A-Za-z0-9_'₀-₉]*(?:-[A-Za-z0-9_'₀-₉]+)+$")
# names that are said otherwise: a parameter of the source has the plain one, or the library calls it so today
OTHERWISE = {"swapsOrColumn": "swap_count_or_column", "getD": "get_or"}
OTHERWISE["wantedSize"] = "size_wanted"
OTHERWISE["leftValues"], OTHERWISE["leftVectors"] = "values_left", "vectors_left"
# lemmas that have in snake case already what a definition beside them is now called
STANDING = "is_word minus_one number_digits one_more pair_line read_opened summed_by too_large whole_part found_of".split()
OWN = re.compile(r"^(?:ghost )?use Rattle\.(\w+)")
LISTED = re.compile(r"^(?:ghost )?use (\S+?)\.\{(.*)\}")


def files(root):
    for folder, dirs, names in os.walk(os.path.join(root, "crates")):
        dirs[:] = sorted(d for d in dirs if d not in ("out", "must-fail"))
        for name in sorted(names):
            if name.endswith((".rt", ".antt")):
                yield os.path.join(folder, name)


def snake(name):
    name = re.sub(r"([a-z0-9])([A-Z])", r"\1_\2", name)
    name = re.sub(r"([A-Z])([A-Z][a-z])", r"\1_\2", name)
    return name.lower()


def is_camel(name):
    return bool(CAMEL.match(name)) and bool(re.search(r"[a-z0-9][A-Z]", name))


def code(line, mark):
    """The line up to its comment."""
    at = line.find(mark)
    return (line, "") if at < 0 else (line[:at], line[at:])


def mapping(root):
    crates = set(os.listdir(os.path.join(root, "crates")))
    declared, library, camels = set(), set(), set()
    for path in files(root):
        with open(path, encoding="utf-8") as f:
            for line in f:
                u = LISTED.match(line)
                if u and not (OWN.match(line) and OWN.match(line).group(1) in crates):
                    library.update(w for it in u.group(2).split(",") for w in it.split() if w != "as")
                if path.endswith(".rt") or line.lstrip().startswith("--"):
                    continue
                m = DECLARED.match(line)
                if m and "tie." not in line[m.end():].split("=")[0]:
                    declared.add(m.group(1))
                camels.update(t for t in TOKEN.findall(line) if is_camel(t))
    new = {}
    for name in camels - library:
        new[name] = respell(name)
    for name in declared - library:
        if KEBAB.match(name):
            parts = name.split("-")
            out = respell(parts[0])
            for before, part in zip(parts, parts[1:]):
                out += ("-" if shows(before) or shows(part) else "_") + respell(part)
            new[name] = out
    taken = {b for a, b in new.items() if is_camel(a)} | declared | library
    for name in declared - library:
        if KEBAB.match(name) and new[name] != name and new[name] in taken:
            new[name] += "_lem"
    return {a: b for a, b in new.items() if a != b}, declared, library


def shows(part):
    return is_camel(part) or part[:1].isupper() or "_" in part


def respell(part):
    if part in OTHERWISE:
        return OTHERWISE[part]
    return snake(part) if is_camel(part) else part


def together(new, taken):
    """Names that would be one: two old ones, or an old and one that stands already."""
    back, bad = {}, []
    for a, b in sorted(new.items()):
        if b in back or b in taken:
            bad.append((a, back.get(b, "one that stands"), b))
        back[b] = a
    return bad


def rewrite(text, new, is_source):
    """A path into what a proof knows (c.back-row.ensures) keeps its dashes: the check makes those names."""

    said = set(new.values())

    def word(m):
        name = m.group(0)
        before = text_now[: m.start()]
        if name in STANDING and name in said and not is_source and not before.endswith("."):
            return name + "_lem"
        if "-" in name and before.endswith("."):
            path = re.search(r"[^\s(){}\[\],;:]*$", before).group(0)
            if re.match(r"(?:[a-z]|start|some|none|here|tie)[₀-₉0-9]?\.", path):
                return name
        return new.get(name, name)

    out = []
    for line in text.splitlines(keepends=True):
        pieces = re.split(r'("(?:[^"\\]|\\.)*")', line) if is_source else [line]
        done = []
        for i, text_now in enumerate(pieces):
            done.append(text_now if i % 2 else TOKEN.sub(word, text_now))
        out.append("".join(done))
    return "".join(out)


def main(argv):
    root = os.getcwd()
    new, declared, library = mapping(root)
    bad = together(new, (declared | library) - set(STANDING))
    for a, b, c in bad:
        print(f"together: {a} and {b} would be {c}")
    if "--list" in argv:
        for a in sorted(new):
            print(f"{a} -> {new[a]}")
        return 1 if bad else 0
    if bad:
        return 1
    changed = 0
    for path in files(root):
        with open(path, encoding="utf-8") as f:
            before = f.read()
        after = rewrite(before, new, path.endswith(".rt"))
        if after != before:
            changed += 1
            with open(path, "w", encoding="utf-8") as f:
                f.write(after)
    for a in sorted(new):
        print(f"{a} -> {new[a]}")
    print(f"{len(new)} names, {changed} files")
    return 0


if __name__ == "__main__":
    sys.exit(main(sys.argv[1:]))
