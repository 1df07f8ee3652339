#!/usr/bin/env python3
"""Says whether each must-fail edit (crates/*/must-fail/*.edit) still fits the text that it edits.

usage: tools/edits.py [CRATE ..]         prints each edit that does not fit, and why; exit 1 where there is one
       tools/edits.py --moved COMMIT     prints as a Markdown table the pairs whose text is another than in COMMIT;
                                         exit 1 where an edit of COMMIT is gone

An edit has lines `file: F`, `old: TEXT` and `new: TEXT`. It fits where each F is a file of the crate's src/, specs/ or
proofs/, each old TEXT stands exactly once in what the pairs before it made of that file, old and new differ, and the
whole changes something. Nothing is proved: whether an edit is refused says `rt must-fail`.
"""

import glob
import os
import subprocess
import sys

ROOT = os.path.dirname(os.path.dirname(os.path.abspath(__file__)))
ROOMS = ("src/", "specs/", "proofs/")


def lines_of(text):
    """(key, TEXT) for each line; the key is None where the line is of no known form."""
    for line in text.split("\n"):
        key, colon, rest = line.partition(":")
        if key in ("file", "old", "new") and colon and rest[:1] in ("", " "):
            yield key, rest[1:]
        elif line.strip():
            yield None, line


def pairs_of(text):
    """The pairs (file, old, new) of an edit."""
    pairs, file, old = [], None, None
    for key, value in lines_of(text):
        if key == "file":
            file, old = value, None
        elif key == "old":
            old = value
        elif key == "new":
            pairs.append((file, old, value))
            old = None
    return pairs


def why_not(text, folder):
    """Why an edit does not fit the crate in a folder; None where it does."""
    unread = [value for key, value in lines_of(text) if key is None]
    if unread:
        return f"a line is of no known form: {unread[0]}"
    keys = [key for key, _ in lines_of(text) if key != "file"]
    if not keys or keys != ["old", "new"] * (len(keys) // 2):
        return "its lines old and new do not come in pairs"
    before, now = {}, {}
    for file, old, new in pairs_of(text):
        if not file or not file.startswith(ROOMS) or os.path.normpath(file) != file:
            return f"{file} is no file of src/, specs/ or proofs/"
        if file not in now:
            if not os.path.isfile(os.path.join(folder, file)):
                return f"there is no file {file}"
            with open(os.path.join(folder, file), encoding="utf-8") as opened:
                before[file] = now[file] = opened.read()
        if not old or old == new:
            return "old is empty" if not old else f"old and new are the same: {old}"
        found = now[file].count(old)
        if found != 1:
            return f"old stands {found} times in {file}: {old}"
        now[file] = now[file].replace(old, new)
    return None if now != before else "it changes nothing"


def edits():
    """(crate, name, text) of each edit."""
    for path in sorted(glob.glob(os.path.join(ROOT, "crates", "*", "must-fail", "*.edit"))):
        with open(path, encoding="utf-8") as opened:
            yield path.split(os.sep)[-3], os.path.basename(path)[: -len(".edit")], opened.read()


def check(crates):
    count, bad = 0, 0
    for crate, name, text in edits():
        if crates and crate not in crates:
            continue
        count += 1
        why = why_not(text, os.path.join(ROOT, "crates", crate))
        if why:
            bad += 1
            print(f"{crate}/{name}: {why}")
    print(f"{count} must-fail edits, {bad} that do not fit")
    return 1 if bad or not count else 0


def git(*words):
    return subprocess.run(["git", *words], cwd=ROOT, check=True, stdout=subprocess.PIPE).stdout.decode("utf-8")


def code(text):
    """A text as code in a cell of a table."""
    text = text.strip().replace("|", "\\|")
    mark = "``" if "`" in text else "`"
    return f"{mark}{text}{mark}" if text else "nothing"


def moved(commit):
    now = {(crate, name): text for crate, name, text in edits()}
    paths = [path for path in git("ls-tree", "-r", "--name-only", commit).split("\n") if "/must-fail/" in path]
    gone, same, rows = [], 0, []
    for path in paths:
        crate, name = path.split("/")[1], os.path.basename(path)[: -len(".edit")]
        if (crate, name) not in now:
            gone.append(path)
            continue
        before, after = pairs_of(git("show", f"{commit}:{path}")), pairs_of(now.pop((crate, name)))
        if before == after:
            same += 1
            continue
        for k in range(max(len(before), len(after))):
            one, other = (pairs[k] if k < len(pairs) else None for pairs in (before, after))
            if one != other:
                cells = [f"{code(pair[1])} → {code(pair[2])}" if pair else "none" for pair in (one, other)]
                rows.append(f"| `{crate}` | `{name}` | `{(other or one)[0]}` | {cells[0]} | {cells[1]} | |")
    print("| crate | edit | file | pair before | pair now | refused at |")
    print("|---|---|---|---|---|---|")
    for row in rows:
        print(row)
    told = f"{len(paths)} edits in {commit}: {same} stand word for word, {len(paths) - same - len(gone)} are respelled"
    print(f"\n{told}, {len(gone)} are gone; {len(now)} are new", file=sys.stderr)
    for path in gone:
        print(f"gone: {path}", file=sys.stderr)
    return 1 if gone else 0


def main(argv):
    if argv[:1] in (["-h"], ["--help"]):
        print(__doc__)
        return 0
    if argv[:1] == ["--moved"] and len(argv) == 2:
        return moved(argv[1])
    if any(word.startswith("-") for word in argv):
        print(__doc__, file=sys.stderr)
        return 2
    return check(argv)


if __name__ == "__main__":
    sys.exit(main(sys.argv[1:]))
