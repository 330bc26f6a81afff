#!/usr/bin/env python3
"""Lists every must-fail edit in docs/IMPOSTORS.md, under "Every edit", from the first line of each edit.

    tools/impostors.py           rewrites the list
    tools/impostors.py --check   exits 1 if the list is not what the edits say

Refused, with or without --check: a page of docs/ that names an edit which is not there; an edit of which an old text does not
stand once in its file; one that names a definition by its full name where there is none, and so would be refused for that.
"""
import re
import sys

from page import TOP, asks_check, keep, read

PAGE = TOP / "docs" / "IMPOSTORS.md"
HEAD = "## Every edit\n"
FULL_NAME = re.compile(r"Rattle\.(\w+)\.specs\.([A-Z]\w*)\.([A-Za-z][\w′]*)")


def edits():
    """Each edit's name and the wrong rule, in plain words."""
    for path in sorted(TOP.glob("crates/*/must-fail/*.edit")):
        yield f"{path.parent.parent.name}/{path.stem}", read(path).splitlines()[0].removeprefix("# ")


def page(listed):
    before = read(PAGE)
    table = "".join(f"| `{name}` | {rule} |\n" for name, rule in listed)
    return before[: before.index(HEAD)] + f"{HEAD}\n{len(listed)} edits.\n\n| Edit | Wrong rule |\n|---|---|\n{table}"


def missing(text, listed):
    """Edits that a page names and that are not there."""
    crates = {path.name for path in TOP.glob("crates/*")}
    pages = text + "".join(read(path) for path in TOP.glob("docs/*.md") if path != PAGE)
    named = {name for name in re.findall(r"`(\w+/\w+)`", pages) if name.split("/")[0] in crates}
    return sorted(name for name in named - {name for name, _ in listed} if not re.search("/(src|specs|proofs)", name))


def fits(text, crate):
    """Whether each old text of an edit stands once in the file that it names."""
    path = crate / "".join(re.findall("(?m)^file: (.*)$", text))
    olds = re.findall("(?m)^old: (.*)$", text)
    return path.is_file() and bool(olds) and all(read(path).count(old) == 1 for old in olds)


def unknown(text):
    """Full names of definitions that an edit uses and that are not there."""
    for crate, file, name in FULL_NAME.findall(text):
        path = TOP / "crates" / crate / "specs" / f"{file}.antt"
        if not path.is_file() or not re.search(rf"\bpub {name} :", read(path)):
            yield f"{crate}/specs/{file}, {name}"


def main():
    check = asks_check(__doc__)
    listed = list(edits())
    text = page(listed)
    faults = [f"no such edit: {name}" for name in missing(text, listed)]
    for path in sorted(TOP.glob("crates/*/must-fail/*.edit")):
        text_of, where = read(path), path.relative_to(TOP)
        if not fits(text_of, path.parent.parent):
            faults.append(f"{where}: an old text does not stand once in its file")
        faults += [f"{where}: no such definition: {name}" for name in unknown(text_of)]
    for fault in faults:
        print(fault)
    return max(keep(PAGE, text, check), 1 if faults else 0)


if __name__ == "__main__":
    sys.exit(main())
