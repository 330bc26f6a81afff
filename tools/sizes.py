#!/usr/bin/env python3
"""How long what a buyer must believe is, and the rest.

    tools/sizes.py            prints the lines of specs, code and proofs, crate by crate: all, and without blanks and comments
    tools/sizes.py --review   rewrites the list of definitions in docs/REVIEW.md: each file of specs/, in the order of reading
    tools/sizes.py --check    exits 1 if that list is not what the files say
"""
import re
import sys

from page import TOP, keep, read, words

PAGE = TOP / "docs" / "REVIEW.md"
HEAD, TAIL = "### The definitions, file by file\n", "\n## What you need not believe\n"


def count(paths):
    lines = [line.strip() for path in paths for line in read(path).splitlines()]
    return len(lines), len([line for line in lines if line and not line.startswith(("--", "//"))])


def print_sizes():
    total = [0] * 6
    row = "%-12s %7s %6s %7s %6s %7s %6s"
    print("%-12s %14s %14s %14s" % ("", "specs", "code", "proofs"))
    for crate in sorted(TOP.glob("crates/*")):
        parts = [count(crate.glob(part)) for part in ("specs/**/*.antt", "src/**/*.rt", "proofs/**/*.antt")]
        numbers = [number for part in parts for number in part]
        total = [a + b for a, b in zip(total, numbers)]
        print(row % (crate.name, *numbers))
    print(row % ("all", *total))


def states(path):
    """The first sentence of a file's header."""
    head = " ".join(line[3:] for line in re.match(r"(?:-- .*\n)+", read(path)).group(0).splitlines())
    return re.split(r"(?<=\.) |  ", head)[0]


def definitions():
    crates = [line.split(":")[0] for line in read(TOP / "crates.txt").splitlines() if not line.startswith("#")]
    rows, total = "", [0, 0]
    for folder in [TOP / "crates" / crate / "specs" for crate in crates]:
        names = re.findall(r"pub mod (\w+)", read(folder / "Lib.antt")) if folder.exists() else []
        for path in [folder / f"{name}.antt" for name in names]:
            size = count([path])
            total = [a + b for a, b in zip(total, size)]
            rows += f"| {folder.parent.name}/specs/{path.stem} | {size[0]} | {size[1]} | {states(path)} |\n"
    return (
        f"{HEAD}\nAll lines, and those without blanks and comments. A file named after its neighbour and `Fields` has one "
        "line for each field that\na definition changes.\n\n| File | Lines | Bare | Holds |\n|---|---|---|---|\n"
        f"{rows}| all | {total[0]} | {total[1]} | |\n"
    )


def main():
    parser = words(__doc__)
    ways = parser.add_mutually_exclusive_group()
    ways.add_argument("--review", action="store_true", help="rewrite the list in docs/REVIEW.md")
    ways.add_argument("--check", action="store_true", help="write nothing; exit 1 if the list is not true")
    asked = parser.parse_args()
    if not (asked.review or asked.check):
        print_sizes()
        return 0
    before = read(PAGE)
    return keep(PAGE, before[: before.index(HEAD)] + definitions() + before[before.index(TAIL) :], asked.check)


if __name__ == "__main__":
    sys.exit(main())
