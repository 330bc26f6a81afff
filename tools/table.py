#!/usr/bin/env python3
"""A script for the console that fills the memory from twelve words, as the library's `fill_memory` does in one call.

    tools/table.py WORD ..     prints one from twelve words of four hexadecimal digits, that of input 1 first
    tools/table.py             rewrites examples/shipped.txt and the shipped words in docs/REGISTERS.md, from crates/table
    tools/table.py --check     exits 1 if one of the two is not what crates/table says

A script starts with the first line and has a line `M` for every place; what the module is then to do follows it. Refused: a word
without level 1 OK or without exactly one class, which the generator declines with 8.
"""
import re
import sys

from page import TOP, keep, read, words

INPUTS, PLACES = 12, 4096
SOURCE = TOP / "crates" / "table" / "src" / "lib.rt"
EXAMPLE = TOP / "examples" / "shipped.txt"
REGISTERS = TOP / "docs" / "REGISTERS.md"
ROWS = "| Input | Word | Class | Code | Accept pattern |\n|---|---|---|---|---|\n"
WORD = re.compile(r"[0-9A-F]{4}")
# Every input enabled and GO; then an event of inputs 9 and 12, in class 1, one of inputs 4 and 5, which is input 4's class 3, with
# both passes, and the words at 003, at FFF and, once GO is clear, at 000.
USE = """V 003
V FFF
W 01 00001FFE
W 00 00000001
T 900 00 00000000
T 000 00 00000000
T 000 00 00000000
T 000 00 00000000
T 000 00 00000000
T 018 00 00000000
T 000 02 00000000
T 000 08 00000000
T 000 00 00000000
T 000 00 00000000
T 000 00 00000000
W 00 00010000
T 000 00 00000000
V 000
"""


def shipped():
    """The constant of the proved crate."""
    found = re.search(r"pub const SHIPPED: \[u16; 12\] = \[(.*?)\];", read(SOURCE), re.S)
    return [int(word, 16) for word in re.findall(r"0x([0-9A-F]{4})", found.group(1))]


def is_taken(word):
    """Level 1 OK, and exactly one class."""
    return word & 1 == 1 and bin(word & 0xE).count("1") == 1


def word_at(table, place):
    """Bits 0–7 of the lowest input's word, and the accept bits of all inputs in the pattern; 0 at place 0."""
    held = [word for i, word in enumerate(table) if place >> i & 1]
    accept = 0
    for word in held:
        accept |= word & 0xFF00
    return accept | held[0] & 0xFF if held else 0


def script(table):
    lines = [f"M\t{place:03X}\t{word_at(table, place):04X}\n" for place in range(PLACES)]
    return "supervisor\t1\n" + "".join(lines)


def rows(table):
    """The shipped words, read as the module reads a memory word."""
    for i, word in enumerate(table, start=1):
        bits = [c for c in (1, 2, 3) if word >> c & 1]
        accept = ", ".join(str(b) for b in range(8) if word >> (8 + b) & 1)
        yield f"| {i} | {word:04X} | {bits[0]} | {word >> 4 & 15:X} | bit {accept} |\n"


def registers(table):
    """The register map, with the shipped words in their place."""
    before, rest = read(REGISTERS).split(ROWS)
    return before + ROWS + "".join(rows(table)) + re.sub(r"\A(\|.*\n)*", "", rest)


def main():
    parser = words(__doc__)
    parser.add_argument("word", nargs="*", metavar="WORD", help="that of input 1 first")
    parser.add_argument("--check", action="store_true", help="write nothing; exit 1 if a page is not true")
    asked = parser.parse_args()
    if asked.word:
        if asked.check or len(asked.word) != INPUTS or not all(map(WORD.fullmatch, asked.word)):
            parser.error("twelve words of four capital hexadecimal digits were expected")
        table = [int(word, 16) for word in asked.word]
        bad = [str(i) for i, word in enumerate(table, start=1) if not is_taken(word)]
        if bad:
            parser.error(f"without level 1 OK or without exactly one class: the word of input {', '.join(bad)}")
        sys.stdout.write(script(table))
        return 0
    table = shipped()
    example = script(table) + USE.replace(" ", "\t")
    return max(keep(EXAMPLE, example, asked.check), keep(REGISTERS, registers(table), asked.check))


if __name__ == "__main__":
    sys.exit(main())
