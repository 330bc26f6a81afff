#!/usr/bin/env python3
"""Writes the routine part of proof files: for each function of a crate that `rt dev` says needs a file, its
proofs/FUNCTION/Proof.antt.

Of no use with today's kit: it wrote the form of rattle-kit-5b-plain; `rt check --start F --allow-holes` writes the files of F now.

    tools/prove.py CRATE     a file that is there already is left alone

The file has the lines that rt prints, each `returns` that `search` leaves answered by `rw (what the calls ensure, the tests)`.
What `search` closes stands in its place among the needs, without a name. The first line of its head says WHY in capitals: write
the reason there. Answers over 110 columns stand one fact to a line, as `rt fmt` lays them out. What is written is checked by
`rt dev CRATE` and mended by hand.
"""
import os
import pathlib
import re
import subprocess
import sys
import tempfile

from page import TOP, need, read, words, write

WIDTH = 110
# a test on numbers, by whether it was taken and whether it is strict: the law that turns it into the definition's Bool
TEST_LAWS = {("taken", True): "lt-ltb", ("left", False): "le-ltb", ("taken", False): "le-leb", ("left", True): "lt-leb"}
HEAD = "-- `%s` meets its contract: WHY.\n-- First written by tools/prove.py. Assumes nothing.\n"
FUNCTION = re.compile(r"fn (\w+)[(<](.*?)\n?\s*\{\n", re.S)
RETURNS = re.compile(r"(?m)^(returns\S*) : tie\.Need-\1\n\1 c = \?$")
ROUTINE = re.compile(r"(?m)^([a-z0-9-]+) : tie\.Need-\1(?: \S+)*\n\1((?: [^\s=]+)+) = search needs\n\n")


class Crate:
    """A crate's functions and those it may call, and the definitions that a proof must open by name."""

    def __init__(self, name):
        self.name = name
        self.folder = TOP / "crates" / name
        kit = pathlib.Path(rt("doc").stdout.strip()).parent.parent
        sources = list(kit.glob("libs/*/src/*.rt")) + list(TOP.glob("crates/*/src/*.rt"))
        self.heads = {}
        for path in sorted(sources, key=lambda path: self.folder in path.parents):
            for function, head in FUNCTION.findall(read(path)):
                self.heads[function.replace("_", "-")] = head
        self.opens = {}
        own = "".join(read(path) for path in self.folder.glob("src/*.rt"))
        for path in TOP.glob("crates/*/specs/*.antt"):
            owner = path.parent.parent.name
            module = f"Rattle·{owner}·specs.specs.{path.stem}" if owner == name else f"Rattle·{owner}.specs.{path.stem}"
            if owner == name or f"ghost use {module}." in own:
                for definition in re.findall(r"(?m)^unfoldable pub (\S+) :", read(path)):
                    self.opens[definition] = module

    def head(self, callee):
        """The head of a function as a proof names it: a second call of one ends in a number."""
        found = self.heads.get(callee)
        return found if found is not None else self.heads.get(re.sub(r"\d+$", "", callee), "ensures")

    def opened_by(self, function):
        """The unfoldable definition that a function's last `ensures` cites."""
        head = self.heads.get(function, "")
        cited = re.findall(r"[\w·]+", head.split("ensures")[-1]) if "ensures" in head else []
        return [name for name in cited if name in self.opens][:1]


def rt(*asked):
    environment = dict(os.environ, RT_CUT="0")
    return subprocess.run(["rt", *asked], cwd=TOP, capture_output=True, encoding="utf-8", env=environment)


def write_printed(crate):
    """Writes each file that rt asks for with the lines it prints; the files that were written."""
    said = rt("dev", crate.name)
    wrote, path, body = [], None, []
    for line in (said.stdout + said.stderr).split("\n") + ["end"]:
        if path and (line.startswith("    ") or line == ""):
            body.append(line[4:])
            continue
        if path and not path.exists():
            path.parent.mkdir(parents=True, exist_ok=True)
            write(path, "\n".join(body).rstrip() + "\n")
            wrote.append(path)
        asked = re.match(r"help: write (\S+) with these lines", line)
        path, body = (TOP / asked.group(1), []) if asked else (None, [])
    return wrote


# ---- what is known at a place of the code, from the records that rt generates


def places(generated):
    """The records of the generated file, each with its fields; those of a place's own facts apart."""
    records, own = {}, {}
    for found in re.finditer(r"(?m)^( +)pub record (\S+) : Type 0 where\n((?:\1  .*\n)+)", generated):
        fields, last = {}, None
        for line in found.group(3).split("\n"):
            field = re.match(r" {%d}pub (\S+) : (.*)" % (len(found.group(1)) + 2), line)
            if field:
                last = field.group(1)
                fields[last] = field.group(2)
            elif last and line.strip():
                fields[last] += " " + line.strip()
        (own if found.group(2).endswith("·own") else records)[found.group(2)] = fields
    return records, own


def test_fact(path, field, type_):
    """A test that was taken or left, as a fact on Bools, and the law that it needs."""
    if re.search(r"Bool'?\.(true|false)\s*$", type_):
        return path, None
    if "≡" in type_:
        law = "ne-eqb" if "⊥" in type_ or "Empty" in type_ else "eq-eqb"
    else:
        law = TEST_LAWS[(field, "_<_" in type_ or " < " in type_)]
    return f"{law} _ _ ({path})", law


def facts(crate, generated, start):
    """What the calls before a place ensure and the tests that led to it, latest first; and the laws they need."""
    records, own = places(generated)
    known = {re.sub(r"-(\d+)$", r"\1", name) for name in re.findall(r"Need-enum-known-(\S+)", generated)}
    calls, tests, laws, path, at, after_if = [], [], set(), "c", start, None
    while at != "Start":
        thing = [field for field in records[at] if field != "before"][0]
        here = own.get(at + "·own")
        is_if = False
        if here is None and at.startswith("After-"):
            head = crate.head(thing)
            ensured = f"{path} .{thing} .ensures{' .0' if head.count('ensures') > 1 else ''}"
            if re.search(r"->\s*bool\b", head) and after_if is not None:
                tests.insert(after_if, "← " + ensured)
            else:
                calls.append(ensured)
        for field, type_ in (here or {}).items():
            if field in ("taken", "left"):
                fact, law = test_fact(f"{path} .{thing} .{field}", field, type_)
                is_if = is_if or law is None
                laws.update([law] if law else [])
                tests.append(fact)
            elif field == "given" and (thing.startswith("enum-told") or thing in known):
                tests.append(f"{path} .{thing} .given .1")
        after_if = len(tests) - 1 if is_if else None
        path += " .before"
        at = records[at]["before"]
    return calls + tests, laws


# ---- the file


def broken(answer):
    """A long answer, one fact to a line."""
    if len(answer.group(0)) <= WIDTH:
        return answer.group(0)
    parts, depth = [""], 0
    for letter in answer.group(2):
        depth += (letter == "(") - (letter == ")")
        if letter == "," and depth == 0:
            parts.append("")
        else:
            parts[-1] += letter
    return answer.group(1) + "\n    rw (\n" + "".join(f"      {part.strip()},\n" for part in parts) + "    )"


def without_routine(text):
    """The needs that `search needs` closes, put where their names stood."""
    found = dict(ROUTINE.findall(text))
    text = ROUTINE.sub("", text)
    at = text.rindex("tie.spec")
    needs = text[at:]
    for name, bound in found.items():
        needs = re.sub(r"(?<![\w-])%s(?![\w-])" % re.escape(name), f"(λ{bound}. search needs)", needs, count=1)
    return text[:at] + needs


def answered(crate, generated, text, opened):
    """The text with each `returns` answered, and the imports that the answers need."""
    laws, plain = set(), []

    def answer(found):
        need = found.group(1)
        start = re.search(r"Need-%s =\s*\n?\s*\(c : (\S+?)\)" % re.escape(need), generated).group(1)
        known, needed = facts(crate, generated, start)
        laws.update(needed)
        plain.extend([] if known else [need])
        unfolding = f"unfolding {' '.join(opened)}\n" if opened else ""
        return f"{need} : tie.Need-{need}\n{unfolding}{need} c = {'rw (%s)' % ', '.join(known) if known else 'refl'}"

    text = RETURNS.sub(answer, text)
    uses = [f"use {crate.opens[name]}.{{{name}}}\n" for name in opened]
    uses += ["use mathlib.Core.Path.{refl}\n"] if plain else []
    uses += [f"use borrow.Author.Tests.{{{', '.join(sorted(laws))}}}\n"] if laws else []
    return "".join(uses) + text


def fill(crate, path, generated_folder):
    """Answers what the printed lines leave open in one file."""
    place = path.parent.relative_to(crate.folder / "proofs")
    generated = read(generated_folder / f"Rattle·{crate.name}·proofs" / "proofs" / place / "Lts.antt")
    text = answered(crate, generated, read(path), crate.opened_by(place.name.replace("_", "-")))
    text = re.sub(r"(?m)^use \S+ as (reads|lts|\S+-reads)\n", "", text)
    text = re.sub(r"(?m)^-- src/\S+:\d+:\d+\n", "", text)
    text = without_routine(re.sub(r"(?m)^(returns\S* c =) rw \((.*)\)$", broken, text))
    write(path, HEAD % "::".join((crate.name,) + place.parts) + text)
    print("wrote", path.relative_to(TOP), "(holes left)" if "= ?" in text else "")


def main():
    parser = words(__doc__)
    parser.add_argument("crate", metavar="CRATE", help="a crate of crates.txt")
    name = parser.parse_args().crate
    if not (TOP / "crates" / name / "src").is_dir():
        parser.error(f"{name}: no such crate")
    need("rt")
    crate = Crate(name)
    wrote = write_printed(crate)
    if not wrote:
        print("nothing to write")
        return 0
    with tempfile.TemporaryDirectory() as folder:
        rt("dev", name, "--generated", folder)
        for path in wrote:
            fill(crate, path, pathlib.Path(folder))
    return 0


if __name__ == "__main__":
    sys.exit(main())
