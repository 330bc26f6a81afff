#!/usr/bin/env python3
"""Makes docs/TRACE.md from the tags in the files: for each sentence of documents 01 and 02 that rules the machine, the
account or the console, the definition that states it, the code that does it, the laws about it and the must-fail edits that
break it.

    tools/trace.py           rewrites docs/TRACE.md
    tools/trace.py --check   exits 1 if docs/TRACE.md is not what the files say

docs/tags.txt has the tags, each with the sentence in our words and, where no edit can break it, why. Its headings say which
request of document 02 the tags under them belong to, and whether that has landed or is to come. Refused, with or without
--check: a tag, or a row of docs/DECISIONS.md, that is not there; a ruling sentence that no definition cites, or no code where
it rules the code's form; a function that cites such a sentence and has what it rules out; a ruling sentence with neither an
edit nor a reason; an example that nothing states. A request to come is spared all but the first, but no crate may cite it.

A tag stands in a comment and speaks of the declaration under it, and of those of the same type that follow it without a
comment of their own.
"""
import collections
import re
import sys

from page import TOP, asks_check, keep, read

TAG = re.compile(r"\[([A-Z][A-Za-z]+\.\d+[a-z]?)\](?:–\[([A-Z][A-Za-z]+\.\d+[a-z]?)\])?")
HEADING = re.compile(r"# (Document 01|N\d+ ([A-Z][a-z]+)): (landed|to come)")
ROW = re.compile(r"\[Open: (\w+)\]|DECISIONS ([A-Z]\d+)")
# a declaration of specs/ or proofs/ and of src/: the name, then the type
ANTT = re.compile(r"\s*(?:(?:abbrev|unfoldable)\s+)?(?:pub\s+)?(?:(?:record|data)\s+)?([\w'·-]+)\s*($|[:({].*)")
RATTLE = re.compile(r'\s*(?:pub\s+)?(?:const|fn|struct|enum|extern "C" fn)\s+(\w+)([^=]*).*')
# what stands between a comment and its declaration, and what ends a file's head
MODIFIERS, IMPORTS = ("unfolding", "module", "#["), ("use ", "ghost use ", "mod ", "pub mod ")

# sentences that are no rule but an example of one, beside those of Bench and Lab
WORKED = ("Console.9", "Console.10", "Blind.5", "Table.3", "Table.6b")
# sentences on the form of the code, which no definition states, with what a function that cites one may not have
OF_CODE = {"Split.2a": "/%"}
FUNCTION = re.compile(r"(?m)((?:^ *//.*\n)+)^( *)(?:pub )?fn (\w+).*\n(?:.*\n)*?\2\{\n((?:.*\n)*?)\2\}\n")

HEAD = """# From documents 01 and 02 to the definitions, and back

A row for each sentence that rules the machine, the account or the console, by its tag: those of document 01, and those of
each request of document 02 that has landed. From left to right: what it says, in our words; the definition that states it,
which is what a buyer believes; the code that does it, whose contract is an equality with that definition; the laws about it,
where there are any; and the must-fail edits: wrong machines, or wrong statements, that the prover refuses because of this
sentence. Each name leads to its file.

`tools/trace.py` makes this page from the tags in the files and from [tags.txt](tags.txt); `tools/trace.py --check` refuses a
row that is no longer true, a tag that does not exist, a sentence without a definition or an edit, and a crate that cites a
request which has not landed. A sentence on the form of the code has no definition, and must have code; that this code has
nothing that the sentence rules out is checked too.
"""
RULES = """
| Sentence | In our words | Definition | Code | Laws | Must-fail edits |
|---|---|---|---|---|---|
"""
TO_COME = """
## To come

Requests of document 02 that have not landed: nothing here is built yet.

| Request | Sentence | In our words |
|---|---|---|
"""
EXAMPLES = """
## Examples, misreadings and impostors

| Sentence | In our words | Stated in | Must-fail edits |
|---|---|---|---|
"""


# what stands under one heading of docs/tags.txt: document 01, or a request of document 02 and the word of its tags
Part = collections.namedtuple("Part", "name word landed tags")


class Sentences:
    """docs/tags.txt: the tags in the documents' order, with our words and the reason why there is no edit."""

    def __init__(self, listed):
        self.parts, self.tags, self.words, self.reason, self.faults = [], [], {}, {}, []
        for line in filter(str.strip, listed.splitlines()):
            if line.startswith("#") or not self.parts:
                self.see_heading(line)
            else:
                self.see_sentence(*line.split("\t", 2))
        self.to_come = {tag for part in self.parts if not part.landed for tag in part.tags}
        self.decisions = set(re.findall(r"(?m)^\| ([A-Z]\d+) \|", read(TOP / "docs" / "DECISIONS.md")))

    def see_heading(self, line):
        found = HEADING.fullmatch(line)
        if not found:
            self.faults.append(f"docs/tags.txt: not a heading: {line}")
        name, word, state = found.groups() if found else (line, None, "to come")
        self.parts.append(Part(name, word, state == "landed", []))

    def see_sentence(self, tag, words="", reason=""):
        part = self.parts[-1]
        if part.word not in (None, tag.split(".")[0]):
            self.faults.append(f"docs/tags.txt: [{tag}] stands under {part.name}")
        part.tags.append(tag)
        self.tags.append(tag)
        self.words[tag], self.reason[tag] = words, reason

    def is_example(self, tag):
        return tag.startswith("Bench") or tag in WORKED or tag.startswith("Lab") and self.words[tag] != ""

    def is_rule(self, tag):
        return self.words[tag] != "" and not self.is_example(tag)

    def cited(self, text, where):
        """The tags that a text cites, a range and the parts of a sentence written out."""
        found = []
        for first, last in TAG.findall(text):
            ends = [first, last or first]
            known = all(tag in self.tags for tag in ends)
            named = self.tags[self.tags.index(ends[0]) : self.tags.index(ends[1]) + 1] if known else ends[: 2 if last else 1]
            for tag in named:
                full = [known for known in self.tags if known == tag or re.sub(r"[a-z]$", "", known) == tag]
                if not full:
                    self.faults.append(f"{where}: no such sentence: [{tag}]")
                found += full
        return found

    def built(self, text, where):
        """The tags that a file of crates/ cites, which are none of a request to come."""
        found = self.cited(text, where)
        self.faults += [f"{where}: [{tag}] is of a request that has not landed" for tag in found if tag in self.to_come]
        return found

    def see_rows(self, text, where):
        for groups in ROW.findall(text):
            if "".join(groups) not in self.decisions:
                self.faults.append(f"{where}: no such row of docs/DECISIONS.md: {''.join(groups)}")


def declarations(lines, mark, pattern):
    """(comment, names) of the declarations that a comment with a tag speaks of."""
    comment, names, kind = "", None, None
    for line in lines + [mark]:
        text = line.strip()
        if text.startswith((mark,) + IMPORTS):
            if names and TAG.search(comment):
                yield comment, names
            goes_on = names is not None and not names and text.startswith(mark)
            comment, names, kind = (comment + "\n" if goes_on else "") + text, [], None
            if not text.startswith(mark):
                names = None
        elif text and not text.startswith(MODIFIERS) and names is not None:
            found = pattern.fullmatch(line) if pattern is RATTLE or " = " not in text else None
            type_ = found.group(2).strip() if found else ""
            if found and (not names or type_ == kind):
                names.append(found.group(1))
                # a type that goes on in the next line is like no other
                kind = None if type_ in ("", ":", "(") else type_
            elif found or not names:
                if names and TAG.search(comment):
                    yield comment, names
                names = None


def misformed(text, where):
    """The functions that have what a sentence on their form, which they cite, rules out; comments do not count."""
    for comment, _, name, body in FUNCTION.findall(text):
        for tag, ruled_out in OF_CODE.items():
            if f"[{tag}]" in comment and set(ruled_out) & set(re.sub(r"//.*", "", body)):
                yield f"{where}: {name} has one of {ruled_out}, which [{tag}] rules out"


def link(names, where):
    """One link for the declarations under one comment."""
    shown = names[0] if len(names) == 1 else f"{names[0]}{', ' if len(names) == 2 else ' … '}{names[-1]}"
    return f"[{shown}](../{where})"


def gather(sentences):
    """For each kind of place and each tag, links to the names there."""
    found = {kind: {tag: [] for tag in sentences.tags} for kind in ("definition", "code", "law", "example", "edit")}
    # a claim restates a law; what bench defines serves its examples alone
    places = (
        ("definition", "crates/*/specs/*.antt", ("claims", "bench"), "--", ANTT),
        ("code", "crates/*/src/**/*.rt", (), "//", RATTLE),
        ("law", "crates/claims/specs/*.antt", (), "--", ANTT),
        ("law", "crates/*/proofs/*.antt", ("bench",), "--", ANTT),
        ("example", "crates/bench/specs/*.antt", (), "--", ANTT),
        ("example", "crates/bench/proofs/*.antt", (), "--", ANTT),
    )
    for kind, pattern, but, mark, name in places:
        for path in sorted(TOP.glob(pattern)):
            where = path.relative_to(TOP)
            if where.parts[1] in but:
                continue
            text = read(path)
            sentences.built(text, where)
            sentences.see_rows(text, where)
            if kind == "code":
                sentences.faults += misformed(text, where)
            for comment, names in declarations(text.splitlines(), mark, name):
                for tag in sentences.cited(comment, where):
                    found[kind][tag].append(link(names, where))
    for path in sorted(TOP.glob("crates/*/must-fail/*.edit")):
        where = path.relative_to(TOP)
        for tag in sentences.built(read(path).splitlines()[0], where):
            found["edit"][tag].append(f"[{path.stem}](../{where})")
    for path in sorted(TOP.glob("docs/*.md")) + sorted(TOP.glob("reference/src/**/*.rs")):
        if path.name != "TRACE.md":
            sentences.cited(read(path), path.relative_to(TOP))
            sentences.see_rows(read(path), path.relative_to(TOP))
    return found


def cell(links, most):
    links = list(dict.fromkeys(links))
    return ", ".join(links[:most]) + (f" and {len(links) - most} more" if len(links) > most else "")


def rule_row(sentences, found, tag):
    """The row of a ruling sentence that has landed, and its faults."""
    edits = cell(found["edit"][tag], 4) or "none: " + sentences.reason[tag]
    definition, code, law = (cell(found[kind][tag], most) for kind, most in (("definition", 5), ("code", 4), ("law", 4)))
    needed = "code" if tag in OF_CODE else "definition"
    if not found[needed][tag]:
        sentences.faults.append(f"no {needed} cites [{tag}]")
    if tag in OF_CODE:
        definition = "none: it rules the form of the code"
    if not found["edit"][tag] and not sentences.reason[tag]:
        sentences.faults.append(f"no edit breaks [{tag}], and docs/tags.txt does not say why")
    return f"| {tag} | {sentences.words[tag]} | {definition} | {code} | {law} | {edits} |\n"


def example_row(sentences, found, tag):
    where, edits = cell(found["example"][tag] or found["definition"][tag] + found["law"][tag], 3), cell(found["edit"][tag], 4)
    if not where and not edits:
        sentences.faults.append(f"nothing states [{tag}]")
    return f"| {tag} | {sentences.words[tag]} | {where} | {edits} |\n"


def to_come(sentences):
    """The section of the requests that have not landed, if there is one."""
    rows = [(part.name.split()[0], tag) for part in sentences.parts for tag in part.tags if tag in sentences.to_come]
    said = [f"| {name} | {tag} | {sentences.words[tag]} |\n" for name, tag in rows if sentences.words[tag]]
    return TO_COME + "".join(said) if said else ""


def page(sentences, found):
    text = HEAD
    for part in (part for part in sentences.parts if part.landed):
        rows = [rule_row(sentences, found, tag) for tag in filter(sentences.is_rule, part.tags)]
        text += f"\n## {part.name}\n{RULES}{''.join(rows)}"
    examples = [tag for tag in filter(sentences.is_example, sentences.tags) if tag not in sentences.to_come]
    return text + to_come(sentences) + EXAMPLES + "".join(example_row(sentences, found, tag) for tag in examples)


def main():
    check = asks_check(__doc__)
    sentences = Sentences(read(TOP / "docs" / "tags.txt"))
    text = page(sentences, gather(sentences))
    for fault in dict.fromkeys(sentences.faults):
        print(fault)
    return max(keep(TOP / "docs" / "TRACE.md", text, check), 1 if sentences.faults else 0)


if __name__ == "__main__":
    sys.exit(main())
