#!/usr/bin/env python3
"""Respells the definitions and lemmas of specs/ and proofs/: words in snake case, as today's Rattle spells them.

usage: tools/respell.py [FOLDER]   once, at the top of a checkout (or of FOLDER), after the kit's port/port.py

`acceptIn` becomes `accept_in`, and `accept-raises` becomes `accept_raises`. A lemma that would have the name of a definition
gets `_lem`. Names of src/, of types, modules and facts (which begin with a capital), and of the library stay. Files are
rewritten in place; what a name becomes is decided by the name alone and by LEMMAS below, so two checkouts agree.

The crate `core` becomes `module_core`: Rattle has a library of that name now.
"""

import pathlib
import re
import sys

# a declaration: its words, then its names, then a colon
DECLARED = re.compile(
    r"^\s*(?:(?:pub|abbrev|unfoldable|data|record)\s+)*([^\s:(){};,]+(?:\s+[^\s:(){};,]+)*)(?:\s*[({][^)}]*[)}])*\s*:\s")
# what stands between two names
TOKEN = re.compile(r"[^\s(){}\[\].,;\"«»`]+")
# lemmas that have the name of a definition once both are in snake case, and those that port.py brought there
LEMMAS = {
    name: name.replace("-", "_") + "_lem"
    for name in (
        "with-modes fresh-branches factor-at modes-after blind-examples bytes-examples fill-examples state-examples test-examples "
        "hold-examples p9-taken p9-declined number-first reset-keeps-modes reset-keeps modes-are-stored test-is-written "
        "control-is-open outside-is-blocked in-wait2 outside-acks-stay step-at order-examples with-csr with-scalers are-apart "
        "setting-number stopped-row passed-row bench-runs fact-at passed-at has-form csr-writes saved-at lines-of setup-text "
        "gathered-from table-bit or_at and_at goes_on scaled_at").split()
}


# what port.py took for the library's own: paths into the crate `core`
CRATE = [
    (re.compile(r"Rattle\.core\."), "Rattle.module_core."),
    (re.compile(r"Rattle\.std\.(specs|proofs)\.(?=(?:declared\.)?(?:Core|CoreStep|Latched|Cycled|CoreFields|QuietStep|Spoiled|"
                r"StaysIdle|CoreCycle|CoreEvents|CoreIdle|CoreLaws|CoreParts)(?![\w']))"), r"Rattle.module_core.\1."),
    (re.compile(r"\bcore::"), "module_core::"),
]


def snake(name):
    """A name in snake case."""
    name = re.sub(r"(?<=[a-z0-9])([A-Z])", lambda m: "_" + m.group(1).lower(), name)
    return name.replace("-", "_")


def files(top):
    """The Rattle and antt files of a checkout."""
    for path in sorted((top / "crates").rglob("*")):
        if path.suffix in (".antt", ".rt") and "out" not in path.relative_to(top).parts:
            yield path


def declared(top):
    """The names that the files of specs/ and those right in proofs/ declare."""
    names = set()
    for path in files(top):
        parts = path.relative_to(top).parts
        if path.suffix != ".antt" or (parts[2] == "proofs" and len(parts) > 4):
            continue
        for line in path.read_text().splitlines():
            found = None if line.strip().startswith("--") else DECLARED.match(line)
            if found:
                names.update(found.group(1).split())
    return names


def spellings(top):
    """What each name becomes, where that is another."""
    turned = {}
    for name in declared(top):
        if name in LEMMAS:
            turned[name] = LEMMAS[name]
        elif name[0].islower() and ("-" in name or re.search("[a-z0-9][A-Z]", name)):
            turned[name] = snake(name)
    return turned


def rename_crate(top):
    """Takes the crate `core` to its new name, in crates.txt and in its folder."""
    if (top / "crates/core").is_dir():
        (top / "crates/core").rename(top / "crates/module_core")
    listed = top / "crates.txt"
    lines = [line.partition("#") for line in listed.read_text().splitlines()]
    listed.write_text("".join(re.sub(r"\bcore\b", "module_core", a) + b + c + "\n" for a, b, c in lines))


def main(argv):
    top = pathlib.Path(argv[0] if argv else ".")
    rename_crate(top)
    turned = spellings(top)
    count = 0
    for path in files(top):
        old = path.read_text()
        new = TOKEN.sub(lambda m: turned.get(m.group(), m.group()), old)
        for written, meant in CRATE:
            new = written.sub(meant, new)
        if new != old:
            path.write_text(new)
            count += 1
    print(f"{len(turned)} names, {count} files")


if __name__ == "__main__":
    main(sys.argv[1:])
