#!/usr/bin/env python3
"""Writes the setters of the definitions: antt has no update of a record, so each one lists every field of its record.

    tools/fields.py           rewrites the literal of each setter from the fields of its record, as code or antt declares it
    tools/fields.py --check   exits 1 if one is not what the record says

A setter is two lines of crates/*/specs: `abbrev pub with_csr : Csr → Core → Core`, and `with_csr v c = record { .. csr = v; .. }`.
Which field it sets is what its literal gives v to. A field more in a record is then one line of code and one run of this tool.
"""
import re
import sys

from page import TOP, asks_check, read, write

SETTER = re.compile(r"(?m)^(abbrev pub (with_\w+) : .+ → (\w+) → \3\n\2 v (\w+) = record) \{(.*)\}$")
STRUCT = re.compile(r"(?m)^pub struct (\w+) \{\n((?:    .*\n)+)\}")
RECORD = re.compile(r"(?m)^pub record (\w+) : Type 0 where\n((?:  .*\n)+)")


def records(crate):
    """The fields of each record that a crate declares, in their order."""
    found = {}
    for path in sorted(crate.glob("src/**/*.rt")):
        found.update({name: re.findall(r"(?m)^    pub (\w+):", body) for name, body in STRUCT.findall(read(path))})
    for path in sorted(crate.glob("specs/*.antt")):
        found.update({name: re.findall(r"(?m)^  pub (\w+) :", body) for name, body in RECORD.findall(read(path))})
    return found


def setter(found, fields, where, faults):
    """The two lines of a setter, with a value for each field of its record."""
    head, name, record, held, body = found.groups()
    given = re.findall(r"(\w+) = v(?=[ ;])", body)
    if len(given) != 1 or given[0] not in fields.get(record, []):
        faults.append(f"{where}: {name} gives v to no field of {record}, or to more than one")
        return found.group(0)
    values = [f"{field} = {'v' if field == given[0] else f'{held}.{field}'}" for field in fields[record]]
    return f"{head} {{ {'; '.join(values)} }}"


def main():
    check, faults, count = asks_check(__doc__), [], 0
    for path in sorted(TOP.glob("crates/*/specs/*.antt")):
        where, text = path.relative_to(TOP), read(path)
        fields = records(path.parent.parent) if SETTER.search(text) else {}
        made = SETTER.sub(lambda found: setter(found, fields, where, faults), text)
        count += len(SETTER.findall(text))
        if made != text and check:
            faults.append(f"{where} is not true: run tools/fields.py")
        elif made != text:
            write(path, made)
            print(f"{where} written")
    print("\n".join(faults) or f"{count} setters list the fields of their records")
    return 1 if faults else 0


if __name__ == "__main__":
    sys.exit(main())
