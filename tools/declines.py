"""Why a call was declined, and why a line is of other form, in words."""
import re

import names
from names import bits
from standing import is_wanted


def value_fault(register, value):
    """Why a register write gets 5. [Declines.2d]"""
    if register == names.ASSIGN:
        return f"code {value:X} is not listed: 00–3F and 50–5F are"
    outside = [str(bit) for bit in bits(value & ~names.TAKEN[register])]
    these = f"bit {outside[0]} of the value is" if len(outside) == 1 else f"bits {', '.join(outside)} of the value are"
    return f"{these} not taken: {names.REGISTERS[register]} takes {spans(names.TAKEN[register])}"


def spans(mask):
    """The bits of a mask as ranges: bits 0–12, 15."""
    runs = re.finditer("1+", format(mask, "b")[::-1])
    ranges = [f"{r.start()}–{r.end() - 1}" if len(r[0]) > 1 else str(r.start()) for r in runs]
    return "bits " + ", ".join(ranges)


def why_active(standing):
    """[Active.1]"""
    held = [f"branch {b} holds {n} word" + "s" * (n > 1) for b, n in enumerate(standing.queued, start=1) if n]
    why = [
        *(["GO is set"] if standing.csr & names.GO else []),
        *([f"main is at {standing.state}"] if standing.state != "Idle" else []),
        *(["a user sync waits"] if standing.waits else []),
        *(["a user sync is wanted"] if is_wanted(standing.csr) and not standing.waits else []),
        *held,
    ]
    return ", ".join(why) or "a branch is not at Rest"


def active_rule(line):
    """Which registers are not written while active; control is in test mode. [Declines.2c] [Test.2]"""
    if line.kind != "W":
        return ""
    tested = bool(line.before.csr & names.TEST_MODE)
    control = "; in test mode 01 is" if tested or line.fields[0] == names.CONTROL else ""
    return f" (registers {'02' if tested else '01'}–10 are not written then{control})"


def decline_words(line):
    """The reason of a decline of this line."""
    why = names.DECLINES[line.declined]
    if line.declined == 3 and line.fields[0] == names.STATE:
        return "STATE is read only"
    if line.declined == 3 and line.fields[0] == names.TEST:
        return "TEST is write only"
    if line.declined == 4:
        status, active = names.ACTIVE_SETS[line.kind], f"{why}: {why_active(line.before)}{active_rule(line)}"
        return f"{active}; status {status} ({names.CSR_BITS[status]}) is set"
    if line.declined == 5 and line.kind == "W":
        return value_fault(*line.fields)
    if line.declined == 5:
        return "the lines in are over 7F: bit 7 is no line"
    return why


# ---- lines of other form

def digits_fault(name, count, field):
    if len(field) != count:
        return f"{name}: {len(field)} digit{'s' * (len(field) != 1)}, where {count} are asked"
    if re.fullmatch("[0-9A-Fa-f]*", field):
        return f"{name}: lower-case digits"
    return f"{name}: not hexadecimal"


def letter_fault(letter):
    if letter.upper() in names.FORMS:
        return f"lower-case letter `{letter}`"
    comment = "; there are no comments" if letter[:1] in ("#", "/", ";", "-") else ""
    return "its first field is none of the letters W, R, M, V, T" + comment


def fields_fault(letter, given):
    """One fault of a line's fields, or one for each field."""
    form = names.FORMS[letter]
    if given[-1:] == [""] and len(given) > len(form):
        return ["a tab at its end"]
    if len(given) != len(form):
        wants = ", ".join(f"{name} ({count} digits)" for name, count in form)
        return [f"fields: {len(given)}, where {len(form)} are asked: {wants}"]
    bad = [(name, count, field) for (name, count), field in zip(form, given) if not names.has_digits(field, count)]
    return [digits_fault(*fault) for fault in bad]


def form_faults(text):
    """What is wrong with a line of other form. [Console.3]"""
    faults = ["a carriage return at its end (CRLF)"] if text.endswith("\r") else []
    text = text.rstrip("\r")
    if not text:
        return faults + ["an empty line"]
    letter, *given = text.split("\t")
    head = letter.split(" ")[0]
    if head not in names.FORMS:
        return faults + [letter_fault(head)]
    return faults + (["spaces, where tabs are asked"] if " " in text else fields_fault(letter, given))
