"""A script's lines in words: what each asks, what came back, and why a call was declined or a line not read."""
import names
import session
from declines import decline_words, form_faults
from names import bits
from standing import unready


def listed(items, none="nothing"):
    return ", ".join(items) or none


def inputs(mask):
    """A trigger pattern or mask as inputs: bit i is input i + 1. [Memory.1]"""
    numbers = [str(bit + 1) for bit in bits(mask)]
    return ("input " if len(numbers) == 1 else "inputs ") + ", ".join(numbers) if numbers else "no input"


def csr_names(value):
    return [names.CSR_BITS.get(bit, f"bit {bit}") for bit in bits(value)]


def controllers(value):
    """ROC enable and acknowledges: the controllers of each branch. [Registers.1]"""
    numbers = {b: [str(r) for r in bits(session.byte(value, b))] for b in names.BRANCHES}
    return "; ".join(
        f"branch {b} controller{'s' * (len(rocs) > 1)} {', '.join(rocs)}" for b, rocs in numbers.items() if rocs
    )


def word_words(word):
    """A word on a branch. [Main.9]"""
    marks = [f"code {word & 0xF:X}", *(["sync"] if word & names.SYNC else []), *(["late"] if word & names.LATE else [])]
    return f"{word:02X} ({', '.join(marks)})"


# ---- registers

def csr_write(value):
    """Clear wins over set. [CSRWrite.1]–[CSRWrite.2d]"""
    if value & names.INITIALIZE:
        return "CSR: INITIALIZE, the record becomes fresh, all else in the value is ignored"
    clears = value >> names.CLEAR_SHIFT & names.CONTROLS
    sets = value & names.CONTROLS & ~clears
    parts = [
        *(["set " + listed(csr_names(sets))] if sets else []),
        *(["clear " + listed(csr_names(clears))] if clears else []),
        *(["clear the status bits"] if value & names.CLEAR_STATUS else []),
        *(["RESET"] if value & names.RESET else []),
    ]
    return "CSR: " + ("; ".join(parts) or "nothing set or cleared")


def test_names(value):
    return listed(names.TEST_BITS[bit] for bit in bits(value))


def control_words(value):
    parts = [
        inputs(value >> 1 & 0xFFF) + " enabled",
        *(["common strobe mode"] if value & names.STROBE_MODE else []),
        *(["OPEN PRESCALES"] if value & names.OPEN_PRESCALES else []),
    ]
    return ", ".join(parts)


def timer_words(register, value):
    """T1–T4 count 40 ns, T5 counts 20 ns. [Widths.2] [Widths.3]"""
    unit = names.TICK_NS if register == names.T5 else 2 * names.TICK_NS
    ticks = value * unit // names.TICK_NS
    return f"{value} ({value} × {unit} ns = {ticks} tick{'s' * (ticks != 1)}, {value * unit} ns)"


def interval_words(value):
    if value == 0:
        return "0 (no event is a sync event)"
    return f"{value} (with enable sync, one event in {value} is a sync event)"


def value_words(register, value):
    """A register's value, CSR excepted."""
    if register == names.CONTROL:
        return control_words(value)
    if register in names.FACTORS:
        return f"{value} ({'each pulse passes' if value == 0 else f'one pulse in {value + 1} passes'})"
    if register == names.ROC:
        return controllers(value) or "no controller"
    if register == names.INTERVAL:
        return interval_words(value)
    if names.T1 <= register <= names.T5:
        return timer_words(register, value)
    if register == names.ASSIGN:
        return f"{value:02X} (counts: {names.assigned(value)})"
    return str(value)


def write_words(register, value):
    if register >= len(names.TAKEN) or names.TAKEN[register] is None:
        return f"write of register {register:02X}"
    name = names.REGISTERS[register]
    if value & ~names.TAKEN[register] or register == names.ASSIGN and names.assigned(value) is None:
        return f"{name} := {value:X}"
    if register == names.CSR:
        return csr_write(value)
    if register == names.TEST:
        return f"{name}: {test_names(value)}"
    if register in names.SCALERS:
        return f"{name} := 0, whatever the value"
    return f"{name} := {value_words(register, value)}"


def read_words(register, answer):
    name = names.REGISTERS[register]
    if register == names.CSR:
        return f"{name} is {listed(csr_names(int(answer, 16)), 'all clear')}"
    if register == names.STATE:
        return f"{name} is {listed(names.STATE_BITS[bit] for bit in bits(int(answer, 16)))}"
    return f"{name} is {value_words(register, int(answer, 16))}"


# ---- memory

def memory_word(word):
    """The lowest class bit decides; with none the word is not OK. [Memory.2] [Memory.3]"""
    classes = [str(c) for c in (1, 2, 3) if word >> c & 1]
    rest = f"code {word >> 4 & 0xF:X}, accept pattern {word >> 8:02X}"
    if not word & 1:
        return f"not OK (bit 0 is clear), {rest}"
    if not classes:
        return f"not OK (no class bit), {rest}"
    lowest = f" (the lowest of {', '.join(classes)})" if len(classes) > 1 else ""
    return f"OK, class {classes[0]}{lowest}, {rest}"


def place_words(place):
    return f"memory at {place:03X} ({inputs(place)})"


# ---- ticks

def pulse_parts(tick):
    pulses = [f"pulse on {inputs(tick.triggers)}"] if tick.triggers else []
    return pulses + [names.LINES_IN[bit] for bit in bits(tick.lines)]


def acknowledge_parts(tick):
    return ["acknowledges of " + controllers(tick.acknowledges)] if tick.acknowledges else []


def written_parts(line):
    """What was written and acts in a tick of test mode. [Test.3] [Test.4]"""
    branches = [str(b) for b, bit in zip(names.BRANCHES, names.TEST_BRANCHES) if line.written >> bit & 1]
    none = ["pulse on no input"] if line.written & names.PULSE and not line.met.triggers else []
    acknowledges = f"all acknowledges of branch {', '.join(branches)}" if branches else "all acknowledges low"
    return none + pulse_parts(line.met) + ([acknowledges] if line.written & names.TEST_ACKNOWLEDGES else [])


def tested_words(line):
    """What a tick of test mode meets: what was written, what acts from outside, what is blocked. [Test.2] [Test.4]"""
    outside = [] if line.written & names.TEST_ACKNOWLEDGES else acknowledge_parts(line.tick)
    blocked = pulse_parts(line.blocked) + acknowledge_parts(line.blocked)
    if line.is_held:
        given = ["In: " + listed(outside)]
    else:
        given = ["Written: " + listed(written_parts(line)), *("from outside: " + words for words in outside)]
    return "; ".join(given + (["blocked: " + listed(blocked)] if blocked else []))


def asked_words(line):
    if line.is_tested:
        return tested_words(line)
    return "In: " + listed(pulse_parts(line.tick) + acknowledge_parts(line.tick))


def tick_words(line):
    """The tick's number and time, and what marks it. [Test.7a] [Test.8a]"""
    marks = [
        *(["held"] if line.is_held else ["single step"] if line.before.csr & names.HOLD else []),
        *(["in test mode"] if line.is_tested else []),
    ]
    return ", ".join([f"tick {line.tick.number}", f"{line.tick.start} ns", *marks])


def by_branch(label, numbers):
    """A word of each branch; one for all where they are alike."""
    if None not in numbers and len(set(numbers)) == 1:
        return [f"{label} by each branch: {word_words(numbers[0])}"]
    return [f"{label} by branch {b}: {word_words(n)}" for b, n in zip(names.BRANCHES, numbers) if n is not None]


def outcome_words(outcome):
    if outcome.kind == "none":
        return []
    return [f"outcome {outcome.kind}" + (f" {word_words(outcome.number)}" if outcome.number is not None else "")]


def mask_words(line, mask):
    """A mask's inputs; for lost pulses and those that a held tick stops with the reason. [Ready.1] [Blind.2] [Test.7a]"""
    pulses = line.tick.masks[mask]
    why = f" ({', '.join(unready(line.before, line.met.lines))})" if mask == "lost" else ""
    why = " (the clock is held)" if mask == "stopped" and line.is_held else why
    return [f"{mask} {inputs(pulses)}{why}"] if pulses else []


def answered_words(line):
    tick = line.tick
    lines = [names.LINES_OUT[bit] for bit in bits(tick.out & 0xFF)]
    lines += [f"accept pattern {tick.pattern:02X}"] if tick.pattern else []
    parts = [
        *(words for mask in names.MASKS for words in mask_words(line, mask)),
        *(["lines out " + ", ".join(lines)] if lines else []),
        *outcome_words(tick.outcome),
        *by_branch("finished", tick.finished),
        *by_branch("shown", tick.shown),
    ]
    return "; ".join(parts) or "nothing"


# by the blind count that a call leaves [Blind.2]
BLIND = ["no longer blind", "blind in the next tick", "blind in the next two ticks"]


def test_changes(line):
    """What waits of TEST, and what is dropped of it. [Test.6] [Test.8a] [Test.8b]"""
    before, after = line.before.test, line.after.test
    if line.is_held and before:
        yield "waiting: " + test_names(before)
    if line.tick and not line.is_held and not line.is_tested and before & ~names.STEP:
        yield f"dropped, as test mode is off: {test_names(before & ~names.STEP)}"
    if line.tick and before & names.STEP and not line.before.csr & names.HOLD:
        yield "the single step is used up, though the clock is not held"
    if not line.tick and before & ~after:
        yield "dropped: " + test_names(before & ~after)
    if line.fields[0] == names.TEST and line.kind == "W":
        if line.fields[1] & names.STEP and not line.before.csr & names.HOLD:
            yield "the single step is not kept: the clock is not held"
        if before:
            yield "waiting: " + test_names(after)


def changes(line):
    """What the call changed besides what it asks or answers: main's state, the user sync's wait, the blind count, CSR bits
    0–13, what waits of TEST."""
    before, after = line.before, line.after
    yield from test_changes(line)
    if before.state != after.state:
        yield f"main: {before.state} → {after.state}"
    if before.waits != after.waits:
        yield "a user sync waits" if after.waits else "the user sync's wait ends"
    if before.blind != after.blind:
        yield BLIND[after.blind]
    if line.tick and before.csr != after.csr:
        yield "cleared in the CSR: " + listed(csr_names(before.csr & ~after.csr))


# ---- any line

def call_words(line):
    """What a line asks and, for a read, what came back. A tick carried out is in line_words."""
    first = line.fields[0]
    if line.kind == "W":
        return write_words(*line.fields)
    if line.kind == "R":
        return f"read of register {first:02X}" if line.declined else read_words(first, line.answer)
    if line.kind == "M":
        return f"{place_words(first)} := {memory_word(line.fields[1])}"
    if line.kind == "V":
        name = place_words(first)
        return f"read of {name}" if line.declined else f"{name} is {memory_word(int(line.answer, 16))}"
    return "tick"


def line_words(line):
    """The sentences of a line."""
    if line.kind == "":
        return ["not read: " + "; ".join(form_faults(line.text))]
    if line.declined:
        return [f"declined: {call_words(line)}", f"because {decline_words(line)}"]
    if not line.tick:
        return [call_words(line), *changes(line)]
    return [f"{tick_words(line)}. {asked_words(line)}", f"Out: {answered_words(line)}", *changes(line)]
