#!/usr/bin/env python3
"""Draws docs/TIMING.md from what the console prints: each script below goes through ./console, a column is a tick.

    tools/timing.py           rewrites docs/TIMING.md
    tools/timing.py --check   exits 1 if docs/TIMING.md is not what the console prints
"""
import itertools
import sys
import textwrap

import names
import session
from page import TOP, asks_check, keep
from sentences import line_words

PAGE = TOP / "docs" / "TIMING.md"
SCRIPTS = [
    ("first", "A class 1 event",
     "It waits for no higher level: level 2 and level 3 accept rise with the end of Delay, and Front loads the word."),
    ("class3", "A class 3 event with both passes",
     "Level 2 passes, then level 3; the word is loaded from Front."),
    ("late", "A late fail",
     "T1 is in use and the level 2 fail comes at 2 × T1 or after: the word is loaded with the late bit."),
    ("cleared", "A cleared event",
     "The level 2 fail comes at age 5, before 2 × T1: the event is cleared. T5 is in use, so the clear line is high for T5 "
     "ticks; the pulse after that is accepted."),
    ("rejected", "A rejected pattern",
     "Input 2's word is not OK: its pulse is rejected, and the two ticks after it are blind. Input 1's pulses in them are lost, "
     "the third is accepted. Blind is the count that the tick leaves: while it is above 0 the next tick is not ready."),
    ("scheduled_sync", "A scheduled sync",
     "Every second event has the sync bit; Sync hold keeps main until every branch is empty."),
    ("user_sync", "A user sync",
     "The tag is loaded while main is Idle. When every branch is empty the wait ends, and pause and sync is cleared with GO: "
     "the next pulse is stopped."),
    ("test_pulses", "Test pulses",
     "Test mode blocks the pulse and the level 2 pass from outside; what is written to TEST acts in the next tick: "
     "acknowledges too, which are low in tick 9, though one is high outside. Two writes act together in tick 10. The "
     "last pulse is dropped, as test mode is off in tick 11: in tick 12, in test mode again, there is none."),
    ("single_step", "A held clock and single steps",
     "A held tick stops its pulse and changes nothing: lines out and shown words stay, and STATE shows the tick before "
     "it. Each single step lets one tick run. RESET keeps hold, which is cleared before tick 9."),
]
HEAD = """# Timing

Made by `tools/timing.py` from what the console prints for the scripts named. A column is a tick of 20 ns, with the time at
which it starts. A line in and a mask are those of the tick; a line out, a shown word and main's state are as the tick leaves
them. Main's state is followed from the calls and the answers; Hold is Sync hold. Calls other than ticks take no time and stand
under the drawing. `tools/wave SCRIPT` writes the same as a file for GTKWave, `tools/explain SCRIPT` says it in words.

Held marks a tick that leaves all as it is, since the clock is held. In a tick of test mode the trigger, the lines in
and the acknowledge are those in force: test pulse is high where bits written to TEST act, blocked where something that
comes from outside does not. The file of `tools/wave` has all that comes from outside, and the bits written beside it.
"""
COLUMNS = 125
SHORT = {"Sync hold": "Hold"}


def row(label, cells):
    return f"{label:>16} " + " ".join(f"{cell:>5}" for cell in cells)


def wave(label, levels):
    return row(label, ["▔▔▔▔▔" if level else "▁▁▁▁▁" for level in levels])


def waves(labels, numbers):
    """One wave for each bit that is high in some tick."""
    for bit, label in enumerate(labels):
        levels = [number >> bit & 1 for number in numbers]
        if any(levels):
            yield wave(label, levels)


def word(number):
    return "-" if number is None else f"{number:02X}"


def outcome(tick):
    marks = {kind: mark for mark, kind in names.OUTCOMES.items()}
    return marks[tick.outcome.kind] + ("" if tick.outcome.number is None else word(tick.outcome.number))


def is_blocked(line):
    return any((line.blocked.triggers, line.blocked.lines, line.blocked.acknowledges))


def modes(lines):
    """A wave for held ticks, for test mode, for what it brings and for what it blocks. [Test.2] [Test.7a]"""
    yield from waves(["held"], [line.is_held for line in lines])
    yield from waves(["test mode"], [line.is_tested for line in lines])
    yield from waves(["test pulse"], [line.written != 0 for line in lines])
    yield from waves(["blocked"], [is_blocked(line) for line in lines])


def diagram(lines):
    ticks = [line.met for line in lines]
    yield row("tick", [tick.number for tick in ticks])
    yield row("ns", [tick.start for tick in ticks])
    yield from modes(lines)
    yield wave("trigger", [tick.triggers for tick in ticks])
    yield from waves(names.LINES_IN, [tick.lines for tick in ticks])
    for mask in names.MASKS:
        if mask == "accepted" or any(tick.masks[mask] for tick in ticks):
            yield wave(mask, [tick.masks[mask] for tick in ticks])
    yield row("main", [SHORT.get(line.after.state, line.after.state.replace(" ", "")) for line in lines])
    yield from waves(names.LINES_OUT, [tick.out for tick in ticks])
    yield row("outcome", [outcome(tick) for tick in ticks])
    yield from waves(["user sync waits"], [line.after.waits for line in lines])
    if any(line.after.blind for line in lines):
        yield row("blind", [line.after.blind or "-" for line in lines])
    yield wave("acknowledge", [tick.acknowledges for tick in ticks])
    yield row("branch 1 shown", [word(tick.shown[0]) for tick in ticks])
    yield row("finished", [word(tick.finished[0]) for tick in ticks])


def notes(run):
    """The calls other than ticks, by the tick that they follow."""
    number = 0
    for is_tick, lines in itertools.groupby(run.lines, lambda line: line.tick is not None):
        if is_tick:
            number = list(lines)[-1].tick.number
            continue
        yield f"After tick {number}:\n" if number else "Before tick 1:\n"
        for line in lines:
            note = f"- `{session.shown(line.text)}`, `{line.answer}`: {'; '.join(line_words(line))}"
            yield textwrap.fill(note, COLUMNS, subsequent_indent="  ", break_on_hyphens=False)
        yield ""


def page():
    yield HEAD
    for name, title, says in SCRIPTS:
        run = session.run((TOP / "examples" / f"{name}.txt").read_bytes())
        yield f"## {title}\n\n" + textwrap.fill(f"`examples/{name}.txt`. {says}", COLUMNS) + "\n\n```"
        yield from diagram(run.ticks)
        yield "```\n"
        yield from notes(run)


def main():
    check = asks_check(__doc__)
    return keep(PAGE, "\n".join(page()).rstrip() + "\n", check)


sys.exit(main())
