"""Test mode and the held clock, from what stands before a tick (standing.Standing): whether the tick is held, what is
in force in it, what is blocked, and the pulses that count."""
import dataclasses

import names


def waiting(before, csr, value):
    """What waits of TEST after a write: all writes together; a single step only under hold. [Test.6] [Test.8a]"""
    return before | (value if csr & names.HOLD else value & ~names.STEP)


def is_held(standing):
    """The tick does not run: hold, and no single step waits. [Test.7a] [Test.8a]"""
    return bool(standing.csr & names.HOLD) and not standing.test & names.STEP


def is_tested(standing):
    return bool(standing.csr & names.TEST_MODE)


def enabled(standing):
    """The inputs that control enables, as a mask. [Control.1]"""
    return standing.control >> 1 & 0xFFF


def written_lines(test):
    """The lines in that these bits of TEST stand for. [Test.2]; the strobe is high with bit 0 [Test.3]"""
    return sum(1 << line for line, bit in enumerate(names.TEST_LINES) if test >> bit & 1)


def written_acknowledges(test):
    """All lines of each branch whose bit is there. [Test.4]"""
    return sum(0xFF << 8 * branch for branch, bit in enumerate(names.TEST_BRANCHES) if test >> bit & 1)


def acting(standing):
    """The bits of TEST that act: none in a held tick, where they wait, nor without test mode. [Test.6] [Test.7a]"""
    return standing.test & ~names.STEP if is_tested(standing) and not is_held(standing) else 0


def in_force(standing, tick):
    """The tick with the triggers, lines and acknowledges that it meets. [Test.2]–[Test.4]"""
    if not is_tested(standing):
        return tick
    test = acting(standing)
    return dataclasses.replace(
        tick,
        triggers=enabled(standing) if test & names.PULSE else 0,
        lines=written_lines(test),
        acknowledges=written_acknowledges(test) if test & names.TEST_ACKNOWLEDGES else tick.acknowledges,
    )


def blocked(standing, tick):
    """The tick with only what comes from outside and is blocked in it. [Test.2]–[Test.4]"""
    if not is_tested(standing):
        return dataclasses.replace(tick, triggers=0, lines=0, acknowledges=0)
    replaced = acting(standing) & names.TEST_ACKNOWLEDGES
    return dataclasses.replace(tick, acknowledges=tick.acknowledges if replaced else 0)


def counted(standing, tick):
    """The pulses that count: enabled, in strobe mode with a high strobe; none in a held tick of test mode. [Pulses.1]
    [Test.7a] [Test.9]"""
    met = in_force(standing, tick)
    strobed = met.lines & names.STROBE or not standing.control & names.STROBE_MODE
    return met.triggers & enabled(standing) if strobed else 0
