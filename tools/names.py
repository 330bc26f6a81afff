"""The names of documents 01 and 02 that the tools print: registers and their bits, lines, masks, main's states, declines."""
import re

# [Registers.1] [State.1] [Test.1]
REGISTERS = (
    ["CSR", "trigger control"]
    + [f"factor of input {i}" for i in range(1, 9)]
    + ["ROC enable", "sync interval", "T1", "T2", "T3", "T4", "T5", "scaler 0", "scaler 1", "scaler 1 assign", "STATE",
       "TEST"]
)
CSR, CONTROL, FACTORS, ROC, INTERVAL, T1, T5, SCALERS, ASSIGN = 0, 1, range(2, 10), 10, 11, 12, 16, (17, 18), 19
STATE, TEST = 20, 21

# [CSR.1] [CSR.2] [Test.1]; the bits 0–13 are set and cleared by a write, the others are read only
CSR_BITS = {
    0: "GO", 1: "pause on next sync", 2: "pause and sync", 3: "force sync", 4: "enable sync",
    5: "enable level 1 hardware", 6: "use T1", 7: "use T4", 8: "use T5", 9: "ROC lock", 10: "ROC lock on branch 4",
    11: "override inhibit", 12: "hold the clock", 13: "test mode", 16: "inhibit occurred", 17: "late fail occurred",
    18: "sync occurred", 19: "write error", 20: "read error",
}
CONTROLS = 0x3FFF
GO, PAUSE_NEXT, PAUSE_AND_SYNC, FORCE_SYNC, ENABLE_SYNC, HARDWARE = (1 << bit for bit in range(6))
USE_T5, ROC_LOCK, ROC_LOCK_4, OVERRIDE, HOLD, TEST_MODE = (1 << bit for bit in range(8, 14))
# [CSRWrite.1] [CSRWrite.2c] [CSRWrite.2d] only in a written value
RESET, INITIALIZE, CLEAR_STATUS, CLEAR_SHIFT = 1 << 14, 1 << 15, 1 << 31, 16
# [Control.1]
STROBE_MODE, OPEN_PRESCALES = 1 << 0, 1 << 15

# [Test.1] by bit: section 3.10 of source document 001; a level 1 pass is a pulse on every enabled input [Test.3]
TEST_BITS = {
    0: "level 1 pass", 2: "level 2 pass", 3: "level 3 pass", 4: "level 2 fail", 5: "level 3 fail", 7: "single step",
    8: "front busy", 9: "inhibit", 10: "acknowledge of branch 1", 11: "acknowledge of branch 2",
    12: "acknowledge of branch 3", 13: "acknowledge of branch 4", 14: "test acknowledges",
}
PULSE, STEP, TEST_ACKNOWLEDGES = 1 << 0, 1 << 7, 1 << 14
# the bits of TEST that stand for the lines in, by the line's bit, and for the acknowledges, by branch [Test.2]–[Test.4]
TEST_LINES = [0, 2, 4, 3, 5, 8, 9]
TEST_BRANCHES = [10, 11, 12, 13]

# the bits that a write takes; STATE is not written
# [Widths.1] [Widths.2] [Declines.2d] [State.8b] [Test.5a] [Test.10]
TAKEN = (
    [0xBFFFFFFF, 0x9FFF] + [0xFFFFF] * 4 + [0x3FFF] * 4
    + [0xFFFFFFFF, 0xFFFF, 0xFFFF, 0xFFFF, 0xFFFF, 0xFFFF, 0xFF, 0xFFFFFFFF, 0xFFFFFFFF, 0x7F]
    + [None, sum(1 << bit for bit in TEST_BITS)]
)

# [Tick.1] [Answer.1] by bit; the accept pattern is bits 8–15 of the lines out
LINES_IN = ["strobe", "level 2 pass", "level 2 fail", "level 3 pass", "level 3 fail", "front busy", "inhibit"]
LINES_OUT = ["level 1 OK", "level 2 start", "level 2 accept", "level 3 start", "level 3 accept", "clear", "CSR bit 5"]
STROBE, PASS2, FAIL2, PASS3, FAIL3, BUSY, INHIBIT = (1 << bit for bit in range(7))
OK, START2, ACCEPT2, START3, ACCEPT3, CLEAR, LEVEL1 = (1 << bit for bit in range(7))
PATTERN_SHIFT = 8
MASKS = ["stopped", "scaled", "lost", "rejected", "accepted"]

# [Main.9] the bits of a word
SYNC, LATE = 1 << 4, 1 << 5
OUTCOMES = {"-": "none", "c": "cleared", "e": "event", "g": "tag"}
BRANCHES = range(1, 5)
# [State.2] by bit: section 3.11 of source document 001
STATE_BITS = [
    "level 1 OK", "level 2 start", "level 2 pass", "level 2 fail", "level 2 accept", "level 3 start", "level 3 pass",
    "level 3 fail", "level 3 accept", "clear", "front busy", "inhibit", "pattern latched", "TS busy", "main in a cycle",
    "ready", "active", "synchronization", "buffers empty", "buffer full",
] + [f"branch {b} {signal}" for b in BRANCHES for signal in ("strobe", "AND of acknowledges", "OR of acknowledges")]
STATES = ["Idle", "Delay", "Wait 2", "Wait 3", "Front", "Space", "Sync hold", "Clear"]
TICK_NS = 20
# [Blind.2] ticks that are not ready after a rejected pattern
BLIND_TICKS = 2

# [Console.1] [Console.2] [Console.3] a line's fields, each with its count of digits
LONGEST = 65536
FIRST = b"supervisor\t1"
FORMS = {
    "W": (("register", 2), ("value", 8)),
    "R": (("register", 2),),
    "M": (("place", 3), ("word", 4)),
    "V": (("place", 3),),
    "T": (("triggers", 3), ("lines", 2), ("acknowledges", 8)),
}
# [Console.5] a line of other form
OTHER_FORM = 6

# [Declines.2a]–[Declines.5c] why, by number; what 4 sets, by the call
DECLINES = {
    1: "the record is spoiled",
    2: "the memory does not have 4,096 words",
    3: "no such register: 15 is the last",
    4: "the record is active",
    5: "the value is out of range",
    6: "a line of other form",
}
ACTIVE_SETS = {"W": 19, "M": 19, "V": 20}


def has_digits(field, count):
    """[Console.3]"""
    return re.fullmatch("[0-9A-F]{%d}" % count, field) is not None


def bits(number):
    """The bits of a number that are set, lowest first."""
    return [bit for bit in range(number.bit_length()) if number >> bit & 1]


def assigned(code):
    """What scaler 1 counts by this code; None for a code that is not listed. [Assign.1]"""
    single = {0x00: "any pulse passed", 0x0D: "latched", 0x0E: "accepted", 0x0F: "fast reset"}
    rows = {0x1: "level 2 fail", 0x2: "level 3 fail", 0x3: "late fail", 0x5: "sync word loaded"}
    if 0x01 <= code <= 0x0C:
        return f"input {code} passed"
    return single.get(code) or rows.get(code >> 4)
