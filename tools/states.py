"""Follows main's state, c, the user sync's wait, the blind count, the branches, CSR bits 0–13, control, T5, ROC enable,
what waits of TEST and the latest tick that ran from a script's calls and answers alone. Each is what the call leaves.
What does not fit documents 01 and 02 is a Misfit, never a guess."""
import names
import test_mode
from names import ACCEPT2, ACCEPT3, CLEAR, FAIL2, FAIL3, OK, PASS2, PASS3, START2, START3
from standing import Standing, is_wanted, unready

RAISED = OK | START2 | ACCEPT2 | START3 | ACCEPT3

# the lines out that can rise, by the states before and after the tick; no other two states follow each other
RISES = {
    ("Idle", "Idle"): {0},
    ("Idle", "Delay"): {OK},  # [Ready.5] [Main.2]
    ("Idle", "Wait 2"): {OK | START2},
    ("Wait 2", "Wait 2"): {0},
    ("Wait 2", "Delay"): {ACCEPT2},  # [Main.4]
    ("Wait 2", "Wait 3"): {ACCEPT2 | START3},
    ("Wait 2", "Front"): {0},  # [Main.6] late
    ("Wait 2", "Clear"): {CLEAR},
    ("Wait 3", "Wait 3"): {0},
    ("Wait 3", "Front"): {0, ACCEPT3},  # [Main.5]; 0 where it is late
    ("Wait 3", "Clear"): {CLEAR},
    ("Delay", "Delay"): {0, ACCEPT2, ACCEPT3},  # [Main.7]
    ("Delay", "Front"): {ACCEPT2, ACCEPT3, ACCEPT2 | ACCEPT3},
    ("Front", "Front"): {0},
    ("Front", "Space"): {0},  # [Main.12]
    ("Front", "Sync hold"): {0},
    ("Space", "Space"): {0},
    ("Space", "Idle"): {0},  # [Main.13]
    ("Sync hold", "Sync hold"): {0},
    ("Sync hold", "Idle"): {0},  # [Main.14]
    ("Clear", "Clear"): {0},
    ("Clear", "Idle"): {0},  # [Main.15]
}
# the outcome, where it is not none
REPORTS = {
    ("Wait 2", "Clear"): "cleared",
    ("Wait 3", "Clear"): "cleared",
    ("Front", "Space"): "event",
    ("Front", "Sync hold"): "event",
}


class Misfit(AssertionError):
    """An answer that does not follow from what went before."""


def fit(holds, what):
    if not holds:
        raise Misfit(what)


def after_wait(tick, fail, passes, passed, stays):
    """Fail beats pass; a fail that does not clear is late. [Main.3] [Main.6]"""
    if tick.lines & fail:
        return "Clear" if tick.outcome.kind == "cleared" else "Front"
    return passed if tick.lines & passes else stays


def state_after(state, tick):
    """Where the tick leaves main."""
    if state == "Idle" and not tick.masks["accepted"]:
        return "Idle"
    if state == "Idle":
        return "Wait 2" if tick.out & START2 else "Delay"
    if state == "Delay":
        return "Front" if tick.out & ACCEPT2 and tick.out & ACCEPT3 else "Delay"
    if state == "Wait 2":
        return after_wait(tick, FAIL2, PASS2, "Wait 3" if tick.out & START3 else "Delay", state)
    if state == "Wait 3":
        return after_wait(tick, FAIL3, PASS3, "Front", state)
    if state == "Front":
        word = tick.outcome.number
        return "Front" if word is None else "Sync hold" if word & names.SYNC else "Space"
    # Space, Sync hold and Clear end where level 1 OK falls [Main.17]
    return state if tick.out & OK else "Idle"


class Follower:
    def __init__(self):
        self.fresh()

    def fresh(self):
        self.csr, self.control, self.t5, self.roc = 0, 0, 0, 0
        # of the latest tick that ran: lines and acknowledges in force, whether it latched a pattern [State.3] [Test.7b]
        self.lines, self.acknowledges, self.latched = 0, 0, False
        self.idle()

    def idle(self):
        """All at Idle, no word held, not blind, nothing waiting, as after RESET. [CSRWrite.2d] [Blind.3] [Test.8b]"""
        self.test = 0
        self.state, self.out, self.late, self.clear, self.waits, self.blind = "Idle", 0, False, 0, False, 0
        self.queues = [[], [], [], []]
        self.strobes, self.drops = [False] * 4, [False] * 4

    # ---- calls other than ticks

    def wrote(self, register, value):
        """A register write that was carried out. [CSRWrite.1] [CSRWrite.2a] [CSRWrite.2d] [Test.8b] [Test.10]"""
        if register == names.CONTROL:
            self.control = value
        if register == names.TEST:
            self.test = test_mode.waiting(self.test, self.csr, value)
        if register == names.T5:
            self.t5 = value
        if register == names.ROC:
            self.roc = value
        if register != names.CSR:
            return
        if value & names.INITIALIZE:
            return self.fresh()
        self.csr = (self.csr | value & names.CONTROLS) & ~(value >> names.CLEAR_SHIFT & names.CONTROLS)
        if value & names.RESET:
            self.csr &= ~(names.GO | names.PAUSE_NEXT | names.PAUSE_AND_SYNC | names.FORCE_SYNC)
            self.idle()

    def read(self, register, value):
        fit(register != names.CSR or value & 0xFFFF == self.csr, f"CSR bits 0–15 should be {self.csr:04X}")
        if register == names.STATE:
            word = sum(bit << place for place, bit in enumerate(self.state_bits()))
            fit(value == word, f"STATE should be {word:08X}")

    def state_bits(self):
        """STATE, bit by bit. [State.2]–[State.7]"""
        out, line = (lambda bit: bool(self.out & bit)), (lambda bit: bool(self.lines & bit))
        ready = not unready(self.standing(), self.lines)
        cycle, held = self.state != "Idle", any(self.queues)
        active = self.csr & names.GO or cycle or self.waits or is_wanted(self.csr) or held or any(self.drops)
        locks = [self.csr & (names.ROC_LOCK | (names.ROC_LOCK_4 if b == 3 else 0)) for b in range(4)]
        full = any(len(queue) >= (1 if lock else 8) for queue, lock in zip(self.queues, locks))
        bits = [
            *(out(OK), out(START2), line(PASS2), line(FAIL2), out(ACCEPT2), out(START3), line(PASS3), line(FAIL3)),
            *(out(ACCEPT3), self.clear > 0, line(names.BUSY), line(names.INHIBIT), self.latched, not ready, cycle, ready),
            *(bool(active), self.state == "Sync hold" or self.waits, not held, full),
        ]
        for b in range(4):
            enabled, high = self.roc >> 8 * b & 0xFF, self.high(b)
            bits += [self.strobes[b], high == enabled, high != 0]
        return bits

    def high(self, b):
        """Of the latest tick that ran: the acknowledges of the controllers enabled now on the branch at place b."""
        return (self.acknowledges & self.roc) >> 8 * b & 0xFF

    def standing(self):
        queued = tuple(len(queue) for queue in self.queues)
        return Standing(self.state, self.waits, self.blind, self.csr, queued, self.control, self.test)

    # ---- ticks

    def ticked(self, tick):
        """A tick carried out, as it was given from outside. [Test.2] [Test.7a]"""
        standing = self.standing()
        self.check_counted(standing, tick)
        if test_mode.is_held(standing):
            self.check_held(tick)
        else:
            self.test = 0
            self.ran(test_mode.in_force(standing, tick))

    def check_counted(self, standing, tick):
        """Each counted pulse is in one mask. [Account.11] [Test.9]"""
        pulses = [place for mask in tick.masks.values() for place in names.bits(mask)]
        counted = test_mode.counted(standing, tick)
        fit(sorted(pulses) == names.bits(counted), f"the pulses that count are {counted:03X}, each of them in one mask")

    def check_held(self, tick):
        """Pulses are stopped; lines out and shown words are as they stand, and nothing else is there. [Test.7a]"""
        fit(sum(tick.masks.values()) == tick.masks["stopped"], "held, but not every pulse is stopped")
        fit(tick.outcome.kind == "none", f"held, but the outcome is {tick.outcome.kind}")
        fit(not any(word is not None for word in tick.finished), "held, but a branch finished a word")
        out = self.out & ~names.LEVEL1 | (names.LEVEL1 if self.csr & names.HARDWARE else 0)
        fit(tick.out == out, f"held: the lines out should stay {out:04X}")
        shown = [queue[0] if strobe else None for queue, strobe in zip(self.queues, self.strobes)]
        fit(tick.shown == shown, "held, but the shown words are not as they stand")

    def ran(self, tick):
        """A tick that runs, with what is in force in it."""
        empty = not any(self.queues)
        self.lines, self.acknowledges = tick.lines, tick.acknowledges
        self.latched = bool(tick.masks["accepted"] | tick.masks["rejected"])
        self.check_pulses(tick)
        self.check_user_sync(tick)
        state = state_after(self.state, tick)
        self.check_move(state, tick)
        self.count_clear(state, tick)
        self.move_branches(tick)
        if self.state == "Sync hold":
            self.end_sync_hold(empty, state)
        if self.waits:
            self.end_user_sync(empty)
        else:
            self.waits = tick.outcome.kind == "tag"
        self.late = state != "Idle" and (self.late or self.is_late(state, tick))
        self.blind = names.BLIND_TICKS if tick.masks["rejected"] else max(0, self.blind - 1)  # [Blind.2]
        self.state, self.out = state, tick.out

    def check_pulses(self, tick):
        """Passed pulses are lost by a unit that is not ready, and latched by a ready one. [Ready.2] [Ready.3]"""
        why = unready(self.standing(), tick.lines)
        latched = tick.masks["accepted"] | tick.masks["rejected"]
        fit(not (why and latched), f"pulses latched, but {', '.join(why)}")
        fit(why or not tick.masks["lost"], "pulses lost by a ready unit")

    def check_user_sync(self, tick):
        """A tag is loaded exactly where one is wanted, main is Idle and none waits. [Usersync.1]"""
        due = is_wanted(self.csr) and self.state == "Idle" and not self.waits
        fit((tick.outcome.kind == "tag") == due, "a tag is due" if due else "a tag that is not due")

    def is_late(self, state, tick):
        fails = {"Wait 2": FAIL2, "Wait 3": FAIL3}.get(self.state, 0)
        return state == "Front" and bool(tick.lines & fails)

    def check_move(self, state, tick):
        """The lines out and the outcome are those of this move."""
        move = f"main from {self.state} to {state}"
        main, before = tick.out & (RAISED | CLEAR), self.out & (RAISED | CLEAR)
        fit(main & ~before in RISES.get((self.state, state), ()), f"{move}: lines out {tick.out:04X}")
        kind = tick.outcome.kind
        fit(kind in (REPORTS.get((self.state, state), "none"), "tag"), f"{move}: outcome {kind}")
        if kind == "event":
            fit(bool(tick.outcome.number & names.LATE) == self.late, f"{move}: the word's late bit")
        if self.is_late(state, tick):
            fit(main == before, f"{move}: a late fail raises no line")
        if state == "Idle":
            fit(main == 0 and tick.pattern == 0, f"{move}: lines out {tick.out:04X}")
        else:
            # only the clear line falls in a cycle, in Clear [Main.16]
            fit(before & ~main in ((0, CLEAR) if self.state == "Clear" else (0,)), f"{move}: a line fell")
            fit(self.state == "Idle" or tick.pattern == self.out >> names.PATTERN_SHIFT, f"{move}: the accept pattern")
        fit(bool(tick.out & names.LEVEL1) == bool(self.csr & names.HARDWARE), "the line of CSR bit 5")

    def count_clear(self, state, tick):
        """c starts with the fail and falls to 0; only then can Clear end. [Main.15] [Main.16]"""
        fit(state != "Idle" or self.clear == 0, "Clear ended while c was above 0")
        if self.state != "Clear" and state == "Clear":
            self.clear = max(1, self.t5) if self.csr & names.USE_T5 else 1
        elif self.clear > 0:
            self.clear -= 1
        fit(bool(tick.out & CLEAR) == (self.clear > 0), f"the clear line, where c is {self.clear}")

    def move_branches(self, tick):
        """Finished and shown words are the queue's first; the load comes behind. [Branches.1] [Branches.2] [Branches.5]"""
        for b, queue in enumerate(self.queues):
            finished, shown = tick.finished[b], tick.shown[b]
            fit(finished is None or queue[:1] == [finished], f"branch {b + 1} finished a word that is not its first")
            fit(finished is None or shown is None, f"branch {b + 1} finished a word and shows one")
            del queue[: finished is not None]
            fit(shown is None or queue[:1] == [shown], f"branch {b + 1} shows a word that is not its first")
            if tick.outcome.number is not None:
                queue.append(tick.outcome.number)
            fit(len(queue) <= 8, f"branch {b + 1} holds more than 8 words")
            self.strobes[b] = shown is not None
            self.drops[b] = finished is not None or self.drops[b] and self.high(b) != 0  # [Branches.2] [Branches.3]

    def end_sync_hold(self, empty, state):
        """It ends where all are empty at the tick's start; bit 1 goes with GO. [Main.14]"""
        fit(empty == (state == "Idle"), "Sync hold ends where all branches are empty")
        if empty and self.csr & names.PAUSE_NEXT:
            self.csr &= ~(names.PAUSE_NEXT | names.GO)

    def end_user_sync(self, empty):
        """Waiting, all empty at the tick's start: bits 2 and 3 go, and GO by bit 2. [Usersync.2]"""
        if empty:
            self.waits = False
            self.csr &= ~(names.GO if self.csr & names.PAUSE_AND_SYNC else 0)
            self.csr &= ~(names.PAUSE_AND_SYNC | names.FORCE_SYNC)
