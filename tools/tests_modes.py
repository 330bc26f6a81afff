"""Tests of test mode and the held clock: what is followed, what does not fit, and the words. Run by tests.py."""
import session
from page import TOP
from sentences import line_words
from tests_run import FIRST, TICK, Scripts, run, script_of

PULSE, STEP = "T 001 00 00000000", "W 15 00000080"
HELD, TESTED = [*FIRST[:2], "W 00 00001001"], [*FIRST[:2], "W 00 00002001"]
BUSY = "T 001 20 00000000"


class Followed(Scripts):
    """What the follower makes of both modes, by main's state, the bits that wait, and STATE, which it checks."""

    def left(self, *lines):
        after = run(*lines).lines[-1].after
        return after.state, after.csr, after.test

    def test_held(self):
        self.assertEqual(self.left(*HELD, PULSE), ("Idle", 0x1001, 0))
        held = run(*HELD, BUSY, "R 14").lines[-2]
        self.assertEqual((held.is_held, held.tick.masks["stopped"], held.before == held.after), (True, 1, True))
        self.assertEqual(run(*HELD, "W 00 00002000", PULSE).lines[-1].tick.masks["stopped"], 0)
        self.assertEqual(self.left(*HELD, "W 15 00000105", TICK), ("Idle", 0x1001, 0x105))

    def test_lines_out_of_a_held_tick(self):
        """Those of main and the shown words stay; the line of CSR bit 5 goes by the CSR; RESET lowers all."""
        shown = [*FIRST[:7], "W 00 00001000", TICK]
        self.assertEqual([run(*shown).lines[-1].tick.out, run(*shown).lines[-1].tick.shown], [0, [5] * 4])
        self.assertEqual(run(*FIRST[:5], "W 00 00001020", TICK).lines[-1].tick.out, 0x155)
        self.assertEqual(run(*FIRST[:5], "W 00 00005000", TICK, "R 14").lines[-2].tick.out, 0)

    def test_step(self):
        self.assertEqual(self.left(*HELD, STEP, PULSE), ("Delay", 0x1001, 0))
        self.assertEqual(self.left(*HELD, STEP, STEP, PULSE, TICK), ("Delay", 0x1001, 0))
        self.assertEqual(self.left(*FIRST[:3], STEP), ("Idle", 1, 0))
        self.assertEqual(self.left(*FIRST[:3], STEP, "W 00 00001000", PULSE), ("Idle", 0x1001, 0))
        self.assertEqual(self.left(*HELD, STEP, "W 00 10000000", "W 00 00001000", PULSE), ("Delay", 0x1001, 0))
        self.assertEqual(self.left(*HELD, STEP, "W 00 10000000", TICK, "W 00 00001000", PULSE), ("Idle", 0x1001, 0))

    def test_pulses(self):
        self.assertEqual(self.left(*TESTED, PULSE), ("Idle", 0x2001, 0))
        self.assertEqual(self.left(*TESTED, "W 15 00000001", TICK), ("Delay", 0x2001, 0))
        self.assertEqual(self.left(*TESTED, "W 15 00000001", "W 15 00000100"), ("Idle", 0x2001, 0x101))
        self.assertEqual(self.left(*TESTED, "W 15 00000001", "W 15 00000200", TICK), ("Idle", 0x2001, 0))
        self.assertEqual(self.left(*FIRST[:3], "W 15 00000001", "W 00 00002000", TICK), ("Delay", 0x2001, 0))
        met = run(*TESTED, "W 15 00007F3D", "T FFE 00 12345678").lines[-1].met
        self.assertEqual((met.triggers, met.lines, met.acknowledges), (1, 0x7F, 0xFFFFFFFF))
        self.assertEqual(run(*TESTED, "W 15 00003C00", "T 000 00 12345678").lines[-1].met.acknowledges, 0x12345678)

    def test_strobe_mode(self):
        strobed = ["M 001 0153", "W 01 00000003", "W 00 00002001"]
        self.assertEqual(self.left(*strobed, "W 15 00000001", TICK)[0], "Delay")
        held = [line.tick.masks["stopped"] for line in run(*strobed, "W 00 20001000", PULSE, "T 001 01 00000000").ticks]
        self.assertEqual(held, [0, 1])

    def test_dropped(self):
        self.assertEqual(self.left(*FIRST[:3], "W 15 00000001", TICK, "W 00 00002000", TICK), ("Idle", 0x2001, 0))
        self.assertEqual(self.left(*TESTED, "W 15 00000001", "W 00 00004000"), ("Idle", 0x2000, 0))
        self.assertEqual(self.left(*HELD, STEP, "W 00 00004000", "W 00 00000001", PULSE), ("Idle", 0x1001, 0))

    def test_reset(self):
        """RESET keeps both modes, as its own write leaves them; INITIALIZE clears them."""
        both = [*FIRST[:2], "W 00 00003001"]
        for value, csr in [("00004000", 0x3000), ("10004000", 0x2000), ("20004000", 0x1000), ("30007000", 0),
                           ("0000B000", 0)]:
            self.assertEqual(self.left(*both, f"W 00 {value}", "R 00"), ("Idle", csr, 0))
        self.assertEqual(self.left("W 00 00005000", "R 00"), ("Idle", 0x1000, 0))

    def test_control_while_active(self):
        self.assertEqual(self.left(*TESTED, "W 01 00000004", "W 15 00000001", TICK)[0], "Idle")
        self.assertEqual(run(*TESTED, "W 01 00000004").lines[-1].after.control, 4)


class Modes(Scripts):
    """Answers that do not fit, and words."""

    def wrong(self, number, old, new, *lines):
        script = script_of(*lines)
        self.misfits(script, session.printed(script), number, old, new)

    def test_wrong_held_ticks(self):
        """A held tick with a pulse that is not stopped, another line out, an outcome, a word finished or not shown."""
        shown = [*FIRST[:7], "W 00 00001000", PULSE, TICK]
        for old, new in [("001 000", "000 001"), ("001 000", "000 000"), ("001 000", "003 000"), (" 0000 -", " 0001 -"),
                         (" 0000 -", " 0000 c"), (" - - - - - 05", " - 05 - - - 05"), ("05 05 05 05", "05 05 05 -"),
                         ("05 05 05 05", "05 05 05 04"), ("000 000 0000", "000 001 0000")]:
            self.wrong(10, old, new, *shown)

    def test_wrong_test_ticks(self):
        """A pulse from outside that counts, a written one that does not, or in a mask too many."""
        self.wrong(5, "000 000 0000", "000 001 0101", *TESTED, PULSE)
        self.wrong(6, "001 0101", "000 0000", *TESTED, "W 15 00000001", TICK)
        self.wrong(6, "000 000 001", "001 000 001", *TESTED, "W 15 00000001", TICK)
        self.wrong(7, "001 000 000 000", "000 000 000 000", *TESTED, "W 00 00010000", "W 15 00000101", TICK)

    def test_wrong_state(self):
        """Each bit of STATE, wrong in any one read of the examples, does not fit."""
        for name in ("test_pulses", "single_step"):
            script = (TOP / "examples" / f"{name}.txt").read_bytes()
            answers = session.printed(script)
            for line in (line for line in session.run(script).lines if line.text == "R\t14"):
                for bit in range(32):
                    self.misfits(script, answers, line.number, line.answer, f"{int(line.answer, 16) ^ 1 << bit:08X}")

    def test_writes(self):
        self.says("CSR: set hold the clock, test mode", "W 00 00003000")
        self.says("CSR: set GO; clear hold the clock, test mode", "W 00 30000001")
        self.says("CSR is hold the clock, test mode", "W 00 00003000", "R 00")
        self.says("TEST: level 2 pass, front busy", "W 15 00000104")
        self.says("TEST: nothing", "W 15 00000000")
        self.says("TEST: inhibit, acknowledge of branch 4, test acknowledges; waiting: level 3 fail, inhibit, "
                  "acknowledge of branch 4, test acknowledges", "W 15 00000020", "W 15 00006200")
        self.says("TEST: single step; the single step is not kept: the clock is not held", STEP)
        self.says("CSR: RESET; dropped: level 1 pass, single step", *HELD, "W 15 00000081", "W 00 00004000")

    def test_ticks(self):
        tested = "tick 1, 0 ns, in test mode. "
        self.says("tick 1, 0 ns, held. In: pulse on input 1; Out: stopped input 1 (the clock is held); "
                  "waiting: level 2 pass", *HELD, "W 15 00000004", PULSE)
        self.says("tick 1, 0 ns, held, in test mode. In: nothing; blocked: pulse on input 1, front busy; Out: nothing",
                  *HELD, "W 00 00002000", BUSY)
        self.says("tick 1, 0 ns, single step, in test mode. Written: front busy; Out: nothing",
                  *HELD, "W 00 00002000", "W 15 00000180", TICK)
        self.says(tested + "Written: nothing; from outside: acknowledges of branch 1 controller 0; "
                  "blocked: inhibit; Out: nothing", *TESTED, "T 000 40 00000001")
        self.says(tested + "Written: pulse on no input, strobe, all acknowledges of branch 1, 4; "
                  "blocked: acknowledges of branch 2 controller 0; Out: nothing",
                  "W 00 00002001", "W 15 00006401", "T 000 00 00000100")
        self.says(tested + "Written: all acknowledges low; Out: nothing", *TESTED, "W 15 00004000", TICK)
        lost = run(*TESTED, "W 15 00000101", PULSE).lines[-1]
        self.assertIn("lost input 1 (front busy is high)", line_words(lost)[1])
        self.says("tick 1, 0 ns. In: nothing; Out: nothing; dropped, as test mode is off: level 1 pass",
                  *FIRST[:3], "W 15 00000001", TICK)
        self.says("tick 1, 0 ns. In: nothing; Out: nothing; the single step is used up, though the clock is not held",
                  *HELD, STEP, "W 00 10000000", TICK)

    def test_declines(self):
        active = "because the record is active: GO is set (registers {} are not written then; in test mode 01 is); "
        active += "status 19 (write error) is set"
        self.because(3, "because TEST is write only", "R 15")
        for bit in (1, 6, 15):
            self.because(5, f"because bit {bit} of the value is not taken: TEST takes bits 0, 2–5, 7–14",
                         f"W 15 {1 << bit:08X}")
        self.because(5, "because bits 16, 31 of the value are not taken: TEST takes bits 0, 2–5, 7–14", "W 15 80010000")
        self.because(4, active.format("01–10"), *FIRST[:3], "W 01 00000002")
        self.because(4, active.format("02–10"), *TESTED, "W 02 00000001")
        self.says("trigger control := input 2 enabled", *TESTED, "W 01 00000004")
