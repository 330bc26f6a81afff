#!/usr/bin/env python3
"""Tests of the tools: session and states, explain, wave, timing, diagrams, table, and what every command makes of its words.

    python3 tools/tests.py

They run the console, so that it must be built; see ./console.
"""
import pathlib
import tempfile
import unittest

import session
from page import TOP
from sentences import line_words
from tests_commands import Checks, Console, Edits, Requests, Setters, Tags, Words, tool  # noqa: F401  run here too
from tests_drawings import Diagrams, Timing, Wave  # noqa: F401
from tests_modes import Followed, Modes  # noqa: F401
from tests_run import FIRST, TICK, Scripts, run
from tests_table import Table  # noqa: F401


class Calls(Scripts):
    """A call's words, alone on a fresh record or after the calls before it."""

    def test_csr_write(self):
        self.says("CSR: set GO, use T1", "W 00 00000041")
        self.says("CSR: set enable sync; clear GO", "W 00 00010010")
        self.says("CSR: clear GO", "W 00 00010001")
        self.says("CSR: clear the status bits; RESET", "W 00 80004000")
        self.says("CSR: INITIALIZE, the record becomes fresh, all else in the value is ignored", "W 00 00008001")
        self.says("CSR: nothing set or cleared", "W 00 00000000")
        self.says("CSR: RESET; main: Delay → Idle", *FIRST[:4], "W 00 00004000")

    def test_register_write(self):
        self.says("trigger control := inputs 1, 12 enabled, common strobe mode, OPEN PRESCALES", "W 01 00009003")
        self.says("trigger control := no input enabled", "W 01 00000000")
        self.says("factor of input 1 := 2 (one pulse in 3 passes)", "W 02 00000002")
        self.says("factor of input 8 := 0 (each pulse passes)", "W 09 00000000")
        self.says("ROC enable := branch 1 controllers 0, 7; branch 4 controller 3", "W 0A 08000081")
        self.says("sync interval := 2 (with enable sync, one event in 2 is a sync event)", "W 0B 00000002")
        self.says("T1 := 3 (3 × 40 ns = 6 ticks, 120 ns)", "W 0C 00000003")
        self.says("T5 := 10 (10 × 20 ns = 10 ticks, 200 ns)", "W 10 0000000A")
        self.says("T5 := 1 (1 × 20 ns = 1 tick, 20 ns)", "W 10 00000001")
        self.says("scaler 1 := 0, whatever the value", "W 12 00000007")
        self.says("scaler 1 assign := 3F (counts: late fail)", "W 13 0000003F")

    def test_reads(self):
        self.says("CSR is all clear", "R 00")
        self.says("CSR is GO, write error", "W 00 00000001", "W 0C 00000001", "R 00")
        self.says("T2 is 5 (5 × 40 ns = 10 ticks, 200 ns)", "W 0D 00000005", "R 0D")
        self.says("scaler 1 assign is 0C (counts: input 12 passed)", "W 13 0000000C", "R 13")
        self.says("scaler 0 is 1", *FIRST, "R 11")
        ands = [f"branch {b} AND of acknowledges" for b in (1, 2, 3, 4)]
        self.says("STATE is " + ", ".join(["TS busy", "buffers empty", *ands]), "R 14")
        self.says("STATE is " + ", ".join(["ready", "active", "buffers empty", *ands]), "W 00 00000001", "R 14")

    def test_memory(self):
        self.says("memory at 001 (input 1) := OK, class 1, code 5, accept pattern 01", "M 001 0153")
        self.says("memory at 803 (inputs 1, 2, 12) := OK, class 2 (the lowest of 2, 3), code A, accept pattern FF", "M 803 FFAD")
        self.says("memory at 000 (no input) is not OK (bit 0 is clear), code 0, accept pattern 00", "V 000")
        self.says("memory at 002 (input 2) := not OK (no class bit), code 0, accept pattern 00", "M 002 0001")

    def test_ticks(self):
        said = [line_words(line) for line in run("W 0A 00000001", *FIRST, "T 000 61 80000001").lines][4:]
        accept = "lines out level 1 OK, level 2 accept, level 3 accept, accept pattern 01"
        self.assertEqual(said[0], ["tick 1, 0 ns. In: pulse on input 1",
                                   "Out: accepted input 1; lines out level 1 OK, accept pattern 01", "main: Idle → Delay"])
        self.assertEqual(said[1][1:], [f"Out: {accept}", "main: Delay → Front"])
        self.assertEqual(said[2][1:], [f"Out: {accept}; outcome event 05 (code 5)", "main: Front → Space"])
        self.assertEqual(said[3][1:], ["Out: shown by each branch: 05 (code 5)", "main: Space → Idle"])
        self.assertEqual(said[4][:1], ["tick 5, 80 ns. In: nothing"])
        self.assertEqual(said[5][0], "tick 6, 100 ns. In: strobe, front busy, inhibit, "
                                     "acknowledges of branch 1 controller 0; branch 4 controller 7")
        self.assertEqual(said[5][1], "Out: finished by branch 1: 05 (code 5)")

    def test_lost(self):
        pulse, opened = "T 001 00 00000000", "W 01 00008002"
        for why, *lines in [
            ("GO is clear", opened, pulse),
            ("main is at Delay", *FIRST[:4], pulse),
            ("front busy is high", *FIRST[:3], "T 001 20 00000000"),
            ("inhibit is high", *FIRST[:3], "T 001 40 00000000"),
            ("a user sync waits", *FIRST[:3], "W 00 00000018", TICK, pulse),
            ("blind after a rejected pattern", *FIRST[1:3], pulse, pulse),
            ("blind after a rejected pattern", *FIRST[1:3], pulse, TICK, pulse),
            ("GO is clear, a user sync is wanted, front busy is high", opened, "W 00 00000018", "T 001 20 00000000"),
        ]:
            self.assertIn(f"lost input 1 ({why})", line_words(run(*lines).lines[-1])[1])
        overridden = run(*FIRST[:2], "W 00 00000801", "T 001 40 00000000").lines[-1]
        self.assertIn("accepted input 1", line_words(overridden)[1])

    def test_user_sync(self):
        said = [line_words(line) for line in run("W 00 00000015", *[TICK] * 4).lines]
        self.assertEqual(said[1][1:], ["Out: outcome tag 10 (code 0, sync)", "a user sync waits"])
        self.assertEqual(said[4][1:], ["Out: nothing", "the user sync's wait ends", "cleared in the CSR: GO, pause and sync"])


    def test_blind(self):
        pulse = "T 001 00 00000000"
        said = [line_words(line) for line in run(*FIRST[1:3], pulse, pulse, TICK, pulse, "W 00 00004000").lines]
        self.assertEqual(said[2][1:], ["Out: rejected input 1", "blind in the next two ticks"])
        self.assertEqual(said[3][2:], ["blind in the next tick"])
        self.assertEqual(said[4][1:], ["Out: nothing", "no longer blind"])
        self.assertEqual(said[5][1:], said[2][1:])
        self.assertEqual(said[6][1:], ["no longer blind"])


class Declines(Scripts):
    def test_declines(self):
        active = "because the record is active: GO is set"
        self.because(3, "because STATE is read only", "W 14 00000000")
        self.because(3, "because no such register: 15 is the last", "W 16 00000000")
        self.because(3, "because no such register: 15 is the last", "R FF")
        self.because(4, active + " (registers 01–10 are not written then); status 19 (write error) is set",
                     "W 00 00000001", "W 0C 00000003")
        self.because(4, active + "; status 19 (write error) is set", "W 00 00000001", "M 001 0153")
        self.because(4, active + "; status 20 (read error) is set", "W 00 00000001", "V 001")
        self.because(4, "because the record is active: a user sync is wanted; status 20 (read error) is set",
                     "W 00 00000014", "V 001")
        self.because(4, "because the record is active: main is at Front; status 20 (read error) is set",
                     *FIRST[:5], "W 00 00010000", "V 001")
        held = ", ".join(f"branch {b} holds 1 word" for b in (1, 2, 3, 4))
        self.because(4, f"because the record is active: {held}; status 20 (read error) is set",
                     *FIRST[:7], "W 00 00010000", "V 001")
        self.because(4, "because the record is active: a branch is not at Rest; status 20 (read error) is set",
                     *FIRST, "W 00 00010000", "V 001")
        self.because(5, "because bit 14 of the value is not taken: factor of input 8 takes bits 0–13", "W 09 00004000")
        self.because(5, "because bit 30 of the value is not taken: CSR takes bits 0–29, 31", "W 00 40001000")
        self.because(5, "because bits 13, 16 of the value are not taken: trigger control takes bits 0–12, 15",
                     "W 01 00012000")
        self.because(5, "because code 40 is not listed: 00–3F and 50–5F are", "W 13 00000040")
        self.because(5, "because the lines in are over 7F: bit 7 is no line", "T 001 80 00000000")

    def test_other_form(self):
        for text, fault in [
            ("", "an empty line"), ("W\t00\t00000001\r", "a carriage return at its end (CRLF)"),
            ("\r", "a carriage return at its end (CRLF); an empty line"),
            ("W 00 00000001", "spaces, where tabs are asked"), ("w\t00\t00000001", "lower-case letter `w`"),
            ("t 000 00 00000000", "lower-case letter `t`"),
            ("X\t00", "its first field is none of the letters W, R, M, V, T"),
            ("# a", "its first field is none of the letters W, R, M, V, T; there are no comments"),
            ("R\t0", "register: 1 digit, where 2 are asked"), ("R\t0a", "register: lower-case digits"),
            ("R\t0G", "register: not hexadecimal"), ("R\t00\t", "a tab at its end"),
            ("M\t001", "fields: 1, where 2 are asked: place (3 digits), word (4 digits)"),
            ("T\t01\tzz\t00000000", "triggers: 2 digits, where 3 are asked; lines: not hexadecimal"),
        ]:
            line = session.run(f"supervisor\t1\n{text}\nR\t00\n".encode()).lines[0]
            self.assertEqual((line.answer, line_words(line)), ("no 6", [f"not read: {fault}"]))


class Refusals(unittest.TestCase):
    """The lone `no 6`, through tools/explain."""

    def refused(self, script, words):
        with tempfile.TemporaryDirectory() as folder:
            file = pathlib.Path(folder) / "script.txt"
            file.write_bytes(script)
            ran = tool("explain", file.name, folder=folder)
        self.assertEqual((ran.returncode, ran.stdout), (0, f"no 6, and no line is run: {words}\n"))

    def test_reasons(self):
        asked = "its first line must be `supervisor`, a tab, `1`"
        first = asked.replace("its", "the")
        self.refused(b"", f"the script is empty; {asked}")
        self.refused(b"supervisor\t1\r\nR\t00\r\n", f"{first}; it has a carriage return at its end (CRLF)")
        self.refused(b"supervisor 1\nR\t00\n", f"{first}; it has spaces, where one tab is asked")
        self.refused(b"supervisor 1\r\n", f"{first}; it has a carriage return at its end (CRLF); "
                                          "it has spaces, where one tab is asked")
        self.refused(b"R\t00\n", f"{first}; it is missing: the script starts with the call `R 00`")
        self.refused(b"\nsupervisor\t1\n", f"{first}; it is empty")
        self.refused(b"supervisor\t2\n", f"{first}; it is `supervisor 2`")
        self.refused(b"\xef\xbb\xbfsupervisor\t1\n", f"{first}; other bytes stand before it: `\\xef\\xbb\\xbf`")
        self.refused(b"supervisor\t1 \n", f"{first}; blanks stand behind it")
        longest = b"supervisor\t1\n" + b"R\t00\n" * 13104 + b"\n\n\n"
        self.assertEqual(len(longest), 65536)
        self.assertEqual(session.run(longest).refusal, "")
        self.refused(longest + b"\n", "the script has 65,537 bytes; 65,536 is the most")


class States(Scripts):
    EXAMPLES = {
        "first": "Delay Front Space Idle*2",
        "class3": "Wait2*2 Wait3*2 Front Space Idle*6",
        "late": "Wait2*6 Front Space Idle*3",
        "cleared": "Wait2*5 Clear*4 Idle Wait2 Delay Front Space Idle*2",
        "rejected": "Idle*3 Delay Front Space Idle*2",
        "prescaled": "Idle*2 Delay Front Space Idle*5 Delay Front Space Idle*3",
        "scheduled_sync": "Delay Front Space Idle*3 Delay Front Synchold*3 Idle Delay Front Space Idle*3",
        "single_step": "Idle Delay*2 Front Space Idle*3 Delay",
        "state": "Delay Front Synchold*6 Idle*2 Delay",
        "test_pulses": "Idle Wait2*2 Delay Front Space Idle*6",
        "user_sync": "Delay Front Space Idle*9 Delay",
    }

    def test_examples(self):
        for name, states in self.EXAMPLES.items():
            ticks = session.run((TOP / "examples" / f"{name}.txt").read_bytes()).ticks
            counted = [(word + "*1").split("*")[:2] for word in states.split()]
            expected = [state for state, count in counted for _ in range(int(count))]
            self.assertEqual([line.after.state.replace(" ", "") for line in ticks], expected, name)

    def test_user_sync_waits(self):
        ticks = session.run((TOP / "examples" / "user_sync.txt").read_bytes()).ticks
        self.assertEqual([line.tick.number for line in ticks if line.after.waits], [7, 8, 9])

    def test_wrong_lines_out(self):
        """Each line out, wrong in any one tick of an example but the last two, does not fit."""
        for name in self.EXAMPLES:
            script = (TOP / "examples" / f"{name}.txt").read_bytes()
            answers = session.printed(script)
            for line in session.run(script).ticks[:-2]:
                for bit in range(7):
                    out, wrong = f" {line.tick.out:04X} ", f" {line.tick.out ^ 1 << bit:04X} "
                    self.misfits(script, answers, line.number, out, wrong)

    def test_wrong_outcomes(self):
        script = (TOP / "examples" / "class3.txt").read_bytes()
        answers = session.printed(script)
        for number, old, new in [(11, "e07", "-"), (11, "e07", "g07"), (11, "e07", "e27"), (11, "e07", "e17"), (7, "-", "c"),
                                 (9, " - - - - - ", " - 07 - - - "), (12, "07 07 07 07", "06 07 07 07"), (14, "07", "08"),
                                 (13, " 000 0000", " 001 0201"), (13, "000 000 000 0000", "001 000 000 0000"),
                                 (2, "ok", "no 6"), (6, "000", "0000")]:
            self.misfits(script, answers, number, old, new)
        self.assertRaises(session.Misfit, session.run, script, answers[:-1])

    def test_wrong_masks(self):
        """A pulse latched in a blind tick, or lost in the tick after them: lines 6 and 8 of the example."""
        script = (TOP / "examples" / "rejected.txt").read_bytes()
        answers = session.printed(script)
        self.misfits(script, answers, 6, "001 000 000 0000", "000 001 000 0000")
        self.misfits(script, answers, 8, "000 000 001 0101", "001 000 000 0000")

    def test_wrong_state(self):
        """Each bit of STATE, wrong in any one read of the example, does not fit."""
        script = (TOP / "examples" / "state.txt").read_bytes()
        answers = session.printed(script)
        for line in (line for line in session.run(script).lines if line.text == "R\t14"):
            for bit in range(32):
                self.misfits(script, answers, line.number, line.answer, f"{int(line.answer, 16) ^ 1 << bit:08X}")

    def test_sync_hold_too_short(self):
        """Sync hold left in tick 11 (line 16), at whose start the branches still hold the word."""
        script = (TOP / "examples" / "scheduled_sync.txt").read_bytes()
        self.misfits(script, session.printed(script), 16, "0115", "0000")


if __name__ == "__main__":
    unittest.main()
