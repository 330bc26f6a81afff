"""What the tests of scripts share: a script's run, what is said of its last line, and answers that do not fit."""
import unittest

import session
from sentences import line_words

TICK = "T 000 00 00000000"
FIRST = ["M 001 0153", "W 01 00000002", "W 00 00000001", "T 001 00 00000000", TICK, TICK, TICK, TICK]


def script_of(*lines):
    """A script whose lines are given with spaces for tabs."""
    return "\n".join(["supervisor\t1", *(line.replace(" ", "\t") for line in lines)]).encode("latin-1")


def run(*lines):
    return session.run(script_of(*lines))


class Scripts(unittest.TestCase):
    def says(self, words, *lines):
        self.assertEqual("; ".join(line_words(run(*lines).lines[-1])), words, lines)

    def because(self, number, words, *lines):
        line = run(*lines).lines[-1]
        self.assertEqual(line.answer, f"no {number}")
        self.assertEqual(line_words(line)[-1], words)

    def misfits(self, script, answers, number, old, new):
        """The answer of a line put to another one is refused, with the number of a line from there on."""
        wrong = list(answers)
        wrong[number - 2] = wrong[number - 2].replace(old, new)
        self.assertNotEqual(wrong, answers)
        with self.assertRaises(session.Misfit) as caught:
            session.run(script, wrong)
        self.assertGreaterEqual(int(str(caught.exception).split(":")[0].split()[1]), number)
