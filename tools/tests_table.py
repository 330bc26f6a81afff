"""Tests of tools/table.py: the words of a filled table, and the scripts that it prints."""
import unittest

import table
from tests_commands import tool

SHIPPED = [f"{word:04X}" for word in table.shipped()]


class Table(unittest.TestCase):
    """Document 02's examples, and what the generator would decline."""

    def test_shipped_words(self):
        self.assertEqual((SHIPPED[0], SHIPPED[4], SHIPPED[11], len(SHIPPED)), ("0119", "1055", "08C3", 12))
        self.assertTrue(all(map(table.is_taken, table.shipped())))

    def test_places(self):
        words = table.shipped()
        self.assertEqual([table.word_at(words, place) for place in (0x000, 0x003, 0x018, 0xFFF)], [0, 0x0319, 0x1849, 0xFF19])
        self.assertEqual([table.word_at(words, 1 << i) for i in range(12)], words)

    def test_script(self):
        done = tool("table.py", *SHIPPED)
        self.assertEqual(done.returncode, 0, done.stderr)
        lines = done.stdout.splitlines()
        self.assertEqual((lines[0], lines[4], len(lines)), ("supervisor\t1", "M\t003\t0319", 4097))
        self.assertLessEqual(len(done.stdout), 65536)

    def test_refused(self):
        for place, word in ((0, "0118"), (4, "1051"), (11, "08C7"), (11, "08c3"), (0, "119"), (3, "00849")):
            done = tool("table.py", *SHIPPED[:place], word, *SHIPPED[place + 1 :])
            self.assertEqual((done.returncode, done.stdout), (2, ""), word)
        self.assertEqual(tool("table.py", *SHIPPED, "0119").returncode, 2)
        self.assertIn("the word of input 5", tool("table.py", *SHIPPED[:4], "1057", *SHIPPED[5:]).stderr)
