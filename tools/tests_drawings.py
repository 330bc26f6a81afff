"""Tests of what is drawn: wave's files read back, the rows of docs/TIMING.md, the diagrams and their tables. Run by tests.py."""
import pathlib
import subprocess
import sys
import tempfile
import unittest

import diagrams
import names
import session
import svg
from page import TOP, read
from tests_commands import tool

EXAMPLES = sorted((TOP / "examples").glob("*.txt"))


class Vcd:
    """A reader of VCD files: the signals (scope.name → kind, width), and the values as they stand from each time on."""

    def __init__(self, content):
        tokens = iter(content.split())
        self.signals, self.moments, shorts, scopes = {}, [], {}, []
        for word in tokens:
            parts = list(iter(lambda: next(tokens), "$end"))
            if word == "$enddefinitions":
                break
            if word == "$scope":
                scopes.append(parts[1])
            elif word == "$upscope":
                scopes.pop()
            elif word == "$timescale":
                self.scale = "".join(parts)
            elif word == "$var":
                shorts[parts[2]] = ".".join([*scopes, parts[3]])
                self.signals[shorts[parts[2]]] = parts[0], int(parts[1])
        self.read_values(tokens, shorts)

    def read_values(self, tokens, shorts):
        now = {}
        for token in tokens:
            if token[0] == "#":
                now = dict(now)
                self.moments.append((int(token[1:]), now))
            elif token[0] in "bs":
                now[shorts[next(tokens)]] = token[1:]
            else:
                now[shorts[token[1:]]] = token[0]


def number(values, name):
    return int(values[name], 2)


def gathered(values, scope, labels):
    return sum(number(values, f"{scope}.{label.replace(' ', '_')}") << bit for bit, label in enumerate(labels))


def word_in(values, branch, name):
    """A branch's word as the console prints it; without its valid bit the word must be z."""
    value, valid = values[f"branch{branch}.{name}"], values[f"branch{branch}.{name}_valid"]
    assert (set(value) == {"z"}) == (valid == "0"), values
    return "-" if valid == "0" else f"{int(value, 2):02X}"


def asked(values):
    acknowledges = sum(number(values, f"branch{b}.acknowledges") << 8 * (b - 1) for b in names.BRANCHES)
    lines = gathered(values, "inputs", names.LINES_IN)
    return f"T\t{number(values, 'inputs.triggers'):03X}\t{lines:02X}\t{acknowledges:08X}"


def answered(values):
    """A tick's answer, as the console prints it."""
    out = gathered(values, "outputs", names.LINES_OUT) | number(values, "outputs.accept_pattern") << 8
    kind = "-ceg"[number(values, "outputs.outcome")]
    word = values["outputs.outcome_word"]
    assert (set(word) == {"z"}) == (kind in "-c"), values
    fields = [f"{number(values, f'masks.{mask}'):03X}" for mask in names.MASKS]
    fields += [f"{out:04X}", kind + ("" if kind in "-c" else f"{int(word, 2):02X}")]
    fields += [word_in(values, b, name) for name in ("finished", "shown") for b in names.BRANCHES]
    return " ".join(fields)


class Wave(unittest.TestCase):
    def wave(self, script):
        with tempfile.TemporaryDirectory() as folder:
            file = pathlib.Path(folder) / "wave.vcd"
            ran = tool("wave", script, file)
            self.assertEqual((ran.returncode, ran.stderr), (0, ""))
            return Vcd(read(file))

    def compare(self, script, wave):
        """Every tick's line and answer, put together again from the file, and main's state twice."""
        ticks = session.run(script.read_bytes()).ticks
        self.assertEqual(wave.scale, "1ns")
        self.assertEqual([time for time, _ in wave.moments], [20 * n for n in range(len(ticks) + 1)])
        for line, (_, values) in zip(ticks, wave.moments):
            self.assertEqual((asked(values), answered(values)), (line.text, line.answer))
            self.assertEqual(values["main.state"], line.after.state.replace(" ", "_"))
            self.assertEqual(names.STATES[number(values, "main.state_number")], line.after.state)
            self.assertEqual(values["main.user_sync_waits"], str(int(line.after.waits)))
            self.assertEqual(values["main.blind"], format(line.after.blind, "02b"))
            modes = number(values, "main.hold") << 12 | number(values, "main.test_mode") << 13
            self.assertEqual((modes, number(values, "main.written")), (line.before.csr & 0x3000, line.before.test))
            self.assertEqual(values["main.held"], str(int(modes & 0x1000 != 0 and not line.before.test & 0x80)))
            for name, (kind, width) in wave.signals.items():
                self.assertTrue(kind == "string" or len(values[name]) == width, name)

    def test_examples(self):
        self.assertGreaterEqual(len(EXAMPLES), 7)
        for script in EXAMPLES:
            self.compare(script, self.wave(script))

    def test_all_fields(self):
        """Every line in and out, masks and acknowledges with many bits, different words on the branches, declined ticks."""
        with tempfile.TemporaryDirectory() as folder:
            script = pathlib.Path(folder) / "script.txt"
            calls = ["M FFF AA9B", "M 801 55A9", "W 01 00001FFE", "W 0A 11223344", "W 02 00000001", "W 00 00000021",
                     "T 801 00 00000000", "T 801 7F FFFFFFFF", "T 000 80 00000000", "T 000 80 00000000",
                     *["T FFF 0B 00003344", "T 801 08 11220000", "T 801 09 FFFFFFFF", "T 801 00 00000000"] * 12,
                     "T 000 80 00000000"]
            script.write_text("\n".join(["supervisor\t1", *(call.replace(" ", "\t") for call in calls)]))
            wave = self.wave(script)
            self.compare(script, wave)
            declined = [number(values, "inputs.declined_ticks") for _, values in wave.moments]
            self.assertEqual(declined, [0, 0] + [2] * 48 + [3])

    def test_modes(self):
        """Held and stepped ticks, in test mode and not, with what waits; inputs are as given from outside."""
        with tempfile.TemporaryDirectory() as folder:
            script = pathlib.Path(folder) / "script.txt"
            calls = ["M 001 0153", "W 01 00000002", "W 00 00001001", "T 001 23 0000FF00", "W 15 00000081",
                     "T 001 00 00000000", "W 00 00002000", "W 15 00007F3D", "T 001 7F 12345678", "W 15 00000080",
                     "T 001 7F 12345678", "W 00 10000000", "T FFF 00 00000001"]
            script.write_text("\n".join(["supervisor\t1", *(call.replace(" ", "\t") for call in calls)]))
            wave = self.wave(script)
            self.compare(script, wave)
            self.assertEqual([values["main.held"] for _, values in wave.moments[:-1]], ["1", "0", "1", "0", "0"])
            self.assertEqual(number(wave.moments[3][1], "main.written"), 0x7FBD)

    def test_default_name_and_refusal(self):
        with tempfile.TemporaryDirectory() as folder:
            command = [sys.executable, str(TOP / "tools" / "wave"), str(TOP / "examples" / "first.txt")]
            subprocess.run(command, cwd=folder, check=True, stdout=subprocess.DEVNULL)
            self.assertEqual([file.name for file in pathlib.Path(folder).iterdir()], ["first.vcd"])
            empty = pathlib.Path(folder) / "empty.txt"
            empty.touch()
            ran = tool("wave", empty, pathlib.Path(folder) / "none.vcd")
            self.assertEqual((ran.returncode, ran.stdout), (1, ""))
            self.assertFalse((pathlib.Path(folder) / "none.vcd").exists())

    def test_script_is_kept(self):
        with tempfile.TemporaryDirectory() as folder:
            script = pathlib.Path(folder) / "script.txt"
            script.write_bytes(EXAMPLES[0].read_bytes())
            before = script.read_bytes()
            other = pathlib.Path(folder) / "other.txt"
            other.write_bytes(before)
            for file in (script, other):
                self.assertEqual(tool("wave", script, file).returncode, 2)
                self.assertEqual(file.read_bytes(), before)
            self.assertEqual(script.read_bytes(), EXAMPLES[0].read_bytes())


class Timing(unittest.TestCase):
    def test_page(self):
        self.assertEqual(tool("timing.py", "--check").stdout, "docs/TIMING.md is true\n")
        self.assertLessEqual(max(map(len, read(TOP / "docs" / "TIMING.md").splitlines())), 130)

    def high(self, name, label):
        """The ticks in which a wave of an example's drawing is high; none where the drawing has no such wave."""
        drawing = read(TOP / "docs" / "TIMING.md").split(f"`examples/{name}.txt`")[1].split("```")[1]
        cells = [row[17:].split() for row in drawing.splitlines() if row[:16].strip() == label]
        return [tick for tick, cell in enumerate(cells[0], start=1) if "▔" in cell] if cells else []

    def test_modes(self):
        """Held ticks are marked; what is drawn in a tick of test mode is what is in force in it."""
        self.assertEqual(self.high("single_step", "held"), [1, 3, 8])
        self.assertEqual(self.high("single_step", "stopped"), [1, 3])
        self.assertEqual(self.high("test_pulses", "test mode"), [*range(1, 11), 12])
        self.assertEqual(self.high("test_pulses", "test pulse"), [2, 4, 8, 9, 10])
        self.assertEqual(self.high("test_pulses", "blocked"), [1, 3, 9])
        self.assertEqual(self.high("test_pulses", "trigger"), [2, 10])
        self.assertEqual(self.high("test_pulses", "level 2 pass"), [4])
        self.assertEqual(self.high("test_pulses", "acknowledge"), [8])
        self.assertEqual(self.high("first", "held") + self.high("first", "test mode"), [])


class Diagrams(unittest.TestCase):
    TEXTS = [read(TOP / path) for path in diagrams.DEFINITIONS]

    def test_drawings(self):
        self.assertEqual(tool("diagrams.py", "--check").stdout, "docs/main.svg is true\ndocs/branch.svg is true\n")
        self.assertEqual(diagrams.faults_of(*self.TEXTS), [])

    def test_wrong_definitions(self):
        """Each of these changes of a definition is noticed."""
        for place, old, new in [
            (0, "raise accept3_line ▷ with_state Front", "raise accept3_line ▷ with_state Space"),
            (0, "raise accept3_line ▷ with_state Front", "raise accept3_line ▷ with_state Front ▷ with_state Space"),
            (0, "move_in Front t m = if t.front then loads else stays", "move_in Front t m = loads"),
            (0, "if sync then SyncHold else Space", "if sync then SyncHold else Idle"),
            (0, "if sync then SyncHold else Space", "Space"),
            (0, "with_late true ▷ with_state Front", "with_late true ▷ with_state Clear"),
            (0, "with_clear c ▷ with_state Clear", "with_clear c"),
            (0, "if counting then counts_clear else if front then ends_clear else stays", "if front then ends_clear else stays"),
            (0, "class 1 then m ▷ raise ok_line ▷ with_state Delay", "class 1 then m ▷ raise ok_line ▷ with_state Wait2"),
            (0, "idle_of = record { age = 0; state = Idle", "idle_of = record { age = 0; state = Front"),
            (0, "step_by leaves_space t m = quiet idle_of", "step_by leaves_space t m = quiet m"),
            (0, "else if pass && class2 then passes2_to_delay", "else if pass && class2 then passes3"),
            (0, "m ▷ raise_if t.due2 accept2_line", "m ▷ with_state Idle ▷ raise_if t.due2 accept2_line"),
            (1, "is_ready_of l c = is_idle c.main.state && is_open_of l c", "is_ready_of l c = is_open_of l c"),
            (1, "main = main.idle_of", "main = c.main"),
            (1, "with_main main.idle_of", "with_main c.main"),
            (2, "remove_first ▷ with_phase Drop", "remove_first ▷ with_phase Rest"),
            (2, "if low then rests else stays", "rests"),
        ]:
            texts = list(self.TEXTS)
            texts[place] = texts[place].replace(old, new)
            self.assertNotEqual(texts, self.TEXTS, old)
            self.assertNotEqual(diagrams.faults_of(*texts), [], new)

    def test_nothing_over_a_label(self):
        """No label lies over a box, an arrow or another label, by a text's rough width."""
        for plan in (diagrams.MAIN_DRAWING, diagrams.BRANCH_DRAWING):
            labels = [box for row in plan.table if row[:3] in plan.arrows for box in label_boxes(plan.arrows[row[:3]], *row[3:])]
            things = [(x - svg.WIDTH // 2, y - svg.HEIGHT // 2, x + svg.WIDTH // 2, y + svg.HEIGHT // 2)
                      for x, y in plan.places.values()]
            for arrow in plan.arrows.values():
                for (x, y), (to_x, to_y) in zip(arrow.points, arrow.points[1:]):
                    things.append((min(x, to_x) - 1, min(y, to_y) - 1, max(x, to_x) + 1, max(y, to_y) + 1))
            for n, label in enumerate(labels):
                self.assertFalse([thing for thing in things + labels[:n] if overlap(label, thing)], (plan.file, label))
                self.assertTrue(0 < label[0] and label[2] < plan.size[0], label)


def label_boxes(arrow, label, tag):
    for (x, y), line, kind in svg.label_lines(arrow, label, tag):
        width, height = (len(line) * 6.2, 9) if kind else (len(line) * 7.2, 11)
        left = x - width if arrow.anchor == "end" else x - width / 2
        yield left, y - height, left + width, y + 2


def overlap(a, b):
    return a[0] < b[2] and b[0] < a[2] and a[1] < b[3] and b[1] < a[3]
