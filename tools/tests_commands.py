"""Tests of the commands: what each makes of its words, the console's exit status, what a tag of trace.py speaks of, and what
it makes of a request's heading. Run by tests.py."""
import contextlib
import io
import pathlib
import subprocess
import sys
import tempfile
import unittest
import unittest.mock

import fields
import impostors
import links
import trace
from page import TOP, keep, read, write

FIRST = TOP / "examples" / "first.txt"
SCRIPTS = {"explain": [FIRST], "wave": [FIRST]}
PAGES = ["cases.py", "diagrams.py", "examples.py", "fields.py", "impostors.py", "links.py", "sizes.py", "table.py", "timing.py",
         "trace.py"]


def ran(*command, folder=TOP, **more):
    pipes = dict(stdout=subprocess.PIPE, stderr=subprocess.PIPE, encoding="utf-8")
    return subprocess.run([str(word) for word in command], cwd=folder, **pipes, **more)


def tool(name, *words, folder=TOP):
    return ran(sys.executable, TOP / "tools" / name, *words, folder=folder)


class Words(unittest.TestCase):
    """A word that a command does not know: the usage on standard error, exit 2, and nothing written."""

    def refused(self, done):
        self.assertEqual((done.returncode, done.stdout), (2, ""), done.args)
        self.assertIn("usage: ", done.stderr, done.args)

    def test_tools(self):
        before = self.stamps()
        for name in [*PAGES, "check", "explain", "prove.py", "wave"]:
            with tempfile.TemporaryDirectory() as folder:
                for extra in (["--chek"], ["a", "b", "c"], ["--che"]):
                    self.refused(tool(name, *SCRIPTS.get(name, []), *extra, folder=folder))
                self.assertEqual(list(pathlib.Path(folder).iterdir()), [], name)
                self.assertIn("usage: ", tool(name, "--help", folder=folder).stdout)
        self.assertEqual(self.stamps(), before)

    def stamps(self):
        """When each file that a tool may write was written."""
        kept = [*TOP.glob("docs/*"), *TOP.glob("examples/answers/*"), TOP / "crates" / "cases" / "stdout"]
        return {path: path.stat().st_mtime_ns for path in kept}

    def test_missing_file(self):
        for name in ("explain", "wave"):
            self.refused(tool(name))
            done = tool(name, "no such file")
            self.refused(done)
            self.assertIn("no such file: No such file or directory", done.stderr)

    def test_no_such_crate(self):
        self.refused(tool("prove.py"))
        self.refused(tool("prove.py", "no_such_crate"))

    def test_reference(self):
        compare, bench = TOP / "reference" / "compare", TOP / "reference" / "bench"
        for words in (["1", "abc"], ["x"], ["--foo"], ["1", "2", "3"], ["--faults", "x"], ["--scripts"], ["--scripts", "no"]):
            self.refused(ran(compare, *words))
        for words in (["5x"], ["--foo"], ["1", "2"], ["--count", "1"]):
            self.refused(ran(bench, *words))
        for command in (compare, bench):
            self.assertEqual((ran(command, "--help").returncode, ran(command, "--help").stderr), (0, ""))

    def test_missing_program(self):
        done = ran(TOP / "tools" / "need", "sh", "no_such_program")
        self.assertEqual((done.returncode, done.stdout), (2, ""))
        self.assertIn("missing: no_such_program", done.stderr)
        self.assertNotIn("missing: sh", done.stderr)


class Checks(unittest.TestCase):
    """What --check refuses."""

    def test_page(self):
        with tempfile.TemporaryDirectory(dir=TOP / "target") as folder:
            page = pathlib.Path(folder) / "page.md"
            with contextlib.redirect_stdout(io.StringIO()) as said:
                self.assertEqual([keep(page, "true", True), page.exists()], [1, False])
                self.assertEqual([keep(page, "true", False), page.read_text()], [0, "true"])
                self.assertEqual([keep(page, "other", True), page.read_text()], [1, "true"])
                self.assertEqual(keep(page, "true", True), 0)
            self.assertEqual(said.getvalue().count("is not true: run tools/"), 2)

    def test_links(self):
        page = TOP / "docs" / "MANUAL.md"
        said = "[a](REGISTERS.md) [b](#declines) [c](no_such.md) [d](REGISTERS.md#no-such) [e](https://example.org)"
        self.assertEqual(links.faults_of(page, said), ["docs/MANUAL.md: no_such.md is not there",
                                                       "docs/MANUAL.md: REGISTERS.md#no-such is not there"])

    def test_edits(self):
        listed = [("bits/right", "")]
        self.assertIn("bits/no_such_edit", impostors.missing("`bits/right` `bits/no_such_edit` `bits/specs`", listed))
        self.assertNotIn("bits/right", impostors.missing("`bits/right`", listed))
        self.assertNotIn("bits/specs", impostors.missing("`bits/specs`", listed))

    def test_tags(self):
        sentences = trace.Sentences(read(TOP / "docs" / "tags.txt"))
        self.assertEqual(sentences.cited("[Main.1] [Spoiled.1a]–[Spoiled.1c] [Declines.1]", "x"),
                         ["Main.1", "Spoiled.1a", "Spoiled.1b", "Spoiled.1c", "Declines.1a", "Declines.1b"])
        sentences.see_rows("[Open: M2] DECISIONS B1", "x")
        self.assertEqual(sentences.faults, [])
        sentences.cited(f"[Main.{99}]", "x")
        sentences.see_rows("[Open: Z9] DECISIONS Q7", "x")
        self.assertEqual(sentences.faults, [f"x: no such sentence: [Main.{99}]", "x: no such row of docs/DECISIONS.md: Z9",
                                            "x: no such row of docs/DECISIONS.md: Q7"])


class Console(unittest.TestCase):
    """The wrapper around the console program."""

    answers = (TOP / "examples" / "answers" / "first.txt").read_text(encoding="utf-8")

    def test_file_and_input(self):
        with tempfile.TemporaryDirectory() as folder:
            link = pathlib.Path(folder) / "link"
            link.symlink_to(TOP / "console")
            (pathlib.Path(folder) / "script").write_bytes(FIRST.read_bytes())
            for done in (
                ran(TOP / "console", "script", folder=folder),
                ran(link, "script", folder=folder),
                ran(TOP / "console", input=FIRST.read_text(encoding="utf-8"), folder=folder),
            ):
                self.assertEqual((done.returncode, done.stdout, done.stderr), (0, self.answers, ""))

    def test_failures(self):
        done = ran(TOP / "console", TOP)
        self.assertEqual((done.returncode, done.stdout), (1, ""))
        self.assertIn("standard input: ", done.stderr)
        with open("/dev/full", "wb") as full:
            done = subprocess.run([TOP / "console", FIRST], stdout=full, stderr=subprocess.PIPE)
        self.assertEqual(done.returncode, 1)
        self.assertIn(b"standard output: ", done.stderr)
        self.assertEqual(ran(TOP / "console", "no such file").returncode, 1)

    def test_words(self):
        for words in (["--foo"], ["a", "b"]):
            done = ran(TOP / "console", *words)
            self.assertEqual((done.returncode, done.stdout), (2, ""))
            self.assertIn("usage: ", done.stderr)
        self.assertEqual(ran(TOP / "console", "--help").returncode, 0)


class Tags(unittest.TestCase):
    """Which declarations a tag of a comment speaks of."""

    def named(self, *lines, mark="--", pattern=trace.ANTT):
        return [names for _, names in trace.declarations(list(lines), mark, pattern)]

    def test_one(self):
        self.assertEqual(self.named("-- [Main.1]", "pub a : ℕ", "a = 1", "", "-- b", "pub b : ℕ"), [["a"]])
        self.assertEqual(self.named("-- [Main.1]", "pub record R (m : M) : Type 0 where"), [["R"]])

    def test_colon_on_the_next_line(self):
        self.assertEqual(self.named("-- [Main.1]", "pub a", "    : long ≡ type", "a = refl"), [["a"]])

    def test_two_of_one_type(self):
        self.assertEqual(self.named("-- [Main.1]", "pub a : ℕ", "a = 1", "", "pub b : ℕ", "b = 2"), [["a", "b"]])
        self.assertEqual(self.named("-- [Main.1]", "pub a : ℕ", "a = 1", "", "pub b : Bool", "pub c : ℕ"), [["a"]])

    def test_head_of_a_file(self):
        self.assertEqual(self.named("-- all of [Main.1]", "use lib.{x}", "", "pub a : ℕ"), [])

    def test_code(self):
        code = ["// [CSR.2] status", "pub const A: u32 = 1;", "", "pub const B: u32 = 2;", "", "fn c() -> u32", "{", "}"]
        self.assertEqual(self.named(*code, mark="//", pattern=trace.RATTLE), [["A", "B"]])
        field = ["struct S {", "    // [Main.6] late", "    pub late: bool,", "}", "", "pub struct T {"]
        self.assertEqual(self.named(*field, mark="//", pattern=trace.RATTLE), [])


class Edits(unittest.TestCase):
    """An edit fits where its old text stands once in its file."""

    def test_fits(self):
        crate = TOP / "crates" / "bits"
        for file, old, right in (
            ("src/lib.rt", "pub fn bit_at(", True),
            ("src/lib.rt", "no such text", False),
            ("src/lib.rt", "pub fn ", False),
            ("src/none.rt", "pub fn bit_at(", False),
        ):
            self.assertEqual(impostors.fits(f"# wrong\nfile: {file}\nold: {old}\nnew: x\n", crate), right, old)

    def test_every_old_text(self):
        two = "# wrong\nfile: src/lib.rt\nold: {}\nnew: x\nold: pub fn bit_at(\nnew: y\n"
        self.assertTrue(impostors.fits(two.format("pub fn mask8("), TOP / "crates" / "bits"))
        self.assertFalse(impostors.fits(two.format("no such text"), TOP / "crates" / "bits"))

    def test_unknown(self):
        self.assertEqual(list(impostors.unknown("new: Rattle.bits.specs.Bits.bit_at w 1")), [])
        self.assertEqual(list(impostors.unknown("new: Rattle.bits.specs.Bits.bit_of w 1")), ["bits/specs/Bits, bit_of"])


class Setters(unittest.TestCase):
    """A setter lists the fields of its record, and sets the one that its literal gave v to."""

    OLD = "abbrev pub with_len : ℕ → Branch → Branch\nwith_len v b = record { %s }\n"

    def made(self, literal):
        faults = []
        found = fields.SETTER.search(self.OLD % literal)
        return fields.setter(found, {"Branch": ["words", "len"]}, "x", faults), faults

    def test_fields(self):
        right = (self.OLD % "words = b.words; len = v").rstrip("\n")
        self.assertEqual(self.made("len = v"), (right, []))
        self.assertEqual(self.made("phase = b.phase; len = v; words = b.words"), (right, []))

    def test_refused(self):
        for literal in ("phase = v", "words = b.words", "words = v; len = v"):
            self.assertEqual(self.made(literal)[1], ["x: with_len gives v to no field of Branch, or to more than one"])


class Requests(unittest.TestCase):
    """What trace.py makes of a request that has landed, and of one to come, in a folder of one rule and one request."""

    TAGS = "# Document 01: landed\nMain.1\tit grows older\n# N1 Blind: {}\nBlind.1\nBlind.2\tit is blind\nBlind.5\tP4 goes on\n"
    FILES = {
        "docs/DECISIONS.md": "",
        "crates/a/specs/Age.antt": "-- [Main.1] older\npub aged : ℕ\n",
        "crates/a/must-fail/younger.edit": "# [Main.1] younger\n",
    }
    SPEC = {"crates/b/specs/Blind.antt": "-- [Blind.2] blind\npub blind : ℕ\n"}
    EDIT = {"crates/b/must-fail/seeing.edit": "# [Blind.2] it sees\n"}
    P4 = {"crates/bench/specs/Bench.antt": "-- [Blind.5] lost\npub p4 : ℕ\n"}

    def traced(self, listed, *more):
        """The page and the faults, with files beside those that stand above."""
        files = {name: text for some in (self.FILES, *more) for name, text in some.items()}
        with tempfile.TemporaryDirectory() as folder, unittest.mock.patch.object(trace, "TOP", pathlib.Path(folder)):
            for name, text in files.items():
                (trace.TOP / name).parent.mkdir(parents=True, exist_ok=True)
                write(trace.TOP / name, text)
            sentences = trace.Sentences(listed)
            page = trace.page(sentences, trace.gather(sentences))
        return page, list(dict.fromkeys(sentences.faults))

    def refused(self, listed, faults, *more):
        self.assertEqual(self.traced(listed, *more)[1], faults)

    def test_to_come(self):
        page, faults = self.traced(self.TAGS.format("to come"), {"docs/NOTES.md": "[Blind.2] is planned"})
        self.assertEqual(faults, [])
        self.assertEqual([line for line in page.splitlines() if "Blind" in line],
                         ["| N1 | Blind.2 | it is blind |", "| N1 | Blind.5 | P4 goes on |"])
        self.assertLess(page.index("| Main.1 |"), page.index("## To come"))
        self.assertLess(page.index("| Blind.5 |"), page.index("## Examples"))

    def test_landed(self):
        page, faults = self.traced(self.TAGS.format("landed"), self.SPEC, self.EDIT, self.P4)
        self.assertEqual(faults, [])
        self.assertNotIn("## To come", page)
        self.assertIn("## N1 Blind\n", page)
        self.assertIn("| Blind.2 | it is blind | [blind](../crates/b/specs/Blind.antt) |  |  | "
                      "[seeing](../crates/b/must-fail/seeing.edit) |\n", page)
        self.assertLess(page.index("## Examples"), page.index("| Blind.5 | P4 goes on | [p4]"))

    def test_cited_before_it_landed(self):
        early = "[Blind.2] is of a request that has not landed"
        self.refused(self.TAGS.format("to come"), [f"crates/b/specs/Blind.antt: {early}"], self.SPEC)
        self.refused(self.TAGS.format("to come"), [f"crates/b/must-fail/seeing.edit: {early}"], self.EDIT)
        code = {"crates/b/src/lib.rt": "// all of [Blind.2]\nuse a;\n"}
        self.refused(self.TAGS.format("to come"), [f"crates/b/src/lib.rt: {early}"], code)

    def test_landed_and_not_stated(self):
        lacks = ["no definition cites [Blind.2]", "no edit breaks [Blind.2], and docs/tags.txt does not say why"]
        self.refused(self.TAGS.format("landed"), lacks, self.P4)
        self.refused(self.TAGS.format("landed"), lacks[:1], self.P4, self.EDIT)
        self.refused(self.TAGS.format("landed"), lacks[1:], self.P4, self.SPEC)
        self.refused(self.TAGS.format("landed"), ["nothing states [Blind.5]"], self.SPEC, self.EDIT)

    def test_form_of_the_code(self):
        listed = self.TAGS.format("to come") + "# N3 Split: landed\nSplit.2a\tit shifts\n"
        edit = {"crates/b/must-fail/unshifted.edit": "# [Split.2a] it does not shift\n"}
        form = "// [Split.2a] by shifts\npub fn shifted(w: u32) -> u32\n    ensures {{ r }}\n{{\n    w {} 8 // 1/2\n}}\n"
        code, divided = ({"crates/b/src/lib.rt": form.format(sign)} for sign in (">>", "/"))
        page, faults = self.traced(listed, edit, code)
        self.assertEqual(faults, [])
        self.refused(listed, ["crates/b/src/lib.rt: shifted has one of /%, which [Split.2a] rules out"], edit, divided)
        self.assertIn("| Split.2a | it shifts | none: it rules the form of the code | [shifted](../crates/b/src/lib.rt) |", page)
        self.refused(listed, ["no code cites [Split.2a]"], edit)

    def test_headings(self):
        bad = "docs/tags.txt: not a heading: "
        self.refused(self.TAGS.format("soon"), [f"{bad}# N1 Blind: soon"])
        self.refused(self.TAGS.format("to come") + "# a remark\n", [f"{bad}# a remark"])
        self.refused("Main.2\n" + self.TAGS.format("to come"), [f"{bad}Main.2"])
        self.refused(self.TAGS.format("to come") + "State.1\n", ["docs/tags.txt: [State.1] stands under N1 Blind"])
