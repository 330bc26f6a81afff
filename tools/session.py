"""A script and its run: each line with its form, the console's answer to it, for a tick both in named fields, and where it
leaves main. A script that the console refuses as a whole has no lines, but a reason (`refusal`)."""
import dataclasses
import re
import subprocess
import sys
import typing

import names
import test_mode
from page import TOP
from standing import Standing
from states import Follower, Misfit


@dataclasses.dataclass(frozen=True)
class Outcome:
    """What became of an event: kind is one of names.OUTCOMES; number is its word, None where there is none."""

    kind: str
    number: typing.Optional[int]


@dataclasses.dataclass(frozen=True)
class Tick:
    """A tick carried out: what it was given from outside and what it answered."""

    number: int
    triggers: int
    lines: int
    acknowledges: int
    masks: typing.Dict[str, int]
    out: int
    outcome: Outcome
    finished: typing.List[typing.Optional[int]]
    shown: typing.List[typing.Optional[int]]

    @property
    def start(self):
        """When the tick starts, in ns."""
        return (self.number - 1) * names.TICK_NS

    @property
    def pattern(self):
        return self.out >> names.PATTERN_SHIFT

    def acknowledged(self, branch):
        return byte(self.acknowledges, branch)


@dataclasses.dataclass(frozen=True)
class Line:
    """A line of the script after the first. kind is its letter, or "" for a line of other form."""

    number: int
    text: str
    kind: str
    fields: typing.List[int]
    answer: str
    declined: typing.Optional[int]
    tick: typing.Optional[Tick]
    before: Standing
    after: Standing

    @property
    def is_held(self):
        """A tick that does not run. [Test.7a]"""
        return self.tick is not None and test_mode.is_held(self.before)

    @property
    def is_tested(self):
        """A tick in test mode, held or not. [Test.2]"""
        return self.tick is not None and test_mode.is_tested(self.before)

    @property
    def met(self):
        """The tick with the triggers, lines and acknowledges in force in it. [Test.2]"""
        return test_mode.in_force(self.before, self.tick)

    @property
    def blocked(self):
        """The tick with those from outside that test mode blocks. [Test.2]"""
        return test_mode.blocked(self.before, self.tick)

    @property
    def written(self):
        """The bits of TEST that act in the tick. [Test.6]"""
        return test_mode.acting(self.before)


@dataclasses.dataclass(frozen=True)
class Session:
    lines: typing.List[Line]
    refusal: str = ""

    @property
    def ticks(self):
        """The lines that are ticks carried out."""
        return [line for line in self.lines if line.tick]


def byte(number, branch):
    """The byte of a branch, 1 to 4, as in ROC enable. [Registers.1]"""
    return number >> 8 * (branch - 1) & 0xFF


def fields_of(text):
    """A line's letter and numbers; ("", []) for a line of other form. [Console.3]"""
    letter, *given = text.split("\t")
    form = names.FORMS.get(letter, ())
    fits = len(form) == len(given) and all(names.has_digits(field, count) for field, (_, count) in zip(given, form))
    return (letter, [int(field, 16) for field in given]) if form and fits else ("", [])


def refusal_of(script):
    """Why the console prints `no 6` alone; "" for a script that it runs. [Console.1] [Console.2] [Console.6]"""
    rule = "first line must be `supervisor`, a tab, `1`"
    first = script.split(b"\n")[0]
    if len(script) > names.LONGEST:
        return f"the script has {len(script):,} bytes; {names.LONGEST:,} is the most"
    if not script:
        return f"the script is empty; its {rule}"
    return "" if first == names.FIRST else f"the {rule}; {'; '.join(first_line_faults(first))}"


def first_line_faults(first):
    faults = ["it has a carriage return at its end (CRLF)"] if first.endswith(b"\r") else []
    first = first.rstrip(b"\r")
    if first == names.FIRST:
        return faults
    if not first:
        return faults + ["it is empty"]
    if first.endswith(names.FIRST):
        return faults + [f"other bytes stand before it: `{shown(first[:-len(names.FIRST)])}`"]
    if re.fullmatch(rb"[ \t]*supervisor[ \t]+1[ \t]*", first):
        between = first.strip(b" \t") != names.FIRST
        blanks = "it has spaces, where one tab is asked" if b" " in first else "it has more than one tab"
        return faults + [blanks if between else "blanks stand behind it"]
    if first.decode("latin-1").split("\t")[0] in names.FORMS:
        return faults + [f"it is missing: the script starts with the call `{shown(first)}`"]
    return faults + [f"it is `{shown(first)}`"]


def shown(text):
    """Text that can be printed: a space for a tab, and other bytes as escapes."""
    plain = text.decode("latin-1") if isinstance(text, bytes) else text
    return "".join(c if " " <= c <= "~" else " " if c == "\t" else "\\r" if c == "\r" else f"\\x{ord(c):02x}" for c in plain)


def printed(script):
    """What the console prints, line by line; an exit where it does not run."""
    run = subprocess.run([str(TOP / "console")], input=script, stdout=subprocess.PIPE)
    if run.returncode != 0:
        print("the console did not run", file=sys.stderr)
        sys.exit(1)
    return run.stdout.decode("ascii").splitlines()


TICK = re.compile(r"((?:[0-9A-F]{3} ){5})([0-9A-F]{4}) (-|c|[eg][0-9A-F]{2})((?: (?:-|[0-9A-F]{2})){8})")


def tick_of(number, asked, answer):
    """A tick's ask and answer in named fields; None if the answer is not a tick's. [Console.7]"""
    parts = TICK.fullmatch(answer)
    if parts is None:
        return None
    masks = dict(zip(names.MASKS, (int(mask, 16) for mask in parts[1].split())))
    words = [None if word == "-" else int(word, 16) for word in parts[4].split()]
    outcome = Outcome(names.OUTCOMES[parts[3][0]], int(parts[3][1:], 16) if parts[3][1:] else None)
    return Tick(number, *asked, masks, int(parts[2], 16), outcome, words[:4], words[4:])


ANSWERS = {"W": "ok", "R": "[0-9A-F]{8}", "M": "ok", "V": "[0-9A-F]{4}", "T": TICK.pattern}


def declined_by(number, kind, answer):
    """The number of a decline, None for a call carried out; an answer that the line cannot have is an error."""
    no = re.fullmatch("no ([1-6])", answer)
    other_form = bool(no) and int(no[1]) == names.OTHER_FORM
    if other_form != (kind == "") or not (no or re.fullmatch(ANSWERS[kind], answer)):
        raise Misfit(f"line {number}: not an answer to it: {answer}")
    return int(no[1]) if no else None


def followed(follower, kind, fields, tick, answer):
    """Takes the follower through a call that was carried out."""
    if tick:
        follower.ticked(tick)
    elif kind == "W":
        follower.wrote(*fields)
    elif kind == "R":
        follower.read(fields[0], int(answer, 16))


def paired(follower, count, number, text, answer):
    """One line with its answer; follows main through it. count is the ticks carried out before it."""
    kind, fields = fields_of(text)
    declined = declined_by(number, kind, answer)
    tick = tick_of(count + 1, fields, answer) if kind == "T" and declined is None else None
    before = follower.standing()
    try:
        if declined is None:
            followed(follower, kind, fields, tick, answer)
    except Misfit as misfit:
        raise Misfit(f"line {number}: {misfit}") from None
    return Line(number, text, kind, fields, answer, declined, tick, before, follower.standing())


def run(script, answers=None):
    """The session of a script, given as bytes. answers: what the console printed for it, where that is at hand."""
    answers = printed(script) if answers is None else answers
    refusal = refusal_of(script)
    if refusal:
        if answers != [f"no {names.OTHER_FORM}"]:
            raise Misfit(f"{refusal}; but the console printed: {answers[:1]}")
        return Session([], refusal)
    # a newline ends a line, so that the last newline starts none; the first line has no answer
    texts = script.decode("latin-1").split("\n")[1:]
    if texts and not texts[-1]:
        texts.pop()
    if len(texts) != len(answers):
        raise Misfit(f"{len(texts)} lines after the first, but {len(answers)} answers")
    follower, lines, count = Follower(), [], 0
    for number, (text, answer) in enumerate(zip(texts, answers), start=2):
        lines.append(paired(follower, count, number, text, answer))
        count += lines[-1].tick is not None
    return Session(lines)


def of_file(path, parser):
    """The session of a script's file. One that cannot be read gets the usage and exit 2; answers that do not fit, exit 1."""
    try:
        return run(path.read_bytes())
    except OSError as error:
        parser.error(f"{path}: {error.strerror}")
    except Misfit as misfit:
        print(f"the console's answers do not fit document 01: {misfit}", file=sys.stderr)
        sys.exit(1)
