#!/usr/bin/env python3
"""The answers to the scripts of examples/, stored in examples/answers/ from the model in reference/, and the run that
docs/MANUAL.md prints line by line.

    tools/examples.py           rewrites both
    tools/examples.py --check   exits 1 if an answer is not the model's or not what ./console prints, or if the page differs
"""
import subprocess
import sys

from cases import build_model, model
from page import TOP, asks_check, keep, read

ANSWERS = TOP / "examples" / "answers"
MANUAL = TOP / "docs" / "MANUAL.md"
HEAD = "## The run, line by line\n"
RUN = "run.txt"


def console(script):
    return subprocess.run([TOP / "console"], input=script, stdout=subprocess.PIPE, check=True).stdout


def faults(path):
    """What is not as it should be with one script's stored answers."""
    script, stored = path.read_bytes(), ANSWERS / path.name
    kept = stored.read_bytes() if stored.exists() else None
    if kept != model(script):
        yield f"{stored.relative_to(TOP)} is not what the model answers: run tools/examples.py"
    if kept != console(script):
        yield f"{stored.relative_to(TOP)} is not what the console prints"


def manual():
    """The manual, with the run's lines and answers as its last section."""
    script = read(TOP / "examples" / RUN).replace("\t", " ").splitlines()
    answers = [""] + read(ANSWERS / RUN).splitlines()
    rows = [f"{number:2}  {line:18} {answer}".rstrip() for number, (line, answer) in enumerate(zip(script, answers), start=1)]
    before = read(MANUAL)
    return before[: before.index(HEAD)] + f"{HEAD}\n```\n" + "\n".join(rows) + "\n```\n"


def main():
    check = asks_check(__doc__)
    build_model()
    scripts = sorted((TOP / "examples").glob("*.txt"))
    if not check:
        ANSWERS.mkdir(exist_ok=True)
        for path in scripts:
            (ANSWERS / path.name).write_bytes(model(path.read_bytes()))
    found = [fault for path in scripts for fault in faults(path)]
    found += [f"answers to no script: {path.name}" for path in ANSWERS.glob("*") if path.name not in {s.name for s in scripts}]
    print("\n".join(found) if found else f"{len(scripts)} examples, each as stored")
    return max(keep(MANUAL, manual(), check), 1 if found else 0)


if __name__ == "__main__":
    sys.exit(main())
