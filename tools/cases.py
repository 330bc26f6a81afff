#!/usr/bin/env python3
"""The answers that the crate `cases` must print, from the model in reference/ and never from the proved program.

    tools/cases.py           rewrites crates/cases/stdout
    tools/cases.py --check   exits 1 if that file is not what the model answers

Each script of crates/cases/data/scripts, ended there by a byte 1Eh, goes through the model's console, and so do two long ones
that crates/cases/src/main.rt makes; a line `--` follows the answers of each.
"""
import subprocess
import sys

from page import TOP, asks_check, need

EXPECTED = TOP / "crates" / "cases" / "stdout"
MODEL = TOP / "target" / "reference" / "release" / "console"
BUILD = ["cargo", "build", "--quiet", "--release", "--target-dir", "../target/reference", "--bin", "console"]


def scripts():
    stored = (TOP / "crates" / "cases" / "data" / "scripts").read_bytes().removesuffix(b"\x1e")
    long = b"supervisor\t1\nR\t00\n".ljust(65537, b"X")
    return stored.split(b"\x1e") + [long[:65536], long]


def model(script):
    """What the model's console prints for a script."""
    return subprocess.run([MODEL], input=script, stdout=subprocess.PIPE, check=True).stdout


def build_model():
    need("cargo")
    subprocess.run(BUILD, cwd=TOP / "reference", check=True)


def main():
    check = asks_check(__doc__)
    build_model()
    answers = [model(script) for script in scripts()]
    expected = b"".join(answer + b"--\n" for answer in answers)
    same = EXPECTED.exists() and EXPECTED.read_bytes() == expected
    if not check:
        EXPECTED.write_bytes(expected)
    says = "as the model answers" if same or not check else "crates/cases/stdout is not what the model answers"
    print(f"{len(answers)} scripts, {says}")
    return 0 if same or not check else 1


if __name__ == "__main__":
    sys.exit(main())
