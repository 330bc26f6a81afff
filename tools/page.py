"""What the tools share: the repository's folder, a tool's words, and a page that a tool writes or checks."""
import argparse
import pathlib
import subprocess
import sys

if sys.version_info < (3, 9):
    print("Python 3.9 or newer is needed; this is " + sys.version.split()[0], file=sys.stderr)
    sys.exit(2)

TOP = pathlib.Path(__file__).resolve().parent.parent
for stream in (sys.stdout, sys.stderr):
    if stream is not None:
        stream.reconfigure(encoding="utf-8", errors="backslashreplace")


def read(path):
    return path.read_text(encoding="utf-8")


def write(path, text):
    path.write_text(text, encoding="utf-8")


def need(*programs):
    """Leaves with exit 2 where a program is missing, which tools/need names."""
    if subprocess.run([TOP / "tools" / "need", *programs]).returncode:
        sys.exit(2)


def words(doc):
    """A parser whose help is the tool's own head. An unknown word gets a usage line and exit 2, and nothing is written."""
    return argparse.ArgumentParser(
        description=doc, formatter_class=argparse.RawDescriptionHelpFormatter, allow_abbrev=False
    )


def asks_check(doc):
    """Whether the tool was called with --check: for a tool that takes no other word."""
    parser = words(doc)
    parser.add_argument("--check", action="store_true", help="write nothing; exit 1 if the page is not true")
    return parser.parse_args().check


def keep(page, text, check):
    """Writes a page; with check writes nothing and says whether it holds this text. The exit status: 1 if it does not."""
    name = page.relative_to(TOP)
    same = page.exists() and read(page) == text
    if check:
        print(f"{name} is true" if same else f"{name} is not true: run tools/{pathlib.Path(sys.argv[0]).name}")
        return 0 if same else 1
    if not same:
        write(page, text)
    print(f"{name} written" if not same else f"{name} stays as it is")
    return 0
