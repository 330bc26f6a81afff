#!/usr/bin/env python3
"""Every link of README.md, CONTRIBUTING.md and docs/ leads to a file of the repository, and every heading it names is there.

    tools/links.py --check   exits 1 if one does not; there is nothing to write
"""
import re
import sys

from page import TOP, asks_check, read

LINK = re.compile(r"\]\(([^)#:]*)(?:#([^)]*))?\)")


def anchors(path):
    """The headings of a page, as a link names them."""
    heads = re.findall(r"(?m)^#+ (.*)$", read(path))
    return {re.sub(r"[^\w -]", "", head.lower()).replace(" ", "-") for head in heads}


def faults_of(page, text):
    """The links of a page's text that lead nowhere."""
    faults = []
    for name, anchor in LINK.findall(text):
        path = (page.parent / name).resolve() if name else page
        if not path.exists() or (anchor and anchor not in anchors(path)):
            faults.append(f"{page.relative_to(TOP)}: {name}{'#' + anchor if anchor else ''} is not there")
    return faults


def main():
    asks_check(__doc__)
    pages = [TOP / "README.md", TOP / "CONTRIBUTING.md"] + sorted((TOP / "docs").glob("*.md"))
    faults = [fault for page in pages for fault in faults_of(page, read(page))]
    print("\n".join(faults) if faults else f"{len(pages)} pages, every link leads somewhere")
    return 1 if faults else 0


if __name__ == "__main__":
    sys.exit(main())
