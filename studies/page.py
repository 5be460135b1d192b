"""The tables of docs/SIMULATION.md."""
import os
import re
import sys

from networks import ROOT, middle

PICTURES = os.path.join(ROOT, "docs", "pictures")
PAGE = os.path.join(ROOT, "docs", "SIMULATION.md")


def put(study, head, rows):
    """Puts the rows into the table of the study."""
    lines = ["| " + " | ".join(head) + " |", "|" + "---|" * len(head)]
    lines += ["| " + " | ".join(str(cell) for cell in row) + " |" for row in rows]
    with open(PAGE, encoding="utf-8") as file:
        page = file.read()
    begin, end = f"<!-- figures of {study} -->\n", "<!-- end -->"
    pattern = re.compile(re.escape(begin) + ".*?" + re.escape(end), re.DOTALL)
    if not pattern.search(page):
        sys.exit(f"studies: docs/SIMULATION.md has no table of {study}")
    text = begin + "\n".join(lines) + "\n" + end
    with open(PAGE, "w", encoding="utf-8") as file:
        file.write(pattern.sub(lambda _: text, page))


def seconds(numbers, digits=1):
    """The middle of some seconds, and their range."""
    found = [number for number in numbers if number is not None]
    if not found:
        return "-", "-"
    shown = [f"{number:.{digits}f}" for number in (middle(found), min(found), max(found))]
    return shown[0], f"{shown[1]} to {shown[2]}"
