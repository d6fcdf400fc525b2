#!/usr/bin/env python3
"""Checks that docs/COVERAGE.md and docs/EDITS.md name what exists, and lists the rows, requests, store calls, tests and edits in docs/COVERAGE.md.

Usage: checks/coverage.py [--write]
Without `--write` it fails where a named file is missing, or a row, a test or an edit of the gate isn't listed. It fails too where
what a row shows was changed. With it, everything from the heading `## Rows` on is written anew. The part above that is written by
hand.
"""
import glob
import os
import re
import sys

import requests_kept
import rows
import store_calls
from base import TOP

PAGE = os.path.join(TOP, "docs/COVERAGE.md")
EDITS = os.path.join(TOP, "docs/EDITS.md")
FROM = "## Rows\n"
TEST = re.compile(r"#\[test\]\n(?:\s*#\[.*\]\n)*\s*fn (\w+)")


def content(path):
    with open(path, encoding="utf-8") as file:
        return file.read()


def rows_listed():
    """A line for each file of rows: how many, and what they show."""
    lines = ["| File in `crates/resolve_rows/data` | Rows | Shows |", "|---|---|---|"]
    for path in sorted(glob.glob(os.path.join(rows.DATA, "*.row"))):
        found = rows.read(path)
        about = found[0].about.replace("|", "\\|")
        lines.append(f"| `{found[0].name}` | {len(found)} | {about} |")
    return lines


def requests_listed():
    """A line for each case of the solver that is written by hand: its title, and what it shows. And one for the generated ones."""
    by_hand = [case for case in requests_kept.cases() if not requests_kept.is_of_seed(case)]
    count = len(requests_kept.cases()) - len(by_hand)
    lines = ["| Case in `crates/resolvo_rows/stdin` | Shows |", "|---|---|"]
    lines += [f"| {case.title} | {', '.join(it for it in case.sections if it not in ('catalogue', 'request'))} |" for case in by_hand]
    return lines + [f"| those of {count} seeds | answer, answer without hint |"]


def store_rows_listed():
    """A line for each list of store calls that is written by hand, and one for the generated ones."""
    by_hand, of_seeds = store_calls.kept()
    lines = ["| List in `crates/resolvo_store_rows/stdin` | Calls |", "|---|---|"]
    lines += [f"| {title} | {len(calls)} |" for title, *calls in by_hand]
    return lines + [f"| those of {len(of_seeds):,} seeds | {sum(len(it) - 1 for it in of_seeds):,} |"]


def tests_listed():
    """A line for each file of tests."""
    lines = ["| File in `crates` | Tests |", "|---|---|"]
    for path in sorted(glob.glob(os.path.join(TOP, "crates/*/src/**/*.rt"), recursive=True)):
        names = TEST.findall(content(path))
        if names:
            lines.append(f"| `{os.path.relpath(path, os.path.join(TOP, 'crates'))}` | {', '.join(f'`{name}`' for name in names)} |")
    return lines


def gate_edits():
    """Crate and name of each edit that the gate tries."""
    paths = glob.glob(os.path.join(TOP, "crates/*/must-fail/*.edit"))
    return sorted(f"{path.split(os.sep)[-3]}/{os.path.basename(path).removesuffix('.edit')}" for path in paths)


def edits_described():
    """The wrong body of each edit, from the table of docs/EDITS.md."""
    bodies = {}
    for line in content(EDITS).splitlines():
        cells = [cell.strip() for cell in line.strip("|").split("|")] if line.startswith("| ") else []
        if len(cells) == 3:
            for edit in re.findall(r"`(\w+/\w+)`", cells[1]):
                bodies[edit] = cells[0]
    return bodies


def edits_listed():
    """A line for each edit of the gate: its wrong body, as docs/EDITS.md describes it."""
    bodies = edits_described()
    lines = ["| Edit | Wrong body |", "|---|---|"]
    return lines + [f"| `{edit}` | {bodies.get(edit, 'not listed in docs/EDITS.md')} |" for edit in gate_edits()]


def generated():
    parts = [FROM, *rows_listed(), "", "## Requests to the solver", "", *requests_listed(), "", "## Lists of store calls", "", *store_rows_listed(), "", "## Tests", "", *tests_listed(), "", "## Edits of the gate", "", *edits_listed()]
    return "\n".join(parts) + "\n"


def faults():
    """What is named and isn't there, or is there and isn't named."""
    page = content(PAGE)
    above, _, below = page.partition(FROM)
    found = []
    if FROM + below != generated():
        found.append("docs/COVERAGE.md: its lists aren't those of what is there; run checks/coverage.py --write")
    for path in re.findall(r"`((?:crates|checks|docs|tools|bench|examples)/[\w./*-]+)`", above):
        if not glob.glob(os.path.join(TOP, path)):
            found.append(f"docs/COVERAGE.md: {path} isn't there")
    described = edits_described()
    for edit in gate_edits():
        if edit not in described:
            found.append(f"docs/EDITS.md: {edit} isn't listed")
    for edit in described:
        crate, name = edit.split("/")
        if not any(os.path.exists(os.path.join(TOP, folder, name + ".edit")) for folder in (f"crates/{crate}/must-fail", f"checks/edits/{crate}")):
            found.append(f"docs/EDITS.md: {edit} isn't there")
    return found


def main():
    if sys.argv[1:] == ["--write"]:
        above = content(PAGE).partition(FROM)[0]
        with open(PAGE, "w", encoding="utf-8") as file:
            file.write(above + generated())
    found = faults()
    print("\n".join(found) if found else "each named file is there, and each row, test and edit is listed")
    sys.exit(1 if found else 0)


if __name__ == "__main__":
    main()
