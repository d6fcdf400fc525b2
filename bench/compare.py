#!/usr/bin/env python3
"""Puts two outputs of bench/solving.py side by side: before and after a change.

Usage: bench/compare.py BEFORE AFTER
Either may be several outputs one after the other. Prints tables for docs/BENCHMARKS.md: seconds of `resolve` with their quotient, its
ratio to each peer in its own run, and the goals. Seconds of two runs differ by what else the machine did, and ratios do less.
"""
import re
import sys


def table(path, *head):
    """The rows of all tables of a file whose head begins so, with the last head first."""
    found, is_inside = [[]], False
    with open(path, encoding="utf-8") as lines:
        for line in lines:
            cells = [cell.strip() for cell in line.strip().strip("|").split("|")] if line.startswith("|") else None
            if cells and tuple(cells[: len(head)]) == head:
                found[0], is_inside = cells, True
            elif cells is None:
                is_inside = False
            elif is_inside and not cells[0].startswith("--"):
                found.append(cells)
    return found


def by_key(rows):
    """Rows without their first two cells, by these."""
    return {tuple(row[:2]): row[2:] for row in rows}


def ratio(cell):
    """What is in parentheses, or the word that is there in place of a figure."""
    found = re.search(r"\(([0-9.]+)\)", cell)
    return found[1] if found else "" if re.match(r"[0-9.]+\Z", cell) else cell


def quotient(before, after):
    """How many times as fast it is."""
    try:
        return f"{float(before) / float(after):.1f}"
    except (ValueError, ZeroDivisionError):
        return ""


def main():
    """Prints the tables."""
    before, after = (table(path, "shape", "size", "answer") for path in sys.argv[1:3])
    old, new = by_key(before[1:]), by_key(after[1:])
    peers = [name.removesuffix(", s") for name in before[0][5:]]
    print("| shape | size | before, s | after, s | times as fast |" + "".join(f" {name} |" for name in peers))
    print("|" + "---|" * (5 + len(peers)))
    for key in [key for key in old if key in new]:
        ratios = [f"{ratio(a)} → {ratio(b)}" for a, b in zip(old[key][3:], new[key][3:])]
        print("| " + " | ".join([*key, old[key][1], new[key][1], quotient(old[key][1], new[key][1]), *ratios]) + " |")
    print("\n| shape | goal | before | after | met |\n|---|---|---|---|---|")
    old, new = (by_key(table(path, "shape", "goal")[1:]) for path in sys.argv[1:3])
    for key in [key for key in old if key in new]:
        print("| " + " | ".join([*key, old[key][0], *new[key]]) + " |")


if __name__ == "__main__":
    main()
