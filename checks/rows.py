#!/usr/bin/env python3
"""Reads the rows of crates/resolve_rows/data, and checks what they expect by the plain reader and judge.

Usage: checks/rows.py [FOLDER OF ROWS] [PATH OF THE PROGRAM]
crates/resolve_rows/README.md describes how rows are written. The first faulty line that a row expects must be the first one that
tools/texts.py refuses. A report that a row has or expects is judged by docs/JUDGE.md, in plain_judge.py. With a program each row
is also given to it, as files, and its output and status are compared with what the row expects.
"""
import glob
import os
import re
import sys
import tempfile

from base import PARTS, TOP, ask, must, program_of
from plain_judge import judge
from tools import texts

DATA = os.path.join(TOP, "crates/resolve_rows/data")
ESCAPE = re.compile(rb"\\x([0-9a-f]{2})|\\\*([0-9]+);|\\(.)|(.)", re.DOTALL)
LETTERS = {b"n": b"\n", b"r": b"\r", b"t": b"\t", b"\\": b"\\"}


class Row:
    """A row's file, its number in it, what the file shows, and the row's sections as bytes."""

    def __init__(self, name, number, about, sections):
        self.name, self.number, self.about, self.sections = name, number, about, sections

    def text(self, section):
        return self.sections.get(section, b"")

    def texts(self):
        """A catalogue, a request, and a report where the row is judged."""
        return tuple(self.text(name) for name in PARTS if name != "report" or name in self.sections)

    def __str__(self):
        return f"{self.name}, row {self.number}"


def unescaped(escaped):
    text = bytearray()
    for code, times, letter, plain in ESCAPE.findall(escaped.replace(b"\n", b"")):
        if code:
            text.append(int(code, 16))
        elif times:
            text += text[-1:] * (int(times) - 1)
        else:
            text += LETTERS[letter] if letter else plain
    return bytes(text)


def section(part):
    """A section's name and bytes, from the text behind its `== `."""
    head, _, body = part.partition(b"\n")
    name = head.removesuffix(b" escaped")
    if name != head:
        return name.decode(), unescaped(body)
    return name.decode(), body + b"\n" if b"\n" in part else b""


def read(path):
    """The rows of a file."""
    name = os.path.basename(path).removesuffix(".row")
    with open(path, "rb") as file:
        about, *parts = file.read().removesuffix(b"\n").split(b"\n== ")
    about = about.decode()
    sections = dict(section(part) for part in parts)
    table = sections.pop("table", None)
    if table is None:
        return [Row(name, 1, about, sections)]
    columns, *lines = table.decode().removesuffix("\n").split("\n")
    rows = []
    for number, line in enumerate(lines, 1):
        cells = [unescaped(cell.encode()) for cell in line.split("\t")]
        rows.append(Row(name, number, about, {**sections, **dict(zip(columns.split("\t"), cells))}))
    return rows


def read_all(folder=DATA):
    return [row for path in sorted(glob.glob(os.path.join(folder, "*.row"))) for row in read(path)]


def all_rows():
    """Each row by its name, with its texts: a catalogue, a request, and a report where the row is judged."""
    for row in read_all():
        yield str(row), row.texts()


def first_fault(row):
    """The first faulty line of the two texts, as the program prints it, or `none`."""
    try:
        texts.read_request(row.text("request"), texts.read_catalogue(row.text("catalogue")))
    except texts.Fault as fault:
        return f"{fault.text} line {fault.line}\n"
    return "none\n"


def answer_of(row, report):
    line = judge(row.text("catalogue"), row.text("request"), report)
    return f"no line {line}\n" if line else "yes\n"


def difference(row):
    """What a row expects otherwise than the plain reader and judge; None where they agree."""
    fault = first_fault(row)
    wanted = row.sections.get("fault")
    if wanted is not None and wanted.decode() != fault:
        return f"expects the fault {wanted.decode()!r}, the plain reader says {fault!r}"
    if fault != "none\n" or "reads" in row.sections:
        return None
    if "judge" in row.sections:
        found = answer_of(row, row.text("report"))
        return None if found == row.text("judge").decode() else f"the plain judge says {found!r}"
    if row.text("prints").startswith((b"install\n", b"refused\n")):
        found = answer_of(row, row.text("prints"))
        return None if found == "yes\n" else f"of what it prints the plain judge says {found!r}"
    return None


def lines_with(output, *fronts):
    return b"".join(line for line in output.splitlines(keepends=True) if line.startswith(fronts))


def came(name, output, status, wanted):
    """The part of an answer that a section of this name expects."""
    if name == "most steps":
        return wanted if lines_with(output, b"step ").count(b"\n") <= int(wanted) else b"more"
    return {
        "prints": output, "judge": output, "status": b"%d\n" % status, "begins": output[:len(wanted)],
        "named": lines_with(output, b"catalogue line ", b"request line "), "steps": lines_with(output, b"step "),
        "message": lines_with(output, b"| "), "fault": output.removeprefix(b"fault at ") if status == 2 else b"none\n",
    }[name]


def asked(program, row, folder):
    """What the row expects otherwise than the program; None where they agree, or where no command shows it."""
    if "reads" in row.sections:
        return None
    status, output = ask(program, folder, row.texts())
    for name, wanted in row.sections.items():
        if name not in PARTS and came(name, output, status, wanted) != wanted:
            return f"{name} is {came(name, output, status, wanted)!r}"
    return None


def main():
    data = sys.argv[1] if len(sys.argv) > 1 else DATA
    rows = read_all(data)
    must(rows, f"{data} has no rows")
    found = [(row, difference(row)) for row in rows if max(map(len, row.sections.values())) < 1_000_000]
    if len(sys.argv) > 2:
        program = program_of(sys.argv, 2)
        with tempfile.TemporaryDirectory() as folder:
            found += [(row, asked(program, row, folder)) for row in rows]
    for row, line in found:
        if line:
            print(f"{row}: {line}")
    print(f"{len(rows)} rows, {sum(1 for _, line in found if line)} differences")
    sys.exit(1 if any(line for _, line in found) else 0)


if __name__ == "__main__":
    main()
