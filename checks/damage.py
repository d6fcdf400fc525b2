#!/usr/bin/env python3
"""Damages the inputs of importers, and checks what `resolve-tools` reports of each. It needs no program and no network.

Usage: checks/damage.py [COUNT] [SEED]      defaults: 200 inputs of each kind, seed 1; eight damages of each input
Kinds are Packages files, apt's scenarios, the JSON form of PyPI's index, wheels' METADATA, Cargo's index, conda's repodata.json
and CUDF documents. Whatever the damage, nothing crashes. A fault has status 2 and one line `tools: FILE: line N: REASON`, and no
file is written. The line has no number where the whole file is at fault. Otherwise the catalogue can be read. The answer to some
damages is known. A text that was cut off inside its last stanza or value is a fault. A byte that isn't UTF-8, and a version that
doesn't parse, are faults at their line (of JSON over several lines, that of the entry). An unknown field changes nothing, except
in CUDF, where it is a fault if no preamble has it. Each input has a cycle where its kind can have one.
"""
import contextlib
import io
import json
import os
import random
import re
import shutil
import sys
import tempfile
from collections import Counter
from unittest import mock

import cargo
import conda
import cudf
import pypi
from base import fail
from tools import apt_solver, texts
from tools.tests.base import Output, run

SAID = re.compile(r"tools: (?P<file>[^:\n]+): (?:line (?P<line>\d+): )?[^\n]+\n")
ENVIRONMENT = {"python_full_version": "3.11.7", "python_version": "3.11", "sys_platform": "linux", "os_name": "posix"}


# ---- good inputs


def some_stanzas(rng, more=()):
    """Stanzas of Packages files: two versions of each of some packages, a cycle among them."""
    names = [f"p{at}+x" for at in range(rng.randint(2, 6))]
    for at, name in enumerate(names):
        for version in rng.sample(["1", "1.0-1", "2~rc1", "1:0.5", "2+b1"], 2):
            lines = [f"Package: {name}", f"Version: {version}", "Architecture: amd64"]
            lines += [f"Depends: {names[(at + 1) % len(names)]}, {rng.choice(names)} (>= 1) | nowhere"]
            lines += [f"{rng.choice(['Conflicts', 'Breaks'])}: {rng.choice(names)} (<< 1)"] if rng.random() < 0.4 else []
            lines += ["Description: short", " long é", " ."] if rng.random() < 0.3 else []
            yield lines + [each.format(len(names)) for each in more]


def packages(rng):
    return "".join("\n".join(lines) + "\n\n" for lines in some_stanzas(rng))


def scenario(rng):
    """The fields in apt's order, where stanzas are found without reading them, or in another."""
    number, found = 0, ["Request: EDSP 0.5\nArchitecture: amd64\nInstall: p0+x:amd64\n\n"]
    is_usual = rng.random() < 0.7
    for lines in some_stanzas(rng, ["APT-Candidate: yes"]):
        number += 1
        lines[1:3] = reversed(lines[1:3]) if is_usual else lines[1:3]
        found.append("\n".join([*lines, f"APT-ID: {number}"]) + "\n\n")
    return "".join(found)


def pypi_json(rng):
    entries = pypi.some_entries(rng)
    return "".join(json.dumps(entry) + "\n" for entry in entries) if rng.random() < 0.5 else json.dumps(entries, indent=1) + "\n"


def metadata(rng):
    return pypi.metadata(rng.choice(pypi.some_entries(rng)))


def cargo_index(rng):
    return "".join(json.dumps(entry) + "\n" for entries in cargo.some_registry(rng).values() for entry in entries)


def repodata(rng):
    records = conda.some_records(rng)
    return json.dumps({"info": {"subdir": "noarch"}, "packages": records, "packages.conda": {}}, indent=1) + "\n"


def document(rng):
    return cudf.some_document(rng)[0]


# ---- how they are read


def imported(folder, path, *words):
    """Status, the text on standard error, and the catalogue, if one is written."""
    out = os.path.join(folder, "out")
    status, printed, error = run(*words, "--out", out, path)
    if printed:
        fail("something is printed", printed, words)
    if not os.path.exists(out):
        return status, error, None
    with open(out, "rb") as file:
        return status, error, file.read()


def by_command(*words):
    return lambda folder, path: imported(folder, path, *words)


def as_wheels(folder, path):
    """The file as the METADATA of the only wheel of a folder."""
    wheels = os.path.join(folder, "wheels")
    os.mkdir(wheels)
    shutil.copy(path, os.path.join(wheels, "x.whl.metadata"))
    return imported(folder, wheels, "pypi", "catalogue")


def as_scenario(folder, path):
    """The answer of the solver for apt, over a program that finds that nothing is to be done."""
    with open(path, "rb") as file:
        source = io.TextIOWrapper(io.BytesIO(file.read()))
    program = os.path.join(folder, "resolve")
    with open(program, "w") as out:
        out.write("#!/bin/sh\necho install\n")
    os.chmod(program, 0o755)
    out, error, kept = Output(), Output(), os.path.join(folder, "kept")
    os.mkdir(kept)
    with contextlib.redirect_stdout(out), contextlib.redirect_stderr(error), mock.patch.object(sys, "stdin", source):
        with mock.patch.dict(os.environ, {"RESOLVE": program}), mock.patch("tempfile.tempdir", kept):
            status = apt_solver.main()
    said = out.taken().decode()
    if status != 0 or error.taken():
        fail("the solver for apt failed", said)
    found = re.search(r"^Error: resolve-fault\nMessage: (.*)\n", said, re.M)
    return (2, found.group(1) + "\n", None) if found else (0, "", b"")


KINDS = {
    "Packages": (packages, by_command("debian", "--arch", "amd64")),
    "scenario": (scenario, as_scenario),
    "PyPI": (pypi_json, by_command("pypi", "catalogue")),
    "METADATA": (metadata, as_wheels),
    "Cargo": (cargo_index, by_command("cargo", "catalogue")),
    "conda": (repodata, by_command("conda", "catalogue")),
    "CUDF": (document, by_command("cudf", "convert")),
}


# ---- damages: the new bytes, and the line of the fault, 0 where it is another one, None where there need be none


def cut(rng, data):
    """Bytes are missing at the end."""
    return data[:rng.randrange(len(data) - 1)], None


def strange_byte(rng, data):
    """A byte that no UTF-8 text has."""
    at = rng.randrange(len(data))
    return data[:at] + bytes([rng.choice([0xFF, 0xC0, 0xF8])]) + data[at:], data[:at].count(b"\n") + 1


def other_byte(rng, data):
    at = rng.randrange(len(data))
    return data[:at] + bytes([rng.randrange(256)]) + data[at + 1:], None


def lost_bytes(rng, data):
    at = rng.randrange(len(data))
    return data[:at] + data[at + rng.randint(1, 40):], None


def line_twice(rng, data):
    lines = data.splitlines(keepends=True)
    at = rng.randrange(len(lines))
    return b"".join(lines[:at + 1] + lines[at:]), None


def lines_swapped(rng, data):
    lines = data.splitlines(keepends=True)
    one, other = rng.randrange(len(lines)), rng.randrange(len(lines))
    lines[one], lines[other] = lines[other], lines[one]
    return b"".join(lines), None


VERSION = re.compile(rb"(?m)^(?:version|Version): (\S+)$|\"(?:version|vers)\": \"([^\"]+)\"")


def bad_version(rng, data):
    """A version that isn't one."""
    found = rng.choice(list(VERSION.finditer(data)))
    at = found.start(1) if found.group(1) else found.start(2)
    end = found.end(1) if found.group(1) else found.end(2)
    return data[:at] + b"1_0 x!" + data[end:], data[:at].count(b"\n") + 1


FIELD = re.compile(rb"(?m)^(?:package|Package|Name): .*\n|\"(?:name)\": ")


def unknown_field(rng, data):
    """A field that nobody knows."""
    found = rng.choice(list(FIELD.finditer(data)))
    if found.group().startswith(b'"'):
        return data[:found.start()] + b'"x-unknown": [{"a": null}, 1.5e3], ' + data[found.start():], None
    return data[:found.end()] + b"x-unknown: 1 2 3\n" + data[found.end():], None


DAMAGES = [cut, strange_byte, other_byte, lost_bytes, line_twice, lines_swapped, bad_version, unknown_field]


def without_sum(catalogue):
    """The lines of a catalogue but the first, which has the sum of the input."""
    return catalogue.partition(b"\n")[2]


def check_answer(kind, damage, data, path, answer, good):
    """A fault in one line with nothing written, or a catalogue."""
    status, said, catalogue = answer
    shown = (kind, damage.__name__, answer[:2], data)
    if status == 0:
        if said or catalogue is None or damage is bad_version or kind == "CUDF" and damage is unknown_field:
            fail("a fault is due", *shown)
        texts.read_catalogue(catalogue)
        if damage in (strange_byte, unknown_field) and without_sum(catalogue) != without_sum(good):
            fail("a field that is passed over changes the catalogue", *shown)
        return "read"
    found = SAID.fullmatch(said)
    if status != 2 or catalogue is not None or not found:
        fail("not a fault as it should be", *shown)
    if os.path.basename(path) not in said and kind not in ("scenario", "METADATA"):
        fail("the file isn't named", *shown)
    if found["line"] and not 1 <= int(found["line"]) <= data.count(b"\n") + 1:
        fail("there is no such line", *shown)
    return "at a line" if found["line"] else "of the whole file"


def check_line(kind, damage, said, line, data):
    """Checks the reported line where it is known."""
    is_known = damage is bad_version or damage is strange_byte and "isn't UTF-8" in said
    if is_known and not line - above(kind, damage) <= int(SAID.fullmatch(said)["line"]) <= line:
        fail("another line is due", kind, damage.__name__, said, line, data)


def above(kind, damage):
    """How many lines above the fault may be reported: of JSON it is the line of the entry, which has a dozen."""
    return 12 if kind in ("PyPI", "conda") and damage is bad_version else 0


def check_input(rng, kind, counts):
    """One good input, and its damages."""
    make, read = KINDS[kind]
    data = make(rng).encode()
    for damage in (None, *DAMAGES):
        with tempfile.TemporaryDirectory() as folder:
            path = os.path.join(folder, "input")
            damaged, line = damage(rng, data) if damage else (data, None)
            with open(path, "wb") as out:
                out.write(damaged)
            answer = read(folder, path)
            if damage is None:
                good = answer[2]
                if answer[:2] != (0, ""):
                    fail("a good input is refused", kind, answer[:2], data)
                continue
            how = check_answer(kind, damage, damaged, path, answer, good)
            if how == "at a line":
                check_line(kind, damage, answer[1], line, damaged)
            counts[kind, damage.__name__, how] += 1


def main():
    count = int(sys.argv[1]) if len(sys.argv) > 1 else 200
    counts = Counter()
    with mock.patch("tools.files.SLOW", 600):
        for kind in KINDS:
            rng = random.Random(f"{kind} {sys.argv[2] if len(sys.argv) > 2 else 1}")
            for _ in range(count):
                check_input(rng, kind, counts)
            told = Counter()
            for (each, _, how), number in counts.items():
                told[how] += number if each == kind else 0
            print(f"{kind}: {count} inputs, " + ", ".join(f"{n} {how}" for how, n in sorted(told.items()) if n), flush=True)
    for damage in DAMAGES:
        found = Counter()
        for (_, each, how), number in counts.items():
            found[how] += number if each == damage.__name__ else 0
        print(f"{damage.__name__.replace('_', ' ')}: " + ", ".join(f"{n} {how}" for how, n in sorted(found.items()) if n))


if __name__ == "__main__":
    main()
