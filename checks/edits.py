#!/usr/bin/env python3
"""Tries the wrong bodies that the gate leaves out: checks/edits/CRATE/*.edit.

    checks/edits.py [--apply] [CRATE ..]

Each edit has the form of a must-fail edit: a file, then pairs of lines `old:` and `new:`. The program makes a copy of
the repository in a temporary folder, and puts the edits of each crate there into must-fail/, beside those of the gate.
It runs `rt must-fail CRATE` in the copy: the prover must refuse each. It uses the libraries that earlier checks built
(by hard links to crates/*/out/rlib, which rt replaces and never writes to). So run `rt all check` first, or those below
each crate are proved anew. With no name it tries every crate that has edits. With --apply it only checks that each edit
still applies, those of the gate too, and that docs/EDITS.md names these and no others.

An edit that is refused only since a proof file names what the edit removed is counted apart: it shows little of the
contract. The status is 0 if all were refused, 1 if one was not, 2 where the program was called wrongly.
"""
import os
import pathlib
import re
import shutil
import subprocess
import sys
import tempfile

TOP = pathlib.Path(__file__).resolve().parent.parent
EDITS = TOP / "checks" / "edits"
BY_NAME = "only because a proof file names"


def changes_of(edit: pathlib.Path) -> list[tuple[str, str, str]]:
    """The changes of an edit, in their order: a file, an old text, and the new one."""
    changes, file, old = [], None, None
    for number, line in enumerate(edit.read_text(encoding="utf-8").splitlines(), 1):
        word, _, text = line.partition(":")
        text = text.removeprefix(" ")
        if word == "file" and old is None:
            file = text
        elif word == "old" and file and old is None:
            old = text
        elif word == "new" and old is not None:
            changes.append((file, old, text))
            old = None
        else:
            raise ValueError(f"line {number} has no place there: {line}")
    if old is not None or not changes:
        raise ValueError("it ends without a line 'new: ..'")
    return changes


def fault_of(crate: str, edit: pathlib.Path) -> str | None:
    """Why an edit does not apply to its crate, or None."""
    texts: dict[str, str] = {}
    try:
        for file, old, new in changes_of(edit):
            if file not in texts:
                texts[file] = (TOP / "crates" / crate / file).read_text(encoding="utf-8")
            if texts[file].count(old) != 1:
                return f"its old text is there {texts[file].count(old)} times in {file}: {old}"
            texts[file] = texts[file].replace(old, new)
    except (OSError, ValueError) as fault:
        return str(fault)
    return None


def edits_of(crate: str) -> list[pathlib.Path]:
    return sorted((EDITS / crate).glob("*.edit"))


def apply_all(crates: list[str]) -> int:
    """Looks whether each edit applies, those of the gate too; returns the status."""
    tried, faults = 0, 0
    for crate in crates:
        for edit in edits_of(crate) + sorted((TOP / "crates" / crate / "must-fail").glob("*.edit")):
            tried += 1
            fault = fault_of(crate, edit)
            if fault:
                faults += 1
                print(f"{edit.relative_to(TOP)}: {fault}")
    print(f"{tried - faults} apply, {faults} don't")
    return 1 if faults or not is_listed() else 0


def is_listed() -> bool:
    """Whether docs/EDITS.md names the gate's edits and no others; prints which differ."""
    rows = [line for line in (TOP / "docs" / "EDITS.md").read_text(encoding="utf-8").splitlines() if line.startswith("|")]
    named = {word for row in rows for word in re.findall(r"`(\w+/\w+)`", row.split("|")[2])}
    there = {f"{it.parts[-3]}/{it.stem}" for it in TOP.glob("crates/*/must-fail/*.edit")}
    for name in sorted(named ^ there):
        print(f"docs/EDITS.md: {name} is {'no edit of the gate' if name in named else 'not named'}")
    return named == there


def copy_to(room: pathlib.Path, crates: list[str]) -> None:
    """A copy of the repository's files, with the libraries that checks built, and the edits in must-fail/."""
    listed = subprocess.run(
        ["git", "ls-files", "-z", "--cached", "--others", "--exclude-standard", "crates", "crates.txt", "HANDLES"],
        cwd=TOP, check=True, capture_output=True, text=True,
    ).stdout
    for name in filter(None, listed.split("\0")):
        if "/must-fail/" not in name and (TOP / name).is_file():
            (room / name).parent.mkdir(parents=True, exist_ok=True)
            shutil.copy2(TOP / name, room / name)
    for built in TOP.glob("crates/*/out/rlib"):
        shutil.copytree(built, room / built.relative_to(TOP), copy_function=os.link)
    for crate in crates:
        there = room / "crates" / crate / "must-fail"
        there.mkdir(exist_ok=True)
        for edit in edits_of(crate):
            shutil.copy2(edit, there / edit.name)
    (room / ".git").mkdir()


def try_all(crates: list[str]) -> int:
    """Runs `rt must-fail` over each crate of a copy, prints its output, and returns the status."""
    refused, by_name, others = 0, 0, 0
    with tempfile.TemporaryDirectory(prefix="edits-", dir=TOP.parent) as folder:
        room = pathlib.Path(folder)
        copy_to(room, crates)
        for crate in crates:
            ran = subprocess.Popen(
                ["rt", "must-fail", crate], cwd=room, stdout=subprocess.PIPE, stderr=subprocess.STDOUT, text=True,
            )
            for line in ran.stdout:
                if "must-fail " in line:
                    print(line, end="", flush=True)
                    is_refused = ": refused" in line
                    refused += is_refused and BY_NAME not in line
                    by_name += is_refused and BY_NAME in line
                    others += not is_refused
            if ran.wait() and not others:
                print(f"{crate}: rt must-fail ended with status {ran.returncode}")
                others += 1
    print(f"{refused} refused for their meaning, {by_name} for a name alone, {others} not refused")
    return 1 if others else 0


def main(words: list[str]) -> int:
    if "-h" in words or "--help" in words:
        print(__doc__, end="")
        return 0
    is_apply = "--apply" in words
    places = [*EDITS.iterdir(), *(it.parent for it in TOP.glob("crates/*/must-fail") if is_apply)]
    known = sorted({it.name for it in places if it.is_dir()})
    named = [it for it in words if it != "--apply"]
    strangers = [it for it in named if it not in known]
    if strangers:
        print(f"{strangers[0]} has no edits; these crates have: {' '.join(known)}", file=sys.stderr)
        return 2
    crates = named or known
    return apply_all(crates) if is_apply else try_all(crates)


if __name__ == "__main__":
    sys.exit(main(sys.argv[1:]))
