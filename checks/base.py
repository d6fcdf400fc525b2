"""What the checks share: where things are, the program that is asked, its texts as files, and how a check ends.

The modules of tools/ are found once this is imported.
"""
import os
import subprocess
import sys

CHECKS = os.path.dirname(os.path.abspath(__file__))
TOP = os.path.dirname(CHECKS)
PROGRAM = os.path.join(TOP, "crates/resolve/out/resolve")
PARTS = ("catalogue", "request", "report")
# a catalogue and a request of examples/, which has their report
EXAMPLES = [("app", "app"), ("app", "conflict"), ("locked", "locked"), ("majors", "majors"), ("wishes", "wishes")]

# before the folder of this file, since checks/tools.py has the same name
sys.path.insert(0, TOP)


def fail(what, *details):
    """Ends the check with what is wrong."""
    sys.exit("\n".join([what, *(it if isinstance(it, str) else repr(it) for it in details)]))


def must(test, what, *details):
    """Ends the check where the test fails."""
    if not test:
        fail(what, *details)


def program_of(words, place, or_none=False):
    """The program's path: the word at this place, else what `rt run` leaves. Where `or_none`, `-` stays."""
    path = words[place] if len(words) > place else PROGRAM
    if or_none and path == "-":
        return path
    must(os.access(path, os.X_OK) and not os.path.isdir(path), f"{path} is no program: build it, or name another one")
    return os.path.abspath(path)


def write_texts(folder, texts):
    """The paths of these texts, which are written into the folder: a catalogue, a request, and a report if there are three."""
    paths = [os.path.join(folder, part) for part in PARTS[:len(texts)]]
    for path, text in zip(paths, texts):
        with open(path, "wb") as file:
            file.write(text if isinstance(text, bytes) else text.encode())
    return paths


def ask(program, folder, texts, timeout=None):
    """Status and output of a run over these texts as files of the folder. Two are solved; of three the report is judged."""
    words = [program, "solve" if len(texts) == 2 else "judge", *write_texts(folder, texts)]
    ended = subprocess.run(words, stdin=subprocess.DEVNULL, capture_output=True, timeout=timeout, check=False)
    return ended.returncode, ended.stdout
