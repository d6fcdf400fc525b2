#!/usr/bin/env python3
"""Checks a release in a folder where nothing else is: no loader, no library, no program.

Usage: checks/release.py TARBALL [PATH OF THE PROGRAM] [TARBALL OF ANOTHER RUN]     (as root, since it uses chroot)
Default for the program: crates/resolve/out/resolve (which `rt run` leaves).
A release of another run over the same commit must be the same bytes. The sums must be right, and the first example of README.md must
be answered as there. All rows of crates/resolve_rows/data must get the program's bytes and status. The seconds from the tarball to the
first answer are printed.
"""
import filecmp
import os
import re
import subprocess
import sys
import tempfile
import time

from base import ask, must, program_of
from rows import all_rows

EXAMPLE = re.compile(r"^\$ resolve solve (\S+) (\S+)\n((?:[^$`].*\n)*)", re.M)


class Jail:
    """A folder with the release alone."""

    def __init__(self, folder):
        self.folder = folder
        self.release = os.listdir(folder)[0]

    def run(self, *words):
        def enter():
            os.chroot(self.folder)
            os.chdir("/" + self.release)

        return subprocess.run(["bin/resolve-static", *words], preexec_fn=enter, stdout=subprocess.PIPE, env={}, check=False)

    def answer(self, texts):
        names = []
        for number, text in enumerate(texts):
            names.append(f"text-{number}")
            with open(os.path.join(self.folder, self.release, names[-1]), "wb") as file:
                file.write(text)
        ended = self.run("solve" if len(texts) == 2 else "judge", *names)
        return ended.returncode, ended.stdout


def main():
    if len(sys.argv) < 2:
        sys.exit(__doc__)
    program = program_of(sys.argv, 2)
    if len(sys.argv) > 3:
        must(filecmp.cmp(sys.argv[1], sys.argv[3], shallow=False), "two runs gave two releases", *sys.argv[1:4:2])
        print("another run gave the same bytes")
    with tempfile.TemporaryDirectory() as folder, tempfile.TemporaryDirectory() as texts_folder:
        began = time.monotonic()
        subprocess.run(["tar", "xf", os.path.abspath(sys.argv[1]), "-C", folder], check=True)
        jail = Jail(folder)
        with open(os.path.join(folder, jail.release, "README.md"), encoding="utf-8") as readme:
            first = EXAMPLE.search(readme.read())
        ended = jail.run("solve", first.group(1), first.group(2))
        must(ended.stdout.decode() == first.group(3), "the first example of README.md", ended, first.group(3))
        print(f"the first example {time.monotonic() - began:.1f} s after tar began")
        subprocess.run(["sha256sum", "--check", "--quiet", "SHA256SUMS"], cwd=os.path.join(folder, jail.release), check=True)
        count = 0
        for name, texts in all_rows():
            right = ask(program, texts_folder, texts)
            got = jail.answer(texts)
            must(right == got, name, right, got)
            count += 1
        print(f"{count} rows as the program's, in a folder with nothing else")


if __name__ == "__main__":
    main()
