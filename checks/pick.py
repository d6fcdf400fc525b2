#!/usr/bin/env python3
"""Compares the pick of the decision queue with the plain scan's, over random calls.

Usage: checks/pick.py [RT]     (default: `rt`)
`rt try` builds checks/pick/main.rt.txt without proofs in a copy of the repository. In each of 599 runs it adds needs with candidates of
either sign, some listed twice, assigns, undoes, bumps scores and picks. Status 1 where a pick differs.
"""
import os
import re
import subprocess
import sys
import tempfile

from base import TOP
from calls import copy_with

LIBRARIES = "resolvo_pool_core resolvo_store_core resolvo_decide"


def main():
    rt = sys.argv[1] if len(sys.argv) > 1 else "rt"
    with tempfile.TemporaryDirectory() as folder:
        crate = copy_with(folder, "pick", os.path.join(TOP, "checks", "pick"), LIBRARIES)
        words = [rt, "try", "--steps", "1000", "--seconds", "1200"]
        ended = subprocess.run(words, cwd=crate, stdin=subprocess.DEVNULL, capture_output=True, text=True, check=False)
    print(ended.stdout, end="")
    found = re.search(r"^picks \d+ some \d+ wrong (\d+)$", ended.stdout, re.MULTILINE)
    if not found:
        sys.exit(ended.stderr[-2000:])
    sys.exit(found[1] != "0")


if __name__ == "__main__":
    main()
