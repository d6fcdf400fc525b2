#!/usr/bin/env python3
"""Runs calls of the libraries without proofs: the tests of checks/calls. No row and no test of the gate makes them, or a contract promises their answers.

Usage: checks/calls.py [RT]     (default: `rt`)
It makes a copy of the repository with the folder as one more crate, and runs `rt try --test` in it. Status 1 where a test fails.
"""
import os
import shutil
import subprocess
import sys
import tempfile

from base import TOP

LIBRARIES = ("resolvo_pool_core resolvo_pool resolvo_store_core resolvo_store resolvo_packages resolvo_turn resolvo_proof resolvo "
             "resolvo_text resolvo_catalogue_core resolvo_catalogue resolvo_judge resolvo_test_providers")


def copy_with(folder, name, source, libraries):
    """A copy of the repository in the folder, with the source as one more crate; the crate's folder.

    The source's files end in `.rt.txt`, since the gate stops at a `.rt` file that no crate has.
    """
    shutil.copytree(TOP, folder, dirs_exist_ok=True, ignore=shutil.ignore_patterns(".git", "out", "target"))
    subprocess.run(["git", "init", "-q", folder], check=True)
    crate = os.path.join(folder, "crates", name)
    for at, _, files in os.walk(source):
        to = os.path.join(crate, "src", os.path.relpath(at, source))
        os.makedirs(to, exist_ok=True)
        for file in files:
            shutil.copyfile(os.path.join(at, file), os.path.join(to, file.removesuffix(".txt")))
    with open(os.path.join(folder, "crates.txt"), "a", encoding="utf-8") as file:
        file.write(f"{name}: {libraries}\n")
    return crate


def main():
    rt = sys.argv[1] if len(sys.argv) > 1 else "rt"
    with tempfile.TemporaryDirectory() as folder:
        crate = copy_with(folder, "calls", os.path.join(TOP, "checks", "calls"), LIBRARIES)
        sys.exit(subprocess.run([rt, "try", "--test", "--seconds", "600"], cwd=crate, check=False).returncode != 0)


if __name__ == "__main__":
    main()
