#!/usr/bin/env python3
"""Checks `resolve-tools cudf solve` below opam and below apt-cudf, each beside the solver that they have themselves.

Usage: checks/opam.py [PATH OF THE PROGRAM]      default: crates/resolve/out/resolve
Needs Debian's opam, apt-cudf and aspcud. opam installs from a small repository in a folder, without a network and with a root of
its own. After each command its status and its list of packages must be those of its built-in solver. apt-cudf gets a small
scenario of apt's, and its answer must be the one that it gives over aspcud.
"""
import os
import subprocess
import sys
import tempfile

from base import TOP, fail, program_of

TOOLS = os.path.join(TOP, "tools", "resolve-tools")
REPOSITORY = {
    "lib_x.1.0": "", "lib_x.1.1": 'depends: [ "base-z" ]', "lib_x.2.0": 'conflicts: [ "other" ]', "base-z.1": "",
    "other.1.0": 'depends: [ "lib_x" {< "2"} ]', "app.1.0": 'depends: [ "lib_x" {>= "1.1"} "other" ]',
    "tool.1.0": 'depends: [ "lib_x" {>= "2.0"} | "nowhere" ]',
}
COMMANDS = [
    ["install", "lib_x.1.0"], ["install", "app"], ["install", "app", "tool"], ["remove", "app", "other"], ["upgrade"],
    ["install", "tool"], ["install", "other"], ["install", "lib_x.1.0", "tool"],
]
SCENARIO = """Request: EDSP 0.5
Architecture: amd64
Architectures: amd64
Install: app

"""
STANZAS = [
    ("app", "1.0", "Depends: lib (>= 2), mta"), ("lib", "1.0", "Installed: yes"), ("lib", "2.0", "Breaks: old"), ("exim", "1", "Provides: mta"),
    ("old", "1", "Installed: yes"), ("other", "3", "Installed: yes"),
]


# ---- opam


def write_repository(folder):
    """The repository's files."""
    for name, more in REPOSITORY.items():
        place = os.path.join(folder, "packages", name.partition(".")[0], name)
        os.makedirs(place)
        with open(os.path.join(place, "opam"), "w") as out:
            out.write(f'opam-version: "2.0"\nmaintainer: "a@example.org"\nsynopsis: "A test"\n{more}\n')
    with open(os.path.join(folder, "repo"), "w") as out:
        out.write('opam-version: "2.0"\n')


def opam(root, *arguments):
    """The status and the output of a command."""
    more = {"OPAMROOT": root, "OPAMYES": "1", "OPAMROOTISOK": "1", "OPAMCOLOR": "never", "OPAMNODEPEXTS": "1"}
    done = subprocess.run(["opam", *arguments], capture_output=True, text=True, env=os.environ | more, stdin=subprocess.DEVNULL)
    return done.returncode, done.stdout, done.stderr


def states(folder, name, options):
    """After each command its status, and what is installed."""
    root = os.path.join(folder, name)
    for command in (["init", "--bare", "--no-setup", "--disable-sandboxing", os.path.join(folder, "repo")], ["switch", "create", "t", "--empty"]):
        status, out, error = opam(root, *command)
        if status != 0:
            fail("opam failed", command, out, error)
    for command in COMMANDS:
        status, out, error = opam(root, *command, *options)
        if "Solver failed" in error:
            fail("opam couldn't run the solver", command, out, error)
        listed = opam(root, "list", "--installed", "--short", "--columns=name,version")[1]
        yield command, status, sorted(listed.split("\n"))


def check_opam(folder):
    """Both solvers lead to the same."""
    write_repository(os.path.join(folder, "repo"))
    own = states(folder, "own", [])
    ours = states(folder, "ours", ["--solver", f"{TOOLS} cudf solve %{{input}}% %{{output}}% %{{criteria}}%"])
    for mine, theirs in zip(ours, own):
        if mine != theirs:
            fail("opam comes to something else", f"resolve: {mine}", f"opam: {theirs}")
        print(f"opam {' '.join(mine[0])}: status {mine[1]}, {len([each for each in mine[2] if each])} packages", flush=True)


# ---- apt-cudf


def scenario_text():
    """The scenario."""
    text = SCENARIO
    for number, (name, version, more) in enumerate(STANZAS, 1):
        text += f"Package: {name}\nSource: {name}\nArchitecture: amd64\nVersion: {version}\nAPT-ID: {number}\nAPT-Pin: 500\nAPT-Candidate: yes\n{more}\n\n"
    return text


def apt_cudf(folder, solver):
    """The stanzas of its answer, without what goes on."""
    environment = os.environ | {"CUDFSOLVERS": folder}
    command = ["apt-cudf", f"--solver={solver}", "--criteria-plain=-removed,-changed", "--native-arch=amd64"]
    done = subprocess.run(command, input=scenario_text(), capture_output=True, text=True, env=environment)
    found = [each for each in done.stdout.split("\n\n") if each.startswith(("Install:", "Remove:", "Error:"))]
    if done.returncode != 0 or not found:
        fail("apt-cudf failed", done.stdout, done.stderr)
    return sorted(found)


def check_apt(folder):
    """The answers are the same."""
    for name, words in (("resolve", f"{TOOLS} cudf solve $in $out $pref"), ("aspcud", 'aspcud "$in" "$out" "$pref"')):
        with open(os.path.join(folder, name), "w") as out:
            out.write(f"exec: {words}\ncudf-version: 2.0\n")
    mine, theirs = apt_cudf(folder, "resolve"), apt_cudf(folder, "aspcud")
    if mine != theirs:
        fail("apt-cudf comes to something else", f"resolve: {mine}", f"aspcud: {theirs}")
    print(f"apt-cudf: {len(mine)} changes")


def main():
    os.environ["RESOLVE"] = program_of(sys.argv, 1)
    with tempfile.TemporaryDirectory() as folder:
        check_apt(folder)
        check_opam(folder)


if __name__ == "__main__":
    main()
