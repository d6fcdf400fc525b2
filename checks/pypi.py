#!/usr/bin/env python3
"""Checks `resolve-tools pypi` against pip, over generated indexes of tiny wheels. No network.

Usage: checks/pypi.py [COUNT] [SEED] [PATH OF THE PROGRAM]      defaults: 300, 1, crates/resolve/out/resolve
Each index has pre-releases, extras, markers, Requires-Python and yanked versions. `pip install --dry-run --no-index` gives its verdict;
where we install, pip takes our set as `==` pins and adds nothing. Where pip alone installs, its set has a pre-release that one
requirement names and another doesn't; with `--pre` for these packages our verdict is pip's, else the check fails.
With the word `match` for COUNT, pairs of a requirement and a version are compared, as many as PAIRS says (10,000), by the wheel that pip takes
of each package, which is of the newest version that matches: those above it don't.
"""
import hashlib
import html
import json
import os
import random
import subprocess
import sys
import tempfile
import zipfile
from collections import Counter

from pip._internal.cli.main import main as pip_main
from pip._internal.commands import create_command

from base import fail, program_of
from tools import texts
from tools.pypi import PypiIndex, canonical, read_environment, requirements as requirement_texts, versions
from tools.tests.base import run

POOL = ["0.9", "1.0", "1.0.post1", "1.1", "1.1+local.2", "1.2.dev3", "1.2", "1.10", "2.0a1", "2.0rc1", "2.0", "2.1", "1!0.5"]
NAMES = ["Pkg.A", "pkg_b", "pkg-c", "PKG-d", "pkge", "pkg__f"]
EXTRAS = ["x", "y-z", "Q"]
MARKERS = ['python_version >= "3.8"', 'python_version < "3"', 'sys_platform == "win32"', 'sys_platform != "win32" or os_name == "nt"']
PIP = ["install", "--isolated", "--disable-pip-version-check", "--no-cache-dir", "--dry-run", "--ignore-installed", "--no-index", "--quiet"]
PAIRS = int(os.environ.get("PAIRS", "10000"))
REFUSALS = ("ResolutionImpossible", "No matching distribution found", "Could not find a version")


def some_specifier(rng):
    """Specifiers of one requirement."""
    kinds = [*[""] * 6, *[">={}"] * 6, "<{}", "<{}", "<={}", ">{}", "!={}", "~={}", "=={}", "=={}.*", "!={}.*", ">={},<{}"]
    kind = rng.choice(kinds)
    pool = [v for v in POOL if "+" not in v and (".*" not in kind or v in ("1.0", "1.1", "2.0")) and ("~" not in kind or "." in v)]
    return kind.format(rng.choice(pool), rng.choice(pool))


def some_requirement(rng, extras=True):
    """A requirement by PEP 508."""
    name = rng.choice(NAMES)
    asked = rng.sample(EXTRAS, rng.choice([1, 1, 2])) if extras and rng.random() < 0.2 else []
    return name + (f"[{','.join(asked)}]" if asked else "") + some_specifier(rng)


def some_entries(rng):
    """An index as the JSON form has it."""
    found = []
    for name in NAMES:
        for version in rng.sample(POOL, rng.randint(2, 6)):
            provided = rng.sample(["x", "y-z", "q"], rng.randint(0, 3))
            requires = []
            for _ in range(rng.choice([0, 0, 0, 1, 1, 1, 2])):
                markers = [f'extra == "{rng.choice(provided)}"'] if provided and rng.random() < 0.5 else []
                markers += [rng.choice(MARKERS)] if rng.random() < 0.3 else []
                requires.append(some_requirement(rng) + ("; " + " and ".join(f"({m})" for m in markers) if markers else ""))
            python = rng.choice([None] * 12 + [">=3.8", "<3", ">=3.6,!=3.9.*"])
            entry = {"name": name, "version": version, "requires_dist": requires, "requires_python": python, "provides_extra": provided}
            found.append(entry | {"yanked": rng.choice([False] * 14 + [True, "broken"])})
    return found


def metadata(entry):
    """The METADATA of a wheel."""
    lines = ["Metadata-Version: 2.1", f"Name: {entry['name']}", f"Version: {entry['version']}"]
    lines += [f"Requires-Python: {entry['requires_python']}"] if entry["requires_python"] else []
    lines += [f"Provides-Extra: {extra}" for extra in entry["provides_extra"]]
    return "\n".join(lines + [f"Requires-Dist: {text}" for text in entry["requires_dist"]] + ["", "A test.", ""])


def write_wheel(folder, entry):
    """A wheel with nothing in it, and its file name."""
    base = f"{canonical(entry['name']).replace('-', '_')}-{entry['version']}"
    info, path = f"{base}.dist-info", os.path.join(folder, f"{base}-py3-none-any.whl")
    with zipfile.ZipFile(path, "w") as wheel:
        wheel.writestr(f"{info}/METADATA", metadata(entry))
        wheel.writestr(f"{info}/WHEEL", "Wheel-Version: 1.0\nGenerator: check\nRoot-Is-Purelib: true\nTag: py3-none-any\n")
        wheel.writestr(f"{info}/RECORD", f"{info}/METADATA,,\n{info}/WHEEL,,\n{info}/RECORD,,\n")
    return path


def write_index(folder, entries):
    """Wheels, a page of links to them as an index of PyPI has it, and the JSON form."""
    os.mkdir(os.path.join(folder, "wheels"))
    links = []
    for entry in entries:
        path = write_wheel(os.path.join(folder, "wheels"), entry)
        python = f' data-requires-python="{html.escape(entry["requires_python"])}"' if entry["requires_python"] else ""
        reason = entry["yanked"] if isinstance(entry["yanked"], str) else ""
        yanked = f' data-yanked="{reason}"' if entry["yanked"] else ""
        links.append(f'<a href="file://{path}"{python}{yanked}>{os.path.basename(path)}</a>')
    with open(os.path.join(folder, "links.html"), "w") as out:
        out.write("<!DOCTYPE html><html><body>\n" + "<br>\n".join(links) + "\n</body></html>\n")
    with open(os.path.join(folder, "index.json"), "w") as out:
        out.write("\n".join(map(json.dumps, entries)) if len(entries) % 2 else json.dumps(entries, indent=1))


def pip(folder, requirements):
    """The set that pip would install, None where it refuses; a process of its own, with pip loaded before."""
    report, said = os.path.join(folder, "report"), os.path.join(folder, "said")
    command = [*PIP, "--find-links", os.path.join(folder, "links.html"), "--report", report, *requirements]
    child = os.fork()
    if child == 0:
        os.dup2(os.open(said, os.O_WRONLY | os.O_CREAT | os.O_TRUNC), 2)
        os._exit(pip_main(command))
    status = os.waitstatus_to_exitcode(os.waitpid(child, 0)[1])
    with open(said) as file:
        error = file.read()
    if status != 0:
        if not any(word in error for word in REFUSALS):
            fail("pip failed", error)
        return None
    with open(report) as file:
        found = [each["metadata"] for each in json.load(file)["install"]]
    return {canonical(each["name"]): str(versions.Version(each["version"])) for each in found}


def ours(folder, requirements, program, source, options=()):
    """The set that `resolve` installs, None where it refuses."""
    paths = [os.path.join(folder, name) for name in ("catalogue", "request")]
    names = sorted({name for requirement in requirements for name in root_names(requirement)})
    whole = run("pypi", "catalogue", source, *options, "--source", "--out", paths[0])
    if hashlib.sha256(source.encode()).digest()[0] % 2:
        whole = run("pypi", "catalogue", source, *options, "--out", paths[0], "--closure", *names)
    asked = run("pypi", "request", source, *options, "--out", paths[1], "--", *requirements)
    if whole[:2] != (0, b"") or asked[:2] != (0, b""):
        fail("the import failed", whole, asked)
    done = subprocess.run([program, "solve", *paths], capture_output=True)
    if done.returncode not in (0, 1):
        fail("solve failed", done.stdout)
    if done.returncode == 1:
        return None
    with open(paths[0], "rb") as file:
        dictionary = texts.read_dictionary(texts.read_catalogue(file.read()))
    entries = [entry.version for entry in texts.read_report(done.stdout).entries]
    named = {dictionary.name(version.package): dictionary.version(version) for version in entries}
    return {name: text for name, text in named.items() if "[" not in name}


def root_names(requirement):
    """The closure's roots for a requirement: its name, or one for each extra."""
    found = requirement_texts.Requirement(requirement)
    return [f"{found.name}[{extra}]" for extra in found.extras] or [found.name]


def pinned_yanked(entries, requirements):
    """Whether a requirement pins a version that is yanked, which pip takes then."""
    yanked = {versions.Version(entry["version"]) for entry in entries if entry["yanked"]}
    asked = [text.split(";")[0] for entry in entries for text in entry["requires_dist"]] + requirements
    pins = [text.rpartition("==")[2].split(",")[0] for text in asked if "==" in text]
    return any("*" not in pin and versions.Version(pin) in {versions.Version(v.public) for v in yanked} for pin in pins)


def check_index(rng, program, counts):
    """One index and three requests."""
    entries = some_entries(rng)
    if rng.random() < 0.3:
        entries = [entry | {"yanked": False} for entry in entries]
    requests = [[some_requirement(rng) for _ in range(rng.choice([1, 2, 2, 3]))] for _ in range(2)]
    entries = [e | {"yanked": False} for e in entries] if any(pinned_yanked(entries, r) for r in requests) else entries
    with tempfile.TemporaryDirectory() as folder:
        write_index(folder, entries)
        source = os.path.join(folder, "wheels" if not any(e["yanked"] for e in entries) else "index.json")
        for requirements in requests:
            check_request(folder, requirements, program, source, counts)


def check_request(folder, requirements, program, source, counts):
    """The verdicts agree, and pip takes our set."""
    theirs, mine = pip(folder, requirements), ours(folder, requirements, program, source)
    shown = [open(os.path.join(folder, "index.json")).read(), requirements, f"pip: {theirs}", f"resolve: {mine}"]
    if mine is None and theirs is not None:
        pre = [name for name, text in theirs.items() if versions.Version(text).is_prerelease]
        mine = ours(folder, requirements, program, source, ["--pre", *pre]) if pre else None
        counts["pre-releases named by one requirement alone"] += 1
    if (mine is None) != (theirs is None):
        fail("the verdicts differ", *shown)
    counts["refused" if mine is None else "installed"] += 1
    if mine is None:
        return
    again = pip(folder, [*requirements, *(f"{name}=={text}" for name, text in mine.items())])
    if again != mine:
        fail("pip doesn't take our set", *shown, f"pip over pins: {again}")
    counts["the same set as pip's"] += mine == theirs


def some_version(rng):
    """A version of any form that PEP 440 has."""
    text = rng.choice(["", "", "", "", "", "1!"]) + ".".join(str(rng.choice([0, 0, 1, 1, 2, 10])) for _ in range(rng.choice([1, 2, 2, 3, 3])))
    text += rng.choice([""] * 8 + ["a0", "a1", "b2", "rc1", "rc10"]) + rng.choice([""] * 8 + [".post0", ".post1"])
    return text + rng.choice([""] * 12 + [".dev0", ".dev3"]) + rng.choice([""] * 12 + ["+local.2", "+10"])


def near_specifier(rng, texts):
    """Specifiers near some versions."""
    public = [text.partition("+")[0] for text in texts] + [some_version(rng).partition("+")[0]]
    release = lambda: ".".join(map(str, versions.Version(rng.choice(public)).release))
    one = lambda: rng.choice([
        f"{rng.choice(['>=', '<=', '>', '<', '==', '!='])}{rng.choice(public)}", f"{rng.choice(['>=', '<', '>', '<='])}{release()}",
        f"{rng.choice(['==', '!='])}{release()}.*", f"~={release()}.0", f"=={rng.choice(texts)}", "",
    ])
    return ",".join(each for each in (one() for _ in range(rng.choice([1, 1, 1, 2]))) if each)


def check_picks(rng, counts):
    """Forty packages with one requirement each: pip takes the newest version that ours matches."""
    entries, wanted = [], {}
    for at in range(40):
        name, found = f"p{at}", {versions.Version(some_version(rng)): None for _ in range(8)}
        entries += [{"name": name, "version": str(version), "requires_dist": [], "requires_python": None, "provides_extra": [], "yanked": False} for version in found]
        wanted[name] = name + near_specifier(rng, list(map(str, found)))
    with tempfile.TemporaryDirectory() as folder:
        write_index(folder, entries)
        index = PypiIndex(os.path.join(folder, "index.json"), read_environment(None))
        matched = {name: index.match(name, requirement_texts.Requirement(text).specifier) for name, text in wanted.items()}
        taken = pip(folder, [wanted[name] for name, numbers in matched.items() if numbers])
        for name in [name for name, numbers in matched.items() if not numbers][:2]:
            if pip(folder, [wanted[name]]) is not None:
                fail("the matchers differ: pip finds one", wanted[name], index.projects[name].listed)
            counts["pairs not matched"] += len(index.projects[name].listed)
    for name, numbers in matched.items():
        listed = index.projects[name].listed
        if numbers and (taken is None or taken[name] != listed[numbers[-1]]):
            fail("the matchers differ", wanted[name], listed, f"ours: {listed[numbers[-1]]}", f"pip: {taken and taken[name]}")
        counts["pairs matched"] += bool(numbers)
        counts["pairs not matched"] += len(listed) - numbers[-1] if numbers else 0


def main():
    word = sys.argv[1] if len(sys.argv) > 1 else "300"
    rng = random.Random(int(sys.argv[2]) if len(sys.argv) > 2 else 1)
    program = None if word == "match" else program_of(sys.argv, 3)
    counts = Counter()
    create_command("install")
    while word == "match" and sum(counts.values()) < PAIRS:
        check_picks(rng, counts)
    for _ in range(0 if word == "match" else int(word)):
        check_index(rng, program, counts)
    print((f"{word}: " if word == "match" else f"{word} indexes, two requests each: ") + ", ".join(f"{n} {what}" for what, n in sorted(counts.items())))


if __name__ == "__main__":
    main()
