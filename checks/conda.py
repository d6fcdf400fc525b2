#!/usr/bin/env python3
"""Checks `resolve-tools conda` against libsolv, over generated repodata.json. No network.

Usage: TESTSOLV=PATH CONDA2SOLV=PATH checks/conda.py [COUNT] [SEED] [PATH OF THE PROGRAM]
Defaults: testsolv, conda2solv, 300, 1, crates/resolve/out/resolve
Both programs belong to a libsolv that was built with ENABLE_CONDA (Debian's isn't): `cmake -DENABLE_CONDA=ON`, `make testsolv conda2solv`.
libsolv reads the same repodata.json. What is asked for are the dependencies of a record of its own. The verdicts agree, and where we
install, libsolv takes our set as exact specs. With the word `match` for COUNT, pairs of a spec and a record are compared: 400 one by one, then as many as PAIRS says
(10,000) by the record that libsolv takes of each package, which is of the newest version that matches: those above don't.
"""
import json
import os
import random
import subprocess
import sys
import tempfile
from collections import Counter

from base import fail, program_of
from tools import texts
from tools.matchspec import read_matchspec, read_version
from tools.tests.base import run

NAMES = ["aa", "b-b", "c_c", "dd", "ee.e", "ff"]
POOL = ["0.9", "1.0", "1.0.1", "1.0a1", "1.0rc2", "1.0.post1", "1.0.dev3", "1.1", "1.1.0", "1.2", "1.10", "1.2_3", "2.0", "2.0b1", "2.1", "1!0.5"]
PAIRS = int(os.environ.get("PAIRS", "10000"))
BUILDS = ["0", "py27_0", "py38_0", "py38_1", "h1234_1"]
SPECS = [*[""] * 6, *[" >={}"] * 5, " <{}", " <={}", " >{}", " !={}", " =={}", " {}", " {}.*", " {}*", " >={},<{}", " {}|{}", " *", " <{}|>{}", " >={} py38*", " * py38_0", " {} py27_0", " {}.* *_1"]


def some_spec(rng, name=None):
    """A spec as `depends` have them."""
    return (name or rng.choice(NAMES)) + rng.choice(SPECS).format(rng.choice(POOL), rng.choice(POOL))


def record(name, version, build, depends=(), constrains=()):
    """An entry and its file name."""
    number = int(build.rpartition("_")[2])
    value = {"name": name, "version": version, "build": build, "build_number": number, "depends": list(depends), "constrains": list(constrains)}
    return f"{name}-{version}-{build}.tar.bz2", value | {"subdir": "noarch", "md5": "0" * 32, "size": 1}


def some_records(rng):
    """The records of all packages; of two equal versions a package has one, since no spec parts them."""
    found = {}
    for name in NAMES:
        equal = rng.choice(["1.1", "1.1.0"])
        for version in rng.sample([each for each in POOL if each != equal], rng.randint(2, 6)):
            for build in rng.sample(BUILDS, rng.choice([1, 1, 2])):
                depends = [some_spec(rng) for _ in range(rng.choice([0, 0, 1, 1, 2]))]
                constrains = [some_spec(rng) for _ in range(rng.choice([0, 0, 0, 1]))]
                file, value = record(name, version, build, depends, constrains)
                found[file] = value
    return found


def write_repodata(folder, records):
    """The repodata.json."""
    path = os.path.join(folder, "repodata.json")
    with open(path, "w") as out:
        json.dump({"info": {"subdir": "noarch"}, "packages": records, "packages.conda": {}, "removed": [], "repodata_version": 1}, out)
    return path


def libsolv(folder, records, depends):
    """The set that libsolv installs, None where it refuses."""
    file, value = record("root", "1", "0", depends)
    path = write_repodata(folder, records | {file: value})
    with open(path, "rb") as source, open(os.path.join(folder, "repo.solv"), "wb") as out:
        subprocess.run([os.environ.get("CONDA2SOLV", "conda2solv")], stdin=source, stdout=out, check=True)
    with open(os.path.join(folder, "case.t"), "w") as out:
        out.write("repo system 0 empty\nrepo main 0 solv repo.solv\nsystem unset conda system\njob install name root\nresult transaction,problems <inline>\n")
    command = [os.environ.get("TESTSOLV", "testsolv"), "-r", "case.t"]
    done = subprocess.run(command, cwd=folder, capture_output=True, text=True)
    lines = done.stdout.split("\n")
    if any(line.startswith("problem ") for line in lines):
        return None
    found = {line[8:].partition("@")[0] for line in lines if line.startswith("install ")}
    if done.returncode != 0 or "root-1-0" not in found:
        fail("testsolv failed", done.stdout, done.stderr)
    return found - {"root-1-0"}


def ours(folder, records, depends, program):
    """The set that `resolve` installs, None where it refuses."""
    file, value = record("root", "1", "0", depends)
    path = write_repodata(folder, records | {file: value})
    files = [os.path.join(folder, name) for name in ("catalogue", "request")]
    whole = run("conda", "catalogue", path, "--closure", "root", "--out", files[0])
    asked = run("conda", "request", path, "root", "--out", files[1])
    if whole[:2] != (0, b"") or asked[:2] != (0, b""):
        fail("the import failed", whole, asked)
    done = subprocess.run([program, "solve", *files], capture_output=True)
    if done.returncode not in (0, 1):
        fail("solve failed", done.stdout)
    if done.returncode == 1:
        return None
    with open(files[0], "rb") as source:
        dictionary = texts.read_dictionary(texts.read_catalogue(source.read()))
    entries = [entry.version for entry in texts.read_report(done.stdout).entries]
    return {f"{dictionary.name(v.package)}-{dictionary.version(v)}" for v in entries} - {"root-1-0"}


def check_repodata(rng, program, counts):
    """One repodata.json with three requests."""
    records = some_records(rng)
    exact = {file.removesuffix(".tar.bz2"): f"{v['name']} =={v['version']} {v['build']}" for file, v in records.items()}
    with tempfile.TemporaryDirectory() as folder:
        for _ in range(3):
            depends = [some_spec(rng) for _ in range(rng.choice([1, 2, 2, 3]))]
            theirs, mine = libsolv(folder, records, depends), ours(folder, records, depends, program)
            shown = [json.dumps(list(records.values())).replace("}, ", "},\n"), depends, f"libsolv: {theirs}", f"resolve: {mine}"]
            if (mine is None) != (theirs is None):
                fail("the verdicts differ", *shown)
            counts["refused" if mine is None else "installed"] += 1
            if mine is None:
                continue
            again = libsolv(folder, records, depends + [exact[each] for each in sorted(mine)])
            if again != mine:
                fail("libsolv doesn't take our set", *shown, f"libsolv over pins: {again}")
            counts["the same set as libsolv's"] += mine == theirs


def check_matcher(rng, _, counts):
    """One record and one spec after the other."""
    with tempfile.TemporaryDirectory() as folder:
        for _ in range(100):
            version, build, spec = rng.choice(POOL), rng.choice(BUILDS), some_spec(rng, "aa")
            file, value = record("aa", version, build)
            theirs = libsolv(folder, {file: value}, [spec]) is not None
            if theirs != read_matchspec(spec).matches(version, build, {}):
                fail("the matchers differ", version, build, spec, f"libsolv: {theirs}")
            counts["pairs matched" if theirs else "pairs not matched"] += 1


def check_picks(rng, counts):
    """Forty packages with one spec each: libsolv takes the newest version that ours matches, and none where ours doesn't."""
    records, wanted, others = {}, {}, {}
    for at in range(40):
        name, equal = f"p{at}", rng.choice(["1.1", "1.1.0"])
        versions = {version: rng.choice(BUILDS) for version in rng.sample([each for each in POOL if each != equal], 8)}
        records |= dict(record(name, *each) for each in versions.items())
        spec = some_spec(rng, name)
        matched = [each for each in versions.items() if read_matchspec(spec).matches(*each, {})]
        if matched:
            wanted[name] = spec, max(matched, key=lambda each: read_version(each[0])), versions
        else:
            others[name] = spec, versions
    with tempfile.TemporaryDirectory() as folder:
        for spec, versions in list(others.values())[:2]:
            if libsolv(folder, records, [spec]) is not None:
                fail("the matchers differ: libsolv finds one", spec, versions)
            counts["pairs not matched"] += len(versions)
        found = libsolv(folder, records, [spec for spec, _, _ in wanted.values()])
    for name, (spec, (version, build), versions) in wanted.items():
        if found is None or f"{name}-{version}-{build}" not in found:
            fail("the matchers differ", spec, versions, f"ours: {version} {build}", f"libsolv: {found}")
        counts["pairs matched"] += 1
        counts["pairs not matched"] += sum(read_version(version) < read_version(each) for each in versions)


def main():
    word = sys.argv[1] if len(sys.argv) > 1 else "300"
    rng = random.Random(int(sys.argv[2]) if len(sys.argv) > 2 else 1)
    program = None if word == "match" else program_of(sys.argv, 3)
    counts = Counter()
    for _ in range(4 if word == "match" else int(word)):
        (check_matcher if word == "match" else check_repodata)(rng, program, counts)
    while word == "match" and sum(counts.values()) < PAIRS:
        check_picks(rng, counts)
    print(f"{word}: " + ", ".join(f"{n} {what}" for what, n in sorted(counts.items())))


if __name__ == "__main__":
    main()
