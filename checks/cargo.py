#!/usr/bin/env python3
"""Checks `resolve-tools cargo` against cargo, over generated local registries. No network.

Usage: checks/cargo.py [COUNT] [SEED] [PATH OF THE PROGRAM]      defaults: 300, 1, crates/resolve/out/resolve
Each registry has crates of several lines with pre-releases, features of all forms, optional and renamed dependencies, `links`,
yanked versions. The verdict is that of `cargo generate-lockfile --offline`; where we install,
cargo locks too over a registry of our set alone.
With the word `match` for COUNT, pairs of a requirement and a version are matched by cargo and by tools/semver.py: 400 one by one, then as many
as PAIRS says (10,000) by the version that cargo locks of each crate, which is the newest that matches: those above it don't.
"""
import json
import os
import random
import subprocess
import sys
import tempfile
import tomllib
from collections import Counter

from base import fail, program_of
from tools import texts
from tools.cargo import index_place
from tools.semver import read_req, read_semver
from tools.tests.base import run

CRATES = ["aa", "b-b", "ccc", "d_dd", "eeeee", "ffffff"]
POOL = ["0.0.3", "0.1.0", "0.1.4", "0.2.0", "1.0.0-a.1", "1.0.0", "1.0.5", "1.2.0", "1.10.0", "2.0.0-rc.1", "2.0.0", "2.1.0"]
REQS = ["*", "*", "1", "1", "1", "^1.2", "~1.0", "0.1", "0.1", "0.2", "2", "2", ">=0.1, <2", ">=0.2", ">=1, <=2.0", "<1", "=1.0.5", "1.*", "1.0.0-a", ">=2.0.0-rc", ">1"]
FEATURES = ["default", "x", "y"]
PAIRS = int(os.environ.get("PAIRS", "10000"))


def some_dependency(rng, at):
    """A dependency on one of the crates behind, which leaves no cycle."""
    package = rng.choice(CRATES[at + 1:])
    name = rng.choice([package, package, f"re_{package}"])
    kind = rng.choice(["normal", "normal", "build", "dev"])
    return {
        "name": name, "req": rng.choice(REQS), "features": rng.sample(["x", "y"], rng.choice([0, 0, 0, 1, 2])),
        "optional": kind != "dev" and rng.random() < 0.3, "default_features": rng.random() < 0.8, "target": rng.choice([None, None, "cfg(windows)"]),
        "kind": kind, **({} if name == package else {"package": package}),
    }


def some_features(rng, deps):
    """A table of features over these dependencies."""
    normal = [each for each in deps if each["kind"] != "dev"]
    optional = [each["name"] for each in normal if each["optional"]]
    features = {}
    for feature in rng.sample(FEATURES, rng.choice([1, 2, 3])):
        values = [other for other in features if rng.random() < 0.3]
        for each in normal:
            name = each["name"]
            forms = [f"{name}/x", f"{name}/y"] + ([f"dep:{name}", name, f"{name}?/x", f"{name}?/x"] if name in optional else [])
            values += [rng.choice(forms)] if rng.random() < 0.4 else []
        features[feature] = values
    named = {value[4:] for values in features.values() for value in values if value.startswith("dep:")}
    return {f: [v for v in values if v not in named] for f, values in features.items()}


def some_entry(rng, at, version):
    """A line of the index."""
    deps = {each["name"]: each for each in (some_dependency(rng, at) for _ in range(rng.choice([0, 1, 1, 2])))} if at + 1 < len(CRATES) else {}
    deps = list(deps.values())
    entry = {"name": CRATES[at], "vers": version, "deps": deps, "cksum": "0" * 64, "features": {}, "yanked": rng.random() < 0.1}
    links = f"l-{CRATES[at]}" if at % 3 == 2 and rng.random() < 0.4 else None
    return entry | {"links": links, "v": 2, "features2": some_features(rng, deps)}


def some_registry(rng):
    """The entries of all crates."""
    return {name: [some_entry(rng, at, version) for version in rng.sample(POOL, rng.randint(3, 9))] for at, name in enumerate(CRATES)}


def some_manifest(rng):
    """The dependencies of a manifest, as lines of TOML."""
    lines = []
    for name in rng.sample(CRATES[:4], rng.choice([1, 1, 2, 3])):
        features = json.dumps(rng.sample(["x", "y"], rng.choice([0, 0, 1, 1, 2])))
        default = "" if rng.random() < 0.7 else ", default-features = false"
        renamed = f'package = "{name}", ' if rng.random() < 0.2 else ""
        lines.append(f'{"other_" if renamed else ""}{name} = {{ {renamed}version = "{rng.choice(REQS)}", features = {features}{default} }}')
    return lines


class Trial:
    """One registry in a folder."""

    def __init__(self, folder, registry, program):
        self.folder, self.program, self.index = folder, program, os.path.join(folder, "registry", "index")
        for name, entries in registry.items():
            self.write(os.path.join("registry", "index", index_place(name)), "".join(json.dumps(entry) + "\n" for entry in entries))
        self.write("home/config.toml", f'[source.crates-io]\nreplace-with = "local"\n[source.local]\nlocal-registry = "{folder}/registry"\n')
        self.write("app/src/lib.rs", "")

    def write(self, name, text):
        path = os.path.join(self.folder, name)
        os.makedirs(os.path.dirname(path), exist_ok=True)
        with open(path, "w") as out:
            out.write(text)
        return path

    def manifest(self, lines):
        """Writes the Cargo.toml."""
        head = '[package]\nname = "app"\nversion = "0.1.0"\nedition = "2021"\n[dependencies]\n'
        return self.write("app/Cargo.toml", head + "".join(line + "\n" for line in lines))

    def cargo(self, lines):
        """The set that cargo locks, None where it refuses."""
        self.manifest(lines)
        lock = os.path.join(self.folder, "app", "Cargo.lock")
        if os.path.exists(lock):
            os.unlink(lock)
        environment = os.environ | {"CARGO_HOME": os.path.join(self.folder, "home"), "CARGO_TERM_COLOR": "never"}
        command = ["cargo", "generate-lockfile", "--offline", "--quiet"]
        done = subprocess.run(command, cwd=os.path.join(self.folder, "app"), env=environment, capture_output=True, text=True)
        self.said = done.stderr
        if done.returncode != 0:
            if "failed to select a version" not in done.stderr and "no matching package" not in done.stderr:
                fail("cargo failed", done.stderr)
            return None
        with open(lock, "rb") as file:
            return {(each["name"], each["version"]) for each in tomllib.load(file)["package"]} - {("app", "0.1.0")}

    def ours(self, lines):
        """The set that `resolve` installs, None where it refuses."""
        manifest, paths = self.manifest(lines), [os.path.join(self.folder, name) for name in ("catalogue", "request")]
        for action, path in zip((["catalogue"], ["request", "app"]), paths):
            status, out, error = run("cargo", action[0], self.index, "--manifest", manifest, "--out", path, *action[1:])
            if (status, out) != (0, b""):
                fail("the import failed", error)
        done = subprocess.run([self.program, "solve", *paths], capture_output=True)
        if done.returncode not in (0, 1):
            fail("solve failed", done.stdout)
        if done.returncode == 1:
            return None
        with open(paths[0], "rb") as file:
            dictionary = texts.read_dictionary(texts.read_catalogue(file.read()))
        named = [(dictionary.name(e.version.package), dictionary.version(e.version)) for e in texts.read_report(done.stdout).entries]
        return {(name.partition(".")[0], text) for name, text in named if "/" not in name and ">" not in name} - {("app", "0.1.0")}


def check_registry(rng, program, counts):
    """One registry with three manifests: the verdicts agree, and cargo locks our set."""
    registry = some_registry(rng)
    with tempfile.TemporaryDirectory() as folder:
        trial = Trial(folder, registry, program)
        for _ in range(3):
            lines = some_manifest(rng)
            theirs, mine = trial.cargo(lines), trial.ours(lines)
            shown = [json.dumps(registry, indent=1), *lines, f"cargo: {theirs}", f"resolve: {mine}", trial.said]
            if (mine is None) != (theirs is None):
                fail("the verdicts differ", *shown)
            counts["refused" if mine is None else "locked"] += 1
            if mine is None:
                continue
            with tempfile.TemporaryDirectory() as small:
                kept = {name: [e for e in entries if (name, e["vers"]) in mine] for name, entries in registry.items()}
                again = Trial(small, {name: entries for name, entries in kept.items() if entries}, program).cargo(lines)
            if again is None or not again <= mine:
                fail("cargo doesn't lock our set", *shown, f"cargo over our set alone: {again}")
            counts["locked over our set alone, all of it"] += again == mine
            counts["the same set as cargo's"] += mine == theirs


def some_number(rng):
    return str(rng.choice([0, 0, 1, 1, 2, 10]))


def some_version(rng):
    """A version, now and then a pre-release."""
    return ".".join(some_number(rng) for _ in range(3)) + rng.choice(["", "", "", "-a", "-a.1", "-a.b", "-1", "-rc.10", "-rc.9"])


def some_req(rng, version):
    """A requirement near a version."""
    part = lambda: rng.choice(["", "=", ">", ">=", "<", "<=", "~", "^"]) + rng.choice([
        some_number(rng), f"{some_number(rng)}.{some_number(rng)}", some_version(rng), version, version.partition("-")[0], f"{some_number(rng)}.*"])
    return ", ".join(part() for _ in range(rng.choice([1, 1, 1, 2])))


def plain_entry(name, version):
    """A line of the index that needs nothing."""
    return {"name": name, "vers": version, "deps": [], "cksum": "0" * 64, "features": {}, "yanked": False}


def check_picks(rng, program, counts):
    """Forty crates with one requirement each: cargo locks the newest version that ours matches, and finds none where ours doesn't."""
    registry, lines, wanted, others = {}, [], {}, {}
    for at in range(40):
        name, versions = f"c{at}", {some_version(rng) for _ in range(8)}
        registry[name] = [plain_entry(name, version) for version in sorted(versions)]
        req = some_req(rng, rng.choice(sorted(versions)))
        matched = [v for v in versions if read_req(req).matches(read_semver(v))]
        if matched:
            wanted[name] = req, max(matched, key=read_semver), versions
            lines.append(f'{name} = "{req}"')
        else:
            others[name] = req, versions
    with tempfile.TemporaryDirectory() as folder:
        trial = Trial(folder, registry, program)
        for name, (req, versions) in list(others.items())[:2]:
            if trial.cargo([f'{name} = "{req}"']) is not None:
                fail("the matchers differ: cargo finds one", name, req, sorted(versions))
            counts["pairs not matched"] += len(versions)
        locked = trial.cargo(lines)
    for name, (req, version, versions) in wanted.items():
        if locked is None or (name, version) not in locked:
            fail("the matchers differ", name, req, sorted(versions), f"ours: {version}", f"cargo: {locked}", trial.said)
        counts["pairs matched"] += 1
        counts["pairs not matched"] += sum(read_semver(each) > read_semver(version) for each in versions)


def check_matcher(rng, program, counts):
    """Requirements over one crate: cargo finds a version just where ours matches."""
    for _ in range(20):
        version = some_version(rng)
        with tempfile.TemporaryDirectory() as folder:
            trial = Trial(folder, {"aa": [plain_entry("aa", version)]}, program)
            for _ in range(20):
                req = some_req(rng, version)
                theirs = trial.cargo([f'aa = "{req}"']) is not None
                if theirs != read_req(req).matches(read_semver(version)):
                    fail("the matchers differ", req, version, f"cargo: {theirs}")
                counts["pairs matched" if theirs else "pairs not matched"] += 1


def main():
    word = sys.argv[1] if len(sys.argv) > 1 else "300"
    rng = random.Random(int(sys.argv[2]) if len(sys.argv) > 2 else 1)
    program = None if word == "match" else program_of(sys.argv, 3)
    counts = Counter()
    for _ in range(1 if word == "match" else int(word)):
        (check_matcher if word == "match" else check_registry)(rng, program, counts)
    while word == "match" and sum(counts.values()) < PAIRS:
        check_picks(rng, program, counts)
    print(f"{word}: " + ", ".join(f"{n} {what}" for what, n in sorted(counts.items())))


if __name__ == "__main__":
    main()
