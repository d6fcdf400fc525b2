"""Cargo: a registry's index as a catalogue; a package for each compatible line of a crate, and for each feature of it.

    resolve-tools cargo catalogue INDEX [--manifest Cargo.toml] [--closure ROOT..]
    resolve-tools cargo request INDEX [--manifest Cargo.toml] NAME[@REQ][/FEATURE,..] ..

INDEX is a folder as crates.io's index is one, or a file of such lines. Packages are `serde.1`, `serde.1/derive`, and
`app.1>serde` for a dependency that may fall into several lines. docs/MAPPING.md has the rest.
"""
from __future__ import annotations

import os
import re
import tomllib
from dataclasses import dataclass, field as default
from typing import Any, Iterable, Iterator, NamedTuple, Optional

from tools.files import Failure
from tools.index import Limits, Match, Needs, Release, Rule, checked_name, checked_text, files_below, sum_of_files
from tools.semver import Bad, Requirement, Semver, read_req, read_semver
from tools.stream import field, json_entries, texts_field
from tools.words import quoted

CRATE = re.compile(r"[A-Za-z0-9_-]+\Z")
Where = tuple[str, int]
Features = dict[str, tuple[str, ...]]


@dataclass(frozen=True)
class Dependency:
    """What a crate asks of another one; `name` is what it calls it."""

    name: str
    package: str
    req: Requirement
    text: str
    features: tuple[str, ...] = ()
    is_optional: bool = False
    is_foreign: bool = False


@dataclass(frozen=True)
class Entry:
    """One version of a crate; the features that optional dependencies imply are among the others."""

    where: Where
    version: Semver
    text: str
    dependencies: tuple[Dependency, ...]
    features: dict[str, tuple[str, ...]]
    yanked: bool
    links: Optional[str]


@dataclass
class Crate:
    """The entries of a crate in order; `places` has the line and the number in it of each."""

    entries: list[Entry] = default(default_factory=list)
    places: list[tuple[str, int]] = default(default_factory=list)
    lines: dict[str, list[int]] = default(default_factory=dict)


class Node(NamedTuple):
    """What a package is: of a crate a line, or all versions (for an edge); with a feature or without one."""

    base: str
    crate: str
    line: Optional[str]
    feature: Optional[str]


# ---- reading


def read_dependency(value: Any, where: Where) -> Optional[Dependency]:
    """A dependency of an entry; None for one that is just for development."""
    if not isinstance(value, dict):
        raise Failure(*where, "`deps` isn't a list of objects")
    if value.get("kind") == "dev":
        return None
    name, text = field(value, "name", str, ..., where), field(value, "req", str, ..., where)
    features = texts_field(value, "features", where)
    if field(value, "default_features", bool, True, where):
        features += ("default",)
    package = field(value, "package", str, name, where)
    for each in (name, package):
        checked_crate(each, where)
    is_optional = field(value, "optional", bool, False, where)
    return Dependency(name, package, requirement(text, where), f"{name} {text}", features, is_optional,
                      value.get("registry") is not None)


def checked_crate(name: str, where: Where) -> str:
    """The name of a crate, which may name a file of an index; raises Failure."""
    if not CRATE.match(name):
        raise Failure(*where, f"{quoted(name)} isn't the name of a crate")
    return name


def requirement(text: str, where: Where) -> Requirement:
    """A requirement; raises Failure."""
    try:
        return read_req(text)
    except Bad as bad:
        raise Failure(*where, f"{quoted(text)} {bad}") from None


def read_features(entry: dict[str, Any], where: Where) -> Features:
    """The table of features."""
    found: Features = {}
    for key in ("features", "features2"):
        table = field(entry, key, dict, {}, where)
        for name in table:
            found[name] = found.get(name, ()) + texts_field(table, name, where)
    return found


def with_implied(features: Features, dependencies: Iterable[Dependency]) -> Features:
    """The features, and one for each optional dependency that no `dep:` names."""
    named = {value[4:] for values in features.values() for value in values if value.startswith("dep:")}
    optional = [each.name for each in dependencies if each.is_optional]
    return features | {name: (f"dep:{name}",) for name in optional if name not in features and name not in named}


def read_entry(entry: dict[str, Any], where: Where) -> tuple[str, Entry]:
    """A line of an index: the crate and the entry."""
    name, text = checked_crate(field(entry, "name", str, ..., where), where), field(entry, "vers", str, ..., where)
    try:
        version = read_semver(text)
    except Bad as bad:
        raise Failure(*where, f"{quoted(text)} {bad}") from None
    given = [read_dependency(value, where) for value in field(entry, "deps", list, [], where)]
    dependencies = tuple(each for each in given if each is not None)
    features = with_implied(read_features(entry, where), dependencies)
    names = {each.name for each in dependencies}
    for feature, values in features.items():
        checked_name(feature, *where)
        for value in values:
            target = value.removeprefix("dep:").partition("/")[0].removesuffix("?")
            is_dep = value.startswith("dep:") or "/" in value
            if target not in (names if is_dep else features):
                raise Failure(*where, f"feature `{feature}` names `{value}`, which isn't there")
    yanked, links = field(entry, "yanked", bool, False, where), field(entry, "links", str, None, where)
    return name, Entry(where, version, checked_text(text, *where), dependencies, features, yanked, links)


def number_crate(name: str, crate: Crate) -> None:
    """Orders the entries and numbers them in their lines."""
    crate.entries.sort(key=lambda entry: entry.version)
    for at, entry in enumerate(crate.entries):
        if at and crate.entries[at - 1].version == entry.version:
            first = "{} line {}".format(*crate.entries[at - 1].where)
            raise Failure(*entry.where, f"{name} {entry.text} is listed already, in {first}")
        line = crate.lines.setdefault(entry.version.line, [])
        line.append(at)
        crate.places.append((entry.version.line, len(line)))


def index_place(name: str) -> str:
    """Where a folder has a crate."""
    low = name.lower()
    if len(low) < 4:
        return os.path.join(str(len(low)), *([low[0]] if len(low) == 3 else []), low)
    return os.path.join(low[:2], low[2:4], low)


def index_files(folder: str) -> list[str]:
    """The files of a folder that have entries."""
    inside = lambda path: os.path.relpath(path, folder).split(os.sep)
    return [path for path in files_below(folder)
            if path != os.path.join(folder, "config.json") and not any(part.startswith(".") for part in inside(path))]


# ---- the index


class CargoIndex:
    """Crates, read when they are asked for, and the packages made of them."""

    ecosystem, settings = "cargo", "-"

    def __init__(self, path: str, manifest: Optional[str] = None) -> None:
        self.path, self.crates = path, dict[str, Crate]()
        self.nodes: dict[str, Node] = {}
        self.read: list[str] = []
        self.tables: dict[str, dict[int, str]] = {}
        self.is_folder = os.path.isdir(path)
        if not self.is_folder:
            self.read_file(path)
            for name, crate in self.crates.items():
                number_crate(name, crate)
        self.root = self.add_manifest(manifest) if manifest else None

    def read_file(self, path: str) -> None:
        """The entries of a file."""
        self.read.append(path)
        for line, value in json_entries(path):
            name, entry = read_entry(value, (path, line))
            self.crates.setdefault(name, Crate()).entries.append(entry)

    def add_manifest(self, path: str) -> str:
        """The crate of a Cargo.toml as one more crate; the package that it becomes."""
        name, entry = read_manifest(path)
        if self.crate(name).entries:
            raise Failure(path, None, f"the index has a crate `{name}` too")
        self.crates[name] = Crate([entry])
        number_crate(name, self.crates[name])
        return f"{name}.{entry.version.line}"

    def crate(self, name: str) -> Crate:
        """A crate; one that isn't there has no entries."""
        if name not in self.crates and self.is_folder:
            self.crates[name] = Crate()
            path = os.path.join(self.path, index_place(name))
            if CRATE.match(name) and os.path.exists(path):
                self.read_file(path)
                number_crate(name, self.crates[name])
        return self.crates.get(name, Crate())

    def source(self) -> str:
        """The sum of the files that were read."""
        return sum_of_files(sorted(self.read), self.path)

    def packages(self) -> Iterable[str]:
        """Each line of each crate with all its features."""
        for path in index_files(self.path) if self.is_folder else ():
            if os.path.join(self.path, index_place(os.path.basename(path))) != path:
                raise Failure(path, None, "isn't where an index has it")
            for _, value in json_entries(path):
                self.crate(field(value, "name", str, ..., (path, 1)))
        for name, crate in list(self.crates.items()):
            for line, places in crate.lines.items():
                yield f"{name}.{line}"
                for feature in sorted({f for at in places for f in crate.entries[at].features}):
                    yield f"{name}.{line}/{feature}"

    def node(self, package: str) -> Node:
        """What a package is."""
        if package not in self.nodes:
            base, slash, feature = package.partition("/")
            crate, _, line = base.partition(".")
            self.nodes[package] = Node(base, crate, line, feature if slash else None)
        return self.nodes[package]

    def edge(self, base: str, crate: str, feature: Optional[str]) -> str:
        """The package of a dependency that may fall into several lines."""
        package = base if feature is None else f"{base}/{feature}"
        self.nodes[base] = Node(base, crate, None, None)
        self.nodes[package] = Node(base, crate, None, feature)
        return package

    def listed(self, package: str) -> dict[int, str]:
        """The versions of a line, or of an edge all of the crate; those that have the feature, where there is one."""
        if package not in self.tables:
            node = self.node(package)
            crate = self.crate(node.crate)
            places = range(len(crate.entries)) if node.line is None else crate.lines.get(node.line, [])
            self.tables[package] = {
                number: crate.entries[at].text for number, at in enumerate(places, 1)
                if node.feature in (None, "default") or node.feature in crate.entries[at].features
            }
        return self.tables[package]

    def release(self, package: str, number: int) -> Release:
        """What one version asks, for the feature or without one."""
        node = self.node(package)
        crate = self.crate(node.crate)
        text = f"{package} {self.listed(package)[number]}"
        rules: list[Rule] = [] if node.feature is None else [Needs(text, (Match(node.base, (number,)),))]
        if node.line is None:
            line, place = crate.places[number - 1]
            inner = f"{node.crate}.{line}" + (f"/{node.feature}" if node.feature else "")
            return Release((*rules, Needs(text, (Match(inner, (place,)),))))
        entry = crate.entries[crate.lines[node.line][number - 1]]
        if node.feature is not None:
            for value in entry.features.get(node.feature, ()):
                rules += self.feature_rules(node, entry, value)
            return Release(tuple(rules))
        for at, each in enumerate(entry.dependencies):
            if not each.is_optional:
                rules += self.dependency_rules(node, entry, at, each.features)
        rules += self.link_rules(node, crate, entry)
        is_foreign = any(each.is_foreign and not each.is_optional for each in entry.dependencies)
        return Release(tuple(rules), "yanked" if entry.yanked else None, "registry" if is_foreign else None)

    def link_rules(self, node: Node, crate: Crate, entry: Entry) -> Iterator[Rule]:
        """Another line of the crate with the same `links` can't be there."""
        for line, places in crate.lines.items() if entry.links else ():
            free = tuple(n for n, at in enumerate(places, 1) if crate.entries[at].links != entry.links)
            if line != node.line and len(free) < len(places):
                yield Limits(f"links = {entry.links}", Match(f"{node.crate}.{line}", free))

    def feature_rules(self, node: Node, entry: Entry, value: str) -> Iterator[Rule]:
        """What a value in the list of a feature asks; weak ones bring in their dependency, as in Cargo.lock."""
        name, slash, feature = value.removeprefix("dep:").partition("/")
        name, is_weak = name.removesuffix("?"), name.endswith("?")
        is_dependency = value.startswith("dep:") or bool(slash)
        optional = any(each.name == name and each.is_optional for each in entry.dependencies)
        if not is_dependency or (slash and optional and not is_weak and name in entry.features):
            package = f"{node.base}/{name}"
            own = self.own_number(node, entry)
            yield Needs(f"feature {value}", (Match(package, (own,)),))
        for at, each in enumerate(entry.dependencies if is_dependency else ()):
            if each.name == name:
                extra = each.features if each.is_optional else ()
                yield from self.dependency_rules(node, entry, at, (*extra, *([feature] if slash else [])))

    def own_number(self, node: Node, entry: Entry) -> int:
        """The number of an entry in its line."""
        crate = self.crate(node.crate)
        return 1 + next(n for n, at in enumerate(crate.lines[node.line]) if crate.entries[at] is entry)

    def dependency_rules(self, node: Node, entry: Entry, at: int, features: Iterable[str]) -> list[Rule]:
        """One dependency with features: over its line, or over an edge where there are several lines."""
        wanted = entry.dependencies[at]
        if wanted.is_foreign:
            return [Needs(f"{wanted.text}, of another registry", (Match(wanted.package, ()),))]
        found = self.matching(wanted)
        lines = {self.crate(wanted.package).places[place][0] for place in found}
        if not found:
            return [Needs(wanted.text, (Match(wanted.package, ()),))]
        asked = self.needed_features(wanted, found, features)
        if len(lines) == 1:
            base = f"{wanted.package}.{lines.pop()}"
            numbers = [self.crate(wanted.package).places[place][1] for place in found]
            return [self.over(f"{base}/{f}" if f else base, numbers, wanted) for f in asked]
        base = f"{node.base}>{wanted.name}:{wanted.package}:{at + 1}"
        numbers = [place + 1 for place in found]
        return [self.over(self.edge(base, wanted.package, f), numbers, wanted) for f in asked]

    def matching(self, wanted: Dependency) -> list[int]:
        """The places of the entries that match."""
        entries = self.crate(wanted.package).entries
        return [place for place, entry in enumerate(entries) if wanted.req.matches(entry.version)]

    def needed_features(self, wanted: Dependency, found: list[int], features: Iterable[str]) -> list[Optional[str]]:
        """The features to ask for, `default` just where one of the versions has it; None for none."""
        entries = self.crate(wanted.package).entries
        has_default = any("default" in entries[place].features for place in found)
        return sorted({f for f in features if f != "default" or has_default}) or [None]

    def over(self, package: str, numbers: list[int], wanted: Dependency) -> Needs:
        """The rule over those of the numbers that the package lists."""
        listed = self.listed(package)
        return Needs(wanted.text, (Match(package, tuple(number for number in numbers if number in listed)),))


# ---- manifests and requests


def manifest_dependencies(value: dict[str, Any], where: Where) -> Iterator[Dependency]:
    """All dependencies of a manifest, of each kind and target; optional ones too, as Cargo.lock has them."""
    targets = field(value, "target", dict, {}, where)
    for table in (value, *(field(targets, target, dict, {}, where) for target in targets)):
        for kind in ("dependencies", "dev-dependencies", "build-dependencies"):
            for name, given in field(table, kind, dict, {}, where).items():
                given = {"version": given} if isinstance(given, str) else given
                if not isinstance(given, dict) or set(given) & {"path", "git", "registry", "workspace"}:
                    raise Failure(where[0], None, f"`{name}` isn't a dependency of the index")
                text = field(given, "version", str, "*", where)
                features = texts_field(given, "features", where)
                features += ("default",) if field(given, "default-features", bool, True, where) else ()
                package = field(given, "package", str, name, where)
                for each in (name, package):
                    checked_crate(each, where)
                yield Dependency(name, package, requirement(text, where), f"{name} {text}", features)


def read_manifest(path: str) -> tuple[str, Entry]:
    """The crate of a Cargo.toml, all of its own features on."""
    where = (path, 0)
    try:
        with open(path, "rb") as source:
            value = tomllib.load(source)
    except OSError as error:
        raise Failure(path, None, f"can't be read: {error.strerror}") from None
    except (ValueError, RecursionError) as error:
        raise Failure(path, None, f"isn't TOML: {error}") from None
    package, features = field(value, "package", dict, ..., where), field(value, "features", dict, {}, where)
    asked = [text.replace("?", "") for feature in features for text in texts_field(features, feature, where)]
    more = {name: [f for n, _, f in (v.partition("/") for v in asked) if n == name and f] for name in
            {v.partition("/")[0] for v in asked}}
    dependencies = tuple(
        Dependency(d.name, d.package, d.req, d.text, (*d.features, *more.get(d.name, ())))
        for d in manifest_dependencies(value, where)
    )
    name, text = checked_crate(field(package, "name", str, ..., where), where), field(package, "version", str, "0.0.0", where)
    try:
        version = read_semver(text)
    except Bad as bad:
        raise Failure(path, None, f"{quoted(text)} {bad}") from None
    return name, Entry(where, version, text, dependencies, {}, False, field(package, "links", str, None, where))


def request_rules(index: CargoIndex, texts: Iterable[str]) -> Iterator[Rule]:
    """NAME[@REQ][/FEATURE,..] each; the crate of a manifest is one of the crates."""
    for text in texts:
        asked, _, features = text.partition("/")
        name, _, req = asked.partition("@")
        checked_crate(name, ("REQUIREMENT", 0))
        wanted = Dependency(name, name, requirement(req or "*", ("REQUIREMENT", 0)), text)
        found, crate = index.matching(wanted), index.crate(name)
        wanted_features: list[Optional[str]] = [f for f in features.split(",") if f]
        lines = sorted({crate.places[place][0] for place in found}, key=lambda line: crate.lines[line], reverse=True)
        if len(lines) > 1 and len(wanted_features) > 1:
            raise Failure(text, None, "several features of several lines need a manifest (--manifest)")
        for feature in wanted_features or [None]:
            bases = [f"{name}.{line}" + (f"/{feature}" if feature else "") for line in lines]
            numbers = {base: [crate.places[p][1] for p in found if crate.places[p][0] == line]
                       for base, line in zip(bases, lines)}
            matches = [index.over(base, numbers[base], wanted).choices[0] for base in bases]
            yield Needs(text, tuple(matches) or (Match(name, ()),))
