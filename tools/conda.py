"""conda: repodata.json, read as a stream, as a catalogue; a version of a package is a version with a build.

    resolve-tools conda catalogue REPODATA [--with REPODATA ..] [--virtual NAME=VERSION ..] [--closure ROOT..]
    resolve-tools conda request REPODATA [the same options] SPEC ..

docs/MAPPING.md has what each field becomes.
"""
from __future__ import annotations

from dataclasses import dataclass
from typing import Any, Iterable, Iterator

from tools.files import Failure
from tools.index import Limits, Match, Needs, Release, Rule, checked_name, checked_text, sum_of_files
from tools.matchspec import Bad, MatchSpec, read_matchspec, read_version
from tools.stream import JsonStream, field, texts_field
from tools.words import quoted

GROUPS = ("packages", "packages.conda")
Where = tuple[str, int]


@dataclass(frozen=True, slots=True)
class Record:
    """One build of one version; `fields` are the texts that a spec may ask for in brackets."""

    where: Where
    name: str
    version: str
    build: str
    number: int
    timestamp: int
    depends: tuple[str, ...]
    constrains: tuple[str, ...]
    fields: dict[str, str]

    @property
    def text(self) -> str:
        """Its text in the dictionary."""
        return f"{self.version}-{self.build}"


# ---- reading


def read_record(file: str, value: Any, where: Where) -> Record:
    """An entry of a repodata.json."""
    if not isinstance(value, dict):
        raise Failure(*where, "an object is due")
    name = field(value, "name", str, ..., where).lower()
    version, build = field(value, "version", str, ..., where), field(value, "build", str, "", where)
    if not set(name).isdisjoint(" =<>!~[]|,;:()#"):
        raise Failure(*where, f"`{name}` isn't the name of a package")
    checked_name(name, *where)
    checked_version(version, where)
    number = field(value, "build_number", int, 0, where)
    fields = {key: field(value, key, str, "", where) for key in ("subdir", "md5", "sha256")}
    fields |= {"build_number": str(number), "fn": file}
    depends, constrains = texts_field(value, "depends", where), texts_field(value, "constrains", where)
    time = field(value, "timestamp", int, 0, where)
    found = Record(where, name, version, build, number, time, depends, constrains, fields)
    checked_text(found.text, *where)
    return found


def checked_version(text: str, where: Where) -> None:
    """Whether it is a version; raises Failure."""
    try:
        read_version(text)
    except Bad as bad:
        raise Failure(*where, f"{quoted(text)} {bad}") from None


def checked_spec(text: str, where: Where) -> MatchSpec:
    """A spec; raises Failure."""
    try:
        return read_matchspec(text)
    except Bad as bad:
        raise Failure(*where, f"{quoted(text)} {bad}") from None


class RepodataReader:
    """Reads files one after the other; a build in `packages.conda` comes before the same in `packages`."""

    def __init__(self) -> None:
        self.records: dict[str, dict[tuple[str, str], Record]] = {}
        self.subdirs: list[str] = []

    def file(self, path: str) -> None:
        """A repodata.json, an entry at a time."""
        stream, found = JsonStream(path), dict[str, dict[tuple[str, str, str], Record]]()
        try:
            for line, key in stream.members():
                if key in GROUPS:
                    if key in found:
                        raise stream.fail(f"has `{key}` twice", line)
                    found[key] = self.group(stream)
                else:
                    self.other(key, stream.value(), (path, line))
            stream.end()
        finally:
            stream.close()
        for key in reversed(GROUPS):
            for (name, version, build), record in found.get(key, {}).items():
                self.records.setdefault(name, {}).setdefault((version, build), record)

    def group(self, stream: JsonStream) -> dict[tuple[str, str, str], Record]:
        """All entries of `packages` or `packages.conda`."""
        found: dict[tuple[str, str, str], Record] = {}
        for line, file in stream.members():
            where = (stream.path, line)
            record = read_record(file, stream.value(), where)
            key = (record.name, record.version, record.build)
            if key in found:
                raise Failure(*where, f"{record.name} {record.text} is listed already, in line {found[key].where[1]}")
            found[key] = record
        return found

    def other(self, key: str, value: Any, where: Where) -> None:
        """`info` says of which platform the file is; other keys are passed over."""
        if key == "info":
            if not isinstance(value, dict):
                raise Failure(*where, "`info` isn't an object")
            self.subdirs.append(field(value, "subdir", str, "-", where).replace(" ", "_"))


def read_virtual(text: str) -> Record:
    """NAME=VERSION or NAME=VERSION=BUILD: what the machine has."""
    name, _, rest = text.partition("=")
    version, _, build = rest.partition("=")
    where = ("--virtual", 0)
    return read_record("", {"name": name, "version": version or "0", "build": build or "0"}, where)


# ---- the index


class CondaIndex:
    """Packages with their builds, numbered by version, build number, time and build."""

    ecosystem = "conda"

    def __init__(self, path: str, more: Iterable[str] = (), virtual: Iterable[str] = ()) -> None:
        self.path, self.paths, reader = path, [path, *more], RepodataReader()
        for each in self.paths:
            reader.file(each)
        for text in virtual:
            record = read_virtual(text)
            if record.name in reader.records:
                raise Failure("--virtual", None, f"{record.name} is listed already")
            reader.records[record.name] = {(record.version, record.build): record}
        self.settings = "+".join(reader.subdirs) or "-"
        order = lambda r: (read_version(r.version), r.number, r.timestamp, r.version, r.build)
        self.records = {name: sorted(found.values(), key=order) for name, found in reader.records.items()}
        self.found: dict[str, Match] = {}
        self.tables: dict[str, dict[int, str]] = {}

    def source(self) -> str:
        """The sum of the file; of several, their sums joined."""
        return "+".join(sum_of_files((), path) for path in self.paths)

    def packages(self) -> Iterable[str]:
        """All of them."""
        return self.records

    def listed(self, package: str) -> dict[int, str]:
        """The builds, `VERSION-BUILD` each."""
        if package not in self.tables:
            self.tables[package] = {at: record.text for at, record in enumerate(self.records.get(package, ()), 1)}
        return self.tables[package]

    def release(self, package: str, number: int) -> Release:
        """What one build asks: `depends` are needs, `constrains` are limits. One of the build's own package says nothing, as in libsolv: no other
        build of it can be beside this one."""
        record = self.records[package][number - 1]
        rules: list[Rule] = [Needs(f"depends: {text}", (self.match(text, record.where),)) for text in record.depends]
        limits = [Limits(f"constrains: {text}", self.match(text, record.where)) for text in record.constrains]
        rules += [limit for limit in limits if limit.match.package != package]
        return Release(tuple(rules))

    def match(self, text: str, where: Where) -> Match:
        """The builds that a spec matches."""
        if text not in self.found:
            spec = checked_spec(text, where)
            self.found[text] = Match(spec.name, tuple(
                at for at, record in enumerate(self.records.get(spec.name, ()), 1)
                if spec.matches(record.version, record.build, record.fields)
            ))
        return self.found[text]


def request_rules(index: CondaIndex, texts: Iterable[str], constraints: Iterable[str]) -> Iterator[Rule]:
    """Specs as needs, constraints as limits."""
    for text in texts:
        yield Needs(text, (index.match(text, ("SPEC", 0)),))
    for text in constraints:
        yield Limits(text, index.match(text, ("--constraint", 0)))
