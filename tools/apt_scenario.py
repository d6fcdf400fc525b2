"""apt's scenario of EDSP 0.5: the request, and the packages over which it asks.

Of each stanza the name is taken, and what it provides; a stanza is read as a whole where the request reaches it.
"""
from __future__ import annotations

import itertools
import re
from bisect import bisect_right
from dataclasses import dataclass, field
from typing import Iterable, Optional

from tools.deb822 import Fields, Record, check_encoding, split_records
from tools.debian import PROVIDED, Listed, Universe
from tools.files import Failure
from tools.mentions import Mentions, every

PATH = "scenario"
INSTALLED, CANDIDATE = b"Installed: yes", b"APT-Candidate: yes"
PACKAGE, PROVIDES = b"Package: ", b"\nProvides:"
# How apt begins a stanza.
HEAD = re.compile(rb"\n\nPackage: ([!-~]+)\nArchitecture: ([!-~]+)\n")


class Stanzas(Universe):
    """A universe over a text, of which it keeps where stanzas begin."""

    def __init__(self, native: str, text: bytes, is_strict: bool) -> None:
        super().__init__(native)
        self.text, self.is_strict = text, is_strict
        self.starts: list[int] = []
        self.places: dict[bytes, list[int]] = {}
        self.mentions = Mentions(text, self.places)

    def enter_all(self) -> None:
        """Enters each stanza. Where one doesn't begin as apt writes them, all are looked at as those of any file are."""
        for match in HEAD.finditer(self.text):
            name, architecture = match.groups()
            self.starts.append(match.start() + 2)
            if architecture in self.architectures:
                if name in self.places:
                    self.places[name].append(self.starts[-1])
                else:
                    self.places[name] = [self.starts[-1]]
        if len(self.starts) != self.text.count(b"\n\n", 0, len(self.text) - 2):
            self.starts.clear()
            self.places.clear()
            for record in itertools.islice(split_records([self.text], PATH), 1, None):
                self.add(record)
            return
        for place in every(self.text, PROVIDES):
            start = self.start(place)
            if self.name(start) in self.places:
                self.offer(self.name(start).decode("utf-8"), PROVIDED.findall(self.provided_at(place)))

    def start(self, place: int) -> int:
        """Where the stanza of a place begins."""
        return self.starts[bisect_right(self.starts, place) - 1]

    def name(self, start: int) -> bytes:
        """The name of the stanza that begins there."""
        return self.text[start + len(PACKAGE):self.text.find(b"\n", start)]

    def provided_at(self, place: int) -> str:
        """The field Provides of which the line begins behind that place."""
        end = self.text.find(b"\n", place + 1)
        if self.text[end + 1:end + 2] in (b" ", b"\t"):
            return self.record(self.start(place)).value("Provides")
        return self.text[place + len(PROVIDES):end].decode("utf-8")

    def record(self, start: int) -> Record:
        """The stanza that begins there."""
        end = self.text.find(b"\n\n", start)
        raw = self.text[start:end] if end >= 0 else self.text[start:].rstrip(b"\n")
        return Record(raw, PATH, lambda: 1 + self.text.count(b"\n", 0, start))

    def named(self, name: str) -> list[Record]:
        """The stanzas of a package that may be taken, those of installed versions first."""
        found = [*self.records.get(name, ()), *map(self.record, self.places.get(name.encode("utf-8"), ()))]
        there = [record for record in found if record.says(INSTALLED)]
        return there + [r for r in found if r not in there and (not self.is_strict or r.says(CANDIDATE))]

    def keep(self, names: Iterable[str]) -> None:
        """Leaves these packages alone."""
        kept = set(names)
        self.records = {name: records for name, records in self.records.items() if name in kept}
        for name in [name for name in self.places if name.decode("utf-8") not in kept]:
            del self.places[name]
        self.read = {name: listed for name, listed in self.read.items() if name in kept}


@dataclass
class Scenario:
    """What apt asks, and the packages over which it asks."""

    asked: Fields
    universe: Universe
    installed: dict[str, Listed] = field(default_factory=dict)
    candidates: dict[str, Listed] = field(default_factory=dict)

    def flag(self, name: str) -> bool:
        """Whether the request says `yes`."""
        return self.asked.flag(name)

    def names(self, name: str) -> list[str]:
        """The packages of a field of the request, without the architecture; those of other architectures are faults."""
        found = []
        for word in self.asked.get(name, "").split():
            package, _, architecture = word.partition(":")
            if architecture not in ("", "all", self.universe.native):
                self.asked.fail(name, f"{word} is of another architecture than {self.universe.native}")
            found.append(package)
        return found

    def candidate(self, name: str) -> Optional[Listed]:
        """The version that apt would take, else the newest one that is listed."""
        if name not in self.candidates:
            listed = self.universe.package(name)
            if not listed:
                return None
            self.candidates[name] = next((v for v in listed if v.fields.flag("apt-candidate")), listed[-1])
        return self.candidates[name]

    def upgrades(self) -> bool:
        """Whether the candidates of all installed packages are asked for."""
        return any(map(self.flag, ("upgrade-all", "upgrade", "dist-upgrade")))


def text_of(chunks: Iterable[bytes]) -> bytes:
    """The whole text, whose last line ends with a newline."""
    text = b"".join(chunks)
    if text.strip(b"\n") and not text.endswith(b"\n"):
        raise Failure(PATH, 1 + text.count(b"\n"), "its last line has no newline: was the file cut off?")
    if not text.isascii():
        check_encoding(text, PATH, 1)
    return text


def read_scenario(chunks: Iterable[bytes]) -> Scenario:
    """The scenario; of the packages the names alone, but for the installed ones."""
    text = text_of(chunks)
    first = next(split_records([text.partition(b"\n\n")[0] + b"\n"], PATH), None)
    asked = first.fields() if first else None
    if asked is None or not asked.get("request", "").startswith("EDSP 0."):
        raise Failure(PATH, 1, "the first stanza isn't a request of EDSP 0.5")
    if not asked.get("architecture"):
        asked.fail("request", "the request has no Architecture")
    universe = Stanzas(asked["architecture"], text, asked.get("strict-pinning", "yes") == "yes")
    universe.enter_all()
    scenario = Scenario(asked, universe)
    for name in installed_names(universe):
        scenario.installed |= {name: v for v in universe.package(name) if v.fields.flag("installed")}
    if scenario.flag("forbid-new-install") or scenario.flag("upgrade"):
        universe.keep(scenario.installed)
    return scenario


def installed_names(universe: Stanzas) -> dict[str, None]:
    """The packages of which a version is installed."""
    found = {name: None for name, records in universe.records.items() if any(r.says(INSTALLED) for r in records)}
    for place in every(universe.text, b"\n" + INSTALLED + b"\n") if universe.starts else ():
        found[universe.name(universe.start(place)).decode("utf-8")] = None
    return found
