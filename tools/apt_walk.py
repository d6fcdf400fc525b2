"""The versions to which apt's own solver would come, as an order of preference.

It goes depth first: from a version to what it needs, then to what it recommends, each in the order of the stanza. Of
alternatives it takes none where one is there; else an installed package before a new one, then the first.
"""
from __future__ import annotations

import itertools
from typing import Iterable, Iterator

from tools.apt_scenario import Scenario
from tools.deb822 import Group, Relation
from tools.debian import Listed, relation_groups

SOURCE = ("source", "source-version")


def source_of(listed: Listed) -> tuple[str, str]:
    """The source package of which a version is built, and its version."""
    name, version = map(listed.fields.get, SOURCE)
    return name or listed.name, version or listed.text


class Walk:
    """What is taken, in the order in which it is come to; versions that are barred never are."""

    def __init__(self, scenario: Scenario, wants_recommended: bool, barred: set[tuple[str, int]]) -> None:
        self.scenario, self.universe = scenario, scenario.universe
        self.wants_recommended, self.barred = wants_recommended, barred
        self.taken: dict[str, Listed] = {}
        self.siblings: dict[tuple[str, str], list[Listed]] = {}
        for name, listed in scenario.installed.items():
            found = scenario.candidate(name)
            if found and found is not listed:
                self.siblings.setdefault(source_of(found), []).append(found)

    def there(self, name: str) -> Listed | None:
        """The version of a package that is taken, or else installed."""
        return self.taken.get(name) or self.scenario.installed.get(name)

    def meets(self, relation: Relation, versions: dict[str, Listed]) -> bool:
        """Whether one of these versions matches."""
        found = ((versions.get(name), numbers) for name, numbers in self.universe.matches(relation).items())
        return any(listed and listed.number in numbers for listed, numbers in found)

    def is_met(self, group: Group) -> bool:
        """Whether something that is there matches."""
        found = ((self.there(name), ns) for relation in group for name, ns in self.universe.matches(relation).items())
        return any(listed and listed.number in numbers for listed, numbers in found)

    def choices(self, group: Group) -> Iterator[Listed]:
        """The candidates that match: of installed packages, then the new ones, those of one relation after those of another."""
        found = [list(self.candidates(relation)) for relation in group]
        is_old = lambda listed: listed.name in self.scenario.installed
        for relation, listed in zip(group, found):
            yield from self.sorted(relation, filter(is_old, listed))
        for relation, listed in zip(group, found):
            yield from self.sorted(relation, itertools.filterfalse(is_old, listed))

    def candidates(self, relation: Relation) -> Iterator[Listed]:
        """The candidates that match a relation."""
        for name, numbers in self.universe.matches(relation).items():
            listed = self.scenario.candidate(name)
            if listed and listed.number in numbers and (name, listed.number) not in self.barred:
                yield listed

    def sorted(self, relation: Relation, candidates: Iterable[Listed]) -> Iterator[Listed]:
        """The package itself, then what provides it: by rank, then what apt read of last first."""
        found = sorted(candidates, key=lambda listed: (listed.name != relation.name, listed.rank))
        for _, group in itertools.groupby(found, key=lambda listed: (listed.name != relation.name, listed.rank)):
            equal = {listed.name: listed for listed in group}
            yield from map(equal.get, self.universe.mentions.last_first(equal) if len(equal) > 1 else equal)

    def is_due(self, old: Listed | None, group: Group) -> bool:
        """Whether a recommendation is to be looked at: of an upgrade those that are new, or that were met before."""
        if old is None:
            return True
        before = [g for _, g in relation_groups(old.fields, "recommends") if any(r.name == group[0].name for r in g)]
        return not before or any(self.meets(relation, self.scenario.installed) for g in before for relation in g)

    def groups(self, listed: Listed) -> Iterator[tuple[bool, Group]]:
        """What a version needs and recommends; whether it needs it."""
        yield from ((True, group) for _, group in self.universe.needs(listed.fields))
        if self.wants_recommended:
            old = self.scenario.installed.get(listed.name)
            for _, group in relation_groups(listed.fields, "recommends"):
                if self.is_due(old, group):
                    yield False, group

    def take(self, listed: Listed) -> bool:
        """Takes a version with what it brings; where something that it needs can't be had, nothing."""
        old = self.scenario.installed.get(listed.name)
        if self.there(listed.name) is listed:
            return True
        if (listed.name, listed.number) in self.barred or old and old.fields.flag("hold"):
            return False
        count = len(self.taken)
        self.taken[listed.name] = listed
        groups = [(is_need, group) for is_need, group in self.groups(listed) if not self.is_met(group)]
        for other in (*self.siblings.get(source_of(listed), ()), *self.broken(listed)):
            self.take(other)
        for is_need, group in groups:
            if not self.is_met(group) and not self.take_one(group) and is_need:
                for name in list(self.taken)[count:]:
                    del self.taken[name]
                return False
        return True

    def take_one(self, group: Group) -> bool:
        """Takes the first alternative that can be had."""
        for listed in self.choices(group):
            if self.take(listed):
                return True
        return False

    def broken(self, listed: Listed) -> Iterator[Listed]:
        """The candidates of installed packages that can't stay beside a version as they are."""
        for _, relation in self.universe.limits(listed.fields):
            for name, numbers in self.universe.matches(relation).items():
                there, found = self.there(name), self.scenario.candidate(name)
                if name != listed.name and there and there.number in numbers and found and found.number not in numbers:
                    yield found
