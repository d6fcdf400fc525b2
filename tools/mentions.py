"""Where apt first read of packages: in their own stanzas, or in a relation of another.

apt numbers packages in this order, and of providers that are equal else it takes the one that it numbered last.
"""
from __future__ import annotations

import re
from typing import Iterable, Iterator, Mapping, Sequence

# The fields in the order in which apt reads them; it reads what is provided from the end.
FIELDS = ("package", "pre-depends", "depends", "conflicts", "breaks", "recommends", "suggests", "replaces", "enhances", "provides")
BEFORE, BEHIND = b" ,|:\t\n", b" ,|:(\t\n"
NUMBER = re.compile(rb"\nAPT-ID: ([0-9]+)\n")

Place = tuple[int, int, int]  # the number of the version, the field, where in it


class Mentions:
    """The stanzas of a scenario, in any order; each has the number that apt gave its version in the order of reading."""

    def __init__(self, text: bytes, starts: Mapping[bytes, Sequence[int]]) -> None:
        self.text, self.starts = text, starts  # of packages, where their stanzas begin
        self.found: dict[str, Place] = {}

    def last_first(self, names: Iterable[str]) -> Iterator[str]:
        """The names of listed packages: the one that apt read of last comes first."""
        places = {name: (self.own(name), False) for name in names}
        while places:
            name = max(places, key=lambda each: places[each])
            if places[name][1]:
                del places[name]
                yield name
            else:
                places[name] = self.first(name), True

    def own(self, name: str) -> Place:
        """The place of the first of its own stanzas; it was read of then at the latest."""
        starts = self.starts.get(name.encode("utf-8"))
        return min(filter(None, map(self.place, starts)), default=(0, 0, 0)) if starts else self.first(name)

    def first(self, name: str) -> Place:
        """Where it was read of first."""
        if name not in self.found:
            word = name.encode("utf-8")
            places = (self.place(at) for at in every(self.text, word) if self.is_whole(at, len(word)))
            self.found[name] = min((place for place in places if place), default=(0, 0, 0))
        return self.found[name]

    def is_whole(self, at: int, length: int) -> bool:
        """Whether a word of the text isn't part of a longer one."""
        return self.text[at - 1] in BEFORE and self.text[at + length] in BEHIND

    def place(self, at: int) -> Place | None:
        """The place of a word of the text, if its field names packages."""
        text = self.text
        start = text.rfind(b"\n", 0, at) + 1
        while text[start:start + 1] in (b" ", b"\t"):
            start = text.rfind(b"\n", 0, start - 1) + 1
        title = text[start:text.find(b":", start)].decode("utf-8", "replace").lower()
        number = NUMBER.search(text, text.rfind(b"\n\n", 0, at) + 1)
        if title not in FIELDS or not number:
            return None
        return int(number[1]), FIELDS.index(title), -at if title == "provides" else at


def every(text: bytes, word: bytes) -> Iterator[int]:
    """Each place of a word."""
    at = text.find(word)
    while at >= 0:
        yield at
        at = text.find(word, at + 1)
