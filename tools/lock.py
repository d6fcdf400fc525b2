"""Lock files: the versions of an install report as texts, and the lines that they become over a later catalogue.

    lock 1 ECOSYSTEM SETTINGS
    catalogue sha256:HEX
    report sha256:HEX
    entries COUNT
    NAME VERSION for request line LINE
    NAME VERSION for NAME VERSION line LINE
    NAME VERSION wished line LINE

Names and versions are the real ones of the catalogue's dictionary. docs/LOCKS.md has the errors and the workflow.
"""
from __future__ import annotations

import hashlib
import re
from dataclasses import dataclass
from typing import Iterable, Optional

from tools import texts
from tools.bundle import CatalogueFile
from tools.catalogue import KEYWORDS, Catalogue, line_text
from tools.dictionary import Dictionary, RealSpelling
from tools.files import Failure
from tools.reports import Entry, Install, WishedEntry
from tools.words import PLAIN, Bad, Fault, Spelling, Version, Words, quoted

SUM = re.compile(r"sha256:[0-9a-f]{64}\Z")
CONFLICT = re.compile(r"<{7} |\|{7} |={7}\Z|>{7} ")  # what version control leaves in a file that it couldn't merge


@dataclass(frozen=True)
class LockEntry:
    """One locked version; `wished` or for a place, None being the request."""

    name: str
    version: str
    place: Optional[tuple[str, str]]
    wished: bool
    line: int


@dataclass(frozen=True)
class Lock:
    """A lock file; the entries are in the report's order."""

    ecosystem: str
    settings: str
    catalogue_sum: str
    report_sum: str
    entries: tuple[LockEntry, ...]

    @property
    def versions(self) -> dict[str, list[str]]:
        """The versions of each name: one, or several of a package that is marked `many`."""
        found: dict[str, list[str]] = {}
        for entry in self.entries:
            found.setdefault(entry.name, []).append(entry.version)
        return found


def sum_of(data: bytes) -> str:
    """The sum of a text."""
    return "sha256:" + hashlib.sha256(data).hexdigest()


def lock_spelling(dictionary: Optional[Dictionary]) -> Spelling:
    """Real names, and the text of each version."""
    return RealSpelling(dictionary, any_text=True) if dictionary else PLAIN


# ---- making, writing and reading a lock


def lock_of(file: CatalogueFile, report_bytes: bytes, report: Install) -> Lock:
    """The lock of an install report."""
    dictionary = file.dictionary
    spelling = lock_spelling(dictionary)

    def pair(version: Version) -> tuple[str, str]:
        return spelling.name_text(version.package), spelling.number_text(*version)

    def entry(answer: Entry | WishedEntry) -> LockEntry:
        if isinstance(answer, WishedEntry):
            return LockEntry(*pair(answer.version), None, True, answer.line)
        return LockEntry(*pair(answer.version), pair(answer.place) if answer.place else None, False, answer.line)

    head = (dictionary.ecosystem, dictionary.settings) if dictionary else ("-", "-")
    return Lock(*head, sum_of(file.data), sum_of(report_bytes), tuple(map(entry, report.entries)))


def entry_text(entry: LockEntry) -> str:
    """The line of an entry."""
    reason = "for request" if entry.place is None else f"for {entry.place[0]} {entry.place[1]}"
    return f"{entry.name} {entry.version} {'wished' if entry.wished else reason} line {entry.line}"


def lock_text(lock: Lock) -> bytes:
    """The lock's one text."""
    head = [f"lock 1 {lock.ecosystem} {lock.settings}", f"catalogue {lock.catalogue_sum}", f"report {lock.report_sum}"]
    lines = [*head, f"entries {len(lock.entries)}", *map(entry_text, lock.entries)]
    return texts.encoded("".join(line + "\n" for line in lines))


class LockReader:
    """Reads the lines of a lock file; raises Bad."""

    def __init__(self) -> None:
        self.head: list[str] = []
        self.entries: list[LockEntry] = []
        self.versions: set[tuple[str, str]] = set()
        self.count = 0

    def line(self, number: int, raw: str) -> None:
        """One line."""
        if not raw.isprintable():
            raise Bad(f"{quoted(raw)} has control characters, or bytes that aren't UTF-8")
        words = Words(raw)
        if number > 4:
            self.entry(words)
            return
        words.expect(("lock", "catalogue", "report", "entries")[number - 1])
        if number == 1:
            words.expect("1")
            self.head += [words.take("the ecosystem"), words.take("the settings")]
        elif number == 4:
            self.count = words.number()
        else:
            self.head.append(words.take("a sum"))
            if not SUM.match(self.head[-1]):
                raise Bad(f"{quoted(self.head[-1])} isn't `sha256:` and 64 digits")
        words.end()

    def entry(self, words: Words) -> None:
        """A locked version."""
        name, version, place = words.take("a name"), words.take("a version"), None
        if (name, version) in self.versions:
            raise Bad(f"{quoted(f'{name} {version}')} is locked already")
        kind = words.take("`for` or `wished`")
        if kind == "for":
            if len(words.words) == 6:
                words.expect("request")
            else:
                place = (words.take("a name"), words.take("a version"))
        elif kind != "wished":
            raise Bad(f"`for` or `wished` is due, not {quoted(kind)}")
        words.expect("line")
        self.entries.append(LockEntry(name, version, place, kind == "wished", words.line()))
        self.versions.add((name, version))
        words.end()


def read_lock(data: bytes) -> Lock:
    """A lock file; raises Fault with its line. A file that was cut off is never taken for a shorter one."""
    reader = LockReader()
    lines = texts.decoded(data).split("\n")
    unfinished = lines.pop()
    for number, raw in enumerate(lines, 1):
        try:
            reader.line(number, raw)
        except Bad as bad:
            merged = f"{quoted(raw)} is of a merge: take one side whole, solve again, and write the lock anew"
            raise Fault("lock", number, merged if CONFLICT.match(raw) else str(bad)) from None
    if unfinished:
        raise Fault("lock", len(lines) + 1, "its last line has no newline: was the file cut off?")
    if len(lines) < 4 or reader.count != len(reader.entries):
        reason = f"it ends after {len(reader.entries)} entries of {reader.count}" if len(lines) >= 4 else "it ends early"
        raise Fault("lock", len(lines) + 1, reason)
    return Lock(*reader.head, tuple(reader.entries))


# ---- lines over a catalogue


def locked_versions(lock: Lock, lock_path: str, file: CatalogueFile, but: Iterable[str] = ()) -> list[Version]:
    """The locked versions as the catalogue lists them, but for some names; raises Failure where one is gone."""
    spelling, without, found = lock_spelling(file.dictionary), set(but), []
    unknown = sorted(without - set(lock.versions))
    if unknown:
        raise Failure(lock_path, None, f"no entry is named {', '.join(map(quoted, unknown))} (--except)")
    ecosystem = file.dictionary.ecosystem if file.dictionary else "-"
    if lock.ecosystem != ecosystem:
        raise Failure(lock_path, 1, f"the lock's ecosystem is `{lock.ecosystem}`, that of {file.path} `{ecosystem}`")
    for line, entry in enumerate(lock.entries, 5):
        if entry.name not in without:
            version = named_version(spelling, entry.name, entry.version)
            if version not in file.catalogue.line_of:
                raise Failure(lock_path, line, f"{entry.name} {entry.version} is no longer listed by {file.path}", 1)
            if version.package not in file.catalogue.many and any(each.package == version.package for each in found):
                raise Failure(lock_path, line, f"{entry.name} has another version above, and {file.path} has no `many` of it", 1)
            found.append(version)
    return found


def named_version(spelling: Spelling, name: str, text: str) -> Optional[Version]:
    """The version of these words, if they spell one."""
    try:
        package = spelling.name(name)
        return Version(package, spelling.number(package, text))
    except Bad:
        return None


def mark_lines(versions: list[Version], file: CatalogueFile, kind: type, lock_path: str) -> list[str]:
    """`lock` or `favour` lines for versions; what the catalogue marks so already needs none."""
    marks = {p.line.version.package: p for p in file.catalogue.placed if isinstance(p.line, kind)}
    lines, packages = [], [version.package for version in versions]
    for version in versions:
        if packages.count(version.package) > 1:
            reason = f"it has several versions of {version.package}, and one `{KEYWORDS[kind]}` line a package is allowed"
            raise Failure(lock_path, None, f"{reason}; --wish has no such bound", 1)
        mark = marks.get(version.package)
        if mark is None:
            lines.append(line_text(kind(version)))
        elif mark.line.version != version:
            more = "; --whole puts a comment in its place" if kind is texts.FavourLine else ""
            reason = f"`{line_text(mark.line)}` is there, but {lock_path} has {version}{more}"
            raise Failure(file.path, mark.number, reason, 1)
    return lines


def without_favours(file: CatalogueFile, versions: list[Version]) -> CatalogueFile:
    """The catalogue with a comment in the place of each favour of another version of these packages."""
    kept, raw, lines = {v.package: v for v in versions}, file.data.split(b"\n"), list(file.catalogue.lines)
    for at, line in enumerate(lines):
        if isinstance(line, texts.FavourLine) and kept.get(line.version.package, line.version) != line.version:
            lines[at] = texts.SkippedLine(f"# {line_text(line)}, but for the lock file")
            raw[at] = lines[at].text.encode()
    return CatalogueFile(file.path, b"\n".join(raw), Catalogue(tuple(lines)), file.dictionary)


def wish_lines(versions: list[Version], request: Optional[texts.Request]) -> list[str]:
    """`wish` lines for the end of a request, in the lock's order; what the request wishes for already needs none."""
    wished = {line.version for line in request.lines if isinstance(line, texts.WishLine)} if request else set()
    return [line_text(texts.WishLine(version)) for version in versions if version not in wished]


def with_lines(data: bytes, lines: list[str]) -> bytes:
    """A text with lines at its end, each line of the text at its place."""
    gap = b"" if not data or data.endswith(b"\n") else b"\n"
    return data + gap + "".join(line + "\n" for line in lines).encode()


# ---- what changed, and whether a lock is right


def plan_lines(old: Lock, new: Lock, file: Optional[CatalogueFile]) -> list[str]:
    """Installs, upgrades, downgrades, changes and removals, each in the order of its lock."""
    before, after, lines = old.versions, new.versions, []
    is_known = file is not None or (old.ecosystem, new.ecosystem) == ("-", "-")
    for name, versions in after.items():
        gone, new = without(before.get(name, []), versions), without(versions, before.get(name, []))
        if len(gone) == len(new) == 1:
            kind = direction(name, (gone[0], new[0]), file) if is_known else "change"
            lines.append(f"{kind} {name} {gone[0]} to {new[0]}")
        else:
            lines += [f"install {name} {version}" for version in new] + [f"remove {name} {version}" for version in gone]
    return lines + [f"remove {name} {version}" for name in before if name not in after for version in before[name]]


def without(versions: list[str], others: list[str]) -> list[str]:
    """The versions that aren't among the others."""
    return [version for version in versions if version not in others]


def direction(name: str, versions: tuple[str, str], file: Optional[CatalogueFile]) -> str:
    """`upgrade` or `downgrade` by the catalogue's order; `change` where the order isn't known."""
    spelling = lock_spelling(file.dictionary if file else None)
    first, second = (named_version(spelling, name, text) for text in versions)
    if first is None or second is None or (file and not {first, second} <= set(file.catalogue.line_of)):
        return "change"
    return "upgrade" if first < second else "downgrade"


def check_lock(lock: Lock, lock_path: str, expected: Lock, paths: dict[str, str]) -> None:
    """Raises Failure with status 1 where the lock isn't the expected one; `paths` has those of catalogue and report."""
    sums = (("catalogue", lock.catalogue_sum, expected.catalogue_sum), ("report", lock.report_sum, expected.report_sum))
    for line, (text, has, due) in enumerate(sums, 2):
        if has != due:
            raise Failure(lock_path, line, f"the sum is of another {text} than {paths[text]}; `lock write` makes a new lock", 1)
    for line, (mine, theirs) in enumerate(zip(lock.entries, expected.entries), 5):
        if mine != theirs:
            raise Failure(lock_path, line, f"the report has `{entry_text(theirs)}`", 1)
    if lock != expected:
        raise Failure(lock_path, None, "isn't the lock of this report", 1)
