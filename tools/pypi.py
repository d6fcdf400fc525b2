"""PyPI: an index of wheels as a catalogue, requirements as a request; `packaging` decides what matches.

    resolve-tools pypi catalogue INDEX [--closure ROOT..]    resolve-tools pypi request INDEX REQUIREMENT..

INDEX is a folder with wheels (`.whl`) or their METADATA files, or a JSON file of {name, version, requires_dist,
requires_python, provides_extra, yanked}, as a list or an object a line. docs/MAPPING.md has what each field becomes.
"""
from __future__ import annotations

import lzma
import os
import re
import warnings
import zipfile
import zlib
from dataclasses import dataclass, field as default
from typing import Any, Iterable, Iterator, Optional

try:
    from pip._vendor.packaging import markers, requirements, specifiers, utils, version as versions
except ImportError:
    from packaging import markers, requirements, specifiers, utils, version as versions

from tools.files import Failure, read_bytes
from tools.index import Limits, Match, Needs, Release, Rule, checked_text, files_below, sum_of_files
from tools.stream import JsonStream, field, json_entries, texts_field
from tools.words import MOST_DIGITS, has_long_number, quoted

EXTRA_NAME = re.compile(r"""\bextra\s*==\s*["']([^"']*)["']|["']([^"']*)["']\s*==\s*extra\b""")
NAME = re.compile(r"[A-Za-z0-9](?:[A-Za-z0-9._-]*[A-Za-z0-9])?\Z")
HEADER = re.compile(r"([!-9;-~]+):[ \t]*(.*)\Z")


@dataclass(frozen=True)
class Wheel:
    """One version as its metadata has it; `extras` is None where just the markers name them."""

    where: tuple[str, int]
    name: str
    version: Any
    requires: tuple[tuple[str, int], ...]
    python: Any
    extras: Optional[tuple[str, ...]]
    yanked: bool


@dataclass
class Project:
    """The wheels of one name, numbered from 1."""

    wheels: list[Wheel] = default(default_factory=list)
    listed: dict[int, str] = default(default_factory=dict)
    fits: list[bool] = default(default_factory=list)
    found: dict[str, tuple[int, ...]] = default(default_factory=dict)
    provided: Optional[set[str]] = None

    def extras(self) -> set[str]:
        """The extras that some version provides."""
        if self.provided is None:
            self.provided = {canonical(extra) for wheel in self.wheels for extra in wheel_extras(wheel)}
        return self.provided


# ---- reading


def checked_name(name: str, where: tuple[str, int]) -> str:
    """A name of a project or an extra, normalised; raises Failure."""
    if not NAME.match(name):
        raise Failure(*where, f"{quoted(name)} isn't a name by PEP 508")
    return canonical(name)


def canonical(name: str) -> str:
    """The normalised name of a project or an extra."""
    return utils.canonicalize_name(name)


def read_version(text: str, path: str, line: int) -> Any:
    """A version; raises Failure."""
    try:
        return versions.Version(text)
    except ValueError:
        raise Failure(path, line, f"{quoted(text)} isn't a version by PEP 440") from None


def check_specifiers(found: Any, text: str, where: tuple[str, int]) -> Any:
    """Specifiers of PEP 440 alone; older ones are refused."""
    if any(type(each).__name__ == "LegacySpecifier" for each in found) or has_long_number(text):
        raise Failure(*where, f"{quoted(text)} isn't a specifier by PEP 440")
    return found


def read_specifiers(text: str, where: tuple[str, int]) -> Any:
    """Specifiers; raises Failure."""
    try:
        with warnings.catch_warnings():
            warnings.simplefilter("ignore")
            return check_specifiers(specifiers.SpecifierSet(text), text, where)
    except ValueError:
        raise Failure(*where, f"{quoted(text)} isn't a specifier by PEP 440") from None


def read_requirement(text: str, where: tuple[str, int]) -> Any:
    """A requirement by PEP 508; raises Failure."""
    try:
        with warnings.catch_warnings():
            warnings.simplefilter("ignore")
            found = requirements.Requirement(text)
        if has_long_number(text):
            raise ValueError
    except ValueError:
        raise Failure(*where, f"{quoted(text)} isn't a requirement by PEP 508") from None
    check_specifiers(found.specifier, text, where)
    return found


def read_metadata(data: bytes, path: str) -> Wheel:
    """The METADATA of a wheel: its headers up to the first empty line."""
    found: dict[str, list[tuple[str, int]]] = {}
    lines, last = data.split(b"\n"), None
    for number, raw in enumerate(lines, 1):
        raw = raw.removesuffix(b"\r")
        if not raw:
            break
        try:
            line = raw.decode("utf-8")
        except UnicodeDecodeError:
            raise Failure(path, number, "isn't UTF-8") from None
        if number == len(lines):
            raise Failure(path, number, "ends in the middle of a line")
        if line[0] in " \t":
            continue
        header = HEADER.match(line)
        if header is None:
            raise Failure(path, number, "isn't a header `NAME: TEXT`")
        last = found.setdefault(header[1].title(), [])
        last.append((header[2].strip(), number))
    return header_wheel(found, path)


def header_wheel(found: dict[str, list[tuple[str, int]]], path: str) -> Wheel:
    """A wheel from its headers."""
    for key in ("Name", "Version"):
        if key not in found:
            raise Failure(path, None, f"has no `{key}`")
    text, line = found["Version"][0]
    python, python_line = found.get("Requires-Python", [("", 1)])[0]
    for extra, at in found.get("Provides-Extra", []):
        checked_name(extra, (path, at))
    extras = tuple(extra for extra, _ in found.get("Provides-Extra", []))
    return Wheel(
        (path, line), checked_name(found["Name"][0][0], (path, found["Name"][0][1])), read_version(text, path, line),
        tuple(found.get("Requires-Dist", [])), read_specifiers(python, (path, python_line)), extras, False,
    )


def entry_wheel(entry: dict[str, Any], where: tuple[str, int]) -> Wheel:
    """A wheel from an entry of a JSON index."""
    requires = tuple((text, where[1]) for text in texts_field(entry, "requires_dist", where))
    extras = texts_field(entry, "provides_extra", where) if entry.get("provides_extra") is not None else None
    for extra in extras or ():
        checked_name(extra, where)
    yanked = entry.get("yanked") or False
    if not isinstance(yanked, (bool, str)):
        raise Failure(*where, "`yanked` isn't true, false or a text")
    return Wheel(
        where, checked_name(field(entry, "name", str, ..., where), where),
        read_version(field(entry, "version", str, ..., where), *where), requires,
        read_specifiers(field(entry, "requires_python", str, "", where), where), extras, bool(yanked),
    )


def wheel_metadata(path: str) -> bytes:
    """The METADATA in a wheel."""
    try:
        with zipfile.ZipFile(path) as wheel:
            names = [name for name in wheel.namelist() if re.fullmatch(r"[^/]+\.dist-info/METADATA", name)]
            if len(names) != 1:
                raise Failure(path, None, "has no METADATA")
            return wheel.read(names[0])
    except (OSError, EOFError, RuntimeError, ValueError, lzma.LZMAError, zipfile.BadZipFile, zlib.error) as error:
        raise Failure(path, None, f"isn't a wheel: {error}") from None


def read_wheels(path: str) -> Iterator[Wheel]:
    """The wheels of an index."""
    if not os.path.isdir(path):
        for line, entry in json_entries(path):
            yield entry_wheel(entry, (path, line))
        return
    for file in wheel_files(path):
        yield read_metadata(wheel_metadata(file) if file.endswith(".whl") else read_bytes(file), file)


def wheel_files(folder: str) -> list[str]:
    """The files of a folder that say what a wheel is."""
    endings = (".whl", ".metadata", f"{os.sep}METADATA")
    return [path for path in files_below(folder) if path.endswith(endings)]


def read_environment(path: Optional[str]) -> dict[str, str]:
    """The markers' variables: those of this Python, with those of a JSON file in their place."""
    environment = dict(markers.default_environment())
    if path is None:
        return environment
    stream = JsonStream(path)
    where, given = (path, 1), stream.value()
    stream.end()
    stream.close()
    if not isinstance(given, dict):
        raise Failure(*where, "an object is due")
    for key in given:
        if key not in environment:
            raise Failure(*where, f"`{key}` is no variable of markers: {', '.join(sorted(environment))}")
        environment[key] = field(given, key, str, ..., where)
        if has_long_number(environment[key]):
            raise Failure(*where, f"`{key}` has a number of more than {MOST_DIGITS} digits")
    read_version(environment["python_full_version"], *where)
    return environment


# ---- the index


class PypiIndex:
    """Projects, and a package `NAME[EXTRA]` for each extra, whose version N needs version N of NAME."""

    ecosystem = "pypi"

    def __init__(self, path: str, environment: dict[str, str], pre: Optional[list[str]] = None) -> None:
        """With `pre` the named projects may be pre-releases, all of them where it is empty."""
        self.path, self.environment = path, environment
        self.pre = None if pre is None else {canonical(name) for name in pre}
        words = (f"python{environment['python_full_version']}", environment["sys_platform"])
        self.settings = "-".join((*words, environment["platform_machine"])).replace(" ", "_")
        self.projects: dict[str, Project] = {}
        for wheel in read_wheels(path):
            self.projects.setdefault(wheel.name, Project()).wheels.append(wheel)
        for project in self.projects.values():
            self.number(project)

    def number(self, project: Project) -> None:
        """Numbers the wheels of a project by their versions."""
        project.wheels.sort(key=lambda wheel: wheel.version)
        for number, wheel in enumerate(project.wheels, 1):
            before = project.wheels[number - 2] if number > 1 else None
            if before and before.version == wheel.version:
                first = f"{before.where[0]} line {before.where[1]}"
                raise Failure(*wheel.where, f"{wheel.name} {wheel.version} is listed already, in {first}")
            project.listed[number] = checked_text(str(wheel.version), *wheel.where)
            running = self.environment["python_full_version"]
            project.fits.append(wheel.python.contains(running, prereleases=True))

    def source(self) -> str:
        """The sum of the index."""
        return sum_of_files(wheel_files(self.path) if os.path.isdir(self.path) else (), self.path)

    def packages(self) -> Iterable[str]:
        """All projects, with the extras that they provide."""
        for name, project in self.projects.items():
            yield name
            for extra in project.extras():
                yield f"{name}[{extra}]"

    def listed(self, package: str) -> dict[int, str]:
        """An extra has the versions of its project; where one doesn't provide it, it adds nothing, as in pip."""
        project = self.projects.get(package.partition("[")[0])
        return project.listed if project else {}

    def release(self, package: str, number: int) -> Release:
        """What one version asks, for the extra or without one."""
        name, _, extra = package.removesuffix("]").partition("[")
        project = self.projects[name]
        wheel = project.wheels[number - 1]
        rules: list[Rule] = []
        if extra:
            rules.append(Needs(f"{package} {project.listed[number]}", (Match(name, (number,)),)))
        for text, line in wheel.requires:
            found = read_requirement(text, (wheel.where[0], line))
            if self.holds(found, wheel, extra):
                if found.url:
                    return Release(tuple(rules), self.barred(project, number, extra), "url")
                rules += self.needs(f"Requires-Dist: {text}", found)
        return Release(tuple(rules), self.barred(project, number, extra))

    def barred(self, project: Project, number: int, extra: str) -> Optional[str]:
        """Why a version can't be had."""
        if extra:
            return None
        if not project.fits[number - 1]:
            return "requires-python"
        return "yanked" if project.wheels[number - 1].yanked else None

    def holds(self, requirement: Any, wheel: Wheel, extra: str) -> bool:
        """Whether a requirement's marker holds in the environment, for the extra or without one."""
        if requirement.marker is None:
            return not extra
        spelled = [each for each in wheel_extras(wheel) if canonical(each) == extra]
        if extra and not spelled:
            return False
        return any(requirement.marker.evaluate({**self.environment, "extra": each}) for each in [extra, *spelled])

    def match(self, name: str, wanted: Any) -> tuple[int, ...]:
        """The versions that `packaging` matches; those that the environment rules out don't hide a pre-release."""
        project = self.projects.get(name)
        if project is None:
            return ()
        if str(wanted) not in project.found:
            pre = True if self.pre is not None and (not self.pre or name in self.pre) else None
            fitting = [wheel.version for wheel, fits in zip(project.wheels, project.fits) if fits]
            found = set(wanted.filter(fitting, prereleases=pre))
            project.found[str(wanted)] = tuple(
                number for number, (wheel, fits) in enumerate(zip(project.wheels, project.fits), 1)
                if wheel.version in found or (not fits and wanted.contains(wheel.version, prereleases=True))
            )
        return project.found[str(wanted)]

    def needs(self, source: str, requirement: Any) -> list[Rule]:
        """The rules of a requirement: one for each extra, or one for the project. An extra that no version provides adds nothing, as in pip."""
        name = canonical(requirement.name)
        numbers = self.match(name, requirement.specifier)
        provided = self.projects[name].extras() if name in self.projects else set()
        packages = [f"{name}[{extra}]" for extra in sorted({canonical(each) for each in requirement.extras} & provided)]
        return [Needs(source, (Match(package, numbers),)) for package in packages or [name]]


def wheel_extras(wheel: Wheel) -> tuple[str, ...]:
    """The extras that a wheel provides, as it spells them."""
    if wheel.extras is not None:
        return wheel.extras
    named = {a or b for text, _ in wheel.requires for a, b in EXTRA_NAME.findall(text)}
    return tuple(sorted(name for name in named if NAME.match(name)))


# ---- requests


def root_package(text: str) -> str:
    """The package of a root: `NAME` or `NAME[EXTRA]`."""
    found = read_requirement(text, ("--closure", 0))
    extras = sorted(canonical(extra) for extra in found.extras)
    if found.specifier or found.marker or found.url or len(extras) > 1:
        raise Failure("--closure", None, f"`{text}` isn't a name, or a name with one extra")
    return canonical(found.name) + (f"[{extras[0]}]" if extras else "")


def request_rules(index: PypiIndex, texts: Iterable[str], constraints: Iterable[str]) -> Iterator[Rule | str]:
    """Requirements as needs, constraints as limits; those whose marker doesn't hold become comments."""
    for is_limit, group in ((False, texts), (True, constraints)):
        for text in group:
            found = read_requirement(text, ("--constraint" if is_limit else "REQUIREMENT", 0))
            if found.url or (is_limit and found.extras):
                raise Failure(text, None, "an address, or a constraint with extras, can't be said")
            if found.marker and not found.marker.evaluate({**index.environment, "extra": ""}):
                yield f"{text}: its marker doesn't hold"
            elif is_limit:
                name = canonical(found.name)
                yield Limits(text, Match(name, index.match(name, found.specifier)))
            else:
                yield from index.needs(text, found)
