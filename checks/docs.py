#!/usr/bin/env python3
"""Compares the documents with the sources.

docs.py                      lists what is wrong: a module or a public call that the README of its room lacks, an item of its door
                             too; a crate that `crates.txt` lists for another that does not name it, or the reverse; a file with
                             a lock that CHANGING.md lacks; a call that WALK.md has behind another file; a name, file or crate that
                             is missing, a dead link, a count of AUDIT.md or of the rows, in CLAIMS.md or in what their program
                             prints; the example of README.md; a command of `resolve-tools` that it doesn't take, or whose output
                             is another one; a script that can't be executed; a report of examples/ or README.md that isn't that
                             of the plain search. Status 1 where anything is.
docs.py --closure CRATE/SPEC ..  lists the files of specs/ that these import, all the way down, with their lines.
"""
import argparse
import contextlib
import glob
import io
import os
import re
import shlex
import sys
from collections import Counter
from typing import Dict, Iterator, List, Optional, Set, Tuple

from base import TOP as ROOT
from plain_report import solved
from rows import read_all
from tools.front import main as run_tools
from tools.front import make_parser
from tools.texts import report_text

EXAMPLE = "checks/calls/example.rt.txt"
PAGES = ("README.md", "CONTRIBUTING.md", "docs/*.md", "crates/*/README.md", "bindings/*/README.md")
TESTS = "Tests"
ROW_KINDS = {
    "installs": ("install", "list"), "refusals": ("refuse",), "texts": ("fault", "long", "conditions"),
    "judged reports": ("judge",), "reports as texts": ("read",),
}
ITEM = re.compile(r"(?P<indent> *)pub (?:const )?(?:fn|struct|enum|trait|type|const|static) (?P<name>\w+)")
BLOCK = re.compile(r"(?:pub )?(?P<kind>impl|trait)\b(?P<rest>.*)")
MEMBER = re.compile(r" {4}(?:pub )?fn (?P<name>\w+)")
SOURCES = r"\b(?:crates/)?resolv[eo][a-z_]*/(?:src|specs|proofs|must-fail|data)/[\w/.-]+\.\w+"
FILES = r"(?<![\w/.-])(?:docs|crates|tools|checks|bench|examples)/[\w/.*-]+\.(?:md|py|rt|antt|row|edit)\b(?!\.\w)"
WORD = re.compile(r"[A-Za-z_]\w*")


def read(path: str) -> str:
    """The text of a file below the root."""
    with open(os.path.join(ROOT, path), encoding="utf-8") as file:
        return file.read()


def pages() -> List[str]:
    """All documents."""
    return sorted(os.path.relpath(p, ROOT) for form in PAGES for p in glob.glob(os.path.join(ROOT, form)))


def rooms() -> Dict[str, List[str]]:
    """The crates of each room, as `crates.txt` groups them."""
    found: Dict[str, List[str]] = {}
    room = ""
    for line in read("crates.txt").split("\n"):
        if line.startswith("#"):
            room = line[1:].strip()
        elif ":" in line:
            found.setdefault(room, []).append(line.split(":")[0].split()[0])
    return found


def crate_faults() -> Iterator[str]:
    """A line of `crates.txt` has exactly the crates of this repository that the files of its crate name, and none of a later line."""
    known: List[str] = [crate for crates in rooms().values() for crate in crates]
    for line in read("crates.txt").split("\n"):
        if ":" in line and not line.startswith("#"):
            crate, listed = line.split(":")[0].split()[0], set(line.split(":")[1].split())
            words: Set[str] = set()
            for form in (f"crates/{crate}/{path}" for path in ("src/**/*.rt", "specs/**/*.antt", "proofs/**/*.antt")):
                for path in glob.glob(os.path.join(ROOT, form), recursive=True):
                    text = "\n".join(code(read(path)))
                    words |= {a or b for a, b in re.findall(r"\b(resolv[eo]\w*)::|Rattle\.(resolv[eo]\w*)", text)}
            for name in known:
                if name != crate and (name in words) != (name in listed):
                    yield f"crates.txt: {crate} {'names' if name in words else 'does not name'} {name}"
                if name in listed and known.index(name) > known.index(crate):
                    yield f"crates.txt: {crate} is above {name}"


# ---- what a crate has

def modules(crate: str) -> List[str]:
    """Its modules in src/."""
    names = [f[:-3] for f in sorted(os.listdir(os.path.join(ROOT, "crates", crate, "src"))) if f.endswith(".rt")]
    return [n for n in names if n not in ("lib", "main")]


def code(text: str) -> Iterator[str]:
    """Its lines without comments."""
    for line in text.split("\n"):
        yield re.split(r"//|(?:^|\s)--(?:\s|$)", line)[0]


def self_type(header: str) -> str:
    """The type of an `impl`."""
    header = re.sub(r"<[^<>]*>", "", re.sub(r"<[^<>]*>", "", re.sub(r"<[^<>]*>", "", header)))
    header = header.split(" where ")[0].split("{")[0]
    found = WORD.findall(header.split(" for ")[-1])
    return found[0] if found else ""


def items(crate: str) -> Iterator[Tuple[str, str, str]]:
    """Module, owner (a type, a trait, or nothing) and name of each item that is marked public."""
    for module in modules(crate):
        owner, kind = "", ""
        for line in code(read(f"crates/{crate}/src/{module}.rt")):
            block = BLOCK.match(line)
            if block:
                kind = block["kind"]
                owner = self_type(block["rest"])
            item = ITEM.match(line)
            if item and not item["indent"]:
                yield module, "", item["name"]
            elif item or (kind == "trait" and MEMBER.match(line)):
                found = item or MEMBER.match(line)
                assert found
                yield module, owner, found["name"]


def public(crate: str) -> Set[Tuple[str, str, str]]:
    """The items that another crate can name."""
    lib = f"crates/{crate}/src/lib.rt"
    if not os.path.exists(os.path.join(ROOT, lib)):
        return set()
    text = "\n".join(code(read(lib)))
    opened = set(re.findall(r"^pub mod (\w+);", text, re.M))
    named = {w for m in re.finditer(r"^pub use (\w+)::([^;]*);", text, re.M) for w in WORD.findall(m[2]) if m[1] in modules(crate)}
    found = set(items(crate))
    types = {n for m, o, n in found if not o and (m in opened or n in named)}
    return {(m, o, n) for m, o, n in found if (n in types if not o else o in types)}


# ---- a page

def sections(text: str) -> Dict[str, str]:
    """The parts of a page below a heading that names a crate."""
    parts = re.split(r"^## `(\w+)`$", text, flags=re.M)
    return dict(zip(parts[1::2], parts[2::2]))


def quoted(text: str) -> List[str]:
    """The texts in backticks, outside of blocks."""
    return re.findall(r"`([^`\n]+)`", re.sub(r"^```.*?^```", "", text, flags=re.M | re.S))


def room_faults() -> Iterator[str]:
    """What the READMEs of the rooms lack."""
    for room, crates in rooms().items():
        if room.startswith(TESTS):
            continue
        doors = [c for c in crates if os.path.exists(os.path.join(ROOT, "crates", c, "README.md"))]
        if len(doors) != 1:
            yield f"crates.txt: the room '{room}' has {len(doors)} READMEs"
            continue
        page = f"crates/{doors[0]}/README.md"
        parts = sections(read(page))
        for crate in crates:
            if crate not in parts:
                yield f"{page}: no heading for {crate}"
                continue
            names = {w for q in quoted(parts[crate]) for w in WORD.findall(q)}
            rows = set(re.findall(r"^\| `(\w+)` \|", parts[crate], re.M))
            for module in modules(crate):
                if module not in rows:
                    yield f"{page}: {crate} has a module {module}"
            for module, owner, name in sorted(public(crate)):
                if name not in names:
                    yield f"{page}: {crate}::{module} has {owner + '::' if owner else ''}{name}"


def is_there(path: str, page: str, crate: str) -> bool:
    """Whether a file is there: below the root, crates/, the page's folder, or the crate of its section."""
    places = ("", "crates", os.path.dirname(page), os.path.join("crates", crate))
    return any(glob.glob(os.path.join(ROOT, place, path)) for place in places)


def is_edit(text: str) -> bool:
    """Whether CRATE/NAME is a wrong body."""
    crate, name = text.split("/")
    return any(os.path.exists(os.path.join(ROOT, p)) for p in (f"crates/{crate}/must-fail/{name}.edit", f"checks/edits/{crate}/{name}.edit"))


LIBRARIES = ("crates/*/src/**/*.rt", "crates/*/specs/*.antt", "crates/*/proofs/**/*.antt")
PROGRAMS = ("tools/*.py", "checks/*.py")
SCRIPTS = ("tools/*.py", "tools/*.sh", "tools/resolve-tools", "checks/*.py", "bench/*.py", "bindings/*.sh")


def known_words(forms: Tuple[str, ...]) -> Set[str]:
    """Each word of the sources, comments apart, and each name of a file."""
    found: Set[str] = set()
    for form in forms:
        for path in glob.glob(os.path.join(ROOT, form), recursive=True):
            text = read(path)
            found |= {w for line in code(text) for w in WORD.findall(line)}
            found |= set(WORD.findall(os.path.relpath(path, ROOT)))
    return found


def name_faults(page: str, words: Set[str]) -> Iterator[str]:
    """Names, files and crates of a page that don't exist."""
    text = read(page)
    crates = {c for room in rooms().values() for c in room}
    for path in sorted(set(re.findall(SOURCES, text)) | set(re.findall(FILES, text))):
        if "NAME" not in path and not is_there(path, page, ""):
            yield f"{page}: no file {path}"
    for path in re.findall(r"(?<![\w/-])[A-Z]{4,}\.md\b", text):
        if not os.path.exists(os.path.join(ROOT, "docs", path)) and not is_there(path, page, ""):
            yield f"{page}: no document {path}"
    for target in re.findall(r"\]\(([^)#\s]+)[^)]*\)", text):
        if "://" not in target and not os.path.exists(os.path.join(ROOT, os.path.dirname(page), target)):
            yield f"{page}: a dead link {target}"
    for crate, part in [("", text)] if not page.startswith("crates/") else sections(text).items():
        for item in quoted(part):
            if re.fullmatch(r"resolv[eo]_\w+", item) and item not in crates and item not in words:
                yield f"{page}: no crate {item}"
            if re.fullmatch(r"resolv[eo]\w*/\w+", item) and not is_edit(item) and not is_there(item, page, crate):
                yield f"{page}: no file or wrong body {item}"
            if re.fullmatch(r"(?:src|specs|proofs)/[\w/]+\.\w+", item) and page.startswith("crates/") and not is_there(item, page, crate):
                yield f"{page}: {crate} has no file {item}"
            path = re.fullmatch(r"(resolv[eo]\w*)::(\w+)(?:::.*)?", item)
            if path and (path[1] not in crates or path[2] not in words):
                yield f"{page}: no path {item}"


def word_faults(page: str, words: Set[str], in_libraries: Set[str]) -> Iterator[str]:
    """Types and calls of a page that no source has. A path with `::` must be in a library."""
    text = read(page)
    if page.endswith("GLOSSARY.md"):
        text = "\n".join(line.split("|")[1] for line in text.split("\n") if line.startswith("|"))
    for item in quoted(text):
        if re.fullmatch(r"[A-Za-z_]\w*(?:::\w+)*", item) and ("_" in item or item[0].isupper()):
            known = in_libraries if "::" in item else words
            for word in WORD.findall(item):
                begins = word.endswith("_") and any(w.startswith(word) for w in known)
                if word not in known and not begins and not re.fullmatch(r"[A-Z]+|NAME_tests", word):
                    yield f"{page}: no source has {item}"


def count_faults() -> Iterator[str]:
    """Counts of AUDIT.md that its commands don't give."""
    text = read("docs/AUDIT.md").replace("\\\n", " ")
    for words, lines, files in re.findall(r"^\$ python3 checks/docs.py --closure (.*)\n +(\d+) lines in (\d+) files$", text, re.M):
        paths = closure(words.split())
        count = sum(read(path).count("\n") for path in paths)
        if (count, len(paths)) != (int(lines), int(files)):
            yield f"docs/AUDIT.md: {words.split()[0]} imports {count} lines in {len(paths)} files"
    for words, lines in re.findall(r"^\$ wc -l (.*)\n +(\d+) total$", text, re.M):
        count = sum(read(path).count("\n") for path in words.split())
        if count != int(lines):
            yield f"docs/AUDIT.md: {words} have {count} lines"


def walk_faults() -> Iterator[str]:
    """In WALK.md a crate, a file of it and calls follow each other: the file must have the calls."""
    for number, line in enumerate(read("docs/WALK.md").split("\n"), 1):
        crate = text = ""
        for word in re.findall(r"`([^`]+)`", line):
            name = word.split("::")[-1]
            path = f"crates/{crate}/src/{word}"
            if os.path.isdir(os.path.join(ROOT, "crates", word)):
                crate, text = word, ""
            elif crate and word.endswith(".rt"):
                text = read(path) if os.path.exists(os.path.join(ROOT, path)) else ""
                if not text:
                    yield f"docs/WALK.md:{number}: {crate} has no file {word}"
            elif text and re.fullmatch(r"[a-z_]\w+", name) and not re.search(rf"fn {name}\b", text):
                yield f"docs/WALK.md:{number}: {name} isn't in the file before it"


def changing_faults() -> Iterator[str]:
    """CHANGING.md lists each file of the libraries and the program that names its example, the lock."""
    page = read("docs/CHANGING.md")
    for room, crates in rooms().items():
        for crate in (crates if not room.startswith(TESTS) else []):
            for form in (f"crates/{crate}/src/**/*.rt", f"crates/{crate}/specs/*.antt"):
                for path in sorted(glob.glob(os.path.join(ROOT, form), recursive=True)):
                    name = os.path.relpath(path, ROOT)
                    if name not in page and any(re.search(r"\b(?:Lock|Locked)\b", line) for line in code(read(name))):
                        yield f"docs/CHANGING.md: {name} has the lock"


def row_faults() -> Iterator[str]:
    """CLAIMS.md counts the rows, all and by kind, and their program must print how many there are."""
    counts = Counter(row.name.split("_")[0] for row in read_all())
    claims, total = read("docs/CLAIMS.md"), sum(counts.values())
    if f"runs {total} rows" not in claims:
        yield f"docs/CLAIMS.md: there are {total} rows"
    if read("crates/resolve_rows/stdout") != f"{total} rows, as expected\n":
        yield f"crates/resolve_rows/stdout: there are {total} rows"
    for words, begins in ROW_KINDS.items():
        count = sum(counts[begin] for begin in begins)
        if f"| {count} {words} |" not in claims:
            yield f"docs/CLAIMS.md: there are {count} {words}"


def exports(crate: str, kinds: str = "use|mod") -> Set[str]:
    """The names at the root of a library, by the words that export them."""
    text = "\n".join(code(read(f"crates/{crate}/src/lib.rt")))
    found: Set[str] = set()
    for path in re.findall(rf"^pub (?:{kinds}) ([^;]*);", text, re.M):
        inside = re.search(r"\{([^}]*)\}", path)
        names = inside[1].split(",") if inside else [path]
        found |= {words[-1] for words in map(WORD.findall, names) if words}
    return found


def import_faults(page: str) -> Iterator[str]:
    """Names that a page imports from the root of a library, and that aren't there."""
    for crate, names in re.findall(r"\buse (resolv[eo]\w*)::\{([^}]*)\}", read(page)):
        if os.path.exists(os.path.join(ROOT, f"crates/{crate}/src/lib.rt")):
            for name in sorted(set(WORD.findall(names)) - exports(crate)):
                yield f"{page}: {crate} exports no {name}"


def door_faults() -> Iterator[str]:
    """A room's README has a block with each name that its door re-exports. `import_faults` finds names that the door lacks."""
    for room, crates in rooms().items():
        if not room.startswith(TESTS):
            for door in (c for c in crates if os.path.exists(os.path.join(ROOT, "crates", c, "README.md"))):
                page = f"crates/{door}/README.md"
                block = re.search(rf"^```\nuse {door}::\{{([^}}]*)\}};\n```$", read(page), re.M)
                for name in sorted(exports(door, "use") - set(WORD.findall(block[1] if block else ""))):
                    yield f"{page}: {door} exports {name}"


def example_faults() -> Iterator[str]:
    """README.md has the example of checks/calls, from its first `use` on, as it is compiled there."""
    example = read(EXAMPLE)
    if f"```\n{example[example.index('use '):]}```\n" not in read("README.md"):
        yield f"README.md: the example isn't that of {EXAMPLE}"


# ---- commands

def script_faults() -> Iterator[str]:
    """A file that begins with `#!` may be executed, where modes weren't lost on the way here."""
    for form in SCRIPTS if os.access(os.path.join(ROOT, ".ci/run"), os.X_OK) else ():
        for path in sorted(glob.glob(os.path.join(ROOT, form))):
            with open(path, "rb") as file:
                if file.read(2) == b"#!" and not os.access(path, os.X_OK):
                    yield f"{os.path.relpath(path, ROOT)}: can't be executed"


def actions(parser: argparse.ArgumentParser) -> Dict[str, argparse.ArgumentParser]:
    """The commands below a parser."""
    return next((a.choices for a in parser._actions if isinstance(a, argparse._SubParsersAction)), {})


def command_fault(words: List[str]) -> Optional[str]:
    """Why a parser doesn't know these words: a command, an action, or an option."""
    parser = make_parser()
    while words and actions(parser):
        if words[0] not in actions(parser):
            return f"no command {words[0]}"
        parser, words = actions(parser)[words[0]], words[1:]
    options = {option for word in words for option in re.findall(r"(?<![\w-])--[\w-]+", word)}
    return next((f"no option {option}" for option in sorted(options - set(parser._option_string_actions))), None)


def is_taken(words: List[str]) -> bool:
    """Whether the command line is whole. Nothing is run."""
    with contextlib.redirect_stderr(io.StringIO()), contextlib.redirect_stdout(io.StringIO()):
        try:
            make_parser().parse_args(words)
        except SystemExit as end:
            return not end.code
    return True


def command_faults(page: str) -> Iterator[str]:
    """Commands of a page that `resolve-tools` doesn't take. In a block they are whole; in a line they may leave words out."""
    text = read(page).replace("\\\n", " ")
    for block in re.findall(r"^```\w*\n(.*?)^```", text, flags=re.M | re.S):
        for line in re.findall(r"^(?:\$ )?(?:tools/)?resolve-tools (.*)$", block, re.M):
            if not is_taken(shlex.split(line.split(" > ")[0])):
                yield f"{page}: resolve-tools doesn't take `{line}`"
    named = actions(make_parser())
    for item in quoted(text):
        words = item.replace("tools/resolve-tools", "resolve-tools").split()
        whole = words[:1] == ["resolve-tools"]
        words = words[1:] if whole else words
        if words and words[0] != "NAME" and (whole or (len(words) > 1 and words[0] in named and words[1] in actions(named[words[0]]))):
            fault = command_fault(words)
            if fault:
                yield f"{page}: resolve-tools has {fault}: `{item}`"


def shown_by(command: str) -> str:
    """What a command of a page prints: `cat`, `resolve solve` by the plain search, or `resolve-tools`, over files below the root."""
    words = [os.path.join(ROOT, word) if word.startswith("examples/") else word for word in shlex.split(command)]
    if words[0] == "cat":
        return read(words[1])
    if words[:2] == ["resolve", "solve"]:
        return report_text(solved(*words[2:])).decode()
    with contextlib.redirect_stdout(io.TextIOWrapper(io.BytesIO(), encoding="utf-8")) as out:
        run_tools(words[1:])
        out.flush()
        return out.buffer.getvalue().decode()


def output_faults(page: str) -> Iterator[str]:
    """Outputs of a page, below `$ COMMAND`, that the command over examples/ doesn't print."""
    for block in re.findall(r"^```\n(\$ .*?)^```", read(page), flags=re.M | re.S):
        for command, output in re.findall(r"^\$ (.*)\n((?:(?!\$ ).*\n)*)", block, flags=re.M):
            known = command.startswith(("cat ", "resolve solve ", "tools/resolve-tools ")) and "examples/" in command
            if known and shown_by(command) != output:
                yield f"{page}: `{command}` prints something else"


def report_faults() -> Iterator[str]:
    """Reports of examples/ that aren't those of the plain search."""
    for path in sorted(glob.glob(os.path.join(ROOT, "examples/*.request"))):
        name = path.removesuffix(".request")
        catalogue = f"{name}.catalogue" if os.path.exists(f"{name}.catalogue") else os.path.join(ROOT, "examples/app.catalogue")
        with open(f"{name}.report", "rb") as file:
            if file.read() != report_text(solved(catalogue, path)):
                yield f"{os.path.relpath(name, ROOT)}.report: isn't that of the plain search"


def faults() -> Iterator[str]:
    """All that is wrong."""
    yield from crate_faults()
    yield from room_faults()
    yield from count_faults()
    yield from changing_faults()
    yield from walk_faults()
    yield from row_faults()
    yield from door_faults()
    yield from example_faults()
    yield from script_faults()
    yield from report_faults()
    in_libraries = known_words(LIBRARIES)
    words = in_libraries | known_words(PROGRAMS)
    for page in pages():
        yield from name_faults(page, words)
        yield from import_faults(page)
        yield from command_faults(page)
        yield from output_faults(page)
        if page.startswith("crates/") or os.path.basename(page) in ("ARCHITECTURE.md", "CHANGING.md", "CLAIMS.md", "GLOSSARY.md", "AUDIT.md", "PROOFS.md", "WALK.md"):
            yield from word_faults(page, words, in_libraries)


# ---- what a definition imports

def closure(starts: List[str]) -> List[str]:
    """The files of specs/ that these CRATE/SPEC import, all the way down."""
    found: Set[str] = set()
    left = [f"crates/{s.split('/')[0]}/specs/{s.split('/')[1]}.antt" for s in starts]
    while left:
        path = left.pop()
        if path not in found:
            found.add(path)
            named = re.findall(r"Rattle\.(resolv[eo]\w*)\.specs\.(\w+)", read(path))
            left += [p for c, m in named for p in [f"crates/{c}/specs/{m}.antt"] if os.path.exists(os.path.join(ROOT, p))]
    return sorted(found)


def main() -> int:
    """The command line."""
    if sys.argv[1:2] == ["--closure"]:
        total = 0
        for path in closure(sys.argv[2:]):
            count = read(path).count("\n")
            total += count
            print(f"{count:5} {path}")
        print(f"{total:5} lines in {len(closure(sys.argv[2:]))} files")
        return 0
    found = sorted(set(faults()))
    for fault in found:
        print(fault)
    print(f"{len(pages())} pages, {len(found)} faults")
    return 1 if found else 0


if __name__ == "__main__":
    sys.exit(main())
