#!/usr/bin/env python3
"""Lists definitions and lemmas that nothing cites, and what a file of logic imports without a use.

Usage: checks/unused.py [CRATE ..]     (default: all crates)

A name of specs/ or proofs/ is unused where no source has it but in its own definition: its signature, and the lines that it heads. That
is: no source at all for a public name, and its own file for any other. So a lemma by induction that only cites itself is unused. Names
are compared as words, comments apart, so of two definitions with one name neither is listed while either is cited. What goals, answers
and invariants are named isn't listed, since the prover looks for these names; nor are files `*Example.antt`, which show that a
definition isn't empty. An imported name is unused where its file has it on its `use` lines alone.
Run it with a change that takes code away. Status 1 where anything is unused.
"""
import collections
import glob
import os
import re
import sys

ROOT = os.path.dirname(os.path.dirname(os.path.abspath(__file__)))
SOURCES = ("crates/*/src/**/*.rt", "crates/*/specs/**/*.antt", "crates/*/proofs/**/*.antt")
BY_NAME = ("Answers.antt", "Invariants.antt", "Proof.antt", "Goals.antt")
WORD = re.compile(r"[A-Za-z_][\w'-]*")
COMMENT = re.compile(r"//.*|(?:^|(?<=\s))--(?=\s|$).*", re.M)
TYPE = re.compile(r"^ *pub (?:record|data) ([\w'-]+)", re.M)
SIGNATURE = re.compile(r"^ *(?P<words>(?:(?:abbrev|unfoldable|pub) )*)(?P<name>[\w'-]+) :(?= )", re.M)
HEAD = re.compile(r"^ *([\w'-]+)(?![\w'-]| :)(?:(?!λ|let |≡).)*?(?<= )=(?= |$)", re.M)
USE = re.compile(r"^ *use [^{}\n]*\{(.*)\}$", re.M)
INSIDE = re.compile(r"\s*(?:$|unfolding |[)\]}])")


def indent(line):
    """How far a line is indented."""
    return len(line) - len(line.lstrip(" "))


def own_words(lines, at, name):
    """How often a definition's own lines have its name: its signature, and what it heads or what is indented further."""
    depth, end = indent(lines[at]), at + 1
    head = re.compile(rf" *{re.escape(name)}(?![\w'-])")
    while end < len(lines) and (indent(lines[end]) > depth or INSIDE.match(lines[end]) or head.match(lines[end])):
        end += 1
    return sum(word == name for line in lines[at:end] for word in WORD.findall(line))


def defined(text):
    """The names that a file of logic defines: whether each is public, and how often the file has it inside its own definition."""
    found = {name: [True, 1] for name in TYPE.findall(text)}
    lines = text.split("\n")
    for at, line in enumerate(lines):
        match = SIGNATURE.match(line)
        if match:
            known = found.setdefault(match["name"], [False, 0])
            known[0] |= "pub" in match["words"]
            known[1] += own_words(lines, at, match["name"])
    heads, types = set(HEAD.findall(text)), set(TYPE.findall(text))
    return {name: (public, count) for name, (public, count) in found.items() if name in heads or name in types}


def imported(text):
    """The names that a file of logic imports, and nowhere uses. An operator is used where each of its signs is somewhere."""
    body = USE.sub("", text)
    words = set(WORD.findall(body))
    for names in USE.findall(text):
        for name in (part.split(" as ")[-1].strip() for part in names.split(",")):
            if not (name in words if WORD.fullmatch(name) else all(part in body for part in name.split("◌"))):
                yield name


def main():
    words, own, places, imports = collections.Counter(), collections.Counter(), [], []
    for path in (p for form in SOURCES for p in sorted(glob.glob(os.path.join(ROOT, form), recursive=True))):
        with open(path, encoding="utf-8") as file:
            text = COMMENT.sub("", file.read())
        here = collections.Counter(WORD.findall(text))
        words.update(here)
        shown = os.path.relpath(path, ROOT)
        if path.endswith(".antt"):
            imports += [(shown, name) for name in imported(text)]
        if path.endswith(".antt") and not path.endswith("Example.antt") and os.path.basename(path) not in BY_NAME:
            for name, (public, count) in defined(text).items():
                own[name] += count if public else 0
                places.append((shown, name, public, here[name] <= count))
    wanted = sys.argv[1:]
    is_wanted = lambda path: not wanted or path.split("/")[1] in wanted
    unused = [(path, name) for path, name, public, alone in places if (words[name] <= own[name] if public else alone) and is_wanted(path)]
    imports = [(path, name) for path, name in imports if is_wanted(path)]
    for path, name in unused:
        print(f"{path}: {name}")
    for path, name in imports:
        print(f"{path}: use {name}")
    print(f"{len(places)} names, {len(unused)} unused; {len(imports)} imports unused")
    return 1 if unused or imports else 0


if __name__ == "__main__":
    sys.exit(main())
