"""The cases of crates/resolvo_rows/stdin, as that crate's README describes them."""
import os
from dataclasses import dataclass

from base import TOP

FILE = os.path.join(TOP, "crates/resolvo_rows/stdin")


@dataclass
class Case:
    """A case: its title, the lines of its sections by their names, and its text."""

    title: str
    sections: dict[str, list[str]]
    text: str


def case_of(block: str) -> Case:
    """A case from the text behind its `# `."""
    title, *parts = block.split("\n== ")
    sections = {name: [line for line in lines if line] for name, *lines in (part.split("\n") for part in parts)}
    return Case(title, sections, f"# {block}\n")


def cases() -> list[Case]:
    """The cases of the file."""
    with open(FILE, encoding="utf-8") as file:
        return [case_of(block) for block in file.read().removesuffix("\n").removeprefix("# ").split("\n# ")]


def is_of_seed(case: Case) -> bool:
    """Whether request_pairs.py wrote the case."""
    return case.title.startswith("pair of seed ")
