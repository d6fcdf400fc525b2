"""The views of a report: each takes a bundle and gives what is printed. A view claims nothing beyond the report.

| View | Gives |
|---|---|
| names | the report with real names and versions; `--back` gives the report's bytes |
| message | a refusal's message, in colour on a terminal |
| explain | the lines that a report names, each with its source; `--steps` the proof in sentences |
| tree, why NAME | the entries of an install report, each below the one that it is there for; the way up from one |
| left | why wishes were left out |
| html | one page |
| json | the report for other programs; `--back` gives the report's bytes |
"""
from __future__ import annotations

import os
import sys

from tools.bundle import Bundle, load_catalogue
from tools.dictionary import RealSpelling
from tools.explain import explanation, left_lines, left_out, named_lines, tree_lines, why_lines
from tools.files import Failure, of_file, read_bytes, shown_path
from tools.forms import read_json, report_json
from tools.message import message_line, plain_text, read_sentence, real_text
from tools.page import page
from tools.reports import Install, Refused, report_text
from tools.words import PLAIN, Bad, visible

RED, GREEN, BOLD, PLAIN_INK = "\x1b[31m", "\x1b[32m", "\x1b[1m", "\x1b[0m"


class WrongKind(Exception):
    """A view that this kind of report doesn't have, with the text of the error."""


def use_colour(choice: str) -> bool:
    """Whether to write colours: `auto` does on a terminal, unless NO_COLOR is set to anything."""
    if choice != "auto":
        return choice == "always"
    return sys.stdout.isatty() and not os.environ.get("NO_COLOR") and os.environ.get("TERM") != "dumb"


def lines_bytes(lines: list[str]) -> bytes:
    """Lines for people."""
    return "".join(visible(line) + "\n" for line in lines).encode()


# ---- views


def names(bundle: Bundle) -> bytes:
    """The report with real names and versions."""
    return real_text(bundle.report, bundle.spelling)


def names_back(catalogue_path: str, view_path: str) -> bytes:
    """The bytes of the report whose names view is in the file."""
    dictionary = load_catalogue(catalogue_path).dictionary
    with of_file(view_path):
        return report_text(plain_text(read_bytes(view_path), RealSpelling(dictionary) if dictionary else PLAIN))


def coloured(line: str, original: str) -> str:
    """A line of the message with its colour."""
    try:
        sentence = read_sentence(original)
    except Bad:
        return line
    if sentence.about is None:
        return f"{BOLD}{line}{PLAIN_INK}"
    if sentence.is_against:
        return f"{RED}{line}{PLAIN_INK}"
    return f"{GREEN}{line}{PLAIN_INK}" if "can be installed" in sentence.behind else line


def message(bundle: Bundle, colour: bool) -> bytes:
    """The message of a refusal."""
    report = bundle.report
    if not isinstance(report, Refused):
        raise WrongKind("it is an install report, which has no message")
    if not report.message:
        lines = ["The report has no message. The lines that can't all be obeyed:", *map(str, named_lines(bundle))]
        return lines_bytes(lines)
    lines = [(visible(message_line(line, bundle.people)), line) for line in report.message]
    shown = [coloured(*pair) if colour else pair[0] for pair in lines]
    return "".join(line + "\n" for line in shown).encode()


def explain(bundle: Bundle, with_steps: bool) -> bytes:
    """The report in words."""
    return lines_bytes(explanation(bundle, with_steps))


def need_install(bundle: Bundle) -> Install:
    """The report, if it installs."""
    if not isinstance(bundle.report, Install):
        raise WrongKind("it is a refusal, and nothing is installed (`view message` says why)")
    return bundle.report


def tree(bundle: Bundle) -> bytes:
    """The entries as a tree."""
    need_install(bundle)
    return lines_bytes(tree_lines(bundle))


def why(bundle: Bundle, name: str) -> bytes:
    """Why a package is installed."""
    need_install(bundle)
    lines = why_lines(bundle, name)
    if lines is None:
        raise WrongKind(f"{name} isn't installed")
    return lines_bytes(lines)


def left(bundle: Bundle) -> bytes:
    """Why wishes were left out."""
    out = left_out(need_install(bundle))
    if not out:
        return lines_bytes(["No wish was left out."])
    return lines_bytes([line for each in out for line in left_lines(bundle, each)])


def html(bundle: Bundle) -> bytes:
    """One page."""
    return page(bundle)


def json_view(bundle: Bundle) -> bytes:
    """The report for other programs."""
    return report_json(bundle.report, bundle.dictionary)


def json_back(path: str) -> bytes:
    """The bytes of the report whose JSON is in the file."""
    return report_text(read_json(read_bytes(path), shown_path(path)))


def view_failure(path: str, wrong: WrongKind) -> Failure:
    """A view that the report hasn't is a no."""
    return Failure(path, None, str(wrong), 1)

