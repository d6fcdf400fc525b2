"""A report as one HTML file that loads nothing from outside: every word is escaped, message and steps can be folded."""
from __future__ import annotations

from html import escape
from typing import Iterable

from tools import texts
from tools.bundle import Bundle
from tools.explain import INSTALLED, REFUSED, Branch, Named, Sentences, branch_label, left_lines, left_out
from tools.explain import named_lines, reason_words, tree_of
from tools.graph import conflict_graph, graph_svg
from tools.message import message_line, read_sentence
from tools.reports import Refused
from tools.words import Bad, visible

POLICY = "default-src 'none'; style-src 'unsafe-inline'"
STYLE = """
:root { color-scheme: light dark; --ink: #1d2430; --paper: #fff; --soft: #667; --line: #ccd }
:root { --good: #17703a; --bad: #b3261e; --box: #f4f6fb }
@media (prefers-color-scheme: dark) {
  :root { --ink: #e4e7ee; --paper: #14171d; --soft: #9aa; --line: #3a4152 }
  :root { --good: #6fd08f; --bad: #ff8a80; --box: #1f2531 }
}
body { font: 15px/1.5 system-ui, sans-serif; color: var(--ink); background: var(--paper) }
body { max-width: 70em; margin: 2em auto; padding: 0 1.2em }
h1 { font-size: 1.5em }
summary { cursor: pointer; font-weight: 600; margin: 1.2em 0 .4em }
.good { color: var(--good) } .bad { color: var(--bad) } .soft { color: var(--soft) }
pre, table, ol { font: 13px/1.5 ui-monospace, monospace; overflow-wrap: anywhere }
pre { white-space: pre-wrap; background: var(--box); padding: .8em; border-radius: 6px }
table { border-collapse: collapse }
td { border-top: 1px solid var(--line); padding: .25em .9em .25em 0; vertical-align: top }
ul { list-style: none; padding-left: 1.3em; border-left: 1px solid var(--line) }
.drawing { overflow: auto; background: var(--box); border-radius: 6px }
svg text { font: 12px ui-monospace, monospace; text-anchor: middle; fill: var(--ink) }
svg text.edge { font-size: 10.5px; fill: var(--soft); paint-order: stroke; stroke: var(--box); stroke-width: 4px }
svg rect { fill: var(--paper); stroke: var(--soft) } svg rect.request { stroke-width: 2 }
svg rect.mark, svg rect.none { stroke: var(--bad); stroke-dasharray: 4 3 }
svg path { fill: none; stroke: var(--soft) }
svg path.bars, svg path.one { stroke: var(--bad); stroke-dasharray: 5 4 }
svg polygon { fill: var(--soft) } svg polygon.bars { fill: var(--bad) }
"""


def shown(text: str) -> str:
    """A text for the page: escaped, control characters and stray bytes by their numbers."""
    return escape(visible(text))


def fold(title: str, body: str, is_open: bool = False) -> str:
    """A part that can be folded."""
    return f"<details{' open' if is_open else ''}><summary>{shown(title)}</summary>\n{body}\n</details>\n"


def lines_table(lines: Iterable[Named]) -> str:
    """Named lines with their sources."""
    return table([cell(line.label, True), cell(line.words), cell(line.source or "", True)] for line in lines)


def cell(text: str, is_soft: bool = False) -> str:
    """A cell of a table."""
    return f"<td{' class=soft' if is_soft else ''}>{shown(text)}</td>"


def table(rows: Iterable[list[str]]) -> str:
    """Rows of cells."""
    return f"<table>{''.join('<tr>' + ''.join(cells) + '</tr>' for cells in rows)}</table>"


def message_html(bundle: Bundle) -> str:
    """The message, with colours."""
    return "<pre>" + "\n".join(message_row(line, bundle) for line in bundle.report.message) + "</pre>"


def message_row(line: str, bundle: Bundle) -> str:
    """One line of the message."""
    text = shown(message_line(line, bundle.people))
    try:
        sentence = read_sentence(line)
    except Bad:
        return text
    if sentence.is_against:
        return f"<span class=bad>{text}</span>"
    return f"<span class=good>{text}</span>" if "can be installed" in sentence.behind else text


def steps_html(bundle: Bundle) -> str:
    """The steps as sentences; derived ones lead to those that they rest on."""
    sentences, rows = Sentences(bundle), []
    for number, step in enumerate(bundle.report.steps, 1):
        text = shown(sentences.text(step))
        if isinstance(step, texts.DeriveStep):
            causes = ", ".join(f'<a href="#step-{cause}">{cause}</a>' for cause in dict.fromkeys(step.causes))
            text = f"From {causes}: {shown(sentences.clause(step.literals))}"
        rows.append(f"<li id=step-{number}>{text}</li>")
    return f"<ol>{''.join(rows)}</ol>"


def tree_html(top: Branch, bundle: Bundle) -> str:
    """The entries as nested lists; without recursion, since chains of entries may be long."""
    parts, stack = [], [("close", None)] + [("open", branch) for branch in reversed(top.below)]
    parts.append("<ul>")
    while stack:
        sign, branch = stack.pop()
        if sign == "close":
            parts.append("</ul>" if branch is None else "</ul></li>")
            continue
        parts.append(f"<li>{shown(branch_label(bundle, branch.answer))}")
        if branch.below:
            parts.append("<ul>")
            stack.append(("close", branch))
            stack += [("open", below) for below in reversed(branch.below)]
        else:
            parts.append("</li>")
    return "".join(parts)


def install_parts(bundle: Bundle) -> str:
    """The body of an install report."""
    report = bundle.report
    rows = table([cell(bundle.people.version(e.version)), cell(reason_words(bundle, e), True)] for e in report.entries)
    parts = [f"<h1 class=good>Install</h1><p>{shown(INSTALLED)}</p>"]
    parts.append(fold(f"What is installed: {len(report.entries)}", rows, True))
    parts.append(fold("Why, as a tree", tree_html(tree_of(report), bundle), True))
    out = left_out(report)
    if out:
        body = "".join(f"<pre>{shown_lines(left_lines(bundle, each))}</pre>" for each in out)
        parts.append(fold(f"Wishes that were left out: {len(out)}", body, True))
    return "".join(parts)


def shown_lines(lines: list[str]) -> str:
    """Lines, each escaped."""
    return "\n".join(map(shown, lines))


def refused_parts(bundle: Bundle) -> str:
    """The body of a refusal."""
    parts = [f"<h1 class=bad>Refused</h1><p>{shown(REFUSED)}</p>"]
    if bundle.report.message:
        parts.append(fold("The message", message_html(bundle), True))
    parts.append(fold("The lines that can't all be obeyed", lines_table(named_lines(bundle)), True))
    graph = conflict_graph(bundle)
    note = f"<p class=soft>{graph.left} more nodes aren't drawn.</p>" if graph.left else ""
    legend = "An arrow leads to what is needed, a dashed red one to what can't be installed beside it."
    drawing = f"<div class=drawing>{graph_svg(graph)}</div><p class=soft>{shown(legend)}</p>{note}"
    parts.append(fold("The conflict, drawn", drawing, True))
    return "".join(parts)


def page(bundle: Bundle) -> bytes:
    """The whole file."""
    is_refused = isinstance(bundle.report, Refused)
    body = refused_parts(bundle) if is_refused else install_parts(bundle)
    if bundle.report.steps:
        body += fold(f"The proof: {len(bundle.report.steps)} steps", steps_html(bundle))
    title = "Refused" if is_refused else "Install"
    head = f'<meta charset="utf-8"><meta http-equiv="Content-Security-Policy" content="{POLICY}"><title>{title}</title>'
    text = f'<!DOCTYPE html>\n<html lang="en"><head>{head}<style>{STYLE}</style></head>\n<body>\n{body}</body></html>\n'
    return text.encode()
