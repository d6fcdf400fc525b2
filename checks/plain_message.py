"""The conflict graph of some clauses of the plain search and its message, as docs/MESSAGES.md describes them; plain and slow.

`message(facts, conflict, solver)` returns the lines of the message.
"""
from __future__ import annotations

from dataclasses import dataclass, field
from itertools import groupby
from typing import Iterable, Optional, Union

from plain_rules import Alternatives, Clause, Digit, Excluded, Facts, Gate, Limit, Locked, Need, Outside, Parent, Rule
from plain_rules import Shared
from plain_solver import Solver
from tools.texts import OutsideAtom, SharedAtom, Spec, Version

UNRESOLVED = "no candidate"
# A node: the root (None), the unresolved node, a version, or a reason in a list of one.
Node = Union[None, str, Version, tuple[str]]


@dataclass(frozen=True)
class Cause:
    """Why an edge isn't a need's: `locked`, `limit`, `instances` or `excluded`, with the locked version or the limit's SPEC."""

    kind: str
    of: Union[None, Version, Spec] = None


@dataclass(frozen=True)
class Edge:
    """An edge by the numbers of its nodes, with the alternatives of a need or a cause."""

    source: int
    target: int
    label: Union[Alternatives, Cause]

    @property
    def need(self) -> Optional[Alternatives]:
        """The alternatives of a need's edge."""
        return None if isinstance(self.label, Cause) else self.label


@dataclass
class Graph:
    """Nodes in their order, and edges in the order in which they were added."""

    nodes: list[Node] = field(default_factory=lambda: [None, UNRESOLVED])
    edges: list[Edge] = field(default_factory=list)

    def node(self, node: Node) -> int:
        """The number of a node, which is added where it is new."""
        if node not in self.nodes:
            self.nodes.append(node)
        return self.nodes.index(node)

    def add(self, source: Node, target: Node, label: Union[Alternatives, Cause]) -> None:
        """Adds an edge; of a limit's edges with the same ends and SPEC only the first."""
        edge = Edge(self.node(source), self.node(target), label)
        if not (isinstance(label, Cause) and label.kind == "limit" and edge in self.edges):
            self.edges.append(edge)

    def out(self, node: int) -> list[Edge]:
        """The edges from a node, newest first."""
        return [edge for edge in reversed(self.edges) if edge.source == node]

    def into(self, node: int) -> list[Edge]:
        """The edges to a node, newest first."""
        return [edge for edge in reversed(self.edges) if edge.target == node]

    def remove_unused(self) -> None:
        """Without an edge to it the unresolved node is removed, and the last node takes its number."""
        if self.into(1):
            return
        last = len(self.nodes) - 1
        self.nodes[1] = self.nodes[last]
        self.nodes.pop()
        move = lambda node: 1 if node == last else node
        self.edges = [Edge(move(edge.source), move(edge.target), edge.label) for edge in self.edges]

    def post_order(self) -> list[int]:
        """From the root: the top of a stack, when first seen, pushes all undiscovered neighbours; when met again it is given."""
        stack, seen, given = [0], set(), []
        while stack:
            node = stack[-1]
            if node not in seen:
                seen.add(node)
                stack += [edge.target for edge in self.out(node) if edge.target not in seen]
            else:
                stack.pop()
                if node not in given:
                    given.append(node)
        return given


# ---- from clauses to the graph


def flattened(causes: list[Clause], seen: Optional[set[Clause]] = None) -> list[Clause]:
    """The conflict's clauses: a learnt one is replaced at its place by its causes in that same order, each once."""
    seen = set() if seen is None else seen
    found = []
    for clause in causes:
        if clause not in seen:
            seen.add(clause)
            found += [clause] if clause.rule else flattened(clause.causes, seen)
    return found


def graph_of(facts: Facts, conflict: list[Clause], solver: Solver) -> Graph:
    """The graph of a conflict's causes, clause by clause."""
    graph = Graph()
    rules = [clause.rule for clause in flattened(conflict)]
    instances: dict[str, Version] = {}
    for rule in rules:
        if isinstance(rule, Need):
            add_need(graph, facts, rule.parent, rule.alternatives)
        elif isinstance(rule, Shared):
            for parent in requirers(rules, rule, solver):
                add_need(graph, facts, parent, rule.alternatives)
        elif isinstance(rule, Excluded):
            graph.add(rule.version, (rule.word,), Cause("excluded"))
        elif isinstance(rule, Locked):
            graph.add(None, rule.barred, Cause("locked", rule.locked))
        elif isinstance(rule, Digit):
            graph.node(rule.version)
            before = instances.get(rule.version.package)
            if before is not None:
                graph.add(before, rule.version, Cause("instances"))
            instances[rule.version.package] = rule.version
        elif isinstance(rule, (Limit, Outside)):
            add_limit(graph, rules, rule, solver)
    graph.remove_unused()
    return graph


def add_need(graph: Graph, facts: Facts, parent: Parent, alternatives: Alternatives) -> None:
    """From the parent to each sorted candidate, or to the unresolved node where there is none."""
    graph.node(parent)
    for target in facts.sorted(alternatives) or [UNRESOLVED]:
        graph.add(parent, target, alternatives)


def requirers(rules: list[Rule], shared: Shared, solver: Solver) -> list[Version]:
    """Those whose gate clause is in the conflict, else the one that set the gate."""
    found = [rule.parent for rule in rules if isinstance(rule, Gate) and rule.alternatives == shared.alternatives]
    if found:
        return found
    entry = solver.entry_of.get(SharedAtom(shared.alternatives))
    is_set = entry is not None and entry.clause is not None and isinstance(entry.clause.rule, Gate)
    return [entry.clause.rule.parent] if is_set else []


def add_limit(graph: Graph, rules: list[Rule], rule: Union[Limit, Outside], solver: Solver) -> None:
    """From the parent to the barred version; a half of the shared form is joined with each other half of its helper."""
    if isinstance(rule, Limit) and rule.barred is not None:
        graph.add(rule.parent, rule.barred, Cause("limit", rule.spec))
        return
    for half in other_halves(rules, rule, solver):
        limit, outside = (half, rule) if isinstance(rule, Outside) else (rule, half)
        graph.add(limit.parent, outside.version, Cause("limit", rule.spec))


def other_halves(rules: list[Rule], rule: Union[Limit, Outside], solver: Solver) -> list[Union[Limit, Outside]]:
    """Those in the conflict, else the one that set the helper."""
    kind = Limit if isinstance(rule, Outside) else Outside
    entry = solver.entry_of.get(OutsideAtom(rule.spec))
    reasons = [entry.clause.rule] if entry is not None and entry.clause is not None else []
    is_half = lambda each: isinstance(each, kind) and each.spec == rule.spec and getattr(each, "barred", None) is None
    return [each for each in rules if is_half(each)] or [each for each in reasons if is_half(each)]


# ---- what can be installed, what is missing, what is merged


Run = tuple[Alternatives, list[int]]


def runs(edges: Iterable[Edge]) -> list[Run]:
    """Stretches of neighbouring edges with one need, each with its targets."""
    needs = [edge for edge in edges if edge.need is not None]
    return [(need, [edge.target for edge in group]) for need, group in groupby(needs, key=lambda edge: edge.need)]


def has_conflict(graph: Graph, node: int) -> bool:
    """Whether an edge that is no need's leaves the node."""
    return any(edge.need is None for edge in graph.out(node))


def installable(graph: Graph) -> set[int]:
    """In post-order: not unresolved, not a reason, no outgoing conflict edge, and each run has an installable target."""
    found: set[int] = set()
    for node in graph.post_order():
        is_reason = any(edge.label == Cause("excluded") for edge in graph.into(node))
        if graph.nodes[node] == UNRESOLVED or is_reason or has_conflict(graph, node):
            continue
        if all(any(target in found for target in targets) for _, targets in runs(graph.out(node))):
            found.add(node)
    return found


def missing(graph: Graph) -> set[int]:
    """The unresolved node, and in post-order nodes without outgoing conflict edge with a run of missing targets alone."""
    if UNRESOLVED not in graph.nodes:
        return set()
    found = {graph.nodes.index(UNRESOLVED)}
    for node in graph.post_order():
        if has_conflict(graph, node):
            continue
        if any(all(target in found for target in targets) for _, targets in runs(graph.out(node))):
            found.add(node)
    return found


def merged(graph: Graph) -> dict[int, list[int]]:
    """Versions of one name with equal sorted neighbours on both sides, each with its need; two or more, in node order."""
    groups: dict[object, list[int]] = {}
    for number, node in enumerate(graph.nodes):
        if isinstance(node, Version):
            before = sorted((str(edge.need), edge.source) for edge in graph.into(number))
            after = sorted((str(edge.need), edge.target) for edge in graph.out(number))
            groups.setdefault((node.package, str(before), str(after)), []).append(number)
    return {number: group for group in groups.values() if len(group) > 1 for number in group}


# ---- the text


def span_text(spec: Spec) -> str:
    """`NAME SPAN`, where any version is `*`."""
    return f"{spec} *" if spec.span is None else str(spec)


def need_text(need: Alternatives) -> str:
    """The alternatives with their spans."""
    return " | ".join(span_text(spec) for spec in need)


@dataclass(frozen=True)
class Place:
    """A place in a tree: for each level whether it is the last one, and the versions above."""

    levels: tuple[bool, ...]
    above: tuple[int, ...]

    def below(self, is_last: bool, node: Optional[int] = None) -> Place:
        """One level deeper."""
        return Place((*self.levels, is_last), self.above if node is None else (*self.above, node))


def indent(levels: tuple[bool, ...], has_top: bool) -> str:
    """`├─ ` or `└─ ` at the deepest level, above it `│  ` or spaces; without a top indent the first level has none."""
    signs = ["   " if is_last else "│  " for is_last in levels[:-1]] + ["└─ " if levels[-1] else "├─ "]
    return "".join(signs if has_top else signs[1:])


class Tree:
    """Writes one tree: a stack of runs and versions, taken from its end."""

    def __init__(self, graph: Graph, has_top: bool) -> None:
        self.graph, self.has_top = graph, has_top
        self.installable, self.merged = installable(graph), merged(graph)
        self.told: set[int] = set()
        self.lines: list[str] = []
        self.stack: list[tuple[Union[Run, int], Place]] = []

    def write(self, edges: list[Edge]) -> list[str]:
        """The lines of the tree of these edges of the root."""
        self.push(self.ordered(edges), Place((), ()))
        while self.stack:
            item, place = self.stack.pop()
            if isinstance(item, int):
                self.tell_version(item, place)
            else:
                self.tell_run(*item, place)
        return self.lines

    def ordered(self, edges: Iterable[Edge]) -> list[Run]:
        """The runs in order, those with an installable target after the others."""
        return sorted(runs(edges), key=lambda run: any(target in self.installable for target in run[1]))

    def push(self, items: list, place: Place, node: Optional[int] = None) -> None:
        """Pushes items one level deeper; the first has the sign of a last one."""
        for number, item in enumerate(items):
            self.stack.append((item, place.below(number == 0, node)))

    def line(self, place: Place, text: str) -> None:
        """Writes a line."""
        self.lines.append(indent(place.levels, self.has_top) + text)

    def tell_run(self, need: Alternatives, targets: list[int], place: Place) -> None:
        """The line of a run; below it are the targets that can be installed, or else all that are versions."""
        at_top, text = len(place.levels) == 1, need_text(need)
        can = [target for target in targets if target in self.installable]
        if len(targets) == 1 and self.graph.nodes[targets[0]] == UNRESOLVED:
            none = f"No candidates were found for {text}."
            self.line(place, none if at_top else f"{text}, for which no candidates were found.")
            return
        middle = " " if at_top else ", which "
        if can:
            self.line(place, f"{text}{middle}can be installed with any of the following options:")
        else:
            self.line(place, f"{text}{middle}cannot be installed because there are no viable options:")
        self.push(self.each_once(can or targets), place)

    def each_once(self, targets: list[int]) -> list[int]:
        """The targets that are versions; of merged ones only the first."""
        kept: list[int] = []
        passed: set[int] = set()
        for target in targets:
            if isinstance(self.graph.nodes[target], Version) and target not in passed:
                passed.update(self.merged.get(target, ()))
                kept.append(target)
        return kept

    def tell_version(self, node: int, place: Place) -> None:
        """The line of a version, unless it was written as part of a merged one, or is below itself."""
        if node in self.told or node in place.above:
            return
        self.told.update(self.merged.get(node, ()))
        text = self.versions_text(self.merged.get(node, [node]))
        edges = self.graph.out(node)
        causes = [edge.label for edge in edges if edge.need is None]
        words = [self.graph.nodes[edge.target][0] for edge in edges if edge.label == Cause("excluded")]
        limits = [span_text(cause.of) for cause in causes if cause.kind == "limit"]
        if words:
            self.line(place, f"{text} is excluded because {words[0]}")
        elif not edges:
            self.line(place, text)
        elif Cause("instances") in causes:
            self.line(place, f"{text}, which conflicts with the versions reported above.")
        elif limits:
            self.line(place, f"{text} would constrain")
            each = [limit for limit, _ in groupby(limits)]
            for number, limit in enumerate(each, 1):
                deeper = place.below(number == len(each))
                self.line(deeper, f"{limit}, which conflicts with any installable versions previously reported")
        else:
            self.line(place, f"{text} would require")
            self.push(self.ordered(edges), place, node)

    def versions_text(self, nodes: list[int]) -> str:
        """`NAME V`, and ` | V` for each further one."""
        versions = [self.graph.nodes[node] for node in nodes]
        return f"{versions[0].package} {' | '.join(str(version.number) for version in versions)}"


def message_of(graph: Graph) -> list[str]:
    """First the tree of what is missing; then, if others remain, a heading, their tree, and the root's limits and locks."""
    lacks = missing(graph)
    edges = graph.out(0)
    first = [edge for edge in edges if edge.target in lacks]
    others = [edge for edge in edges if edge.target not in lacks]
    lines = Tree(graph, False).write(first)
    if not others:
        return lines
    lines += ["The following packages are incompatible", *Tree(graph, True).write(others)]
    for number, edge in enumerate(edges, 1):
        sign = indent((number == len(edges),), True)
        if isinstance(edge.label, Cause) and edge.label.kind == "limit":
            lines.append(f"{sign}the constraint {span_text(edge.label.of)} cannot be fulfilled")
        elif isinstance(edge.label, Cause):
            locked = f"{edge.label.of.package} {edge.label.of.number}"
            lines.append(f"{sign}{locked} is locked, but another version is required as reported above")
    return lines


def message(facts: Facts, conflict: list[Clause], solver: Solver) -> list[str]:
    """The message of a conflict."""
    return message_of(graph_of(facts, conflict, solver))
