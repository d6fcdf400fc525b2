"""The conflict graph of a refusal's steps, and its drawing as SVG.

Nodes are the request, versions, locks and reasons; an edge means that one needs another, or conflicts with it. Versions
of one package with the same edges are one node. It is drawn for people: the proof is in the steps.
"""
from __future__ import annotations

from dataclasses import dataclass, field
from html import escape
from typing import Union

from tools import texts
from tools.bundle import Bundle
from tools.catalogue import line_text
from tools.words import Spec, Version, visible

MOST_NODES = 60
LABELLED_EDGES = 24
LETTER, ROW, BOX, GAP, MARGIN = 7.3, 92, 30, 26, 16

# What a node is of: a version, or a word and a text (`request`, `none`, `mark`).
Key = Union[Version, tuple[str, str]]
REQUEST: Key = ("request", "the request")


@dataclass(frozen=True)
class Edge:
    """How a node is related to another one: `needs`, `bars`, or `one` for two versions of one package."""

    kind: str
    first: Key
    second: Key
    label: str


@dataclass
class Node:
    """A node with its place in the drawing."""

    key: Key
    label: str
    members: list[Key] = field(default_factory=list)
    x: float = 0
    y: float = 0

    @property
    def width(self) -> float:
        """How wide its box is."""
        return LETTER * len(self.label) + 20


@dataclass
class Graph:
    """Nodes in the order in which they were first named, edges between them, and how many nodes were left out."""

    nodes: list[Node]
    edges: list[Edge]
    left: int = 0


# ---- from steps to edges


class Edges:
    """Collects the edges of steps, each once."""

    def __init__(self, bundle: Bundle) -> None:
        self.bundle, self.people = bundle, bundle.people
        self.found: dict[Edge, None] = {}
        self.limits: dict[Spec, list[Key]] = {}
        self.outside: dict[Spec, list[Version]] = {}
        self.digits: dict[str, list[Version]] = {}

    def add(self, kind: str, first: Key, second: Key, label: str) -> None:
        """An edge."""
        self.found.setdefault(Edge(kind, first, second, label))

    def step(self, step: texts.Step) -> None:
        """The edges of a step; those of limits and of places are added at the end."""
        if isinstance(step, texts.NeedStep):
            self.need(step.place or REQUEST, self.bundle.line(step.place, step.line).line.alternatives)
        elif isinstance(step, texts.GateStep):
            self.need(step.version, self.bundle.line(step.version, step.line).line.alternatives)
        elif isinstance(step, texts.BarStep):
            spec = self.bundle.line(step.place, step.line).line.spec
            self.add("bars", step.place or REQUEST, step.version, f"limits {self.people.spec_text(spec)}")
        elif isinstance(step, texts.LimitStep):
            spec = self.bundle.line(step.place, step.line).line.spec
            self.limits.setdefault(spec, []).append(step.place or REQUEST)
        elif isinstance(step, texts.OutsideStep):
            self.outside.setdefault(step.spec, []).append(step.version)
        elif isinstance(step, texts.DigitStep):
            self.digits.setdefault(step.version.package, []).append(step.version)
        elif isinstance(step, (texts.LockStep, texts.ExcludeStep, texts.UnknownStep)):
            self.mark(step)

    def need(self, first: Key, alternatives: tuple[Spec, ...]) -> None:
        """What a line needs."""
        text = self.people.specs(alternatives)
        matches = [v for spec in alternatives for v in self.bundle.catalogue.matches(spec)]
        for version in dict.fromkeys(matches):
            self.add("needs", first, version, f"needs {text}")
        if not matches:
            self.add("needs", first, ("none", f"no version for {text}"), f"needs {text}")

    def mark(self, step: Union[texts.LockStep, texts.ExcludeStep, texts.UnknownStep]) -> None:
        """A lock or a reason that bars a version."""
        placed = self.bundle.catalogue.placed[step.line - 1]
        label = line_text(placed.line, self.people)
        barred = step.version if isinstance(step, texts.LockStep) else placed.owner or placed.line.version
        self.add("bars", ("mark", f"line {step.line}: {label}"), barred, label)

    def finish(self) -> list[Edge]:
        """All edges."""
        for spec, places in self.limits.items():
            for place in dict.fromkeys(places):
                for version in dict.fromkeys(self.outside.get(spec, ())):
                    self.add("bars", place, version, f"limits {self.people.spec_text(spec)}")
        for package, versions in self.digits.items():
            told = list(dict.fromkeys(versions))
            for first, second in zip(told, told[1:]):
                self.add("one", first, second, f"one version of {self.people.name_text(package)}")
        return list(self.found)


def conflict_graph(bundle: Bundle) -> Graph:
    """The graph of a refused report's steps."""
    edges = Edges(bundle)
    for step in bundle.report.steps:
        edges.step(step)
    return cut(merged(edges.finish(), bundle))


def merged(edges: list[Edge], bundle: Bundle) -> Graph:
    """The graph with versions of one package that have the same edges as one node."""
    keys = list(dict.fromkeys([REQUEST, *(key for edge in edges for key in (edge.first, edge.second))]))
    marks: dict[Key, set] = {key: set() for key in keys}
    for edge in edges:
        if edge.kind != "one":
            marks[edge.first].add((edge.kind, edge.second, edge.label))
            marks[edge.second].add((edge.kind, edge.label, "to", edge.first))
    groups: dict[object, Node] = {}
    node_of: dict[Key, Node] = {}
    for key in keys:
        group = (key.package, frozenset(marks[key])) if isinstance(key, Version) else key
        node = groups.setdefault(group, Node(key, ""))
        node.members.append(key)
        node_of[key] = node
    for node in groups.values():
        node.label = node_label(node, bundle)
    joined = {Edge(e.kind, node_of[e.first].key, node_of[e.second].key, e.label): None for e in edges}
    return Graph(list(groups.values()), [edge for edge in joined if edge.first != edge.second])


def node_label(node: Node, bundle: Bundle) -> str:
    """The words in a node's box."""
    if not isinstance(node.key, Version):
        return shortened(node.key[1])
    numbers = [bundle.people.number_text(*version) for version in node.members]
    shown = ", ".join(numbers[:4]) + (f" and {len(numbers) - 4} more" if len(numbers) > 4 else "")
    return shortened(f"{bundle.people.name_text(node.key.package)} {shown}")


def shortened(text: str) -> str:
    """At most 48 signs."""
    text = visible(text)
    return text if len(text) <= 48 else text[:46] + ".."


def cut(graph: Graph) -> Graph:
    """The first nodes alone, where there are too many to look at."""
    kept = graph.nodes[:MOST_NODES]
    keys = {node.key for node in kept}
    edges = [edge for edge in graph.edges if edge.first in keys and edge.second in keys]
    return Graph(kept, edges, len(graph.nodes) - len(kept))


# ---- drawing


def depths(graph: Graph) -> dict[Key, int]:
    """How many needs lead to a node from the request; what only bars is a row above what it bars."""
    found: dict[Key, int] = {REQUEST: 0}
    waiting = [REQUEST]
    for key in waiting:
        for edge in graph.edges:
            if edge.kind == "needs" and edge.first == key and edge.second not in found:
                found[edge.second] = found[key] + 1
                waiting.append(edge.second)
    for edge in graph.edges:
        if edge.kind == "bars" and edge.first not in found:
            found[edge.first] = max(0, found.get(edge.second, 1) - 1)
    return {node.key: found.get(node.key, 1) for node in graph.nodes}


def place_nodes(graph: Graph) -> tuple[float, float]:
    """Gives each node its place, row by row, below those that lead to it; answers width and height."""
    depth, by_key = depths(graph), {node.key: node for node in graph.nodes}
    widest = 0.0
    for row in range(max(depth.values()) + 1):
        nodes = [node for node in graph.nodes if depth[node.key] == row]
        nodes.sort(key=lambda node: mean([by_key[e.first].x for e in graph.edges if is_need_of(e, node)]))
        at = float(MARGIN)
        for node in nodes:
            node.x, node.y = at + node.width / 2, MARGIN + row * ROW + BOX / 2
            at += node.width + GAP
        widest = max(widest, at - GAP + MARGIN)
    for row in range(max(depth.values()) + 1):
        nodes = [node for node in graph.nodes if depth[node.key] == row]
        if nodes:
            last = max(node.x + node.width / 2 for node in nodes)
            spare = (widest - MARGIN - last) / 2
            for node in nodes:
                node.x += spare
    return widest, 2 * MARGIN + max(depth.values()) * ROW + BOX


def is_need_of(edge: Edge, node: Node) -> bool:
    """Whether something needs the node by this edge."""
    return edge.kind == "needs" and edge.second == node.key


def mean(numbers: list[float]) -> float:
    """The mean, or 0 of nothing."""
    return sum(numbers) / len(numbers) if numbers else 0.0


def is_long(first: Node, second: Node) -> bool:
    """Whether there are rows between the two."""
    return abs(first.y - second.y) > 1.5 * ROW


def edge_path(edge: Edge, first: Node, second: Node, aside: float) -> tuple[str, float, float]:
    """The path of an edge, and the position of its label; a long edge goes round the rows between, at `aside`."""
    if first.y == second.y:
        side = 1 if first.x < second.x else -1
        start, end = first.x + side * first.width / 2, second.x - side * second.width / 2
        low = first.y + (0 if abs(end - start) < 2 * GAP else BOX * 1.4)
        path = f"M{start:.1f} {first.y:.1f} Q{(start + end) / 2:.1f} {low:.1f} {end:.1f} {second.y:.1f}"
        return path, (start + end) / 2, first.y + BOX * 0.9
    down, shift = (1 if first.y < second.y else -1), bend(edge)
    top, bottom = first.y + down * BOX / 2, second.y - down * BOX / 2
    middle, start, end = (top + bottom) / 2, first.x + shift, second.x + shift
    if is_long(first, second):
        turn = down * ROW * 0.6
        path = f"M{start:.1f} {top:.1f}"
        path += f" C{start:.1f} {top + turn:.1f} {aside:.1f} {top + turn / 2:.1f} {aside:.1f} {middle:.1f}"
        path += f" C{aside:.1f} {bottom - turn / 2:.1f} {end:.1f} {bottom - turn:.1f} {end:.1f} {bottom:.1f}"
        return path, aside, middle
    path = f"M{start:.1f} {top:.1f} C{start:.1f} {middle:.1f} {end:.1f} {middle:.1f} {end:.1f} {bottom:.1f}"
    return path, (start + end) / 2, middle + shift / 2


def bend(edge: Edge) -> float:
    """How far beside the middle of its nodes an edge begins and ends."""
    return 14 if edge.kind == "bars" else 0


def edge_svg(drawn: Drawn, with_label: bool) -> str:
    """An edge, with its label where there is room for it."""
    edge, first, second = drawn.edge, drawn.first, drawn.second
    path, x, y = edge_path(edge, first, second, drawn.aside)
    title = f"<title>{escape(visible(f'{first.label} {edge.label}: {second.label}'))}</title>"
    words = escape(shortened(edge.label))
    label = f'<text class="edge" x="{x:.1f}" y="{y + 4:.1f}">{words}</text>' if with_label else ""
    return f'<path class="{edge.kind}" d="{path}">{title}</path>{label}'


@dataclass
class Drawn:
    """An edge with its nodes, and how far aside it goes where it is long."""

    edge: Edge
    first: Node
    second: Node
    aside: float = 0


def place_edges(graph: Graph) -> list[Drawn]:
    """The edges with their nodes; long ones at the right of the rows between, one beside the other."""
    by_key = {node.key: node for node in graph.nodes}
    drawn = [Drawn(edge, by_key[edge.first], by_key[edge.second]) for edge in graph.edges]
    count = 0
    for each in drawn:
        if is_long(each.first, each.second):
            low, high = sorted((each.first.y, each.second.y))
            rights = [node.x + node.width / 2 for node in graph.nodes if low < node.y < high]
            label = LETTER * len(shortened(each.edge.label)) / 2 if len(graph.edges) <= LABELLED_EDGES else 0
            each.aside = max(rights, default=0) + GAP + label + 12 * count
            count += 1
    return drawn


def node_svg(node: Node) -> str:
    """A node's box."""
    kind = "version" if isinstance(node.key, Version) else node.key[0]
    box = f'x="{node.x - node.width / 2:.1f}" y="{node.y - BOX / 2:.1f}" width="{node.width:.1f}" height="{BOX}" rx="6"'
    return f'<rect class="{kind}" {box}/><text x="{node.x:.1f}" y="{node.y + 4:.1f}">{escape(node.label)}</text>'


def arrowhead(edge: Edge, first: Node, second: Node) -> str:
    """A small triangle where the edge ends."""
    if edge.kind == "one":
        return ""
    if first.y == second.y:
        side = 1 if first.x < second.x else -1
        x, y = second.x - side * second.width / 2, second.y
        points = f"{x:.1f},{y:.1f} {x - side * 8:.1f},{y - 4:.1f} {x - side * 8:.1f},{y + 4:.1f}"
    else:
        down = 1 if first.y < second.y else -1
        x, y = second.x + bend(edge), second.y - down * BOX / 2
        points = f"{x:.1f},{y:.1f} {x - 4:.1f},{y - down * 8:.1f} {x + 4:.1f},{y - down * 8:.1f}"
    return f'<polygon class="{edge.kind}" points="{points}"/>'


def graph_svg(graph: Graph) -> str:
    """The drawing, which needs nothing from outside."""
    width, height = place_nodes(graph)
    drawn = place_edges(graph)
    with_labels = len(drawn) <= LABELLED_EDGES
    room = max((LETTER * len(shortened(each.edge.label)) / 2 for each in drawn), default=0) if with_labels else 0
    width = max([width, *(each.aside + room + MARGIN for each in drawn if each.aside)])
    parts = [edge_svg(each, with_labels) for each in drawn]
    parts += [arrowhead(each.edge, each.first, each.second) for each in drawn] + [node_svg(node) for node in graph.nodes]
    size = f'viewBox="0 0 {width:.0f} {height:.0f}" width="{width:.0f}" height="{height:.0f}"'
    return f'<svg {size} role="img" aria-label="the conflict graph">{"".join(parts)}</svg>'
