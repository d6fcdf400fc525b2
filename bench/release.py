"""A Debian release as problems, by the lists that this machine's apt has: the whole index, or what a package reaches."""
import functools
import os
import sys

sys.path.insert(0, os.path.dirname(os.path.dirname(os.path.abspath(__file__))))

from problem import Problem, Rules
from tools import debian
from tools.catalogue import LimitsLine, NeedsLine, VersionLine, catalogue_text, request_text


class Written(Problem):
    """A problem whose texts are those that the importer wrote."""

    texts = None

    def catalogue(self):
        """With its dictionary."""
        return self.texts[0]

    def request(self, with_wishes=True):
        """As the importer orders its lines."""
        lines = self.texts[1].splitlines(keepends=True)
        return "".join(line for line in lines if with_wishes or not line.startswith("wish "))


@functools.cache
def universe():
    """The packages of the machine's architecture in all lists; None where there are none."""
    try:
        return debian.load_universe(debian.apt_lists(), debian.native_architecture())[0]
    except debian.Failure:
        return None


def alternatives_of(specs):
    """SPECs with their bounds."""
    return [(spec.package, *spec.bounds()) for spec in specs]


def fill(rules, line):
    """Adds a line; the conditions of Debian's are one SPEC."""
    if isinstance(line, NeedsLine):
        rules.needs.append((alternatives_of(line.alternatives), line.condition and alternatives_of([line.condition])[0]))
    elif isinstance(line, LimitsLine):
        rules.limits += alternatives_of([line.spec])


def problem_of(names, root):
    """The packages of these names, with the root asked for and what it recommends wished for."""
    catalogue = debian.draft_of(universe(), names, False).catalogue()
    request = debian.request_of(universe(), [(root, "")])
    p, rules = Written(), Rules()
    for line in catalogue.lines:
        if isinstance(line, VersionLine):
            p.version(*line.version)
            rules = p.rules[tuple(line.version)]
        else:
            fill(rules, line)
    for line in request.lines:
        fill(p.asked, line)
    p.wished = [tuple(line.version) for line in request.lines if not isinstance(line, NeedsLine)]
    p.texts = catalogue_text(catalogue).decode(), request_text(request).decode()
    return p


def whole(root, _seed):
    """Every package of the lists."""
    return problem_of([name for name in universe().records if universe().package(name)], root)


def closure(root, _seed):
    """What the root and what it recommends reach over needs."""
    return problem_of(universe().reach([root, *debian.recommended(universe(), root, "")]), root)
