"""A problem as values: versions with what they need and limit, and what is asked for. It becomes our texts, clauses, or a testcase of
libsolv. A SPEC is (package, low, high), without `high` itself; a need is alternatives, with the one SPEC of its condition or None."""
from dataclasses import dataclass, field

TOP = 1 << 32


@dataclass
class Rules:
    """What a version needs and limits, or the request."""

    needs: list = field(default_factory=list)
    limits: list = field(default_factory=list)

    def lines(self):
        """As our texts write them."""
        for alternatives, condition in self.needs:
            behind = f" if {spelled(condition)}" if condition else ""
            yield "needs " + " | ".join(spelled(spec) for spec in alternatives) + behind
        for spec in self.limits:
            yield "limits " + spelled(spec)


class Problem:
    """Versions by their package and number, in the order of the text."""

    def __init__(self):
        self.rules = {}  # by version, which is a package and a number
        self.numbers = {}  # of each package, as listed
        self.asked, self.wished = Rules(), []
        self.barred, self.locked, self.favoured = {}, {}, {}

    def version(self, name, number, *needs, under=(), limits=()):
        """Each of `needs` is alternatives; `under` has alternatives with the SPEC of their condition."""
        rules = Rules([(alternatives, None) for alternatives in needs] + list(under), list(limits))
        self.rules[name, number] = rules
        self.numbers.setdefault(name, []).append(number)

    def ask(self, *alternatives, under=None):
        """A need of the request."""
        self.asked.needs.append((list(alternatives), under))

    def usable(self, name, number):
        """Whether no mark bars a version."""
        return (name, number) not in self.barred and self.locked.get(name, number) == number

    def matches(self, spec):
        """The listed versions of a SPEC."""
        name, low, high = spec
        return [(name, number) for number in self.numbers.get(name, ()) if low <= number < high]

    def catalogue(self):
        """Our text."""
        lines = []
        for (name, number), rules in self.rules.items():
            lines.append(f"version {name} {number}")
            lines += rules.lines()
            if self.barred.get((name, number)) == "unknown":
                lines.append("unknown nothing-known")
        lines += [f"lock {name} {number}" for name, number in self.locked.items()]
        lines += [f"favour {name} {number}" for name, number in self.favoured.items()]
        lines += [f"exclude {name} {number} withdrawn" for (name, number), why in self.barred.items() if why == "exclude"]
        return "".join(line + "\n" for line in lines)

    def request(self, with_wishes=True):
        """Our text."""
        wishes = [f"wish {name} {number}" for name, number in self.wished if with_wishes]
        return "".join(line + "\n" for line in [*self.asked.lines(), *wishes])


def spelled(spec):
    """As our texts write a SPEC."""
    name, low, high = spec
    if (low, high) == (0, TOP):
        return name
    return f"{name} {low}" if high == low + 1 else f"{name} {low}..{high}"


def any_of(name):
    """The SPEC of all versions."""
    return name, 0, TOP


def one(name, number):
    """The SPEC of one version."""
    return name, number, number + 1


# ---- clauses


class Clauses:
    """DIMACS: a variable a version, and digits that keep one version a package. Wishes have no word there."""

    def __init__(self, problem):
        self.problem, self.lines = problem, []
        self.variable = {version: count for count, version in enumerate(problem.rules, 1)}
        self.count, self.met = len(self.variable), {}
        for name, numbers in problem.numbers.items():
            self.at_most_one(name, numbers)
        for version, rules in problem.rules.items():
            if not problem.usable(*version):
                self.add(-self.variable[version])
            self.add_rules(rules, version)
        self.add_rules(problem.asked, None)

    def add(self, *literals):
        """A clause."""
        self.lines.append(" ".join(map(str, literals)) + " 0\n")

    def at_most_one(self, name, numbers):
        """Each version has digits of its own, so no two are true."""
        digits = (len(numbers) - 1).bit_length()
        for place, number in enumerate(numbers):
            for digit in range(digits):
                helper = self.count + digit + 1
                self.add(-self.variable[name, number], helper if place >> digit & 1 else -helper)
        self.count += digits

    def matches(self, spec):
        """The variables of a SPEC."""
        if spec not in self.met:
            self.met[spec] = [self.variable[version] for version in self.problem.matches(spec)]
        return self.met[spec]

    def add_rules(self, rules, owner):
        """The clauses of a version, or of the request."""
        parent = [-self.variable[owner]] if owner else []
        for alternatives, condition in rules.needs:
            found = [literal for spec in alternatives for literal in self.matches(spec)]
            for met in [None] if condition is None else self.matches(condition):
                self.add(*parent, *([-met] if met else []), *found)
        for name, low, high in rules.limits:
            for number in [owner[1]] if owner and owner[0] == name else self.problem.numbers.get(name, ()):
                if not low <= number < high:
                    self.add(*parent, *([] if (name, number) == owner else [-self.variable[name, number]]))

    def text(self):
        """The whole text."""
        return f"p cnf {self.count} {len(self.lines)}\n" + "".join(self.lines)


# ---- a testcase of libsolv


def relation(spec):
    """A SPEC as libsolv writes it; both of two bounds are one word."""
    name, low, high = spec
    if (low, high) == (0, TOP):
        return name
    if high == low + 1:
        return f"{name} = {low}"
    least, most = f"{name} >= {low}", f"{name} < {high}"
    return least if high == TOP else most if low == 0 else f"({least} + {most})"


def tags(name, number, rules):
    """The lines of a version in a repository of testtags."""
    lines = [f"=Pkg: {name} {number} - all", f"=Prv: {name} = {number}"]
    for alternatives, condition in rules.needs:
        either = " | ".join(relation(spec) for spec in alternatives)
        if condition:
            either = f"{either} <IF> {relation(condition)}" if len(alternatives) == 1 else f"({either}) <IF> {relation(condition)}"
        lines.append("=Req: " + either)
    for package, low, high in rules.limits:
        lines += [f"=Con: {package} < {low}"] if low and package != name else []
        lines += [f"=Con: {package} >= {high}"] if high < TOP and package != name else []
    return lines


def repository(problem):
    """What may be chosen, as testtags: what is barred, also by itself, is left out. A package of its own asks for all."""
    lines = ["=Ver: 3.0"]
    for (name, number), rules in problem.rules.items():
        bars_itself = any(package == name and not low <= number < high for package, low, high in rules.limits)
        if problem.usable(name, number) and not bars_itself:
            lines += tags(name, number, rules)
    lines += tags("the-request", 1, problem.asked)
    return "\n".join(lines) + "\n"


def testcase(problem):
    """Wishes are weak jobs."""
    jobs = ["job install name the-request"] + [f"job install name {name} = {number} [weak]" for name, number in problem.wished]
    head = ["repo system 0 empty", "repo main 0 testtags repository", "system unset deb system"]
    return "\n".join([*head, *jobs, "result transaction <inline>"]) + "\n"
