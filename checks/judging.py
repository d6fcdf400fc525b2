#!/usr/bin/env python3
"""Compares `resolve judge` with the plain slow judge, over reports of a plain slow prover and damaged copies of them.

Usage: checks/judging.py [REPORTS] [DAMAGES] [PATH OF THE PROGRAM] [--many]
Defaults: 2000 reports, 20000 damaged copies, crates/resolve/out/resolve (which `rt run` leaves). With `-` for the program the
plain judge alone is run. Both must accept each undamaged report, and give the same answer on each damaged copy. With `--many`
packages are marked `many`, and an install report may have several versions of one.
"""
import itertools
import random
import sys
import tempfile

from base import ask, program_of
from plain_judge import barred_by, holds, judge, obeys
from tools import texts
from tools.texts import cases

PACKAGES = ["a", "b", "c"]


# ---- texts


def some_spec(rng):
    package = rng.choice(PACKAGES + ["d"] if rng.random() < 0.1 else PACKAGES)
    kind = rng.random()
    if kind < 0.45:
        return package
    if kind < 0.75:
        return f"{package} {rng.randint(1, 3)}"
    low = rng.randint(0, 2)
    return f"{package} {low}..{rng.randint(low + 1, 4)}"


def some_condition(rng, depth=0):
    kind = rng.random()
    if depth == 2 or kind < 0.5:
        return some_spec(rng)
    if kind < 0.75:
        return f"{some_spec(rng)} or {some_condition(rng, depth + 1)}"
    if kind < 0.9:
        return f"{some_spec(rng)} and {some_condition(rng, depth + 1)}"
    return f"( {some_condition(rng, depth + 1)} ) and {some_spec(rng)}"


def some_need(rng):
    text = "needs " + " | ".join(some_spec(rng) for _ in range(rng.choice([1, 1, 2])))
    return text + (" if " + some_condition(rng) if rng.random() < 0.3 else "")


def some_marks(rng):
    """Lines that mark packages, of which one may have no versions."""
    return [f"many {package}" for package in PACKAGES + ["d"] if rng.random() < 0.4]


def some_texts(rng, most=3, with_many=False):
    lines, listed = some_marks(rng) if with_many else [], []
    for package in PACKAGES:
        for number in range(1, rng.randint(1, most) + 1):
            lines.append(f"version {package} {number}")
            listed.append((package, number))
            lines += [some_need(rng) for _ in range(rng.choice([0, 1, 1, 2]))]
            lines += ["limits " + some_spec(rng)] * (rng.random() < 0.3)
            lines += ["unknown offline"] * (rng.random() < 0.05)
    for package in PACKAGES:
        of = [v for v in listed if v[0] == package]
        for word, chance in [("lock", 0.1), ("favour", 0.2)]:
            if rng.random() < chance:
                lines.append(f"{word} {package} {rng.choice(of)[1]}")
        if rng.random() < 0.15:
            lines.append(f"exclude {package} {rng.choice(of)[1]} broken")
    request = [some_need(rng) for _ in range(rng.randint(1, 2))]
    request += ["limits " + some_spec(rng)] * (rng.random() < 0.3)
    wishes = rng.sample(listed, min(len(listed), rng.choice([0, 0, 1, 2])))
    request += [f"wish {package} {number}" for package, number in wishes]
    return "\n".join(lines) + "\n", "\n".join(request) + "\n"


# ---- a plain slow prover


class Prover:
    """All rule steps of two texts with their clauses; sets by trying all; proofs by case distinction."""

    def __init__(self, catalogue, request):
        self.catalogue = texts.read_catalogue(catalogue)
        self.request = texts.read_request(request, self.catalogue)
        self.listed = list(self.catalogue.listed)
        self.rules = []
        for where, text in (("catalogue", self.catalogue), ("request", self.request)):
            for placed in text.placed:
                self.add_line(where, placed)
        for v in self.listed:
            if v.package in self.catalogue.many:
                continue
            of = [w for w in self.listed if w.package == v.package]
            place = 1 + of.index(v)
            for bit in range(max(2, len(of).bit_length())):
                self.rules.append((f"digit {v} place {place} bit {bit}", None,
                                   [(("v", v), False), (("bit", v.package, bit), bool(place >> bit & 1))]))
            self.rules.append((f"any {v}", None, [(("v", v), False), (("any", v.package), True)]))

    def add_line(self, where, placed):
        line, n = placed.line, placed.number
        at = str(placed.owner) if placed.owner else "request"
        own = [(("v", placed.owner), False)] if placed.owner else []
        if isinstance(line, texts.NeedsLine):
            self.add_need(where, n, line, at, own)
        if isinstance(line, texts.LimitsLine):
            self.rules.append((f"limit {at} line {n}", (where, n), own + [(("outside", str(line.spec)), False)]))
            for v in self.listed:
                if v.package == line.spec.package and not line.spec.matches(v):
                    self.rules.append((f"limit {at} line {n} bars {v}", (where, n), own + [(("v", v), False)]))
                    self.rules.append((f"outside {line.spec} holds {v}", None,
                                       [(("v", v), False), (("outside", str(line.spec)), True)]))
        if isinstance(line, texts.LockLine):
            for v in self.listed:
                if v.package == line.version.package and v != line.version:
                    self.rules.append((f"lock line {n} bars {v}", (where, n), [(("v", v), False)]))
        if isinstance(line, (texts.ExcludeLine, texts.UnknownLine)):
            kind = "exclude" if isinstance(line, texts.ExcludeLine) else "unknown"
            self.rules.append((f"{kind} line {n}", (where, n), [(("v", barred_by(placed)), False)]))

    def add_need(self, where, n, line, at, own):
        given = [(("v", v), True) for v in self.listed if any(s.matches(v) for s in line.alternatives)]
        for k, case in enumerate(cases(line.condition), 1):
            clause = own + given
            for s in case:
                clause = clause + self.unmet(s)
            self.rules.append((f"need {at} line {n} case {k}", (where, n), clause))
        if at != "request" and line.condition is None:
            specs = " | ".join(map(str, line.alternatives))
            self.rules.append((f"gate {at} line {n}", (where, n), own + [(("shared", specs), True)]))
            self.rules.append((f"shared {specs}", None, [(("shared", specs), False)] + given))

    def unmet(self, s):
        """The literals of a case's SPEC; one over a marked package has rules of its own."""
        if s.package not in self.catalogue.many:
            others = [v for v in self.listed if v.package == s.package and not s.matches(v)]
            return [(("any", s.package), False), *((("v", v), True) for v in others)]
        for v in self.listed:
            if s.matches(v):
                rule = (f"matches {s} holds {v}", None, [(("v", v), False), (("matches", str(s)), True)])
                self.rules += [rule] * (rule not in self.rules)
        return [(("matches", str(s)), False)]

    def choices(self, package):
        """The sets of versions of a package: any of a marked one, at most one of any other."""
        of = [v for v in self.listed if v.package == package]
        most = len(of) if package in self.catalogue.many else 1
        return [picked for count in range(most + 1) for picked in itertools.combinations(of, count)]

    def sets(self):
        for picked in itertools.product(*map(self.choices, PACKAGES)):
            chosen = [v for part in picked for v in part]
            if all(obeys(placed, chosen) for placed in self.catalogue.placed + self.request.placed):
                yield chosen

    # -- install reports

    def list_needs(self, chosen, entries, out):
        """Lists the chosen versions that are needed, each for a line that gives it."""
        found = True
        while found:
            found = False
            for w in [None] + entries:
                for placed in (self.request if w is None else self.catalogue).placed:
                    line = placed.line
                    if not isinstance(line, texts.NeedsLine) or placed.owner != w or not holds(line.condition, entries):
                        continue
                    for v in chosen:
                        if v not in entries and any(s.matches(v) for s in line.alternatives):
                            entries.append(v)
                            out.append(f"{v} for {w or 'request'} line {placed.number}")
                            found = True

    def install(self, rng, sets):
        chosen = rng.choice(sets)
        entries, out, proof = [], ["install"], Proof(self.rules)
        self.list_needs(chosen, entries, out)
        for n, line in enumerate(self.request.lines, 1):
            if not isinstance(line, texts.WishLine) or line.version in entries:
                continue
            v = line.version
            fitting = [s for s in sets if v in s and all(w in s for w in entries)]
            if fitting:
                entries.append(v)
                out.append(f"{v} wished line {n}")
                self.list_needs(rng.choice(fitting), entries, out)
            else:
                step = proof.derive([(("v", w), False) for w in [v] + entries])
                out.append(f"left out {v} line {n} by {step}")
        return "\n".join(out + proof.lines) + "\n"

    # -- refused reports

    def refuse(self, rng):
        proof = Proof(self.rules)
        rng.shuffle(proof.rules)
        proof.derive([])
        named = {"catalogue": set(), "request": set()}
        for where, n in filter(None, proof.stated):
            named[where].add(n)
        out = ["refused"]
        for where in ("catalogue", "request"):
            out += [f"{where} line {n}" for n in sorted(named[where])]
        message = ["| no versions fit"] if rng.random() < 0.5 else []
        return "\n".join(out + proof.lines + message) + "\n"


def atom_text(atom):
    kind = atom[0]
    if kind == "v":
        return str(atom[1])
    if kind == "bit":
        return f"bit {atom[2]} of {atom[1]}"
    return f"{kind} {atom[1]}"


def literal_text(literal):
    return ("" if literal[1] else "not ") + atom_text(literal[0])


class Proof:
    """Steps of a report, each written once, in the order of their first use."""

    def __init__(self, rules):
        self.rules = list(rules)
        self.lines, self.stated, self.numbers = [], [], {}

    def step(self, text, line=None):
        if text not in self.numbers:
            self.numbers[text] = len(self.lines) + 1
            self.lines.append(f"step {len(self.lines) + 1} {text}")
            self.stated.append(line)
        return self.numbers[text]

    def derive(self, clause):
        """Proves the clause by cases; answers its step."""
        known = {atom: not positive for atom, positive in clause}
        causes, open_atoms = self.spread(dict(known), self.rules)
        if causes is None:
            atom = open_atoms[0]
            causes = [self.derive(clause + [(atom, True)]), self.derive(clause + [(atom, False)])]
        else:
            causes = [self.step(text, line) for text, line in causes]
        texts = sorted(map(literal_text, clause), key=lambda t: t.encode())
        return self.step(f"derive [{'; '.join(texts)}] by {' '.join(map(str, causes))}")

    @staticmethod
    def spread(known, rules):
        """What follows by clauses with one literal left: the steps up to a broken clause, or the atoms without value."""
        used = []
        while True:
            grown = False
            for text, line, clause in rules:
                clause = list(dict.fromkeys(clause))
                if any(known.get(a) == p for a, p in clause):
                    continue
                left = [(a, p) for a, p in clause if a not in known]
                if not left:
                    return used + [(text, line)], None
                if len(left) == 1:
                    known[left[0][0]] = left[0][1]
                    used.append((text, line))
                    grown = True
            if not grown:
                atoms = sorted({a for _, _, clause in rules for a, _ in clause if a not in known}, key=lambda a: (a[0] != "v", str(a)))
                return None, atoms


# ---- damage


def damaged(rng, report):
    lines = report.split(b"\n")[:-1]
    kind = rng.randrange(8)
    i = rng.randrange(len(lines))
    if kind == 0:
        del lines[i]
    elif kind == 1:
        lines.insert(rng.randrange(len(lines) + 1), lines[i])
    elif kind == 2:
        j = rng.randrange(len(lines))
        lines[i], lines[j] = lines[j], lines[i]
    elif kind == 3:
        words = lines[i].split(b" ")
        j = rng.randrange(len(words))
        words[j] = rng.choice(rng.choice(lines).split(b" "))
        lines[i] = b" ".join(words)
    elif kind == 4:
        digits = [j for j, b in enumerate(lines[i]) if 48 <= b <= 57]
        if digits:
            j = rng.choice(digits)
            lines[i] = lines[i][:j] + str(rng.randrange(10)).encode() + lines[i][j + 1:]
    elif kind == 5:
        words = lines[i].split(b" ")
        del words[rng.randrange(len(words))]
        lines[i] = b" ".join(words)
    elif kind == 6:
        j = rng.randrange(len(lines[i]) + 1)
        lines[i] = lines[i][:j] + rng.choice([b" ", b";", b"]", b"x", b"0", b"\r", b"\n"]) + lines[i][j:]
    else:
        whole = b"\n".join(lines) + b"\n"
        return whole[:rng.randrange(len(whole))]
    return b"".join(line + b"\n" for line in lines)


# ---- the comparison


def main():
    given = [word for word in sys.argv[1:] if word != "--many"]
    reports = int(given[0]) if given else 2000
    damages = int(given[1]) if len(given) > 1 else 20000
    program = program_of(given, 2, or_none=True)
    rng = random.Random(1)
    counts = {"install": 0, "refused": 0, "yes": 0, "no": 0}
    with tempfile.TemporaryDirectory() as folder:
        def compare(texts):
            n = judge(*texts)
            if program == "-":
                return n
            answer = ask(program, folder, texts)
            want = (0, b"yes\n") if n == 0 else (1, b"no line %d\n" % n)
            if answer != want:
                sys.exit(f"{texts!r}: the program says {answer[1]!r} with status {answer[0]}, the plain judge {want[1]!r}")
            return n

        for i in range(reports):
            catalogue, request = (text.encode() for text in some_texts(rng, with_many="--many" in sys.argv))
            prover = Prover(catalogue, request)
            sets = list(prover.sets())
            report = (prover.install(rng, sets) if sets else prover.refuse(rng)).encode()
            counts["install" if sets else "refused"] += 1
            if compare((catalogue, request, report)) != 0:
                sys.exit(f"not yes: {catalogue!r} {request!r} {report!r}")
            for _ in range(damages // reports):
                counts["no" if compare((catalogue, request, damaged(rng, report))) else "yes"] += 1
    print(f"{counts['install']} install and {counts['refused']} refused reports: yes")
    print(f"damaged copies: {counts['yes']} yes, {counts['no']} no, all as the plain judge says")


if __name__ == "__main__":
    main()
