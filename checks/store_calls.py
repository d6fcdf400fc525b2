#!/usr/bin/env python3
"""A clause store as a slow program, and the lists of store calls with its answers that `crates/resolvo_store_rows` runs.

Usage: checks/store_calls.py [--write]
The file `crates/resolvo_store_rows/stdin` has lists that are written by hand, and below them those of 1,000 seeds. Fails where an answer
there isn't the slow program's, where a generated list isn't that of its seed, where some kind of answer doesn't come, or where `stdout`
beside it has another count. With `--write` the generated lists and `stdout` are written anew. The slow program keeps plain lists and walks
over the whole of them. It rests on no part of the store: whoever writes faster bodies for the store compares them with this. The README
of `resolvo_store_rows` says how calls are spelled.
"""
import os
import sys

from base import TOP

FOLDER = os.path.join(TOP, "crates/resolvo_store_rows")
FILE = os.path.join(FOLDER, "stdin")
STDOUT = os.path.join(FOLDER, "stdout")
SEEDS = 1000
VARIABLES = 2 ** 31  # of those below, literals can be
MOST = 2 ** 64 - 1  # the highest score

INSTALL_ROOT, REQUIRES, FORBID, CONSTRAINS, PARENT, EXCLUDES, LOCK, EXCLUDED, ANY_OF, LEARNT = range(10)


def variable_of(literal):
    return literal // 2


def is_positive(literal):
    return literal % 2 == 0


def yes(variable):
    return variable * 2


def no(variable):
    return variable * 2 + 1


class SlowStore:
    """The calls of a store over plain lists. A literal is twice its variable, and one more if it says that the variable is false."""

    def __init__(self):
        self.fixed = []  # requirements with their candidates, each a variable and its package
        self.cases = []  # literals of conditions' cases
        self.learnt = []
        self.clauses = [[yes(0)]]
        self.watching = []  # a literal and a clause that watches it, in the order in which that began
        self.trail = []  # variable, value, clause, level
        self.needs = []  # parent, requirement, condition, clause
        self.scores = {}

    def candidates(self, requirement):
        return next((found for fixed, found in self.fixed if fixed == requirement), None)

    def case(self, condition):
        """The literals of a condition's case; none of no condition, or of one that isn't there."""
        return self.cases[condition] if condition is not None and condition < len(self.cases) else []

    def has_condition(self, condition):
        return condition is None or condition < len(self.cases)

    def value(self, variable):
        return next((entry[1] for entry in self.trail if entry[0] == variable), None)

    def is_true(self, literal):
        return self.value(variable_of(literal)) == is_positive(literal)

    def is_false(self, literal):
        return self.value(variable_of(literal)) == (not is_positive(literal))

    def last_level(self):
        return self.trail[-1][3] if self.trail else 0

    def literals(self, clause):
        """The literals of a clause; of lists that aren't there none."""
        kind, *fields = clause
        if kind == INSTALL_ROOT:
            return [yes(0)]
        if kind == REQUIRES:
            parent, condition, requirement = fields
            return [no(parent), *self.case(condition), *(yes(it) for it, _ in self.candidates(requirement) or [])]
        if kind == FORBID:
            return [no(fields[0]), fields[1]]
        if kind in (CONSTRAINS, PARENT):
            return [no(fields[0]), no(fields[1])]
        if kind == EXCLUDES:
            return [no(fields[0]), yes(fields[1])]
        if kind == LOCK:
            return [no(0), no(fields[1])]
        if kind == EXCLUDED:
            return [no(fields[0])]
        if kind == ANY_OF:
            return [yes(fields[0]), no(fields[1])]
        return self.learnt[fields[0]] if fields[0] < len(self.learnt) else []

    def names_known(self, clause):
        """Whether literals can have the variables that a clause names itself."""
        kind, *fields = clause
        if kind in (INSTALL_ROOT, LEARNT):
            return True
        if kind in (REQUIRES, FORBID, EXCLUDED):
            return fields[0] < VARIABLES
        if kind == LOCK:
            return fields[1] < VARIABLES
        return fields[0] < VARIABLES and fields[1] < VARIABLES

    def may_add(self, clause, watched):
        """Whether a clause can be added with these watches: two different literals of its own, or none."""
        if not self.names_known(clause):
            return False
        if clause[0] == REQUIRES and not (self.has_condition(clause[2]) and self.candidates(clause[3]) is not None):
            return False
        if clause[0] == LEARNT and clause[1] >= len(self.learnt):
            return False
        return watched is None or (watched[0] != watched[1] and set(watched) <= set(self.literals(clause)))

    def may(self, call):
        """Whether the condition of a call holds."""
        word, *given = call
        if word == "offer":
            return self.candidates(given[0]) is None and all(it < VARIABLES for _, versions in given[1] for it in versions)
        if word == "add":
            return self.may_add(*given)
        if word == "register":
            return given[3] < len(self.clauses) and self.candidates(given[1]) is not None and self.has_condition(given[2])
        if word == "set":
            return given[2] < len(self.clauses) and given[3] >= self.last_level()
        return word != "decay" or given[0] <= 1_000_000

    def do(self, call):
        """Does a call and answers it, or changes nothing where its condition doesn't hold."""
        return getattr(self, call[0])(*call[1:]) if self.may(call) else "Bad"

    def offer(self, requirement, groups):
        self.fixed.append((requirement, [(it, package) for package, versions in groups for it in versions]))
        return "Done"

    def condition(self, literals):
        self.cases.append(literals)
        return "Done"

    def learn(self, literals):
        self.learnt.append(literals)
        return "Done"

    def add(self, clause, watched):
        """The clause gets the next number and watches its two literals."""
        number = len(self.clauses)
        self.clauses.append(self.literals(clause))
        self.watching += [(literal, number) for literal in watched or []]
        return f"Added(ClauseId({number}))"

    def register(self, *need):
        self.needs.append(need)
        return "Done"

    def set(self, variable, value, clause, level):
        """The decision comes to the end of the trail, unless its variable has a value."""
        if self.value(variable) is not None:
            return "Set(Already)" if self.value(variable) == value else "Set(Opposite)"
        self.trail.append((variable, value, clause, level))
        return "Set(New)"

    def undo(self):
        """The last decision goes. It is answered with the level of the one before it."""
        if not self.trail:
            return "Undone(None)"
        variable, value, clause, _ = self.trail.pop()
        told = f"Decision {{ variable: VariableId({variable}), value: {str(value).lower()}, derived_from: ClauseId({clause}) }}"
        return f"Undone(Some(({told}, {self.last_level()})))"

    def jump(self, level):
        """The decisions behind the last one that isn't above the level go."""
        kept = [place + 1 for place, entry in enumerate(self.trail) if entry[3] <= level]
        del self.trail[max(kept, default=0):]
        return "Done"

    def bump(self, package, add):
        """The package's score is raised, not past the highest."""
        self.scores[package] = min(self.scores.get(package, 0) + add, MOST)
        return "Done"

    def decay(self, per_million):
        """Each score becomes so many millionths of it, rounded down."""
        self.scores = {package: score * per_million // 1_000_000 for package, score in self.scores.items()}
        return "Done"

    def walk(self, literal, moves):
        """The clauses that watched the literal, the one that began last first; the first of them watches the first of the moves then, and so on."""
        met = [clause for watched, clause in reversed(self.watching) if watched == literal]
        for clause, to in zip(met, moves):
            if to is not None and (to, clause) not in self.watching:
                self.watching = [it for it in self.watching if it != (literal, clause)] + [(to, clause)]
        return f"Met([{', '.join(f'ClauseId({it})' for it in met)}])"

    def is_needed(self, need):
        """Whether the parent is true and the literals of the condition are all false."""
        return self.is_true(yes(need[0])) and all(self.is_false(it) for it in self.case(need[2]))

    def broken(self):
        """The first registered clause whose literals are all false."""
        for need in self.needs:
            if self.is_needed(need) and all(self.is_false(yes(it)) for it, _ in self.candidates(need[1]) or []):
                return need[3]
        return None

    def falsified(self):
        broken = self.broken()
        return f"Falsified({'None' if broken is None else f'Some(ClauseId({broken}))'})"

    def offered(self, need):
        """The decision that a need clause offers, if it is eligible: its first undecided candidate."""
        candidates = self.candidates(need[1])
        if candidates is None or not self.is_needed(need) or any(self.is_true(yes(it)) for it, _ in candidates):
            return None
        undecided = [it for it in candidates if self.value(it[0]) is None]
        if not undecided:
            return None
        variable, package = undecided[0]
        return variable, need[0], need[3], self.scores.get(package, 0), len(undecided)

    def next(self):
        """The broken clause, if there is one, and else the pick: the first offer by position, in whose place each later one comes that beats it."""
        broken = self.broken()
        if broken is not None:
            return f"Broken(ClauseId({broken}))"
        picked = None
        for offer in filter(None, map(self.offered, self.needs)):
            if picked is None or beats(offer, picked):
                picked = offer
        if picked is None:
            return "Next(None)"
        candidate, parent, clause, score, count = picked
        ids = f"candidate: VariableId({candidate}), required_by: VariableId({parent}), clause_id: ClauseId({clause})"
        return f"Next(Some(NextDecision {{ {ids}, package_activity: {score}, candidate_count: {count} }}))"


def beats(offer, picked):
    """A strictly higher score and strictly fewer candidates, and no other's in place of the root's."""
    return offer[3] > picked[3] and offer[4] < picked[4] and not (picked[1] == 0 and offer[1] != 0)


# ---- calls as lines

def numbered(optional):
    return 0 if optional is None else optional + 1


def spelled(call):
    """A call as the line spells it: a word and numbers."""
    word, *given = call
    if word == "offer":
        groups = "".join(f" ; {' '.join(map(str, [package, *versions]))}" for package, versions in given[1])
        return f"offer {given[0][0]} {given[0][1]}{groups}"
    if word in ("condition", "learn"):
        return " ".join([word, *map(str, given[0])])
    if word == "add":
        kind, *fields = given[0]
        if kind == REQUIRES:
            fields = [fields[0], numbered(fields[1]), *fields[2]]
        return " ".join(["add", *map(str, [*map(numbered, given[1] or (None, None)), kind, *fields])])
    if word == "register":
        return f"register {given[0]} {given[1][0]} {given[1][1]} {numbered(given[2])} {given[3]}"
    if word == "walk":
        return " ".join(["walk", str(given[0]), *map(str, map(numbered, given[1]))])
    return " ".join([word, *(str(int(it)) for it in given)])


def optional(number):
    return number - 1 if number else None


def call_in(line):
    """The call that a line spells."""
    head, *groups = line.split(" ; ")
    word, *numbers = head.split(" ")
    n = list(map(int, numbers))
    if word == "offer":
        groups = [list(map(int, it.split(" "))) for it in groups]
        return "offer", (n[0], n[1]), [(package, versions) for package, *versions in groups]
    if word in ("condition", "learn"):
        return word, n
    if word == "add":
        clause = (n[2], n[3], optional(n[4]), (n[5], n[6])) if n[2] == REQUIRES else tuple(n[2:])
        return word, clause, (n[0] - 1, n[1] - 1) if n[0] else None
    if word == "register":
        return word, n[0], (n[1], n[2]), optional(n[3]), n[4]
    if word == "walk":
        return word, n[0], list(map(optional, n[1:]))
    if word == "set":
        return word, n[0], n[1] == 1, n[2], n[3]
    return word, *n


# ---- lists that look random

class Draws:
    """A row of numbers that looks random and is the same at each run."""

    def __init__(self, seed):
        self.state = (seed * 2_654_435_761 + 97) % 2 ** 32

    def below(self, bound):
        self.state = (self.state * 1_664_525 + 1_013_904_223) % 2 ** 32
        return (self.state >> 16) % max(bound, 1)

    def one_in(self, many):
        return self.below(many) == 0


class Generator:
    """The list of a seed, 14 to 40 calls. With an even seed scores are raised and scaled as in a search by the standard parameters, else
    by any numbers. Few variables, packages and requirements come, so that calls meet what earlier ones left; some of the calls name what
    isn't there, or are barred by what came before."""

    def __init__(self, seed):
        self.draws = Draws(seed)
        self.below, self.one_in = self.draws.below, self.draws.one_in
        self.is_standard = seed % 2 == 0
        self.slow = SlowStore()
        self.lines = []

    def put(self, call):
        self.lines.append(f"{spelled(call)} = {self.slow.do(call)}")

    def fill(self):
        self.put(("set", 0, not self.one_in(8), 0, 1))
        self.put(("set", self.small_variable(), True, 0, 1))
        for _ in range(3):
            self.put(self.offer())
        for _ in range(6):
            self.put(self.setting_up())
        for _ in range(self.below(27)):
            self.put(self.any_call())
        self.put(("falsified",))
        self.put(("next",))
        self.put(self.walk())
        return self.lines

    def setting_up(self):
        """A call that gives the store something to work on."""
        kind = self.below(12)
        if kind in (0, 1):
            return self.offer()
        if kind == 2:
            return "bump", self.package(), self.raised()
        if kind == 3:
            return "condition", self.literals()
        if kind == 4:
            return "learn", self.literals()
        return self.add() if kind == 5 else self.register()

    def any_call(self):
        kind = self.below(32)
        if kind <= 5:
            return self.setting_up()
        if kind <= 9:
            return self.add()
        if kind <= 14:
            return "set", self.small_variable(), self.one_in(3), self.number(self.slow.clauses), self.level()
        if kind == 15:
            return ("undo",)
        if kind == 16:
            return "jump", self.below(5)
        if kind <= 20:
            return "bump", self.package(), self.raised()
        if kind == 21:
            return "decay", self.share()
        if kind <= 24:
            return self.walk()
        return ("falsified",) if kind == 25 else ("next",)

    def small_variable(self):
        """One of the variables that get values: the store keeps a place for each variable below one that has a value."""
        return self.below(12)

    def variable(self):
        return VARIABLES if self.one_in(40) else self.small_variable()

    def near_variable(self):
        """One of the first five, so that clauses share literals; seldom one that no literal can have."""
        return VARIABLES if self.one_in(40) else self.below(5)

    def literal(self):
        variable = self.below(12)
        return no(variable) if self.one_in(2) else yes(variable)

    def package(self):
        return self.below(4)

    def version_set(self):
        return self.below(3)

    def requirement(self):
        return (1, self.below(2)) if self.one_in(3) else (0, self.version_set())

    def fixed_requirement(self):
        """A requirement, mostly one that got its candidates."""
        place = self.below(len(self.slow.fixed))
        if place < len(self.slow.fixed) and not self.one_in(8):
            return self.slow.fixed[place][0]
        return self.requirement()

    def open_requirement(self):
        """A requirement, mostly one that hasn't got its candidates yet."""
        first = self.requirement()
        return first if self.slow.candidates(first) is None else self.requirement()

    def number(self, there):
        """A number below the count of what there is, seldom the count."""
        return len(there) if self.one_in(12) else self.below(len(there))

    def condition(self):
        """Seldom a condition, unless there is none."""
        if self.one_in(3) and (self.slow.cases or self.one_in(4)):
            return self.number(self.slow.cases)
        return None

    def literals(self):
        return [self.literal() for _ in range(self.below(4))]

    def groups(self):
        groups = []
        for _ in range(max(self.below(3), 1)):
            package = self.package()
            groups.append((package, [self.variable() for _ in range(self.below(4))]))
        return groups

    def clause(self):
        kind = self.below(14)
        if kind == 0:
            return (INSTALL_ROOT,)
        if kind <= 4:
            return REQUIRES, self.near_variable(), self.condition(), self.fixed_requirement()
        if kind == 5:
            return FORBID, self.near_variable(), self.literal(), self.package()
        if kind <= 8:
            return (CONSTRAINS, PARENT, EXCLUDES)[kind - 6], self.near_variable(), self.near_variable(), self.version_set()
        if kind == 9:
            return LOCK, self.near_variable(), self.near_variable()
        if kind == 10:
            return EXCLUDED, self.near_variable(), 0
        if kind == 11:
            return ANY_OF, self.near_variable(), self.near_variable()
        return LEARNT, self.number(self.slow.learnt)

    def one_of(self, literals):
        place = self.below(len(literals))
        return literals[place] if place < len(literals) else None

    def literal_or_any(self, literal):
        return literal if literal is not None and variable_of(literal) < VARIABLES else self.literal()

    def watches(self, literals):
        """Two of the literals; seldom ones of which the second needn't be there or be another, or none."""
        first = self.one_of(literals)
        second = next((it for it in reversed(literals) if first is not None and it != first), None)
        if self.one_in(8) or (second is None and not self.one_in(4)):
            return None
        first = self.literal_or_any(first)
        return first, self.literal() if self.one_in(8) else self.literal_or_any(second)

    def add(self):
        clause = self.clause()
        return "add", clause, self.watches(self.slow.literals(clause))

    def offer(self):
        requirement = self.open_requirement()
        return "offer", requirement, self.groups()

    def register(self):
        parent = self.decided_variable() if self.one_in(2) else 0
        return "register", parent, self.fixed_requirement(), self.condition(), self.number(self.slow.clauses)

    def level(self):
        """The last level or the next one, seldom the one below."""
        if self.one_in(10):
            return max(self.slow.last_level() - 1, 0)
        return self.slow.last_level() + self.below(2)

    def decided_variable(self):
        """A variable that has a value, or any."""
        place = self.below(len(self.slow.trail))
        return self.slow.trail[place][0] if place < len(self.slow.trail) else self.variable()

    def raised(self):
        """By how many millionths a score is raised."""
        return 1_000_000 if self.is_standard else (0, 1, 999_999, 3_000_000, MOST)[self.below(5)]

    def share(self):
        """To how many millionths each score is scaled."""
        return 950_000 if self.is_standard else (0, 1, 333_333, 999_999, 1_000_000, 1_000_001)[self.below(6)]

    def walk(self):
        """A walk over a literal that some clause watches, or over any."""
        watching = self.slow.watching
        place = self.below(len(watching))
        literal = self.literal_or_any(watching[place][0] if place < len(watching) else None)
        return "walk", literal, [None if self.one_in(3) else self.literal() for _ in range(self.below(5))]


# ---- the file

def generated():
    return [[f"seed {seed}", *Generator(seed).fill()] for seed in range(SEEDS)]


def text_of(lists):
    return "\n\n".join("\n".join(it) for it in lists) + "\n"


def content(path):
    with open(path, encoding="utf-8") as file:
        return file.read()


def write(path, text):
    with open(path, "w", encoding="utf-8") as file:
        file.write(text)


def kept():
    """The lists of the file: those that are written by hand, and the generated ones."""
    lists = [it.split("\n") for it in content(FILE).rstrip("\n").split("\n\n")]
    return [it for it in lists if not it[0].startswith("seed ")], [it for it in lists if it[0].startswith("seed ")]


def wrong_answers(lists):
    """Where the file's answers aren't those of the slow program."""
    faults = []
    for title, *lines in lists:
        slow = SlowStore()
        for line in lines:
            call, _, answer = line.partition(" = ")
            right = slow.do(call_in(call))
            if answer != right:
                faults.append(f"{title}: {call} is answered {right}")
    return faults


KINDS = ["Done", "Added", "Set(New)", "Set(Already)", "Set(Opposite)", "Undone(None)", "Undone(Some", "Met([])", "Falsified(None)",
         "Falsified(Some", "Next(None)", "Next(Some", "Broken", "Bad"]


def counts(lists):
    """What the program prints of lists that are answered as they say: each call is answered twice."""
    answers = 2 * sum(len(it) - 1 for it in lists)
    return f"{len(lists)} lists with {answers} answers, of which 0 are others than expected\n"


def missing_kinds(lists):
    """The kinds of answers that don't come in the lists."""
    answers = [line.partition(" = ")[2] for it in lists for line in it[1:]]
    walks = [it.count("ClauseId") for it in answers if it.startswith("Met")]
    missing = [kind for kind in KINDS if not any(it.startswith(kind) for it in answers)]
    return missing + [name for name, has in (("Met of one", 1 in walks), ("Met of several", max(walks) > 1)) if not has]


def main():
    by_hand, of_seeds = kept()
    if sys.argv[1:] == ["--write"]:
        of_seeds = generated()
        write(FILE, text_of([*by_hand, *of_seeds]))
        write(STDOUT, counts([*by_hand, *of_seeds]))
    lists = [*by_hand, *of_seeds]
    faults = wrong_answers(lists) + [f"no answer {it} in the first hundred lists" for it in missing_kinds(of_seeds[:100])]
    if of_seeds != generated():
        faults.append("the generated lists aren't those of the seeds; run checks/store_calls.py --write")
    if content(STDOUT) != counts(lists):
        faults.append("stdout has another count; run checks/store_calls.py --write")
    print("\n".join(faults) if faults else f"{len(by_hand)} lists by hand and {len(of_seeds)} of seeds are right")
    sys.exit(1 if faults else 0)


if __name__ == "__main__":
    main()
