"""The search over clauses, as a plain list of rules: trail, watches, propagation, decisions and learning, one function a rule."""
from __future__ import annotations

from typing import Iterable, Optional

from plain_rules import ROOT, Atom, Clause, Entry, NeedClause, Options, Parent, Rule, no, yes
from tools.texts import Literal, Version

WHOLE = 1_000_000  # scores and their decay are in millionths


class Solver:
    """Clauses, trail, watch lists and scores."""

    def __init__(self, options: Options) -> None:
        self.options = options
        self.clauses: list[Clause] = []
        self.trail: list[Entry] = []
        self.entry_of: dict[Atom, Entry] = {}
        self.watches: dict[Literal, list[Clause]] = {}
        self.assertions: list[Clause] = []  # rules of one literal
        self.learnt_units: list[Clause] = []
        self.pending: list[Clause] = []
        self.needs: list[NeedClause] = []
        self.scores: dict[str, int] = {}
        self.first_level = 1
        self.head = 0  # so many entries of the trail are propagated
        self.guard_level = 0
        self.is_broken = False  # whether a clause was falsified as it was added

    # -- values

    def value(self, literal: Literal) -> Optional[bool]:
        """Whether the literal is true or false, or None."""
        entry = self.entry_of.get(literal.atom)
        return None if entry is None else entry.value == literal.positive

    def level(self, literal: Literal) -> int:
        """The level of the literal's entry, or 0."""
        entry = self.entry_of.get(literal.atom)
        return entry.level if entry else 0

    def top_level(self) -> int:
        """The level of the last entry, or 0."""
        return self.trail[-1].level if self.trail else 0

    def is_falsified(self, clause: Clause) -> bool:
        """A clause is falsified where all its literals are false."""
        return all(self.value(literal) is False for literal in clause.literals)

    def assign(self, literal: Literal, clause: Optional[Clause], level: Optional[int] = None) -> None:
        """Appends an entry to the trail: at the last entry's level, unless another is given."""
        entry = Entry(literal.atom, literal.positive, clause, self.top_level() if level is None else level)
        self.trail.append(entry)
        self.entry_of[entry.atom] = entry

    def undo_until(self, level: int) -> None:
        """Takes off the entries above a level. Propagation then begins anew at the trail's front."""
        while self.top_level() > level:
            del self.entry_of[self.trail.pop().atom]
        if not self.options.pending:
            self.head = 0
        elif level < self.guard_level:
            self.head = self.guard_level = 0
        else:
            self.head = min(self.head, len(self.trail))

    # -- clauses

    def add_clause(self, rule: Optional[Rule], literals: list[Literal], causes: Iterable[Clause] = ()) -> Clause:
        """A new clause of one literal is an assertion; another one watches two literals, at the front of their lists.
        Propagation then begins anew at the trail's front."""
        clause = Clause(rule, literals, list(causes))
        self.clauses.append(clause)
        self.is_broken = self.is_broken or self.is_falsified(clause)
        if len(set(literals)) == 1:
            (self.assertions if rule else self.learnt_units).append(clause)
        elif self.options.pending:
            self.pending.append(clause)
        else:
            self.watch(clause, *self.first_watches(clause))
        if not self.options.pending:
            self.head = 0
        return clause

    def first_watches(self, clause: Clause) -> tuple[Literal, Literal]:
        """A learnt clause watches its first and its last literal, any other its first and the next that isn't false."""
        first, *rest = clause.literals
        if clause.rule is None:
            return first, rest[-1]
        return first, next((literal for literal in rest if self.value(literal) is not False), rest[0])

    def watch(self, clause: Clause, first: Literal, second: Literal) -> None:
        """Enters the clause at the front of both lists."""
        clause.watched = [first, second]
        for literal in clause.watched:
            self.watches.setdefault(literal, []).insert(0, clause)

    # -- propagation

    def propagate(self) -> Optional[Clause]:
        """Sets what assertions and learnt clauses of one literal say, each in order, then walks the watches of each entry
        that isn't propagated; the first falsified clause, if one is met."""
        for clause in (*self.assertions, *self.learnt_units):
            value = self.value(clause.literals[0])
            if value is False:
                return clause
            if value is None:
                self.assign(clause.literals[0], clause)
        falsified = self.attach_pending()
        while falsified is None and self.head < len(self.trail):
            entry = self.trail[self.head]
            falsified = self.walk(Literal(entry.atom, not entry.value))
            if falsified is None:
                self.head += 1
        return falsified

    def walk(self, literal: Literal) -> Optional[Clause]:
        """Visits the clauses that watch a literal which became false. Each is satisfied by its other watch, or watches
        another literal that isn't false, or sets its other watch; else it is falsified."""
        for clause in list(self.watches.get(literal, ())):
            other = clause.beside(literal)
            if self.value(other) is True:
                self.note_guard(literal, other)
                continue
            free = [each for each in clause.literals if each not in clause.watched and self.value(each) is not False]
            if free:
                self.watches[literal].remove(clause)
                clause.watched = [other, free[0]]
                self.watches.setdefault(free[0], []).insert(0, clause)
            elif self.value(other) is False:
                return clause
            else:
                self.assign(other, clause)
                self.note_guard(literal, other)
        return None

    # -- clauses that wait (another way)

    def attach_pending(self) -> Optional[Clause]:
        """Lets the clauses that wait watch, in the order of their arrival, and sets what they say; the first falsified one
        ends it."""
        waiting, self.pending = self.pending, []
        for place, clause in enumerate(waiting):
            if not self.attach(clause):
                self.pending = waiting[place:]
                return clause
        return None

    def attach(self, clause: Clause) -> bool:
        """Watches two literals that aren't false, or those that became false last; whether it isn't falsified."""
        first, second = self.latest_watches(clause)
        if self.value(second) is False:
            if self.value(first) is False:
                return False
            if self.value(first) is None:
                self.assign(first, clause)
            self.note_guard(second, first)
        self.watch(clause, first, second)
        return True

    def latest_watches(self, clause: Clause) -> tuple[Literal, Literal]:
        """The two literals that `attach` watches; a false one is the second."""
        best = self.latest_beside(clause, clause.literals[0])
        beside = self.latest_beside(clause, best)
        return (beside, best) if self.value(best) is False else (best, beside)

    def latest_beside(self, clause: Clause, beside: Literal) -> Literal:
        """Of the other literals the first that isn't false, else the last of those with the highest level."""
        others = [literal for literal in clause.literals if literal != beside]
        free = [literal for literal in others if self.value(literal) is not False]
        highest = max(self.level(literal) for literal in others)
        return free[0] if free else [literal for literal in others if self.level(literal) == highest][-1]

    def note_guard(self, fallen: Literal, guard: Literal) -> None:
        """Notes the level of a true watch that is above that of the false one beside it."""
        if self.level(guard) > self.level(fallen):
            self.guard_level = max(self.guard_level, self.level(guard))

    # -- decisions

    def next_decision(self) -> Optional[tuple[Version, Clause]]:
        """Of the need clauses with a true parent, a false condition and no true candidate the first one by position. A later
        one replaces it by a strictly higher score and strictly fewer undecided candidates; a clause of the root gives way to
        none of another kind. Its first undecided candidate is decided."""
        best: Optional[NeedClause] = None
        best_score = best_count = 0
        for need in self.needs:
            values = [self.value(yes(candidate)) for candidate in need.candidates]
            if self.value(yes(need.parent)) is not True or True in values or None not in values:
                continue
            if any(self.value(literal) is not False for literal in need.condition):
                continue
            count, score = values.count(None), self.scores.get(self.first_undecided(need).package, 0)
            is_explicit = best is not None and best.parent == ROOT and need.parent != ROOT
            if best is None or (score > best_score and count < best_count and not is_explicit):
                best, best_score, best_count = need, score, count
        return None if best is None else (self.first_undecided(best), best.clause)

    def first_undecided(self, need: NeedClause) -> Version:
        """The first candidate without value."""
        return next(candidate for candidate in need.candidates if self.value(yes(candidate)) is None)

    # -- learning

    def conflict_level(self, falsified: Clause) -> int:
        """A conflict has the highest level of its clause's literals."""
        return max(self.level(literal) for literal in falsified.literals)

    def learn(self, falsified: Clause) -> None:
        """Goes back along the trail until one literal alone has the conflict's level. Jumps to the highest other level, at
        least the turn's first; sets that literal there by the learnt clause."""
        others, asserting, causes = self.analyze(falsified)
        jump = max([self.first_level, *(self.level(literal) for literal in others)])
        if others and self.options.as_met:
            levels = [self.level(literal) for literal in others]
            highest = levels.index(max(levels))
            others[0], others[highest] = others[highest], others[0]
        self.undo_until(jump)
        clause = self.add_clause(None, [*others, asserting], causes)
        self.assign(asserting, clause)
        self.raise_scores(clause)

    def analyze(self, falsified: Clause) -> tuple[list[Literal], Literal, list[Clause]]:
        """The literals of lower levels, the literal of the conflict's level, and the causes."""
        level, causes = self.conflict_level(falsified), [falsified]
        seen, others, left = set(), [], 0
        back = reversed(self.trail)
        reason = falsified
        while True:
            for literal in reason.literals:
                if literal.atom in seen or (literal.atom == ROOT and not self.options.root_in_learnt):
                    continue
                seen.add(literal.atom)
                if self.level(literal) == level:
                    left += 1
                else:
                    others.append(literal)
            entry = next(entry for entry in back if entry.atom in seen and entry.level == level)
            left -= 1
            if left == 0:
                break
            reason = entry.clause
            causes.append(reason)
        if not self.options.as_met:
            place = {entry.atom: place for place, entry in enumerate(self.trail)}
            others.sort(key=lambda literal: -place[literal.atom])
        return others, Literal(entry.atom, not entry.value), causes

    def raise_scores(self, clause: Clause) -> None:
        """Each version of a learnt clause raises its package's score; then all scores decay, rounded down."""
        for literal in clause.literals:
            if isinstance(literal.atom, Version):
                package = literal.atom.package
                self.scores[package] = self.scores.get(package, 0) + self.options.added
        self.scores = {package: score * self.options.decay // WHOLE for package, score in self.scores.items()}

    def refute(self, falsified: Clause, goal: Parent, end: Optional[int] = None) -> tuple[list[Literal], list[Clause]]:
        """Follows all reasons back along the trail (from a place on), but those of the wish and of versions that were chosen
        before its turn; what is left, and the causes."""
        kept, causes = [], [falsified]
        seen = {literal.atom for literal in falsified.literals} - {ROOT}
        for entry in reversed(self.trail[:end]):
            if entry.atom not in seen:
                continue
            if entry.value and isinstance(entry.atom, Version) and (entry.level < self.first_level or entry.atom == goal):
                kept.append(no(entry.atom))
            else:
                causes.append(entry.clause)
                seen |= {literal.atom for literal in entry.clause.literals} - {ROOT}
        return kept, causes
