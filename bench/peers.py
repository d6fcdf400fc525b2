"""Solvers that run beside `resolve`: each writes a problem in its own format, outside the time, and says what it answered."""
import os
import shutil

import problem as problems

INSTALL, REFUSED, STOPPED, NO_WORD = "install", "refused", "stopped", "no word"


class Solver:
    """A program over files of a folder; `answers` are its statuses."""

    keep = 0

    def __init__(self, name, program):
        self.name, self.program = name, shutil.which(program) if program else None

    def command(self, problem, folder):
        """Writes the problem's files into a folder; the words that solve them."""
        raise NotImplementedError

    def answer(self, run):
        """What a run answered."""
        return self.answers.get(run.status, STOPPED)


class Resolve(Solver):
    """The program of this repository."""

    answers = {0: INSTALL, 1: REFUSED}

    def command(self, problem, folder):
        with open(os.path.join(folder, "catalogue"), "w") as catalogue, open(os.path.join(folder, "request"), "w") as request:
            catalogue.write(problem.catalogue())
            request.write(problem.request())
        return [self.program, "solve", catalogue.name, request.name]


class Pubgrub(Solver):
    """bench/pubgrub, or another program that reads our texts, without wishes. It ends with 3 at a form for which PubGrub has no word: a
    need with alternatives of several packages, and a condition."""

    answers = {0: INSTALL, 1: REFUSED, 3: NO_WORD}

    def command(self, problem, folder):
        with open(os.path.join(folder, "catalogue"), "w") as catalogue, open(os.path.join(folder, "needs"), "w") as request:
            catalogue.write(problem.catalogue())
            request.write(problem.request(with_wishes=False))
        return [self.program, catalogue.name, request.name]


class Sat(Solver):
    """A SAT solver. The clauses are made beforehand: the bound of a search alone."""

    answers = {10: INSTALL, 20: REFUSED}

    def __init__(self, name, program, option):
        super().__init__(name, program)
        self.option = option

    def command(self, problem, folder):
        with open(os.path.join(folder, "clauses"), "w") as out:
            out.write(problems.Clauses(problem).text())
        return [self.program, self.option, out.name]


class Libsolv(Solver):
    """libsolv's testsolv. It reads text, as `resolve` does."""

    keep = 1 << 20

    def command(self, problem, folder):
        with open(os.path.join(folder, "repository"), "w") as repository, open(os.path.join(folder, "testcase"), "w") as case:
            repository.write(problems.repository(problem))
            case.write(problems.testcase(problem))
        return [self.program, "-r", case.name]

    def answer(self, run):
        if run.status:
            return STOPPED
        return INSTALL if "install the-request-1" in run.output else REFUSED


def all_of(resolve, pubgrub):
    """`resolve` first, then each peer; one that isn't there has no program."""
    peers = [Sat("minisat", "minisat", "-verb=0"), Sat("cadical", "cadical", "-q"), Libsolv("libsolv", "testsolv")]
    return [Resolve("resolve", resolve), *peers, Pubgrub("PubGrub", pubgrub or "solve-with-pubgrub")]
