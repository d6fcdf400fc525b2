#!/usr/bin/env python3
"""Checks that C, Python and Rust get the program's bytes from the archives, and the other promises of bindings/c/resolve.h.

Usage: checks/embedding.py [PATH OF THE PROGRAM] [FOLDER OF THE ARCHIVES]
Defaults: crates/resolve/out/resolve (which `rt run` leaves) and out/embedding (which bindings/archives.sh makes).
Needs cc, cargo (offline) and valgrind; a missing one is reported and left out. Status 1 where something isn't as promised.

Over all rows of crates/resolve_rows/data these give the same ending and bytes: the program, C, C with the judge's archive, Python
over the shared object and over the program, and Rust. Over the small ones C tries every room that is too short, each allocation
refused in turn, and eight threads at once. It makes 10,000 calls under valgrind, which must leak nothing. Each small pair is given
a budget of 0, 1, 2, .. by C, Python and Rust. All three give up below one number, and from it on give the answer without a budget.
The tests that the packages in Python and Rust bring are run too. `--times` prints what a call costs beside a run of the program.
"""
import os
import resource
import shutil
import statistics
import subprocess
import sys
import tempfile

from base import CHECKS, EXAMPLES, TOP, ask, must, program_of
from rows import all_rows

sys.path.insert(0, os.path.join(TOP, "bindings/python"))
import resolve  # noqa: E402

ENDINGS = {b"cannot read\n": 3, b"too long\n": 4, b"no memory\n": 5, b"no ids\n": 6}
SMALL = 3_000


def records(cases):
    """What checks/embedding.c and the example `records` of the Rust crate read."""
    return b"".join(
        b" ".join([b"solve" if len(texts) == 2 else b"judge", *(b"%d" % len(text) for text in texts)]) + b"\n" + b"".join(texts)
        for texts in cases
    )


def answers(output):
    """What they print: endings and texts."""
    at, found = 0, []
    while at < len(output):
        end = output.index(b"\n", at)
        ending, length = map(int, output[at:end].split())
        found.append((ending, output[end + 1:end + 1 + length]))
        at = end + 1 + length
    return found


def program_answer(program, folder, texts):
    status, output = ask(program, folder, texts)
    return (ENDINGS[output], b"") if output in ENDINGS else (status, output)


def python_answer(backend, texts):
    try:
        return backend.solve(*texts) if len(texts) == 2 else backend.judge(*texts)
    except resolve.TooLong:
        return 4, b""
    except MemoryError:
        return 5, b""
    except resolve.NoIds:
        return 6, b""


def run(command, cases, *words):
    ended = subprocess.run([command, *words], input=records(cases), stdout=subprocess.PIPE, check=False)
    must(ended.returncode == 0, f"{command} {' '.join(words)} ended with {ended.returncode}")
    return ended.stdout


def compiled(archives, name, folder, *flags):
    path = os.path.join(folder, name)
    wrap = "-Wl,--wrap=malloc,--wrap=realloc,--wrap=free"
    words = ["-O1", "-g", "-pthread", "-I", os.path.join(TOP, "bindings/c"), "-o", path, os.path.join(CHECKS, "embedding.c"), *flags]
    subprocess.run(["cc", *words, wrap, os.path.join(archives, f"lib{name}.a")], check=True)
    return path


def rust_example(archives, folder, name):
    environment = {**os.environ, "RESOLVE_LIB_DIR": archives, "CARGO_TARGET_DIR": os.path.join(folder, "target")}
    subprocess.run(["cargo", "build", "--offline", "--quiet", "--example", name], cwd=os.path.join(TOP, "bindings/rust"),
                   env=environment, check=True)
    return os.path.join(folder, "target/debug/examples", name)


def compare(what, rows, expected, found):
    must(len(found) == len(expected), f"{what}: {len(found)} answers of {len(expected)}")
    for (name, _), right, got in zip(rows, expected, found):
        must(right == got, f"{what}: {name}", right, got)
    print(f"{what}: {len(found)} answers as the program's")


def check_rows(program, archives, folder):
    rows = list(all_rows())
    cases = [texts for _, texts in rows]
    expected = [program_answer(program, folder, texts) for texts in cases]
    compare("C", rows, expected, answers(run(compiled(archives, "resolve", folder), cases, "answers")))
    judged = [row for row in rows if len(row[1]) == 3]
    right = [answer for row, answer in zip(rows, expected) if len(row[1]) == 3]
    alone = compiled(archives, "resolve_judge", folder, "-DJUDGE_ALONE")
    compare("C, the judge alone", judged, right, answers(run(alone, [texts for _, texts in judged], "answers")))
    library = resolve.Library(os.path.join(archives, "libresolve.so"))
    compare("Python", rows, expected, [python_answer(library, texts) for texts in cases])
    few = rows[::10]
    compare("Python over the program", few, expected[::10], [python_answer(resolve.Program(program), texts) for _, texts in few])
    if shutil.which("cargo"):
        compare("Rust", rows, expected, answers(run(rust_example(archives, folder, "records"), cases, "answers")))
    else:
        print("no cargo: Rust left out")


def check_wrappers(program, archives, folder):
    """The tests that the packages in Python and Rust bring: over the shared object, over the program, and over the archive."""
    words = [sys.executable, "-m", "unittest", "discover", "-q", "tests"]
    library = os.path.join(archives, "libresolve.so")
    for environment in ({"RESOLVE_LIBRARY": library}, {"RESOLVE_LIBRARY": "/nonexistent", "RESOLVE": program}):
        subprocess.run(words, cwd=os.path.join(TOP, "bindings/python"), env={**os.environ, **environment}, check=True)
    if shutil.which("cargo"):
        environment = {**os.environ, "RESOLVE_LIB_DIR": archives, "CARGO_TARGET_DIR": os.path.join(folder, "target")}
        subprocess.run(["cargo", "test", "--offline", "--quiet"], cwd=os.path.join(TOP, "bindings/rust"), env=environment, check=True)
    print("the tests of the packages in Python and Rust pass")


def examples():
    for catalogue, request in EXAMPLES:
        texts = []
        for name in (f"{catalogue}.catalogue", f"{request}.request", f"{request}.report"):
            with open(os.path.join(TOP, "examples", name), "rb") as file:
                texts.append(file.read())
        yield tuple(texts[:2])
        yield tuple(texts)


def check_memory(archives, folder):
    """What no row shows: rooms, refused allocations, threads, lost memory."""
    runner = compiled(archives, "resolve", folder)
    small = [texts for _, texts in all_rows() if sum(map(len, texts)) <= SMALL] + list(examples())
    run(runner, small, "rooms", "400")
    print(f"every room up to 400 bytes, over {len(small)} texts")
    print(run(runner, small[::3] + list(examples()), "refused").decode(), end="")
    run(runner, small, "threads", "8")
    print("eight threads at once")
    if shutil.which("valgrind"):
        words = ["--quiet", "--error-exitcode=9", "--leak-check=full", "--show-leak-kinds=all", "--errors-for-leak-kinds=all"]
        ended = subprocess.run(["valgrind", *words, runner, "again", "10000"], input=records(list(examples())), check=False)
        must(ended.returncode == 0, f"valgrind ended with {ended.returncode}")
        print("10,000 calls under valgrind: nothing invalid, nothing lost")
    else:
        print("no valgrind: left out")


def python_budget(library, texts):
    """The least budget with which a pair is answered, and then as without one."""
    budget = 0
    while True:
        try:
            found = library.solve(*texts, budget)
        except resolve.GivenUp:
            budget += 1
            continue
        except (resolve.TooLong, resolve.NoIds):
            return budget
        must(found == library.solve(*texts), "Python: another answer within a budget", texts)
        return budget


def check_budgets(archives, folder):
    """Below one number a call gives up with nothing written, and from it on it answers as without a budget."""
    pairs = [texts for _, texts in all_rows() if len(texts) == 2 and sum(map(len, texts)) <= SMALL]
    pairs += [texts for texts in examples() if len(texts) == 2]
    # a chain, in which each package needs the next one
    chains = [b"".join(b"version p%d 1\nneeds p%d\n" % (n, n + 1) for n in range(count)) + b"version p%d 1\n" % count for count in range(1, 40)]
    pairs += [(chain, b"needs p0\n") for chain in chains]
    by_c = [int(line) for line in run(compiled(archives, "resolve", folder), pairs, "budgets").split()]
    must(len(by_c) == len(pairs), "budgets of C", len(by_c), len(pairs))
    library = resolve.Library(os.path.join(archives, "libresolve.so"))
    must([python_budget(library, texts) for texts in pairs] == by_c, "Python needs other budgets than C")
    if shutil.which("cargo"):
        by_rust = [int(line) for line in run(rust_example(archives, folder, "records"), pairs, "budgets").split()]
        must(by_rust == by_c, "Rust needs other budgets than C")
    links = by_c[-len(chains):]
    must(len({after - before for before, after in zip(links, links[1:])}) == 1, "a chain's links don't cost the same", links)
    print(f"budgets of 0, 1, 2, .. over {len(pairs)} pairs: {sum(by_c)} calls gave up; a link of a chain costs {links[1] - links[0]}, the most needed was {max(by_c)}")


def seconds(work, times=5):
    """Processor seconds of this process and its children, median of some."""
    def used():
        return sum(sum(resource.getrusage(who)[:2]) for who in (resource.RUSAGE_SELF, resource.RUSAGE_CHILDREN))

    found = []
    for _ in range(times):
        before = used()
        work()
        found.append(used() - before)
    return statistics.median(found)


def print_times(program, archives, folder):
    """A call from C and from Python beside a run of the program, for empty texts and for large ones."""
    runner = compiled(archives, "resolve", folder)
    library = resolve.Library(os.path.join(archives, "libresolve.so"))
    large = b"".join(b"version p%d 1\nneeds p%d\n" % (n, n + 1) for n in range(100_000)) + b"version p100000 1\n"
    print("| texts | bytes | the program, ms | from C, ms | from Python, ms |\n|---|---|---|---|---|")
    for name, texts, calls in (("empty", (b"", b""), 10_000), ("a chain of 100,000", (large, b"needs p0\n"), 3)):
        whole = seconds(lambda: program_answer(program, folder, texts))
        by_c = statistics.median(float(run(runner, [texts], "times", str(calls))) / calls for _ in range(5))
        by_python = seconds(lambda: [python_answer(library, texts) for _ in range(calls)]) / calls
        print(f"| {name} | {sum(map(len, texts))} | {1000 * whole:.3f} | {1000 * by_c:.4f} | {1000 * by_python:.4f} |")


def main():
    words = [word for word in sys.argv[1:] if word != "--times"]
    program = program_of(words, 0)
    archives = os.path.abspath(words[1] if len(words) > 1 else os.path.join(TOP, "out/embedding"))
    with tempfile.TemporaryDirectory() as folder:
        if "--times" in sys.argv:
            print_times(program, archives, folder)
            return
        check_wrappers(program, archives, folder)
        check_rows(program, archives, folder)
        check_memory(archives, folder)
        check_budgets(archives, folder)
    print("as promised")


if __name__ == "__main__":
    main()
