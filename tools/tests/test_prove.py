"""Which crates are proved with a program."""
import os
import subprocess
import sys
import tempfile
import unittest
from typing import Any, Dict, List, Tuple

from tools.prove import TOP, Task, chains, closure, copy, held, is_archive, lines_of, minutes, next_tasks, side_by_side, weights

LISTED = """# the lowest
low:
# with a library of the kit
middle: low indexmap
beside: low
archive staticlib: middle
top: middle low  # the program
"""

# the tasks that several processors help
WIDE = ("long", "next")


class Closures(unittest.TestCase):
    """What lies below a crate."""

    def test_order_is_that_of_the_lines(self) -> None:
        lines = lines_of(LISTED)
        self.assertEqual(closure(lines, "top"), ["low", "middle", "top"])
        self.assertEqual(closure(lines, "archive"), ["low", "middle", "archive"])
        self.assertEqual(closure(lines, "low"), ["low"])

    def test_comments_are_left_out(self) -> None:
        self.assertEqual(lines_of(LISTED)["top"], "top: middle low")

    def test_a_copy_of_one_library(self) -> None:
        with tempfile.TemporaryDirectory() as folder:
            self.assertEqual(copy(TOP, folder, "resolvo_literal_order"), ["resolvo_literal_order"])
            self.assertEqual(sorted(os.listdir(folder)), ["HANDLES", "crates", "crates.txt"])
            self.assertNotIn("must-fail", os.listdir(os.path.join(folder, "crates", "resolvo_literal_order")))

    def test_the_program_needs_no_crate_of_tests(self) -> None:
        with open(os.path.join(TOP, "crates.txt"), encoding="utf-8") as file:
            names = closure(lines_of(file.read()), "resolve")
        self.assertIn("resolvo_sat", names)
        self.assertFalse([name for name in names if "tests" in name or "rows" in name])


    def test_one_crate_is_a_library_for_c(self) -> None:
        self.assertEqual([name for name in ("resolve", "resolve_run", "resolve_c") if is_archive(TOP, name)], ["resolve_c"])


class Order(unittest.TestCase):
    """Which proof is next, and by how many processors."""

    def run_by(self, lanes: int, most: int) -> List[Tuple[str, int]]:
        done: List[Tuple[str, int]] = []
        waits = {"low": [], "short": ["low"], "long": ["low"], "top": ["short", "long"]}
        took = {"low": 1.0, "short": 1.0, "long": 5.0, "top": 1.0}

        def task(name: str) -> Task:
            return waits[name], 0, 0, lambda given, jobs: done.append((name, jobs))

        tasks = {name: task(name) for name in ("top", "short", "long", "low")}
        side_by_side(tasks, chains(tasks, took), waits, lambda: lanes, most)
        return done

    def test_the_longest_chain_is_first_and_has_two(self) -> None:
        done = dict(self.run_by(3, 4))
        self.assertEqual(done, {"low": 3, "long": 2, "short": 1, "top": 3})

    def test_the_longest_chain_keeps_two(self) -> None:
        chain = {"long": 5.0, "next": 4.0, "short": 1.0, "edit": 0.0, "other": 0.0, "last": 0.0}
        self.assertEqual(list(next_tasks(["short", "edit", "other"], {"long": 2}, chain, WIDE, 4, 4)), [("short", 1), ("edit", 1)])
        self.assertEqual(list(next_tasks(["next", "last"], {"short": 1, "edit": 1}, chain, WIDE, 4, 4)), [("next", 2)])
        self.assertEqual(list(next_tasks(["edit", "other", "last"], {}, chain, WIDE, 4, 4)), [("edit", 1), ("other", 1), ("last", 1)])

    def test_an_edit_has_one_processor(self) -> None:
        chain = {"edit": 5.0, "short": 1.0, "other": 1.0}
        self.assertEqual(list(next_tasks(["edit", "short", "other"], {}, chain, WIDE, 3, 4)), [("edit", 1), ("short", 1), ("other", 1)])
        self.assertEqual(list(next_tasks(["edit"], {}, chain, WIDE, 4, 4)), [("edit", 1)])

    def test_minutes_of_edits(self) -> None:
        names = [("a", "proof"), ("a", "tests"), ("a", "seed"), ("a", "edits", 0), ("a", "edits", 1), ("b", "proof"), ("b", "edits", 0), ("a", "sound")]
        tasks: Dict[Any, Task] = {name: ([], 3000, 0, lambda given, jobs: None) for name in names}
        known = minutes("# crate, kind, minutes\na proof 4.0\na edits 6.0\nb edits 3.0\n")
        self.assertEqual(list(weights(tasks, known).values()), [4.0, 2.0, 4.0, 1.0, 1.0, 2.0, 3.0, 0.0])

    def test_two_processors_are_shared(self) -> None:
        chain = {"long": 5.0, "short": 1.0, "edit": 0.0}
        self.assertEqual(list(next_tasks(["long", "short", "edit"], {}, chain, WIDE, 2, 4)), [("long", 1), ("short", 1)])
        self.assertEqual(list(next_tasks(["long"], {}, chain, WIDE, 2, 4)), [("long", 2)])

    def test_processors_that_come_later_are_used(self) -> None:
        begun: List[int] = []

        def task(name: str, waits: List[str]) -> Task:
            return waits, 0, 0, lambda given, jobs: begun.append(jobs)

        tasks = {"low": task("low", []), "top": task("top", ["low"])}
        free = iter((1, 3))
        side_by_side(tasks, chains(tasks, {"low": 1.0, "top": 1.0}), tasks, lambda: next(free, 3), 4)
        self.assertEqual(begun, [1, 3])

    def test_what_a_proof_holds_counts_as_free(self) -> None:
        words = [sys.executable, "-c", "block = bytearray(50_000_000); print(flush=True); input()"]
        with subprocess.Popen(words, stdin=subprocess.PIPE, stdout=subprocess.PIPE) as child:
            assert child.stdin and child.stdout
            child.stdout.readline()
            self.assertGreater(held(os.getpid()), 50_000_000)
            child.stdin.close()

    def test_one_processor_each(self) -> None:
        self.assertEqual(self.run_by(1, 1), [("low", 1), ("long", 1), ("short", 1), ("top", 1)])

    def test_each_crate_has_its_minutes(self) -> None:
        with open(os.path.join(TOP, "tools", "minutes.txt"), encoding="utf-8") as file:
            known = minutes(file.read())
        with open(os.path.join(TOP, "crates.txt"), encoding="utf-8") as file:
            lines = lines_of(file.read())
        self.assertFalse(set(closure(lines, "resolve")) - {name for name, _ in known})
        self.assertFalse({name for name, _ in known} - set(lines))
        edited = {name for name in lines if os.path.isdir(os.path.join(TOP, "crates", name, "must-fail"))}
        self.assertEqual(edited, {name for name, kind in known if kind == "edits"})


if __name__ == "__main__":
    unittest.main()
