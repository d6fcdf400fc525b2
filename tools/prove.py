#!/usr/bin/env python3
"""Proves the program, or a library, and the libraries below it side by side, and builds it.

Usage: tools/prove.py [--anew] [--object] [CRATE]     (default: resolve)

`rt run` proves one library after the other. This makes a copy of the crate with what lies below it, without wrong bodies and without
the crates of tests, and runs the gate (`rt ci`) over the copy. As many proofs run side by side as there are processors with 4 GB each,
by the memory that is free as a proof begins.
The proof that the longest chain of others waits for has two of them, or all where it is alone; how long a chain is, tools/minutes.txt says.
In a gate a chain ends with tests and wrong bodies, so what takes long of these isn't left to the end.
The others leave it as many of four as it has, so that the next of its chain has them too. `.ci/run` runs the whole gate in this order
(`--gate`).
RT_JOBS may name a number of proofs; then each has one processor.
What this machine has proved before is kept, and isn't proved again; with `--anew` it is. The proved program is then in
crates/CRATE/out, with `--object` beside its object file. Of a library for C (`resolve_c`) it is an archive. For an archive or an object
the crate's own proof is made once more.
The last lines are the verdict and the minutes. Status 1 where something isn't proved; then the repository is as it was.
"""
import importlib.machinery
import importlib.util
import os
import shutil
import subprocess
import sys
import tempfile
import time
from collections import Counter
from concurrent.futures import FIRST_COMPLETED, Future, ThreadPoolExecutor, wait
from typing import Any, Callable, Collection, Dict, Iterator, List, Sequence, Set, Tuple

TOP = os.path.dirname(os.path.dirname(os.path.abspath(__file__)))
PARTS = ("src", "specs", "proofs", "c", "data")
FILES = ("stdin", "stdout", "args", "status")
MEMORY = 4_000_000_000  # bytes of a proof by one processor
MOST = 4  # processors of one proof
KEPT = 2  # processors that the longest chain keeps, where there are as many for the others
THREADS = 64  # tasks that may run at once, whatever RT_JOBS says
PAGE = os.sysconf("SC_PAGE_SIZE")
LINES = 1500  # lines that are proved in a minute, where no run is known

# what it waits for, its lines, its memory, and what does it with so many processors
Task = Tuple[Sequence[Any], int, int, Callable[[Dict[Any, Any], int], Any]]


def lines_of(text: str) -> Dict[str, str]:
    """The lines of `crates.txt`, without comments, by the names of their crates."""
    lines = (line.split("#")[0].strip() for line in text.split("\n"))
    return {line.split()[0].rstrip(":"): line for line in lines if line}


def closure(lines: Dict[str, str], crate: str) -> List[str]:
    """The crate and those of the repository below it, in the order of the lines."""
    found: Set[str] = set()
    left = [crate]
    while left:
        name = left.pop()
        if name in lines and name not in found:
            found.add(name)
            left += lines[name].partition(":")[2].split()
    return [name for name in lines if name in found]


def copy(top: str, to: str, crate: str) -> List[str]:
    """Copies what the gate needs of these crates; their names."""
    with open(os.path.join(top, "crates.txt"), encoding="utf-8") as file:
        lines = lines_of(file.read())
    if crate not in lines:
        sys.exit(f"prove.py: crates.txt names no crate {crate}")
    names = closure(lines, crate)
    for name in names:
        source, target = os.path.join(top, "crates", name), os.path.join(to, "crates", name)
        for part in PARTS:
            if os.path.isdir(os.path.join(source, part)):
                shutil.copytree(os.path.join(source, part), os.path.join(target, part))
        for part in FILES:
            if os.path.isfile(os.path.join(source, part)):
                shutil.copyfile(os.path.join(source, part), os.path.join(target, part))
    with open(os.path.join(to, "crates.txt"), "w", encoding="utf-8") as file:
        file.writelines(f"{lines[name]}\n" for name in names)
    if os.path.isfile(os.path.join(top, "HANDLES")):
        shutil.copyfile(os.path.join(top, "HANDLES"), os.path.join(to, "HANDLES"))
    return names


def is_archive(top: str, crate: str) -> bool:
    """Whether `crates.txt` has the crate as a library for C."""
    with open(os.path.join(top, "crates.txt"), encoding="utf-8") as file:
        return "staticlib" in lines_of(file.read())[crate].partition(":")[0].split()


def minutes(text: str) -> Dict[Tuple[str, str], float]:
    """Processor minutes by crate and kind: `proof`, `tests`, and all `edits`."""
    rows = (line.split() for line in text.split("\n") if line and not line.startswith("#"))
    return {(name, kind): float(number) for name, kind, number in rows}


def weights(tasks: Dict[Any, Task], known: Dict[Tuple[str, str], float]) -> Dict[Any, float]:
    """The minutes of each task: those that are known, or by its lines. A crate with several edits is proved once more for them (`seed`)."""
    edits = Counter(key[0] for key in tasks if key[1] == "edits")

    def weight(key: Any) -> float:
        crate, kind = key[:2]
        unknown = tasks[key][1] / LINES
        if kind in ("proof", "tests"):
            return known.get((crate, kind), unknown)
        proof = known.get((crate, "proof"), 0.0)
        if kind == "seed":
            return proof
        if kind == "edits":
            before = proof if (crate, "seed") in tasks else 0.0
            return max(known.get((crate, kind), unknown) - before, 0.0) / edits[crate]
        return 0.0

    return {key: weight(key) for key in tasks}


def chains(tasks: Dict[Any, Task], weights: Dict[Any, float]) -> Dict[Any, float]:
    """The weight of the longest chain of tasks that each begins."""
    users: Dict[Any, List[Any]] = {key: [] for key in tasks}
    for key, task in tasks.items():
        for below in task[0]:
            users[below].append(key)
    found: Dict[Any, float] = {}

    def chain(key: Any) -> float:
        if key not in found:
            found[key] = weights[key] + max(map(chain, users[key]), default=0)
        return found[key]

    return {key: chain(key) for key in tasks}


def next_tasks(
    ready: Sequence[Any], running: Dict[Any, int], chain: Dict[Any, float], wide: Collection[Any], lanes: int, most: int
) -> Iterator[Tuple[Any, int]]:
    """Those of the ready tasks that begin now, each with its processors. The task that begins the longest chain has `KEPT` of them, if it
    is a wide one, and the others share the rest. So the next task of that chain has as many."""
    longest = max(chain[key] for key in (*ready, *running))
    held = sum(jobs for key, jobs in running.items() if chain[key] == longest)
    widest = most if any(key in wide and chain[key] == longest for key in (*ready, *running)) else 1
    kept = min(held or KEPT, KEPT, lanes // 2, widest) if longest and most > 1 else 0
    idle = lanes - sum(running.values())
    others = sum(jobs for key, jobs in running.items() if chain[key] < longest)
    for at, key in enumerate(ready):
        jobs = 1
        if chain[key] == longest > 0 and most > 1:
            jobs = max(1, min(widest, idle, max(kept, idle - (len(ready) - at - 1))))
        elif others >= lanes - kept:
            continue
        else:
            others += 1
        if jobs > idle:
            break
        idle -= jobs
        yield key, jobs


def held(root: int) -> int:
    """The bytes that the processes below this one hold."""
    below: Dict[int, List[int]] = {}
    sizes: Dict[int, int] = {}
    for name in filter(str.isdigit, os.listdir("/proc")):
        try:
            with open(f"/proc/{name}/stat", encoding="utf-8", errors="replace") as file:
                parent = int(file.read().rpartition(")")[2].split()[1])
            with open(f"/proc/{name}/statm", encoding="utf-8") as file:
                sizes[int(name)] = int(file.read().split()[1]) * PAGE
        except (OSError, IndexError, ValueError):
            continue  # it has ended
        below.setdefault(parent, []).append(int(name))
    found = list(below.get(root, ()))
    for process in found:
        found += below.get(process, ())
    return sum(sizes[process] for process in found)


def side_by_side(
    tasks: Dict[Any, Task], chain: Dict[Any, float], wide: Collection[Any], lanes: Callable[[], int], most: int
) -> Dict[Any, Any]:
    """Does each task once those that it waits for are done, those with the longest chain first; what each gave. Several processors help
    those that are wide. How many processors there are is asked anew whenever a task may begin."""
    left = sorted(tasks, key=lambda key: -chain[key])
    running: Dict[Future, Tuple[Any, int]] = {}
    given: Dict[Any, Any] = {}
    with ThreadPoolExecutor(THREADS) as pool:
        while left or running:
            ready = [key for key in left if all(below in given for below in tasks[key][0])]
            for key, jobs in list(next_tasks(ready, dict(running.values()), chain, wide, lanes(), most)):
                left.remove(key)
                running[pool.submit(tasks[key][3], given, jobs)] = key, jobs
            for future in wait(running, return_when=FIRST_COMPLETED).done:
                given[running.pop(future)[0]] = future.result()
    return given


def rt_module() -> Any:
    """The kit's command `rt`, as a module."""
    path = os.path.realpath(shutil.which("rt") or "/opt/rattle/bin/rt")
    loader = importlib.machinery.SourceFileLoader("rt_main", path)
    module = importlib.util.module_from_spec(importlib.util.spec_from_loader("rt_main", loader))
    sys.dont_write_bytecode = True
    loader.exec_module(module)
    return module


def build(folder: str, crate: str, file: str) -> int:
    """Builds the archive or the object of a crate over the libraries that the gate left in a folder. `rt lib` would prove each of them anew."""
    os.chdir(folder)
    module = rt_module()
    found = {it.name: it for it in module.crates_of(folder)}[crate]
    words = found.words(["--jobs", str(min(MOST, module.processors()))], keeps=False)
    command = [module.rtlib.RATTLE, "build", *words, "--toolchain", f"{module.KIT}/toolchain", "--backend", "llvm", "-o", f"out/{file}"]
    return subprocess.run(command, cwd=found.folder, check=False).returncode


def gate(folder: str, flags: List[str]) -> int:
    """Runs `rt ci` in a folder. By itself rt gives each proof one processor as long as others are ready, and the longest chain decides."""
    os.chdir(folder)
    module = rt_module()
    number = os.environ.get("RT_JOBS", "")
    most = 1 if number.isdigit() else MOST
    with open(os.path.join(TOP, "tools", "minutes.txt"), encoding="utf-8") as file:
        known = minutes(file.read())

    def lanes() -> int:
        if number.isdigit():
            return int(number)
        return max(1, min(module.processors(), int((module.free() + held(os.getpid())) // MEMORY)))

    def in_lanes(tasks: Dict[Any, Task]) -> Dict[Any, Any]:
        wide = {key for key in tasks if key[1] in ("proof", "seed")}
        return side_by_side(tasks, chains(tasks, weights(tasks, known)), wide, lanes, most)

    module.in_lanes = in_lanes
    return module.main(["ci", *flags])


def main(words: List[str]) -> int:
    """The command line."""
    if words[:1] == ["--gate"]:
        return gate(words[1], words[2:])
    if words[:1] == ["--build"]:
        return build(*words[1:])
    flags = [word for word in words if word == "--anew"]
    names = [word for word in words if word not in ("--anew", "--object")]
    if len(names) > 1 or names and names[0].startswith("-"):
        print(__doc__, end="")
        return 2
    crate = names[0] if names else "resolve"
    begun = time.monotonic()
    with tempfile.TemporaryDirectory(prefix="prove-") as folder:
        names = copy(TOP, folder, crate)
        subprocess.run(["git", "init", "-q", folder], check=True)
        print(f"prove.py: {len(names)} crates", flush=True)
        status = subprocess.run([sys.executable, os.path.abspath(__file__), "--gate", folder, *flags], check=False).returncode
        made, to = (os.path.join(at, "crates", crate, "out") for at in (folder, TOP))
        file = f"lib{crate}.a" if is_archive(folder, crate) else f"{crate}.o" if "--object" in words else ""
        if file and not status:
            status = subprocess.run([sys.executable, os.path.abspath(__file__), "--build", folder, crate, file], check=False).returncode
        built = [name for name in (crate, file) if name and os.path.isfile(os.path.join(made, name))]
        if not status:
            os.makedirs(to, exist_ok=True)
            for name in built:
                # (a program that is running can't be written over)
                shutil.copy(os.path.join(made, name), os.path.join(to, f"{name}.new"))
                os.replace(os.path.join(to, f"{name}.new"), os.path.join(to, name))
    minutes = (time.monotonic() - begun) / 60
    where = f"; it is crates/{crate}/out/{built[0]}" if built and not status else ""
    print(f"prove.py: {crate} and what lies below it {'NOT ' if status else ''}proved, in {minutes:.1f} minutes{where}")
    return 1 if status else 0


if __name__ == "__main__":
    sys.exit(main(sys.argv[1:]))
