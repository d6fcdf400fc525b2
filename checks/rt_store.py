#!/usr/bin/env python3
"""rt over a store of built libraries, for work on several crates or in several clones. The gate never uses it.

    checks/rt_store.py libs [CRATE ..]     builds the libraries (or those at and below the named crates) into the store, side by side
    checks/rt_store.py tests CRATE ..      proves and runs the crates' tests, as the gate does
    checks/rt_store.py front CRATE ..      the quick pass over the sources: what needs no proof to find
    checks/rt_store.py take                takes into the store the libraries that rt ci proved of this very text on this machine, where the
                                           kit keeps them (13f does, 13b doesn't)
    checks/rt_store.py plant [WORD ..]     `rt plant` in a crate's folder, over the store: by itself it proves each library below anew
    checks/rt_store.py WORD ..             anything else is done by rt, in a crate's folder, over the store

The first four run at the top of the repository. A library is kept as its statements, under a sum of its text and of what it
sees of the libraries below. So a library that didn't change is proved once for all clones. A change of proofs, or of a body, often
proves nothing above it again: only a change of what is seen does. A check of a crate keeps its work in out/, as under rt.

The store is the folder that RT_STORE names, else ~/.cache/resolve-libraries; its file `log` has the seconds of each build.
RT_LANES is how many processors `libs` uses (4). With RT_EXACT=1 a change of a body counts as a change of the library: a program
that is built over the store needs that. It patches rt's own functions, so another kit may need another form of it.
"""
import fcntl
import hashlib
import importlib.machinery
import importlib.util
import json
import os
import shutil
import subprocess
import sys
import tempfile
import threading
import time
import types
from concurrent.futures import FIRST_COMPLETED, ThreadPoolExecutor, wait

STORE = os.environ.get("RT_STORE", os.path.expanduser("~/.cache/resolve-libraries"))
loader = importlib.machinery.SourceFileLoader("rt_main", os.path.realpath(shutil.which("rt") or "/opt/rattle/bin/rt"))
spec = importlib.util.spec_from_loader("rt_main", loader)
rt = importlib.util.module_from_spec(spec)
sys.dont_write_bytecode = True
loader.exec_module(rt)
rtlib = rt.rtlib
made = rtlib.Crate.__init__
os.makedirs(STORE, exist_ok=True)


def content(rlib):
    """A sum of a built library's files, kept beside it."""
    kept = f"{os.path.dirname(rlib)}/sum"
    if os.path.isfile(kept):
        return open(kept).read()
    total = hashlib.sha256()
    for at, folders, files in sorted(os.walk(rlib)):
        folders.sort()
        for name in sorted(files):
            total.update(name.encode())
            with open(f"{at}/{name}", "rb") as it:
                total.update(hashlib.sha256(it.read()).digest())
    with open(kept + str(os.getpid()) + str(threading.get_ident()), "w") as it:
        it.write(total.hexdigest())
    os.replace(it.name, kept)
    return total.hexdigest()


EXACT = os.environ.get("RT_EXACT") == "1"


def visible(rlib):
    """A sum of what a crate above can see of a library in a check: its interface and statements, without bodies and their proofs."""
    kept = f"{os.path.dirname(rlib)}/visible"
    if os.path.isfile(kept):
        return open(kept).read()
    total = hashlib.sha256()
    for at, folders, files in sorted(os.walk(rlib)):
        folders.sort()
        inside = os.path.relpath(at, rlib) + "/"
        if inside.startswith("below/") or inside.startswith("lang/antt/proofs/") and inside != "lang/antt/proofs/":
            continue
        for name in sorted(files):
            if name in ("format", "mir.json", "checked.json"):
                continue
            total.update((inside + name).encode())
            with open(f"{at}/{name}", "rb") as it:
                total.update(hashlib.sha256(it.read()).digest())
    with open(kept + str(os.getpid()) + str(threading.get_ident()), "w") as it:
        it.write(total.hexdigest())
    os.replace(it.name, kept)
    return total.hexdigest()


def canonical(rlib, deps):
    """The first library of the store that a check can't tell from this one. Both were proved over the same libraries."""
    if EXACT or not os.path.isdir(rlib):
        return rlib
    over = hashlib.sha256(repr([visible(rlib), sorted(it.rlib for it in deps)]).encode()).hexdigest()
    index = f"{STORE}/seen/{os.path.basename(rlib)}-{over[:32]}"
    if os.path.isfile(index):
        first = open(index).read()
        if os.path.isdir(first):
            return first
    os.makedirs(os.path.dirname(index), exist_ok=True)
    part = index + str(os.getpid()) + str(threading.get_ident())
    with open(part, "w") as it:
        it.write(rlib)
    os.replace(part, index)
    return rlib


def stamp(self):
    if not getattr(self, "kept_stamp", None):
        self.kept_stamp = made_stamp(self)
    return self.kept_stamp


def made_stamp(self):
    """A sum of the kit, of the crate's text and of the libraries that it names."""
    total = hashlib.sha256(repr((rtlib.text_of(f"{rt.KIT}/KIT-ID"), self.name, sorted(self.of_kit), sorted(it.name for it in self.deps), self.has_c)).encode())
    for file in rtlib.files_of(self.folder):
        with open(file, "rb") as it:
            total.update(repr((file.replace(self.folder, ""), it.read())).encode())
    for dep in sorted(self.deps, key=lambda it: it.name):
        total.update((content(dep.rlib) if os.path.isdir(dep.rlib) else dep.stamp()).encode())
    return total.hexdigest()[:24]


def place(self, seen=None):
    """Names the crate's place in the store, after those of the crates below it."""
    seen = set() if seen is None else seen
    if self.name in seen:
        return
    seen.add(self.name)
    for dep in self.deps:
        place(dep, seen)
    self.kept_stamp = None
    if self.makes_rlib():
        self.rlib = canonical(f"{STORE}/{self.stamp()}/{self.name}.rlib", self.deps)


def init(self, *given, **named):
    made(self, *given, **named)
    self.kept_stamp = None
    if self.makes_rlib():
        self.rlib = canonical(f"{STORE}/{self.stamp()}/{self.name}.rlib", self.deps)


def is_built(self):
    return os.path.isdir(self.rlib)


def build_rlib(self, flags, anew):
    place(self)
    if self.is_built():
        return 0
    folder = os.path.dirname(self.rlib)
    with open(f"{STORE}/{os.path.basename(folder)}.lock", "w") as lock:
        fcntl.flock(lock, fcntl.LOCK_EX)
        if self.is_built():
            return 0
        part = f"{folder}.part"
        shutil.rmtree(part, ignore_errors=True)
        os.makedirs(part)
        begun = time.time()
        words = self.words(flags, keeps=False)
        status = self.call(rtlib.RATTLE, "build", *words, "--statements", "-o", f"{part}/{self.name}.rlib")
        if status == 0:
            os.rename(part, folder)
            content(self.rlib)
            with open(f"{STORE}/log", "a") as it:
                it.write(f"{time.strftime('%H:%M:%S')} {self.name} {time.time() - begun:.0f} s {folder} of {os.path.dirname(os.path.dirname(self.folder))}\n")
            self.rlib = canonical(self.rlib, self.deps)
        return status


rtlib.Crate.__init__ = init
rtlib.Crate.stamp = stamp
rtlib.Crate.is_built = is_built
rtlib.Crate.build_rlib = build_rlib


def libs(names):
    root = os.getcwd()
    rtlib.guarded()
    crates = rtlib.crates_below(root)
    if names:
        wanted = [it for it in crates if it.name in names]
        keep = {it.name for crate in wanted for it in [*crate.below(), crate]}
        crates = [it for it in crates if it.name in keep]
    crates = [it for it in crates if it.makes_rlib()]
    lanes = int(os.environ.get("RT_LANES", "4"))
    weight = {it.name: it.count(rb"\n") for it in crates}
    behind = dict(weight)
    for crate in sorted(crates, key=lambda it: -len(it.below())):
        for dep in crate.deps:
            behind[dep.name] = max(behind[dep.name], weight[dep.name] + behind[crate.name])
    left, done, failed, running = sorted(crates, key=lambda it: -behind[it.name]), set(), set(), {}

    def one(crate, jobs):
        with tempfile.TemporaryFile("w+", errors="replace") as crate.out:
            begun = time.time()
            status = crate.build_rlib(["--jobs", str(jobs)], True)
            crate.out.seek(0)
            said = crate.out.read()
        print(f"rt_store: {crate.name} {'built' if not status else 'FAILED'} in {time.time() - begun:.0f} s with {jobs} jobs" + (f"\n{said}" if status else ""), flush=True)
        return status

    with ThreadPoolExecutor(lanes) as pool:
        while left or running:
            for crate in list(left):
                if any(it.name in failed for it in crate.below()):
                    left.remove(crate)
                    failed.add(crate.name)
                    print(f"rt_store: {crate.name} waits for a failed library", flush=True)
            ready = [it for it in left if all(below.name in done for below in it.below())]
            idle = lanes - sum(jobs for _, jobs in running.values())
            for at, crate in enumerate(ready):
                if idle <= 0:
                    break
                # the longest chain goes first: what rests on it waits for it
                jobs = max(1, min(3, idle) if at == 0 else idle // (len(ready) - at))
                left.remove(crate)
                running[pool.submit(one, crate, jobs)] = crate, jobs
                idle -= jobs
            if not running:
                break
            for it in wait(running, return_when=FIRST_COMPLETED).done:
                crate, _ = running.pop(it)
                (failed if it.result() else done).add(crate.name)
    return 1 if failed else 0


def tests(names):
    """Proves and runs the crates' tests as rt ci does."""
    rtlib.guarded()
    status = 0
    for crate in rtlib.crates_below(os.getcwd()):
        if crate.name in names and crate.has_tests():
            for dep in crate.below():
                if dep.build_rlib(["--jobs", "1"], True):
                    return 1
            os.makedirs(f"{crate.folder}/out", exist_ok=True)
            crate.out = sys.stdout
            to = f"out/{crate.name}_tests"
            words = crate.words(["--jobs", os.environ.get("RT_STORE_JOBS", "1")], tests=True, keeps=False)
            failed = crate.call(rtlib.RATTLE, "build", *words, "--toolchain", f"{rt.KIT}/toolchain", "--backend", "llvm", "-o", f"{to}.o")
            if not failed:
                failed = crate.call(f"{rt.KIT}/bin/rattle-link", "--target", "x86_64-unknown-linux-gnu", "--toolchain", f"{rt.KIT}/toolchain", "-o", to, f"{to}.o", f"{rt.KIT}/c/libos_c.a", f"{rt.KIT}/c/liblibc_c.a")
                failed = failed or not rt.run(crate, True)
            status |= bool(failed)
    return status


def take():
    """Copies the libraries that the gate keeps of this text into the store, lowest first."""
    rtlib.guarded()
    if not hasattr(rt, "own_sum"):
        print("rt_store: this kit keeps no proofs of rt ci: `libs` builds the libraries", file=sys.stderr)
        return 1
    rt.Crate.allowed = rt.handles_of(os.getcwd())
    sums = {}
    for crate in rt.crates_of(os.getcwd()):
        if not crate.makes_rlib() or any(it.name not in sums for it in crate.below()):
            continue
        key = hashlib.sha256(repr((rt.own_sum(crate), [(it.name, sums[it.name]) for it in crate.below()])).encode()).hexdigest()
        kept = f"{rt.STORE}/proof-{crate.name}-{key}"
        if not os.path.isfile(f"{kept}/made.json"):
            continue
        with open(f"{kept}/made.json") as it:
            files = [tuple(pair) for pair in json.load(it)["files"]]
        sums[crate.name] = hashlib.sha256(repr(files).encode()).hexdigest()
        place(crate)
        if crate.is_built():
            continue
        folder = os.path.dirname(crate.rlib)
        part = f"{folder}.part{os.getpid()}"
        for number, (path, _) in enumerate(files):
            to = f"{part}/{path.removeprefix('rlib/')}"
            os.makedirs(os.path.dirname(to), exist_ok=True)
            rt.link_or_copy(f"{kept}/{number}", to)
        os.rename(part, folder)
        content(crate.rlib)
        crate.rlib = canonical(crate.rlib, crate.deps)
        print(f"rt_store: {crate.name} taken from the gate", flush=True)
    return 0


def plant(words):
    """Runs the kit's `rt plant` in this process, whose crates find the store. The kit runs it in another one."""
    path = f"{rt.KIT}/bin/rt-plant"
    with open(path, encoding="utf-8") as it:
        text = it.read()
    module = types.ModuleType("rt_plant")
    module.__file__, module.RTLIB = path, rtlib
    load = 'load("rtlib.py")'
    if load not in text:
        print("rt_store: this kit's rt plant has another form", file=sys.stderr)
        return 1
    exec(compile(text.replace(load, "RTLIB"), path, "exec"), module.__dict__)  # pylint: disable=exec-used
    return module.main(*words)


if __name__ == "__main__":
    if sys.argv[1:2] == ["plant"]:
        sys.exit(plant(sys.argv[2:]))
    if sys.argv[1:2] == ["libs"]:
        sys.exit(libs(sys.argv[2:]))
    if sys.argv[1:2] == ["tests"]:
        sys.exit(tests(sys.argv[2:]))
    if sys.argv[1:2] == ["front"]:
        # the quick pass over the sources: what needs no proof to find
        rtlib.guarded()
        for crate in rtlib.crates_below(os.getcwd()):
            if crate.name in sys.argv[2:]:
                words = crate.words(["--jobs", "1", "--only", ""], tests=crate.has_tests(), as_source=True)
                subprocess.run([rtlib.RATTLE, "check", *words], cwd=crate.folder)
        sys.exit(0)
    if sys.argv[1:2] == ["take"]:
        sys.exit(take())
    sys.exit(rt.main(sys.argv[1:]))
