"""Where the calls go: a shared object made of the proved archive, or the program `resolve`."""
from __future__ import annotations

import ctypes
import operator
import os
import shutil
import subprocess
import tempfile
from typing import Optional, Protocol, Sequence, Union

HERE = os.path.dirname(os.path.abspath(__file__))
Bytes = Union[bytes, bytearray, memoryview]

# how a call ends: as bindings/c/resolve.h says; the first three have a text
TOO_LONG, NO_MEMORY, NO_IDS, GIVEN_UP = 4, 5, 6, 8
MOST_BUDGET = 2**64 - 1


class ResolveError(Exception):
    """No text was written."""


class Unavailable(ResolveError):
    """There is neither a shared object nor a program, the object can't be loaded, or the program failed."""


class TooLong(ResolveError):
    """A catalogue or a request has more than 2^24 bytes, or a report 2^30."""


class NoIds(ResolveError):
    """More numbers of a kind would be needed than there are."""


class GivenUp(ResolveError):
    """The budget was used up."""


class Backend(Protocol):
    """What answers: the ending 0, 1 or 2, and the text."""

    def solve(self, catalogue: Bytes, request: Bytes, budget: Optional[int] = None) -> tuple[int, bytes]: ...

    def judge(self, catalogue: Bytes, request: Bytes, report: Bytes) -> tuple[int, bytes]: ...


def bytes_of(text: Bytes) -> bytes:
    """The bytes of a text. A memoryview first: `bytes` takes a number too, and gives that many zeros."""
    return bytes(memoryview(text))


def lack(ending: int) -> Exception:
    """What to raise where there is no text."""
    if ending == TOO_LONG:
        return TooLong("too long")
    if ending == NO_MEMORY:
        return MemoryError("no memory")
    if ending == NO_IDS:
        return NoIds("no ids")
    if ending == GIVEN_UP:
        return GivenUp("given up")
    return Unavailable(f"resolve ended with {ending}")


# ---- the shared object


class CallResult(ctypes.Structure):
    _fields_ = [("ending", ctypes.c_uint32), ("length", ctypes.c_uint64)]


class Library:
    """The calls of a shared object. Other threads go on while a call runs."""

    def __init__(self, path: Union[str, "os.PathLike[str]"], room: int = 65_536) -> None:
        """`room` bytes are taken for a text at first; a longer text takes a second call. A path of no file goes to the loader as it is."""
        self.path = os.fspath(path)
        self.room = room
        try:
            # a name without a slash would be looked for in the system's folders alone
            loaded = ctypes.CDLL(os.path.abspath(self.path) if os.path.exists(self.path) else self.path)
            self._judge = loaded.resolve_judge
        except (OSError, AttributeError) as error:
            raise Unavailable(str(error)) from error
        text = [ctypes.c_char_p, ctypes.c_size_t]
        out = [ctypes.c_char_p, ctypes.c_size_t]
        self._judge.argtypes = text * 3 + out
        self._judge.restype = CallResult
        # an archive of the judge alone has no solver
        self._solve = getattr(loaded, "resolve_solve", None)
        if self._solve is not None:
            self._solve.argtypes = text * 2 + out
            self._solve.restype = CallResult
            self._solve_within = loaded.resolve_solve_within
            self._solve_within.argtypes = text * 2 + [ctypes.c_uint64] + out
            self._solve_within.restype = CallResult

    def _call(self, function, texts: Sequence[Bytes], *more: int) -> tuple[int, bytes]:
        arguments = [part for text in map(bytes_of, texts) for part in (text, len(text))] + list(more)
        room = self.room
        while True:
            out = ctypes.create_string_buffer(room) if room else None
            result = function(*arguments, out, room)
            if result.ending > 2:
                raise lack(result.ending)
            if result.length <= room:
                return result.ending, b"" if out is None else ctypes.string_at(out, result.length)
            room = result.length

    def solve(self, catalogue: Bytes, request: Bytes, budget: Optional[int] = None) -> tuple[int, bytes]:
        if self._solve is None:
            raise Unavailable(f"{self.path} has the judge alone")
        if budget is None:
            return self._call(self._solve, (catalogue, request))
        budget = operator.index(budget)
        if not 0 <= budget <= MOST_BUDGET:
            raise ValueError(f"a budget is a number from 0 to {MOST_BUDGET}, and this is {budget}")
        return self._call(self._solve_within, (catalogue, request), budget)

    def judge(self, catalogue: Bytes, request: Bytes, report: Bytes) -> tuple[int, bytes]:
        return self._call(self._judge, (catalogue, request, report))


# ---- the program


class Program:
    """The calls as runs of the program, over files in a folder that is removed again."""

    LAST_LINES = {b"too long\n": TOO_LONG, b"no memory\n": NO_MEMORY, b"no ids\n": NO_IDS}
    # how a text begins, by the status: another program named `resolve` doesn't answer so
    BEGINNINGS = {"solve": (b"install\n", b"refused\n", b"fault at "), "judge": (b"yes\n", b"no line ", b"fault at ")}

    def __init__(self, path: Union[str, "os.PathLike[str]"]) -> None:
        self.path = os.fspath(path)

    def _call(self, word: str, texts: Sequence[Bytes]) -> tuple[int, bytes]:
        with tempfile.TemporaryDirectory() as folder:
            paths = [os.path.join(folder, name) for name in ("catalogue", "request", "report")[:len(texts)]]
            for path, text in zip(paths, texts):
                with open(path, "wb") as file:
                    file.write(bytes_of(text))
            try:
                ended = subprocess.run([self.path, word, *paths], stdin=subprocess.DEVNULL, stdout=subprocess.PIPE, check=False)
            except OSError as error:
                raise Unavailable(str(error)) from error
        if ended.stdout in self.LAST_LINES and ended.returncode == 2:
            raise lack(self.LAST_LINES[ended.stdout])
        if ended.returncode not in (0, 1, 2) or not ended.stdout.startswith(self.BEGINNINGS[word][ended.returncode]):
            said = ended.stdout[:60].decode("utf-8", "replace").strip()
            raise Unavailable(f"{self.path} {word}: status {ended.returncode}, and it prints {said!r}")
        return ended.returncode, ended.stdout

    def solve(self, catalogue: Bytes, request: Bytes, budget: Optional[int] = None) -> tuple[int, bytes]:
        if budget is not None:
            raise Unavailable("the program has no budget: the shared object is needed")
        return self._call("solve", (catalogue, request))

    def judge(self, catalogue: Bytes, request: Bytes, report: Bytes) -> tuple[int, bytes]:
        return self._call("judge", (catalogue, request, report))


_default: Optional[Backend] = None


def default_backend() -> Backend:
    """The shared object that RESOLVE_LIBRARY names or that lies in this package; else the program that RESOLVE names, that
    lies in this package, or that is found on PATH. A RESOLVE_LIBRARY that isn't there is passed over for a RESOLVE alone."""
    global _default
    if _default is None:
        named = os.environ.get("RESOLVE_LIBRARY")
        library = named or os.path.join(HERE, "libresolve.so")
        program = os.environ.get("RESOLVE") or shutil.which("resolve", path=HERE) or shutil.which("resolve")
        if os.path.exists(library):
            _default = Library(library)
        elif named and not os.environ.get("RESOLVE"):
            raise Unavailable(f"RESOLVE_LIBRARY names {named}, which isn't there")
        elif program is not None:
            _default = Program(program)
        else:
            raise Unavailable("no shared object and no program: set RESOLVE_LIBRARY or RESOLVE")
    return _default
