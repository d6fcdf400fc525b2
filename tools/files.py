"""Files in and out, errors that name them, progress, and the program `resolve`.

A file is written whole or not at all: beside its place first, and then moved there. Pipes and devices are written as they are.
"""
from __future__ import annotations

import errno
import io
import os
import shutil
import stat
import subprocess
import sys
import tempfile
import threading
from contextlib import contextmanager
from typing import BinaryIO, Callable, Iterator, Optional

from tools.words import Fault, quoted, visible

SLOW = 1.0  # seconds after which people hear of a step
TOP = os.path.dirname(os.path.dirname(os.path.abspath(__file__)))
BEGINNINGS = {"solve": (b"install\n", b"refused\n"), "judge": (b"yes\n", b"no line ")}  # of what `resolve` prints, by its status
KEPT: dict[str, bytes] = {}  # what was read of files that can be read once


class Failure(Exception):
    """An error for people, in one line: `FILE: line N: reason`; status 2 is a fault, 1 a no. A text of a stranger that is in the reason
    can't drive a terminal."""

    def __init__(self, path: str, line: Optional[int], reason: str, status: int = 2) -> None:
        where = f"{path}: line {line}" if line else path
        super().__init__(visible(f"{where}: {reason}"))
        self.status = status


def shown_path(path: str) -> str:
    """The path for a message."""
    return "standard input" if path == "-" else path


def is_passing(path: str) -> bool:
    """Whether a file can be read just once: standard input, or a pipe."""
    try:
        return path == "-" or stat.S_ISFIFO(os.stat(path).st_mode)
    except OSError:
        return False


def read_bytes(path: str) -> bytes:
    """The bytes of a file; `-` is standard input."""
    if path in KEPT:
        raise Failure(shown_path(path), None, "can be one file alone, and was read already")
    try:
        with standard_input() if path == "-" else open(path, "rb") as source:
            data = source.read()
    except OSError as error:
        raise Failure(shown_path(path), None, f"can't be read: {error.strerror}") from None
    if is_passing(path):
        KEPT[path] = data
    return data


@contextmanager
def standard_input() -> Iterator[BinaryIO]:
    """Standard input, which stays open."""
    if sys.stdin is None:
        raise Failure(shown_path("-"), None, "can't be read: it is closed")
    yield sys.stdin.buffer


def read_again(path: str) -> bytes:
    """The bytes of a file that may have been read already."""
    return KEPT[path] if path in KEPT else read_bytes(path)


def open_bytes(path: str) -> BinaryIO:
    """A file to read piece by piece; one that can be read just once is read whole."""
    if is_passing(path):
        return io.BytesIO(read_bytes(path))
    try:
        return open(path, "rb")
    except OSError as error:
        raise Failure(shown_path(path), None, f"can't be read: {error.strerror}") from None


@contextmanager
def as_files(*paths: str) -> Iterator[list[str]]:
    """Paths for another program: what can be read just once is in a file, as it was read here."""
    with tempfile.TemporaryDirectory(prefix="resolve-tools-") as folder:
        found = list(paths)
        for at, path in enumerate(paths):
            if is_passing(path):
                found[at] = os.path.join(folder, str(at))
                replace_file(found[at], read_again(path))
        yield found


def write_bytes(path: Optional[str], data: bytes) -> None:
    """Writes standard output (None or `-`), or a file as a whole: nothing is changed where that fails."""
    if path is None or path == "-":
        write_output(data)
        return
    try:
        if is_device(path):
            with open(path, "wb") as out:
                out.write(data)
        else:
            replace_file(path, data)
    except OSError as error:
        raise Failure(path, None, f"can't be written: {error.strerror}") from None


def write_both(path: Optional[str], data: bytes, request_path: Optional[str], request: bytes) -> None:
    """Writes a catalogue, and its request where a file for that is named: of two plain files both or neither."""
    if request_path is None:
        write_bytes(path, data)
        return
    places = [each if each == "-" or is_device(each) else os.path.realpath(each) for each in (path or "-", request_path)]
    if places[0] == places[1] and not is_device(request_path):
        raise Failure("--request", None, f"{request_path} is the catalogue's place")
    if request_path == "-" or is_device(request_path):
        write_bytes(path, data)
        write_bytes(request_path, request)
        return
    try:
        if os.path.isdir(request_path):
            raise IsADirectoryError(errno.EISDIR, os.strerror(errno.EISDIR))
        beside = file_beside(request_path, request)
    except OSError as error:
        raise Failure(request_path, None, f"can't be written: {error.strerror}") from None
    try:
        write_bytes(path, data)
        move_to(beside, request_path)
    except BaseException:
        os.unlink(beside)
        raise


def move_to(beside: str, path: str) -> None:
    """Moves a new file to its place."""
    try:
        os.replace(beside, os.path.realpath(path))
    except OSError as error:
        raise Failure(path, None, f"can't be written: {error.strerror}") from None


def is_device(path: str) -> bool:
    """Whether a path is of something that is written as it is: a pipe or a device."""
    return os.path.exists(path) and not os.path.isfile(path) and not os.path.isdir(path)


def write_output(data: bytes) -> None:
    """Writes standard output."""
    if sys.stdout is None:
        raise Failure("standard output", None, "can't be written: it is closed")
    try:
        sys.stdout.buffer.write(data)
        sys.stdout.buffer.flush()
    except BrokenPipeError:
        raise
    except OSError as error:
        drop_output()
        raise Failure("standard output", None, f"can't be written: {error.strerror}") from None


def drop_output() -> None:
    """What is still to be written to standard output goes nowhere, so that Python doesn't try again as it ends."""
    try:
        os.dup2(os.open(os.devnull, os.O_WRONLY), sys.stdout.fileno())
    except OSError:
        pass


def status_of(command: Callable[[], None]) -> int:
    """Runs a command and gives its exit status; an error is a line on standard error."""
    KEPT.clear()
    try:
        command()
    except Failure as failure:
        complain(str(failure))
        return failure.status
    except BrokenPipeError:
        drop_output()
        return 2
    except MemoryError:
        complain("no memory")
        return 2
    except KeyboardInterrupt:
        return 130  # as a shell has it
    return 0


def complain(text: str) -> None:
    """A line on standard error, if that is open."""
    try:
        if sys.stderr is not None:
            print(f"tools: {text}", file=sys.stderr, flush=True)
    except OSError:
        pass


def replace_file(path: str, data: bytes) -> None:
    """Writes a new file beside the old one and moves it over that; the file keeps its links and its mode."""
    beside = file_beside(path, data)
    try:
        os.replace(beside, os.path.realpath(path))
    except BaseException:
        os.unlink(beside)
        raise


def file_beside(path: str, data: bytes) -> str:
    """A new file in the folder of another one, with its mode."""
    path = os.path.realpath(path)
    handle, beside = tempfile.mkstemp(prefix=".resolve-tools-", dir=os.path.dirname(path))
    try:
        with os.fdopen(handle, "wb") as out:
            out.write(data)
        os.chmod(beside, mode_of(path))
    except BaseException:
        os.unlink(beside)
        raise
    return beside


def mode_of(path: str) -> int:
    """The mode of a file, or that of a new one."""
    mask = os.umask(0)
    os.umask(mask)
    return stat.S_IMODE(os.stat(path).st_mode) if os.path.isfile(path) else 0o666 & ~mask


@contextmanager
def of_file(path: str) -> Iterator[None]:
    """Gives faults of a text the file that holds it."""
    try:
        yield
    except Fault as fault:
        raise Failure(shown_path(path), fault.line, fault.reason) from None


@contextmanager
def progress(what: str) -> Iterator[None]:
    """Reports on standard error what is in progress, if it takes longer than SLOW seconds."""
    timer = threading.Timer(SLOW, complain, [f"{what} .."])
    timer.daemon = True
    timer.start()
    try:
        yield
    finally:
        timer.cancel()


def find_program(given: Optional[str]) -> str:
    """The program: as given, or by the variable RESOLVE; else as `rt run` leaves it below the top, that of a release, or one on PATH."""
    named = given or os.environ.get("RESOLVE")
    below = [os.path.join(TOP, "crates", "resolve", "out", "resolve"), os.path.join(TOP, "bin", "resolve")]
    places = [named] if named else [*below, shutil.which("resolve") or below[0]]
    for path in places:
        if os.access(path, os.X_OK) and not os.path.isdir(path):
            return os.path.abspath(path)
    how = "`--resolve PATH` or the variable RESOLVE names it; else it is crates/resolve/out/resolve, bin/resolve of a release, or on PATH"
    raise Failure(places[0], None, f"isn't a program that can be run ({how})")


def run_program(given: Optional[str], *arguments: str) -> tuple[int, bytes]:
    """Runs `resolve` and gives its status and output; a fault that it prints is an error."""
    program = find_program(given)
    try:
        with progress(f"{os.path.basename(program)} {arguments[0]}"):
            done = subprocess.run([program, *arguments], capture_output=True, stdin=subprocess.DEVNULL)
    except OSError as error:
        raise Failure(program, None, f"can't be run: {error.strerror}") from None
    if done.returncode not in (0, 1):
        said = done.stdout.decode("utf-8", "replace").strip() or f"status {done.returncode}"
        raise Failure(program, None, f"{arguments[0]}: {said}")
    if not done.stdout.startswith(BEGINNINGS[arguments[0]][done.returncode]):
        said = quoted(done.stdout.decode("utf-8", "replace"))
        raise Failure(program, None, f"{arguments[0]}: isn't `resolve`: it prints {said} with status {done.returncode}")
    return done.returncode, done.stdout
