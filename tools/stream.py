"""JSON read from a file piece by piece, with the line at which each value begins.

An index of a hundred megabytes is read an entry at a time; what is faulty is named by its file and line.
"""
from __future__ import annotations

import codecs
import json
from typing import Any, Iterator

from tools.files import Failure, open_bytes, shown_path
from tools.words import MOST_DIGITS

PIECE = 2**18
BLANK = " \t\r\n"


class JsonStream:
    """The values of one file, from its begin to its end."""

    def __init__(self, path: str) -> None:
        self.path, self.text, self.at, self.line, self.ended = path, "", 0, 1, False
        self.bytes_read = 0
        self.file = open_bytes(path)
        self.decode = codecs.getincrementaldecoder("utf-8")().decode

    def close(self) -> None:
        """Closes the file."""
        self.file.close()

    def fail(self, reason: str, line: int | None = None) -> Failure:
        """An error at a line, or at the one that is read."""
        return Failure(shown_path(self.path), line or self.line, reason)

    def fill(self) -> None:
        """Reads on, the more the longer the value is that isn't read to its end."""
        kept = self.text[self.at:]
        try:
            piece = self.file.read(max(PIECE, len(kept)))
            more = self.decode(piece, final=not piece)
        except OSError as error:
            raise self.fail(f"can't be read: {error.strerror}") from None
        except UnicodeDecodeError as error:
            before = kept.count("\n") + error.object[:error.start].count(b"\n")
            raise self.fail("isn't UTF-8", self.line + before) from None
        self.text, self.at, self.ended = kept + more, 0, not piece

    def forward(self, end: int) -> None:
        """Goes on to a place of the text, counting lines."""
        self.line += self.text.count("\n", self.at, end)
        self.at = end

    def peek(self) -> str:
        """The next sign that isn't blank; nothing at the end of the file."""
        while True:
            end = self.at
            while end < len(self.text) and self.text[end] in BLANK:
                end += 1
            self.forward(end)
            if self.at < len(self.text):
                return self.text[self.at]
            if self.ended:
                return ""
            self.fill()

    def take(self, sign: str) -> None:
        """The next sign is this one."""
        if self.peek() != sign:
            raise self.fail(f"isn't JSON: `{sign}` is due" if self.peek() else f"ends where `{sign}` is due")
        self.at += 1

    def value(self) -> Any:
        """The next value, whole."""
        if not self.peek():
            raise self.fail("ends where a value is due")
        while True:
            try:
                found, end = json.JSONDecoder().raw_decode(self.text, self.at)
                if end < len(self.text) or self.ended:
                    self.forward(end)
                    return found
            except json.JSONDecodeError as error:
                if self.ended:
                    line = self.line + self.text.count("\n", self.at, error.pos)
                    raise self.fail(f"isn't JSON: {error.msg}", line) from None
            except ValueError:
                raise self.fail(f"has a number of more than {MOST_DIGITS} digits") from None
            except RecursionError:
                raise self.fail("is nested too deep") from None
            self.fill()

    def items(self) -> Iterator[tuple[int, Any]]:
        """The values of a list, each with its line."""
        self.take("[")
        if self.peek() == "]":
            self.take("]")
            return
        while True:
            self.peek()
            line = self.line
            yield line, self.value()
            if self.peek() == "]":
                self.take("]")
                return
            self.take(",")

    def members(self) -> Iterator[tuple[int, str]]:
        """The keys of an object, each with its line; who asks reads the value before the next key."""
        self.take("{")
        if self.peek() == "}":
            self.take("}")
            return
        while True:
            self.peek()
            line, key = self.line, self.value()
            if not isinstance(key, str):
                raise self.fail("isn't JSON: a key is a text", line)
            self.take(":")
            yield line, key
            if self.peek() == "}":
                self.take("}")
                return
            self.take(",")

    def lines(self) -> Iterator[tuple[int, Any]]:
        """Values one behind the other, as JSON lines are."""
        while self.peek():
            line = self.line
            yield line, self.value()

    def end(self) -> None:
        """Nothing follows."""
        if self.peek():
            raise self.fail("more follows behind the value")


def json_entries(path: str) -> Iterator[tuple[int, dict[str, Any]]]:
    """The objects of a JSON list, or of JSON lines, each with its line."""
    stream = JsonStream(path)
    try:
        is_list = stream.peek() == "["
        for line, value in stream.items() if is_list else stream.lines():
            if not isinstance(value, dict):
                raise stream.fail("an object is due", line)
            yield line, value
        if is_list:
            stream.end()
    finally:
        stream.close()


def field(entry: dict[str, Any], key: str, kind: type, missing: Any, where: tuple[str, int]) -> Any:
    """A field of an entry; null is as if it were missing, and any other kind of value is an error at its line."""
    value = entry.get(key)
    if value is None:
        if missing is ...:
            raise Failure(shown_path(where[0]), where[1], f"`{key}` is missing")
        return missing
    if not isinstance(value, kind) or (kind is int and isinstance(value, bool)):
        raise Failure(shown_path(where[0]), where[1], f"`{key}` isn't {KINDS[kind]}")
    return value


def texts_field(entry: dict[str, Any], key: str, where: tuple[str, int]) -> tuple[str, ...]:
    """A list of texts; missing it is empty."""
    values = field(entry, key, list, [], where)
    if not all(isinstance(value, str) for value in values):
        raise Failure(shown_path(where[0]), where[1], f"`{key}` isn't a list of texts")
    return tuple(values)


KINDS = {str: "a text", int: "a whole number", bool: "true or false", list: "a list", dict: "an object"}
