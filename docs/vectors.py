#!/usr/bin/env python3
"""Writes docs/vectors.txt from the tables of rows in crates/worked_rows, or with --check tells where the two differ.

The rows are sessions beside what they have to be answered. Their values were worked out from the rules of the protocol;
the crate's tests hold the program against them, and the file has them for every other implementation.
"""

from __future__ import annotations

import argparse
import difflib
import re
import shlex
import sys
from pathlib import Path
from typing import Any, Dict, Iterator, List, NamedTuple, Optional, Sequence, Tuple

DOCS = Path(__file__).resolve().parent
ROWS = DOCS.parent / "crates" / "worked_rows" / "src"
VECTORS = DOCS / "vectors.txt"

HEAD = """\
# Sessions beside what they are answered, for whoever writes a front end or another back end. The rules are in
# docs/PROTOCOL.md. docs/vectors.py writes this file from the tables in crates/worked_rows, whose tests hold the
# program of this repository to them.
#
# A line is a session: its name, the words behind the program's name, its input, the replies, the status, and the
# place that the status names. A tab stands between these, and - for one that is not there. FOLDER is a new, empty
# folder. In input and replies a space parts requests and is no byte; \\xHH is the byte with these two digits.
"""

DOCUMENT = "0.1.1.0.1.0.1"
"""What the letter A of a row stands for."""


class Vector(NamedTuple):
    """A session: how the program is called, what it reads and writes, and how it ends."""

    name: str
    words: Tuple[str, ...]
    input: str
    replies: str
    status: int
    place: Optional[int]

    def line(self) -> str:
        """The vector as a line of the file."""
        words = " ".join(map(shlex.quote, self.words))
        place = "-" if self.place is None else str(self.place)
        parts = (self.name, words, self.input, self.replies, str(self.status), place)
        return "\t".join(part or "-" for part in parts)


TOKEN = re.compile(
    r"""\s+ | //[^\n]*
        | (?P<text>"(?:[^"\\]|\\.)*")
        | (?P<number>[0-9][0-9_]*)
        | (?P<name>[A-Za-z_][A-Za-z_0-9]*)
        | (?P<sign>[&\[\](),;])""",
    re.VERBOSE | re.DOTALL,
)

CONSTANT = re.compile(r"^(?:pub\(crate\) )?const ([A-Z_]+): [^=]*= ", re.MULTILINE)


class Constants:
    """The constants of source files that are texts, numbers, names of others, and lists of these."""

    def __init__(self, *files: str) -> None:
        self._sources: Dict[str, str] = {}
        for file in files:
            source = (ROWS / file).read_text(encoding="utf-8")
            for found in CONSTANT.finditer(source):
                self._sources[found.group(1)] = source[found.end() :]

    def __getitem__(self, name: str) -> Any:
        return self._value(_tokens(self._sources[name]))

    def _value(self, tokens: Iterator[Tuple[str, str]]) -> Any:
        kind, token = next(tokens)
        while token == "&":
            kind, token = next(tokens)
        if kind == "text":
            return _unquoted(token)
        if kind == "number":
            return int(token.replace("_", ""))
        if kind == "name":
            return self[token]
        if token in "([":
            return self._items(tokens, {"(": ")", "[": "]"}[token])
        raise ValueError(f"no constant's value begins with {token}")

    def _items(self, tokens: Iterator[Tuple[str, str]], closing: str) -> Tuple[Any, ...]:
        """The items up to the closing bracket, each with a comma behind it, or none behind the last."""
        items: List[Any] = []
        rest = _Ahead(tokens)
        while rest.peek()[1] != closing:
            items.append(self._value(rest))
            if rest.peek()[1] == ",":
                next(rest)
        next(rest)
        return tuple(items)


class _Ahead(Iterator[Tuple[str, str]]):
    """Tokens of which the next can be seen before it is taken."""

    def __init__(self, tokens: Iterator[Tuple[str, str]]) -> None:
        self._tokens = tokens
        self._held: List[Tuple[str, str]] = []

    def peek(self) -> Tuple[str, str]:
        """The next token, which is left."""
        if not self._held:
            self._held.append(next(self._tokens))
        return self._held[0]

    def __next__(self) -> Tuple[str, str]:
        return self._held.pop() if self._held else next(self._tokens)


def _tokens(source: str) -> Iterator[Tuple[str, str]]:
    """The kinds and texts of the source's tokens."""
    at = 0
    while at < len(source):
        found = TOKEN.match(source, at)
        if found is None:
            raise ValueError(f"no token: {source[at : at + 20]!r}")
        at = found.end()
        if found.lastgroup:
            yield found.lastgroup, found.group()


def _unquoted(token: str) -> str:
    """The text that a literal stands for. Behind a backslash at a line's end the next line's spaces are dropped."""
    joined = re.sub(r"\\\n\s*", "", token[1:-1]).replace("\\n", "\n")
    if "\\" in joined:
        raise ValueError(f"an escape in {token}")
    return joined


def spelled(row: str) -> str:
    """A row's requests or replies in the file's form."""
    parts = filter(None, row.replace("A", DOCUMENT).split(" "))
    return " ".join("".join(map(_escaped, part)) for part in parts)


def _escaped(letter: str) -> str:
    return letter if letter.isprintable() and letter != "\\" else f"\\x{ord(letter):02x}"


def session(name: str, row: Sequence[Any], status: int = 0, words: Sequence[str] = ("FOLDER",)) -> Vector:
    """The vector of a row of input and output and perhaps a place."""
    place = row[2] if len(row) > 2 and status in (3, 4) else None
    return Vector(name, tuple(words), spelled(row[0]), spelled(row[1]), status, place)


def steps(name: str, row: Sequence[Tuple[int, str, str]]) -> Vector:
    """The vector of a row of steps that one session makes."""
    if any(of != 1 for of, _, _ in row):
        raise ValueError(f"{name} has several sessions")
    asked = " ".join(("P0~", *(requests for _, requests, _ in row)))
    told = " ".join(("P0~", *(replies for _, _, replies in row)))
    return session(name, (asked, told))


def words_of(row: Sequence[str]) -> Tuple[str, ...]:
    """The words behind the program's name, with FOLDER for a folder."""
    return tuple("FOLDER" if word in (".", "work") else word for word in row[1:])


def numbered(name: str, rows: Sequence[Any]) -> Iterator[Tuple[str, Any]]:
    """The rows with their names: the table's, and their number where there are several."""
    for number, row in enumerate(rows, 1):
        yield (f"{name}-{number}" if len(rows) > 1 else name), row


def vectors() -> Iterator[Vector]:
    """All vectors, table by table."""
    whole = Constants("runs.rt", "rows.rt")
    yield session("hello", (whole["HELLO"], whole["HELLO_ANSWERED"]))
    for table, status in (("WHOLE", 0), ("MALFORMED", 3), ("TRUNCATED", 4)):
        for name, row in numbered(table.lower(), whole[table]):
            yield session(name, row, status)
    examples = Constants("protocol_rows.rt")
    for table in ("INPUTS", "REQUESTS", "PLACES", "TUMBLERS", "REPLIES"):
        for name, (asked, told, status, place) in numbered(f"example-{table.lower()}", examples[table]):
            yield session(name, (asked, told, place), status)
    told = Constants("tables.rt")
    for table in ("EDITS", "VERSIONS", "LINKS", "ACCESS"):
        for name, row in numbered(table.lower(), told[table]):
            yield steps(name, row)
    alone = [row for row in told["PRIVATE"] if all(of == 1 for of, _, _ in row)]
    for name, row in numbered("private", alone):
        yield steps(name, row)
    for name, (entries, text, row) in numbered("limited", told["LIMITED"]):
        yield steps(name, row)._replace(words=("FOLDER", "--limits", str(entries), str(text), "256"))
    for name, row in numbered("wrong-words", Constants("faults.rt")["WRONG"]):
        yield session(name, ("P0~ 16~", ""), 2, words_of(row))


def text() -> str:
    """What the file has to be."""
    return HEAD + "".join(f"{vector.line()}\n" for vector in vectors())


def main() -> int:
    """Writes the file, or checks it."""
    parser = argparse.ArgumentParser(description=__doc__)
    parser.add_argument("--check", action="store_true", help="write nothing, and fail where the file is another")
    wanted = text()
    if not parser.parse_args().check:
        VECTORS.write_text(wanted, encoding="ascii")
        return 0
    found = VECTORS.read_text(encoding="ascii") if VECTORS.exists() else ""
    differing = difflib.unified_diff(
        found.splitlines(), wanted.splitlines(), "docs/vectors.txt", "crates/worked_rows", lineterm="", n=0
    )
    lines = list(differing)
    print("\n".join(lines) if lines else f"docs/vectors.txt: {wanted.count(chr(10)) - HEAD.count(chr(10))} vectors")
    return 1 if lines else 0


if __name__ == "__main__":
    sys.exit(main())
