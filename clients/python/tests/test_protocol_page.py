"""Each example of docs/PROTOCOL.md is in some vector: the tables of requests and replies, of inputs, and of places."""

from __future__ import annotations

import re
import unittest
from typing import Dict, Iterator, List, Sequence, Tuple

from corktarn import Incomplete, Malformed
from corktarn.wire import GREETING, Scanner, read_reply, read_request, write_reply, write_request
from tests.places import TOP
from tests.vectors import Vector, read_vectors

_STANDS_FOR = (
    ("PUBLINK", "0.1.1.0.1.0.2.0.2.1~"),
    ("PUB", "0.1.1.0.1.0.2~"),
    ("LINK", "0.1.1.0.1.0.1.0.2.1~"),
    ("DOC", "0.1.1.0.1.0.1~"),
)

_CODE = re.compile(r"`([^`]+)`")

Row = Dict[str, str]


def _rows() -> Iterator[Row]:
    """The rows of the page's tables, by the names of their columns."""
    names: List[str] = []
    for line in (TOP / "docs" / "PROTOCOL.md").read_text(encoding="utf-8").splitlines():
        cells = [cell.strip() for cell in line.strip("|").split("|")]
        if not line.startswith("|"):
            names = []
        elif not names:
            names = cells
        elif set(line) - set("|-"):
            yield dict(zip(names, cells))


def _code(cell: str) -> bytes:
    """The bytes that a cell shows, one code behind the other."""
    shown = "".join(_CODE.findall(cell)).replace(" ", "")
    for name, address in _STANDS_FOR:
        shown = shown.replace(name, address)
    return shown.encode("ascii")


def _requests(data: bytes) -> List[bytes]:
    scanner = Scanner.over(data[len(GREETING) :] if data.startswith(GREETING) else data)
    asked: List[bytes] = []
    while scanner.has_more():
        asked.append(write_request(read_request(scanner)))
    return asked


def _replies(data: bytes, count: int) -> List[bytes]:
    """So many replies. The page may say more behind them."""
    scanner = Scanner.over(data[len(GREETING) :] if data.startswith(GREETING) else data)
    return [write_reply(read_reply(scanner)) for _ in range(count)]


def _exchanges(vector: Vector) -> List[Tuple[bytes, bytes]]:
    """The whole requests of a vector beside their replies."""
    scanner = Scanner.over(vector.input)
    asked: List[bytes] = []
    try:
        scanner.expect(GREETING)
        while len(asked) < len(vector.replies) - 1:
            asked.append(write_request(read_request(scanner)))
    except (Incomplete, Malformed):
        pass
    return list(zip(asked, vector.replies[1:]))


def _stands_in(part: Sequence[Tuple[bytes, bytes]], whole: Sequence[Tuple[bytes, bytes]]) -> bool:
    return any(list(whole[start : start + len(part)]) == list(part) for start in range(len(whole)))


class EachExample(unittest.TestCase):
    def test_requests_and_replies(self) -> None:
        sessions = list(map(_exchanges, read_vectors()))
        rows = [row for row in _rows() if _code(row.get("Request", "")) and _code(row.get("Reply", ""))]
        self.assertGreater(len(rows), 30)
        for row in rows:
            with self.subTest(row["Request"]):
                asked = _requests(_code(row["Request"]))
                part = list(zip(asked, _replies(_code(row["Reply"]), len(asked))))
                self.assertTrue(any(_stands_in(part, whole) for whole in sessions))

    def test_inputs_and_statuses(self) -> None:
        known = {(it.input, it.output, it.status, it.place) for it in read_vectors()}
        rows = [row for row in _rows() if "Input" in row and "Status" in row]
        self.assertGreater(len(rows), 5)
        for row in rows:
            with self.subTest(row["Input"]):
                data = _code(row["Input"]) + (b"\n" if "line end" in row["Input"] else b"")
                numbers = [*map(int, re.findall("[0-9]+", row["Status"])), None]
                self.assertIn((data, _code(row["Output"]), numbers[0], numbers[1]), known)

    def test_places(self) -> None:
        known = {(it.input, it.place) for it in read_vectors()}
        rows = [row for row in _rows() if "Bytes" in row and "Place" in row]
        self.assertGreater(len(rows), 10)
        for row in rows:
            with self.subTest(row["Bytes"]):
                place = int(row["Place"]) + len(GREETING)
                self.assertIn((GREETING + _code(row["Bytes"]), place), known)
