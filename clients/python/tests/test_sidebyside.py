"""Two texts beside each other."""

from __future__ import annotations

import unittest
from typing import List, Tuple

from corktarn import Diagonal
from corktarn.sidebyside import Row, columns, lines_of, printable, rows_of, wrapped


def _shown(row: Row) -> Tuple[str, str, str]:
    left, right = ("".join(f"{it.number}{it.text.decode()}" for it in side) for side in (row.left, row.right))
    return left, "=" if row.is_same else "|", right


def _lines(left: bytes, right: bytes, *diagonals: Diagonal) -> List[str]:
    return list(lines_of(rows_of(left, right, diagonals), 35, lambda text, number: text))


class Rows(unittest.TestCase):
    def _check(self, left: bytes, right: bytes, diagonals: List[Diagonal], wanted: List[Tuple[str, str, str]]) -> None:
        rows = rows_of(left, right, diagonals)
        self.assertEqual([_shown(row) for row in rows], wanted)
        self.assertEqual(b"".join(it.text for row in rows for it in row.left), left)
        self.assertEqual(b"".join(it.text for row in rows for it in row.right), right)

    def test_nothing_to_show(self) -> None:
        self._check(b"", b"", [], [])

    def test_nothing_shared(self) -> None:
        self._check(b"ab", b"c", [], [("0ab", "|", "0c")])

    def test_a_shared_passage(self) -> None:
        self._check(
            b"abcdef", b"[cd]", [Diagonal(3, 2, 2)], [("0ab", "|", "0["), ("1cd", "=", "1cd"), ("0ef", "|", "0]")]
        )

    def test_a_passage_that_moved(self) -> None:
        self._check(
            b"abcdef",
            b"efabcd",
            [Diagonal(1, 3, 4), Diagonal(5, 1, 2)],
            [("", "|", "2ef"), ("1abcd", "=", "1abcd"), ("2ef", "|", "")],
        )

    def test_passages_that_overlap(self) -> None:
        # the text aabc of the content abc, beside itself
        diagonals = [Diagonal(1, 1, 4), Diagonal(1, 2, 1), Diagonal(2, 1, 1)]
        self._check(b"aabc", b"aabc", diagonals, [("1aabc", "=", "1aabc")])

    def test_a_passage_that_is_quoted_twice(self) -> None:
        self._check(b"ab", b"ab-ab", [Diagonal(1, 1, 2), Diagonal(1, 4, 2)], [("1ab", "=", "1ab"), ("", "|", "0-ab")])

    def test_the_heaviest_order_is_chosen(self) -> None:
        diagonals = [Diagonal(1, 8, 1), Diagonal(2, 1, 3), Diagonal(5, 4, 4), Diagonal(9, 9, 1)]
        rows = rows_of(b"abbbccccd", b"bbbccccad", diagonals)
        self.assertEqual([row.left[0].text for row in rows if row.is_same], [b"bbb", b"cccc", b"d"])


class Lines(unittest.TestCase):
    def test_lines_are_filled(self) -> None:
        told = _lines(b"one two three four", b"one two", Diagonal(1, 1, 7))
        self.assertEqual(told, ["  1 one two      =   1 one two", "     three four  |"])

    def test_text_is_wrapped(self) -> None:
        self.assertEqual(wrapped("to be or not to be", 9), ["to be or", "not to be"])
        self.assertEqual(wrapped("abcdefgh ij", 3), ["abc", "def", "gh", "ij"])
        self.assertEqual(wrapped("a\n\nb\n", 9), ["a", "", "b"])
        self.assertEqual(wrapped("\u4e2d\u4e2d\u4e2d", 4), ["\u4e2d\u4e2d", "\u4e2d"])

    def test_columns(self) -> None:
        self.assertEqual((columns("abc"), columns("\u4e2d"), columns("e\u0301")), (3, 2, 1))

    def test_nothing_steers_the_terminal(self) -> None:
        self.assertEqual(printable(b"a\x1b[31mb\r\nc\xff"), "a\ufffd[31mb\nc\ufffd")
