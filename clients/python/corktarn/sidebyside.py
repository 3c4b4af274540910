"""Two texts side by side, with the passages that they share in the same row.

A passage that stands in another order on both sides is told by its number, which it has on either side.
"""

from __future__ import annotations

import unicodedata
from bisect import bisect_left
from dataclasses import dataclass
from typing import Callable, Iterator, List, Sequence, Tuple

from corktarn.model import Diagonal


@dataclass(frozen=True)
class Piece:
    """A stretch of one text. `number` is that of the shared passage, from 1 on, and 0 where nothing is shared."""

    number: int
    text: bytes


@dataclass(frozen=True)
class Row:
    """Pieces beside each other. `is_same` says that both sides are one shared passage."""

    left: Tuple[Piece, ...]
    right: Tuple[Piece, ...]
    is_same: bool


def rows_of(left: bytes, right: bytes, diagonals: Sequence[Diagonal]) -> List[Row]:
    """The rows that show both texts from front to end, once each."""
    chosen = _apart(len(left), len(right), diagonals)
    lefts = sorted((it.left, it.length, number) for number, it in enumerate(chosen, 1))
    rights = sorted((it.right, it.length, number) for number, it in enumerate(chosen, 1))
    rows: List[Row] = []
    x, y = 1, 1
    for index in (*_chain(chosen), None):
        it = chosen[index] if index is not None else Diagonal(len(left) + 1, len(right) + 1, 0)
        apart = Row(_pieces(left, x, it.left, lefts), _pieces(right, y, it.right, rights), False)
        if apart.left or apart.right:
            rows.append(apart)
        if index is not None:
            same = Piece(index + 1, left[it.left - 1 : it.left - 1 + it.length])
            rows.append(Row((same,), (same,), True))
        x, y = it.left + it.length, it.right + it.length
    return rows


def _apart(left: int, right: int, diagonals: Sequence[Diagonal]) -> List[Diagonal]:
    """Parts of the diagonals such that no byte of either text is in two, long ones first; in the left text's order."""
    taken_left, taken_right = bytearray(left), bytearray(right)
    chosen: List[Diagonal] = []
    for it in sorted(diagonals, key=lambda it: -it.length):
        for part in _free(it, taken_left, taken_right):
            ones = b"\1" * part.length
            taken_left[part.left - 1 : part.left - 1 + part.length] = ones
            taken_right[part.right - 1 : part.right - 1 + part.length] = ones
            chosen.append(part)
    return sorted(chosen, key=lambda it: it.left)


def _free(it: Diagonal, taken_left: bytearray, taken_right: bytearray) -> Iterator[Diagonal]:
    """The stretches of the diagonal that are taken on neither side."""
    x, y = it.left - 1, it.right - 1
    taken = bytes(map(max, taken_left[x : x + it.length], taken_right[y : y + it.length]))
    start = taken.find(0)
    while start >= 0:
        end = taken.find(1, start)
        end = len(taken) if end < 0 else end
        yield Diagonal(it.left + start, it.right + start, end - start)
        start = taken.find(0, end)


def _chain(chosen: Sequence[Diagonal]) -> List[int]:
    """The indices of those that stand in one order on both sides, with as many bytes together as there can be.

    `best` is a binary indexed tree, by rank on the right: the weight of the best chain that ends there, and its last.
    """
    ranks = sorted(it.right for it in chosen)
    best: List[Tuple[int, int]] = [(0, -1)] * (len(chosen) + 1)
    before = [-1] * len(chosen)
    for index, it in enumerate(chosen):
        rank = bisect_left(ranks, it.right)
        weight, before[index] = max(_below(best, rank))
        _raise(best, rank + 1, (weight + it.length, index))
    chain: List[int] = []
    last = max(_below(best, len(chosen)))[1]
    while last >= 0:
        chain.append(last)
        last = before[last]
    return chain[::-1]


def _below(best: Sequence[Tuple[int, int]], rank: int) -> Iterator[Tuple[int, int]]:
    """What the tree has of the first so many ranks."""
    yield (0, -1)
    while rank:
        yield best[rank]
        rank &= rank - 1


def _raise(best: List[Tuple[int, int]], rank: int, value: Tuple[int, int]) -> None:
    """Puts a value at a rank of the tree, from 1 on."""
    while rank < len(best):
        best[rank] = max(best[rank], value)
        rank += rank & -rank


def _pieces(
    text: bytes, first: int, behind: int, shared: Sequence[Tuple[int, int, int]]
) -> Tuple[Piece, ...]:
    """The pieces of the text from one position up to another, cut at the shared passages between these."""
    pieces: List[Piece] = []
    at = first
    for start, length, number in shared[bisect_left(shared, (first,)) : bisect_left(shared, (behind,))]:
        pieces.append(Piece(0, text[at - 1 : start - 1]))
        pieces.append(Piece(number, text[start - 1 : start - 1 + length]))
        at = start + length
    pieces.append(Piece(0, text[at - 1 : behind - 1]))
    return tuple(piece for piece in pieces if piece.text)


Paint = Callable[[str, int], str]
"""Colours a string by a passage's number."""


def lines_of(rows: Sequence[Row], width: int, paint: Paint) -> Iterator[str]:
    """The rows as lines of at most so many columns. Between the sides stands `=` where they are one passage."""
    side = max(12, (width - 3) // 2)
    for row in rows:
        lefts, rights = _side(row.left, side), _side(row.right, side)
        blank = (0, "")
        for index in range(max(len(lefts), len(rights))):
            left = lefts[index] if index < len(lefts) else blank
            right = rights[index] if index < len(rights) else blank
            mark = "=" if row.is_same else "|"
            padded = left[1] + " " * (side - columns(left[1]))
            yield f"{paint(padded, left[0])} {mark} {paint(right[1], right[0])}".rstrip()


def _side(pieces: Sequence[Piece], width: int) -> List[Tuple[int, str]]:
    """The lines of one side, each with the number of its passage. The number stands in front of the first line."""
    lines: List[Tuple[int, str]] = []
    for piece in pieces:
        for index, line in enumerate(wrapped(printable(piece.text), width - 4)):
            front = f"{piece.number:>3}" if piece.number and index == 0 else "   "
            lines.append((piece.number, f"{front} {line}"))
    return lines


def printable(text: bytes) -> str:
    """The text for a terminal: line ends stay, and whatever else could steer it is replaced."""
    shown = text.decode("utf-8", "replace").replace("\r\n", "\n").expandtabs(4)
    return "".join(it if it == "\n" or it.isprintable() else "\N{REPLACEMENT CHARACTER}" for it in shown)


def columns(text: str) -> int:
    """How many columns of a terminal the text takes."""
    wide = sum(unicodedata.east_asian_width(it) in "WF" for it in text)
    marks = sum(bool(unicodedata.combining(it)) for it in text)
    return len(text) + wide - marks


def wrapped(text: str, width: int) -> List[str]:
    """The text in lines of at most so many columns, broken at spaces where there are any."""
    lines: List[str] = []
    for line in text.rstrip("\n").split("\n"):
        while columns(line) > width:
            fits = _fitting(line, width)
            cut = line.rfind(" ", 1, fits + 1)
            cut = fits if cut < 0 else cut
            lines.append(line[:cut].rstrip())
            line = line[cut:].lstrip()
        lines.append(line)
    return lines


def _fitting(line: str, width: int) -> int:
    """How many characters of the line fit, at least one."""
    count = 1
    while columns(line[: count + 1]) <= width and count < len(line):
        count += 1
    return count
