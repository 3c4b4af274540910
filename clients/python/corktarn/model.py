"""What requests and replies speak of: addresses, spans, specs, links' ends and the causes of refusals.

Everything here is a plain value. Nothing in this module knows how values are spelled; that is `corktarn.wire`'s.
"""

from __future__ import annotations

import enum
from dataclasses import dataclass
from typing import Tuple

MOST_NUMBER = 4_294_967_295
"""The greatest number, and the greatest place of a tumbler."""

MOST_PLACES = 24
"""The most places that a tumbler has."""

MOST_ITEMS = 65_536
"""The most items of a list, and the most spans in all specs of a spec set."""

MOST_TEXT = 16_777_216
"""The most bytes of one text."""


@dataclass(frozen=True, order=True)
class Tumbler:
    """An address, or a distance between addresses: at most 24 numbers, of which the last is not 0.

    Tumblers are in the order of their places; where one begins another, the shorter one comes first. `str` gives the
    places with dots between them, and `0` for the tumbler with none.
    """

    places: Tuple[int, ...] = ()

    def __post_init__(self) -> None:
        if len(self.places) > MOST_PLACES:
            raise ValueError(f"a tumbler has at most {MOST_PLACES} places, not {len(self.places)}")
        if any(not 0 <= place <= MOST_NUMBER for place in self.places):
            raise ValueError(f"a place is from 0 to {MOST_NUMBER}: {self}")
        if self.places and self.places[-1] == 0:
            raise ValueError(f"the last place is not 0: {self}")

    @classmethod
    def of(cls, *places: int) -> Tumbler:
        """The tumbler with these places."""
        return cls(tuple(places))

    @classmethod
    def parse(cls, text: str) -> Tumbler:
        """Reads what `str` writes, such as `1.1.0.1`."""
        if text == "0":
            return cls()
        places = text.split(".")
        if not all(place.isascii() and place.isdigit() for place in places):
            raise ValueError(f"no address: {text!r}")
        return cls(tuple(map(int, places)))

    def __str__(self) -> str:
        return ".".join(map(str, self.places)) or "0"

    def __add__(self, width: Tumbler) -> Tumbler:
        """The sum: the width's first place that is not 0 is added, and what stands behind it is the width's.

        Raises `OverflowError` where the sum does not fit.
        """
        if not width.places:
            return self
        first = next(index for index, place in enumerate(width.places) if place)
        padded = self.places + (0,) * (first + 1)
        added = padded[first] + width.places[first]
        if added > MOST_NUMBER:
            raise OverflowError(f"{self} and {width} have no sum")
        return Tumbler(padded[:first] + (added,) + width.places[first + 1 :])

    def child(self, *places: int) -> Tumbler:
        """The tumbler with these places behind its own."""
        return Tumbler(self.places + places)

    def is_below(self, other: Tumbler) -> bool:
        """Whether it has the other's places and then at least one more."""
        depth = len(other.places)
        return len(self.places) > depth and self.places[:depth] == other.places


ZERO = Tumbler()


def byte(n: int) -> Tumbler:
    """The V-address of the n-th byte of a document's text, from 1 on."""
    return Tumbler.of(1, n)


def link_row(n: int) -> Tumbler:
    """The V-address of the n-th link of a document, from 1 on."""
    return Tumbler.of(2, n)


@dataclass(frozen=True)
class Span:
    """The addresses from `start` on that come before `start` plus `width`; none where the width is zero."""

    start: Tumbler
    width: Tumbler

    def __str__(self) -> str:
        return f"({self.start}, {self.width})"

    def fits(self) -> bool:
        """Whether start and width have a sum. A request with a span that has none is refused."""
        try:
            self.start + self.width
        except OverflowError:
            return False
        return True


def text_span(first: int, count: int) -> Span:
    """The span of so many bytes of a document's text, from the byte with the number `first` on."""
    return Span(byte(first), Tumbler.of(0, count) if count else ZERO)


ALL_TEXT = Span(Tumbler.of(1, 1), Tumbler.of(1))
"""All text of a document, however long, from 1.1 up to 2."""

ALL_LINKS = Span(Tumbler.of(2, 1), Tumbler.of(1))
"""All links of a document, from 2.1 up to 3."""


def positions(span: Span) -> range:
    """The numbers of the bytes that a span of text, as replies give it, speaks of."""
    if len(span.start.places) != 2 or span.start.places[0] != 1:
        raise ValueError(f"no span of text: {span}")
    if not span.width.places:
        return range(span.start.places[1], span.start.places[1])
    if len(span.width.places) != 2 or span.width.places[0] != 0:
        raise ValueError(f"no span of text: {span}")
    return range(span.start.places[1], span.start.places[1] + span.width.places[1])


@dataclass(frozen=True)
class Spec:
    """Spans of one document."""

    document: Tumbler
    spans: Tuple[Span, ...] = ()

    @classmethod
    def of(cls, document: Tumbler, *spans: Span) -> Spec:
        """The spec of these spans of the document."""
        return cls(document, tuple(spans))

    def __str__(self) -> str:
        return f"{self.document} {' '.join(map(str, self.spans))}".rstrip()


SpecSet = Tuple[Spec, ...]


@dataclass(frozen=True)
class Want:
    """Which links are looked for: those with a home in some span of `homes`, and with something of what a set picks
    in the end that the set stands for. No homes ask for any home, and an empty set asks nothing of its end."""

    homes: Tuple[Span, ...] = ()
    from_: SpecSet = ()
    to: SpecSet = ()
    three: SpecSet = ()


def homes_of_account(account: Tumbler) -> Span:
    """A span that holds all documents of the account, and of no other one."""
    return Span(account.child(0, 1), _one_behind(account))


def only_home(document: Tumbler) -> Span:
    """A span that holds this document and no other one, also none of its versions."""
    return Span(document, _one_behind(document))


def document_and_versions(document: Tumbler) -> Span:
    """A span that holds the document and all whose address begins with its places."""
    return Span(document, Tumbler((0,) * (len(document.places) - 1) + (1,)))


def _one_behind(address: Tumbler) -> Tumbler:
    """The width that adds a place 1 behind the address."""
    return Tumbler((0,) * len(address.places) + (1,))


@dataclass(frozen=True)
class Diagonal:
    """So many bytes that two texts share: from the byte `left` on in the first, from `right` on in the second."""

    left: int
    right: int
    length: int


class Mode(enum.IntEnum):
    """What a document is opened for."""

    READ = 1
    WRITE = 2


class Rule(enum.IntEnum):
    """What is to come of an opening that is not granted."""

    REFUSE = 1
    COPY = 2
    ALWAYS_COPY = 3


class End(enum.IntEnum):
    """The ends of a link."""

    FROM = 1
    TO = 2
    THREE = 3


class Refusal(enum.IntEnum):
    """Why a request was refused. `meaning` says it in words."""

    NO_ACCOUNT = 1
    NO_SUCH_DOCUMENT = 2
    NOT_OPEN = 3
    NOT_OPEN_FOR_WRITING = 4
    NOT_OWNER = 5
    CONFLICT = 6
    BAD_ADDRESS = 7
    BAD_CUTS = 8
    NO_SUCH_LINK = 9
    NO_SUCH_END = 10
    TOO_LONG = 11
    FULL = 12
    DISK = 13
    MEMORY = 14
    PRIVATE = 15

    @property
    def meaning(self) -> str:
        """The cause, in a few words."""
        return _MEANINGS[self]


_MEANINGS = {
    Refusal.NO_ACCOUNT: "the session has set no account",
    Refusal.NO_SUCH_DOCUMENT: "no such document",
    Refusal.NOT_OPEN: "the document is not open",
    Refusal.NOT_OPEN_FOR_WRITING: "the document is open for reading only",
    Refusal.NOT_OWNER: "the document is of another account",
    Refusal.CONFLICT: "another session has the document open for writing",
    Refusal.BAD_ADDRESS: "no place for this request",
    Refusal.BAD_CUTS: "not three or four cuts in ascending order",
    Refusal.NO_SUCH_LINK: "no such link",
    Refusal.NO_SUCH_END: "a link has the ends 1, 2 and 3",
    Refusal.TOO_LONG: "too long, or too many parts",
    Refusal.FULL: "the store has taken all that its limits allow",
    Refusal.DISK: "the disk failed, and nothing was changed",
    Refusal.MEMORY: "the program has no memory or no address left for this",
    Refusal.PRIVATE: "the document is private to its account",
}
