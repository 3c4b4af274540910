"""The replies, one class each, with what a front end asks of them most often."""

from __future__ import annotations

from dataclasses import dataclass
from typing import ClassVar, Tuple, Union

from corktarn.model import Diagonal, Refusal, Span, SpecSet, Tumbler

Item = Union[bytes, Tumbler]
"""What a retrieve gives: the bytes of a stretch of text, or the id of a link."""


@dataclass(frozen=True)
class Reply:
    """What every reply but a refusal has: the number of the request that it answers."""

    number: ClassVar[int]


@dataclass(frozen=True)
class Inserted(Reply):
    """The text came in."""

    number = 0


@dataclass(frozen=True)
class SpanSetIs(Reply):
    """The span of the text, if there is any, and that of the links, if there are any."""

    number = 1
    spans: Tuple[Span, ...]

    @property
    def length(self) -> int:
        """How many bytes of text the document has."""
        return self._count_of(1)

    @property
    def links(self) -> int:
        """How many links the document shows."""
        return self._count_of(2)

    def _count_of(self, part: int) -> int:
        return sum(span.width.places[1] for span in self.spans if span.start.places[0] == part)


@dataclass(frozen=True)
class Copied(Reply):
    """The quotation came in."""

    number = 2


@dataclass(frozen=True)
class Rearranged(Reply):
    """The blocks changed places."""

    number = 3


@dataclass(frozen=True)
class Retrieved(Reply):
    """Bytes and link ids, in the order in which they were picked."""

    number = 5
    items: Tuple[Item, ...]

    @property
    def text(self) -> bytes:
        """All bytes, one behind the other."""
        return b"".join(item for item in self.items if isinstance(item, bytes))

    @property
    def links(self) -> Tuple[Tumbler, ...]:
        """The ids of the links."""
        return tuple(item for item in self.items if isinstance(item, Tumbler))


@dataclass(frozen=True)
class Related(Reply):
    """Where two texts are the same content."""

    number = 10
    diagonals: Tuple[Diagonal, ...]


@dataclass(frozen=True)
class Created(Reply):
    """The new document."""

    number = 11
    document: Tumbler


@dataclass(frozen=True)
class Deleted(Reply):
    """What the span picked is gone."""

    number = 12


@dataclass(frozen=True)
class Versioned(Reply):
    """The new version."""

    number = 13
    document: Tumbler


@dataclass(frozen=True)
class WholeSpanIs(Reply):
    """The one span of text and links together."""

    number = 14
    span: Span


@dataclass(frozen=True)
class HasQuit(Reply):
    """The session is over."""

    number = 16


@dataclass(frozen=True)
class Followed(Reply):
    """For each run of the end whose origin may be read: that origin, and where it shows the run now."""

    number = 18
    specs: SpecSet


@dataclass(frozen=True)
class Documents(Reply):
    """The documents that were found, ascending."""

    number = 22
    documents: Tuple[Tumbler, ...]


@dataclass(frozen=True)
class Linked(Reply):
    """The new link's id."""

    number = 27
    link: Tumbler


@dataclass(frozen=True)
class EndSetsAre(Reply):
    """What of the picked text is in each end of some link."""

    number = 28
    from_: SpecSet
    to: SpecSet
    three: SpecSet


@dataclass(frozen=True)
class LinkCount(Reply):
    """How many links were found."""

    number = 29
    count: int


@dataclass(frozen=True)
class Links(Reply):
    """The links that were found, ascending."""

    number = 30
    links: Tuple[Tumbler, ...]


@dataclass(frozen=True)
class LinksBehind(Reply):
    """The first links above the tumbler that was asked with, ascending."""

    number = 31
    links: Tuple[Tumbler, ...]


@dataclass(frozen=True)
class AccountSet(Reply):
    """The account is set."""

    number = 34


@dataclass(frozen=True)
class Opened(Reply):
    """The document that was opened: the one that was asked for, or a new version of it."""

    number = 35
    document: Tumbler


@dataclass(frozen=True)
class Closed(Reply):
    """The document is closed."""

    number = 36


@dataclass(frozen=True)
class Published(Reply):
    """The document is published."""

    number = 40


@dataclass(frozen=True)
class RefusedReply:
    """A refusal, as it comes over the wire. A session raises `corktarn.errors.Refused` for it."""

    refusal: Refusal


AnyReply = Union[Reply, RefusedReply]
