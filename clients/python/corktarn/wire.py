"""How requests and replies are spelled, and how they are read, byte by byte.

Each kind of field is stated once, as a `Field` with its two directions; each request and reply is a list of them. A
value has one spelling, so what was read and is written again comes out the same. Where bytes can't be read, `Malformed`
tells the offset of the first that can't stand, which is the place that the program tells of the same bytes.
"""

from __future__ import annotations

from dataclasses import dataclass, fields
from typing import Any, Callable, Dict, Generic, Iterator, List, NoReturn, Tuple, Type, TypeVar

from corktarn import replies, requests
from corktarn.errors import Incomplete, Malformed
from corktarn.model import (
    MOST_ITEMS,
    MOST_NUMBER,
    MOST_PLACES,
    MOST_TEXT,
    Diagonal,
    Mode,
    Refusal,
    Rule,
    Span,
    Spec,
    SpecSet,
    Tumbler,
    Want,
)

GREETING = b"P0~"
"""What either side begins a session with."""

T = TypeVar("T")

_ZERO, _NINE = b"09"
_TILDE, _DOT, _COLON = b"~.:"


class Scanner:
    """Bytes that are read one after the other. `fill` gives further ones, and none at their end."""

    def __init__(self, fill: Callable[[], bytes]) -> None:
        self._fill = fill
        self._held = b""
        self._next = 0
        self._before = 0

    @classmethod
    def over(cls, *pieces: bytes) -> Scanner:
        """A scanner of these bytes."""
        rest: Iterator[bytes] = filter(None, pieces)
        return cls(lambda: next(rest, b""))

    @property
    def at(self) -> int:
        """The offset of the next byte."""
        return self._before + self._next

    def has_more(self) -> bool:
        """Whether a byte comes. It waits for one."""
        if self._next < len(self._held):
            return True
        self._before += len(self._held)
        self._next = 0
        self._held = self._fill()
        return bool(self._held)

    def peek(self) -> int:
        """The next byte, which is left."""
        if not self.has_more():
            raise Incomplete(self.at)
        return self._held[self._next]

    def skip(self) -> None:
        """Takes the byte that `peek` gave."""
        self._next += 1

    def fail(self) -> NoReturn:
        """The next byte can't stand."""
        raise Malformed(self.at)

    def expect(self, wanted: bytes) -> None:
        """Takes just these bytes."""
        behind = self._next + len(wanted)
        if self._held[self._next : behind] == wanted:
            self._next = behind
            return
        for byte in wanted:
            if self.peek() != byte:
                self.fail()
            self.skip()

    def take(self, count: int) -> bytes:
        """Takes so many bytes, whatever they are."""
        parts: List[bytes] = []
        while count > 0:
            self.peek()
            part = self._held[self._next : self._next + count]
            self._next += len(part)
            count -= len(part)
            parts.append(part)
        return b"".join(parts)

    def digits(self, most: int, least: int = 0) -> int:
        """Takes a number without leading zeros, up to the first byte that is no digit of it.

        A digit that would take the number past `most` can't stand, and neither can one behind a 0.
        """
        value = self.peek() - _ZERO
        if not least <= value <= min(most, 9):
            self.fail()
        self._next += 1
        while value:
            byte = self._held[self._next] if self._next < len(self._held) else self.peek()
            if not _ZERO <= byte <= _NINE:
                break
            value = value * 10 + byte - _ZERO
            if value > most:
                self.fail()
            self._next += 1
        return value


@dataclass(frozen=True)
class Field(Generic[T]):
    """A kind of field: how a value is spelled, and how one is read."""

    write: Callable[[T], bytes]
    read: Callable[[Scanner], T]


def _bounded(value: int, most: int, least: int, what: str) -> int:
    if not least <= value <= most:
        raise ValueError(f"{what} is from {least} to {most}, not {value}")
    return value


def number(most: int = MOST_NUMBER, least: int = 0, what: str = "a number") -> Field[int]:
    """A number within bounds."""

    def write(value: int) -> bytes:
        return b"%d~" % _bounded(value, most, least, what)

    def read(scanner: Scanner) -> int:
        value = scanner.digits(most, least)
        scanner.expect(b"~")
        return value

    return Field(write, read)


NUMBER = number()
_COUNT = number(MOST_ITEMS, what="the number of items")


def _write_tumbler(tumbler: Tumbler) -> bytes:
    places = tumbler.places
    zeros = next((index for index, place in enumerate(places) if place), 0)
    written = b"".join(b".%d" % place for place in places[zeros:])
    return b"%d%s~" % (zeros, written)


def _read_tumbler(scanner: Scanner) -> Tumbler:
    zeros = scanner.digits(MOST_PLACES - 1)
    places = [0] * zeros
    while scanner.peek() == _DOT and len(places) < MOST_PLACES:
        scanner.skip()
        # the first written place is not 0, and neither is the last that there is room for
        least = 1 if len(places) in (zeros, MOST_PLACES - 1) else 0
        places.append(scanner.digits(MOST_NUMBER, least))
    if places and places[-1] == 0:
        scanner.fail()
    scanner.expect(b"~")
    return Tumbler(tuple(places))


TUMBLER = Field(_write_tumbler, _read_tumbler)


def _write_text(text: bytes) -> bytes:
    return b"t%d:%s" % (_bounded(len(text), MOST_TEXT, 0, "the length of a text"), text)


def _read_text(scanner: Scanner) -> bytes:
    scanner.expect(b"t")
    length = scanner.digits(MOST_TEXT)
    scanner.expect(b":")
    return scanner.take(length)


TEXT = Field(_write_text, _read_text)

SPAN: Field[Span] = Field(
    lambda span: _write_tumbler(span.start) + _write_tumbler(span.width),
    lambda scanner: Span(_read_tumbler(scanner), _read_tumbler(scanner)),
)


def _items(field: Field[T], values: Tuple[T, ...]) -> bytes:
    return _COUNT.write(len(values)) + b"".join(map(field.write, values))


def list_of(field: Field[T]) -> Field[Tuple[T, ...]]:
    """A list: how many items there are, and then these."""

    def read(scanner: Scanner) -> Tuple[T, ...]:
        return tuple(field.read(scanner) for _ in range(_COUNT.read(scanner)))

    return Field(lambda values: _items(field, values), read)


SPANS = list_of(SPAN)
TUMBLERS = list_of(TUMBLER)


def _read_spec(scanner: Scanner, most: int) -> Spec:
    """A spec of at most so many spans."""
    document = _read_tumbler(scanner)
    count = number(most).read(scanner)
    return Spec(document, tuple(SPAN.read(scanner) for _ in range(count)))


SPEC: Field[Spec] = Field(
    lambda spec: _write_tumbler(spec.document) + SPANS.write(spec.spans),
    lambda scanner: _read_spec(scanner, MOST_ITEMS),
)


def _write_specs(specs: SpecSet) -> bytes:
    _bounded(sum(len(spec.spans) for spec in specs), MOST_ITEMS, 0, "the number of a set's spans")
    return _items(SPEC, specs)


def _read_specs(scanner: Scanner) -> SpecSet:
    left = MOST_ITEMS
    specs: List[Spec] = []
    for _ in range(_COUNT.read(scanner)):
        specs.append(_read_spec(scanner, left))
        left -= len(specs[-1].spans)
    return tuple(specs)


SPECS = Field(_write_specs, _read_specs)

_MODE_NUMBER = number(max(Mode), min(Mode), "a mode")
_RULE_NUMBER = number(max(Rule), min(Rule), "a rule")
_REFUSAL_NUMBER = number(max(Refusal), min(Refusal), "a refusal")
MODE: Field[Mode] = Field(_MODE_NUMBER.write, lambda scanner: Mode(_MODE_NUMBER.read(scanner)))
RULE: Field[Rule] = Field(_RULE_NUMBER.write, lambda scanner: Rule(_RULE_NUMBER.read(scanner)))

WANT: Field[Want] = Field(
    lambda want: b"".join(
        (SPANS.write(want.homes), *map(SPECS.write, (want.from_, want.to, want.three)))
    ),
    lambda scanner: Want(SPANS.read(scanner), *(SPECS.read(scanner) for _ in range(3))),
)


def _write_item(item: replies.Item) -> bytes:
    return _write_tumbler(item) if isinstance(item, Tumbler) else _write_text(item)


def _read_item(scanner: Scanner) -> replies.Item:
    return _read_text(scanner) if scanner.peek() == ord("t") else _read_tumbler(scanner)


ITEM: Field[replies.Item] = Field(_write_item, _read_item)

_POSITION_NUMBER = number(MOST_NUMBER, 1, "a position")


def _write_diagonal(diagonal: Diagonal) -> bytes:
    left, right = map(_POSITION_NUMBER.write, (diagonal.left, diagonal.right))
    return b"0.1.%s0.1.%s%s" % (left, right, NUMBER.write(diagonal.length))


def _read_diagonal(scanner: Scanner) -> Diagonal:
    return Diagonal(_read_position(scanner), _read_position(scanner), NUMBER.read(scanner))


def _read_position(scanner: Scanner) -> int:
    scanner.expect(b"0.1.")
    return _POSITION_NUMBER.read(scanner)


DIAGONAL = Field(_write_diagonal, _read_diagonal)

REQUEST_FIELDS: Dict[Type[requests.Request], Tuple[Field[Any], ...]] = {
    requests.Insert: (TUMBLER, TUMBLER, TEXT),
    requests.SpanSet: (TUMBLER,),
    requests.Copy: (TUMBLER, TUMBLER, SPECS),
    requests.Rearrange: (TUMBLER, TUMBLERS),
    requests.Retrieve: (SPECS,),
    requests.Relation: (SPEC, SPEC),
    requests.CreateDocument: (),
    requests.Delete: (TUMBLER, SPAN),
    requests.CreateVersion: (TUMBLER,),
    requests.WholeSpan: (TUMBLER,),
    requests.Quit: (),
    requests.FollowLink: (TUMBLER, NUMBER),
    requests.FindDocuments: (SPECS,),
    requests.CreateLink: (TUMBLER, SPECS, SPECS, SPECS),
    requests.EndSets: (SPECS,),
    requests.CountLinks: (WANT,),
    requests.FindLinks: (WANT,),
    requests.NextLinks: (WANT, TUMBLER, NUMBER),
    requests.Account: (TUMBLER,),
    requests.Open: (TUMBLER, MODE, RULE),
    requests.Close: (TUMBLER,),
    requests.Publish: (TUMBLER,),
}

REPLY_FIELDS: Dict[Type[replies.Reply], Tuple[Field[Any], ...]] = {
    replies.Inserted: (),
    replies.SpanSetIs: (SPANS,),
    replies.Copied: (),
    replies.Rearranged: (),
    replies.Retrieved: (list_of(ITEM),),
    replies.Related: (list_of(DIAGONAL),),
    replies.Created: (TUMBLER,),
    replies.Deleted: (),
    replies.Versioned: (TUMBLER,),
    replies.WholeSpanIs: (SPAN,),
    replies.HasQuit: (),
    replies.Followed: (SPECS,),
    replies.Documents: (TUMBLERS,),
    replies.Linked: (TUMBLER,),
    replies.EndSetsAre: (SPECS, SPECS, SPECS),
    replies.LinkCount: (NUMBER,),
    replies.Links: (TUMBLERS,),
    replies.LinksBehind: (TUMBLERS,),
    replies.AccountSet: (),
    replies.Opened: (TUMBLER,),
    replies.Closed: (),
    replies.Published: (),
}

_REQUESTS = {b"%d" % kind.number: kind for kind in REQUEST_FIELDS}
_REPLIES = {b"%d" % kind.number: kind for kind in REPLY_FIELDS}


def _write_record(record: Any, form: Tuple[Field[Any], ...]) -> bytes:
    values = (getattr(record, it.name) for it in fields(record))
    parts = (field.write(value) for field, value in zip(form, values))
    return b"%d~%s" % (record.number, b"".join(parts))


def _read_front(scanner: Scanner, kinds: Dict[bytes, T]) -> T:
    """Takes the number of some kind, and its tilde. A digit with which no such number begins can't stand."""
    digits = b""
    while digits not in kinds or scanner.peek() != _TILDE:
        longer = digits + bytes((scanner.peek(),))
        if not any(it.startswith(longer) for it in kinds):
            scanner.fail()
        scanner.skip()
        digits = longer
    scanner.skip()
    return kinds[digits]


def write_request(request: requests.Request) -> bytes:
    """The bytes of a request. Raises `ValueError` where an argument is past the grammar's bounds."""
    return _write_record(request, REQUEST_FIELDS[type(request)])


def read_request(scanner: Scanner) -> requests.Request:
    """Takes a request. Raises `Malformed` or `Incomplete`."""
    kind = _read_front(scanner, _REQUESTS)
    return kind(*(field.read(scanner) for field in REQUEST_FIELDS[kind]))


def write_reply(reply: replies.AnyReply) -> bytes:
    """The bytes of a reply."""
    if isinstance(reply, replies.RefusedReply):
        return b"?%s" % _REFUSAL_NUMBER.write(reply.refusal)
    return _write_record(reply, REPLY_FIELDS[type(reply)])


def read_reply(scanner: Scanner) -> replies.AnyReply:
    """Takes a reply. Raises `Malformed` or `Incomplete`."""
    if scanner.peek() == ord("?"):
        scanner.skip()
        return replies.RefusedReply(Refusal(_REFUSAL_NUMBER.read(scanner)))
    kind = _read_front(scanner, _REPLIES)
    return kind(*(field.read(scanner) for field in REPLY_FIELDS[kind]))


def read_session(scanner: Scanner) -> Iterator[requests.Request]:
    """The requests of a session's input, behind its greeting, up to a quit or the end of the bytes."""
    if not scanner.has_more():
        return
    scanner.expect(GREETING)
    while scanner.has_more():
        request = read_request(scanner)
        yield request
        if isinstance(request, requests.Quit):
            return
