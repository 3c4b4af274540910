"""What can go wrong, one class each. All of them are `CorktarnError`s."""

from __future__ import annotations

from dataclasses import dataclass, fields
from typing import Iterator, Optional, Tuple

from corktarn import requests
from corktarn.model import Refusal, Span, Spec, Want


class CorktarnError(Exception):
    """Whatever this package raises of its own accord."""


class Incomplete(CorktarnError):
    """The bytes end where more have to come. `at` is how many there are."""

    def __init__(self, at: int) -> None:
        super().__init__(f"more bytes have to come at {at}")
        self.at = at


class Malformed(CorktarnError):
    """The byte at the offset `at` can't stand there, whatever follows."""

    def __init__(self, at: int) -> None:
        super().__init__(f"malformed at {at}")
        self.at = at


class Unexpected(CorktarnError):
    """A reply that answers another request than the one that was made."""


class SessionEnded(CorktarnError):
    """The other side ended the session, or could not be reached. `status` is the program's, where it is known."""

    def __init__(self, why: str, status: Optional[int] = None) -> None:
        super().__init__(why)
        self.status = status


@dataclass(frozen=True)
class Argument:
    """An argument of a request: its name, and the value or the part of it that is meant."""

    name: str
    value: object

    def __str__(self) -> str:
        return f"{self.name} {_shown(self.value)}"


class Refused(CorktarnError):
    """A request was refused, and nothing was changed.

    `arguments` has those that the refusal may be about: one where the request settles it, more where it does not, and
    none where the refusal is about the session or the store.
    """

    def __init__(self, request: requests.Request, refusal: Refusal) -> None:
        self.request = request
        self.refusal = refusal
        self.arguments = arguments_of(request, refusal)
        about = " or ".join(map(str, self.arguments))
        super().__init__(f"{request.name}: {refusal.meaning}" + (f" ({about})" if about else ""))


def arguments_of(request: requests.Request, refusal: Refusal) -> Tuple[Argument, ...]:
    """The arguments of the request that the refusal may be about."""
    if refusal in (Refusal.NO_SUCH_DOCUMENT, Refusal.PRIVATE, Refusal.NOT_OPEN):
        return _once(_documents(request))
    if refusal in (Refusal.NOT_OPEN_FOR_WRITING, Refusal.NOT_OWNER, Refusal.CONFLICT):
        return tuple(_documents(request))[:1]
    if refusal is Refusal.BAD_ADDRESS:
        return _misplaced(request)
    names = _NAMED.get((refusal, type(request)), _NAMED.get((refusal, requests.Request), ()))
    return tuple(Argument(name.rstrip("_"), getattr(request, name)) for name in names)


_NAMED = {
    (Refusal.BAD_CUTS, requests.Request): ("cuts",),
    (Refusal.NO_SUCH_LINK, requests.Request): ("link",),
    (Refusal.NO_SUCH_END, requests.Request): ("end",),
    (Refusal.TOO_LONG, requests.Insert): ("document",),
    (Refusal.TOO_LONG, requests.Copy): ("specs",),
    (Refusal.TOO_LONG, requests.Retrieve): ("specs",),
    (Refusal.TOO_LONG, requests.FindDocuments): ("specs",),
    (Refusal.TOO_LONG, requests.EndSets): ("specs",),
    (Refusal.TOO_LONG, requests.Relation): ("left", "right"),
    (Refusal.TOO_LONG, requests.CreateLink): ("from_", "to", "three"),
    (Refusal.TOO_LONG, requests.FollowLink): ("link",),
    (Refusal.TOO_LONG, requests.CountLinks): ("want",),
    (Refusal.TOO_LONG, requests.FindLinks): ("want",),
    (Refusal.TOO_LONG, requests.NextLinks): ("want",),
}


def _once(found: Iterator[Argument]) -> Tuple[Argument, ...]:
    """The arguments, each document once."""
    return tuple({argument.value: argument for argument in reversed(tuple(found))}.values())[::-1]


def _misplaced(request: requests.Request) -> Tuple[Argument, ...]:
    """The spans that have no end; where all have one, the address, the cuts or the account."""
    endless = tuple(it for it in _spans(request) if isinstance(it.value, Span) and not it.value.fits())
    if endless:
        return endless
    names = ("address", "cuts", "account")
    return tuple(Argument(it, getattr(request, it)) for it in names if hasattr(request, it))


def _shown(value: object) -> str:
    """The value in a message."""
    if isinstance(value, tuple):
        return ", ".join(map(str, value)) or "none"
    if isinstance(value, Want):
        sets = (("from", value.from_), ("to", value.to), ("three", value.three))
        return "; ".join(f"{name} {_shown(of)}" for name, of in sets if of) or "all links"
    return str(value)


def _values(request: requests.Request) -> Iterator[Tuple[str, object]]:
    """The request's arguments by name, with those of a want as arguments of their own."""
    for field in fields(request):
        value = getattr(request, field.name)
        if isinstance(value, Want):
            for part in fields(value):
                yield part.name.rstrip("_"), getattr(value, part.name)
        else:
            yield field.name.rstrip("_"), value


def _documents(request: requests.Request) -> Iterator[Argument]:
    """The documents that the request names, that which is to change first."""
    for name, value in _values(request):
        if name in ("document", "home"):
            yield Argument(name, value)
        for spec in value if isinstance(value, tuple) else (value,):
            if isinstance(spec, Spec):
                yield Argument(name, spec.document)


def _spans(request: requests.Request) -> Iterator[Argument]:
    """The spans that the request names."""
    for name, value in _values(request):
        for part in value if isinstance(value, tuple) else (value,):
            for span in part.spans if isinstance(part, Spec) else (part,):
                if isinstance(span, Span):
                    yield Argument(name, span)
