"""The requests, one class each. Their fields stand in the order in which they are spelled."""

from __future__ import annotations

from dataclasses import dataclass
from typing import ClassVar, Tuple

from corktarn.model import Mode, Rule, Span, Spec, SpecSet, Tumbler, Want


@dataclass(frozen=True)
class Request:
    """What every request has: the number that it begins with, and a name for messages."""

    number: ClassVar[int]
    name: ClassVar[str]


@dataclass(frozen=True)
class Insert(Request):
    """Puts the text before the byte at the V-address."""

    number = 0
    name = "insert"
    document: Tumbler
    address: Tumbler
    text: bytes


@dataclass(frozen=True)
class SpanSet(Request):
    """Asks for the span of the document's text, and that of its links."""

    number = 1
    name = "span set"
    document: Tumbler


@dataclass(frozen=True)
class Copy(Request):
    """Quotes what the spec set picks before the byte at the V-address."""

    number = 2
    name = "copy"
    document: Tumbler
    address: Tumbler
    specs: SpecSet


@dataclass(frozen=True)
class Rearrange(Request):
    """Swaps two blocks of text, by three cuts or by four."""

    number = 3
    name = "rearrange"
    document: Tumbler
    cuts: Tuple[Tumbler, ...]


@dataclass(frozen=True)
class Retrieve(Request):
    """Asks for the bytes and links that the spec set picks."""

    number = 5
    name = "retrieve"
    specs: SpecSet


@dataclass(frozen=True)
class Relation(Request):
    """Asks where two specs pick the same content."""

    number = 10
    name = "relation"
    left: Spec
    right: Spec


@dataclass(frozen=True)
class CreateDocument(Request):
    """Makes an empty document of the session's account, open for writing."""

    number = 11
    name = "create document"


@dataclass(frozen=True)
class Delete(Request):
    """Takes out what the span picks."""

    number = 12
    name = "delete"
    document: Tumbler
    span: Span


@dataclass(frozen=True)
class CreateVersion(Request):
    """Makes a version of the document, open for writing."""

    number = 13
    name = "create version"
    document: Tumbler


@dataclass(frozen=True)
class WholeSpan(Request):
    """Asks for the one span of all that is in the document."""

    number = 14
    name = "span"
    document: Tumbler


@dataclass(frozen=True)
class Quit(Request):
    """Ends the session."""

    number = 16
    name = "quit"


@dataclass(frozen=True)
class FollowLink(Request):
    """Asks where the content of a link's end stands now."""

    number = 18
    name = "follow link"
    link: Tumbler
    end: int


@dataclass(frozen=True)
class FindDocuments(Request):
    """Asks which documents show content that the spec set picks."""

    number = 22
    name = "find documents"
    specs: SpecSet


@dataclass(frozen=True)
class CreateLink(Request):
    """Makes a link between what the spec sets pick."""

    number = 27
    name = "create link"
    home: Tumbler
    from_: SpecSet
    to: SpecSet
    three: SpecSet = ()


@dataclass(frozen=True)
class EndSets(Request):
    """Asks what of the picked text is in an end of some link, for each of the three ends."""

    number = 28
    name = "end-sets"
    specs: SpecSet


@dataclass(frozen=True)
class CountLinks(Request):
    """Asks how many links there are of a kind."""

    number = 29
    name = "count links"
    want: Want


@dataclass(frozen=True)
class FindLinks(Request):
    """Asks for all links of a kind."""

    number = 30
    name = "find links"
    want: Want


@dataclass(frozen=True)
class NextLinks(Request):
    """Asks for the first so many links of a kind whose ids are above the tumbler."""

    number = 31
    name = "next links"
    want: Want
    behind: Tumbler
    count: int


@dataclass(frozen=True)
class Account(Request):
    """Sets the account in whose name the session goes on."""

    number = 34
    name = "account"
    account: Tumbler


@dataclass(frozen=True)
class Open(Request):
    """Opens the document, or makes a version of it, as the rule says."""

    number = 35
    name = "open"
    document: Tumbler
    mode: Mode
    rule: Rule


@dataclass(frozen=True)
class Close(Request):
    """Closes the document."""

    number = 36
    name = "close"
    document: Tumbler


@dataclass(frozen=True)
class Publish(Request):
    """Lets every session read the document, for good."""

    number = 40
    name = "publish"
    document: Tumbler
