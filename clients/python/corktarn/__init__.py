"""A client of Corktarn, the back end for documents that quote each other.

    from corktarn import Session, Tumbler, byte

    with Session.connect("notes") as session:
        session.account(Tumbler.parse("1.1.0.1"))
        document = session.create_document().document
        session.insert(document, byte(1), b"hello")

It was written from docs/PROTOCOL.md. Unlike the back end it is not proved, only tested.
"""

from corktarn.errors import (
    Argument,
    CorktarnError,
    Incomplete,
    Malformed,
    Refused,
    SessionEnded,
    Unexpected,
)
from corktarn.model import (
    ALL_LINKS,
    ALL_TEXT,
    ZERO,
    Diagonal,
    End,
    Mode,
    Refusal,
    Rule,
    Span,
    Spec,
    SpecSet,
    Tumbler,
    Want,
    byte,
    document_and_versions,
    homes_of_account,
    link_row,
    only_home,
    positions,
    text_span,
)
from corktarn.session import Session
from corktarn.transport import PipeTransport, SocketTransport, Transport, connect

__all__ = [
    "ALL_LINKS",
    "ALL_TEXT",
    "ZERO",
    "Argument",
    "CorktarnError",
    "Diagonal",
    "End",
    "Incomplete",
    "Malformed",
    "Mode",
    "PipeTransport",
    "Refusal",
    "Refused",
    "Rule",
    "Session",
    "SessionEnded",
    "SocketTransport",
    "Span",
    "Spec",
    "SpecSet",
    "Transport",
    "Tumbler",
    "Unexpected",
    "Want",
    "byte",
    "connect",
    "document_and_versions",
    "homes_of_account",
    "link_row",
    "only_home",
    "positions",
    "text_span",
]
