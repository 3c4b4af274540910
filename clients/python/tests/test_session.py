"""A session over a pipe, and over a socket."""

from __future__ import annotations

import os
import socket
import tempfile
import unittest

from corktarn import (
    ALL_TEXT,
    Diagonal,
    End,
    Malformed,
    Mode,
    PipeTransport,
    Refusal,
    Refused,
    Rule,
    Session,
    SessionEnded,
    Span,
    Spec,
    Tumbler,
    Unexpected,
    Want,
    byte,
    connect,
    homes_of_account,
    text_span,
)
from corktarn import replies, requests
from tests import before
from tests.program import HAS_SERVER, program, run
from tests.serving import serving

_ACCOUNT = Tumbler.parse("1.1.0.1")
_OTHER = Tumbler.parse("1.1.0.2")
_FIRST = Tumbler.parse("1.1.0.1.0.1")

# The first document with the text "hello", as a log had it before changes had moments.
_BEFORE = bytes.fromhex(
    "01 0000002b 01 0000000000000001 0000000000000003 01 06 00000001 00000001 00000000 00000001 00000000 00000001"
    "01 0000003c 01 0000000000000001 0000000000000004 04 06 00000001 00000001 00000000 00000001 00000000 00000001"
    "00000001 00000001 00000005 68656c6c6f 00"
)


class _Sessions(unittest.TestCase):
    """A new, empty store for each test."""

    def setUp(self) -> None:
        holder = tempfile.TemporaryDirectory()
        self.addCleanup(holder.cleanup)
        self.folder = holder.name

    def session(self) -> Session:
        """A session over a pipe."""
        return Session.connect(self.folder, program())

    def refusal(self, session: Session, request: requests.Request) -> Refused:
        """How the request is refused."""
        with self.assertRaises(Refused) as caught:
            session.ask(request)
        self.assertEqual(caught.exception.request, request)
        return caught.exception


def _use(test: unittest.TestCase, session: Session) -> None:
    """Makes each request once."""
    session.account(_ACCOUNT)
    left = session.create_document().document
    right = session.create_document().document
    session.insert(left, byte(1), b"to be or not to be")
    session.insert(right, byte(1), b"[]")
    session.copy(right, byte(2), (Spec.of(left, text_span(1, 5)),))
    test.assertEqual(session.retrieve((Spec.of(right, ALL_TEXT),)).text, b"[to be]")
    told = session.relation(Spec.of(left, ALL_TEXT), Spec.of(right, ALL_TEXT))
    test.assertEqual(told.diagonals, (Diagonal(1, 2, 5),))
    link = session.create_link(
        right, (Spec.of(right, text_span(2, 5)),), (Spec.of(left, text_span(7, 12)),)
    ).link
    session.rearrange(left, (byte(1), byte(7), byte(19)))
    test.assertEqual(session.retrieve((Spec.of(left, ALL_TEXT),)).text, b"or not to beto be ")
    followed = session.follow_link(link, End.TO)
    test.assertEqual(followed.specs, (Spec.of(left, text_span(1, 12)),))
    test.assertEqual(session.span_set(right).length, 7)
    test.assertEqual(session.span_set(right).links, 1)
    test.assertEqual(session.span(left).span, text_span(1, 18))
    test.assertEqual(session.find_documents((Spec.of(left, ALL_TEXT),)).documents, (left, right))
    want = Want(homes=(homes_of_account(_ACCOUNT),))
    test.assertEqual(session.count_links(want).count, 1)
    test.assertEqual(session.find_links(want).links, (link,))
    test.assertEqual(session.next_links(want, link, 5).links, ())
    test.assertEqual(session.end_sets((Spec.of(left, ALL_TEXT),)).three, (Spec.of(left),))
    version = session.create_version(right).document
    test.assertEqual(version, right.child(1))
    session.delete(version, text_span(1, 1))
    test.assertEqual(session.open(version, Mode.READ, Rule.REFUSE).document, version)
    session.close(version)
    test.assertEqual(session.publish(left), replies.Published())
    session.quit()


class _Told:
    """A way to nowhere, on which these bytes come back."""

    def __init__(self, *pieces: bytes) -> None:
        self._pieces = list(pieces)
        self.sent = b""
        self.is_closed = False

    def send(self, data: bytes) -> None:
        self.sent += data

    def receive(self) -> bytes:
        return self._pieces.pop(0) if self._pieces else b""

    def why_ended(self) -> SessionEnded:
        return SessionEnded("the end")

    def close(self) -> None:
        self.is_closed = True


class OverNothing(unittest.TestCase):
    def test_what_is_sent_and_taken(self) -> None:
        told = _Told(b"P", b"0~34", b"~16~")
        with Session(told) as session:
            session.account(_ACCOUNT)
        self.assertEqual(told.sent, b"P0~34~0.1.1.0.1~16~")
        self.assertTrue(told.is_closed)

    def test_no_greeting(self) -> None:
        for pieces, error in (((b"P1~",), Malformed), ((b"P",), SessionEnded), ((), SessionEnded)):
            told = _Told(*pieces)
            with self.assertRaises(error):
                Session(told)
            self.assertTrue(told.is_closed)

    def test_replies_that_end_a_session(self) -> None:
        for reply, error in ((b"34", SessionEnded), (b"34x", Malformed), (b"?16~", Malformed)):
            told = _Told(b"P0~", reply)
            # no quit is sent behind it, though the error is taken in the session
            with Session(told) as session, self.assertRaises(error):
                session.account(_ACCOUNT)
            self.assertEqual(told.sent, b"P0~34~0.1.1.0.1~")

    def test_a_reply_to_another_request(self) -> None:
        with self.assertRaises(Unexpected), Session(_Told(b"P0~11~0.1~16~")) as session:
            session.account(_ACCOUNT)


class OverAPipe(_Sessions):
    def test_each_request(self) -> None:
        with self.session() as session:
            _use(self, session)

    def test_a_later_session_finds_what_was_made(self) -> None:
        with self.session() as session:
            session.account(_ACCOUNT)
            session.insert(session.create_document().document, byte(1), b"hello")
        with self.session() as session:
            session.account(_ACCOUNT)
            session.open(_FIRST)
            self.assertEqual(session.retrieve((Spec.of(_FIRST, ALL_TEXT),)).text, b"hello")

    def test_an_exception_ends_the_session_and_keeps_what_was_answered(self) -> None:
        with self.assertRaises(ZeroDivisionError), self.session() as session:
            session.account(_ACCOUNT)
            session.create_document()
            raise ZeroDivisionError
        with self.session() as session:
            session.account(_ACCOUNT)
            self.assertEqual(session.open(_FIRST), replies.Opened(_FIRST))

    def test_many_requests_ahead(self) -> None:
        with self.session() as session:
            session.account(_ACCOUNT)
            document = session.create_document().document
            text = bytes(range(256)) * 40
            asked = [requests.Insert(document, byte(1), text)] * 20
            self.assertEqual(list(session.ask_all(asked)), [replies.Inserted()] * 20)
            spec = Spec.of(document, ALL_TEXT)
            told = list(session.ask_all([requests.Retrieve((spec,))] * 3))
            self.assertEqual([it.text for it in told], [text * 20] * 3)  # type: ignore[attr-defined]

    def test_a_refusal_names_request_and_argument(self) -> None:
        with self.session() as session:
            self._check(session, requests.CreateDocument(), Refusal.NO_ACCOUNT)
            session.account(_ACCOUNT)
            document = session.create_document().document
            other = Tumbler.parse("1.1.0.9.0.1")
            endless = Span(byte(4_294_967_295), Tumbler.of(0, 1))
            self._check(session, requests.Insert(document, byte(2), b"x"), Refusal.BAD_ADDRESS, "address 1.2")
            self._check(session, requests.WholeSpan(other), Refusal.NO_SUCH_DOCUMENT, f"document {other}")
            self._check(session, requests.Delete(document, endless), Refusal.BAD_ADDRESS, "span (1.4294967295, 0.1)")
            self._check(
                session,
                requests.Copy(document, byte(1), (Spec.of(other),)),
                Refusal.NO_SUCH_DOCUMENT,
                f"document {document}",
                f"specs {other}",
            )
            self._check(session, requests.FollowLink(other, 1), Refusal.NO_SUCH_LINK, f"link {other}")
            self._check(session, requests.Account(other), Refusal.BAD_ADDRESS, f"account {other}")
            self._check(session, requests.Rearrange(document, ()), Refusal.BAD_CUTS, "cuts none")
            session.close(document)
            self._check(session, requests.SpanSet(document), Refusal.NOT_OPEN, f"document {document}")

    def test_a_document_is_private_until_it_is_published(self) -> None:
        with self.session() as session:
            session.account(_ACCOUNT)
            document = session.create_document().document
            session.insert(document, byte(1), b"hello")
            link = session.create_link(document, (Spec.of(document, ALL_TEXT),), ()).link
            session.account(_OTHER)
            self._check(session, requests.SpanSet(document), Refusal.PRIVATE, f"document {document}")
            self._check(session, requests.FollowLink(link, 1), Refusal.NO_SUCH_LINK, f"link {link}")
            self.assertEqual(session.count_links(Want()).count, 0)
            session.account(_ACCOUNT)
            session.publish(document)
            session.account(_OTHER)
            self.assertEqual(session.retrieve((Spec.of(document, ALL_TEXT),)).text, b"hello")
            self.assertEqual(session.find_links(Want()).links, (link,))
            version = session.create_version(document).document
            session.account(_ACCOUNT)
            self._check(session, requests.WholeSpan(version), Refusal.PRIVATE, f"document {version}")
            session.close(version)

    def _check(self, session: Session, request: requests.Request, refusal: Refusal, *named: str) -> None:
        error = self.refusal(session, request)
        self.assertIs(error.refusal, refusal)
        self.assertEqual([str(it) for it in error.arguments], list(named))
        self.assertIn(request.name, str(error))
        self.assertIn(refusal.meaning, str(error))

    def test_a_folder_that_is_not_there(self) -> None:
        with self.assertRaises(SessionEnded):
            Session.connect(f"{self.folder}/none", program())

    def test_a_program_that_is_not_there(self) -> None:
        with self.assertRaises(SessionEnded):
            Session.connect(self.folder, f"{self.folder}/none")

    def test_why_a_program_ended(self) -> None:
        with self.assertRaises(SessionEnded) as caught:
            Session(PipeTransport(program(), self.folder, ["--limits"]))
        self.assertEqual(caught.exception.status, 2)
        self.assertTrue(str(caught.exception).startswith("green_batch: usage:"))

    def test_a_folder_of_before(self) -> None:
        before.write_to(self.folder)
        for _ in range(2):
            ran = run([self.folder], before.ASKED)
            self.assertEqual((ran.output, ran.status), (before.TOLD, 0))
        self.assertEqual(os.path.getsize(f"{self.folder}/log"), 0)

    def test_a_log_of_before(self) -> None:
        with open(f"{self.folder}/log", "wb") as log:
            log.write(_BEFORE)
        for _ in range(2):
            with self.session() as session:
                session.account(_ACCOUNT)
                session.open(_FIRST)
                self.assertEqual(session.retrieve((Spec.of(_FIRST, ALL_TEXT),)).text, b"hello")
        with open(f"{self.folder}/log", "rb") as log, open(f"{self.folder}/log2", "rb") as log2:
            self.assertEqual((len(log.read()), len(log2.read())), (0, 143))

    def test_a_damaged_log(self) -> None:
        with open(f"{self.folder}/log", "wb") as log:
            log.write(b"\1\0\0\0\0\0")
        with self.assertRaises(SessionEnded) as caught:
            self.session()
        self.assertEqual((caught.exception.status, str(caught.exception)), (8, "green_batch: damaged log at 0"))


class OverASocket(_Sessions):
    def test_each_request(self) -> None:
        with serving(self.folder) as address, Session.connect(address) as session:
            _use(self, session)

    def test_sessions_one_after_the_other(self) -> None:
        with serving(self.folder) as address:
            for number in range(1, 4):
                with Session.connect(address) as session:
                    session.account(_ACCOUNT)
                    document = session.create_document().document
                    self.assertEqual(document, _ACCOUNT.child(0, number))

    @unittest.skipUnless(HAS_SERVER, "sessions take turns where there is no server")
    def test_sessions_side_by_side(self) -> None:
        with serving(self.folder) as address, Session.connect(address) as one, Session.connect(address) as other:
            one.account(_ACCOUNT)
            other.account(_ACCOUNT)
            document = one.create_document().document
            refused = self.refusal(other, requests.Open(document, Mode.WRITE, Rule.REFUSE))
            self.assertIs(refused.refusal, Refusal.CONFLICT)
            self.assertEqual(other.open(document, Mode.WRITE, Rule.COPY).document, document.child(1))
            one.insert(document, byte(1), b"hello")
            other.open(document)
            self.assertEqual(other.retrieve((Spec.of(document, ALL_TEXT),)).text, b"hello")
            one.close(document)
            self.assertEqual(other.open(document, Mode.WRITE).document, document)

    def test_nobody_listens(self) -> None:
        with serving(self.folder) as address:
            pass
        with self.assertRaises(SessionEnded):
            Session.connect(address)

    def test_a_server_that_ends(self) -> None:
        with socket.create_server(("127.0.0.1", 0)) as listener:
            transport = connect(f"127.0.0.1:{listener.getsockname()[1]}")
            listener.accept()[0].close()
            with self.assertRaises(SessionEnded):
                Session(transport)
