"""What a note keeper does, over a program."""

from __future__ import annotations

import tempfile
import unittest
from typing import List, Tuple
from unittest import mock

from corktarn import Refusal, Refused, Session, Tumbler
from corktarn.notes import Notes, NotesError, Passage, Shared
from tests.program import program

_OWN = Tumbler.parse("1.1.0.1")
_OTHER = Tumbler.parse("1.1.0.2")


def _place(passage: Passage) -> Tuple[Tumbler, int, bytes]:
    return passage.document, passage.first, passage.text


class _Kept(unittest.TestCase):
    """A session on a store with a text in it."""

    def setUp(self) -> None:
        holder = tempfile.TemporaryDirectory()
        self.addCleanup(holder.cleanup)
        session = Session.connect(holder.name, program())
        self.addCleanup(session.__exit__, None, None, None)
        self.session = session
        self.notes = Notes(session, _OWN)
        self.text = self.notes.make(b"to be or not to be")

    def text_of(self, document: Tumbler) -> bytes:
        """All text of a document."""
        return self.notes.whole(document).text


class Texts(_Kept):
    def test_a_text_is_changed(self) -> None:
        self.notes.insert(self.text, 19, b"?")
        self.notes.delete(self.notes.find(self.text, b" or not to be"))
        self.assertEqual(self.text_of(self.text), b"to be?")
        self.notes.move(self.notes.find(self.text, b"be"), 1)
        self.assertEqual(self.text_of(self.text), b"beto ?")
        self.notes.move(self.notes.find(self.text, b"be"), 6)
        self.assertEqual(self.text_of(self.text), b"to be?")
        with self.assertRaises(NotesError):
            self.notes.move(self.notes.find(self.text, b"be"), 5)

    def test_words_are_found(self) -> None:
        self.assertEqual(self.notes.find(self.text, b"not").first, 10)
        for words in (b"", b"question", b"be"):
            with self.assertRaises(NotesError):
                self.notes.find(self.text, words)
        with self.assertRaisesRegex(NotesError, "2 places: 4-5, 17-18"):
            self.notes.find(self.text, b"be")

    def test_a_passage_has_to_be_there(self) -> None:
        self.assertEqual(self.notes.passage(self.text, 1, 18), self.notes.whole(self.text))
        for first, last in ((0, 1), (3, 2), (18, 19)):
            with self.assertRaises(NotesError):
                self.notes.passage(self.text, first, last)

    def test_documents_and_versions_are_listed(self) -> None:
        second = self.notes.make(b"\n  a title \nmore")
        version = self.notes.version(self.notes.version(self.text))
        listed = [(str(it.document), it.title) for it in self.notes.documents()]
        wanted = [(self.text, b"to be or not to be"), (self.text.child(1), b"to be or not to be")]
        wanted += [(version, b"to be or not to be"), (second, b"a title")]
        self.assertEqual(listed, [(str(document), title) for document, title in wanted])

    def test_all_bytes_are_text(self) -> None:
        document = self.notes.make(bytes(range(256)))
        self.assertEqual(self.text_of(document), bytes(range(256)))

    def test_a_long_text_goes_in_and_out_in_parts(self) -> None:
        with mock.patch("corktarn.notes.MOST_TEXT", 7):
            document = self.notes.make(b"abcdefghijklmnopqrstuvwxyz")
            self.notes.insert(document, 2, b"0123456789")
            self.assertEqual(self.text_of(document), b"a0123456789bcdefghijklmnopqrstuvwxyz")


class Quotations(_Kept):
    def test_a_quotation_is_linked_to_its_source(self) -> None:
        quoting = self.notes.make(b"[]")
        made = self.notes.quote(self.notes.find(self.text, b"not to be"), quoting, 2)
        self.assertEqual(self.text_of(quoting), b"[not to be]")
        for seen in (self.notes.links(made.passage), self.notes.backlinks(self.notes.whole(self.text))):
            self.assertEqual([it.link for it in seen], [made.link])
            self.assertEqual([_place(it) for it in seen[0].from_.passages], [(quoting, 2, b"not to be")])
            self.assertEqual([_place(it) for it in seen[0].to.passages], [(self.text, 10, b"not to be")])
            self.assertTrue(seen[0].is_here)

    def test_a_link_is_seen_on_shared_content(self) -> None:
        quoting = self.notes.make(b"")
        self.notes.quote(self.notes.find(self.text, b"not"), quoting, 1)
        seen = self.notes.links(self.notes.whole(self.text))
        self.assertEqual([it.is_here for it in seen], [False])

    def test_a_link_survives_edits(self) -> None:
        quoting = self.notes.make(b"")
        self.notes.quote(self.notes.find(self.text, b"or not"), quoting, 1)
        self.notes.insert(self.text, 9, b" rather")
        self.notes.insert(self.text, 1, b"Whether ")
        (seen,) = self.notes.links(self.notes.whole(quoting))
        self.assertEqual([_place(it) for it in seen.to.passages], [(self.text, 15, b"or"), (self.text, 24, b" not")])

    def test_a_source_that_lost_the_text(self) -> None:
        quoting = self.notes.make(b"")
        self.notes.quote(self.notes.find(self.text, b"not"), quoting, 1)
        self.notes.delete(self.notes.whole(self.text))
        (seen,) = self.notes.links(self.notes.whole(quoting))
        self.assertEqual((seen.to.passages, seen.to.gone), ((), (self.text,)))
        self.assertEqual(self.text_of(quoting), b"not")

    def test_a_quotation_of_several_runs_is_one_passage(self) -> None:
        self.notes.insert(self.text, 10, b"certainly ")
        quoting = self.notes.make(b"")
        self.notes.quote(self.notes.find(self.text, b"or certainly not"), quoting, 1)
        (seen,) = self.notes.links(self.notes.whole(quoting))
        self.assertEqual([it.text for it in seen.to.passages], [b"or certainly not"])

    def test_no_link_where_none_is_wanted(self) -> None:
        quoting = self.notes.make(b"")
        passage = self.notes.find(self.text, b"not")
        self.assertIsNone(self.notes.quote(passage, quoting, 1, is_linked=False).link)
        self.assertIsNone(self.notes.quote(passage, self.text, 1).link)
        self.assertEqual(self.text_of(self.text), b"notto be or not to be")

    def test_links_by_pages(self) -> None:
        whole = self.notes.whole(self.text)
        other = self.notes.whole(self.notes.make(b"x"))
        made = [self.notes.link(whole, other) for _ in range(5)]
        with mock.patch("corktarn.notes._PAGE", 2):
            self.assertEqual([it.link for it in self.notes.links(whole)], made)

    def test_who_quotes(self) -> None:
        quoting = self.notes.make(b"[]")
        self.notes.quote(self.notes.find(self.text, b"not"), quoting, 2)
        self.notes.quote(self.notes.find(self.text, b"not"), self.text, 1)
        found = self.notes.quoters(self.notes.passage(self.text, 13, 15))
        self.assertEqual(self._there(found), [(self.text, 1, b"not"), (quoting, 2, b"not")])

    def _there(self, found: List[Shared]) -> List[Tuple[Tumbler, int, bytes]]:
        return [_place(it.there) for it in found]

    def test_what_is_linked_is_told(self) -> None:
        quoting = self.notes.make(b"[]")
        self.notes.quote(self.notes.find(self.text, b"not"), quoting, 2)
        self.assertEqual(self.notes.linked(self.notes.whole(self.text)), [range(10, 13)])
        self.assertEqual(self.notes.linked(self.notes.whole(quoting)), [range(2, 5)])


class Versions(_Kept):
    def test_a_version_shares_text(self) -> None:
        version = self.notes.version(self.text)
        self.notes.insert(version, 10, b"really ")
        (seen,) = self.notes.versions(self.text)
        self.assertEqual((seen.note.document, seen.note.whole.count, seen.shared), (version, 25, 18))
        told = self.notes.compare(self.text, version)
        self.assertEqual([(it.left, it.right, it.length) for it in told.diagonals], [(1, 1, 9), (10, 17, 9)])

    def test_another_account_makes_a_version_of_its_own(self) -> None:
        self.notes.publish(self.text)
        others = Notes(self.session, _OTHER)
        self.assertEqual(others.version(self.text), Tumbler.parse("1.1.0.2.0.1"))
        with self.assertRaises(Refused):
            others.insert(self.text, 1, b"x")


class Privacy(_Kept):
    def test_what_is_private_is_not_read(self) -> None:
        others = Notes(self.session, _OTHER)
        with self.assertRaises(Refused) as caught:
            others.whole(self.text)
        self.assertIs(caught.exception.refusal, Refusal.PRIVATE)
        self.assertEqual(list(others.documents()), [])

    def test_a_private_version_is_passed_over(self) -> None:
        self.notes.publish(self.text)
        below = self.notes.version(self.notes.version(self.text))
        second = self.notes.version(self.text)
        self.notes.publish(below)
        self.notes.publish(second)
        others = Notes(self.session, _OTHER)
        self.assertEqual([it.note.document for it in others.versions(self.text)], [below, second])

    def test_a_private_quotation_is_not_told(self) -> None:
        self.notes.publish(self.text)
        quoting = self.notes.make(b"")
        self.notes.quote(self.notes.find(self.text, b"not"), quoting, 1)
        others = Notes(self.session, _OTHER)
        whole = others.whole(self.text)
        self.assertEqual((others.quoters(whole), others.backlinks(whole), others.linked(whole)), ([], [], []))

    def test_a_link_from_what_is_private(self) -> None:
        quoting = self.notes.make(b"[]")
        self.notes.quote(self.notes.find(self.text, b"not"), quoting, 2)
        self.notes.publish(quoting)
        others = Notes(self.session, _OTHER)
        (seen,) = others.links(others.whole(quoting))
        self.assertEqual([it.text for it in seen.from_.passages], [b"not"])
        self.assertEqual((seen.to.passages, seen.to.gone), ((), ()))
