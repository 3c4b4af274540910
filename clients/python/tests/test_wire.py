"""Spellings of fields, requests and replies, without a program."""

from __future__ import annotations

import unittest
from typing import Callable, Iterable, Tuple

from corktarn import ZERO, Diagonal, Incomplete, Malformed, Mode, Refusal, Rule, Span, Spec, Tumbler, Want
from corktarn import replies, requests, wire
from corktarn.wire import Scanner, read_reply, read_request, write_reply, write_request

_parse = Tumbler.parse
_DOCUMENT = _parse("1.1.0.1.0.1")
_SPAN = Span(_parse("1.1"), _parse("0.5"))
_SPEC = Spec.of(_DOCUMENT, _SPAN)
_WANT = Want((Span(_parse("1.1.0.3"), _parse("0.0.0.1")),), (_SPEC,), (), (Spec.of(_parse("7")),))

# each as the grammar spells it
_REQUESTS: Tuple[Tuple[requests.Request, bytes], ...] = (
    (requests.Insert(_DOCUMENT, _parse("1.4"), b"a~b"), b"0~0.1.1.0.1.0.1~0.1.4~t3:a~b"),
    (requests.SpanSet(_DOCUMENT), b"1~0.1.1.0.1.0.1~"),
    (requests.Copy(_DOCUMENT, ZERO, (_SPEC,)), b"2~0.1.1.0.1.0.1~0~1~0.1.1.0.1.0.1~1~0.1.1~1.5~"),
    (requests.Rearrange(ZERO, (_parse("1.1"), _parse("0.0.7"))), b"3~0~2~0.1.1~2.7~"),
    (requests.Retrieve(()), b"5~0~"),
    (requests.Relation(_SPEC, Spec.of(ZERO)), b"10~0.1.1.0.1.0.1~1~0.1.1~1.5~0~0~"),
    (requests.CreateDocument(), b"11~"),
    (requests.Delete(_DOCUMENT, _SPAN), b"12~0.1.1.0.1.0.1~0.1.1~1.5~"),
    (requests.CreateVersion(_DOCUMENT), b"13~0.1.1.0.1.0.1~"),
    (requests.WholeSpan(_DOCUMENT), b"14~0.1.1.0.1.0.1~"),
    (requests.Quit(), b"16~"),
    (requests.FollowLink(_DOCUMENT, 4294967295), b"18~0.1.1.0.1.0.1~4294967295~"),
    (requests.FindDocuments((_SPEC,)), b"22~1~0.1.1.0.1.0.1~1~0.1.1~1.5~"),
    (requests.CreateLink(_parse("3"), (Spec.of(ZERO),), ()), b"27~0.3~1~0~0~0~0~"),
    (requests.EndSets((Spec.of(ZERO),)), b"28~1~0~0~"),
    (requests.CountLinks(_WANT), b"29~1~0.1.1.0.3~3.1~1~0.1.1.0.1.0.1~1~0.1.1~1.5~0~1~0.7~0~"),
    (requests.FindLinks(Want()), b"30~0~0~0~0~"),
    (requests.NextLinks(Want(), _DOCUMENT, 20), b"31~0~0~0~0~0.1.1.0.1.0.1~20~"),
    (requests.Account(_parse("1.1.0.1")), b"34~0.1.1.0.1~"),
    (requests.Open(_DOCUMENT, Mode.READ, Rule.ALWAYS_COPY), b"35~0.1.1.0.1.0.1~1~3~"),
    (requests.Close(_DOCUMENT), b"36~0.1.1.0.1.0.1~"),
    (requests.Publish(_DOCUMENT), b"40~0.1.1.0.1.0.1~"),
)

_REPLIES: Tuple[Tuple[replies.AnyReply, bytes], ...] = (
    (replies.Inserted(), b"0~"),
    (replies.SpanSetIs((_SPAN, Span(_parse("2.1"), _parse("0.2")))), b"1~2~0.1.1~1.5~0.2.1~1.2~"),
    (replies.Copied(), b"2~"),
    (replies.Rearranged(), b"3~"),
    (replies.Retrieved((b"", ZERO, b"a~b", _parse("7"))), b"5~4~t0:0~t3:a~b0.7~"),
    (replies.Related((Diagonal(4, 12, 3),)), b"10~1~0.1.4~0.1.12~3~"),
    (replies.Created(_DOCUMENT), b"11~0.1.1.0.1.0.1~"),
    (replies.Deleted(), b"12~"),
    (replies.Versioned(_DOCUMENT), b"13~0.1.1.0.1.0.1~"),
    (replies.WholeSpanIs(_SPAN), b"14~0.1.1~1.5~"),
    (replies.HasQuit(), b"16~"),
    (replies.Followed((_SPEC, Spec.of(ZERO))), b"18~2~0.1.1.0.1.0.1~1~0.1.1~1.5~0~0~"),
    (replies.Documents((ZERO, _DOCUMENT)), b"22~2~0~0.1.1.0.1.0.1~"),
    (replies.Linked(_DOCUMENT), b"27~0.1.1.0.1.0.1~"),
    (replies.EndSetsAre((), (Spec.of(ZERO),), ()), b"28~0~1~0~0~0~"),
    (replies.LinkCount(4294967295), b"29~4294967295~"),
    (replies.Links(()), b"30~0~"),
    (replies.LinksBehind((_DOCUMENT,)), b"31~1~0.1.1.0.1.0.1~"),
    (replies.AccountSet(), b"34~"),
    (replies.Opened(_DOCUMENT), b"35~0.1.1.0.1.0.1~"),
    (replies.Closed(), b"36~"),
    (replies.Published(), b"40~"),
    *((replies.RefusedReply(it), b"?%d~" % it) for it in Refusal),
)

_WRONG_REQUESTS = (
    (b"P", 0),
    (b"15~", 1),
    (b"4~", 1),
    (b"41~", 1),
    (b"110~", 2),
    (b"34~24", 4),
    (b"34~23~", 5),
    (b"34~21.1.0~", 9),
    (b"34~0.1" + b".1" * 23 + b".1~", 52),
    (b"34~0.1" + b".1" * 22 + b".0", 51),
    (b"34~0.42949672950~", 15),
    (b"0~0~0~t167772160:", 15),
    (b"0~0~0~t00:", 8),
    (b"35~0~22", 6),
    (b"35~0~1~0", 7),
    (b"18~0~4294967296~", 14),
    (b"3~0~65537~", 8),
    (b"5~65537~", 6),
    (b"5~1~0~65537~", 10),
    (b"28~3~0~1~0~0~0~1~0~0~0~65535~", 27),
    (b"27~0~0~0~2~0~1~0~0~0~65536~", 25),
    (b"10~0~0~0~65537~", 13),
)

_WRONG_REPLIES = (
    (b"~", 0),
    (b"6~", 0),
    (b"4~", 1),
    (b"?0~", 1),
    (b"?16~", 2),
    (b"?150~", 3),
    (b"5~1~T", 4),
    (b"5~2~t1:a~", 8),
    (b"10~1~1.", 5),
    (b"10~1~0.2.1~", 7),
    (b"10~1~0.1.0~", 9),
    (b"10~1~0.1.1~0.1.1.", 16),
    (b"29~4294967296", 12),
)

_OPEN_ENDS = (b"34~23", b"0~0~0~t16777216:", b"5~1~0~65536~", b"10~0~1~0~0~0~65536~", b"5~2~0~1~0~0~0~65535~")


class Spellings(unittest.TestCase):
    def test_each_request_is_spelled_and_read(self) -> None:
        self.assertEqual({type(it) for it, _ in _REQUESTS}, set(wire.REQUEST_FIELDS))
        for request, spelling in _REQUESTS:
            self.assertEqual(write_request(request), spelling)
            self.assertEqual(read_request(Scanner.over(spelling)), request)

    def test_each_reply_is_spelled_and_read(self) -> None:
        kinds = {type(it) for it, _ in _REPLIES if isinstance(it, replies.Reply)}
        self.assertEqual(kinds, set(wire.REPLY_FIELDS))
        for reply, spelling in _REPLIES:
            self.assertEqual(write_reply(reply), spelling)
            self.assertEqual(read_reply(Scanner.over(spelling)), reply)

    def test_pieces_of_any_size(self) -> None:
        spelled = b"".join(spelling for _, spelling in _REPLIES)
        for size in (1, 2, 7, len(spelled)):
            pieces = (spelled[start : start + size] for start in range(0, len(spelled), size))
            scanner = Scanner.over(*pieces)
            self.assertEqual([read_reply(scanner) for _ in _REPLIES], [reply for reply, _ in _REPLIES])
            self.assertEqual(scanner.at, len(spelled))

    def test_a_front_is_incomplete(self) -> None:
        self._check_fronts(read_request, (spelling for _, spelling in _REQUESTS))
        self._check_fronts(read_reply, (spelling for _, spelling in _REPLIES))
        for front in _OPEN_ENDS:
            with self.assertRaises(Incomplete):
                read_request(Scanner.over(front))

    def _check_fronts(self, read: Callable[[Scanner], object], spellings: Iterable[bytes]) -> None:
        for spelling in spellings:
            for cut in range(len(spelling)):
                with self.assertRaises(Incomplete, msg=spelling[:cut]) as caught:
                    read(Scanner.over(spelling[:cut]))
                self.assertEqual(caught.exception.at, cut)

    def test_places_of_wrong_bytes(self) -> None:
        self._check_places(read_request, _WRONG_REQUESTS)
        self._check_places(read_reply, _WRONG_REPLIES)

    def _check_places(self, read: Callable[[Scanner], object], rows: Iterable[Tuple[bytes, int]]) -> None:
        for spelling, place in rows:
            with self.assertRaises(Malformed, msg=spelling) as caught:
                read(Scanner.over(spelling))
            self.assertEqual(caught.exception.at, place, spelling)

    def test_what_has_no_spelling(self) -> None:
        span = Span(ZERO, ZERO)
        many = Spec(ZERO, (span,) * 40_000)
        for request in (
            requests.FollowLink(ZERO, -1),
            requests.NextLinks(Want(), ZERO, 4_294_967_296),
            requests.Insert(ZERO, ZERO, bytes(16_777_217)),
            requests.Rearrange(ZERO, (ZERO,) * 65_537),
            requests.Retrieve((many, many)),
        ):
            with self.assertRaises(ValueError, msg=request.name):
                write_request(request)
        self.assertTrue(write_request(requests.Relation(many, many)))

    def test_what_replies_tell(self) -> None:
        told = replies.SpanSetIs((Span(_parse("2.1"), _parse("0.2")),))
        self.assertEqual((told.length, told.links), (0, 2))
        items = replies.Retrieved((b"ab", _parse("7"), b"c"))
        self.assertEqual((items.text, items.links), (b"abc", (_parse("7"),)))
