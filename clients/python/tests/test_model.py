"""Addresses, spans and the helpers around them."""

from __future__ import annotations

import unittest

from corktarn import (
    ALL_LINKS,
    ALL_TEXT,
    ZERO,
    Span,
    Tumbler,
    byte,
    document_and_versions,
    homes_of_account,
    only_home,
    positions,
    text_span,
)

_parse = Tumbler.parse


def _holds(span: Span, address: str) -> bool:
    return span.start <= _parse(address) < span.start + span.width


class Tumblers(unittest.TestCase):
    def test_what_is_written_is_read(self) -> None:
        for text in ("0", "1", "1.1.0.1", "0.5", "0.0.7", "4294967295.0.3"):
            self.assertEqual(str(_parse(text)), text)

    def test_what_is_no_tumbler(self) -> None:
        for text in ("", "1.", ".1", "1.0", "-1", "1.x", "4294967296", "1" + ".1" * 24, "٣"):
            with self.assertRaises(ValueError, msg=text):
                _parse(text)

    def test_sums(self) -> None:
        for start, width, total in (
            ("1.2", "0.5", "1.7"),
            ("1.2", "1", "2"),
            ("1.7", "0", "1.7"),
            ("1.1.0.1", "0.0.0.1", "1.1.0.2"),
            ("0", "0.0.7", "0.0.7"),
            ("2", "0.0.7", "2.0.7"),
        ):
            self.assertEqual(_parse(start) + _parse(width), _parse(total))

    def test_a_sum_that_does_not_fit(self) -> None:
        with self.assertRaises(OverflowError):
            _parse("1.4294967295") + _parse("0.1")
        self.assertFalse(Span(_parse("1.4294967295"), _parse("0.1")).fits())
        self.assertTrue(ALL_TEXT.fits() and ALL_LINKS.fits())

    def test_the_order(self) -> None:
        ascending = [*map(_parse, ("0", "0.0.7", "0.5", "1", "1.0.0.2", "1.0.1", "1.1", "2"))]
        self.assertEqual(sorted(ascending[::-1]), ascending)


class Spans(unittest.TestCase):
    def test_text_and_links(self) -> None:
        self.assertTrue(_holds(ALL_TEXT, "1.1") and _holds(ALL_TEXT, "1.4294967295"))
        self.assertFalse(_holds(ALL_TEXT, "2.1") or _holds(ALL_LINKS, "1.7"))
        self.assertTrue(_holds(ALL_LINKS, "2.1"))

    def test_positions(self) -> None:
        self.assertEqual(positions(text_span(3, 2)), range(3, 5))
        self.assertEqual(len(positions(Span(byte(3), ZERO))), 0)
        self.assertEqual(text_span(3, 0), Span(byte(3), ZERO))
        with self.assertRaises(ValueError):
            positions(ALL_LINKS)

    def test_homes(self) -> None:
        document = _parse("1.1.0.1.0.3")
        own, family = only_home(document), document_and_versions(document)
        account = homes_of_account(_parse("1.1.0.1"))
        for address, wanted in (
            ("1.1.0.1.0.3", (True, True, True)),
            ("1.1.0.1.0.3.1", (False, True, True)),
            ("1.1.0.1.0.3.1.2", (False, True, True)),
            ("1.1.0.1.0.4", (False, False, True)),
            ("1.1.0.1.5.0.1", (False, False, False)),
            ("1.1.0.2.0.3", (False, False, False)),
        ):
            told = tuple(_holds(span, address) for span in (own, family, account))
            self.assertEqual(told, wanted, address)
