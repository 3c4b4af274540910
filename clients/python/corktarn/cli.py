"""The command line for who keeps notes. `notes --help` tells its words."""

from __future__ import annotations

import argparse
import io
import os
import sys
from typing import Callable, Iterator, NoReturn, Optional, Sequence

from corktarn.desk import Desk, Style
from corktarn.errors import CorktarnError, Incomplete, Malformed
from corktarn.model import Tumbler
from corktarn.notes import Notes, NotesError
from corktarn.session import Session

_ABOUT = """\
Keeps notes that quote each other, in a store of Corktarn.

The store is a folder, which the program green_batch keeps, or HOST:PORT of a
server. A document is named by its number in the account, as 2, a version by
the document's number and its own, as 2.1, and a document of another account
by its whole address, as 1.1.0.2.0.1. A passage is a document, a colon and the
words of the passage, as 2:'to be', which stand there once, or its bytes, as
2:7-18. Behind 2:= all words are taken as they are."""

_ENDING = """\
It was written from docs/PROTOCOL.md, and is not proved."""


class _OneLineParser(argparse.ArgumentParser):
    """A parser that tells an error in one line."""

    def error(self, message: str) -> NoReturn:
        """Ends the program with status 2."""
        self.exit(2, f"{self.prog}: {message} (see {self.prog} --help)\n")


def _address(word: str) -> Tumbler:
    try:
        return Tumbler.parse(word)
    except ValueError as error:
        raise argparse.ArgumentTypeError(str(error)) from None


def _natural(word: str) -> int:
    if not (word.isascii() and word.isdigit() and 1 <= int(word) <= 4_294_967_295):
        raise argparse.ArgumentTypeError(f"no position: {word!r}")
    return int(word)


Act = Callable[[Desk, argparse.Namespace], Iterator[str]]


class _Words:
    """The parser of all words."""

    def __init__(self) -> None:
        self.parser = _OneLineParser(
            prog="notes",
            description=_ABOUT,
            epilog=_ENDING,
            formatter_class=argparse.RawDescriptionHelpFormatter,
        )
        self._globals()
        self._words = self.parser.add_subparsers(
            title="words", metavar="WORD", dest="word", required=True, parser_class=_OneLineParser
        )
        self._for_text()
        self._for_links()
        self._for_versions()

    def _globals(self) -> None:
        add = self.parser.add_argument
        store = os.environ.get("CORKTARN")
        account = os.environ.get("CORKTARN_ACCOUNT", "1.1.0.1")
        add("--store", metavar="STORE", default=store, help="a folder or HOST:PORT (default: what CORKTARN names)")
        add(
            "--account",
            metavar="ACCOUNT",
            type=_address,
            default=account,
            help="the account (default: what CORKTARN_ACCOUNT names, or 1.1.0.1)",
        )
        add("--program", metavar="FILE", help="the program for a folder (default: what GREEN_BATCH names)")

    def _word(self, name: str, act: Act, about: str, more: str = "") -> argparse.ArgumentParser:
        parser: argparse.ArgumentParser = self._words.add_parser(
            name, help=about, description=f"{about[0].upper()}{about[1:]}.{' ' if more else ''}{more}"
        )
        parser.set_defaults(act=act)
        return parser

    def _for_text(self) -> None:
        make = self._word("make", Desk.make, "make a document, and tell its name")
        _add_text(make)
        self._word("list", Desk.list, "list the account's documents: name, bytes, first line")
        show = self._word("show", Desk.show, "show a document or a passage")
        show.add_argument("passage", metavar="PASSAGE")
        show.add_argument("--marks", action="store_true", help="mark what is at the end of a link")
        publish = self._word(
            "publish",
            Desk.publish,
            "let all accounts read a document",
            "There is no way back. Its versions stay private.",
        )
        publish.add_argument("document", metavar="DOCUMENT")
        insert = self._word("insert", Desk.insert, "put text into a document, at its end or where it is told")
        insert.add_argument("document", metavar="DOCUMENT")
        _add_text(insert)
        _add_position(insert)
        delete = self._word("delete", Desk.delete, "take a passage out of its document", "Its quotations stay.")
        delete.add_argument("passage", metavar="PASSAGE")
        move = self._word("move", Desk.move, "move a passage within its document, to the end or where it is told")
        move.add_argument("passage", metavar="PASSAGE")
        _add_position(move)

    def _for_links(self) -> None:
        quote = self._word(
            "quote", Desk.quote, "quote a passage in a document, with a link from the quotation to its source"
        )
        quote.add_argument("passage", metavar="PASSAGE")
        quote.add_argument("document", metavar="DOCUMENT", help="the document that quotes it")
        quote.add_argument("--no-link", action="store_true", help="make no link")
        _add_position(quote)
        link = self._word("link", Desk.link, "link one passage to another")
        link.add_argument("from_", metavar="FROM")
        link.add_argument("to", metavar="TO")
        links = self._word("links", Desk.links, "show the links that come from a passage")
        links.add_argument("passage", metavar="PASSAGE")
        backlinks = self._word("backlinks", Desk.backlinks, "show the links that go to a passage")
        backlinks.add_argument("passage", metavar="PASSAGE")
        who = self._word(
            "who-quotes", Desk.who_quotes, "show where else a passage stands, in all documents that may be read"
        )
        who.add_argument("passage", metavar="PASSAGE")

    def _for_versions(self) -> None:
        compare = self._word(
            "compare",
            Desk.compare,
            "show two documents side by side",
            "What both share has a number, and an = between the sides where it stands in the same order in both.",
        )
        compare.add_argument("left", metavar="DOCUMENT")
        compare.add_argument("right", metavar="DOCUMENT")
        compare.add_argument("--width", metavar="COLUMNS", type=_natural, help="(default: the terminal's)")
        version = self._word("version", Desk.version, "make a version of a document, and tell its name")
        version.add_argument("document", metavar="DOCUMENT")
        versions = self._word(
            "versions", Desk.versions, "list a document's versions, with how many bytes of each it shows too"
        )
        versions.add_argument("document", metavar="DOCUMENT")


def _add_text(parser: argparse.ArgumentParser) -> None:
    given = parser.add_mutually_exclusive_group()
    given.add_argument("text", metavar="TEXT", nargs="?", help="(default: standard input)")
    given.add_argument("--file", metavar="FILE", help="take the text from a file")


def _add_position(parser: argparse.ArgumentParser) -> None:
    given = parser.add_mutually_exclusive_group()
    given.add_argument("--at", metavar="N", type=_natural, help="before the byte at this position")
    given.add_argument("--before", metavar="WORDS", help="before these words")
    given.add_argument("--after", metavar="WORDS", help="behind these words")


def run(words: Optional[Sequence[str]] = None) -> None:
    """Does what the words say."""
    parsed = _Words().parser.parse_args(words)
    if parsed.store is None:
        raise NotesError("no store: name a folder or HOST:PORT by CORKTARN or --store")
    with Session.connect(parsed.store, parsed.program) as session:
        desk = Desk(Notes(session, parsed.account), parsed.account, Style.of_output())
        for line in parsed.act(desk, parsed):
            print(line)


def _told(error: Exception) -> str:
    """An error in one line."""
    if isinstance(error, (Malformed, Incomplete)):
        return f"the store's replies can't be read: {error}"
    if isinstance(error, OSError) and error.filename is not None:
        return f"{error.filename}: {error.strerror}"
    return " ".join(str(error).split())


def main(words: Optional[Sequence[str]] = None) -> int:
    """Runs the command line, and gives its status: 0, 1 for an error, 2 for wrong words, 130 where it was stopped."""
    if isinstance(sys.stdout, io.TextIOWrapper):
        # a letter that the terminal lacks is no error
        sys.stdout.reconfigure(errors="replace")
    try:
        run(words)
        sys.stdout.flush()
    except BrokenPipeError:
        # whoever read the output has gone; nothing more can be told, also not at exit
        os.dup2(os.open(os.devnull, os.O_WRONLY), sys.stdout.fileno())
    except KeyboardInterrupt:
        return 130
    except (CorktarnError, OSError, ValueError) as error:
        print(f"notes: {_told(error)}", file=sys.stderr)
        return 1
    return 0
