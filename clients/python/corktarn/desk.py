"""What the words of the command line do, and how it is shown."""

from __future__ import annotations

import argparse
import os
import re
import shutil
import sys
from typing import Iterator, List, Sequence

from corktarn import sidebyside
from corktarn.model import Tumbler
from corktarn.notes import LinkSeen, Note, Notes, NotesError, Passage, Place

_POSITIONS = re.compile(r"([0-9]{1,10})(?:-([0-9]{1,10}))?\Z")

_LONG = 60
"""How many columns of a passage are shown in a list."""


class Style:
    """Colours, on a terminal alone."""

    _COLOURS = (32, 36, 33, 35, 34)

    def __init__(self, is_on: bool) -> None:
        self.is_on = is_on

    @classmethod
    def of_output(cls) -> Style:
        """Colours where standard output is a terminal that has them and nobody asked for none."""
        is_plain = "NO_COLOR" in os.environ or os.environ.get("TERM") in (None, "dumb")
        return cls(sys.stdout.isatty() and not is_plain)

    def passage(self, text: str, number: int) -> str:
        """The text in the colour of a shared passage; as it is where the number is 0."""
        if not number:
            return text
        return self._with(str(self._COLOURS[number % len(self._COLOURS)]), text)

    def strong(self, text: str) -> str:
        """The text in bold."""
        return self._with("1", text)

    def marked(self, text: str) -> str:
        """The text underlined, and between brackets where there is no terminal."""
        return self._with("4", text) if self.is_on else f"[{text}]"

    def _with(self, code: str, text: str) -> str:
        return f"\x1b[{code}m{text}\x1b[0m" if self.is_on and text else text


class Desk:
    """What each word does. It takes the parsed words, and gives the lines that are to be printed."""

    def __init__(self, notes: Notes, account: Tumbler, style: Style) -> None:
        self._notes = notes
        self._account = account
        self._style = style

    def make(self, words: argparse.Namespace) -> Iterator[str]:
        """Makes a document, and tells its name."""
        yield self._name(self._notes.make(_text(words)))

    def list(self, words: argparse.Namespace) -> Iterator[str]:
        """Lists the account's documents."""
        for note in self._notes.documents():
            yield self._line(note)

    def show(self, words: argparse.Namespace) -> Iterator[str]:
        """Writes a passage as it is, or with what is linked marked."""
        passage = self._passage(words.passage)
        if words.marks:
            yield self._with_marks(passage)
            return
        sys.stdout.flush()
        sys.stdout.buffer.write(passage.text)
        if passage.text and not passage.text.endswith(b"\n"):
            yield ""

    def insert(self, words: argparse.Namespace) -> Iterator[str]:
        """Puts text into a document, and tells where."""
        document = self._held(words.document)
        text = _text(words)
        at = self._position(document, words)
        self._notes.insert(document, at, text)
        yield f"{self._name(document)}:{at}-{at + len(text) - 1}" if text else "nothing"

    def publish(self, words: argparse.Namespace) -> Iterator[str]:
        """Lets every account read a document, and says so."""
        document = self._document(words.document)
        self._notes.publish(document)
        yield f"{self._name(document)} is published"

    def delete(self, words: argparse.Namespace) -> Iterator[str]:
        """Takes a passage out of its document."""
        passage = self._part(words.passage)
        self._notes.delete(passage)
        yield f"took {passage.count} bytes out of {self._name(passage.document)}"

    def move(self, words: argparse.Namespace) -> Iterator[str]:
        """Moves a passage, and tells where it is then."""
        passage = self._part(words.passage)
        at = self._position(passage.document, words)
        self._notes.move(passage, at)
        first = at if at < passage.first else at - passage.count
        yield self._where(Passage(passage.document, first, passage.text))

    def quote(self, words: argparse.Namespace) -> Iterator[str]:
        """Quotes a passage, and tells where the quotation is, and its link."""
        document = self._held(words.document)
        passage = self._passage(words.passage)
        at = self._position(document, words)
        made = self._notes.quote(passage, document, at, not words.no_link)
        linked = f", link {self._link_name(made.link)}" if made.link else ""
        yield f"{self._where(made.passage)}{linked}"

    def link(self, words: argparse.Namespace) -> Iterator[str]:
        """Makes a link, and tells its name."""
        from_, to = map(self._passage, (words.from_, words.to))
        yield f"link {self._link_name(self._notes.link(from_, to))}"

    def links(self, words: argparse.Namespace) -> Iterator[str]:
        """Shows the links from a passage."""
        yield from self._all_seen(self._notes.links(self._passage(words.passage)), "from")

    def backlinks(self, words: argparse.Namespace) -> Iterator[str]:
        """Shows the links to a passage."""
        yield from self._all_seen(self._notes.backlinks(self._passage(words.passage)), "to")

    def who_quotes(self, words: argparse.Namespace) -> Iterator[str]:
        """Shows where else a passage stands."""
        for shared in self._notes.quoters(self._passage(words.passage)):
            yield self._where(shared.there)

    def compare(self, words: argparse.Namespace) -> Iterator[str]:
        """Shows two documents side by side."""
        told = self._notes.compare(*map(self._document, (words.left, words.right)))
        rows = sidebyside.rows_of(told.left.text, told.right.text, told.diagonals)
        width = words.width or shutil.get_terminal_size().columns
        side = max(12, (width - 3) // 2)
        names = [f"    {self._name(it.document)}" for it in (told.left, told.right)]
        yield self._style.strong(f"{names[0]:<{side}} | {names[1]}")
        yield f"{'-' * side}-+-{'-' * side}"
        yield from sidebyside.lines_of(rows, width, self._style.passage)
        same = sum(len(piece.text) for row in rows for piece in row.left if piece.number)
        yield f"{same} bytes shared, of {told.left.count} and {told.right.count}"

    def version(self, words: argparse.Namespace) -> Iterator[str]:
        """Makes a version, and tells its name."""
        yield self._name(self._notes.version(self._document(words.document)))

    def versions(self, words: argparse.Namespace) -> Iterator[str]:
        """Lists a document's versions."""
        for it in self._notes.versions(self._document(words.document)):
            yield f"{self._line(it.note)}  ({it.shared} shared)"

    def _document(self, word: str) -> Tumbler:
        """The document that a word names."""
        try:
            address = Tumbler.parse(word)
        except ValueError:
            raise NotesError(f"no document's name: {word!r}") from None
        return address if 0 in address.places else self._account.child(0, *address.places)

    def _held(self, word: str) -> Tumbler:
        """The document that a word names, opened for writing before positions in it are looked for."""
        document = self._document(word)
        self._notes.hold(document)
        return document

    def _name(self, document: Tumbler) -> str:
        """The word that names a document."""
        own = self._account.child(0, 1).places[:-1]
        rest = document.places[len(own) :]
        is_own = document.places[: len(own)] == own and 0 not in rest
        return ".".join(map(str, rest)) if is_own else str(document)

    def _link_name(self, link: Tumbler) -> str:
        """A link's home and its number there."""
        return f"{self._name(Tumbler(link.places[:-3]))}#{link.places[-1]}"

    def _passage(self, word: str) -> Passage:
        """The passage that a word names; all text where it names a document alone."""
        name, colon, rest = word.partition(":")
        document = self._document(name)
        if not colon:
            return self._notes.whole(document)
        found = _POSITIONS.match(rest)
        if found:
            first = int(found.group(1))
            return self._notes.passage(document, first, int(found.group(2) or first))
        return self._notes.find(document, os.fsencode(rest[1:] if rest.startswith("=") else rest))

    def _part(self, word: str) -> Passage:
        """The passage that a word names by more than its document, which is opened for writing."""
        if ":" not in word:
            raise NotesError(f"name a passage of it, as {word}:'to be' or {word}:7-18")
        self._held(word.partition(":")[0])
        return self._passage(word)

    def _position(self, document: Tumbler, words: argparse.Namespace) -> int:
        """The position that the options name; the end where they name none."""
        if words.at is not None:
            return int(words.at)
        if words.before is not None:
            return self._notes.find(document, os.fsencode(words.before)).first
        if words.after is not None:
            return self._notes.find(document, os.fsencode(words.after)).behind
        return self._notes.whole(document).behind

    def _line(self, note: Note) -> str:
        title = _cut(sidebyside.printable(note.title))
        return f"{self._name(note.document):<11} {note.whole.count:>7}  {title}".rstrip()

    def _where(self, passage: Passage) -> str:
        """A passage's place and its text."""
        shown = _cut(sidebyside.printable(passage.text).replace("\n", " "))
        last = passage.behind - 1
        return f"{self._style.strong(f'{self._name(passage.document)}:{passage.first}-{last}')} \"{shown}\""

    def _with_marks(self, passage: Passage) -> str:
        """The text, in which what is at the end of a link is marked."""
        shown: List[str] = []
        at = passage.first
        for part in self._notes.linked(passage):
            shown.append(sidebyside.printable(passage.part(at, part.start - at).text))
            shown.append(self._style.marked(sidebyside.printable(passage.part(part.start, len(part)).text)))
            at = part.stop
        shown.append(sidebyside.printable(passage.part(at, passage.behind - at).text))
        return "".join(shown).rstrip("\n")

    def _all_seen(self, found: Sequence[LinkSeen], end: str) -> Iterator[str]:
        """The links, and from where on they are only on content that is shared."""
        is_told = False
        for seen in found:
            if not seen.is_here and not is_told:
                is_told = True
                yield f"{end} the same content in another document:"
            yield f"{self._link_name(seen.link)}"
            yield from self._place("from", seen.from_)
            yield from self._place("to", seen.to)

    def _place(self, end: str, place: Place) -> Iterator[str]:
        for passage in place.passages:
            yield f"  {end:>4} {self._where(passage)}"
        for document in place.gone:
            yield f"  {end:>4} {self._name(document)}, which does not show it now"
        if not place.passages and not place.gone:
            yield f"  {end:>4} nothing that this account may read"


def _cut(text: str) -> str:
    """The text, or its front where it is long."""
    if sidebyside.columns(text) <= _LONG:
        return text
    return f"{sidebyside.wrapped(text, _LONG - 4)[0]} ..."


def _text(words: argparse.Namespace) -> bytes:
    """The text that a word gives, or a file, or standard input."""
    if words.file is not None:
        with open(words.file, "rb") as file:
            return file.read()
    return os.fsencode(words.text) if words.text is not None else sys.stdin.buffer.read()
