"""What someone who keeps notes does with a store, over a `Session`: passages, quotations, links both ways, versions.

Positions are numbers of bytes, from 1 on.
"""

from __future__ import annotations

import itertools
from dataclasses import dataclass
from typing import Dict, Iterator, List, Optional, Sequence, Tuple

from corktarn.errors import CorktarnError, Refused
from corktarn.model import (
    ALL_TEXT,
    MOST_TEXT,
    ZERO,
    Diagonal,
    End,
    Mode,
    Refusal,
    Rule,
    Span,
    Spec,
    SpecSet,
    Tumbler,
    Want,
    byte,
    positions,
    text_span,
)
from corktarn.session import Session

_PAGE = 1_000
"""How many links are asked for at a time."""


class NotesError(CorktarnError):
    """What was asked for does not fit the documents as they are."""


@dataclass(frozen=True)
class Passage:
    """A stretch of a document's text, as it stood when it was asked for."""

    document: Tumbler
    first: int
    text: bytes

    @property
    def count(self) -> int:
        """How many bytes it has."""
        return len(self.text)

    @property
    def behind(self) -> int:
        """The position right behind it."""
        return self.first + self.count

    @property
    def span(self) -> Span:
        """Its span in the document."""
        return text_span(self.first, self.count)

    @property
    def specs(self) -> SpecSet:
        """The spec set that picks it."""
        return (Spec.of(self.document, self.span),)

    def part(self, first: int, count: int) -> Passage:
        """The part of it with these positions of the document."""
        start = first - self.first
        return Passage(self.document, first, self.text[start : start + count])

    def touches(self, other: Passage) -> bool:
        """Whether both have a byte at the same position of the same document."""
        return (
            self.document == other.document
            and self.first < other.behind
            and other.first < self.behind
        )


@dataclass(frozen=True)
class Place:
    """What an end of a link holds: passages where its origins show it now, and the origins that show none of a run.
    Origins that this account may not read are in neither."""

    passages: Tuple[Passage, ...]
    gone: Tuple[Tumbler, ...]


@dataclass(frozen=True)
class LinkSeen:
    """A link that was found. `is_here` says that the end which was asked about was made in the passage's document, and
    not only in another one that shares the content."""

    link: Tumbler
    from_: Place
    to: Place
    is_here: bool


@dataclass(frozen=True)
class Quotation:
    """What a quote made: the passage that came in, and the link from it to its source, if one was made."""

    passage: Passage
    link: Optional[Tumbler]


@dataclass(frozen=True)
class Shared:
    """The same content at two places."""

    here: Passage
    there: Passage


@dataclass(frozen=True)
class Note:
    """A document in a list, with its text."""

    whole: Passage

    @property
    def document(self) -> Tumbler:
        """Its address."""
        return self.whole.document

    @property
    def title(self) -> bytes:
        """The first line that is not empty."""
        return next((line for line in self.whole.text.splitlines() if line.strip()), b"").strip()


@dataclass(frozen=True)
class VersionSeen:
    """A version, and how many of its bytes its source shows too."""

    note: Note
    shared: int


@dataclass(frozen=True)
class Comparison:
    """Two texts and where they are the same content."""

    left: Passage
    right: Passage
    diagonals: Tuple[Diagonal, ...]


class Notes:
    """A note keeper's session. It opens what it needs."""

    def __init__(self, session: Session, account: Tumbler) -> None:
        self._session = session
        self._account = account
        self._open: Dict[Tumbler, Mode] = {}
        session.account(account)

    def _read(self, document: Tumbler) -> None:
        """Opens the document for reading, unless it is open. To open it anew would end its writing."""
        if document not in self._open:
            self._session.open(document, Mode.READ, Rule.REFUSE)
            self._open[document] = Mode.READ

    def hold(self, document: Tumbler) -> None:
        """Opens the document for writing. From then on no other session moves what is found in it."""
        if self._open.get(document) is not Mode.WRITE:
            self._session.open(document, Mode.WRITE, Rule.REFUSE)
            self._open[document] = Mode.WRITE

    def documents(self) -> Iterator[Note]:
        """The account's documents, each before its versions."""
        return self._family(self._account, 0)

    def _family(self, above: Tumbler, *field: int) -> Iterator[Note]:
        """The documents that are `above`, the field and one place more, each before its versions. Their numbers have no
        gaps, so the first that is not there ends them. One that another account keeps private is passed over; what
        lies below it may be published."""
        for number in itertools.count(1):
            document = above.child(*field, number)
            try:
                yield Note(self.whole(document))
            except Refused as error:
                if error.refusal is Refusal.NO_SUCH_DOCUMENT:
                    return
                if error.refusal is not Refusal.PRIVATE:
                    raise
            yield from self._family(document)

    def make(self, text: bytes) -> Tumbler:
        """Makes a document with this text."""
        document = self._session.create_document().document
        self._open[document] = Mode.WRITE
        self.insert(document, 1, text)
        return document

    def publish(self, document: Tumbler) -> None:
        """Lets every account read the document, for good."""
        self.hold(document)
        self._session.publish(document)

    def whole(self, document: Tumbler) -> Passage:
        """All text of a document, in as many requests as it takes."""
        self._read(document)
        length = self._session.span_set(document).length
        parts = (text_span(first, MOST_TEXT) for first in range(1, length + 1, MOST_TEXT))
        texts = [self._session.retrieve((Spec.of(document, part),)).text for part in parts]
        return Passage(document, 1, b"".join(texts))

    def passage(self, document: Tumbler, first: int, last: int) -> Passage:
        """The bytes of a document from one position to another one."""
        whole = self.whole(document)
        if not 1 <= first <= last <= whole.count:
            raise NotesError(f"no passage {first}-{last} in a text of {whole.count} bytes")
        return whole.part(first, last - first + 1)

    def find(self, document: Tumbler, words: bytes) -> Passage:
        """The one place of a document where these words stand."""
        whole = self.whole(document)
        found = _starts(whole.text, words)
        if len(found) != 1:
            said = words.decode("utf-8", "replace")
            raise NotesError(f"the text does not have {said!r}" if not found else _many(found, words))
        return whole.part(found[0] + 1, len(words))

    def insert(self, document: Tumbler, at: int, text: bytes) -> None:
        """Puts the text before the byte at this position, in as many changes as it takes."""
        self.hold(document)
        for start in range(0, len(text), MOST_TEXT):
            self._session.insert(document, byte(at + start), text[start : start + MOST_TEXT])

    def delete(self, passage: Passage) -> None:
        """Takes the passage out of its document."""
        self.hold(passage.document)
        self._session.delete(passage.document, passage.span)

    def move(self, passage: Passage, at: int) -> None:
        """Moves the passage within its document to before the byte at this position."""
        if passage.first <= at <= passage.behind:
            raise NotesError("the passage stands there")
        self.hold(passage.document)
        cuts = sorted((passage.first, passage.behind, at))
        self._session.rearrange(passage.document, [byte(cut) for cut in cuts])

    def quote(self, passage: Passage, document: Tumbler, at: int, is_linked: bool = True) -> Quotation:
        """Quotes the passage in another document before the byte at this position, with a link to the source.

        Within one document there is no link: both of its ends would hold the same content of the same origin. Over a
        server the source may be edited by another session after the passage was read; what stands there then is quoted.
        """
        self.hold(document)
        self._session.copy(document, byte(at), passage.specs)
        quoted = Passage(document, at, passage.text)
        if not is_linked or document == passage.document:
            return Quotation(quoted, None)
        return Quotation(quoted, self.link(quoted, passage))

    def link(self, from_: Passage, to: Passage) -> Tumbler:
        """Makes a link between two passages, at home in the document that it comes from."""
        self.hold(from_.document)
        self._read(to.document)
        return self._session.create_link(from_.document, from_.specs, to.specs).link

    def links(self, passage: Passage) -> List[LinkSeen]:
        """The links that come from content of the passage."""
        return self._found(passage, Want(from_=passage.specs), End.FROM)

    def backlinks(self, passage: Passage) -> List[LinkSeen]:
        """The links that go to content of the passage."""
        return self._found(passage, Want(to=passage.specs), End.TO)

    def _found(self, passage: Passage, want: Want, end: End) -> List[LinkSeen]:
        """The links of this kind; first those whose end was made in the passage's document."""
        seen = [self._seen(link, passage, end) for link in self._all_links(want)]
        return sorted(seen, key=lambda it: not it.is_here)

    def _all_links(self, want: Want) -> List[Tumbler]:
        """All links of this kind, asked for page by page."""
        links: List[Tumbler] = []
        behind, has_more = ZERO, True
        while has_more:
            page = self._session.next_links(want, behind, _PAGE).links
            links += page
            has_more = len(page) == _PAGE
            behind = links[-1] if links else ZERO
        return links

    def _seen(self, link: Tumbler, passage: Passage, end: End) -> LinkSeen:
        ends = {it: self._place(link, it) for it in (End.FROM, End.TO)}
        is_here = any(it.touches(passage) for it in ends[end].passages)
        return LinkSeen(link, ends[End.FROM], ends[End.TO], is_here)

    def _place(self, link: Tumbler, end: End) -> Place:
        """Where the content of a link's end stands now."""
        specs = self._session.follow_link(link, end).specs
        gone = tuple(dict.fromkeys(spec.document for spec in specs if not spec.spans))
        shown: Dict[Tumbler, List[range]] = {}
        for spec in specs:
            shown.setdefault(spec.document, []).extend(map(positions, spec.spans))
        passages = tuple(
            self.whole(document).part(part.start, len(part))
            for document, parts in shown.items()
            for part in _joined(parts)
        )
        return Place(passages, gone)

    def quoters(self, passage: Passage) -> List[Shared]:
        """Where else content of the passage stands, in all documents that this account may read."""
        found = self._session.find_documents(passage.specs).documents
        return [shared for document in found for shared in self._shared_with(passage, document)]

    def _shared_with(self, passage: Passage, document: Tumbler) -> Iterator[Shared]:
        whole = self.whole(document)
        spec = passage.specs[0]
        for it in self._session.relation(spec, Spec.of(document, ALL_TEXT)).diagonals:
            if document != passage.document or it.left != it.right:
                yield Shared(passage.part(it.left, it.length), whole.part(it.right, it.length))

    def compare(self, left: Tumbler, right: Tumbler) -> Comparison:
        """Two documents, and where they show the same content."""
        texts = self.whole(left), self.whole(right)
        specs = Spec.of(left, ALL_TEXT), Spec.of(right, ALL_TEXT)
        return Comparison(*texts, self._session.relation(*specs).diagonals)

    def version(self, document: Tumbler) -> Tumbler:
        """Makes a version of a document."""
        self._read(document)
        version = self._session.create_version(document).document
        self._open[version] = Mode.WRITE
        return version

    def versions(self, document: Tumbler) -> Iterator[VersionSeen]:
        """The versions of a document in its own account, and theirs, with what each shares with the document."""
        self._read(document)
        for note in self._family(document):
            told = self.compare(document, note.document)
            shown = _joined([range(it.right, it.right + it.length) for it in told.diagonals])
            yield VersionSeen(note, sum(map(len, shown)))

    def linked(self, passage: Passage) -> List[range]:
        """The positions of the passage that are in an end of some link."""
        ends = self._session.end_sets(passage.specs)
        specs = (*ends.from_, *ends.to, *ends.three)
        return _joined([positions(span) for spec in specs for span in spec.spans])


def _starts(text: bytes, words: bytes) -> List[int]:
    """Where the words start in the text; none where there are no words."""
    starts: List[int] = []
    start = text.find(words) if words else -1
    while start >= 0:
        starts.append(start)
        start = text.find(words, start + 1)
    return starts


def _many(found: Sequence[int], words: bytes) -> str:
    """Tells that the words stand at several places, with their positions."""
    shown = [f"{start + 1}-{start + len(words)}" for start in found[:5]]
    more = ", and more" if len(found) > len(shown) else ""
    return f"these words stand at {len(found)} places: {', '.join(shown)}{more}"


def _joined(parts: Sequence[range]) -> List[range]:
    """The positions of all parts, ascending, in as few ranges as there can be."""
    joined: List[range] = []
    for part in sorted(filter(len, parts), key=lambda it: it.start):
        if joined and part.start <= joined[-1].stop:
            joined[-1] = range(joined[-1].start, max(joined[-1].stop, part.stop))
        else:
            joined.append(part)
    return joined
