"""A session: every request as a method that gives its reply, or raises `Refused`."""

from __future__ import annotations

from types import TracebackType
from typing import Callable, Iterable, Iterator, List, Optional, Sequence, Type, TypeVar

from corktarn import replies, requests
from corktarn.errors import CorktarnError, Incomplete, Refused, Unexpected
from corktarn.model import Mode, Rule, Span, Spec, SpecSet, Tumbler, Want
from corktarn.transport import Transport, connect
from corktarn.wire import GREETING, Scanner, read_reply, write_request

R = TypeVar("R", bound=replies.Reply)
V = TypeVar("V")

_AHEAD = 32_768
"""How many bytes of requests are sent before their replies are taken. Less than a pipe holds, so that neither side
waits for the other."""


class Session:
    """One session with a store, from its greeting on.

    Use it in a `with`: it then ends by a quit, or by closing the way to the store where an exception comes through. The
    store keeps what was answered, whichever way a session ends.
    """

    def __init__(self, transport: Transport) -> None:
        self._transport = transport
        self._scanner = Scanner(transport.receive)
        self._is_over = False
        try:
            self._send(GREETING)
            self._read(lambda scanner: scanner.expect(GREETING))
        except BaseException:
            transport.close()
            raise

    @classmethod
    def connect(cls, store: str, program: Optional[str] = None) -> Session:
        """A session with the store in a folder, or behind a server that is named as HOST:PORT."""
        return cls(connect(store, program))

    def __enter__(self) -> Session:
        return self

    def __exit__(
        self,
        kind: Optional[Type[BaseException]],
        error: Optional[BaseException],
        trace: Optional[TracebackType],
    ) -> None:
        try:
            if kind is None and not self._is_over:
                self.quit()
        finally:
            self._transport.close()

    def ask(self, request: requests.Request) -> replies.Reply:
        """Makes any request. Raises `Refused`."""
        return self._exchange((request,), (write_request(request),))[0]

    def ask_all(self, asked: Iterable[requests.Request]) -> Iterator[replies.Reply]:
        """Makes the requests, some ahead of their replies, and gives these in order.

        Raises `Refused` at the first that is refused. Those behind it that were sent by then are still carried out;
        their replies are dropped.
        """
        waiting: List[requests.Request] = []
        spelled: List[bytes] = []
        ahead = 0
        for request in asked:
            data = write_request(request)
            if waiting and ahead + len(data) > _AHEAD:
                yield from self._exchange(waiting, spelled)
                waiting, spelled, ahead = [], [], 0
            waiting.append(request)
            spelled.append(data)
            ahead += len(data)
        yield from self._exchange(waiting, spelled)

    def _exchange(
        self, asked: Sequence[requests.Request], spelled: Sequence[bytes]
    ) -> List[replies.Reply]:
        """Sends the requests at once, and takes all of their replies."""
        self._send(b"".join(spelled))
        answers = [self._read(read_reply) for _ in asked]
        given: List[replies.Reply] = []
        for request, answer in zip(asked, answers):
            if isinstance(answer, replies.RefusedReply):
                raise Refused(request, answer.refusal)
            if answer.number != request.number:
                raise Unexpected(f"{request.name} was answered by a reply to request {answer.number}")
            given.append(answer)
        return given

    def _read(self, read: Callable[[Scanner], V]) -> V:
        """What is read, or why no more came. What can't be read ends the session too."""
        try:
            return read(self._scanner)
        except Incomplete as error:
            self._is_over = True
            raise self._transport.why_ended() from error
        except CorktarnError:
            self._is_over = True
            raise

    def _send(self, data: bytes) -> None:
        try:
            self._transport.send(data)
        except CorktarnError:
            self._is_over = True
            raise

    def _told(self, request: requests.Request, kind: Type[R]) -> R:
        reply = self.ask(request)
        if not isinstance(reply, kind):
            raise Unexpected(f"{request.name} was answered by {reply}")
        return reply

    def account(self, account: Tumbler) -> replies.AccountSet:
        """Goes on in the name of this account. Nobody checks that it is one's own."""
        return self._told(requests.Account(account), replies.AccountSet)

    def create_document(self) -> replies.Created:
        """Makes an empty document, which is open for writing."""
        return self._told(requests.CreateDocument(), replies.Created)

    def create_version(self, document: Tumbler) -> replies.Versioned:
        """Makes a version of an open document, which is open for writing."""
        return self._told(requests.CreateVersion(document), replies.Versioned)

    def open(self, document: Tumbler, mode: Mode = Mode.READ, rule: Rule = Rule.REFUSE) -> replies.Opened:
        """Opens a document, or a version of it where the rule has one made. It sets the mode anew."""
        return self._told(requests.Open(document, mode, rule), replies.Opened)

    def close(self, document: Tumbler) -> replies.Closed:
        """Closes an open document."""
        return self._told(requests.Close(document), replies.Closed)

    def publish(self, document: Tumbler) -> replies.Published:
        """Lets every session read a document that is open for writing. There is no way back."""
        return self._told(requests.Publish(document), replies.Published)

    def insert(self, document: Tumbler, address: Tumbler, text: bytes) -> replies.Inserted:
        """Puts the text before the byte at the V-address, or behind the last one."""
        return self._told(requests.Insert(document, address, text), replies.Inserted)

    def copy(self, document: Tumbler, address: Tumbler, specs: SpecSet) -> replies.Copied:
        """Quotes the text that the specs pick before the byte at the V-address."""
        return self._told(requests.Copy(document, address, specs), replies.Copied)

    def rearrange(self, document: Tumbler, cuts: Sequence[Tumbler]) -> replies.Rearranged:
        """Swaps the blocks between three cuts, or the outer ones of those between four."""
        return self._told(requests.Rearrange(document, tuple(cuts)), replies.Rearranged)

    def delete(self, document: Tumbler, span: Span) -> replies.Deleted:
        """Takes text and links out of the document. Their content and the links themselves stay."""
        return self._told(requests.Delete(document, span), replies.Deleted)

    def retrieve(self, specs: SpecSet) -> replies.Retrieved:
        """The bytes and link ids that the specs pick."""
        return self._told(requests.Retrieve(specs), replies.Retrieved)

    def span_set(self, document: Tumbler) -> replies.SpanSetIs:
        """The spans of the document's text and of its links."""
        return self._told(requests.SpanSet(document), replies.SpanSetIs)

    def span(self, document: Tumbler) -> replies.WholeSpanIs:
        """The one span of all that is in the document."""
        return self._told(requests.WholeSpan(document), replies.WholeSpanIs)

    def relation(self, left: Spec, right: Spec) -> replies.Related:
        """Where the two specs pick the same content."""
        return self._told(requests.Relation(left, right), replies.Related)

    def find_documents(self, specs: SpecSet) -> replies.Documents:
        """The documents that show any content that the specs pick and that may be read, open or not."""
        return self._told(requests.FindDocuments(specs), replies.Documents)

    def create_link(
        self, home: Tumbler, from_: SpecSet, to: SpecSet, three: SpecSet = ()
    ) -> replies.Linked:
        """Makes a link whose ends hold the content that the specs pick."""
        return self._told(requests.CreateLink(home, from_, to, three), replies.Linked)

    def follow_link(self, link: Tumbler, end: int) -> replies.Followed:
        """Where those origins of an end that may be read show its content now."""
        return self._told(requests.FollowLink(link, end), replies.Followed)

    def end_sets(self, specs: SpecSet) -> replies.EndSetsAre:
        """Which of the picked text is in an end of some link whose home may be read."""
        return self._told(requests.EndSets(specs), replies.EndSetsAre)

    def count_links(self, want: Want) -> replies.LinkCount:
        """How many links of this kind there are whose home may be read."""
        return self._told(requests.CountLinks(want), replies.LinkCount)

    def find_links(self, want: Want) -> replies.Links:
        """These links. Refused where they are more than a list has."""
        return self._told(requests.FindLinks(want), replies.Links)

    def next_links(self, want: Want, behind: Tumbler, count: int) -> replies.LinksBehind:
        """The first so many of these links whose ids are above `behind`."""
        return self._told(requests.NextLinks(want, behind, count), replies.LinksBehind)

    def quit(self) -> replies.HasQuit:
        """Ends the session."""
        self._is_over = True
        return self._told(requests.Quit(), replies.HasQuit)
