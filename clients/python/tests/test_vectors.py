"""Every vector spelled and read without a program, and run over one."""

from __future__ import annotations

import tempfile
import unittest
from typing import List, Optional, Tuple

from corktarn import Incomplete, Malformed, requests
from corktarn.replies import AnyReply, RefusedReply
from corktarn.wire import GREETING, Scanner, read_reply, read_session, write_reply, write_request
from tests.program import Ran, program, run
from tests.vectors import Vector, read_vectors

_WRONG_WORDS = 2

_LINES = {3: "malformed at {}", 4: "truncated at {}"}


def _judged(data: bytes) -> Tuple[List[requests.Request], int, Optional[int]]:
    """The whole requests of a session's input, and the status and the place that the bytes alone give."""
    asked: List[requests.Request] = []
    try:
        for request in read_session(Scanner.over(data)):
            asked.append(request)
    except Malformed as error:
        return asked, 3, error.at
    except Incomplete as error:
        return asked, 4, error.at
    return asked, 0, None


def _told(data: bytes) -> List[AnyReply]:
    """The replies that the bytes spell, behind the greeting."""
    scanner = Scanner.over(data)
    scanner.expect(GREETING)
    told: List[AnyReply] = []
    while scanner.has_more():
        told.append(read_reply(scanner))
    return told


class WithoutProgram(unittest.TestCase):
    def test_there_are_vectors(self) -> None:
        vectors = read_vectors()
        self.assertEqual(len({it.name for it in vectors}), len(vectors))
        asked = {type(request) for it in vectors for request in _judged(it.input)[0]}
        self.assertEqual(len(asked), 22)

    def test_inputs_are_judged(self) -> None:
        for vector in read_vectors():
            if vector.status != _WRONG_WORDS:
                with self.subTest(vector.name):
                    _, status, place = _judged(vector.input)
                    self.assertEqual((status, place), (vector.status, vector.place))

    def test_requests_are_spelled(self) -> None:
        for vector in read_vectors():
            asked = _judged(vector.input)[0]
            spelled = GREETING + b"".join(map(write_request, asked))
            with self.subTest(vector.name):
                self.assertTrue(vector.input.startswith(spelled) or not asked)

    def test_replies_are_read_and_spelled(self) -> None:
        for vector in read_vectors():
            if vector.output:
                with self.subTest(vector.name):
                    self._check_replies(vector, _told(vector.output))

    def _check_replies(self, vector: Vector, told: List[AnyReply]) -> None:
        self.assertEqual(tuple(map(write_reply, told)), vector.replies[1:])
        asked = _judged(vector.input)[0]
        self.assertEqual(len(asked), len(told))
        for request, reply in zip(asked, told):
            if not isinstance(reply, RefusedReply):
                self.assertEqual(reply.number, request.number)


class OverProgram(unittest.TestCase):
    @classmethod
    def setUpClass(cls) -> None:
        program()

    def test_the_program_answers_so(self) -> None:
        for vector in read_vectors():
            with self.subTest(vector.name), tempfile.TemporaryDirectory() as folder:
                self._check(vector, run(vector.words_for(folder), vector.input))

    def _check(self, vector: Vector, ran: Ran) -> None:
        self.assertEqual(ran.output, vector.output)
        self.assertEqual(ran.status, vector.status)
        if vector.status in _LINES:
            self.assertEqual(ran.line, f"green_batch: {_LINES[vector.status].format(vector.place)}")
        elif vector.status == 0:
            self.assertEqual(ran.line, "")
