"""The command line: help, errors in one line, and what a terminal gets."""

from __future__ import annotations

import contextlib
import io
import os
import subprocess
import sys
import tempfile
import unittest
from typing import Optional, Tuple
from unittest import mock

from corktarn.cli import main
from corktarn.desk import Style
from tests.places import CLIENT
from tests.program import program

_WORDS = (
    "make list show publish insert delete move quote link links backlinks who-quotes compare version versions".split()
)


def _run(*words: str, data: bytes = b"", store: Optional[str] = None) -> Tuple[int, bytes, bytes]:
    """Runs the command line as a program of its own: its status, its output and its errors."""
    env = {**os.environ, "GREEN_BATCH": program()}
    for name in ("CORKTARN", "CORKTARN_ACCOUNT", "COLUMNS"):
        env.pop(name, None)
    if store is not None:
        env["CORKTARN"] = store
    ran = subprocess.run(
        [sys.executable, str(CLIENT / "notes"), *words],
        input=data,
        stdout=subprocess.PIPE,
        stderr=subprocess.PIPE,
        env=env,
        check=False,
    )
    return ran.returncode, ran.stdout, ran.stderr


class Help(unittest.TestCase):
    def test_each_word_has_help(self) -> None:
        for words in (["--help"], *([word, "--help"] for word in _WORDS)):
            shown = io.StringIO()
            with contextlib.redirect_stdout(shown), self.assertRaises(SystemExit) as caught:
                main(words)
            self.assertEqual(caught.exception.code, 0)
            self.assertTrue(shown.getvalue().startswith("usage: notes"), words)

    def test_the_help_tells_of_each_word(self) -> None:
        shown = io.StringIO()
        with contextlib.redirect_stdout(shown), self.assertRaises(SystemExit):
            main(["--help"])
        for word in _WORDS:
            self.assertIn(f"    {word} ", shown.getvalue())
        self.assertIn("is not proved", shown.getvalue())


class Errors(unittest.TestCase):
    def test_wrong_words_are_told_in_one_line(self) -> None:
        for words in ([], ["none"], ["show"], ["insert", "1", "x", "--at", "0"], ["--account", "x", "list"]):
            said = io.StringIO()
            with contextlib.redirect_stderr(said), self.assertRaises(SystemExit) as caught:
                main(words)
            self.assertEqual(caught.exception.code, 2, words)
            self._check_line(said.getvalue())

    def test_what_fails_is_told_in_one_line(self) -> None:
        with tempfile.TemporaryDirectory() as store:
            self.assertEqual(_run("make", "to be or not to be", store=store), (0, b"1\n", b""))
            for words in (
                ["show", "2"],
                ["show", "x"],
                ["show", "1:question"],
                ["show", "1:be"],
                ["show", "1:5-99"],
                ["delete", "1"],
                ["make", "--file", f"{store}/none"],
                ["--store", f"{store}/none", "list"],
                ["--store", "127.0.0.1:1", "list"],
                ["--program", f"{store}/none", "list"],
                ["--account", "1.1", "list"],
                ["--account", "1.1.0.2", "insert", "1.1.0.1.0.1", "x"],
            ):
                with self.subTest(words):
                    status, output, said = _run(*words, store=store)
                    self.assertEqual((status, output), (1, b""))
                    self._check_line(said.decode("utf-8"))

    def test_no_store(self) -> None:
        status, _, said = _run("list")
        self.assertEqual((status, said.count(b"\n")), (1, 1))

    def _check_line(self, said: str) -> None:
        self.assertTrue(said.startswith("notes: ") or said.startswith("notes "), said)
        self.assertEqual(said.count("\n"), 1, said)


class Output(unittest.TestCase):
    def test_text_goes_in_and_out_as_it_is(self) -> None:
        data = bytes(range(256)) * 3
        with tempfile.TemporaryDirectory() as store:
            self.assertEqual(_run("make", data=data, store=store)[:2], (0, b"1\n"))
            self.assertEqual(_run("show", "1:257-512", store=store)[:2], (0, bytes(range(256)) + b"\n"))

    def test_words_are_bytes(self) -> None:
        with tempfile.TemporaryDirectory() as store:
            _run("make", "na\u00efve \u4e2d 1776", store=store)
            self.assertEqual(_run("show", "1:\u4e2d", store=store)[1], "\u4e2d\n".encode())
            self.assertEqual(_run("show", "1:=1776", store=store)[1], b"1776\n")
            self.assertEqual(_run("show", "1:3-4", store=store)[1], "\u00ef\n".encode())

    def test_a_letter_that_the_output_lacks(self) -> None:
        with tempfile.TemporaryDirectory() as store, mock.patch.dict(os.environ, {"PYTHONIOENCODING": "ascii"}):
            _run("make", "\u4e2d", store=store)
            self.assertEqual(_run("list", store=store)[:2], (0, b"1                 3  ?\n"))

    def test_a_reader_that_goes_away(self) -> None:
        with tempfile.TemporaryDirectory() as store:
            _run("make", "x", store=store)
            words = [sys.executable, str(CLIENT / "notes"), "--program", program(), "--store", store, "list"]
            reader, writer = os.pipe()
            os.close(reader)
            ran = subprocess.run(words, stdout=writer, stderr=subprocess.PIPE, check=False)
            os.close(writer)
            self.assertEqual((ran.returncode, ran.stderr), (0, b""))

    def test_a_version_of_another_account_is_named_whole(self) -> None:
        with tempfile.TemporaryDirectory() as store:
            _run("make", "x", store=store)
            self.assertEqual(_run("publish", "1", store=store)[1], b"1 is published\n")
            self.assertEqual(_run("--account", "1.1.0.2", "version", "1.1.0.1.0.1", store=store)[1], b"1\n")
            self.assertEqual(_run("who-quotes", "1", store=store)[1], b"")
            _run("--account", "1.1.0.2", "publish", "1", store=store)
            self.assertEqual(_run("who-quotes", "1", store=store)[1], b'1.1.0.2.0.1:1-1 "x"\n')

    def test_a_link_to_what_is_private(self) -> None:
        with tempfile.TemporaryDirectory() as store:
            _run("make", "x", store=store)
            _run("make", "", store=store)
            _run("quote", "1", "2", store=store)
            _run("publish", "2", store=store)
            _, output, _ = _run("--account", "1.1.0.2", "links", "1.1.0.1.0.2", store=store)
            name = b"1.1.0.1.0.2"
            self.assertEqual(
                output, b'%s#1\n  from %s:1-1 "x"\n    to nothing that this account may read\n' % (name, name)
            )

    def test_colours_are_for_a_terminal(self) -> None:
        for is_terminal, env, wanted in (
            (True, {"TERM": "xterm"}, True),
            (True, {"TERM": "dumb"}, False),
            (True, {"TERM": "xterm", "NO_COLOR": "1"}, False),
            (False, {"TERM": "xterm"}, False),
        ):
            with mock.patch.dict(os.environ, env, clear=True), mock.patch("sys.stdout") as output:
                output.isatty.return_value = is_terminal
                self.assertEqual(Style.of_output().is_on, wanted)

    def test_styles(self) -> None:
        on, off = Style(True), Style(False)
        self.assertEqual([off.passage("x", 1), off.strong("x"), off.marked("x")], ["x", "x", "[x]"])
        self.assertEqual([on.passage("x", 0), on.strong("x")], ["x", "\x1b[1mx\x1b[0m"])
        self.assertNotEqual(on.passage("x", 1), on.passage("x", 2))
        self.assertEqual(on.marked(""), "")
