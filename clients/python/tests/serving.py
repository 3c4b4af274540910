"""A server over a folder, for tests: `green_server` where this checkout has it, and else a small stand-in."""

from __future__ import annotations

import contextlib
import socket
import subprocess
import threading
from typing import Iterator, Sequence

from tests.program import HAS_SERVER, program, server

_WORKERS = 4

_LISTENING = "listening on "


@contextlib.contextmanager
def serving(folder: str) -> Iterator[str]:
    """Serves the folder while it is in a `with`, which gives the address as HOST:PORT."""
    with _real(folder) if HAS_SERVER else _stand_in(folder) as address:
        yield address


@contextlib.contextmanager
def _real(folder: str) -> Iterator[str]:
    """Has the server listen on a port that the system chooses, and stops it in the end."""
    words = [server(), folder, "127.0.0.1:0", str(_WORKERS)]
    with subprocess.Popen(words, stdout=subprocess.PIPE, stderr=subprocess.DEVNULL) as running:
        try:
            assert running.stdout is not None
            said = running.stdout.readline().decode("utf-8").strip()
            if not said.startswith(_LISTENING):
                raise AssertionError(f"the server does not listen: {said!r}")
            yield said[len(_LISTENING) :]
        finally:
            running.terminate()


@contextlib.contextmanager
def _stand_in(folder: str) -> Iterator[str]:
    """Gives each connection a run of the program, one after the other, as a folder has one at a time."""
    with socket.create_server(("127.0.0.1", 0)) as listener:
        thread = threading.Thread(target=_answer, args=(listener, [program(), folder]), daemon=True)
        thread.start()
        try:
            yield f"127.0.0.1:{listener.getsockname()[1]}"
        finally:
            # a blocked accept ends by a shutdown, and not by a close
            listener.shutdown(socket.SHUT_RDWR)
            thread.join()


def _answer(listener: socket.socket, words: Sequence[str]) -> None:
    while True:
        try:
            connection, _ = listener.accept()
        except OSError:
            return
        with connection:
            subprocess.run(words, stdin=connection, stdout=connection, stderr=subprocess.DEVNULL, check=False)
