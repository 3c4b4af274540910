"""Ways to a store: a pipe to `green_batch` over a folder, or a socket to a server."""

from __future__ import annotations

import os
import shutil
import socket
import subprocess
from pathlib import Path
from typing import Optional, Protocol, Sequence

from corktarn.errors import SessionEnded

_PIECE = 65_536

_TOP = Path(__file__).resolve().parents[3]


class Transport(Protocol):
    """What a session needs of a way to a store. All of it raises `SessionEnded` where the other side is gone."""

    def send(self, data: bytes) -> None:
        """Sends all of the bytes."""

    def receive(self) -> bytes:
        """Waits for further bytes; none where no more come."""

    def why_ended(self) -> SessionEnded:
        """Tells why no more bytes come."""

    def close(self) -> None:
        """Gives the way up. It may be called twice."""


class PipeTransport:
    """A program of one session, which is started for it.

    A folder has one program at a time: end one session before the next one begins.
    """

    def __init__(self, program: str, folder: str, words: Sequence[str] = ()) -> None:
        if not os.path.isdir(folder):
            raise SessionEnded(f"no folder {folder}")
        # a folder whose name begins with a - would be taken for another word
        named = os.path.join(os.curdir, folder) if folder.startswith("-") else folder
        try:
            self._process = subprocess.Popen(
                [program, named, *words],
                stdin=subprocess.PIPE,
                stdout=subprocess.PIPE,
                stderr=subprocess.PIPE,
                bufsize=0,
            )
        except OSError as error:
            raise SessionEnded(f"{program} does not start: {error.strerror}") from error

    def send(self, data: bytes) -> None:
        """Sends all of the bytes."""
        assert self._process.stdin is not None
        rest = memoryview(data)
        try:
            while rest:
                rest = rest[self._process.stdin.write(rest) :]
        except OSError as error:
            raise self.why_ended() from error

    def receive(self) -> bytes:
        """Waits for further bytes; none where no more come."""
        assert self._process.stdout is not None
        return self._process.stdout.read(_PIECE)

    def why_ended(self) -> SessionEnded:
        """Waits for the program's end, and gives its status and the line that it wrote on standard error."""
        _, said = self._process.communicate()
        line = said.decode("utf-8", "replace").strip()
        status = self._process.returncode
        return SessionEnded(line or f"the program ended with status {status}", status)

    def close(self) -> None:
        """Ends the program's input, and waits for its end."""
        if self._process.stdin is not None and not self._process.stdin.closed:
            self._process.communicate()


class SocketTransport:
    """A connection to a server. It is one session, and its replies may have to wait for another session's end."""

    def __init__(self, host: str, port: int, timeout: Optional[float] = None) -> None:
        self._name = f"{host}:{port}"
        try:
            self._socket = socket.create_connection((host, port), timeout)
            # a request is small and is waited for
            self._socket.setsockopt(socket.IPPROTO_TCP, socket.TCP_NODELAY, 1)
        except OSError as error:
            raise SessionEnded(f"no connection to {self._name}: {_said(error)}") from error

    def send(self, data: bytes) -> None:
        """Sends all of the bytes."""
        try:
            self._socket.sendall(data)
        except OSError as error:
            raise SessionEnded(f"lost the connection to {self._name}: {_said(error)}") from error

    def receive(self) -> bytes:
        """Waits for further bytes; none where no more come."""
        try:
            return self._socket.recv(_PIECE)
        except OSError as error:
            raise SessionEnded(f"lost the connection to {self._name}: {_said(error)}") from error

    def why_ended(self) -> SessionEnded:
        """A server gives no reason."""
        return SessionEnded(f"{self._name} ended the session")

    def close(self) -> None:
        """Ends the connection."""
        self._socket.close()


def _said(error: OSError) -> str:
    return error.strerror or str(error)


def find_program() -> str:
    """The program `green_batch`: what GREEN_BATCH names, or the one that was built in this repository, or one on the
    path."""
    named = os.environ.get("GREEN_BATCH")
    if named:
        return named
    built = _TOP / "crates" / "green_batch" / "out" / "green_batch"
    if built.is_file():
        return str(built)
    found = shutil.which("green_batch")
    if found is None:
        raise SessionEnded("no program green_batch: build it, or name it by GREEN_BATCH, or name a server as HOST:PORT")
    return found


def connect(store: str, program: Optional[str] = None) -> Transport:
    """A way to a store: `HOST:PORT` for a server, and anything else for a folder, over a pipe to the program."""
    host, colon, port = store.rpartition(":")
    if colon and host and port.isascii() and port.isdigit() and os.sep not in store:
        return SocketTransport(host, int(port))
    return PipeTransport(program or find_program(), store)
