"""The programs that the tests run over. There are always such, or the tests fail.

They are what GREEN_BATCH and GREEN_SERVER name, or what was built in this checkout. Else `rt try` compiles the same
code without a proof, with the sanitizer in it, which takes a minute or a few.
"""

from __future__ import annotations

import atexit
import functools
import os
import shutil
import subprocess
import tempfile
import time
from pathlib import Path
from typing import List, NamedTuple, Optional

from tests.places import CRATES

_POLL = 0.01

_CASES = 4
"""How many times `rt try` is to run a program: each is a chance to take it."""

HAS_SERVER = (CRATES / "green_server").is_dir() or "GREEN_SERVER" in os.environ
"""Whether there is a server to be tested with."""


class Ran(NamedTuple):
    """How a run of the program ended: its output, its status, and the line on standard error."""

    output: bytes
    status: int
    line: str


def run(words: List[str], data: bytes) -> Ran:
    """Runs the program of one session with these words on this input."""
    ran = subprocess.run(
        [program(), *words], input=data, stdout=subprocess.PIPE, stderr=subprocess.PIPE, check=False
    )
    return Ran(ran.stdout, ran.returncode, ran.stderr.decode("utf-8").strip())


def program() -> str:
    """The path of the program of one session."""
    return _found("green_batch")


def server() -> str:
    """The path of the server."""
    return _found("green_server")


@functools.lru_cache(maxsize=None)
def _found(name: str) -> str:
    """The path of the program of a crate."""
    named = os.environ.get(name.upper())
    if named:
        if not os.access(named, os.X_OK):
            raise AssertionError(f"{name.upper()} names no program: {named}")
        return os.path.abspath(named)
    built = CRATES / name / "out" / name
    return str(built) if built.is_file() else _tried(name)


def _tried(name: str) -> str:
    """The program as `rt try` compiles it, which is removed at the end. Run without words it ends at once."""
    if shutil.which("rt") is None:
        raise AssertionError(f"no {name}: name one by {name.upper()}, build one, or have rt on the path")
    folder = Path(tempfile.mkdtemp(prefix=f"{name}-"))
    atexit.register(shutil.rmtree, folder, ignore_errors=True)
    cases, work = folder / "cases", folder / "work"
    cases.mkdir()
    work.mkdir()
    for number in range(_CASES):
        (cases / str(number)).write_bytes(b"")
    with open(folder / "log", "wb") as log:
        trying = subprocess.Popen(
            ["rt", "try", "--seconds", "600", "--cases", str(cases)],
            cwd=CRATES / name,
            env={**os.environ, "TMPDIR": str(work)},
            stdin=subprocess.DEVNULL,
            stdout=log,
            stderr=subprocess.STDOUT,
        )
        taken = _taken(trying, work, folder / name)
        trying.wait()
    if taken is None:
        said = (folder / "log").read_text(encoding="utf-8", errors="replace")
        raise AssertionError(f"rt try gave no program {name}: {said}")
    return taken


def _taken(trying: "subprocess.Popen[bytes]", work: Path, to: Path) -> Optional[str]:
    """A second name for the program, which `rt try` drops once its cases have run.

    The first one that stands there while a case runs is whole once `rt try` has ended.
    """
    while trying.poll() is None:
        for found in work.glob("*/*/program"):
            try:
                if os.access(found, os.X_OK):
                    os.link(found, to)
                    return str(to)
            except FileNotFoundError:
                pass
        time.sleep(_POLL)
    return None
