"""The conformance vectors of docs/vectors.txt."""

from __future__ import annotations

import re
import shlex
from dataclasses import dataclass
from typing import List, Optional, Tuple

from tests.places import TOP


@dataclass(frozen=True)
class Vector:
    """A line of the file."""

    name: str
    words: Tuple[str, ...]
    input: bytes
    replies: Tuple[bytes, ...]
    status: int
    place: Optional[int]

    @property
    def output(self) -> bytes:
        """All that the program writes."""
        return b"".join(self.replies)

    def words_for(self, folder: str) -> List[str]:
        """The program's words, with this folder."""
        return [folder if word == "FOLDER" else word for word in self.words]


def _bytes(part: str) -> bytes:
    return re.sub(rb"\\x([0-9a-f]{2})", lambda it: bytes((int(it.group(1), 16),)), part.encode("ascii"))


def _parts(field: str) -> Tuple[bytes, ...]:
    return () if field == "-" else tuple(map(_bytes, field.split(" ")))


def _vector(line: str) -> Vector:
    name, words, asked, told, status, place = line.split("\t")
    return Vector(
        name,
        () if words == "-" else tuple(shlex.split(words)),
        b"".join(_parts(asked)),
        _parts(told),
        int(status),
        None if place == "-" else int(place),
    )


def read_vectors() -> List[Vector]:
    """All vectors."""
    lines = (TOP / "docs" / "vectors.txt").read_text(encoding="ascii").splitlines()
    return [_vector(line) for line in lines if line and not line.startswith("#")]
