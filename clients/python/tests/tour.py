"""The commands of docs/TOUR.md beside what the page shows of them."""

from __future__ import annotations

import os
import re
import subprocess
from typing import Dict, List, NamedTuple, Optional, Sequence

from tests.places import TOP
from tests.program import program

_BLOCK = re.compile(r"^```console\n(.*?)^```$", re.MULTILINE | re.DOTALL)

_MARK = "-- the next command --"


class Step(NamedTuple):
    """A command, and the output that the page shows."""

    command: str
    output: str


def read_steps() -> List[Step]:
    """The steps of the page. A command begins with `$ `, and goes on in lines that begin with `> `."""
    page = (TOP / "docs" / "TOUR.md").read_text(encoding="utf-8")
    commands: List[str] = []
    outputs: List[List[str]] = []
    for line in "".join(_BLOCK.findall(page)).splitlines():
        if line.startswith("$ "):
            commands.append(line[2:])
            outputs.append([])
        elif line.startswith("> ") and not outputs[-1]:
            commands[-1] += f"\n{line[2:]}"
        else:
            outputs[-1].append(line)
    return [Step(command, "\n".join(output)) for command, output in zip(commands, outputs)]


def run_steps(commands: Sequence[str], more: Optional[Dict[str, str]] = None) -> List[str]:
    """What each command writes, in one shell at the top of the repository."""
    script = "".join(f"{command}\nprintf '%s\\n' '{_MARK}'\n" for command in commands)
    plain = {name: value for name, value in os.environ.items() if not name.startswith(("CORKTARN", "COLUMNS"))}
    ran = subprocess.run(
        ["bash", "-c", script],
        cwd=TOP,
        env={**plain, "GREEN_BATCH": program(), **(more or {})},
        stdin=subprocess.DEVNULL,
        stdout=subprocess.PIPE,
        stderr=subprocess.STDOUT,
        check=False,
    )
    parts = re.split(f"^{_MARK}\n", ran.stdout.decode("utf-8"), flags=re.MULTILINE)
    return [part.rstrip("\n") for part in parts[:-1]]
