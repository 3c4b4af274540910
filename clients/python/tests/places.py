"""Where things are in this repository."""

from pathlib import Path

CLIENT = Path(__file__).resolve().parents[1]
TOP = CLIENT.parents[1]
CRATES = TOP / "crates"
