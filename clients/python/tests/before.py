"""A folder as the program left it before changes had moments, and what that program then told of it.

Two accounts made it, and it has pages: two documents that quote each other, a link, a version, a document that is
published, and one of the other account's own.
"""

from __future__ import annotations

import base64
import zlib
from pathlib import Path

_FILES = {
    "log": (
        "eNpjZGBg0GZkgAAYzczIBuWhyzAyYlPPglM9E4jhiS7KyoLTfCQsVJKvkJSqkF+kkJdfogDmgIQt0fWw4TSNCUmcKToWRCWhq2Fn"
        "x6cbbAJexzIhM8CeA/Hmoqvl4CDGkYx4FcFUMsGtItp17DAtPDApa3T1nGz4TGKGGQTEwiCGB7oqLiacjmfH5ysQxxFdhpuVnZiQ"
        "gAc69nTJx0lcOmbCme5RzHdEF2VhwakeCXPlZualKiTm5OelMgAAI/wPxw=="
    ),
    "home": (
        "eNrt3EFO4zAUANDGbRNAnQ0nyBXmEIgdQizYoFnMSF0gzbTSiA0X4NwoqYNKwMGoJYLynlQ5buw6tqOKb+KeX52dXVye/5xsLGJ6"
        "FNMiJhcxHzbJtI75aSx+HfOzmN7HdN7Ll733q/j5DxMAAABgPMVxDPuL50sAz9LmdXq3rv8s6/X/erW+q9tMu0KwQ/1U1dCrGm5+"
        "tYsP4zTVLxoSrZz8u10t699/16ul2wgAAIAvsQgQurg2O8TOq/YivG7j+HdXe2ooe7Vh3tWoctroCk9mn/PSQnfwVo2wfT68a1ab"
        "RzMWXY0fuZ0p8yY0OQblB4/BG7d3cm3HdwIAAHB4oX9WyFamCh1nNNGuFYQR2smK2VNNhJwmNusXO3Ulq5354YzWLKsr1cDFFB8/"
        "Yt9tUuYmZd+TsvNghZHmvjT333Lus9Y+y1ShnCasmgLAIcX/Wf9zzfqTzYgDAADAJ43/q73F/wsjDgAAAAAAAAD7NEtujIxpc/40"
        "uecwps0D/WFw/2M8rrqPHNqD2DxC0O0inG5dxmuX1x5nPZgw1If0yaHhKWLP05tLh2q3P7XnBgQAAGAU03Hj/+2d/6H3ntAeAAAA"
        "9ukRJ2IkWw=="
    ),
    "journal": (
        "eNrt3G1OwjAYAGDWfYnBP57AK3gIwj9i/OFdvIDnNoPOTLSjfIwQeJ7EtHWt7foSIq+rsxkAAABwB4q+snpfLtdvq9fYXMTy4Xe/"
        "Yh3bYVuUL7Fdxu4fsV3F8jOW9U672fl+G3/+l5AAAADA5EIiTRBiDqCY95WdBMKw7L6e84aFnWGbdnnwsJ+JQu766n5EmzNH33lW"
        "XefSQl/ZNyIMr4eDotqlaBb9iKfcm2nyAprcg2biPdjz8g6J9T16qwAAAG5E+TcFkPXRrUl1mmdMuskZhAvMk/XZPTVFyJlim8c4"
        "6Vay5qlvZ7eqrFtpRxZTTL9j9xaUWlDOHZSTNytcKPaN2N9l7LNyoE2qU84UsqcAcM2qI/MAWX+DzfrVTQwAAADgUurj8gDt2fIA"
        "CzEAAACAS2lsAQAAANyNdlCvkgcnY9ldf06eSYxl94RBGD0fOZw6efwwlt0jBf0pw3KwjP+Wt6lnPagwdg/pi2PbU8Q7Tx8+HRu9"
        "+Zd8XowAAABM5xuDxAtj"
    ),
}

ASKED = (
    b"P0~34~0.1.1.0.1~35~0.1.1.0.1.0.1~1~1~35~0.1.1.0.1.0.2~1~1~35~0.1.1.0.1.0.2.1~1~1~35~"
    b"0.1.1.0.2.0.1~1~1~5~1~0.1.1.0.1.0.1~1~0.1.1~0.1~1~0.1.1.0.1.0.1~28~1~0.1.1.0.1.0.1~1~0.1.1~0.1~"
    b"22~1~0.1.1.0.1.0.1~1~0.1.1~0.1~5~1~0.1.1.0.1.0.2~1~0.1.1~0.1~1~0.1.1.0.1.0.2~28~1~0.1.1.0.1.0.2~"
    b"1~0.1.1~0.1~22~1~0.1.1.0.1.0.2~1~0.1.1~0.1~5~1~0.1.1.0.1.0.2.1~1~0.1.1~0.1~1~0.1.1.0.1.0.2.1~28~"
    b"1~0.1.1.0.1.0.2.1~1~0.1.1~0.1~22~1~0.1.1.0.1.0.2.1~1~0.1.1~0.1~5~1~0.1.1.0.2.0.1~1~0.1.1~0.1~1~"
    b"0.1.1.0.2.0.1~28~1~0.1.1.0.2.0.1~1~0.1.1~0.1~22~1~0.1.1.0.2.0.1~1~0.1.1~0.1~30~1~0.1.1.0.1.0.1~"
    b"4.1~0~0~0~18~0.1.1.0.1.0.2.0.2.1~1~18~0.1.1.0.1.0.2.0.2.1~2~18~0.1.1.0.1.0.2.0.2.1~3~10~"
    b"0.1.1.0.1.0.1~1~0.1.1~0.1~0.1.1.0.1.0.2~1~0.1.1~0.1~16~"
)
"""What a session asks of it."""

TOLD = (
    b"P0~34~35~0.1.1.0.1.0.1~35~0.1.1.0.1.0.2~35~0.1.1.0.1.0.2.1~?15~5~1~t18:or not to beto be 1~1~"
    b"0.1.1~1.18~28~1~0.1.1.0.1.0.1~1~0.1.13~1.5~1~0.1.1.0.1.0.1~1~0.1.1~1.12~1~0.1.1.0.1.0.1~0~22~3~"
    b"0.1.1.0.1.0.1~0.1.1.0.1.0.2~0.1.1.0.1.0.2.1~5~1~t7:[to be]1~2~0.1.1~1.7~0.2.1~1.1~28~1~"
    b"0.1.1.0.1.0.2~1~0.1.2~1.5~1~0.1.1.0.1.0.2~0~1~0.1.1.0.1.0.2~0~22~3~0.1.1.0.1.0.1~0.1.1.0.1.0.2~"
    b"0.1.1.0.1.0.2.1~5~1~t6:to be]1~2~0.1.1~1.6~0.2.1~1.1~28~1~0.1.1.0.1.0.2.1~1~0.1.1~1.5~1~"
    b"0.1.1.0.1.0.2.1~0~1~0.1.1.0.1.0.2.1~0~22~3~0.1.1.0.1.0.1~0.1.1.0.1.0.2~0.1.1.0.1.0.2.1~?15~?15~"
    b"?15~?15~30~1~0.1.1.0.1.0.2.0.2.1~18~1~0.1.1.0.1.0.2~1~0.1.2~1.5~18~1~0.1.1.0.1.0.1~1~0.1.1~1.12~"
    b"18~0~10~1~0.1.13~0.1.2~5~16~"
)
"""What the program told it then."""


def write_to(folder: str) -> None:
    """Writes the files of the folder."""
    for name, packed in _FILES.items():
        (Path(folder) / name).write_bytes(zlib.decompress(base64.b64decode(packed)))
