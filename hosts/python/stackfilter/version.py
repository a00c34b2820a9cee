"""The version, from the product's one file VERSION: a wheel carries a copy, a checkout has the file at its root."""

from __future__ import annotations

import pathlib

PACKAGE = pathlib.Path(__file__).resolve().parent
CHECKOUT = (PACKAGE / "../../..").resolve()


def _read() -> str:
    carried = PACKAGE / "VERSION"
    return (carried if carried.is_file() else CHECKOUT / "VERSION").read_text(encoding="ascii").strip()


__version__ = _read()
