"""Files that are written wholly or not at all."""

from __future__ import annotations

import os
import secrets
import shutil
from contextlib import suppress
from pathlib import Path

from .program import PathLike


def write_whole(path: PathLike, text: str | bytes) -> None:
    """Writes a file beside its place and renames it, so that nobody ever reads a part of it, and what was there stays
    where this fails, as on a full disk (OSError). A device and a pipe are written as they are."""
    data = text.encode() if isinstance(text, str) else text
    place = Path(os.path.realpath(path))
    if place.exists() and not place.is_file():
        place.write_bytes(data)
        return
    beside = place.with_name(f".{place.name[:100]}.{secrets.token_hex(4)}")
    try:
        with open(beside, "xb") as file:
            file.write(data)
            file.flush()
            os.fsync(file.fileno())
        if place.exists():
            shutil.copymode(place, beside)
        os.replace(beside, place)
    except BaseException as fault:
        with suppress(OSError):
            beside.unlink()
        if isinstance(fault, OSError):
            raise OSError(fault.errno, fault.strerror, os.fspath(path)) from None
        raise
