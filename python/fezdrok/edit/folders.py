"""The files of one folder that can be opened in the place of the picture, by their names alone."""

from __future__ import annotations

from collections.abc import Callable
from pathlib import Path
from threading import Lock

from ..engine.faults import PlanarError
from ..engine.results import SUFFIX, Planarization
from ..files.graph_files import FORMATS
from .boards import NotDoneError
from .forms import LONGEST_NAME

#: How the names of files end that can be opened.
ENDINGS = (SUFFIX, *(suffix for form in FORMATS.values() for suffix in form.suffixes))


class Folder:
    """A folder. `read` gives the planarization of a file, or raises OSError, ValueError or an exception of the
    program."""

    def __init__(self, place: Path, read: Callable[[Path], Planarization]):
        self._place = place.resolve()
        self._read = read
        self._turn = Lock()

    def names(self) -> list[str]:
        """The names of its files that can be opened, in order. Links that lead out of it are left out, and so are names
        that a message cannot hold. NotDoneError where it cannot be read."""
        try:
            return sorted(path.name for path in self._place.iterdir() if self._is_own(path))
        except OSError as fault:
            raise NotDoneError(f"the folder cannot be read: {fault.strerror or fault}") from None

    def _is_own(self, path: Path) -> bool:
        is_named = path.name.lower().endswith(ENDINGS) and path.name.isprintable() and len(path.name) <= LONGEST_NAME
        return is_named and path.is_file() and path.resolve().parent == self._place

    def opened(self, name: str | None) -> Planarization:
        """The planarization of the file of this name. NotDoneError where there is none, or where it is at fault."""
        if name is None or name not in self.names():
            raise NotDoneError("there is no such file in the folder")
        try:
            with self._turn:  # what is read of files changes the filters of warnings
                return self._read(self._place / name)
        except OSError as fault:
            raise NotDoneError(f"{name}: {fault.strerror or fault}") from None
        except (PlanarError, ValueError) as fault:
            raise NotDoneError(f"{name}: {fault}") from None
        except MemoryError:
            raise NotDoneError(f"{name}: out of memory") from None
