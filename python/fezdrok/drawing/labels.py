"""Names as nodes show them: cleaned of what XML has not, broken in lines where they are long, and how wide they are.

Widths are those of usual fonts without serifs, by a table; none is read from a font.
"""

from __future__ import annotations

import re
from functools import lru_cache
from math import ceil, sqrt
from typing import Any
from unicodedata import category, east_asian_width, normalize

#: The height of a letter, the width of a digit, how far lines are apart, and the least size of a node, in pixels.
LETTER_HEIGHT = 9.0
LETTER = 5.4
LINE = 11.0
LEAST_NODE = 15.0
#: How wide, in digits, a line of a name may be without being broken; a very long name has wider lines.
MOST = 16.0
#: A character that XML has not: control characters, halves of surrogate pairs, U+FFFE and U+FFFF.
NOT_XML = re.compile(r"[^\t\n\r\x20-\ud7ff\ue000-\ufffd\U00010000-\U0010ffff]")
#: How wide letters are, in digits: what is not here is as wide as a digit, or a little more beyond ASCII.
WIDTHS = {
    letter: width
    for letters, width in (
        ("ijl.,:;'|!", 0.5),
        (" frtI()[]{}/\\-\"*", 0.75),
        ("ABCDEFGHKLNOPQRSTUVXYZ&+<>=~#", 1.3),
        ("mwMW@%\ufffd", 1.7),
    )
    for letter in letters
}
BREAKS = frozenset("-_/.,:;")


def clean(text: str) -> str:
    """The text with U+FFFD in place of each character that XML has not."""
    return NOT_XML.sub("\ufffd", text)


# ---- Sizes


def label_size(label: str) -> tuple[float, float]:
    """The width and the height, in pixels, that a node needs so that its label fits. A node with more lines than one is
    wider than high."""
    lines = label.split("\n")
    height = LEAST_NODE + LINE * (len(lines) - 1)
    least = LEAST_NODE if len(lines) == 1 else height + 1.0
    return max(least, max(map(text_width, lines)) + 8.0), height


def point_width(label: str) -> float:
    """The width, in pixels, of a node that lies on a point of the grid, with its label in one line."""
    return max(LEAST_NODE, text_width(label) + 4.0)


def text_width(text: str) -> float:
    """How wide a line is, in pixels."""
    return LETTER * sum(map(letter_width, text))


@lru_cache(maxsize=4096)
def letter_width(letter: str) -> float:
    """How wide a letter is, in digits: wide East Asian ones take two, and marks on other letters nothing."""
    if category(letter) in ("Mn", "Me", "Cf"):
        return 0.0
    if is_wide(letter):
        return 2.0
    base = normalize("NFD", letter)[0]
    return WIDTHS.get(base, 1.0 if base.isascii() else 1.6 if base.isupper() else 1.25)


def is_wide(letter: str) -> bool:
    """Whether a letter is a wide East Asian one, or a picture as wide as these."""
    return east_asian_width(letter) in "WF"


# ---- Lines


def label_in_one_line(name: Any) -> str:
    """What a node shows where there is room for one line."""
    return re.sub(r"\r\n?|\n", " ", clean(str(name)))


def label_of(name: Any) -> str:
    """What a node shows: its name, whose lines stand as they are or are broken where they are long."""
    lines = re.split(r"\r\n?|\n", clean(str(name)))
    most = max(MOST, 2 * sqrt(sum(text_width(line) for line in lines) / LETTER))
    return "\n".join(part for line in lines for part in _broken(line, most))


def _broken(line: str, most: float) -> list[str]:
    """A line broken into as few as can be of which none is wider than `most` digits, and these as even as can be."""
    width = text_width(line) / LETTER
    if width <= most:
        return [line]
    pieces = _pieces(line, most)
    lines = _filled(pieces, most)
    least = max(width / len(lines), *(text_width(piece.rstrip()) / LETTER for piece in pieces))
    for narrower in range(ceil(least), ceil(most)):
        found = _filled(pieces, narrower)
        if len(found) == len(lines):
            return found
    return lines


def _pieces(line: str, most: float) -> list[str]:
    """The parts of a line that stay together: words with the spaces behind them, cut after hyphens and the like, and
    between wide letters; and where they are wider than a line, anywhere."""
    words = [""]
    for before, letter in zip(" " + line, line):
        may_break = before.isspace() or before in BREAKS or is_wide(before) and is_wide(letter)
        if words[-1] and may_break and letter_width(letter) and not letter.isspace():
            words.append("")
        words[-1] += letter
    return [part for word in words for part in _cut(word, most)]


def _cut(word: str, most: float) -> list[str]:
    """A word in as few parts as can be of about `most` digits, and these as even as can be. A mark on a letter stays
    with it."""
    width = text_width(word.rstrip()) / LETTER
    if width <= most:
        return [word]
    parts = [""] * ceil(width / most)
    place, passed = 0, 0.0
    for letter in word:
        if letter_width(letter):
            place = min(int(passed * len(parts) / width), len(parts) - 1)
        parts[place] += letter
        passed += letter_width(letter)
    return parts


def _filled(pieces: list[str], most: float) -> list[str]:
    """The pieces in lines that are filled one after another."""
    lines, width = [""], 0.0
    for piece in pieces:
        if lines[-1] and width + text_width(piece.rstrip()) > most * LETTER:
            lines.append("")
            width = 0.0
        lines[-1] += piece
        width += text_width(piece)
    return [line.strip() for line in lines]
