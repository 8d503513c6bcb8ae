"""Answers that end a call before it is done, forms of names and of numbers (docs/FORMATS.md, "Printed lines", "Words ..")."""

from __future__ import annotations

import re
import unicodedata
from itertools import islice
from typing import Iterator, Optional, Union

MOST_OF_FILE_NAME = 4096
TURNING = {0x61C, 0x200E, 0x200F, *range(0x202A, 0x202F), *range(0x2066, 0x206A)}


class Stopped(Exception):
    """A call ends with this status, and this text in place of what it is for."""

    def __init__(self, status: int, text: str) -> None:
        super().__init__(text)
        self.status = status
        self.text = text


class Usage(Stopped):
    """The words ask for nothing ("Words of the command line")."""

    def __init__(self, reason: str) -> None:
        super().__init__(2, f"usage: {reason}\n")
        self.reason = reason


class Refused(Stopped):
    """A rule refuses the file or the address: E, A, S, H or N ("Printed lines")."""

    def __init__(self, rule: str) -> None:
        super().__init__(3, f"refused {rule}\n")


class Exceeded(Stopped):
    """A limit is exceeded by a counted number ("Limits")."""

    def __init__(self, limit: str, count: int, most: int) -> None:
        super().__init__(4, f"limit {limit}: {count} over {most}\n")


def hex16(number: int) -> str:
    """HEX of the page: 0x and 16 digits, one more for 2^64 ("Printed lines")."""
    return f"0x{number:016x}"


def encoded(text: str) -> bytes:
    """The bytes of a word or a text, in which bytes that are no UTF-8 stand as surrogates."""
    return text.encode(errors="surrogateescape")


def _characters(data: bytes) -> Iterator[Union[str, bytes]]:
    """The characters of UTF-8, and where there is none the bytes of each maximal subpart ("Names in answers")."""
    while data:
        try:
            yield from data.decode()
            return
        except UnicodeDecodeError as error:
            yield from data[:error.start].decode()
            yield data[error.start:error.end]
            data = data[error.end:]


def _shown(character: Union[str, bytes]) -> str:
    """A character as it stands, or its bytes escaped ("Names in answers")."""
    if isinstance(character, str):
        if unicodedata.category(character) not in ("Cc", "Zl", "Zp") and ord(character) not in TURNING:
            return character
        character = character.encode()
    return "".join(f"\\x{byte:02x}" for byte in character)


def printable(name: bytes, most: int = 80) -> str:
    """The first characters of a name, and `...` if there are more ("Names in answers"). A character has at most four bytes."""
    shown = [_shown(character) for character in islice(_characters(name[:4 * most + 4]), most + 1)]
    return "".join(shown[:most]) + ("..." if len(shown) > most else "")


def number_or_none(number: Optional[int]) -> str:
    """A bound in a line, where there may be none ("Printed lines")."""
    return "none" if number is None else str(number)


def number_of(text: str) -> Optional[int]:
    """The number that a text is, or None ("A number is ..")."""
    if re.fullmatch("[0-9]{1,20}", text):
        number = int(text)
    elif re.fullmatch("0x[0-9a-fA-F]{1,16}", text):
        number = int(text, 16)
    else:
        return None
    return number if number < 1 << 64 else None
