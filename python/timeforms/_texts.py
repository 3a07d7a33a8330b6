"""One text in another form, and the replies to lines."""
from __future__ import annotations

import ctypes
from typing import Union

from . import _library
from ._errors import ConversionError
from ._forms import NUMBERS, no_such_form

__all__ = ["convert", "replies"]

Bytes = Union[bytes, bytearray, memoryview]

_ROOM = 1 << 18

_reply, _size, _Text, _TEXT_ROOM = _library.reply, ctypes.c_size_t, _library.Text, ctypes.c_size_t(_library.TEXT_MAX)
_utf8 = str.encode


def convert(from_: str, to: str, text: str) -> str:
    """What a text of the form `from_` is in the form `to`.

    Raises `ConversionError` where there is no answer, and `TypeError` where an argument is no `str`.

    >>> convert("PgIso", "PgIso", "P1Y1Y")
    'P2Y'
    >>> convert(Form.Postgres, Form.PgIso, "1 dya")
    Traceback (most recent call last):
    timeforms.ConversionError: '1 dya' is no Postgres: Syntax
    """
    try:
        given, out = _utf8(text), _Text()
        count = _reply(NUMBERS[from_], NUMBERS[to], given, _size(len(given)), out, _TEXT_ROOM)
    except KeyError:
        raise no_such_form(from_, to) from None
    except UnicodeEncodeError:
        if from_ in NUMBERS and to in NUMBERS:
            raise ConversionError("NotUtf8", str(from_), str(to), text) from None
        raise no_such_form(from_, to) from None
    except TypeError:
        if isinstance(text, str):
            raise
        raise TypeError(f"a text is a str, not {type(text).__name__}") from None
    if count < 0:
        raise ConversionError(_library.CAUSES[count], str(from_), str(to), text)
    return out.value.decode()


def replies(lines: Bytes) -> bytes:
    """The replies to lines such as `PgIso Postgres P1Y2M`, as the program gives them: one line for each, and for a last line without its
    line feed too. A line that can't be answered has the reply `refused` and why, so nothing is raised for it.

    `lines` is any bytes-like object. Raises `TypeError` for anything else.

    >>> replies(b"PgIso Postgres P1Y2M\\nPgIso PgIso P")
    b'1 year 2 mons\\nrefused Syntax\\n'
    """
    given = lines if type(lines) is bytes else bytes(memoryview(lines))
    pieces, used = whole_lines(given)
    if used < len(given):
        pieces += whole_lines(given[used:] + b"\n")[0]
    return b"".join(pieces)


def whole_lines(lines: bytes) -> tuple[list[bytes], int]:
    """The replies to the lines that a line feed ends, in pieces, and how many bytes these lines have."""
    start = ctypes.cast(ctypes.c_char_p(lines), ctypes.c_void_p).value or 0
    room = ctypes.create_string_buffer(_ROOM)
    used = ctypes.c_size_t()
    pieces, done = [], 0
    while done < len(lines):
        count = _library.replies(start + done, len(lines) - done, room, _ROOM, used)
        if not used.value:
            break
        pieces.append(ctypes.string_at(room, count))
        done += used.value
    return pieces, done
