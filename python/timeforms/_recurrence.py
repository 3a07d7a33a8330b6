"""Recurring instants."""
from __future__ import annotations

import ctypes
import datetime
import re
from typing import Iterator, Union

from . import _library
from ._errors import ConversionError
from ._forms import NUMBERS
from ._interval import Interval

__all__ = ["recur"]

_ASKED = re.compile(r"R([0-9]+)/([^/]*)/(.*)", re.S)
_FORM = "IsoDateTime"
_EPOCH = datetime.datetime(1970, 1, 1, tzinfo=datetime.timezone.utc)
_LEAST, _MOST = -62_135_596_800, 253_402_300_799


def recur(text: str) -> Iterator[Union[datetime.datetime, str]]:
    """The instants of a recurrence such as `R5/2024-01-31T00:00:00Z/P1M`: the start, a text of the form `IsoDateTime`, and so many further
    ones, each a step behind the one before, in UTC with days of 24 hours. The months of all steps together lead from the start to a month,
    in which the day of the month is held. The step is a text of the form `PgIso`.

    Each is an aware `datetime` in UTC, where its year is 1 to 9999, and else the text of it in `IsoDateTime`. Raises `ConversionError` at
    once: of the cause `Syntax` where the text hasn't these parts, and of that of the start or the step. It raises one of the cause
    `Range` in place of the first instant that isn't of the years -9999 to 9999, `OverflowError` beyond 2^32 - 1 steps, and `TypeError` for
    what is no `str`.

    >>> [str(instant) for instant in recur("R2/2024-01-31T00:00:00Z/P1M")]
    ['2024-01-31 00:00:00+00:00', '2024-02-29 00:00:00+00:00', '2024-03-31 00:00:00+00:00']
    """
    if not isinstance(text, str):
        raise TypeError(f"a text is a str, not {type(text).__name__}")
    asked = _ASKED.fullmatch(text)
    if not asked:
        raise ConversionError("Syntax", "recurrence", None, text)
    digits, start, step = asked.groups()
    last = int(digits.lstrip("0")[:11] or "0")
    if last >= 2**32:
        raise OverflowError(f"{digits[:40]} steps leave 32 bits")
    return _instants(*_instant(start), Interval.parse(step), last, text)


def _instant(text: str) -> tuple[int, int]:
    """The instant that a text stands for."""
    seconds, beyond = ctypes.c_int64(), ctypes.c_uint32()
    given = text.encode("utf-8", "surrogatepass")
    code = _library.instant_from_text(NUMBERS[_FORM], given, len(given), seconds, beyond)
    if code < 0:
        raise ConversionError(_library.CAUSES[code], _FORM, None, text)
    return seconds.value, beyond.value


def _instants(start: int, beyond: int, step: Interval, last: int, text: str) -> Iterator[Union[datetime.datetime, str]]:
    """The instants 0, 1 and so on to `last` steps from a start."""
    at, part = ctypes.c_int64(), ctypes.c_uint32()
    for steps in range(last + 1):
        code = _library.recurrence_at(start, beyond, step._value, steps, at, part)
        if code < 0:
            raise ConversionError(_library.CAUSES[code], _FORM, None, text)
        yield _shown(at.value, part.value)


def _shown(seconds: int, nanoseconds: int) -> Union[datetime.datetime, str]:
    """An instant as a `datetime`, or as a text where its year is none of Python's."""
    if _LEAST <= seconds <= _MOST:
        # a start has whole milliseconds, and a step whole microseconds
        return _EPOCH + datetime.timedelta(seconds=seconds, microseconds=nanoseconds // 1000)
    out = _library.Text()
    count = _library.instant_to_text(NUMBERS[_FORM], seconds, nanoseconds, out, _library.TEXT_MAX)
    if count < 0:
        raise ConversionError(_library.CAUSES[count], None, _FORM, f"{seconds} s {nanoseconds} ns")
    return out.value.decode()
