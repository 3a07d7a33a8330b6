"""Slots that don't clash."""
from __future__ import annotations

import ctypes
import datetime
from struct import iter_unpack
from typing import Iterable, NamedTuple, Optional, Union

from . import _library
from ._errors import ConversionError
from ._moments import parse_datetime

__all__ = ["ScheduleClash", "ScheduleFault", "Slot", "schedule"]

Line = Union[str, bytes]

_FORMS: dict[str, tuple[Optional[str], Optional[str]]] = {
    "line": (None, None),
    "start": ("Toml", "FileTime"),
    "length": ("Fancy", "FileTime"),
}


class Slot(NamedTuple):
    """A slot: from `start` up to `end`, in ticks of 100 nanoseconds since 1601 as in `FileTime`, and the number of its line, from 1 on.

    Ticks are exact, and reach the year 60056, which no `datetime` does; `starts_at` and `ends_at` are the same moments as `datetime`s.

    >>> slot = schedule(["2026-03-30T06:00:00+02:00\\t8h"])[0]
    >>> slot
    Slot(start=134193168000000000, end=134193456000000000, line=1)
    >>> str(slot.starts_at), str(slot.ends_at)
    ('2026-03-30 04:00:00+00:00', '2026-03-30 12:00:00+00:00')
    """

    start: int
    end: int
    line: int

    @property
    def starts_at(self) -> datetime.datetime:
        """The start as an aware `datetime` in UTC. Raises `ConversionError` as `ends_at` does."""
        return _moment(self.start)

    @property
    def ends_at(self) -> datetime.datetime:
        """The end as an aware `datetime` in UTC. Raises `ConversionError`, of the cause `Precision` where the tick is no whole number of
        microseconds, and `Range` after the year 9999."""
        return _moment(self.end)


class ScheduleFault(ConversionError):
    """A line of `schedule` is no slot. `line` is its number, from 1 on, and `part` says what of it has the fault: `"line"`, `"start"` or
    `"length"`. `text` is that part. `cause` is the first of these that holds:

    - `Line`, of the line: it is no UTF-8, has no tab, or has a line feed before its end
    - of the start and then of the length: one of `ConversionError`'s causes; `Kind` is a date-time without an offset, a day or a time
    - of the length: `Empty` where it is 0, `Precision` where it is no whole number of ticks, `Range` where the end passes the last tick

    >>> schedule(["2026-03-30T06:00:00+02:00\\t8h", "2026-03-30T22:00:00\\t8h"])
    Traceback (most recent call last):
    timeforms.ScheduleFault: line 2: '2026-03-30T22:00:00' is of a kind that FileTime doesn't have: Kind
    """

    line: int
    part: str

    def __init__(self, line: int, part: str, cause: str, text: Optional[Line] = None) -> None:
        super().__init__(cause, *_FORMS[part], text)
        self.args = line, part, cause, text
        self.line, self.part = line, part

    def __str__(self) -> str:
        return f"line {self.line}: {super().__str__()}"


class ScheduleClash(ConversionError):
    """Two slots of `schedule` clash: each starts before the other ends. `first` and `second` are the two, in the order of their starts and
    then of their lines, and `cause` is `Clash`.

    >>> try:
    ...     schedule(["2026-03-30T06:00:00Z\\t8h", "2026-03-30T13:30:00Z\\t30m"])
    ... except ScheduleClash as clash:
    ...     print(clash, "until", clash.first.ends_at)
    lines 1 and 2 clash until 2026-03-30 14:00:00+00:00
    """

    first: Slot
    second: Slot

    def __init__(self, first: Slot, second: Slot) -> None:
        super().__init__("Clash")
        self.args = first, second
        self.first, self.second = first, second

    def __str__(self) -> str:
        return f"lines {self.first.line} and {self.second.line} clash"


def schedule(lines: Iterable[Line]) -> list[Slot]:
    """The slots of lines, in the order of their starts, where no two clash. Slots that touch don't.

    `lines` is any iterable of `str` or `bytes`, such as an open file: a line feed at the end of a line is no part of it. A line is a start,
    a tab and a length: a date-time of the form `Toml` with an offset, and a length of the form `Fancy`.

    Raises `ScheduleFault` for the first line that is no slot, or else `ScheduleClash` for the first clash: of all pairs that clash the one
    whose second slot comes first in that order. Both are `ConversionError`s. Raises `TypeError` for a line of another type.

    >>> [slot.line for slot in schedule(["2026-03-30T14:00:00+02:00\\t8h", "2026-03-30T06:00:00+02:00\\t8h"])]
    [2, 1]
    """
    if isinstance(lines, (str, bytes, bytearray, memoryview)):
        raise TypeError(f"lines are a list of texts or the like, not one {type(lines).__name__}")
    kept = list(lines)
    texts = [_text(line) for line in kept]
    given = b"".join(texts)
    room = (_library.Slot * len(texts))()
    count, first, second = ctypes.c_size_t(), ctypes.c_uint64(), ctypes.c_uint64()
    code = _library.schedule_check(given, len(given), room, len(room), count, first, second)
    if code and code != _library.CLASH:
        number = first.value
        raise _fault(number, code, kept[number - 1], texts[number - 1])
    slots = [Slot._make(parts) for parts in iter_unpack("=QQQ", room)]
    if code:
        by_line = {slot.line: slot for slot in slots}
        raise ScheduleClash(by_line[first.value], by_line[second.value])
    return slots


def _moment(ticks: int) -> datetime.datetime:
    """A file time as a `datetime`."""
    moment = parse_datetime(str(ticks), "FileTime")
    assert isinstance(moment, datetime.datetime), "a file time is an instant"
    return moment


def _text(line: Line) -> bytes:
    """The bytes of a line and a line feed; a line feed alone, which is no slot either, where the line is no UTF-8 or has one before its end."""
    if not isinstance(line, (str, bytes)):
        raise TypeError(f"a line is a str or bytes, not {type(line).__name__}")
    try:
        text = line.encode() if isinstance(line, str) else line
    except UnicodeError:
        return b"\n"
    if not text.endswith(b"\n"):
        text += b"\n"
    return text if text.count(b"\n") == 1 else b"\n"


def _fault(number: int, code: int, line: Line, text: bytes) -> ScheduleFault:
    """The fault that a code tells of a line with its number and its bytes."""
    if code == _library.BAD_LINE:
        return ScheduleFault(number, "line", "Line", line)
    start, _, length = text[:-1].decode().partition("\t")
    if code == _library.EMPTY_LENGTH:
        return ScheduleFault(number, "length", "Empty", length)
    if code < _library.BAD_LENGTH:
        return ScheduleFault(number, "length", _library.CAUSES[code - _library.BAD_LENGTH], length)
    return ScheduleFault(number, "start", _library.CAUSES[code - _library.BAD_START], start)
