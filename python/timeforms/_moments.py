"""Moments, file times and short durations."""
from __future__ import annotations

import ctypes
import datetime
import operator
import re
from typing import Union

from . import _library
from ._errors import ConversionError
from ._texts import convert

__all__ = [
    "duration_from_text",
    "duration_to_text",
    "file_time_from_nanoseconds",
    "file_time_from_unix_time",
    "file_time_to_nanoseconds",
    "file_time_to_unix_time",
    "parse_datetime",
]

Moment = Union[datetime.datetime, datetime.date, datetime.time]

_TOML = re.compile(r"(?:(\d{4})-(\d\d)-(\d\d))?[T ]?(?:(\d\d):(\d\d):(\d\d)(?:\.(\d+))?)?(?:(Z)|([+-])(\d\d):(\d\d))?")


def parse_datetime(text: str, form: str = "IsoDateTime") -> Moment:
    """The moment that a text names, of the form `FileTime`, `IsoDateTime`, `IsoDate`, `Toml`, `Unix`, `PgTimestamp`, `HttpDate` or
    `MailDate`: an aware `datetime` in UTC, or a date, a `datetime` without an offset or a time, where the text says no more.

    It is exact: raises `ConversionError`, of the cause `Precision` where the text is finer than microseconds, `Range` outside the years 1
    to 9999, `NoSuchMoment` for a leap second, which Python doesn't have, and as `convert` to `Toml` does.

    >>> parse_datetime("2015-06-26T16:43:23.5+02:30")
    datetime.datetime(2015, 6, 26, 14, 13, 23, 500000, tzinfo=datetime.timezone.utc)
    >>> parse_datetime("12:30:00", "Toml")
    datetime.time(12, 30)
    >>> parse_datetime("2026-12-01 23:24:31.051677+00", "PgTimestamp")
    datetime.datetime(2026, 12, 1, 23, 24, 31, 51677, tzinfo=datetime.timezone.utc)
    """
    parts = _TOML.fullmatch(convert(form, "Toml", text))
    assert parts, "convert answers a text of TOML"
    year, month, day, hour, minute, second, fraction, zulu, sign, hours, minutes = parts.groups()
    digits = (fraction or "").ljust(6, "0")
    if digits[6:].strip("0"):
        raise ConversionError("Precision", str(form), "datetime", text)
    try:
        if hour is None:
            return datetime.date(int(year), int(month), int(day))
        if second == "60":
            raise ConversionError("NoSuchMoment", str(form), "datetime", text)
        time = datetime.time(int(hour), int(minute), int(second), int(digits[:6]))
        if year is None:
            return time
        moment = datetime.datetime.combine(datetime.date(int(year), int(month), int(day)), time)
        if zulu is None and sign is None:
            return moment
        ahead = datetime.timedelta(hours=int(hours or 0), minutes=int(minutes or 0))
        return (moment + ahead if sign == "-" else moment - ahead).replace(tzinfo=datetime.timezone.utc)
    except ConversionError:
        raise
    except (ValueError, OverflowError):
        raise ConversionError("Range", str(form), "datetime", text) from None


def _within(value: int, least: int, most: int, name: str) -> int:
    """A whole number from the least to the most."""
    number = operator.index(value)
    if not least <= number <= most:
        raise OverflowError(f"{name} of {number} are out of range")
    return number


def file_time_to_nanoseconds(ticks: int) -> int:
    """The nanoseconds since 1970 of so many ticks of 100 nanoseconds since 1601. `OverflowError` before 1677-09-21 and after 2262-04-11.

    >>> file_time_to_nanoseconds(116444736000000001)
    100
    """
    out = ctypes.c_int64()
    if _library.file_time_to_nanoseconds(_within(ticks, 0, 2**64 - 1, "ticks"), out) < 0:
        raise OverflowError("the nanoseconds leave 64 bits")
    return out.value


def file_time_from_nanoseconds(nanoseconds: int) -> int:
    """The latest tick that is not after so many nanoseconds since 1970.

    >>> file_time_from_nanoseconds(199)
    116444736000000001
    """
    out = ctypes.c_uint64()
    _library.file_time_from_nanoseconds(_within(nanoseconds, -(2**63), 2**63 - 1, "nanoseconds"), out)
    return out.value


def file_time_to_unix_time(ticks: int) -> tuple[int, int]:
    """Whole seconds since 1970, rounded down, and the nanoseconds beyond them, of so many ticks.

    >>> file_time_to_unix_time(116444735999999999)
    (-1, 999999900)
    """
    seconds, beyond = ctypes.c_int64(), ctypes.c_uint32()
    _library.file_time_to_unix_time(_within(ticks, 0, 2**64 - 1, "ticks"), seconds, beyond)
    return seconds.value, beyond.value


def file_time_from_unix_time(seconds: int, nanoseconds: int = 0) -> int:
    """The latest tick that is not after so many seconds and nanoseconds since 1970. `OverflowError` before 1601 and past the last tick.

    >>> file_time_from_unix_time(0, 100)
    116444736000000001
    """
    out = ctypes.c_uint64()
    whole = _within(seconds, -(2**63), 2**63 - 1, "seconds")
    if _library.file_time_from_unix_time(whole, _within(nanoseconds, 0, 2**32 - 1, "nanoseconds"), out) < 0:
        raise OverflowError("the moment is before 1601 or past the last tick")
    return out.value


def duration_from_text(text: str) -> tuple[int, int]:
    """The length that a text of the form `Fancy` denotes, in whole seconds and the nanoseconds beyond them.

    >>> duration_from_text("1h 20m 30s")
    (4830, 0)
    """
    if not isinstance(text, str):
        raise TypeError(f"a text is a str, not {type(text).__name__}")
    seconds, beyond = ctypes.c_uint64(), ctypes.c_uint32()
    try:
        given = str.encode(text)
    except UnicodeEncodeError:
        raise ConversionError("NotUtf8", "Fancy", None, text) from None
    code = _library.duration_from_text(given, len(given), seconds, beyond)
    if code < 0:
        raise ConversionError(_library.CAUSES[code], "Fancy", None, text)
    return seconds.value, beyond.value


def duration_to_text(seconds: int, nanoseconds: int = 0) -> str:
    """The text of a length in the form `Fancy`. `ConversionError` of the cause `Ambiguous` where it would be read as another length.

    >>> duration_to_text(185)
    '3m 5s'
    """
    out = _library.Text()
    whole, beyond = _within(seconds, 0, 2**64 - 1, "seconds"), _within(nanoseconds, 0, 999_999_999, "nanoseconds")
    count = _library.duration_to_text(whole, beyond, out, _library.TEXT_MAX)
    if count < 0:
        raise ConversionError(_library.CAUSES[count], None, "Fancy", f"{seconds} s {nanoseconds} ns")
    return out.value.decode()
