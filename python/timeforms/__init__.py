"""Timestamps, durations and intervals between written forms.

    >>> convert("FileTime", "IsoDateTime", "125962560000000000")
    '2000-02-29T00:00:00.000+00:00'
    >>> convert_all("Fancy", "Postgres", ["36h", "5m"])
    ['1 day 12:00:00', '00:05:00']
    >>> replies(b"PgIso Postgres P1Y2M\\nFancy Fancy 30d\\n")
    b'1 year 2 mons\\nrefused Ambiguous\\n'
    >>> Interval.parse("1 day 02:00:00", "Postgres")
    Interval(days=1, microseconds=7200000000)

The calls are those of the proved library `libtimeforms.so`, which lies beside this file.
"""
from __future__ import annotations

from . import _library
from ._columns import IntervalColumn, TextColumn, convert_all, convert_column, intervals, to_timedelta64
from ._errors import ConversionError
from ._forms import FORMS, Form
from ._interval import Interval, total
from ._moments import (
    duration_from_text,
    duration_to_text,
    file_time_from_nanoseconds,
    file_time_from_unix_time,
    file_time_to_nanoseconds,
    file_time_to_unix_time,
    parse_datetime,
)
from ._recurrence import recur
from ._schedule import ScheduleClash, ScheduleFault, Slot, schedule
from ._texts import convert, replies

__all__ = [
    "FORMS",
    "ConversionError",
    "Form",
    "Interval",
    "IntervalColumn",
    "ScheduleClash",
    "ScheduleFault",
    "Slot",
    "TextColumn",
    "convert",
    "convert_all",
    "convert_column",
    "duration_from_text",
    "duration_to_text",
    "file_time_from_nanoseconds",
    "file_time_from_unix_time",
    "file_time_to_nanoseconds",
    "file_time_to_unix_time",
    "intervals",
    "parse_datetime",
    "recur",
    "replies",
    "schedule",
    "to_timedelta64",
    "total",
    "version",
]


def version() -> str:
    """The version of the library, which is that of the package.

    >>> version() == __version__
    True
    """
    out = _library.Text()
    _library.version(out, _library.TEXT_MAX)
    return out.value.decode()


__version__ = version()

for _public in (ConversionError, Form, Interval, IntervalColumn, ScheduleClash, ScheduleFault, Slot, TextColumn):
    _public.__module__ = __name__
