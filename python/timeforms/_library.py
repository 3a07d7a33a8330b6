"""The calls of `libtimeforms.so`, as include/timeforms.h has them."""
from __future__ import annotations

import ctypes
import os
from typing import Any, Iterator

TEXT_MAX = 96

CAUSES = {
    -1: "Syntax",
    -2: "NoSuchMoment",
    -3: "Range",
    -4: "Kind",
    -5: "Precision",
    -6: "Ambiguous",
    -101: "NoSuchForm",
    -102: "NotUtf8",
    -103: "NoRoom",
    -104: "BadOffsets",
}

# what the check of a schedule answers besides
CLASH, BAD_LINE, EMPTY_LENGTH = -105, -106, -107
# the code of a cause is added to these
BAD_START, BAD_LENGTH = -200, -300

Text = ctypes.c_char * TEXT_MAX


class Interval(ctypes.Structure):
    months: int
    days: int
    microseconds: int
    _fields_ = [("months", ctypes.c_int32), ("days", ctypes.c_int32), ("microseconds", ctypes.c_int64)]


class Slot(ctypes.Structure):
    start: int
    end: int
    line: int
    _fields_ = [("start", ctypes.c_uint64), ("end", ctypes.c_uint64), ("line", ctypes.c_uint64)]


_PATH = os.path.join(os.path.dirname(os.path.abspath(__file__)), "libtimeforms.so")
# Calls for one text are shorter than to hand the interpreter's lock over and back; that for lines lets other threads run.
_held, _free = ctypes.PyDLL(_PATH), ctypes.CDLL(_PATH)

# Its one caller passes values of these types: to try each of them again takes as long as all the rest of the call.
reply = _held.timeforms_reply
reply.restype = ctypes.c_int32

replies = _free.timeforms_replies
replies.argtypes = [ctypes.c_void_p, ctypes.c_size_t, ctypes.c_char_p, ctypes.c_size_t, ctypes.POINTER(ctypes.c_size_t)]
replies.restype = ctypes.c_size_t

_ARRAY = [ctypes.c_void_p, ctypes.c_size_t]

convert_column = _free.timeforms_convert_column
convert_column.argtypes = [ctypes.c_int32, ctypes.c_int32, *5 * _ARRAY, ctypes.POINTER(ctypes.c_size_t)]
convert_column.restype = ctypes.c_int32

intervals_from_column = _free.timeforms_intervals_from_column
intervals_from_column.argtypes = [ctypes.c_int32, *6 * _ARRAY, ctypes.POINTER(ctypes.c_size_t)]
intervals_from_column.restype = ctypes.c_int32

interval_from_text = _held.timeforms_interval_from_text
interval_from_text.argtypes = [ctypes.c_int32, ctypes.c_char_p, ctypes.c_size_t, ctypes.POINTER(Interval)]
interval_from_text.restype = ctypes.c_int32

interval_to_text = _held.timeforms_interval_to_text
interval_to_text.argtypes = [ctypes.c_int32, ctypes.POINTER(Interval), Text, ctypes.c_size_t]
interval_to_text.restype = ctypes.c_int32

interval_add = _held.timeforms_interval_add
interval_add.argtypes = [Interval, Interval, ctypes.POINTER(Interval)]
interval_add.restype = ctypes.c_int32

interval_subtract = _held.timeforms_interval_subtract
interval_subtract.argtypes = [Interval, Interval, ctypes.POINTER(Interval)]
interval_subtract.restype = ctypes.c_int32

interval_negate = _held.timeforms_interval_negate
interval_negate.argtypes = [Interval, ctypes.POINTER(Interval)]
interval_negate.restype = ctypes.c_int32

interval_compare = _held.timeforms_interval_compare
interval_compare.argtypes = [Interval, Interval]
interval_compare.restype = ctypes.c_int32

interval_from_seconds = _held.timeforms_interval_from_seconds
interval_from_seconds.argtypes = [ctypes.c_int64, ctypes.c_uint32, ctypes.POINTER(Interval)]
interval_from_seconds.restype = ctypes.c_int32

file_time_to_nanoseconds = _held.timeforms_file_time_to_nanoseconds
file_time_to_nanoseconds.argtypes = [ctypes.c_uint64, ctypes.POINTER(ctypes.c_int64)]
file_time_to_nanoseconds.restype = ctypes.c_int32

file_time_from_nanoseconds = _held.timeforms_file_time_from_nanoseconds
file_time_from_nanoseconds.argtypes = [ctypes.c_int64, ctypes.POINTER(ctypes.c_uint64)]
file_time_from_nanoseconds.restype = ctypes.c_int32

file_time_to_unix_time = _held.timeforms_file_time_to_unix_time
file_time_to_unix_time.argtypes = [ctypes.c_uint64, ctypes.POINTER(ctypes.c_int64), ctypes.POINTER(ctypes.c_uint32)]
file_time_to_unix_time.restype = ctypes.c_int32

file_time_from_unix_time = _held.timeforms_file_time_from_unix_time
file_time_from_unix_time.argtypes = [ctypes.c_int64, ctypes.c_uint32, ctypes.POINTER(ctypes.c_uint64)]
file_time_from_unix_time.restype = ctypes.c_int32

_SECONDS: list[Any] = [ctypes.POINTER(ctypes.c_int64), ctypes.POINTER(ctypes.c_uint32)]

instant_from_text = _held.timeforms_instant_from_text
instant_from_text.argtypes = [ctypes.c_int32, ctypes.c_char_p, ctypes.c_size_t, *_SECONDS]
instant_from_text.restype = ctypes.c_int32

instant_to_text = _held.timeforms_instant_to_text
instant_to_text.argtypes = [ctypes.c_int32, ctypes.c_int64, ctypes.c_uint32, Text, ctypes.c_size_t]
instant_to_text.restype = ctypes.c_int32

recurrence_at = _held.timeforms_recurrence_at
recurrence_at.argtypes = [ctypes.c_int64, ctypes.c_uint32, Interval, ctypes.c_uint32, *_SECONDS]
recurrence_at.restype = ctypes.c_int32

schedule_check = _free.timeforms_schedule_check
schedule_check.argtypes = [
    ctypes.c_char_p,
    ctypes.c_size_t,
    ctypes.POINTER(Slot),
    ctypes.c_size_t,
    ctypes.POINTER(ctypes.c_size_t),
    ctypes.POINTER(ctypes.c_uint64),
    ctypes.POINTER(ctypes.c_uint64),
]
schedule_check.restype = ctypes.c_int32

duration_from_text = _held.timeforms_duration_from_text
duration_from_text.argtypes = [ctypes.c_char_p, ctypes.c_size_t, ctypes.POINTER(ctypes.c_uint64), ctypes.POINTER(ctypes.c_uint32)]
duration_from_text.restype = ctypes.c_int32

duration_to_text = _held.timeforms_duration_to_text
duration_to_text.argtypes = [ctypes.c_uint64, ctypes.c_uint32, Text, ctypes.c_size_t]
duration_to_text.restype = ctypes.c_int32

form_name = _held.timeforms_form_name
form_name.argtypes = [ctypes.c_int32, Text, ctypes.c_size_t]
form_name.restype = ctypes.c_int32

version = _held.timeforms_version
version.argtypes = [Text, ctypes.c_size_t]
version.restype = ctypes.c_int32


def form_names() -> Iterator[str]:
    """The names of the forms, by number from 0."""
    out = Text()
    count = form_name(0, out, TEXT_MAX)
    number = 0
    while count >= 0:
        yield out.raw[:count].decode()
        number += 1
        count = form_name(number, out, TEXT_MAX)
