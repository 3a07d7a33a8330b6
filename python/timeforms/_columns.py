"""Columns of texts at once."""
from __future__ import annotations

import ctypes
import sys
from array import array
from itertools import accumulate, compress, islice
from typing import Any, Iterable, NamedTuple

from . import _library
from ._errors import ConversionError
from ._forms import FORMS, NUMBERS, no_such_form
from ._interval import Interval
from ._texts import whole_lines

__all__ = ["IntervalColumn", "TextColumn", "convert_all", "convert_column", "intervals", "to_timedelta64"]

# So many cells are answered at once, so that their texts stay near the processor.
_CELLS = 16_384
_ROOM = 1 << 19
_DAY = 86_400_000_000
_VALID = object()
# the replies that are no answers, which no form's text is
_REFUSALS = {f"refused {cause}": cause for cause in _library.CAUSES.values()}


class TextColumn(NamedTuple):
    """Texts side by side: cell n has the bytes of `data` from `offsets[n]` up to `offsets[n + 1]`, and its code is `codes[n]`, 0 where it
    was answered.

    >>> from array import array
    >>> convert_column("Fancy", "PgIso", b"5m", array("I", [0, 2])).data
    b'PT5M'
    """

    data: bytes
    offsets: Any
    codes: Any


def convert_all(from_: str, to: str, texts: Iterable[Any], errors: str = "raise") -> Any:
    """What each text of a column is in the form `to`, in order.

    `texts` is any iterable of `str`, `bytes` or None; a missing cell, None or NaN, stays as it is. The answer is a list; of a numpy array
    it is an array of the same shape, and of a pandas Series a Series with the same index and name. No cell can shift another.

    Where a text has no answer, `errors` says what happens: `"raise"` raises the `ConversionError` of the first one, `"cause"` puts the
    name of the cause in its place, and `"none"` puts None. Raises `TypeError` for a cell of another type.

    >>> convert_all("Fancy", "Postgres", ["36h", None, "1 day", "5m"], errors="none")
    ['1 day 12:00:00', None, None, '00:05:00']
    """
    _known_errors(errors, ("raise", "cause", "none"))
    number, other = _numbers(from_, to)
    cells = _cells(texts)
    answers: list[Any] = []
    for start in range(0, len(cells), _CELLS):
        answers += _answers(number, other, cells[start : start + _CELLS], (from_, to), errors)
    return _like(texts, answers)


def convert_column(from_: str, to: str, data: Any, offsets: Any) -> TextColumn:
    """What each text of a column is in the form `to`, where the texts stand side by side in one buffer: the layout of Arrow's strings.

    `data` is any bytes-like object, and `offsets` any buffer of whole numbers of 32 bits, one more than there are cells. A cell's code is 0,
    or that of `timeforms.h`, and then its answer is empty: a text that can't be answered raises nothing, nor do offsets that fall or leave
    the data. Raises `OverflowError` beyond 2,147,483,647 bytes of answers, which 32 bits don't hold, and `TypeError` for other buffers.

    >>> from array import array
    >>> convert_column("Fancy", "PgIso", b"36h5m-", array("I", [0, 3, 5, 6]))
    TextColumn(data=b'P1DT12HPT5M', offsets=array('I', [0, 7, 11, 11]), codes=array('i', [0, 0, -1]))
    """
    number, other = _numbers(from_, to)
    given, places = _bytes_of(data), _offsets_of(offsets)
    return _converted(number, other, given, places)


class IntervalColumn(NamedTuple):
    """Intervals as three arrays beside each other. `valid` is 1 where a cell has an interval, and else 0, as its three parts are.

    >>> column = intervals(["P1M", None, "P30D", "PT1H"])
    >>> column.months, column.valid
    (array('i', [1, 0, 0, 0]), array('B', [1, 0, 1, 1]))
    >>> column.min(), column.max(), column.sum()
    (Interval(microseconds=3600000000), Interval(months=1), Interval(months=1, days=30, microseconds=3600000000))
    """

    months: Any
    days: Any
    microseconds: Any
    valid: Any

    def intervals(self) -> list[Interval]:
        """The intervals of the cells that have one, in their order."""
        return [Interval(*parts) for parts in self._parts()]

    def sorted(self) -> list[Interval]:
        """The intervals of the cells that have one, from the least to the greatest, as `Interval` orders them.

        >>> [str(interval) for interval in intervals(["P1M", "P30D", None, "PT1H"]).sorted()]
        ['PT1H', 'P30D', 'P1M']
        """
        return [Interval(*parts) for parts in sorted(self._parts(), key=_rank)]

    def min(self) -> Interval:
        """The least interval. Raises `ValueError` where no cell has one."""
        return Interval(*min(self._parts(), key=_rank))

    def max(self) -> Interval:
        """The greatest interval. Raises `ValueError` where no cell has one."""
        return Interval(*max(self._parts(), key=_rank))

    def sum(self) -> Interval:
        """The sum of all intervals, part by part. Raises `OverflowError` where a part of it leaves its bits."""
        months, days, microseconds = (sum(map(int, part)) for part in self[:3])
        return Interval(months, days, microseconds)

    def _parts(self) -> list[tuple[int, int, int]]:
        """The parts of the cells that have an interval."""
        cells = zip(*(part.tolist() for part in self))
        return [(months, days, microseconds) for months, days, microseconds, valid in cells if valid]


def intervals(texts: Iterable[Any], form: str = "PgIso", errors: str = "raise") -> IntervalColumn:
    """The intervals of a column of texts, as arrays of 32, 32 and 64 bits: numpy's, where `texts` is an array or a Series, and else those of
    the module `array`. A cell of None or NaN isn't valid, and with `errors="none"` nor is a text without an interval, for which
    `errors="raise"` raises `ConversionError`.

    >>> column = intervals(["P1Y2M", None, "PT1H"])
    >>> list(column.months), list(column.microseconds), list(column.valid)
    ([14, 0, 0], [0, 0, 3600000000], [1, 0, 1])
    """
    _known_errors(errors, ("raise", "none"))
    number = _numbers(form)[0]
    cells = _cells(texts)
    column = IntervalColumn(array("i"), array("i"), array("q"), array("B"))
    # a form that is none of intervals is refused of no cells too
    for start in range(0, len(cells) or 1, _CELLS):
        for whole, part in zip(column, _intervals(number, cells[start : start + _CELLS], form, errors)):
            whole += part
    numpy = sys.modules.get("numpy")
    if numpy and hasattr(texts, "dtype"):
        kinds = zip(column, ("int32", "int32", "int64", "bool"))
        return IntervalColumn(*(numpy.array(part, dtype=kind) for part, kind in kinds))
    return column


def to_timedelta64(texts: Iterable[Any], form: str = "PgIso") -> Any:
    """The lengths of a column of intervals as a numpy array of microseconds, a day as 24 hours; a missing cell is NaT.

    Needs numpy. Raises `ValueError` where there are months, and `OverflowError` beyond 64 bits.

    >>> to_timedelta64(["P1DT1H", None]).tolist()
    [datetime.timedelta(days=1, seconds=3600), None]
    """
    import numpy

    months, days, micros, valid = (numpy.asarray(part) for part in intervals(texts, form))
    if months.any():
        raise ValueError("an interval of months is no timedelta")
    days, micros = days.astype("int64"), micros.astype("int64")
    # whole days, and what is below one: the sum of both is within 64 bits, or the days alone say that the whole isn't
    whole, rest = days + micros // _DAY, micros % _DAY
    least, most = -(2**63) // _DAY + 1, 2**63 // _DAY - 1
    if ((whole < least) | (whole > most)).any():
        _refuse_beyond(whole.tolist(), rest.tolist())
    spans = (whole * _DAY + rest).view("timedelta64[us]")
    spans[~valid.astype(bool)] = numpy.timedelta64("NaT", "us")
    return spans


def _refuse_beyond(days: list[int], rest: list[int]) -> None:
    """Raises where a length leaves 64 bits, or is the number of NaT."""
    if any(not -(2**63) < day * _DAY + micros < 2**63 for day, micros in zip(days, rest)):
        raise OverflowError("a length leaves 64 bits of microseconds")


def _known_errors(errors: str, words: tuple[str, ...]) -> None:
    if errors not in words:
        raise ValueError(f"errors is {' or '.join(map(repr, words))}, not {errors!r}")


def _numbers(*forms: str) -> list[int]:
    """The numbers of the forms of these names."""
    if all(isinstance(form, str) and form in NUMBERS for form in forms):
        return [NUMBERS[form] for form in forms]
    raise no_such_form(*forms)


def _cells(texts: Iterable[Any]) -> list[Any]:
    """The cells of a column, in order."""
    if isinstance(texts, (str, bytes, bytearray, memoryview)):
        raise TypeError(f"a column is a list of texts or the like, not one {type(texts).__name__}")
    if isinstance(texts, list):
        return texts
    pandas, numpy = sys.modules.get("pandas"), sys.modules.get("numpy")
    if pandas and isinstance(texts, pandas.DataFrame):
        raise TypeError("a column is one Series of a DataFrame, not all of it")
    if numpy and isinstance(texts, numpy.ndarray):
        flat: list[Any] = texts.ravel().tolist()
        return flat
    return list(texts)


def _like(texts: Any, answers: list[Any]) -> Any:
    """The answers in a column of the kind of the texts."""
    pandas, numpy = sys.modules.get("pandas"), sys.modules.get("numpy")
    if pandas and isinstance(texts, pandas.Series):
        kind = texts.dtype if isinstance(texts.dtype, pandas.StringDtype) else object
        return pandas.Series(answers, index=texts.index, name=texts.name, dtype=kind)
    if numpy and isinstance(texts, numpy.ndarray):
        column = numpy.empty(len(answers), dtype=object)
        column[:] = answers
        return column.reshape(texts.shape)
    return answers


def _is_missing(cell: object) -> bool:
    """Whether a cell is None, NaN, or what pandas has for them."""
    if cell is None:
        return True
    if isinstance(cell, float):
        return cell != cell
    pandas = sys.modules.get("pandas")
    return pandas is not None and (cell is pandas.NA or cell is pandas.NaT)


def _rank(parts: tuple[int, int, int]) -> tuple[int, ...]:
    """What intervals are ordered by."""
    months, days, microseconds = parts
    return ((30 * months + days) * _DAY + microseconds, months, days, microseconds)


class _Packed(NamedTuple):
    """Cells side by side: their bytes, their offsets, the places of those that are missing, and the cell at which they end since it is of
    another type."""

    data: bytes
    offsets: array[int]
    missing: list[int]
    wrong: Any


def _packed(cells: list[Any]) -> _Packed:
    """Cells as a column, up to the first that is no text."""
    try:
        text = "".join(cells)
        if text.isascii():
            return _Packed(text.encode(), _offsets(cells), [], None)
    except TypeError:
        pass
    given, missing = [], []
    for place, cell in enumerate(cells):
        if isinstance(cell, str):
            # half a surrogate pair is no UTF-8, which the library tells
            given.append(cell.encode("utf-8", "surrogatepass"))
        elif isinstance(cell, bytes):
            given.append(cell)
        elif _is_missing(cell):
            given.append(b"")
            missing.append(place)
        else:
            return _Packed(b"".join(given), _offsets(given), missing, cell)
    return _Packed(b"".join(given), _offsets(given), missing, None)


def _offsets(given: list[Any]) -> array[int]:
    """Where cells side by side start and end."""
    return array("I", accumulate(map(len, given), initial=0))


def _address(values: array[Any], place: int = 0) -> int:
    """Where the elements of an array are from a place on."""
    return values.buffer_info()[0] + place * values.itemsize


def _converted(number: int, other: int, data: Any, offsets: array[int]) -> TextColumn:
    """A column in another form, in as many calls as its room asks for."""
    count = len(offsets) - 1
    if count < 1:
        return TextColumn(b"", array("I", [0]), array("i"))
    ends, codes = array("I", bytes(4 * (count + 1))), array("i", bytes(4 * count))
    # a call for a further part counts its offsets from 0 on, so the room is such that there is seldom one
    room = ctypes.create_string_buffer(min(_library.TEXT_MAX * count, max(_ROOM, 2 * len(data)), 2**31 - 1))
    start = ctypes.cast(ctypes.c_char_p(data), ctypes.c_void_p).value or 0
    used, done, put, pieces = ctypes.c_size_t(), 0, 0, []
    while done < count:
        _library.convert_column(
            number, other, start, len(data), _address(offsets, done), count + 1 - done, ctypes.addressof(room), len(room),
            _address(ends, done), count + 1 - done, _address(codes, done), count - done, used,
        )  # fmt: skip
        answered = done + used.value
        pieces.append(ctypes.string_at(room, ends[answered]))
        if put:
            _move(ends, done, answered, put)
        put += len(pieces[-1])
        done = answered
    return TextColumn(b"".join(pieces), ends, codes)


def _move(ends: array[int], first: int, last: int, by: int) -> None:
    """Adds to the offsets from one place to another."""
    if ends[last] + by > 2**31 - 1:
        raise OverflowError("the answers leave 2,147,483,647 bytes")
    ends[first : last + 1] = array("I", [end + by for end in ends[first : last + 1]])


def _bytes_of(data: Any) -> bytes:
    """The bytes of a bytes-like object."""
    return data if type(data) is bytes else bytes(memoryview(data))


def _offsets_of(offsets: Any) -> array[int]:
    """Offsets of 32 bits as an array."""
    if isinstance(offsets, array) and offsets.typecode == "I":
        # a copy, which no other thread lets grow while the library reads it
        return offsets[:]
    view = memoryview(offsets)
    if view.itemsize != 4 or view.format not in ("i", "I", "l", "L", "=i", "=I", "<i", "<I"):
        raise TypeError(f"offsets are whole numbers of 32 bits, not a buffer of the format {view.format!r}")
    return array("I", view.tobytes())


def _answers(number: int, other: int, cells: list[Any], forms: tuple[str, str], errors: str) -> list[Any]:
    """The answers to some cells, in order."""
    lines = _as_lines(cells, f"{FORMS[number]} {FORMS[other]} ")
    if lines is not None:
        return _line_answers(lines, cells, forms, errors)
    packed = _packed(cells)
    column = _converted(number, other, packed.data, packed.offsets)
    text, start = column.data.decode(), 0
    answers: list[Any] = [text[start : (start := end)] for end in islice(column.offsets.tolist(), 1, None)]
    _put_back(answers, cells, packed, column.codes, forms, errors)
    return answers


class _Lines(NamedTuple):
    """Cells as lines, and the places of those that are missing, whose lines have no text."""

    lines: bytes
    missing: list[int]


def _as_lines(cells: list[Any], names: str) -> _Lines | None:
    """Cells as lines behind these names, where each is missing or a `str` without a line feed or half a surrogate pair."""
    behind = f"\n{names}"
    missing: list[int] = []
    try:
        text = behind.join(cells)
    except TypeError:
        missing = [place for place, cell in enumerate(cells) if not isinstance(cell, str)]
        if not all(_is_missing(cells[place]) for place in missing):
            return None
        given = cells[:]
        for place in missing:
            given[place] = ""
        text = behind.join(given)
    try:
        lines = f"{names}{text}\n".encode()
    except UnicodeEncodeError:
        return None
    return _Lines(lines, missing) if lines.count(b"\n") == len(cells) else None


def _line_answers(asked: _Lines, cells: list[Any], forms: tuple[str, str], errors: str) -> list[Any]:
    """The answers to cells that stand in lines: to split replies takes less than to cut each answer out of a column."""
    text = b"".join(whole_lines(asked.lines)[0]).decode()
    answers: list[Any] = text.split("\n")
    del answers[-1]
    for place in asked.missing:
        answers[place] = cells[place]
    # the letter of "refused" that no answer has, which is found sooner than the word
    if "f" in text:
        for place in compress(range(len(answers)), map(_REFUSALS.__contains__, answers)):
            answers[place] = _refused(cells[place], _REFUSALS[answers[place]], forms, errors)
    return answers


def _put_back(answers: list[Any], cells: list[Any], packed: _Packed, codes: array[int], forms: tuple[str, str | None], errors: str) -> None:
    """Puts what stands in place of an answer: missing cells as they are, and what becomes of those that are refused."""
    for place in packed.missing:
        codes[place] = 0
        answers[place] = cells[place]
    if codes.tobytes() != bytes(4 * len(codes)):
        for place, code in enumerate(codes):
            if code:
                answers[place] = _refused(cells[place], _library.CAUSES[code], forms, errors)
    if packed.wrong is not None:
        raise TypeError(f"a cell is a str, bytes or None, not {type(packed.wrong).__name__}")


def _refused(cell: str | bytes, cause: str, forms: tuple[str, str | None], errors: str) -> str | None:
    """What stands in the place of an answer."""
    if errors == "raise":
        raise ConversionError(cause, str(forms[0]), None if forms[1] is None else str(forms[1]), cell)
    return cause if errors == "cause" else None


def _intervals(number: int, cells: list[Any], form: str, errors: str) -> IntervalColumn:
    """The intervals of some cells, in order."""
    packed = _packed(cells)
    count = len(packed.offsets) - 1
    months, days, codes, microseconds = *(array("i", bytes(4 * count)) for _ in range(3)), array("q", bytes(8 * count))
    start = ctypes.cast(ctypes.c_char_p(packed.data), ctypes.c_void_p).value or 0
    said = _library.intervals_from_column(
        number, start, len(packed.data), _address(packed.offsets), count + 1, _address(months), count, _address(days), count,
        _address(microseconds), count, _address(codes), count, ctypes.c_size_t(),
    )  # fmt: skip
    if said < 0:
        raise ConversionError(_library.CAUSES[said], str(form))
    valid: list[Any] = [_VALID] * count
    for place in packed.missing:
        months[place] = days[place] = microseconds[place] = 0
    _put_back(valid, cells, packed, codes, (form, None), errors)
    return IntervalColumn(months, days, microseconds, array("B", [mark is _VALID for mark in valid]))
