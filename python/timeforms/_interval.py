"""PostgreSQL's intervals."""
from __future__ import annotations

import datetime
import operator
from typing import Any, Iterable, NoReturn, Type, TypeVar

from . import _library
from ._errors import ConversionError
from ._forms import NUMBERS, no_such_form

__all__ = ["Interval", "total"]

_SECONDS_A_DAY = 86_400

_Self = TypeVar("_Self", bound="Interval")


def _whole(value: int, bits: int, part: str) -> int:
    """A whole number within so many bits with its sign."""
    number = operator.index(value)
    if not -(1 << bits - 1) <= number < 1 << bits - 1:
        raise OverflowError(f"{part} of {number} leave {bits} bits")
    return number


class Interval:
    """An interval as PostgreSQL keeps it: a month is no number of days, and a day no number of hours.

    `months` and `days` are within 32 bits with their sign, `microseconds` within 64; beyond them each call raises `OverflowError`.
    Intervals are equal where their parts are, and don't change. They are ordered as PostgreSQL orders them, a month as 30 days and a day
    as 24 hours; those that are as long as each other go by months, days and microseconds. `+`, `-` and the order are
    proved calls of the library; times a whole number and `total` are sums of Python's.

    >>> Interval(months=1) + Interval(days=2, microseconds=3)
    Interval(months=1, days=2, microseconds=3)
    >>> Interval(days=30) < Interval(months=1) < Interval(days=31)
    True
    >>> sum([Interval(days=1), Interval(days=2)])
    Interval(days=3)
    """

    __slots__ = ("_value",)

    _value: _library.Interval

    def __init__(self, months: int = 0, days: int = 0, microseconds: int = 0) -> None:
        value = _library.Interval(_whole(months, 32, "months"), _whole(days, 32, "days"), _whole(microseconds, 64, "microseconds"))
        object.__setattr__(self, "_value", value)

    @classmethod
    def _of(cls: Type[_Self], value: _library.Interval) -> _Self:
        """The interval that the library answered."""
        interval = object.__new__(cls)
        object.__setattr__(interval, "_value", value)
        return interval

    @property
    def months(self) -> int:
        """Whole months, 12 a year."""
        return self._value.months

    @property
    def days(self) -> int:
        """Whole days."""
        return self._value.days

    @property
    def microseconds(self) -> int:
        """Microseconds, 3,600,000,000 an hour."""
        return self._value.microseconds

    def __setattr__(self, name: str, value: object) -> NoReturn:
        raise AttributeError(f"an interval doesn't change: {name}")

    def __delattr__(self, name: str) -> NoReturn:
        raise AttributeError(f"an interval doesn't change: {name}")

    def __reduce__(self) -> tuple[Any, ...]:
        return type(self), self._parts()

    @classmethod
    def parse(cls: Type[_Self], text: str, form: str = "PgIso") -> _Self:
        """The interval that a text denotes in an interval form: `PgIso`, `IsoStrict`, `Postgres`, `PgVerbose` or `PgSql`.

        Raises `ConversionError`, of the cause `NoSuchForm`, `NotUtf8`, `Syntax` or `Range`, and `TypeError` for what is no `str`.

        >>> Interval.parse("1 day 02:00:00", "Postgres")
        Interval(days=1, microseconds=7200000000)
        """
        if not isinstance(text, str):
            raise TypeError(f"a text is a str, not {type(text).__name__}")
        try:
            number, given, read = NUMBERS[form], str.encode(text), _library.Interval()
        except KeyError:
            raise no_such_form(form) from None
        except UnicodeEncodeError:
            raise ConversionError("NotUtf8", str(form), None, text) from None
        code = _library.interval_from_text(number, given, len(given), read)
        if code < 0:
            cause = _library.CAUSES[code]
            raise ConversionError(cause, str(form), None, None if cause == "NoSuchForm" else text)
        return cls._of(read)

    def text(self, form: str = "PgIso") -> str:
        """The interval's text in an interval form. Each interval has one.

        Raises `ConversionError` of the cause `NoSuchForm`.

        >>> Interval(14, -3).text("Postgres")
        '1 year 2 mons -3 days'
        """
        out = _library.Text()
        try:
            number = NUMBERS[form]
        except KeyError:
            raise no_such_form(form) from None
        count = _library.interval_to_text(number, self._value, out, _library.TEXT_MAX)
        if count < 0:
            raise ConversionError(_library.CAUSES[count], None, str(form))
        return out.value.decode()

    @classmethod
    def from_timedelta(cls: Type[_Self], length: datetime.timedelta) -> _Self:
        """The interval of a length: whole days of 24 hours, toward zero, and the rest as microseconds.

        >>> Interval.from_timedelta(datetime.timedelta(hours=-36))
        Interval(days=-1, microseconds=-43200000000)
        """
        if not isinstance(length, datetime.timedelta):
            raise TypeError(f"a length is a timedelta, not {type(length).__name__}")
        value = _library.Interval()
        # a timedelta has days of either sign, and seconds and microseconds of 0 and more; the days of each are within 32 bits
        _library.interval_from_seconds(length.days * _SECONDS_A_DAY + length.seconds, length.microseconds * 1000, value)
        return cls._of(value)

    def to_timedelta(self) -> datetime.timedelta:
        """The same length, where a day has 24 hours.

        Raises `ValueError` where there are months, which no number of days is, and `OverflowError` beyond 999,999,999 days.

        >>> Interval(days=1, microseconds=500_000).to_timedelta()
        datetime.timedelta(days=1, microseconds=500000)
        """
        if self.months:
            raise ValueError("an interval of months is no timedelta")
        return datetime.timedelta(days=self.days, microseconds=self.microseconds)

    def __str__(self) -> str:
        return self.text()

    def __repr__(self) -> str:
        named = zip(("months", "days", "microseconds"), self._parts())
        return f"Interval({', '.join(f'{name}={part}' for name, part in named if part)})"

    def _parts(self) -> tuple[int, int, int]:
        return self.months, self.days, self.microseconds

    def _compare(self, other: Interval) -> int:
        """-1 where it is before the other, 0 where they are equal, 1 where it is behind."""
        order: int = _library.interval_compare(self._value, other._value)
        return order

    def __bool__(self) -> bool:
        return any(self._parts())

    # the bytes of a value are those of its three parts, and there are none between them

    def __hash__(self) -> int:
        return hash(bytes(self._value))

    def __eq__(self, other: object) -> bool:
        if not isinstance(other, Interval):
            return NotImplemented
        return bytes(self._value) == bytes(other._value)

    def __lt__(self, other: Interval) -> bool:
        return self._compare(other) < 0 if isinstance(other, Interval) else NotImplemented

    def __le__(self, other: Interval) -> bool:
        return self._compare(other) <= 0 if isinstance(other, Interval) else NotImplemented

    def __gt__(self, other: Interval) -> bool:
        return self._compare(other) > 0 if isinstance(other, Interval) else NotImplemented

    def __ge__(self, other: Interval) -> bool:
        return self._compare(other) >= 0 if isinstance(other, Interval) else NotImplemented

    def __add__(self, other: Interval) -> Interval:
        if not isinstance(other, Interval):
            return NotImplemented
        value = _library.Interval()
        if _library.interval_add(self._value, other._value, value) < 0:
            raise OverflowError(f"a part of {self!r} + {other!r} leaves its bits")
        return Interval._of(value)

    def __radd__(self, other: int) -> Interval:
        """`sum` starts from 0."""
        if type(other) is not int or other:
            return NotImplemented
        return self

    def __sub__(self, other: Interval) -> Interval:
        if not isinstance(other, Interval):
            return NotImplemented
        value = _library.Interval()
        if _library.interval_subtract(self._value, other._value, value) < 0:
            raise OverflowError(f"a part of {self!r} - {other!r} leaves its bits")
        return Interval._of(value)

    def __neg__(self) -> Interval:
        value = _library.Interval()
        if _library.interval_negate(self._value, value) < 0:
            raise OverflowError(f"a part of -{self!r} leaves its bits")
        return Interval._of(value)

    def __pos__(self) -> Interval:
        return self

    def __mul__(self, times: int) -> Interval:
        try:
            number = operator.index(times)
        except TypeError:
            return NotImplemented
        return Interval(self.months * number, self.days * number, self.microseconds * number)

    __rmul__ = __mul__


def total(intervals: Iterable[Interval]) -> Interval:
    """The sum of intervals, where only the whole sum must be within its bits. `sum` asks it of each step too.

    >>> most = Interval(days=2**31 - 1)
    >>> total([most, most, -most])
    Interval(days=2147483647)
    """
    months = days = microseconds = 0
    for interval in intervals:
        if not isinstance(interval, Interval):
            raise TypeError(f"an interval is an Interval, not {type(interval).__name__}")
        months, days = months + interval.months, days + interval.days
        microseconds += interval.microseconds
    return Interval(months, days, microseconds)
