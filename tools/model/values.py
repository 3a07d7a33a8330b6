"""The values that texts stand for, the calendar that they are reckoned by, and random fields of texts."""
import collections
import datetime
import random

from comparing import chance

SECOND = 10**9
DAY = 86_400 * SECOND
# 400 years have the same days and weeks as the 400 before
CYCLE = 146_097
FILE_TIME_EPOCH = -11_644_473_600 * SECOND


class Refused(Exception):
    """A text that stands for nothing, or a value that a form doesn't hold; its word is the cause."""


# the values that texts stand for
Instant = collections.namedtuple("Instant", "nanos")
Day = collections.namedtuple("Day", "number")
Local = collections.namedtuple("Local", "day nanos")
Clock = collections.namedtuple("Clock", "nanos")
Triple = collections.namedtuple("Triple", "months days micros")
Length = collections.namedtuple("Length", "nanos")


# ---- the calendar


def day_number(year, date_in):
    """The day since 1970 that `date_in` names in a year of the same place in its 400 years."""
    cycle, place = divmod(year, 400)
    return date_in(2000 + place).toordinal() - datetime.date(1970, 1, 1).toordinal() + (cycle - 5) * CYCLE


def of_year(year, number):
    """The date of this number in a year."""
    date = datetime.date(year, 1, 1) + datetime.timedelta(number - 1)
    if date.year != year:
        raise ValueError
    return date


def first_day(year):
    return day_number(year, lambda same: datetime.date(same, 1, 1))


def civil(number):
    """The year, month and day of a day since 1970."""
    cycle, place = divmod(number - first_day(2000), CYCLE)
    date = datetime.date.fromordinal(datetime.date(2000, 1, 1).toordinal() + place)
    return date.year + 400 * cycle, date.month, date.day


def is_in_years(number, least, most):
    return first_day(least) <= number < first_day(most + 1)


# ---- random fields of texts


def some_digits(most, least=0):
    return "".join(random.choice("0123456789") for _ in range(random.randint(least, most)))


def count(*edges):
    """A number of any size, now and then one of these."""
    if edges and chance(0.15):
        return random.choice(edges)
    return random.randint(0, random.choice([60, 10**6, 2 ** random.choice([32, 33, 40, 63, 64, 65])]))


def a_year(least):
    edge = random.choice([least, 0, 1, 1600, 1970, 9999])
    return random.choice([edge, random.randint(1500, 2500), random.randint(least, 9999)])


def year_text(year):
    return f"{'-' * (year < 0)}{abs(year):04}"


def first_digits(fraction, width):
    return int((fraction + "0" * width)[:width])


# ---- parts of written texts


def whole(nanos, unit):
    """So many nanoseconds as a count of a greater unit."""
    number, rest = divmod(nanos, unit)
    if rest:
        raise Refused("Precision")
    return number


def trimmed(nanos):
    """A point and what is beyond the second, without the zeros at its end, or nothing."""
    return f".{nanos % SECOND:09}".rstrip("0").rstrip(".")
