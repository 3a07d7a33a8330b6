"""Dates, times and moments: random texts of a form with what each stands for, and what a form writes of a value."""
import datetime
import random

from comparing import chance

from model.values import DAY, FILE_TIME_EPOCH, SECOND, Clock, Day, Instant, Local, Refused, a_year, civil, count, day_number
from model.values import first_digits, is_in_years, of_year, some_digits, trimmed, whole, year_text

# ---- texts of a form, each with its value, or the cause why it has none


def iso_date():
    """A date of ISO 8601 and its day, or the cause why it has none."""
    year, kind = a_year(-9999), random.choice("MWD")
    if kind == "M":
        month, day = random.randint(1, 12), random.randint(1, 31)
        text, date_in = f"-{month:02}-{day:02}", lambda same: datetime.date(same, month, day)
    elif kind == "W":
        week, day = random.choice([1, 52, 53, random.randint(1, 53)]), random.randint(1, 7)
        text, date_in = f"-W{week:02}-{day}", lambda same: datetime.date.fromisocalendar(same, week, day)
    else:
        day = random.choice([365, 366, random.randint(1, 366)])
        text, date_in = f"-{day:03}", lambda same: of_year(same, day)
    try:
        number = day_number(year, date_in)
    except ValueError:
        return year_text(year) + text, "NoSuchMoment"
    return year_text(year) + text, number if is_in_years(number, -9999, 9999) else "Range"


def time_of_day():
    """Hours, minutes and seconds, of which the last may be a leap second, and their text, with the seconds or without."""
    hour, minute, second = random.randint(0, 23), random.randint(0, 59), random.choice([0, 59, random.randint(0, 60)])
    if chance(0.2):
        return f"{hour:02}:{minute:02}", 60 * (60 * hour + minute), None
    return f"{hour:02}:{minute:02}:{second:02}", 60 * (60 * hour + minute) + second, second


def offset():
    """An offset and its seconds: `Z`, or a sign, hours and minutes."""
    if chance(0.3):
        return "Z", 0
    sign, hour, minute = random.choice("+-"), random.randint(0, 23), random.randint(0, 59)
    return f"{sign}{hour:02}:{minute:02}", int(sign + "60") * (60 * hour + minute)


def file_time():
    about_1970 = 116_444_736_000_000_000 + random.randint(-(10**9), 10**9)
    ticks = random.choice([count(2**64 - 1, 2**64), about_1970, 10_000 * random.randint(0, 3 * 10**14)])
    return str(ticks), Instant(100 * ticks + FILE_TIME_EPOCH) if ticks < 2**64 else "Range"


def iso_date_time():
    (date, day), (time, seconds, second) = iso_date(), time_of_day()
    fraction = some_digits(6) if chance(0.5) else ""
    ahead_text, ahead = offset() if chance(0.7) else ("", 0)
    text = f"{date}T{time}{random.choice('.,') + fraction if fraction else ''}{ahead_text}"
    if second == 60:
        day = "NoSuchMoment"
    if isinstance(day, str):
        return text, day
    return text, Instant(day * DAY + (seconds - ahead) * SECOND + first_digits(fraction, 3) * 10**6)


def iso_date_alone():
    text, day = iso_date()
    return text, day if isinstance(day, str) else Day(day)


def toml():
    year, month, day = a_year(0), random.randint(1, 12), random.randint(1, 31)
    (time, seconds, second), fraction = time_of_day(), ""
    if second is not None and chance(0.5):
        fraction = some_digits(11, 1)
        time += f".{fraction}"
    date, nanos = f"{year:04}-{month:02}-{day:02}", seconds * SECOND + first_digits(fraction, 9)
    if chance(0.2):
        return time, Clock(nanos) if second != 60 else "NoSuchMoment"
    try:
        number = day_number(year, lambda same: datetime.date(same, month, day))
    except ValueError:
        return date, "Syntax"
    if chance(0.2):
        return date, Day(number)
    ahead_text, ahead = offset() if chance(0.7) else ("", None)
    text = f"{date}{random.choice('Tt ')}{time}{ahead_text}"
    if second == 60:
        return text, "NoSuchMoment"
    return text, Local(number, nanos) if ahead is None else Instant(number * DAY + nanos - ahead * SECOND)


# ---- what a form writes of a value


def clock_text(nanos):
    seconds = nanos // SECOND
    return f"{seconds // 3600:02}:{seconds // 60 % 60:02}:{seconds % 60:02}"


def date_text(day):
    year, month, of_month = civil(day)
    return f"{year_text(year)}-{month:02}-{of_month:02}"


def write_file_time(value):
    if not isinstance(value, Instant):
        raise Refused("Kind")
    if not 0 <= value.nanos - FILE_TIME_EPOCH <= 100 * (2**64 - 1):
        raise Refused("Range")
    return str(whole(value.nanos - FILE_TIME_EPOCH, 100))


def write_iso_date_time(value):
    if not isinstance(value, Instant):
        raise Refused("Kind")
    day, nanos = divmod(value.nanos, DAY)
    if not is_in_years(day, -9999, 9999):
        raise Refused("Range")
    return f"{date_text(day)}T{clock_text(nanos)}.{whole(nanos, 10**6) % 1000:03}+00:00"


def write_iso_date(value):
    if not isinstance(value, Day):
        raise Refused("Kind")
    return date_text(value.number)


def write_toml(value):
    match value:
        case Clock(nanos):
            return clock_text(nanos) + trimmed(nanos)
        case Instant(nanos):
            (day, nanos), end = divmod(nanos, DAY), "Z"
        case Local(day, nanos):
            end = ""
        case Day(day):
            nanos = None
        case _:
            raise Refused("Kind")
    if not is_in_years(day, 0, 9999):
        raise Refused("Range")
    return date_text(day) if nanos is None else f"{date_text(day)}T{clock_text(nanos)}{trimmed(nanos)}{end}"
