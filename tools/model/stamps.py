"""Unix times, PostgreSQL's timestamps, and the dates of HTTP and mail: random texts with what each stands for, and what is written."""
import datetime
import random

from comparing import chance

from model.moments import clock_text
from model.values import DAY, SECOND, Day, Instant, Local, Refused, a_year, civil, count, day_number, first_day
from model.values import first_digits, is_in_years, some_digits, trimmed, whole

# the server's first day, and the last civil one
FIRST = day_number(-4713, lambda same: datetime.date(same, 11, 24))
END = first_day(10_000)
BOUND = 10**13
DAYS = ("Mon", "Tue", "Wed", "Thu", "Fri", "Sat", "Sun")
MONTHS = ("Jan", "Feb", "Mar", "Apr", "May", "Jun", "Jul", "Aug", "Sep", "Oct", "Nov", "Dec")
# hours ahead of UTC
ZONES = {"UT": 0, "GMT": 0, "EST": -5, "EDT": -4, "CST": -6, "CDT": -5, "MST": -7, "MDT": -6, "PST": -8, "PDT": -7}
# 1970-01-01 was the fourth of them
THURSDAY = 3

# ---- texts of a form, each with its value, or the cause why it has none


def unix():
    number, fraction = count(BOUND, BOUND + 1), some_digits(10, 1) if chance(0.5) else ""
    sign = "-" if chance(0.3) else ""
    text = f"{sign}{'0' * random.choice((0, 0, 2))}{number}{'.' * bool(fraction)}{fraction}"
    nanos = number * SECOND + first_digits(fraction, 9)
    if len(fraction) > 9:
        return text, "Syntax"
    return text, Instant(int(sign + "1") * nanos) if nanos <= BOUND * SECOND else "Range"


def day_in(year, month, day):
    """The number of a day, or None where the month lacks it."""
    try:
        return day_number(year, lambda same: datetime.date(same, month, day))
    except ValueError:
        return None


def time_with_seconds():
    """A time of day to the second, its seconds, and whether a clock shows it, which it does but for hour 24 and second 60."""
    hour = 24 if chance(0.03) else random.randint(0, 23)
    minute, second = random.randint(0, 59), random.choice((0, 59, random.randint(0, 60)))
    return f"{hour:02}:{minute:02}:{second:02}", (60 * hour + minute) * 60 + second, hour < 24 and second < 60


def offset_of(fields, joint):
    """An offset of so many fields, hours first, and its seconds; an hour 24 stands now and then."""
    sign, hour = random.choice("+-"), 24 if chance(0.03) else random.randint(0, 23)
    numbers = [hour, random.randint(0, 59), random.randint(0, 59)][:fields]
    seconds = sum(number * weight for number, weight in zip(numbers, (3600, 60, 1)))
    return sign + joint.join(f"{number:02}" for number in numbers), int(sign + "1") * seconds


def pg_date():
    """A date, the text of its era, and its day, which is None where there is none."""
    year = random.choice((0, 1, 4, 401, 4713, 4714, 9999, 10_000, random.randint(1, 300_000), a_year(1), a_year(1)))
    month, day, is_bc = random.randint(1, 12), random.randint(1, 31), chance(0.25)
    number = day_in(1 - year if is_bc else year, month, day) if year else None
    return f"{year:04}-{month:02}-{day:02}", " BC" * is_bc, number, year < 10_000


def pg_timestamp():
    (date, era, day, is_civil), (time, seconds, is_shown) = pg_date(), time_with_seconds()
    if chance(0.25):
        text, value = date + era, Day(day)
    else:
        fraction = some_digits(6, 1) if chance(0.5) else ""
        ahead_text, ahead = offset_of(random.randint(1, 3), ":") if chance(0.6) else ("", None)
        text = f"{date} {time}{'.' * bool(fraction)}{fraction}{ahead_text}{era}"
        nanos = seconds * SECOND + first_digits(fraction, 9)
        if not is_shown or abs(ahead or 0) >= 86_400:
            return text, "NoSuchMoment"
        value = Local(day, nanos) if ahead is None else Instant((day or 0) * DAY + nanos - ahead * SECOND)
    if day is None:
        return text, "NoSuchMoment"
    in_utc = value.nanos // DAY if isinstance(value, Instant) else day
    return text, value if is_civil and FIRST <= in_utc < END else "Range"


def named_day(first):
    """A year from this one on, a month, a day, its number or None, and its name or now and then another."""
    year, month, day = a_year(first), random.randint(1, 12), random.randint(1, 31)
    number = day_in(year, month, day)
    name = random.choice(DAYS) if number is None or chance(0.1) else DAYS[(number + THURSDAY) % 7]
    return year, month, day, number, name


def moment(number, name, seconds, ahead):
    """What a date by name and a time are: the name that stands must be the day's, and an offset is less than a day."""
    if number is None or name not in (None, DAYS[(number + THURSDAY) % 7]) or abs(ahead) >= 86_400:
        return "NoSuchMoment"
    return Instant((number * 86_400 + seconds - ahead) * SECOND)


def http_date():
    (year, month, day, number, name), (time, seconds, is_shown) = named_day(0), time_with_seconds()
    if chance(0.05):
        return f"{name}day, {day:02}-{MONTHS[month - 1]}-{year % 100:02} {time} GMT", "Syntax"
    if chance(0.5):
        text = f"{name}, {day:02} {MONTHS[month - 1]} {year:04} {time} GMT"
    else:
        text = f"{name} {MONTHS[month - 1]} {random.choice((f'{day:2}', f'{day:02}'))} {time} {year:04}"
    return text, moment(number, name, seconds, 0) if is_shown else "NoSuchMoment"


def mail_date():
    (year, month, day, number, name), (time, seconds, is_shown) = named_day(random.choice((0, 1899, 1900))), time_with_seconds()
    if chance(0.2):
        time, seconds, is_shown = time[:5], seconds - int(time[6:]), time[:2] != "24"
    zone = random.choice(list(ZONES))
    zone, ahead = (zone, 3600 * ZONES[zone]) if chance(0.4) else offset_of(2, "")
    name = name if chance(0.7) else None
    day_text = random.choice((str(day), f"{day:02}"))
    comment = random.choice(("", "", "", " ()", " (on a Monday, +0100)"))
    text = f"{name + ', ' if name else ''}{day_text} {MONTHS[month - 1]} {year:04} {time} {zone}{comment}"
    value = moment(number, name, seconds, ahead) if is_shown else "NoSuchMoment"
    return text, "Range" if year < 1900 and value != "NoSuchMoment" else value


# ---- what a form writes of a value


def write_unix(value):
    if not isinstance(value, Instant):
        raise Refused("Kind")
    size = abs(value.nanos)
    return f"{'-' * (value.nanos < 0)}{size // SECOND}{trimmed(size)}"


def write_pg_timestamp(value):
    match value:
        case Instant(nanos):
            (day, nanos), end = divmod(nanos, DAY), "+00"
        case Local(day, nanos):
            end = ""
        case Day(day):
            nanos, end = None, ""
        case _:
            raise Refused("Kind")
    if not FIRST <= day < END:
        raise Refused("Range")
    year, month, of_month = civil(day)
    era = " BC" if year < 1 else ""
    time = "" if nanos is None else f" {clock_text(nanos)}{trimmed(1000 * whole(nanos, 1000))}"
    return f"{1 - year if era else year:04}-{month:02}-{of_month:02}{time}{end}{era}"


def named_date(value, first, zone):
    """The moment as HTTP and mail write it, in the years from this first one to 9999."""
    if not isinstance(value, Instant):
        raise Refused("Kind")
    day, nanos = divmod(value.nanos, DAY)
    if not is_in_years(day, first, 9999):
        raise Refused("Range")
    whole(nanos, SECOND)
    year, month, of_month = civil(day)
    name = DAYS[(day + THURSDAY) % 7]
    return f"{name}, {of_month:02} {MONTHS[month - 1]} {year:04} {clock_text(nanos)} {zone}"


def write_http_date(value):
    return named_date(value, 0, "GMT")


def write_mail_date(value):
    return named_date(value, 1900, "+0000")
