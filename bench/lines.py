#!/usr/bin/env python3
"""Write lines `FROM TO TEXT` for measuring, always the same for the same words.

usage: lines.py KIND N [--from F] [--to T] [--damage K] [--expected FILE] > LINES

KIND sample: intervals, each line from one of PostgreSQL's four forms to another.
--from and --to hold a side to one of them (PgIso, Postgres, PgVerbose, PgSql) or to
IsoStrict, whose texts are those of PgIso.
--expected also writes the replies.

Other kinds, from the same sequence of numbers: IsoDateTime, IsoDuration, IsoDate,
Toml, Fancy, FileTime, Unix, PgTimestamp, HttpDate, MailDate, XsdDuration (each to itself),
IsoDateTime-FileTime, PgTimestamp-Toml.

Behind the text of each K-th line stands the byte `x` (K is 10; 0 is never).
"""

import argparse
import calendar
import sys

STYLES = ("PgIso", "Postgres", "PgVerbose", "PgSql")


class Numbers:
    """x(0) = 1, x(j+1) = x(j) * 6364136223846793005 + 1442695040888963407 mod 2^64."""

    def __init__(self):
        self.x = 1

    def next(self):
        self.x = (self.x * 6364136223846793005 + 1442695040888963407) % 2**64
        return self.x

    def below(self, n):
        return (self.next() >> 33) % n

    def pick(self, *choices):
        return choices[self.below(len(choices))]


# ---- the interval styles, written

def quotient(n, by):
    """(quotient, rest), both toward zero."""
    q = abs(n) // by
    return (q, abs(n) - q * by) if n >= 0 else (-q, q * by - abs(n))


def parts(triple):
    months, days, micros = triple
    years, months = quotient(months, 12)
    hours, rest = quotient(micros, 3_600_000_000)
    minutes, rest = quotient(rest, 60_000_000)
    seconds, rest = quotient(rest, 1_000_000)
    return years, months, days, hours, minutes, seconds, rest


def iso(triple):
    y, mo, d, h, mi, s, us = parts(triple)
    if triple == (0, 0, 0):
        return "PT0S"
    text = "P" + "".join(f"{n}{unit}" for n, unit in ((y, "Y"), (mo, "M"), (d, "D")) if n)
    if triple[2]:
        text += "T" + "".join(f"{n}{unit}" for n, unit in ((h, "H"), (mi, "M")) if n)
        if us:
            text += (str(s) if s else "-" if us < 0 else "") + f".{abs(us):06}S"
        elif s:
            text += f"{s}S"
    return text


def postgres(triple):
    y, mo, d, h, mi, s, us = parts(triple)
    if triple == (0, 0, 0):
        return "00:00:00"
    words = [f"{n} {unit}{'' if n == 1 else 's'}"
             for n, unit in ((y, "year"), (mo, "mon"), (d, "day")) if n]
    if triple[2]:
        clock = f"{abs(h):02}:{abs(mi):02}:{abs(s):02}" + (f".{abs(us):06}" if us else "")
        words.append(("-" if triple[2] < 0 else "") + clock)
    return " ".join(words)


def verbose(triple):
    if triple == (0, 0, 0):
        return "@ 0"
    ago = triple[2] <= 0 and min(triple) < 0
    y, mo, d, h, mi, s, us = parts(tuple(-n for n in triple) if ago else triple)
    text = "@"
    for n, unit in ((y, "year"), (mo, "mon"), (d, "day"), (h, "hour"), (mi, "min")):
        if n:
            text += f" {n} {unit}{'' if abs(n) == 1 else 's'}"
    if us:
        text += f" {s}.{us:06}".rstrip("0") + " secs"
    elif s:
        text += f" {s} sec{'' if s == 1 else 's'}"
    return text + (" ago" if ago else "")


def sql(triple):
    y, mo, d, h, mi, s, us = map(abs, parts(triple))
    if triple == (0, 0, 0):
        return "0"
    clock = f"{h}:{mi:02}:{s:02}" + (f".{us:06}" if us else "")
    months, days, micros = triple
    mixed = min(triple) < 0 < max(triple)
    if mixed or months and (days or micros):
        a, b, c = ("-" if n < 0 else "+" for n in triple)
        return f"{a}{y}-{mo} {b}{d} {c}{clock}"
    sign = "-" if min(triple) < 0 else ""
    if months:
        return f"{sign}{y}-{mo}"
    return f"{sign}{d} {clock}" if days else f"{sign}{clock}"


WRITERS = dict(zip(STYLES, (iso, postgres, verbose, sql)), IsoStrict=iso)


def sample(args, out, expected):
    numbers = Numbers()
    for i in range(args.n):
        a, b, c = numbers.next(), numbers.next(), numbers.next()
        triple = ((a >> 33) % 4801 - 2400, (b >> 33) % 20001 - 10000, (c >> 24) - 549_755_813_888)
        source = args.source or STYLES[i % 4]
        target = args.target or STYLES[(i if args.source else i // 4) % 4]
        bad = args.damage and i % args.damage == args.damage - 1
        out.write(f"{source} {target} {WRITERS[source](triple)}{'x' if bad else ''}\n")
        if expected:
            expected.write("refused Syntax\n" if bad else WRITERS[target](triple) + "\n")


# ---- the other forms

def week_count(year):
    first = calendar.weekday(year, 1, 1)
    return 53 if first == 3 or first == 2 and calendar.isleap(year) else 52


def date(numbers, low, kinds):
    """A date of the years from `low` to 9998, with or without its hyphens."""
    year = low + numbers.below(9999 - low)
    dash = numbers.pick("-", "-", "-", "")
    kind = numbers.pick(*kinds)
    if kind == "week":
        return f"{year:04}{dash}W{1 + numbers.below(week_count(year)):02}{dash}{1 + numbers.below(7)}", dash
    if kind == "ordinal":
        return f"{year:04}{dash}{1 + numbers.below(365 + calendar.isleap(year)):03}", dash
    month = 1 + numbers.below(12)
    return f"{year:04}{dash}{month:02}{dash}{1 + numbers.below(calendar.monthrange(year, month)[1]):02}", dash


DATE_KINDS = ("ymd", "ymd", "ymd", "ymd", "week", "ordinal")


def iso_date(numbers):
    return date(numbers, 1, DATE_KINDS)[0]


def iso_date_time(numbers, low=1):
    day, dash = date(numbers, low, DATE_KINDS)
    colon = ":" if dash else ""
    text = f"{day}T{numbers.below(24):02}{colon}{numbers.below(60):02}"
    if numbers.below(8):
        text += f"{colon}{numbers.below(60):02}"
        text += numbers.pick("", "", f".{numbers.below(1000):03}", f",{numbers.below(1000):03}")
    sign = numbers.pick("+", "-")
    offset = f"{numbers.below(15):02}{colon}{numbers.pick(0, 0, 30, 45):02}"
    return text + numbers.pick("", "Z", sign + offset, sign + offset)


def iso_duration(numbers):
    kind = numbers.below(10)
    if kind == 0:
        return f"P{numbers.below(5000)}W"
    if kind == 1:
        return (f"P{numbers.below(9999):04}-{1 + numbers.below(12):02}-{1 + numbers.below(28):02}"
                f"T{numbers.below(24):02}:{numbers.below(60):02}:{numbers.below(60):02}")
    day = [(numbers.below(2000), "Y"), (numbers.below(13), "M"), (numbers.below(400), "D")]
    time = [(numbers.below(100), "H"), (numbers.below(100), "M")]
    seconds = f"{numbers.below(100)}" + numbers.pick("", f".{numbers.below(1000):03}") + "S"
    drop = numbers.below(32)
    text = "P" + "".join(f"{n}{u}" for k, (n, u) in enumerate(day) if not drop >> k & 1)
    text += "T" + "".join(f"{n}{u}" for k, (n, u) in enumerate(time) if not drop >> (k + 3) & 1)
    return text + seconds


def time_of_day(numbers):
    return f"{numbers.below(24):02}:{numbers.below(60):02}:{numbers.below(60):02}"


def toml(numbers):
    day = date(numbers, 1, ("ymd",))[0]
    if "-" not in day:
        day = f"{day[:4]}-{day[4:6]}-{day[6:]}"
    clock = time_of_day(numbers)
    clock += numbers.pick("", f".{numbers.below(1000):03}", f".{numbers.below(10**6):06}",
                          f".{numbers.below(10**9):09}")
    offset = f"{numbers.pick('+', '-')}{numbers.below(15):02}:{numbers.pick(0, 0, 30, 45):02}"
    kind = numbers.below(8)
    if kind == 0:
        return day
    if kind == 1:
        return clock
    if kind == 2:
        return f"{day}{numbers.pick('T', ' ')}{clock}"
    return f"{day}{numbers.pick('T', ' ')}{clock}{numbers.pick('Z', offset)}"


def fancy(numbers):
    """Some of the units, highest first, so that `m` stands for what it should."""
    units = (("y", 100), ("m", 12), ("w", 4), ("d", 7), ("h", 24), ("m", 60), ("s", 60),
             ("ms", 1000), ("us", 1000), ("ns", 1000))
    keep = numbers.next() >> 40
    items = [f"{1 + numbers.below(n - 1)}{u}" for k, (u, n) in enumerate(units) if keep >> k & 1]
    if not any(item.endswith(("w", "d", "h")) for item in items):
        items.append(f"{1 + numbers.below(59)}m")
    return numbers.pick(" ", " ", " ", "").join(items)


def file_time(numbers):
    return str(numbers.next())


def unix(numbers):
    """Seconds from 1653 to 2286."""
    whole = numbers.below(10**10)
    fraction = numbers.pick("", f".{numbers.below(1000):03}", f".{numbers.below(10**6):06}",
                            f".{numbers.below(10**9):09}")
    return numbers.pick("", "", "", "-") + f"{whole}{fraction}"


def civil(numbers, low):
    """A year from `low` to 9998, a month and a day."""
    year, month = low + numbers.below(9999 - low), 1 + numbers.below(12)
    return year, month, 1 + numbers.below(calendar.monthrange(year, month)[1])


def pg_timestamp(numbers):
    """As the server writes it in one time zone or another, now and then without a time or an offset."""
    year, month, day = civil(numbers, 1)
    kind = numbers.below(8)
    text = f"{year:04}-{month:02}-{day:02}"
    if kind:
        text += f" {time_of_day(numbers)}"
        text += numbers.pick("", f".{numbers.below(1000):03}", f".{numbers.below(10**6):06}")
    if kind > 1:
        offset = f"{numbers.pick('+', '-')}{numbers.below(15):02}"
        text += numbers.pick("+00", "+00", offset, f"{offset}:30")
    return text


WEEKDAYS = ("Mon", "Tue", "Wed", "Thu", "Fri", "Sat", "Sun")
MONTHS = ("Jan", "Feb", "Mar", "Apr", "May", "Jun", "Jul", "Aug", "Sep", "Oct", "Nov", "Dec")


def http_date(numbers):
    """Three of four as HTTP writes them, the others as asctime does."""
    year, month, day = civil(numbers, 1)
    name, month_name = WEEKDAYS[calendar.weekday(year, month, day)], MONTHS[month - 1]
    if numbers.below(4):
        return f"{name}, {day:02} {month_name} {year:04} {time_of_day(numbers)} GMT"
    return f"{name} {month_name} {day:2} {time_of_day(numbers)} {year:04}"


def mail_date(numbers):
    year, month, day = civil(numbers, 1900)
    front = f"{WEEKDAYS[calendar.weekday(year, month, day)]}, " if numbers.below(8) else ""
    time = time_of_day(numbers) if numbers.below(8) else time_of_day(numbers)[:5]
    zone = f"{numbers.pick('+', '-')}{numbers.below(15):02}{numbers.pick(0, 0, 30, 45):02}"
    zone = numbers.pick("+0000", zone, zone, "GMT", "EST", "PDT")
    comment = numbers.pick("", "", "", " (UTC)")
    return f"{front}{numbers.pick(f'{day:02}', str(day))} {MONTHS[month - 1]} {year} {time} {zone}{comment}"


def xsd_duration(numbers):
    """Some of the counts, all of one sign; the seconds always."""
    day = [(numbers.below(2000), "Y"), (numbers.below(13), "M"), (numbers.below(400), "D")]
    time = [(numbers.below(100), "H"), (numbers.below(100), "M")]
    seconds = f"{numbers.below(100)}" + numbers.pick("", f".{numbers.below(1000):03}", f".{numbers.below(10**6):06}")
    drop = numbers.below(32)
    text = "P" + "".join(f"{n}{u}" for k, (n, u) in enumerate(day) if not drop >> k & 1)
    text += "T" + "".join(f"{n}{u}" for k, (n, u) in enumerate(time) if not drop >> (k + 3) & 1)
    return f"{numbers.pick('', '', '', '-')}{text}{seconds}S"


TEXTS = {
    "IsoDateTime": iso_date_time, "IsoDuration": iso_duration, "IsoDate": iso_date, "Toml": toml,
    "Fancy": fancy, "FileTime": file_time, "Unix": unix, "PgTimestamp": pg_timestamp,
    "HttpDate": http_date, "MailDate": mail_date, "XsdDuration": xsd_duration,
    "IsoDateTime-FileTime": lambda numbers: iso_date_time(numbers, 1602),
    "PgTimestamp-Toml": pg_timestamp,
}


def others(args, out):
    numbers = Numbers()
    source, _, target = args.kind.partition("-")
    for i in range(args.n):
        bad = args.damage and i % args.damage == args.damage - 1
        out.write(f"{source} {target or source} {TEXTS[args.kind](numbers)}{'x' if bad else ''}\n")


def main():
    words = argparse.ArgumentParser(description=__doc__,
                                    formatter_class=argparse.RawDescriptionHelpFormatter)
    words.add_argument("kind", choices=["sample", *TEXTS], metavar="KIND")
    words.add_argument("n", type=int, metavar="N")
    words.add_argument("--from", dest="source", choices=WRITERS)
    words.add_argument("--to", dest="target", choices=WRITERS)
    words.add_argument("--damage", type=int, default=10)
    words.add_argument("--expected")
    args = words.parse_args()
    if args.kind == "sample":
        expected = open(args.expected, "w") if args.expected else None
        sample(args, sys.stdout, expected)
        if expected:
            expected.close()
    else:
        others(args, sys.stdout)


if __name__ == "__main__":
    main()
