"""Durations: random texts of a form with what each stands for, and what a form writes of a value."""
import fractions
import math
import random

from comparing import chance

from model.values import DAY, SECOND, Length, Refused, Triple, count, first_digits, some_digits, trimmed, whole

# ---- texts of a form, each with its value, or the cause why it has none


def counts_of(letters, *edges):
    """Some of the counts of these letters, in order, and their text."""
    found = {letter: count(*edges) for letter in letters if chance(0.5)}
    return found, "".join(f"{number}{letter}" for letter, number in found.items())


def iso_duration():
    edges = (2**32 - 1, 2**32)
    if chance(0.1):
        weeks = count(*edges)
        return f"P{weeks}W", Triple(0, 7 * weeks, 0) if weeks < 2**32 else "Syntax"
    (date, date_text), (time, time_text) = counts_of("YMD", *edges), counts_of("HMS", *edges)
    fraction = some_digits(6) if "S" in time and chance(0.5) else ""
    if fraction:
        time_text = f"{time_text[:-1]}{random.choice('.,')}{fraction}S"
    text = f"P{date_text}{'T' if time or not date else ''}{time_text}"
    if any(number >= 2**32 for number in (*date.values(), *time.values())):
        return text, "Syntax"
    seconds = 3600 * time.get("H", 0) + 60 * time.get("M", 0) + time.get("S", 0)
    micros = seconds * 10**6 + first_digits(fraction, 3) * 1000
    if micros >= 2**63:
        return text, "Range"
    return text, Triple(12 * date.get("Y", 0) + date.get("M", 0), date.get("D", 0), micros)


UNITS = {"y": 360 * DAY, "m": 30 * DAY, "w": 7 * DAY, "d": DAY, "h": 3600 * SECOND, "minute": 60 * SECOND, "s": SECOND}
UNITS |= {"ms": 10**6, "us": 1000, "ns": 1}


def fancy():
    names = ["m" if unit == "minute" else unit for unit in UNITS]
    items = [(count(2**64, 30), random.choice(names)) for _ in range(random.randint(1, 5))]
    nanos = 0
    for place, (number, unit) in enumerate(items):
        is_minute = unit == "m" and not any(later in ("m", "h", "d", "w", "y") for _, later in items[place + 1 :])
        nanos += number * UNITS["minute" if is_minute else unit]
    text = "".join(f"{number}{unit}{' ' * random.randint(0, 2)}" for number, unit in items)
    return text, Length(nanos) if nanos < 2**64 * SECOND else "Range"


PARTS = {"months": 2**31, "days": 2**31, "micros": 2**63}


def is_interval(value):
    """Whether each part is within the bounds of its type."""
    return all(-bound <= part < bound for part, bound in zip(value, PARTS.values(), strict=True))


def signed_counts(*units):
    """The text of some counts of these units, of the seconds with a fraction of up to six digits, and the share of each in its part."""
    text, shares = "", []
    for letter, part, weight in units:
        if chance(0.5):
            sign, number = random.choice(["", "", "-"]), count(2**31 - 1, 2**31, 30, 720)
            fraction = some_digits(6) if letter == "S" and chance(0.5) else ""
            text += f"{sign}{number}{'.' * bool(fraction)}{fraction}{letter}"
            shares.append((part, int(sign + "1") * (number * weight + first_digits(fraction, 6))))
    return text, shares


def pg_iso():
    date, date_shares = signed_counts(("Y", "months", 12), ("M", "months", 1), ("D", "days", 1))
    time, time_shares = signed_counts(("H", "micros", 3600 * 10**6), ("M", "micros", 60 * 10**6), ("S", "micros", 10**6))
    shares = date_shares + time_shares
    sums = {part: sum(share for one, share in shares if one == part) for part in PARTS}
    fits = all(-PARTS[part] <= share < PARTS[part] for part, share in [*shares, *sums.items()])
    return f"P{date}{'T' if time or not date else ''}{time}", Triple(*sums.values()) if fits else "Range"


def xsd_duration():
    """Each count stands once in its order; of the seconds perhaps a fraction, which is rounded, a half away from zero."""
    edges = (2**31 - 1, 2**31, 178_956_970, 2_562_047_788)
    (date, date_text), (time, time_text) = counts_of("YMD", *edges), counts_of("HMS", *edges)
    fraction = some_digits(9, 1) if "S" in time and chance(0.5) else ""
    if fraction:
        time_text = f"{time_text[:-1]}.{fraction}S"
    sign, has_t = random.choice(("", "-")), bool(time) or chance(0.05)
    text = f"{sign}P{date_text}{'T' * has_t}{time_text}"
    if not date and not time or has_t and not time:
        return text, "Syntax"
    months, days = 12 * date.get("Y", 0) + date.get("M", 0), date.get("D", 0)
    seconds = 3600 * time.get("H", 0) + 60 * time.get("M", 0) + time.get("S", 0)
    micros = 10**6 * seconds + math.floor(10**6 * fractions.Fraction(f"0.{fraction or 0}") + fractions.Fraction(1, 2))
    value = Triple(*(int(sign + "1") * part for part in (months, days, micros)))
    return text, value if is_interval(value) else "Range"


# ---- what a form writes of a value


def nanoseconds(value):
    """The length that a value is."""
    match value:
        case Length(nanos):
            return nanos
        case Triple(0, days, micros):
            return days * DAY + micros * 1000
    raise Refused("Kind")


def write_fancy(value):
    left = nanoseconds(value)
    if not 0 <= left < 2**64 * SECOND:
        raise Refused("Range")
    parts = {}
    for unit, weight in UNITS.items():
        parts[unit], left = divmod(left, weight)
    if parts["m"] and not any(parts[unit] for unit in ("w", "d", "h", "minute")):
        raise Refused("Ambiguous")
    return " ".join(f"{number}{'m' if unit == 'minute' else unit}" for unit, number in parts.items() if number) or "0"


def as_triple(value):
    """Months, days and the nanoseconds beyond them."""
    match value:
        case Triple(months, days, micros):
            return months, days, micros * 1000
        case Length(nanos):
            return 0, *divmod(nanos, DAY)
    raise Refused("Kind")


def counts_text(signed, counts):
    """The counts that aren't 0, each behind the sign of the number that they are of."""
    return "".join(f"{'-' * (signed < 0)}{size}{letter}" for size, letter in counts if size)


def write_iso_duration(value):
    months, days, nanos = as_triple(value)
    if min(months, days, nanos) < 0 or max(months // 12, days, nanos // (3600 * SECOND)) >= 2**32:
        raise Refused("Range")
    seconds, millis = divmod(whole(nanos, 10**6), 1000)
    date = counts_text(0, ((months // 12, "Y"), (months % 12, "M"), (days, "D")))
    time = counts_text(0, ((seconds // 3600, "H"), (seconds // 60 % 60, "M")))
    if seconds % 60 or millis:
        time += f"{seconds % 60}{f'.{millis:03}' if millis else ''}S"
    return f"P{date}{'T' if time else ''}{time}" if date or time else "P0D"


def write_pg_iso(value):
    months, days, nanos = as_triple(value)
    if not (-(2**31) <= months < 2**31 and -(2**31) <= days < 2**31):
        raise Refused("Range")
    micros = whole(nanos, 1000)
    date = counts_text(months, ((abs(months) // 12, "Y"), (abs(months) % 12, "M"))) + counts_text(days, ((abs(days), "D"),))
    seconds, beyond = divmod(abs(micros), 10**6)
    time = counts_text(micros, ((seconds // 3600, "H"), (seconds // 60 % 60, "M")))
    if seconds % 60 or beyond:
        time += f"{'-' * (micros < 0)}{seconds % 60 or ''}{f'.{beyond:06}' if beyond else ''}S"
    return f"P{date}{'T' if time else ''}{time}" if date or time else "PT0S"


def write_xsd_duration(value):
    months, days, nanos = as_triple(value)
    if min(months, days, nanos) < 0 < max(months, days, nanos) or not is_interval(Triple(months, days, 0)):
        raise Refused("Range")
    seconds, micros = divmod(whole(abs(nanos), 1000), 10**6)
    date = counts_text(0, ((abs(months) // 12, "Y"), (abs(months) % 12, "M"), (abs(days), "D")))
    time = counts_text(0, ((seconds // 3600, "H"), (seconds // 60 % 60, "M")))
    if seconds % 60 or micros:
        time += f"{seconds % 60}{trimmed(1000 * micros)}S"
    sign = "-" if min(months, days, nanos) < 0 else ""
    return f"{sign}P{date}{'T' if time else ''}{time}" if date or time else "PT0S"
