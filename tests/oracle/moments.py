"""Timestamps, bounds, durations, and timestamps as text. All are in nanoseconds since 1970, in UTC."""
import re

from faults import Fault

END = 2**63  # timestamps are below it
SECOND = 10**9
DAY = 86400 * SECOND
UNITS = {
    "ns": 1,
    "µs": 10**3,
    "us": 10**3,
    "ms": 10**6,
    "s": SECOND,
    "m": 60 * SECOND,
    "h": 3600 * SECOND,
    "d": DAY,
    "w": 7 * DAY,
}
MONTHS = (31, 28, 31, 30, 31, 30, 31, 31, 30, 31, 30, 31)
DATE = "([0-9]{4})-([0-9]{2})-([0-9]{2})"
TIME = "([0-9]{2}):([0-9]{2}):([0-9]{2})(?:[.]([0-9]{1,9}))?"
COUNT = re.compile("(0|[1-9][0-9]*)(?:[.]([0-9]{1,9}))?")
DATE_AND_TIME = re.compile(DATE + "[Tt ]" + TIME + "(Z|z|[+-][0-9]{2}:[0-9]{2})?")
BOUND = re.compile(
    "([0-9]{4})(?:-([0-9]{2})(?:-([0-9]{2})(?:T([0-9]{2})(?::([0-9]{2})(?::([0-9]{2})(?:[.]([0-9]{1,9}))?)?)?)?)?)?"
    "(Z|[+-][0-9]{2}:[0-9]{2})?"
)
PIECE = re.compile("([0-9]+)(ns|µs|us|ms|s|m|h|d|w)")


def month_length(year, month):
    leap = year % 4 == 0 and (year % 100 != 0 or year % 400 == 0)
    return 29 if month == 2 and leap else MONTHS[month - 1]


def days_to_year(year):
    """Returns the days from the first day of the year 0 to the first day of a year."""
    return 365 * year + (year + 3) // 4 - (year + 99) // 100 + (year + 399) // 400


def days_to(year, month, day):
    """Returns the days from 1970-01-01 to a date, which are below 0 before it."""
    before = sum(month_length(year, k) for k in range(1, month))
    return days_to_year(year) - days_to_year(1970) + before + day - 1


def fraction(digits):
    """Returns the nanoseconds of the digits after the point of a second."""
    return int((digits or "").ljust(9, "0"))


def moment_of(year, month, day, hour=0, minute=0, second=0, digits=""):
    """Returns the nanoseconds of a date and a time, or None if the calendar or the clock does not have it."""
    if not 1 <= month <= 12 or not 1 <= day <= month_length(year, month):
        return None
    if hour > 23 or minute > 59 or second > 59:
        return None
    seconds = ((days_to(year, month, day) * 24 + hour) * 60 + minute) * 60 + second
    return seconds * SECOND + fraction(digits)


def offset_of(text):
    """Returns by how much the clock of an offset is ahead of UTC, or None if it is none. Without one it is UTC."""
    if text in (None, "Z", "z"):
        return 0
    hours, minutes = int(text[1:3]), int(text[4:6])
    if hours > 23 or minutes > 59:
        return None
    return (hours * 60 + minutes) * 60 * SECOND * (1 if text[0] == "+" else -1)


def checked(*moments):
    """Raises `OutOfRange` unless all are timestamps."""
    if not all(0 <= moment < END for moment in moments):
        raise Fault("OutOfRange")


def read_moment(text):
    """Returns the timestamp that a text says. Raises `NotATime` or `OutOfRange`."""
    count = COUNT.fullmatch(text)
    moment = counted(count) if count else dated(DATE_AND_TIME.fullmatch(text))
    if moment is None:
        raise Fault("NotATime")
    checked(moment)
    return moment


def counted(count):
    """Returns the timestamp of a number, whose size says its unit. Only seconds have a fraction."""
    # numbers of more digits than these are far out of range
    number = int(count[1]) if len(count[1]) <= 40 else 10**40
    if count[2] is not None:
        return number * SECOND + fraction(count[2]) if number < 10**11 else None
    for limit, unit in ((10**11, SECOND), (10**14, 10**6), (10**17, 10**3)):
        if number < limit:
            return number * unit
    return number


def dated(match):
    """Returns the timestamp of a matched date and time, or None if it is none."""
    if not match:
        return None
    moment = moment_of(*map(int, match.group(1, 2, 3, 4, 5, 6)), match[7])
    offset = offset_of(match[8])
    return None if moment is None or offset is None else moment - offset


def write_moment(moment):
    """Returns a timestamp as text, without zeros at the end of its fraction."""
    days, rest = divmod(moment, DAY)
    year = 1970 + days // 366
    while days_to(year + 1, 1, 1) <= days:
        year += 1
    days -= days_to(year, 1, 1)
    month = 1
    while days >= month_length(year, month):
        days -= month_length(year, month)
        month += 1
    second, nanoseconds = divmod(rest, SECOND)
    clock = f"{second // 3600:02}:{second // 60 % 60:02}:{second % 60:02}"
    digits = f".{nanoseconds:09}".rstrip("0") if nanoseconds else ""
    return f"{year:04}-{month:02}-{days + 1:02}T{clock}{digits}Z"


def read_bound(text):
    """Returns the first and the last nanosecond of what a bound names. Raises `NotATime` or `OutOfRange`."""
    match = BOUND.fullmatch(text)
    if not match:
        raise Fault("NotATime")
    parts = [int(part) for part in match.group(1, 2, 3, 4, 5, 6) if part is not None]
    year, month, day, *clock = parts + [1] * (3 - len(parts))
    first, offset = moment_of(year, month, day, *clock, digits=match[7]), offset_of(match[8])
    if first is None or offset is None:
        raise Fault("NotATime")
    year_days = sum(month_length(year, k) for k in range(1, 13))
    lengths = (year_days * DAY, month_length(year, month) * DAY, DAY, 3600 * SECOND, 60 * SECOND, SECOND)
    length = 1 if match[7] else lengths[len(parts) - 1]
    checked(first - offset, first - offset + length - 1)
    return first - offset, first - offset + length - 1


def has_form_of_duration(text):
    """Returns whether a text is digits and a unit, once or more. The longest unit that stands there is taken."""
    pieces = [match[0] for match in PIECE.finditer(text)]
    return bool(pieces) and "".join(pieces) == text


def read_duration(text):
    """Returns the nanoseconds of a duration. Raises `NotADuration` or `OutOfRange`."""
    if not has_form_of_duration(text):
        raise Fault("NotADuration")
    total = 0
    for match in PIECE.finditer(text):
        digits = match[1].lstrip("0")
        if len(digits) > 40:
            raise Fault("OutOfRange")
        total += int(digits or "0") * UNITS[match[2]]
    if total >= END:
        raise Fault("OutOfRange")
    return total


def day_of(moment):
    return moment // DAY
