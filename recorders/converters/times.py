"""Stamps of an input, turned into nanoseconds. All arithmetic is exact."""
import datetime
import functools
import re
from .text import NUMBER_MOST, Bad, shown

DIGITS = {"ns": 0, "us": 3, "ms": 6, "s": 9}  # that a unit has before its nanosecond
STEPS = [10**it for it in range(10)]
NUMBER = re.compile(rb"\s*([0-9]+)(?:\.([0-9]+))?\s*")
STAMP = re.compile(rb"\s*([0-9]{4}-[0-9]{2}-[0-9]{2})[Tt ]([0-9]{2}:[0-9]{2}):([0-9]{2})(?:\.([0-9]+))?([Zz]|[+-][0-9]{2}:[0-9]{2})\s*")
WITHOUT_ZONE = re.compile(rb"\s*[0-9]{4}-[0-9]{2}-[0-9]{2}[Tt ][0-9:]{8}(\.[0-9]+)?\s*")
SECOND, MINUTE = 10**9, 60


@functools.lru_cache(maxsize=4096)
def seconds_of(day, minute, zone):
    """Returns the seconds from 1970 to the beginning of a minute, or None if there is no such minute."""
    try:
        at = datetime.datetime.strptime(f"{day} {minute}", "%Y-%m-%d %H:%M")
    except ValueError:
        return None
    hours, minutes = (0, 0) if zone in "Zz" else map(int, zone[1:].split(":"))
    if hours > 23 or minutes > 59:
        return None
    offset = (hours * 60 + minutes) * MINUTE * (-1 if zone[0] == "-" else 1)
    return int((at - datetime.datetime(1970, 1, 1)).total_seconds()) - offset


def scaled(whole, part, digits):
    """Returns a decimal number of a unit as nanoseconds, rounded down, and the step of its last digit."""
    more = digits - len(part)
    return (int(whole + part + b"0" * more), STEPS[more]) if more > 0 else (int(whole + part[:digits]), 1)


def number(data, unit, name):
    """Returns a number of a unit as nanoseconds, and its step."""
    it = NUMBER.fullmatch(data)
    if not it or len(data) > 64:
        hint = f"give a number of {unit} such as 12 or 12.5"
        if re.fullmatch(rb"\s*-[0-9.]+\s*", data):
            hint = "it must not be below 0"
        elif re.fullmatch(rb"\s*[0-9.]+[eE][+-]?[0-9]+\s*", data):
            hint = "one with an exponent has lost digits; write it whole"
        elif STAMP.fullmatch(data):
            hint = "give --unit rfc3339"
        raise Bad(f"{name} is no number of {unit}: {shown(data)}; {hint}", field=name)
    return scaled(it[1], it[2] or b"", DIGITS[unit])


def date(data, name):
    """Returns a stamp of RFC 3339 as nanoseconds since 1970, and its step."""
    it = STAMP.fullmatch(data)
    if not it or len(data) > 64:
        hint = "it has no zone: write Z, or an offset such as +01:00" if WITHOUT_ZONE.fullmatch(data) else "such as 2026-12-01T11:55:25.5Z"
        if NUMBER.fullmatch(data):
            hint = "for a number give --unit s, ms, us or ns"
        raise Bad(f"{name} is no stamp of RFC 3339: {shown(data)}; {hint}", field=name)
    seconds = seconds_of(it[1].decode(), it[2].decode(), it[5].decode())
    if seconds is None or int(it[3]) > 60:
        raise Bad(f"{name} is no time that there is: {shown(data)}", field=name)
    if seconds < 0:
        raise Bad(f"{name} is before 1970: {shown(data)}", field=name)
    part, step = scaled(it[3], it[4] or b"", DIGITS["s"])
    return seconds * SECOND + part, step


def stamp(data, unit, name):
    """Returns a stamp as nanoseconds, and its step: from which on a later stamp would have another last digit."""
    if unit == "ns" and data.isdigit() and len(data) < 19:
        return int(data), 1
    whole, _, part = data.partition(b".")
    if unit != "rfc3339" and len(data) < 20 and whole.isdigit() and part.isdigit():
        at, step = scaled(whole, part, DIGITS[unit])
    else:
        at, step = date(data, name) if unit == "rfc3339" else number(data, unit, name)
    if at + step > NUMBER_MOST:
        raise Bad(f"{name} is above 2^63 - 1 nanoseconds: {shown(data)}; is its unit {unit}?", field=name)
    return at, step
