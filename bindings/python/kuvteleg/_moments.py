"""Moments as seconds since 1970-01-01T00:00:00Z and nanoseconds after them, as `datetime` and as text."""
import re
from datetime import datetime, timedelta, timezone
from typing import Optional, Tuple, Union

from ._refusals import Refusal

Moment = Union[datetime, str]
EPOCH = datetime(1970, 1, 1, tzinfo=timezone.utc)
FIRST, LAST = -377_705_023_201, 253_402_207_200  # the seconds of the first moment and of the last
# What a line takes as a moment: of a date, a time and an offset each has its separators throughout or nowhere.
_FORM = re.compile(
    r"""
    (?P<year>\d{4}|[+-]00\d{4})(?P<dash>-?)(?P<month>\d\d)(?P=dash)(?P<day>\d\d)[Tt ]
    (?P<hour>\d\d)(?:(?P<colon>:?)(?P<minute>\d\d)(?:(?P=colon)(?P<second>\d\d)(?:[.,](?P<fraction>\d{1,9}))?)?)?
    (?:[Zz]|(?P<sign>[+-])(?P<hours>\d\d)(?:(?P<parted>:?)(?P<minutes>\d\d)(?:(?P=parted)(?P<seconds>\d\d)(?:[.,](?P<part>\d{1,9}))?)?)?)
    (?:\[!?(?:[+-](?:[01]\d|2[0-5])(?::?[0-5]\d)?|[A-Za-z_.][\w.+-]*(?:/[A-Za-z_.][\w.+-]*)*)\])?
    (?:\[[a-z_][a-z0-9_-]*=[A-Za-z0-9]+(?:-[A-Za-z0-9]+)*\])*
    """,
    re.ASCII | re.VERBOSE,
)


def _days(year: int, month: int, day: int) -> int:
    """Days since 1970-01-01, negative before it, of a date of the Gregorian calendar in any year."""
    datetime(2000 + year % 400, month, day)  # the calendar repeats after 400 years; a date that is none raises ValueError
    shifted = year - (month <= 2)
    of_year = (153 * ((month + 9) % 12) + 2) // 5 + day - 1
    return shifted * 365 + shifted // 4 - shifted // 100 + shifted // 400 + of_year - 719468


def _date(days: int) -> Tuple[int, int, int]:
    """The date that is so many days after 1970-01-01."""
    eras, of_era = divmod(days - _days(2000, 1, 1), 146097)
    date = datetime(2000, 1, 1) + timedelta(days=of_era)
    return date.year + 400 * eras, date.month, date.day


def _nanoseconds(digits: Optional[str]) -> int:
    """The nanoseconds of a second's fraction, which may be left out."""
    return int((digits or "0").ljust(9, "0"))


def _ahead(found: "re.Match[str]") -> int:
    """The seconds that an offset is ahead of UTC, to the nearest one."""
    hours, minutes, seconds = (int(found[it] or 0) for it in ("hours", "minutes", "seconds"))
    total = hours * 3600 + minutes * 60 + seconds + (_nanoseconds(found["part"]) >= 500_000_000)
    if minutes > 59 or seconds > 59 or total > 93_599:
        raise Refusal(3)
    return -total if found["sign"] == "-" else total


def read(text: str) -> Tuple[int, int]:
    """The seconds and nanoseconds of a text in any form that a line takes."""
    found = _FORM.fullmatch(text)
    if not found or found["year"] == "-000000":
        raise Refusal(3)
    year, month, day, hour, minute, second = (int(found[it] or 0) for it in ("year", "month", "day", "hour", "minute", "second"))
    if hour > 23 or minute > 59 or second > 60:
        raise Refusal(3)
    try:
        days = _days(year, month, day)
    except ValueError:
        raise Refusal(3) from None
    seconds = days * 86400 + hour * 3600 + minute * 60 + min(second, 59) - _ahead(found)
    if not FIRST <= seconds <= LAST:
        raise Refusal(3)
    return seconds, _nanoseconds(found["fraction"])


def parts(moment: Moment) -> Tuple[int, int]:
    """The seconds and nanoseconds of a moment."""
    if isinstance(moment, str):
        return read(moment)
    if not isinstance(moment, datetime):
        raise TypeError("a moment is a datetime or a text")
    if moment.utcoffset() is None:
        raise ValueError("a moment wants a time zone: a datetime without one is no instant")
    gone = moment - EPOCH
    return gone.days * 86400 + gone.seconds, gone.microseconds * 1000


def _text(seconds: int, nanoseconds: int) -> str:
    days, rest = divmod(seconds, 86400)
    year, month, day = _date(days)
    fraction = f".{nanoseconds:09}".rstrip("0") if nanoseconds else ""
    date = f"{year:04}" if year >= 0 else f"-{-year:06}"
    return f"{date}-{month:02}-{day:02}T{rest // 3600:02}:{rest // 60 % 60:02}:{rest % 60:02}{fraction}Z"


def moment(seconds: int, nanoseconds: int) -> Moment:
    """A `datetime` in UTC where one holds the moment exactly, else its text."""
    microseconds, rest = divmod(nanoseconds, 1000)
    if rest == 0:
        try:
            whole = datetime.fromtimestamp(seconds, timezone.utc)
        except (OSError, OverflowError, ValueError):
            return _text(seconds, nanoseconds)
        return whole.replace(microsecond=microseconds) if microseconds else whole
    return _text(seconds, nanoseconds)


def written(at: Moment) -> str:
    """A moment's text, as replies have it."""
    return _text(*parts(at))


def told(text: str) -> Moment:
    """A moment of a reply."""
    return moment(*read(text))
