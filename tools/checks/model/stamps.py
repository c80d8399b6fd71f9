"""Stamps and days. A stamp counts minutes since 2000-01-01 00:00, a day counts days since 2000-01-01."""

import datetime
import re

FIRST_DATE = datetime.date(2000, 1, 1)
LAST_DATE = datetime.date(2127, 12, 31)
MINUTES_OF_HOUR = 60
MINUTES_OF_DAY = 1440
LAST_HOUR, LAST_MINUTE = 23, 59
LAST_STAMP = ((LAST_DATE - FIRST_DATE).days + 1) * MINUTES_OF_DAY - 1
PERIODS = (1, 5, 10, 15, 30, 60, 120)  # minutes between two records

FIRST_DAY = -1  # the archive day of the stamp 0
LAST_DAY = (LAST_DATE - FIRST_DATE).days

# Weights in a record's two words.
MONTH_WEIGHT, YEAR_WEIGHT, HOUR_WEIGHT = 32, 512, 100

DATE_FORM = re.compile(r"(\d{4})-(\d\d)-(\d\d)", re.ASCII)
TIME_FORM = re.compile(r"(\d\d):(\d\d)", re.ASCII)


def stamp_of_parts(year, month, day, hour, minute):
    """The stamp of a civil minute, or None where there is no such minute."""
    try:
        date = datetime.date(year, month, day)
    except ValueError:
        return None
    if not FIRST_DATE <= date <= LAST_DATE or hour > LAST_HOUR or minute > LAST_MINUTE:
        return None
    return (date - FIRST_DATE).days * MINUTES_OF_DAY + MINUTES_OF_HOUR * hour + minute


def has_form(date_text, time_text):
    """Whether two texts have the form of a date and a time."""
    return bool(DATE_FORM.fullmatch(date_text) and TIME_FORM.fullmatch(time_text))


def stamp_of_texts(date_text, time_text):
    """The stamp that a date and a time of the right form name, or None."""
    return stamp_of_parts(*map(int, date_text.split("-") + time_text.split(":")))


def stamp_of_words(date_word, time_word):
    """The stamp that the two words of a record name, or None."""
    year, month = FIRST_DATE.year + date_word // YEAR_WEIGHT, date_word // MONTH_WEIGHT % 16
    return stamp_of_parts(year, month, date_word % MONTH_WEIGHT, *divmod(time_word, HOUR_WEIGHT))


def words_of(stamp):
    """Date word and time word of a stamp; no stamp is sent as two zeros."""
    if stamp is None:
        return 0, 0
    date = date_of(stamp // MINUTES_OF_DAY)
    hour, minute = divmod(stamp % MINUTES_OF_DAY, MINUTES_OF_HOUR)
    date_word = date.day + MONTH_WEIGHT * date.month + YEAR_WEIGHT * (date.year - FIRST_DATE.year)
    return date_word, HOUR_WEIGHT * hour + minute


def date_of(day):
    """The date of a day."""
    return FIRST_DATE + datetime.timedelta(days=day)


def day_of_text(text):
    """The archive day that a text names, or None."""
    if not DATE_FORM.fullmatch(text):
        return None
    try:
        day = (datetime.date(*map(int, text.split("-"))) - FIRST_DATE).days
    except ValueError:
        return None
    return day if FIRST_DAY <= day <= LAST_DAY else None


def stamp_text(stamp):
    """The text of a stamp."""
    hour, minute = divmod(stamp % MINUTES_OF_DAY, MINUTES_OF_HOUR)
    return f"{date_of(stamp // MINUTES_OF_DAY).isoformat()} {hour:02}:{minute:02}"


def archive_day(stamp):
    """The day of the minute before the stamp: midnight belongs to the day that ends."""
    return (stamp - 1) // MINUTES_OF_DAY
