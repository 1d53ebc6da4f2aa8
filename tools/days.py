#!/usr/bin/env python3
"""Writes what the program `days` must print:

    tools/days.py > crates/days/stdout

The dates are those of Python's modules datetime and calendar, and the rest goes by document 02's words, Two. Nothing here is
shared with the crates. The head of crates/days/src/main.rt says what is on a line.
"""
import calendar
import datetime
import itertools

FIRST = datetime.date(2000, 1, 1)
CYCLE = datetime.date(2400, 1, 1) - FIRST
EDGES = [-2**63, -2, -1, 0, 1, 2, 12, 13, 29, 30, 2100, 2300, 2400, 65536, 2**32 + 1, 2**63 - 1]
MONTHS = range(-1, 15)
DAYS = range(-1, 34)


class Refused(Exception):
    pass


def in_two_bytes(number):
    if number > 65535:
        raise Refused(25)
    return number


def day_number(year, month, day):
    if year < 2000:
        raise Refused(24)
    # datetime ends with the year 9999; the calendar is the same again after 400 years
    cycles, rest = divmod(year - 2000, 400)
    try:
        date = datetime.date(2000 + rest, month, day)
    except (ValueError, OverflowError):
        raise Refused(24)
    return in_two_bytes(cycles * CYCLE.days + (date - FIRST).days)


def date_of(number):
    if number < 0:
        raise Refused(24)
    return FIRST + datetime.timedelta(days=in_two_bytes(number))


def last_day(first, months):
    if not 1 <= months <= 12:
        raise Refused(26)
    start = date_of(first)
    years, month = divmod(start.month - 1 + months, 12)
    month_length = calendar.monthrange(start.year + years, month + 1)[1]
    if start.day > month_length:
        end = datetime.date(start.year + years, month + 1, month_length)
    else:
        end = start.replace(year=start.year + years, month=month + 1) - datetime.timedelta(days=1)
    return in_two_bytes((end - FIRST).days)


def answers(call, arguments):
    """What a call answers, as numbers: a day number, a date's three, or 65,536 and the number of a refusal."""
    try:
        answer = call(*arguments)
    except Refused as refusal:
        return [65536 + refusal.args[0]]
    if isinstance(answer, datetime.date):
        return [answer.year, answer.month, answer.day]
    return [answer]


def digest(call, inputs):
    """FNV-1a, of whole numbers in place of bytes."""
    h = 14695981039346656037
    for arguments in inputs:
        for x in answers(call, arguments):
            h = (h ^ x) * 1099511628211 % 2**64
    return f" {h:016x}"


def digests(dates, days, passes):
    return digest(day_number, dates) + digest(date_of, days) + digest(last_day, passes)


def year_line(year):
    begin = (datetime.date(year, 1, 1) - FIRST).days
    end = (datetime.date(year + 1, 1, 1) - FIRST).days
    days = range(begin, min(end, 65536)) if 0 <= begin <= 65535 else range(0)
    dates = itertools.product([year], MONTHS, DAYS)
    first = days[0] if days else "-"
    return f"{year} {first} {len(days)}" + digests(dates, zip(days), itertools.product(days, MONTHS))


def main():
    for year in range(1999, 2181):
        print(year_line(year))
    print("edges" + digests(itertools.product(EDGES, repeat=3), zip(EDGES), itertools.product(EDGES, repeat=2)))


if __name__ == "__main__":
    main()
