"""Values, their spellings, the forms of request lines, and the numbers of the rules, for reckon.py and desk.py."""
import datetime
import re

TOP = 10**10  # the greatest amount, in cents


# Values and their spellings

def month_of(day):
    return day.year * 12 + day.month - 1


def first_day(month):
    return datetime.date(month // 12, month % 12 + 1, 1)


def last_day(month):
    return first_day(month + 1) - datetime.timedelta(1)


def text_of_month(month):
    return f"{month // 12:04}-{month % 12 + 1:02}"


def money(cents):
    sign = "-" if cents < 0 else ""
    return f"{sign}{abs(cents) // 100}.{abs(cents) % 100:02}"


def read_key(text):
    return text if re.fullmatch(r"[A-Za-z0-9._:-]{1,32}", text) else None


def read_number(text):
    fits = re.fullmatch(r"0|[1-9][0-9]*", text) and int(text) < 2**32
    return int(text) if fits else None


def read_amount(text):
    fits = re.fullmatch(r"(0|[1-9][0-9]{0,10})\.[0-9]{2}", text)
    return int(text.replace(".", "")) if fits else None


def read_day(text):
    if not re.fullmatch(r"[0-9]{4}-[0-9]{2}-[0-9]{2}", text) or not 1990 <= int(text[:4]) <= 2099:
        return None
    try:
        return datetime.date(int(text[:4]), int(text[5:7]), int(text[8:]))
    except ValueError:
        return None


def read_month(text):
    day = read_day(text + "-01") if re.fullmatch(r"[0-9]{4}-[0-9]{2}", text) else None
    return None if day is None else month_of(day)


def read_part(text):
    if text in ("-", "leave", "within30"):
        return (text, 0)
    count = read_number(text[7:]) if text.startswith("spread:") else None
    return None if count is None else ("spread", count)


def one_of(*words):
    return lambda text: text if text in words else None


READERS = {
    "day": read_day, "month": read_month, "amount": read_amount, "number": read_number,
    "type": one_of("AA", "SA", "SS"), "kind": one_of("tax", "hazard", "flood", "other"),
    "surplus": one_of("-", "refund", "credit", "retain"), "part": read_part,
    "rest": one_of("principal", "escrow"), "key": read_key,
}
DATED = "number day amount"
COMMANDS = {
    "day": "day", "pay": DATED, "curtail": DATED, "payoff": DATED, "deposit": DATED,
    "board": "number day amount number number amount number month number number number amount type",
    "disburse": DATED + " number", "refund": "number amount", "waive": "number amount",
    "reverse": "number number", "line": "number number kind number number amount", "drop": "number number",
    "analyse": "number surplus part part", "close": "month", "remit": "month", "retype": "number month type",
}
QUERIES = {
    "books": "number", "at": "number day", "payoff": "number day", "escrow": "number", "report": "month",
    "trial": "month", "custodial": "", "rows": "number", "loan": "number", "history": "number",
    "quote": "number day", "arrears": "number", "aging": "", "status": "", "command": "number", "key": "key",
}


class NoRequest(Exception):
    """A line that is no request, with its place."""


class Refused(Exception):
    """A request that a rule refuses, with the rule's text."""


def read_line(line):
    """The key (`?` of a query), the word and the values of a line."""
    if len(line) > 512:
        raise NoRequest(512)
    words = line.split(" ")
    places = [sum(len(it) + 1 for it in words[:i]) for i in range(len(words))]
    if words[0] != "?" and read_key(words[0]) is None:
        raise NoRequest(0)
    forms = QUERIES if words[0] == "?" else COMMANDS
    if len(words) < 2:
        raise NoRequest(len(line))
    if words[1] not in forms:
        raise NoRequest(places[1])
    fields = forms[words[1]].split()
    values = []
    for i, field in enumerate(fields, 2):
        if i >= len(words):
            raise NoRequest(len(line))
        values.append(READERS[field](words[i]))
        if values[-1] is None:
            raise NoRequest(places[i])
    rest = words[len(fields) + 2:]
    if words[1] == "pay" and rest:
        values.append(READERS["rest"](rest[0]))
        rest = rest[1:] if values[-1] else rest
    if rest:
        raise NoRequest(places[len(words) - len(rest)])
    return words[0], words[1], values


# Numbers

def half_up(a, b):
    return (2 * a + b) // (2 * b)


def month_interest(balance, rate):
    return half_up(balance * rate, 1_200_000)


def days360(a, b):
    return max(0, 360 * (b.year - a.year) + 30 * (b.month - a.month) + min(b.day, 30) - min(a.day, 30))
