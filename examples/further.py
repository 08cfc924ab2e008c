#!/usr/bin/env python3
"""Servicing transfer, statements, mortgage insurance and bank reconciliation, once more in plain Python.

Written from docs/DEFINITIONS.md over the books that reckon.py keeps, and not from the program; it shares no code
with it. Python's standard library alone.
"""
import csv
import io
import re

import reckon
import spellings
from reckon import first_day, money, month_interest, month_of, text_of_month


# Servicing transfer

def part_of(servicer, low, high, is_inside):
    """The lines of the commands of one part: of the loans from low to high, or of all others."""
    def has(number):
        return (low <= number <= high) == is_inside

    months = [month_of(it.terms["boarded"]) for number, it in servicer.loans.items() if has(number)]
    lines, places = [], [0]
    for line in servicer.accepted:
        _, word, values = reckon.read_line(line)
        if word in ("close", "remit"):
            stays = bool(months) and values[0] >= min(months)
        else:
            stays = word == "day" or has(values[0])
        places.append(places[-1] + stays)
        if stays and word == "reverse":
            line = " ".join(line.split(" ")[:-1] + [str(places[values[1]])])
        if stays:
            lines.append(line)
    return "".join(it + "\n" for it in lines)


def statement_rows(servicer):
    """For each loan by rising number what a statement says of it."""
    for number, loan in sorted(servicer.loans.items()):
        books, totals = loan.books(servicer.today), servicer.totals()[number]
        following = text_of_month(books.due_month()) if books.upb > 0 else "-"
        yield (number, books.upb, following, books.escrow, books.suspense, books.late, totals["EscrowAdvance"],
               totals["held"], totals["PiAdvance"])


NAMES = ("upb", "next", "escrow", "suspense", "late", "escrow-advance", "held", "pi-advance")


def statement(servicer):
    rows = list(statement_rows(servicer))
    text = f"statement {servicer.today} loans {len(rows)}\n"
    for number, *values in rows:
        said = (f"{name} {it if name == 'next' else money(it)}" for name, it in zip(NAMES, values))
        text += f"loan {number} {' '.join(said)}\n"
    held = sum(it[7] for it in rows)
    trust = sum(it[3] + it[4] + it[6] for it in rows)
    return text + f"total T {money(trust)} P {money(held)}\nend\n"


def read_signed(text):
    """An amount of a statement or a bank's list: at most 18 digits before its point, `-0.00` is none."""
    if not re.fullmatch(r"-?(0|[1-9][0-9]{0,17})\.[0-9]{2}", text) or text == "-0.00":
        return None
    return int(text.replace(".", ""))


def read_following(text):
    found = re.fullmatch(r"([0-9]{4})-([0-9]{2})", text)
    if text == "-" or not found:
        return "-" if text == "-" else None
    year, month = int(found[1]), int(found[2])
    fits = 1 <= month <= 12 and 1989 * 12 <= year * 12 + month - 1 <= 2140 * 12 + 11
    return text if fits else None


class Misfit(Exception):
    """The number of a line that does not fit."""


def read_statement(text):
    """The day and the rows of a statement."""
    lines = text.split("\n")
    lines = lines if lines[-1] else lines[:-1]

    def words_of(number, form):
        words = lines[number - 1].split(" ") if number <= len(lines) else []
        if len(words) != len(form) or any(its and its != word for its, word in zip(form, words)):
            raise Misfit(number)
        return words

    def checked(number, value):
        if value is None:
            raise Misfit(number)
        return value

    head = words_of(1, ["statement", "", "loans", ""])
    day, count = checked(1, spellings.read_day(head[1])), checked(1, spellings.read_number(head[3]))
    rows, number = [], 2
    while len(rows) < count:
        words = words_of(number, sum(([it, ""] for it in NAMES), ["loan", ""]))
        values = [checked(number, spellings.read_number(words[1]))]
        for name, word in zip(NAMES, words[3::2]):
            values.append(checked(number, (read_following if name == "next" else read_signed)(word)))
        if rows and values[0] <= rows[-1][0]:
            raise Misfit(number)
        rows.append(tuple(values))
        number += 1
    words = words_of(number, ["total", "T", "", "P", ""])
    trust, held = sum(it[3] + it[4] + it[6] for it in rows), sum(it[7] for it in rows)
    if (read_signed(words[2]), read_signed(words[4])) != (trust, held):
        raise Misfit(number)
    words_of(number + 1, ["end"])
    if len(lines) > number + 1:
        raise Misfit(number + 2)
    return day, rows


def confirm(servicer, text):
    try:
        day, said = read_statement(text)
    except Misfit as place:
        return f"bad {place}\n"
    here, there = ({it[0]: it for it in rows} for rows in (statement_rows(servicer), said))
    found = "day same\n" if day == servicer.today else "day differs\n"
    for number in sorted(here.keys() | there.keys()):
        if number not in here:
            word = "missing"
        elif number not in there:
            word = "extra"
        else:
            word = "same" if here[number] == there[number] else "differs"
        found += f"{word} {number}\n"
    return found + "end\n"


# Mortgage insurance (Homeowners Protection Act of 1998, in this project's profile)

def scheduled(terms, k):
    """What would be owed after k installments of the plan, with no other payment."""
    balance = terms["principal"]
    for _ in range(k):
        balance -= min(balance, terms["pi"] - month_interest(balance, terms["rate"]))
    return 0 if k == terms["term"] else balance


def installments_due(terms, month):
    return min(terms["term"], max(0, month + 1 - terms["first"]))


def insurance(servicer, number, value, asked):
    """What is said of a loan's insurance."""
    loan = servicer.loan(number)
    if asked:
        servicer.check_day(loan, asked)
    terms, automatic = loan.terms, None
    for month in range(month_of(terms["boarded"]) + 1, month_of(servicer.today) + 1):
        day = first_day(month)
        books = loan.books(day)
        low = 100 * scheduled(terms, installments_due(terms, month)) <= 78 * value
        if books.is_current(day) and (books.upb == 0 or low):
            automatic = day, "PaidOff" if books.upb == 0 else "Automatic"
            break
    denied = ""
    if asked:
        books = loan.books(asked)
        balance = min(books.upb, scheduled(terms, installments_due(terms, month_of(asked))))
        if not books.is_current(asked):
            denied = f" denied 1 NotCurrent {first_day(books.due_month())}"
        elif 100 * balance > 80 * value:
            denied = f" denied 2 Above {money(balance)}"
        elif automatic is None or automatic[0] > asked:
            return f"ends {asked} Asked"
    return f"ends {automatic[0]} {automatic[1]}" if automatic else "runs" + denied


def rows_of_csv(data, header):
    """The rows of a CSV file with their numbers; None where the header is not there."""
    rows = [it for it in csv.reader(io.StringIO(data.decode(), newline="")) if it]
    return list(enumerate(rows[1:], 2)) if rows and rows[0] == header else None


def insured(data):
    """For each row what it says, or the row and column of its fault."""
    for row, fields in rows_of_csv(data, ["loan", "value", "line", "asked"]):
        values = [read(it) for read, it in zip(
            (spellings.read_number, spellings.read_amount, spellings.read_number, read_asked), fields)]
        if len(fields) == 4 and values[1] == 0:
            values[1] = None
        bad = 5 if len(fields) != 4 else values.index(None) + 1 if None in values else None
        yield values if bad is None else f"bad row {row} column {bad}\n"


def read_asked(text):
    return spellings.read_day(text) if text else False


def pmi(servicer, data):
    if rows_of_csv(data, ["loan", "value", "line", "asked"]) is None:
        return "bad row 1 column 1\n"
    text = ""
    for values in insured(data):
        try:
            if isinstance(values, list):
                values = f"pmi {values[0]} {insurance(servicer, values[0], values[1], values[3])}\n"
        except reckon.Refused as rule:
            values = f"no {rule}\n"
        text += values
    return text


def pmi_drops(servicer, data):
    if rows_of_csv(data, ["loan", "value", "line", "asked"]) is None:
        return ""
    text = ""
    for values in insured(data):
        said = pmi_of(servicer, values) if isinstance(values, list) else ""
        if said.startswith("ends"):
            text += f"pmi-{values[0]}-{values[2]} drop {values[0]} {values[2]}\n"
    return text


def pmi_of(servicer, values):
    try:
        return insurance(servicer, values[0], values[1], values[3])
    except reckon.Refused:
        return ""


# Bank reconciliation

def items_of(servicer, number):
    """The items of a command's rows: account, number and cents."""
    for row in servicer.rows.get(number, []):
        cents = int(row.split()[5].replace(".", ""))
        for account, sign in ((row.split()[3], -1), (row.split()[4], 1)):
            if account in ("T", "P"):
                yield account, number, sign * cents


def bank_items(data):
    """The open and the bank's rows, or the row and column of the first fault."""
    rows = rows_of_csv(data, ["kind", "account", "number", "amount"])
    if rows is None:
        return 1, 1
    found = {"open": [], "bank": []}
    for row, fields in rows:
        if len(fields) != 4:
            return row, 5
        cents = read_signed(fields[3]) if len(fields[3].lstrip("-")) <= 19 else None
        tests = (fields[0] in found, fields[1] in ("T", "P"), spellings.read_number(fields[2]) is not None, bool(cents))
        if not all(tests):
            return row, tests.index(False) + 1
        found[fields[0]].append((fields[1], int(fields[2]), cents))
    return found


def left_of(items, others):
    """The items without those that have a partner: the j-th of three equal values needs j others of them."""
    left = list(others)
    for it in items:
        if it in left:
            left.remove(it)
        else:
            yield it


def reason_of(items, still_open, line):
    near = [it for it in items if it[:2] == line[:2]]
    if not near:
        return "NoSuch"
    unmatched = [it for it in still_open if it[:2] == line[:2]]
    return f"Amount {money(unmatched[0][2])}" if unmatched else "Extra"


def reconcile(servicer, first, last, data):
    found = bank_items(data)
    if isinstance(found, tuple):
        return f"bad row {found[0]} column {found[1]}\n"
    span = [it for number in range(first, min(last, servicer.count) + 1) for it in items_of(servicer, number)]
    items, bank = found["open"] + span, found["bank"]
    still_open, unbooked = list(left_of(items, bank)), list(left_of(bank, items))
    text = f"reconcile {first} {last}\n"
    text += "".join(f"open {it[0]} {it[1]} {money(it[2])}\n" for it in still_open)
    for it in unbooked:
        text += f"unbooked {it[0]} {it[1]} {money(it[2])} {reason_of(items, still_open, it)}\n"
    for account in ("T", "P"):
        book, listed, still, new = (money(sum(it[2] for it in its if it[0] == account))
                                    for its in (items, bank, still_open, unbooked))
        text += f"account {account} book {book} bank {listed} open {still} unbooked {new}\n"
    return text + "end\n"


def answer(servicer, words, data):
    """What the program writes to one of these commands."""
    if words[0] in ("transfer", "remain"):
        return part_of(servicer, int(words[1]), int(words[2]), words[0] == "transfer")
    if words[0] == "statement":
        return statement(servicer)
    if words[0] == "confirm":
        return confirm(servicer, data.decode())
    if words[0] == "reconcile":
        return reconcile(servicer, int(words[1]), int(words[2]), data)
    return {"pmi": pmi, "pmi-drops": pmi_drops}[words[0]](servicer, data)


WORDS = ("transfer", "remain", "statement", "confirm", "pmi", "pmi-drops", "reconcile")
