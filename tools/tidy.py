#!/usr/bin/env python3
"""Makes a spreadsheet's CSV into the CSV of `import`, or with --board into `board` lines.

    tidy.py --set do=pay --dates mdy < bank.csv > payments.csv
    tidy.py --board --key board- --rates percent < loans.csv > loans.lines

The first row names the columns, in any order; columns that are not needed are passed over. A field's column has
its name or one of these, in capitals or not, or the name that --column states:

%s
What is in doubt is refused on standard error with its row (as the spreadsheet counts them) and the reason; then
nothing is written and the status is 1.
"""
import argparse
import csv
import datetime
import io
import re
import sys

# For each field the headers that are taken for it without being told.
ALIASES = {
    "key": ["trace", "trace number", "reference"],
    "do": [],
    "loan": ["loan number", "loan no"],
    "day": ["date", "effective date"],
    "amount": ["payment amount"],
    "line": [],
    "boarded": ["boarded day", "boarding date"],
    "principal": ["unpaid principal"],
    "rate": ["note rate", "interest rate"],
    "fee": ["servicing fee"],
    "pi": ["p&i", "level payment"],
    "term": ["remaining term"],
    "first": ["first due"],
    "grace": ["grace days"],
    "late": ["late charge"],
    "cushion": [],
    "escrow": ["escrow payment"],
    "type": ["remittance type"],
}
PAYMENT = ["key", "do", "loan", "day", "amount", "line"]
BOARD = ["key", "loan", "boarded", "principal", "rate", "fee", "pi", "term", "first", "grace", "late", "cushion",
         "escrow", "type"]
WORDS = ["pay", "curtail", "payoff", "deposit", "disburse"]
SEPARATORS = {"comma": ",", "semicolon": ";", "tab": "\t"}
ORDERS = {"ymd": (0, 1, 2), "mdy": (2, 0, 1), "dmy": (2, 1, 0)}
HIGHEST = 4294967295


class Doubt(Exception):
    """Why a value, a row or a file is not taken."""


# Values

def number_of(text):
    """A number as lines have it; zeros before it are no doubt."""
    if not re.fullmatch("[0-9]+", text):
        raise Doubt("is no whole number")
    if int(text) > HIGHEST:
        raise Doubt(f"is above {HIGHEST}")
    return str(int(text))


def amount_of(text, whole=False):
    """An amount with two digits after its point, from 1199.1, 1,199.10 or $1,199.10."""
    bare = text[1:].strip() if text.startswith("$") else text
    if re.match(r"-|\(|.*-$", bare):
        raise Doubt("is below zero: an item that came back is reversed, not imported")
    if re.fullmatch(r"[0-9]+|[0-9]{1,3}(,[0-9]{3})+", bare):
        if not whole:
            raise Doubt("has no point: say --whole where such amounts are whole dollars")
        bare += ".00"
    found = re.fullmatch(r"([0-9]+|[0-9]{1,3}(?:,[0-9]{3})+)\.([0-9]{1,2})", bare)
    if not found:
        raise Doubt("is no amount such as 1199.1, 1,199.10 or $1,199.10")
    dollars = str(int(found[1].replace(",", "")))
    if len(dollars) > 11:
        raise Doubt("has more than 11 digits before its point")
    return f"{dollars}.{found[2]:0<2}"


def parts_of(text, order):
    """Year, month and day of a text in the order that was stated."""
    parts = re.fullmatch(r"([0-9]{1,4})([/.-])([0-9]{1,2})\2([0-9]{1,4})", text)
    if not parts:
        raise Doubt("is no day")
    if order is None:
        raise Doubt("may be read in several orders: say --dates mdy, dmy or ymd")
    values = [parts[1], parts[3], parts[4]]
    year, month, day = (values[at] for at in ORDERS[order])
    if len(year) not in (2, 4) or len(month) > 2 or len(day) > 2:
        raise Doubt(f"is no day in the order {order}")
    # Days are of the years 1990 to 2099, so 24 can be 2024 alone.
    if len(year) == 2 and year >= "90":
        raise Doubt(f"may be of 19{year} or 20{year}")
    return int(year) if len(year) == 4 else 2000 + int(year), int(month), int(day)


def day_of(text, order=None):
    """A day, from 2024-02-01, or in the order that was stated from 2/1/2024, 2.1.2024, 2-1-2024 or 2/1/24."""
    parts = re.fullmatch(r"([0-9]{4})-([0-9]{2})-([0-9]{2})", text)
    year, month, day = map(int, parts.groups()) if parts else parts_of(text, order)
    try:
        found = datetime.date(year, month, day)
    except ValueError:
        raise Doubt("is no day of the calendar" + (f" in the order {order}" if order else "")) from None
    if not 1990 <= year <= 2099:
        raise Doubt("is not of the years 1990 to 2099")
    return found.isoformat()


def month_of(text, order=None):
    """A month, from 2024-02 or from its first day."""
    day = day_of(text + "-01" if re.fullmatch("[0-9]{4}-[0-9]{2}", text) else text, order)
    if not day.endswith("-01"):
        raise Doubt("is not the first day of a month")
    return day[:7]


def rate_of(text, unit, digits):
    """A rate in the unit of lines, where 1% is a one with so many zeros."""
    found = re.fullmatch(r"([0-9]+)(?:\.([0-9]+))?( ?%)?", text)
    if not found:
        raise Doubt("is no rate")
    if not found[3] and unit is None:
        raise Doubt("has no percent sign: say --rates percent, or --rates lines where it is as lines have it")
    if not found[3] and unit == "lines":
        return number_of(text)
    fraction = (found[2] or "").rstrip("0")
    if len(fraction) > digits:
        raise Doubt(f"has more than {digits} digits after its point")
    return number_of(found[1] + fraction.ljust(digits, "0"))


def key_of(text):
    """A key as lines have it, that no spreadsheet has rounded."""
    if re.fullmatch(r"[0-9]+([.,][0-9]+)?E[+-]?[0-9]+", text, re.I):
        raise Doubt("was rounded by the spreadsheet: give the column the format Text before the file is read")
    if not re.fullmatch("[A-Za-z0-9._:-]{1,32}", text):
        raise Doubt("is no key: 1 to 32 of A-Z a-z 0-9 . _ : -")
    return text


def one_of(choices, words):
    """A reader of one of the choices, or of a text that the words stand for one of them."""
    def read(text):
        text = words.get(text.lower(), text)
        if text not in choices:
            raise Doubt("is none of " + ", ".join(choices) + ": say --word 'TEXT=WORD' for what it stands for")
        return text
    return read


def line_of(do, text):
    """The last field of a row, by its word."""
    if do == "disburse":
        return number_of(text)
    if text and (do != "pay" or text not in ("principal", "escrow")):
        raise Doubt(f"does not go with {do}: see docs/CSV.md, or say --set line= where no row has one")
    return text


def readers_of(asked):
    """For each field the function that reads it."""
    def amount(text):
        return amount_of(text, asked.whole)

    def day(text):
        return day_of(text, asked.dates)

    return {
        "key": key_of, "do": one_of(WORDS, asked.words), "loan": number_of, "day": day, "amount": amount,
        "line": str, "boarded": day, "principal": amount, "rate": lambda text: rate_of(text, asked.rates, 3),
        "fee": lambda text: rate_of(text, asked.rates, 3), "pi": amount, "term": number_of,
        "first": lambda text: month_of(text, asked.dates), "grace": number_of,
        "late": lambda text: rate_of(text, asked.rates, 2), "cushion": number_of, "escrow": amount,
        "type": one_of(["AA", "SA", "SS"], asked.words)}


# The file

def records_of(text, separator):
    """The records of a file, each as a list of fields without the spaces around them."""
    reader = csv.reader(io.StringIO(text, newline=""), delimiter=separator, strict=True)
    try:
        return [[field.strip() for field in row] for row in reader]
    except csv.Error as error:
        raise Doubt(f"line {reader.line_num}: {error}") from None


def columns_of(header, asked):
    """The place of each needed field in the header; -1 where a statement gives its value."""
    names, places = [it.lower() for it in header], {}
    for field in asked.fields:
        told = asked.columns.get(field)
        wanted = [told.lower()] if told else [field] + ALIASES[field]
        found = [at for at, name in enumerate(names) if name in wanted]
        if field in asked.set and not told or not found and field == "line" and not told:
            places[field] = -1
        elif len(found) == 1:
            places[field] = found[0]
        elif found:
            raise Doubt(f"row 1: several columns may be {field}: " + ", ".join(repr(header[at]) for at in found)
                        + f"; say --column {field}=NAME")
        elif field == "key" and asked.key:
            places[field] = -1
        else:
            raise Doubt(f"row 1: no column is {field}: " + (f"none is named {told!r}" if told else
                        f"say --column {field}=NAME, or --set {field}=VALUE where all rows have one"))
    used = [at for at in places.values() if at >= 0]
    if len(used) != len(set(used)):
        raise Doubt("row 1: one column stands for two fields")
    return places


def split(text, asked):
    """The records and the places of the fields, by the one separator with which the header has them."""
    names = [asked.separator] if asked.separator else list(SEPARATORS)
    found, doubts = [], []
    for name in names:
        try:
            records = records_of(text, SEPARATORS[name])
            if not records:
                raise Doubt("the file is empty")
            found.append((records, columns_of(records[0], asked)))
        except Doubt as doubt:
            fields = len(next(csv.reader([text.split("\n")[0]], delimiter=SEPARATORS[name]), []))
            doubts.append((fields, str(doubt)))
    if len(found) > 1:
        raise Doubt("row 1: the separator is in doubt: say --separator comma, semicolon or tab")
    if not found:
        raise Doubt(max(doubts)[1])
    return found[0]


def value_of(row, field, places, asked, readers):
    """A field of a row as lines have it."""
    if field == "key" and places["key"] < 0 and "key" not in asked.set:
        text = asked.key + value_of(row, "loan", places, asked, readers)
    else:
        text = row[places[field]] if places[field] >= 0 else asked.set.get(field, "")
    try:
        return readers[field](text)
    except Doubt as doubt:
        raise Doubt(f"{field} {text!r} {doubt}" if text else f"{field} is empty") from None


def tidied(row, places, asked, readers):
    """The fields of a row in their order as lines have them."""
    values = {}
    for field in asked.fields:
        values[field] = value_of(row, field, places, asked, readers)
    if "line" in values:
        try:
            values["line"] = line_of(values["do"], values["line"])
        except Doubt as doubt:
            raise Doubt(f"line {values['line']!r} {doubt}") from None
    return list(values.values())


def check_shape(row, header):
    """Whether a row has a field for each name; an amount that was cut at its comma has one more."""
    if len(row) != len(header):
        raise Doubt(f"has {len(row)} fields where row 1 has {len(header)}")
    for name, field in zip(header, row):
        if field and not name:
            raise Doubt(f"{field!r} stands in a column without a name")


def tidy(text, asked):
    """The rows as lines have them, and what is in doubt."""
    records, places = split(text, asked)
    readers, keys, rows, doubts = readers_of(asked), {}, [], []
    for number, row in enumerate(records[1:], 2):
        if not any(row):
            continue
        try:
            check_shape(row, records[0])
            values = tidied(row, places, asked, readers)
            if keys.setdefault(values[0], number) != number:
                raise Doubt(f"key {values[0]!r} is that of row {keys[values[0]]} too")
            rows.append(values)
        except Doubt as doubt:
            doubts.append(f"row {number}: {doubt}")
    return rows, doubts


def pair_of(text):
    """NAME=VALUE as a pair."""
    name, is_there, value = text.partition("=")
    if not is_there or not name:
        raise argparse.ArgumentTypeError(f"{text!r} is not NAME=VALUE")
    return name, value


def words_of(arguments):
    """What the command line says."""
    listed = "".join(f"    {name:10} {', '.join(others)}".rstrip() + "\n" for name, others in ALIASES.items())
    it = argparse.ArgumentParser(description=__doc__ % listed, formatter_class=argparse.RawDescriptionHelpFormatter)
    it.add_argument("--board", action="store_true", help="loans into board lines")
    it.add_argument("--column", action="append", default=[], type=pair_of, metavar="FIELD=NAME",
                    help="the header of a field's column")
    it.add_argument("--set", action="append", default=[], type=pair_of, metavar="FIELD=VALUE",
                    help="the value of a field in all rows; no column of it is looked for")
    it.add_argument("--word", action="append", default=[], type=pair_of, metavar="TEXT=WORD",
                    help="what a text of the columns do or type stands for")
    it.add_argument("--key", metavar="TEXT", help="with --board: this text and the loan's number are the key")
    it.add_argument("--dates", choices=ORDERS, help="the order of days such as 2/1/2024")
    it.add_argument("--whole", action="store_true", help="an amount without a point is whole dollars")
    it.add_argument("--rates", choices=["percent", "lines"], help="what rates without a percent sign are")
    it.add_argument("--separator", choices=SEPARATORS, help="where more than one would do")
    asked = it.parse_args(arguments)
    asked.fields = BOARD if asked.board else PAYMENT
    asked.columns, asked.set = dict(asked.column), dict(asked.set)
    asked.words = {text.lower(): word for text, word in asked.word}
    for name in (*asked.columns, *asked.set):
        if name not in asked.fields:
            it.error(f"{name!r} is none of the fields {', '.join(asked.fields)}")
    if asked.key and not asked.board:
        it.error("--key goes with --board: payments have the bank's own numbers")
    return asked


def main():
    asked = words_of(sys.argv[1:])
    try:
        rows, doubts = tidy(sys.stdin.buffer.read().decode("utf-8-sig"), asked)
    except UnicodeDecodeError as error:
        rows, doubts = [], [f"byte {error.start} is not UTF-8: save the sheet as CSV with the character set UTF-8"]
    except Doubt as doubt:
        rows, doubts = [], [str(doubt)]
    if doubts:
        print(*doubts, f"nothing is written: {len(doubts)} in doubt", sep="\n", file=sys.stderr)
        return 1
    if asked.board:
        lines = [" ".join([key, "board", *values]) for key, *values in rows]
    else:
        lines = [",".join(values) for values in [PAYMENT, *rows]]
    sys.stdout.write("".join(it + "\n" for it in lines))
    return 0


if __name__ == "__main__":
    sys.exit(main())
