#!/usr/bin/env python3
"""Makes the program's texts into CSV that a spreadsheet opens.

    jaqhendulu books.journal report 2024-03 | sheets.py > report.csv
    jaqhendulu books.journal report 2024-03 | sheets.py --of adjust > adjustments.csv
    for month in 2024-01 2024-02; do jaqhendulu books.journal trial $month; done | sheets.py > trials.csv
    echo '? history 101' | jaqhendulu books.journal apply | sheets.py > history.csv

The input is one text or several of one kind; each row begins with what its text's first line says. Amounts, days
and months are as the program writes them, and nothing is added up. These are the kinds of texts, with the words that
--of may name. The status is 1, and nothing is written, where a text is none of these (a refusal is none), is of
another kind than the first, or is not whole:

%s"""
import argparse
import csv
import re
import sys

# For each kind of text its first line, and its further lines by their words; the first of these is what is asked for
# where nothing is said. A text without further lines is a row itself. {a b} is a field of the column `a b`.
KINDS = {
    "report": ("report {month} lines {}", {
        "line": "line {loan} due {interest due} {principal due} adjusted {interest adjusted} {principal adjusted}"
                " upb {balance} balance {investor balance}",
        "adjust": "adjust {command} {loan} {of month} {interest} {principal}",
        "total": "total interest {interest} principal {principal}"}),
    "trial": ("trial {month} loans {}", {
        "loan": "loan {loan} upb {balance} balance {investor balance}",
        "total": "total upb {balance} balance {investor balance}"}),
    "statement": ("statement {day} loans {}", {
        "loan": "loan {loan} upb {balance} next {next} escrow {escrow} suspense {suspense} late {late}"
                " escrow-advance {escrow advance} held {held} pi-advance {pi advance}",
        "total": "total T {T} P {P}"}),
    "rows": ("rows {command} count {}", {"row": "row {loan} {part} {from} {to} {amount}"}),
    "history": ("history {loan} {business day} events {}", {
        "event": "event {day} {command} {event} {amount} interest {interest} principal {principal} escrow {escrow}"
                 " late {late} charges {charges} suspense {suspense} upb {balance} next {next}",
        "reversed": "reversed {command} {reversed by}"}),
    "aging": ("aging {day} loans {}", {
        "late": "late {loan} next {next} days {days} installments {installments} due {due} suspense {suspense}"
                " pay {pay} late {late}",
        "total": "total current {current} late1 {late 1 to 29} late30 {late 30 to 59} late60 {late 60 to 89}"
                 " late90 {late 90 on} satisfied {satisfied}"}),
    "escrow": ("escrow {loan} from {from} base {base} cushion {cushion} opening {opening} balance {balance}"
               " surplus {surplus} short {short} deficient {deficient} pay {pay}", {
                   "month": "month {month} paid {paid} trial {trial} target {target}"}),
    "books": ("books {loan} {day} upb {balance} next {next} escrow {escrow} suspense {suspense} late {late}"
              " interest {interest} fee {fee} principal {principal} charges {charges} pay {pay}", {}),
    "payoff": ("payoff {loan} {day} {amount}", {}),
    "quote": ("quote {loan} {day} {amount} perday {per day}", {}),
    "arrears": ("arrears {loan} {day} installments {installments} due {due} suspense {suspense} pay {pay} late {late}",
                {}),
    "status": ("status {day} loans {loans} commands {commands} closed {closed} remitted {remitted} close {close}"
               " remit {remit} pending {pending} adjustments {adjustments}", {}),
    "custodial": ("custodial T {T} P {P} suspense {suspense} escrow {escrow} escrow-advance {escrow advance}"
                  " held {held} pi-advance {pi advance}", {}),
}


class NoText(Exception):
    """Why the input is not made of such texts."""


def pattern_of(form):
    """The pattern of a line of that form."""
    return "".join("([^ ]+)" if it.startswith("{") else re.escape(it) for it in re.split(r"(\{[^}]*\})", form))


def columns_of(form):
    """The names of the fields of a form; one without a name is no column."""
    return re.findall(r"\{([^}]*)\}", form)


def values_of(form, line, number):
    """The fields of a line that have a column."""
    found = re.fullmatch(pattern_of(form), line)
    if not found:
        raise NoText(f"line {number}: {line!r} is not {form.split(' ')[0]}'s")
    return [value for name, value in zip(columns_of(form), found.groups()) if name]


def texts_of(lines):
    """The kind of each text, its first line's number, and its lines with the first one and without `end`."""
    at = 0
    while at < len(lines):
        first = at
        kind = lines[at].split(" ")[0]
        at += 1
        if kind not in KINDS:
            raise NoText(f"line {first + 1}: {lines[first]!r} begins no text that is known")
        if KINDS[kind][1]:
            while at < len(lines) and lines[at] != "end":
                at += 1
            if at == len(lines):
                raise NoText(f"line {first + 1}: the text does not end")
            at += 1
        yield kind, first + 1, lines[first:at - 1] if KINDS[kind][1] else lines[first:at]


def rows_of(kind, number, lines, of):
    """The rows of one text: those of its lines that begin with the word."""
    head, forms = KINDS[kind]
    begins = values_of(head, lines[0], number)
    if not forms:
        yield begins
        return
    counts = re.search(r" (?:lines|loans|count|events) ([0-9]+)$", lines[0])
    main = next(iter(forms))
    if counts and sum(it.startswith(main + " ") for it in lines[1:]) != int(counts[1]):
        raise NoText(f"line {number}: the text has not {counts[1]} lines {main}")
    for at, line in enumerate(lines[1:], number + 1):
        word = line.split(" ")[0]
        if word not in forms:
            raise NoText(f"line {at}: {line!r} is no line of {kind}")
        values = values_of(forms[word], line, at)
        if word == of:
            yield begins + values


def sheet(text, of=None):
    """The header and the rows of all texts."""
    wanted, rows = None, []
    if text and not text.endswith("\n"):
        raise NoText("the last line does not end")
    for kind, number, lines in texts_of(text.splitlines()):
        if wanted is None:
            wanted, of = kind, of or next(iter(KINDS[kind][1]), None)
            if of and of not in KINDS[kind][1]:
                raise NoText(f"{kind} has no lines {of}")
        if kind != wanted:
            raise NoText(f"line {number}: a text of {kind} after one of {wanted}")
        rows += rows_of(kind, number, lines, of)
    if wanted is None:
        raise NoText("there is no text")
    head, forms = KINDS[wanted]
    named = columns_of(head) + (columns_of(forms[of]) if of else [])
    return [[name for name in named if name], *rows]


def words_of(arguments):
    """What the command line says."""
    listed = "".join(f"    {kind:10} {', '.join(forms) or '(one line)'}\n" for kind, (_, forms) in KINDS.items())
    it = argparse.ArgumentParser(description=__doc__ % listed, formatter_class=argparse.RawDescriptionHelpFormatter)
    it.add_argument("--of", metavar="WORD", help="which lines of the texts, if not the first of their kind")
    it.add_argument("--separator", choices=["comma", "semicolon"], default="comma")
    return it.parse_args(arguments)


def main():
    asked = words_of(sys.argv[1:])
    try:
        rows = sheet(sys.stdin.buffer.read().decode("ascii"), asked.of)
    except (NoText, UnicodeDecodeError) as error:
        print(error, file=sys.stderr)
        return 1
    csv.writer(sys.stdout, delimiter=",;"[asked.separator == "semicolon"], lineterminator="\n").writerows(rows)
    return 0


if __name__ == "__main__":
    sys.exit(main())
