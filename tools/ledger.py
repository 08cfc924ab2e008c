#!/usr/bin/env python3
"""Makes a journal of hledger and ledger, or of beancount, of the custodial rows of all commands.

    verify.py --lines books.journal > commands
    awk '{ print "? rows " $1 }' commands | jaqhendulu books.journal apply > rows
    jaqhendulu books.journal custodial > custodial
    ledger.py --custodial custodial commands rows > books.ledger
    hledger -f books.ledger check

Each command with rows is one transaction on its business day, with its number, its key and what it said. T and P
have an account each, and so has each part of the rows under who pays or is paid; each posting has its loan. Where
several journals keep the loans of several investors, --investor names the one of this journal in all accounts. With
--custodial the last transaction asserts what that line says of T, P and both advances, so that `check` fails where
the rows do not add up to it. The status is 1 where an input is not whole.
"""
import argparse
import collections
import datetime
import re
import sys

# A command: its number, business day, key, what it said, and its rows.
Command = collections.namedtuple("Command", "number day key said rows")
Row = collections.namedtuple("Row", "loan part payer payee amount")
AMOUNT = r"-?[0-9]+\.[0-9]{2}"


class NotWhole(Exception):
    """Why an input is not what it should be."""


# What is read

def commands_of(text):
    """The number, business day, key and words of each command that verify.py --lines writes."""
    day = None
    for at, line in enumerate(text.splitlines(), 1):
        found = re.fullmatch(r"([0-9]+) (\S+) (.+)", line)
        if not found or int(found[1]) != at:
            raise NotWhole(f"commands: line {at} is not command {at}")
        if found[3].startswith("day "):
            day = found[3][4:]
        if day is None:
            raise NotWhole("commands: the first one sets no business day")
        yield at, day, found[2], found[3]


def texts_of_rows(text):
    """The rows of each text of `? rows`, in their order, which is that of the commands."""
    lines, at, number = text.splitlines(), 0, 0
    while at < len(lines):
        number += 1
        head = re.fullmatch(r"rows ([0-9]+) count ([0-9]+)", lines[at])
        if not head or int(head[1]) != number:
            raise NotWhole(f"rows: line {at + 1} is not the beginning of the rows of command {number}")
        end = at + 1 + int(head[2])
        if end >= len(lines) or lines[end] != "end":
            raise NotWhole(f"rows: those of command {number} do not end after {head[2]}")
        yield [row_of(it) for it in lines[at + 1:end]]
        at = end + 1


def row_of(line):
    found = re.fullmatch(rf"row ([0-9]+) (\w+) (\w+) (\w+) ({AMOUNT})", line)
    if not found:
        raise NotWhole(f"rows: {line!r} is no row")
    return Row(*found.groups())


def joined(commands, rows):
    """The commands with their rows."""
    commands, rows = list(commands), list(rows)
    if len(commands) != len(rows):
        raise NotWhole(f"there are {len(commands)} commands and the rows of {len(rows)}")
    return [Command(*it, its) for it, its in zip(commands, rows)]


def balances_of(text, names):
    """What the custodial line says of the accounts that are asserted."""
    form = rf"custodial T ({AMOUNT}) P ({AMOUNT}) .*escrow-advance ({AMOUNT}) .*pi-advance ({AMOUNT})\n"
    found = re.fullmatch(form, text)
    if not found:
        raise NotWhole("custodial: the text is no custodial line")
    return [(names.account("T", ""), found[1]), (names.account("P", ""), found[2]),
            (names.account("Servicer", "EscrowAdvance"), negated(found[3])),
            (names.account("Servicer", "PiAdvance"), negated(found[4]))]


# What is written

def negated(amount):
    """The amount the other way."""
    return amount[1:] if amount.startswith("-") else amount if amount == "0.00" else "-" + amount


class Names:
    """The names of the accounts, with the investor's where there is one."""

    def __init__(self, investor=None):
        self.investor, self.used = investor, set()

    def account(self, party, part):
        """The account of T, of P, or of who pays or is paid for that part."""
        above, name = ("Assets:Custodial", party) if party in ("T", "P") else (f"Equity:{party}", part)
        name = ":".join([above] + [self.investor] * (self.investor is not None) + [name])
        self.used.add(name)
        return name

    def postings(self, command):
        """Account, amount and loan of each posting of a command."""
        for row in command.rows:
            yield self.account(row.payee, row.part), row.amount, row.loan
            yield self.account(row.payer, row.part), negated(row.amount), row.loan


def as_ledger(commands, balances, names):
    """The text for hledger and ledger."""
    text = []
    for it in commands:
        if it.rows:
            text.append(f"{it.day} ({it.number}) {it.key}\n    ; {it.said}\n")
            text += [f"    {account}  {amount} USD  ; loan: {loan}\n" for account, amount, loan in names.postings(it)]
            text.append("\n")
    if balances:
        text.append(f"{commands[-1].day} custodial\n")
        text += [f"    {account}  0.00 USD = {amount} USD\n" for account, amount in balances]
    head = ["commodity USD\n    format 1000.00 USD\n\n", *(f"account {it}\n" for it in sorted(names.used)), "\n"]
    return "".join(head + text)


def as_beancount(commands, balances, names):
    """The text for beancount."""
    text = []
    for it in commands:
        if it.rows:
            text.append(f'{it.day} * "{it.said}"\n  number: "{it.number}"\n  key: "{it.key}"\n')
            text += [f'  {account}  {amount} USD\n    loan: "{loan}"\n' for account, amount, loan in names.postings(it)]
            text.append("\n")
    # A balance of beancount is that of a day's beginning, and would pass with a cent more or less.
    text += [f"{day_after(commands[-1].day)} balance {account}  {amount} ~ 0.00 USD\n" for account, amount in balances]
    first = commands[0].day if commands else ""
    return "".join([*(f"{first} open {it} USD\n" for it in sorted(names.used)), "\n", *text])


def day_after(day):
    """The day after a day."""
    return (datetime.date.fromisoformat(day) + datetime.timedelta(1)).isoformat()


def words_of(arguments):
    """What the command line says."""
    it = argparse.ArgumentParser(description=__doc__, formatter_class=argparse.RawDescriptionHelpFormatter)
    it.add_argument("commands", help="what verify.py --lines wrote")
    it.add_argument("rows", help="the replies to ? rows of each of them")
    it.add_argument("--custodial", metavar="FILE", help="the custodial line of the same moment, to be asserted")
    it.add_argument("--investor", metavar="NAME", help="the investor's name in the accounts")
    it.add_argument("--beancount", action="store_true", help="for beancount in the place of hledger and ledger")
    asked = it.parse_args(arguments)
    if asked.investor is not None and not re.fullmatch("[A-Z][A-Za-z0-9-]*", asked.investor):
        it.error("an investor's name begins with a capital and has letters, digits and - alone")
    return asked


def read(path):
    with open(path, encoding="ascii") as file:
        return file.read()


def main():
    asked = words_of(sys.argv[1:])
    names = Names(asked.investor)
    try:
        commands = joined(commands_of(read(asked.commands)), texts_of_rows(read(asked.rows)))
        balances = balances_of(read(asked.custodial), names) if asked.custodial and commands else []
    except (OSError, UnicodeDecodeError, NotWhole) as error:
        print(error, file=sys.stderr)
        return 1
    sys.stdout.write((as_beancount if asked.beancount else as_ledger)(commands, balances, names))
    return 0


if __name__ == "__main__":
    sys.exit(main())
