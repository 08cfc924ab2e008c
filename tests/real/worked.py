#!/usr/bin/env python3
"""Worked rows on real processes: a history, the words, an input, and what is written, by hand from the papers' rules.

    worked.py [WORD..]    all cases, or those whose names have the words

Standard library alone; `JAQHENDULU` names another program than the one that `rt` built. Prints a line a case and
`N passed, M failed` at its end.
"""
import os
import sys

from harness import case, run, run_all, same

DAY = "k1 day 2024-02-01\n"
LOAN = "2023-12-15 200000.00 6000 250 1199.10 360 2024-02 15 500 2 0.00"
SMALL = "2023-12-15 1000.00 6000 250 336.67 3 2024-02 15 500 2 0.00"
FIRST_PAYMENT = f"{DAY}k2 board 1 {LOAN} AA\nk3 pay 1 2024-02-01 1199.10\n"


def written(room, rows):
    """Checks rows of a history, words, an input and what is written over the history's journal."""
    journals = {}
    for number, (history, words, given, text) in enumerate(rows, 1):
        if history not in journals:
            path = journals[history] = os.path.join(room, f"books.{len(journals)}")
            same((0, b"", b""), run(path, "init"), "init")
            replies = run(path, "apply", given=history.encode())[1].splitlines()
            same(history.count("\n"), sum(it.startswith(b"ok ") for it in replies), f"row {number}: its history")
        got = run(journals[history], *words.split(), given=given.encode())
        same((0, text.encode(), b""), got, f"row {number}: {words}")


# ---- mortgage insurance

HEADER = "loan,value,line,asked\n"
PAID = f"{DAY}k2 board 1 {LOAN} SS\nk3 pay 1 2024-02-01 1199.10\n"
MARCH = f"{PAID}k4 day 2024-03-01\n"
UNPAID = f"k1 day 2024-04-01\nk2 board 1 {LOAN} SS\n"
PAID_AT_ONCE = f"{UNPAID}k3 pay 1 2024-04-01 3597.30\n"
PAID_LATE = f"k1 day 2024-05-01\nk2 board 1 {LOAN} SS\nk3 pay 1 2024-04-15 3597.30\n"
PAID_OFF = f"{PAID.replace(DAY, 'k1 day 2024-02-16' + chr(10))}k4 payoff 1 2024-02-16 200300.40\nk5 day 2024-04-02\n"
LAST_DUE = f"k1 day 2024-04-01\nk2 board 7 {SMALL} AA\nk3 pay 7 2024-03-01 673.34\n"
DROP = "pmi-1-4 drop 1 4\n"


def insured(room, rows, header=HEADER):
    """Checks rows of a history, a file of insured loans behind its header, and what pmi and pmi-drops write of it."""
    written(room, [it for history, file, ends, drops in rows
                   for it in ((history, "pmi", header + file, ends), (history, "pmi-drops", header + file, drops))])


@case("insurance ends where the scheduled balance, 199800.90 and then 199600.80, reaches 78 percent")
def automatic(room):
    insured(room, [
        (MARCH, "1,256000.00,4,\n", "pmi 1 ends 2024-03-01 Automatic\n", DROP),
        (MARCH, "1,256000.00,4,2024-03-01\n", "pmi 1 ends 2024-03-01 Automatic\n", DROP),
        (MARCH, "1,256000.00,4,2024-02-29\n", "pmi 1 ends 2024-02-29 Asked\n", DROP),
        (PAID, "1,256000.00,4,\n", "pmi 1 runs\n", ""),
    ])


@case("at 80 percent of the value the borrower's request ends it")
def asked(room):
    insured(room, [
        (PAID, "1,249900.00,4,2024-01-31\n", "pmi 1 runs denied 2 Above 200000.00\n", ""),
        (PAID, "1,249900.00,4,2024-02-01\n", "pmi 1 ends 2024-02-01 Asked\n", DROP),
        (PAID, "1,250000.00,4,2024-01-31\n", "pmi 1 ends 2024-01-31 Asked\n", DROP),
        (PAID, "1,249999.99,4,2024-01-31\n", "pmi 1 runs denied 2 Above 200000.00\n", ""),
    ])


@case("of a borrower who is late nothing ends before the arrears are paid, also by itself")
def late(room):
    insured(room, [
        (UNPAID, "1,255800.00,4,2024-04-01\n", "pmi 1 runs denied 1 NotCurrent 2024-02-01\n", ""),
        (PAID_AT_ONCE, "1,255800.00,4,2024-04-01\n", "pmi 1 ends 2024-04-01 Automatic\n", DROP),
        (PAID_LATE, "1,255800.00,4,\n", "pmi 1 ends 2024-05-01 Automatic\n", DROP),
        (PAID_LATE, "1,255800.00,4,2024-04-14\n", "pmi 1 ends 2024-05-01 Automatic\n", DROP),
    ])


@case("insurance ends with a loan that is paid off, and with one whose last installment is due")
def ended(room):
    insured(room, [
        (PAID_OFF, "1,100.00,4,\n1,100.00,4,2024-02-16\n1,100.00,4,2024-02-15\n",
         "pmi 1 ends 2024-03-01 PaidOff\npmi 1 ends 2024-02-16 Asked\npmi 1 ends 2024-03-01 PaidOff\n", DROP * 3),
        (LAST_DUE, "7,0.01,4294967295,\n", "pmi 7 ends 2024-04-01 Automatic\n", "pmi-7-4294967295 drop 7 4294967295\n"),
    ])


@case("rows that say nothing of an insured loan have their line, and the others are not touched by them")
def bad_insured(room):
    insured(room, [
        (MARCH, "9,1.00,4,\n1,0.00,4,\n1,256000.00,4,\n",
         "no 5 NoSuchLoan\nbad row 3 column 2\npmi 1 ends 2024-03-01 Automatic\n", DROP),
        (MARCH, "01,1.00,4,\n1,1,4,\n1,1.00,-4,\n1,1.00,4,2024-02-30\n1,1.00,4\n1,1.00,4,,\n",
         "bad row 2 column 1\nbad row 3 column 2\nbad row 4 column 3\nbad row 5 column 4\n"
         "bad row 6 column 5\nbad row 7 column 5\n", ""),
        (MARCH, "1,1.00,4,2024-03-02\n1,1.00,4,2023-12-14\n9,1.00,4,2024-03-02\n",
         "no 9 FutureDated 2024-03-01\nno 10 BeforeBoarding 2023-12-15\nno 5 NoSuchLoan\n", ""),
        (MARCH, "", "", ""),
    ])


@case("a file of insured loans without its header has a bad first row, and nothing else is said of it")
def headless(room):
    files = ("", "loan,value,line\n1,256000.00,4,\n")
    insured(room, [(MARCH, given, "bad row 1 column 1\n", "") for given in files], "")


# ---- reconciliations

BANK = "kind,account,number,amount\n"
TWO_DEPOSITS = f"{FIRST_PAYMENT}k4 deposit 1 2024-02-01 100.00\nk5 deposit 1 2024-02-01 50.00\n"


@case("what the bank shows is matched, what it does not show stays open, and what is not booked is told")
def matched(room):
    written(room, [
        (FIRST_PAYMENT, "reconcile 1 3", BANK + "bank,T,3,1199.10\nbank,P,3,1199.10\nbank,T,9,5.00\n",
         "reconcile 1 3\nopen T 3 -1199.10\nopen P 3 -41.67\nunbooked T 9 5.00 NoSuch\n"
         "account T book 0.00 bank 1204.10 open -1199.10 unbooked 5.00\n"
         "account P book 1157.43 bank 1199.10 open -41.67 unbooked 0.00\nend\n"),
        (FIRST_PAYMENT, "reconcile 4 4", BANK + "open,T,3,-1199.10\nbank,T,3,-1199.09\n",
         "reconcile 4 4\nopen T 3 -1199.10\nunbooked T 3 -1199.09 Amount -1199.10\n"
         "account T book -1199.10 bank -1199.09 open -1199.10 unbooked -1199.09\n"
         "account P book 0.00 bank 0.00 open 0.00 unbooked 0.00\nend\n"),
        (FIRST_PAYMENT, "reconcile 1 4294967295", BANK,
         "reconcile 1 4294967295\nopen T 3 1199.10\nopen T 3 -1199.10\nopen P 3 1199.10\n"
         "open P 3 -41.67\naccount T book 0.00 bank 0.00 open 0.00 unbooked 0.00\n"
         "account P book 1157.43 bank 0.00 open 1157.43 unbooked 0.00\nend\n"),
    ])


@case("a line that comes twice is matched once: it is extra where all of its number is matched, else of another amount")
def matched_once(room):
    written(room, [
        (FIRST_PAYMENT, "reconcile 3 3", BANK + "bank,T,3,1199.10\nbank,T,3,1199.10\nbank,T,3,-1199.10\n",
         "reconcile 3 3\nopen P 3 1199.10\nopen P 3 -41.67\nunbooked T 3 1199.10 Extra\n"
         "account T book 0.00 bank 1199.10 open 0.00 unbooked 1199.10\n"
         "account P book 1157.43 bank 0.00 open 1157.43 unbooked 0.00\nend\n"),
        (FIRST_PAYMENT, "reconcile 3 3", BANK + "bank,T,3,1199.10\nbank,T,3,1199.10\n",
         "reconcile 3 3\nopen T 3 -1199.10\nopen P 3 1199.10\nopen P 3 -41.67\n"
         "unbooked T 3 1199.10 Amount -1199.10\n"
         "account T book 0.00 bank 2398.20 open -1199.10 unbooked 1199.10\n"
         "account P book 1157.43 bank 0.00 open 1157.43 unbooked 0.00\nend\n"),
        (FIRST_PAYMENT, "reconcile 4 4",
         BANK + "open,T,9,5.00\nbank,T,9,5.00\nopen,T,9,5.00\nopen,T,9,5.00\n"
         "bank,T,9,5.00\nopen,P,8,2.00\nbank,P,8,2.00\nbank,P,8,2.00\nbank,P,8,2.00\n",
         "reconcile 4 4\nopen T 9 5.00\nunbooked P 8 2.00 Extra\nunbooked P 8 2.00 Extra\n"
         "account T book 15.00 bank 10.00 open 5.00 unbooked 0.00\n"
         "account P book 2.00 bank 6.00 open 0.00 unbooked 4.00\nend\n"),
    ])


@case("what stays open is handed to the next reconciliation, over three spans, until nothing is left")
def carried(room):
    written(room, [
        (TWO_DEPOSITS, "reconcile 1 3", BANK + "bank,T,3,1199.10\n",
         "reconcile 1 3\nopen T 3 -1199.10\nopen P 3 1199.10\nopen P 3 -41.67\n"
         "account T book 0.00 bank 1199.10 open -1199.10 unbooked 0.00\n"
         "account P book 1157.43 bank 0.00 open 1157.43 unbooked 0.00\nend\n"),
        (TWO_DEPOSITS, "reconcile 4 4",
         BANK + "open,T,3,-1199.10\nopen,P,3,1199.10\nopen,P,3,-41.67\n"
         "bank,T,3,-1199.10\nbank,T,4,100.00\nbank,P,3,1199.10\n",
         "reconcile 4 4\nopen P 3 -41.67\n"
         "account T book -1099.10 bank -1099.10 open 0.00 unbooked 0.00\n"
         "account P book 1157.43 bank 1199.10 open -41.67 unbooked 0.00\nend\n"),
        (TWO_DEPOSITS, "reconcile 5 5", BANK + "open,P,3,-41.67\nbank,P,3,-41.67\nbank,T,5,50.00\n",
         "reconcile 5 5\naccount T book 50.00 bank 50.00 open 0.00 unbooked 0.00\n"
         "account P book -41.67 bank -41.67 open 0.00 unbooked 0.00\nend\n"),
    ])


@case("the first row of a bank's list that does not fit is told alone, with its first column that does not")
def bad_lists(room):
    lists = [("", 1, 1), ("bank,T,3,1.00\n", 1, 1), ("kind,account,number,amount,\n", 1, 1)]
    lists += [(BANK + rows, row, column) for rows, row, column in (
        ("due,T,3,1.00\n", 2, 1), ("bank,X,3,1.00\n", 2, 2), ("bank,T,03,1.00\n", 2, 3), ("bank,T,3,0.00\n", 2, 4),
        ("bank,T,3,-0.00\n", 2, 4), ("open,P,3,10000000000000000.00\n", 2, 4), ("bank,T,3\n", 2, 5),
        ("bank,T,3,1.00,\n", 2, 5), ("bank,T,3,1.00\nopen,P,x,1.0\nbank,Q,3,1.00\n", 3, 3))]
    written(room, [(FIRST_PAYMENT, "reconcile 1 3", it, f"bad row {row} column {column}\n") for it, row, column in lists])


# ---- transfers

BOARDED = "2024-06-01 200000.00 6000 250 1199.10 360 2024-07 15 500 2 130.00 AA"
JUNE = "k1 day 2024-06-15\n"
BOARDS = (f"k2 board 2 {BOARDED}\n", f"k3 board 3 {BOARDED}\n")
OF_2 = ("k4 line 2 1 tax 7 12 2000.00\nk5 deposit 2 2024-06-10 1500.00\n",
        "k7 disburse 2 2024-06-12 2000.00 1\nk8 deposit 2 2024-06-14 600.00\n")
OF_3 = "k6 deposit 3 2024-06-10 300.00\n"
TWO_LOANS = JUNE + BOARDS[0] + BOARDS[1] + OF_2[0] + OF_3 + OF_2[1]
OF_LOAN_2 = JUNE + BOARDS[0] + OF_2[0] + OF_2[1]
OF_LOAN_3 = JUNE + BOARDS[1] + OF_3


def split(room, rows):
    """Checks rows of a history, a range of loans, and the histories inside and outside."""
    written(room, [it for history, loans, inside, outside in rows
                   for it in ((history, f"transfer {loans}", "", inside), (history, f"remain {loans}", "", outside))])


@case("loans go with their commands: one, all, or none, where the range has no loan that was boarded")
def one_or_all(room):
    split(room, [
        (TWO_LOANS, "2 2", OF_LOAN_2, OF_LOAN_3),
        (TWO_LOANS, "3 3", OF_LOAN_3, OF_LOAN_2),
        (TWO_LOANS, "0 4294967295", TWO_LOANS, JUNE),
        (TWO_LOANS, "0 1", JUNE, TWO_LOANS),
    ])


@case("a reversal names its entry by the number that this has in the part")
def renumbered(room):
    day, second = "k1 day 2024-03-01\n", f"k2 board 2 {LOAN} AA\n"
    first = f"k3 board 1 {LOAN} AA\nk4 pay 1 2024-02-01 1199.10\n"
    split(room, [(day + second + first + "k5 reverse 1 4\n", "1 1", day + first + "k5 reverse 1 3\n", day + second)])


@case("a part has the closings and remittances from the least boarded month of its loans on")
def months_dropped(room):
    day, first = "k1 day 2024-03-01\n", f"k2 board 1 {LOAN} AA\n"
    second = "k4 board 2 2024-01-15 200000.00 6000 250 1199.10 360 2024-03 15 500 2 0.00 AA\n"
    later = "k6 close 2024-01\nk7 close 2024-02\nk8 remit 2024-01\n"
    split(room, [(f"{day}{first}k3 close 2023-12\n{second}k5 remit 2023-12\n{later}", "2 9", day + second + later,
                  f"{day}{first}k3 close 2023-12\nk5 remit 2023-12\n{later}")])


# ---- statements

ON_DAY = "statement 2024-06-15 loans"
NOTHING = "total T 0.00 P 0.00\n"


def loan(number, upb="0.00", due="-", escrow="0.00", suspense="0.00", advance="0.00", held="0.00"):
    """A loan's line of a statement."""
    return (f"loan {number} upb {upb} next {due} escrow {escrow} suspense {suspense} late 0.00 "
            f"escrow-advance {advance} held {held} pi-advance 0.00\n")


LOAN_2 = loan(2, "200000.00", "2024-07", "100.00")
STATED_2 = f"{ON_DAY} 1\n{LOAN_2}total T 100.00 P 0.00\nend\n"
STATED = f"{ON_DAY} 2\n{LOAN_2}{loan(3, '200000.00', '2024-07', '300.00')}total T 400.00 P 0.00\nend\n"


@case("statements say what is held of each loan")
def stated(room):
    written(room, [
        (TWO_LOANS, "statement", "", STATED),
        (OF_LOAN_2, "statement", "", STATED_2),
        ("", "statement", "", f"statement 1990-01-01 loans 0\n{NOTHING}end\n"),
    ])


@case("the servicer that receives a loan confirms what the old one stated of it")
def confirmed(room):
    most = "999999999999999999.99"
    written(room, [(OF_LOAN_2, "confirm", given, text) for given, text in (
        (STATED_2, "day same\nsame 2\nend\n"),
        # the last line without its line feed
        (f"{ON_DAY} 0\n{NOTHING}end", "day same\nextra 2\nend\n"),
        (STATED, "day same\nsame 2\nmissing 3\nend\n"),
        (f"statement 2024-06-14 loans 0\n{NOTHING}end\n", "day differs\nextra 2\nend\n"),
        # one cent of the balance, and a dash beside a balance
        (STATED_2.replace("200000.00", "199999.99"), "day same\ndiffers 2\nend\n"),
        (STATED_2.replace("2024-07", "-"), "day same\ndiffers 2\nend\n"),
        # below zero, eighteen digits, and the last month
        (f"{ON_DAY} 2\n{loan(1, due='2140-12', escrow='-5.00', advance='5.00', held=most)}{loan(3, '1.00', '1990-01')}"
         f"total T 0.00 P {most}\nend\n", "day same\nmissing 1\nextra 2\nmissing 3\nend\n"),
        # the first line alone
        (f"{ON_DAY} 1\n", "bad 2\n"),
    )] + [(OF_LOAN_3, "confirm", STATED_2, "day same\nmissing 2\nextra 3\nend\n")])


@case("a text is no statement at its first line that does not fit")
def bad_statements(room):
    most, plain = "999999999999999999.99", loan(2)
    written(room, [(OF_LOAN_2, "confirm", given, f"bad {line}\n") for given, line in (
        ("", 1), ("\n", 1), (f"{ON_DAY} 00\n{NOTHING}end\n", 1), (f"statement 2100-01-01 loans 0\n{NOTHING}end\n", 1),
        (f"{ON_DAY} 0 \n{NOTHING}end\n", 1),
        # another count: a total where a loan is due, and a loan where the total is
        (f"{ON_DAY} 1\n{NOTHING}end\n", 2), (f"{ON_DAY} 0\n{plain}{NOTHING}end\n", 2),
        # no amount is a zero below zero, and escrow alone may be below zero
        (f"{ON_DAY} 1\n{loan(2, escrow='-0.00')}", 2), (f"{ON_DAY} 1\n{loan(2, suspense='-1.00')}", 2),
        # nineteen digits, and months that are none
        (f"{ON_DAY} 1\n{loan(2, '1000000000000000000.00')}", 2), (f"{ON_DAY} 1\n{loan(2, due='2141-01')}", 2),
        (f"{ON_DAY} 1\n{loan(2, due='1989-12')}", 2),
        # two spaces, a field that is missing, and loans that do not rise
        (f"{ON_DAY} 1\n{plain.replace('loan 2 ', 'loan 2  ')}", 2),
        (f"{ON_DAY} 1\n{plain.replace(' pi-advance 0.00', '')}", 2),
        (f"{ON_DAY} 2\n{plain}{plain}", 3),
        # a total that is not the sum, and a sum of nineteen digits
        (f"{ON_DAY} 0\ntotal T 0.01 P 0.00\nend\n", 2), (f"{ON_DAY} 0\ntotal T 0.00 P 0.01\nend\n", 2),
        (f"{ON_DAY} 2\n{loan(1, held=most)}{loan(2, held=most)}total T 0.00 P 1999999999999999999.98\nend\n", 4),
        # a text that stops early, and something behind the end
        (f"{ON_DAY} 0\n{NOTHING}", 3), (f"{ON_DAY} 0\n{NOTHING}End\n", 3), (f"{ON_DAY} 0\n{NOTHING}end\n\n", 4),
        (f"{ON_DAY} 0\n{NOTHING}end\nend", 4),
    )])


if __name__ == "__main__":
    sys.exit(run_all(sys.argv[1:]))
