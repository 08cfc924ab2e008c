"""Seeded workloads of the benchmark: request lines of a servicer's years, and journals of them."""
import datetime
import random
import struct

TYPES = ("SS", "AA", "SA")
TERMS = "200000.00 6000 250 1199.10 360 2024-02 15 500 2 0.00"


def month_text(month):
    return f"{month // 12:04}-{month % 12 + 1:02}"


def year(loans, months, seed):
    """Commands of so many loans over so many months from December 2023: boarding, then each month its business day,
    the close and the remitting of the month before, late payments of it, and a payment of nine loans in ten."""
    draws, count = random.Random(seed), 0

    def line(text):
        nonlocal count
        count += 1
        return f"d{count} {text}"

    yield line("day 2023-12-15")
    for loan in range(1, loans + 1):
        yield line(f"board {loan} 2023-12-15 {TERMS} {TYPES[loan % 3]}")
    for text in ("day 2024-01-01", "close 2023-12", "remit 2023-12"):
        yield line(text)
    late = []
    for month in range(2024 * 12 + 1, 2024 * 12 + 1 + months):
        this, before = month_text(month), month_text(month - 1)
        for text in (f"day {this}-01", f"close {before}", f"remit {before}"):
            yield line(text)
        for loan in late:
            yield line(f"pay {loan} {before}-10 1199.10")
        late = []
        for loan in range(1, loans + 1):
            draw = draws.randrange(100)
            if draw < 90:
                yield line(f"pay {loan} {this}-01 1199.10")
            elif draw < 95:
                late.append(loan)


def boards(numbers):
    """Commands that board a loan under each of these numbers, after the first business day."""
    yield "b0 day 2023-12-15"
    for loan in numbers:
        yield f"b{loan} board {loan} 2023-12-15 {TERMS} {TYPES[loan % 3]}"


def business_days(count):
    """Commands of so many business days, one a calendar day from 2023-12-16 on."""
    first = datetime.date(2023, 12, 16)
    for at in range(count):
        yield f"n{at} day {first + datetime.timedelta(at)}"


def payments_in(lines):
    """The key, loan, day and amount of each payment among the lines."""
    for line in lines:
        words = line.split()
        if words[1] == "pay":
            yield words[0], words[2], words[3], words[4]


def as_ledger(lines):
    """The payments as transactions of ledger and hledger, one a payment, from T to the loan."""
    for key, loan, day, amount in payments_in(lines):
        yield f"{day} {key}\n    T  {amount}\n    Loans:{loan}\n"


def as_beancount(lines):
    """The same for beancount, which wants each account opened."""
    lines = list(lines)
    yield "2023-12-01 open Assets:T USD"
    for loan in sorted({int(loan) for _, loan, _, _ in payments_in(lines)}):
        yield f"2023-12-01 open Income:Loan{loan} USD"
    for key, loan, day, amount in payments_in(lines):
        yield f'{day} * "{key}"\n  Assets:T  {amount} USD\n  Income:Loan{loan}\n'


def entries(loans, count):
    """So many deposits of each loan, eight a month, with no closing; the business day is in the last of these months."""
    yield "b0 day 2023-12-15"
    for loan in range(1, loans + 1):
        yield f"b{loan} board {loan} 2023-12-15 {TERMS} SS"
    for month in range(count // 8):
        yield f"m{month} day {month_text(2024 * 12 + month)}-01"
        for loan in range(1, loans + 1):
            for entry in range(8):
                yield f"e{loan}.{month}.{entry} deposit {loan} {month_text(2024 * 12 + month)}-01 0.01"


def late_entries(loans, each, month, name):
    """So many deposits more of each loan, in one month."""
    for entry in range(each):
        for loan in range(1, loans + 1):
            yield f"{name}{loan}.{entry} deposit {loan} {month_text(month)}-01 0.01"


def journal_of(lines):
    """The bytes of a journal of these lines (docs/JOURNAL.md)."""
    records = [b"MSRVJ002"]
    for number, line in enumerate(lines, 1):
        data = line.encode()
        records.append(b"\1" + struct.pack(">IH", number, len(data)) + data)
    return b"".join(records) + b"\0"
