#!/usr/bin/env python3
"""Tests on real processes: transfer, statement, insurance and reconciliation over journals, beside examples/further.py.

    further.py [WORD..]    all cases, or those whose names have the words

Standard library alone; `JAQHENDULU` names another program than the one that `rt` built. Prints a line a case and
`N passed, M failed` at its end.
"""
import os
import random
import sys

from harness import case, named, run, run_all, same
import further
import histories
import reckon
import spellings

CASES = 12


def journal_of(room, name, lines):
    """A journal with the commands among these lines, and reckon.py's servicer of them."""
    path, servicer = os.path.join(room, name), reckon.Servicer()
    same((0, b"", b""), run(path, "init"), "init")
    replies = "".join(servicer.answer(it) for it in lines.decode().splitlines()).encode()
    same((0, replies, b""), run(path, "apply", given=lines), name)
    return path, servicer


def random_books(room, seed):
    lines, _ = histories.history(seed, 100)
    kept = [it for it in lines.decode("latin-1").splitlines() if it.isascii()]
    return journal_of(room, f"books.{seed}", "".join(it + "\n" for it in kept).encode())


def told(path, servicer, *words, given=b""):
    """What a word writes, which is what further.py reckons."""
    wanted = further.answer(servicer, words, given).encode()
    same((0, wanted, b""), run(path, *words, given=given), words)
    return wanted


@case("words: ranges that go down, spans from 0 and numbers out of form are status 2")
def usage(room):
    for it in (["transfer", "2", "1"], ["remain", "2", "1"], ["transfer", "1"], ["transfer"], ["remain", "01", "2"],
               ["transfer", "0", "4294967296"], ["transfer", "-1", "2"], ["reconcile", "0", "4"], ["reconcile", "5", "4"],
               ["remain", "2", "1"], ["remain", "1", ""], ["remain", "1", "2", "3"], ["reconcile"],
               ["reconcile", "1"], ["statement", "1"], ["confirm", "x"], ["pmi", "x"], ["pmi-drop"], ["pmi_drops"]):
        status, out, log = run("j", *it, cwd=room)
        same((2, b"", b"status 2 Usage"), (status, out, named(log)), it)
    same([], os.listdir(room), "files")


@case(f"{CASES} random histories are handed over: parts, statements and what confirms them; reports and cash add up")
def handed(room):
    for seed in range(300, 300 + CASES):
        path, servicer = random_books(room, seed)
        low = random.Random(seed).randint(0, 5)
        high = low + random.Random(seed).randint(0, 3)
        parts = []
        for word in ("transfer", "remain"):
            lines = told(path, servicer, word, str(low), str(high))
            parts.append(journal_of(room, f"{word}.{seed}", lines))
            told(*parts[-1], "statement")
        stated = told(path, servicer, "statement")
        for it in [(path, servicer), *parts]:
            told(*it, "confirm", given=stated)
        totals = [it.totals() for _, it in [(path, servicer), *parts]]
        for name in ("suspense", "escrow", "EscrowAdvance", "held", "PiAdvance"):
            whole, inside, outside = (sum(it[name] for it in total.values()) for total in totals)
            same(whole, inside + outside, f"seed {seed}, {name}")
        for report in servicer.reports:
            lines = []
            for part, books in parts:
                if report["month"] in [it["month"] for it in books.reports]:
                    text = run(part, "report", reckon.text_of_month(report["month"]))[1].decode()
                    lines += [it for it in text.splitlines() if it.startswith("line ")]
            whole = run(path, "report", reckon.text_of_month(report["month"]))[1].decode()
            same(sorted(it for it in whole.splitlines() if it.startswith("line ")), sorted(lines), f"seed {seed}, report")


@case("all of the loans, and none")
def ends(room):
    path, servicer = random_books(room, 333)
    for words in (("transfer", "0", "4294967295"), ("remain", "0", "4294967295"), ("transfer", "100", "200"),
                  ("remain", "100", "200")):
        told(path, servicer, *words)


@case("statements with one line changed, left out or added are refused at that line or differ")
def mistyped(room):
    path, servicer = random_books(room, 340)
    lines = further.statement(servicer).splitlines(keepends=True)
    draws = random.Random(1)
    for _ in range(60):
        it = list(lines)
        at = draws.randrange(len(it))
        change = draws.randrange(4)
        if change == 0:
            del it[at]
        elif change == 1:
            it.insert(at, draws.choice(lines))
        elif change == 2:
            words = it[at].split(" ")
            words[draws.randrange(len(words))] = draws.choice(["0.00", "-0.00", "1", "01", "2024-13", "2140-12", "-", "x", ""])
            it[at] = " ".join(words)
        else:
            place = draws.randrange(len(it[at]))
            it[at] = it[at][:place] + draws.choice("0 9.-\n") + it[at][place + 1:]
        told(path, servicer, "confirm", given="".join(it).encode())
    told(path, servicer, "confirm", given="".join(lines).rstrip("\n").encode())
    told(path, servicer, "confirm", given=b"")


@case(f"{CASES} random files of insured loans; what is dropped is dropped once")
def insured(room):
    for seed in range(400, 400 + CASES):
        path, servicer = random_books(room, seed)
        draws = random.Random(seed)
        rows = ["loan,value,line,asked"]
        for _ in range(30):
            day = spellings.first_day(reckon.month_of(servicer.today) - draws.randint(-1, 14))
            asked = draws.choice(["", "", f"{day}", f"{day:%Y-%m}-15", "2024-02-30", "x"])
            value = reckon.money(draws.choice([0, 1, 150_000, 119_000, 25_000_000, 20_000_000, 1_000_000, 24_900_000]))
            rows.append(f"{draws.randint(0, 7)},{value},{draws.randint(0, 3)},{asked}" + ",x" * (draws.random() < 0.05))
        given = "".join(it + "\n" for it in rows).encode()
        told(path, servicer, "pmi", given=given)
        drops = told(path, servicer, "pmi-drops", given=given)
        first = run(path, "apply", given=drops)[1]
        kept = [it for it in first.splitlines() if it.startswith(b"ok ")]
        again = run(path, "apply", given=drops)[1]
        same(kept, [it for it in again.splitlines() if it.startswith(b"ok ")], f"seed {seed}, again")
    for given in (b"", b"x\n", b"loan,value,line\n1,1.00,1\n"):
        same((0, b"bad row 1 column 1\n", b""), run(path, "pmi", given=given))
        same((0, b"", b""), run(path, "pmi-drops", given=given))


def bank_list(draws, items):
    """Lines of the bank: most items, some of them twice, changed or with another number, and in another order."""
    lines = []
    for account, number, cents in items:
        draw = draws.random()
        if draw < 0.1:
            continue
        lines.append((account, number, cents if draw < 0.85 else cents + draws.choice([1, -1, 900])))
        if draw > 0.95:
            lines.append((account, number, cents))
    lines += [(draws.choice("TP"), draws.randint(0, 200), draws.choice([1, -500, 119910])) for _ in range(3)]
    draws.shuffle(lines)
    return [it for it in lines if it[2]]


def file_of(open_items, bank):
    rows = [("open", *it) for it in open_items] + [("bank", *it) for it in bank]
    return ("kind,account,number,amount\n" + "".join(
        f"{kind},{account},{number},{reckon.money(cents)}\n" for kind, account, number, cents in rows)).encode()


def open_of(text):
    return [(it[1], int(it[2]), int(it[3].replace(".", ""))) for it in
            (line.split() for line in text.decode().splitlines()) if it[0] == "open"]


def sums_of(text, account):
    """Book, bank, open and unbooked of an account."""
    line = next(it for it in text.decode().splitlines() if it.startswith(f"account {account} "))
    return [int(it.replace(".", "")) for it in line.split()[3::2]]


@case(f"{CASES} random histories are reconciled with a list of the bank")
def reconciled(room):
    for seed in range(500, 500 + CASES):
        path, servicer = random_books(room, seed)
        draws = random.Random(seed)
        first = draws.randint(1, max(servicer.count, 1))
        last = draws.randint(first, servicer.count + 5)
        items = [it for number in range(first, last + 1) for it in further.items_of(servicer, number)]
        carried = bank_list(draws, items)[:5]
        text = told(path, servicer, "reconcile", str(first), str(last), given=file_of(carried, bank_list(draws, items)))
        for account in ("T", "P"):
            book, bank, left, unbooked = sums_of(text, account)
            same(book, bank + left - unbooked, f"seed {seed}, {account}")
    for row in ("bank,X,3,1.00", "bank,T,3,0.00", "bank,T,3,-0.00", "bank,T,03,1.00", "note,T,3,1.00", "bank,T,3",
                "bank,T,3,12345678901234567.00", "bank,T,3,1234567890123456.00", "bank,T,4294967296,1.00"):
        given = f"kind,account,number,amount\nbank,T,3,1.00\n{row}\n".encode()
        told(path, servicer, "reconcile", "1", "4294967295", given=given)


def month_of_forty():
    """Forty loans of the three types, and a month in which three of four pay, with two returned items."""
    yield "d1 day 2024-01-02"
    for loan in range(1, 41):
        kind = ("SS", "AA", "SA")[loan % 3]
        yield f"b{loan} board {loan} 2023-12-15 200000.00 6000 250 1199.10 360 2024-02 15 500 2 0.00 {kind}"
    for text in ("c1 close 2023-12", "r1 remit 2023-12", "d2 day 2024-02-01"):
        yield text
    for loan in range(1, 31):
        yield f"p{loan} pay {loan} 2024-02-01 1199.10"
    yield "v1 reverse 7 51"
    yield "d3 day 2024-03-01"
    for text in ("c2 close 2024-01", "c3 close 2024-02", "r2 remit 2024-01", "r3 remit 2024-02"):
        yield text
    for loan in range(20, 41):
        yield f"q{loan} pay {loan} 2024-03-01 1199.10"


@case("over three lists of a month of forty loans the open lines carry the difference on")
def carried_on(room):
    path, servicer = journal_of(room, "forty", "".join(it + "\n" for it in month_of_forty()).encode())
    draws, carried, late = random.Random(40), [], []
    before = {"T": 0, "P": 0}
    spans = [(1, 60), (61, 80), (81, servicer.count)]
    for at, (first, last) in enumerate(spans):
        items = [it for number in range(first, last + 1) for it in further.items_of(servicer, number)]
        held_back = [it for it in items if at < 2 and draws.random() < 0.2]
        bank = late + [it for it in items if it not in held_back]
        late = [it for it in items if it in held_back]
        draws.shuffle(bank)
        text = told(path, servicer, "reconcile", str(first), str(last), given=file_of(carried, bank))
        carried = open_of(text)
        same(sorted(late), sorted(carried), f"list {at + 1}, what stands open")
        for account in ("T", "P"):
            book, listed, left, unbooked = sums_of(text, account)
            same((book, 0), (listed + left - unbooked, unbooked), f"list {at + 1}, {account}")
            # What stood open before is the difference between this list's book and its own span.
            own = sum(cents for its, _, cents in items if its == account)
            same(before[account], book - own, f"list {at + 1}, {account}, carried on")
            before[account] = left
    same([], carried, "open at the end")


if __name__ == "__main__":
    sys.exit(run_all(sys.argv[1:]))
