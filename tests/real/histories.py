"""Random histories of a small servicer, and the generated year, with the replies of examples/reckon.py."""
import datetime
import random

import harness  # noqa: F401  (it makes reckon.py importable)
import reckon

LEVEL = 119910
BAD = ["k day", "k1  day 2024-01-01", "? frob", "k1 pay 01 2024-01-01 1.00", "k9 pay 1 2024-01-01 1.00 regular", "?", "",
       "k9 pay 1 2024-01-01 1.00 escrow x", "? rows", "k9 analyse 1 - - spread:", "k9 day 2024-02-30", "x" * 600]


class Draws:
    """What a history draws, and the business day and loans so far."""

    def __init__(self, seed):
        self.random = random.Random(seed)
        self.day = datetime.date(2023, 12, self.random.randint(1, 31))
        self.loans = []

    def one(self, *values):
        return self.random.choice(values)

    def amount(self):
        draw = self.random.randint
        return reckon.money(self.one(draw(1, 500), LEVEL, LEVEL, LEVEL, 2 * LEVEL, draw(1, 300_000),
                                     draw(1, 25_000_000), 0, 10**10 + 1, 130_000))

    def entry_day(self):
        return self.day - datetime.timedelta(self.one(0, 0, 0, 1, 5, 20, 40, 70, 120, -1))

    def month(self):
        return reckon.text_of_month(reckon.month_of(self.day) + self.random.randint(-6, 3))

    def loan(self):
        return self.one(*self.loans) if self.loans and self.random.random() < 0.95 else self.random.randint(1, 9)

    def part(self):
        return self.one("-", "-", "leave", "within30", "spread:12", "spread:11", "spread:2", "spread:61")

    # The fields of each word

    def of_day(self):
        self.day += datetime.timedelta(self.one(1, 3, 10, 17, 28, 31, 0))
        return f"{self.day}"

    def of_board(self):
        self.loans.append(self.random.randint(1, 6))
        boarded = self.day - datetime.timedelta(self.one(0, 10, 40, 1))
        principal = self.one(20_000_000, 150_000, 119_000, 1_000_000)
        pi = reckon.money(self.one(LEVEL, LEVEL, 60_000, 30_000))
        first = reckon.text_of_month(reckon.month_of(boarded) + self.one(1, 1, 2, 2, 3))
        return (f"{self.loans[-1]} {boarded} {reckon.money(principal)} {self.one(6000, 6875, 3)} {self.one(250, 0, 500)}"
                f" {pi} {self.one(360, 4, 2, 12)} {first} {self.one(15, 0, 28, 29)} {self.one(500, 0, 1000)}"
                f" {self.one(2, 1, 0)} {self.one('0.00', '130.00')} {self.one('AA', 'SA', 'SS')}")

    def of_pay(self):
        return self.of_curtail() + self.one("", "", " principal", " escrow")

    def of_curtail(self):
        return f"{self.loan()} {self.entry_day()} {self.amount()}"

    of_deposit = of_curtail

    def of_payoff(self):
        return f"{self.loan()} {self.entry_day()} {self.one('201000.00', '250000.00', '1600.00', '1199.10')}"

    def of_disburse(self):
        return f"{self.of_curtail()} {self.random.randint(1, 3)}"

    def of_refund(self):
        return f"{self.loan()} {self.one('0.01', '59.96', '20.00', '100.00')}"

    of_waive = of_refund

    def of_line(self):
        return (f"{self.loan()} {self.random.randint(1, 3)} {self.one('tax', 'hazard', 'flood', 'other')}"
                f" {self.one(7, 9, 12, 1, 13)} {self.one(12, 6, 3, 1, 5)} {self.one('500.00', '360.00', '0.00')}")

    def of_drop(self):
        return f"{self.loan()} {self.random.randint(1, 3)}"

    def of_analyse(self):
        return f"{self.loan()} {self.one('-', 'refund', 'credit', 'retain')} {self.part()} {self.part()}"

    def of_retype(self):
        return f"{self.loan()} {self.month()} {self.one('AA', 'SA', 'SS')}"

    def query(self, count):
        return "? " + self.one(f"books {self.loan()}", f"at {self.loan()} {self.entry_day()}", "custodial",
                               f"payoff {self.loan()} {self.entry_day()}", f"escrow {self.loan()}",
                               f"report {self.month()}", f"trial {self.month()}",
                               f"rows {self.random.randint(0, count)}", *self.desk(count))

    def desk(self, count):
        """What the desk asks, each query once."""
        later = self.day + datetime.timedelta(self.one(0, 1, 9, 30, 61, 400, -3, -40))
        return (f"loan {self.loan()}", f"history {self.loan()}", f"quote {self.loan()} {later}",
                f"arrears {self.loan()}", "aging", "status", f"command {self.random.randint(0, count)}",
                f"key k{self.random.randint(0, count)}")


WORDS = ("day day board pay pay pay pay curtail payoff payoff deposit disburse refund waive reverse reverse line line "
         "drop analyse analyse close close close close remit remit remit retype query query query query bad").split()


def next_month(servicer, word):
    """The month that is to be closed or remitted next."""
    month = servicer.next_close() if word == "close" else servicer.next_remit()
    return reckon.month_of(servicer.today) if month is None else month


def history(seed, count):
    """So many lines of a random history, and the replies of reckon.py to them."""
    draws, servicer, lines, replies = Draws(seed), reckon.Servicer(), [], []
    for i in range(count):
        key = f"k{i}" if draws.random.random() < 0.97 else f"k{draws.random.randint(0, i)}"
        word = draws.one(*WORDS)
        if word == "bad":
            line = draws.one(*BAD)
        elif word == "query":
            line = draws.query(i)
        elif word in ("close", "remit"):
            line = f"{key} {word} {reckon.text_of_month(next_month(servicer, word) + draws.one(*[0] * 9, 1))}"
        elif word == "reverse":
            line = f"{key} reverse {draws.loan()} {draws.random.randint(1, i + 1)}"
        else:
            line = f"{key} {word} {getattr(draws, 'of_' + word)()}"
        lines.append(line)
        replies.append(servicer.answer(line))
    return "".join(it + "\n" for it in lines).encode(), "".join(replies).encode()


class Year:
    """The generated year of docs/PROGRAM.md's word `drill`."""

    def __init__(self, loans, number):
        self.loans, self.state, self.servicer = range(1, loans + 1), number, reckon.Servicer()
        self.count = self.repeats = self.net = 0

    def draw(self):
        self.state = (self.state * 6364136223846793005 + 1442695040888963407) % 2**64
        return self.state // 2**33 % 10

    def do(self, text):
        """Submits a command twice, and gives its number."""
        self.count += 1
        said = self.servicer.answer(f"d{self.count} {text}")
        self.repeats += self.servicer.answer(f"d{self.count} {text}") == said
        if text.startswith("remit"):
            self.net += int(said.split()[-1].replace(".", ""))
        return int(said.split()[1])

    def run(self):
        self.do("day 2023-12-15")
        for loan in self.loans:
            kind = ("SS", "AA", "SA")[loan % 3]
            self.do(f"board {loan} 2023-12-15 200000.00 6000 250 1199.10 360 2024-02 15 500 2 0.00 {kind}")
        for text in ("day 2024-01-01", "close 2023-12", "remit 2023-12"):
            self.do(text)
        late = {}
        for month in range(2024 * 12 + 1, 2025 * 12 + 1):
            this, before = reckon.text_of_month(month), reckon.text_of_month(month - 1)
            for text in (f"day {this}-01", f"close {before}", f"remit {before}"):
                self.do(text)
            for loan in self.loans:
                if late.get(loan) == "pay":
                    self.do(f"pay {loan} {before}-10 1199.10")
                elif loan in late:
                    self.do(f"reverse {loan} {late[loan]}")
            late = {}
            for loan in self.loans:
                draw = self.draw()
                number = self.do(f"pay {loan} {this}-01 1199.10") if draw not in (7, 8) else None
                if draw >= 8:
                    late[loan] = number or "pay"


def drill_text(loans, number):
    """The summary of a year."""
    year = Year(loans, number)
    year.run()
    servicer = year.servicer
    late = sum(it.books(servicer.today).late for it in servicer.loans.values())
    return (f"drill loans {loans} number {number} commands {servicer.count} repeats {year.repeats}\n"
            f"{servicer.ask_custodial()}remitted {reckon.money(year.net)} late {reckon.money(late)}\n").encode()
