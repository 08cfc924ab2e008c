"""What the desk asks, once more in plain Python: a part of reckon.py's servicer, written from docs/DEFINITIONS.md."""
import copy

from spellings import Refused, first_day, half_up, money, month_of, text_of_month

COLUMNS = ("interest", "principal", "escrow", "late", "charges", "suspense")
WORDS = {"month": "month", "late": "late-charge"}
AGES = (("late1", 1, 29), ("late30", 30, 59), ("late60", 60, 89), ("late90", 90, None))


class Desk:
    """The eight queries of the desk over a servicer's loans, reports and commands."""

    def ask_loan(self, number):
        loan = self.loan(number)
        terms = loan.terms
        said = [("boarded", terms["boarded"]), ("principal", money(terms["principal"])), ("rate", terms["rate"]),
                ("fee", terms["fee"]), ("pi", money(terms["pi"])), ("term", terms["term"]),
                ("first", text_of_month(terms["first"])), ("grace", terms["grace"]), ("late", terms["late"]),
                ("cushion", terms["cushion"]), ("escrow", money(terms["escrow"])), ("type", terms["kind"])]
        text = f"loan {number} " + " ".join(f"{name} {value}" for name, value in said) + "\n"
        for line, (kind, month, every, cents) in loan.lines.items():
            text += f"line {line} {kind} {month} {every} {money(cents)}\n"
        for month, kind in loan.types:
            text += f"type {text_of_month(month)} {kind}\n"
        return text + "end\n"

    def ask_history(self, number):
        loan = self.loan(number)
        lines = [line_of(loan, event, before, after) for event, before, after in passed(loan, self.today)
                 if event[1] == 2 or (before.suspense, before.late) != (after.suspense, after.late)]
        taken = [f"reversed {entry} {by}\n" for entry, by in loan.reversed.items()]
        return f"history {number} {self.today} events {len(lines)}\n" + "".join(lines + taken) + "end\n"

    def ask_quote(self, number, day):
        loan = self.loan(number)
        if day < loan.terms["boarded"]:
            raise Refused(f"10 BeforeBoarding {loan.terms['boarded']}")
        books = loan.books(day)
        perday = half_up(books.upb * loan.terms["rate"], 36_000_000)
        return f"quote {number} {day} {money(books.payoff_due(day))} perday {money(perday)}\n"

    def ask_arrears(self, number):
        return f"arrears {number} {self.today} {arrears(self.loan(number).books(self.today), self.today)}\n"

    def ask_aging(self):
        late, counts = [], dict.fromkeys(("current", *(age for age, *_ in AGES), "satisfied"), 0)
        for number, loan in sorted(self.loans.items()):
            books = loan.books(self.today)
            days = 0 if books.upb == 0 else (self.today - first_day(books.due_month())).days
            age = age_of(days) if books.upb else "satisfied"
            counts[age] += 1
            if books.upb and days > 0:
                late.append(f"late {number} next {text_of_month(books.due_month())} days {days}"
                            f" {arrears(books, self.today)}\n")
        said = " ".join(f"{age} {count}" for age, count in counts.items())
        return f"aging {self.today} loans {len(late)}\n" + "".join(late) + f"total {said}\nend\n"

    def ask_status(self):
        recorded = len(self.pending) + sum(len(it["adjustments"]) for it in self.reports)
        months = [("closed", self.closed()), ("remitted", self.remitted), ("close", self.next_close()),
                  ("remit", self.next_remit())]
        said = " ".join(f"{name} {'-' if month is None else text_of_month(month)}" for name, month in months)
        return (f"status {self.today} loans {len(self.loans)} commands {self.count} {said}"
                f" pending {len(self.pending)} adjustments {recorded}\n")

    def ask_command(self, number):
        if not 1 <= number <= self.count:
            raise Refused("28 NoSuchCommand")
        line = self.accepted[number - 1]
        reply = self.keys[line.split(" ")[0]][2]
        return f"command {number}\nline {line}\nreply {reply}end\n"

    def ask_key(self, key):
        if key not in self.keys:
            raise Refused("28 NoSuchCommand")
        return self.ask_command(self.keys[key][1])


def passed(loan, day):
    """The events of a loan up to a day, each with the books before and after it."""
    books = loan.start()
    for event in loan.events(day):
        before = copy.copy(books)
        books.happen(event[0], event[3], event[4])
        yield event, before, copy.copy(books)


def line_of(loan, event, before, after):
    """The line of an event in a loan's history."""
    at, rank, number, what, values = event
    rest = values[1] if what == "pay" else None
    cents = values[1] if what == "analyse" else values[0] if rank == 2 else 0
    word = f"pay-{rest}" if rest else WORDS.get(what, what)
    changes = " ".join(f"{name} {money(getattr(after, name) - getattr(before, name))}" for name in COLUMNS)
    following = text_of_month(after.due_month()) if after.upb else "-"
    return (f"event {at} {number if rank == 2 else '-'} {word} {money(cents)} {changes} upb {money(after.upb)}"
            f" next {following}\n")


def arrears(books, day):
    """What is due on a day and not paid: each installment on the balance that those before it leave."""
    ahead, due, count = copy.copy(books), 0, 0
    while ahead.upb > 0 and first_day(ahead.due_month()) <= day:
        interest, _, principal, escrow = ahead.installment()
        due, count = due + interest + principal + escrow, count + 1
        ahead.upb, ahead.next = ahead.upb - principal, ahead.next + 1
    return (f"installments {count} due {money(due)} suspense {money(books.suspense)}"
            f" pay {money(max(0, due - books.suspense))} late {money(books.late)}")


def age_of(days):
    """The name of the count of a loan that is so many days late."""
    for age, first, last in AGES:
        if first <= days and (last is None or days <= last):
            return age
    return "current"
