#!/usr/bin/env python3
"""The rules once more, in plain Python, written from docs/DEFINITIONS.md and not from the program.

    reckon.py < lines            answers request lines as `session` does
    reckon.py JOURNAL < queries  reads a journal's file and answers queries over its commands
    reckon.py --lines JOURNAL    writes the number and the line of each command of a journal's file

It keeps nothing but the accepted commands and folds every loan anew for each answer, so it is slow; it is a
check of a small servicer's books that shares no code with the program. Python's standard library alone.
"""
import datetime
import struct
import sys

from desk import Desk
from spellings import (
    TOP, NoRequest, Refused, days360, first_day, half_up, last_day, money, month_interest, month_of, read_line,
    text_of_month)

# One loan

class Plan:
    """What an installment's escrow part is from a month on."""

    def __init__(self, start, base, credit=0, short=(0, 0), deficient=(0, 0)):
        self.start, self.base, self.credit, self.short, self.deficient = start, base, credit, short, deficient

    def part(self, month):
        more = sum(each for each, months in (self.short, self.deficient) if self.start <= month < self.start + months)
        less = self.credit if self.start <= month < self.start + 12 else 0
        return max(0, self.base + more - less)


class Books:
    """A loan's books on a day, made by folding its events from boarding."""

    def __init__(self, terms):
        self.terms, self.day = terms, terms["boarded"]
        self.upb, self.next = terms["principal"], 1
        self.escrow = self.suspense = self.late = 0
        self.interest = self.fee = self.principal = self.curtailed = self.charges = 0
        self.plan = self.earlier = Plan(month_of(terms["boarded"]), terms["escrow"])
        self.satisfied = None

    def due_month(self):
        return self.terms["first"] + self.next - 1

    def installment(self):
        """Interest, fee, principal and escrow of the open installment."""
        interest = month_interest(self.upb, self.terms["rate"])
        principal = min(self.upb, self.terms["pi"] - interest)
        if self.next == self.terms["term"]:
            principal = self.upb
        month = self.due_month()
        plan = self.plan if month >= self.plan.start else self.earlier
        return interest, month_interest(self.upb, self.terms["fee"]), principal, plan.part(month)

    def is_overdue(self, day):
        return self.upb > 0 and first_day(self.due_month()) <= day

    def settle(self, day, last_month):
        while self.upb > 0 and self.due_month() <= last_month:
            interest, fee, principal, escrow = self.installment()
            if self.suspense < interest + principal + escrow:
                break
            self.suspense -= interest + principal + escrow
            self.interest += interest
            self.fee += fee
            self.principal += principal
            self.upb -= principal
            self.escrow += escrow
            self.next += 1
        if not self.is_overdue(day):
            taken = min(self.suspense, self.late)
            self.suspense -= taken
            self.late -= taken
            self.charges += taken
        self.mark_satisfied(day)

    def mark_satisfied(self, day):
        if self.upb == 0 and self.satisfied is None:
            self.satisfied = day

    def take_principal(self, cents):
        self.upb -= cents
        self.principal += cents
        self.curtailed += cents

    def day_parts(self, day):
        """Interest by days and the fee in it, from the last satisfied due date."""
        if self.upb == 0:
            return 0, 0
        days = days360(first_day(self.due_month() - 1), day)
        return tuple(half_up(self.upb * self.terms[it] * days, 36_000_000) for it in ("rate", "fee"))

    def payoff_sum(self, day):
        return self.upb + self.day_parts(day)[0] + self.late + max(0, -self.escrow)

    def payoff_due(self, day):
        return max(0, self.payoff_sum(day) - self.suspense)

    def available(self):
        return max(0, self.escrow + (self.suspense if self.upb == 0 else 0))

    def is_current(self, day):
        return self.upb == 0 or first_day(self.due_month()) + datetime.timedelta(30) >= day

    def happen(self, day, what, values):
        self.day = day
        getattr(self, "on_" + what)(day, *values)
        self.mark_satisfied(day)
        self.settle(day, month_of(day) + 1)

    def on_month(self, day):
        pass

    def on_late(self, day, k):
        if self.upb > 0 and self.next <= k:
            self.late += half_up(self.terms["pi"] * self.terms["late"], 10_000)

    def on_pay(self, day, cents, rest=None):
        self.suspense += cents
        if rest is None:
            return
        self.settle(day, month_of(day))
        if self.upb == 0 or self.is_overdue(day):
            return
        over = min(cents, self.suspense)
        if rest == "escrow":
            self.escrow += over
        else:
            over = min(self.upb, over)
            self.take_principal(over)
        self.suspense -= over

    def on_curtail(self, day, cents):
        taken = min(self.upb, cents)
        self.take_principal(taken)
        self.suspense += cents - taken

    def on_payoff(self, day, cents):
        self.suspense += cents
        if self.upb == 0 or self.suspense < self.payoff_sum(day):
            return
        interest, fee = self.day_parts(day)
        self.suspense -= self.payoff_sum(day)
        self.interest += interest
        self.fee += fee
        self.principal += self.upb
        self.upb = 0
        self.charges += self.late
        self.late = 0
        self.escrow = max(0, self.escrow)

    def on_deposit(self, day, cents):
        if self.upb == 0:
            self.suspense += cents
        else:
            self.escrow += cents

    def on_disburse(self, day, cents, line):
        self.escrow -= cents

    def on_refund(self, day, cents):
        first = min(self.suspense, cents) if self.upb == 0 else 0
        self.suspense -= first
        self.escrow -= cents - first

    def on_waive(self, day, cents):
        self.late -= min(self.late, cents)

    def on_analyse(self, day, plan, refund):
        self.escrow -= refund
        if plan.start != self.plan.start:
            self.earlier = self.plan
        self.plan = plan


class Loan:
    """A loan: its terms, entries, reversals, escrow lines and changes of type."""

    def __init__(self, number, terms):
        self.number, self.terms = number, terms
        self.entries, self.reversed, self.lines, self.types = [], {}, {}, []

    def events(self, day):
        """The events up to a day in their order: the day, its rank on it, the number, what happened, and its values."""
        boarded = self.terms["boarded"]
        events = [(first_day(m), 0, 0, "month", ()) for m in range(month_of(boarded) + 1, month_of(day) + 1)]
        for k in range(1, self.terms["term"] + 1):
            marked = first_day(self.terms["first"] + k - 1) + datetime.timedelta(self.terms["grace"] + 1)
            if marked > day:
                break
            events.append((marked, 1, k, "late", (k,)))
        events += [(at, 2, number, what, values) for number, at, what, values in self.entries
                   if number not in self.reversed and at <= day]
        return sorted(events, key=lambda it: it[:3])

    def start(self):
        return Books(self.terms)

    def books(self, day):
        books = self.start()
        for at, _, _, what, values in self.events(day):
            books.happen(at, what, values)
        books.day = day
        return books

    def kind(self, month):
        found = self.terms["kind"], 0
        for period, kind in self.types:
            if found[1] <= period <= month:
                found = kind, period
        return found[0]

    def dues(self, last):
        """For each month from the boarded one to the last: due interest and principal, own and investor balance,
        and both balances of the month before."""
        terms, found = self.terms, {}
        own = investor = terms["principal"]
        before = Books(terms)
        scheduled = passed = 0
        for month in range(month_of(terms["boarded"]), last + 1):
            books = self.books(last_day(month))
            k = month - terms["first"] + 1
            was = own, investor
            if k >= 1:
                scheduled += month_interest(investor, terms["rate"]) - month_interest(investor, terms["fee"])
            if self.kind(month) != "SS":
                investor = books.upb
            elif books.upb == 0:
                investor = 0
            else:
                level = min(investor, terms["pi"] - month_interest(investor, terms["rate"]))
                level = 0 if k < 1 else investor if k >= terms["term"] else level
                investor = max(0, investor - level - (books.curtailed - before.curtailed))
            now = books.interest - books.fee if self.kind(month) == "AA" else scheduled
            found[month] = (now - passed, was[1] - investor, books.upb, investor, *was)
            own, passed, before = books.upb, now, books
        return found

    def year(self, month):
        return [sum(cents for _, its, every, cents in self.lines.values() if (m % 12 + 1 - its) % every == 0)
                for m in range(month, month + 12)]

    def analysis(self, today):
        """The figures of an escrow analysis on the business day, and its year."""
        start = month_of(today) + 1
        year = self.year(start)
        whole = sum(year)
        base, cushion = whole // 12, self.terms["cushion"] * whole // 12
        trial = [(k + 1) * base - sum(year[:k + 1]) for k in range(12)]
        opening = max(cushion - it for it in trial)
        balance = self.books(today).escrow
        return {
            "start": start, "year": year, "base": base, "cushion": cushion, "trial": trial, "opening": opening,
            "balance": balance, "surplus": max(0, balance - opening),
            "short": max(0, opening - max(balance, 0)), "deficient": max(0, -balance),
        }

    def totals(self, reports, remitted, today):
        """The eleven totals of which custodial rows are the changes, and what is held."""
        books = self.books(today)
        brought = [(number, values[0]) for number, _, what, values in self.entries
                   if what in ("pay", "curtail", "payoff", "deposit")]
        live = [(what, values) for number, _, what, values in self.entries if number not in self.reversed]
        sent = sum(sum(line[1:5]) for report in reports if remitted is not None and report["month"] <= remitted
                   for line in report["lines"] if line[0] == self.number)
        collected = books.interest - books.fee + books.principal
        is_settled = books.satisfied is not None and remitted is not None \
            and month_of(books.satisfied) <= remitted and self.is_all_sent(sent, reports)
        held, advanced = max(0, collected - sent), max(0, sent - collected)
        residual = 0
        if is_settled:
            held, advanced, residual = 0, 0, collected - sent
        return {
            "Received": sum(cents for _, cents in brought),
            "Returned": sum(cents for number, cents in brought if number in self.reversed),
            "Refunded": sum(values[0] if what == "refund" else values[1] for what, values in live
                            if what in ("refund", "analyse")),
            "Disbursed": sum(values[0] for what, values in live if what == "disburse"),
            "Collected": books.interest + books.principal, "Fee": books.fee, "Late": books.charges,
            "PiAdvance": advanced, "EscrowAdvance": max(0, -books.escrow), "Remitted": sent, "Residual": residual,
            "held": held, "suspense": books.suspense, "escrow": books.escrow,
        }

    def is_all_sent(self, sent, reports):
        dues = self.dues(reports[-1]["month"])
        return sent == sum(dues[it["month"]][0] + dues[it["month"]][1] for it in reports if it["month"] in dues)


PARTS = {
    "Received": "Borrower T", "Returned": "T Borrower", "Refunded": "T Borrower", "Disbursed": "T Payee",
    "Collected": "T P", "Fee": "P Servicer", "Late": "T Servicer", "PiAdvance": "Servicer P",
    "EscrowAdvance": "Servicer T", "Remitted": "P Investor", "Residual": "P Servicer",
}


# The whole servicer

class Servicer(Desk):
    """All accepted commands, their replies and what they make."""

    def __init__(self):
        self.today = datetime.date(1990, 1, 1)
        self.keys, self.count, self.rows, self.accepted = {}, 0, {}, []
        self.loans, self.reports, self.pending, self.remitted = {}, [], [], None

    def answer(self, line):
        """The whole text of the reply to a line."""
        try:
            key, word, values = read_line(line)
            if key == "?":
                return getattr(self, "ask_" + word)(*values)
            count = self.count
            reply = self.command(key, word, values)
            self.accepted += [line] * (self.count - count)
            return reply
        except NoRequest as place:
            return f"bad {place}\n"
        except Refused as rule:
            return f"no {rule}\n"

    def closed(self):
        return self.reports[-1]["month"] if self.reports else None

    def next_close(self):
        """The month that `close` expects."""
        if self.reports:
            return self.closed() + 1
        boarded = [month_of(it.terms["boarded"]) for it in self.loans.values()]
        return min(boarded, default=month_of(self.today))

    def next_remit(self):
        """The month that `remit` expects; none before the first is closed."""
        if not self.reports:
            return None
        return self.reports[0]["month"] if self.remitted is None else self.remitted + 1

    def loan(self, number):
        if number not in self.loans:
            raise Refused("5 NoSuchLoan")
        return self.loans[number]

    def totals(self):
        return {number: it.totals(self.reports, self.remitted, self.today) for number, it in self.loans.items()}

    def dues(self, number):
        loan = self.loans.get(number)
        return {} if loan is None or not self.reports else loan.dues(self.closed())

    def command(self, key, word, values):
        if key in self.keys:
            kept, number, reply = self.keys[key]
            if kept != (word, values):
                raise Refused(f"1 KeyReused {number}")
            return reply
        touched = values[0] if word not in ("day", "close", "remit") else None
        before, dues = self.totals(), self.dues(touched)
        said = getattr(self, "do_" + word)(*values)
        self.count += 1
        reports = {it["month"] for it in self.reports}
        for month, due in sorted(self.dues(touched).items()):
            old = dues.get(month, due)
            if month in reports and due[:2] != old[:2]:
                self.pending.append((self.count, touched, month, due[0] - old[0], due[1] - old[1]))
        self.rows[self.count] = [
            f"row {number} {part} {way} {money(totals[part] - before.get(number, {}).get(part, 0))}\n"
            for number, totals in sorted(self.totals().items()) for part, way in PARTS.items()
            if totals[part] != before.get(number, {}).get(part, 0)]
        reply = f"ok {self.count}{said or ''}\n"
        self.keys[key] = ((word, values), self.count, reply)
        return reply

    # Commands

    def do_day(self, day):
        if day <= self.today:
            raise Refused(f"3 DayNotLater {self.today}")
        self.today = day

    def do_board(self, number, boarded, principal, rate, fee, pi, term, first, grace, late, cushion, escrow, kind):
        if number in self.loans:
            raise Refused("4 LoanExists")
        faults = [
            ("1 Principal", not 1 <= principal <= TOP), ("2 RateRange", not 1 <= rate <= 25_000),
            ("3 FeeRange", fee > rate), ("4 Payment", not month_interest(principal, rate) < pi <= TOP),
            ("5 Term", not 1 <= term <= 480), ("6 FirstDue", not 1 <= first - month_of(boarded) <= 2),
            ("7 Grace", grace > 28), ("8 Late", late > 1000), ("9 Cushion", cushion > 2),
            ("10 EscrowPay", escrow > TOP)]
        for name, holds in faults:
            if holds:
                raise Refused("6 BadTerms " + name)
        if self.reports and month_of(boarded) <= self.closed():
            raise Refused("7 BoardedLate " + text_of_month(self.closed()))
        if boarded > self.today:
            raise Refused(f"9 FutureDated {self.today}")
        self.loans[number] = Loan(number, {
            "boarded": boarded, "principal": principal, "rate": rate, "fee": fee, "pi": pi, "term": term,
            "first": first, "grace": grace, "late": late, "cushion": cushion, "escrow": escrow, "kind": kind})

    def entry_loan(self, number, cents=1, day=None):
        """The loan of an entry, once the rules of amounts and days let it pass."""
        full = number in self.loans and len(self.loans[number].entries) >= 4096
        if full:
            raise Refused("2 Full Entries")
        loan = self.loan(number)
        if not 1 <= cents <= TOP:
            raise Refused("8 BadAmount")
        self.check_day(loan, day or self.today)
        return loan

    def check_day(self, loan, day):
        if day > self.today:
            raise Refused(f"9 FutureDated {self.today}")
        if day < loan.terms["boarded"]:
            raise Refused(f"10 BeforeBoarding {loan.terms['boarded']}")

    def post(self, loan, what, values, day=None):
        loan.entries.append((self.count + 1, day or self.today, what, values))

    def do_pay(self, number, day, cents, rest=None):
        self.post(self.entry_loan(number, cents, day), "pay", (cents, rest), day)

    def do_curtail(self, number, day, cents):
        loan = self.entry_loan(number, cents, day)
        if cents > loan.books(day).upb:
            raise Refused("11 OverPrincipal " + money(loan.books(day).upb))
        self.post(loan, "curtail", (cents,), day)

    def do_payoff(self, number, day, cents):
        loan = self.entry_loan(number, cents, day)
        due = loan.books(day).payoff_due(day)
        if cents < due:
            raise Refused("12 PayoffShort " + money(due))
        self.post(loan, "payoff", (cents,), day)

    def do_deposit(self, number, day, cents):
        self.post(self.entry_loan(number, cents, day), "deposit", (cents,), day)

    def do_disburse(self, number, day, cents, line):
        loan = self.entry_loan(number, cents, day)
        if line not in loan.lines:
            raise Refused("16 NoSuchLine")
        self.post(loan, "disburse", (cents, line), day)

    def do_refund(self, number, cents):
        loan = self.entry_loan(number, cents)
        available = loan.books(self.today).available()
        if cents > available:
            raise Refused("19 OverRefund " + money(available))
        self.post(loan, "refund", (cents,))

    def do_waive(self, number, cents):
        loan = self.entry_loan(number, cents)
        if cents > loan.books(self.today).late:
            raise Refused("20 OverWaiver " + money(loan.books(self.today).late))
        self.post(loan, "waive", (cents,))

    def do_reverse(self, number, entry):
        loan = self.loan(number)
        found = [what for its, _, what, _ in loan.entries if its == entry]
        if not found:
            raise Refused("13 NoSuchEntry")
        if entry in loan.reversed:
            raise Refused(f"14 AlreadyReversed {loan.reversed[entry]}")
        if found[0] == "analyse":
            raise Refused("15 NotReversible")
        loan.reversed[entry] = self.count + 1

    def do_line(self, number, line, kind, month, every, cents):
        if number in self.loans and line not in self.loans[number].lines and len(self.loans[number].lines) >= 16:
            raise Refused("2 Full Lines")
        loan = self.loan(number)
        if not 1 <= cents <= TOP:
            raise Refused("17 BadLine 1 Amount")
        if not 1 <= month <= 12:
            raise Refused("17 BadLine 2 MonthRange")
        if every not in (1, 2, 3, 4, 6, 12):
            raise Refused("17 BadLine 3 Every")
        loan.lines[line] = (kind, month, every, cents)

    def do_drop(self, number, line):
        if line not in self.loan(number).lines:
            raise Refused("16 NoSuchLine")
        del self.loans[number].lines[line]

    def do_analyse(self, number, surplus, short, deficient):
        loan = self.entry_loan(number)
        found = loan.analysis(self.today)
        self.check_plan(loan, found, surplus, short, deficient)
        refund = found["surplus"] if surplus in ("-", "refund") else 0
        credit = found["surplus"] // 12 if surplus == "credit" else 0
        spread = [(found[part] // count, count) if choice == "spread" else (0, 0)
                  for part, (choice, count) in (("short", short), ("deficient", deficient))]
        within = sum(found[part] for part, choice in (("short", short), ("deficient", deficient))
                     if choice[0] == "within30")
        plan = Plan(found["start"], found["base"], credit, *spread)
        self.post(loan, "analyse", (plan, refund))
        figures = " ".join(f"{it} {money(found[it])}" for it in FIGURES)
        pay = money(plan.part(found["start"]))
        return f" {figures} refund {money(refund)} within30 {money(within)} pay {pay}"

    def check_plan(self, loan, found, surplus, short, deficient):
        is_current = loan.books(self.today).is_current(self.today)
        if surplus != "-" and found["surplus"] == 0:
            raise Refused("18 BadPlan 6 NothingToPlan Surplus")
        if is_current and (surplus == "retain" or surplus == "credit" and found["surplus"] >= 5000):
            raise Refused("18 BadPlan 1 MustRefund")
        for part, name, least, (choice, count) in (("short", "Short", 12, short),
                                                   ("deficient", "Deficient", 2, deficient)):
            if choice != "-" and found[part] == 0:
                raise Refused("18 BadPlan 6 NothingToPlan " + name)
            if choice == "spread" and count < least:
                raise Refused(f"18 BadPlan 4 TooFewMonths {count}")
            if choice == "spread" and count > 60:
                raise Refused(f"18 BadPlan 5 TooManyMonths {count}")
            if choice == "within30" and found[part] >= found["base"]:
                raise Refused("18 BadPlan 2 MustSpread Short" if part == "short"
                              else "18 BadPlan 3 MustSpread Deficient")

    def do_close(self, month):
        expected = self.next_close()
        if month != expected:
            raise Refused("21 WrongPeriod " + text_of_month(expected))
        if self.today <= last_day(month):
            raise Refused(f"22 NotEnded {last_day(month)}")
        lines = []
        for number, loan in sorted(self.loans.items()):
            if month_of(loan.terms["boarded"]) > month:
                continue
            interest, principal, own, investor, own_was, investor_was = loan.dues(month)[month]
            mine = [it for it in self.pending if it[1] == number]
            if own_was or investor_was or interest or principal or mine:
                lines.append((number, interest, principal, sum(it[3] for it in mine), sum(it[4] for it in mine),
                              own, investor))
        self.reports.append({"month": month, "lines": lines, "adjustments": self.pending})
        self.pending = []
        interest, principal = sums_of(lines)
        return f" lines {len(lines)} interest {money(interest)} principal {money(principal)}"

    def check_closed(self, month, first=None):
        if not self.reports or month > self.closed() or first is not None and month < first:
            raise Refused("23 NotClosed " + (text_of_month(self.closed()) if self.reports else "-"))

    def do_remit(self, month):
        self.check_closed(month)
        expected = self.next_remit()
        if month != expected:
            raise Refused("24 WrongRemit " + text_of_month(expected))
        self.remitted = month
        return " net " + money(sum(sums_of(self.report(month)["lines"])))

    def do_retype(self, number, month, kind):
        if number in self.loans and len(self.loans[number].types) >= 64:
            raise Refused("2 Full Types")
        loan = self.loan(number)
        if month < month_of(loan.terms["boarded"]):
            raise Refused(f"10 BeforeBoarding {loan.terms['boarded']}")
        if self.reports and month <= self.closed():
            raise Refused("27 ClosedMonth " + text_of_month(self.closed()))
        loan.types.append((month, kind))

    # Queries

    def ask_books(self, number):
        return self.ask_at(number, None)

    def ask_at(self, number, day):
        loan = self.loan(number)
        self.check_day(loan, day or self.today)
        books = loan.books(day or self.today)
        is_open = books.upb > 0
        following = text_of_month(books.due_month()) if is_open else "-"
        interest, _, principal, escrow = books.installment() if is_open else (0, 0, 0, 0)
        values = [("escrow", books.escrow), ("suspense", books.suspense), ("late", books.late),
                  ("interest", books.interest), ("fee", books.fee), ("principal", books.principal),
                  ("charges", books.charges), ("pay", interest + principal + escrow)]
        said = " ".join(f"{name} {money(cents)}" for name, cents in values)
        return f"books {number} {books.day} upb {money(books.upb)} next {following} {said}\n"

    def ask_payoff(self, number, day):
        loan = self.loan(number)
        self.check_day(loan, day)
        return f"payoff {number} {day} {money(loan.books(day).payoff_due(day))}\n"

    def ask_escrow(self, number):
        found = self.loan(number).analysis(self.today)
        figures = " ".join(f"{it} {money(found[it])}" for it in FIGURES)
        text = f"escrow {number} from {text_of_month(found['start'])} {figures} pay {money(found['base'])}\n"
        for k in range(12):
            trial, paid = found["trial"][k], money(found["year"][k])
            text += f"month {text_of_month(found['start'] + k)} paid {paid} trial {money(trial)}"
            text += f" target {money(found['opening'] + trial)}\n"
        return text + "end\n"

    def report(self, month):
        self.check_closed(month, self.reports[0]["month"] if self.reports else None)
        return self.reports[month - self.reports[0]["month"]]

    def ask_report(self, month):
        report = self.report(month)
        text = f"report {text_of_month(month)} lines {len(report['lines'])}\n"
        for number, interest, principal, more_interest, more_principal, own, investor in report["lines"]:
            text += f"line {number} due {money(interest)} {money(principal)} adjusted {money(more_interest)}"
            text += f" {money(more_principal)} upb {money(own)} balance {money(investor)}\n"
        for number, loan, of, interest, principal in report["adjustments"]:
            text += f"adjust {number} {loan} {text_of_month(of)} {money(interest)} {money(principal)}\n"
        interest, principal = sums_of(report["lines"])
        return text + f"total interest {money(interest)} principal {money(principal)}\nend\n"

    def ask_trial(self, month):
        lines = self.report(month)["lines"]
        text = f"trial {text_of_month(month)} loans {len(lines)}\n"
        for line in lines:
            text += f"loan {line[0]} upb {money(line[5])} balance {money(line[6])}\n"
        own, investor = sum(it[5] for it in lines), sum(it[6] for it in lines)
        return text + f"total upb {money(own)} balance {money(investor)}\nend\n"

    def ask_custodial(self):
        every = self.totals().values()
        suspense, escrow, advance, held, pi = (sum(it[name] for it in every) for name in (
            "suspense", "escrow", "EscrowAdvance", "held", "PiAdvance"))
        return (f"custodial T {money(suspense + escrow + advance)} P {money(held)} suspense {money(suspense)}"
                f" escrow {money(escrow)} escrow-advance {money(advance)} held {money(held)}"
                f" pi-advance {money(pi)}\n")

    def ask_rows(self, number):
        if number not in self.rows:
            raise Refused("13 NoSuchEntry")
        return f"rows {number} count {len(self.rows[number])}\n" + "".join(self.rows[number]) + "end\n"


FIGURES = ("base", "cushion", "opening", "balance", "surplus", "short", "deficient")


def sums_of(lines):
    return sum(it[1] + it[3] for it in lines), sum(it[2] + it[4] for it in lines)


def lines_of_journal(data):
    """The lines of the records of a journal's bytes (docs/JOURNAL.md)."""
    def version_1():
        at, lines = 8, []
        while True:
            if data[at] != 0 and data[at + 1:at + 9] == b"MSRVJ002":
                return None, at + 9
            if data[at] != 1:
                return lines, at
            length = struct.unpack(">H", data[at + 1:at + 3])[0]
            lines.append(data[at + 3:at + 3 + length])
            at += 3 + length

    def version_2(at):
        lines = []
        while data[at] == 1:
            number, length = struct.unpack(">IH", data[at + 1:at + 7])
            if number != len(lines) + 1:
                raise SystemExit(f"damaged at {at}")
            lines.append(data[at + 7:at + 7 + length])
            at += 7 + length
        return lines

    if data[:8] == b"MSRVJ001":
        lines, at = version_1()
        return version_2(at) if lines is None else lines
    if data[:8] != b"MSRVJ002":
        raise SystemExit("no journal")
    return version_2(8)


def main():
    servicer = Servicer()
    lines = []
    if len(sys.argv) > 1:
        with open(sys.argv[-1], "rb") as file:
            lines = [it.decode("latin-1") for it in lines_of_journal(file.read())]
    if "--lines" in sys.argv[1:]:
        print(*(f"{number} {line}" for number, line in enumerate(lines, 1)), sep="\n")
        return
    for line in lines:
        servicer.answer(line)
    pieces = sys.stdin.buffer.read().decode("latin-1").split("\n")
    for line in pieces if pieces[-1] else pieces[:-1]:
        sys.stdout.write(servicer.answer(line))


if __name__ == "__main__":
    main()
