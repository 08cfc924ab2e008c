#!/usr/bin/env python3
"""Draws what the program's texts say as a PNG: balances by month, late loans by day, or a loan's account.

    for month in 2024-01 2024-02 2024-03; do jaqhendulu books.journal trial $month; done | plot.py balance.png
    for month in 2024-01 2024-02 2024-03; do jaqhendulu books.journal trial $month; done | plot.py --loan 101 101.png
    cat january.aging february.aging march.aging | plot.py late.png
    echo '? history 101' | jaqhendulu books.journal apply | plot.py account.png

What the texts are decides what is drawn:

    trial    the balance of all loans by month, or with --loan of one, which each text must have; the months come in a
             row
    aging    on the day of each text, how many loans are how late; the days rise
    history  the balance and the escrow of one loan after each event, up to the business day; the escrow is the sum of
             its column so far

Wanted is matplotlib (Debian: python3-matplotlib). The status is 1 where the texts are not such or not whole, and 3
where matplotlib is not installed; then nothing is written.
"""
import argparse
import datetime
import re
import sys

AMOUNT = r"(-?[0-9]+)\.([0-9]{2})"
DAY = r"([0-9]{4}-[0-9]{2}-[0-9]{2})"
# What an aging counts late loans by, with how it is drawn.
AGES = (("1 to 29 days", "#fdd49e"), ("30 to 59 days", "#fc8d59"), ("60 to 89 days", "#d7301f"),
        ("90 days and more", "#7f0000"))
TOTAL = r"^total current [0-9]+ late1 ([0-9]+) late30 ([0-9]+) late60 ([0-9]+) late90 ([0-9]+) satisfied [0-9]+$"


class NotDrawn(Exception):
    """Why the texts are not drawn."""


# What the texts say

def texts_of(text):
    """The texts, each without its line `end`."""
    if not text.endswith("\nend\n"):
        raise NotDrawn("the last text does not end")
    return text.split("\nend\n")[:-1]


def head_of(text, form):
    """What a text's first line says, which must have this form."""
    first = text.split("\n")[0]
    found = re.fullmatch(form, first)
    if not found:
        raise NotDrawn(f"{first!r} does not begin a text of {form.split(' ')[0]}")
    return found


def balances_of(text, loan=None):
    """The month of each trial, with the borrowers' and the investor's balance in cents, of all loans or of one."""
    line = "total" if loan is None else f"loan {loan}"
    found = []
    for trial in texts_of(text):
        month = head_of(trial, r"trial ([0-9]{4}-[0-9]{2}) loans [0-9]+")[1]
        values = re.findall(rf"^{line} upb {AMOUNT} balance {AMOUNT}$", trial, re.M)
        if len(values) != 1:
            raise NotDrawn(f"the trial of {month} has no line {line}")
        upb, upb_cents, balance, balance_cents = values[0]
        found.append((month, int(upb + upb_cents), int(balance + balance_cents)))
    for (before, *_), (month, *_) in zip(found, found[1:]):
        if month != after(before):
            raise NotDrawn(f"{month} does not follow {before}")
    return found


def after(month):
    """The next month."""
    year, number = int(month[:4]), int(month[5:])
    return f"{year + number // 12}-{number % 12 + 1:02}"


def ages_of(text):
    """The day of each aging, with the numbers of loans that are late from 1, 30, 60 and 90 days on."""
    found = []
    for aging in texts_of(text):
        head = head_of(aging, f"aging {DAY} loans ([0-9]+)")
        totals = [[int(it) for it in counts] for counts in re.findall(TOTAL, aging, re.M)]
        if len(totals) != 1 or not sum(totals[0]) == int(head[2]) == len(re.findall("^late ", aging, re.M)):
            raise NotDrawn(f"the aging of {head[1]} is not whole")
        found.append((head[1], totals[0]))
    for (before, _), (day, _) in zip(found, found[1:]):
        if day <= before:
            raise NotDrawn(f"{day} is not later than {before}")
    return found


def account_of(text):
    """The loan of a history, and the day, balance and escrow in cents after each event and on the business day."""
    texts = texts_of(text)
    head = head_of(texts[0], f"history ([0-9]+) {DAY} events ([0-9]+)")
    if len(texts) > 1:
        raise NotDrawn("a picture has the history of one loan")
    events = re.findall(rf"^event {DAY} .* escrow {AMOUNT} late .* upb {AMOUNT} next [^ ]+$", texts[0], re.M)
    if len(events) != int(head[3]):
        raise NotDrawn(f"the history of loan {head[1]} is not whole")
    if not events:
        raise NotDrawn(f"nothing has happened to loan {head[1]}")
    found, escrow = [], 0
    for day, change, change_cents, upb, upb_cents in events:
        escrow += int(change + change_cents)
        found.append((day, int(upb + upb_cents), escrow))
    return head[1], [*found, (head[2], *found[-1][1:])]


# The pictures

def dollars(cents):
    """Cents as people read them; a cent is never rounded."""
    return f"{'-' * (cents < 0)}{abs(cents) // 100:,}.{abs(cents) % 100:02}"


def sheet_of(rows, title):
    """A figure with so many axes, one below the other, under a title."""
    import matplotlib
    matplotlib.use("Agg")
    from matplotlib import pyplot
    figure, axes = pyplot.subplots(rows, 1, sharex=True, squeeze=False, figsize=(9, 5))
    axes[0][0].set_title(title)
    return figure, [it[0] for it in axes]


def in_dollars(axes, name):
    """Gives axes whose values are cents a scale in dollars, with a name."""
    axes.yaxis.get_major_locator().set_params(integer=True, min_n_ticks=1)
    axes.yaxis.set_major_formatter(lambda cents, _: dollars(int(cents)).removesuffix(".00"))
    axes.set_ylabel(f"{name}, dollars" if name else "dollars")


def under(axes, names):
    """Writes names under the places from 0 on, some left out where there are many."""
    every = max(1, len(names) // 12)
    axes.set_xticks(range(0, len(names), every), names[::every], rotation=45, ha="right")


def draw_balances(found, loan=None):
    """Both balances by month. The last ones are written beside them."""
    figure, (axes,) = sheet_of(1, "Unpaid principal" + (f" of loan {loan}" if loan else "") + " by month")
    months = [month for month, _, _ in found]
    for at, name, style in ((1, "borrowers", "o-"), (2, "investor", "s--")):
        values = [it[at] for it in found]
        axes.plot(range(len(months)), values, style, label=f"{name}: {dollars(values[-1])} in {months[-1]}")
    under(axes, months)
    in_dollars(axes, "")
    return figure


def draw_ages(found):
    """A bar a day, from the loans that are least late up. The last day's numbers are written beside them."""
    figure, (axes,) = sheet_of(1, "Late loans")
    days = [day for day, _ in found]
    floors = [0] * len(days)
    for at, (name, color) in enumerate(AGES):
        counts = [it[at] for _, it in found]
        axes.bar(range(len(days)), counts, bottom=floors, color=color, label=f"{name}: {counts[-1]} on {days[-1]}")
        floors = [a + b for a, b in zip(floors, counts)]
    under(axes, days)
    axes.yaxis.get_major_locator().set_params(integer=True)
    axes.set_ylabel("loans")
    return figure


def draw_account(found):
    """Balance and escrow of a loan by day, one above the other. Each stays as it is up to the next event."""
    loan, events = found
    figure, both = sheet_of(2, f"Loan {loan}")
    days = [datetime.date.fromisoformat(day) for day, _, _ in events]
    for at, name, axes in ((1, "balance", both[0]), (2, "escrow", both[1])):
        values = [it[at] for it in events]
        axes.step(days, values, "o-", where="post", markersize=4, markevery=range(len(events) - 1),
                  label=f"{dollars(values[-1])} on {events[-1][0]}")
        in_dollars(axes, name)
    figure.autofmt_xdate(rotation=45)
    return figure


# What reads each kind of texts, and what draws them.
KINDS = {"trial": (balances_of, draw_balances), "aging": (ages_of, draw_ages), "history": (account_of, draw_account)}


def picture(text, path, loan=None):
    """Draws the texts into a file."""
    kind = re.split("[ \n]", text)[0]
    if kind not in KINDS:
        raise NotDrawn(f"{text.splitlines()[0]!r} begins no text that is drawn" if text else "there is no text")
    if loan is not None and kind != "trial":
        raise NotDrawn("--loan goes with trials alone")
    read, draw = KINDS[kind]
    words = [] if loan is None else [loan]
    figure = draw(read(text, *words), *words)
    for axes in figure.axes:
        axes.grid(True, alpha=0.3)
        axes.set_axisbelow(True)
        axes.legend()
    figure.tight_layout()
    figure.savefig(path, format="png")


def words_of(arguments):
    """What the command line says."""
    it = argparse.ArgumentParser(description=__doc__, formatter_class=argparse.RawDescriptionHelpFormatter)
    it.add_argument("png", help="the file that is written")
    it.add_argument("--loan", metavar="NUMBER", help="of trials, the balance of this loan alone")
    asked = it.parse_args(arguments)
    if asked.loan is not None and not re.fullmatch("[0-9]+", asked.loan):
        it.error("a loan is a number")
    return asked


def main():
    asked = words_of(sys.argv[1:])
    try:
        picture(sys.stdin.buffer.read().decode("ascii"), asked.png, asked.loan)
    except (NotDrawn, UnicodeDecodeError) as why:
        print(why, file=sys.stderr)
        return 1
    except ImportError as error:
        print(f"matplotlib is wanted (Debian: python3-matplotlib): {error}", file=sys.stderr)
        return 3
    return 0


if __name__ == "__main__":
    sys.exit(main())
