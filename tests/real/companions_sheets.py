"""Tests of sheets.py and plot.py of tools/: cases that companions.py runs with its own."""
import csv
import functools
import os
import subprocess
import sys

from harness import TOP, Skipped, case, read, run, same
from tooling import EXAMPLES, quarter, tool
import plot
import sheets

# sheets.py

# Texts of docs/FORMATS.md, and their sheets.
TEXTS = [
    ("report 2024-04 lines 1\nline 1 due 0.00 0.00 adjusted 957.37 200.10 upb 199600.80 balance 199600.80\n"
     "adjust 13 1 2024-03 957.37 200.10\ntotal interest 957.37 principal 200.10\nend\n", None,
     "month,loan,interest due,principal due,interest adjusted,principal adjusted,balance,investor balance\n"
     "2024-04,1,0.00,0.00,957.37,200.10,199600.80,199600.80\n"),
    ("report 2024-04 lines 0\nadjust 13 1 2024-03 957.37 -200.10\ntotal interest 957.37 principal 200.10\nend\n",
     "adjust", "month,command,loan,of month,interest,principal\n2024-04,13,1,2024-03,957.37,-200.10\n"),
    ("trial 2024-03 loans 0\nend\ntrial 2024-04 loans 1\nloan 1 upb 199600.80 balance 199600.80\n"
     "total upb 199600.80 balance 199600.80\nend\n", None,
     "month,loan,balance,investor balance\n2024-04,1,199600.80,199600.80\n"),
    ("statement 2024-07-01 loans 1\nloan 2 upb 200000.00 next 2024-07 escrow 100.00 suspense 0.00 late 0.00 "
     "escrow-advance 0.00 held 0.00 pi-advance 0.00\ntotal T 100.00 P 0.00\nend\n", None,
     "day,loan,balance,next,escrow,suspense,late,escrow advance,held,pi advance\n"
     "2024-07-01,2,200000.00,2024-07,100.00,0.00,0.00,0.00,0.00,0.00\n"),
    ("rows 13 count 2\nrow 1 Received Borrower T 1199.10\nrow 1 PiAdvance Servicer P -1157.47\nend\n", None,
     "command,loan,part,from,to,amount\n13,1,Received,Borrower,T,1199.10\n13,1,PiAdvance,Servicer,P,-1157.47\n"),
    ("books 1 2024-02-01 upb 0.00 next - escrow 0.00 suspense -0.01 late 0.00 interest 1000.00 fee 41.67 "
     "principal 199.10 charges 0.00 pay 1199.10\n" * 2, None,
     "loan,day,balance,next,escrow,suspense,late,interest,fee,principal,charges,pay\n"
     + "1,2024-02-01,0.00,-,0.00,-0.01,0.00,1000.00,41.67,199.10,0.00,1199.10\n" * 2),
    ("history 1 2024-04-20 events 1\nevent 2024-04-20 8 pay-principal 100.00 interest 0.00 principal 100.00 escrow "
     "0.00 late -59.96 charges 0.00 suspense 0.00 upb 199500.80 next 2024-04\nreversed 5 6\nend\n"
     "history 2 2024-04-20 events 1\nevent 2024-04-17 - late-charge 0.00 interest 0.00 principal 0.00 escrow 0.00 "
     "late 59.96 charges 0.00 suspense 0.00 upb 0.00 next -\nend\n", None,
     "loan,business day,day,command,event,amount,interest,principal,escrow,late,charges,suspense,balance,next\n"
     "1,2024-04-20,2024-04-20,8,pay-principal,100.00,0.00,100.00,0.00,-59.96,0.00,0.00,199500.80,2024-04\n"
     "2,2024-04-20,2024-04-17,-,late-charge,0.00,0.00,0.00,0.00,59.96,0.00,0.00,0.00,-\n"),
    ("history 1 2024-04-20 events 0\nreversed 5 6\nreversed 3 7\nend\n", "reversed",
     "loan,business day,command,reversed by\n1,2024-04-20,5,6\n1,2024-04-20,3,7\n"),
    ("aging 2024-04-20 loans 1\nlate 1 next 2024-04 days 19 installments 1 due 1199.10 suspense 300.90 pay 898.20 late "
     "119.92\ntotal current 0 late1 1 late30 0 late60 0 late90 0 satisfied 0\nend\n", None,
     "day,loan,next,days,installments,due,suspense,pay,late\n"
     "2024-04-20,1,2024-04,19,1,1199.10,300.90,898.20,119.92\n"),
    ("aging 2024-04-20 loans 0\ntotal current 1 late1 2 late30 3 late60 4 late90 5 satisfied 6\nend\n", "total",
     "day,current,late 1 to 29,late 30 to 59,late 60 to 89,late 90 on,satisfied\n2024-04-20,1,2,3,4,5,6\n"),
    ("quote 1 2024-06-30 203398.31 perday 33.25\n", None, "loan,day,amount,per day\n1,2024-06-30,203398.31,33.25\n"),
    ("arrears 1 2024-04-20 installments 1 due 1199.10 suspense 300.90 pay 898.20 late 119.92\n", None,
     "loan,day,installments,due,suspense,pay,late\n1,2024-04-20,1,1199.10,300.90,898.20,119.92\n"),
    ("status 2024-04-20 loans 1 commands 3 closed - remitted - close 2023-12 remit - pending 0 adjustments 2\n", None,
     "day,loans,commands,closed,remitted,close,remit,pending,adjustments\n2024-04-20,1,3,-,-,2023-12,-,0,2\n"),
    ("custodial T 0.00 P 1.00 suspense 2.00 escrow 3.00 escrow-advance 4.00 held 5.00 pi-advance 1157.47\n", None,
     "T,P,suspense,escrow,escrow advance,held,pi advance\n0.00,1.00,2.00,3.00,4.00,5.00,1157.47\n"),
]


@case("sheets: texts of docs/FORMATS.md as sheets; texts that are not whole, mixed or none are refused")
def sheets_of_texts(room):
    for text, of, wanted in TEXTS:
        rows = sheets.sheet(text, of)
        same(wanted, "".join(",".join(it) + "\n" for it in rows), text)
    for text in (TEXTS[0][0][:-4], TEXTS[4][0].replace("count 2", "count 3"), TEXTS[5][0][:-9], TEXTS[5][0][:-1],
                 TEXTS[2][0] + "end\n", TEXTS[6][0].replace("events 1", "events 2", 1),
                 TEXTS[6][0].replace(" upb", " "), TEXTS[8][0].replace("loans 1", "loans 0"),
                 TEXTS[8][0].replace(" late90 0", "")):
        same(b"", tool("sheets.py", given=text.encode(), status=1)[0])
    for text in (b"", b"no 5 NoSuchLoan\n", (TEXTS[2][0] + TEXTS[0][0]).encode(), b"trial 2024-04 loans 1\nend\n"):
        same(b"", tool("sheets.py", given=text, status=1)[0])
    tool("sheets.py", "--of", "row", given=TEXTS[2][0].encode(), status=1)


@case("sheets: the texts of the quarter as the program writes them, and those of the desk")
def sheets_of_quarter(room):
    path = quarter(room)
    for words, rows in (("report 2024-03", 6), ("trial 2024-03", 6), ("statement", 6), ("custodial", 1)):
        out = tool("sheets.py", given=run(path, *words.split())[1])[0]
        same(rows + 1, len(out.splitlines()), words)
    for line, rows in (("? rows 40", 3), ("? books 106", 1), ("? escrow 106", 12), ("? payoff 101 2024-04-01", 1),
                       ("? history 102", 8), ("? aging", 0), ("? quote 101 2024-06-30", 1), ("? status", 1)):
        out = tool("sheets.py", given=run(path, "apply", given=line.encode())[1])[0]
        same(rows + 1, len(out.splitlines()), line)


def table(path, queries, *words):
    """The sheet of the answers to queries, row by row."""
    given = "".join(f"? {it}\n" for it in queries).encode()
    out = tool("sheets.py", *words, given=run(path, "apply", given=given)[1])[0].decode()
    return list(csv.DictReader(out.splitlines()))


def cents(text):
    """An amount of a sheet in cents."""
    return int(text.replace(".", ""))


def late_year(room):
    """The path of a journal of examples/late, and the texts of `? aging` that its lines ask for on their days."""
    path = os.path.join(room, "year.journal")
    run(path, "init")
    status, out, _ = run(path, "apply", given=read(EXAMPLES, "late", "year.lines"))
    same((0, read(EXAMPLES, "late", "year.txt")), (status, out), "a year of late loans")
    return path, b"".join(it for it in out.splitlines(True) if not it.startswith(b"ok"))


@case("sheets: the columns of each history of the quarter add up to the books, and rows receive its entries")
def histories_add_up(room):
    path, loans = quarter(room), range(101, 107)
    events = table(path, [f"history {loan}" for loan in loans])
    for books in table(path, [f"books {loan}" for loan in loans]):
        its = [it for it in events if it["loan"] == books["loan"]]
        for name in ("interest", "principal", "escrow", "late", "charges", "suspense"):
            same(cents(books[name]), sum(cents(it[name]) for it in its), f"{name} of {books['loan']}")
        same((books["balance"], books["next"]), (its[-1]["balance"], its[-1]["next"]), books["loan"])
    paid = [it for it in events if it["event"].startswith(("pay", "curtail", "deposit"))]
    made = table(path, [f"rows {it['command']}" for it in paid])
    same(23, len(paid))
    same([(it["command"], it["loan"], it["amount"]) for it in paid],
         [(it["command"], it["loan"], it["amount"]) for it in made if it["part"] == "Received"])
    same(["21", "40"], list(table(path, ["history 102"], "--of", "reversed")[0].values())[2:])


@case("sheets: who is late at a year's end, as the arrears of each loan say, and its twelve months counted by hand")
def late_loans(room):
    path, agings = late_year(room)
    rows = table(path, ["aging"])
    same(["303", "304"], [it["loan"] for it in rows])
    for row, arrears in zip(rows, table(path, ["arrears 303", "arrears 304"])):
        same(arrears, {name: row[name] for name in arrears})
    # Loan 304 owes June to December less 500.00, and seven late charges.
    same(["213", "7", "8393.70", "500.00", "7893.70", "419.72"], list(rows[1].values())[3:])
    out = tool("sheets.py", "--of", "total", given=agings)[0].decode().splitlines()
    same(["2023-12-15,6,0,0,0,0,0", *(f"{day},{counts}" for day, counts, _ in LATE)], out[1:])


# The last days of examples/late's months; the sheet's counts and those that are drawn, by hand from examples/README.md.
LATE = [("2024-01-31", "6,0,0,0,0,0", [0, 0, 0, 0]), ("2024-02-29", "6,0,0,0,0,0", [0, 0, 0, 0]),
        ("2024-03-31", "5,0,1,0,0,0", [0, 1, 0, 0]), ("2024-04-30", "4,2,0,0,0,0", [2, 0, 0, 0]),
        ("2024-05-31", "4,0,1,1,0,0", [0, 1, 1, 0]), ("2024-06-30", "3,2,0,0,1,0", [2, 0, 0, 1]),
        ("2024-07-31", "4,0,1,1,0,0", [0, 1, 1, 0]), ("2024-08-31", "4,0,1,0,1,0", [0, 1, 0, 1]),
        ("2024-09-30", "3,1,0,0,1,1", [1, 0, 0, 1]), ("2024-10-31", "3,0,1,0,1,1", [0, 1, 0, 1]),
        ("2024-11-30", "3,1,0,0,1,1", [1, 0, 0, 1]), ("2024-12-31", "3,0,1,0,1,1", [0, 1, 0, 1])]


# plot.py

TRIALS = ("trial 2023-12 loans 1\nloan 7 upb 200000.00 balance 200000.00\ntotal upb 200000.00 balance 200000.00\nend\n"
          "trial 2024-01 loans 1\nloan 7 upb 199800.90 balance 199601.00\ntotal upb 199800.90 balance 199601.00\nend\n")


@case("plot: balances by month from trials; texts that are not whole or not in a row are refused")
def balances(room):
    wanted = [("2023-12", 20000000, 20000000), ("2024-01", 19980090, 19960100)]
    same(wanted, plot.balances_of(TRIALS))
    same(wanted, plot.balances_of(TRIALS, "7"))
    first = TRIALS[:TRIALS.index("trial 2024")]
    for text, words in (("", []), (TRIALS[:-4], []), (TRIALS + "x", []), (first + first, []), (TRIALS, ["--loan", "8"]),
                        ("no 23 NotClosed -\n", []), (TRIALS.replace("trial 2023-12", "report 2023-12"), [])):
        tool("plot.py", *words, f"{room}/a.png", given=text.encode(), status=1)
    same([], os.listdir(room))


AGING = ("aging 2024-03-31 loans 0\ntotal current 3 late1 0 late30 0 late60 0 late90 0 satisfied 1\nend\n"
         "aging 2024-04-30 loans 1\nlate 1 next 2024-04 days 29 installments 1 due 1199.10 suspense 0.00 pay 1199.10 "
         "late 0.00\ntotal current 2 late1 1 late30 0 late60 0 late90 0 satisfied 1\nend\n")
HISTORY = ("history 7 2024-06-30 events 3\n"
           "event 2024-05-15 3 deposit 100.00 interest 0.00 principal 0.00 escrow 100.00 late 0.00 charges 0.00 "
           "suspense 0.00 upb 200.00 next 2024-06\n"
           "event 2024-06-01 4 pay-escrow 60.00 interest 1.00 principal 50.00 escrow 9.00 late 0.00 charges 0.00 "
           "suspense 0.00 upb 150.00 next 2024-07\n"
           "event 2024-06-12 5 disburse 109.05 interest 0.00 principal 0.00 escrow -109.05 late 0.00 charges 0.00 "
           "suspense 0.00 upb 150.00 next 2024-07\nreversed 1 2\nend\n")


@case("plot: late loans by day from agings; texts that are not whole or whose days do not rise are refused")
def ages(room):
    same([("2024-03-31", [0, 0, 0, 0]), ("2024-04-30", [1, 0, 0, 0])], plot.ages_of(AGING))
    first = AGING[:AGING.index("aging 2024-04")]
    for text in (AGING[:-1], first + first, AGING.replace("loans 1", "loans 2"), AGING.replace("late1 1", "late1 0"),
                 AGING.replace("late 1 next", "laet 1 next"), AGING.replace(" satisfied 1", ""), AGING + HISTORY,
                 "\nend\n"):
        tool("plot.py", f"{room}/a.png", given=text.encode(), status=1)
    tool("plot.py", "--loan", "1", f"{room}/a.png", given=AGING.encode(), status=1)
    same([], os.listdir(room))


@case("plot: a loan's balance and escrow from its history; two loans, no event and a history that is cut are refused")
def account(room):
    wanted = [("2024-05-15", 20000, 10000), ("2024-06-01", 15000, 10900), ("2024-06-12", 15000, -5),
              ("2024-06-30", 15000, -5)]
    same(("7", wanted), plot.account_of(HISTORY))
    same(["-0.05", "0.00", "-1,234.50"], [plot.dollars(it) for it in (-5, 0, -123450)])
    for text in (HISTORY[:-4], HISTORY * 2, HISTORY.replace("events 3", "events 4"),
                 "history 7 2024-06-30 events 0\nend\n", HISTORY.replace(" upb 200.00", ""), "no 5 NoSuchLoan\n",
                 "\xff"):
        tool("plot.py", f"{room}/a.png", given=text.encode("latin-1"), status=1)
    same([], os.listdir(room))


# Draws what comes in with the words of a command line, and says what stands in the picture: of lines their values, of
# bars their heights.
DRAWN = """\
import sys
sys.path[:0] = [sys.argv.pop(1)]
import plot
status = plot.main()
from matplotlib import pyplot
for axes in pyplot.gcf().axes:
    print(*([int(it) for it in line.get_ydata()] for line in axes.lines))
    print(*([int(it.get_height()) for it in bars] for bars in axes.containers))
sys.exit(status)
"""


@functools.lru_cache(None)
def drawing_python():
    """A Python that has matplotlib, or None."""
    return next((it for it in (sys.executable, "/usr/bin/python3") if os.path.exists(it) and subprocess.run(
        [it, "-c", "import matplotlib"], capture_output=True).returncode == 0), None)


def drawn(room, texts, *words):
    """What stands in the picture of these texts, which is a PNG file."""
    python = drawing_python()
    if python is None:
        raise Skipped("matplotlib is not installed")
    ran = subprocess.run([python, "-c", DRAWN, f"{TOP}/tools", *words, f"{room}/a.png"], input=texts,
                         stdout=subprocess.PIPE, check=True)
    same(b"\x89PNG\r\n\x1a\n", read(room, "a.png")[:8])
    return [it for it in ran.stdout.decode().splitlines() if it]


@case("plot: the quarter's balances and a loan's are PNG files, in which each value stands")
def pictures(room):
    path = quarter(room)
    texts = b"".join(run(path, "trial", month)[1] for month in ("2023-12", "2024-01", "2024-02", "2024-03"))
    for words in ([], ["--loan", "105"]):
        found = plot.balances_of(texts.decode(), *words[1:])
        same(["{} {}".format(*([it[at] for it in found] for at in (1, 2)))], drawn(room, texts, *words))


@case("plot: a year's late loans and a loan's history are PNG files, in which each value stands")
def pictures_of_the_desk(room):
    path, agings = late_year(room)
    bars = [[0] + [counts[at] for _, _, counts in LATE] for at in range(4)]
    same(["{} {} {} {}".format(*bars)], drawn(room, agings))
    text = run(path, "apply", given=b"? history 305\n")[1]
    balances = [it[1] for it in plot.account_of(text.decode())[1]]
    same((15, 19754399), (len(balances), balances[-1]))
    same([str(balances), str([0] * 15)], drawn(room, text))
    text = run(quarter(room), "apply", given=b"? history 106\n")[1]
    # A deposit of 700.00, three installments with 400.00 each, a bill of 2,000.00, an analysis; the business day.
    same(str([70000, 110000, 150000, 190000, -10000, -10000, -10000]), drawn(room, text)[1])
