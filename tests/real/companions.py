#!/usr/bin/env python3
"""Tests of the companion programs in tools/, beside the built program.

    companions.py [WORD..]    all cases, or those whose names have the words

Standard library alone; LibreOffice, hledger, ledger, beancount and matplotlib where they are installed.
`JAQHENDULU` names another program than the one that `rt` built. Prints a line a case and `N passed, M failed`.
"""
import collections
import csv
import os
import random
import re
import subprocess
import sys

from harness import TOP, case, read, run, run_all, same, write
from tooling import EXAMPLES, quarter, tool, without_tool
import companions_sheets  # noqa: F401, whose cases are run too
import generate
import pair
import reckon
import tidy
import verify


@case("help: each companion says what it takes, and refuses words that it does not know")
def helps(room):
    names = sorted(it for it in os.listdir(os.path.join(TOP, "tools")) if it.endswith(".py"))
    same(["ledger.py", "pair.py", "plot.py", "sheets.py", "tidy.py", "verify.py"], names)
    for name in names:
        out = tool(name, "--help")[0]
        if name.encode() not in out or b"options:" not in out.replace(b"optional arguments:", b"options:"):
            raise AssertionError(out)
        tool(name, "--frob", status=2)


# tidy.py

# A bank's sheets that say one and the same, with the words that read them.
PAYMENTS = (b"key,do,loan,day,amount,line\nQ1,pay,101,2024-02-01,1199.10,\nQ2,pay,102,2024-12-31,1200.00,\n"
            b"Q3,pay,103,2024-02-29,500.50,\n")
SHEETS = [
    ("Trace;Loan;Date;Amount\r\nQ1;101;2024-02-01;1199.1\r\nQ2;102;2024-12-31;1,200.00\r\n"
     "Q3;103;2024-02-29;$500.50\r\n",
     "--set do=pay"),
    ("Amount\tLOAN NUMBER\tNote\tEffective Date\tkey\n$1,199.10\t101\ta, b\t2/1/2024\tQ1\n"
     "1200.0\t102\t\t12/31/2024\tQ2\n500.5\t103\t\t02/29/2024\tQ3", "--set do=pay --dates mdy"),
    ("\ufeffloan,day,amount,key,do\n101,1.2.24,\"1,199.10\",Q1,Wire\n,,,,\n\n102,31.12.2024,\"$1,200.00\",Q2,pay\n"
     "0103,29.02.2024,$ 500.50,Q3,WIRE\n", "--dates dmy --word wire=pay"),
    ("Sum,Loan,Date,Id,line\n1199.10,101,2024/2/1,Q1,\n1200,102,2024/12/31,Q2,\n500.50,103,2024-02-29,Q3,\n",
     "--set do=pay --dates ymd --whole --column amount=sum --column key=ID"),
]


@case("tidy: four sheets of three payments, each with its own columns, separators, amounts and days, are one file")
def sheets_read(room):
    for text, words in SHEETS:
        same((PAYMENTS, b""), tool("tidy.py", *words.split(), given=text.encode()), words)


# A row that is refused below `key,do,loan,day,amount,line`, the words, and what the reason has in it.
DOUBTS = [
    ("Q1,pay,101,2024-02-01,1199,", "", "amount '1199' has no point"),
    ("Q1,pay,101,2024-02-01,\"1,199\",", "", "amount '1,199' has no point"),
    ("Q1,pay,101,2024-02-01,\"1199,10\",", "", "amount '1199,10' is no amount"),
    ("Q1,pay,101,2024-02-01,1.199,", "", "amount '1.199' is no amount"),
    ("Q1,pay,101,2024-02-01,\"1,19.10\",", "--whole", "amount '1,19.10' is no amount"),
    ("Q1,pay,101,2024-02-01,-5.00,", "", "amount '-5.00' is below zero"),
    ("Q1,pay,101,2024-02-01,(5.00),", "", "amount '(5.00)' is below zero"),
    ("Q1,pay,101,2024-02-01,,", "", "amount is empty"),
    ("Q1,pay,101,2/1/2024,5.00,", "", "day '2/1/2024' may be read in several orders"),
    ("Q1,pay,101,2/1/94,5.00,", "--dates mdy", "day '2/1/94' may be of 1994 or 2094"),
    ("Q1,pay,101,2/1/202,5.00,", "--dates mdy", "day '2/1/202' is no day in the order mdy"),
    ("Q1,pay,101,2/1/24,5.00,", "--dates ymd", "day '2/1/24' is no day in the order ymd"),
    ("Q1,pay,101,31/1/2024,5.00,", "--dates mdy", "day '31/1/2024' is no day of the calendar in the order mdy"),
    ("Q1,pay,101,2023-02-29,5.00,", "", "day '2023-02-29' is no day of the calendar"),
    ("Q1,pay,101,1989-12-31,5.00,", "", "day '1989-12-31' is not of the years 1990 to 2099"),
    ("Q1,pay,101,45323,5.00,", "--dates mdy", "day '45323' is no day"),
    ("Q1,pay,1O1,2024-02-01,5.00,", "", "loan '1O1' is no whole number"),
    ("Q1,pay,4294967296,2024-02-01,5.00,", "", "loan '4294967296' is above 4294967295"),
    ("Q1,Wire,101,2024-02-01,5.00,", "", "do 'Wire' is none of pay, curtail, payoff, deposit, disburse"),
    ("4.02E+15,pay,101,2024-02-01,5.00,", "", "key '4.02E+15' was rounded by the spreadsheet"),
    ("a b,pay,101,2024-02-01,5.00,", "", "key 'a b' is no key"),
    ("Q0,pay,101,2024-02-01,5.00,", "", "key 'Q0' is that of row 2 too"),
    ("Q1,curtail,101,2024-02-01,5.00,principal", "", "line 'principal' does not go with curtail"),
    ("Q1,disburse,101,2024-02-01,5.00,", "", "line '' is no whole number"),
    ("Q1,pay,101,2024-02-01,1,199.10,", "", "has 7 fields where row 1 has 6"),
    ("Total,,,,5.00,", "", "do is empty"),
]


@case(f"tidy: {len(DOUBTS)} rows in doubt are refused with row and reason, and nothing is written")
def doubts(room):
    head = "key,do,loan,day,amount,line\nQ0,pay,101,2024-02-01,5.00,\n"
    for row, words, reason in DOUBTS:
        found = tidy.tidy(head + row + "\n", tidy.words_of(words.split()))[1]
        if len(found) != 1 or not found[0].startswith("row 3: " + reason):
            raise AssertionError(f"{row}: {found}")
    out, log = tool("tidy.py", given=(head + DOUBTS[0][0] + "\n" + DOUBTS[0][0]).encode(), status=1)
    same((b"", "nothing is written: 2 in doubt"), (out, log.decode().splitlines()[-1]))


# A file that is refused as a whole, and what the reason has in it.
HEADERS = [
    ("", "the file is empty"),
    ("key,do,loan,date,amount,effective date\n", "row 1: several columns may be day: 'date', 'effective date'"),
    ("key,do,loan,amount\n", "row 1: no column is day"),
    ("key;do,loan;day,amount\n", "row 1: no column is"),
    ("key,do,loan,day,amount\n\"Q1\"x,pay,101,2024-02-01,5.00\n", "line 2:"),
    ("key,do,loan,day,amount\n\"Q1,pay,101,2024-02-01,5.00\n", "line 2:"),
    ("key,do,loan,day,amount\nQ1,pay,101,2024-02-01,5.00\xff", "byte 49 is not UTF-8"),
]


@case("tidy: an amount that is cut at its comma is not taken for whole dollars")
def cut_at_comma(room):
    text = "key,do,loan,day,amount,\nQ1,pay,101,2024-02-01,1,199.10\n"
    found = tidy.tidy(text, tidy.words_of(["--whole"]))[1]
    same(["row 2: '199.10' stands in a column without a name"], found)


@case("tidy: a file whose columns or bytes are in doubt is refused as a whole")
def headers(room):
    for text, reason in HEADERS:
        out, log = tool("tidy.py", given=text.encode("latin-1"), status=1)
        if out or reason not in log.decode():
            raise AssertionError(f"{text!r}: {out!r} {log!r}")
    for words in ("--column loans=Loan", "--set", "--set x=1", "--key a", "--dates xyz"):
        tool("tidy.py", *words.split(), status=2)


LOANS = ("Loan,Boarding Date,Unpaid Principal,Note Rate,Servicing Fee,P&I,Term,First Due,Escrow Payment,"
         "Investor's Type\n"
         "101,12/15/2023,\"$200,000.00\",6.000%,0.25%,1199.1,360,1/1/2024,0.00,Scheduled\n"
         "102,12/15/2023,\"150,000.00\",6.875 %,0.250%,985.39,360,2024-01,250.00,AA\n")
BOARDED = (b"b-101 board 101 2023-12-15 200000.00 6000 250 1199.10 360 2024-01 15 500 2 0.00 SS\n"
           b"b-102 board 102 2023-12-15 150000.00 6875 250 985.39 360 2024-01 15 500 2 250.00 AA\n")
BOARD = ["--board", "--key", "b-", "--dates", "mdy", "--set", "grace=15", "--set", "late=5%", "--set", "cushion=2",
         "--column", "type=Investor's type", "--word", "scheduled=SS"]


@case("tidy: a sheet of loans becomes board lines, which the program accepts; rates without a sign want a word")
def boarding(room):
    same((BOARDED, b""), tool("tidy.py", *BOARD, given=LOANS.encode()))
    path = os.path.join(room, "books.journal")
    run(path, "init")
    same((0, b"ok 1\nok 2\nok 3\n", b""), run(path, "apply", given=b"d day 2023-12-15\n" + BOARDED))
    bare = LOANS.replace(" %", "").replace("%", "").encode()
    log = tool("tidy.py", *BOARD, given=bare, status=1)[1].decode()
    if "row 2: rate '6.000' has no percent sign" not in log:
        raise AssertionError(log)
    same((BOARDED, b""), tool("tidy.py", *BOARD, "--rates", "percent", given=bare))
    lines = bare
    for old, new in ((b"6.000", b"6000"), (b"6.875", b"6875"), (b"0.250,", b"250,"), (b"0.25,", b"250,")):
        lines = lines.replace(old, new)
    same((BOARDED, b""), tool("tidy.py", *BOARD, "--rates", "lines", given=lines))
    for old, new, reason in ((b"6.000%", b"6.0625%", "more than 3 digits"), (b",360,", b",360.0,", "no whole number"),
                             (b"1/1/2024", b"1/15/2024", "not the first day"), (b"Scheduled", b"Mixed", "is none of")):
        log = tool("tidy.py", *BOARD, given=LOANS.encode().replace(old, new, 1), status=1)[1].decode()
        if reason not in log:
            raise AssertionError(log)


@case("tidy: the quarter's files are as they were")
def quarters_files(room):
    for name in ("03-january.csv", "05-february.csv", "11-march.csv"):
        data = read(EXAMPLES, "quarter", name)
        plain = data.replace(b'"', b"").replace(b"\r\n", b"\n").removeprefix(b"\xef\xbb\xbf")
        same((plain, b""), tool("tidy.py", given=data), name)


# Sheets that LibreOffice writes

SPACES = " ".join(f'xmlns:{name}="urn:oasis:names:tc:opendocument:xmlns:{place}:1.0"' for name, place in (
    ("office", "office"), ("style", "style"), ("number", "datastyle"), ("table", "table"), ("text", "text")))
STYLES = """\
<number:date-style style:name="D"><number:month/><number:text>/</number:text><number:day/><number:text>/</number:text>\
<number:year number:style="long"/></number:date-style>
<number:currency-style style:name="M"><number:currency-symbol number:language="en" number:country="US">$\
</number:currency-symbol><number:number number:decimal-places="2" number:min-integer-digits="1" \
number:grouping="true"/></number:currency-style>
<style:style style:name="date" style:family="table-cell" style:data-style-name="D"/>
<style:style style:name="currency" style:family="table-cell" style:data-style-name="M"/>"""


def cell(kind, text):
    """A cell of a sheet: a string, a date, a currency or a float, shown as spreadsheets show these."""
    if kind == "string":
        return f'<table:table-cell office:value-type="string"><text:p>{text}</text:p></table:table-cell>'
    style = "" if kind == "float" else f' table:style-name="{kind}"'
    name = "date-value" if kind == "date" else "value"
    return f'<table:table-cell office:value-type="{kind}"{style} office:{name}="{text}"/>'


def opened(kinds, rows):
    """A spreadsheet whose rows have cells of these kinds below a header of strings, as a flat file."""
    cells = [[cell("string", it) for it in rows[0]], *([cell(*it) for it in zip(kinds, row)] for row in rows[1:])]
    body = "".join(f"<table:table-row>{''.join(row)}</table:table-row>" for row in cells)
    return (f'<?xml version="1.0" encoding="UTF-8"?><office:document {SPACES} office:version="1.2" '
            'office:mimetype="application/vnd.oasis.opendocument.spreadsheet">'
            f"<office:automatic-styles>{STYLES}</office:automatic-styles><office:body><office:spreadsheet>"
            f'<table:table table:name="a">{body}</table:table></office:spreadsheet></office:body></office:document>')


def saved(room, path, options, *words):
    """What LibreOffice saves of a file as CSV with these options: separator, quote, character set and so on."""
    without_tool("soffice")
    subprocess.run(["nice", "-n", "19", "soffice", f"-env:UserInstallation=file://{room}/profile", "--headless", *words,
                    "--convert-to", f"csv:Text - txt - csv (StarCalc):{options}", "--outdir", f"{room}/out", path],
                   check=True, capture_output=True, timeout=300)
    return read(room, "out", os.path.basename(path).split(".")[0] + ".csv")


@case("tidy: a sheet that LibreOffice saves with comma, semicolon or tab, quoted or not, as shown or not, is one file")
def from_libreoffice(room):
    kinds = ("string", "date", "float", "string", "currency")
    rows = [("Trace", "Date", "Loan", "Payer", "Amount"),
            ("Q1", "2024-02-01", "101", "Alvarez, &quot;M&quot;", "1199.1"),
            ("Q2", "2024-12-31", "102", "", "1200"), ("Q3", "2024-02-29", "103", "\u00c5se", "500.5")]
    write(opened(kinds, rows).encode(), room, "sheet.fods")
    for options in ("44,34,76,1,,0,false,true", "59,34,76,1,,0,true,true", "9,34,76,1,,0,false,false"):
        data = saved(room, f"{room}/sheet.fods", options)
        same((PAYMENTS, b""), tool("tidy.py", "--set", "do=pay", "--dates", "mdy", given=data), options)
    kinds = ("float", "date", "float", "string", "float")
    write(opened(kinds, [rows[0], ("4711000000000012345", *rows[1][1:])]).encode(), room, "rounded.fods")
    data = saved(room, f"{room}/rounded.fods", "44,34,76,1,,0,false,true")
    log = tool("tidy.py", "--set", "do=pay", "--dates", "mdy", given=data, status=1)[1].decode()
    if "was rounded by the spreadsheet" not in log:
        raise AssertionError(log)


@case("tidy: the bank's sheet of examples/sheets, opened in LibreOffice and saved again, is the same file of payments")
def through_libreoffice(room):
    words, sheet = ["--set", "do=pay", "--dates", "mdy"], os.path.join(EXAMPLES, "sheets", "bank.csv")
    wanted = tool("tidy.py", *words, given=read(sheet))[0]
    same(b"0201-4713,pay,103,2024-02-01,1199.10,", wanted.splitlines()[3])
    for detect in ("true", "false"):
        opening = f"--infilter=Text - txt - csv (StarCalc):44,34,76,1,,1033,false,{detect}"
        data = saved(room, sheet, "44,34,76,1,,0,false,true", opening)
        same((wanted, b""), tool("tidy.py", *words, given=data), data)


# pair.py

LATE_FILE = b"""\
row 2  p-0110-106  pay 106 2024-01-10 1939.29      ok 37
row 3  p-0112-105  curtail 105 2024-01-12 2000.00  ok 38
row 4  p-0112-107  pay 107 2024-01-12 500.00       no 5 NoSuchLoan
       no loan has that number; look at the number; board the loan first
row 5  p-0112-1O5  pay 1O5 2024-01-12 500.00       bad row 5 column 3
       the field loan does not fit
4 sent: 2 ok, 0 answered, 1 refused, 1 bad, 0 without a reply
"""


def paired(room, word, sent, replies, *words, status=0):
    """What pair.py writes of an input and its replies."""
    write(sent, room, "sent")
    write(replies, room, "replies")
    return tool("pair.py", word, f"{room}/sent", f"{room}/replies", *words, status=status)


@case("pair: the quarter's late file has a row that was refused and one that is bad, and its month has none")
def late_file(room):
    folder = os.path.join(EXAMPLES, "quarter")
    sent, replies = read(folder, "07-late-file.csv"), read(folder, "07-late-file.txt")
    same((LATE_FILE, b""), paired(room, "import", sent, replies, status=1))
    out = paired(room, "import", sent, replies, "--csv", status=1)[0].splitlines()
    same([b"place,key,sent,reply,meaning", b"row 2,p-0110-106,pay 106 2024-01-10 1939.29,ok 37,"], out[:2])
    sent, replies = read(folder, "04-february.lines"), read(folder, "04-february.txt")
    out = paired(room, "apply", sent, replies)[0].splitlines()
    same(b"6 sent: 3 ok, 3 answered, 0 refused, 0 bad, 0 without a reply", out[-1])
    same(b"line 5 ? rows 27 rows 27 count 7 .. and 8 lines", b" ".join(out[4].split()))


# Lines, and the replies that docs/FORMATS.md and docs/REFUSALS.md give, with what is said of each.
TOLD = [
    ("k1 day 2024-02-01", "ok 1", None),
    ("k2 board 1 2024-02-01 1.00 1 1 1.00 1 2024-03 1 1 1 0.00 SS", "no 6 BadTerms 4 Payment",
     "the level payment: above the first month's interest, at most 100,000,000.00"),
    ("? report 2024-02", "no 23 NotClosed -",
     "the month has no report; close it first; before the first closed month there are none"),
    ("k3 analyse 1 - spread:6 -", "no 18 BadPlan 4 TooFewMonths 6",
     "a shortage over fewer than 12 months, a deficiency over fewer than 2; spread it longer"),
    ("k3 line 1 1 tax 1 1 1.00", "no 2 Full Lines",
     "the loan has as many escrow lines as it can; `drop` one that has ended, or set the line under the number of one"),
    ("? history 7", "no 5 NoSuchLoan", "no loan has that number; look at the number; board the loan first"),
    ("? quote 1 2023-12-14", "no 10 BeforeBoarding 2023-12-15", "date it on or after the boarded day"),
    ("? command 9", "no 28 NoSuchCommand", "it was not booked: send it, under that key"),
    ("? key k9", "no 28 NoSuchCommand",
     "no command has that number or that key; it was not booked: send it, under that key"),
    ("", "bad 0", "a word is missing at the end"),
    ("k1", "bad 2", "a word is missing at the end"),
    ("k1  day 2024-02-01", "bad 3", "there is a space too many"),
    ("k1 pay 01 2024-02-01 1.00", "bad 7", "the word '01' does not fit"),
    ("k1 pay 1 2024-02-01", "bad 19", "a word is missing at the end"),
    ("k3 pay 1 2024-02-01 5.00\r", "bad 20", "the word '5.00\\r' does not fit"),
    ("x" * 513, "bad 512", "the line is longer than 512 bytes"),
]


@case("pair: refusals and faults of lines in words, over all that docs/REFUSALS.md shows")
def in_words(room):
    lines, replies = ("".join(it[at] + "\n" for it in TOLD).encode() for at in (0, 1))
    out = paired(room, "apply", lines, replies, status=1)[0].decode().splitlines()
    wanted = [it for row in TOLD for it in (row[1], row[2]) if it]
    got = [it[-len(wanted[at]):] for at, it in enumerate(out[:-1])]
    same(wanted, got)
    same("16 sent: 1 ok, 0 answered, 8 refused, 7 bad, 0 without a reply", out[-1])
    for name in ("refusals", "full"):
        folder = os.path.join(EXAMPLES, "refusals")
        paired(room, "apply", read(folder, name + ".lines"), read(folder, name + ".txt"), status=1)


@case("pair: a run that ended early, replies of another input, and an input without the header")
def not_whole(room):
    sent = b"a day 2024-02-01\n? trial 2024-01\nb day 2024-02-02"
    whole = b"ok 1\ntrial 2024-01 loans 0\ntotal upb 0.00 balance 0.00\nend\nok 2\n"
    same(b"3 sent: 2 ok, 1 answered, 0 refused, 0 bad, 0 without a reply",
         paired(room, "apply", sent, whole)[0].splitlines()[-1])
    for length, count in ((len(whole) - 1, 1), (len(whole) - 6, 2), (5, 2), (0, 3)):
        out = paired(room, "apply", sent, whole[:length], status=1)[0].splitlines()
        same(f"{count} without a reply", out[-1].decode().split(", ")[-1], length)
    for replies in (whole + b"ok 3\n", b"ok 1\nok 2\nok 3\n", b"ok 1\nreport 2024-01 lines 0\nend\nok 2\n"):
        same(b"", paired(room, "apply", sent, replies, status=2)[0])
    head = b"\xef\xbb\xbfkey,do,loan,day,amount,line\r\n"
    same(b"row 2", paired(room, "import", head + b"\r\na,pay,1,2024-02-01,1.00,\r\n", b"ok 2\n")[0][:5])
    same(b"", paired(room, "import", head + b"a,pay,1,2024-02-01,1,\n", b"bad row 3 column 5\n", status=2)[0])
    out = paired(room, "import", head[:-4] + b"x\na,pay,1,2024-02-01,1.00,\n", b"bad row 1 column 1\n", status=1)[0]
    same(b"the first row is not key,do,loan,day,amount,line", out.splitlines()[1].strip())


# The desk's queries over the quarter, with what is said of each.
DESK = """\
line 1  ?  loan 102              loan 102 boarded 2023-12-15 principal 150000.00 rate 6875 fee 250 pi 985.39 term 360 \
first 2024-01 grace 15 late 500 cushion 2 escrow 250.00 type AA .. and 3 lines
line 2  ?  history 102           history 102 2024-04-01 events 8 .. and 10 lines
line 3  ?  quote 102 2024-04-30  quote 102 2024-04-30 151354.88 perday 28.57
line 4  ?  arrears 102           arrears 102 2024-04-01 installments 1 due 1235.39 suspense 0.00 pay 1235.39 late 0.00
line 5  ?  aging                 aging 2024-04-01 loans 0 .. and 2 lines
line 6  ?  status                status 2024-04-01 loans 6 commands 62 closed 2024-03 remitted 2024-03 close 2024-04 \
remit 2024-04 pending 0 adjustments 2
line 7  ?  command 40            command 40 .. and 3 lines
line 8  ?  key back-102          command 40 .. and 3 lines
line 9  ?  command 63            no 28 NoSuchCommand
        a question about a command that was not accepted: no command has that number or that key; it was not booked: \
send it, under that key
9 sent: 0 ok, 8 answered, 1 refused, 0 bad, 0 without a reply
"""


@case("pair: the desk's queries have their answers, the long ones to their end, and one of them its refusal")
def desk(room):
    path = quarter(room)
    lines = [" ".join(it[8:31].split()) for it in DESK.splitlines() if it.startswith("line ")]
    sent = "".join(f"{it}\n" for it in lines).encode()
    same((DESK.encode(), b""), paired(room, "apply", sent, run(path, "apply", given=sent)[1], status=1))


def messy(draws, number):
    """A file of rows, some of them with quotes, line ends and fields where none belong."""
    text = draws.choice(["", "\ufeff"]) + "key,do,loan,day,amount,line" + draws.choice(["\n", "\r\n"])
    for at in range(draws.randint(1, 5)):
        row = [f"k{number}.{at}", "pay", draws.choice("17"), "2024-02-01", draws.choice(["1.00", "0.00", "1"]), ""]
        row = [draws.choice([f'"{it}"', f'"{it}', it + '"', f'"{it}"x', f'"{it}\n"', '"a""b"'])
               if draws.random() < 0.1 else it for it in row]
        text += ",".join(row) + draws.choice(["\n", "\r\n", "\r", "\n\n", "\n \n", "\r\r\n", '\n""\n'])
    return text.encode()


@case("pair: each of 60 messy files has its replies, row by row")
def messy_files(room):
    path, draws = os.path.join(room, "books.journal"), random.Random(63)
    meanings = pair.meanings_of(read(TOP, "docs", "REFUSALS.md").decode())
    run(path, "init")
    same(0, run(path, "apply", given=b"d day 2024-02-01\nb board 1 2023-12-15 %b SS\n" % generate.TERMS.encode())[0])
    for number in range(60):
        data = messy(draws, number)
        replies = run(path, "import", given=data)[1].decode().splitlines()
        got = pair.pair(list(pair.rows_of(data)), replies, meanings)
        same(replies, [it[3] for it in got], data)


@case("pair: a bank's sheet is tidied, imported and paired, and twice the same")
def three_commands(room):
    path, sheet = quarter(room), SHEETS[0][0].encode()
    rows = tool("tidy.py", "--set", "do=pay", given=sheet)[0].replace(b"2024-12-31", b"2024-02-30")
    for _ in range(2):
        replies = run(path, "import", given=rows)[1]
        same(b"ok 63\nbad row 3 column 4\nok 64\n", replies)
        out = paired(room, "import", rows, replies, status=1)[0].splitlines()
        same(b"3 sent: 2 ok, 0 answered, 0 refused, 1 bad, 0 without a reply", out[-1])


# verify.py: journals by the hex of docs/JOURNAL.md

LINE = b"k1 day 2024-02-01"
HEX_2 = bytes.fromhex("4d5352564a303032 01 00000001 0011 6b312064617920323032342d30322d3031 00")
HEX_1 = bytes.fromhex("4d5352564a303031 01 0011 6b312064617920323032342d30322d3031 00")
NEXT = bytes.fromhex("00000002 0011") + b"k2 day 2024-02-02" + b"\0"
SECOND = HEX_2[:-1] + b"\1" + NEXT

# Files, the lines of their records, and what is said of what stands behind them.
FILES = [
    (HEX_2, 2, [LINE], ""),
    (HEX_1, 1, [LINE], ""),
    (b"MSRVJ002\0", 2, [], ""),
    (b"MSRVJ001\0", 1, [], ""),
    (HEX_1[:-1] + b"\2" + HEX_2, 2, [LINE], ""),
    (HEX_1[:-1] + b"\1" + HEX_2, 2, [LINE], ""),
    (HEX_1[:-1] + b"\0" + HEX_2, 1, [LINE], "behind the end 33 bytes: an upgrade that was not finished"),
    (HEX_2 + b"any bytes", 2, [LINE], "behind the end 9 bytes, none of them a record"),
    (HEX_2 + bytes(65536), 2, [LINE], ""),
    (HEX_2 + NEXT + bytes(65536), 2, [LINE], "WARNING behind the end 65560 bytes with 1 well-formed records: a command"),
    (HEX_2 + NEXT, 2, [LINE], "WARNING behind the end 24 bytes with 1 well-formed records: a command that was being"),
    (HEX_2[:-1] + b"\7" + NEXT, 2, [LINE], "WARNING behind the end 24 bytes with 1 well-formed records: a command"),
    (HEX_1 + HEX_1[9:], 1, [LINE], "WARNING behind the end 20 bytes with 1 well-formed records: a command that was"),
    (b"MSRVJ002\0" + SECOND[9:], 2, [], "WARNING behind the end 48 bytes with 2 well-formed records: the commit byte"),
    (HEX_2 + NEXT.replace(b"\2", b"\3"), 2, [LINE], "behind the end 24 bytes, none of them a record"),
]


@case(f"verify: {len(FILES)} journals of both versions and what stands behind their ends")
def journals(room):
    for data, version, lines, rest in FILES:
        got = verify.read_journal(data)
        same((version, lines), (got.version, got.lines), data)
        same(lines, reckon.lines_of_journal(data), data)
        said = list(verify.described("a", data, got))
        same(rest, "".join(said[4:])[:len(rest)], data)
        same(1 if rest else 0, len(said[4:]), data)
    write(SECOND, room, "a")
    wanted = (b"journal %b/a\nversion 2 records 2 length 57\ncommands day 2\nlast key k2\n" % room.encode())
    same((wanted, b""), tool("verify.py", f"{room}/a"))
    same((b"1 k1 day 2024-02-01\n2 k2 day 2024-02-02\n", b""), tool("verify.py", "--lines", f"{room}/a"))
    tool("verify.py", f"{room}/none", status=2)


@case("verify: a journal cut at each length, or with a number or length changed, is damaged where the program says")
def damage(room):
    path = os.path.join(room, "cut")
    files = [SECOND[:length] for length in range(8, len(SECOND))]
    files += [SECOND[:at] + b"\3" + SECOND[at + 1:] for at in (9, 12, 13, 14, 33, 36, 37, 38)]
    for data in files:
        try:
            verify.check_lines(verify.read_journal(data))
            places = ""
        except verify.Damaged as why:
            places = str(why).split(":")[0]
        write(data, path)
        status, _, log = run(path, "custodial")
        same(b"status 8 Damaged %b" % places.encode() if places else b"", log.strip(), data)
        same(8 if places else 0, status, data)
    for data in (b"", b"MSRVJ00", b"MSRVJ003\0"):
        write(data, path)
        same(6, run(path, "custodial")[0], data)
        out = tool("verify.py", path, status=1)[0]
        same(b"WARNING %b is damaged at 0: the header is that of no journal\n" % path.encode(), out)
    for line in (b"k1 day 2024-02-02", b"k2 dey 2024-02-02", b"k! day 2024-02-02"):
        data = SECOND.replace(b"k2 day 2024-02-02", line)
        write(data, path)
        same(b"status 8 Damaged 32", run(path, "custodial")[2].strip(), line)
        if not tool("verify.py", path, status=1)[0].startswith(b"WARNING %b is damaged at 32: " % path.encode()):
            raise AssertionError(line)


# The lines of a journal and of a backup, the status, and what is said of them.
PAIRS = [
    ("ab", "ab", 0, "the backup has all commands"),
    ("abc", "a", 0, "the backup is 2 commands behind, from 2, key b, on"),
    ("a", "", 0, "the backup is 1 commands behind, from 1, key a, on"),
    ("a", "abc", 1, "WARNING the backup has 2 commands that the journal lacks, from 2 on"),
    ("abc", "axc", 1, "WARNING the files differ from command 2 on"),
]


@case("verify: a backup is behind its journal, has all of it, has more, or is another")
def backups(room):
    for ours, theirs, status, wanted in PAIRS:
        for name, keys in (("a", ours), ("b", theirs)):
            lines = [f"{key} day 2024-02-01" for key in keys]
            write(generate.journal_of(lines), room, name)
        out = tool("verify.py", f"{room}/a", f"{room}/b", status=status)[0].decode()
        same(wanted, out.splitlines()[-1])


@case("verify: the quarter's journal has its commands, as reckon.py reads them")
def quarters_journal(room):
    path = quarter(room)
    lines = reckon.lines_of_journal(read(path))
    listed = [f"{number} {line.decode()}" for number, line in enumerate(lines, 1)]
    same("\n".join(listed) + "\n", tool("verify.py", "--lines", path)[0].decode())
    out = tool("verify.py", path)[0].decode().splitlines()
    length = 9 + sum(7 + len(line) for line in lines)
    same([f"version 2 records 62 length {length}", "last key r-2024-03"], [out[1], out[3]])
    same(4, len(out))


# ledger.py

def kept_in_ledger(room, path, *words):
    """The text that ledger.py makes of a journal, with its custodial line."""
    listed = tool("verify.py", "--lines", path)[0]
    asked = "".join(f"? rows {it.split()[0]}\n" for it in listed.decode().splitlines()).encode()
    files = {"commands": listed, "rows": run(path, "apply", given=asked)[1], "custodial": run(path, "custodial")[1]}
    for name, data in files.items():
        write(data, room, name)
    return tool("ledger.py", *words, "--custodial", f"{room}/custodial", f"{room}/commands", f"{room}/rows")[0].decode()


def cents_of(text):
    """The sum of the postings of each account, assertions left out; each transaction's is 0."""
    sums = collections.Counter()
    for transaction in text.split("\n\n"):
        found = re.findall(r"^ +(\w\S*)  (-?)([0-9]+)\.([0-9]{2}) USD", transaction, re.M)
        values = [(name, int(sign + whole + cents)) for name, sign, whole, cents in found]
        same(0, sum(it for _, it in values), transaction)
        for name, value in values:
            sums[name] += value
    return sums


def checked(room, text, wanted):
    """Passes a text through hledger, compares its balances of accounts, and sees that another one of T is refused."""
    path = os.path.join(room, "books.ledger")
    write(text.encode(), path)
    subprocess.run(["hledger", "-f", path, "check", "-s", "ordereddates"], check=True, capture_output=True)
    out = subprocess.run(["hledger", "-f", path, "balance", "--flat", "-E", "-N", "-O", "csv"], check=True,
                         capture_output=True, env={**os.environ, "LC_ALL": "C.UTF-8"}).stdout.decode()
    got = {name: amount.removesuffix(" USD") for name, amount in csv.reader(out.splitlines())}
    for name, cents in wanted.items():
        amount = f"{'-' * (cents < 0)}{abs(cents) // 100}.{abs(cents) % 100:02}"
        same(amount if cents else "0", got[name], name)
    write(re.sub(r"(Custodial:T  0.00 USD = )[0-9.]+", r"\g<1>0.01", text).encode(), path)
    same(1, subprocess.run(["hledger", "-f", path, "check"], capture_output=True).returncode, "another T")


# What examples/README.md says of the quarter's end.
QUARTER = {"Assets:Custodial:T": 148000, "Assets:Custodial:P": 0, "Equity:Servicer:EscrowAdvance": -10000,
           "Equity:Servicer:PiAdvance": 0}
COMMAND_40 = """\
2024-02-14 (40) back-102
    ; reverse 102 21
    Equity:Borrower:Returned  1235.39 USD  ; loan: 102
    Assets:Custodial:T  -1235.39 USD  ; loan: 102
    Assets:Custodial:P  -985.39 USD  ; loan: 102
    Assets:Custodial:T  985.39 USD  ; loan: 102
    Equity:Servicer:Fee  -31.22 USD  ; loan: 102
    Assets:Custodial:P  31.22 USD  ; loan: 102
"""


def year(room):
    """The path of a journal of 500 loans and a year, at whose end escrow has 5,000.00 less a bill of 250.00."""
    lines = [*generate.year(500, 12, 1), "l1 line 1 1 tax 7 12 500.00"]
    lines += [f"e{loan} deposit {loan} 2025-01-01 100.00" for loan in range(1, 51)]
    lines.append("u1 disburse 1 2025-01-01 250.00 1")
    write(generate.journal_of(lines), room, "books.journal")
    return os.path.join(room, "books.journal")


def end_of_year(path):
    """What T, P and the advances are at that year's end: T and escrow by hand, P and the other as the program says."""
    said = run(path, "custodial")[1].decode().split()
    held, advanced = (int(said[said.index(name) + 1].replace(".", "")) for name in ("P", "pi-advance"))
    # Loan 1 is 150.00 below zero, which the servicer advances.
    return {"Assets:Custodial:T": 475000 + 15000, "Equity:Servicer:EscrowAdvance": -15000,
            "Assets:Custodial:P": held, "Equity:Servicer:PiAdvance": -advanced}


@case("ledger: the transactions of the quarter, and of a year of 500 loans, add up to the custodial line")
def add_up(room):
    text = kept_in_ledger(room, quarter(room))
    if COMMAND_40 not in text:
        raise AssertionError("command 40 is another")
    sums = cents_of(text)
    same(QUARTER, {name: sums[name] for name in QUARTER})
    path = year(room)
    wanted, sums = end_of_year(path), cents_of(kept_in_ledger(room, path))
    same(wanted, {name: sums[name] for name in wanted})


@case("ledger: hledger checks the quarter and has its balances")
def quarter_in_hledger(room):
    without_tool("hledger")
    checked(room, kept_in_ledger(room, quarter(room)), QUARTER)


@case("ledger: hledger checks a year of 500 loans and has its balances")
def year_in_hledger(room):
    without_tool("hledger")
    path = year(room)
    checked(room, kept_in_ledger(room, path), end_of_year(path))


@case("ledger: ledger accepts the quarter with an investor's name in all accounts, and refuses another T")
def quarter_in_ledger(room):
    text = kept_in_ledger(room, quarter(room), "--investor", "Fund-7")
    same(148000, cents_of(text)["Assets:Custodial:Fund-7:T"])
    without_tool("ledger")
    for said, status in ((text, 0), (text.replace("USD = 1480.00", "USD = 1480.01"), 1)):
        write(said.encode(), room, "books.ledger")
        ran = subprocess.run(["ledger", "-f", f"{room}/books.ledger", "balance"], capture_output=True)
        same(status, ran.returncode, ran.stderr)


@case("ledger: beancount accepts the quarter, and refuses another T")
def quarter_in_beancount(room):
    without_tool("bean-check")
    text = kept_in_ledger(room, quarter(room), "--beancount")
    for said, status in ((text, 0), (text.replace("T  1480.00", "T  1480.01"), 1)):
        write(said.encode(), room, "books.beancount")
        same(status, subprocess.run(["bean-check", f"{room}/books.beancount"], capture_output=True).returncode)


@case("ledger: rows that are cut, of other commands or too many are refused")
def rows_not_whole(room):
    kept_in_ledger(room, quarter(room))
    rows = read(room, "rows")
    for data in (rows[:-5], rows[rows.index(b"rows 2 "):], rows.replace(b"count 7", b"count 8"),
                 rows + b"rows 63 count 0\nend\n", rows.replace(b"rows 1 count 0\nend", b"no 13 NoSuchEntry")):
        write(data, room, "cut")
        same(b"", tool("ledger.py", f"{room}/commands", f"{room}/cut", status=1)[0])
    tool("ledger.py", "--investor", "a b", f"{room}/commands", f"{room}/rows", status=2)


if __name__ == "__main__":
    sys.exit(run_all(sys.argv[1:]))
