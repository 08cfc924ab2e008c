"""Tests of what the desk's page is: readable for all, small, exact with money, its own; desk.py runs them."""
import os
import re

from desk_beside import DESK, QUARTER, accepted, book_line, desk, journal, quarter, shown
from harness import TOP, case, read, same
import reckon

HERE = os.path.dirname(os.path.abspath(__file__))
FORMS = ("pay", "curtail", "payoff", "deposit", "disburse", "refund", "waive", "analyse", "line", "drop", "retype")
VIEWS = ("/", "/late", "/month", "/close", "/remit", "/day", "/board", "/custody", "/commands/27", "/keys/c-2024-01",
         "/loans/102?quote=2024-06-30&analysis=1", "/loans/102/reverse?number=21", "/months/2024-01/report",
         "/months/2024-01/trial?sort=upb&down=1", "/loans/999", "/nowhere", *(f"/loans/102/{it}" for it in FORMS))
PLANT = """const [name, attributes, text, style] = arguments;
    const box = document.createElement("div"), it = document.createElement(name);
    Object.entries(attributes).forEach(([its, value]) => it.setAttribute(its, value));
    Object.assign(it.style, style);
    (name === "table" ? it.insertRow().insertCell() : it).append(text);
    box.id = "planted";
    box.append(it);
    document.querySelector("main").append(box)"""
SOURCES = sorted(it for it in os.listdir(DESK) if it.endswith((".js", ".css", ".html", ".svg")))


def source(name):
    return read(DESK, name).decode()


# Readable for all

def judged(browser, where):
    faults = browser.script(read(HERE, "accessible.js").decode())
    same([], faults, f"{where} at {browser.script('return innerWidth')} pixels")


def judged_at_all_sizes(browser, where):
    """The page as it is, in a window of half the width (as at 200 %), in a narrow one, and with larger letters."""
    for width, letters in ((1280, ""), (640, ""), (320, ""), (1280, "200%")):
        browser.size(width, 900)
        browser.script("document.documentElement.style.fontSize = arguments[0]", letters)
        judged(browser, where)
    browser.size(1280, 960)
    browser.script("document.documentElement.style.fontSize = ''")


@case("desk: labels, names, headings, tables, contrast, targets and widths of every view, also at 200 % and narrow")
def views(room):
    with desk(room, accepted(quarter("04"))) as (browser, _, front):
        browser.load("/nothing")
        for it in VIEWS:
            browser.go(it)
            judged_at_all_sizes(browser, it)


@case("desk: the same where something is wrong: faults of fields, a refusal, a key that is another's, a second look")
def troubled_views(room):
    with desk(room, accepted(quarter("04"))) as (browser, _, front):
        browser.load("/loans/102/payoff")
        browser.fill(amount="1199.1", day="2024-02-30", item="a b")
        browser.find("#send").click()
        same(["Day it took effect does not fit. As in 2024-02-01.", "Amount does not fit. As in 1,199.10."],
             [browser.text(f"#field-{it}-fault") for it in ("day", "amount")])
        same("field-day", browser.script("return document.activeElement.id"), "the first field that is wrong")
        judged_at_all_sizes(browser, "faults")
        browser.fill(amount="1.00", day="2024-02-01", item="1")
        browser.send()
        same(("Refused: nothing was booked. The payoff due on that day is 150,732.64. Book at least that, or book the "
              "money as a payment.", "Code 12 PayoffShort 150732.64"), browser.refused())
        judged_at_all_sizes(browser, "a refusal")
        browser.book("/loans/101/pay", amount="1.00", item="1")
        browser.fill_form("/loans/102/pay", {"amount": "1.00", "item": "1"})
        browser.send()
        same("Code 1 KeyReused 28", browser.refused()[1])
        judged_at_all_sizes(browser, "a key that is another's")
        browser.go("/day")
        browser.fill(day="2024-02-02")
        browser.find("#send").click()
        browser.says("Look once more. This cannot be taken back.", ".said")
        judged_at_all_sizes(browser, "a second look")


@case("desk: what judges the views finds what is planted: no label, pale letters, a small target and the like")
def planted(room):
    small = {"minHeight": "0", "height": "10px", "width": "10px", "padding": "0"}
    with desk(room) as (browser, _, front):
        browser.load("/custody")
        for words, *it in (
                ("no name", "input", {}, "", {}), ("contrast 1.6", "p", {}, "pale", {"color": "#ccc"}),
                ("the id main stands twice", "p", {"id": "main"}, "", {}),
                ("level is left out", "h4", {}, "deep", {}), ("a target of 10 by 10", "button", {}, "x", small),
                ("the page is", "p", {}, "wide", {"width": "3000px"}),
                ("a table without a caption", "table", {}, "1", {}),
                ("for names nowhere", "label", {"for": "nowhere"}, "x", {}),
                ("an edge of contrast", "input", {"aria-label": "x"}, "", {"borderColor": "#ddd"}),
                ("a picture without words", "img", {}, "", {})):
            browser.script(PLANT, *it)
            faults = browser.script(read(HERE, "accessible.js").decode())
            same(True, any(words in it for it in faults), (words, faults))
            browser.script("document.querySelector('#planted').remove()")
        judged(browser, "without what was planted")


def tab_to(browser, selector):
    """Presses the tab key until the focus is where a selector finds; each stop on the way is seen."""
    for _ in range(120):
        browser.keys("\ue004")
        stop = browser.script("""const it = document.activeElement, style = getComputedStyle(it);
            const { top, bottom } = it.getBoundingClientRect();
            return [it.matches(arguments[0]), style.outlineStyle, parseFloat(style.outlineWidth),
                it.tagName === "BODY" || bottom > 0 && top < innerHeight, it.outerHTML.slice(0, 90)]""", selector)
        if "<body" not in stop[4]:
            same((False, True, True), (stop[1] == "none", stop[2] >= 2, stop[3]), stop[4])
        if stop[0]:
            return
    raise AssertionError(f"no way by the tab key to {selector}")


def enter(browser):
    browser.mark()
    browser.keys("\ue007")


@case("desk: by keyboard alone: a loan is found, a payment booked and taken back, a month closed with a second look")
def keyboard(room):
    with desk(room, [*accepted(quarter("04")), "d3 day 2024-03-01"]) as (browser, _, front):
        browser.load()
        tab_to(browser, ".skip")
        browser.keys("\ue007")
        same("main", browser.script("return document.activeElement.id"))
        browser.load()
        tab_to(browser, "#find-loan")
        browser.mark()
        browser.keys("103", "\ue007")
        browser.settle()
        same(("/loans/103", "H1"), (browser.address(), browser.script("return document.activeElement.tagName")))
        tab_to(browser, "a[href='#/loans/103/pay']")
        enter(browser)
        browser.settle()
        tab_to(browser, "[name=amount]")
        browser.keys("700.00")
        tab_to(browser, "[name=designation]")
        browser.keys("\ue015")
        tab_to(browser, "[name=item]")
        browser.keys("4711")
        tab_to(browser, "#send")
        enter(browser)
        same(29, browser.booked())
        tab_to(browser, "a[href='#/loans/103/reverse?number=29']")
        enter(browser)
        browser.settle()
        tab_to(browser, "#send")
        enter(browser)
        same(30, browser.booked())
        tab_to(browser, "nav a[href='#/month']")
        enter(browser)
        browser.settle()
        tab_to(browser, "a[href='#/close']")
        enter(browser)
        browser.settle()
        tab_to(browser, "#send")
        browser.mark()
        browser.keys("\ue007")
        same("Yes: close the month", browser.script("return document.activeElement.textContent"))
        browser.keys("\ue007")
        same(31, browser.booked())
        keys = [it.split(" ")[0] for it in journal(room)[28:]]
        same(["c-4711 pay 103 2024-03-01 700.00 principal", f"{keys[1]} reverse 103 29", f"{keys[2]} close 2024-02"],
             journal(room)[28:])


# Small, and its own

@case("desk: the first paint takes at most three requests and 100 KB; all that is loaded comes from the same origin")
def first_paint(room):
    with desk(room, accepted(quarter("04"))) as (browser, _, front):
        browser.load()
        count, size, names = browser.wait(lambda: browser.script("""
            const paint = performance.getEntriesByName("first-contentful-paint")[0];
            const loaded = [...performance.getEntriesByType("navigation"), ...performance.getEntriesByType("resource")];
            const first = loaded.filter((it) => it.startTime < paint?.startTime);
            return paint && [first.length, first.reduce((sum, it) => sum + it.transferSize, 0),
                loaded.map((it) => it.name)]"""), "the first paint")
        if count > 3 or not 0 < size <= 100 * 1024:
            raise AssertionError((count, size, names))
        same([], [it for it in names if not it.startswith(browser.origin + "/")])
        whole = sum(len(read(DESK, it)) for it in SOURCES)
        same(True, whole <= 100 * 1024, f"all files of the desk have {whole} bytes")
        cookies = browser.script("return [document.cookie, localStorage.length, sessionStorage.length]")
        same(["", 0, 0], cookies, "what is kept outside the address")


@case("desk: sources: no place elsewhere, no markup from text, nothing kept, no floating point; short functions")
def sources(room):
    for name in SOURCES:
        text = source(name).replace("http://www.w3.org/2000/svg", "")
        for word in ("http:", "https:", "//cdn", "innerHTML", "outerHTML", "insertAdjacent", "document.write", "eval(",
                     "localStorage", "sessionStorage", "document.cookie", "parseFloat", "toFixed", "style="):
            same(False, word in text, (name, word))
        lines = text.splitlines()
        same(True, len(lines) < 400, name)
        same([], [it for it in lines if len(it) > 120], name)
        begins = re.compile(r"(export )?(async )?function |    (async )?\w+\(.*\{$")
        starts = [at for at, it in enumerate(lines) if begins.match(it)]
        for at in starts:
            indent = re.match(r" *", lines[at])[0]
            length = next(more for more, it in enumerate(lines[at:]) if it.startswith(indent + "}"))
            same(True, length < 40, (name, lines[at], length))


@case("desk: every code of docs/REFUSALS.md has words of its own, with its value where it has one")
def refusals(room):
    rows = re.findall(r"^\| (\d+) \| (\w+)[^|]*\|", read(TOP, "docs", "REFUSALS.md").decode(), re.M)
    table = read(TOP, "docs", "FORMATS.md").decode()
    texts = re.findall(r"`no (\d+ \w+[^`]*)`", table)
    texts += [f"2 Full {it}" for it in ("Commands", "Loans", "Entries", "Lines", "Months", "Types")]
    for code, name in ((6, "BadTerms"), (17, "BadLine")):
        row = next(it for it in table.splitlines() if it.startswith(f"| {code} | {name} |"))
        texts += [f"{code} {name} {it}" for it in re.findall(r"`(\d+ \w+)`|or `(\d+ \w+)`", row) for it in it if it]
    texts += [f"18 BadPlan {it}" for it in ("1 MustRefund", "2 MustSpread Short", "3 MustSpread Deficient",
                                            "4 TooFewMonths 11", "5 TooManyMonths 61", "6 NothingToPlan Surplus",
                                            "6 NothingToPlan Short", "6 NothingToPlan Deficient")]
    same({it for it, _ in rows}, {it.split()[0] for it in texts}, "codes")
    with desk(room) as (browser, _, front):
        browser.load()
        for text in sorted(set(texts)):
            code, name, *value = text.split(" ")
            said = browser.module("refusals.js", "it.refusalShown({code: %s, name: '%s', value: '%s'}).textContent"
                                  % (code, name, " ".join(value)))
            words = said.partition("Refused: nothing was booked. ")[2].partition("Code ")[0]
            same((False, True), ("undefined" in words or "The program refuses." in words, len(words) > 20), said)
            if re.fullmatch(r"\d+\.\d\d|\d{4}-\d\d(-\d\d)?", " ".join(value)):
                same(True, shown(value[0]) in words, said)


@case("desk: amounts: read, shown and added in whole cents; what is typed and in doubt is not taken")
def amounts(room):
    with desk(room) as (browser, _, front):
        browser.load()

        def money(expression):
            return browser.module("money.js", expression)

        for text, wanted in (("0.00", "0.00"), ("-0.01", "-0.01"), ("1199.10", "1,199.10"), ("-1000.00", "-1,000.00"),
                             ("99999999999.99", "99,999,999,999.99"),
                             ("9007199254740993.01", "9,007,199,254,740,993.01")):
            same([text, wanted], money(f"[it.plain(it.cents('{text}')), it.shown(it.cents('{text}'))]"))
        same("90071992547409930.03", money("it.plain(it.sum(['90071992547409930.01', '0.01', '0.01'].map(it.cents)))"))
        for text, wanted in (("1199.10", "1199.10"), (" 1,199.10 ", "1199.10"), ("1199", "1199.00"), ("0.01", "0.01"),
                             ("99999999999.99", "99999999999.99"), ("100000000000.00", None), ("1199.1", None),
                             ("1.199,10", None), ("1,19.10", None), ("01.00", None), ("-5.00", None), (".50", None),
                             ("1e3", None), ("", None), ("12 000.00", None), ("$5.00", None)):
            same(wanted, money(f"it.typed('{text}')"), text)
        same(["6.000 %", "0.250 %", "0.001 %", "2023-12", "2024-09"], money(
            "[it.percent(6000), it.percent(250), it.percent(1), it.monthBefore('2024-01'), it.monthBefore('2024-10')]"))


# The month

@case("desk: the report by any column, up and down, as its address says, and as a CSV file")
def report(room):
    with desk(room, accepted(quarter("10"))) as (browser, _, front):
        browser.load("/months/2024-02/report")
        caption = "Lines of the report of 2024-02"
        for clicks, loans in ((1, "105 102 104 101 103 106"), (2, "106 103 101 104 102 105")):
            browser.find("[data-by=upb]").click()
            same(loans.split(), [it[0] for it in browser.table(caption)[1:-1]])
            same(["ascending", "descending"][clicks - 1], browser.script(
                "return document.querySelector('[aria-sort]').getAttribute('aria-sort')"))
        same("/months/2024-02/report?sort=upb&down=1", browser.address())
        browser.load("/months/2024-02/report?sort=upb&down=1")
        same(loans.split(), [it[0] for it in browser.table(caption)[1:-1]])
        same([["38", "105", "2024-01", "0.00", "2,000.00"], ["40", "102", "2024-01", "-828.13", "-126.01"]],
             browser.table("Adjustments in the report of 2024-02")[1:])
        browser.find("#csv").click()
        path = os.path.join(browser.files, "report-2024-02.csv")
        browser.wait(lambda: os.path.exists(path), path)
        rows = read(path).decode().split("\r\n")
        same(["Loan,Interest due,Principal due,Interest adjusted,Principal adjusted,Balance,Investor's balance",
              "106,1248.82,238.44,0.00,0.00,249524.35,249524.35", ""], [*rows[:2], rows[-1]])
        same("102,1655.56,252.75,-828.13,-126.01,149747.25,149747.25", rows[5])


@case("desk: the drawings of balances and late loans have the heights of their figures; late loans by how late, linked")
def drawings(room):
    with desk(room, [*accepted(quarter("15")), "d day 2024-04-20"]) as (browser, _, front):
        browser.load("/month")
        bars = browser.script("""return [...document.querySelectorAll("svg")].map((it) =>
            [it.querySelector("title").textContent,
                [...it.querySelectorAll("rect")].map((bar) => Number(bar.getAttribute("height"))),
                [...it.querySelectorAll(".value")].map((at) => at.textContent)])""")
        closed = browser.table("Closed months, the newest first")[1:][::-1]
        same(["2023-12", "2024-01", "2024-02", "2024-03"], [it[0] for it in closed])
        cents = [[int(it[at].replace(",", "").replace(".", "")) for at in (2, 3)] for it in closed]
        most = max(max(it) for it in cents)
        same([200 * it // most for pair in cents for it in pair], bars[0][1])
        same([it[2] for it in closed], bars[0][2])
        same(["Late loans on 2024-04-20"], [it[0] for it in bars[1:]])
        same(True, "on the business day alone" in browser.text())
        counts = [int(row[1]) for row in browser.table("Loans by lateness on the business day")[2:6]]
        same([200 * it // max(counts) for it in counts], bars[1][1])
        browser.go("/late")
        late = browser.script("return [...document.querySelectorAll('tbody a')].map((it) => it.hash)")
        same(sum(counts), len(late))
        browser.follow("tbody a")
        same(late[0][1:], browser.address())


@case("desk: custody: the accounts with their parts, a command by number and by key, and its rows")
def custody(room):
    with desk(room, accepted(quarter("04"))) as (browser, _, front):
        browser.load("/custody")
        browser.fill(command="27")
        browser.follow("section form button")
        text = read(QUARTER, "04-february.txt").decode()
        rows = [it.split()[1:] for it in text.splitlines() if it.startswith("row ")]
        same([[*it[:4], shown(it[4])] for it in rows], browser.table("Custodial rows of command 27")[1:])
        browser.go("/keys/r-2024-01")
        same("Command 27", browser.text("h1"))
        browser.go("/keys/r-2024-02")
        browser.says("Code 28 NoSuchCommand")


# The cashier's morning

def kept_picture(browser, room, name, height=None):
    """Keeps a screenshot where the run was asked for them, else in the case's folder; it is small."""
    path = os.path.join(os.environ.get("DESK_PICTURES", room), f"{name}.png")
    browser.picture(path, height)
    same(True, len(read(path)) < 150_000, (name, len(read(path))))


def lines_of_guide():
    """The requests of single items in the guide, up to those that are taken back."""
    text = read(TOP, "docs", "guide", "cashier.md").decode().partition("## Late files")[0]
    asked = re.compile(r"(?:echo ')?((?:[a-z]+-[0-9a-z]+|\?) [a-z]+ \d+[^']*?)(?:' \|.*)?")
    return [found[1] for found in map(asked.fullmatch, text.splitlines()) if found]


def sees_books(browser, servicer, line):
    """Sees that the page shows the books that the guide shows."""
    loan = line.split(" ")[2]
    words = servicer.answer(line).split()
    books = dict(zip(words[3::2], words[4::2]))
    browser.go("/nowhere")
    browser.go(f"/loans/{loan}")
    facts = browser.facts("now")
    for name, label in (("upb", "Balance"), ("escrow", "Escrow"), ("suspense", "Suspense"), ("pay", "Its whole amount"),
                        ("late", "Late charges owed")):
        same(shown(books[name]), facts[label], (line, label))
    same("Each sum is the figure of the books.", browser.text("#agrees"))


@case("desk: the cashier's morning of docs/guide/cashier.md, line by line in the page")
def morning(room):
    lines = accepted([*quarter("04"), *quarter("05")])
    servicer = reckon.Servicer()
    for it in lines:
        servicer.answer(it)
    codes = []
    with desk(room, lines) as (browser, _, front):
        browser.load()
        for line in lines_of_guide():
            if line.startswith("?"):
                if line.startswith("? books"):
                    sees_books(browser, servicer, line)
            else:
                codes.append(book_line(browser, servicer, line))
    same([0, 1, 0, 0, 0, 0, 11, 0, 20, 0, 0, 12, 0, 0, 14, 13], codes)


@case("desk: the pictures of docs/guide/cashier.md: what they show, and that they are there and small")
def pictures(room):
    with desk(room, accepted([*quarter("04"), *quarter("05")])) as (browser, _, front):
        browser.load("/loans/103")
        kept_picture(browser, room, "loan", 980)
        browser.fill_form("/loans/103/pay", {"amount": "600.00", "item": "4711"})
        same("c-4711 pay 103 2024-02-01 600.00", browser.text("#line"))
        kept_picture(browser, room, "payment")
        browser.send()
        same(34, browser.booked())
        kept_picture(browser, room, "booked", 560)
        browser.fill_form("/loans/105/payoff", {"amount": "119812.20", "item": "wire-105"})
        browser.send()
        same("Code 12 PayoffShort 119812.21", browser.refused()[1])
        kept_picture(browser, room, "refusal")
        browser.go("/loans/103")
        browser.follow("a[href='#/loans/103/reverse?number=34']")
        kept_picture(browser, room, "take-back")
        browser.book("/day", day="2024-03-02")
        browser.go("/month")
        kept_picture(browser, room, "month")
        browser.go("/close")
        browser.find("#send").click()
        kept_picture(browser, room, "close")
        browser.send()
        browser.booked()
        browser.go("/months/2024-02/report")
        kept_picture(browser, room, "report")
        browser.go("/late")
        kept_picture(browser, room, "late")
    guide = read(TOP, "docs", "guide", "cashier.md").decode()
    shown_there = sorted(re.findall(r"\(\.\./\.\./desk/pictures/([\w-]+\.png)\)", guide))
    same(sorted(os.listdir(os.path.join(DESK, "pictures"))), shown_there)
    same([], [it for it in shown_there if len(read(DESK, "pictures", it)) > 150_000])
