#!/usr/bin/env python3
"""Tests of the desk (desk/) in a real browser, through the nginx of deploy/, before the program.

    desk.py [--pictures] [WORD..]    all cases, or those whose names have the words

`--pictures` keeps the screenshots of the cashier's morning in desk/pictures/. The browser is Chromium, driven by
Selenium: `apt-get install chromium chromium-driver python3-selenium nginx-light openssl`; where one of them is missing
the cases are skipped by its name. `JAQHENDULU` names another program than the one that `rt` built. Prints a line a case
and `N passed, M failed` at its end.
"""
import os
import re
import signal
import sys
import time

from harness import case, read, run_all, same
from desk_beside import (DESK, QUARTER, accepted, book_line, desk, journal, losing, quarter, shown,
                         without_key)
import desk_checks  # noqa: F401, whose cases are run too
import reckon

# The quarter

@case("desk: the worked quarter, each command by its form: board, pay, refuse, take back, close, remit, report")
def whole_quarter(room):
    lines = [it for it in quarter() if not it.startswith("?") and " 107 " not in it and " 1O5 " not in it]
    servicer = reckon.Servicer()
    with desk(room) as (browser, _, front):
        browser.load()
        codes = [book_line(browser, servicer, it) for it in lines]
        same([14, 20, 18, 12], [it for it in codes if it])
        same([without_key(it) for it in accepted(quarter())], [without_key(it) for it in journal(room)])
        for loan in range(101, 107):
            browser.go(f"/loans/{loan}")
            same("Each sum is the figure of the books.", browser.text("#agrees"))
        tables_of_quarter(browser)


def tables_of_quarter(browser):
    """The report, the trial and the custodial line of March, beside the quarter's own files."""
    browser.go("/months/2024-03/report")
    report = [it.split(" ") for it in read(QUARTER, "16-report.txt").decode().splitlines()]
    wanted = [[it[1], *(shown(it[at]) for at in (3, 4, 6, 7, 9, 11))] for it in report if it[0] == "line"]
    got = browser.table("Lines of the report of 2024-03")
    same(wanted, got[1:-1])
    same([shown(it) for it in (report[-2][2], report[-2][4])], got[-1][1:3])
    browser.go("/months/2024-03/trial")
    trial = [it.split(" ") for it in read(QUARTER, "17-trial.txt").decode().splitlines()]
    same([[it[1], shown(it[3]), shown(it[5])] for it in trial if it[0] == "loan"],
         browser.table("Balances of 2024-03")[1:-1])
    browser.go("/custody")
    text = read(QUARTER, "18-custodial.txt").decode().split()
    named = dict(zip(text[1::2], text[2::2]))
    same([shown(named[it]) for it in ("T", "suspense", "escrow", "escrow-advance", "P", "held", "pi-advance")],
         [it[1] for it in browser.table("What the accounts hold, and what that is made of")[1:]])


@case("desk: each view of a loan beside the program's texts: books, arrears, quote, history with sums, terms, escrow")
def loan_views(room):
    lines = accepted(quarter("09"))
    servicer = reckon.Servicer()
    for it in lines:
        servicer.answer(it)
    with desk(room, lines) as (browser, _, front):
        browser.load("/loans/102?quote=2024-06-30&analysis=1")
        words = servicer.answer("? books 102").split()
        books = dict(zip(words[3::2], words[4::2]))
        facts = browser.facts("now")
        same([shown(books["upb"]), books["next"], shown(books["escrow"]), shown(books["late"])],
             [facts[it] for it in ("Balance", "Open installment", "Escrow", "Late charges owed")])
        quote = servicer.answer("? quote 102 2024-06-30").split()
        same({"On": quote[2], "Amount": shown(quote[3]), "Interest of a day": shown(quote[5])}, browser.facts("quote"))
        events = [it.split() for it in servicer.answer("? history 102").splitlines() if it.startswith("event")]
        got = browser.table("History of loan 102")
        same([[it[1], "" if it[2] == "-" else it[2], shown(it[4]), *map(shown, it[6:17:2]), shown(it[18]), it[20]]
              for it in events], [[*it[:2], *it[3:12]] for it in got[1:-2]])
        same(got[-2][4:10], got[-1][4:10])
        same([["21", "40"]], browser.table("Entries that were taken back")[1:])
        same(["1", "tax", "2", "6 months", "1,100.00"], browser.table("Escrow lines")[1])
        month = servicer.answer("? escrow 102").splitlines()[1].split()
        same([month[1], *map(shown, month[3::2])], browser.table("Its twelve months")[1])
        same("6.875 %", browser.facts("terms")["Rate"])
        browser.go("/loans/102?quote=2023-12-14")
        browser.says("Code 10 BeforeBoarding 2023-12-15")
        browser.go("/loans/107")
        browser.says("No loan has that number.")
        browser.load("/loans/102?quote=2024-06-30")
        same(shown(quote[3]), browser.facts("quote")["Amount"], "the same address, sent to someone")


# Once

@case("desk: an impatient second click, and a third by Enter, book once under one key")
def double_click(room):
    with desk(room, accepted(quarter("04"))) as (browser, kept, front):
        browser.load("/loans/103")
        browser.go("/loans/103/pay")
        browser.fill(amount="600.00")
        key = browser.text("#key")
        browser.mark()
        kept.it.send_signal(signal.SIGSTOP)
        browser.script("const it = document.getElementById('send'); it.click(); it.click();"
                       "document.querySelector('.booking').requestSubmit()")
        same((key, "Sending …"), (browser.text("#key"), browser.text("#send")))
        kept.it.send_signal(signal.SIGCONT)
        same(28, browser.booked())
        same([f"{key} pay 103 2024-02-01 600.00"], journal(room)[27:])
        browser.mark()
        browser.driver.back()
        browser.settle()
        same("/loans/103", browser.address(), "the form that was answered is not gone back to")


@case("desk: the program is killed between click and answer, and started again: the item is booked once")
def killed(room):
    with desk(room, accepted(quarter("04"))) as (browser, kept, front):
        for count in range(1, 4):
            browser.load("/loans/103/pay")
            browser.fill(amount=f"{count}.00", item=f"50{count}")
            browser.mark()
            kept.it.send_signal(signal.SIGSTOP)
            browser.find("#send").click()
            time.sleep(0.2)
            kept.kill()
            same(27 + count, browser.booked())
        same([f"c-50{it} pay 103 2024-02-01 {it}.00" for it in range(1, 4)], journal(room)[27:])
        same(True, kept.starts >= 4, "starts")


@case("desk: where the browser drops changes of the address that are too many, what was booked is noted a while later")
def many_changes(room):
    with desk(room, accepted(quarter("04"))) as (browser, _, front):
        browser.load("/loans/103/pay")
        browser.fill(amount="600.00", item="4711")
        browser.script("for (let it = 0; it < 250; it += 1) { history.replaceState(null, '', location.hash); }")
        browser.send()
        same(28, browser.booked())
        same(["c-4711 pay 103 2024-02-01 600.00"], journal(room)[27:])
        same(True, all("Throttling" in it for it in browser.faults()), "the browser's console")


@case("desk: the answer is lost once on its way: nginx asks again, and the page has the first answer")
def answer_lost(room):
    with losing(room, accepted(quarter("04"))) as (browser, between, _):
        between.drops = 1
        browser.load()
        same(28, browser.book("/loans/103/pay", amount="600.00", item="4711"))
        same((1, ["c-4711 pay 103 2024-02-01 600.00"]), (between.lost, journal(room)[27:]))


@case("desk: no answer comes though it was booked: the key stays; asked for or sent again it is booked once")
def in_doubt(room):
    with losing(room, accepted(quarter("04"))) as (browser, between, _):
        for count, way in enumerate(("#look-up", "#send", "load")):
            between.lost, between.drops = 0, 1000
            browser.load("/loans/103/pay")
            browser.fill(amount=f"60{count}.00")
            key = browser.text("#key")
            browser.send()
            browser.says("It may be booked or not.", ".said")
            same((key, True), (browser.text("#key"), browser.script(
                "return document.querySelector('[name=amount]').disabled")))
            same(28 + count, len(journal(room)))
            between.drops = 0
            browser.mark()
            if way == "load":
                browser.driver.refresh()
            else:
                browser.find(way).click()
            same(28 + count, browser.booked())
            same([f"{key} pay 103 2024-02-01 60{count}.00"], journal(room)[27 + count:])


@case("desk: the program stays away: the page says so; what was not booked is sent again under its key")
def away(room):
    with losing(room, accepted(quarter("04"))) as (browser, _, kept):
        browser.load("/loans/103/pay")
        browser.fill(amount="600.00")
        key = browser.text("#key")
        kept.pause = 8
        kept.kill()
        browser.send()
        browser.says("The program did not come back in time. (HTTP 504) It may be booked or not.", ".said")
        kept.pause = 0.3
        browser.wait(lambda: kept.starts > 1, "the program's next start")
        browser.find("#look-up").click()
        browser.says("It was not booked. Send it again, or change it.", ".said")
        same((key, 27), (browser.text("#key"), len(journal(room))))
        browser.send()
        same(28, browser.booked())
        same([f"{key} pay 103 2024-02-01 600.00"], journal(room)[27:])


@case("desk: two cashiers at once, in two windows: two items are booked, one item of both is booked once")
def two_cashiers(room):
    with desk(room, accepted(quarter("04"))) as (browser, _, front):
        one = browser.driver.current_window_handle
        browser.driver.switch_to.new_window("tab")
        other = browser.driver.current_window_handle
        for first, second, more in ((("601.00", "71"), ("602.00", "72"), 2), (("603.00", "73"), ("603.00", "73"), 1)):
            before_ = len(journal(room))
            for it, (amount, item) in ((one, first), (other, second)):
                browser.to_window(it)
                browser.load("/loans/103/pay")
                browser.fill(amount=amount, item=item)
                browser.mark()
            for it in (other, one):
                browser.to_window(it)
                browser.script("document.getElementById('send').click()")
            numbers = set()
            for it in (one, other):
                browser.to_window(it)
                numbers.add(browser.booked())
            same((set(range(before_ + 1, before_ + 1 + more)), more), (numbers, len(journal(room)) - before_))
        browser.load("/loans/104/pay")
        browser.fill(amount="604.00", item="73")
        browser.send()
        words, code = browser.refused()
        same(("Code 1 KeyReused 30", True), (code, "The key is that of command 30" in words))
        browser.find(".said button").click()
        same("", browser.find("[name=item]").get_attribute("value"))
        browser.send()
        same(31, browser.booked())


@case("desk: both close a month: one does, the other one is told which month is next")
def both_close(room):
    with desk(room, [*accepted(quarter("09")), "d3 day 2024-03-01"]) as (browser, _, front):
        one = browser.driver.current_window_handle
        browser.load("/close")
        same("The month 2024-02 is closed. It cannot be opened again.", browser.text(".preview p"))
        browser.driver.switch_to.new_window("tab")
        browser.load()
        same(45, browser.book("/close"))
        browser.to_window(one)
        browser.send()
        words, code = browser.refused()
        same(("Refused: nothing was booked. The month to be closed next is 2024-03.", "Code 21 WrongPeriod 2024-03"),
             (words, code))
        browser.go("/month")
        same(("2024-02", "2024-03", "2024-02"), tuple(browser.facts("status")[it] for it in (
            "Closed last", "Close next", "Remit next")))
        browser.follow("a[href='#/remit']")
        browser.says("5,465.42", "aside")
        browser.send()
        same(46, browser.booked())
        browser.says("ok 46 net 9034.98", "#booked")
        browser.go("/remit?period=2024-02")
        browser.send()
        same("Code 24 WrongRemit 2024-03", browser.refused()[1])


if __name__ == "__main__":
    words = sys.argv[1:]
    if "--pictures" in words:
        words.remove("--pictures")
        os.environ["DESK_PICTURES"] = os.path.join(DESK, "pictures")
    sys.exit(run_all(words))
