#!/usr/bin/env python3
"""What the desk asks, on real processes: the worked rows by lines, over a journal, by the word `ask` and over HTTP, and
random histories.

    asked.py [WORD..]    its cases, or those whose names have the words

Standard library alone; `JAQHENDULU` names another program than the one that `rt` built. Prints a line a case and
`N passed, M failed` at its end.
"""
import os
import re
import sys

from harness import TOP, case, named, read, run, run_all, same
import bodies
import histories
import reckon
from serve import Served

SCRIPTS = ("BEHIND", "TAKEN_BACK"), ("ANALYSED", "PAID_OFF")
BOARDED = """> k1 day 2024-02-01
ok 1
> k2 board 1 2023-12-15 200000.00 6000 250 1199.10 360 2024-02 15 500 2 0.00 SS
ok 2
> k3 pay 1 2024-02-01 1199.10
ok 3
"""


def exchanges():
    """The worked rows: for each of two servicers its lines, each with the text of its reply."""
    source = read(TOP, "crates", "svc_core_tests", "src", "desk_asked.rt").decode()
    texts = dict(re.findall(r'const ([A-Z_]+): &str = "([^"]*)";', source))
    for names in SCRIPTS:
        script = "".join([BOARDED] * (names[0] == "BEHIND") + [texts[name].lstrip("\n") for name in names])
        yield [one.split("\n", 1) for one in script.split("> ")[1:]]


def lines_of(rows):
    return "".join(line + "\n" for line, _ in rows).encode()


def replies_of(rows):
    return "".join(reply for _, reply in rows).encode()


@case("asked: the worked rows by lines in memory")
def in_memory(room):
    for rows in exchanges():
        same((0, replies_of(rows), b""), run(os.path.join(room, "none"), "session", given=lines_of(rows)))


@case("asked: the worked rows over a journal, a run a line")
def over_a_journal(room):
    for place, rows in enumerate(exchanges()):
        path = os.path.join(room, f"books{place}")
        run(path, "init")
        for line, reply in rows:
            same((0, reply.encode(), b""), run(path, "apply", given=line.encode()), line)


def asks(path, line, reply):
    """Asks a query's line by its words."""
    same((0, reply.encode(), b""), run(path, "ask", *line.split(" ")[1:]), line)


@case("asked: the worked rows by the word `ask`, each beside its line; refusals are written at status 0")
def by_words(room):
    for place, rows in enumerate(exchanges()):
        path = os.path.join(room, f"books{place}")
        run(path, "init")
        for line, reply in rows:
            if line.startswith("? "):
                asks(path, line, reply)
            same((0, reply.encode(), b""), run(path, "apply", given=line.encode()), line)


@case("asked: words that are no query are status 2, and touch nothing")
def no_query(room):
    lines = ("", "books", "books 01", "books 1 2", "books  1", "book 1", "Status", "status ", "quote 1", "key ", "? books 1",
             "quote 1 2024-02-30", "quote 2024-02-01 1", "pay 1 2024-02-01 1.00", "report 2024-13", "aging 1", "key a b",
             "command x", "books 4294967296", "books -1", "k1 day 2024-02-01", "books 1\n", "history\t1")
    others = [("j", "ask"), ("j", "ask", "books 1"), ("j", "asks", "status"), ("j", "ASK", "status"), ("", "ask", "status")]
    for it in [("j", "ask", *line.split(" ")) for line in lines] + others:
        status, out, log = run(*it, cwd=room)
        same((2, b"", b"status 2 Usage"), (status, out, named(log)), it)
    same([], os.listdir(room), "files")


@case("asked: the worked rows by routes and bodies")
def over_http(room):
    for place, rows in enumerate(exchanges()):
        it = Served(room, 1, f"books{place}")
        link = it.link()
        for line, reply in rows:
            same(bodies.reply_of(reply), bodies.ask(link, *bodies.request_of(line)), line)
        link.close()
        it.it.communicate(timeout=60)


@case("asked: the reckoning gives the worked rows too")
def reckoned(room):
    for rows in exchanges():
        servicer = reckon.Servicer()
        for line, reply in rows:
            same(reply, servicer.answer(line), line)


@case("asked: 12 random histories by lines, by `ask` and by routes are answered as reckon.py answers them")
def at_random(room):
    for seed in range(900, 912):
        given, wanted = histories.history(seed, 120)
        same((0, wanted, b""), run(os.path.join(room, "none"), "session", given=given), f"history {seed}")
        by_routes(room, seed, given.decode().splitlines())
        at_the_end(room, seed)


def at_the_end(room, seed):
    """Asks the journal of a history each query that its servicer was asked."""
    given, _ = histories.history(seed, 120)
    path, servicer = os.path.join(room, f"asked{seed}"), reckon.Servicer()
    run(path, "init")
    run(path, "apply", given=given)
    lines = given.decode().splitlines()
    for line in lines:
        servicer.answer(line)
    for line in lines:
        if line.startswith("? ") and not servicer.answer(line).startswith("bad "):
            asks(path, line, servicer.answer(line))


def by_routes(room, seed, lines):
    """Sends those lines of a history that are requests as bodies and paths."""
    it, servicer = Served(room, 1, f"books{seed}"), reckon.Servicer()
    link = it.link()
    for line in lines:
        reply = servicer.answer(line)
        if not reply.startswith("bad "):
            same(bodies.reply_of(reply), bodies.ask(link, *bodies.request_of(line)), f"{seed}: {line}")
    link.close()
    it.it.communicate(timeout=60)


if __name__ == "__main__":
    sys.exit(run_all(sys.argv[1:] or ["asked:"]))
