"""What the tests of the desk share: the quarter's lines, the browser on a desk, answers that are lost."""
import contextlib
import os
import re
import socket
import threading

from harness import TOP, read, same
from beside import Kept, needs, new_journal
from browser import PROGRAMS, the_browser
from front import Front, before
import bodies
import program
import reckon
import replay

QUARTER = os.path.join(TOP, "examples", "quarter")
DESK = os.path.join(TOP, "desk")


def lines_of(name):
    """The request lines of a file of the quarter."""
    data = read(QUARTER, name)
    return list(replay.lines_of_rows(data)) if name.endswith(".csv") else data.decode().splitlines()


def quarter(last="99"):
    """The lines of the quarter's files up to one, in their order."""
    names = sorted(it for it in os.listdir(QUARTER) if it.endswith((".lines", ".csv")))
    return [line for it in names if it[:2] <= last for line in lines_of(it)]


def accepted(lines):
    """The commands among them that the rules accept, each once."""
    servicer = reckon.Servicer()
    for line in lines:
        if not line.startswith("?"):
            servicer.answer(line)
    return servicer.accepted


@contextlib.contextmanager
def desk(room, lines=()):
    """The browser on a desk whose journal has these lines."""
    needs(*PROGRAMS)
    browser = the_browser()
    with before(room, new_journal(room, lines), wait="60s", is_quick=False) as (kept, front):
        browser.visit(front.port)
        yield browser, kept, front
        same([], browser.faults(), "the browser's console")


def journal(room):
    """The lines of a case's journal."""
    return [it.decode() for it in reckon.lines_of_journal(read(room, "books.journal"))]


def without_key(line):
    return line.partition(" ")[2]


def shown(amount):
    """An amount as the page shows it."""
    return re.sub(r"(?<=\d)(?=(\d{3})+\.)", ",", amount)


class Between:
    """Stands between nginx and the program: lets connections through, and where it is told to drops their answers."""

    def __init__(self, behind):
        self.behind, self.lost, self.drops = behind, 0, 0
        self.door = socket.create_server(("127.0.0.1", 0), backlog=64)
        self.port = self.door.getsockname()[1]
        threading.Thread(target=self.run, daemon=True).start()

    def run(self):
        with contextlib.suppress(OSError):
            while True:
                link, _ = self.door.accept()
                with contextlib.suppress(OSError), link:
                    self.pass_on(link)

    def pass_on(self, link):
        request = link.recv(65536)
        with socket.create_connection(("127.0.0.1", self.behind), timeout=20) as further:
            further.sendall(request)
            answer = b"".join(iter(lambda: further.recv(65536), b""))
        if request.startswith(b"POST") and self.lost < self.drops:
            self.lost += 1
            return
        link.sendall(answer)

    def close(self):
        self.door.close()


@contextlib.contextmanager
def losing(room, lines):
    """The browser on a desk behind which answers can be lost: browser, what loses them, the program that is kept."""
    needs(*PROGRAMS)
    browser, port = the_browser(), replay.free_port()
    kept = Kept([program.find(), new_journal(room, lines), "serve", str(port), "100000"], room, port)
    between = front = None
    try:
        between = Between(port)
        front = Front(room, between.port, wait="2s", is_quick=False)
        browser.visit(front.port)
        yield browser, between, kept
        same([], browser.faults(), "the browser's console")
    finally:
        for it in (front and front.end, between and between.close, kept.close):
            if it:
                it()


def form_of(line):
    """The address of the form for a command's line, and what is typed into its fields."""
    members = dict(zip(["key", "do", *bodies.FIELDS[line.split(" ")[1]].split()], line.split(" ")))
    key, word = members.pop("key"), members.pop("do")
    address = f"/{word}"
    if "loan" in members and word != "board":
        address = f"/loans/{members.pop('loan')}/{word}"
    if word in ("pay", "curtail", "payoff", "deposit", "disburse", "refund", "waive", "reverse"):
        members["item"] = key
    return address, members


def book_line(browser, servicer, line):
    """Books a line by its form, and sees that the page says what the rules say: the code of a refusal, or 0."""
    address, fields = form_of(line)
    if line in servicer.accepted:
        return 0
    answer = servicer.answer(line)
    sent = browser.fill_form(address, fields)
    same(without_key(line), without_key(sent), "the line that the page shows")
    browser.send()
    if answer.startswith("ok"):
        same(int(answer.split()[1]), browser.booked(), line)
        same(f"Reply: {answer.strip()}", browser.text("#booked p:last-child"), line)
        return 0
    words, code = browser.refused()
    same(f"Code {answer[3:].strip()}", code, line)
    same(True, words.startswith("Refused: nothing was booked. "), line)
    for amount in re.findall(r"\d+\.\d\d", answer):
        same(True, shown(amount) in words, (line, words))
    return int(answer.split()[1])
