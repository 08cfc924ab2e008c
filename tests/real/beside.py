"""What the tests of deploy/ share: its files, what is installed, programs that are kept, clients side by side."""
import os
import shutil
import signal
import subprocess
import sys
import threading
import time

from harness import STARTED, TOP, Skipped, read, run, same, write
import bodies
import reckon
import replay

sys.path.append(os.path.join(TOP, "bench"))
import generate  # noqa: E402

PLACES = os.environ["PATH"] + ":/usr/sbin:/sbin"
DEPLOY = os.path.join(TOP, "deploy")
COMMANDS = "/v1/commands"


def needs(*names):
    """Skips a case where a program is not installed."""
    missing = [it for it in names if not shutil.which(it, path=PLACES)]
    if missing:
        raise Skipped(f"not installed: {', '.join(missing)}")


def text_of(*path):
    """A file of deploy/."""
    return read(DEPLOY, *path).decode()


def changed(text, *changes):
    """A text with each of these pieces, which must be there, in place of another."""
    for old, new in changes:
        if old not in text:
            raise AssertionError(f"there is no {old!r}")
        text = text.replace(old, new)
    return text


def body_of_day(number):
    """The command that sets the business day so many days after the first of January 1990."""
    day = reckon.datetime.date(1990, 1, 1) + reckon.datetime.timedelta(number)
    return bodies.body_of(f"k{number} day {day}")


def start_words(words, **how):
    """Starts a process without input that nobody listens to."""
    STARTED.append(subprocess.Popen(words, stdin=subprocess.DEVNULL, stdout=subprocess.DEVNULL,
                                    stderr=subprocess.DEVNULL, **how))
    return STARTED[-1]


class Kept:
    """A program that serves and is started again whenever it ends, as its unit has it."""

    def __init__(self, words, place, port, pause=0.3):
        self.words, self.place, self.port, self.pause = words, place, port, pause
        self.starts, self.goes_on, self.it = 0, True, None
        self.thread = threading.Thread(target=self.keep, daemon=True)
        self.thread.start()
        replay.connect(self.port).close()

    def keep(self):
        while self.goes_on:
            self.it = start_words(self.words, cwd=self.place)
            self.starts += 1
            self.it.wait()
            time.sleep(self.pause)

    def kill(self):
        self.it.send_signal(signal.SIGKILL)

    def close(self):
        self.goes_on = False
        while self.thread.is_alive():
            self.kill()
            self.thread.join(0.1)


def new_journal(room, lines=()):
    """The path of a journal of these lines."""
    path = os.path.join(room, "books.journal")
    write(generate.journal_of(lines), path)
    same(0, run(path, "custodial")[0], "the journal opens")
    return path


def ok(number):
    return 200, f'{{"code":0,"number":{number},"text":"ok {number}"}}'.encode()


def at_once(clients):
    """Runs functions side by side, and raises what one of them raised."""
    raised = []

    def guarded(client):
        try:
            client()
        except Exception as error:  # told by the case
            raised.append(error)

    threads = [threading.Thread(target=guarded, args=[it]) for it in clients]
    for it in threads:
        it.start()
    for it in threads:
        it.join()
    if raised:
        raise raised[0]


def boarded(loans):
    """Lines of a day and so many loans."""
    yield "d day 2024-02-01"
    for loan in range(1, loans + 1):
        yield f"b{loan} board {loan} 2023-12-15 200000.00 6000 250 1199.10 360 2024-02 15 500 2 0.00 AA"
