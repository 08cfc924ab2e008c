#!/usr/bin/env python3
"""Tests on real processes: the built program over pipes, files, full disks, and killed at many moments.

    program.py [WORD..]    all cases, or those whose names have the words

Standard library alone; `JAQHENDULU` names another program than the one that `rt` built. Prints a line a case and
`N passed, M failed` at its end.
"""
import csv
import io
import os
import random
import re
import resource
import shutil
import signal
import subprocess
import sys
import threading
import time

from harness import TOP, Skipped, case, named, read, run, run_all, same, start, write
import forty
import histories
import reckon

QUARTER = os.path.join(TOP, "examples", "quarter")
MONTH = read(TOP, "examples", "month", "month.lines")
MONTH_TEXT = read(TOP, "examples", "month", "month.txt")
HEADER = "key,do,loan,day,amount,line"


def init(room, name="books.journal"):
    """The path of an empty journal."""
    path = os.path.join(room, name)
    same((0, b"", b""), run(path, "init"), "init")
    return path


def boarded(room):
    """A journal with the six loans of the quarter, on 2 January."""
    path = init(room)
    for step in ("01-board", "02-new-year"):
        wanted = read(QUARTER, step + ".txt")
        same((0, wanted, b""), run(path, "apply", given=read(QUARTER, step + ".lines")), step)
    return path


# Words

@case("words: what is in no row of the table is status 2, and touches nothing")
def words(room):
    for it in ([], [""], ["j"], ["j", "frob"], ["", "init"], ["j", "init", "x"], ["j", "report"],
               ["j", "report", "2024-1"], ["j", "report", "2100-01"], ["j", "drill", "0", "7"],
               ["j", "drill", "501", "7"], ["j", "drill", "01", "7"], ["j", "drill", "1", "1000000"],
               ["j", "drill", "40", "07"], ["", "transfer", "1", "2"],
               ["--help"], ["j", "--version"], ["j", "Apply"], ["j", "apply "]):
        status, out, log = run(*it, given=MONTH, cwd=room)
        same((2, b"", b"status 2 Usage"), (status, out, named(log)), it)
        if b"\njaqhendulu " not in log or b"\n  apply " not in log:
            raise AssertionError(f"no table of words: {log!r}")
    same([], os.listdir(room), "files")


@case("words: one that is not UTF-8 is status 2")
def words_of_bytes(room):
    status, out, log = run(os.path.join(room, "j").encode() + b"\xff", b"init")
    same((2, b"", b"status 2 Usage"), (status, out, named(log)))


@case("journal: a name that is not there, empty, a folder, another file")
def no_journal(room):
    path = os.path.join(room, "j")
    same((6, b"", b"status 6 NotJournal\n"), run(path, "apply", given=MONTH))
    same(b"", read(path))
    cause = f"status 5 DiskFault {room}: Is a directory (os error 21)\n".encode()
    same((5, b"", cause), run(room, "apply", given=MONTH), "a folder")
    write(b"PK\3\4 some other file", path)
    same((6, b"", b"status 6 NotJournal\n"), run(path, "custodial"))
    same((7, b"", b"status 7 AlreadyThere\n"), run(path, "init"))
    same(b"PK\3\4 some other file", read(path))


# Pipes and files

@case("session: a file, a pipe, a pipe of single bytes, and no line feed at the end")
def inputs(room):
    write(MONTH, room, "month.lines")
    with open(os.path.join(room, "month.lines"), "rb") as file:
        same((0, MONTH_TEXT, b""), run("j", "session", stdin=file), "file")
    same((0, MONTH_TEXT, b""), run("j", "session", given=MONTH), "pipe")
    same((0, MONTH_TEXT, b""), run("j", "session", given=MONTH[:-1]), "no line feed")
    it = start("j", "session")
    for byte in MONTH:
        it.stdin.write(bytes([byte]))
        it.stdin.flush()
    same((MONTH_TEXT, b""), it.communicate(timeout=60), "single bytes")
    same(0, it.returncode)
    same((0, b"", b""), run("j", "session"), "nothing")


def converse(it):
    """Sends each line only once the reply to the one before it has come."""
    replies = io.BytesIO(MONTH_TEXT)
    for line in MONTH.splitlines(keepends=True):
        it.stdin.write(line)
        it.stdin.flush()
        wanted = replies.readline()
        text = [wanted]
        while wanted.startswith((b"report", b"rows", b"trial", b"escrow")) and text[-1] != b"end\n":
            text.append(replies.readline())
        for reply in text:
            same(reply, it.stdout.readline(), line)
    it.stdin.close()
    same(0, it.wait(timeout=60))


@case("session and apply: a conversation, each reply before the next line is sent")
def conversation(room):
    converse(start("j", "session"))
    converse(start(init(room), "apply"))


@case("apply: the same bytes as session; sent again the same replies and no byte more in the journal")
def apply_again(room):
    path = init(room)
    same((0, MONTH_TEXT, b""), run(path, "apply", given=MONTH))
    once = read(path)
    commands = b"".join(it for it in MONTH.splitlines(keepends=True) if not it.startswith(b"?"))
    replies = b"".join(it for it in MONTH_TEXT.splitlines(keepends=True) if it.startswith((b"ok", b"no")))
    same((0, replies, b""), run(path, "apply", given=commands))
    same(once, read(path))


@case("lines that are none: empty, too long, of any bytes, with a carriage return")
def bad_lines(room):
    given = [b"", b"x" * 513, b"x" * 70_000, bytes(range(128, 256)), b"\0", b"k1 day 2024-02-01\r", b"k1 day 2024-02-01 "]
    wanted = [b"bad 0", b"bad 512", b"bad 512", b"bad 0", b"bad 0", b"bad 7", b"bad 18"]
    given.append(b"k1 day 2024-02-01")
    wanted.append(b"ok 1")
    same((0, b"\n".join(wanted) + b"\n", b""), run("j", "session", given=b"\n".join(given) + b"\n"))


FILLED = [("", "k", 0), ("k1 ", "d", 3), ("k1 waive ", "9", 9), ("k1 waive 1 ", "9", 11), ("k1 day ", "2", 7),
          ("k1 close ", "2", 9), ("k1 retype 1 2024-03 ", "A", 20), ("k1 line 1 1 ", "t", 12),
          ("k1 analyse 1 ", "r", 13), ("k1 analyse 1 - spread:", "1", 15), ("k1 pay 1 2024-02-01 1.00 ", "p", 25),
          ("k1 day 2024-02-01", " ", 18), ("? ", "b", 2), ("? rows ", "0", 7)]


@case("lines of 512 bytes are read to their ends, those of 513 are too long, wherever a word is")
def long_lines(room):
    lines = [begin.ljust(size, fill) for begin, fill, _ in FILLED for size in (512, 513)]
    places = [place for _, _, at in FILLED for place in (at, 512)]
    wanted = "".join(f"bad {place}\n" for place in places).encode()
    same((0, wanted, b""), run("j", "session", given="".join(line + "\n" for line in lines).encode()))


@case("session and apply: 5,000 commands")
def many_commands(room):
    board = "board 1 2023-12-15 200000.00 6000 250 1199.10 360 2024-02 15 500 2 0.00 SS"
    words = ["day 2024-02-01", board, *["line 1 1 tax 7 12 100.00"] * 4_998]
    lines, replies = forty.texts([forty.command(number, it) for number, it in enumerate(words, 1)])
    same((0, replies, b""), run("j", "session", given=lines))
    same((0, replies, b""), run(init(room), "apply", given=lines))


@case("input of 67,108,864 bytes: status 11; one byte less is read")
def too_much(room):
    line = b"k1 day 2024-02-01\n"
    size = 2**26
    given = line + b"x" * (size - len(line))
    same((11, b"ok 1\n", b"status 11 TooMuch 67108864\n"), run("j", "session", given=given))
    same((0, b"ok 1\nbad 512\n", b""), run("j", "session", given=given[:-1]))
    same((11, b"", b"status 11 TooMuch 67108864\n"), run("j", "session", given=b"x" * size + b"y"))


# Outputs that break

@case("output: /dev/full is status 4; the same lines sent again are answered as they were")
def full_output(room):
    path = init(room)
    with open("/dev/full", "wb") as full:
        status, _, log = run(path, "apply", given=MONTH, stdout=full)
    same((4, b"status 4 WriteFault standard output: No space left on device (os error 28)\n"), (status, log))
    same((0, MONTH_TEXT, b""), run(path, "apply", given=MONTH))


@case("output: a reader that goes away after each reply; nothing is booked twice")
def closed_output(room):
    path = init(room)
    for replies in range(1, 8):
        it = start(path, "apply")
        try:
            it.stdin.write(MONTH)
            it.stdin.close()
        except BrokenPipeError:
            pass
        for _ in range(replies):
            it.stdout.readline()
        it.stdout.close()
        if it.wait(timeout=60) not in (0, 4):
            raise AssertionError(f"status {it.returncode}: {it.stderr.read()!r}")
        it.stderr.close()
    same((0, MONTH_TEXT, b""), run(path, "apply", given=MONTH))


@case("output: texts to a closed pipe are status 4")
def closed_text(room):
    path = init(room)
    run(path, "apply", given=MONTH)
    for words_of in (("custodial",), ("report", "2024-02"), ("trial", "2024-02")):
        with open("/dev/full", "wb") as full:
            status, _, log = run(path, *words_of, stdout=full)
        same((4, b"status 4 WriteFault"), (status, named(log)), words_of)


@case("input: a folder instead of a file is status 3, and nothing is acted on")
def bad_input(room):
    path = init(room)
    folder = os.open(room, os.O_RDONLY)
    try:
        cause = b"status 3 ReadFault standard input: Is a directory (os error 21)\n"
        same((3, b"", cause), run(path, "apply", stdin=folder))
        same((3, b"", cause), run(path, "import", stdin=folder))
    finally:
        os.close(folder)
    same(9, len(read(path)))


# CSV as programs write it

ROWS = [["f1", "pay", "101", "2024-01-02", "1199.10", ""], ["f2", "pay", "103", "2024-01-02", "1500.00", "principal"],
        ["f3", "deposit", "104", "2024-01-02", "12.50", ""], ["f4", "disburse", "104", "2024-01-02", "2600.00", "1"]]


def written(delimiter=",", **how):
    text = io.StringIO(newline="")
    rows = csv.writer(text, delimiter=delimiter, **how)
    rows.writerows([HEADER.split(","), *ROWS])
    return text.getvalue().encode()


@case("import: as Python's csv writes it, in three dialects, and as a spreadsheet does")
def dialects(room):
    path = boarded(room)
    wanted = b"ok 20\nok 21\nok 22\nok 23\n"
    for name, data in {
        "csv": written(), "quoted": written(quoting=csv.QUOTE_ALL), "unix": written(lineterminator="\n"),
        "spreadsheet": b"\xef\xbb\xbf" + written(quoting=csv.QUOTE_ALL), "no line end": written()[:-2],
        "old mac": written(lineterminator="\r"),
    }.items():
        same((0, wanted, b""), run(path, "import", given=data), name)


@case("import: semicolons, another header, an empty file: one answer and nothing booked")
def other_headers(room):
    path = boarded(room)
    before = read(path)
    for data in (written(";"), b"", b"\n\n", b"key,do,loan,day,amount\n" + written(), written()[1:], b"\xff\xfe" + written()):
        same((0, b"bad row 1 column 1\n", b""), run(path, "import", given=data), data[:20])
    same((0, b"", b""), run(path, "import", given=HEADER.encode()), "the header alone")
    same(before, read(path))


@case("import: rows that do not fit are answered by row and column, the others are booked")
def bad_rows(room):
    path = boarded(room)
    rows = ["f1,pay,101,2024-01-02,1199.10,", "f2,pay,101,2024-01-02,1199.10", "f3,frob,101,2024-01-02,1.00,",
            "f 4,pay,101,2024-01-02,1.00,", "f5,pay,101,2024-01-02,1.00,1", "f6,disburse,101,2024-01-02,1.00,",
            "f7,pay,101,01/02/2024,1.00,", "f8,pay,101,2024-01-02,1,", "f9,pay,101,2024-01-02,1.00,principal"]
    wanted = ("ok 20\nbad row 3 column 7\nbad row 4 column 2\nbad row 5 column 1\nbad row 6 column 6\n"
              "bad row 7 column 6\nbad row 8 column 4\nbad row 9 column 5\nok 21\n")
    same((0, wanted.encode(), b""), run(path, "import", given="\n".join([HEADER, *rows]).encode()))


@case("import: a quote that is not closed takes in what follows, to the end of the file")
def open_quotes(room):
    rows = "f1,pay,1,2024-02-01,1.00,\nf2,pay,1,2024-02-01,1.00,\n"
    path = init(room)
    for data, wanted in ((f'{HEADER}\n"{rows}', b"bad row 2 column 7\n"), (f'"{HEADER}\n{rows}', b"bad row 1 column 1\n"),
                         (HEADER + "\n", b""), (f"{HEADER}\n{rows}", b"no 5 NoSuchLoan\n" * 2)):
        same((0, wanted, b""), run(path, "import", given=data.encode()), data)
    same(9, len(read(path)))


@case("import: 300 rows twice; the second time each has its first reply")
def many_rows(room):
    path = boarded(room)
    data = "\n".join([HEADER, *(f"f{i},deposit,{101 + i % 6},2024-01-02,{i % 90 + 1}.00," for i in range(300))])
    first = run(path, "import", given=data.encode())
    same((0, b"".join(b"ok %d\n" % (20 + i) for i in range(300)), b""), first)
    size = len(read(path))
    same(first, run(path, "import", given=data.encode()))
    same(size, len(read(path)))


# The journal's bytes

@case("journal: the 33 bytes of one command, cut at each place, and changed")
def cut_journal(room):
    path = init(room)
    same(bytes.fromhex("4d5352564a303032" "00"), read(path))
    run(path, "apply", given=b"k1 day 2024-02-01\n")
    whole = bytes.fromhex("4d5352564a303032" "01" "00000001" "0011") + b"k1 day 2024-02-01" + b"\0"
    same(whole.ljust(9 + 65536, b"\0"), read(path))
    for length in range(33):
        write(whole[:length], path)
        status, out, log = run(path, "custodial")
        wanted = (6, b"status 6 NotJournal\n") if length < 8 else (8, b"status 8 Damaged %d\n" % (8 if length < 32 else 32))
        same((wanted[0], b"", wanted[1]), (status, out, log), length)
    write(whole[:12] + b"\2" + whole[13:], path)
    same((8, b"", b"status 8 Damaged 8\n"), run(path, "custodial"), "number 2")
    for gate in (0, 7):
        write(whole[:8] + bytes([gate]) + whole[9:], path)
        same((0, b"ok 1\n", b""), run(path, "apply", given=b"k9 day 2024-02-02\n"), "the empty history")
    write(whole + b"any tail \1\1\1", path)
    same((0, b"ok 1\nok 2\n", b""), run(path, "apply", given=b"k1 day 2024-02-01\nk2 day 2024-02-02\n"), "a tail")


ONE_LINE = bytes.fromhex("4d5352564a303032" "01" "00000001" "0011") + b"k1 day 2024-02-01" + b"\0"
OLD_LINE = bytes.fromhex("4d5352564a303031" "01" "0011") + b"k1 day 2024-02-01" + b"\0"


def refused(status):
    """What the program comes to where it does not open a journal: at a place, or 0 where it is none."""
    return (8, b"", b"status 8 Damaged %d\n" % status) if status else (6, b"", b"status 6 NotJournal\n")


@case("journal: one of version 1 cut at each place; made of nine bytes at most")
def cut_old_journal(room):
    path = os.path.join(room, "j")
    for length in range(29):
        write(OLD_LINE[:length], path)
        same(refused(0 if length < 8 else 8 if length < 28 else 28), run(path, "apply"), length)
        same(OLD_LINE[:length], read(path), length)
    for length in range(33):
        write(ONE_LINE[:length], path)
        is_made = length <= 9
        same((0, b"", b"") if is_made else (7, b"", b"status 7 AlreadyThere\n"), run(path, "init"), length)
        same(b"MSRVJ002\0" if is_made else ONE_LINE[:length], read(path), length)


def opened_with(at, value):
    """How the journal of one line is opened with a byte of it changed to 0, 1 or 255: damaged at a place, or 0, where
    it is none; nothing where it opens."""
    opens = {8: True, 9: value == 0, 10: value == 0, 11: value == 0, 13: value == 0, 12: value == 1, 32: value != 1}
    if opens.get(at, False):
        return None
    return 0 if at < 8 else 32 if at == 32 else 8


@case("journal: any byte of the 33 changed to 0, 1 or 255")
def changed_journal(room):
    path = os.path.join(room, "j")
    for at in range(33):
        for value in (0, 1, 255):
            given = ONE_LINE[:at] + bytes([value]) + ONE_LINE[at + 1:]
            write(given, path)
            got, place = run(path, "apply", given=b"k1 day 2024-02-01\n"), opened_with(at, value)
            if place is None:
                same((0, b"ok 1\n", b""), got, (at, value))
                given = ONE_LINE
            else:
                same(refused(place), got, (at, value))
            if (at, value) == (14, 1):  # a length of 1 ends the record at a byte that is no open gate: it is made 0
                given = given[:16] + b"\0" + given[17:]
            same(given, read(path), (at, value))


# The front of a journal behind which 300 random bytes stand, the greatest of them, and the place of the damage for
# each of 16 seeds; or 0, where the journal opens.
RANDOM = [
    (b"MSRVJ002", 255, [0] * 16), (b"MSRVJ001", 255, [0] * 16),
    (ONE_LINE[:13], 255, [8] * 16), (OLD_LINE[:9], 255, [8] * 16),
    (ONE_LINE[:-1], 255, [0] * 16), (OLD_LINE[:-1], 255, [0] * 16),
    (b"MSRVJ002", 1, [8, 0, 0, 8, 0, 0, 8, 0, 0, 8, 8, 0, 272, 8, 0, 8]),
    (b"MSRVJ001", 1, [271, 0, 0, 268, 0, 0, 8, 0, 0, 8, 8, 0, 8, 267, 0, 268]),
    (ONE_LINE[:13], 1, [8, 8, 8, 8, 8, 16, 8, 16, 8, 272, 271, 8, 8, 272, 8, 272]),
    (OLD_LINE[:9], 1, [8, 8, 8, 8, 8, 8, 8, 8, 8, 8, 267, 8, 8, 268, 8, 268]),
    (ONE_LINE[:-1], 1, [32, 0, 0, 32, 0, 0, 32, 0, 0, 32, 32, 0, 32, 32, 0, 32]),
    (OLD_LINE[:-1], 1, [291, 0, 0, 288, 0, 0, 28, 0, 0, 28, 28, 0, 28, 287, 0, 288]),
]


def drawn(front, seed, greatest):
    """The front, and behind it the low bits of numbers that are drawn as those of a generated year."""
    state, drawn_bytes = seed, bytearray(front)
    for _ in range(300):
        state = (state * 6_364_136_223_846_793_005 + 1_442_695_040_888_963_407) % 2**64
        drawn_bytes.append(state >> 33 & 255 & greatest)
    return bytes(drawn_bytes)


@case("journal: 192 fronts with random bytes behind them are damaged at their place, or open, and again")
def random_tails(room):
    path, line = os.path.join(room, "j"), b"k1 day 2024-02-01\n"
    for front, greatest, places in RANDOM:
        for seed, place in enumerate(places):
            write(drawn(front, seed, greatest), path)
            wanted = refused(place) if place else (0, b"ok 1\n", b"")
            same(wanted, run(path, "apply", given=line), (front, seed))
            same(wanted, run(path, "apply", given=line), (front, seed))


@case("journal: one of version 1 is upgraded where it stands")
def old_journal(room):
    path = os.path.join(room, "j")
    write(bytes.fromhex("4d5352564a303031" "01" "0011") + b"k1 day 2024-02-01" + b"\0", path)
    same((0, b"ok 1\nok 2\n", b""), run(path, "apply", given=b"k1 day 2024-02-01\nk2 day 2024-02-02\n"))
    data = read(path)
    same((2, b"MSRVJ002", 1), (data[28], data[29:37], data[37]))
    same([b"k1 day 2024-02-01", b"k2 day 2024-02-02"], reckon.lines_of_journal(data))


# Crashes

def commands_of_quarter():
    """All commands of the quarter that are accepted, as lines, and the replies to them."""
    servicer, lines = reckon.Servicer(), []
    for step in sorted(os.listdir(QUARTER)):
        data = read(QUARTER, step).decode()
        if step.endswith(".lines"):
            lines += [it for it in data.splitlines() if not it.startswith("?")]
        if step.endswith(".csv"):
            for row in list(csv.reader(io.StringIO(data, newline="")))[1:]:
                lines.append(" ".join(row[:5] + [row[5]] * bool(row[5])))
    lines += [f"more-{i} deposit {101 + i % 6} 2024-04-01 {i}.00" for i in range(1, 121)]
    said = [(it, servicer.answer(it)) for it in lines]
    said = [it for it in said if it[1].startswith("ok ")]
    return [f"{line}\n".encode() for line, _ in said], [reply.encode() for _, reply in said]


ALL_LINES, ALL_REPLIES = commands_of_quarter()


class Unbroken:
    """What a file of commands gives over a journal where nothing ends the program: the replies and the journal."""

    def __init__(self, room, word, given, replies, before=b""):
        self.word, self.given, self.replies = word, given, replies
        path = init(room, f"unbroken.{word}")
        same(0, run(path, "apply", given=before)[0], "before it")
        self.start = read(path)
        began = time.monotonic()
        same((0, replies, b""), run(path, word, given=given), f"{word}, unbroken")
        self.span, self.whole = time.monotonic() - began, read(path)

    def check_after_crash(self, path, out, what):
        """What was answered is in the journal, and at most one command more; the same file sent again gives the replies
        and bytes of an unbroken run. Gives the number of whole replies."""
        same(self.replies[:len(out)], out, f"{what}: replies")
        answered = out.count(b"\n")
        kept = len(reckon.lines_of_journal(read(path))) - len(reckon.lines_of_journal(self.start))
        if not answered <= kept <= answered + 1:
            raise AssertionError(f"{what}: {answered} commands were answered and {kept} are there")
        same((0, self.replies, b""), run(path, self.word, given=self.given), what)
        # A program that is killed while it lays zeros ahead may leave fewer of them: they are no part of any record.
        same(self.whole.rstrip(b"\0"), read(path).rstrip(b"\0"), f"{what}: the journal")
        return answered

    def kill_at(self, room, moments):
        """Kills the program at so many moments of such a run, and looks at what is left."""
        draws, counts, path = random.Random(2024), [], os.path.join(room, "books.journal")
        for moment in range(moments):
            write(self.start, path)
            it = start(path, self.word)
            threading.Timer(draws.uniform(0, self.span), it.send_signal, [signal.SIGKILL]).start()
            counts.append(self.check_after_crash(path, it.communicate(self.given)[0], f"moment {moment}"))
        if len(set(counts)) < 3:
            raise AssertionError(f"the moments do not spread: {sorted(set(counts))}")


def applied(room, count):
    """An `apply` of the first commands of the quarter."""
    return Unbroken(room, "apply", b"".join(ALL_LINES[:count]), b"".join(ALL_REPLIES[:count]))


@case("kill -9 at 100 moments of an apply: nothing that was answered is lost, the rest is sent again")
def killed(room):
    applied(room, 24).kill_at(room, 100)


@case("kill -9 at 100 moments of an import: nothing that was answered is lost, the file is sent again")
def killed_import(room):
    servicer = reckon.Servicer()
    before = [it.decode().rstrip("\n") for it in ALL_LINES if not it.startswith(b"more-")]
    lines = [f"row-{i} deposit {101 + i % 6} 2024-04-01 {i}.00" for i in range(1, 25)]
    replies = [servicer.answer(it) for it in before + lines][len(before):]
    rows = [HEADER, *(it.replace(" ", ",") + "," for it in lines)]
    Unbroken(room, "import", "\n".join(rows).encode() + b"\n", "".join(replies).encode(),
             "\n".join(before).encode() + b"\n").kill_at(room, 100)


@case("kill -9 while a journal is opened and while it is made")
def killed_early(room):
    whole, path = applied(room, 24).whole, os.path.join(room, "books.journal")
    for moment in range(20):
        write(whole[:8] if moment % 2 else b"", path)
        if moment % 2:
            write(whole, path)
        it = start(path, "apply" if moment % 2 else "init")
        time.sleep(moment * 0.0005)
        it.kill()
        it.communicate()
        if moment % 2:
            same(whole, read(path), "opening changed the journal")
        elif run(path, "init")[0] not in (0, 7):
            raise AssertionError("init after a killed init")


@case("a copy made while the journal grows opens, and has all that was answered before it")
def copied(room):
    path, draws, answered = init(room), random.Random(7), [0]
    it = start(path, "apply")

    def listen():
        for _ in it.stdout:
            answered[0] += 1

    def send():
        it.stdin.write(b"".join(ALL_LINES))
        it.stdin.close()

    helpers = [threading.Thread(target=listen), threading.Thread(target=send)]
    for helper in helpers:
        helper.start()
    copies = []
    while it.poll() is None and len(copies) < 60:
        before = answered[0]
        shutil.copyfile(path, os.path.join(room, f"copy.{len(copies)}"))
        copies.append(before)
        time.sleep(draws.uniform(0, 0.002))
    it.wait(timeout=120)
    for helper in helpers:
        helper.join()
    for number, before in enumerate(copies):
        copy = os.path.join(room, f"copy.{number}")
        same((0, b""), run(copy, "custodial")[::2], f"copy {number}")
        kept = reckon.lines_of_journal(read(copy))
        if len(kept) < before or kept != [line[:-1] for line in ALL_LINES[:len(kept)]]:
            raise AssertionError(f"copy {number} has {len(kept)} commands, and {before} were answered")


# Disks that are full

def fill(room, path, cause, **how):
    """Applies all lines where they do not fit. Gives what they are and the replies before the disk was full."""
    whole = applied(room, len(ALL_LINES))
    status, out, log = run(path, "apply", given=whole.given, **how)
    same((5, f"status 5 DiskFault {path}: {cause}\n".encode()), (status, log))
    same(True, 10 <= out.count(b"\n") < len(ALL_LINES), "replies before the disk was full")
    return whole, out


def reaching(size, *path):
    """A journal without a command whose file has so many bytes."""
    write(b"MSRVJ002".ljust(size, b"\0"), *path)
    return os.path.join(*path)


@case("a file size limit: status 5, and the same lines go on once there is room")
def size_limit(room):
    def limit():
        signal.signal(signal.SIGXFSZ, signal.SIG_IGN)
        resource.setrlimit(resource.RLIMIT_FSIZE, (4000, 4000))

    path = reaching(3000, room, "books.journal")
    whole, out = fill(room, path, "File too large (os error 27)", preexec_fn=limit)
    whole.check_after_crash(path, out, "after the limit")


@case("a full tmpfs of 128 kB: status 5, and the same lines go on once there is room")
def full_disk(room):
    disk = os.path.join(room, "disk")
    os.mkdir(disk)
    mount = ["mount", "-t", "tmpfs", "-o", "size=128k", "tmpfs", disk]
    if os.geteuid() or subprocess.run(mount, capture_output=True).returncode:
        raise Skipped("no mount is allowed here")
    try:
        path = reaching(3000, disk, "books.journal")
        write(b"x" * 125_000, disk, "filler")
        whole, out = fill(room, path, "No space left on device (os error 28)")
        os.remove(os.path.join(disk, "filler"))
        whole.check_after_crash(path, out, "after the full disk")
    finally:
        subprocess.run(["umount", disk], check=False)


# A month of forty loans

@case("a month of forty loans by lines, and by files that come twice: the same replies and journal")
def forty_loans(room):
    lines, replies = forty.texts(forty.by_lines())
    same((0, replies, b""), run("j", "session", given=lines), "session")
    one, other = init(room, "lines.journal"), init(room, "files.journal")
    same((0, replies, b""), run(one, "apply", given=lines), "apply")
    files = [("import", *forty.file_of(it)) for it in (forty.FEBRUARY, forty.MARCH)]
    parts = [("apply", *forty.texts(it)) for it in (forty.boarding(), forty.IN_MARCH, forty.end())]
    for word, given, wanted in (parts[0], files[0], files[0], parts[1], files[1], files[1], parts[2]):
        same((0, wanted, b""), run(other, word, given=given), word)
    same(read(one), read(other), "the journals")


@case("a loan of forty, one of each type, is handed over: reports and cash of both parts add up")
def one_of_forty(room):
    whole = init(room)
    run(whole, "apply", given=forty.texts(forty.by_lines())[0])
    for id, sums in forty.HANDED_OVER.items():
        for word, (total, advanced) in zip(("transfer", "remain"), sums):
            part = init(room, f"{word}.{id}")
            run(part, "apply", given=run(whole, word, str(id), str(id))[1])
            report = run(part, "report", "2024-03")[1].decode()
            same(["total " + total, "end"], report.splitlines()[-2:], (word, id))
            same((0, (forty.CUSTODY.format(advanced) + "\n").encode(), b""), run(part, "custodial"), (word, id))


# Histories

@case("40 random histories are answered as reckon.py answers them")
def random_histories(room):
    for seed in range(40):
        lines, replies = histories.history(seed, 120)
        same((0, replies, b""), run("j", "session", given=lines), f"seed {seed}")


@case("10 random histories over a journal, in three runs each, leave the bytes of one run")
def random_journals(room):
    for seed in range(100, 110):
        lines, replies = histories.history(seed, 80)
        one, three = init(room, f"one.{seed}"), init(room, f"three.{seed}")
        same((0, replies, b""), run(one, "apply", given=lines), f"seed {seed}")
        pieces, got = lines.splitlines(keepends=True), b""
        for at in range(0, len(pieces), 30):
            got += run(three, "apply", given=b"".join(pieces[at:at + 30]))[1]
        same(replies, got, f"seed {seed}, three runs")
        same(read(one), read(three), f"seed {seed}, the journals")


@case("drill: a year of three loans is that of reckon.py")
def drilled(room):
    for number in (0, 7):
        same((0, histories.drill_text(3, number), b""), run("j", "drill", "3", str(number), cwd=room), number)
    same([], os.listdir(room), "files")


@case("documents: each line of FORMATS.md that is no request is answered with its place")
def places(room):
    rows = re.findall(r"^\| `([^`|]+)`(?: \([^|]*\))? \| `(bad \d+)` \|$", read(TOP, "docs", "FORMATS.md").decode(), re.M)
    if len(rows) < 6:
        raise AssertionError(f"{len(rows)} rows")
    given = "".join(line + "\n" for line, _ in rows).encode()
    same((0, "".join(reply + "\n" for _, reply in rows).encode(), b""), run("j", "session", given=given))


@case("documents: each file that the walk of one payment names is there")
def walked(room):
    text = read(TOP, "docs", "ARCHITECTURE.md").decode().split("## One payment")[1]
    for line in text.splitlines():
        folder = ""
        for name in re.findall(r"`([a-z_]+(?:/src)?(?:/[a-z_]+)?(?:\.rt|/src))`", line.split("|")[-2] if "|" in line else ""):
            folder = os.path.dirname(name) if name.endswith(".rt") and "/" in name else folder
            path = name if "/" in name else f"{folder}/{name}"
            if not os.path.exists(os.path.join(TOP, "crates", path)):
                raise AssertionError(path)


if __name__ == "__main__":
    sys.exit(run_all(sys.argv[1:]))
