#!/usr/bin/env python3
"""Measures each workload beside a yardstick in the same run, and prints a table of ratios.

    bench.py [--small] [WORD..]    all workloads, or those whose names have the words

A ratio is the program's time by the yardstick's, so that less is better; each pair is measured in turn, `--rounds N`
times (3 if left out), and the ratio is the median's. `--small` takes a tenth of each workload, to see that all run.
Times are processor times of whole processes, start and end included, so that other work on the machine changes them
little; of `apply` and `serve`, which wait for the disk, they are times on the clock. Memory is the greatest resident
set of a run. Standard library alone; `JAQHENDULU` names another program than the one that `rt` built.
"""
import os
import shutil
import socket
import statistics
import subprocess
import sys
import tempfile
import time

HERE = os.path.dirname(os.path.abspath(__file__))
TOP = os.path.dirname(HERE)
sys.path[:0] = [HERE, os.path.join(TOP, "tests"), os.path.join(TOP, "examples")]
import bodies  # noqa: E402
import generate  # noqa: E402
import program  # noqa: E402
import replay  # noqa: E402

SPLIT = """
import sys
count = 0
for line in sys.stdin.buffer:
    count += len(line.split(b" "))
"""
MEASURE = """
import os, sys, time
began = time.perf_counter()
it = os.posix_spawn(sys.argv[1], sys.argv[1:], os.environ)
_, status, used = os.wait4(it, 0)
took = time.perf_counter() - began
print(took, used.ru_utime + used.ru_stime, used.ru_maxrss / 1024, os.waitstatus_to_exitcode(status), file=sys.stderr)
"""
SMALL = "--small" in sys.argv


def sized(count):
    return max(count // 10, 8) if SMALL else count


def rounds():
    return int(sys.argv[sys.argv.index("--rounds") + 1]) if "--rounds" in sys.argv else 3


def write_lines(path, lines, times=1):
    """Writes lines to a file, each so many times in a row, and gives how many commands they are."""
    count = 0
    with open(path, "w", encoding="ascii") as file:
        for line in lines:
            count += 1
            file.write((line + "\n") * times)
    return count


class Run:
    """A process run to its end: seconds on the clock and of the processor, and its greatest resident set in MB. A small
    process starts it and measures it, since a process begins with the resident set of the one that starts it."""

    def __init__(self, words, given=None, out=None):
        source = open(given, "rb") if given else subprocess.DEVNULL
        sink = open(out, "wb") if out else subprocess.DEVNULL
        self.it = subprocess.Popen([sys.executable, "-S", "-c", MEASURE, *words], stdin=source, stdout=sink,
                                   stderr=subprocess.PIPE, text=True)

    def end(self):
        """Waits for the end, and takes what was measured."""
        said = self.it.communicate()[1]
        self.clock, self.processor, self.memory, status = map(float, said.split("\n")[-2].split())
        if status:
            sys.exit(f"a run ended with status {status:.0f}: {said}")
        return self


def ours(*words, given=None, out=None):
    """Runs the program."""
    return Run([program.find(), *words], given, out).end()


def split_by_python(path):
    """Runs Python, which reads a file and splits each of its lines at the spaces."""
    return Run([sys.executable, "-S", "-c", SPLIT], path).end()


class Row:
    """A line of the table: medians of the program and of the yardstick."""

    def __init__(self, name, unit, pairs, memory=None, goal=None):
        self.ours = statistics.median(it[0] for it in pairs)
        self.theirs = statistics.median(it[1] for it in pairs)
        self.name, self.unit, self.memory, self.goal = name, unit, memory, goal

    def text(self):
        memory = f"{self.memory:.0f} MB" if self.memory else ""
        ratio = f"{self.ours / self.theirs:.2f}"
        return (f"| {self.name} | {self.ours:.3f} {self.unit} | {self.theirs:.3f} {self.unit} | {ratio} |"
                f" {self.goal or ''} | {memory} |")


def check_replies(path, wanted):
    """Sees that all replies are `ok`, and how many there are."""
    with open(path, "rb") as file:
        lines = file.read().splitlines()
    bad = [it for it in lines if not it.startswith(b"ok ")]
    if bad or len(lines) != wanted:
        sys.exit(f"{len(lines)} replies of {wanted}, of which {bad[:1]} is not ok")


def session_row(room, loans, times, name):
    path, out = f"{room}/lines", f"{room}/replies"
    count = write_lines(path, generate.year(loans, 12, loans), times)
    runs, pairs = [], []
    for _ in range(rounds()):
        runs.append(ours("j", "session", given=path, out=out))
        pairs.append((runs[-1].processor, split_by_python(path).processor))
    check_replies(out, count * times)
    return Row(f"{name}, {count * times:,} lines", "s", pairs, max(it.memory for it in runs), "at most 1.0")


def session_small(room):
    return [session_row(room, sized(500), 2, f"`session`, {sized(500)} loans, a year, each line twice")]


def session_large(room):
    return [session_row(room, sized(9000), 1, f"`session`, {sized(9000):,} loans, a year")]


BOOKKEEPERS = (("ledger", generate.as_ledger, ("-f", "FILE", "balance", "--depth", "1")),
               ("hledger", generate.as_ledger, ("-f", "FILE", "balance", "--depth", "1")),
               ("bean-check", generate.as_beancount, ("--no-cache", "FILE")))


def bookkeeper_rows(room):
    """`session` of a year beside what programs for books take for that year's payments alone, where they are installed."""
    loans, lines = sized(9000), f"{room}/lines"
    write_lines(lines, generate.year(loans, 12, loans))
    rows = []
    for name, form, words in BOOKKEEPERS:
        if not shutil.which(name):
            continue
        file = f"{room}/{name}"
        write_lines(file, form(generate.year(loans, 12, loans)))
        call = [shutil.which(name), *(file if it == "FILE" else it for it in words)]
        pairs = [(ours("j", "session", given=lines, out=f"{room}/replies").processor, Run(call).end().processor)
                 for _ in range(rounds())]
        rows.append(Row(f"`session`, {loans:,} loans, a year, beside `{name}` of its payments", "s", pairs))
    return rows


def bare_loop(path, lines, syncs):
    """Seconds that the lines take: for each one write with a sync, or two, the other of a commit byte."""
    with open(path, "wb") as file:
        file.write(b"MSRVJ002\0")
    file = os.open(path, os.O_RDWR)
    at = 8
    began = time.perf_counter()
    for line in lines:
        os.pwrite(file, b"0000" + b"00" + line + b"\0", at + 1)
        os.fsync(file)
        if syncs == 2:
            os.pwrite(file, b"\1", at)
            os.fsync(file)
        at += 7 + len(line)
    took = time.perf_counter() - began
    os.close(file)
    return took


def apply_row(room):
    count = sized(500)
    lines = [it for _, it in zip(range(count), generate.year(sized(500), 12, 1))]
    write_lines(f"{room}/lines", lines)
    bare = [it.encode() for it in lines]
    two, one, memory = [], [], 0
    for turn in range(5 * rounds()):
        with open(f"{room}/books.{turn}", "wb") as file:
            file.write(b"MSRVJ002\0")
        it = ours(f"{room}/books.{turn}", "apply", given=f"{room}/lines", out=f"{room}/replies")
        two.append((it.clock, bare_loop(f"{room}/bare.{turn}", bare, 2)))
        one.append((it.clock, bare_loop(f"{room}/once.{turn}", bare, 1)))
        memory = max(memory, it.memory)
    check_replies(f"{room}/replies", count)
    name = f"`apply`, {count:,} commands beside a bare loop of"
    return [Row(f"{name} two writes and two syncs", "s", two, memory, "at most 0.65"),
            Row(f"{name} one write and one sync", "s", one, memory)]


def opening_row(room):
    count = sized(300_000)
    lines = [it for _, it in zip(range(count), generate.year(sized(9000), 40, 3))]
    write_lines(f"{room}/lines", lines)
    with open(f"{room}/books", "wb") as file:
        file.write(generate.journal_of(lines))
    del lines
    runs, pairs = [], []
    for _ in range(rounds()):
        runs.append(ours(f"{room}/books", "custodial"))
        pairs.append((runs[-1].processor, split_by_python(f"{room}/lines").processor))
    return [Row(f"opening a journal of {count:,} commands", "s", pairs, max(it.memory for it in runs), "at most 1.0")]


def processor_time(pid):
    """Microseconds that a process has been on a processor."""
    with open(f"/proc/{pid}/schedstat", encoding="ascii") as file:
        return int(file.read().split()[0]) / 1000


def microseconds(it, lines):
    """Sends lines to a running `session` and gives the processor's microseconds a line until the last reply is there."""
    data = "".join(line + "\n" for line in lines).encode()
    began = processor_time(it.pid)
    it.stdin.write(data)
    it.stdin.flush()
    for _ in lines:
        reply = it.stdout.readline()
    took = processor_time(it.pid) - began
    if not reply.startswith(b"ok "):
        sys.exit(f"a late entry is answered {reply}")
    return took / len(lines)


def late_run(loans, count, each):
    """Microseconds an entry in the last month and in the second, of loans with so many entries."""
    it = subprocess.Popen([program.find(), "j", "session"], stdin=subprocess.PIPE, stdout=subprocess.PIPE)
    base = list(generate.entries(loans, count))
    for at in range(0, len(base), 1000):
        microseconds(it, base[at:at + 1000])
    last = 2024 * 12 + count // 8 - 1
    found = [microseconds(it, list(generate.late_entries(loans, each, *what)))
             for what in ((last, "l"), (last, "m"), (2024 * 12, "s"))][1:]
    it.stdin.close()
    it.wait()
    return found


def late_rows(room):
    loans, each = (4, 8) if SMALL else (20, 25)
    few, many = sized(400), sized(4000)
    few, many = few // 8 * 8, many // 8 * 8
    runs = [(late_run(loans, many, each), late_run(loans, few, each)) for _ in range(rounds())]
    rows = []
    for place, name, goal in ((0, "last", "at most 1.2"), (1, "second", None)):
        rows.append(Row(f"an entry into the {name} month of a loan with {many:,} entries beside one with {few}",
                        "µs", [(it[0][place], it[1][place]) for it in runs], None, goal))
    return rows


def session_of(room, lines):
    """Runs `session` over lines, all of which are accepted."""
    count = write_lines(f"{room}/lines", lines)
    it = ours("j", "session", given=f"{room}/lines", out=f"{room}/replies")
    check_replies(f"{room}/replies", count)
    return it


def order_row(room):
    """Loans that are boarded in falling order of their numbers beside the same in rising order."""
    count = sized(12_000)
    pairs = [(session_of(room, generate.boards(range(count, 0, -1))).processor,
              session_of(room, generate.boards(range(1, count + 1))).processor) for _ in range(rounds())]
    return [Row(f"boarding {count:,} loans in falling beside rising order", "s", pairs, goal="at most 3")]


def days_row(room):
    """What business days take beside the boarding of the loans that they look at."""
    loans, count = sized(9000), 250
    pairs = []
    for _ in range(rounds()):
        boards = list(generate.boards(range(1, loans + 1)))
        alone = session_of(room, boards).processor
        pairs.append((session_of(room, [*boards, *generate.business_days(count)]).processor - alone, alone))
    return [Row(f"{count} business days over {loans:,} loans, beside boarding these", "s", pairs, goal="0.060 s")]


def drill_row(room):
    loans = sized(500)
    count = write_lines(f"{room}/lines", generate.year(loans, 12, loans), 2)
    runs, pairs = [], []
    for _ in range(rounds()):
        runs.append(ours("j", "drill", str(loans), "7"))
        pairs.append((runs[-1].processor, split_by_python(f"{room}/lines").processor))
    return [Row(f"`drill {loans} 7` beside splitting {2 * count:,} lines of such a year", "s", pairs,
                max(it.memory for it in runs))]


def served(room, turn, lines, together):
    """Seconds that `serve` takes for commands over one connection, so many at a time, each time once those before are
    answered."""
    with open(f"{room}/served.{turn}", "wb") as file:
        file.write(b"MSRVJ002\0")
    port = replay.free_port()
    it = Run([program.find(), f"{room}/served.{turn}", "serve", str(port), "1"])
    link = replay.connect(port)
    link.setsockopt(socket.IPPROTO_TCP, socket.TCP_NODELAY, 1)
    requests = [b"POST /v1/commands HTTP/1.1\r\nContent-Length: %d\r\n\r\n%s" % (len(body), body)
                for body in (bodies.body_of(line) for line in lines)]
    began = time.perf_counter()
    for at in range(0, len(requests), together):
        link.sendall(b"".join(requests[at:at + together]))
        wait_for(link, len(requests[at:at + together]))
    took = time.perf_counter() - began
    link.close()
    return took, it.end().memory


def wait_for(link, count):
    """Waits for so many responses, each of which must be 200."""
    got = b""
    while got.count(b"HTTP/1.1 200 ") < count or not got.endswith(b"}"):
        piece = link.recv(65536)
        if not piece or b"HTTP/1.1 4" in piece:
            sys.exit("serve refuses a command")
        got += piece


def serve_rows(room):
    count = sized(500)
    lines = [it for _, it in zip(range(count), generate.year(sized(500), 12, 1))]
    write_lines(f"{room}/lines", lines)
    rows = []
    for name, together in (("", 1), (", 50 at a time", 50)):
        pairs, memory = [], 0
        for turn in range(5 * rounds()):
            with open(f"{room}/books.{turn}", "wb") as file:
                file.write(b"MSRVJ002\0")
            took, used = served(room, turn, lines, together)
            beside = ours(f"{room}/books.{turn}", "apply", given=f"{room}/lines", out=f"{room}/replies")
            pairs.append((took, beside.clock))
            memory = max(memory, used)
        rows.append(Row(f"`serve` on one connection, {count:,} commands{name} beside `apply`", "s", pairs, memory))
    return rows


WORKLOADS = {"session-500": session_small, "session-9000": session_large,
             "bookkeepers": bookkeeper_rows, "apply": apply_row, "opening": opening_row,
             "late": late_rows, "order": order_row, "days": days_row, "serve": serve_rows, "drill": drill_row}


def main():
    only = [it for it in sys.argv[1:] if not it.startswith("--") and not it.isdigit()]
    print("| Workload | The program | The yardstick | Ratio | Goal | Memory |\n|---|---|---|---|---|---|")
    for name, measure in WORKLOADS.items():
        if only and not any(it in name for it in only):
            continue
        with tempfile.TemporaryDirectory(prefix="jaqhendulu-bench-") as room:
            for row in measure(room):
                print(row.text(), flush=True)


if __name__ == "__main__":
    main()
