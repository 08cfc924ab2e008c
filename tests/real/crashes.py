#!/usr/bin/env python3
"""The program ended at any moment, over any journal: nothing that was answered is lost, and nothing is booked twice.

    crashes.py [WORD..]    all cases, or those whose names have the words

480 kills, 506 failing calls of the system, 1,004 images that a crash may leave, and 714 processes that race for a journal.
Standard library alone, and `strace`; `JAQHENDULU` names another program than the one that `rt` built. Prints a line a case
and `N passed, M failed` at its end. It takes half a minute to three.
"""
import ast
import os
import random
import re
import shutil
import signal
import subprocess
import sys
import threading
import time

from harness import TOP, Skipped, case, read, run, run_all, same, start, write
import bodies
import program
import reckon
import replay

MONTH = read(TOP, "examples", "month", "month.lines")
LINES = [f"z{number} deposit 1 2024-02-01 0.01" for number in range(24)]
GIVEN = "".join(f"{line}\n" for line in LINES).encode()
FIRST = 15  # the number of the first of them, behind the month
REPLIES = "".join(f"ok {FIRST + number}\n" for number in range(len(LINES))).encode()


def month(room):
    """The path of a journal of the month of three loans, its bytes, and how long an `apply` of the lines behind it takes."""
    path = os.path.join(room, "books.journal")
    same((0, b"", b""), run(path, "init"), "init")
    same(0, run(path, "apply", given=MONTH)[0], "the month")
    whole, began = read(path), time.monotonic()
    same((0, REPLIES, b""), run(path, "apply", given=GIVEN))
    return path, whole, time.monotonic() - began


def added(path):
    """How many of the lines are in a journal, which has them in their order behind the month."""
    kept = [line.decode() for line in reckon.lines_of_journal(read(path))][FIRST - 1:]
    same(LINES[:len(kept)], kept, "the commands")
    return len(kept)


def check(path, answered, what, more=1):
    """What was answered is there, and at most so many commands more; the same lines again are answered as the first time."""
    kept = added(path)
    if not answered <= kept <= answered + more:
        raise AssertionError(f"{what}: {answered} were answered, and {kept} are there")
    same((0, REPLIES, b""), run(path, "apply", given=GIVEN), f"{what}: again")
    same(len(LINES), added(path), what)


def whole_replies(out, what):
    """How many replies came whole; they are the first ones."""
    same(REPLIES[:len(out)], out, f"{what}: replies")
    return out.count(b"\n")


# Kills

@case("240 kills of an apply")
def killed(room):
    (path, whole, span), draws, counts = month(room), random.Random(86), set()
    for moment in range(240):
        write(whole, path)
        it = start(path, "apply")
        threading.Timer(draws.uniform(0, span), it.send_signal, [signal.SIGKILL]).start()
        answered = whole_replies(it.communicate(GIVEN)[0], f"moment {moment}")
        check(path, answered, f"moment {moment}")
        counts.add(answered)
    if len(counts) < 3:
        raise AssertionError(f"the moments do not spread: {sorted(counts)}")


def asked_until_killed(link, asks, replies, together):
    """Sends so many requests at a time, each time once those before are answered, until the program is killed: how many were
    answered whole."""
    got, wanted = b"", b""
    try:
        for at in range(0, len(asks), together):
            link.sendall(b"".join(asks[at:at + together]))
            wanted += b"".join(replies[at:at + together])
            while len(got) < len(wanted) and (piece := link.recv(65536)):
                got += piece
    except OSError:
        pass
    same(b"".join(replies)[:len(got)], got, "responses")
    return sum(sum(map(len, replies[:number + 1])) <= len(got) for number in range(len(replies)))


@case("240 kills of a serve, requests one at a time and seven at a time")
def killed_serve(room):
    (path, whole, _), draws, counts = month(room), random.Random(87), set()
    sent = [bodies.body_of(line) for line in LINES]
    asks = [b"POST /v1/commands HTTP/1.1\r\nHost: a\r\nContent-Type: application/json\r\nContent-Length: %d\r\n\r\n%s"
            % (len(it), it) for it in sent]
    replies = [bodies.response_of(*bodies.reply_of(f"ok {FIRST + number}")) for number in range(len(LINES))]
    for moment in range(240):
        write(whole, path)
        port = replay.free_port()
        it = start(path, "serve", str(port), "1")
        it.stderr.readline()
        link = replay.connect(port)
        threading.Timer(draws.uniform(0, 0.02), it.send_signal, [signal.SIGKILL]).start()
        answered = asked_until_killed(link, asks, replies, 7 if moment % 2 else 1)
        it.kill()
        it.communicate()
        link.close()
        check(path, answered, f"moment {moment}")
        counts.add(answered)
    if len(counts) < 3:
        raise AssertionError(f"the moments do not spread: {sorted(counts)}")


# Calls that fail

CALLS = "openat,flock,statx,fsync,lseek,read,write,fdatasync,fchmod"


def under_strace(*words, given=b""):
    """What a run says, its output, and the log of strace."""
    if not shutil.which("strace"):
        raise Skipped("strace is not installed")
    ran = subprocess.run(["strace", *words], input=given, capture_output=True, check=False, timeout=120)
    if b"ptrace" in ran.stderr and b"Operation not permitted" in ran.stderr:
        raise Skipped("strace is not allowed here")
    return ran.returncode, ran.stdout, ran.stderr.decode()


@case("506 failing calls of an apply")
def failing(room):
    path, whole, _ = month(room)
    write(whole, path)
    log = under_strace("-e", f"trace={CALLS}", program.find(), path, "apply", given=GIVEN)[2]
    counts = {call: len(re.findall(rf"^{call}\(", log, re.MULTILINE)) for call in CALLS.split(",")}
    moments = [(call, when, error) for call, count in counts.items() for when in range(1, count + 1)
               for error in ("EIO", "ENOSPC", "EINTR", "EAGAIN")]
    statuses = set()
    for call, when, error in random.Random(88).sample(moments, 506):
        write(whole, path)
        status, out, log = under_strace("-e", f"trace={call}", "-e", f"inject={call}:error={error}:when={when}",
                                        program.find(), path, "apply", given=GIVEN)
        what = f"{call} {when} {error}"
        same(1, log.count("(INJECTED)"), what)
        answered = whole_replies(out, what)
        if status == 0:
            same(len(LINES), answered, what)
        statuses.add(status)
        check(path, answered, what)
    same(True, {0, 3, 4, 5} <= statuses, f"statuses {sorted(statuses)}")


# What a crash may leave

def text_of(quoted):
    return ast.literal_eval(f'b"{quoted}"')


def steps_of(path, log):
    """The writes and syncs of the journal's file in a log, and the replies, in order."""
    at, own = 0, re.escape(path)
    pattern = (rf'^(?:lseek\(\d+<{own}>, (\d+), SEEK_SET\)|write\(\d+<{own}>, "(.*)", \d+\)|(fdatasync)\(\d+<{own}>\)'
               r'|write\(1<.*?>, "(.*)", \d+\)) += \d+$')
    for moved, written, synced, said in re.findall(pattern, log, re.MULTILINE):
        if moved:
            at = int(moved)
        elif written:
            yield "write", (at, text_of(written))
            at += len(text_of(written))
        elif synced:
            yield "sync", None
        else:
            yield "said", text_of(said)


def over(content, at, data):
    """A content with bytes from a place on."""
    return content[:at].ljust(at, b"\0") + data + content[at + len(data):]


def torn(draws, content, at, data):
    """What a crash may leave of a write: the old bytes, the new ones, first ones, or any. Bytes that are written again as they
    are stay what they are."""
    old = content[at:at + len(data)]
    if old == data:
        return content
    kind, cut = draws.randrange(4), draws.randrange(len(data) + 1)
    if kind == 0:
        return content
    if kind == 1:
        return over(content, at, data)
    if kind == 2:
        return over(content, at, data[:cut] + old[cut:].ljust(len(data) - cut, b"\0"))
    return over(content, at, draws.randbytes(len(data)))


def images_of(draws, first, steps, each):
    """Contents that a crash may leave between the steps, so many each, and how many replies were written before."""
    synced, open_writes, answered = first, [], 0
    for kind, value in steps:
        if kind == "sync":
            for at, data in open_writes:
                synced = over(synced, at, data)
            open_writes = []
        elif kind == "said":
            answered += value.count(b"\n")
        else:
            open_writes.append(value)
        for _ in range(each):
            content = synced
            for at, data in open_writes:
                content = torn(draws, content, at, data)
            yield content, answered


@case("1,004 images that a crash may leave of an apply")
def images(room):
    path, whole, _ = month(room)
    write(whole, path)
    status, out, log = under_strace("-y", "-s", "100000", "-e", "trace=lseek,write,fdatasync", program.find(), path, "apply",
                                    given=GIVEN)
    same((0, REPLIES), (status, out))
    steps = list(steps_of(path, log))
    if [kind for kind, _ in steps].count("said") < 2:
        raise AssertionError("the log has no replies")
    left = list(images_of(random.Random(89), whole, steps, -(-1004 // len(steps))))[:1004]
    same(1004, len(left))
    for number, (content, answered) in enumerate(left):
        write(content, path)
        same((0, b""), run(path, "custodial")[::2], f"image {number}")
        check(path, answered, f"image {number}")


# Races

@case("714 processes, three at a time, race for a journal: each works alone or ends with 14")
def races(room):
    path, whole, _ = month(room)
    worked = 0
    for number in range(238):
        write(whole, path)
        them = [start(path, "apply") for _ in range(3)]
        given = [b"".join(b"race-%d-%d deposit 1 2024-02-01 0.01\n" % (i, k) for k in range(4)) for i in range(3)]
        helpers = [threading.Thread(target=lambda it=it, text=text: ended.append((it, text, it.communicate(text))))
                   for it, text in zip(them, given)]
        ended = []
        for helper in helpers:
            helper.start()
        for helper in helpers:
            helper.join()
        kept = [line + b"\n" for line in reckon.lines_of_journal(read(path))][FIRST - 1:]
        for it, text, (out, _) in ended:
            lines = text.splitlines(keepends=True)
            if it.returncode == 14:
                same(b"", out, f"round {number}")
                same(0, sum(line in kept for line in lines), f"round {number}: a line of one that was kept out")
                continue
            same((0, 4), (it.returncode, out.count(b"ok ")), f"round {number}: {out!r}")
            numbers = [int(said.split()[1]) for said in out.splitlines()]
            same(lines, [kept[n - FIRST] for n in numbers], f"round {number}: the commands of its replies")
            worked += 1
        same(4 * sum(it.returncode == 0 for it, _, _ in ended), len(kept), f"round {number}")
    if not 238 <= worked < 714:
        raise AssertionError(f"{worked} of 714 worked, and all others were kept out")


if __name__ == "__main__":
    sys.exit(run_all(sys.argv[1:]))
