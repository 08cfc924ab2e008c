#!/usr/bin/env python3
"""Tests on real processes of what lies around the journal: descriptors, the lock on its file, its name, mode and room, causes,
and its syncs.

    edges.py [WORD..]    all cases, or those whose names have the words

Standard library alone, and `strace` where it is installed; `JAQHENDULU` names another program than the one that `rt`
built. Prints a line a case and `N passed, M failed` at its end.
"""
import os
import re
import shutil
import signal
import socket
import subprocess
import sys
import time

from harness import TOP, Skipped, case, named, read, run, run_all, same, start, write
import bodies
import program
import reckon
import replay

MONTH = read(TOP, "examples", "month", "month.lines")
IMPORTED = b"key,do,loan,day,amount,line\nz1,pay,1,2024-01-01,1199.10,\n"
READS = ("apply", "session", "import", "confirm", "pmi", "pmi-drops", "reconcile 1 2")
WRITES = ("report 2023-12", "trial 2023-12", "custodial", "transfer 1 2", "remain 1 2", "statement", "drill 1 7")


def month(room, name="books.journal"):
    """The path of a journal of the month of three loans."""
    path = os.path.join(room, name)
    same((0, b"", b""), run(path, "init"), "init")
    same(0, run(path, "apply", given=MONTH)[0], "the month")
    return path


def without(*closed):
    """What a process does before it becomes the program, to be started without these descriptors."""
    def close():
        for number in closed:
            os.close(number)
    return close


# Descriptors

@case("descriptors: without standard input every word that reads ends with 3, and the journal stays as it was")
def no_input(room):
    path = month(room)
    before = read(path)
    for words in READS:
        status, out, log = run(path, *words.split(), preexec_fn=without(0))
        same((3, b"", b"status 3 ReadFault"), (status, out, named(log)), words)
        same(before, read(path), words)


@case("descriptors: without standard output every word that writes ends with 4, and the journal is never written into")
def no_output(room):
    path = month(room)
    before = read(path)
    for words in WRITES:
        status, out, log = run(path, *words.split(), preexec_fn=without(1))
        same((4, b"", b"status 4 WriteFault"), (status, out, named(log)), words)
        same(before, read(path), words)
    for words, given in (("apply", b"z1 pay 1 2024-02-01 1.00\n"), ("import", IMPORTED)):
        write(before, path)
        same((4, b""), run(path, words, given=given, preexec_fn=without(1))[:2], words)
        kept = reckon.lines_of_journal(read(path))
        if kept[:-1] != reckon.lines_of_journal(before):
            raise AssertionError(f"{words} wrote into the journal")
        same(0, run(path, "custodial")[0], words)


@case("descriptors: without standard error a run is as ever; without all three the journal stays as it was")
def no_error(room):
    path = month(room)
    before, wanted = read(path), run(path, "custodial")[1]
    same((0, wanted), run(path, "custodial", preexec_fn=without(2))[:2])
    same(2, run(path, "frob", preexec_fn=without(2))[0])
    for words in (*READS, *WRITES, "init"):
        status = run(path, *words.split(), preexec_fn=without(0, 1, 2))[0]
        if status not in (3, 4, 7):
            raise AssertionError(f"{words} ended with {status}")
        same(before, read(path), words)


@case("descriptors: serve without standard output serves, ends with 4, and the journal opens")
def no_summary(room):
    path, port = month(room), replay.free_port()
    before = read(path)
    it = start(path, "serve", str(port), "1", preexec_fn=without(0, 1))
    link = replay.connect(port)
    link.sendall(b"GET /v1/custodial HTTP/1.1\r\nConnection: close\r\n\r\n")
    if not link.recv(65536).startswith(b"HTTP/1.1 200"):
        raise AssertionError("no answer")
    link.close()
    same(4, it.wait(timeout=60))
    same(before, read(path))


@case("descriptors: one that is the journal ends with its status, whatever the word, and nothing is written")
def own_file(room):
    path = month(room)
    before = read(path)
    kinds = ((0, 3, b"status 3 ReadFault standard input: it is the journal\n"),
             (1, 4, b"status 4 WriteFault standard output: it is the journal\n"), (2, 4, b""))
    for words in (*READS, *WRITES, "init", "serve 8080 1", "frob"):
        for number, status, said in kinds:
            with open(path, "r+b") as file:
                how = {("stdin", "stdout", "stderr")[number]: file}
                ran = run(path, *words.split(), **how)
            same(status, ran[0], f"{words} with {number}")
            same([said] if number < 2 else [], [ran[2]] if number < 2 else [], f"{words} with {number}")
            same(before, read(path), f"{words} with {number}")


@case("descriptors: the same by another name, a link or a symbolic link; another file is no such descriptor")
def own_file_by_another_name(room):
    path, other = month(room), os.path.join(room, "other")
    before = read(path)
    os.link(path, os.path.join(room, "link"))
    os.symlink(path, os.path.join(room, "symbolic"))
    for name in ("link", "symbolic"):
        with open(os.path.join(room, name), "r+b") as file:
            same(4, run(path, "custodial", stdout=file)[0], name)
            same(3, run(os.path.join(room, name), "apply", stdin=file)[0], name)
        same(before, read(path), name)
    with open(other, "w+b") as file:
        same(0, run(path, "custodial", stdout=file)[0])
    same(run(path, "custodial")[1], read(other))


# The file at the path

def told_gone(path, why):
    return f"status 5 DiskFault {path}: {why}\n".encode()


NO_FILE, OTHER_FILE = "No such file or directory (os error 2)", "another file is at the path"
OTHER_BYTES, OTHER_LENGTH = "another program has written the file", "another program has changed the length"


def moved_away(path, copy):
    os.rename(path, path + ".moved")


def copy_in_place(path, copy):
    os.replace(copy, path)


def copied_over(path, copy):
    shutil.copyfile(copy, path)


def cut_short(path, copy):
    os.truncate(path, os.path.getsize(path) - 1)


def lengthened(path, copy):
    with open(path, "ab") as file:
        file.write(b"x")


GOES = ((moved_away, NO_FILE), (copy_in_place, OTHER_FILE), (copied_over, OTHER_BYTES), (cut_short, OTHER_LENGTH),
        (lengthened, OTHER_LENGTH))


def at_work(room, name):
    """A journal, a backup of it of the same length, and an `apply` that has answered one command more and waits."""
    path, copy = os.path.join(room, f"{name}.journal"), os.path.join(room, f"{name}.copy")
    month(room, f"{name}.journal")
    shutil.copyfile(path, copy)
    it = start(path, "apply")
    it.stdin.write(b"z1 deposit 1 2024-02-01 0.01\n")
    it.stdin.flush()
    same(b"ok 15\n", it.stdout.readline())
    same(os.path.getsize(copy), os.path.getsize(path), "the lengths")
    return path, copy, it


@case("the file at the path: moved, replaced, written over or of another length under an apply, it ends with 5, unanswered")
def gone_under_apply(room):
    for goes, why in GOES:
        path, copy, it = at_work(room, goes.__name__)
        before = read(copy)
        goes(path, copy)
        out, log = it.communicate(b"z2 deposit 1 2024-02-01 0.01\n", timeout=60)
        same((5, b"", told_gone(path, why)), (it.returncode, out, log), goes.__name__)
        if goes in (copy_in_place, copied_over):
            same(before, read(path), f"{goes.__name__}: the backup")
        elif goes is not moved_away:
            same((0, b"ok 16\n", b""), run(path, "apply", given=b"z2 deposit 1 2024-02-01 0.01\n"), goes.__name__)


@case("the file at the path: moved or replaced under a serve, it answers 500 and ends with 5")
def gone_under_serve(room):
    for goes, why in GOES[:3]:
        path, copy = month(room, f"{goes.__name__}.journal"), os.path.join(room, f"{goes.__name__}.copy")
        shutil.copyfile(path, copy)
        it, port = serving(path)
        link = bodies.link_to(port)
        for number, status in ((15, 200), (16, 500)):
            line = f"z{number} deposit 1 2024-02-01 0.01"
            wanted = bodies.reply_of(f"ok {number}") if status == 200 else (500, b"")
            same(wanted, bodies.ask(link, *bodies.request_of(line)), f"{goes.__name__}, {number}")
            if status == 200:
                goes(path, copy)
        link.close()
        out, log = it.communicate(timeout=60)
        same((5, b"", told_gone(path, why)), (it.returncode, out, log), goes.__name__)


@case("the file at the path: replaced between its opening and its lock, it is not touched")
def gone_before_the_lock(room):
    if not shutil.which("strace"):
        raise Skipped("strace is not installed")
    path, copy = month(room), os.path.join(room, "copy")
    shutil.copyfile(path, copy)
    before = read(path)
    words = ["strace", "-e", "trace=flock", "-e", "inject=flock:delay_exit=1000000", program.find(), path, "apply"]
    it = subprocess.Popen(words, stdin=subprocess.PIPE, stdout=subprocess.PIPE, stderr=subprocess.PIPE)
    time.sleep(0.5)
    os.replace(copy, path)
    out, log = it.communicate(b"z1 deposit 1 2024-02-01 0.01\n", timeout=60)
    same((5, b""), (it.returncode, out))
    if told_gone(path, OTHER_FILE) not in log:
        raise AssertionError(log)
    same(before, read(path))


@case("mode: a journal is its owner's alone, whatever the umask; one that is there keeps its mode")
def mode(room):
    for mask in (0o000, 0o022, 0o077, 0o277, 0o777):
        path = os.path.join(room, f"{mask:o}.journal")
        same(0, run(path, "init", preexec_fn=lambda: os.umask(mask))[0])
        same(0o600, os.stat(path).st_mode & 0o7777, oct(mask))
    os.chmod(path, 0o640)
    same(0, run(path, "custodial")[0])
    same(0o640, os.stat(path).st_mode & 0o7777)


# A nearly full disk

@case("room: on a disk of 48 kB commands are accepted until no record fits; then a run ends with 5, and they are all there")
def nearly_full(room):
    disk = os.path.join(room, "disk")
    os.mkdir(disk)
    mount = ["mount", "-t", "tmpfs", "-o", "size=48k", "tmpfs", disk]
    if os.geteuid() or subprocess.run(mount, capture_output=True, check=False).returncode:
        raise Skipped("no mount is allowed here")
    try:
        path = month(disk)
        given = b"".join(b"z%d deposit 1 2024-02-01 0.01\n" % number for number in range(2000))
        status, out, log = run(path, "apply", given=given)
        same((5, told_gone(path, "No space left on device (os error 28)")), (status, log))
        kept = reckon.lines_of_journal(read(path))
        answered = out.count(b"ok ")
        if not 14 + answered <= len(kept) <= 15 + answered:
            raise AssertionError(f"{answered} were answered, and {len(kept)} are there")
        size = sum(7 + len(line) for line in kept) + 9
        if size < 48 * 1024 - 4096:
            raise AssertionError(f"the records end at {size}")
        same((0, b""), run(path, "custodial")[::2])
    finally:
        subprocess.run(["umount", disk], check=False)


# The lock

def serving(path):
    """A program that serves one connection over a journal, and its port, once it listens."""
    port = replay.free_port()
    it = start(path, "serve", str(port), "1")
    same(f"listening on 127.0.0.1:{port}\n".encode(), it.stderr.readline())
    return it, port


@case("lock: beside serve every other word that opens the journal ends with 14 and touches nothing")
def beside_serve(room):
    path = month(room)
    before = read(path)
    it, _ = serving(path)
    for words in ("apply", "import", "init", "report 2023-12", "custodial", "statement", "serve 8080 1", "confirm"):
        said = f"status 14 InUse {path}\n".encode()
        same((14, b"", said), run(path, *words.split(), given=b"x day 2030-01-01\n"), words)
    same(before, read(path))
    for words in ("session", "drill 1 7"):
        same(0, run(path, *words.split())[0], words)
    it.send_signal(signal.SIGKILL)
    it.wait(timeout=60)
    same(0, run(path, "custodial")[0], "after kill -9")


@case("lock: two apply at once: one ends with 14, and the file has what the other answered")
def two_at_once(room):
    path = month(room)
    first = start(path, "apply")
    first.stdin.write(b"a0 deposit 1 2024-02-01 0.01\n")
    first.stdin.flush()
    same(b"ok 15\n", first.stdout.readline())
    given = b"".join(b"b%d deposit 1 2024-02-01 0.01\n" % n for n in range(100))
    same((14, b""), run(path, "apply", given=given)[:2])
    out = first.communicate(b"".join(b"a%d deposit 1 2024-02-01 0.01\n" % n for n in range(1, 100)))[0]
    same((0, 99), (first.returncode, out.count(b"ok ")))
    same(14 + 100, len(reckon.lines_of_journal(read(path))))


# Causes

@case("causes: a folder that is not there, one in the file's place, a port that is taken")
def causes(room):
    missing = os.path.join(room, "nowhere", "j")
    said = f"status 5 DiskFault {missing}: No such file or directory (os error 2)\n".encode()
    same((5, b"", said), run(missing, "init"))
    for words in ("init", "apply", "custodial"):
        same((5, b"", f"status 5 DiskFault {room}: Is a directory (os error 21)\n".encode()), run(room, words), words)
    it, port = serving(month(room))
    other = month(room, "other.journal")
    said = b"status 9 NetFault 127.0.0.1: Address already in use (os error 98)\n"
    same((9, b"", said), run(other, "serve", str(port), "1"))
    it.kill()
    it.wait()


def by_another(room, *words):
    """Runs a copy of the program as a user who is not root."""
    copy = os.path.join(room, "program")
    if not os.path.exists(copy):
        shutil.copyfile(program.find(), copy)
        os.chmod(copy, 0o755)
    ran = subprocess.run([copy, *words], capture_output=True, user=65534, group=65534, check=False, timeout=60)
    return ran.returncode, ran.stdout, ran.stderr


@case("causes: a file that may not be opened, one that may only be read, a folder in which none may be made")
def not_allowed(room):
    if os.geteuid():
        raise Skipped("it wants root, which becomes another user")
    path = month(room)
    os.chmod(room, 0o711)
    for mode in (0o600, 0o444):
        os.chmod(path, mode)
        said = f"status 5 DiskFault {path}: Permission denied (os error 13)\n".encode()
        same((5, b"", said), by_another(room, path, "custodial"), oct(mode))
    none = os.path.join(room, "none.journal")
    said = f"status 5 DiskFault {none}: Permission denied (os error 13)\n".encode()
    same((5, b"", said), by_another(room, none, "init"))


# Syncs

def under_strace(path, *more):
    """The words that run the program over a journal and trace its calls."""
    if not shutil.which("strace"):
        raise Skipped("strace is not installed")
    return ["strace", "-y", "-e", "trace=openat,read,write,sendto,setsockopt,fdatasync,ftruncate", *more, program.find(), path]


def calls_on(path, log):
    """The calls on the journal's file that were traced."""
    if "ptrace" in log and "Operation not permitted" in log:
        raise Skipped("strace is not allowed here")
    return re.findall(r"^(read|write|fdatasync|ftruncate)\(\d+<" + re.escape(path) + r">(?:, .*, (\d+))?\) += (\S+)",
                      log, re.MULTILINE)


def traced(path, given, *more):
    """The calls on the journal's file of an `apply`, and the status, output and log."""
    ran = subprocess.run([*under_strace(path, *more), "apply"], input=given, capture_output=True, check=False,
                         timeout=120)
    log = ran.stderr.decode()
    return calls_on(path, log), (ran.returncode, ran.stdout, log)


def kinds_of(calls):
    """The calls but the reads, each with how many bytes it has."""
    return [(call, int(size or 0)) for call, size, _ in calls if call != "read"]


def said_on(port, sent):
    """What a connection says to bytes behind which its peer writes no more."""
    link = replay.connect(port)
    link.sendall(sent)
    link.shutdown(socket.SHUT_WR)
    said = b""
    while piece := link.recv(65536):
        said += piece
    link.close()
    return said


@case("syncs: an opening writes the last record again before its first sync; each record goes with the gate before it")
def order_of_syncs(room):
    path = month(room)
    size = os.path.getsize(path)
    again = 8 + len(reckon.lines_of_journal(read(path))[-1])
    given = [b"z%d deposit 1 2024-02-01 0.01\n" % number for number in range(1, 4)]
    calls, (status, out, _) = traced(path, b"".join(given))
    same((0, b"ok 15\nok 16\nok 17\n"), (status, out))
    kinds = kinds_of(calls)
    record, gate, sync = ("write", 6 + len(given[0])), ("write", 1), ("fdatasync", 0)
    same([("write", 8), ("write", again), sync, record, sync, record, gate, sync, record, gate, sync, gate, sync], kinds)
    same(size, os.path.getsize(path))


@case("syncs: the first record is written over 64 KB of zeros with no sync of their own; the next ones lengthen no file")
def zeros_ahead(room):
    path = os.path.join(room, "new.journal")
    same((0, b"", b""), run(path, "init"))
    given = [b"z%d day 2024-02-0%d\n" % (number, number) for number in range(1, 4)]
    calls, (status, out, _) = traced(path, b"".join(given))
    same((0, b"ok 1\nok 2\nok 3\n"), (status, out))
    zeros, record, gate, sync = ("write", 65536), ("write", 6 + len(given[0])), ("write", 1), ("fdatasync", 0)
    same([zeros, record, sync, record, gate, sync, record, gate, sync, gate, sync], kinds_of(calls)[3:])
    same(9 + 65536, os.path.getsize(path))


@case("syncs: of requests that stand behind one another each record goes with the gate before it, and a response after it")
def syncs_of_serve(room):
    path, port = os.path.join(room, "new.journal"), replay.free_port()
    write(b"MSRVJ002".ljust(1000, b"\0"), path)
    sent = [bodies.body_of(f"z{number} day 2024-02-0{number}") for number in range(1, 4)]
    it = subprocess.Popen([*under_strace(path), "serve", str(port), "1"], stdout=subprocess.PIPE, stderr=subprocess.PIPE)
    posts = b"".join(b"POST /v1/commands HTTP/1.1\r\nContent-Length: %d\r\n\r\n%s" % (len(it), it) for it in sent)
    wanted = b"".join(bodies.response_of(*bodies.reply_of(f"ok {number}")) for number in range(1, 4))
    same(wanted, said_on(port, posts))
    log = it.communicate(timeout=60)[1].decode()
    record, gate, sync = ("write", 6 + len(b"z1 day 2024-02-01") + 1), ("write", 1), ("fdatasync", 0)
    same([record, sync, record, gate, sync, record, gate, sync, gate, sync], kinds_of(calls_on(path, log))[3:])
    order = re.findall(r"^(?:fdatasync|(?:write|sendto)\(\d+<(?:socket|TCP))", log, re.MULTILINE)
    order = "".join("s" if it == "fdatasync" else "r" for it in order)
    same("ss" + 3 * "sr", order, "syncs and responses")
    same(1, len(re.findall(r"^setsockopt\(.*, TCP_NODELAY, \[1\], 4\) += 0$", log, re.MULTILINE)), "responses leave at once")


@case("syncs: behind a response that cannot be sent no request is acted on, and the next connection finds its place free")
def response_that_is_cut(room):
    path, port = os.path.join(room, "new.journal"), replay.free_port()
    write(b"MSRVJ002".ljust(1000, b"\0"), path)
    sent = [bodies.body_of(f"z{number} day 2024-02-0{number}") for number in range(1, 4)]
    posts = [b"POST /v1/commands HTTP/1.1\r\nContent-Length: %d\r\n\r\n%s" % (len(it), it) for it in sent]
    words = [*under_strace(path, "-e", "inject=sendto:error=EPIPE:when=1"), "serve", str(port), "2"]
    it = subprocess.Popen(words, stdout=subprocess.PIPE, stderr=subprocess.PIPE)
    same(b"", said_on(port, b"".join(posts)))
    same(bodies.response_of(*bodies.reply_of("ok 2")), said_on(port, posts[2]))
    log = it.communicate(timeout=60)[1].decode()
    calls_on(path, log)
    same([b"z1 day 2024-02-01", b"z3 day 2024-02-03"], reckon.lines_of_journal(read(path)))


@case("syncs: one that fails ends with 5; what was answered is there, and at most the command that was being appended")
def failed_syncs(room):
    path = month(room)
    before = read(path)
    given = b"z1 deposit 1 2024-02-01 0.01\nz2 deposit 1 2024-02-01 0.01\n"
    kept = reckon.lines_of_journal(before)
    for when in range(1, 5):
        write(before, path)
        _, (status, out, log) = traced(path, given, "-e", f"inject=fdatasync:error=EIO:when={when}")
        same(5, status, f"sync {when}")
        if f"status 5 DiskFault {path}: Input/output error (os error 5)\n" not in log:
            raise AssertionError(f"no cause: {log[-300:]}")
        same(out.count(b"\n"), max(0, when - 3), f"replies at sync {when}")
        same((0, b""), run(path, "custodial")[::2], f"opening after sync {when}")
        lines = reckon.lines_of_journal(read(path))
        if lines[:len(kept)] != kept or not 0 <= len(lines) - len(kept) - out.count(b"\n") <= 1:
            raise AssertionError(f"sync {when}: {len(lines)} commands, {out!r}")
        same((0, b"ok 15\nok 16\n", b""), run(path, "apply", given=given), f"again after sync {when}")


@case("the folder of a file that is made is synced")
def folder_synced(room):
    if not shutil.which("strace"):
        raise Skipped("strace is not installed")
    path = os.path.join(room, "new.journal")
    words = ["strace", "-y", "-e", "trace=fsync,fdatasync", program.find(), path, "init"]
    ran = subprocess.run(words, capture_output=True, check=False, timeout=60)
    synced = re.findall(r"^(fsync|fdatasync)\(\d+<(.*?)>\)", ran.stderr.decode(), re.MULTILINE)
    same([("fsync", room), ("fdatasync", path)], synced[:2])


@case("the folder is synced at each opening: where that fails no run makes a journal or answers, and a later one syncs it")
def folder_not_synced(room):
    if not shutil.which("strace"):
        raise Skipped("strace is not installed")
    path = os.path.join(room, "new.journal")

    def syncs(word, given, *more):
        words = ["strace", "-y", "-e", "trace=fsync,fdatasync", *more, program.find(), path, word]
        ran = subprocess.run(words, input=given, capture_output=True, check=False, timeout=60)
        return ran, re.findall(r"^(fsync|fdatasync)\(\d+<(.*?)>\)", ran.stderr.decode(), re.MULTILINE)

    day = b"z1 day 2024-02-01\n"
    for word, given in (("init", b""), ("init", b""), ("apply", day)):
        ran, synced = syncs(word, given, "-e", "inject=fsync:error=EIO")
        same((5, b"", [("fsync", room)]), (ran.returncode, ran.stdout, synced), word)
        if told_gone(path, "Input/output error (os error 5)") not in ran.stderr:
            raise AssertionError(ran.stderr)
        same(b"", read(path), word)
    for word, given, out in (("init", b"", b""), ("apply", day, b"ok 1\n"), ("apply", day, b"ok 1\n")):
        ran, synced = syncs(word, given)
        same((0, out, ("fsync", room)), (ran.returncode, ran.stdout, synced[0]), word)


if __name__ == "__main__":
    sys.exit(run_all(sys.argv[1:]))
