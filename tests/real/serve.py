#!/usr/bin/env python3
"""Tests on real processes of `serve`: connections of this machine, slow, many, broken, and the program killed.

    serve.py [WORD..]    all cases, or those whose names have the words

Standard library alone; `JAQHENDULU` names another program than the one that `rt` built. Prints a line a case and
`N passed, M failed` at its end.
"""
import os
import random
import re
import resource
import shutil
import signal
import socket
import struct
import subprocess
import sys
import threading
import time

from harness import STARTED, TOP, Skipped, case, named, read, run, run_all, same, start, write
import bodies
import forty
import program
import reckon
import replay

DAY = b'{"key":"k1","do":"day","day":"2024-02-01"}'
OTHER_DAY = DAY.replace(b"02-01", b"02-02")
FIRST = b'{"code":0,"number":1,"text":"ok 1"}'
POST = b"POST /v1/commands HTTP/1.1\r\nHost: a\r\nContent-Length: 42\r\n\r\n" + DAY
POSTED = b"HTTP/1.1 200 OK\r\nContent-Length: 35\r\nContent-Type: application/json\r\n\r\n" + FIRST


class Served:
    """A program that serves so many connections over an empty journal."""

    def __init__(self, room, links, name="books", **how):
        self.path = os.path.join(room, name)
        if not os.path.exists(self.path):
            same((0, b"", b""), run(self.path, "init"))
        self.port = replay.free_port()
        self.it = start(self.path, "serve", str(self.port), str(links), **how)

    def link(self):
        """A connection by `http.client`."""
        link = bodies.link_to(self.port)
        link.sock = self.plain()
        return link

    def plain(self):
        """A plain connection."""
        return replay.connect(self.port)

    def ends(self, summary, status=0, log=b""):
        """Sees that the program ends with a summary."""
        out, said = self.it.communicate(timeout=120)
        listens, _, said = said.partition(b"\n")
        same(f"listening on 127.0.0.1:{self.port}".encode(), listens)
        same((status, summary, log), (self.it.returncode, out, named(said)))

    def commands(self):
        return reckon.lines_of_journal(read(self.path))


def summary(links, requests, broken=0, cut=0):
    return f"served {links} requests {requests} broken {broken} cut {cut} memory 0\n".encode()


def take(link, count):
    """So many bytes of a connection, or fewer where it ends."""
    got = b""
    while len(got) < count:
        piece = link.recv(65536)
        if not piece:
            break
        got += piece
    return got


def take_all(link):
    return take(link, 1 << 40)


def reset(link):
    """Ends a connection at once, with what is unread thrown away."""
    link.setsockopt(socket.SOL_SOCKET, socket.SO_LINGER, struct.pack("ii", 1, 0))
    link.close()


# One connection

@case("serve: the exchange of docs/HTTP.md on one connection")
def exchange(room):
    it = Served(room, 1)
    link = it.link()
    same((200, FIRST), bodies.ask(link, "POST", "/v1/commands", DAY))
    same((200, FIRST), bodies.ask(link, "POST", "/v1/commands", DAY))
    same((409, b'{"code":1,"text":"no 1 KeyReused 1"}'), bodies.ask(link, "POST", "/v1/commands", OTHER_DAY))
    same((404, b""), bodies.ask(link, "GET", "/v1/nowhere"))
    link.request("GET", "/v1/commands")
    got = link.getresponse()
    same((405, "POST", b""), (got.status, got.getheader("Allow"), got.read()))
    link.close()
    it.ends(summary(1, 5))


@case("serve: the whole quarter by bodies and routes gives the replies and the journal of files")
def quarter(room):
    it, files, servicer = Served(room, 1), os.path.join(room, "files"), reckon.Servicer()
    run(files, "init")
    link = it.link()
    for words, given, _ in replay.steps_of("quarter"):
        given = replay.read("quarter", given) if given else b""
        if words[0] not in ("apply", "import"):
            continue
        run(files, *words, given=given)
        lines = replay.lines_of_rows(given) if words[0] == "import" else given.decode().splitlines()
        for line in lines:
            if "1O5" not in line:
                wanted = bodies.reply_of(servicer.answer(line))
                same(wanted, bodies.ask(link, *bodies.request_of(line)), line)
    link.close()
    it.it.communicate(timeout=60)
    same(read(files), read(it.path), "the journals")


@case("serve: a body with a designation pays it")
def designated(room):
    it = Served(room, 1)
    link = it.link()
    for line in ("k1 day 2024-02-01", "k2 board 1 2023-12-15 200000.00 6000 250 1199.10 360 2024-02 15 500 2 0.00 SS"):
        same(200, bodies.ask(link, *bodies.request_of(line))[0])
    paid = (b'{"key":"k3","do":"pay","loan":1,"day":"2024-02-01","amount":"1699.10",'
            b'"designation":"principal"}')
    same((200, b'{"code":0,"number":3,"text":"ok 3"}'), bodies.ask(link, "POST", "/v1/commands", paid))
    books = ("books 1 2024-02-01 upb 199300.90 next 2024-03 escrow 0.00 suspense 0.00 late 0.00 "
             "interest 1000.00 fee 41.67 principal 699.10 charges 0.00 pay 1199.10")
    same(bodies.reply_of(books), bodies.ask(link, "GET", "/v1/loans/1/books"))
    link.close()
    it.ends(summary(1, 4))


@case("serve: 300 requests in one piece are answered in order")
def pipelined(room):
    it = Served(room, 1)
    link = it.plain()
    days = [f'{{"key":"k{i}","do":"day","day":"{reckon.datetime.date(2024, 1, 1) + reckon.datetime.timedelta(i)}"}}'
            for i in range(1, 301)]
    link.sendall(b"".join(f"POST /v1/commands HTTP/1.1\r\nContent-Length: {len(it)}\r\n\r\n{it}".encode() for it in days))
    link.shutdown(socket.SHUT_WR)
    wanted = b"".join(bodies.response_of(200, f'{{"code":0,"number":{i},"text":"ok {i}"}}'.encode())
                      for i in range(1, 301))
    same(wanted, take_all(link))
    it.ends(summary(1, 300))


@case("serve: a peer that sends a byte at a time")
def slow(room):
    it = Served(room, 1)
    link = it.plain()
    link.setsockopt(socket.IPPROTO_TCP, socket.TCP_NODELAY, 1)
    for byte in POST + POST:
        link.sendall(bytes([byte]))
        time.sleep(0.001)
    same(POSTED + POSTED, take(link, 2 * len(POSTED)))
    link.close()
    it.ends(summary(1, 2))


@case("serve: a month of forty loans, a byte at a time")
def forty_loans(room):
    given, wanted = b"", b""
    for line, reply in forty.by_lines():
        method, target, body = bodies.request_of(line)
        length = f"Content-Length: {len(body)}\r\n" if body else ""
        given += f"{method} {target} HTTP/1.1\r\n{length}\r\n".encode() + body
        wanted += bodies.response_of(*bodies.reply_of(reply))
    it = Served(room, 1)
    link = it.plain()
    link.setsockopt(socket.IPPROTO_TCP, socket.TCP_NODELAY, 1)
    got = []
    reader = threading.Thread(target=lambda: got.append(take_all(link)))
    reader.start()
    for byte in given:
        link.sendall(bytes([byte]))
    link.shutdown(socket.SHUT_WR)
    reader.join()
    same(wanted, got[0])
    it.ends(summary(1, len(forty.by_lines())))


HOSTILE = [
    (b"POST /v1/commands HTTP/1.1\r\nContent-Length: 2\r\n\r\n{}", b"400 Bad Request", False),
    (b"POST /v1/commands HTTP/1.1\r\nContent-Length: 3\r\n\r\n[1]", b"400 Bad Request", False),
    (b"POST /v1/commands HTTP/1.1\r\nContent-Length: 7\r\n\r\n{\"key\":", b"400 Bad Request", False),
    (b"GET /v1/custodial?x=1 HTTP/1.1\r\n\r\n", b"404 Not Found", False),
    (b"DELETE /v1/custodial HTTP/1.1\r\n\r\n", b"405 Method Not Allowed\r\nAllow: GET", False),
    (b"GET /v1/loans/01/books HTTP/1.1\r\n\r\n", b"400 Bad Request", False),
    (b"GET /v1/loans/1/books/2024-02-30 HTTP/1.1\r\n\r\n", b"400 Bad Request", False),
    (b"POST /v1/commands HTTP/1.1\r\n\r\n", b"411 Length Required", True),
    (b"POST /v1/commands HTTP/1.1\r\nTransfer-Encoding: chunked\r\n\r\n", b"411 Length Required", True),
    (b"POST /v1/commands HTTP/1.1\r\nContent-Length: 2049\r\n\r\n", b"413 Payload Too Large", True),
    (b"GET /v1/custodial HTTP/1.1\r\nContent-Length: 0\r\nContent-Length: 0\r\n\r\n", b"400 Bad Request", True),
    (b"GET /" + b"x" * 8187, b"431 Request Header Fields Too Large", True),
    (b"\0", b"400 Bad Request", True),
    (b"\x16\x03\x01\x02\x00\x01\x00\x01\xfc", b"400 Bad Request", True),
]


def sent_in_pieces(link, given, size):
    """What a connection answers, and whether all could be sent: a response that ends it may come before that."""
    try:
        for at in range(0, len(given), size):
            link.sendall(given[at:at + size])
        link.shutdown(socket.SHUT_WR)
        return take_all(link), True
    except OSError:
        return b"", False
    finally:
        link.close()


@case("serve: hostile requests, whole and byte by byte; none is acted on")
def hostile(room):
    it = Served(room, 2 * len(HOSTILE))
    for given, status, ends in HOSTILE:
        for size in (len(given), 1):
            close = b"Connection: close\r\n" if ends else b""
            wanted = b"HTTP/1.1 " + status + b"\r\n" + close + b"Content-Length: 0\r\n\r\n"
            got, is_whole = sent_in_pieces(it.plain(), given, size)
            if is_whole or got:
                same(wanted, got, given[:60])
    it.ends(summary(2 * len(HOSTILE), 2 * len(HOSTILE)))
    same([], it.commands())


@case("serve: HTTP/1.0 and Connection: close end the connection")
def closing(room):
    it = Served(room, 2)
    for head in (b"GET /v1/custodial HTTP/1.0\r\n\r\n", b"GET /v1/custodial HTTP/1.1\r\nconnection: CLOSE\r\n\r\n"):
        link = it.plain()
        link.sendall(head)
        if b"\r\nConnection: close\r\n" not in take_all(link):
            raise AssertionError("no Connection: close")
        link.close()
    it.ends(summary(2, 2))


# Many connections

@case("serve: 60 connections one after another, each with one request")
def many(room):
    it = Served(room, 60)
    for i in range(60):
        link = it.link()
        body = f'{{"key":"k{i}","do":"day","day":"{2024 + i}-01-01"}}'.encode()
        same((200, f'{{"code":0,"number":{i + 1},"text":"ok {i + 1}"}}'.encode()),
             bodies.ask(link, "POST", "/v1/commands", body))
        link.close()
    it.ends(summary(60, 60))
    same(60, len(it.commands()))


@case("serve: eight clients at once, 20 commands each: all are booked once, under numbers of their own")
def at_once(room):
    it = Served(room, 9)
    link = it.link()
    bodies.ask(link, "POST", "/v1/commands", DAY)
    for loan in range(1, 9):
        line = f"b{loan} board {loan} 2023-12-15 200000.00 6000 250 1199.10 360 2024-02 15 500 2 0.00 AA"
        same(200, bodies.ask(link, *bodies.request_of(line))[0])
    link.close()
    numbers, lock = [], threading.Lock()

    def client(loan):
        mine = it.link()
        for i in range(20):
            line = f"p{loan}.{i} pay {loan} 2024-02-01 {i + 1}.00"
            _, body = bodies.ask(mine, *bodies.request_of(line))
            with lock:
                numbers.append(int(re.search(rb'"number":(\d+)', body)[1]))
        mine.close()

    clients = [threading.Thread(target=client, args=[loan]) for loan in range(1, 9)]
    for each in clients:
        each.start()
    for each in clients:
        each.join()
    same(list(range(10, 170)), sorted(numbers))
    it.ends(summary(9, 169))


# Connections that break

@case("serve: peers that end in the middle of a head and of a body: nothing is acted on, the next one is served")
def gone(room):
    cuts = [1, 10, len(POST) - 43, len(POST) - 42, len(POST) - 1]
    it = Served(room, len(cuts) + 1)
    for cut in cuts:
        link = it.plain()
        link.sendall(POST[:cut])
        link.close()
    link = it.link()
    same((200, b'{"code":0,"text":"custodial T 0.00 P 0.00 suspense 0.00 escrow 0.00 escrow-advance 0.00'
               b' held 0.00 pi-advance 0.00"}'), bodies.ask(link, "GET", "/v1/custodial"))
    link.close()
    it.ends(summary(len(cuts) + 1, 1))
    same([], it.commands())


@case("serve: a peer that resets in the middle is counted as broken, and the same body sent again is booked once")
def broken(room):
    it = Served(room, 3)
    link = it.plain()
    link.sendall(POST[:30])
    time.sleep(0.2)
    reset(link)
    link = it.plain()
    link.sendall(POST + POST[:30])
    same(POSTED, take(link, len(POSTED)))
    time.sleep(0.2)
    reset(link)
    link = it.link()
    same((200, FIRST), bodies.ask(link, "POST", "/v1/commands", DAY))
    link.close()
    it.ends(summary(3, 2, broken=2))
    same(1, len(it.commands()))


@case("serve: a peer that never reads is waited for, and the next one is served once it has gone")
def deaf(room):
    it = Served(room, 2)
    link = it.plain()
    link.setblocking(False)
    request, sent = b"GET /v1/custodial HTTP/1.1\r\n\r\n", 0
    until = time.monotonic() + 3
    while time.monotonic() < until:
        try:
            sent += link.send(request * 100)
        except BlockingIOError:
            time.sleep(0.05)
    reset(link)
    link = it.link()
    same((200, FIRST), bodies.ask(link, "POST", "/v1/commands", DAY))
    link.close()
    out = it.it.communicate(timeout=60)[0]
    if b" broken 1 cut 0 " not in out or not out.startswith(b"served 2 "):
        raise AssertionError(out)


@case("serve: a connection is cut at 16,777,216 bytes, and what it asked before is answered")
def cut(room):
    it = Served(room, 2)
    link = it.plain()
    request = b"POST /v1/nowhere HTTP/1.1\r\nContent-Length: 2000\r\n\r\n" + b"x" * 2000
    whole = 2**24 // len(request)
    got = []
    reader = threading.Thread(target=lambda: got.append(take_all(link)))
    reader.start()
    link.sendall((request * (whole + 1))[:2**24])
    reader.join()
    same(b"HTTP/1.1 404 Not Found\r\nContent-Length: 0\r\n\r\n" * whole, got[0])
    link.close()
    link = it.link()
    same((200, FIRST), bodies.ask(link, "POST", "/v1/commands", DAY))
    link.close()
    it.ends(summary(2, whole + 1, cut=1))


@case("serve: a peer that sends no more, or reads no more, is let go after 30 seconds, counted as broken; the next is served")
def stuck(room):
    silent, deaf = Served(room, 2, "silent"), Served(room, 2, "deaf")
    began, first, second = time.monotonic(), silent.plain(), deaf.plain()
    first.sendall(POST + POST[:60])
    same(POSTED, take(first, len(POSTED)))
    second.setblocking(False)
    sent, last = 0, time.monotonic()
    while time.monotonic() - last < 1:
        try:
            sent += second.send(b"GET /v1/custodial HTTP/1.1\r\n\r\n" * 100)
            last = time.monotonic()
        except BlockingIOError:
            time.sleep(0.05)
    for it in (silent, deaf):
        link = it.link()
        link.sock.settimeout(60)
        same((200, FIRST), bodies.ask(link, "POST", "/v1/commands", DAY))
        link.close()
    same(True, 29 < time.monotonic() - began < 40, "they are let go after 30 seconds")
    same(b"", take_all(first))
    for link in (first, second):
        link.close()
    silent.ends(summary(2, 2, broken=1))
    out = deaf.it.communicate(timeout=60)[0]
    if b" broken 1 cut 0 " not in out or not out.startswith(b"served 2 "):
        raise AssertionError(out)


@case("serve: close among the words of a Connection line ends the connection, wherever it stands")
def close_among_words(room):
    words = (b"close, x", b"x,CLOSE", b"keep-alive , \tClose,", b"close")
    it = Served(room, len(words) + 1)
    asked = b"GET /v1/nowhere HTTP/1.1\r\nConnection: %s\r\n\r\n"
    for word in words:
        link = it.plain()
        link.sendall(asked % word)
        same(b"HTTP/1.1 404 Not Found\r\nConnection: close\r\nContent-Length: 0\r\n\r\n", take_all(link), word)
        link.close()
    link = it.plain()
    link.sendall(asked % b"closed, x" + asked % b"close")
    link.shutdown(socket.SHUT_WR)
    same(2, take_all(link).count(b"HTTP/1.1 404 Not Found\r\n"), "closed is another word")
    link.close()
    it.ends(summary(len(words) + 1, len(words) + 2))


def traced(path, port, links, inject):
    """A program that serves so many connections, of which calls of the system fail."""
    if not shutil.which("strace"):
        raise Skipped("strace is not installed")
    words = ["strace", "-e", "trace=accept4", "-e", f"inject=accept4:{inject}", program.find(), path, "serve", str(port), links]
    STARTED.append(subprocess.Popen(words, stdout=subprocess.PIPE, stderr=subprocess.PIPE))
    return STARTED[-1]


@case("serve: a failure to take a connection that passes by itself does not end the run; another does, with 9")
def passing_failures(room):
    path = os.path.join(room, "books")
    same(0, run(path, "init")[0])
    for error in ("ECONNABORTED", "EINTR", "EMFILE", "ENFILE", "ENOBUFS", "ENOMEM", "EPROTO", "ENETDOWN"):
        port = replay.free_port()
        it = traced(path, port, "2", f"error={error}:when=1..3")
        for _ in range(2):
            link = bodies.link_to(port)
            link.sock = replay.connect(port)
            same((200, FIRST), bodies.ask(link, "POST", "/v1/commands", DAY), error)
            link.close()
        out, log = it.communicate(timeout=60)
        same((0, summary(2, 2)), (it.returncode, out), error)
        same(3, log.count(b"(INJECTED)"), error)
    it = traced(path, replay.free_port(), "2", "error=EBADF:when=1")
    out, log = it.communicate(timeout=60)
    same((9, b""), (it.returncode, out))
    if b"status 9 NetFault 127.0.0.1: Bad file descriptor (os error 9)\n" not in log:
        raise AssertionError(log)


REFUSED = b"HTTP/1.1 503 Service Unavailable\r\nConnection: close\r\nContent-Length: 0\r\n\r\n"


def waiting(it, count):
    """Connections that wait behind the one that is served: with a request, with many bytes, and silent ones."""
    links = [it.plain() for _ in range(count)]
    for number, link in enumerate(links):
        link.sendall((POST, POST + b"x" * 20_000, b"", b"\0")[number % 4])
    return links


@case("serve: where the count runs out, those that wait are refused by a 503, not reset; what they asked is not done")
def refused(room):
    it = Served(room, 1)
    link = it.link()
    same((404, b""), bodies.ask(link, "GET", "/v1/nowhere"))
    links = waiting(it, 8)
    link.close()
    for other in links:
        same(REFUSED, take_all(other))
        other.close()
    it.ends(summary(1, 1))
    same([], it.commands())
    same(0, bool(socket.socket().connect_ex(("127.0.0.1", it.port)) == 0), "nobody listens")


@case("serve: where the journal is gone, the one that is served gets a 500, those that wait a 503, and the run ends with 5")
def refused_at_fault(room):
    it = Served(room, 9)
    link = it.link()
    same((404, b""), bodies.ask(link, "GET", "/v1/nowhere"))
    links = waiting(it, 4)
    os.rename(it.path, it.path + ".moved")
    same((500, b""), bodies.ask(link, "POST", "/v1/commands", DAY))
    for other in links:
        same(REFUSED, take_all(other))
        other.close()
    link.close()
    it.ends(b"", 5, b"status 5 DiskFault")


# The program ends in the middle

def days_from(first, count):
    """Requests of so many business days, from one of them on, and the responses to them."""
    lines = [f"k{i} day {reckon.datetime.date(1990, 1, 2) + reckon.datetime.timedelta(i)}"
             for i in range(first, first + count)]
    sent = [bodies.body_of(line) for line in lines]
    return ([b"POST /v1/commands HTTP/1.1\r\nHost: a\r\nContent-Length: %d\r\n\r\n%s" % (len(it), it) for it in sent],
            [bodies.response_of(*bodies.reply_of(f"ok {i + 1}")) for i in range(first, first + count)])


def ask_until_killed(link, asks, replies, together):
    """Sends so many requests at a time, each time once all before are answered, until the program is killed: how many
    were answered whole."""
    got = b""
    for at in range(0, len(asks), together):
        wanted = sum(map(len, replies[:at + together]))
        try:
            link.sendall(b"".join(asks[at:at + together]))
            while len(got) < wanted and (piece := link.recv(65536)):
                got += piece
        except OSError:
            break
        if len(got) < wanted:
            break
    whole = b"".join(replies)
    same(whole[:len(got)], got)
    return sum(sum(map(len, replies[:n + 1])) <= len(got) for n in range(len(replies)))


@case("serve: kill -9 at 100 moments, requests one at a time and seven at a time: what was answered is in the journal")
def killed(room):
    draws = random.Random(40)
    kept, counts = 0, []
    for moment in range(100):
        it = Served(room, 1)
        link = it.plain()
        threading.Timer(draws.uniform(0, 0.06), it.it.send_signal, [signal.SIGKILL]).start()
        answered = kept + ask_until_killed(link, *days_from(kept, 700), 7 if moment % 2 else 1)
        it.it.communicate()
        link.close()
        counts.append(answered - kept)
        kept = len(it.commands())
        if kept not in (answered, answered + 1):
            raise AssertionError(f"moment {moment}: {answered} were answered, {kept} are there")
    same((0, b""), run(it.path, "custodial")[::2])
    if len(set(counts)) < 3:
        raise AssertionError(f"the moments do not spread: {sorted(set(counts))}")


@case("serve: a full disk is 500 and status 5, and the command can be sent again")
def full_disk(room):
    def limit():
        signal.signal(signal.SIGXFSZ, signal.SIG_IGN)
        resource.setrlimit(resource.RLIMIT_FSIZE, (40, 40))

    write(b"MSRVJ002".ljust(40, b"\0"), room, "books")
    it = Served(room, 1, preexec_fn=limit)
    link = it.link()
    same((200, FIRST), bodies.ask(link, "POST", "/v1/commands", DAY))
    body = b'{"key":"k2","do":"day","day":"2024-02-02"}'
    same((500, b""), bodies.ask(link, "POST", "/v1/commands", body))
    link.close()
    it.ends(b"", 5, b"status 5 DiskFault")
    it = Served(room, 1)
    link = it.link()
    same((200, b'{"code":0,"number":2,"text":"ok 2"}'), bodies.ask(link, "POST", "/v1/commands", body))
    link.close()
    it.ends(summary(1, 1))


@case("serve: a port that is taken is status 9; ports and counts that are none are status 2")
def ports(room):
    path = os.path.join(room, "books")
    run(path, "init")
    with socket.socket() as taken:
        taken.bind(("127.0.0.1", 0))
        taken.listen()
        status, out, log = run(path, "serve", str(taken.getsockname()[1]), "1")
        same((9, b"", b"status 9 NetFault"), (status, out, named(log)))
    for words in (("0", "1"), ("65536", "1"), ("08080", "1"), ("8080", "0"), ("8080", "1000001"), ("8080",)):
        status, out, log = run(path, "serve", *words)
        same((2, b"", b"status 2 Usage"), (status, out, named(log)), words)
    write(b"", path)
    same((6, b"", b"status 6 NotJournal\n"), run(path, "serve", "8080", "1"))


if __name__ == "__main__":
    sys.exit(run_all(sys.argv[1:]))
