"""Tests of the site of deploy/nginx with a real nginx; deploy.py runs them."""
import base64
import json
import os
import socket
import ssl
import threading
import time

from beside import COMMANDS, at_once, boarded, body_of_day, needs, new_journal, ok
from front import ACCESS, JSON, NAME, PASSWORD, USER, Front, before
from harness import TOP, case, read, same
import bodies
import reckon
import replay

EMPTY = (b'{"code":0,"text":"custodial T 0.00 P 0.00 suspense 0.00 escrow 0.00 escrow-advance 0.00 held 0.00 '
         b'pi-advance 0.00"}')
REUSED = 409, b'{"code":1,"text":"no 1 KeyReused 1"}'
CUSTODIAL = "/v1/custodial"


@case("nginx: the routes, HEAD as GET, chunked bodies; the program's own refusals come through")
def routes(room):
    with before(room, new_journal(room)) as (kept, front):
        link = front.link()
        for method, target, body, wanted in (
                ("POST", COMMANDS, body_of_day(1), ok(1)),
                ("POST", COMMANDS, body_of_day(1), ok(1)),
                ("POST", COMMANDS, body_of_day(1).replace(b"01-02", b"01-03"), REUSED),
                ("POST", COMMANDS, iter([body_of_day(2)[:9], body_of_day(2)[9:]]), ok(2)),
                ("GET", CUSTODIAL, None, (200, EMPTY)),
                ("GET", "/v1/loans/%31/books", None, (400, b"")),
                ("GET", "/v1/loans/1/books?x=1", None, (404, b"")),
                ("DELETE", CUSTODIAL, None, (405, b""))):
            link.request(method, target, body, JSON)
            got = link.getresponse()
            same(wanted, (got.status, got.read()), (method, target))
        link.request("HEAD", CUSTODIAL, headers=ACCESS)
        got = link.getresponse()
        same((200, str(len(EMPTY)), b""), (got.status, got.getheader("Content-Length"), got.read()))
        link.close()
        kept.close()
        same(2, len(reckon.lines_of_journal(read(room, "books.journal"))))


def has_no_handshake(front, name):
    """Whether nginx ends the handshake of a client that asks for a name, and would take any certificate."""
    takes_all = ssl.SSLContext(ssl.PROTOCOL_TLS_CLIENT)
    takes_all.check_hostname, takes_all.verify_mode = False, ssl.CERT_NONE
    with socket.create_connection(("127.0.0.1", front.port), timeout=20) as link:
        try:
            takes_all.wrap_socket(link, server_hostname=name).close()
            return False
        except ssl.SSLError as error:
            return "UNRECOGNIZED_NAME" in str(error)


@case("nginx: no user, a foreign web page, another type, another name and long bodies do not reach the program")
def kept_out(room):
    with before(room, new_journal(room)) as (kept, front):
        body = body_of_day(1)
        for status, headers in (
                (401, {"Content-Type": "application/json"}),
                (401, {**JSON, "Authorization": "Basic " + base64.b64encode(b"cashier:b-word").decode()}),
                (403, {**JSON, "Origin": "https://evil.example"}),
                (403, {**JSON, "Origin": "null"}),
                (415, ACCESS),
                (415, {**JSON, "Content-Type": "text/plain"}),
                (415, {**JSON, "Content-Type": "application/x-www-form-urlencoded"}),
                (415, {**JSON, "Content-Type": "text/plain; application/json"}),
                (421, {**JSON, "Host": "evil.example"})):
            same(status, front.ask("POST", COMMANDS, body, headers)[0], headers)
        same(413, front.ask("POST", COMMANDS, body + b" " * 2048, JSON)[0])
        same([True, True, False], [has_no_handshake(front, it) for it in ("evil.example", None, NAME)])
        same([], reckon.lines_of_journal(read(room, "books.journal")))
        same(ok(1), front.ask("POST", COMMANDS, body, {**JSON, "Content-Type": "Application/JSON; charset=utf-8"}))
        kept.close()


@case("nginx: a word kept as README.md has it is asked for; certificates of clients may stand in the place of words")
def ways_in(room):
    def word(given):
        return {"Authorization": "Basic " + base64.b64encode(f"auditor:{given}".encode()).decode()}

    with before(room, new_journal(room)) as (_, front):
        same([200, 401], [front.ask("GET", CUSTODIAL, headers=word(it))[0] for it in (PASSWORD, PASSWORD + "x")])
    certified = [('auth_basic "Jaqhendulu";', f"ssl_client_certificate {room}/tls.crt;"),
                 (f"auth_basic_user_file {room}/users;", "ssl_verify_client on;")]
    with before(room, os.path.join(room, "books.journal"), changes=certified) as (_, front):
        same(400, front.ask("GET", CUSTODIAL, headers={})[0])
        front.trusts.load_cert_chain(os.path.join(room, "tls.crt"), os.path.join(room, "tls.key"))
        same((200, EMPTY), front.ask("GET", CUSTODIAL, headers={}))


@case("nginx: a web page that has a row may send requests")
def named_page(room):
    row = ('""         0;', '"" 0; "https://desk.example" 0;')
    with before(room, new_journal(room), changes=[row]) as (kept, front):
        for origin, status in (("https://desk.example", 200), ("https://desk.example.evil", 403),
                               ("http://desk.example", 403)):
            same(status, front.ask("POST", COMMANDS, body_of_day(1), {**JSON, "Origin": origin})[0], origin)


@case("nginx: a page of the server's own origin may send requests, one of the same name at another port may not")
def own_page(room):
    with before(room, new_journal(room)) as (kept, front):
        own = f"{NAME}:{front.port}"
        for origin, host, status in ((f"https://{own}", own, 200), (f"http://{own}", own, 403),
                                     (f"https://{NAME}", own, 403), (f"https://{own}1", own, 403),
                                     (f"https://x{own}", own, 403), (f"https://{NAME}", NAME, 200)):
            same(status, front.ask("POST", COMMANDS, body_of_day(1), {**JSON, "Origin": origin, "Host": host})[0],
                 (origin, host))


@case("nginx: the desk's files for users alone, with their types and what a browser may load; nothing beside them")
def desk_files(room):
    with before(room, new_journal(room)) as (kept, front):
        for name, kind in (("", "text/html; charset=utf-8"), ("desk.css", "text/css; charset=utf-8"),
                           ("main.js", "text/javascript; charset=utf-8"),
                           ("icon.svg", "image/svg+xml; charset=utf-8")):
            link = front.link()
            link.request("GET", "/desk/" + name, headers=ACCESS)
            got = link.getresponse()
            same((200, kind), (got.status, got.getheader("Content-Type")), name)
            same(read(TOP, "desk", name or "index.html"), got.read())
            policy = got.getheader("Content-Security-Policy")
            same(("default-src 'none'", "nosniff", "no-cache"),
                 (policy.split(";")[0], got.getheader("X-Content-Type-Options"), got.getheader("Cache-Control")))
            same([], [it for it in policy.split() if ":" in it or "*" in it or "unsafe" in it])
            link.close()
        for method, target, headers, status in (
                ("GET", "/", ACCESS, 302), ("GET", "/desk/", {}, 401),
                ("GET", "/desk/main.js", {}, 401), ("GET", "/desk/nothing.js", ACCESS, 404),
                ("GET", "/desk/../README.md", ACCESS, 404), ("GET", "/desk/%2e%2e/README.md", ACCESS, 404),
                ("GET", "/desk../README.md", ACCESS, 404), ("GET", "/desk/pictures/", ACCESS, 403),
                ("GET", "/desk/", {**ACCESS, "Origin": "https://evil.example"}, 403),
                ("DELETE", "/desk/main.js", ACCESS, 403)):
            same(status, front.ask(method, target, headers=headers)[0], (method, target, headers))
        same(415, front.ask("POST", "/desk/", b"x=1", ACCESS)[0])


@case("nginx: the log has the user, the command and what came of it")
def logged(room):
    with before(room, new_journal(room)) as (kept, front):
        body = body_of_day(1)
        same(ok(1), front.ask("POST", COMMANDS, body, JSON))
        same(401, front.ask("GET", CUSTODIAL, headers={})[0])
        kept.close()
        front.end()
        lines = [json.loads(it) for it in read(room, "jaqhendulu.log").decode().splitlines()]
        same([(USER, "POST /v1/commands HTTP/1.1", "200", body.decode()),
              ("", "GET /v1/custodial HTTP/1.1", "401", "")],
             [(it["user"], it["request"], it["status"], it["body"]) for it in lines])


class Payer:
    """A client that sends payments of a loan over one connection, each once, as long as it is told to go on."""

    def __init__(self, front, loan, goes_on):
        self.front, self.loan, self.goes_on = front, loan, goes_on
        self.numbers, self.longest = [], 0.0

    def __call__(self):
        link = self.front.link()
        while self.goes_on(len(self.numbers)):
            began = time.monotonic()
            count = len(self.numbers) + 1
            line = f"p{self.loan}.{count} pay {self.loan} 2024-02-01 {count}.00"
            link.request("POST", COMMANDS, bodies.body_of(line), JSON)
            got = link.getresponse()
            reply = got.read()
            if got.status != 200:
                raise AssertionError(f"{got.status} {reply}")
            self.numbers.append(json.loads(reply)["number"])
            self.longest = max(self.longest, time.monotonic() - began)
        link.close()


def paid_by(room, payers):
    """Sees that all numbers from 10 on were answered, each once, and that the journal has these payments."""
    numbers = [number for it in payers for number in it.numbers]
    same(list(range(10, 10 + len(numbers))), sorted(numbers))
    lines = reckon.lines_of_journal(read(room, "books.journal"))
    keys = [f"p{it.loan}.{count}" for it in payers for count in range(1, len(it.numbers) + 1)]
    same(sorted(keys), sorted(it.split(b" ")[0].decode() for it in lines[9:]))


@case("nginx: eight clients at once, 20 commands each: all are booked once, under numbers of their own")
def eight(room):
    with before(room, new_journal(room, boarded(8))) as (kept, front):
        payers = [Payer(front, loan, lambda count: count < 20) for loan in range(1, 9)]
        at_once(payers)
        kept.close()
        same([20] * 8, [len(it.numbers) for it in payers])
        paid_by(room, payers)


@case("nginx: the program is killed six times under eight clients: every request is answered, and in the journal once")
def restarts(room):
    done = threading.Event()

    def killer():
        try:
            for _ in range(6):
                time.sleep(0.5)
                kept.kill()
        finally:
            done.set()

    with before(room, new_journal(room, boarded(8))) as (kept, front):
        payers = [Payer(front, loan, lambda count: not done.is_set()) for loan in range(1, 9)]
        at_once([*payers, killer])
        kept.close()
        paid_by(room, payers)
        same(True, kept.starts >= 4, "starts")
        if max(it.longest for it in payers) > 9:
            raise AssertionError([it.longest for it in payers])


@case("nginx: a program that ends after every fifth connection: 40 requests are answered")
def fives(room):
    with before(room, new_journal(room), connections=5, pause=0.05) as (kept, front):
        link = front.link()
        for i in range(1, 41):
            link.request("POST", COMMANDS, body_of_day(i), JSON)
            got = link.getresponse()
            same(ok(i), (got.status, got.read()))
        link.close()
        same(True, kept.starts >= 9)
        kept.close()


@case("nginx: a program that does not come back: 504 after the time of the waiting room, for five clients at once")
def never(room):
    needs("nginx", "openssl")
    front = Front(room, replay.free_port(), wait="2s")

    def client():
        began = time.monotonic()
        same(504, front.ask("GET", CUSTODIAL)[0])
        if not 1.5 < time.monotonic() - began < 8:
            raise AssertionError(time.monotonic() - began)

    try:
        at_once([client] * 5)
    finally:
        front.end()


@case("nginx: 70 requests at once, of which 64 may wait: six are answered with 503")
def crowd(room):
    needs("nginx", "openssl")
    front, statuses = Front(room, replay.free_port(), wait="4s"), []
    try:
        at_once([lambda: statuses.append(front.ask("GET", CUSTODIAL)[0])] * 70)
        same([503] * 6 + [504] * 64, sorted(statuses))
    finally:
        front.end()


def is_let_go(link):
    """Whether nginx ends a connection within some seconds."""
    link.settimeout(6)
    try:
        while link.recv(65536):
            pass
        return True
    except socket.timeout:
        return False
    except OSError:
        return True


@case("nginx: peers that send nothing, half a head and half a body hold nobody up, and are let go")
def halves(room):
    with before(room, new_journal(room)) as (kept, front):
        body = body_of_day(1)
        head = f"POST {COMMANDS} HTTP/1.1\r\nHost: {NAME}\r\nAuthorization: {ACCESS['Authorization']}\r\n"
        whole = head.encode() + b"Content-Type: application/json\r\nContent-Length: %d\r\n\r\n" % len(body) + body
        peers = []
        for given in (b"", whole[:40], whole[:-1], whole[:-len(body)]):
            peers.append(front.plain())
            peers[-1].sendall(given)
        peers.append(socket.create_connection(("127.0.0.1", front.port)))
        began = time.monotonic()
        same((200, EMPTY), front.ask("GET", CUSTODIAL))
        if time.monotonic() - began > 1.9:
            raise AssertionError("held up")
        for peer in peers:
            same(True, is_let_go(peer))
        same(ok(1), front.ask("POST", COMMANDS, body, JSON))
        kept.close()
        same(1, len(reckon.lines_of_journal(read(room, "books.journal"))))


@case("nginx: a client that asks for long reports and never reads holds nobody up, and is let go")
def deaf(room):
    lines = [*boarded(3000), "c0 close 2023-12", "c1 close 2024-01"]
    with before(room, new_journal(room, lines)) as (kept, front):
        peer = front.plain()
        peer.sendall((f"GET /v1/months/2024-01/report HTTP/1.1\r\nHost: {NAME}\r\nAuthorization: "
                      f"{ACCESS['Authorization']}\r\n\r\n").encode() * 50)
        time.sleep(0.3)
        began = time.monotonic()
        status, report = front.ask("GET", "/v1/months/2024-01/report")
        same((200, 3000), (status, report.count(b"\\nline ")))
        same(ok(3004), front.ask("POST", COMMANDS, bodies.body_of("d2 day 2024-02-02"), JSON))
        if time.monotonic() - began > 1.9:
            raise AssertionError("held up")
        time.sleep(3)
        same(True, is_let_go(peer))
        kept.close()


@case("nginx: 17 MB of commands over one connection of a client, which the program alone would cut")
def long_link(room):
    with before(room, new_journal(room)) as (kept, front):
        body = body_of_day(1)
        body = body[:-1] + b" " * (2048 - len(body)) + b"}"
        request = (f"POST {COMMANDS} HTTP/1.1\r\nHost: {NAME}\r\nContent-Type: application/json\r\nAuthorization: "
                   f"{ACCESS['Authorization']}\r\nContent-Length: {len(body)}\r\n\r\n").encode() + body
        count = 17_000_000 // len(request) + 1
        link = front.plain()
        answers = link.makefile("rb")
        for _ in range(count):
            link.sendall(request)
            same(b"HTTP/1.1 200 OK\r\n", answers.readline())
            length = 0
            for line in iter(answers.readline, b"\r\n"):
                name, _, value = line.partition(b": ")
                length = int(value) if name == b"Content-Length" else length
            same(ok(1)[1], answers.read(length))
        link.close()
        kept.close()
        same(1, len(reckon.lines_of_journal(read(room, "books.journal"))))
