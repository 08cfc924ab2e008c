"""JSON bodies of commands and the paths of queries, from their lines; a plain client over one connection."""
import http.client
import json

from spellings import COMMANDS

DATED = "loan day amount"
FIELDS = {
    "day": "day", "pay": DATED + " designation", "curtail": DATED, "payoff": DATED, "deposit": DATED,
    "board": "loan day principal rate fee pi term first grace late cushion escrow type",
    "disburse": DATED + " line", "refund": "loan amount", "waive": "loan amount", "reverse": "loan number",
    "line": "loan line kind month every amount", "drop": "loan line", "analyse": "loan surplus short deficient",
    "close": "period", "remit": "period", "retype": "loan period type",
}
PATHS = {
    "books": "loans/{}/books", "at": "loans/{}/books/{}", "payoff": "loans/{}/payoff/{}", "escrow": "loans/{}/escrow",
    "report": "months/{}/report", "trial": "months/{}/trial", "custodial": "custodial", "rows": "rows/{}",
    "loan": "loans/{}", "history": "loans/{}/history", "quote": "loans/{}/quote/{}", "arrears": "loans/{}/arrears",
    "aging": "aging", "status": "status", "command": "commands/{}", "key": "keys/{}",
}


def body_of(line):
    """The JSON body of a command's line."""
    key, word, *values = line.split(" ")
    members = {"key": key, "do": word}
    kinds = COMMANDS[word].split() + ["rest"]
    for name, kind, value in zip(FIELDS[word].split(), kinds, values):
        members[name] = int(value) if kind == "number" else value
    return json.dumps(members, separators=(",", ":")).encode()


def request_of(line):
    """Method, target and body of a request's line."""
    words = line.split(" ")
    if words[0] != "?":
        return "POST", "/v1/commands", body_of(line)
    return "GET", "/v1/" + PATHS[words[1]].format(*words[2:]), b""


def reply_of(text):
    """The status and the body of the response whose reply is a text."""
    code = int(text.split()[1]) if text.startswith("no ") else 0
    members = {"code": code}
    if text.startswith("ok "):
        members["number"] = int(text.split()[1])
    members["text"] = text.rstrip("\n")
    return 409 if code else 200, json.dumps(members, separators=(",", ":")).encode()


def response_of(status, body):
    """All bytes of a response that does not end the connection."""
    phrase = {200: "OK", 404: "Not Found", 409: "Conflict"}[status]
    kind = "Content-Type: application/json\r\n" if body else ""
    return f"HTTP/1.1 {status} {phrase}\r\nContent-Length: {len(body)}\r\n{kind}\r\n".encode() + body


def ask(link, method, target, body=b""):
    """Sends a request over an open `http.client` connection: its status and body."""
    link.request(method, target, body or None)
    got = link.getresponse()
    return got.status, got.read()


def link_to(port, seconds=60):
    """A connection to a port of this machine."""
    return http.client.HTTPConnection("127.0.0.1", port, timeout=seconds)
