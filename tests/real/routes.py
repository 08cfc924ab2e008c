#!/usr/bin/env python3
"""Compares docs/openapi.json with the script that prints it, with docs/HTTP.md, and with what the program answers.

    routes.py [WORD..]    all cases, or those whose names have the words

Standard library alone; `JAQHENDULU` names another program than the one that `rt` built. Prints a line a case and
`N passed, M failed` at its end.
"""
import json
import os
import re
import socket
import sys

from harness import TOP, case, read, run, run_all, same
from serve import Served
import bodies
import openapi
import replay

# Texts that are no value of a kind, and some that are (docs/FORMATS.md), beside the example of the document.
NOT_OF_KIND = {
    "key": ["", "k!", "k k", "k" * 33, "\u00e9"], "number": [-1, 4294967296, 1.5, "1", True, None],
    "amount": ["1", "1.0", "01.00", "-1.00", "1,00", "123456789012.00", 1], "type": ["aa", "A", ""],
    "day": ["2024-2-1", "1989-12-31", "2100-01-01", "2024-13-01", "2024-01-32", "", 20240201],
    "month": ["2024-2", "1989-12", "2100-01", "2024-00", "2024-01-01"], "kind": ["Tax", "rent", ""],
    "surplus": ["keep", "", None], "part": ["spread", "spread:", "spread:01", "within", ""], "rest": ["Escrow", "", "-"],
}
OF_KIND = {
    "key": ["k", "A.b_c:d-9", "k" * 32], "number": [0, 4294967295], "amount": ["0.00", "99999999999.99"],
    "day": ["1990-01-01", "2099-12-31"], "month": ["1990-01", "2099-12"], "type": ["AA", "SA", "SS"],
    "kind": ["tax", "hazard", "flood", "other"], "surplus": ["-", "refund", "credit", "retain"],
    "part": ["-", "leave", "within30", "spread:0", "spread:4294967295"], "rest": ["principal", "escrow"],
}
NOT_IN_PATHS = {
    "key": ["k!", "k" * 33, "%6B"], "number": ["-1", "4294967296", "1.5", "01", "%31", "x"],
    "day": ["2024-2-1", "1989-12-31", "2100-01-01", "2024-02-30"], "month": ["2024-2", "1989-12", "2024-13"],
}


def the_document():
    return json.loads(read(TOP, "docs", "openapi.json"))


def is_type(name, value):
    """Whether a JSON value is of one of the types that the document names."""
    if name == "integer":
        return isinstance(value, int) and not isinstance(value, bool)
    return isinstance(value, {"object": dict, "string": str}[name])


def fits(schema, value, every):
    """Whether a value is one of a schema's, as JSON Schema has it, for the words that the document uses."""
    if "$ref" in schema:
        return fits(every[schema["$ref"].rpartition("/")[2]], value, every)
    if "oneOf" in schema:
        return sum(fits(it, value, every) for it in schema["oneOf"]) == 1
    unknown = set(schema) - {"type", "pattern", "enum", "const", "minimum", "maximum", "properties", "required",
                             "additionalProperties", "description", "example", "format", "discriminator"}
    assert not unknown, unknown
    if "type" in schema and not is_type(schema["type"], value):
        return False
    if value not in schema.get("enum", [value]) or value != schema.get("const", value):
        return False
    if isinstance(value, str):
        return re.search(schema.get("pattern", ""), value) is not None
    if isinstance(value, int):
        return schema.get("minimum", value) <= value <= schema.get("maximum", value)
    members = schema.get("properties", {})
    return (isinstance(value, dict) and set(schema.get("required", [])) <= set(value) <= set(members)
            and all(fits(members[it], value[it], every) for it in value))


class Documented:
    """The program over a quarter's books, whose answers have to be those of the document."""

    def __init__(self, room, links):
        path = os.path.join(room, "books")
        for words, given, _ in replay.steps_of("quarter"):
            run(path, *words, given=replay.read("quarter", given) if given else b"")
        self.document = the_document()
        self.every = self.document["components"]["schemas"]
        self.served = Served(room, links)

    def link(self):
        """A connection that sends a request's head and body at once."""
        link = self.served.link()
        link.sock.setsockopt(socket.IPPROTO_TCP, socket.TCP_NODELAY, 1)
        return link

    def ask(self, link, method, path, target, body=b""):
        """Sends a request: its status and value. Both are ones that the document has for the route."""
        status, got = bodies.ask(link, method, target, body)
        said = self.document["paths"][path][method.lower()]["responses"]
        assert str(status) in said, (target, body, status)
        content = said[str(status)].get("content")
        same(content is not None, bool(got), (target, status))
        value = json.loads(got) if got else None
        if content:
            assert fits(content["application/json"]["schema"], value, self.every), (target, got)
        return status, value


def plain_example(schema, every):
    """An example of a schema: its own, or made of those of its members."""
    if "$ref" in schema:
        return plain_example(every[schema["$ref"].rpartition("/")[2]], every)
    if "properties" in schema:
        return {name: plain_example(it, every) for name, it in schema["properties"].items()}
    return schema.get("example", schema.get("const", schema.get("enum", [None])[0]))


@case("routes: docs/openapi.json is what examples/openapi.py prints")
def printed(room):
    same((json.dumps(openapi.document(), indent=1) + "\n").encode(), read(TOP, "docs", "openapi.json"))


@case("routes: the document and docs/HTTP.md have the same routes")
def same_routes(room):
    text = read(TOP, "docs", "HTTP.md").decode()
    told = set(re.findall(r"^\| `(GET|POST) (/v1\S*)` \|", text, re.M))
    same(told, {(method.upper(), path) for path, it in the_document()["paths"].items() for method in it})


@case("routes: values of each kind fit its schema, and others do not")
def kinds(room):
    every = the_document()["components"]["schemas"]
    same(set(openapi.KINDS), set(OF_KIND))
    for kind in OF_KIND:
        for value in OF_KIND[kind] + [plain_example(every[kind], every)]:
            assert fits(every[kind], value, every), (kind, value)
        for value in NOT_OF_KIND[kind]:
            assert not fits(every[kind], value, every), (kind, value)


@case("routes: each query is answered as the document says, or refused, or a part of its path is not of its kind")
def queries(room):
    it = Documented(room, 1)
    link, seen = it.link(), set()
    for word in bodies.PATHS:
        path, parts = openapi.path_of(word), openapi.parts_of(word)
        for loan, number, key in ((101, 40, "off-105"), (999, 999999, "off-999")):
            values = {"loan": loan, "number": number, "day": "2024-03-01", "period": "2024-02", "key": key}
            status, _ = it.ask(link, "GET", path, path.format(**values))
            seen.add((word, status))
        for name, kind in parts:
            for value in OF_KIND[kind]:
                assert it.ask(link, "GET", path, path.format(**{**values, name: value}))[0] in (200, 409)
            for value in NOT_IN_PATHS[kind]:
                same(400, it.ask(link, "GET", path, path.format(**{**values, name: value}))[0], (path, value))
    for word in bodies.PATHS:
        assert (word, 200) in seen, word
    for word in ("books", "at", "payoff", "escrow", "rows", "loan", "history", "quote", "arrears", "command", "key"):
        assert (word, 409) in seen, word


@case("routes: each command's body is a request exactly where its schema fits it")
def commands(room):
    it = Documented(room, 1)
    link, path = it.link(), "/v1/commands"
    for word in bodies.FIELDS:
        schema = it.every[f"do-{word}"]
        plain = {name: plain_example(member, it.every) for name, member in schema["properties"].items()}
        tried = [plain, {**plain, "more": 1}, {**plain, "do": word + "s"}]
        tried += [{other: value for other, value in plain.items() if other != name} for name in plain]
        for name, member in schema["properties"].items():
            kind = member.get("$ref", "").rpartition("/")[2]
            tried += [{**plain, name: value} for value in OF_KIND.get(kind, []) + NOT_OF_KIND.get(kind, [])]
        for number, body in enumerate(tried):
            if fits(it.every["key"], body.get("key"), it.every) and body["key"] == plain["key"]:
                body = {**body, "key": f"{word}-{number}"}
            status, _ = it.ask(link, "POST", path, path, json.dumps(body).encode())
            same(fits(it.every["command"], body, it.every), status in (200, 409), body)


@case("routes: another method is answered with 405 and the one of the document, another path with 404")
def methods(room):
    it = Documented(room, 1)
    link = it.link()
    values = {"loan": 101, "number": 1, "day": "2024-03-01", "period": "2024-02", "key": "k"}
    for path, operations in it.document["paths"].items():
        target, (allowed,) = path.format(**values), operations
        for method in ("GET", "POST", "PUT", "DELETE"):
            if method.lower() == allowed:
                continue
            link.request(method, target, None, {"Content-Length": "0"})
            got = link.getresponse()
            same((405, allowed.upper(), b""), (got.status, got.getheader("Allow"), got.read()), (method, target))
        same((404, b""), bodies.ask(link, "GET", target + "/more/of/it"), target)


@case("routes: 411, 413 and 431 come of every route")
def ending(room):
    document = the_document()
    requests = [("Transfer-Encoding: chunked", 411), ("Content-Length: 2049", 413), ("A: " + "a" * 8192, 431),
                ("Content-Length: 1x", 400)]
    it = Documented(room, len(requests) * len(document["paths"]))
    values = {"loan": 101, "number": 1, "day": "2024-03-01", "period": "2024-02", "key": "k"}
    for path, operations in document["paths"].items():
        (method, said), = operations.items()
        for line, status in requests:
            link = it.served.plain()
            link.sendall(f"{method.upper()} {path.format(**values)} HTTP/1.1\r\n{line}\r\n\r\n".encode())
            got = b""
            while piece := link.recv(65536):
                got += piece
            link.close()
            same(b"HTTP/1.1 %d " % status, got[:13], (path, line))
            assert str(status) in said["responses"], (path, status)


@case("routes: the refusals of the document are those of docs/REFUSALS.md, from 1 to 28")
def refusals(room):
    code = the_document()["components"]["schemas"]["refused"]["properties"]["code"]
    same(list(range(1, 29)), code["enum"])
    for each, name in openapi.refusals().items():
        assert f"{each} {name}" in code["description"].split("; "), each


if __name__ == "__main__":
    sys.exit(run_all(["routes:", *sys.argv[1:]]))  # serve.py's cases are its own
