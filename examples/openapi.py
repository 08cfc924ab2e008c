#!/usr/bin/env python3
"""Prints the OpenAPI document of the program's routes, from the tables of bodies.py and spellings.py.

    openapi.py > ../docs/openapi.json

`tests/real/routes.py` sees that docs/openapi.json is what is printed, and that the program answers as it says. Refusals
are those of docs/REFUSALS.md.
"""
import json
import os
import re

from bodies import FIELDS, PATHS
from spellings import COMMANDS, QUERIES

TOP = os.path.dirname(os.path.dirname(os.path.abspath(__file__)))
REFUSALS = os.path.join(TOP, "docs", "REFUSALS.md")
USAGE = os.path.join(TOP, "crates", "serv_cli", "src", "usage.rt")

# What a value of each kind is in JSON, as docs/FORMATS.md spells it, with an example.
DAY = r"^(199[0-9]|20[0-9]{2})-(0[1-9]|1[0-2])-(0[1-9]|[12][0-9]|3[01])$"
KINDS = {
    "key": {"type": "string", "pattern": "^[A-Za-z0-9._:-]{1,32}$", "example": "check-4711"},
    "number": {"type": "integer", "minimum": 0, "maximum": 4294967295, "example": 1},
    "amount": {"type": "string", "pattern": r"^(0|[1-9][0-9]{0,10})\.[0-9]{2}$", "example": "1199.10"},
    "day": {"type": "string", "format": "date", "pattern": DAY, "example": "2024-02-01"},
    "month": {"type": "string", "pattern": r"^(199[0-9]|20[0-9]{2})-(0[1-9]|1[0-2])$", "example": "2024-02"},
    "type": {"type": "string", "enum": ["AA", "SA", "SS"]},
    "kind": {"type": "string", "enum": ["tax", "hazard", "flood", "other"]},
    "surplus": {"type": "string", "enum": ["-", "refund", "credit", "retain"]},
    "part": {"type": "string", "pattern": "^(-|leave|within30|spread:(0|[1-9][0-9]{0,9}))$", "example": "spread:12"},
    "rest": {"type": "string", "enum": ["principal", "escrow"]},
}
WHAT_COMMANDS_DO = {
    "day": "sets the business day", "board": "takes a loan on", "pay": "books a payment",
    "curtail": "pays principal alone", "payoff": "pays the loan off", "deposit": "pays into escrow",
    "disburse": "pays a bill of an escrow line", "refund": "pays out to the borrower", "waive": "gives up late charges",
    "reverse": "takes back the entry of a command", "line": "sets an escrow line", "drop": "takes an escrow line away",
    "analyse": "analyses escrow and settles it", "close": "closes a month",
    "remit": "sends the investor a closed month", "retype": "remits a loan otherwise from a month on",
}
WHAT_QUERIES_ASK = {
    "books": "a loan's books on the business day", "at": "its books on a day", "payoff": "what pays it off on a day",
    "escrow": "what an escrow analysis would find", "report": "the report of a closed month",
    "trial": "the balances of that report", "custodial": "the custodial accounts",
    "rows": "the custodial rows of a command", "loan": "a loan's terms, escrow lines and changes of remittance type",
    "history": "what each event did to a loan, up to the business day",
    "quote": "what pays it off on a day, also on a later one", "arrears": "what brings it current",
    "aging": "who is late, and how many loans are how late",
    "status": "the business day, and where months and counts stand",
    "command": "an accepted command and the reply to it, by its number", "key": "the same, by its key",
}
EMPTY = {
    "400": "the body is no request, or a part of the path is not of its form", "404": "no route matches",
    "405": "the route has another method, which Allow names", "411": "no Content-Length, or a Transfer-Encoding",
    "413": "Content-Length is above 2,048", "431": "the head is too long", "500": "the disk failed",
    "503": "memory was short",
}


def refusals():
    """The names of the refusals by their codes, as docs/REFUSALS.md has them."""
    with open(REFUSALS, encoding="utf-8") as file:
        return {int(code): name for code, name in re.findall(r"^\| (\d+) \| (\w+)", file.read(), re.M)}


def version():
    with open(USAGE, encoding="utf-8") as file:
        return re.search(r"\d+\.\d+\.\d+", file.read())[0]


def parts_of(word):
    """The names of the parts of a query's path, each with its kind."""
    names = {"number": "loan" if PATHS[word].startswith("loans") else "number", "month": "period"}
    return [(names.get(kind, kind), kind) for kind in QUERIES[word].split()]


def path_of(word):
    return "/v1/" + PATHS[word].format(*("{%s}" % name for name, _ in parts_of(word)))


def ref(name):
    return {"$ref": f"#/components/schemas/{name}"}


def body_of(word):
    """The schema of a command's body."""
    kinds = COMMANDS[word].split() + ["rest"]
    fields = dict(zip(FIELDS[word].split(), map(ref, kinds)))
    needed = [it for it in fields if it != "designation"]
    return {"type": "object", "description": WHAT_COMMANDS_DO[word], "additionalProperties": False,
            "required": ["key", "do", *needed], "properties": {"key": ref("key"), "do": {"const": word}, **fields}}


def reply(*members):
    """The schema of a reply's body."""
    every = {"code": {"type": "integer", "minimum": 0, "maximum": max(refusals())},
             "number": {"type": "integer", "minimum": 1}, "text": {"type": "string"}}
    return {"type": "object", "additionalProperties": False, "required": list(members),
            "properties": {it: every[it] for it in members}}


def refused():
    """The schema of a refusal's body: its code, with the name of each."""
    names = "; ".join(f"{code} {name}" for code, name in sorted(refusals().items()))
    schema = reply("code", "text")
    schema["properties"] = {"code": {"enum": sorted(refusals()), "description": names},
                            "text": {"type": "string", "pattern": "^no [0-9]+ [A-Za-z]+"}}
    return schema


def responses(schema, *empty):
    """The responses of a route: those with a body and the others."""
    def with_body(said, name):
        return {"description": said, "content": {"application/json": {"schema": ref(name)}}}

    both = {"200": with_body("answered", schema), "409": with_body("refused", "refused")}
    return {**both, **{it: {"description": EMPTY[it]} for it in empty}}


def post():
    """The operation of all commands."""
    return {"operationId": "command", "summary": "a command: what it says is booked once under its key",
            "requestBody": {"required": True, "content": {"application/json": {"schema": ref("command")}}},
            "responses": responses("accepted", "400", "411", "413", "431", "500", "503")}


def get(word):
    """The operation of a query."""
    parts = [{"name": name, "in": "path", "required": True, "schema": ref(kind)} for name, kind in parts_of(word)]
    asks = {"operationId": word, "summary": WHAT_QUERIES_ASK[word]}
    return {**asks, **({"parameters": parts} if parts else {}),
            "responses": responses("answered", "400", "411", "413", "431", "503")}


def document():
    """The whole document."""
    commands = {f"do-{word}": body_of(word) for word in COMMANDS}
    every = {"oneOf": [ref(it) for it in commands], "discriminator": {
        "propertyName": "do", "mapping": {it[3:]: ref(it)["$ref"] for it in commands}}}
    schemas = {**KINDS, **commands, "command": every, "accepted": reply("code", "number", "text"),
               "answered": reply("code", "text"), "refused": refused()}
    info = {"title": "Jaqhendulu", "version": version(), "description":
            "The routes of `serve`. docs/HTTP.md has the order in which statuses are tested and which of "
            "them end the connection, docs/FORMATS.md the texts. A path that is not here is answered with 404, another "
            "method with 405."}
    paths = {"/v1/commands": {"post": post()}, **{path_of(word): {"get": get(word)} for word in PATHS}}
    return {"openapi": "3.1.0", "info": info, "servers": [{"url": "/"}], "paths": paths,
            "components": {"schemas": schemas}}


if __name__ == "__main__":
    print(json.dumps(document(), indent=1))
