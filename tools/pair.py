#!/usr/bin/env python3
"""Puts what was sent and what was answered side by side, with what a refusal means.

    pair.py apply sent.lines replies
    pair.py import payments.csv replies

Each line (or row) of the input is written with its number, its key and its reply; under a refusal stands what
docs/REFUSALS.md says of it. The last line counts them. The status is 0 where all were accepted or answered, 1 where
any was refused, was bad or has no reply, and 2 where the replies are not those of this input.
"""
import argparse
import collections
import csv
import io
import os
import re
import sys

REFUSALS = os.path.join(os.path.dirname(os.path.dirname(os.path.realpath(__file__))), "docs", "REFUSALS.md")
HEADER = ["key", "do", "loan", "day", "amount", "line"]
# The queries whose reply goes on to a line `end`.
LONG = ["report", "trial", "rows", "escrow", "loan", "history", "aging", "command", "key"]
Item = collections.namedtuple("Item", "place key said query")


class Mismatch(Exception):
    """The replies are not those of this input."""


# What was sent

def lines_of(data):
    """The lines of an input of `apply`."""
    lines = data.decode("latin-1").split("\n")
    for number, line in enumerate(lines if lines[-1] else lines[:-1], 1):
        key, _, said = line.partition(" ")
        query = said.split(" ")[0] if key == "?" else None
        yield Item(f"line {number}", key, said, query)


def rows_of(data):
    """The rows of an input of `import` below its header, as docs/CSV.md counts them."""
    text = data.decode("utf-8-sig", "surrogateescape")
    rows = [it for it in csv.reader(io.StringIO(text, newline="")) if it]
    if not rows or rows[0] != HEADER:
        yield Item("row 1", ",".join(rows[0]) if rows else "", "", None)
        return
    for number, row in enumerate(rows[1:], 2):
        said = " ".join(row[1:]).rstrip(" ")
        yield Item(f"row {number}", row[0], said, None)


# What was answered

def replies_of(items, replies):
    """The first line of each item's reply, and how many more it has; None where the replies end before it does."""
    at = 0
    for item in items:
        if at == len(replies):
            yield item, None, 0
            continue
        first, began = replies[at], at
        if not fits(item, first):
            raise Mismatch(f"{item.place}: {first!r} is no reply to it")
        at += 1
        if item.query in LONG and not re.match("(no|bad) ", first):
            while at < len(replies) and replies[at] != "end":
                at += 1
            if at == len(replies):
                yield item, None, 0
                continue
            at += 1
        yield item, first, at - began - 1
    if at < len(replies):
        raise Mismatch(f"there are replies after the last one: {replies[at]!r}")


def fits(item, reply):
    """Whether a line may begin the reply to this item."""
    if reply.startswith("bad "):
        place = "[0-9]+" if item.place.startswith("line ") else f"{item.place} column [1-7]"
        return bool(re.fullmatch(f"bad {place}", reply))
    if item.query is None:
        return bool(re.match("(ok|no) [0-9]", reply))
    word = {"key": "command", "at": "books"}.get(item.query, item.query)
    return reply.startswith((f"{word} ", "no "))


# In words

def meanings_of(text):
    """What docs/REFUSALS.md says of a code and name, or of the value of one: why, and what to do."""
    found, under = {}, ""
    for line in text.splitlines():
        heading = re.match(r"## .*\(`(\w+)`\)", line)
        under = heading[1] if heading else "" if line.startswith("## ") else under
        cells = [it.strip() for it in line.strip("|").split("|")] if line.startswith("|") else []
        if len(cells) == 5 and cells[0].isdigit():
            found[f"{cells[0]} {cells[1]}"] = f"{cells[3]}; {cells[4]}"
        elif under and len(cells) > 1:
            for value in re.findall(r"`([0-9]+ [^`]+)`", cells[0]):
                found[f"{under} {value}"] = "; ".join(cells[1:])
    return found


def meaning_of(reply, meanings):
    """What the rules say of a refusal: the longest entry that its text begins with."""
    words = reply.split(" ")[1:]
    for start in (1, 0):
        for end in range(len(words), start, -1):
            found = meanings.get(" ".join(words[start:end]))
            if found:
                return found
    raise Mismatch(f"{reply!r} is no refusal of docs/REFUSALS.md")


def fault_of(item, reply):
    """Where a line or a row goes wrong, in words."""
    place = int(reply.split(" ")[-1])
    if item.place == "row 1":
        return "the first row is not " + ",".join(HEADER)
    if item.place.startswith("row "):
        return f"the field {HEADER[place - 1]} does not fit" if place <= 6 else "the row has not six fields"
    line = f"{item.key} {item.said}" if item.said or place > len(item.key) else item.key
    if place >= 512 and len(line) > 512:
        return "the line is longer than 512 bytes"
    if place >= len(line):
        return "a word is missing at the end"
    word = line[place:].split(" ")[0]
    return f"the word {word!r} does not fit" if word else "there is a space too many"


def written(item, reply, more, meanings):
    """The lines that stand for an item, without what it said: the reply, and what it means."""
    if reply is None:
        return "(no reply)", "the run ended before: send the whole input again"
    if reply.startswith("no "):
        return reply, meaning_of(reply, meanings)
    if reply.startswith("bad "):
        return reply, fault_of(item, reply)
    return reply + (f" .. and {more} lines" if more else ""), ""


def pair(items, replies, meanings):
    """A row for each item: its place, its key, what it said, the reply and what it means."""
    return [(item.place, item.key, item.said, *written(item, reply, more, meanings))
            for item, reply, more in replies_of(items, replies)]


# The text

def shown(text):
    """A text without what a terminal would take for more than text."""
    return "".join(it if it.isprintable() else "?" for it in text)


def as_text(rows):
    """The rows with columns in line, the meaning below."""
    widths = [max((len(it[at]) for it in rows), default=0) for at in range(3)]
    for row in rows:
        columns = [shown(it).ljust(min(width, 60)) for it, width in zip(row, widths)]
        yield "  ".join([*columns, shown(row[3])]).rstrip()
        if row[4]:
            yield " " * (widths[0] + 2) + shown(row[4])


def counted(rows):
    """How many of each answer there are."""
    words = collections.Counter(reply.split(" ")[0] for _, _, _, reply, _ in rows)
    refused, bad, missing = words.pop("no", 0), words.pop("bad", 0), words.pop("(no", 0)
    accepted = words.pop("ok", 0)
    return (f"{len(rows)} sent: {accepted} ok, {sum(words.values())} answered, {refused} refused, {bad} bad, "
            f"{missing} without a reply"), refused + bad + missing


def words_of(arguments):
    """What the command line says."""
    it = argparse.ArgumentParser(description=__doc__, formatter_class=argparse.RawDescriptionHelpFormatter)
    it.add_argument("word", choices=["apply", "import"], help="what the input was given to")
    it.add_argument("sent", help="the file of lines, or of rows")
    it.add_argument("replies", help="the file of replies")
    it.add_argument("--csv", action="store_true", help="as CSV for a spreadsheet, without the count")
    it.add_argument("--refusals", default=REFUSALS, metavar="FILE", help="where docs/REFUSALS.md lies")
    return it.parse_args(arguments)


def read(path):
    with open(path, "rb") as file:
        return file.read()


def main():
    asked = words_of(sys.argv[1:])
    try:
        sent = read(asked.sent)
        items = list(lines_of(sent) if asked.word == "apply" else rows_of(sent))
        replies = read(asked.replies).decode("latin-1").split("\n")[:-1]
        meanings = meanings_of(read(asked.refusals).decode())
        rows = pair(items, replies, meanings)
    except (OSError, csv.Error, Mismatch) as error:
        print(error, file=sys.stderr)
        return 2
    text, wrong = counted(rows)
    if asked.csv:
        out = csv.writer(sys.stdout, lineterminator="\n")
        out.writerow(["place", "key", "sent", "reply", "meaning"])
        out.writerows([shown(it) for it in row] for row in rows)
    else:
        print(*as_text(rows), text, sep="\n")
    return 1 if wrong else 0


if __name__ == "__main__":
    sys.exit(main())
