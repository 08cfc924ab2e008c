#!/usr/bin/env python3
"""Reads a journal without the program, by docs/JOURNAL.md, and compares a backup with it.

    verify.py books.journal
    verify.py books.journal backup.journal
    verify.py --lines books.journal

The first says the version, the records, the commands by their words, the last key and the length, and what stands
behind the end; the second too how many commands the journal is ahead of the backup, of which it must be the
continuation; --lines writes each command with its number. The status is 0 where all is well, 1 where a file is no
journal, is damaged, has a record behind its end or does not go on from the backup, and 2 where it cannot be read.

That each command is accepted after those before it is not looked at: the program does, whenever it opens the file.
"""
import argparse
import collections
import re
import struct
import sys

VERSION_1, VERSION_2 = b"MSRVJ001", b"MSRVJ002"
WORDS = ["day", "board", "pay", "curtail", "payoff", "deposit", "disburse", "refund", "waive", "reverse", "line",
         "drop", "analyse", "close", "remit", "retype"]
# The version of the records, their lines and places, the place of the commit byte that ends them, the file's size.
Journal = collections.namedtuple("Journal", "version lines places end size")


class Damaged(Exception):
    """A place at which a file is no journal, and why."""


# Reading

def record_1(data, at):
    """The line of a record of version 1 whose commit byte stands here, and the place after it."""
    if len(data) < at + 3:
        raise Damaged(f"{at}: the file ends in a record's length")
    return line_of(data, at, at + 3, struct.unpack_from(">H", data, at + 1)[0])


def record_2(data, at, number):
    """The same of version 2, of the record with this number."""
    if len(data) < at + 7:
        raise Damaged(f"{at}: the file ends in a record's number or length")
    found, length = struct.unpack_from(">IH", data, at + 1)
    if found != number:
        raise Damaged(f"{at}: a record has the number {found} in the place of {number}")
    return line_of(data, at, at + 7, length)


def line_of(data, at, start, length):
    """So many bytes from there on, for the record here."""
    if not 1 <= length <= 512:
        raise Damaged(f"{at}: a line has the length {length}")
    if len(data) < start + length:
        raise Damaged(f"{at}: the file ends in a line")
    return data[start:start + length], start + length


def is_mark(data, at):
    """Whether the commit byte here ends a part of version 1 that was upgraded."""
    return data[at] != 0 and data[at + 1:at + 9] == VERSION_2


def read_journal(data):
    """The journal that these bytes are."""
    version = {VERSION_1: 1, VERSION_2: 2}.get(data[:8])
    if version is None:
        raise Damaged("0: the header is that of no journal")
    at, lines, places = 8, [], []
    while True:
        if at >= len(data):
            raise Damaged(f"{at}: the file ends where a commit byte is due")
        if version == 1 and is_mark(data, at):
            version, at, lines, places = 2, at + 9, [], []
            continue
        if data[at] != 1:
            return Journal(version, lines, places, at, len(data))
        line, after = record_1(data, at) if version == 1 else record_2(data, at, len(lines) + 1)
        lines.append(line)
        places.append(at)
        at = after


def check_lines(journal):
    """The words of the commands, and their keys, of which none may come twice."""
    keys, words = {}, collections.Counter()
    for number, (line, at) in enumerate(zip(journal.lines, journal.places), 1):
        found = re.fullmatch(rb"([A-Za-z0-9._:-]{1,32}) ([a-z]+) [ -~]+", line)
        if not found or found[2].decode() not in WORDS:
            raise Damaged(f"{at}: the line of record {number} is no command's")
        key = found[1].decode()
        if keys.setdefault(key, number) != number:
            raise Damaged(f"{at}: the key {key} of record {number} is that of record {keys[key]}")
        words[found[2].decode()] += 1
    return list(keys), words


def behind(data, journal):
    """How many well-formed records stand behind the end, where the next would stand, and whether an upgrade does."""
    at, count = journal.end, 0
    if journal.version == 1 and data[at + 1:at + 9] == VERSION_2:
        return 0, True
    while at < len(data) and (count == 0 or data[at] == 1):
        try:
            number = len(journal.lines) + count + 1
            line, at = record_1(data, at) if journal.version == 1 else record_2(data, at, number)
        except Damaged:
            break
        if not re.match(rb"[A-Za-z0-9._:-]{1,32} [a-z]+ ", line):
            break
        count += 1
    return count, False


# The text

WHY = ["a command that was being written when the system stopped, or that a rule refused, so that it is not in the books; "
       "or the commit byte at the end was changed, and an answered command is lost: compare with a backup",
       "the commit byte at the end was changed, and answered commands are cut off: keep the file, and compare with a "
       "backup"]


def described(name, data, journal):
    """What is said of a journal, and whether all is well."""
    keys, words = check_lines(journal)
    yield f"journal {name}"
    yield f"version {journal.version} records {len(journal.lines)} length {journal.end + 1}"
    yield "commands " + (" ".join(f"{word} {words[word]}" for word in WORDS if words[word]) or "-")
    yield f"last key {keys[-1] if keys else '-'}"
    rest = journal.size - journal.end - 1 if any(data[journal.end + 1:]) else 0
    count, is_upgrade = behind(data, journal)
    if is_upgrade:
        yield f"behind the end {rest} bytes: an upgrade that was not finished"
    elif rest and not count:
        yield f"behind the end {rest} bytes, none of them a record"
    if count:
        yield f"WARNING behind the end {rest} bytes with {count} well-formed records: " + WHY[count > 1]


def compared(lines, older):
    """What is said of a journal's lines and a backup's, and whether the one goes on from the other."""
    same = next((at for at, (a, b) in enumerate(zip(lines, older)) if a != b), min(len(lines), len(older)))
    if same < min(len(lines), len(older)):
        yield f"WARNING the files differ from command {same + 1} on"
    elif len(older) > len(lines):
        yield f"WARNING the backup has {len(older) - len(lines)} commands that the journal lacks, from {same + 1} on"
    elif len(older) == len(lines):
        yield "the backup has all commands"
    else:
        key = lines[same].split(b" ")[0].decode("latin-1")
        yield f"the backup is {len(lines) - len(older)} commands behind, from {same + 1}, key {key}, on"


def words_of(arguments):
    """What the command line says."""
    it = argparse.ArgumentParser(description=__doc__, formatter_class=argparse.RawDescriptionHelpFormatter)
    it.add_argument("journal")
    it.add_argument("backup", nargs="?")
    it.add_argument("--lines", action="store_true", help="write each command with its number, and nothing else")
    asked = it.parse_args(arguments)
    if asked.lines and asked.backup:
        it.error("--lines takes one journal")
    return asked


def texts(asked):
    """The lines that are written."""
    journals = []
    for name in [asked.journal] + [asked.backup] * (asked.backup is not None):
        with open(name, "rb") as file:
            data = file.read()
        try:
            journals.append(read_journal(data))
            said = list(described(name, data, journals[-1]))
        except Damaged as why:
            yield f"WARNING {name} is damaged at {why}"
            return
        yield from (it for it in said if not asked.lines or it.startswith("WARNING "))
    if asked.lines:
        yield from (f"{number} {line.decode()}" for number, line in enumerate(journals[0].lines, 1))
    if asked.backup is not None:
        yield from compared(journals[0].lines, journals[1].lines)


def main():
    asked, status = words_of(sys.argv[1:]), 0
    try:
        for line in texts(asked):
            is_warning = line.startswith("WARNING ")
            print(line, file=sys.stderr if is_warning and asked.lines else sys.stdout)
            status = 1 if is_warning else status
    except OSError as error:
        print(error, file=sys.stderr)
        return 2
    return status


if __name__ == "__main__":
    sys.exit(main())
