#!/usr/bin/env python3
"""Replays the examples and the commands that the documents show, and compares every byte.

    replay.py            with the program that `rt` built (or the one that the variable JAQHENDULU names)
    replay.py --reckon   the texts of examples/ against reckon.py alone; needs no program

Each set of steps runs on a fresh journal in a folder of its own that is removed afterwards. Of every document the
blocks `sh` and `console` are run in one shell, at the top of what stands for a checkout, and pasted there once more: the
second time they print the same, and what stood in the checkout is there as it was. The documents run one after another,
and once more backwards. Standard library alone. Prints a line a step and `N passed, M failed` at its end.
"""
import csv
import io
import json
import os
import re
import shutil
import socket
import subprocess
import sys
import tempfile
import time

HERE = os.path.dirname(os.path.abspath(__file__))
TOP = os.path.dirname(HERE)
sys.path[:0] = [HERE, os.path.join(TOP, "tests")]
import bodies  # noqa: E402
import further  # noqa: E402
import program  # noqa: E402
import reckon  # noqa: E402

# Where documents stand, from the top of the repository.
FOLDERS = [".", "examples", "docs", "docs/guide", "tools", "deploy", "desk"]
MARK = "\x01end of "


class Count:
    """What passed and what failed."""

    def __init__(self):
        self.passed = self.failed = 0

    def compare(self, name, wanted, got):
        if wanted == got:
            self.passed += 1
            print(f"ok      {name}")
            return
        self.failed += 1
        print(f"FAILED  {name}")
        wanted, got = wanted.decode(errors="replace").split("\n"), got.decode(errors="replace").split("\n")
        for at in range(max(len(wanted), len(got))):
            pair = [it[at] if at < len(it) else "(nothing)" for it in (wanted, got)]
            if pair[0] != pair[1]:
                print(f"        line {at + 1}: wanted {pair[0]!r}\n        {'got':>14} {pair[1]!r}")
                break


def read(*path):
    with open(os.path.join(HERE, *path), "rb") as file:
        return file.read()


def steps_of(folder):
    """The words, the input's and the text's file of each line of a file `steps`. A first line `after NAME` puts the
    steps of that folder before them; a first word `@NAME` names another journal than `books`."""
    for line in read(folder, "steps").decode().splitlines():
        words, _, text = line.partition(">")
        words, _, given = words.partition("<")
        words = words.split()
        if words[0] == "after":
            yield from ((it, given and f"../{words[1]}/{given}", "") for it, given, _ in steps_of(words[1]))
        else:
            yield words, given.strip(), text.strip()


def journal_of(words):
    """The journal's name of a step, and the words behind it."""
    return (words[0][1:], words[1:]) if words[0].startswith("@") else ("books", words)


def lines_of_rows(data):
    """The request lines that say what the rows of a CSV file say."""
    for row in list(csv.reader(io.StringIO(data.decode(), newline="")))[1:]:
        key, word, loan, day, amount, line = row
        yield " ".join([key, word, loan, day, amount] + [line] * bool(line))


def reckoned(servicer, words, given):
    """What reckon.py answers to one step."""
    if words[0] == "init":
        return b""
    if words[0] in further.WORDS:
        return further.answer(servicer, words, given).encode()
    if words[0] not in ("apply", "session", "import"):
        return servicer.answer("? " + " ".join(words)).encode()
    if words[0] != "import":
        return "".join(servicer.answer(it) for it in given.decode().splitlines()).encode()
    text = ""
    for row, line in enumerate(lines_of_rows(given), 2):
        said = servicer.answer(line)
        place = int(said[4:]) if said.startswith("bad") else 0
        column = line[:place].count(" ") + 1
        text += f"bad row {row} column {column}\n" if said.startswith("bad") else said
    return text.encode()


def replay_steps(folder, count, built):
    """Runs the steps of a folder with the program, or with reckon.py where there is none."""
    servicers = {}
    with tempfile.TemporaryDirectory() as room:
        for words, given, text in steps_of(folder):
            journal, words = journal_of(words)
            if words[0] in ("session", "init"):
                servicers[journal] = reckon.Servicer()
            given = read(folder, given) if given else b""
            if built:
                ran = subprocess.run([built, f"{room}/{journal}.journal", *words], input=given, capture_output=True)
                got = ran.stdout + ran.stderr
            else:
                got = reckoned(servicers[journal], words, given)
            if text or words[0] == "init":
                wanted = read(folder, text) if text else b""
                count.compare(f"{folder}: {journal} {' '.join(words)} {text}", wanted, got)
        for journal in servicers:
            if os.path.isfile(f"{room}/{journal}.journal"):
                check_journal(folder, count, journal, room)


def check_journal(folder, count, journal, room):
    """Reads the journal's bytes with reckon.py and compares the last custodial line."""
    with open(f"{room}/{journal}.journal", "rb") as file:
        lines = reckon.lines_of_journal(file.read())
    servicer = reckon.Servicer()
    refused = [it for it in lines if not servicer.answer(it.decode()).startswith("ok ")]
    count.compare(f"{folder}: reckon.py accepts each line of {journal}", b"", b"\n".join(refused))
    last = [text for words, _, text in steps_of(folder) if journal_of(words) == (journal, ["custodial"]) and text][-1:]
    for text in last:
        count.compare(f"{folder}: reckon.py's custodial line", read(folder, text), servicer.ask_custodial().encode())


def free_port():
    """A port at which nobody listens now."""
    with socket.socket() as it:
        it.bind(("127.0.0.1", 0))
        return it.getsockname()[1]


def connect(port):
    """A connection to the program, once it listens."""
    for _ in range(500):
        try:
            return socket.create_connection(("127.0.0.1", port), timeout=60)
        except ConnectionRefusedError:
            time.sleep(0.01)
    raise SystemExit("nobody listens")


def requests_of(folder):
    """Method, target, body and the response's file of each line of a file `requests`."""
    for line in read(folder, "requests").decode().splitlines():
        words, _, text = line.partition(">")
        words, _, given = words.partition("<")
        method, target = words.split()
        yield method, target, read(folder, given.strip()) if given else b"", text.strip()


def line_of_request(method, target, body):
    """The request line that says what an HTTP request of the examples says; None where it has no route."""
    if method == "POST":
        members = json.loads(body)
        word = members["do"]
        return " ".join(str(members[it]) for it in ["key", "do"] + bodies.FIELDS[word].split() if it in members)
    for word, path in bodies.PATHS.items():
        found = re.fullmatch("/v1/" + path.replace("{}", "([^/]+)"), target)
        if found:
            return " ".join(["?", word, *found.groups()])
    return None


def reckoned_response(servicer, method, target, body):
    line = line_of_request(method, target, body)
    if line is None:
        return bodies.response_of(404, b"")
    return bodies.response_of(*bodies.reply_of(servicer.answer(line)))


def replay_requests(folder, count, built):
    """Goes on from the quarter's books by HTTP, over one connection."""
    servicer, answers = reckon.Servicer(), []
    with tempfile.TemporaryDirectory() as room:
        for words, given, _ in steps_of("quarter"):
            given = read("quarter", given) if given else b""
            reckoned(servicer, words, given)
            if built:
                subprocess.run([built, f"{room}/books", *words], input=given, capture_output=True, check=True)
        if built:
            port = free_port()
            it = subprocess.Popen([built, f"{room}/books", "serve", str(port), "1"], stdout=subprocess.PIPE)
            link = connect(port)
        for method, target, body, text in requests_of(folder):
            wanted = read(folder, text)
            if built:
                link.sendall(f"{method} {target} HTTP/1.1\r\nHost: a\r\nContent-Length: {len(body)}\r\n\r\n".encode() + body)
                got = b""
                while len(got) < len(wanted) and wanted.startswith(got):
                    got += link.recv(65536) or b"(end)"
            else:
                got = reckoned_response(servicer, method, target, body)
            count.compare(f"{folder}: {method} {target} {text}", wanted, got)
        if built:
            link.close()
            count.compare(f"{folder}: summary", read(folder, "summary.txt"), it.communicate(timeout=60)[0])


def commands_of(block, line):
    """The commands of a block `console`, each with its line's number and what is shown below it."""
    command, shown, at = None, [], 0
    for it in block.splitlines():
        line += 1
        if it.startswith("$ "):
            if command is not None:
                yield at, command, shown
            command, shown, at = it[2:], [], line
        elif it.startswith("> ") and not shown:
            command += "\n" + it[2:]
        else:
            shown.append(it)
    if command is not None:
        yield at, command, shown


def blocks_of(text):
    """What a document has to be run, with its line's number and what is shown below it: each command of a block `console`;
    a block `sh` as a whole, with the block `text` that follows it. One that no text follows shows nothing."""
    for it in re.finditer(r"^```(console|sh)\n(.*?)^```\n(?:\n```text\n(.*?)^```$)?", text, re.S | re.M):
        line = text[:it.start()].count("\n") + 1
        if it[1] == "console":
            yield from commands_of(it[2], line)
        else:
            yield line + 1, it[2].rstrip("\n"), (it[3] or "").splitlines()


def said_in(text):
    """The lines and the replies of a table 'You send'."""
    for table in re.finditer(r"^\| You send \| It answers \|\n\|---\|---\|\n((?:\|.*\n)+)", text, re.M):
        yield re.findall(r"^\| `(.*)` \| `(.*)` \|$", table[1], re.M)


def fits(shown, got):
    """Whether lines are those that are shown, where a line `..` stands for any number of lines."""
    if ".." not in shown:
        return shown == got
    at = shown.index("..")
    if got[:at] != shown[:at]:
        return False
    return any(fits(shown[at + 1:], got[i:]) for i in range(at, len(got) + 1))


def documents():
    """The paths of all documents, from the top of the repository. What CONTRIBUTING.md shows is the gate itself."""
    for folder in FOLDERS:
        for name in sorted(os.listdir(os.path.join(TOP, folder))):
            if name.endswith(".md") and name != "CONTRIBUTING.md":
                yield os.path.normpath(os.path.join(folder, name))


def lay_out(room, built):
    """A folder with what the documents' commands name. Its `rt` runs the built program."""
    for it in ("bin", "temporary", "here/crates/serv_cli/out"):
        os.makedirs(f"{room}/{it}")
    shutil.copytree(HERE, f"{room}/here/examples", ignore=shutil.ignore_patterns("__pycache__"))
    os.symlink(os.path.join(TOP, "tools"), f"{room}/here/tools")
    for place in ("bin/jaqhendulu", "here/crates/serv_cli/out/serv_cli"):
        os.symlink(built, f"{room}/{place}")
    with open(f"{room}/bin/rt", "w", encoding="utf-8") as file:
        file.write('#!/bin/sh\nshift 2\nexec jaqhendulu "$@"\n')
    os.chmod(f"{room}/bin/rt", 0o755)


def files_in(room):
    """What stands in the folder that stands for a checkout: each file's path with its size."""
    there = []
    for folder, _, names in os.walk(f"{room}/here"):
        if not folder.endswith("__pycache__"):
            there += [f"{os.path.join(folder, it)} {os.lstat(os.path.join(folder, it)).st_size}" for it in names]
    return "\n".join(sorted(there)).encode()


def replay_document(name, room, order, count):
    """Runs the commands of a document in one shell, and all of them there once more."""
    with open(os.path.join(TOP, name), encoding="utf-8") as file:
        blocks = list(blocks_of(file.read()))
    if not blocks:
        return
    before, blocks = files_in(room), blocks + blocks
    script = "".join(f"{command}\nprintf '%s\\n' \"{MARK}{at}\"\n" for at, command, _ in blocks)
    env = {"PATH": f"{room}/bin:{room}/.local/bin:{os.environ['PATH']}", "HOME": room, "LC_ALL": "C.UTF-8",
           "TMPDIR": f"{room}/temporary"}
    ran = subprocess.run(["bash", "-c", script], cwd=f"{room}/here", env=env, stdin=subprocess.DEVNULL,
                         stdout=subprocess.PIPE, stderr=subprocess.DEVNULL)
    pieces = re.split(f"{MARK}\\d+\n", ran.stdout.decode(errors="replace"))
    count.compare(f"{order}: {name}: each command ends", b"%d" % len(blocks), b"%d" % (len(pieces) - 1))
    count.compare(f"{order}: {name}: the checkout is as it was", before, files_in(room))
    for (at, command, shown), got in zip(blocks, pieces):
        name_of = f"{order}: {name}:{at}: {command.splitlines()[0][:60]}"
        if fits(shown, got.splitlines()):
            count.compare(name_of, b"", b"")
        else:
            count.compare(name_of, "\n".join(shown).encode(), got.rstrip("\n").encode())


def replay_documents(names, order, count, built):
    """Runs the documents one after another beside one checkout."""
    with tempfile.TemporaryDirectory() as room:
        lay_out(room, built)
        for name in names:
            replay_document(name, room, order, count)


def replay_tables(name, count, built):
    """Sends the lines of a document's tables to a session."""
    with open(os.path.join(TOP, name), encoding="utf-8") as file:
        tables = list(said_in(file.read()))
    for rows in tables:
        given = "".join(f"{line}\n" for line, _ in rows).encode()
        got = subprocess.run([built, "j", "session"], input=given, capture_output=True).stdout
        count.compare(f"{name}: a line and its reply", "".join(f"{reply}\n" for _, reply in rows).encode(), got)


def main():
    built = None if "--reckon" in sys.argv[1:] else program.find()
    count = Count()
    for folder in sorted(os.listdir(HERE)):
        if os.path.isfile(os.path.join(HERE, folder, "steps")):
            replay_steps(folder, count, built)
    if os.path.isfile(os.path.join(HERE, "http", "requests")):
        replay_requests("http", count, built)
    if built:
        there = list(documents())
        replay_documents(there, "forwards", count, built)
        replay_documents(there[::-1], "backwards", count, built)
        for name in there:
            replay_tables(name, count, built)
    print(f"{count.passed} passed, {count.failed} failed")
    return 1 if count.failed else 0


if __name__ == "__main__":
    sys.exit(main())
