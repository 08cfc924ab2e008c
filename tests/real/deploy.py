#!/usr/bin/env python3
"""Tests of what stands around the program (deploy/): nginx, the units of systemd, the package, job files.

    deploy.py [WORD..]    all cases, or those whose names have the words

Standard library alone. A case that needs programs that are not there is skipped by their names; deploy/README.md has
the line that installs them. `JAQHENDULU` names another program than the one that `rt` built. Prints a line a case and
`N passed, M failed` at its end.
"""
import contextlib
import functools
import http.client
import os
import re
import signal
import subprocess
import sys
import tempfile
import threading
import time

from beside import (COMMANDS, DEPLOY, PLACES, Kept, at_once, boarded, body_of_day, changed, generate, needs, ok,
                    start_words, text_of)
from harness import TOP, Skipped, case, read, run, run_all, same, write
import bodies
import deploy_nginx  # noqa: F401, whose cases are run too
import program
import reckon
import replay

# The units

SETTINGS = dict(re.findall(r"^(\w+)=(.*)$", text_of("systemd", "books.conf"), re.M))
UNITS = ("jaqhendulu@.service", "jaqhendulu-day@.service", "jaqhendulu-backup@.service", "jaqhendulu-day@.timer",
         "jaqhendulu-backup@.timer")


def programs_in(text):
    """A text with the programs of this repository in the places of those that the package installs."""
    return text.replace("/usr/bin/jaqhendulu", program.find()).replace(
        "/usr/libexec/jaqhendulu", os.path.join(DEPLOY, "libexec"))


def unit(name, instance, root, **settings):
    """The words that an instance of a unit starts, its folders under another root, and the folder where it starts."""
    text = programs_in(text_of("systemd", name)).replace("%i", instance).replace("%S", os.path.join(root, "var/lib"))
    settings = {**SETTINGS, **settings}
    line = re.search(r"^ExecStart=(.*)$", text, re.M)[1]
    for folder in re.findall(r"^StateDirectory=(.*)$", text, re.M):
        os.makedirs(os.path.join(root, "var/lib", folder), exist_ok=True)
    place = re.search(r"^WorkingDirectory=(.*)$", text, re.M)
    return re.sub(r"\$\{(\w+)\}", lambda it: str(settings[it[1]]), line).split(" "), place and place[1]


def run_unit(name, instance, root, **settings):
    """Runs what a unit of one run starts: its status, output and log."""
    words, place = unit(name, instance, root, **settings)
    ran = subprocess.run(words, cwd=place, capture_output=True, timeout=60,
                         env={**os.environ, "JAQHENDULU": program.find()})
    return ran.returncode, ran.stdout.decode(), ran.stderr.decode()


def instance(root, name, lines=()):
    """The journal of an instance, with these lines."""
    path = os.path.join(root, "var/lib/jaqhendulu", name, "books.journal")
    os.makedirs(os.path.dirname(path))
    write(generate.journal_of(lines), path)
    return path


def kept_unit(root, name, **settings):
    """A service that is started again whenever it ends."""
    port = settings.setdefault("PORT", replay.free_port())
    words, place = unit("jaqhendulu@.service", name, root, **settings)
    return Kept(words, place, port)


@case("units: systemd-analyze verifies each, and finds the services little exposed")
def verified(room):
    needs("systemd-analyze")
    for name in UNITS:
        write(programs_in(text_of("systemd", name)).encode(), room, name)
    for name in UNITS:
        ran = subprocess.run(["systemd-analyze", "verify", "--man=no", os.path.join(room, name)], capture_output=True)
        same((0, b"", b""), (ran.returncode, ran.stdout, ran.stderr), name)
    for name in UNITS[:3]:
        ran = subprocess.run(["systemd-analyze", "security", "--offline=yes", "--threshold=15",
                              os.path.join(room, name)], capture_output=True)
        same(0, ran.returncode, f"{name}: {ran.stdout[-200:]}")


def calls_of_group(name):
    """The system's calls of a group of systemd."""
    listed = subprocess.run(["systemd-analyze", "syscall-filter", name], capture_output=True, check=True).stdout
    words = [it.strip() for it in listed.decode().splitlines()[1:]]
    calls = {it for it in words if it and it[0] not in "#@"}
    return calls.union(*(calls_of_group(it) for it in words if it.startswith("@")))


def end_group(it):
    """Ends a process that began a session, and what it started."""
    with contextlib.suppress(ProcessLookupError):
        os.killpg(it.pid, signal.SIGKILL)
    it.wait()


def allowed_calls(name):
    """The calls that a unit allows."""
    allowed = set()
    for line in re.findall(r"^SystemCallFilter=(.*)$", text_of("systemd", name), re.M):
        groups = set().union(*(calls_of_group(it) for it in line.lstrip("~").split(" ")))
        allowed = allowed - groups if line.startswith("~") else allowed | groups
    return allowed


def calls_made(file):
    """The calls of a log of strace, and the families of the sockets."""
    text = read(file).decode()
    return set(re.findall(r"^\d+ +(\w+)\(", text, re.M)), set(re.findall(r"socket\((\w+)", text))


@case("units: what they start makes no call of the system, and no socket, that they forbid")
def calls(room):
    needs("strace", "systemd-analyze")
    path, port = instance(room, "books"), replay.free_port()
    logs = [os.path.join(room, it) for it in UNITS[:3]]
    traced = {name: ["strace", "-f", "-o", log, *unit(name, "books", room, PORT=port, CONNECTIONS=3)[0]]
              for name, log in zip(UNITS, logs)}
    it = start_words(traced[UNITS[0]], cwd=os.path.dirname(path), start_new_session=True)
    try:
        replay.connect(port).close()
        for name in UNITS[1:3]:  # the day takes two connections
            same(0, subprocess.run(traced[name], capture_output=True, timeout=60,
                                   env={**os.environ, "JAQHENDULU": program.find()}).returncode, name)
        same(0, it.wait(timeout=20))
    finally:
        end_group(it)
    for name, log in zip(UNITS, logs):
        made, families = calls_made(log)
        same(set(), made - allowed_calls(name), name)
        family = re.search(r"^RestrictAddressFamilies=(.*)$", text_of("systemd", name), re.M)[1]
        same(set() if family == "none" else {family}, families, name)
    same(True, "flock" in calls_made(logs[0])[0])
    same(1, len(reckon.lines_of_journal(read(path))))


def sent_until_answered(port, body):
    """Sends a command, again where the program ended in between: status and body."""
    for _ in range(100):
        link = bodies.link_to(port)
        try:
            return bodies.ask(link, "POST", COMMANDS, body)
        except (OSError, http.client.HTTPException):
            time.sleep(0.05)
        finally:
            link.close()
    raise AssertionError("nobody answers")


@case("units: the service ends after its connections and comes again, but not where that cannot help")
def comes_again(room):
    text = text_of("systemd", UNITS[0])
    same("always", re.search(r"^Restart=(.*)$", text, re.M)[1])
    stays = re.search(r"^RestartPreventExitStatus=(.*)$", text, re.M)[1].split(" ")
    rows = dict(re.findall(r"^\| (\d+) \| (\w+)", read(TOP, "docs", "PROGRAM.md").decode(), re.M))
    same(["Usage", "NotJournal", "Damaged", "JournalFull"], [rows[it] for it in stays])
    instance(room, "books")
    with contextlib.closing(kept_unit(room, "books", CONNECTIONS=3)) as kept:
        for number in range(1, 8):
            same(ok(number), sent_until_answered(kept.port, body_of_day(number)))
        same(True, kept.starts >= 3)


@case("units: the morning's day: sent once, again, after a day by hand, before a program that starts late")
def mornings(room):
    instance(room, "books")
    name, today = "jaqhendulu-day@.service", reckon.datetime.date.today()
    with contextlib.closing(kept_unit(room, "books")) as kept:
        for _ in range(2):
            same((0, "ok 1\n", ""), run_unit(name, "books", room, PORT=kept.port))
        words = unit(name, "books", room, PORT=kept.port)[0]
        ran = subprocess.run([*words, f"{today - reckon.datetime.timedelta(1)}"], capture_output=True)
        same((1, f"no 3 DayNotLater {today}\n".encode()), (ran.returncode, ran.stdout))
        later = f"{today + reckon.datetime.timedelta(1)}"
        link = bodies.link_to(kept.port)
        same(ok(2), bodies.ask(link, "POST", COMMANDS, bodies.body_of(f"by-hand day {later}")))
        link.close()
        for _ in range(2):
            ran = subprocess.run([*words, later], capture_output=True)
            same((0, f"no 3 DayNotLater {later}\n".encode()), (ran.returncode, ran.stdout))
            kept.kill()
    same([f"d-{today} day {today}", f"by-hand day {later}"],
         [it.decode() for it in reckon.lines_of_journal(read(room, "var/lib/jaqhendulu/books/books.journal"))])


@case("units: a date that is more than ten days ahead is not sent unless it is given")
def far_ahead(room):
    today = reckon.datetime.date.today()
    for name, days, wanted in (("near", 10, (0, "ok 2\n")), ("far", 11, (1, ""))):
        path = instance(room, name, [f"k1 day {today - reckon.datetime.timedelta(days)}"])
        with contextlib.closing(kept_unit(room, name)) as kept:
            same(wanted, run_unit("jaqhendulu-day@.service", name, room, PORT=kept.port)[:2])
            words = unit("jaqhendulu-day@.service", name, room, PORT=kept.port)[0]
            same(b"ok 2\n", subprocess.run([*words, str(today)], capture_output=True).stdout)
        same(2, len(reckon.lines_of_journal(read(path))))


def copies(room):
    place = os.path.join(room, "var/lib/jaqhendulu-backup/books")
    return sorted(os.listdir(place)) if os.path.isdir(place) else []


BACKUP = "jaqhendulu-backup@.service"


@case("units: copies made under a client's commands open, have all that was answered before; the newest two are kept")
def copied(room):
    path = instance(room, "books", boarded(1))
    with contextlib.closing(kept_unit(room, "books")) as kept:
        stops, answered = threading.Event(), []

        def client():
            link = bodies.link_to(kept.port)
            while not stops.is_set():
                line = f"p{len(answered)} pay 1 2024-02-01 1.00"
                same(200, bodies.ask(link, "POST", COMMANDS, bodies.body_of(line))[0])
                answered.append(line)
            link.close()

        def copier():
            try:
                for _ in range(4):
                    time.sleep(0.1)
                    had = len(answered) + 2
                    status, out, log = run_unit(BACKUP, "books", room, KEEP=2)
                    same((0, ""), (status, log))
                    made = out.split(" ")[0]
                    lines = reckon.lines_of_journal(read(made))
                    same(f"{made} commands {len(lines)}\n", out)
                    same(True, len(lines) >= had, "what was answered before")
                    same((0, b""), run(made, "custodial")[::2])
            finally:
                stops.set()

        at_once([client, copier])
    same(2, len(copies(room)))
    lines = reckon.lines_of_journal(read(path))
    for name in copies(room):
        had = reckon.lines_of_journal(read(room, "var/lib/jaqhendulu-backup/books", name))
        same(lines[:len(had)], had, name)


@case("units: no copy is kept or removed of a journal that is damaged, shorter than the newest copy, or gone")
def not_copied(room):
    path = instance(room, "books", boarded(5))
    for _ in range(2):
        same((0, ""), run_unit(BACKUP, "books", room, KEEP=2)[::2])
    kept, whole = copies(room), read(path)
    for given, why in ((whole[:-30], "does not open: status 8 Damaged"),
                       (whole.replace(b" board 3 ", b" bored 3 "), "does not open: status 8 Damaged"),
                       (generate.journal_of(list(boarded(4))), "the copy has 5 commands, "),
                       (b"", "is no journal"), (b"MSRVJ003" + whole[8:], "is no journal")):
        write(given, path)
        status, out, log = run_unit(BACKUP, "books", room, KEEP=1)
        same((1, "", True), (status, out, why in log), (why, log))
        same(kept, copies(room))
    os.remove(path)
    same(1, run_unit(BACKUP, "books", room)[0])
    same(kept, copies(room))


@case("units: a journal of version 1, and one that was written anew in version 2, are counted and copied")
def old_versions(room):
    lines = [it.encode() for it in boarded(3)]
    first = b"MSRVJ001" + b"".join(b"\1" + len(it).to_bytes(2, "big") + it for it in lines)
    second = generate.journal_of(it.decode() for it in lines)
    path = instance(room, "books")
    for data in (first + b"\0", first + b"\2" + second):
        write(data, path)
        status, out, log = run_unit(BACKUP, "books", room)
        same((0, "", True), (status, log, out.endswith(" commands 4\n")), out)


# The package

@functools.lru_cache
def made_once():
    """The bytes of the package and its name."""
    with tempfile.TemporaryDirectory(prefix="jaqhendulu-") as room:
        path = make_package(room)
        return read(path), os.path.basename(path)


def packaged(room):
    """The path of the package in a case's folder."""
    needs("dpkg-deb", "git", "man")
    data, name = made_once()
    write(data, room, name)
    return os.path.join(room, name)


def make_package(room):
    """Makes the package of the built program: its path."""
    made = subprocess.run([os.path.join(DEPLOY, "package.sh"), room], capture_output=True, timeout=60,
                          env={**os.environ, "JAQHENDULU": program.find()})
    same((0, b""), (made.returncode, made.stderr))
    return made.stdout.decode().strip()


@case("package: a program of another version is refused")
def other_version(room):
    needs("dpkg-deb", "git")
    other = os.path.join(room, "other")
    write(b"#!/bin/sh\necho status 2 Usage >&2\necho jaqhendulu 0.0.1 >&2\nexit 2\n", other)
    os.chmod(other, 0o755)
    made = subprocess.run([os.path.join(DEPLOY, "package.sh"), room], capture_output=True,
                          env={**os.environ, "JAQHENDULU": other})
    same((1, b"", True), (made.returncode, made.stdout, b"jaqhendulu 0.0.1" in made.stderr))
    same(["other"], os.listdir(room))


def version():
    """The program's version, as it says it."""
    return run("books", "frob")[2].split(b"\n")[1].decode()


@case("package: it has the program's bytes, its version once, and is the same when it is made again")
def package(room):
    path = packaged(room)
    same(f"{version().replace(' ', '_')}-1_amd64.deb", os.path.basename(path))
    again = os.path.join(room, "again")
    os.mkdir(again)
    same(read(path), read(make_package(again)))
    root = os.path.join(room, "root")
    same(0, subprocess.run(["dpkg-deb", "-x", path, root]).returncode)
    same(read(program.find()), read(root, "usr/bin/jaqhendulu"))
    served = [it for it in os.listdir(os.path.join(TOP, "desk")) if it.endswith((".html", ".css", ".js", ".svg"))]
    same(sorted(served), sorted(os.listdir(os.path.join(root, "usr/share/jaqhendulu/desk"))))
    same([], [it for it in served if read(TOP, "desk", it) != read(root, "usr/share/jaqhendulu/desk", it)])
    number = version().split(" ")[1]
    same(True, f"## {number}\n" in read(TOP, "CHANGELOG.md").decode())
    for name in os.listdir(os.path.join(DEPLOY, "jobs")):
        same(False, number in text_of("jobs", name), name)
        same(text_of("jobs", name).replace("@VERSION@", number),
             read(root, "usr/share/doc/jaqhendulu/examples", name).decode())


@case("package: lintian finds no error")
def linted(room):
    needs("lintian")
    ran = subprocess.run(["lintian", "--fail-on", "error", packaged(room)], capture_output=True, timeout=120)
    same((0, []), (ran.returncode, [it for it in ran.stdout.split(b"\n") if it.startswith(b"E:")]))


@case("package: the man page has each word and status of docs/PROGRAM.md, and no fault of form")
def manual(room):
    path, root = packaged(room), os.path.join(room, "root")
    same(0, subprocess.run(["dpkg-deb", "-x", path, root]).returncode)
    shown = subprocess.run(["man", "--warnings", "-l", os.path.join(root, "usr/share/man/man1/jaqhendulu.1.gz")],
                           capture_output=True, env={**os.environ, "MANWIDTH": "200", "LC_ALL": "C.UTF-8"})
    same((0, b""), (shown.returncode, shown.stderr))
    text = shown.stdout.decode()
    table = read(TOP, "docs", "PROGRAM.md").decode()
    words, statuses = re.findall(r"^\| `(.*?)` \|", table, re.M), re.findall(r"^\| (\d+) \| (\w+)", table, re.M)
    same((17, 14), (len(words), len(statuses)))
    for it in [*words, *(" ".join(it) for it in statuses)]:
        same(True, f"\n       {it}" in text, it)


def tree(root):
    """All files under a folder, but those of dpkg itself."""
    found = [os.path.relpath(os.path.join(place, it), root) for place, _, files in os.walk(root) for it in files]
    return sorted(it for it in found if not it.startswith(("var/lib/dpkg/", "var/log/")))


def dpkg(root, *words):
    ran = subprocess.run(["dpkg", f"--root={root}", "--force-script-chrootless", "--force-depends", "--force-not-root",
                          *words], capture_output=True, env={**os.environ, "PATH": PLACES})
    same(0, ran.returncode, ran.stderr)


@case("package: installed in a test root it makes its user; purged it leaves the user, settings and journals alone")
def installed(room):
    needs("dpkg", "systemd-sysusers")
    path, root = packaged(room), os.path.join(room, "root")
    for folder in ("var/lib/dpkg/info", "var/lib/dpkg/updates", "var/log", "etc/jaqhendulu"):
        os.makedirs(os.path.join(root, folder))
    write(b"", root, "var/lib/dpkg/status")
    write(text_of("systemd", "books.conf").encode(), root, "etc/jaqhendulu/books.conf")
    instance(root, "books", boarded(2))
    mine = tree(root)
    dpkg(root, "-i", path)
    same(True, re.search(rb"^jaqhendulu:[x!*]*:\d+:\d+:", read(root, "etc/passwd"), re.M) is not None)
    for line in re.findall(r"^ExecStart=(\S+)", "".join(text_of("systemd", it) for it in UNITS), re.M):
        same(True, os.access(root + line, os.X_OK), line)
    ran = subprocess.run([root + "/usr/bin/jaqhendulu", root + "/var/lib/jaqhendulu/books/books.journal", "custodial"],
                         capture_output=True)
    same((0, b""), (ran.returncode, ran.stderr))
    dpkg(root, "--purge", "jaqhendulu")
    users = {"etc/passwd", "etc/shadow", "etc/group", "etc/gshadow", "etc/.pwd.lock"}
    same(mine, [it for it in tree(root) if it.rstrip("-") not in users])


@case("package: bash completes the words that the program lists")
def completion(room):
    needs("bash")
    os.symlink(program.find(), os.path.join(room, "jaqhendulu"))
    write(b"", room, "books.journal")
    script = "source $1; COMP_WORDS=(jaqhendulu $2 $3); COMP_CWORD=$4; _jaqhendulu; echo ${COMPREPLY[@]}"
    for given, at, wanted in (
            (("boo", ""), 1, "books.journal"),
            (("books.journal", "re"), 2, "report remain reconcile"),
            (("books.journal", "pmi"), 2, "pmi pmi-drops"),
            (("books.journal", "x"), 2, ""),
            (("books.journal", ""), 2, " ".join(words_of_program()))):
        ran = subprocess.run(["bash", "-c", script, "bash", os.path.join(DEPLOY, "completion.bash"), *given, str(at)],
                             cwd=room, capture_output=True, env={**os.environ, "PATH": f"{room}:{PLACES}"})
        same((0, wanted, b""), (ran.returncode, ran.stdout.decode().strip(), ran.stderr), given)


def words_of_program():
    """The first words of the table of docs/PROGRAM.md, in its order."""
    return re.findall(r"^\| `<journal> ([a-z-]+)", read(TOP, "docs", "PROGRAM.md").decode(), re.M)


# Many journals

JOBS = ("kubernetes.yaml", "jaqhendulu.nomad.hcl")


@case("jobs: their programs are those of the units, one task a journal, and come again after their connections")
def jobs(room):
    needs("sh")
    os.symlink(program.find(), os.path.join(room, "jaqhendulu"))
    write(generate.journal_of([]), room, "books.journal")
    port = replay.free_port()
    wanted = " ".join(unit(UNITS[0], "books", room)[0]).replace(program.find(), "jaqhendulu")
    for name, ones in zip(JOBS, ("replicas: 1\n", "count = 1\n")):
        text = text_of("jobs", name)
        same((1, 1), (text.count(ones), text.count(wanted)))
        same(1, text.count(f"/usr/libexec/jaqhendulu/day {SETTINGS['PORT']};"), name)
        same(1, text.count(f"/usr/libexec/jaqhendulu/backup /data/books.journal /copies {SETTINGS['KEEP']};"), name)
        line = re.search(r'"(while jaqhendulu.*?)"', text)[1]
        line = changed(line, ("18080 1000000", f"{port} 2"))
        it = start_words(["sh", "-c", line], cwd=room, start_new_session=True,
                         env={**os.environ, "PATH": f"{room}:{PLACES}"})
        try:
            replay.connect(port).close()
            for number in range(1, 6):
                same(ok(number), sent_until_answered(port, body_of_day(number)))
        finally:
            end_group(it)


@case("jobs: the file for Kubernetes is YAML of a set of one pod whose volume one pod may mount")
def yaml_of_kubernetes(room):
    try:
        import yaml
    except ImportError:
        raise Skipped("not installed: python3-yaml") from None
    service, pods = yaml.safe_load_all(text_of("jobs", JOBS[0]))
    same(("Service", "StatefulSet", 1), (service["kind"], pods["kind"], pods["spec"]["replicas"]))
    same([["ReadWriteOncePod"]] * 2, [it["spec"]["accessModes"] for it in pods["spec"]["volumeClaimTemplates"]])
    pod = pods["spec"]["template"]["spec"]
    same(["cp", "-r", "/usr/share/jaqhendulu/desk", "/served"], pod["initContainers"][0]["command"])
    same([1000] * 4, [it["securityContext"]["runAsUser"] for it in pod["initContainers"] + pod["containers"][:3]])
    containers = pod["containers"]
    same(["program", "morning", "copies", "nginx"], [it["name"] for it in containers])
    same([["/data"], [], ["/data", "/copies"]],
         [[at["mountPath"] for at in it.get("volumeMounts", [])] for it in containers[:3]])


LOANS, PARTS = 12000, 10


def part_of(lines, part):
    """The lines of a part's loans, and those of all loans."""
    for line in lines:
        words = line.split(" ")
        if words[1] in ("day", "close", "remit") or (int(words[2]) - 1) * PARTS // LOANS == part:
            yield line


def send_all(port, lines):
    """Sends commands over one connection, some hundred at a time, and sees that each is accepted."""
    link = replay.connect(port)
    answers = link.makefile("rb")
    for at in range(0, len(lines), 200):
        some = [bodies.body_of(it) for it in lines[at:at + 200]]
        link.sendall(b"".join(b"POST %s HTTP/1.1\r\nContent-Length: %d\r\n\r\n%s" % (COMMANDS.encode(), len(it), it)
                              for it in some))
        for body in some:
            same(b"HTTP/1.1 200 OK\r\n", answers.readline(), body)
            length = int(answers.readline().split(b" ")[1])
            answers.read(len(b"Content-Type: application/json\r\n\r\n") + length)
    link.close()


def work_part(root, name, lines):
    """Works a journal through the commands of its units: the service, the days, a copy."""
    instance(root, name)
    port = replay.free_port()
    with contextlib.closing(kept_unit(root, name, PORT=port)):
        waiting = []
        for line in lines:
            words = line.split(" ")
            if words[1] != "day":
                waiting.append(line)
                continue
            send_all(port, waiting)
            waiting = []
            ran = subprocess.run([*unit("jaqhendulu-day@.service", name, root, PORT=port)[0], words[2]],
                                 capture_output=True, timeout=60)
            same((0, b"ok"), (ran.returncode, ran.stdout[:2]), name)
        send_all(port, waiting)
        same(0, run_unit(BACKUP, name, root)[0])


def statement_of(path):
    """A statement's day, loans and lines, and its totals in cents."""
    status, text, _ = run(path, "statement")
    head, *loans, total, end = text.decode().splitlines()
    same((0, "end"), (status, end))
    _, day, _, count = head.split(" ")
    same(len(loans), int(count))
    return day, loans, [cents(it) for it in re.findall(r"[TP] (\S+)", total)]


def cents(amount):
    return int(amount.replace(".", ""))


def custodial_of(path):
    """The figures of the custodial line in cents."""
    return [cents(it) for it in re.findall(r"-?\d+\.\d\d", run(path, "custodial")[1].decode())]


@case("ten journals of 1,200 loans beside each other add up to one of 12,000, to the cent")
def ten(room):
    # Each command is synced: in memory where that is possible, for the disk's sake.
    root = "/dev/shm" if os.access("/dev/shm", os.W_OK) else room
    with tempfile.TemporaryDirectory(prefix="jaqhendulu-", dir=root) as root:
        lines = list(generate.year(LOANS, 2, 62))
        lines += [f"e{loan} deposit {loan} 2024-03-01 {loan % 97}.{loan % 100:02}" for loan in range(1, LOANS + 1, 5)]
        at_once([functools.partial(work_part, root, f"part{it}", list(part_of(lines, it))) for it in range(PARTS)])
        one = os.path.join(root, "one.journal")
        run(one, "init")
        replies = run(one, "apply", given="".join(f"{it}\n" for it in lines).encode())[1]
        same(len(lines), replies.count(b"ok "))
        day, loans, totals = statement_of(one)
        same(LOANS, len(loans))
        paths = [os.path.join(root, "var/lib/jaqhendulu", f"part{it}", "books.journal") for it in range(PARTS)]
        parts = [statement_of(it) for it in paths]
        same([day] * PARTS, [it[0] for it in parts])
        same([1200] * PARTS, [len(it[1]) for it in parts])
        same(loans, [line for it in parts for line in it[1]])
        same(totals, [sum(it) for it in zip(*(it[2] for it in parts))])
        same(custodial_of(one), [sum(it) for it in zip(*map(custodial_of, paths))])
        same(True, min(totals) > 0)


if __name__ == "__main__":
    sys.exit(run_all(sys.argv[1:]))
