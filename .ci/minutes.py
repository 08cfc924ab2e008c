#!/usr/bin/env python3
"""Watches a run of `rt ci` from beside it, and says where its processor minutes went.

    minutes.py PID    looks below this process until it is sent SIGTERM, and then prints the table

A row is a crate: processor minutes of its proof, of its tests' proof and of its must-fail edits, and how many minutes by
the clock lay between its first process and its last. It looks every second, so that what a process takes in its last second
is not seen; where there is no /proc it says nothing. What earlier runs on the machine have proved is not done again: the
first line says how much of it was kept.
"""
import collections
import os
import signal
import sys
import time

KEPT = "/opt/rattle-kept"
TICK = os.sysconf("SC_CLK_TCK")
KINDS = ("proof", "tests", "edits")
Seen = collections.namedtuple("Seen", "crate kind seconds first last")


def stat_of(pid):
    """The fields of a process's stat behind its name."""
    with open(f"/proc/{pid}/stat", encoding="utf-8", errors="replace") as file:
        return file.read().rsplit(")", 1)[1].split()


def below(top):
    """The processes that this one started, and those that they did."""
    children = collections.defaultdict(list)
    for pid in filter(str.isdigit, os.listdir("/proc")):
        try:
            children[int(stat_of(pid)[1])].append(int(pid))
        except (OSError, IndexError):
            continue
    found = [top]
    for pid in found:
        found += children[pid]
    return found[1:]


def look(top, seen):
    """Notes what each process of the prover has taken by now."""
    now = time.monotonic()
    for pid in below(top):
        try:
            with open(f"/proc/{pid}/cmdline", encoding="utf-8", errors="replace") as file:
                words = file.read().split("\0")
            crate = words[words.index("--crate-name") + 1]
            where, stat = os.readlink(f"/proc/{pid}/cwd"), stat_of(pid)
        except (OSError, ValueError, IndexError):
            continue
        kind = "tests" if "--test" in words else "edits" if "rt-edit" in where else "proof"
        before = seen.get((pid, stat[19]))
        first = before.first if before else now
        seen[pid, stat[19]] = Seen(crate, kind, sum(map(int, stat[11:15])) / TICK, first, now)


def table(seen):
    """The rows, the dearest crates first, and what all took."""
    minutes, spans = collections.defaultdict(collections.Counter), collections.defaultdict(list)
    for it in seen.values():
        minutes[it.crate][it.kind] += it.seconds / 60
        spans[it.crate] += [it.first, it.last]
        minutes["all"][it.kind] += it.seconds / 60
        spans["all"] += [it.first, it.last]
    for crate in sorted(minutes, key=lambda name: -minutes[name].total()):
        row = "".join(f"{minutes[crate][kind]:8.1f}" for kind in KINDS)
        yield f"{crate:22}{row}{minutes[crate].total():8.1f}{(max(spans[crate]) - min(spans[crate])) / 60:8.1f}"


def main():
    if len(sys.argv) != 2 or not sys.argv[1].isdigit():
        sys.exit(__doc__)
    kept = len(os.listdir(KEPT)) if os.path.isdir(KEPT) else 0
    seen, stopped = {}, []
    signal.signal(signal.SIGTERM, lambda *_: stopped.append(True))
    while not stopped and os.path.isdir("/proc"):
        look(int(sys.argv[1]), seen)
        time.sleep(1)
    print(f"processor minutes; {kept} results were kept on this machine before, {os.cpu_count()} processors")
    print(f"{'crate':22}" + "".join(f"{kind:>8}" for kind in (*KINDS, "all", "clock")))
    print("\n".join(table(seen)))


if __name__ == "__main__":
    main()
