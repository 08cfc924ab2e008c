"""What the scripts beside it share: cases, the built program, its runs."""
import os
import subprocess
import sys
import tempfile
import time
import traceback

TOP = os.path.dirname(os.path.dirname(os.path.dirname(os.path.abspath(__file__))))
sys.path[:0] = [os.path.join(TOP, "tests"), os.path.join(TOP, "examples")]
import program  # noqa: E402

CASES = []
STARTED = []


class Skipped(Exception):
    """A case that this machine does not allow."""


def case(name):
    """Marks a function as a case. It is given a fresh folder."""
    def mark(function):
        CASES.append((name, function))
        return function
    return mark


def end_started():
    """Ends what a case that failed left running."""
    for it in STARTED:
        if it.poll() is None:
            it.kill()
            it.wait()
    STARTED.clear()


def run_all(only):
    """Runs the cases whose names have the given words, prints a line each, and gives the exit status."""
    passed = failed = 0
    for name, function in CASES:
        if not all(it in name for it in only):
            continue
        began = time.monotonic()
        with tempfile.TemporaryDirectory(prefix="jaqhendulu-") as room:
            try:
                function(room)
            except Skipped as why:
                print(f"skipped {name}: {why}", flush=True)
                continue
            except Exception as error:  # a case fails by whatever it meets
                failed += 1
                where = traceback.extract_tb(error.__traceback__)[1 if len(traceback.extract_tb(
                    error.__traceback__)) > 1 else 0]
                print(f"FAILED  {name}: {type(error).__name__} at {os.path.basename(where.filename)}:{where.lineno}: "
                      f"{str(error)[:600]}", flush=True)
                continue
            finally:
                end_started()
        passed += 1
        print(f"ok      {name} ({time.monotonic() - began:.1f} s)", flush=True)
    print(f"{passed} passed, {failed} failed")
    return 1 if failed else 0


def run(*words, given=b"", **how):
    """Runs the program to its end: its status, output and log."""
    how = {"input": given, "stdout": subprocess.PIPE, "stderr": subprocess.PIPE, "timeout": 300, **how}
    if how.get("stdin") is not None:
        del how["input"]
    ran = subprocess.run([program.find(), *words], **how)
    return ran.returncode, ran.stdout, ran.stderr


def start(*words, **how):
    """Starts the program with pipes on all sides."""
    how = {"stdin": subprocess.PIPE, "stdout": subprocess.PIPE, "stderr": subprocess.PIPE, **how}
    STARTED.append(subprocess.Popen([program.find(), *words], **how))
    return STARTED[-1]


def named(log):
    """The first line of a log up to the status's name, without what failed and why."""
    return b" ".join(log.split(b"\n")[0].split(b" ")[:3])


def same(wanted, got, what=""):
    """Fails where two values differ, and says where."""
    if wanted == got:
        return
    if isinstance(wanted, bytes) and isinstance(got, bytes):
        at = next((i for i, (a, b) in enumerate(zip(wanted, got)) if a != b), min(len(wanted), len(got)))
        wanted, got = wanted[max(0, at - 60):at + 80], got[max(0, at - 60):at + 80]
        what = f"{what} first differ at byte {at}"
    raise AssertionError(f"{what}: wanted {wanted!r}, got {got!r}")


def read(*path):
    with open(os.path.join(*path), "rb") as file:
        return file.read()


def write(data, *path):
    with open(os.path.join(*path), "wb") as file:
        file.write(data)
