"""What the tests of tools/ share: its programs, what is installed, the worked quarter."""
import os
import shutil
import subprocess
import sys

from harness import TOP, Skipped, read, run, same

sys.path[:0] = [os.path.join(TOP, "tools"), os.path.join(TOP, "bench")]
EXAMPLES = os.path.join(TOP, "examples")


def tool(name, *words, given=b"", status=0):
    """Runs a companion to its end and gives its output and log, where it ends with that status."""
    ran = subprocess.run([sys.executable, os.path.join(TOP, "tools", name), *words], input=given, capture_output=True,
                         timeout=120)
    same(status, ran.returncode, f"{name} {' '.join(words)}: {ran.stderr.decode()[-300:]}")
    return ran.stdout, ran.stderr


def without_tool(name):
    """Skips a case where a program is not installed."""
    if not shutil.which(name):
        raise Skipped(f"{name} is not installed")


def quarter(room):
    """The path of a journal of the worked quarter."""
    path = os.path.join(room, "books.journal")
    same((0, b"", b""), run(path, "init"), "init")
    for step in sorted(os.listdir(os.path.join(EXAMPLES, "quarter"))):
        if step.endswith((".lines", ".csv")):
            words = "import" if step.endswith(".csv") else "apply"
            same(0, run(path, words, given=read(EXAMPLES, "quarter", step))[0], step)
    return path
