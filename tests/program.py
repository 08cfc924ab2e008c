"""Where the built program lies, for the scripts of examples/, tests/ and bench/."""
import os
import sys

TOP = os.path.dirname(os.path.dirname(os.path.abspath(__file__)))
PLACE = os.path.join(TOP, "crates", "serv_cli", "out", "serv_cli")


def find(given=None):
    """The program's path: the given one, else that of the variable JAQHENDULU, else where `rt` builds it."""
    path = os.path.abspath(given or os.environ.get("JAQHENDULU") or PLACE)
    if not os.access(path, os.X_OK):
        sys.exit(f"no program at {path}: build it with (cd crates/serv_cli && rt run -- j session < stdin) "
                 "or rt ci, or name another one in the variable JAQHENDULU")
    return path
