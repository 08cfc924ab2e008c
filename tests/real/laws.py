#!/usr/bin/env python3
"""Each law that `docs/PROOFS.md` names can be cited: it is public, and has the clauses that are named with it.

    laws.py [FILE]    of that file in place of docs/PROOFS.md

A law is a function with no code: `{}` in a line of its own ends its contract. It is public where its crate's root or a
`pub mod` gives it out, and so are the types of its crate that its file imports. A name with clauses that is no function's is
wrong too. Prints a line for each that is wrong, and `N laws, M wrong` at its end.
"""
import os
import re
import sys

TOP = os.path.dirname(os.path.dirname(os.path.dirname(os.path.abspath(__file__))))

# a name in the document, perhaps with its clauses: `histories_are_lawful: lawful`
NAMED = re.compile(r"`(\w+)(?:: ([\w,\s]+))?`")
LAW = re.compile(r"^(?:pub )?fn (\w+)(?:<.*>)?\((?:[^{}]*?)\)\n((?:    .*\n)+)\{\}$", re.MULTILINE)
CLAUSE = re.compile(r"^    ensures (\w+) \{", re.MULTILINE)
USED = re.compile(r"^pub use ([\w:]+)(?:::\{([^}]*)\})?;", re.MULTILINE)
FUNCTION = re.compile(r"\bfn (\w+)")
MODULE = re.compile(r"^pub mod (\w+);", re.MULTILINE)
PUBLIC = re.compile(r"^pub (?:fn|struct|enum) (\w+)", re.MULTILINE)
IMPORTED = re.compile(r"^ghost use Rattle\.(\w+)\.specs\.declared\.(?:\w+\.)*?([A-Z]\w+)\b", re.MULTILINE)


def read(*path):
    """The text of a file, or nothing where there is none."""
    try:
        with open(os.path.join(*path), encoding="utf-8") as file:
            return file.read()
    except FileNotFoundError:
        return ""


def names_used(text):
    """The names that `pub use` lines bring in."""
    for path, group in USED.findall(text):
        names = group.split(",") if group else [path.split("::")[-1]]
        yield from (it.split()[-1] for it in names if it.strip())


def public(folder, file):
    """The names of the public functions of a module, those of its public modules too."""
    text = read(folder, file)
    found = {*PUBLIC.findall(text), *names_used(text)}
    for name in MODULE.findall(text):
        inside = folder if file == "lib.rt" else os.path.join(folder, file[:-3])
        found |= public(inside, f"{name}.rt")
    return found


def sources(crates):
    """Each source file's crate and text, crate by crate."""
    for crate in sorted(os.listdir(crates)):
        for at, _, names in os.walk(os.path.join(crates, crate, "src")):
            yield from ((crate, read(at, name)) for name in sorted(names) if name.endswith(".rt"))


def names_in(document):
    """The names in a document, each with the clauses that stand with it."""
    named = {}
    for name, clauses in NAMED.findall(document):
        named.setdefault(name, set()).update(it.strip() for it in clauses.split(",") if it.strip())
    return named


def main():
    """Checks all names of the document."""
    named = names_in(read(*sys.argv[1:2]) if len(sys.argv) > 1 else read(TOP, "docs", "PROOFS.md"))
    crates = os.path.join(TOP, "crates")
    functions, laws, wrong = {"call"}, 0, []
    for crate, text in sources(crates):
        functions |= set(FUNCTION.findall(text))
        found = [(name, contract) for name, contract in LAW.findall(text) if name in named]
        laws += len(found)
        if not found:
            continue
        open_to_all = public(os.path.join(crates, crate, "src"), "lib.rt")
        types = [type_ for home, type_ in IMPORTED.findall(text) if home == crate]
        wrong += [f"{crate}: {it} is not public" for it in [name for name, _ in found] + types if it not in open_to_all]
        for name, contract in found:
            missing = named[name] - set(CLAUSE.findall(contract))
            wrong += [f"{crate}: {name} has no clause {it}" for it in sorted(missing)]
    wrong += [f"no function is {it}" for it in named if named[it] and it[0].islower() and it not in functions]
    for line in wrong:
        print(line)
    print(f"{laws} laws, {len(wrong)} wrong")
    return 1 if wrong or not laws else 0


if __name__ == "__main__":
    sys.exit(main())
