#!/usr/bin/env python3
"""Writes the man page from docs/PROGRAM.md, on standard output.

    man.py VERSION DATE
"""
import os
import re
import sys

TABLE = os.path.join(os.path.dirname(os.path.dirname(os.path.abspath(__file__))), "docs", "PROGRAM.md")
SECTIONS = {"| Words |": "WORDS", "| Status |": "EXIT STATUS"}
BEGIN = """.TH JAQHENDULU 1 "{date}" "{version}" "User Commands"
.SH NAME
jaqhendulu \\- daily system of a mortgage servicer over one journal
.SH SYNOPSIS
.B jaqhendulu
.I journal words
.SH DESCRIPTION
"""
END = """.SH FILES
Documents that are named above, guides and examples lie in
.IR /usr/share/doc/jaqhendulu .
.SH SEE ALSO
.BR systemd.unit (5),
.BR nginx (8)
"""


def inline(text):
    """Text of Markdown in roff: code is bold, emphasis italic."""
    text = text.replace("\\", "\\e").replace("-", "\\-").replace("\\|", "|")
    text = re.sub(r"`([^`]*)`", r"\\fB\1\\fR", text)
    text = re.sub(r"\*([^*]*)\*", r"\\fI\1\\fR", text)
    return "\\&" + text if text[:1] in (".", "'") else text


def rows(block):
    """A table's rows, each as a paragraph under its first cells."""
    for line in block[2:]:
        *heads, text = [it.strip() for it in line.strip("|").split(" | ")]
        yield f".TP\n.B {inline(' '.join(heads))}\n{inline(text)}\n"


def section(block):
    """The heading before a table."""
    name = next(name for begin, name in SECTIONS.items() if block[0].startswith(begin))
    return f'.SH "{name}"\n'


def blocks_of(text):
    """Blocks of lines between empty lines."""
    return [it.split("\n") for it in text.strip().split("\n\n")]


def page(text):
    """The pieces of the page's body."""
    for block in blocks_of(text):
        if block[0].startswith("# "):
            continue
        if block[0].startswith("|"):
            yield section(block)
            yield from rows(block)
            yield ".PP\n"
        elif block[0].startswith("```"):
            lines = "\n".join(inline(it) for it in block[1:-1])
            yield f".nf\n.RS\n{lines}\n.RE\n.fi\n"
        else:
            yield ".PP\n" + "\n".join(inline(it) for it in block) + "\n"


def main(version, date):
    with open(TABLE, encoding="utf-8") as file:
        text = file.read()
    sys.stdout.write(BEGIN.format(version=version, date=date) + "".join(page(text)) + END)


if __name__ == "__main__":
    if len(sys.argv) != 3:
        sys.exit(__doc__)
    main(*sys.argv[1:])
