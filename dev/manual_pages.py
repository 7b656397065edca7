"""Manual pages of the tools, made of what each prints for --help."""
from __future__ import annotations

import os
import re
import subprocess
import sys
from itertools import takewhile
from pathlib import Path

# The columns of a help, which is indented on its page.
COLUMNS = 72
PAGE = """.Dd {date}
.Dt THESAURUS-{capitals} 1
.Os
.Sh NAME
.Nm thesaurus-{name}
.Nd {what}
.Sh SYNOPSIS
{usage}
.Sh DESCRIPTION
{about}
.Sh OPTIONS
{options}
{more}.Sh SEE ALSO
.Xr thesaurus 1
"""
# How the parts of a help begin that list its options.
LISTS = re.compile(r"(positional arguments|options|commands):\n")


def help_of(tool: Path) -> str:
    """Returns what a tool prints for --help."""
    environment = {**os.environ, "COLUMNS": str(COLUMNS), "PYTHONDONTWRITEBYTECODE": "1"}
    words = [sys.executable, str(tool), "--help"]
    return subprocess.run(words, capture_output=True, text=True, check=True, env=environment).stdout


def installed_names(text: str, tools: list[str]) -> str:
    """Returns a text with commands as they are called once they are installed."""
    text = re.sub(rf"(?<![\w/])tools/({'|'.join(tools)})\b(?!/)", r"thesaurus-\1", text)
    return re.sub(r"(?<!\S)\./thesaurus\b", "thesaurus", text)


def escaped(text: str) -> str:
    """Returns a text as troff shows it: no line is a request, and no sign is an escape."""
    lines = text.replace("\\", "\\e").replace("-", "\\-").strip("\n").splitlines()
    return "\n".join(f"\\&{it}" if it[:1] in (".", "'") else it for it in lines)


def literal(text: str) -> str:
    """Returns a text of which the lines stay as they are."""
    return f".Bd -literal\n{escaped(text)}\n.Ed"


def block(text: str) -> str:
    """Returns a paragraph, which is filled, or an example, of which the lines stay as they are."""
    return literal(text) if re.search(r"^ ", text, re.M) else f".Pp\n{escaped(text)}"


def page_of(name: str, text: str, date: str) -> str:
    """Returns the page of a tool by its help: the usage, what it does, the options, and what follows them."""
    usage, about, *blocks = re.split(r"\n\n+", text.strip("\n"))
    lists = list(takewhile(LISTS.match, blocks))
    more = [block(it) for it in blocks[len(lists) :]]
    what = " ".join(about.split())
    return PAGE.format(
        date=date,
        capitals=name.upper(),
        name=name,
        what=escaped(what.split(". ")[0].rstrip(".")),
        usage=literal(re.sub(rf"^usage: {re.escape(name)}\b", f"thesaurus-{name}", usage)),
        about=escaped(what),
        options="\n".join(map(literal, lists)),
        more="\n".join([".Sh NOTES", *more, ""]).replace(".Sh NOTES\n.Pp\n", ".Sh NOTES\n") if more else "",
    )


def pages(folder: Path, tools: list[str], date: str) -> dict[str, str]:
    """Returns the pages of the tools of a folder, by the names of their files."""
    return {
        f"thesaurus-{it}.1": page_of(it, installed_names(help_of(folder / it), tools), date) for it in sorted(tools)
    }
