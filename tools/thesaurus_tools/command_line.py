"""How a tool is called, and how it ends."""
from __future__ import annotations

import argparse
import io
import os
import re
import sys
from collections.abc import Callable
from typing import NoReturn

# Exit statuses of every tool.
DONE, REFUSED, USAGE, FAULT, INTERRUPTED = 0, 1, 2, 3, 130


class ToolError(Exception):
    """An error that ends a tool: its text goes to standard error, its status is the exit status."""

    def __init__(self, text: str, status: int = FAULT):
        super().__init__(text)
        self.status = status


def parser_of(name: str, text: str) -> argparse.ArgumentParser:
    """Returns a parser whose help says what a tool does: the first paragraph of the text before the options, the others
    after them."""
    about, _, more = text.partition("\n\n")
    return argparse.ArgumentParser(
        prog=name, description=about, epilog=more, formatter_class=argparse.RawDescriptionHelpFormatter
    )


def natural(text: str) -> int:
    """Returns the number in an argument, which is 1 or more."""
    if not re.fullmatch("[1-9][0-9]{0,9}", text):
        raise argparse.ArgumentTypeError(f"{text} is not a number from 1 on")
    return int(text)


def language(text: str) -> str:
    """Returns the language tag in an argument, such as en or de-at."""
    tag = text.strip().lower()
    if not re.fullmatch("[a-z]{1,8}(-[a-z0-9]{1,8})*", tag):
        raise argparse.ArgumentTypeError(f"not a language tag: {text!r}")
    return tag


def names(text: str) -> list[str]:
    """Returns the names in an argument as one,two."""
    return [it for it in text.split(",") if it]


def languages(text: str) -> list[str]:
    """Returns the language tags in an argument as en,de, each once."""
    try:
        return list(dict.fromkeys(map(language, text.split(","))))
    except argparse.ArgumentTypeError:
        raise argparse.ArgumentTypeError(f"not language tags: {text!r}") from None


def without_password(url: str) -> str:
    """Returns a URL without the user and the password that it may have."""
    return re.sub(r"//.*@", "//", url, count=1, flags=re.S)


def run(name: str, main: Callable[[], int]) -> NoReturn:
    """Runs a tool, reports the error that ends it, and exits with its status. What it prints is UTF-8, whatever the
    terminal has."""
    if sys.stdout is None:
        sys.stdout = open(os.devnull, encoding="utf-8")  # so that a write fails
    sys.stderr = sys.stderr or open(os.devnull, "w", encoding="utf-8")
    for stream in (sys.stdout, sys.stderr):
        assert isinstance(stream, io.TextIOWrapper)
        stream.reconfigure(encoding="utf-8", errors="backslashreplace")
    try:
        status = main()
        sys.stdout.flush()
    except ToolError as error:
        status = say(name, str(error), error.status)
    except BrokenPipeError:
        status = DONE  # the reader of the output has enough
    except io.UnsupportedOperation:
        status = say(name, "standard output is closed", FAULT)
    except OSError as error:
        status = say(
            name, f"{error.filename}: {error.strerror}" if error.filename else str(error.strerror or error), FAULT
        )
    except KeyboardInterrupt:
        status = say(name, "interrupted", INTERRUPTED)
    try:
        sys.stdout.flush()
    except OSError:
        # What is still to be written goes nowhere.
        os.dup2(os.open(os.devnull, os.O_WRONLY), sys.stdout.fileno())
    sys.exit(status)


def say(name: str, text: str, status: int = DONE) -> int:
    """Reports something on standard error, and returns a status."""
    print(f"{name}: {text}", file=sys.stderr, flush=True)
    return status
