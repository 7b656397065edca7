"""The program's limits, which its options raise: they are given to a tool as to the program."""
from __future__ import annotations

import argparse
from collections.abc import Sequence

# How many resources a store may have, unless an option says another number.
MOST_RESOURCES = 20_000
LIMITED = ("resources", "labels", "links", "postings", "moves")


def add_limit_options(parser: argparse.ArgumentParser) -> None:
    """Adds --max-resources and the others."""
    for it in LIMITED:
        parser.add_argument(f"--max-{it}", metavar="N", help=f"the most {it} that the store may have")


def limit_words(given: argparse.Namespace) -> list[str]:
    """Returns the words of the command line that pass the limits on."""
    found = [(it, getattr(given, f"max_{it}")) for it in LIMITED]
    return [word for it, value in found if value is not None for word in (f"--max-{it}", value)]


def most_resources(options: Sequence[str]) -> int:
    """Returns how many resources a store may have by the program's options."""
    found = dict(zip(options[::2], options[1::2])).get("--max-resources")
    return int(found) if found else MOST_RESOURCES
