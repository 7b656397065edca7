"""A desk for the editors and indexers of a thesaurus: starts the program, and serves pages on this machine.

  tools/desk --sample
        thirty instruments to try everything with; they are gone at its end
  tools/desk --db museum.db --alone anna
        one person at this machine: prints an address with a key once it listens, and opens the browser
  tools/desk --db museum.db --users users.json --port 8090 --host desk.museum.example --secure --proxy secret
        several people, behind a server with TLS (share/nginx-desk.conf)
  tools/desk --db new.db --base https://museum.example/id/ --alone anna
        a new thesaurus; what its addresses begin with stays for good
  tools/desk --db museum.db --users users.json --port 8090 --backups backups --keep 30
        with a backup of store, journal and users each night, made while the desk runs
  tools/desk user add anna --role head --users users.json
        a user, whose password is asked for (also: list, role, password, token, remove, forget)
  tools/desk check --db museum.db
        compares the desk's journal with the store

The journal is museum-desk.sqlite beside museum.db. No other program may have the store open meanwhile. Days and times
on pages are in this machine's time zone, or in that of the environment's TZ, as TZ=Europe/Vienna.

Exit status: 0 done, 1 refused or something differs, 2 usage, 3 a fault: the store is in use or of another version, say.
"""
from __future__ import annotations

import argparse
import re
import sys
from datetime import time
from pathlib import Path

from thesaurus_desk.auth.roles import Role, role_named
from thesaurus_tools.command_line import natural, parser_of

LIMITS = ("resources", "labels", "links", "postings", "moves")
ROLES = tuple(it.word for it in Role if it > Role.VISITOR)
COMMANDS = ("serve", "user", "check")
PORTS = 65535


def port_number(text: str) -> int:
    """Returns the port in an argument."""
    if not re.fullmatch("[0-9]{1,5}", text) or int(text) > PORTS:
        raise argparse.ArgumentTypeError(f"{text} is no port")
    return int(text)


def process_count(text: str) -> int:
    """Returns the number of processes in an argument."""
    if not re.fullmatch("[0-9]{1,2}", text):
        raise argparse.ArgumentTypeError(f"{text} is not a number from 0 to 99")
    return int(text)


def hour_of_day(text: str) -> time:
    """Returns the hour in an argument."""
    try:
        return time.fromisoformat(text)
    except ValueError:
        raise argparse.ArgumentTypeError(f"{text} is no hour: write it as 02:30") from None


def group_role(text: str) -> tuple[str, Role]:
    """Returns the group in an argument, and its role."""
    name, _, word = text.rpartition("=")
    if not name.strip() or word not in ROLES:
        raise argparse.ArgumentTypeError(f"{text} isn't NAME=ROLE, with one of {', '.join(ROLES)}")
    return name.strip(), role_named(word)


def host_name(text: str) -> str:
    """Returns the host in an argument, as browsers send it."""
    if not re.fullmatch(r"[A-Za-z0-9.-]+(:[0-9]{1,5})?|\[[0-9a-fA-F:.]+\](:[0-9]{1,5})?", text):
        raise argparse.ArgumentTypeError(f"{text} is no name of a host; it is without https:// and without a path")
    return text.lower()


def add_store(parser: argparse.ArgumentParser) -> None:
    """Adds the options that name the store and the program."""
    add = parser.add_argument
    add("--db", type=Path, metavar="FILE", help="the store")
    add(
        "--program",
        "--thesaurus",
        metavar="PATH",
        help="the program; otherwise `thesaurus` in PATH, or the repository's",
    )
    for limit in LIMITS:
        add(f"--max-{limit}", type=natural, metavar="N", help=f"raise the program's limit of {limit}")


def serving_parser() -> argparse.ArgumentParser:
    """Returns the parser of the options for serving."""
    parser = parser_of("desk", __doc__ or "")
    add_store(parser)
    add = parser.add_argument
    add("--base", metavar="IRI", help="what the addresses of a new store begin with")
    add("--sample", action="store_true", help="a sample in a temporary folder, for one person at this machine")
    add("--alone", metavar="NAME", help="one person at this machine, under this name")
    add("--users", type=Path, metavar="FILE", help="several people: their names, roles and hashed passwords")
    add(
        "--proxy",
        type=Path,
        metavar="FILE",
        help="answer only a server in front that sends the secret in this file as X-Desk-Proxy (and X-Real-IP)",
    )
    add(
        "--remote-user",
        action="store_true",
        help="take the name from X-Remote-User of that server, and the role from --users",
    )
    add(
        "--group",
        type=group_role,
        action="append",
        default=[],
        metavar="NAME=ROLE",
        help="with --remote-user: the role of those of a group of X-Remote-Groups whom --users doesn't have",
    )
    add("--port", type=port_number, default=0, metavar="N", help="the port on 127.0.0.1; a free one if left out")
    add(
        "--host",
        type=host_name,
        action="append",
        default=[],
        metavar="NAME",
        help="a name by which browsers call the desk",
    )
    add("--secure", action="store_true", help="browsers come over TLS only")
    add("--public", action="store_true", help="let anyone read concepts and the interfaces for programs")
    add("--title", default="", metavar="TEXT", help="the name on top of each page; otherwise those of the schemes")
    add(
        "--backups",
        type=Path,
        metavar="FOLDER",
        help="make a backup of store, journal and users there each night; a head may ask for one at any time",
    )
    add("--keep", type=natural, default=30, metavar="N", help="how many backups are kept (30)")
    add("--backup-at", type=hour_of_day, default=time(2, 30), metavar="HH:MM", help="when each night (02:30)")
    add(
        "--workers",
        type=process_count,
        metavar="N",
        help="processes that make pages, beside the one that writes (1; 2 where there are four processors); 0: one "
        "process does all",
    )
    add("--threads", type=natural, default=8, metavar="N", help="requests answered at a time by each process (8)")
    add(
        "--patience",
        type=natural,
        default=120,
        metavar="SECONDS",
        help="how long to wait for an answer of the program, which is then started again (120)",
    )
    add("--no-browser", action="store_true", help="don't open a browser")
    return parser


def serving_arguments(words: list[str]) -> argparse.Namespace:
    """Returns the arguments for serving. Ends with status 2 if they don't fit together."""
    parser = serving_parser()
    given = parser.parse_args(words)
    if given.sample and (given.db or given.base or given.users):
        parser.error("--sample has a store of its own, for one person: leave out --db, --base and --users")
    if not given.db and not given.sample:
        parser.error("--db FILE is needed: which store? (--sample shows one)")
    if not given.sample and bool(given.users) == bool(given.alone):
        parser.error("one of --alone NAME and --users FILE is needed: who may come in?")
    if not given.users and (given.proxy or given.remote_user or given.public):
        parser.error("--alone and --sample are for one person at this machine, without a server in front")
    if not given.users and given.workers:
        parser.error("--alone and --sample are served by one process: --workers is for --users")
    if given.remote_user and not given.proxy:
        parser.error("--remote-user needs --proxy FILE, or any program on this machine could send a name")
    # (each process that makes pages has the same options)
    given.words = words
    if given.group and not given.remote_user:
        parser.error("--group needs --remote-user: a server in front says who is in which group")
    return given


def user_parser() -> argparse.ArgumentParser:
    """Returns the parser of the commands for users."""
    parser = argparse.ArgumentParser(prog="desk user", description="Keeps the users of the desk.")
    commands = parser.add_subparsers(dest="command", required=True, metavar="COMMAND")
    kinds = {
        "add": "adds a user; the password is asked for, or read from standard input",
        "list": "prints the users and their roles",
        "role": "gives a user another role",
        "password": "gives a user another password; the user's sessions end",
        "remove": "removes a user, whose sessions end; the journal keeps what was done",
        "token": "prints a new token, by which a program is the user; the one before isn't good any more",
        "forget": "removes a user, and puts a number in place of the name in the journal, while no desk is running",
    }
    for name, text in kinds.items():
        command = commands.add_parser(name, help=text, description=f"{text[0].upper()}{text[1:]}.")
        if name != "list":
            command.add_argument("name", metavar="NAME")
        if name in ("add", "role"):
            command.add_argument("--role", choices=ROLES, required=True, help="reader, indexer, editor or head")
        if name == "add":
            command.add_argument(
                "--no-password", action="store_true", help="a user whose name a server in front sends (--remote-user)"
            )
        if name == "token":
            command.add_argument("--remove", action="store_true", help="take the user's token away")
        if name == "forget":
            command.add_argument("--db", type=Path, required=True, metavar="FILE", help="the store")
            command.add_argument("--backups", type=Path, metavar="FOLDER", help="say which backups have the name still")
        command.add_argument(
            "--users", type=Path, required=True, metavar="FILE", help="the users' file; it is made if need be"
        )
    return parser


def check_parser() -> argparse.ArgumentParser:
    """Returns the parser of the command that compares the journal with the store."""
    parser = argparse.ArgumentParser(
        prog="desk check",
        description="Compares the desk's journal with the store, and with its own digests, while no desk is running.",
    )
    parser.add_argument("--db", type=Path, metavar="FILE", required=True, help="the store")
    parser.add_argument("--digest", default="", help="one that was printed before: the journal must have it still")
    return parser


def main(words: list[str] | None = None) -> int:
    """Carries out a command, and returns the exit status."""
    words = sys.argv[1:] if words is None else words
    command, rest = (words[0], words[1:]) if words[:1] and words[0] in COMMANDS else ("serve", words)
    if command == "user":
        from thesaurus_desk.auth.user_commands import change_users

        return change_users(user_parser().parse_args(rest))
    if command == "check":
        given = check_parser().parse_args(rest)
        from thesaurus_desk.server import check_journal

        return check_journal(given)
    given = serving_arguments(rest)
    from thesaurus_desk.server import serve, serve_sample  # (help needs no Flask)

    return serve_sample(given) if given.sample else serve(given)
