"""Does the week of an office, by the tools: a vocabulary and a table become a store, records are indexed, terms are
kept, concepts are merged, split and corrected, and the thesaurus is published, backed up, restored and served behind
nginx. The commands are those of README.md and docs/GUIDE.md, with this office's files, names and numbers in place of
theirs; after each, what it prints and what the store holds is checked. What needs a tool is a task of its own, and left
out where the tool isn't installed. Each test looks at what was found wrong in one task."""
from __future__ import annotations

import csv
import importlib.util
import io
import json
import os
import re
import shutil
import subprocess
import time
from collections.abc import Callable
from pathlib import Path
from typing import Any, NamedTuple

import pytest
from fronting import EDITOR, READER, Site, fronted
from ports import free_port
from program import ROOT, built, lines_of, over, values_of
from serving import Served, serving
from vocabulary import has, ntriples, parent, turtle, word

README, GUIDE = ROOT / "README.md", ROOT / "docs" / "GUIDE.md"
# How many concepts the other program had, and how many records are indexed in the first file of postings.
CONCEPTS, RECORDS = 420, 600
BLOCK = re.compile(r"^```sh\n(.*?)^```$", re.M | re.S)
COMMAND = re.compile(r"(?:.*<<'END'.*\n(?:.*\n)*?END\n|(?:.*(?:[|\\]|&&)\n)*.*\n)")
# How long no command may take, in seconds.
PATIENCE = 300


def kept(number: int) -> bool:
    """Whether a concept of the vocabulary is in the store: one homonym has no label that isn't another concept's."""
    return not has(number, "homonym")


# What a command should print: a text, or a pattern of it.
Wanted = str | re.Pattern[str] | None
# A change of a command: what stands in it, and what is put in its place.
Change = tuple[str, str]


class Office:
    """The office's folder with its store, the documents' commands, and what was checked in each task: what is wrong of
    it, if anything."""

    def __init__(self, room: Path) -> None:
        self.room, self.store = room, room / "museum.db"
        self.numbers: dict[str, int] = {}
        self.task = ""
        self.checked: dict[str, list[str | None]] = {}

    def equip(self) -> None:
        """Puts the program and the tools where the documents' commands find them."""
        launcher = self.room / "thesaurus"
        launcher.write_text(f'#!/bin/sh\nexec "{built()}" "$@"\n', encoding="utf-8")
        launcher.chmod(0o755)
        (self.room / "tools").symlink_to(ROOT / "tools")

    def command(self, part: str, page: Path) -> str:
        """Returns the first command of a page that has a part."""
        for block in BLOCK.findall(page.read_text(encoding="utf-8")):
            for command in COMMAND.findall(block):
                if part in command:
                    return command
        raise AssertionError(f"{page} has no command with {part}")

    def do(
        self, what: str, part: str, *changes: Change, page: Path = GUIDE, wanted: Wanted = None, status: int = 0
    ) -> str:
        """Runs a command of a page, each of the changes made in it, checks what it prints, and returns that."""
        command = self.command(part, page)
        for old, new in changes:
            assert old in command, f"{what}: the command of {page.name} has no {old}: {command}"
            command = command.replace(old, new)
        return self.run(what, command, wanted, status)

    def run(self, what: str, command: str, wanted: Wanted = None, status: int = 0) -> str:
        """Runs a command, checks its status and what it prints, which is a text or a pattern, and returns that."""
        environment = {
            **os.environ,
            "PATH": f"{self.room}:{os.environ['PATH']}",
            "SSL_CERT_FILE": str(self.room / "tls.crt"),
        }
        ran = subprocess.run(
            ["sh", "-c", command],
            cwd=self.room,
            env=environment,
            stdout=subprocess.PIPE,
            stderr=subprocess.STDOUT,
            timeout=PATIENCE,
            check=False,
        )
        text = ran.stdout.decode()
        is_right = wanted is None or (wanted.search(text) if isinstance(wanted, re.Pattern) else wanted == text)
        self.check(what, ran.returncode == status and is_right, f"status {ran.returncode}: {text[-600:]}\nof {command}")
        return text

    def check(self, what: str, is_right: object, found: object = "") -> None:
        """Notes whether something is right, or else what was found."""
        self.checked[self.task].append(None if is_right else f"{what}: {found}")

    def ask(self, *requests: object) -> list[Any]:
        """Returns the program's own answers."""
        return values_of(over(self.store, "script", lines_of(requests)).out)

    def view(self, number: int) -> Any:
        return self.ask({"get": "concept", "number": number})[0]

    def count(self) -> int:
        """Returns how many resources the store has."""
        return int(over(self.store, "check").out.split()[1].removeprefix(b"resources="))

    def number(self, concept: int) -> int:
        """Returns the number of a concept of the vocabulary."""
        return self.numbers[f"https://old.example/concepts/{concept}"]

    def report(self, words: str) -> list[list[str]]:
        """Returns the rows of a report, without the heading."""
        ran = subprocess.run(
            [ROOT / "tools" / "report", "--db", self.store, *words.split(), "--csv"],
            capture_output=True,
            text=True,
            check=False,
        )
        return list(csv.reader(io.StringIO(ran.stdout)))[1:]


def lines(*texts: str) -> str:
    return "".join(f"{it}\n" for it in texts)


# --- Monday: the vocabulary comes in ---


def bring_in(office: Office) -> None:
    """A vocabulary in Turtle, with its defects, and a table in another scheme of the store."""
    # (where nothing reads Turtle, it is N-Triples)
    ending, write = ("ttl", turtle) if is_installed("rdflib") else ("nt", ntriples)
    (office.room / f"museum.{ending}").write_text(write(CONCEPTS), encoding="utf-8")
    lost = {
        kind: sum(has(it, kind) for it in range(1, CONCEPTS + 1))
        for kind in ("notation", "definition", "spaces", "same twice")
    }
    wanted = (
        f"left out: BadText {lost['spaces']}, S13 {lost['same twice']}, lost "
        f"{lost['notation'] + lost['definition'] + 1} "
        f"(notation {lost['notation']}, definition {lost['definition']}, http://purl.org/dc/terms/created 1), "
        "P1 3, UnknownResource 1, S27 1;"
    )
    changes = [
        ("mine", "museum"),
        ("museum.ttl", f"museum.{ending}"),
        ("museum.journal ", "museum.journal --names names.csv "),
    ]
    text = office.do("SKOS", "tools/from-skos mine.ttl", *changes, page=README, wanted=re.compile(re.escape(wanted)))
    count = len((office.room / "museum.jsonl").read_text(encoding="utf-8").splitlines())
    office.check("loading", text.endswith(f"\nload: {count} requests: {count} done\n"), text[-200:])
    text = office.do("loading again", "tools/from-skos mine.ttl", *changes, page=README)
    office.check(
        "loading again",
        text.endswith(f"\nload: {count} requests: {count} done; {count} were answered in earlier runs\n"),
        text[-200:],
    )
    office.numbers = {
        name: int(number) for name, number in list(csv.reader((office.room / "names.csv").open(encoding="utf-8")))[1:]
    }
    for concept in (1, 12, 100, CONCEPTS):
        view, name = office.view(office.number(concept)), word(concept)
        above = [office.number(parent(concept))] if parent(concept) else []
        office.check(
            "a concept",
            ["en", name] in view["pref"] and ["de", f"{name}heit"] in view["pref"] and view["broader"] == above,
            view,
        )
    (died,) = office.ask({"get": "concept", "number": office.number(401)})
    office.check("a dead concept", not died["live"] and died["replaced"] == office.number(400), died)


def bring_in_table(office: Office) -> None:
    """A table, into a second scheme of the store."""
    own = ("instruments.db", "museum.db")
    office.do("the table", "cat > instruments.csv")
    office.do("CSV", "tools/from-csv instruments.csv", wanted="")
    office.do(
        "loading the table",
        "tools/load --db instruments.db",
        own,
        (" --base https://instruments.example/id/", ""),
        ("instruments.journal ", "instruments.journal --names more.csv "),
        wanted="load: 12 requests: 12 done\n",
    )
    office.numbers |= {
        name: int(number) for name, number in list(csv.reader((office.room / "more.csv").open(encoding="utf-8")))[1:]
    }
    scheme = office.numbers["scheme Musical instruments"]
    office.do(
        "its tree",
        "./thesaurus --db instruments.db --existing hierarchical",
        own,
        ("--scheme 1", f"--scheme {scheme}"),
        wanted=lines("Instruments à cordes", "  Harpes", "  Luths"),
    )


def check_rules(office: Office) -> None:
    """The export keeps the rules of SKOS."""
    office.do("export", "./thesaurus --db museum.db --existing export > museum.nt", wanted="")
    office.do("rules", "tools/check-skos museum.nt", wanted="all rules hold\n")


def read_export(office: Office) -> None:
    """Another reader reads the export."""
    count = len((office.room / "museum.nt").read_bytes().splitlines())
    office.do("another reader", "rapper -q -i ntriples -c museum.nt", wanted=f"{count}\n")


# --- Tuesday: records are indexed ---


def index(office: Office) -> None:
    """A file of postings, once more with a further row, and with rows that are wrong."""
    rows = [f'p-{it},"Object {it}, found",{office.number(place_of(it))}' for it in range(1, RECORDS + 1)]
    (office.room / "postings.csv").write_text(lines("key,record,concept", *rows), encoding="utf-8")
    new = lines("row,outcome,number", *(f"{it},new,{it}" for it in range(1, RECORDS + 1)))
    office.do("import", "./thesaurus --db museum.db --existing import postings.csv", wanted=new)
    last = f'p-{RECORDS + 1},"Object of today",{office.number(17)}'
    office.do("a further row", "echo 'p-6,", ('p-6,"Bow for a violin, Paris, about 1820",6', last), wanted="")
    again = new.replace(",new,", ",again,") + f"{RECORDS + 1},new,{RECORDS + 1}\n"
    office.do("import again", "./thesaurus --db museum.db --existing import postings.csv", wanted=again)
    (office.room / "wrong.csv").write_text(
        lines(
            "key,record,concept",
            "q-1,A,999999",
            "p-1,Another,2",
            "q-2,B",
            f"q-3,C,{office.numbers['scheme Musical instruments']}",
        ),
        encoding="utf-8",
    )
    office.do(
        "wrong rows",
        "./thesaurus --db museum.db --existing import postings.csv",
        ("postings.csv", "wrong.csv"),
        status=1,
        wanted=lines("row,outcome,number", "1,UnknownResource,", "2,KeyReused,", "3,BadShape,", "4,WrongKind,"),
    )
    office.check(
        "totals",
        office.ask({"get": "totals"}) == [{"accepted": RECORDS + 1, "standing": RECORDS + 1, "withdrawn": 0}],
        office.ask({"get": "totals"}),
    )


def place_of(record: int) -> int:
    """The concept of a record: one of those at hand, in turn."""
    return 1 + record % 300


def number_old(office: Office) -> None:
    """A file of postings with the concepts' old IRIs gets their numbers, by the names that the load wrote; one that the
    store lacks is reported."""
    there = [it for it in range(1, 31) if kept(place_of(it))]
    rows = [(f"Old object {it}", f"https://old.example/concepts/{place_of(it)}") for it in there]
    (office.room / "museum-old.csv").write_text(
        lines("record,concept", *(",".join(it) for it in rows)), encoding="utf-8"
    )
    change = ("--db copy.db --terms en", "--names names.csv")
    office.do("old postings", "tools/number-postings museum-old.csv", change, wanted="")
    numbered = list(csv.reader((office.room / "museum-new.csv").open(encoding="utf-8")))
    wanted = [(record, str(office.numbers[iri])) for record, iri in rows]
    office.check(
        "old postings",
        [tuple(it[1:]) for it in numbered[1:]] == wanted and len({it[0] for it in numbered}) == len(numbered),
        numbered[:3],
    )
    with (office.room / "museum-old.csv").open("a", encoding="utf-8") as file:
        file.write("An object,https://old.example/concepts/none\n")
    said = f"number-postings: museum-old.csv:{len(rows) + 2}: https://old.example/concepts/none: no concept has it\n"
    office.do(
        "an old posting of nothing",
        "tools/number-postings museum-old.csv",
        change,
        wanted=re.compile(re.escape(said)),
        status=1,
    )


def index_one(office: Office) -> None:
    """A single posting, and what is indexed with a concept, and by a record."""
    number = office.number(20)
    there = sum(place_of(it) == 20 for it in range(1, RECORDS + 1))
    text = office.do(
        "a posting",
        '{"do":"post","key":"p-7"',
        ("p-7", "desk-1"),
        ("Violin, Markneukirchen 1900", "A thing at the desk"),
        ('"concept":3', f'"concept":{number}'),
    )
    posted, listed = map(json.loads, text.splitlines())
    office.check(
        "a posting",
        posted == {"ok": RECORDS + 2}
        and listed["postings"][-1] == [RECORDS + 2, "desk-1", "A thing at the desk"]
        and len(listed["postings"]) == there + 1,
        text,
    )
    office.do(
        "a record",
        'record "Pedal harp',
        ("Pedal harp, Paris 1785", "Object 19, found"),
        wanted=re.compile(rf"^19 +p-19 +Object 19, found +{number} +{number} +{word(20)} +standing$", re.M),
    )
    office.do("counts", "counts --concepts", wanted=re.compile(rf"^{number} +{word(20)} +{there + 1} +\d+$", re.M))
    counted = office.report("counts --concepts")
    office.check("all counts", sum(int(it[2]) for it in counted) == RECORDS + 2, counted[:3])


# --- Wednesday: terms ---


def add_terms(office: Office) -> None:
    """Labels and notes, another preferred label, what a rule refuses, and new concepts by their names."""
    ends = {it: office.number(it) for it in (30, 31, 32, 33)}
    swap = [
        ('"owner":2', f'"owner":{ends[30]}'),
        ('"owner":3', f'"owner":{ends[31]}'),
        ('"owner":4', f'"owner":{ends[32]}'),
        ('"owner":5', f'"owner":{ends[33]}'),
        ('"tag":"de"', '"tag":"nl"'),
    ]
    office.do("labels", "Saiteninstrumente", *swap, wanted=lines(*['{"done":true}'] * 5))
    office.do(
        "a new term",
        '"do":"relabel"',
        ('"owner":3', f'"owner":{ends[31]}'),
        ('"tag":"de"', '"tag":"nl"'),
        wanted='{"done":true}\n',
    )
    view = office.view(ends[31])
    office.check(
        "labels",
        ["nl", "Geigen"] in view["pref"]
        and ["nl", "Violinen"] in view["alt"]
        and view["scope"][-1][1].startswith("Bowed"),
        view,
    )
    office.do(
        "refused",
        "Fine violins",
        ('"owner":3', f'"owner":{ends[31]}'),
        ('"tag":"de","text":"Harfen"', '"tag":"nl","text":"Harfen"'),
        wanted=lines('{"no":"S14"}', '{"no":"PreferredTaken"}', "status 1"),
    )
    own = ("copy.db", "museum.db")
    office.do("new terms", "cat > new.jsonl")
    office.do(
        "a trial",
        "tools/load --db copy.db --dry",
        own,
        wanted="load: 3 requests: 3 done on a copy, of which nothing is kept\n",
    )
    before = office.report("find Plucked")
    office.do(
        "new terms loaded", "tools/load --db copy.db --journal new.journal", own, wanted="load: 3 requests: 3 done\n"
    )
    found = office.report("find Plucked")
    office.check("new terms", not before and len(found) == 1, found)
    office.numbers["plucked"], office.numbers["lutes"] = int(found[0][0]), int(found[0][0]) + 1


def link(office: Office) -> None:
    """A concept gets another place; related concepts, a cycle that is refused, mappings, and a collection."""
    plucked, lutes, there = office.numbers["plucked"], office.numbers["lutes"], office.number(5)
    office.do(
        "another place",
        '"do":"unlink","kind":"broaderGeneric"',
        ("copy.db", "museum.db"),
        ('"a":12', f'"a":{lutes}'),
        ('"b":3', f'"b":{there}'),
        ('"b":11', f'"b":{plucked}'),
        wanted=lines('{"done":[{"done":true},{"done":true}]}'),
    )
    office.do(
        "its path",
        "report --db copy.db path 12",
        ("copy.db", "museum.db"),
        ("path 12", f"path {lutes}"),
        wanted=re.compile(rf"^{word(5)} > Lutes +{there} > {lutes}$", re.M),
    )
    office.do(
        "links",
        '"kind":"broaderInstantial"',
        *link_changes(office),
        status=0,
        wanted=lines(*['{"done":true}'] * 6, '{"no":"Cycle"}', "status 1"),
    )
    view = office.view(office.number(320))
    office.check(
        "links",
        [it[0] for it in view["typed"]].count("broaderGeneric") == 1 and office.number(322) in view["related"],
        view,
    )
    first = office.ask({"do": "outside", "iri": "http://www.wikidata.org/entity/Q1"})[0]["ok"] + 1
    office.do(
        "mappings",
        '{"do":"outside"',
        ('"a":3', f'"a":{office.number(320)}'),
        ('"a":5', f'"a":{office.number(323)}'),
        ('"b":8', f'"b":{first}'),
        ('"b":9', f'"b":{first + 1}'),
        wanted=lines(f'{{"ok":{first}}}', f'{{"ok":{first + 1}}}', '{"done":true}', '{"done":true}'),
    )
    made = first + 2
    text = office.do(
        "a collection",
        '{"do":"collection"',
        ('"a":10', f'"a":{made}'),
        ('"b":3', f'"b":{office.number(320)}'),
        ('"b":5', f'"b":{office.number(323)}'),
        ('"number":3', f'"number":{office.number(320)}'),
    )
    office.check(
        "a collection",
        json.loads(text.splitlines()[-1])["collections"] == [made]
        and ["exact", first] in json.loads(text.splitlines()[-1])["mappings"],
        text,
    )


def link_changes(office: Office) -> list[Change]:
    """The guide's six links and the one that closes a cycle, among six concepts that have none of them yet."""
    old = {2: 60, 3: 320, 4: 322, 5: 323, 6: 330, 7: 331}
    return (
        [(f'"a":{it}', f'"a":{office.number(at)}') for it, at in old.items() if it != 2]
        + [('"a":2,', f'"a":{office.number(60)},')]
        + [(f'"b":{it}', f'"b":{office.number(at)}') for it, at in old.items() if it in (2, 3, 4, 7)]
    )


def find(office: Office) -> None:
    """What the reports find, against the vocabulary that came in."""
    name = word(77)
    office.do(
        "find",
        "tools/report --db museum.db find",
        ("find fiddle", f"find {name.upper()}"),
        wanted=re.compile(rf"^{office.number(77)} +concept +alt +en +The {name.lower()}s +{name} +live$", re.M),
    )
    text = office.do("missing", "tools/report --db museum.db missing --lang de\n", ("--lang de", "--lang fr"))
    wanted = [it for it in range(1, CONCEPTS + 1) if it % 3 == 0 and kept(it) and not has(it, "dead")]
    office.check(
        "missing",
        len(text.splitlines()) - 1 == len(wanted) + 2 and all(f"{office.number(it)} " in text for it in wanted),
        text[-300:],
    )
    office.do(
        "a path",
        "tools/report --db museum.db path 7",
        ("path 7", f"path {office.number(130)}"),
        wanted=re.compile(f"^{word(2)} > {word(16)} > {word(130)} +", re.M),
    )
    below = office.do("below", "tools/report --db museum.db below 2", ("below 2", f"below {office.number(9)}"))
    wanted = [it for it in range(1, CONCEPTS + 1) if parent(it) == 9 and kept(it) and not has(it, "dead")]
    office.check(
        "below", [int(it.split()[1]) for it in below.splitlines()[1:]] == [office.number(it) for it in wanted], below
    )
    office.do(
        "tops", "tools/report --db museum.db tops", wanted=re.compile(rf"^1 +{office.number(1)} +{word(1)} +\d+$", re.M)
    )
    office.do(
        "orphans",
        "tools/report --db copy.db orphans",
        ("copy.db", "museum.db"),
        wanted=re.compile(rf"^{office.numbers['plucked']} +Plucked instruments$", re.M),
    )
    preferred = sum(kept(it) for it in range(1, CONCEPTS + 1))
    office.do("how many", "counts | grep pref", wanted=re.compile(rf"^labels pref +de +{preferred + 1}$", re.M))
    office.do("duplicates", "tools/report --db museum.db duplicates", wanted=re.compile("^group +number"))
    office.do("to translate", "missing --lang de --csv", ("--lang de", "--lang fr"), wanted="")
    rows = list(csv.reader((office.room / "to-translate.csv").open(encoding="utf-8")))
    row = [str(office.number(3)), word(3), ""]
    office.check("to translate", rows[0] == ["number", "term", "pref@fr"] and row in rows, rows[:4])


# --- Thursday: merges, splits, mistakes ---


def merge(office: Office) -> None:
    """A merge moves what is posted and what is sent later; a split gives some of it a concept of its own."""
    source, target = office.number(16), office.number(17)
    moved, stays = ([it for it in range(1, RECORDS + 1) if place_of(it) == at] for at in (16, 17))
    stays += [RECORDS + 1]
    office.do("a copy", "mkdir -p museum-before", wanted="")
    text = office.do(
        "a merge",
        '{"do":"merge"',
        ('"source":4', f'"source":{source}'),
        ('"target":3', f'"target":{target}'),
        ('"number":3', f'"number":{moved[0]}'),
        ('"number":4', f'"number":{source}'),
    )
    merged, posting, dead = map(json.loads, text.splitlines())
    office.check(
        "a merge", (merged, posting["place"], dead["replaced"]) == ({"moved": len(moved)}, target, target), text
    )
    text = office.do(
        "a late posting",
        '"key":"p-8"',
        ("p-8", "late-1"),
        ('"concept":4', f'"concept":{source}'),
        ('"number":8', f'"number":{RECORDS + 3}'),
    )
    posting = json.loads(text.splitlines()[1])
    office.check("a late posting", posting["place"] == target and posting["first"] == source, text)
    taken = [*moved, RECORDS + 3]
    made = office.count() + 1
    split = json.loads(
        office.do("a split", '{"do":"split"', ('"source":3', f'"source":{target}'), ("[3,4,8]", json.dumps(taken)))
    )
    text = office.do(
        "its place", '"a":11,"b":3', ('"a":11,"b":3', f'"a":{made},"b":{target}'), ('"concept":11', f'"concept":{made}')
    )
    linked, there, totals = map(json.loads, text.splitlines())
    office.check(
        "a split",
        (split, linked) == ({"moved": len(taken), "ok": made}, {"done": True})
        and [it[0] for it in there["postings"]] == taken,
        text,
    )
    office.check(
        "what stays",
        [it[0] for it in office.ask({"get": "postings", "concept": target})[0]["postings"]] == stays,
        stays,
    )
    office.check("nothing lost", totals == {"accepted": RECORDS + 3, "standing": RECORDS + 3, "withdrawn": 0}, totals)
    text = office.do("moves", "tools/report --db museum.db moves 3", ("moves 3", f"moves {moved[0]}"))
    steps = [(f" {source} ", f" {target} "), (f" {target} ", f" {made} ")]
    office.check(
        "moves",
        len(text.splitlines()) == 3
        and all(one in line and other in line for line, (one, other) in zip(text.splitlines()[1:], steps)),
        text,
    )


def correct(office: Office) -> None:
    """A wrong posting, a posting too many, a merge taken back, and a concept that ends."""
    posting, there = RECORDS + 2, office.number(20)
    text = office.do(
        "a wrong posting",
        "tools/repost --db museum.db --posting 7",
        ("--posting 7", f"--posting {posting}"),
        ("--to 11", f"--to {office.number(21)}"),
    )
    office.check("a wrong posting", "keeps its key desk-1" in text, text)
    office.do(
        "put right",
        "tools/load --db museum.db --as-one right.jsonl",
        wanted="load: 2 requests: 2 done as one\n",
    )
    office.check(
        "put right",
        [it[4:] for it in office.report("record --part desk")]
        == [[str(there), word(20), "withdrawn"], [str(office.number(21)), word(21), "standing"]],
        office.report("record --part desk"),
    )
    office.do(
        "withdrawn",
        '{"do":"withdraw","posting":1}',
        wanted=lines('{"done":true}', f'{{"accepted":{RECORDS + 4},"standing":{RECORDS + 2},"withdrawn":2}}'),
    )
    source, target = office.number(16), office.number(17)
    text = office.do("unmerge", "tools/unmerge --db museum.db", (" 4 >", f" {source} >"))
    office.check("unmerge", f"{source} stays dead" in text and "moved on since" in text, text)
    office.do(
        "taken back",
        "tools/load --db museum.db --as-one back.jsonl",
        wanted=re.compile(r"^load: (\d+) requests: \1 done as one\n$"),
    )
    again = office.report(f"find {word(16)} --kinds pref --lang en")
    back = office.view(int(again[-1][0]))
    office.check(
        "taken back",
        back["live"]
        and [it[1] for it in back["pref"]] == [word(16) + it for it in ("heit", "", "ée")]
        and back["broader"] == [office.number(2)]
        and len(back["narrower"]) == 8,
        back,
    )
    office.check(
        "taken back",
        not {word(16), f"{word(16)}heit"} & {it[1] for it in office.view(target)["alt"]},
        office.view(target),
    )
    ends = (('"concept":3', f'"concept":{target}'), ('"concept":7', f'"concept":{office.number(419)}'))
    office.do("ended", '{"do":"deprecate"', *ends, wanted=lines('{"no":"HasPostings"}', '{"done":true}', "status 1"))


# --- Friday: publishing, copies, a service ---


def publish(office: Office) -> None:
    """Displays, a web site and a picture."""
    shown = office.do("alphabetical", "./thesaurus --db museum.db --existing alphabetical", (" | head -n 7", ""))
    office.check(
        "alphabetical",
        f"\n{word(13)} (old term)\n  USE {word(13)}\n" in shown
        and f"\n{word(12)}\n  SN For {word(12).lower()} in" in shown,
        shown[:300],
    )
    shown = office.do("a tree", "./thesaurus --db museum.db --existing hierarchical --scheme 1 --lang de")
    office.check("a tree", f"{word(1)}heit\n" in shown and f"\n  {word(7)}heit\n" in shown, shown[:300])
    began = time.monotonic()
    office.do(
        "a site", "tools/site museum.nt public --langs en,de", ("--langs en,de", "--langs en,de,fr"), wanted="a site\n"
    )
    pages = [office.room / "public" / it / f"{office.number(12)}.html" for it in ("en", "de", "fr")]
    texts = [it.read_text(encoding="utf-8") if it.exists() else "" for it in pages]
    office.check(
        "pages",
        all(f"{word(12)}{end}" in it for it, end in zip(texts, ("", "heit", "")))
        and time.monotonic() - began < PATIENCE,
        texts[0][:300],
    )
    office.do(
        "a picture",
        "tools/picture museum.nt 3",
        ("museum.nt 3", f"museum.nt {office.number(17)}"),
        wanted="digraph thesaurus {\n",
    )


def draw(office: Office) -> None:
    """The picture is drawn."""
    office.run("drawn", "dot -Tsvg violins.dot | grep -c '<svg'", "1\n")


def copy(office: Office) -> None:
    """A backup, what has changed since Thursday, and the backup restored."""
    sizes = office.do("check", "./thesaurus --db museum.db --existing check", wanted=re.compile("^ok resources="))
    office.do("a backup", "tools/backup museum.db backups", wanted="a backup\n")
    text = office.do("changed", "changed --since museum-before/museum.db", (" | head -n 3", ""))
    said = {tuple(it.split()[:2]) for it in text.splitlines()[1:]}
    office.check(
        "changed",
        {("merged", str(office.number(16))), ("deprecated", str(office.number(419))), ("new", "concept")} <= said,
        text[:400],
    )
    office.ask({"do": "addLabel", "owner": 1, "kind": "alt", "tag": "en", "text": "A mistake"})
    office.do("moved away", "mkdir -p museum-after", wanted="")
    office.do("restored", "cp backups/museum-", wanted="")
    office.do("restored", "./thesaurus --db museum.db --existing check", wanted=sizes)
    office.check(
        "restored",
        not office.report("find mistake") and (office.room / "museum-after" / "museum.db").exists(),
        "the mistake is there",
    )


def serve(office: Office) -> None:
    """The guide's own requests."""
    port = free_port()
    parts = "serve --port 8080 --count 2", "http://127.0.0.1:8080/postings", "127.0.0.1:8080/totals", "wait\n"
    command = "".join(office.command(it, GUIDE) for it in parts)
    wanted = (
        f"^listening on 127.0.0.1:{port}\n" f'{{"first":.*"number":{RECORDS + 3},.*\n{{"accepted":{RECORDS + 4},.*\n$'
    )
    command = command.replace("8080", str(port)).replace("/postings/8", f"/postings/{RECORDS + 3}")
    office.run("served", command, re.compile(wanted))


def serve_behind_nginx(office: Office) -> None:
    """Readers and editors behind nginx, while a backup is made."""
    with serving(office.store, 1_000_000) as served, fronted(office.room, served.port, "localhost") as site:
        change_behind_nginx(office, site)
        read_behind_nginx(office, site, served)
    office.check("what was served", len(office.report("find today")) == 1, office.report("find today"))
    office.do("the end", "./thesaurus --db museum.db --existing check", wanted=re.compile("^ok resources="))


def url_of(user: tuple[str, str], site: Site) -> str:
    return f"https://{user[0]}:{user[1].replace(' ', '%20')}@localhost:{site.tls}"


def change_behind_nginx(office: Office, site: Site) -> None:
    """A reader may change nothing, and an editor may."""
    made = '{"as":"x","do":"concept","scheme":1,"tag":"en","text":"A term of today"}\n'
    linked = '{"do":"link","kind":"broader","a":"$x","b":%d}\n' % office.number(9)
    (office.room / "today.jsonl").write_text(made + linked, encoding="utf-8")
    reader, editor = url_of(READER, site), url_of(EDITOR, site)
    office.run("a reader's change", f'tools/load --http "{reader}" today.jsonl', re.compile("401"), status=3)
    office.run(
        "an editor's change",
        f'tools/load --http "{editor}" --journal today.journal today.jsonl',
        "load: 2 requests: 2 done\n",
    )
    host = {"host": "localhost", "name": "localhost"}
    scheme = '{"do":"scheme","tag":"en","text":"By a page"}'
    status, body, _ = site.ask("POST", "/requests", scheme, user=EDITOR, **host, Origin="https://evil.example")
    office.check("a page of another site", status == 403, body)


def read_behind_nginx(office: Office, site: Site, served: Served) -> None:
    """A reader's report, a stranger's, the site, and a backup."""
    report = f'tools/report --http "{url_of(READER, site)}" path {office.number(130)}'
    office.run("a reader's report", report, re.compile(f"> {word(130)} "))
    report = f'tools/report --http "https://localhost:{site.tls}" tops'
    office.run("a stranger", report, re.compile("401"), status=3)
    status, body, _ = site.ask("GET", "/site/", host="localhost", name="localhost")
    office.check("the site", status == 200 and b"<html" in body, body[:200])
    backup = f"tools/backup museum.db nightly --port {served.port}"
    office.run("a backup while it serves", backup, re.compile("the program was held for"))
    office.run("in use", "tools/report --db museum.db tops", re.compile("another program has it open"), status=3)


class Task(NamedTuple):
    """A task of a day, and the tools that it needs."""

    day: str
    perform: Callable[[Office], None]
    tools: tuple[str, ...] = ()

    @property
    def name(self) -> str:
        return f"{self.day}: {self.perform.__name__}"


TASKS = (
    Task("Monday", bring_in),
    Task("Monday", bring_in_table),
    Task("Monday", check_rules),
    Task("Monday", read_export, ("rapper",)),
    Task("Tuesday", index),
    Task("Tuesday", number_old),
    Task("Tuesday", index_one),
    Task("Wednesday", add_terms),
    Task("Wednesday", link),
    Task("Wednesday", find),
    Task("Thursday", merge),
    Task("Thursday", correct),
    Task("Thursday", check_rules),
    Task("Thursday", read_export, ("rapper",)),
    Task("Friday", publish),
    Task("Friday", draw, ("dot",)),
    Task("Friday", copy),
    Task("Friday", serve, ("curl",)),
    Task("Friday", serve_behind_nginx, ("nginx", "openssl")),
)


def is_installed(tool: str) -> bool:
    return bool(shutil.which(tool) or importlib.util.find_spec(tool))


@pytest.fixture(scope="module")
def week(shared_room: Path) -> Office:
    """The office after its week."""
    office = Office(shared_room)
    office.equip()
    for task in TASKS:
        office.task = task.name
        office.checked[task.name] = []
        if all(map(is_installed, task.tools)):
            try:
                task.perform(office)
            except Exception as error:  # a task that breaks off is wrong, and the next one is tried
                office.check("broken off", False, repr(error))
    return office


@pytest.mark.parametrize(
    "task", [pytest.param(it, id=it.name, marks=[pytest.mark.needs(*it.tools)] * bool(it.tools)) for it in TASKS]
)
def test_task(task: Task, week: Office) -> None:
    assert week.checked[task.name]
    assert [it for it in week.checked[task.name] if it] == []


@pytest.mark.needs("rdflib")
def test_vocabulary_comes_in_as_turtle(week: Office) -> None:
    assert (week.room / "museum.ttl").exists()
