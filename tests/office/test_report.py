"""tools/report: each report on a store in a file, and on the same store as the program serves it, by a copy and behind
another server; and the objects of tools/thesaurus_tools against the plain program's state. Files stay as they are, also
where a kill left a log; a store that is open, none, or a damaged one is refused."""
from __future__ import annotations

import contextlib
import hashlib
import shutil
import sqlite3
import subprocess
from collections.abc import Iterable, Iterator
from pathlib import Path
from typing import Any, NamedTuple

import pytest
from forwarding import forwarding
from office import Request, generated, tool, write_store
from plain import Plain
from ports import free_port
from program import Ended, built, lines_of, over, values_of
from serving import serving
from thesaurus_tools.program_store import read_served
from thesaurus_tools.server import Server
from thesaurus_tools.store import Store
from thesaurus_tools.store_options import open_file

BEFORE: list[Request] = [
    {"do": "scheme", "tag": "en", "text": "Instruments"},
    *(
        {"do": "concept", "scheme": 1, "tag": "en", "text": text}
        for text in ("Strings", "Violins", "Fiddles", "Bows", "Folk instruments")
    ),
    {"do": "outside", "iri": "http://example.org/violin"},
    {"do": "collection", "scheme": 1, "tag": "en", "text": "Room 12"},
    {"do": "scheme", "tag": "en", "text": "Places"},
    {"do": "concept", "scheme": 9, "tag": "en", "text": "Crème-brûlée Street"},
    {"do": "addLabel", "owner": 3, "kind": "pref", "tag": "de", "text": "Geigen"},
    {"do": "addLabel", "owner": 3, "kind": "alt", "tag": "de", "text": "Violinen"},
    {"do": "addLabel", "owner": 3, "kind": "scope", "tag": "en", "text": "Not a violin of folk music."},
    {"do": "addLabel", "owner": 4, "kind": "alt", "tag": "en", "text": "Folk-instruments"},
    {"do": "addLabel", "owner": 5, "kind": "hidden", "tag": "en", "text": "BÔWS"},
    {"do": "addLabel", "owner": 2, "kind": "hidden", "tag": "en", "text": "bows"},
    {"do": "addLabel", "owner": 10, "kind": "alt", "tag": "en", "text": "crème brûlée street"},
    {"do": "link", "kind": "broaderGeneric", "a": 3, "b": 2},
    {"do": "link", "kind": "broader", "a": 4, "b": 2},
    {"do": "link", "kind": "broader", "a": 4, "b": 6},
    {"do": "link", "kind": "broaderPartitive", "a": 5, "b": 3},
    {"do": "link", "kind": "broaderPartitive", "a": 5, "b": 4},
    {"do": "link", "kind": "related", "a": 4, "b": 3},
    {"do": "link", "kind": "exact", "a": 3, "b": 7},
    {"do": "link", "kind": "close", "a": 10, "b": 3},
    {"do": "link", "kind": "member", "a": 8, "b": 3},
    *(
        {"do": "post", "key": f"p{n}", "record": f"Record {n % 3}", "concept": concept}
        for n, concept in enumerate((3, 3, 4, 5, 10), 1)
    ),
]
SINCE: list[Request] = [
    {"do": "concept", "scheme": 1, "tag": "de", "text": "Drehleiern"},
    {"do": "deprecate", "concept": 11},
    {"do": "merge", "source": 4, "target": 3},
    {"do": "post", "key": "p6", "record": 'récord, "6"', "concept": 4},
    {"do": "split", "source": 3, "tag": "en", "text": "Viols", "postings": [2]},
    {"do": "withdraw", "posting": 4},
    {"do": "dropLabel", "owner": 3, "kind": "alt", "tag": "de", "text": "Violinen"},
    {"do": "unlink", "kind": "close", "a": 10, "b": 3},
    {"do": "outside", "iri": "http://example.org/unused"},
]
# What each report prints of the store, as CSV.
REPORTS: dict[tuple[str, ...], str] = {
    (
        "find",
        "violin",
    ): """\
number,kind,label,lang,text,term,state
3,concept,pref,en,Violins,Violins,live
3,concept,scope,en,Not a violin of folk music.,Violins,live
""",
    (
        "find",
        "bow",
        "--kinds",
        "hidden",
        "--langs",
        "de",
    ): """\
number,kind,label,lang,text,term,state
2,concept,hidden,en,bows,Strings,live
5,concept,hidden,en,BÔWS,Bows,live
""",
    (
        "find",
        "FIDDL",
    ): """\
number,kind,label,lang,text,term,state
3,concept,alt,en,Fiddles,Violins,live
4,concept,pref,en,Fiddles,Fiddles,replaced by 3
""",
    (
        "find",
        "brulee",
    ): "number,kind,label,lang,text,term,state\n10,concept,pref,en,Crème-brûlée Street,Crème-brûlée Street,live\n"
    "10,concept,alt,en,crème brûlée street,Crème-brûlée Street,live\n",
    (
        "find",
        "e",
        "--lang",
        "de",
    ): """\
number,kind,label,lang,text,term,state
3,concept,pref,de,Geigen,Violins,live
11,concept,pref,de,Drehleiern,Drehleiern,deprecated
""",
    ("find", "room"): "number,kind,label,lang,text,term,state\n8,collection,pref,en,Room 12,Room 12,live\n",
    ("find", "nothing at all"): "number,kind,label,lang,text,term,state\n",
    (
        "missing",
        "--lang",
        "DE",
    ): "number,term,pref@de\n2,Strings,\n5,Bows,\n6,Folk instruments,\n10,Crème-brûlée Street,\n12,Viols,\n",
    (
        "missing",
        "--lang",
        "en",
        "--kind",
        "scope",
        "--langs",
        "de",
    ): "number,term,scope@en\n2,Strings,\n5,Bows,\n6,Folk instruments,\n10,Crème-brûlée Street,\n12,Viols,\n",
    ("mappings",): "number,term,kind,iri,label\n3,Violins,exact,http://example.org/violin,\n",
    ("orphans",): "number,term\n10,Crème-brûlée Street\n12,Viols\n",
    (
        "tops",
    ): "scheme,number,term,below\n1,2,Strings,2\n1,6,Folk instruments,2\n9,10,Crème-brûlée Street,0\n1,12,Viols,0\n",
    ("path", "5"): "path,numbers\nStrings > Violins > Bows,2 > 3 > 5\nFolk instruments > Violins > Bows,6 > 3 > 5\n",
    ("path", "3", "--langs", "fr,de"): "path,numbers\nStrings > Geigen,2 > 3\nFolk instruments > Geigen,6 > 3\n",
    ("path", "2"): "path,numbers\nStrings,2\n",
    ("below", "2"): "steps,number,term\n1,3,Violins\n2,5,Bows\n",
    ("below", "6", "--depth", "1"): "steps,number,term\n1,3,Violins\n",
    ("below", "5"): "steps,number,term\n",
    (
        "duplicates",
    ): """\
group,number,label,lang,text,term
1,2,hidden,en,bows,Strings
1,5,pref,en,Bows,Bows
2,3,alt,en,Folk-instruments,Violins
2,6,pref,en,Folk instruments,Folk instruments
""",
    (
        "duplicates",
        "--accents",
    ): """\
group,number,label,lang,text,term
1,2,hidden,en,bows,Strings
1,5,pref,en,Bows,Bows
1,5,hidden,en,BÔWS,Bows
2,3,alt,en,Folk-instruments,Violins
2,6,pref,en,Folk instruments,Folk instruments
""",
    (
        "counts",
        "--concepts",
    ): """\
number,term,postings,with below
2,Strings,0,3
3,Violins,3,3
5,Bows,0,0
6,Folk instruments,0,3
10,Crème-brûlée Street,1,1
12,Viols,1,1
""",
    (
        "record",
        "Record 1",
    ): (
        "posting,key,record,first,place,term,state\n1,p1,Record 1,3,3,Violins,standing\n4,p4,Record "
        "1,5,5,Bows,withdrawn\n"
    ),
    (
        "record",
        "RECORD",
        "--part",
    ): """\
posting,key,record,first,place,term,state
1,p1,Record 1,3,3,Violins,standing
2,p2,Record 2,3,12,Viols,standing
3,p3,Record 0,4,3,Violins,standing
4,p4,Record 1,5,5,Bows,withdrawn
5,p5,Record 2,10,10,Crème-brûlée Street,standing
6,p6,"récord, ""6\""",4,3,Violins,standing
""",
    ("records", "3"): (
        "posting,key,record,place,term\n1,p1,Record 1,3,Violins\n3,p3,Record 0,3,Violins\n"
        '6,p6,"récord, ""6""",3,Violins\n'
    ),
    ("records", "2", "--below", "--langs", "de"): (
        "posting,key,record,place,term\n1,p1,Record 1,3,Geigen\n3,p3,Record 0,3,Geigen\n"
        '6,p6,"récord, ""6""",3,Geigen\n'
    ),
    ("moves", "2"): "move,posting,from,term,to,its term\n3,2,3,Violins,12,Viols\n",
    ("moves", "1"): "move,posting,from,term,to,its term\n",
    (
        "moves",
        "4",
        "--concept",
    ): "move,posting,from,term,to,its term\n1,3,4,Fiddles,3,Violins\n2,6,4,Fiddles,3,Violins\n",
}
# The same of the store as it was before.
EARLIER: dict[tuple[str, ...], str] = {
    ("below", "2"): "steps,number,term\n1,3,Violins\n1,4,Fiddles\n2,5,Bows\n",
    (
        "path",
        "5",
    ): """\
path,numbers
Strings > Violins > Bows,2 > 3 > 5
Strings > Fiddles > Bows,2 > 4 > 5
Folk instruments > Fiddles > Bows,6 > 4 > 5
""",
    ("path", "5", "--most", "1"): "path,numbers\nStrings > Violins > Bows,2 > 3 > 5\n",
    (
        "counts",
        "--concepts",
        "--langs",
        "de",
    ): """\
number,term,postings,with below
2,Strings,0,4
3,Geigen,2,3
4,Fiddles,1,2
5,Bows,1,1
6,Folk instruments,0,2
10,Crème-brûlée Street,1,1
""",
}
COUNTS = """\
what,which,count
collections,live,1
concepts,deprecated,1
concepts,live,6
concepts,replaced,1
schemes,live,2
live concepts of scheme 1,Instruments,5
live concepts of scheme 9,Places,1
outside concepts,in mappings,1
outside concepts,in no mapping,1
labels alt,en,4
labels hidden,en,2
labels pref,de,2
labels pref,en,10
labels scope,en,1
links,broader,2
links,broaderGeneric,1
links,broaderPartitive,1
links,exact,1
links,member,1
postings,accepted,6
postings,standing,5
postings,withdrawn,1
"""
CHANGED = """\
change,number,term,detail
merged,4,Fiddles,into 3
new concept,11,Drehleiern,
new concept,12,Viols,
new outside concept,13,,http://example.org/unused
label dropped,3,Violins,alt de: Violinen
label added,3,Violins,alt en: Fiddles
label added,3,Violins,alt en: Folk-instruments
label added,11,Drehleiern,pref de: Drehleiern
label added,12,Viols,pref en: Viols
link added,3,Violins,broader 2 Strings
link added,3,Violins,broader 6 Folk instruments
link dropped,4,Fiddles,broader 2 Strings
link dropped,4,Fiddles,broader 6 Folk instruments
link dropped,5,Bows,broaderPartitive 4 Fiddles
link dropped,3,Violins,close 10 Crème-brûlée Street
link dropped,3,Violins,related 4 Fiddles
moved,12,Viols,posting 2 p2 from 3
moved,3,Violins,posting 3 p3 from 4
withdrawn,5,Bows,posting 4 p4: Record 1
posted,3,Violins,"posting 6 p6: récord, ""6"\""
"""
# What HTTP doesn't tell: outside concepts without a mapping, and a plain broader link beside a typed one.
UNTOLD = {
    "outside concepts,in no mapping,1",
    "links,broader,2",
    "new outside concept,13,,http://example.org/unused",
    "link added,3,Violins,broader 2 Strings",
}
TEXT = """\
steps  number  term
1      3       Geigen
2      5       Bows
"""


# All reports, those of changes since a copy of the store.
ALL = {**REPORTS, ("counts",): COUNTS, ("changed", "--since", "{before}"): CHANGED}


class Stores(NamedTuple):
    """A store in a file, a copy from before its last changes, and each report over HTTP: by a copy of what the program
    serves on this machine, and by asking alone."""

    store: Path
    before: Path
    served: dict[tuple[str, ...], Ended]
    asked: dict[tuple[str, ...], Ended]
    while_served: Ended

    def call(self, words: tuple[str, ...], *more: object) -> Ended:
        return tool("report", *(it.format(before=self.before, store=self.store) for it in words), *more)


@pytest.fixture(scope="module")
def made(shared_room: Path) -> Stores:
    (shared_room / "made").mkdir()
    store, before = shared_room / "made" / "store.db", shared_room / "made" / "before.db"
    answers = values_of(over(store, "script", lines_of(BEFORE)).out)
    shutil.copy(store, before)
    answers += values_of(over(store, "script", lines_of(SINCE)).out)
    assert not [it for it in answers if "no" in it or "bad" in it]
    it = Stores(store, before, {}, {}, Ended(0, b"", b""))
    with serving(store, 1_000_000) as served, forwarding(served.port) as front:
        address = f"http://127.0.0.1:{served.port}"
        found, asked = (
            {words: it.call(words, "--http", where, "--csv") for words in ALL} for where in (address, front)
        )
        return Stores(store, before, found, asked, it.call(("counts",), "--db", store))


def digests(room: Path) -> dict[str, str]:
    return {it.name: hashlib.sha256(it.read_bytes()).hexdigest() for it in room.iterdir()}


@pytest.fixture
def stores(made: Stores) -> Iterator[Stores]:
    """The stores, of which all files must stay as they are."""
    before = digests(made.store.parent)
    yield made
    assert digests(made.store.parent) == before


def names(reports: Iterable[tuple[str, ...]]) -> Any:
    return pytest.mark.parametrize("words", list(reports), ids=[" ".join(it) for it in reports])


@names(ALL)
def test_report_of_a_file(words: tuple[str, ...], stores: Stores) -> None:
    assert stores.call(words, "--db", stores.store, "--csv") == (0, ALL[words].encode(), b"")


def untold(text: str) -> list[str]:
    """A report without what HTTP doesn't tell."""
    return [it for it in text.splitlines() if it not in UNTOLD and it != "links,broader,1"]


@names(ALL)
def test_report_over_http(words: tuple[str, ...], stores: Stores) -> None:
    """A copy of what is served on this machine tells everything."""
    assert stores.served[words] == (0, ALL[words].encode(), b"")


@names(ALL)
def test_report_of_a_server_elsewhere(words: tuple[str, ...], stores: Stores) -> None:
    ended = stores.asked[words]
    assert (ended.status, ended.err) == (0, b"")
    assert untold(ended.out.decode()) == untold(ALL[words])


@names(EARLIER)
def test_report_of_the_store_before(words: tuple[str, ...], stores: Stores) -> None:
    ended = stores.call(words, "--db", stores.before, "--csv")
    assert ended[:2] == (0, EARLIER[words].encode())
    assert bool(ended.err) == ("--most" in words)


def test_report_as_text(stores: Stores) -> None:
    assert stores.call(("below", "2", "--langs", "de"), "--db", stores.store) == (0, TEXT.encode(), b"")


def test_store_that_is_open_is_refused(stores: Stores) -> None:
    status, out, err = stores.while_served
    assert (status, out) == (3, b"") and b"another program has it open" in err


# What is refused, with places in braces, the status, and a part of the message.
REFUSED: dict[str, tuple[list[str], int, bytes]] = {
    "nothing of this number": (["path", "99", "--db", "{store}"], 1, b"nothing has the number 99"),
    "a dead concept": (["below", "4", "--db", "{store}"], 1, b"concept 4 is dead: replaced by 3"),
    "a collection": (["path", "8", "--db", "{store}"], 1, b"number 8 is no concept, but a collection"),
    "an outside concept": (["path", "7", "--db", "{store}"], 1, b"number 7 is no concept, but an outside concept"),
    "no posting": (["moves", "9", "--db", "{store}"], 1, b"no posting has the number 9"),
    "a later state": (["changed", "--since", "{store}", "--db", "{before}"], 1, b"not an earlier state"),
    "no store": (["tops"], 2, b"one of --db FILE, --desk FILE and --http URL"),
    "two stores": (["tops", "--db", "{store}", "--http", "http://127.0.0.1:1"], 2, b"one of --db FILE, --desk FILE"),
    "no number": (["path", "x", "--db", "{store}"], 2, b"not a number"),
    "no report": (["fly", "--db", "{store}"], 2, b"invalid choice"),
    "no URL": (["tops", "--http", "127.0.0.1:1"], 2, b"no URL of a server"),
    "no server": (["tops", "--http", "http://127.0.0.1:{free}"], 3, b"refused"),
    "no file": (["tops", "--db", "{room}/missing.db"], 3, b"No such file"),
    "a folder": (["tops", "--db", "{room}"], 3, b"Is a directory"),
    "an older store": (
        ["tops", "--db", "{room}/older.db"],
        3,
        b"its tables have version 1, not 2: run `thesaurus migrate`",
    ),
    "another database": (["tops", "--db", "{room}/other.db"], 3, b"not the store of a thesaurus"),
    "a text": (["tops", "--db", "{room}/text.db"], 3, b"not the store of a thesaurus"),
}


@pytest.mark.parametrize("what", REFUSED)
def test_refused(what: str, stores: Stores, room: Path) -> None:
    older, other = room / "older.db", room / "other.db"
    shutil.copy(stores.store, older)
    for path, change in ((older, "UPDATE meta SET version = 1"), (other, "CREATE TABLE other (x)")):
        with contextlib.closing(sqlite3.connect(path)) as tables:
            tables.execute(change)
            tables.commit()
    (room / "text.db").write_text("no database\n" * 100, encoding="utf-8")
    words, status, message = REFUSED[what]
    places = {"store": stores.store, "before": stores.before, "free": free_port(), "room": room}
    ended = tool("report", *(it.format(**places) for it in words))
    assert (ended.status, ended.out) == (status, b"")
    assert message in ended.err and b"Traceback" not in ended.err, ended


def test_log_of_a_killed_program_is_read_and_left(room: Path) -> None:
    """After a kill the log holds what was answered."""
    path = room / "killed.db"
    over(path, "script", lines_of(BEFORE[:2]))
    with subprocess.Popen([built(), "--db", path, "script"], stdin=subprocess.PIPE, stdout=subprocess.PIPE) as program:
        assert program.stdin and program.stdout
        program.stdin.write(lines_of(BEFORE[2:4]))
        program.stdin.flush()
        for _ in range(2):
            program.stdout.readline()
        program.kill()
    before = digests(room)
    ended = tool("report", "tops", "--db", path, "--csv")
    assert ended.out == b"scheme,number,term,below\n1,2,Strings,0\n1,3,Violins,0\n1,4,Fiddles,0\n", ended
    assert digests(room) == before


# --- the objects of a store ---

# Resources, labels, links, postings, moves and counts.
Objects = tuple[Any, ...]


def objects(store: Store) -> Objects:
    """What the objects of a store tell, in the plain program's words."""
    resources = {number: (it.kind, it.scheme, it.is_live, it.replaced) for number, it in store.resources.items()}
    postings = [(it.key, it.record, it.first, it.is_withdrawn, it.place) for it in store.each_posting()]
    return (
        resources,
        set(store.labels),
        set(store.links),
        postings,
        [it[1:] for it in store.each_move()],
        store.count_postings(),
    )


def plain_objects(plain: Plain, is_served: bool) -> Objects:
    """The same of the plain program's state; over HTTP no plain broader link stands beside a typed one."""
    numbered = list(enumerate(plain.resources, 1))

    def end(n: int) -> Any:
        return plain.resources[n - 1]["iri"] or n

    typed = {(a, b) for kind, a, b in plain.links if kind.startswith("broader") and kind != "broader"}
    links = {
        (kind, end(a), end(b))
        for kind, a, b in plain.links
        if not is_served or kind != "broader" or (a, b) not in typed
    }
    resources = {
        n: (it["kind"], it["scheme"], it["live"], it["replaced"]) for n, it in numbered if it["kind"] != "outside"
    }
    postings = [
        (it["key"], it["record"], it["first"], it["withdrawn"], plain.place(n))
        for n, it in enumerate(plain.postings, 1)
    ]
    counts = {n: len(plain.standing_at(n)) for n, _ in numbered if plain.standing_at(n)}
    return resources, set(plain.labels), links, postings, plain.moves, counts


@pytest.mark.parametrize("seed", range(1, 9))
def test_objects_of_a_file_are_those_of_the_plain_program(seed: int, room: Path) -> None:
    _, plain = generated(seed, 300)
    write_store(room / "objects.db", plain)
    with open_file(room / "objects.db") as store:
        assert objects(store) == plain_objects(plain, False)


def test_objects_over_http_are_those_of_the_plain_program(room: Path) -> None:
    requests, plain = generated(1, 200)
    over(room / "served.db", "script", lines_of(requests))
    with serving(room / "served.db", 1_000_000) as served:
        assert objects(read_served(Server(f"http://127.0.0.1:{served.port}"))) == plain_objects(plain, True)
