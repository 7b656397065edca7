"""A small store that several tests make, with what the program answers and prints of it."""
from __future__ import annotations

import contextlib
import sqlite3
from pathlib import Path

START = b"""\
{"do":"scheme","tag":"en","text":"Animals"}
{"do":"concept","scheme":1,"tag":"en","text":"Cats"}
{"do":"concept","scheme":1,"tag":"en","text":"Mammals"}
{"do":"concept","scheme":1,"tag":"en","text":"Pets"}
"""
MADE = b'{"ok":1}\n{"ok":2}\n{"ok":3}\n{"ok":4}\n'
MERGED = (
    START
    + b"""\
{"do":"post","key":"k1","record":"r1","concept":2}
{"do":"merge","source":2,"target":3}
"""
)
MERGED_ANSWERS = MADE + b'{"ok":1}\n{"moved":1}\n'
VIEWS = b"""\
{"get":"posting","number":1}
{"get":"totals"}
{"get":"concept","number":3}
"""
VIEWED = b"""\
{"first":2,"key":"k1","moves":[[1,2,3]],"number":1,"place":3,"record":"r1","withdrawn":false}
{"accepted":1,"standing":1,"withdrawn":0}
{"alt":[["en","Cats"]],"broader":[],"collections":[],"hidden":[],"live":true,"mappings":[],"narrower":[],"number":3,\
"postings":1,"pref":[["en","Mammals"]],"related":[],"replaced":null,"scheme":1,"scope":[],"top":true,"typed":[]}
"""
# What `check` prints after MERGED, and after START.
MERGED_SIZES = b"ok resources=4 labels=5 links=0 accepted=1 withdrawn=0 moves=1\n"
START_SIZES = b"ok resources=4 labels=4 links=0 accepted=0 withdrawn=0 moves=0\n"
TOTALS, NO_TOTALS = b'{"get":"totals"}\n', b'{"accepted":0,"standing":0,"withdrawn":0}\n'
TAKEN = (1, b'{"no":"PreferredTaken"}\n', b"")
NARROWER = (
    START
    + b"""\
{"do":"concept","scheme":1,"tag":"en","text":"cats"}
{"do":"addLabel","owner":2,"kind":"alt","tag":"en","text":"Felines"}
{"do":"link","kind":"broader","a":2,"b":3}
{"do":"link","kind":"broader","a":2,"b":4}
{"do":"link","kind":"broader","a":5,"b":2}
"""
)
# The displays of NARROWER.
TREE = b"Mammals\n  Cats\n    cats\nPets\n  Cats *\n"
TERMS = (
    b"Cats\n  UF Felines\n  BT Mammals\n  BT Pets\n  NT cats\ncats\n  BT Cats\n"
    b"Felines\n  USE Cats\nMammals\n  NT Cats\nPets\n  NT Cats\n"
)
# A posting file with a mark at its start, and its outcomes: a record with a comma, a concept that isn't there, a row of
# two fields.
POSTED = b'\xef\xbb\xbfkey,record,concept\r\nk1,r1,2\r\nk2,"r,2",9\r\nk3,r3\r\nk1,r1,2\r\nk4,r4,3\r\n'
FIRST_TIME = b"row,outcome,number\n1,new,1\n2,UnknownResource,\n3,BadShape,\n4,again,1\n5,new,2\n"
SECOND_TIME = b"row,outcome,number\n1,again,1\n2,UnknownResource,\n3,BadShape,\n4,again,1\n5,again,2\n"


def rows_in(path: Path) -> list[str]:
    """All rows of a store, as commands of SQL."""
    with contextlib.closing(sqlite3.connect(path)) as base:
        return list(base.iterdump())
