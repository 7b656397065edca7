"""Requests of HTTP at the bounds of each case, and their answers byte for byte, over a scheme of three concepts. None
changes anything."""
from __future__ import annotations

from collections.abc import Iterator
from pathlib import Path
from typing import Any

from program import lines_of, over, text_of, values_of
from serving import serving

START: list[dict[str, Any]] = [
    {"do": "scheme", "tag": "en", "text": "Animals"},
    *({"do": "concept", "scheme": 1, "tag": "en", "text": term} for term in ("Cats", "Mammals", "Pets")),
]
SIZES = b"ok resources=4 labels=4 links=0 accepted=0 withdrawn=0 moves=0\n"
JSON, CSV, PLAIN = "application/json", "text/csv; charset=utf-8", "text/plain; charset=utf-8"
TOTALS = '{"accepted":0,"standing":0,"withdrawn":0}'
TERMS = "Cats\nMammals\nPets"
BROADER = b'{"do":"link","kind":"broader","a":2,"b":2}'
WITHDRAW = b'{"do":"withdraw","posting":1}'
REFUSED_ROW = b"key,record,concept\nk1,r1,9\n"
VIEWS = (
    "/totals",
    "/concepts/2",
    "/concepts/2/postings",
    "/postings/1",
    "/export",
    *(f"/display/{name}?scheme=1&lang=en" for name in ("alphabetical", "hierarchical")),
)


# What is sent, and the answer.
Row = tuple[bytes, bytes]


def told(status: str, body: str, kind: str = JSON, allow: str = "") -> bytes:
    """An answer whose body is a line, or more of them."""
    last = f"Allow: {allow}\r\n" if allow else ""
    head = (
        f"HTTP/1.1 {status}\r\nContent-Type: {kind}\r\nContent-Length: {len(body) + 1}\r\nConnection: "
        f"close\r\n{last}\r\n"
    )
    return f"{head}{body}\n".encode()


def fine(body: str, kind: str = JSON) -> bytes:
    return told("200 OK", body, kind)


def bad(name: str) -> bytes:
    return told("400 Bad Request", f'{{"bad":"{name}"}}')


def refused(name: str, status: str = "404 Not Found") -> bytes:
    return told(status, f'{{"no":"{name}"}}')


CUT, BAD_HEAD, TOTAL = b"", bad("BadHead"), fine(TOTALS)
CODING = told("501 Not Implemented", '{"bad":"TransferCoding"}')
NO_PATH = told("404 Not Found", '{"bad":"NoSuchPath"}')
NO_GET, NO_POST = (told("405 Method Not Allowed", '{"bad":"BadMethod"}', allow=it) for it in ("POST", "GET"))
NO_LENGTH = told("411 Length Required", '{"bad":"NoLength"}')
TOO_LONG = told("413 Payload Too Large", '{"bad":"TooLong"}')
CONFLICT = refused("SameResource", "409 Conflict")


def asked(line: str | bytes, *fields: str | bytes, body: bytes = b"") -> bytes:
    """A request by its first line and its fields."""
    texts = (it if isinstance(it, bytes) else it.encode() for it in (line, *fields))
    return b"\r\n".join(texts) + b"\r\n\r\n" + body


def get(target: str, *fields: str | bytes, version: str = "1.1") -> bytes:
    return asked(f"GET {target} HTTP/{version}", *fields)


def post(path: str, body: bytes, length: int | str | None = None, *fields: str | bytes) -> bytes:
    """A posted body, with its announced length."""
    return asked(
        f"POST {path} HTTP/1.1", f"Content-Length: {len(body) if length is None else length}", *fields, body=body
    )


def tables() -> Iterator[Row]:
    """What each case of the answers is, as examples."""
    yield post("/requests", b'{"do"', 50), CUT
    yield asked("POST /requests HTTP/1.1", "Transfer-Encoding: chunked"), CODING
    yield get("/nothing"), NO_PATH
    yield asked("DELETE /totals HTTP/1.1"), NO_POST
    yield post("/requests", BROADER), CONFLICT
    yield get("/concepts/4294967295"), refused("UnknownResource")
    yield get("/concepts/4294967296"), bad("BadNumber")
    yield get("/totals"), TOTAL
    yield asked("POST /requests HTTP/1.1"), NO_LENGTH
    yield post("/requests", b"", 1_048_577), TOO_LONG
    yield asked("POST /requests HTTP/1.1", "Content-Length: 1", "Content-Length: 1"), BAD_HEAD
    yield get("/display/alphabetical?scheme=1&lang=en"), fine(TERMS, PLAIN)
    yield get("/display/alphabetical?scheme=1"), bad("BadQuery")
    yield get("/display/hierarchical?lang=en&scheme=2"), refused("WrongKind")


def orders() -> Iterator[Row]:
    """Requests with two faults or more, of which the first is reported."""
    coding, many = "transfer-ENCODING: identity", "Content-Length: 1048577"
    yield asked("GET /totals HTTP/2.0", coding), BAD_HEAD
    yield get("/totals", *[coding] * 65), BAD_HEAD
    yield get("/totals", coding), CODING
    yield asked("DELETE /nothing HTTP/1.1", coding, "Content-Length: x"), CODING
    yield asked("DELETE /nothing HTTP/1.1"), NO_PATH
    yield asked("POST /nothing HTTP/1.1"), NO_PATH
    yield asked("POST /nothing HTTP/1.1", many, many), NO_PATH
    yield asked("PUT /requests HTTP/1.1"), NO_GET
    yield asked("POST /totals HTTP/1.1"), NO_POST
    yield asked("POST /totals HTTP/1.1", many, many), NO_POST
    yield asked("GET /import HTTP/1.1", "Content-Length: 16777217"), NO_GET
    yield asked("POST /requests HTTP/1.1", many, many), BAD_HEAD
    yield asked("POST /requests HTTP/1.1", "Content-Length: x", many), BAD_HEAD
    yield asked("POST /requests HTTP/1.1", many, body=b"{"), TOO_LONG
    yield post("/requests", b" " * 1_048_577), TOO_LONG
    yield asked(f"{'A' * 40} /totals HTTP/1.1"), NO_POST
    yield post("/requests", b'{"do":"fly"}', 13), CUT
    yield post("/requests", b"\xff", 2), CUT
    yield get("/display/alphabetical?scheme=0&lang=!&x=y"), bad("BadQuery")
    yield get("/display/alphabetical?lang=!&scheme=0"), bad("BadNumber")
    yield get("/display/alphabetical?lang=!&scheme=9"), bad("BadTag")
    yield get("/display/alphabetical?lang=en&scheme=9"), refused("UnknownResource")
    yield post("/requests", text_of({"do": "post", "key": "", "record": "r", "concept": 9})), bad("BadKey")


def fields() -> Iterator[Row]:
    """Lengths, and fields that are looked at or not."""
    for length in ("", "+1", "-1", "1,1", "0x1", "1 1", "1.0", "\xb2"):
        yield post("/requests", BROADER, length), BAD_HEAD
    yield post("/requests", BROADER, "9" * 40), TOO_LONG
    yield post("/requests", BROADER, "0" * 40 + str(len(BROADER))), CONFLICT
    yield post("/requests", BROADER, f"\t {len(BROADER)} \t"), CONFLICT
    yield post("/requests", b"", "0" * 40 + "1048577"), TOO_LONG
    yield post("/requests", b"", "0" * 40 + "1048576"), CUT
    yield post("/import", b"", 16_777_216), CUT
    yield post("/import", b"", 16_777_217), TOO_LONG
    yield asked("POST /requests HTTP/1.1", f"cONTENT-lENGTH: {len(BROADER)}", body=BROADER), CONFLICT
    yield post("/requests", BROADER, None, "Expect: 100-continue", "Host: a", "Host: b"), CONFLICT
    yield get("/totals", "Content-Length: x", "Content-Length: +1"), TOTAL
    yield get("/totals", "Content-Length: 99999999"), TOTAL


def bodies() -> Iterator[Row]:
    """Bodies that are shorter and longer than is said, and that are no text."""
    yield post("/requests", BROADER, len(BROADER) + 1), CUT
    yield post("/requests", BROADER, len(BROADER) - 1), bad("NotJson")
    yield post("/requests", BROADER + WITHDRAW, len(BROADER)), CONFLICT
    yield post("/requests", WITHDRAW + b"\xff", len(WITHDRAW)), refused("UnknownPosting", "409 Conflict")
    yield post("/requests", b""), bad("NotJson")
    yield post("/requests", b"\xff"), bad("NotJson")
    yield post("/requests", b'{"get":"concept","number":0}'), bad("BadNumber")
    yield post("/requests", b'{"get":"concept","number":2}'), bad("BadShape")
    yield post("/import", REFUSED_ROW), fine("row,outcome,number\n1,UnknownResource,", CSV)
    yield post("/import", REFUSED_ROW, len(REFUSED_ROW) + 1), CUT
    yield post("/import", b"key,concept\n"), bad("BadShape")


def queries() -> Iterator[Row]:
    """The queries of a display, and the paths that have none."""
    shown, page = fine(TERMS, PLAIN), "/display/hierarchical"
    for query in ("scheme=%31&lang=%65n", "s%63heme=1&l%61ng=en", "&scheme=1&&lang=en&"):
        yield get(f"{page}?{query}"), shown
    for query in (
        "",
        "scheme=1&lang=en&=",
        "scheme=1&lang=en&scheme=1",
        "lang=en&lang=en",
        "SCHEME=1&lang=en",
        "scheme=1;lang=en",
        "%zz",
    ):
        yield get(f"{page}?{query}"), bad("BadQuery")
    for query in (
        "scheme&lang=en",
        "scheme=+1&lang=en",
        "scheme=1%00&lang=en",
        "scheme=%zz&lang=en",
        "scheme=-1&lang=en",
    ):
        yield get(f"{page}?{query}"), bad("BadNumber")
    for lang in ("", "%zz", "e+n", "en%00", "%ff", "en#x", "en?x", "%"):
        yield get(f"{page}?scheme=1&lang={lang}"), bad("BadTag")
    yield get(f"{page}?scheme=1&lang=en\0"), BAD_HEAD
    yield get(page), bad("BadQuery")
    yield get("/totals?%zz+\xff"), TOTAL
    yield get("/totals?a?b#c"), TOTAL


def paths() -> Iterator[Row]:
    """Paths, methods and versions."""
    for path in (
        "/",
        "/totals/",
        "//totals",
        "/TOTALS",
        "/%74otals",
        "/totals#x",
        "/totals;x",
        "http://127.0.0.1/totals",
        "*",
    ):
        yield get(path), NO_PATH
    for path in (
        "/concepts",
        "/concepts/",
        "/concepts/2/",
        "/concepts//postings",
        "/concepts/2/postings/",
        "/display",
        "/display/x",
    ):
        yield get(path), NO_PATH
    for number in ("0", "01", "+1", "x", "-1", "%32", "2%00", "9" * 40):
        yield get(f"/concepts/{number}"), bad("BadNumber")
        yield get(f"/concepts/{number}/postings"), bad("BadNumber")
        yield get(f"/postings/{number}"), bad("BadNumber")
    yield get("/concepts/1"), refused("WrongKind")
    yield get("/postings/1"), refused("UnknownPosting")
    yield get("/concepts/2/postings"), fine('{"postings":[]}')
    for method in ("get", "Get", "HEAD", "OPTIONS", "GETS"):
        yield asked(f"{method} /totals HTTP/1.1"), NO_POST
    for method in ("post", "Post", "GET"):
        yield asked(f"{method} /requests HTTP/1.1", f"Content-Length: {len(BROADER)}", body=BROADER), NO_GET
    yield get("/totals", version="1.0"), TOTAL
    for version in ("0.9", "1.2", "2.0", "3", "11"):
        yield get("/totals", version=version), BAD_HEAD
    yield b"GET /totals\r\n\r\n", BAD_HEAD
    yield asked("GET /totals http/1.1"), BAD_HEAD


def heads() -> Iterator[Row]:
    """Heads at their bounds, and bytes that are no text."""
    line = b"GET /totals HTTP/1.1\r\n"
    for size, whole in ((8191, TOTAL), (8192, TOTAL), (8193, BAD_HEAD)):
        head = line + b"A: " + b"b" * (size - len(line) - 7) + b"\r\n\r\n"
        blank = b"\r\n" * ((size - len(line) - 2) // 2) + b"\n" * (size % 2) + line + b"\r\n"
        for sent in (head, blank):
            yield sent, whole
        part = head[:-4] + b"bbbb"
        yield part, BAD_HEAD if size == 8193 else CUT
    yield line + b"A: b\r\n" * 64 + b"\r\n", TOTAL
    yield line + b"A: b\r\n" * 64 + b"A: ", CUT
    yield line + b"A: b\r\n" * 65, BAD_HEAD
    yield line + b"A: b\r\n" * 65 + b"\r\n", BAD_HEAD
    yield get("/totals", b"A: \xff\xfe"), TOTAL
    yield get("/totals", b"\xff: a"), BAD_HEAD
    yield get("/totals", b"A: \0"), BAD_HEAD
    yield b"GET /\xff\xfe", CUT
    yield b"GET /\xff\xfe HTTP/1.1\r\n\r\n", BAD_HEAD
    yield b"\xff\xfe\xfd\r\n\r\n", BAD_HEAD


def fronts() -> Iterator[Row]:
    """Each proper prefix of a whole request, for each path."""
    for sent in (*map(get, VIEWS), post("/requests", BROADER), post("/import", REFUSED_ROW)):
        for size in range(len(sent)):
            yield sent[:size], CUT


def rows() -> Iterator[Row]:
    for part in (tables, orders, fields, bodies, queries, paths, heads, fronts):
        yield from part()


def wrong_answers(room: Path) -> Iterator[str]:
    """What is answered otherwise, and whether all is left as it was."""
    path, cases = room / "rows.db", list(rows())
    made = over(path, "script", lines_of(START))
    if values_of(made.out) != [{"ok": n} for n in range(1, 5)]:
        yield f"the store of the rows: {made}"
    with serving(path, len(cases)) as served:
        for sent, wanted in cases:
            answer = served.answer(sent)
            if answer != wanted:
                yield f"{wanted!r} is wanted: {sent[:200]!r} of {len(sent)} bytes: {answer[:300]!r}"
        ended = served.end()
        if ended != (0, b"", b""):
            yield f"the program ended with {ended}"
    checked = over(path, "check")
    if checked != (0, SIZES, b""):
        yield f"the store of the rows is left otherwise: {checked}"
