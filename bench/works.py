"""The works of bench/ratio: for each a run of a program, the run of what comes before, and the ratio wanted."""
from __future__ import annotations

import functools
import pathlib
import shutil
import subprocess
from collections.abc import Callable, Iterable, Iterator, Sequence
from contextlib import closing
from typing import NamedTuple

import scattered
from measure import built, line, posts, scheme_with
from shapes import broader, chain, is_accepted, labels, levels, merges_up, tree, unrelated
from statements import fill, opened

# A store past the usual limits, and the seconds in which it may be opened.
LARGE_CONCEPTS, LARGE_POSTINGS, LARGE_SECONDS = 200_000, 2_000_000, 20
IN_NO_ORDER = "with keys in no order"
# The size of a work, of its size as it is named here.
Size = Callable[[int], int]


class Call(NamedTuple):
    """A run: the words of a command, what it reads, and the store of which it gets a copy, if it has one."""

    words: tuple[str, ...]
    given: bytes = b""
    store: pathlib.Path | None = None


class Work(NamedTuple):
    """What is measured: a call, the call to subtract, the ratio wanted, and the seconds, if there is a bound on
    these."""

    name: str
    call: Call
    before: Call
    most: float | None = None
    most_seconds: float | None = None


def script(*parts: Iterable[str], store: pathlib.Path | None = None) -> Call:
    return Call(("script",), "".join(it for part in parts for it in part).encode(), store)


# --- in memory ---


def in_memory(size: Size) -> Iterator[Work]:
    """The works without a file, of sizes for which there is a function."""
    concepts, length, count = size(10_000), size(1_000), size(19_000)
    made, leveled, many = list(scheme_with(concepts)), list(levels(concepts)), list(scheme_with(count))
    yield Work(f"{count:,} concepts", script(many), script(), 1.2)
    yield Work(f"{size(90_000):,} posts", script(made, posts(size(90_000), concepts)), script(made), 1.1)
    labelled = labels(concepts, 1 + concepts + size(100_000))
    yield Work(f"{size(100_000):,} labels", script(made, labelled), script(made), 1.2)
    alone = list(scheme_with(0))
    yield Work(f"{count:,} labels of one scheme", script(alone, labels(0, 1 + count)), script(alone), 1.2)
    yield Work(f"{count:,} links of a tree", script(many, tree(count)), script(many), 1.3)
    yield Work(f"{len(leveled):,} links in levels", script(made, leveled), script(made), 1.3)
    related = unrelated(concepts, size(2_000))
    yield Work(f"{len(related):,} related links in levels", script(made, leveled, related), script(made, leveled), 1.8)
    before = [*made, *leveled, *posts(size(50_000), concepts)]
    merges = accepted(before, merges_up(concepts, size(1_500)))[: size(1_000)]
    yield Work(f"{len(merges):,} merges in levels", script(before, merges), script(before), 2)
    chained = [*scheme_with(length), *chain(length)]
    top, low = 1 + length, 2
    refused = [it for _ in range(length) for it in (broader(top, low), line(do="link", kind="related", a=low, b=top))]
    yield Work(
        f"{len(refused):,} links refused for Cycle and S27 across a chain",
        script(chained, refused),
        script(chained),
        2.5,
    )


def accepted(before: Sequence[str], requests: Sequence[str]) -> list[str]:
    """Those of the requests that the program accepts after others."""
    ran = subprocess.run([built(), "script"], input=script(before, requests).given, stdout=subprocess.PIPE, check=False)
    return [it for it, answer in zip(requests, ran.stdout.splitlines()[len(before) :]) if is_accepted(answer)]


# --- over a file ---


def posting_file(path: pathlib.Path, rows: int, concepts: int) -> str:
    """Writes a posting file, and returns its path."""
    text = "".join(f"i{n},r{n},{2 + n % concepts}\n" for n in range(rows))
    path.write_text(f"key,record,concept\n{text}", encoding="utf-8")
    return str(path)


def copy_store(source: pathlib.Path, target: pathlib.Path) -> None:
    """Copies a store with its log, over a former copy."""
    for ending in ("", "-wal"):
        pathlib.Path(f"{target}{ending}").unlink(missing_ok=True)
        if pathlib.Path(f"{source}{ending}").exists():
            shutil.copyfile(f"{source}{ending}", f"{target}{ending}")


def make_store(path: pathlib.Path, *parts: Iterable[str]) -> pathlib.Path:
    """Makes a store by requests, and returns its path."""
    given = script(*parts).given
    subprocess.run([built(), "--db", path, "script"], input=given, stdout=subprocess.DEVNULL, check=True)
    return path


@functools.cache
def store_of_concepts(room: pathlib.Path, concepts: int) -> pathlib.Path:
    """A store of a scheme with this number of concepts."""
    return make_store(room / f"concepts{concepts}.db", scheme_with(concepts))


@functools.cache
def store_of_texts(room: pathlib.Path, concepts: int) -> pathlib.Path:
    """A store of concepts in levels with three labels each, some of them related."""
    links = *levels(concepts), *unrelated(concepts, concepts // 5)
    return make_store(room / f"texts{concepts}.db", scheme_with(concepts), labels(concepts, 3 * concepts), links)


def over_stores(size: Size, room: pathlib.Path) -> Iterator[Work]:
    """The works with files that are counted and timed: refused rows, texts of an open store, and opening one."""
    concepts, check = size(10_000), Call(("check",))
    rows = [posting_file(room / f"rows{it}.csv", it, concepts) for it in (size(100_000), 0)]
    whole, empty = (Call(("import", it)) for it in rows)
    yield Work(f"{size(100_000):,} refused rows of an import in memory", whole, empty, 1.5)
    texts = store_of_texts(room, concepts)
    for name, words in (
        (f"the alphabetical display of {concepts:,} concepts", "alphabetical --scheme 1 --lang en"),
        (f"the hierarchical display of {concepts:,} concepts", "hierarchical --scheme 1 --lang en"),
        (f"the export of {concepts:,} concepts", "export"),
    ):
        yield Work(name, Call(tuple(words.split()), store=texts), check._replace(store=texts), 1.5)
    posted = room / f"posted{concepts}.db"
    copy_store(store_of_concepts(room, concepts), posted)
    with closing(opened(posted)) as base:
        fill(base, size(90_000), concepts, is_moved=False)
    yield Work(
        f"opening {concepts:,} concepts and {size(90_000):,} postings",
        check._replace(store=posted),
        check._replace(store=store_of_concepts(room, 0)),
        6,
    )


def with_commits(size: Size, room: pathlib.Path) -> Iterator[Work]:
    """The works over a store that are only timed, since the system has its part in them."""
    concepts, check = size(10_000), Call(("check",))
    store = store_of_concepts(room, concepts)
    rows = posting_file(room / f"rows{size(100_000)}.csv", size(100_000), concepts)
    yield Work(
        f"{size(10_000):,} posts in a file, a commit each",
        script(posts(size(10_000), concepts), store=store),
        check._replace(store=store),
    )
    yield Work(
        f"a first import of {size(100_000):,} rows",
        Call(("import", rows), store=store),
        check._replace(store=store),
        0.8,
    )


def of_large_store(size: Size, room: pathlib.Path) -> Work:
    """Opening a store past the usual limits, of rows in no order."""
    concepts, postings = size(LARGE_CONCEPTS), size(LARGE_POSTINGS)
    path = room / "large.db"
    scattered.make(path, concepts, scattered.LABELS, postings)
    many = f"{concepts:,} concepts, {len(scattered.LABELS) * concepts:,} labels and {postings:,} postings"
    check, empty = Call(("check",), store=path), Call(("check",), store=store_of_concepts(room, 0))
    return Work(f"opening {many}, {IN_NO_ORDER}", check, empty, most_seconds=LARGE_SECONDS)
