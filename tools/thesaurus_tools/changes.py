"""What has changed in a thesaurus since an earlier state of it."""
from __future__ import annotations

import itertools
from collections.abc import Iterator

from thesaurus_tools.command_line import REFUSED, ToolError
from thesaurus_tools.kinds import BROADER
from thesaurus_tools.store import Link, Posting, Store, link_order


def changed_resources(then: Store, now: Store) -> Iterator[tuple]:
    """Yields the resources that were made and the concepts that died."""
    for number, it in sorted(now.resources.items()):
        before = then.resources.get(number)
        if not before:
            yield f"new {it.kind}", number, ""
        elif before.is_live and not it.is_live:
            yield ("merged", number, f"into {it.replaced}") if it.replaced else ("deprecated", number, "")
    if then.outside and now.outside:
        for iri, number in sorted(now.outside.items() - then.outside.items(), key=lambda it: it[1]):
            yield "new outside concept", number, iri


def changed_labels(then: Store, now: Store) -> Iterator[tuple]:
    """Yields the labels that were added and dropped."""
    before, after = set(then.labels), set(now.labels)
    for label in sorted(before ^ after):
        how = "added" if label in after else "dropped"
        yield f"label {how}", label.owner, f"{label.kind} {label.tag}: {label.text}"


def seen_links(store: Store, like: Store) -> set[Link]:
    """Returns the links of a store without the plain broader ones beside typed ones if the other store doesn't have
    those."""
    typed = {it[1:] for it in store.links if it.kind in BROADER[1:]}
    return {it for it in store.links if like.has_plain or it.kind != "broader" or it[1:] not in typed}


def changed_links(then: Store, now: Store, langs: list[str]) -> Iterator[tuple]:
    """Yields the links that were added and dropped."""
    before, after = seen_links(then, now), seen_links(now, then)
    for link in sorted(before ^ after, key=link_order):
        name = now.term(link.b, langs)
        other = f"{link.b} {name}" if name != link.b else name
        yield f"link {'added' if link in after else 'dropped'}", link.a, f"{link.kind} {other}"


def changed_postings(then: Store, now: Store) -> Iterator[tuple]:
    """Yields what became of each posting. Each number of the earlier state is one of the later state."""
    for before, after in itertools.zip_longest(then.each_posting(), now.each_posting()):
        assert after
        if before is None:
            yield "posted", after.place, f"posting {after.number} {after.key}: {after.record}"
            before = Posting(after.number, after.key, after.record, after.first, after.place, is_withdrawn=False)
        if before.place != after.place:
            yield "moved", after.place, f"posting {after.number} {after.key} from {before.place}"
        if before.is_withdrawn != after.is_withdrawn:
            yield "withdrawn", after.place, f"posting {after.number} {after.key}: {after.record}"


def check_earlier(then: Store, now: Store) -> None:
    """Raises ToolError unless the one may be an earlier state of the other."""
    kinds = {number: (it.kind, it.scheme) for number, it in now.resources.items()}
    is_earlier = then.base == now.base and then.totals()["accepted"] <= now.totals()["accepted"]
    if not is_earlier or any(kinds.get(number) != (it.kind, it.scheme) for number, it in then.resources.items()):
        raise ToolError(f"{then.name}: not an earlier state of {now.name}", REFUSED)


def changes_since(then: Store, now: Store, langs: list[str]) -> Iterator[tuple]:
    """Yields each change: what it is, the number of the resource that has it, and further words."""
    check_earlier(then, now)
    yield from changed_resources(then, now)
    yield from changed_labels(then, now)
    yield from changed_links(then, now, langs)
    yield from changed_postings(then, now)
