"""What the desk says of itself: what is proved, which program runs, what its start found, how a record came to it."""
from __future__ import annotations

import hashlib
from pathlib import Path

import pytest
from clients import Client, Site, site_of, text_of
from thesaurus_desk.journal.recovery import StartReport
from thesaurus_desk.store.plan_execution import Desk
from thesaurus_desk.web.pages import about

VIOLINS, FIDDLES, VIOLAS = 5, 31, 6


def words_of(client: Client, path: str) -> str:
    """Returns the words of a page, with one space between them."""
    return " ".join(text_of(client.get(path)).split())


def index(site: Site, *records: str, concept: int = FIDDLES) -> None:
    """Indexes records with a concept."""
    for it in records:
        assert site.desk.perform(
            "ina", "post", [{"do": "post", "key": it.replace(" ", "-"), "record": it, "concept": concept}]
        ).is_done


def test_everybody_reads_it(desk: Desk, users: Path) -> None:
    public = site_of(desk, users, is_public=True)
    for client in (public.client(), *map(public.client, ("rita", "anna"))):
        page = client.get("/about").text
        assert page.count("<li>", page.index('id="about-proved"'), page.index('id="about-here"')) == 10
        assert 'href="/about"' in client.get("/tree").text
    assert 'href="/state"' not in public.client("ben").get("/about").text
    for path in ("/record", "/lists", "/changes", "/state"):
        assert f'<a href="{path}">See' not in public.client().get("/about").text


def test_the_counts_add_up(site: Site) -> None:
    index(site, "a", "b", "c")
    assert site.desk.perform("ina", "withdraw", [{"do": "withdraw", "posting": 2}]).is_done
    assert "3 accepted = 2 at a concept + 1 withdrawn" in words_of(site.client("rita"), "/about")


def test_the_prover_is_named_for_the_program_that_runs_alone(
    site: Site, program: str, tmp_path: Path, monkeypatch: pytest.MonkeyPatch
) -> None:
    anna, path = site.client("anna"), tmp_path / "PROVED"
    monkeypatch.setattr(about, "PATH", path)
    assert "No file next to this program states that it was proved." in words_of(anna, "/about")
    digest = hashlib.sha256(Path(program).read_bytes()).hexdigest()
    lines = [
        "commit 12ab",
        "kit RATTLE-K-9",
        f"program sha256 {digest}",
        "thes_a proved",
        "thes_b proved",
        "7 passed, 0 failed",
    ]
    path.write_text("\n".join(lines), encoding="utf-8")
    page = words_of(anna, "/about")
    for said in (
        "RATTLE-K-9",
        "12ab",
        "2 libraries of the program are proved.",
        "It is exactly the program that is running here.",
    ):
        assert said in page, said
    path.write_text("\n".join(lines).replace(digest, "0" * 64), encoding="utf-8")
    assert "a different program is running" in words_of(anna, "/about")
    assert "exactly the program" not in words_of(anna, "/about")


@pytest.mark.parametrize(
    ("found", "said"),
    [
        (StartReport(), "The store matched the journal."),
        (StartReport(is_changed=True, changed=(5, 6)), "Another program had changed the store: 2 concepts"),
        (StartReport(is_changed=True, restored="2026-01-02"), "A backup had been restored."),
    ],
)
def test_what_the_start_found(site: Site, found: StartReport, said: str) -> None:
    site.desk.found = found
    page = words_of(site.client("rita"), "/about")
    assert said in page and ("matched the journal" in page) is not found.is_changed


def test_a_record_says_which_merge_and_split_moved_it(site: Site) -> None:
    index(site, "Strad 1")
    assert "How it came here" not in words_of(site.client("rita"), "/record?name=Strad 1")
    assert site.desk.perform("ben", "merge", [{"do": "merge", "source": FIDDLES, "target": VIOLINS}]).is_done
    request = {"do": "split", "source": VIOLINS, "tag": "en", "text": "Old violins", "postings": [1]}
    assert site.desk.perform("anna", "split", [request]).is_done
    for path in ("/record?name=Strad 1", "/posting/1"):
        page = words_of(site.client("rita"), path)
        came = page.partition("How it came here")[2]
        merge, _, split = came.partition("move 2")
        assert (
            "move 1" in merge and "ben" in merge and "anna" not in merge.partition("move 1")[2].partition("→")[0]
        ), path
        assert "anna" in split and "Old violins" in split, path


def test_what_another_program_moved_is_said_so(site: Site) -> None:
    index(site, "Strad 1")
    assert site.desk.program.ask({"do": "merge", "source": FIDDLES, "target": VIOLINS}) == {"moved": 1}
    site.desk.reload()
    assert "The journal doesn’t know who moved it" in words_of(site.client("rita"), "/posting/1")
