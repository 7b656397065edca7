"""Proposals of visitors of a public desk: off at first, limited, and seen by editors first."""
from __future__ import annotations

from pathlib import Path

import pytest
from asking import done, new
from clients import Site, site_of, text_of
from test_public_view import status
from thesaurus_desk.auth.limits import FREE_FOR_NAME
from thesaurus_desk.journal import visitor_proposals
from thesaurus_desk.journal.rights import Rights, write_rights
from thesaurus_desk.store.plan_execution import Desk

VIOLINS = 5
PATH = "/visitor-proposal"


@pytest.fixture
def public(desk: Desk, users: Path) -> Site:
    """A public desk whose visitors may propose something."""
    write_rights(desk.journal, Rights(visitors_propose=True))
    return site_of(desk, users, is_public=True)


def test_it_is_off_at_first(desk: Desk, users: Path, site: Site) -> None:
    public = site_of(desk, users, is_public=True).client()
    assert "visitor-proposal" not in public.get(f"/c/{VIOLINS}").text
    assert public.get(PATH).status_code == 404 and public.post(PATH, {"text": "x"}).status_code == 404
    write_rights(desk.journal, Rights(visitors_propose=True))
    assert site.client().post(PATH, {"text": "x"}).status_code == 404, "the desk isn't public"
    assert desk.visitor_proposals.waiting() == []


def test_editors_see_it_first(public: Site, desk: Desk) -> None:
    visitor = public.client()
    assert f'href="{PATH}?concept={VIOLINS}"' in visitor.get(f"/c/{VIOLINS}").text
    page = visitor.get(f"{PATH}?concept={VIOLINS}")
    assert page.status_code == 200 and "What should be different" in text_of(page)
    answer = visitor.post(PATH, {"form": "visitor", "concept": VIOLINS, "text": "Say <b>viola</b> da braccio"})
    assert answer.status_code == 303 and "Thank you" in text_of(visitor.get(answer.headers["Location"]))
    for name in ("rita", "ina"):
        assert "da braccio" not in public.client(name).get("/proposals").text
    assert "da braccio" not in visitor.get(f"/c/{VIOLINS}").text
    ben = public.client("ben")
    page = ben.get("/proposals").text
    assert "Say &lt;b&gt;viola&lt;/b&gt; da braccio" in page and "/visitor-proposals/1/take-up" in page
    assert public.client("ina").post("/visitor-proposals/1/take-up").status_code == 403
    there = ben.post("/visitor-proposals/1/take-up").headers["Location"]
    assert "A visitor: Say <b>viola</b> da braccio" in text_of(public.client("rita").get(there))
    proposal = desk.proposals.get(1)
    assert proposal and (proposal.user, proposal.concept, proposal.requests) == ("ben", VIOLINS, [])
    assert ben.post("/visitor-proposals/1/take-up").headers["Location"] == "/proposals", "once"
    assert desk.proposals.get(2) is None and desk.visitor_proposals.waiting() == []


def test_it_is_discarded(public: Site, desk: Desk) -> None:
    public.client().post(PATH, {"form": "visitor", "text": "Buy now"})
    assert public.client("ben").post("/visitor-proposals/1/discard").status_code == 303
    assert desk.visitor_proposals.waiting() == [] and desk.proposals.find() == []


def test_it_is_limited(public: Site, desk: Desk, monkeypatch: pytest.MonkeyPatch) -> None:
    visitor = public.client()
    for text, code in (("", 409), (" ", 409), ("x" * 2001, 409)):
        assert visitor.post(PATH, {"form": "visitor", "text": text}).status_code == code
    for _ in range(FREE_FOR_NAME):
        assert visitor.post(PATH, {"form": "visitor", "text": "x"}).status_code == 303
    answer = public.client().post(PATH, {"form": "visitor", "text": "kept"})
    assert answer.status_code == 429 and int(answer.headers["Retry-After"]) >= 1 and "kept" in answer.text
    assert len(desk.visitor_proposals.waiting()) == FREE_FOR_NAME
    monkeypatch.setattr(visitor_proposals, "MOST_WAITING", FREE_FOR_NAME)
    other = {"form": "visitor", "text": "kept"}
    public.app.extensions["visitor_limits"].failures.clear()
    answer = visitor.post(PATH, other)
    assert answer.status_code == 409 and "Too many proposals are waiting" in text_of(answer)


def test_a_concept_that_the_public_doesnt_see(public: Site, desk: Desk) -> None:
    hidden = done(desk, new("Secret rebecs")).made or 0
    done(desk, status(desk, hidden, "candidate"))
    visitor = public.client()
    assert "Secret" not in visitor.get(f"{PATH}?concept={hidden}").text
    visitor.post(PATH, {"form": "visitor", "concept": hidden, "text": "x"})
    assert [it.concept for it in desk.visitor_proposals.waiting()] == [None]


def test_a_user_proposes_as_users_do(public: Site) -> None:
    assert public.client("rita").get(PATH).headers["Location"] == "/propose"
    assert public.client("rita").post(PATH, {"text": "x"}).status_code == 404
