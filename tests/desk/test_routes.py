"""Every route of the desk, as the application has them: who may use it, and what an answer carries."""
from __future__ import annotations

import re
from collections.abc import Iterator
from typing import Any

import pytest
from clients import AGAIN, ORIGIN, USERS, Client, Site, SiteMaker, site_of, users_below
from thesaurus_desk.auth.roles import Role, role_named
from thesaurus_desk.auth.route_roles import MOST_OF_FORM, READING, DeskApp, lowest_role, role

# Routes for programs that take a POST and change nothing: the only ones that need no token.
READING_POSTS = {"interfaces.reconcile", "interfaces.oai"}
# Answers for other programs may be read by pages of other sites, and the preview may be shown in their frames.
FOR_PROGRAMS = ("/id", "/rest/", "/reconcile", "/changed", "/export.", "/oai")
# Forms that a visitor may send.
OF_VISITORS = {"account.log_in", "account.log_out", "visitors.propose_as_visitor"}
# What each role may send, and no lower one. A new form is written down here.
ROLES = {
    "visitor": "account.log_in account.log_out visitors.propose_as_visitor",
    "reader": "account.change_password for_me.note_read for_me.renew_address for_me.watch"
    " proposals.comment proposals.propose proposals.remove_comment"
    " proposals.withdraw",
    "indexer": "imports.bring_postings records.add_concept records.add_record records.reindex records.withdraw"
    " records.withdraw_record reindex.reindex_many indexing.index_record"
    " indexing.suggest_more queue.bring_records queue.open_next changes.take_back",
    "editor": "arrays.change_place arrays.link_members arrays.new_array arrays.order bulk_changes.preview_bulk"
    " imports.choose_columns imports.go_on imports.perform_table imports.preview_table changes.close"
    " edit.add_link edit.add_term edit.change_term edit.prefer_term"
    " edit.remove_link edit.remove_members edit.remove_term"
    " imports.perform_skos imports.preview_skos edit.deprecate merge.merge own_fields.change_field"
    " own_fields.make_field split.split"
    " edit.retype_link mapping.decide mapping.mend mapping.same_table move.move"
    " create.new_collection create.new_concept create.new_scheme proposals.accept proposals.decline"
    " replacement.preview_replacement"
    " values.change_value values.copy_values visitors.discard visitors.take_up work.change_work",
    "head": "mapping.load mapping.remove users.change_users queue.settle_indexing releases.new_release"
    " rights.settle_rights"
    " state.back_up values.settle_taken",
}
VALUES = {
    "number": "5",
    "posting": "1",
    "kind": "orphans",
    "plan": "1",
    "entry": "1",
    "filename": "desk.css",
    "ending": "ttl",
}


def path_of(rule: Any) -> str:
    """Returns an address of a route: of parts that are one of some words, with the first of them."""
    path = re.sub(r"<any\((\w+)[^()]*\):\w+>", r"\1", rule.rule)
    return re.sub(r"<(?:[^:<>]+:)?(\w+)>", lambda found: VALUES.get(found[1], "1"), path)


def routes(site: Site, changing: bool) -> Iterator[tuple[str, str, Any]]:
    """Yields the routes that change something, or those that show something: endpoint, address, view."""
    for rule in site.app.url_map.iter_rules():
        methods = set(rule.methods or ())
        if methods - READING if changing else "GET" in methods:
            yield rule.endpoint, path_of(rule), site.app.view_functions[rule.endpoint]


def changes(site: Site) -> list[tuple[str, str, Any]]:
    """Returns the routes whose forms need a token."""
    no_forms = ("is_interface", "takes_token")
    return [it for it in routes(site, True) if not any(getattr(it[2], name, False) for name in no_forms)]


@pytest.fixture
def frozen(site: Site, monkeypatch: pytest.MonkeyPatch) -> Site:
    """A desk that must not be asked to change anything."""

    def fail(*words: Any, **named: Any) -> None:
        raise AssertionError("a refused form was performed")

    for name in ("perform", "bring_in"):
        monkeypatch.setattr(site.desk, name, fail)
    for name in ("add", "set_role", "set_password", "end_sessions", "remove", "check", "note_ended"):
        monkeypatch.setattr(site.entry.accounts, name, fail)
    return site


def test_routes_are_found(site: Site) -> None:
    assert len(changes(site)) >= 4
    assert OF_VISITORS <= {endpoint for endpoint, _, _ in changes(site)}


def test_no_route_changes_anything_without_a_role(site: Site) -> None:
    for endpoint, _, view in changes(site):
        assert hasattr(view, "lowest_role"), endpoint
        assert (view.lowest_role > Role.VISITOR) != (endpoint in OF_VISITORS), endpoint


@pytest.mark.parametrize("word", ROLES)
def test_the_roles_of_forms(site: Site, word: str) -> None:
    found = {endpoint for endpoint, _, view in changes(site) if view.lowest_role == role_named(word)}
    assert found == set(ROLES[word].split())


def test_a_route_without_a_role_is_not_registered() -> None:
    app = DeskApp("tried")
    for method in ("POST", "PUT", "DELETE", "PATCH"):
        with pytest.raises(ValueError, match="needs @role"):
            app.add_url_rule("/x", "x", lambda: "", methods=[method])
    with pytest.raises(ValueError, match="no role"):
        role("master")


def test_only_known_routes_for_programs_take_posts(site: Site) -> None:
    open_ones = {endpoint for endpoint, _, view in routes(site, True) if getattr(view, "is_interface", False)}
    assert open_ones <= READING_POSTS


def check_refused(client: Client, path: str, status: int, **sent: Any) -> None:
    """Checks that a form is refused."""
    answer = client.post(path, {"name": "x", "password": "x", "text": "kept"}, **sent)
    assert answer.status_code == status, (path, sent, answer.status, answer.text[-300:])


def test_without_a_session(frozen: Site) -> None:
    for _, path, _ in changes(frozen):
        check_refused(frozen.client(), path, 403, token="")
        check_refused(frozen.client(), path, 403, token=frozen.client("anna").token())


def test_without_a_token(frozen: Site) -> None:
    for _, path, _ in changes(frozen):
        for token in ("", "x", "é", frozen.client("ben").token()):
            check_refused(frozen.client("anna"), path, 403, token=token)


def test_below_its_role(frozen: Site) -> None:
    for _, path, view in changes(frozen):
        for name in users_below(view.lowest_role):
            check_refused(frozen.client(name), path, 403)


FOREIGN = (
    {"Origin": "https://evil.example"},
    {"Origin": "null"},
    {"Origin": "https://localhost"},
    {"Origin": "http://localhost:8081"},
    {"Origin": "http://localhost.evil.example"},
    {"Origin": ""},
)


def test_from_another_site(frozen: Site) -> None:
    for _, path, _ in changes(frozen):
        for fields in FOREIGN:
            check_refused(frozen.client("anna"), path, 403, **fields)
        client = frozen.client("anna")
        answer = client.ask("POST", path, {"token": client.token()}, {"Sec_Fetch_Site": "cross-site"})
        assert answer.status_code == 403, path


def test_for_another_host(frozen: Site) -> None:
    for _, path, _ in [*changes(frozen), *routes(frozen, False)]:
        for host in ("evil.example", "localhost:8081", "127.0.0.1", ""):
            client = frozen.client("anna")
            method = "POST" if any(path == it for _, it, _ in changes(frozen)) else "GET"
            answer = client.http.open(path, method=method, headers={"Host": host, "Origin": ORIGIN})
            assert answer.status_code == 421, (path, host, answer.status)


def test_with_all_that_it_needs(site: Site) -> None:
    for endpoint, path, view in changes(site):
        for name, word in USERS.items():
            if role_named(word) >= view.lowest_role and endpoint != "account.log_out":
                answer = site.client(name).post(path, {"name": "x"})
                assert answer.status_code < 500, (path, answer.status)
                assert answer.status_code != 421 and AGAIN not in answer.text, (path, name)


def test_pages_below_their_role(site: Site) -> None:
    for endpoint, path, view in routes(site, False):
        lowest = lowest_role(view, False)
        if endpoint == "static" or lowest == Role.VISITOR:
            continue
        answer = site.client().get(path)
        is_asked_in = answer.status_code == 303 and answer.headers["Location"].startswith("/login?next=")
        assert is_asked_in or answer.status_code == 401, (path, answer.status)
        for name in users_below(lowest):
            assert site.client(name).get(path).status_code == 403, (path, name)


def test_a_browser_that_follows_the_address_of_a_concept_is_asked_in(site: Site) -> None:
    for accept, status in (("text/html,application/xhtml+xml,*/*;q=0.8", 303), ("text/turtle", 401), ("*/*", 401)):
        answer = site.client().get("/id/5", Accept=accept)
        assert answer.status_code == status, accept
        assert answer.headers.get("Location") == ("/login?next=%2Fid%2F5" if status == 303 else None)
    assert site.client("rita").get("/id/5", Accept="text/html").headers["Location"] == "/c/5"


def test_pages_of_a_public_desk(site: Site, users: Any) -> None:
    public = site_of(site.desk, users, is_public=True)
    for endpoint, path, view in routes(public, False):
        answer = public.client().get(path)
        is_open = lowest_role(view, True) == Role.VISITOR
        is_refused = answer.status_code == 401 or "/login?next=" in answer.headers.get("Location", "")
        assert endpoint == "static" or is_refused != is_open, (path, answer.status)
    for name in ("/lists", "/users", "/me", "/record?name=x", "/changes"):
        assert public.client().get(name).status_code in (303, 404), name


HEADERS = {
    "Content-Security-Policy": "default-src 'none'",
    "X-Content-Type-Options": "nosniff",
    "Referrer-Policy": "same-origin",
    "X-Frame-Options": "DENY",
    "Cross-Origin-Opener-Policy": "same-origin",
    "Cross-Origin-Resource-Policy": "same-origin",
}


def test_headers_of_each_answer(site: Site) -> None:
    answers = [
        (path, site.client(name).get(path)) for _, path, _ in routes(site, False) for name in ("", "anna", "rita")
    ]
    answers += [(path, site.client("anna").post(path, {}, token="")) for _, path, _ in changes(site)]
    answers += [("/nothing", site.client("anna").get("/nothing")), ("/", site.client().get("/", Host="evil.example"))]
    answers.append(("/users", site.client("anna").ask("PUT", "/users", None, {})))
    for path, answer in answers:
        is_page = not path.startswith(FOR_PROGRAMS) or path == "/changed-since"
        for name, value in HEADERS.items():
            if is_page or name != "Cross-Origin-Resource-Policy":
                assert value in answer.headers.get(name, ""), (path, answer.status, name)
        assert "unsafe" not in answer.headers["Content-Security-Policy"]
        assert "script-src 'self'" in answer.headers["Content-Security-Policy"] or path == "/reconcile/preview"
        assert answer.headers["Cache-Control"] in ("private, no-cache", "max-age=600", "no-cache"), path
        assert "Server" not in answer.headers


def test_no_page_has_script_or_style_in_it(site: Site) -> None:
    for _, path, _ in routes(site, False):
        answer = site.client("anna").get(path)
        if answer.mimetype == "text/html":
            assert not re.search(r"<script(?! src=)|<style|\sstyle=|\son\w+=|javascript:", answer.text), path


def test_other_methods(site: Site) -> None:
    for method in ("PUT", "DELETE", "PATCH", "TRACE"):
        assert site.client("anna").ask(method, "/users", None, {"Origin": ORIGIN}).status_code in (403, 405), method


@pytest.fixture
def make_site(desk: Any, users: Any) -> SiteMaker:
    """Makes sites over one desk."""
    return lambda **settings: site_of(desk, users, **settings)


def test_bodies_are_bounded(site: Site) -> None:
    for _, path, view in changes(site):
        largest = getattr(view, "largest_body")
        assert largest <= 17 << 20, path
        answer = site.client("anna").post(path, {"text": "x" * (largest + 1)})
        assert answer.status_code == 413, (path, answer.status)
        visitor = site.client().post(path, {"text": "x" * (MOST_OF_FORM + 1)}, token="x")
        assert visitor.status_code == 413, (path, visitor.status)
