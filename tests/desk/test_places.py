"""New concepts, moves, merges and splits: what each form does, and what is refused in it."""
from __future__ import annotations

import json
import re

import pytest
from asking import label, link, view
from reader import Form, Page, Reader, strip
from thesaurus_desk.store.plan_execution import Desk

STRINGS, BOWED, VIOLINS, VIOLAS, CELLOS, PLUCKED, HARPS, BOWS, FIDDLES = 3, 4, 5, 6, 7, 9, 11, 29, 31


def number_of(desk: Desk, term: str) -> int:
    return desk.replica.named(term, ("concept", "collection", "scheme"), True)[0].number


# --- new ---


def test_a_new_concept_with_terms_and_place(reader: Reader, desk: Desk) -> None:
    form = reader.get(f"/new?parent={BOWED}").form("new")
    assert form.value("other") == "Bowed instruments" and form.value("other_number") == str(BOWED)
    texts = {"text": "Rebecs", "text-de": "Rebecs", "alt": "Rebabs\r\nRibebas", "scope": "With three strings."}
    page = reader.send(form, ("then", "see"), kind="broaderPartitive", **texts)
    it = view(desk, number_of(desk, "Rebecs"))
    assert page.path == f"/c/{it.number}" and it.pref == (("de", "Rebecs"), ("en", "Rebecs"))
    assert it.alt == (("en", "Rebabs"), ("en", "Ribebas")) and it.scope == (("en", "With three strings."),)
    assert it.typed == (("broaderPartitive", BOWED),)
    assert len({plan.id for plan in desk.history.recent(number=it.number)}) == 1


def test_a_new_top_concept_and_another_one(reader: Reader, desk: Desk) -> None:
    page = reader.send(reader.get("/new").form("new"), ("then", "another"), text="Electronic instruments")
    assert page.path == "/new" and view(desk, number_of(desk, "Electronic instruments")).is_top
    page = reader.send(page.form("new"), ("then", "another"), text="Theremins", other="Electronic instruments")
    assert page.form("new").value("other") == "Electronic instruments"


def test_the_next_new_concept_asks_for_as_much(reader: Reader) -> None:
    opened = '<details class="more" open>'
    page = reader.send(reader.get(f"/new?parent={BOWED}").form("new"), ("then", "another"), text="Rebecs")
    assert page.path == "/new" and opened not in page.html
    page = reader.send(page.form("new"), ("then", "another"), **{"text": "Crwths", "text-de": "Crwths"})
    assert opened in page.html and page.form("new").value("text-de") == ""
    page = reader.send(page.form("new"), ("then", "another"), text="Viols")
    assert opened not in page.html


def test_a_new_concept_that_is_alike(reader: Reader, desk: Desk) -> None:
    page = reader.send(reader.get("/new").form("new"), ("then", "see"), text="VIOLÍNS")
    form = page.form("new")
    assert page.status == 409 and form.invalid == {"text"} and form.value("text") == "VIOLÍNS"
    assert f"/c/{VIOLINS}" in page.links() and "differs only in case or accents" in form.text
    assert reader.send(form, ("then", "see"), sure="1").status == 200
    assert len(desk.replica.named("violins")) == 2


@pytest.mark.parametrize(
    ("fields", "field", "part"),
    [
        ({"text": "Violins"}, "text", "Use that concept, or add a qualifier"),
        ({"text": ""}, "text", "The field is empty"),
        ({"text": "Rebecs", "tag": "?"}, "tag", "isn’t a language tag"),
        ({"text": "Rebecs", "tag": "english"}, "tag", "Write the code of the language: nl for Dutch"),
        ({"text": "Rebecs", "other": "Nowhere"}, "other", "No concept has the term “Nowhere”"),
        ({"text": "Rebecs", "alt": "Rebecs"}, "alt", "a text has one role in a language"),
        ({"text": "Rebecs", "text-de": "Geigen"}, "text-de", "Violins has the preferred term “Geigen” (de)"),
    ],
)
def test_a_new_concept_that_is_refused(
    reader: Reader, desk: Desk, fields: dict[str, str], field: str, part: str
) -> None:
    before = len(desk.replica.numbers("concept"))
    page = reader.send(reader.get("/new").form("new"), ("then", "see"), **fields)
    form = page.form("new")
    assert page.status == 409 and part in form.text and form.invalid == {field}
    assert all(form.value(name) == text for name, text in fields.items())
    assert len(desk.replica.numbers("concept", live=True)) == before


@pytest.mark.parametrize(
    ("path", "form", "field", "text", "part"),
    [
        ("/new", "new", "text", "Violins", "Use that concept, or add a qualifier"),
        ("/new/scheme", "new", "text", "Musical instruments", "There is already one with this name"),
        (f"/c/{BOWED}/move", "move", "other", "Violins", "because it is already below it"),
        (f"/c/{VIOLINS}/split", "split", "text", "Fiddles", "Use that concept, or add a qualifier"),
        (f"/c/{VIOLINS}", "add-related", "other", "Bowed instruments", "Two terms are either related"),
    ],
)
def test_a_refusal_is_said_once(reader: Reader, path: str, form: str, field: str, text: str, part: str) -> None:
    """Beside its field, to which the top of the page leads."""
    page = reader.send(reader.get(path).form(form), **{field: text})
    assert page.status == 409 and page.form(form).invalid == {field}
    assert page.form(form).text.count(part) == 1 and part not in page.alerts
    assert "Nothing was changed. See what was refused" in page.alerts and f"#{form}-{field}" in page.links()


def test_a_choice_is_asked_for_once(reader: Reader) -> None:
    page = reader.send(reader.get(f"/c/{HARPS}/move").form("move"), other="Violin")
    assert page.text.count("Did you mean one of these?") == 1 and page.text.count("Which one do you mean?") == 1
    assert page.form("move").invalid == {"other"} and page.form("move").value("chosen")


def test_new_collections_and_schemes(reader: Reader, desk: Desk) -> None:
    reader.send(reader.get("/new/collection").form("new"), text="On show in room 12")
    reader.send(reader.get("/new/scheme").form("new"), text="Places")
    scheme = number_of(desk, "Places")
    assert desk.replica.kind(scheme) == "scheme"
    assert view(desk, number_of(desk, "On show in room 12")).scheme == 1
    reader.send(reader.get("/new").form("new"), ("then", "see"), scheme=str(scheme), text="Paris")
    assert view(desk, number_of(desk, "Paris")).scheme == scheme


@pytest.mark.parametrize("what", ["collection", "scheme"])
def test_a_form_for_a_new_one_sent_twice(reader: Reader, desk: Desk, what: str) -> None:
    """It is led to what it made; another form makes a second one of the same name only if that is meant."""
    form = reader.get(f"/new/{what}").form("new")
    before = len(desk.replica.numbers(what))
    first, again = (reader.send(form, text="Places") for _ in range(2))
    assert (again.status, again.path) == (200, first.path) and len(desk.replica.numbers(what)) == before + 1
    page = reader.send(reader.get(f"/new/{what}").form("new"), text="Places")
    assert page.status == 409 and len(desk.replica.numbers(what)) == before + 1
    assert "There is already one with this name" in page.text
    assert reader.send(page.form("new"), sure="1").status == 200 and len(desk.replica.numbers(what)) == before + 2


def test_a_concept_of_another_thesaurus_is_only_a_match(reader: Reader, desk: Desk) -> None:
    reader.send(reader.get("/new/scheme").form("new"), text="Places")
    scheme = str(number_of(desk, "Places"))
    reader.send(reader.get("/new").form("new"), ("then", "see"), scheme=scheme, text="Paris")
    paris = number_of(desk, "Paris")
    page = reader.send(reader.get(f"/c/{HARPS}").form("add-related"), other="Paris", other_number=str(paris))
    assert page.status == 409 and "Between two thesauri there are only mappings" in page.form("add-related").text
    reader.send(reader.get(f"/c/{HARPS}").form("add-match"), other="Paris", kind="close")
    assert ("close", paris) in view(desk, HARPS).mappings and ("close", HARPS) in view(desk, paris).mappings
    reader.send(reader.get(f"/c/{paris}").form("remove-link", kind="close"))
    assert view(desk, HARPS).mappings == ()


# --- move ---


def move(reader: Reader, number: int, **fields: str | list[str]) -> Page:
    return reader.send(reader.get(f"/c/{number}/move").form("move"), **fields)


def test_a_concept_is_moved(reader: Reader, desk: Desk) -> None:
    page = move(reader, VIOLINS, other="Plucked instruments")
    assert page.path == f"/c/{VIOLINS}"
    assert view(desk, VIOLINS).typed[0] == ("broaderGeneric", PLUCKED) and view(desk, VIOLINS).broader == (PLUCKED,)


def test_a_move_counts_what_moves_with_it(reader: Reader) -> None:
    """Those on all levels below: one is below the violins."""
    assert "7 concepts below it move with it." in reader.get(f"/c/{BOWED}/move").text
    assert "1 concept below it moves with it." in reader.get(f"/c/{VIOLINS}/move").text
    assert "below it move" not in reader.get(f"/c/{HARPS}/move").text


def test_a_concept_gets_one_more_place(reader: Reader, desk: Desk) -> None:
    move(reader, VIOLINS, other="Plucked instruments", **{"from": "", "kind": "broaderPartitive"})
    assert view(desk, VIOLINS).broader == (BOWED, PLUCKED)
    assert desk.replica.link_types(VIOLINS, PLUCKED) == ("broaderPartitive",)


def test_several_concepts_are_moved_as_one(reader: Reader, desk: Desk) -> None:
    move(reader, VIOLINS, other="Plucked instruments", **{"with": [str(VIOLAS), str(CELLOS)]})
    assert all(view(desk, it).broader == (PLUCKED,) for it in (VIOLINS, VIOLAS, CELLOS))
    assert desk.history.recent(number=CELLOS)[0].id == desk.history.recent(number=VIOLINS)[0].id


@pytest.mark.parametrize(
    ("number", "fields", "part"),
    [
        (BOWED, {"other": "Violins"}, "because it is already below it"),
        (VIOLINS, {"other": "Nowhere"}, "No concept has the term"),
        (VIOLINS, {"other": "Bowed instruments"}, "is already below"),
        (VIOLINS, {"other": "Bowed instruments", "from": ""}, "is already below"),
        (VIOLINS, {"other": "Plucked instruments", "from": str(HARPS)}, "no longer has this broader one"),
        (VIOLINS, {"other": "Cellos", "with": [str(CELLOS)]}, "can’t be linked with itself"),
        (VIOLINS, {"other": "Fiddles"}, "Two terms are either related"),
    ],
)
def test_a_move_that_is_refused(
    reader: Reader, desk: Desk, number: int, fields: dict[str, str | list[str]], part: str
) -> None:
    before = [view(desk, it) for it in (number, CELLOS)]
    form: Form = reader.get(f"/c/{number}/move").form("move")
    form.names.add("from")
    page = reader.send(form, **fields)
    assert page.status == 409 and part in page.form("move").text
    assert page.form("move").value("other") == fields["other"]
    assert [view(desk, it) for it in (number, CELLOS)] == before


def test_a_move_of_what_someone_moved_asks_again(reader: Reader, desk: Desk) -> None:
    mine = reader.get(f"/c/{VIOLINS}/move").form("move")
    move(reader, VIOLINS, other="Plucked instruments", **{"from": ""})
    page = reader.send(mine, other="String instruments")
    assert page.status == 409 and "broader term (generic) Plucked instruments" in page.text
    reader.send(page.form("move"))
    assert view(desk, VIOLINS).broader == (STRINGS, PLUCKED)


def test_a_move_from_a_place_that_is_gone_asks_from_where(reader: Reader, desk: Desk) -> None:
    """Otherwise it would be one more place."""
    mine = reader.get(f"/c/{VIOLINS}/move").form("move")
    move(reader, VIOLINS, other="Plucked instruments")
    page = reader.send(mine, other="String instruments")
    assert page.status == 409 and "no longer has this broader one" in page.text
    again = page.form("move")
    assert again.value("from") is None and again.value("other") == "String instruments"
    assert page.html.count('type="radio" name="from" required') == 2
    page = reader.send(again)
    assert page.status == 409 and "Choose from where it moves." in page.text
    assert view(desk, VIOLINS).broader == (PLUCKED,)


def move_for(desk: Desk, user: str, number: int) -> None:
    """Has someone move a concept from the bowed instruments to the plucked ones."""
    kind = "broaderGeneric"
    requests = [link("link", kind, number, PLUCKED), link("unlink", kind, number, BOWED)]
    assert desk.perform(user, "move", requests).is_done


@pytest.mark.parametrize(
    ("user", "said"), [("ben", "Somebody changed Violins after you opened"), ("anna", "You changed Violins yourself")]
)
@pytest.mark.parametrize("other", ["String instruments", "Nowhere"])
def test_a_move_of_what_someone_moved_says_who_and_when(
    reader: Reader, desk: Desk, user: str, said: str, other: str
) -> None:
    """And what; a change of another part isn't among it."""
    mine = reader.get(f"/c/{VIOLINS}/move").form("move")
    move_for(desk, user, VIOLINS)
    assert desk.perform("ina", "add_term", [label("addLabel", VIOLINS, "alt", "Fine violins")]).is_done
    page = reader.send(mine, other=other)
    told = page.html.split('id="move-why"')[1].split("</div>")[0]
    text = strip(told)
    assert page.status == 409 and said in text and "Fine violins" not in text
    assert "removed broader term (generic) Bowed instruments" in text
    assert "added broader term (generic) Plucked instruments" in text
    assert re.search(rf'<time datetime=[^>]+>[-0-9: ]+UTC[^<]*</time> <span class="by" dir="auto">{user}</span>', told)
    assert "Violins: broader term (generic) Plucked instruments added" in text
    page = reader.send(page.form("move"), **{"from": str(PLUCKED), "other": "String instruments"})
    assert page.status == 200 and view(desk, VIOLINS).broader == (STRINGS,)


def test_a_move_with_what_someone_moved_says_who_and_when(reader: Reader, desk: Desk) -> None:
    mine = reader.get(f"/c/{VIOLINS}/move").form("move")
    move_for(desk, "ben", CELLOS)
    page = reader.send(mine, other="String instruments", **{"with": [str(CELLOS)]})
    told = page.html.split('id="move-why"')[1].split("</div>")[0]
    assert page.status == 409 and "Cellos is no longer below Bowed instruments" in strip(told)
    assert "Somebody changed Cellos" in strip(told) and ">ben</span>" in told and "<time " in told
    assert view(desk, VIOLINS).broader == (BOWED,)


def test_a_concept_is_not_suggested_as_its_own_place(reader: Reader) -> None:
    def is_choice(number: int, page: Page) -> bool:
        return f'name="chosen" value="{number}"' in page.html

    assert is_choice(VIOLINS, move(reader, HARPS, other="Violin"))
    page = move(reader, VIOLINS, other="Violin")
    assert page.status == 409 and not is_choice(VIOLINS, page) and f'data-without="{VIOLINS}"' in page.html
    paths = ("/suggest?q=violin", f"/suggest?q=violin&without={VIOLINS}")
    every, others = ([it["number"] for it in json.loads(reader.client.get(path).text)] for path in paths)
    assert VIOLINS in every and others == [it for it in every if it != VIOLINS]


# --- merge ---


def compare(reader: Reader, source: int, other: str) -> Page:
    page = reader.get(f"/c/{source}/merge")
    return reader.send(next(it for it in page.forms if "other" in it.names), other=other)


def test_a_merge_shows_what_will_happen_and_does_it(reader: Reader, desk: Desk) -> None:
    reader.send(reader.get(f"/c/{FIDDLES}").form("post"), record="Fiddle 1800")
    page = compare(reader, FIDDLES, "Violins")
    assert "1 record moves to Violins." in page.text and "“Fiedeln” (de) becomes a non-preferred term" in page.text
    assert "broader term (generic) Bowed instruments is already there" in page.text
    assert "related term Violins is dropped: it is the relationship between the two" in page.text
    other = compare(reader, VIOLINS, "Fiddles").text
    assert "collection Instruments of the string quartet moves" in other and "member Instruments" not in other
    form = page.form("merge")
    assert reader.send(form).status == 409
    page = reader.send(form, sure="1", note=["0"])
    it = view(desk, VIOLINS)
    assert page.path == f"/c/{VIOLINS}" and it.postings == 1 and ("de", "Fiedeln") in it.alt
    assert it.scope and view(desk, FIDDLES).replaced == VIOLINS
    dead = reader.get(f"/c/{FIDDLES}")
    assert "This concept was merged. Use: Violins" in dead.text and f"/c/{VIOLINS}" in dead.links()


def test_a_merge_shows_what_becomes_of_the_terms_of_each_language(reader: Reader, desk: Desk) -> None:
    labels = [{"do": "addLabel", "owner": FIDDLES, "kind": "pref", "tag": "nl", "text": "Vedels"}]
    assert desk.perform("anna", "add", labels).is_done
    page = compare(reader, FIDDLES, "Violins")
    plan = page.form("merge").text
    assert (
        "Nederlands nl “Vedels” (nl) becomes a non-preferred term Violins has no preferred term in Nederlands." in plan
    )
    assert "français fr “Vielles” (fr) becomes a non-preferred term" in plan
    assert plan.count("has no preferred term") == 1
    assert plan.index("English") < min(map(plan.index, ("Deutsch", "français", "Nederlands")))
    page = reader.send(page.form("merge"), sure="1")
    page = reader.send(page.form("prefer", text="Vedels"))
    assert page.status == 200 and ("nl", "Vedels") in view(desk, VIOLINS).pref


@pytest.mark.parametrize(
    ("other", "part"),
    [("Fiddles", "can’t be merged into itself"), ("Nowhere", "No concept has the term"), ("", "")],
)
def test_a_merge_into_what_cant_be(reader: Reader, desk: Desk, other: str, part: str) -> None:
    page = compare(reader, FIDDLES, other)
    assert part in page.text and not page.has_form("merge") and view(desk, FIDDLES).is_live
    assert page.status == (409 if other else 200)


def test_a_merge_that_breaks_a_rule_is_foreseen(reader: Reader, desk: Desk) -> None:
    page = compare(reader, VIOLINS, "String instruments")
    assert "The program will refuse this:" in page.text and "is between" in page.text
    page = reader.send(page.form("merge"), sure="1")
    assert page.status == 409 and view(desk, VIOLINS).is_live
    assert f"/c/{BOWED}" in page.html.split('id="merge-why"')[1].split("</form>")[0]


def test_a_merge_of_which_the_program_cant_be_asked(
    reader: Reader, desk: Desk, monkeypatch: pytest.MonkeyPatch
) -> None:
    monkeypatch.setattr(desk, "tried", lambda requests: {})
    page = compare(reader, FIDDLES, "Violins")
    assert page.status == 200 and "The program is being started again" in page.text
    assert "will refuse" not in page.text and "moves to" not in page.text


def test_a_merge_of_what_was_changed_asks_again(reader: Reader, desk: Desk) -> None:
    mine = compare(reader, FIDDLES, "Violins").form("merge")
    reader.send(reader.get(f"/c/{VIOLINS}").form("add-term"), kind="alt", tag="en", text="Fine violins")
    page = reader.send(mine, sure="1")
    assert page.status == 409 and "Fine violins" in page.text and view(desk, FIDDLES).is_live
    assert reader.send(page.form("merge")).path == f"/c/{VIOLINS}"


# --- split ---


def post_many(desk: Desk, count: int, concept: int = VIOLINS) -> None:
    requests = [{"do": "post", "key": f"k-{n}", "record": f"Violin {n:04}", "concept": concept} for n in range(count)]
    assert desk.perform("anna", "post", requests, may_cut=True).is_done


def test_a_split_with_ticks_on_several_pages(reader: Reader, desk: Desk) -> None:
    post_many(desk, 250)
    page = reader.get(f"/c/{VIOLINS}/split")
    page = reader.send(page.form("split"), ("go", "1"), posting=["3", "7"], text="Nordic fiddles")
    assert "2 of 250 ticked" in page.text and "Violin 0100" in page.text and "Violin 0003" not in page.text
    page = reader.send(page.form("split"), ("tick", "page"))
    assert "102 of 250 ticked" in page.text and page.form("split").value("text") == "Nordic fiddles"
    page = reader.send(page.form("split"), ("go", "0"))
    assert page.form("split").values("posting") == ["3", "7"]
    page = reader.send(page.form("split"), posting=["7"])
    it = view(desk, number_of(desk, "Nordic fiddles"))
    assert it.postings == 101 and view(desk, VIOLINS).postings == 149 and it.typed == (("broaderGeneric", VIOLINS),)
    assert 7 in desk.replica.postings.numbers_at(it.number) and 3 not in desk.replica.postings.numbers_at(it.number)


def test_a_split_by_a_filter(reader: Reader, desk: Desk) -> None:
    post_many(desk, 120)
    form = reader.get(f"/c/{VIOLINS}/split").form("split")
    page = reader.send(form, filter="violin 001")
    assert (
        desk.replica.postings.count_at(VIOLINS) == 120 and "Violin 0019" in page.text and "Violin 0020" not in page.text
    )
    page = reader.send(page.form("split"), ("tick", "all"))
    page = reader.send(page.form("split"), text="Early ones", place="beside", related="1")
    it = view(desk, number_of(desk, "Early ones"))
    assert it.postings == 10 and it.broader == (BOWED,) and it.related == (VIOLINS,)


@pytest.mark.parametrize("path", ["split", "records"])
def test_a_list_that_is_looked_at_has_the_focus(reader: Reader, desk: Desk, path: str) -> None:
    """Also by the key Enter in its filter: what follows is ticked without going through the page again."""
    post_many(desk, 3)
    answer = reader.client.get(f"/c/{VIOLINS}/{path}").text
    assert re.findall(r"<(\w+)[^>]* autofocus", answer) == ["input"] and "<output" in answer
    form = next(it for it in reader.get(f"/c/{VIOLINS}/{path}").forms if "kept" in it.names)
    for sent in ({"filter": "violin"}, {"tick": "page"}, {"go": "0"}, {"look": "1"}):
        fields = {name: value for name, value in form.fields if name not in ("filter", "do")}
        answer = reader.client.post(f"/c/{VIOLINS}/{path}", data={**fields, **sent}).text
        assert re.findall(r"<(\w+)[^>]* autofocus", answer) == ["output"], sent


def test_a_split_that_is_refused_keeps_its_ticks(reader: Reader, desk: Desk) -> None:
    post_many(desk, 3)
    page = reader.send(reader.get(f"/c/{VIOLINS}/split").form("split"), text="Fiddles", posting=["2"])
    form = page.form("split")
    assert page.status == 409 and form.invalid == {"text"} and form.values("posting") == ["2"]
    assert "Fiddles has the preferred term" in form.text and desk.replica.postings.count_at(VIOLINS) == 3


def test_an_empty_split_has_no_place(reader: Reader, desk: Desk) -> None:
    reader.send(reader.get(f"/c/{HARPS}/split").form("split"), text="Lyres", place="none")
    assert view(desk, number_of(desk, "Lyres")).is_top


def test_too_many_at_once_arent_moved(reader: Reader, desk: Desk) -> None:
    made = [{"do": "concept", "scheme": 1, "tag": "en", "text": f"Lyre {n}"} for n in range(70)]
    first = desk.perform("anna", "new", made).number(1) or 0
    links = [{"do": "link", "kind": "broader", "a": first + n, "b": HARPS} for n in range(70)]
    assert desk.perform("anna", "move", links).is_done
    form = reader.get(f"/c/{first}/move").form("move")
    page = reader.send(form, other="Violins", **{"with": [str(first + n) for n in range(1, 70)]})
    assert page.status == 409 and "at most 64 can be moved at once" in page.form("move").text
    assert len(page.form("move").values("with")) == 69
    page = reader.send(form, other="Violins", **{"with": [str(first + n) for n in range(1, 64)]})
    assert page.status == 200 and len(view(desk, HARPS).narrower) == 6


def test_a_concept_with_many_narrower_ones_shows_the_first(reader: Reader, desk: Desk) -> None:
    made = [{"do": "concept", "scheme": 1, "tag": "en", "text": f"Lyre {n:03}"} for n in range(70)]
    first = desk.perform("anna", "new", made).number(1) or 0
    links = [{"do": "link", "kind": "broader", "a": first + n, "b": HARPS} for n in range(70)]
    assert desk.perform("anna", "move", links).is_done
    page = reader.get(f"/c/{HARPS}")
    assert "Lyre 059" in page.text and "Lyre 060" not in page.text and "and 10 more" in page.text
    page = reader.get(f"/c/{first + 69}")
    assert page.html.count("Lyre 069") > 3 and f"/c/{HARPS}" in page.links()
    reader.send(page.form("change-pref-en-1"), text="Ancient lyres")
    assert "Ancient lyres" in reader.get(f"/c/{HARPS}").text
