"""How pages look and sound in a real browser: landmarks, contrast, light and dark, 360 pixels, no script, on paper."""
from __future__ import annotations

import base64
import json
from collections.abc import Iterator
from datetime import datetime, timedelta
from pathlib import Path
from urllib.parse import urlencode

import pytest
from browsing import NARROW, Browser, browsing
from clients import USERS, PASSWORD
from looks import CONTRAST, STRUCTURE, TARGETS, WIDTH
from other_vocabulary import broader, load, pref
from processes import Running, running
from selenium.webdriver.common.keys import Keys
from thesaurus_desk.words import LANGUAGES

pytestmark = [pytest.mark.needs("chromium", "chromedriver", "selenium"), pytest.mark.timeout(900)]
# What another vocabulary has: concepts with the same labels below a common broader term, and two for one of ours.
DUMP = "".join(pref(it, it.title()) + broader(it, "bowed") for it in ("violins", "cellos", "violas"))
DUMP += pref("bowed", "Bowed instruments") + pref("octet", "violin") + "no line\n"
POSTINGS = (("Violin, Jacob Stainer, Absam 1668", 5), ("W" * 120, 5), ("Lute", 12))
# The pages that are looked at; those of forms are opened, too.
PAGES = (
    *(
        "/",
        "/tree?at=5",
        "/az?letter=v",
        "/collections",
        "/schemes",
        "/lists",
        "/lists/unused",
        "/lists/alike",
        "/search?q=instr",
    ),
    *(
        "/search?q=zzz",
        "/print/1?form=alphabetical&notes=1",
        "/print/4",
        "/keys",
        "/help",
        "/help/merge",
        "/about",
        "/me",
        "/users",
        "/languages",
        "/nothing",
    ),
    *(
        "/c/5",
        "/c/1",
        "/c/31",
        "/c/32",
        "/c/34",
        "/c/9999",
        "/c/31/merge?other_number=5",
        "/c/5/move",
        "/c/5/merge",
        "/c/5/split",
        "/new",
        "/new?parent=5",
        "/record",
        "/record?name=Lute",
        "/index",
        "/index?record=Lute",
        "/index/quality",
    ),
    *("/changes", "/changes/1/back", "/changed-since", "/proposals", "/propose", "/propose?concept=5", "/bring-in"),
    "/as-table?of=/tree?format=csv",
    *("/posting/1", "/c/5/records", "/fields", "/c/5?change=work", "/lists/work/candidates"),
    *("/lists/field/definition", "/lists/ended-values", "/c/5?add=definition"),
    *("/lists/undefined", "/lists/related_siblings", "/lists/single_child", "/quality", "/rights", "/for-me"),
    "/propose?concept=5&kind=value-definition",
    *("/mapping", "/mapping/1", "/mapping/1/c/5", "/mapping/1/same", "/mapping/1/changed"),
)


@pytest.fixture(scope="module")
def served(
    program: str, instruments_store: Path, users_file: Path, tmp_path_factory: pytest.TempPathFactory
) -> Iterator[Running]:
    """A desk with users over a store of musical instruments with some records, in a process of its own."""
    room = tmp_path_factory.mktemp("looks")
    store, users = room / "museum.db", room / "users.json"
    store.write_bytes(instruments_store.read_bytes())
    users.write_bytes(users_file.read_bytes())
    load(store, DUMP)
    with pytest.MonkeyPatch.context() as patch:
        patch.setenv("TZ", "CET-1CEST,M3.5.0,M10.5.0/3")
        with running("--db", store, "--users", users, "--program", program) as desk:
            yield desk


def root_of(desk: Running) -> str:
    """Returns the address of a desk."""
    return f"http://127.0.0.1:{desk.port}"


def come_in(browser: Browser, name: str = "anna") -> None:
    """Comes in by a name and a password, as a person does."""
    browser.go("/login")
    browser.find("#login-name").send_keys(name)
    browser.find("#login-password").send_keys(PASSWORD)
    browser.sends(lambda: browser.press(Keys.ENTER))


@pytest.fixture(scope="module")
def anna(served: Running) -> Iterator[Browser]:
    """The browser of the head."""
    with browsing(root_of(served)) as browser:
        come_in(browser)
        for record, concept in POSTINGS:
            post(browser, record, concept)
        yield browser


def post(browser: Browser, record: str, concept: int) -> None:
    """Posts a record by the form of its page."""
    browser.go(f"/record?{urlencode({'name': record})}")
    field = browser.all("form[method=post] input[data-suggest=pick]")[-1]
    browser.run("arguments[0].closest('details')?.setAttribute('open', '')", field)
    browser.pick(field, str(concept))
    browser.sends(lambda: field.send_keys(Keys.ENTER))
    assert browser.all(f'main a[href="/c/{concept}"]'), browser.text()


def open_forms(browser: Browser) -> None:
    """Opens all forms of a page, those first that come when they are opened."""
    browser.run("document.querySelectorAll('a[data-form]').forEach((it) => it.click())")
    browser.wait(lambda: not browser.all("a[data-form]"))
    browser.run("document.querySelectorAll('details:not([data-branch])').forEach((it) => { it.open = true; })")


@pytest.mark.parametrize("path", PAGES)
def test_structure_and_contrast(anna: Browser, path: str) -> None:
    for scheme in ("light", "dark"):
        anna.use_scheme(scheme)
        anna.go(path)
        assert anna.run(STRUCTURE) == [] and anna.run(CONTRAST) == [], scheme
        assert anna.run(TARGETS) == []
        open_forms(anna)
        assert anna.run(CONTRAST) == [], f"{scheme}, with its forms open"
        assert anna.run(TARGETS) == []
    anna.use_scheme("light")
    wrong = [it for it in anna.errors() if path != "/nothing"]
    assert wrong == []


def test_the_page_on_which_one_comes_in(served: Running) -> None:
    with browsing(root_of(served)) as browser:
        for scheme in ("light", "dark"):
            browser.use_scheme(scheme)
            browser.go("/az")
            assert browser.text("h1") == "Sign in" and browser.run(STRUCTURE) == [] and browser.run(CONTRAST) == []
        browser.find("#login-name").send_keys("ben")
        browser.find("#login-password").send_keys("wrong")
        browser.sends(lambda: browser.press(Keys.ENTER))
        assert "is wrong" in browser.text(".wrong") and browser.run(STRUCTURE) == [] and browser.run(CONTRAST) == []
        assert browser.focused().get_attribute("id") == "login-password", "the focus is where something is wrong"
        browser.find("#login-password").send_keys(PASSWORD)
        browser.sends(lambda: browser.press(Keys.ENTER))
        assert browser.driver.current_url.endswith("/az"), "one gets to the page that one asked for"


@pytest.mark.parametrize("language", LANGUAGES)
def test_360_pixels(served: Running, language: str) -> None:
    with browsing(root_of(served), NARROW) as browser:
        come_in(browser)
        browser.go(f"/language?pages={language}&next=/")
        for path in PAGES:
            browser.go(path)
            assert browser.run(WIDTH) == [], path
            open_forms(browser)
            assert browser.run(WIDTH) == [], f"{path}, with its forms open"


# The texts beside which a sign is below the last line, once they are long.
SIGNS_BELOW = """
const SIGNS = 'summary, a[data-form], button.x';
const signs = (it) => [...it.closest('li').querySelectorAll(SIGNS)].filter((it) => it.checkVisibility());
const all = [...document.querySelectorAll('.labels .text, .links li > a:not(.act)')];
const texts = all.filter((it) => signs(it).length);
for (const it of texts) it.textContent = 'a long text '.repeat(12);
const bottom = (it) => it.getBoundingClientRect().bottom, top = (it) => it.getBoundingClientRect().top;
const isBelow = (it) => signs(it).some((sign) => top(sign) >= bottom(it));
return [texts.length, texts.filter(isBelow).map((it) => it.outerHTML)];"""


def test_signs_stay_beside_a_long_text(served: Running) -> None:
    for size in (NARROW, (1280, 960)):
        with browsing(root_of(served), size) as browser:
            come_in(browser)
            browser.go("/c/5")
            count, below = browser.run(SIGNS_BELOW)
            assert count > 3 and below == []
            assert browser.run(WIDTH) == []


def test_the_box_for_searches_stays_where_it_is(anna: Browser) -> None:
    script = (
        "const it = document.getElementById('q').getBoundingClientRect(); return `${it.left} ${it.top} ${it.width}`"
    )
    places = {}
    for path in ("/tree", "/az", "/c/5", "/keys", "/changes", "/bring-in", "/users", "/lists", "/search?q=x"):
        anna.go(path)
        places[path] = anna.run(script)
    assert len(set(places.values())) == 1, places


def test_without_script(served: Running) -> None:
    with browsing(root_of(served), is_scripted=False) as browser:
        come_in(browser)
        browser.go("/tree")
        assert "Violins" not in browser.text()
        for name in ("String instruments", "Bowed instruments"):
            link = next(it for it in browser.all("#tree a.count") if it.get_attribute("aria-label").startswith(name))
            browser.sends(link.click)
        assert "Violins" in browser.text("#tree")
        browser.find("#q").send_keys("violins")
        browser.sends(lambda: browser.press(Keys.ENTER))
        assert browser.driver.current_url.endswith("/c/5") and "Violins" in browser.text("h1")
        browser.find("#q").clear()
        browser.find("#q").send_keys("instrum")
        browser.sends(lambda: browser.press(Keys.ENTER))
        assert "results for" in browser.text("h1")
        browser.go("/me")
        browser.sends(browser.find("form[action='/logout'] button").click)
        assert browser.text("h1") == "Sign in"


def test_suggestions_by_keyboard(anna: Browser) -> None:
    anna.go("/")
    field = anna.press_letter("/")
    assert field.get_attribute("id") == "q"
    field.send_keys("viol")
    assert anna.suggested("viol")[0].startswith("Viol") and field.get_attribute("aria-expanded") == "true"
    field.send_keys(Keys.ARROW_DOWN)
    active = field.get_attribute("aria-activedescendant")
    assert anna.find(f"#{active}").get_attribute("aria-selected") == "true"
    field.send_keys(Keys.ESCAPE)
    anna.wait(lambda: field.get_attribute("aria-expanded") == "false")
    assert anna.focused() == field and field.get_attribute("value") == "viol"
    field.send_keys("i")
    anna.suggested("violi")
    field.send_keys("ns")
    anna.suggested("violins")
    anna.wait(lambda: (found := anna.options()) and all("Violins" in it for it in found))
    assert "suggestions" in anna.run("return document.querySelector('#q ~ [role=status]').textContent")
    anna.sends(lambda: field.send_keys(Keys.ARROW_DOWN, Keys.ENTER))
    assert anna.driver.current_url.endswith("/c/5")


# Types one text, and another one while the suggestions for the first are read; notes the texts whose suggestions are
# shown.
TYPING_ON = """
const field = document.activeElement, list = document.getElementById(field.getAttribute('aria-controls'));
const type = (text) => { field.value = text; field.dispatchEvent(new Event('input')); };
const send = window.fetch;
window.shown = [];
new MutationObserver(() => window.shown.push(list.dataset.query)).observe(list, {attributeFilter: ['data-query']});
window.fetch = async (...words) => {
  window.fetch = send;
  const answer = await send(...words), read = await answer.json();
  answer.json = async () => { type('violi'); return read; };
  return answer;
};
type('viol');"""


def test_suggestions_for_an_earlier_text_are_not_shown(anna: Browser) -> None:
    """Enter would take the first of them."""
    anna.go("/")
    anna.press_letter("/")
    anna.run(TYPING_ON)
    assert anna.suggested("violi")
    assert anna.run("return window.shown") == ["violi"]


def test_the_tree_by_keyboard(anna: Browser) -> None:
    anna.go("/tree")
    anna.run("document.querySelectorAll('#tree summary')[3].focus()")
    assert "Bowed" not in anna.text("#tree")
    anna.press(Keys.ARROW_RIGHT)
    anna.wait(lambda: "Bowed instruments" in anna.text("#tree"))
    anna.press(Keys.ARROW_LEFT)
    anna.wait(lambda: "Bowed instruments" not in anna.text("#tree"))
    assert anna.errors() == []


def test_keys(anna: Browser) -> None:
    anna.go("/c/5")
    anna.sends(lambda: anna.press_letter("t"))
    assert anna.driver.current_url.endswith("/tree?at=5")
    anna.sends(lambda: anna.press_letter("?"))
    assert anna.driver.current_url.endswith("/help/tree") and anna.text("h1") == "Tree"
    anna.press(Keys.TAB)
    assert anna.focused().get_attribute("class") == "skip", "the first key leads to the link to the content"
    anna.press(Keys.ENTER)
    anna.wait(lambda: anna.run("return document.activeElement.id") == "main")


def test_on_paper(anna: Browser) -> None:
    anna.go("/print/1?form=alphabetical&notes=1")
    anna.driver.execute_cdp_cmd("Emulation.setEmulatedMedia", {"media": "print"})
    for selector in ("header", "footer", "form.panel"):
        assert not any(it.is_displayed() for it in anna.all(selector)), selector
    assert "Bowed instruments" in anna.text() and anna.find("button[data-print]").get_attribute("hidden") is None
    anna.driver.execute_cdp_cmd("Emulation.setEmulatedMedia", {"media": ""})
    printed = anna.driver.execute_cdp_cmd("Page.printToPDF", {"preferCSSPageSize": True})["data"]
    assert base64.b64decode(printed).startswith(b"%PDF-")


@pytest.mark.parametrize(("zone", "is_said"), [("Europe/Vienna", False), ("Asia/Tokyo", True)])
def test_times_are_those_of_the_office(served: Running, zone: str, is_said: bool) -> None:
    """As the page's language writes them; with the zone, where the reader's clock shows another time."""
    with browsing(root_of(served), words=("--lang=en-GB",)) as browser:
        browser.driver.execute_cdp_cmd("Emulation.setTimezoneOverride", {"timezoneId": zone})
        come_in(browser, "anna")
        browser.go("/users")
        time = browser.find("time")
        there = datetime.fromisoformat(str(time.get_attribute("datetime")))
        assert there.utcoffset() in (timedelta(hours=1), timedelta(hours=2))
        assert f"{there:%M}" in time.text and f"{there:%d}" in time.text and f"{there.hour % 12 or 12:02}" in time.text
        assert f"{there:%b}" in time.text and ("UTC+" in time.text) is is_said


def test_the_scripts_find_what_they_look_for(anna: Browser) -> None:
    anna.go("/keys")
    planted = {
        STRUCTURE: "<input name=x><nav></nav><h1>a second one</h1><a href='#nowhere'>x</a><button></button>",
        CONTRAST: "<p style='color: #999; background: #fff'>faint</p><input name=x style='border: 1px solid #eee'>",
        WIDTH: "<div style='width: 3000px'>wide</div>",
        TARGETS: "<button style='padding: 0; width: 9px; height: 9px'>x</button>",
    }
    for script, markup in planted.items():
        assert anna.run(script) == []
        anna.run(f"document.querySelector('main').insertAdjacentHTML('beforeend', {json.dumps(markup)})")
        # (the policy of the page forbids attributes of style; a script may set them)
        anna.run("for (const it of document.querySelectorAll('[style]')) it.style.cssText = it.getAttribute('style');")
        assert anna.run(script) != [], markup
        anna.go("/keys")
    assert USERS["anna"] == "head"


def test_a_candidate_without_script_on_a_narrow_page(served: Running) -> None:
    with browsing(root_of(served), NARROW, is_scripted=False) as browser:
        come_in(browser)
        browser.go("/c/12")
        browser.sends(browser.find("a#at-work").click)
        form = browser.find("form[action='/c/12/work']")
        form.find_element("css selector", "option[value=candidate]").click()
        form.find_element("name", "task").send_keys("Look at its " + "very " * 20 + "long strings")
        browser.sends(form.find_element("css selector", "button.main").click)
        assert "Status: candidate" in browser.text(".work") and "The public" in browser.text(".work")
        for path in (
            "/c/12",
            "/c/12?change=work",
            "/tree?at=12",
            "/lists/work/candidates",
            "/c/11",
            "/print/4?candidates=1",
        ):
            browser.go(path)
            assert browser.run(WIDTH) == [] and browser.run(CONTRAST) == [], path
            assert "candidate" in browser.text(), path
        with browsing(root_of(served)) as other:
            other.go("/c/12")
            assert "Status" not in other.text()
        browser.go("/c/12?change=work")
        form = browser.find("form[action='/c/12/work']")
        form.find_element("css selector", "option[value=approved]").click()
        form.find_element("name", "task").clear()
        browser.sends(form.find_element("css selector", "button.main").click)
        assert "Status: approved" in browser.text(".work")
