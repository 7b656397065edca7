"""The forms of notes with sources, notations, own fields, statuses and sources of terms, at 360 pixels: with and
without script."""
from __future__ import annotations

import pytest
from browsing import Browser
from looks import CONTRAST, STRUCTURE, WIDTH
from selenium.webdriver.remote.webelement import WebElement
from test_array_tasks import small  # noqa: F401 (a fixture is used by its name)

pytestmark = pytest.mark.needs("chromedriver", "selenium")


def fits(browser: Browser) -> bool:
    """Whether the page has no part that is too wide, has its landmarks and labels, and can be read."""
    return browser.run(WIDTH) == browser.run(STRUCTURE) == browser.run(CONTRAST) == []


def opened(browser: Browser, link: str) -> WebElement:
    """The form that a link of a concept's page opens."""
    browser.sends(browser.find(f"#values a[id=at-{link}]").click)
    assert fits(browser), link
    return browser.find(f"details[id=at-{link}] form")


def send(browser: Browser, form: WebElement, **values: str) -> None:
    """Fills in the fields of a form, and sends it."""
    for name, text in values.items():
        field = form.find_element("name", name)
        field.clear()
        field.send_keys(text)
    browser.sends(form.find_element("css selector", "button.main").click)


def test_a_note_with_its_source_and_a_notation(small: Browser) -> None:  # noqa: F811
    small.go("/c/5")
    long = "The smallest of its family, " + "and the highest, " * 20
    send(small, opened(small, "add-definition"), new=f"{long}\nwith four strings.", source="New Grove")
    assert "with four strings." in small.text("#value-definition + dd") and "(New Grove)" in small.text("#values")
    send(small, opened(small, "add-notation"), tag="MIMO", new="321.322-71")
    assert "321.322-71 MIMO" in " ".join(small.text("#values").split()) and fits(small)
    small.go("/c/6")
    send(small, opened(small, "add-notation"), tag="MIMO", new="321.322-71")
    form = small.find("details[id=at-add-notation] form")
    assert "already has the notation" in form.text and fits(small)
    assert small.focused().get_attribute("value") == "321.322-71"


def test_a_field_of_the_office(small: Browser) -> None:  # noqa: F811
    small.go("/fields")
    form = next(it for it in small.all("form[action='/fields']") if it.find_elements("css selector", "button.main"))
    send(small, form, **{"name": "period", "name-en": "Period"})
    assert "period" in small.text("#field-period") and fits(small)
    small.go("/c/5")
    send(small, opened(small, "add-period"), new="since 1550")
    assert "since 1550" in small.text("#value-period + dd")


def test_the_source_of_a_term(small: Browser) -> None:  # noqa: F811
    small.go("/c/5")
    small.find("a[id=at-change-pref-en-1]").click()
    form, *_ = small.wait(lambda: small.all("details[id=at-change-pref-en-1] form"))
    assert fits(small)
    send(small, form, source="MIMO 2011")
    assert "(MIMO 2011)" in small.text("#terms") and fits(small)


def test_a_status(small: Browser) -> None:  # noqa: F811
    small.go("/c/6")
    small.sends(small.find("a#at-work").click)
    form = small.find("form[action='/c/6/work']")
    form.find_element("css selector", "option[value=revise]").click()
    assert fits(small)
    send(small, form, task="Look at it")
    assert "Status: to be revised" in small.text(".work") and fits(small)
