"""The languages of terms: which one a reader sees first, and what each is called."""
from __future__ import annotations

from flask import Flask, g, request

from thesaurus_desk.web.context import the_replica

# Names of languages in themselves.
NAMES = dict(
    it.replace("_", " ").split("=")
    for it in (
        "ar=العربية bg=български ca=català cs=čeština cy=Cymraeg da=dansk de=Deutsch el=ελληνικά "
        "en=English es=español et=eesti eu=euskara fa=فارسی fi=suomi fr=français ga=Gaeilge gl=galego "
        "he=עברית hr=hrvatski hu=magyar is=íslenska it=italiano ja=日本語 ko=한국어 la=Latina "
        "lb=Lëtzebuergesch lt=lietuvių lv=latviešu mt=Malti nb=norsk_bokmål nl=Nederlands "
        "nn=norsk_nynorsk no=norsk pl=polski pt=português rm=rumantsch ro=română ru=русский "
        "sk=slovenčina sl=slovenščina sq=shqip sr=српски sv=svenska tr=Türkçe uk=українська zh=中文 "
    ).split()
)


def language_name(tag: str) -> str:
    """Returns the name of a language in itself; the tag, where it isn't known."""
    return NAMES.get(tag.split("-")[0], tag)


def install_languages(app: Flask) -> None:
    """Chooses the languages of terms before each page: the one chosen, that of the pages, the others by their use."""

    @app.before_request
    def choose() -> None:
        there = the_replica().languages()
        chosen = request.cookies.get("terms", "")
        first = next((it for it in (chosen, g.words.language) if it in there), there[0] if there else "en")
        g.tags = [first, *(it for it in there if it != first)]
