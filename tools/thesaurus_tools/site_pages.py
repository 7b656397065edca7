"""The pages of one language of a web site."""
from __future__ import annotations

import json
import re
from collections import defaultdict
from collections.abc import Iterable, Iterator
from dataclasses import dataclass
from functools import cached_property
from html import escape
from pathlib import Path

from thesaurus_tools.arrays import node_label
from thesaurus_tools.fields import DESCRIPTION, NOTES, mark_of
from thesaurus_tools.site_export import Resource, Thesaurus
from thesaurus_tools.site_rdf import FOLDER as RDF_FOLDER
from thesaurus_tools.site_terms import FILES, Entry, letter_of, page_of_lead, page_of_letter, words_of
from thesaurus_tools.texts import sort_key

NAMES = ("prefLabel", "altLabel", "hiddenLabel")
# The tags of labels in no language, or in several or unknown ones, such as codes: the search finds them in each
# language.
OF_NO_LANGUAGE = ("zxx", "mul", "und", "mis")
# What abbreviations stand for, as keys of the words.
WORDS_OF = {
    "SN": "scope",
    "DEF": "definition",
    "UF": "used_for",
    "USE": "use",
    "BT": "broader",
    "NT": "narrower",
    "RT": "related",
}
MAPPINGS = ("exactMatch", "closeMatch", "broadMatch", "narrowMatch", "relatedMatch")
FROM_RIGHT = ("ar", "fa", "he", "ur", "yi")
SCRIPT = '<script src="../site.js" defer></script>\n'
# The most terms that the first page lists without a step to a letter; the most steps down in the tree, as browsers nest
# 512 elements.
FEW_TERMS, MOST_DEEP = 500, 100


@dataclass(eq=False)
class Edition:
    """The pages of one language of a thesaurus that is shown in several, in a folder of their own. Without a title the
    site has the names of its schemes."""

    thesaurus: Thesaurus
    lang: str
    langs: list[str]
    given_title: str
    out: Path
    # Where the site will be, with a slash at its end; "" if that isn't known.
    address: str = ""

    @cached_property
    def words(self) -> dict[str, str]:
        return words_of(self.lang)

    @cached_property
    def languages(self) -> dict[str, str]:
        return {it: words_of(it)["language"] for it in self.langs}

    @cached_property
    def template(self) -> str:
        return (FILES / "page.html").read_text(encoding="utf-8")

    @cached_property
    def order(self) -> list[str]:
        """The languages, this one first."""
        return [self.lang, *(it for it in self.langs if it != self.lang)]

    @cached_property
    def names(self) -> dict[str, tuple[str, str]]:
        """The name of each resource, with its language."""
        return {iri: it.name(self.order) for iri, it in self.thesaurus.resources.items()}

    @cached_property
    def keys(self) -> dict[str, tuple]:
        """By what each resource is sorted."""
        return {iri: sort_key(name) for iri, (name, _) in self.names.items()}

    @cached_property
    def anchors(self) -> dict[str, str]:
        """A link to the page of each resource."""
        resources = self.thesaurus.resources.items()
        return {iri: f'<a href="{it.page}.html">{self.name(it)}</a>' for iri, it in resources}

    @cached_property
    def concepts(self) -> list[Resource]:
        return self.sorted(self.thesaurus.of_kind("Concept"))

    @cached_property
    def schemes(self) -> list[Resource]:
        return self.sorted(self.thesaurus.of_kind("ConceptScheme"))

    @cached_property
    def collections(self) -> list[Resource]:
        return self.sorted(self.thesaurus.of_kind("Collection"))

    @cached_property
    def title(self) -> str:
        names = " · ".join(self.names[it.iri][0] for it in self.schemes)
        return self.given_title or names or self.words["scheme"]

    @cached_property
    def footer(self) -> str:
        return f"{escape(self.title)} · {sum(it.is_live for it in self.concepts)} {self.words['concepts']}"

    @cached_property
    def member_of(self) -> dict[str, list[Resource]]:
        """The collections of each member."""
        found: dict[str, list[Resource]] = defaultdict(list)
        for it in self.collections:
            for member in self.thesaurus.linked(it, "member"):
                found[member.iri].append(it)
        return found

    @cached_property
    def letters(self) -> dict[str, list[Entry]]:
        """The lines of A to Z by their letters."""
        found: dict[str, list[Entry]] = defaultdict(list)
        for entry in sorted(self.find_entries(), key=lambda it: it[:3]):
            found[letter_of(entry)].append(entry)
        return found

    def sorted(self, found: Iterable[Resource]) -> list[Resource]:
        return sorted(found, key=lambda it: self.keys[it.iri])

    def name(self, it: Resource) -> str:
        """The name of a resource as HTML, with its language if that is another one."""
        text, tag = self.names[it.iri]
        return escape(text) if tag in (self.lang, "") else f'<i lang="{tag}">{escape(text)}</i> <small>{tag}</small>'

    def link(self, it: Resource) -> str:
        return self.anchors[it.iri]

    def links(self, it: Resource, kind: str) -> list[str]:
        return [self.link(other) for other in self.sorted(self.thesaurus.linked(it, kind))]

    def broader(self, it: Resource) -> list[Resource]:
        return self.sorted(self.thesaurus.linked(it, "broader"))

    def typed(self, it: Resource, kind: str) -> list[tuple[str, Resource]]:
        """The broader or narrower terms with their types, ordered by these."""
        pair = (lambda other: (it.iri, other.iri)) if kind == "broader" else (lambda other: (other.iri, it.iri))
        found = [(self.thesaurus.types.get(pair(other), ""), other) for other in self.thesaurus.linked(it, kind)]
        return sorted(found, key=lambda them: (them[0], self.keys[them[1].iri]))

    def parts(self, it: Resource) -> list[Resource]:
        """The members of a collection, and the collections within it, in its order."""
        members = [one.iri for one in self.sorted(self.thesaurus.linked(it, "member"))]
        return [self.thesaurus.resources[iri] for iri in self.thesaurus.places.in_order(it.iri, members)]

    def below(self, it: Resource) -> list[Resource]:
        """What the tree has below a concept: its arrays, and the narrower concepts that are in none of these."""
        arrays = self.thesaurus.arrays(it)
        within = {iri for array in arrays for iri in array.links.get("member", ())}
        direct = self.thesaurus.places.directly_below(it.iri)
        others = (other for other in self.thesaurus.linked(it, "narrower") if other.iri not in within)
        return [*self.sorted(array for array in arrays if array.iri in direct), *self.sorted(others)]

    def narrower(self, it: Resource) -> Iterator[tuple[str, Resource]]:
        """Yields the narrower terms of a concept with their types: those of its arrays behind these, and the others."""
        if not self.thesaurus.arrays(it):
            yield from self.typed(it, "narrower")
            return
        waiting = self.below(it)[::-1]
        while waiting:
            other = waiting.pop()
            yield self.thesaurus.types.get((other.iri, it.iri), ""), other
            waiting += self.parts(other)[::-1] if other.kind == "Collection" else []

    def label(self, it: Resource) -> str:
        """A link to an array, with its name as a node label."""
        text, tag = self.names[it.iri]
        return f'<a class="node-label" href="{it.page}.html" lang="{tag or self.lang}">{escape(node_label(text))}</a>'

    def find_entries(self) -> Iterator[Entry]:
        """Yields each preferred term, and each alternative one and each of a dead concept with what to use in its
        place."""
        leads: dict[str, list[Resource]] = defaultdict(list)
        for it in self.concepts:
            text, tag = self.names[it.iri]
            target = self.thesaurus.replacement(it)
            if it.is_live:
                yield Entry(self.keys[it.iri], text, it.page, it)
                for lead in dict.fromkeys(it.texts("altLabel", self.lang)):
                    leads[lead].append(it)
            elif (
                target
                and tag == self.lang
                and text not in target.texts("prefLabel", self.lang) + target.texts("altLabel", self.lang)
            ):
                yield Entry(self.keys[it.iri], text, it.page, None, (target,))
        for text, use in leads.items():
            yield Entry(sort_key(text), text, page_of_lead(text), None, tuple(use))

    # --- parts of pages ---

    def write(self, name: str, kind: str, title: str, main: str, *, twin: str = "index", head: str = "") -> None:
        """Writes a page; `twin` is the page that corresponds to it in the other languages."""
        places = [("index", "az"), ("tree", "tree"), *[("collections", "collections")][: len(self.collections)]]

        def here(page: str) -> str:
            return ' aria-current="page"' if page == name else ""

        def other(lang: str) -> str:
            return f'<a href="../{lang}/{twin}.html" lang="{lang}" hreflang="{lang}">{self.languages[lang]}</a>'

        current = f'<span aria-current="true">{self.languages[self.lang]}</span>'
        text = self.template.format(
            lang=self.lang,
            direction="rtl" if self.lang.split("-")[0] in FROM_RIGHT else "ltr",
            kind=kind,
            head=head + self.head_links(name, kind, twin),
            main=main,
            title=escape(title if title == self.title else f"{title} – {self.title}"),
            site=escape(self.title),
            search=self.words["search"],
            skip=self.words["skip"],
            pages_name=self.words["pages"],
            languages_name=self.words["languages"],
            pages=" ".join(f'<a href="{page}.html"{here(page)}>{self.words[word]}</a>' for page, word in places),
            languages=" ".join(current if it == self.lang else other(it) for it in self.langs)
            if len(self.langs) > 1
            else "",
            footer=self.footer,
        )
        with open(f"{self.out}/{name}.html", "w", encoding="utf-8") as file:
            file.write(text)

    def head_links(self, name: str, kind: str, twin: str) -> str:
        """Returns what the head of a page says of it to programs: its own address, if that of the site is known; the
        same page in each language; its RDF."""
        start = self.address or "../"
        # (an entry to print is that of A to Z, and a lead-in term that of what to use)
        own = twin if kind == "lead" else name.replace("print-", "az-", 1)
        found = [f'<link rel="canonical" href="{self.address}{self.lang}/{own}.html">'] if self.address else []
        for lang in self.langs if name == twin and len(self.langs) > 1 else ():
            found.append(f'<link rel="alternate" hreflang="{lang}" href="{start}{lang}/{twin}.html">')
        if kind in ("concept", "gone"):
            found.append(f'<link rel="alternate" type="text/turtle" href="../{RDF_FOLDER}/{name}.ttl">')
        return "".join(f"{it}\n" for it in found)

    def row(self, word: str, items: Iterable[str], short: str = "") -> str:
        """A row of the table on a page, or nothing where there are no items."""
        lines = "".join(f"<li>{it}</li>" for it in items)
        abbreviation = f' <abbr title="{self.words[word]}">{self.words[short]}</abbr>' if short else ""
        return f"<dt>{self.words[word]}{abbreviation}</dt><dd><ul>{lines}</ul></dd>\n" if lines else ""

    def notes(self, it: Resource) -> str:
        """The scope notes in this language, or in the first of the others that has some."""
        lang = next((lang for lang in self.order if it.texts("scopeNote", lang)), self.lang)
        other = f' lang="{lang}"' if lang != self.lang else ""
        return "".join(f'<p class="note"{other}>{escape(text)}</p>\n' for text in it.texts("scopeNote", lang))

    def other_notes(self, it: Resource) -> Iterator[str]:
        """Rows with what else a desk keeps of a resource: in this language, or in the first of the others that has
        some; and in none."""
        for kind in NOTES:
            lang = next((lang for lang in self.order if it.texts(kind, lang)), self.lang)
            other = f' lang="{lang}"' if lang != self.lang else ""
            yield self.row(kind, (f'<span class="lines"{other}>{escape(text)}</span>' for text in it.texts(kind, lang)))
        for kind in ("notation", "source"):
            yield self.row(kind, (linked_text(text) for _, text in it.labels.get(kind, ())))
        for field, value in it.own:
            if field.tag != "language" or value.tag == self.lang:
                name = escape(mark_of(field, self.lang))
                yield f'<dt>{name}</dt><dd><span class="lines">{linked_text(value.text)}</span></dd>\n'

    def use(self, word: str, targets: Iterable[Resource]) -> str:
        items = "".join(f"<li>{self.link(it)}</li>" for it in targets)
        return f'<div class="use"><p>{self.words[word]}</p>{f"<ul>{items}</ul>" if items else ""}</div>\n'

    def mapped(self, it: Resource, kind: str) -> Iterator[str]:
        """Links to what a concept is mapped to: a page here, or the address of another publisher's concept."""
        yield from self.links(it, kind)
        for iri in it.links.get(kind, ()):
            if iri not in self.thesaurus.resources:
                tag, name = self.thesaurus.name_elsewhere(iri, self.order)
                said = f' lang="{escape(tag)}"' if tag and tag != self.lang else ""
                yield linked_text(iri, f"<span{said}>{escape(name)}</span>" if name != iri else "")

    def path_to(self, it: Resource) -> list[Resource]:
        """The concepts from a top one down to the one above, by the first broader term of each."""
        found: list[Resource] = []
        while (above := self.broader(it)) and above[0] not in found and len(found) < MOST_DEEP:
            it = above[0]
            found.append(it)
        return found[::-1]

    def hierarchy(self, typed: Iterable[tuple[str, Resource]]) -> Iterator[str]:
        for types, other in typed:
            name = self.label(other) if other.kind == "Collection" else self.link(other)
            yield name + "".join(f" <small>{self.words[letter]}</small>" for letter in types)

    # --- pages ---

    def resource_page(self, it: Resource) -> None:
        """Writes the page of a concept or a collection."""
        replacement = self.thesaurus.replacement(it)
        own = it.texts("prefLabel", self.lang)
        others = [
            f'<span lang="{tag}">{escape(text)}</span> <small>{tag}</small>'
            for tag, text in sorted(it.labels["prefLabel"])
            if text not in own
        ]
        rows = [
            self.row("used_for", map(escape, sorted(it.texts("altLabel", self.lang), key=sort_key)), "UF"),
            self.row("broader", self.hierarchy(self.typed(it, "broader")), "BT"),
            self.row("narrower", self.hierarchy(self.narrower(it)), "NT"),
            self.row("related", self.links(it, "related"), "RT"),
            self.row("members", map(self.link, self.parts(it))),
            self.row("in_collections", map(self.link, self.member_of.get(it.iri, ()))),
            *self.other_notes(it),
            *(self.row(kind, self.mapped(it, kind)) for kind in MAPPINGS),
            self.row("other", others),
            self.row(
                "scheme",
                [self.name(scheme) for scheme in self.thesaurus.linked(it, "inScheme")]
                if len(self.schemes) > 1
                else (),
            ),
            self.row("iri", [escape(it.iri)]),
        ]
        path = self.path_to(it)
        above = (
            f'<nav class="path" aria-label="{self.words["path"]}">{"".join(map(self.link, path))}</nav>\n'
            if path
            else ""
        )
        is_in_tree = it.kind == "Concept" and it.is_live and len(path) < MOST_DEEP
        dead = "" if it.is_live else self.use("dead_use", [replacement]) if replacement else self.use("dead", [])
        in_tree = f'<a href="tree.html#t{it.page}">{self.words["in_tree"]}</a> · ' if is_in_tree else ""
        beside = f'<a href="../{RDF_FOLDER}/{it.page}.ttl" type="text/turtle">RDF (Turtle)</a>'
        main = (
            f'{above}<h1>{self.name(it)}</h1>\n{dead}{self.notes(it)}<dl class="rows">\n{"".join(rows)}</dl>\n'
            f'<p class="no-print faint">{in_tree}{beside}</p>\n'
        )
        self.write(it.page, "concept" if it.is_live else "gone", self.names[it.iri][0], main, twin=it.page)

    def line(self, entry: Entry) -> str:
        """A line of A to Z."""
        targets = ", ".join(map(self.link, entry.use))
        text = escape(entry.text)
        return (
            f'<li><a class="use-for" href="{entry.page}.html">{text}</a> → {targets}</li>'
            if targets
            else f'<li><a href="{entry.page}.html">{text}</a></li>'
        )

    def letter_bar(self, prefix: str, current: str = "") -> str:
        def item(it: str) -> str:
            return (
                f'<span aria-current="true">{it}</span>'
                if it == current
                else f'<a href="{prefix}-{page_of_letter(it)}.html">{it}</a>'
            )

        return f'<nav class="letters" aria-label="{self.words["letters"]}">{" ".join(map(item, self.letters))}</nav>\n'

    def index_page(self) -> None:
        """Writes A to Z, with the search."""
        said = " ".join(f'data-{it}="{escape(self.words[it])}"' for it in ("none", "one", "many", "further"))
        links = " ".join(f'<a href="../{it}/index.html" lang="{it}">{self.languages[it]}</a>' for it in self.order[1:])
        elsewhere = f'<p class="elsewhere">{self.words["search_in"]} {links}</p>' if links else ""
        results = (
            f'<section id="results" aria-live="polite" {said} '
            f'hidden><h1>{self.words["search"]}</h1>{elsewhere}</section>\n'
        )
        printed = f'<h2>{self.words["print"]}</h2>\n{self.letter_bar("print")}'
        about = "".join(map(self.described, self.schemes))
        browse = f'<div id="browse">\n<h1>{self.words["az"]}</h1>\n{about}{self.lists()}{printed}</div>'
        main = f'<noscript><p class="faint">{self.words["no_script"]}</p></noscript>\n{results}{browse}'
        self.write("index", "index", self.title, main, head=SCRIPT)

    def described(self, scheme: Resource) -> str:
        """What describes a scheme: its title, its licence and others, in this language or in none; and its version."""
        rows = [self.row(it, map(linked_text, scheme.plain_texts(it, self.lang))) for it in (*DESCRIPTION, "version")]
        return f'<dl class="rows">\n{"".join(rows)}</dl>\n' if any(rows) else ""

    def lists(self) -> str:
        """All terms by their letters; or the letters and the top concepts, where there are many terms."""
        if sum(map(len, self.letters.values())) <= FEW_TERMS:
            sections = [
                ("az", f'<a href="az-{page_of_letter(it)}.html">{it}</a>', [self.line(one) for one in of])
                for it, of in self.letters.items()
            ]
            bar = ""
        else:
            sections = [
                ("tops", self.name(it), [f"<li>{self.link(top)}</li>" for top in self.tops(it)])
                for it in self.schemes
                if self.tops(it)
            ]
            bar = self.letter_bar("az")
        return bar + "".join(
            f'<section class="{name}"><h2>{title}</h2>\n<ul class="terms">{"".join(lines)}</ul></section>\n'
            for name, title, lines in sections
        )

    def terms_file(self) -> None:
        """Writes what the search looks through: each term with its page; then what to use in its place; and 1 for a
        term that isn't shown."""
        terms: list[tuple[object, list[str | int]]] = []
        for entry in (it for of in self.letters.values() for it in of):
            use = [", ".join(self.names[it.iri][0] for it in entry.use)] if entry.use else []
            terms.append((entry.key, [entry.text, entry.page, *use]))
        tags = dict.fromkeys((*OF_NO_LANGUAGE, *filter(None, [self.thesaurus.codes])))
        for it in self.concepts:
            hidden = it.texts("hiddenLabel", self.lang) + [
                text for tag in tags if tag != self.lang for kind in NAMES for text in it.texts(kind, tag)
            ]
            hidden += [text for _, text in it.labels.get("notation", ())]
            if it.is_live:
                terms += [(sort_key(text), [text, it.page, self.names[it.iri][0], 1]) for text in hidden]
        found = json.dumps([term for _, term in sorted(terms)], ensure_ascii=False, separators=(",", ":"))
        (self.out / "terms.js").write_text(f"window.TERMS={found};\n", encoding="utf-8")

    def tops(self, scheme: Resource) -> list[Resource]:
        return [
            it for it in self.concepts if it.is_live and not self.broader(it) and scheme.iri in it.links["inScheme"]
        ]

    def letter_pages(self) -> None:
        """Writes the terms of each letter, as a list and as entries to print; and a page for each alternative label."""
        for letter, entries in self.letters.items():
            page = page_of_letter(letter)
            lines = "".join(map(self.line, entries))
            self.write(
                f"az-{page}",
                "index",
                f"{self.words['az']}: {letter}",
                f'{self.letter_bar("az", letter)}<h1>{letter}</h1>\n<ul class="terms">{lines}</ul>',
            )
            printed = "".join(map(self.printed, entries))
            main = f'{self.letter_bar("print", letter)}<h1>{letter}</h1>\n<div class="entries">\n{printed}</div>'
            self.write(f"print-{page}", "print", f"{self.words['print']}: {letter}", main)
            for entry in entries:
                if entry.page.startswith("use-"):
                    main = f"<h1>{escape(entry.text)}</h1>\n{self.use('lead', entry.use)}"
                    self.write(entry.page, "lead", entry.text, main, twin=entry.use[0].page)

    def printed(self, entry: Entry) -> str:
        """An entry of the edition to print, as the program's alphabetical display has it."""
        it = entry.concept
        if it is None:
            rows = [("USE", "", self.link(other)) for other in entry.use]
            return (
                '<dl class="entry"><dt '
                f'class="use-for">{escape(entry.text)}</dt>{"".join(map(self.printed_row, rows))}</dl>\n'
            )
        rows = [("SN", "", escape(text)) for text in it.texts("scopeNote", self.lang)]
        rows += [("DEF", "", escape(text)) for text in it.texts("definition", self.lang)]
        rows += [("UF", "", escape(text)) for text in sorted(it.texts("altLabel", self.lang), key=sort_key)]
        rows += [("BT", types, self.link(other)) for types, other in self.typed(it, "broader")]
        rows += [
            ("", "", self.label(other)) if other.kind == "Collection" else ("NT", types, self.link(other))
            for types, other in self.narrower(it)
        ]
        rows += [("RT", "", link) for link in self.links(it, "related")]
        return f'<dl class="entry"><dt>{self.link(it)}</dt>{"".join(map(self.printed_row, rows))}</dl>\n'

    def printed_row(self, row: tuple[str, str, str]) -> str:
        """A line of an entry: an abbreviation with the letters of types, and what it is about."""
        short, types, text = row
        if not short:
            return f"<dd>{text}</dd>"
        title = ", ".join([self.words[WORDS_OF[short]], *(self.words[it] for it in types)])
        return f'<dd><abbr title="{escape(title)}">{self.words[short]}{types}</abbr> {text}</dd>'

    def tree_page(self) -> None:
        """Writes the tree of each scheme."""
        parts = []
        for scheme in self.schemes:
            title = f'<h2 id="s{scheme.page}">{self.name(scheme)}</h2>\n' if len(self.schemes) > 1 else ""
            tops = "".join(self.branch(it, None, 1) for it in self.tops(scheme))
            parts.append(f"{title}<ul>{tops}</ul>\n" if tops else title)
        said = f'data-open="{escape(self.words["open"])}" data-close="{escape(self.words["close"])}"'
        main = f'<h1>{self.words["tree"]}</h1>\n<div id="tree" {said}>\n{"".join(parts)}</div>'
        self.write("tree", "tree", self.words["tree"], main, twin="tree", head=SCRIPT)

    def branch(self, it: Resource, above: Resource | None, depth: int) -> str:
        """A concept with those below it. One with several broader terms is shown in full below the first of them."""
        if it.kind == "Collection":
            parts = (
                "".join(self.branch(other, above, depth + 1) for other in self.parts(it)) if depth < MOST_DEEP else ""
            )
            inside = (
                f"<details open><summary>{self.label(it)}</summary><ul>{parts}</ul></details>"
                if parts
                else self.label(it)
            )
            return f"<li>{inside}</li>\n"
        types = self.thesaurus.types.get((it.iri, above.iri), "") if above else ""
        label = self.link(it) + "".join(f" <small>{self.words[letter]}</small>" for letter in types)
        if above and self.broader(it)[:1] != [above]:
            return (
                f'<li>{label} <a class="faint" href="#t{it.page}" title="{escape(self.words["elsewhere"])}">*</a></li>'
            )
        narrower = self.below(it)
        if narrower and depth < MOST_DEEP:
            below = "".join(self.branch(other, it, depth + 1) for other in narrower)
            return f'<li id="t{it.page}"><details><summary>{label}</summary><ul>{below}</ul></details></li>\n'
        return f'<li id="t{it.page}">{label}{" …" if narrower else ""}</li>\n'

    def collections_page(self) -> None:
        items = "".join(
            f"<h2>{self.link(it)}</h2>\n<ul>{''.join(f'<li>{self.link(one)}</li>' for one in self.parts(it))}</ul>\n"
            for it in self.collections
        )
        self.write(
            "collections",
            "collections",
            self.words["collections"],
            f"<h1>{self.words['collections']}</h1>\n{items}",
            twin="collections",
        )

    def write_all(self) -> int:
        """Writes all pages of the language, and returns their number."""
        self.out.mkdir()
        self.index_page()
        self.terms_file()
        self.letter_pages()
        self.tree_page()
        if self.collections:
            self.collections_page()
        for it in [*self.concepts, *self.collections]:
            self.resource_page(it)
        return sum(1 for _ in self.out.glob("*.html"))


def linked_text(text: str, name: str = "") -> str:
    """A text as HTML; an address as a link, which may have a name as HTML: one of another kind than http may be a
    script."""
    is_address = re.fullmatch(r"https?://\S+", text) is not None
    shown = name or escape(text)
    return f'<a href="{escape(text)}" rel="external">{shown}</a>' if is_address else shown
