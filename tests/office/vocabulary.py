"""Makes a vocabulary as another program's export would be: a tree of concepts in three languages, with links, notes and
mappings, and with the defects that such files have; in Turtle, or in N-Triples. The same number gives the same text."""
from collections.abc import Iterator

PREFIXES = {
    "skos": "http://www.w3.org/2004/02/skos/core#",
    "dct": "http://purl.org/dc/terms/",
    "owl": "http://www.w3.org/2002/07/owl#",
    "xsd": "http://www.w3.org/2001/XMLSchema#",
    "wd": "http://www.wikidata.org/entity/",
    "c": "https://old.example/concepts/",
}
SCHEME = "<https://old.example/scheme>"
# How many concepts are right below each; the first concepts are the top ones.
WIDTH, TOPS = 8, 6
# Syllables, in the order in which numbers take them.
BEGINNINGS = ("ba", "ko", "du", "fe", "gi", "ha", "ju", "la", "mo", "ne", "pi", "ro", "su", "ta", "vo", "ze")
ENDS = ("lern", "mant", "nor", "pel", "ring", "sand", "tok", "wick")
# One of this number of concepts has the defect, or something that a thesaurus can't keep.
DEFECTS = {
    "no label": 997,
    "two labels": 499,
    "same twice": 199,
    "no tag": 151,
    "spaces": 83,
    "too long": 1201,
    "homonym": 311,
    "cycle": 1499,
    "above": 397,
    "unknown": 601,
    "dead": 401,
    "notation": 5,
    "definition": 7,
}
Fact = tuple[str, str]


def word(number: int) -> str:
    """Returns a word that no other number has."""
    number, end = divmod(number, len(ENDS))
    text = ENDS[end]
    while number:
        number, rest = divmod(number, len(BEGINNINGS))
        text = BEGINNINGS[rest] + text
    return text.capitalize()


def parent(number: int) -> int:
    """Returns the concept above a concept, or 0."""
    return (number - TOPS - 1) // WIDTH + 1 if number > TOPS else 0


def has(number: int, defect: str) -> bool:
    return number % DEFECTS[defect] == 0


def labels(number: int) -> Iterator[Fact]:
    """Yields what is said of the labels and notes of a concept."""
    name = word(number - 1 if has(number, "homonym") else number)
    if not has(number, "no label"):
        yield "skos:prefLabel", f'"{name}"@en'
        yield "skos:prefLabel", f'"{name}heit"@de'
        if number % 3:
            yield "skos:prefLabel", f'"{name}\u00e9e"@fr'
    if number % 2:
        yield "skos:altLabel", f'"{name} (old term)"@en'
        yield "skos:altLabel", f'"The {name.lower()}s"@en'
    if number % 9 == 0:
        yield "skos:hiddenLabel", f'"{name.lower()}z"@en'
    if number % 4 == 0:
        yield "skos:scopeNote", (
            f'"For {name.lower()} in the sense of \\"{number}\\"; for others ' 'see its broader term."@en'
        )
    if has(number, "two labels"):
        yield "skos:prefLabel", f'"{name} bis"@en'
    if has(number, "same twice"):
        yield "skos:altLabel", f'"{name}heit"@de'
    if has(number, "no tag"):
        yield "skos:altLabel", f'"Untagged {number}"'
    if has(number, "spaces"):
        yield "skos:altLabel", f'" {name} with  spaces "@en'
    if has(number, "too long"):
        yield "skos:altLabel", f'"{name} and {"very " * 70}long"@en'
    if has(number, "notation"):
        yield "skos:notation", f'"T.{number}"'
    if has(number, "definition"):
        yield "skos:definition", f'"What one calls {name.lower()}."@en'


def links(number: int, count: int) -> Iterator[Fact]:
    """Yields what is said of the links of a concept."""
    above = parent(number)
    yield ("skos:broader", f"c:{above}") if above else ("skos:topConceptOf", SCHEME)
    for it in range((number - 1) * WIDTH + TOPS + 1, number * WIDTH + TOPS + 1):
        if it <= count and not has(it, "dead"):
            yield "skos:narrower", f"c:{it}"
    if number > TOPS + WIDTH and number % 5 == 0 and not has(number - 1, "dead"):
        yield "skos:related", f"c:{number - 1}"
    if number % 11 == 0:
        yield "skos:exactMatch", f"wd:Q{number}"
    if has(number, "cycle") and parent(parent(number)):
        yield "skos:narrower", f"c:{parent(parent(number))}"
    if has(number, "above") and parent(above):
        yield "skos:related", f"c:{parent(above)}"
    if has(number, "unknown"):
        yield "skos:broader", f"c:{count + number}"


def subjects(count: int) -> Iterator[tuple[str, list[Fact]]]:
    """Yields the scheme and the concepts, each with what is said of it."""
    yield SCHEME, [
        ("a", "skos:ConceptScheme"),
        ("dct:title", '"Catalogue of things"@en'),
        ("dct:title", '"Katalog der Dinge"@de'),
        ("dct:created", '"2009-05-01"^^xsd:date'),
    ]
    for number in range(1, count + 1):
        death = [("owl:deprecated", '"true"^^xsd:boolean'), ("dct:isReplacedBy", f"c:{number - 1}")]
        facts = [("a", "skos:Concept"), ("skos:inScheme", SCHEME), *labels(number)]
        yield f"c:{number}", [*facts, *(death if has(number, "dead") else links(number, count))]


def turtle(count: int) -> str:
    """Returns a vocabulary of so many concepts in Turtle."""
    head = "".join(f"@prefix {prefix}: <{iri}> .\n" for prefix, iri in PREFIXES.items())
    return head + "".join(f"\n{it} " + " ;\n    ".join(map(" ".join, facts)) + " .\n" for it, facts in subjects(count))


def term(text: str) -> str:
    """Returns a term of N-Triples for one of Turtle."""
    if text == "a":
        return "<http://www.w3.org/1999/02/22-rdf-syntax-ns#type>"
    value, mark, datatype = text.partition('"^^')
    if mark:
        return f"{value}{mark}{term(datatype)}"
    prefix, _, name = text.partition(":")
    return f"<{PREFIXES[prefix]}{name}>" if prefix in PREFIXES and text[0] not in '<"' else text


def ntriples(count: int) -> str:
    """Returns the same vocabulary in N-Triples."""
    return "".join(
        f"{term(it)} {term(predicate)} {term(value)} .\n" for it, facts in subjects(count) for predicate, value in facts
    )
