"""What the documents name is there: links and anchors, files, options of commands, requests with their refusals in
order, names of refusals and faults, limits, tests that aren't in the gate, and the programs that blocks of commands
call. What there is has its words: each option of a tool, and each refusal in the desk's languages. Figures of speed are
in bench/RESULTS.md alone, those of the gate in one table of CONTRIBUTING.md; and README is short. The
sources say what there is; nothing is run."""
from __future__ import annotations

import ast
import re
import shutil
from collections.abc import Callable, Iterator
from pathlib import Path

import pytest
from program import ROOT
from thesaurus_desk.words import texts_of

# Yields what is wrong in a document.
Check = Callable[[Path, str], Iterator[str]]

DOCUMENTS = [
    *sorted(ROOT.glob("*.md")),
    *sorted(ROOT.glob("docs/*.md")),
    *sorted(ROOT.glob("bench/*.md")),
    *sorted(ROOT.glob("examples/*.md")),
]
PROGRAM = ("./thesaurus", "thesaurus")
# The most words of the README, by `wc -w`: a newcomer reads it for two minutes.
README_WORDS = 800
FENCE = re.compile(r"^```(\w*)\n(.*?)^```$", re.M | re.S)
LINK = re.compile(r"\]\(([^)\s]+)\)")
# A path in the text or in a command. A word in capitals is any name.
NAMED = re.compile(r"(?<![\w./-])(?:\./)?((?:dev|tools|tests|bench|examples|share|docs|crates|\.ci)/[\w./@-]*\w)")
OPTION = re.compile(r"(?<![\w-])--[a-z][\w-]*")
# The options of the program that take no value.
FLAGS = ("--existing",)
# A figure of speed: a number with a unit of time, memory or work, or a ratio. Time-outs are whole seconds, limits whole
# bytes.
FIGURE = re.compile(
    (
        r"\b\d[\d.,]* (?:CPU "
        r"(?:minutes|seconds)|microseconds|milliseconds|ms|s|[KMG]B|instructions)\b|\b\d+\.\d+ "
        r"(?:times|seconds|minutes)\b"
    )
)
# What blocks of commands may call without a word on where it is from: a shell has it, or each Debian.
COMMON = set("[ cat cmp cp date echo grep head kill ls mkdir mv printf sed tail test wait wc".split())
# Other programs that they call, with the package of Debian that the document names. (`rt` is the toolchain.)
PACKAGES = {
    "curl": "curl",
    "dot": "graphviz",
    "rapper": "raptor2-utils",
    "rt": "toolchain",
    "sqlite3": "sqlite3",
    "thesaurus2htmls": "libbiblio-thesaurus-perl",
    "thesaurus2tex": "libbiblio-thesaurus-perl",
    "yaz-marcdump": "yaz",
}
# The options that each command has, and those of pytest.
ANYWHERE = ("--help", "--collect-only")
RESULTS = ROOT / "bench" / "RESULTS.md"
# A figure of the gate: a row of the table in CONTRIBUTING.md with minutes by the clock and of CPU.
GATE = ROOT / "CONTRIBUTING.md", "| Part | Minutes by the clock | CPU minutes |"


def read(path: Path) -> str:
    return path.read_text(encoding="utf-8")


def prose(text: str) -> str:
    """A document without its blocks of code."""
    return FENCE.sub("", text)


def anchors(path: Path) -> set[str]:
    """The anchors of the headings of a document."""
    headings = re.findall(r"^#+ (.*)$", prose(read(path)), re.M)
    plain = [re.sub(r"\[([^]]*)\]\([^)]*\)", r"\1", it).replace("`", "") for it in headings]
    return {re.sub(r"[^\w -]", "", it.lower()).replace(" ", "-") for it in plain}


def links(path: Path, text: str) -> Iterator[str]:
    for target in LINK.findall(prose(text)):
        if re.match(r"https?:", target):
            continue
        name, _, anchor = target.partition("#")
        to = (path.parent / name).resolve() if name else path
        if not to.exists():
            yield f"a link to {target}, which isn't there"
        elif anchor and anchor not in anchors(to):
            yield f"a link to {target}, which is no heading there"


def is_there(name: str) -> bool:
    return (ROOT / name).exists() or bool(re.search(r"\b[A-Z]{2,}\b", name)) or "*" in name


def paths(_: Path, text: str) -> Iterator[str]:
    """The files that the text names, also in commands. What a link has is checked as a link."""
    for name in sorted(set(NAMED.findall(LINK.sub("", text)))):
        if not is_there(name):
            yield f"{name}, which isn't there"


def options_of(command: str) -> str | None:
    """The text that has the options of a command, or None for one of elsewhere."""
    if command in PROGRAM:
        return " ".join(f'"--{it}"' for it in re.findall(r"\bFl Fl ([a-z][\w-]*)", read(ROOT / "thesaurus.1")))
    path = ROOT / command
    further = [ROOT / "tests" / "conftest.py"] if command == "tests/run" else []
    return "".join(map(read, (*with_modules(path), *further))) if path.is_file() else None


def with_modules(path: Path) -> list[Path]:
    """A script, with the modules of its folder, or of the desk, that it imports, and those that these import."""
    found, todo = [path], [path]
    for file in todo:
        named = re.findall(r"^ *(?:from|import) ([\w.]+)", read(file), re.M)
        files = [folder / f"{it.replace('.', '/')}.py" for it in named for folder in (path.parent, ROOT / "desk")]
        new = [it for it in dict.fromkeys(files) if it.is_file() and it not in found]
        found += new
        todo += new
    return found


def calls(text: str) -> Iterator[list[str]]:
    """The commands in blocks and in code within the text, each as its words."""
    lines = [line for kind, block in FENCE.findall(text) for line in block.splitlines()]
    for line in [*lines, *re.findall(r"`([^`\n]+)`", prose(text))]:
        for call in re.split(r"\||&&|;", line.removeprefix("$ ")):
            words = re.split(r" -- ", call)[0].split()
            while words and re.fullmatch(r"\w+=.*", words[0]):
                words.pop(0)
            if words and re.match(r"(\./)?thesaurus$|(dev|tools|tests|bench)/\w", words[0]):
                yield words


def commands(_: Path, text: str) -> Iterator[str]:
    """Commands that the program doesn't have. (The manual is compared with its help by tests/run manual.)"""
    names = re.findall(r"^\.It Cm (\w+)", read(ROOT / "thesaurus.1"), re.M)
    for words in calls(text):
        if words[0] in PROGRAM:
            values = {at + 1 for at, it in enumerate(words) if OPTION.fullmatch(it) and it not in FLAGS}
            named = [it for at, it in enumerate(words[1:], 1) if at not in values and re.match(r"[a-z]", it)][:1]
            yield from (f"{words[0]} has no command {it}" for it in named if it not in names)


def options(_: Path, text: str) -> Iterator[str]:
    """Options that a command doesn't have."""
    for command, *words in calls(text):
        has = options_of(command)
        for name in (it.partition("=")[0] for it in words if OPTION.match(it)):
            if has is not None and f'"{name}"' not in has and f"{name}\n" not in has and name not in ANYWHERE:
                yield f"{command} has no option {name}"


def blocks_of(text: str) -> Iterator[str]:
    """The commands of each block, without what they read from the block itself."""
    for kind, block in FENCE.findall(text):
        lines = block.splitlines() if kind == "sh" else [it[2:] for it in block.splitlines() if it.startswith("$ ")]
        yield re.sub(r"<<'(\w+)'(.*)\n(?:.*\n)*?\1\n", r"\2\n", "".join(f"{it}\n" for it in lines))


def programs_of(block: str) -> Iterator[str]:
    """The programs that a block calls, without those of this repository."""
    plain = re.sub(r"'[^']*'|\"[^\"]*\"|\d?>+ ?&?\S+", " TEXT ", block.replace("\\\n", " "))
    for call in re.split(r"[|;&()\n]+", plain):
        words = [it for it in call.split() if not re.fullmatch(r"\w+=.*", it)]
        if words and words[0] not in PROGRAM and "/" not in words[0]:
            yield words[0]


def programs(_: Path, text: str) -> Iterator[str]:
    """Programs that blocks call, of which the document doesn't say where they are from; and blocks that hide that one
    isn't there."""
    for block in blocks_of(text):
        for name in sorted({*programs_of(block)} - COMMON):
            if PACKAGES.get(name, name).lower() not in text.lower() or name not in PACKAGES:
                yield f"{name}, of {PACKAGES.get(name, 'no package that is known here')}, which isn't named"
        for file in re.findall(r"(?:2|&)> ?(\S+)", block):
            if block.count(file) < 2 or file in ("&1", "/dev/null"):
                yield f"errors that go to {file}, so that nobody sees that a program is missing"


def figures(path: Path, text: str) -> Iterator[str]:
    """Figures of speed elsewhere than in RESULTS.md, and a second table of the gate's."""
    if path != RESULTS:
        yield from (
            f"the figure {it}, whose place is bench/RESULTS.md or, for the gate, CONTRIBUTING.md"
            for it in FIGURE.findall(prose(text))
        )
    if text.count(GATE[1]) != (path == GATE[0]):
        yield f"{text.count(GATE[1])} tables of the gate's figures"


def section_of(text: str, heading: str) -> str:
    return text.split(f"\n{heading}\n", 1)[1].split("\n## ")[0].split("\n### ")[0]


def table(text: str, heading: str, first: str = r"`?(\w+)`?") -> dict[str, list[str]]:
    """The rows of the table under a heading, by their first cell."""
    lines = [line for line in section_of(text, heading).splitlines() if line.startswith("| ")]
    rows = [[it.strip() for it in re.split(r"(?<!\\)\|", line)[1:-1]] for line in lines[1:]]
    named = [(re.match(first, row[0]), row[1:]) for row in rows]
    return {match[1]: cells for match, cells in named if match}


def variants(source: str, name: str) -> list[str]:
    """The variants of an enum of thes_base, without their fields."""
    (body,) = re.findall(rf"pub enum {name} \{{\n(.*?)^\}}", source, re.M | re.S)
    return re.findall(r"^    (\w+)", body, re.M)


def same(what: str, found: list[str], wanted: list[str]) -> Iterator[str]:
    if found != wanted:
        yield f"{what}: {', '.join(map(str, found))}; by the sources {', '.join(map(str, wanted))}"


def requests() -> Iterator[str]:
    """REQUESTS.md has each request with its refusals in the order of the definitions, and each name."""
    text = read(ROOT / "docs" / "REQUESTS.md")
    keywords = read(ROOT / "crates" / "thes_requests" / "src" / "keywords.rt")

    def named(kind: str) -> dict[str, str]:
        return dict(re.findall(rf'"(\w+)" => Some\({kind}::(\w+)\)', keywords))

    verbs, rows = named("CommandKeyword"), table(text, "## Requests that change something")
    yield from same("values of do", sorted(rows), sorted(verbs))
    rules = read(ROOT / "crates" / "thes_base" / "specs" / "Checks.antt")
    for verb, variant in verbs.items():
        (rule,) = re.findall(rf"^checks_of setting s after \(request\.{variant} .*?\[\]$", rules, re.M | re.S)
        wanted = [*(["KeyReused"] if verb == "post" else []), *re.findall(r"\bno\.(\w+)", rule)]
        yield from same(f"the refusals of {verb}", rows.get(verb, ["", "", ""])[2].split(", "), wanted)
    yield from same("values of get", sorted(table(text, "## Queries")), sorted(named("QueryKeyword")))
    yield from same("kinds of labels", sorted(table(text, "### Labels")), sorted(named("LabelKind")))
    yield from same("kinds of links", sorted(table(text, "### Links")), sorted(named("LinkKind")))
    source = read(ROOT / "crates" / "thes_base" / "src" / "fault.rt")
    yield from same(
        "names of refusals", sorted(table(text, "## What the names mean")), sorted(variants(source, "Refusal"))
    )
    for name in (*variants(source, "FormFault"), *variants(source, "Fault")):
        if name not in text:
            yield f"{name} is missing"


def columns() -> Iterator[tuple[str, list[str]]]:
    """The columns of each table of a store, by the statements that create it."""
    source = re.sub(r"\\\n\s*", "", read(ROOT / "crates" / "thes_sql" / "src" / "create.rt"))
    for name, body in re.findall(r"CREATE TABLE (\w+) \((.*?)\) STRICT", source):
        yield name, [it.split()[0] for it in re.sub(r", PRIMARY KEY \(.*\)", "", body).split(", ")]


def faults() -> Iterator[str]:
    """OPERATING.md has each fault, and each table of a store with its columns."""
    text = read(ROOT / "docs" / "OPERATING.md")
    source = read(ROOT / "crates" / "thes_base" / "src" / "fault.rt")
    wanted = {*variants(source, "Fault"), *variants(source, "PipeFault"), "Net"} - {"Fault"}
    found = {
        it for row in table(text, "## Faults", r"(.*)$") for it in re.findall(r"\b[A-Z]\w+", row) if it not in ("HTTP",)
    }
    yield from same("names of faults", sorted(found), sorted(wanted))
    rows, made = table(text, "## The tables"), dict(columns())
    for names in ([*made], [it.lower() for it in variants(source, "Table")]):
        yield from same("tables", sorted(rows), sorted(names))
    for name, of_table in made.items():
        described = set(re.findall(r"`(\w+)`", rows.get(name, [""])[0]))
        yield from same(f"columns of {name}", sorted(described), sorted(of_table))


def limits() -> Iterator[str]:
    """The limits are those of the sources, wherever they stand."""
    source = read(ROOT / "crates" / "thes_base" / "src" / "data.rt")
    values = dict(re.findall(r"^            (\w+): ([\d_]+),$", source, re.M))
    text = read(ROOT / "docs" / "REQUESTS.md")
    yield from same(
        "limits",
        [it[0] for it in table(text, "## Limits").values()],
        [f"{int(it.replace('_', '')):,}" for it in values.values()],
    )
    for path in (ROOT / "README.md", ROOT / "docs" / "OPERATING.md", ROOT / "thesaurus.1"):
        text = read(path)
        units = "|".join(values)
        found = re.findall(rf"\b(\d[\d,]*) ({units})\b", text) + [
            it[::-1] for it in re.findall(rf'^\.It ({units}) Ta "([\d,]+)"', text, re.M)
        ]
        for number, unit in found:
            if int(number.replace(",", "")) != int(values[unit].replace("_", "")):
                yield f"{path.name} has {number} {unit} as a limit"


def trusted() -> Iterator[str]:
    """PROOFS.md names each ported crate that crates.txt names; the parts of sqlite are one."""
    lines = [it.partition(":") for it in read(ROOT / "crates.txt").splitlines() if it and it[0] != "#"]
    own = {head.split()[0] for head, _, _ in lines}
    ports = {re.sub(r"^sqlite_.*", "sqlite", it) for _, _, rest in lines for it in rest.split()} - own
    section = read(ROOT / "docs" / "PROOFS.md").split("\n## Trusted\n")[1]
    yield from same("ported crates", sorted(set(re.findall(r"`(\w+)`", section))), sorted(ports))


def modules_by_hand() -> set[str]:
    """The modules whose tests are all run by hand, and those of the same folder that such tests call."""
    found = set[str]()
    for path in ROOT.glob("tests/*/test_*.py"):
        functions = [it for it in ast.parse(read(path)).body if isinstance(it, ast.FunctionDef)]
        tests = [it for it in functions if it.name.startswith("test_")]
        marked = [it for it in tests if "pytest.mark.by_hand" in map(ast.unparse, it.decorator_list)]
        named = {f"{it.id}.py" for test in marked for it in ast.walk(test) if isinstance(it, ast.Name)}
        found.update(it for it in named if path.with_name(it).is_file())
        found.update([path.name] if marked and len(marked) == len(tests) else [])
    return found


def by_hand() -> Iterator[str]:
    """PROOFS.md and FAILURES.md say of each test that is run by hand that it is, and of no other, so that nobody takes
    it for a part of the gate."""
    modules = modules_by_hand()
    for document in ("PROOFS.md", "FAILURES.md"):
        for name, said in re.findall(r"`(?:[\w/]+/)?(\w+\.py)`(, by hand)?", read(ROOT / "docs" / document)):
            if bool(said) != (name in modules):
                yield f"{document}: {name} {'with' if said else 'without'} `, by hand`"


def is_explained(option: ast.Call) -> bool:
    """Whether the help of a tool has a text on an option."""
    texts = [ast.unparse(it.value) for it in option.keywords if it.arg == "help"]
    return bool(texts) and "SUPPRESS" not in texts[0] and texts[0] not in ("''", "None")


def silent_options(path: Path) -> Iterator[str]:
    """The options of a tool that its help doesn't explain: of a shell script, those that its first comment lacks."""
    if not read(path).startswith("#!/usr/bin/env python3"):
        head, _, code = read(path).partition("\nset -")
        yield from (it for it in re.findall(r"^ *\w*(--[a-z][\w-]*)(?: \|.*)?\)", code, re.M) if it not in head)
        return
    for it in (it for file in with_modules(path) for it in ast.walk(ast.parse(read(file)))):
        if isinstance(it, ast.Call) and ast.unparse(it.func).split(".")[-1] in ("add", "add_argument"):
            names = [word.value for word in it.args if isinstance(word, ast.Constant) and isinstance(word.value, str)]
            yield from (name for name in names if OPTION.fullmatch(name) and not is_explained(it))


def refusals() -> Iterator[str]:
    """Each refusal, malformed member and fault has its texts in the three languages of the desk."""
    source = read(ROOT / "crates" / "thes_base" / "src" / "fault.rt")
    names = {it for kind in ("Refusal", "FormFault", "Fault") for it in variants(source, kind)}
    names.update(table(read(ROOT / "docs" / "REQUESTS.md"), "## What the names mean"))
    for language in ("de", "en", "fr"):
        texts = texts_of(language)
        yield from (
            f"{name} has no text in {language}" for name in sorted(names) if not texts.get(f"refusals.{name}.text")
        )


@pytest.mark.parametrize("path", DOCUMENTS, ids=lambda it: str(it.relative_to(ROOT)))
@pytest.mark.parametrize("check", [links, paths, commands, options, programs, figures], ids=lambda it: it.__name__)
def test_document_names_what_is_there(path: Path, check: Check) -> None:
    assert not list(check(path, read(path)))


UNITS = sorted(ROOT.glob("share/*.service"))


@pytest.mark.parametrize("path", [*DOCUMENTS, *UNITS], ids=lambda it: str(it.relative_to(ROOT)))
def test_a_command_that_needs_a_store_makes_none(path: Path) -> None:
    """One with a mistyped name would: so each says that its store is there, or with which base it is made."""
    found = re.findall(r"(?:^ *|=|\|\| )(?:\S*/)thesaurus --db (\S+) (.*)$", read(path), re.M)
    assert [it for it in found if it[0] != "new.db" and not re.match(r"--existing |--base ", it[1])] == []


def test_manual_names_files_that_are_there() -> None:
    page = ROOT / "thesaurus.1"
    assert not list(paths(page, read(page)))


@pytest.mark.parametrize("check", [requests, faults, trusted, by_hand, limits, refusals], ids=lambda it: it.__name__)
def test_documents_say_what_the_sources_have(check: Callable[[], Iterator[str]]) -> None:
    assert not list(check())


@pytest.mark.parametrize("name", [pytest.param(it, marks=pytest.mark.needs(it)) for it in PACKAGES])
def test_program_of_a_block_is_there(name: str) -> None:
    """Where it isn't, that is said: this is skipped, or fails where all tools are wanted."""
    assert shutil.which(name)


def test_programs_of_blocks_are_installed_for_checks() -> None:
    packages = {*re.findall(r"[\w.-]+", read(ROOT / "dev" / "install-checks").split('packages="')[1].split('"')[0])}
    assert {*PACKAGES.values()} - {"toolchain"} <= packages


@pytest.mark.parametrize(
    "path",
    [it for folder in ("dev", "tools") for it in sorted((ROOT / folder).iterdir()) if it.is_file()],
    ids=lambda it: it.name,
)
def test_each_option_of_a_tool_is_named(path: Path) -> None:
    """By its help, or else by a document."""
    documents = "".join(map(read, (*DOCUMENTS, ROOT / "thesaurus.1")))
    assert not [it for it in silent_options(path) if not re.search(rf"(?<![\w-]){it}(?![\w-])", documents)]


def test_readme_is_short() -> None:
    assert len(read(ROOT / "README.md").split()) <= README_WORDS
