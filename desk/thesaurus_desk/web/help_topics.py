"""Which help each page has, and the tasks of the guide: the words are `help.TOPIC.PART` and `help.task.TASK.PART`."""
from __future__ import annotations

from dataclasses import dataclass

from thesaurus_desk.store.text_keys import fold
from thesaurus_desk.web.context import say

# What each key does: the words are `home.key.NAME`.
KEYS = {
    "/": "search",
    "↓ ↑ Enter": "choose",
    "Esc": "escape",
    "t": "tree",
    "→ ←": "branch",
    "a": "add",
    "b": "broader",
    "r": "related",
    "n": "new",
    "m": "move",
    "g": "merge",
    "s": "split",
    "p": "index",
    "e c b n r x 0 s f": "map",
    "1 … 9": "tick",
    "Ctrl+Enter": "save",
    "?": "help",
}
# The keys of each page, and those that some pages have beside them.
EVERYWHERE = ("/", "?", "t", "Esc")
FURTHER = {
    "concept": ("a", "b", "r", "n", "m", "g", "s", "p"),
    "tree": ("→ ←",),
    "search": ("↓ ↑ Enter",),
    "mapping": ("e c b n r x 0 s f",),
    "index": ("1 … 9", "Ctrl+Enter"),
}
# The topics, each with the tasks that are done there.
TOPICS = {
    "home": ("start", "find", "approve"),
    "search": ("find",),
    "tree": ("find", "move", "print"),
    "az": ("find",),
    "collections": ("group", "start"),
    "concept": ("terms", "rename", "definition", "relate", "map", "index", "deprecate", "undo", "propose"),
    "new": ("concept", "start", "group"),
    "arrays": ("group",),
    "move": ("move", "undo"),
    "merge": ("merge", "undo"),
    "split": ("split", "undo"),
    "records": ("index", "file"),
    "reindex": ("index", "merge"),
    "import": ("table", "skos", "file", "translate"),
    "lists": ("find", "translate", "approve"),
    "quality": ("find",),
    "changes": ("undo", "watch"),
    "past": ("undo", "release"),
    "proposals": ("propose",),
    "releases": ("release",),
    "downloads": ("print", "release"),
    "for_me": ("watch",),
    "print": ("print",),
    "fields": ("definition",),
    "rights": ("approve",),
    "users": ("approve",),
    "state": ("undo",),
    "about": ("merge", "split"),
    "account": ("start",),
    "languages": ("translate",),
    "help": ("find",),
    "mapping": ("map",),
    "index": ("index",),
    "bulk": ("move", "merge", "table"),
    "tables": ("table", "translate"),
}
TASKS = tuple(
    "start find concept terms rename definition relate move map group table skos translate index file merge split"
    " deprecate undo propose approve watch release print".split()
)
# The topics of the pages of a blueprint, where it isn't called as its topic, and of single pages.
OF_BLUEPRINTS = {
    "create": "new",
    "imports": "import",
    "runs": "import",
    "own_fields": "fields",
    "values": "lists",
    "work": "lists",
    "print_displays": "print",
    "visitors": "proposals",
    "indexing": "index",
    "queue": "index",
    "bulk_changes": "bulk",
    "replacement": "bulk",
    "list_tables": "tables",
}
OF_PAGES = {
    "search.az": "az",
    "tree.schemes": "collections",
    "tree.collections": "collections",
    "lists.quality": "quality",
    "home.keys": "help",
    "home.languages": "languages",
}
PARTS = ("purpose", "mistake1", "mistake2", "mistake3")


@dataclass(frozen=True)
class HelpEntry:
    """A task or a page of the help that has the words that are asked for."""

    name: str
    title: str
    text: str


def topic_of(endpoint: str) -> str | None:
    """Returns the topic of a page, if it has one."""
    blueprint = endpoint.partition(".")[0]
    topic = OF_PAGES.get(endpoint) or OF_BLUEPRINTS.get(blueprint, blueprint)
    return topic if topic in TOPICS else None


def keys_of(topic: str) -> dict[str, str]:
    """Returns the keys of a page, with what each does."""
    return {key: say(f"home.key.{KEYS[key]}") for key in (*EVERYWHERE, *FURTHER.get(topic, ()))}


def tasks_with(query: str) -> list[HelpEntry]:
    """Returns the tasks that have all words of a text, or all tasks."""
    return found_in(query, [HelpEntry(it, say(f"help.task.{it}.title"), say(f"help.task.{it}.text")) for it in TASKS])


def pages_with(query: str) -> list[HelpEntry]:
    """Returns the topics whose help has all words of a text, or all topics."""
    told = [(it, [say(f"help.{it}.{part}") for part in ("name", *PARTS)]) for it in TOPICS]
    return found_in(query, [HelpEntry(it, texts[0], " ".join(texts[1:])) for it, texts in told])


def found_in(query: str, those: list[HelpEntry]) -> list[HelpEntry]:
    """Returns those that have all words of a text, but for case and accents."""
    asked = fold(query).split()
    return [it for it in those if all(word in fold(f"{it.title} {it.text}") for word in asked)]
