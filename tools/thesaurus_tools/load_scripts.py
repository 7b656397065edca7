"""Scripts with names in place of numbers, as lines, and as blocks of lines that nothing but the program needs to read.
"""
from __future__ import annotations

import re
from collections.abc import Mapping
from hashlib import sha256

from thesaurus_tools.command_line import REFUSED, ToolError
from thesaurus_tools.requests import encode, parse_json

# What a request makes that has a name: a resource or a posting.
MAKES = {
    "scheme": "resource",
    "concept": "resource",
    "collection": "resource",
    "outside": "resource",
    "split": "resource",
    "post": "posting",
}
RESOURCE_MEMBERS = {"scheme", "owner", "a", "b", "concept", "source", "target"}
POSTING_MEMBERS = {"posting", "postings"}
NUMBERED_MEMBERS = RESOURCE_MEMBERS | POSTING_MEMBERS | {"number"}
NO_NAMES: frozenset[str] = frozenset()
# The most bytes of a line or a block, and the most lines of a block.
LONGEST, MOST_LINES = 1_048_000, 64
# What lines hold that aren't read one by one: texts without escapes that begin with no dollar, numbers, and names of
# resources. (No group is possessive: Python before 3.11.5 then continues from within one that does not match.)
IN_TEXT = r'[^"\\\x00-\x1f]'
TEXT, NUMBER = rf'"(?!\$){IN_TEXT}*+"', rf'(?:[1-9][0-9]{{0,9}}+|"\${IN_TEXT}++")'
MEMBER = rf', ?"(?:(?:kind|tag|text|key|record)": ?{TEXT}|(?:scheme|owner|a|b|concept)": ?{NUMBER})'
# Lines that make concepts with names; and lines that only add something, which gets no name.
CONCEPT_LINE = rf'\{{"as": ?"{IN_TEXT}++", ?"do": ?"concept"(?:{MEMBER})+\}}\n'
ADDING_LINE = rf'\{{"do": ?"(?:addLabel|link|post)"(?:{MEMBER})+\}}\n'
BLOCK = re.compile(rf"(?:{CONCEPT_LINE}){{2,{MOST_LINES}}}|(?:{ADDING_LINE}){{2,{MOST_LINES}}}")
NAME_MADE = re.compile(r'^\{"as": ?"([^"]*)", ?', re.M)
NAME_USED = re.compile(r'(": ?)"\$([^"]*)"')
BLANKS = " \t\r\v\f"


def digest_of(line: bytes) -> str:
    """Returns what a journal calls a line."""
    return sha256(line).hexdigest()[:16]


class Line:
    """A request of the script."""

    __slots__ = ("number", "text", "request", "name", "digest", "kind", "uses", "members", "entry")
    count = 1

    def __init__(self, number: int, text: str, request: dict):
        self.number, self.text, self.request = number, text, request
        self.name, self.kind = request.pop("as", ""), str(request.get("do"))
        self.digest = digest_of(text.encode())
        # The names that it uses, and the members that have them.
        self.uses: frozenset[str] = NO_NAMES
        self.members: frozenset[str] = NO_NAMES
        # That of an earlier run, which sent the line and didn't see its answer.
        self.entry: int | None = None

    def note_names(self, kinds: dict[str, str]) -> None:
        """Notes the names that are used. Raises ValueError for a name that nothing has, or another kind of thing."""
        for member, value in self.request.items():
            if member in NUMBERED_MEMBERS:
                is_posting = member in POSTING_MEMBERS or member == "number" and self.request.get("get") == "posting"
                names = [
                    it[1:]
                    for it in (value if isinstance(value, list) else [value])
                    if isinstance(it, str) and it.startswith("$")
                ]
                for used in names:
                    kind = "posting" if is_posting else "resource"
                    if kinds.get(used) != kind:
                        raise ValueError(
                            f"${used} is a {kinds[used]}'s name, where a {kind}'s is needed"
                            if used in kinds
                            else f"no line before this one makes ${used}"
                        )
                if names:
                    self.uses, self.members = self.uses.union(names), self.members | {member}

    def digests(self) -> list[str]:
        return [self.digest]

    def lines(self) -> list[Line]:
        """Returns the line alone."""
        return [self]

    @property
    def names(self) -> list[str]:
        """The name of what the line makes, or an empty one."""
        return [self.name]

    def encoded(self, numbers: Mapping[str, int | str]) -> bytes:
        """Returns the request as the program reads it."""
        return encode(self.resolved(numbers))

    def resolved(self, numbers: Mapping[str, int | str]) -> dict:
        """Returns the request with numbers, or references within a plan, in place of names."""
        if not self.members:
            return self.request

        def number(it: object) -> object:
            return numbers[it[1:]] if isinstance(it, str) and it.startswith("$") else it

        request = self.request.copy()
        for member in self.members:
            value = request[member]
            request[member] = [number(it) for it in value] if isinstance(value, list) else numbers[value[1:]]
        return request


class Block:
    """Lines that follow one another and aren't read one by one: all make concepts with names, or none makes anything
    that has a name."""

    __slots__ = ("number", "text", "count", "names", "uses")
    entry = None

    def __init__(self, number: int, text: str, names: list[str], uses: frozenset[str]):
        self.number, self.text, self.count = number, text, text.count("\n")
        self.names, self.uses = names, uses

    def claim_names(self, kinds: dict[str, str]) -> bool:
        """Notes in `kinds` what has names, unless a name is given twice, or one is used that no line before the block
        gives to a resource."""
        is_new = len({*self.names}) == len(self.names) and kinds.keys().isdisjoint(self.names)
        is_right = is_new and all(kinds.get(it) == "resource" for it in self.uses)
        if is_right:
            kinds.update(dict.fromkeys(self.names, "resource"))
        return is_right

    def digests(self) -> list[str]:
        return list(map(digest_of, self.text.encode().split(b"\n")[:-1]))

    def lines(self) -> list[Line]:
        """Returns the lines one by one."""
        kinds = dict.fromkeys(self.uses, "resource")
        return [parse_line(number, it, kinds) for number, it in enumerate(self.text.split("\n")[:-1], self.number)]

    def encoded(self, numbers: Mapping[str, int | str]) -> bytes:
        """Returns the requests as a plan has them, with numbers or references in place of names."""
        text = NAME_MADE.sub("{", self.text) if self.names else self.text
        if self.uses:
            shown = {
                it: number if type(number) is int else f'"{number}"' for it in self.uses for number in [numbers[it]]
            }
            text = NAME_USED.sub(lambda it: f"{it[1]}{shown[it[2]]}", text)
        return text[:-1].replace("\n", ",").encode()


def parse_line(number: int, text: str, kinds: dict[str, str]) -> Line:
    """Returns the request of a line, and notes in `kinds` what its name is given to. Raises ValueError if it is
    none."""
    if not is_utf8(text):
        raise ValueError("no UTF-8")
    text = text.strip()
    if len(text.encode()) > LONGEST:
        raise ValueError("the line is too long")
    request = parse_json(text)
    if not isinstance(request, dict):
        raise ValueError("no JSON object")
    line = Line(number, text, request)
    line.note_names(kinds)
    if line.name != "":
        if not isinstance(line.name, str) or line.kind not in MAKES:
            raise ValueError('"as" needs a text, and a request that makes something')
        if line.name in kinds:
            raise ValueError(f"the name {line.name} is given twice")
        kinds[line.name] = MAKES[line.kind]
    return line


def is_utf8(text: str) -> bool:
    """Whether a text that was decoded with surrogates in place of other bytes has none."""
    try:
        text.encode()
    except UnicodeEncodeError:
        return False
    return True


def parse_block(number: int, text: str) -> Block:
    """Returns a block, with the names that its lines give and use."""
    names = NAME_MADE.findall(text) if text.startswith('{"as"') else []
    return Block(number, text, names, frozenset(it for _, it in NAME_USED.findall(text)) if '"$' in text else NO_NAMES)


def parse_script(data: bytes, file: str, has_blocks: bool = False) -> list[Line | Block]:
    """Returns the requests of a script, in blocks where that may be. Raises ToolError that lists each line that is
    wrong."""
    text = data.decode("utf-8", "surrogateescape") + "\n"
    has_blocks = has_blocks and (text.isascii() or is_utf8(text))
    parts: list[Line | Block] = []
    wrong: list[str] = []
    kinds: dict[str, str] = {}
    at, number = 0, 1
    while at < len(text):
        found = BLOCK.match(text, at) if has_blocks else None
        block = parse_block(number, found[0]) if found and len(found[0].encode()) <= LONGEST else None
        if block and block.claim_names(kinds):
            parts.append(block)
            at, number = at + len(block.text), number + block.count
            continue
        end = text.index("\n", at)
        line, at = text[at:end], end + 1
        if line.strip(BLANKS) and not line.lstrip(BLANKS).startswith("#"):
            try:
                parts.append(parse_line(number, line, kinds))
            except (ValueError, RecursionError) as error:
                wrong.append(f"{file}:{number}: {error}")
        number += 1
    if wrong:
        raise ToolError(
            "\n".join(wrong[:20] + ([f"and {len(wrong) - 20} more lines"] if len(wrong) > 20 else [])), REFUSED
        )
    return parts
