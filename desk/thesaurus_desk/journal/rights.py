"""Who may do what: settled by the head, and kept in the journal. One place decides it for forms, tables, proposals and
what takes changes back."""
from __future__ import annotations

import json
from collections.abc import Collection, Iterator, Mapping, Sequence
from dataclasses import dataclass, field
from typing import Protocol

from thesaurus_desk.auth.roles import LOWEST, Role, role_named
from thesaurus_desk.journal.entries import Request, Step
from thesaurus_desk.journal.schema import Database
from thesaurus_desk.journal.values import hides_or_shows, set_request, text_of
from thesaurus_tools.fields import HIDDEN, RELEASE
from thesaurus_tools.kinds import MAPPINGS

# The requests that make a concept.
MAKING = ("concept", "split")
CANDIDATE = HIDDEN[0]
# The roles of which the head chooses the lowest one that does something; and what is so settled, with what it is at
# first: to merge, split and deprecate concepts, to import vocabularies, and to keep the office's own fields.
CHOICES = (Role.EDITOR, Role.HEAD)
ACTS: Mapping[str, Role] = dict.fromkeys(("merge", "split", "deprecate", "import", "fields"), Role.HEAD)
# The requests that change no thesaurus.
INDEXING = ("post", "withdraw", "import")
# The parts of a request that name what it changes.
ENDS = ("owner", "scheme", "concept", "source", "target", "a", "b")


class StoreFacts(Protocol):
    """What is asked of a store."""

    def scheme_of(self, number: int) -> int | None:
        """Returns the scheme of a resource."""

    def has_records(self, number: int) -> bool:
        """Whether a record is indexed with a concept."""


@dataclass(frozen=True, slots=True)
class Rights:
    """What each role may do, in whatever form it is asked for: by a form, by a table, as a proposal that is accepted,
    or to take a change back."""

    # The lowest role that may approve a candidate, or make a concept that is none; or make one of what is approved.
    approver: Role = Role.EDITOR
    # Whether a new concept that was proposed becomes a candidate.
    proposed_are_candidates: bool = False
    # The lowest role for each act.
    lowest: Mapping[str, Role] = field(default_factory=lambda: ACTS)
    # Whether editors merge and split where no record moves.
    without_records: bool = True
    # Of schemes that not every editor changes, who does.
    people: Mapping[int, frozenset[str]] = field(default_factory=dict)
    # Whether visitors of a public desk propose something.
    visitors_propose: bool = False
    # Who asks, and the store.
    name: str = field(default="", compare=False)
    facts: StoreFacts | None = field(default=None, compare=False)

    def lowest_role(self, requests: Sequence[Request]) -> Role:
        """Returns the lowest role that may make requests, none of which has been performed."""
        return self.lowest_of(requests, made_by(requests))

    def lowest_role_of(self, steps: Sequence[Step]) -> Role:
        """Returns the lowest role that may make the requests of steps."""
        made = {it.answer["ok"] for it in steps if it.request["do"] in MAKING and it.answer and "ok" in it.answer}
        # (what was merged has no records any more: the answer says how many moved)
        moving = {id(it.request): bool((it.answer or {}).get("moved", True)) for it in steps}
        return self.lowest_of([it.request for it in steps], made, moving)

    def lowest_of(
        self, requests: Sequence[Request], made: Collection[int | str], moving: Mapping[int, bool] | None = None
    ) -> Role:
        """Returns the lowest role that may make requests, which make some concepts. `moving`: by the ids of those that
        were performed, whether they have moved records if they are merges."""
        roles = [self.role_for(it, moving[id(it)] if moving else None) for it in requests]
        is_approving = any(hides_or_shows(it) and it["owner"] not in made for it in requests)
        if is_approving or set(made) - hidden_by(requests):
            roles.append(self.approver)
        if any(self.name not in self.people.get(it, (self.name,)) for it in self.schemes_of(requests)):
            roles.append(Role.HEAD)
        return max(roles, default=Role.READER)

    def role_for(self, request: Request, has_moved: bool | None = None) -> Role:
        """Returns the lowest role that may make a request. Only a head makes a release, or undoes one."""
        do = str(request["do"])
        if do == "set" and request["field"] == RELEASE:
            return Role.HEAD
        # (an `import` is a posting file; the act of this name is about vocabularies)
        if do in LOWEST or do not in self.lowest:
            return LOWEST.get(do, Role.EDITOR)
        is_of_editors = self.without_records and do in ("merge", "split") and not self.moves_records(request, has_moved)
        return Role.EDITOR if is_of_editors else self.lowest[do]

    def moves_records(self, request: Request, has_moved: bool | None) -> bool:
        """Whether a merge or a split moves records, or has moved some; it may, where the store isn't known."""
        if request["do"] == "split":
            return bool(request["postings"])
        if has_moved is not None:
            return has_moved
        source = request["source"]
        # (what the same plan makes has none)
        return isinstance(source, int) and (self.facts is None or self.facts.has_records(source))

    def schemes_of(self, requests: Sequence[Request]) -> Iterator[int]:
        """Yields the schemes that requests change, as far as it matters."""
        for request in requests if self.people and self.facts else ():
            # (a mapping is its maker's, and changes nothing of the other thesaurus)
            ends = ("a",) if request.get("kind") in MAPPINGS else ENDS if request["do"] not in INDEXING else ()
            for it in (request.get(end) for end in ends):
                scheme = self.facts.scheme_of(it) if isinstance(it, int) and self.facts else None
                if scheme is not None:
                    yield scheme

    def may(self, role: Role, act: str) -> bool:
        """Whether a role does something wherever it is: an act, or what the head alone doesn't."""
        return role >= self.lowest[act]

    def completed(self, requests: Sequence[Request], role: Role) -> list[Request]:
        """Returns requests, by which what a role makes becomes a candidate if the role doesn't approve."""
        return list(requests) if role >= self.approver else as_candidates(requests)

    def refusal(self, requests: Sequence[Request], role: Role) -> str:
        """Returns the key of the words for why a role may not make requests; nothing if it may."""
        if role >= self.lowest_role(requests):
            return ""
        is_approving = role < self.approver and any(map(hides_or_shows, requests))
        return "status.of_approvers" if is_approving else "rights.refused"


def made_by(requests: Sequence[Request]) -> set[int | str]:
    """Returns how requests refer to the concepts that they make."""
    return {f"${it.get('as', place)}" for place, it in enumerate(requests, 1) if it["do"] in MAKING}


def hidden_by(requests: Sequence[Request]) -> set[int | str]:
    """Returns the concepts that requests make candidates."""
    return {it["owner"] for it in requests if hides_or_shows(it) and text_of(it["new"]) in HIDDEN}


def as_candidates(requests: Sequence[Request]) -> list[Request]:
    """Returns requests, by which each concept that they make becomes a candidate."""
    lacking = sorted(made_by(requests) - hidden_by(requests), key=str)
    return [*requests, *(set_request(it, "status", "", new=CANDIDATE) for it in lacking)]


PEOPLE = "people."


def read_rights(journal: Database, name: str = "", facts: StoreFacts | None = None) -> Rights:
    """Returns what the head has settled, for someone at a store."""
    found = {it["name"]: it["value"] for it in journal.all("SELECT name, value FROM setting")}
    return Rights(
        role_named(found.get("approver", Role.EDITOR.word)),
        found.get("proposed") == CANDIDATE,
        {act: role_named(found.get(act, lowest.word)) for act, lowest in ACTS.items()},
        found.get("records", "without") == "without",
        {
            int(key.removeprefix(PEOPLE)): frozenset(json.loads(it))
            for key, it in found.items()
            if key.startswith(PEOPLE)
        },
        bool(found.get("visitors")),
        name,
        facts,
    )


def write_rights(journal: Database, rights: Rights) -> None:
    """Notes what the head settles."""
    values = {
        "approver": rights.approver.word,
        "proposed": CANDIDATE if rights.proposed_are_candidates else "",
        "visitors": "propose" if rights.visitors_propose else "",
        "records": "without" if rights.without_records else "",
        **{act: role.word for act, role in rights.lowest.items()},
        **{f"{PEOPLE}{scheme}": json.dumps(sorted(them)) for scheme, them in rights.people.items()},
    }
    with journal.writing() as rows:
        rows.execute("DELETE FROM setting WHERE name GLOB ?", (f"{PEOPLE}*",))
        rows.executemany("INSERT OR REPLACE INTO setting VALUES (?, ?)", list(values.items()))
