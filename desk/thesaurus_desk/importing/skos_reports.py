"""What a converter reported, and what a copy of the store refused, by the rules concerned: as a page shows it."""
from __future__ import annotations

import re
from collections import Counter
from collections.abc import Callable, Iterable
from dataclasses import dataclass, field
from typing import NamedTuple

from thesaurus_desk.words import Words
from thesaurus_tools.conversion import ReportRow, first_findings
from thesaurus_tools.table_writer import table_text
from thesaurus_tools.vocabulary import Finding

# A line of a report with its rule.
FINDING = re.compile(r"([A-Z]\w*|lost): (.*)")


@dataclass
class Findings:
    """What breaks one rule, or is lost: lines, and how many more there are. `rule` is empty for all other lines."""

    rule: str
    lines: list[str] = field(default_factory=list)
    more: int = 0


class Reader(NamedTuple):
    """In whose words findings are: those of a language, with the names that fields have in it."""

    words: Words
    field_words: Callable[[str], str]

    def rule(self, it: Finding) -> str:
        """Returns which rule a finding breaks."""
        key = f"bring_in.rule.{it.rule}"
        return self.words(key if self.words.has(key) else "bring_in.rule.other")

    def group(self, it: Finding) -> str:
        """Returns what kind of thing is lost: a property by the name that it has in the file."""
        key = f"lost.{it.group()}"
        return self.words(key) if self.words.has(key) else it.group()

    def what(self, it: Finding) -> str:
        """Returns what is left out."""
        values = dict(it.values)
        tag = values.pop("tag", "")
        for name in ("label_kind", "link_kind"):
            if name in values:
                values[name] = self.words(f"kinds.{name.removesuffix('_kind')}.{values[name]}")
        for name in ("kind", "kinds"):
            if name in values:
                values[name] = "/".join(self.words(f"kinds.resource.{one}") for one in values[name].split("/"))
        if it.key.startswith("value_"):
            values["property"] = self.field_words(values["property"])
        return self.words(f"findings.{it.key}", **values, at=f" ({tag})" if tag else "")


def by_rules(report: Iterable[ReportRow], reader: Reader) -> list[Findings]:
    """Returns the first findings of a converter's report by their rules, in the order in which these come first; of
    what is lost first the number of each kind."""
    found: dict[str, list[Finding]] = {}
    for it, term in report:
        place = f"{term} ({it.resource})" if term else it.resource
        found.setdefault(it.rule, []).append(it._replace(resource=place))
    return [findings_of(rule, its, reader) for rule, its in found.items()]


def findings_of(rule: str, found: list[Finding], reader: Reader) -> Findings:
    """Returns the findings of a rule as lines."""
    shown = first_findings(found)
    counts = Counter(reader.group(it) for it in found if it.group()).most_common()
    kinds = [", ".join(f"{kind} {count}" for kind, count in counts)] if counts else []
    return Findings(rule, [*kinds, *(f"{it.resource}: {reader.what(it)}" for it in shown)], len(found) - len(shown))


def report_table(report: Iterable[ReportRow], reader: Reader) -> str:
    """Returns all that a converter reported as a table (CSV)."""
    heading = [reader.words(f"bring_in.report_heading.{it}") for it in ("rule", "address", "term", "what")]
    rows = ([reader.rule(it), it.resource, term, reader.what(it)] for it, term in report)
    return "\ufeff" + table_text([heading, *rows], for_excel=False)


def refused_by_rules(lines: Iterable[str], script: str) -> list[Findings]:
    """Returns what a copy refused by the rules: each line begins with the number of its request."""
    found: dict[str, Findings] = {}
    for line in lines:
        match = FINDING.fullmatch(re.sub(rf"{re.escape(script)}:(\d+): (\w+)", r"\2: \1", line))
        rule, text = match.groups() if match else ("", line)
        found.setdefault(rule, Findings(rule)).lines.append(text)
    return list(found.values())
