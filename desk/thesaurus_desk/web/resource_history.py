"""What the journal says of a resource, for its page."""
from __future__ import annotations

from thesaurus_desk.web.context import the_desk
from thesaurus_desk.web.journal_text import PlanText, tell_plans

MOST_SHOWN = 12


def history_of(number: int) -> list[PlanText]:
    """Returns the last plans that concern a resource, in the reader's words."""
    return tell_plans(the_desk().journal.plans_about(number, MOST_SHOWN), number)
