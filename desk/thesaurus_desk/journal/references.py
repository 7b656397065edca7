"""References in a plan: `"$2"` is the number that its second request makes."""
from __future__ import annotations

import re
from collections.abc import Sequence
from typing import Any

Request = dict[str, Any]
# The members of a request that are numbers, or references to requests before it in its plan.
NUMBERS = ("owner", "a", "b", "concept", "source", "target", "scheme", "posting", "postings")
REFERENCE = re.compile(r"\$[1-9][0-9]*")


def resolve(value: Any, numbers: Sequence[int | str | None]) -> Any:
    """Returns a value with numbers for references: `"$2"` is the number that the plan's second request made."""
    if isinstance(value, list):
        return [resolve(it, numbers) for it in value]
    if isinstance(value, str) and REFERENCE.fullmatch(value) and int(value[1:]) <= len(numbers):
        return numbers[int(value[1:]) - 1]
    return value


def resolve_request(request: Request, numbers: Sequence[int | str | None]) -> Request:
    """Returns a request with numbers, or other references, for references."""
    # (a list among the values of a field has numbers; a text may begin with a dollar sign)
    return {
        name: resolve(it, numbers) if name in NUMBERS or name in ("old", "new") and isinstance(it, list) else it
        for name, it in request.items()
    }
