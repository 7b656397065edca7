"""How templates call functions and macros. A page has hundreds of calls, so each is as short as it can be."""
from __future__ import annotations

from collections.abc import Callable
from typing import Any

from jinja2.runtime import Context, Macro


class PageContext(Context):
    """A context of a template that passes itself to no function, since none of a page takes it."""

    def call(self, called: Callable[..., Any], /, *args: Any, **named: Any) -> Any:  # type: ignore[override]
        """Calls a function or a macro; a macro is passed how the template escapes."""
        named.pop("_block_vars", None)
        named.pop("_loop_vars", None)
        if type(called) is Macro:
            return called(self.eval_ctx, *args, **named)
        return called(*args, **named)
