"""Starts the desk, whose package is in desk/; its help is that of thesaurus_desk/command_line.py."""
from __future__ import annotations

import sys


from thesaurus_desk.command_line import main
from thesaurus_tools.command_line import USAGE, ToolError, run
from thesaurus_tools.system_python import run_by_system_python


def carry_out() -> int:
    """Carries out a command, by the system's Python if only that has Flask and waitress. Raises ToolError if it has
    not."""
    try:
        return main()
    except ModuleNotFoundError as error:
        run_by_system_python("babel", "flask", "waitress")
        advice = "apt-get install python3-babel python3-flask python3-waitress"
        raise ToolError(f"{sys.executable} has no module {error.name}: {advice}", USAGE) from None


def command() -> None:
    """Runs it, and ends with its exit status."""
    run("desk", carry_out)
