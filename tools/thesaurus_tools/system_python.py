"""The system's Python, which has the modules of Debian's packages, if this one is of another installation."""
from __future__ import annotations

import os
import subprocess
import sys

from thesaurus_tools.command_line import USAGE, ToolError

SYSTEM_PYTHON = "/usr/bin/python3"


class PackageError(ToolError):
    """That a package of Debian's is lacking."""

    def __init__(self, package: str, text: str = "") -> None:
        super().__init__(text or f"this form needs Debian's {package}", USAGE)
        self.package = package


def run_by_system_python(*modules: str) -> None:
    """Begins this run again with the system's Python, if this isn't it and it has the modules. (A virtual environment
    has the same program, and other modules.)"""
    if sys.executable != SYSTEM_PYTHON and os.access(SYSTEM_PYTHON, os.X_OK):
        look = f"import sys, {', '.join(modules)}; sys.exit(sys.version_info < (3, 11))"
        if subprocess.run([SYSTEM_PYTHON, "-c", look], capture_output=True, check=False).returncode == 0:
            os.execv(SYSTEM_PYTHON, [SYSTEM_PYTHON, *sys.argv])
