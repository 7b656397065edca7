"""The web site of the sample, which a release has, so that anyone can look at one."""
from __future__ import annotations

import os
import subprocess
import sys
import tempfile
from pathlib import Path

HOME = Path(__file__).resolve().parent.parent
sys.path[:0] = [str(HOME / "desk"), str(HOME / "tools")]

from thesaurus_desk.sample import make_sample  # noqa: E402
from thesaurus_tools.command_line import ToolError  # noqa: E402

NAME = "sample-site"
LANGUAGES = "en,de,fr"


def write_site(program: Path, folder: Path) -> None:
    """Writes the site to a new folder. Raises ToolError if a tool fails."""
    with tempfile.TemporaryDirectory() as name:
        store = make_sample(str(program), Path(name))
        export, journal = Path(name, "sample.nt"), store.with_name(f"{store.stem}-desk.sqlite")
        made = subprocess.run([program, "--db", store, "--existing", "export"], capture_output=True, check=True)
        export.write_bytes(made.stdout)
        Path(name, "thesaurus").symlink_to(program)
        places = {**os.environ, "PATH": f"{name}{os.pathsep}{os.environ['PATH']}"}
        words = [export, folder, "--langs", LANGUAGES, "--db", store, "--journal", journal]
        tool = [sys.executable, str(HOME / "tools" / "site"), *map(str, words)]
        ran = subprocess.run(tool, capture_output=True, text=True, check=False, env=places)
        if ran.returncode:
            raise ToolError(f"the site of the sample can't be made: {ran.stderr.strip()}")
