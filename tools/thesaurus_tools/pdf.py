"""Makes PDF of a page to print, by the program for it that is there."""
from __future__ import annotations

import shutil
import subprocess
import tempfile
from pathlib import Path

from thesaurus_tools.command_line import FAULT, ToolError
from thesaurus_tools.system_python import PackageError

# The seconds that a program may take to make a PDF.
LONGEST = 300
PROGRAMS = "weasyprint or chromium"


def to_pdf(page: str) -> bytes:
    """Returns a page as PDF. Raises ToolError if no program can make one."""
    with tempfile.TemporaryDirectory() as folder:
        source, target = Path(folder, "page.html"), Path(folder, "page.pdf")
        source.write_text(page, encoding="utf-8")
        if shutil.which("weasyprint"):
            words = ["weasyprint", str(source), str(target)]
        elif browser := shutil.which("chromium"):
            quiet = [
                "--headless=new",
                "--no-sandbox",
                "--disable-gpu",
                "--no-pdf-header-footer",
                f"--user-data-dir={folder}/profile",
            ]
            words = [browser, *quiet, f"--print-to-pdf={target}", source.as_uri()]
        else:
            raise PackageError(PROGRAMS, f"--pdf needs Debian's {PROGRAMS}")
        ran = subprocess.run(words, capture_output=True, timeout=LONGEST, check=False)
        if ran.returncode or not target.exists():
            raise ToolError(f"{words[0]}: {ran.stderr.decode(errors='replace').strip()[-300:]}", FAULT)
        return target.read_bytes()
