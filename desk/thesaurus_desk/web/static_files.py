"""The addresses of scripts, style sheets and the icon: each with a sum of its content, so that no old one is used."""
from __future__ import annotations

import hashlib
from pathlib import Path

from flask import Flask


def addresses_of(folder: Path) -> dict[str, str]:
    """Returns the address of each file of a folder, by its name."""
    sums = {it.name: hashlib.sha256(it.read_bytes()).hexdigest()[:8] for it in sorted(folder.iterdir())}
    return {name: f"/static/{name}?v={it}" for name, it in sums.items()}


def install_static_files(app: Flask) -> None:
    """Gives templates the addresses of the desk's files: those that it was started with."""
    addresses = addresses_of(Path(app.static_folder or ""))
    app.jinja_env.globals["static_file"] = addresses.__getitem__
