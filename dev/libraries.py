"""What `rt ci` leaves of the libraries that it proved, for `rt check`."""
from __future__ import annotations

import functools
import shutil
import sys
from pathlib import Path


def take_libraries(root: Path) -> str | None:
    """Has `rt check` take the libraries in this repository, which `rt ci` proved of the same sources: writes beside
    each the sum by which it knows those that it built itself. Where the toolchain keeps that in another way, it builds
    each once more. Returns why, or None.
    """
    sys.path.insert(0, str(Path(shutil.which("rt") or "").resolve().parent))
    try:
        import rtlib

        rtlib.Crate.stamp = functools.cache(rtlib.Crate.stamp)
        for it in rtlib.crates_below(str(root)):
            if Path(it.rlib).is_dir():
                file = Path(it.rlib).parent / "stamp"
                # (a file of its own, since that of a copy may be linked to other trees')
                file.unlink(missing_ok=True)
                file.write_text(it.stamp(), encoding="utf-8")
    except (ImportError, AttributeError) as why:
        return str(why)
    return None
