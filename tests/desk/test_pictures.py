"""The pictures of the desk in the documents, and the animation of README: `--write` makes them anew."""
from __future__ import annotations

import struct
from pathlib import Path

import pytest
from animation import SIZE, Animation
from hands import PRESSED, Hand, come_in
from processes import running
from selenium.webdriver.chrome.webdriver import WebDriver

pytestmark = pytest.mark.needs("chromedriver", "selenium")
ROOT = Path(__file__).resolve().parents[2]
DOCS = ROOT / "docs"
POSTINGS = (ROOT / "examples/postings.csv").read_text(encoding="utf-8")
# The height of each picture; all are as wide as the window.
HEIGHTS = {"desk.png": 1330, "desk-refusal.png": 600, "desk-merge.png": 1150}


# The animation, the seconds that it takes, and the most bytes that it may have.
ANIMATION, SECONDS, MOST = "desk.gif", 12, 1_000_000


def size_of(path: Path) -> tuple[int, int]:
    """Returns the width and the height of a picture."""
    data = path.read_bytes()
    assert data.startswith(b"\x89PNG")
    width, height = struct.unpack(">II", data[16:24])
    return width, height


def index_records(hand: Hand) -> None:
    """Indexes the sample's records."""
    hand.open("/bring-in")
    hand.press("Or type or paste records")
    hand.fill("Rows of records", POSTINGS)
    hand.press("Import")
    hand.sees("12 indexings are new.")


def take_pictures(hand: Hand, out: Path) -> None:
    """Takes all pictures into a folder: a concept with suggestions, a refusal beside its field, and a merge."""
    index_records(hand)
    hand.open("/c/5")
    hand.press("Add a related term")
    hand.fill("Term", "str")
    hand.sees("Streichinstrumente")
    hand.picture(out / "desk.png", HEIGHTS["desk.png"])
    hand.take("String instruments")
    hand.press("Add")
    hand.sees("Two terms are either related, or one is broader than the other.")
    hand.picture(out / "desk-refusal.png", HEIGHTS["desk-refusal.png"], "#links")
    hand.open("/c/31/merge?other_number=5")
    hand.tick("Bowed instruments of folk music")
    hand.picture(out / "desk-merge.png", HEIGHTS["desk-merge.png"])


def test_pictures(request: pytest.FixtureRequest, driver: WebDriver, program: str, store: Path, tmp_path: Path) -> None:
    with running("--db", store, "--alone", "anna", "--program", program) as desk:
        take_pictures(come_in("mouse", driver, desk), tmp_path)
    for name, height in HEIGHTS.items():
        assert size_of(tmp_path / name) == (1280, height)
        if request.config.getoption("--write"):
            (DOCS / name).write_bytes((tmp_path / name).read_bytes())
        assert size_of(DOCS / name) == (1280, height), f"make {name} again by --write"


def animate(hand: Hand, path: Path) -> None:
    """Makes the animation: a refusal, a merge that is shown first, the record that it moved, and the merge undone."""
    index_records(hand)
    film = Animation(hand)
    hand.open("/c/5")
    hand.press("Add a related term")
    hand.pick("Term", "str", "String instruments")
    film.show("Violins related to string instruments?", 1.5, "#links", hand.find("Add", PRESSED))
    hand.press("Add")
    hand.sees("Two terms are either related, or one is broader than the other.")
    film.show("Refused: with the way from one to the other, and what can be done.", 2.5, "#links")
    hand.open("/c/31/merge?other_number=5")
    film.show("Merge fiddles into violins? First see what will move.", 1.5)
    hand.tick("I have looked at both")
    film.show("One record will move. No term is lost.", 2, "main .panel.tall", hand.find("Merge Fiddles", PRESSED))
    hand.press("Merge Fiddles into Violins")
    hand.sees("1 record moved")
    merged = hand.driver.current_url.removeprefix(hand.address)
    hand.press("Hardanger fiddle")
    hand.press("How it came here")
    film.show("Its record has moved, and says how it came here.", 2)
    hand.open(merged)
    film.show("A merge can be undone.", 1.5, "body", hand.find("Undo", "main button"))
    hand.press("Undo")
    hand.sees("Fiddles")
    film.show("Fiddles are back, with their record.", 1)
    film.write(path)


@pytest.mark.needs("PIL")
def test_animation(
    request: pytest.FixtureRequest, driver: WebDriver, program: str, store: Path, tmp_path: Path
) -> None:
    made, kept = tmp_path / ANIMATION, DOCS / ANIMATION
    with running("--db", store, "--alone", "anna", "--program", program) as desk:
        animate(come_in("mouse", driver, desk), made)
    if request.config.getoption("--write"):
        kept.write_bytes(made.read_bytes())
    assert shown_by(kept) == shown_by(made) == (SIZE, SECONDS), f"make {ANIMATION} again by --write"
    assert made.stat().st_size <= MOST >= kept.stat().st_size


def shown_by(path: Path) -> tuple[tuple[int, int], float]:
    """Returns the size of an animation, and the seconds that it takes."""
    from PIL import Image, ImageSequence

    with Image.open(path) as image:
        seconds = sum(it.info["duration"] for it in ImageSequence.Iterator(image)) / 1000
        return image.size, seconds
