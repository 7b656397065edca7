"""An animation of the desk: pictures of a browser, each with what it shows in a line below, joined to a GIF."""
from __future__ import annotations

import io
from dataclasses import dataclass, field
from pathlib import Path
from typing import Any

from hands import Hand
from selenium.webdriver.remote.webelement import WebElement

# The width and the height of the pictures, and how many colours they share.
SIZE = (1000, 620)
COLOURS = 64
# Writes a line below the page, marks what is pressed next, and brings it into view.
CAPTION = """
const [text, pressed, part] = arguments;
document.getElementById("caption")?.remove();
for (const it of document.querySelectorAll("[data-pressed]")) it.style.outline = "";
document.documentElement.style.scrollBehavior = "auto";
document.querySelector(part).scrollIntoView();
if (pressed) {
  const place = pressed.getBoundingClientRect();
  if (place.top < 0 || place.bottom > innerHeight - 60) pressed.scrollIntoView({ block: "center" });
  pressed.dataset.pressed = "";
  pressed.style.outline = "4px solid #c2410c";
  pressed.style.outlineOffset = "3px";
}
const line = document.createElement("div");
line.id = "caption";
line.textContent = text;
line.style.cssText = "position: fixed; inset: auto 0 0 0; z-index: 99; padding: 13px 20px; background: #1d2129;"
  + "color: #fff; font: 600 20px/26px 'DejaVu Sans', sans-serif";
document.body.append(line);
"""


@dataclass
class Animation:
    """The pictures so far, each with the seconds for which it is shown."""

    hand: Hand
    frames: list[tuple[bytes, float]] = field(default_factory=list)

    def show(self, text: str, seconds: float, part: str = "body", pressed: WebElement | None = None) -> None:
        """Takes a picture of the page, from a part of it on, with a line of text, and marks what is pressed."""
        driver = self.hand.driver
        size = {"width": SIZE[0], "height": SIZE[1], "deviceScaleFactor": 1, "mobile": False}
        driver.execute_cdp_cmd("Emulation.setDeviceMetricsOverride", size)
        driver.execute_script(CAPTION, text, pressed, part)
        self.frames.append((driver.get_screenshot_as_png(), seconds))

    def write(self, path: Path) -> None:
        """Writes the animation, which begins again after its last picture."""
        from PIL import Image

        images: list[Any] = [Image.open(io.BytesIO(it)).convert("RGB") for it, _ in self.frames]
        (width, height), count = SIZE, len(images)
        every = Image.new("RGB", (width, height * count))
        for place, it in enumerate(images):
            every.paste(it, (0, height * place))
        palette = every.quantize(COLOURS)
        first, *others = [it.quantize(palette=palette, dither=Image.Dither.NONE) for it in images]
        first.save(
            path,
            save_all=True,
            append_images=others,
            duration=[round(1000 * seconds) for _, seconds in self.frames],
            loop=0,
            optimize=True,
        )
