"""Takes a picture of a page by headless Chromium."""

import os
import re
import shutil
import subprocess
import tempfile

from .faults import Missing, Refused
from .libraries import advice

NAMES = ("chromium", "chromium-browser", "google-chrome")
WIDTH, SCALE, SECONDS, MOST_HIGH = 1200, 0.8, 60, 20_000
BLENDS, GREYS = 4, 15  # in how many steps a colour of a picture goes over into white, and black does
GREYISH = 60  # the greatest part of a colour less its least, up to which it is a grey
# Writes the page's height into it.
MEASURE = "<script>document.documentElement.dataset.high = document.body.getBoundingClientRect().bottom</script>"


def chromium():
    """Chromium's path. `Missing` where there is none."""
    found = next((path for path in map(shutil.which, NAMES) if path), None)
    if found is None:
        raise Missing(f"Chromium is not installed: {advice('it', ' --tests')}")
    return found


def palette(page):
    """The colours that a page's style names first, those that are no greys also blended with white, and greys: what edges of letters have."""
    with open(page, encoding="utf-8") as file:
        style = re.search(r":root *{[^}]*}", file.read())
    named = [[int(colour[at:at + 2], 16) for at in (0, 2, 4)] for colour in re.findall("#([0-9a-f]{6})", style[0] if style else "")]
    blends = [[255 - (255 - part) * share // BLENDS for part in colour]
              for colour in named if max(colour) - min(colour) > GREYISH for share in range(1, BLENDS)]
    return named + blends + [[grey] * 3 for grey in range(0, 256, 255 // GREYS)]


def reduced(name, colours):
    """Leaves a picture with some colours, where the library for it, Pillow, is there: a third of the bytes."""
    try:
        from PIL import Image
    except ImportError:
        return
    table = Image.new("P", (1, 1))
    table.putpalette([part for colour in colours[:256] for part in colour])
    with Image.open(name) as image:
        small = image.convert("RGB").quantize(palette=table, dither=0)
    small.save(name, optimize=True)


def called(page, room, words):
    """What Chromium writes to standard output on some words."""
    given = [chromium(), "--headless", "--no-sandbox", "--disable-gpu", "--hide-scrollbars", f"--user-data-dir={room}", "--virtual-time-budget=10000", *words]
    try:
        done = subprocess.run(given, stdout=subprocess.PIPE, stderr=subprocess.PIPE, stdin=subprocess.DEVNULL, timeout=SECONDS, check=False)
    except subprocess.TimeoutExpired:
        raise Refused(f"{page}: Chromium drew nothing within {SECONDS} seconds") from None
    return done.stdout.decode(errors="replace"), done.stderr.decode(errors="replace")


def height(page, room):
    """How high a page is in pixels."""
    copy = os.path.join(room, "measured.html")
    with open(page, encoding="utf-8") as given, open(copy, "w", encoding="utf-8") as file:
        file.write(given.read() + MEASURE)
    text, fault = called(page, room, [f"--window-size={WIDTH},800", "--dump-dom", "file://" + copy])
    found = re.search(r'<html[^>]* data-high="([0-9.]+)"', text)
    if found is None:
        raise Refused(f"{page}: Chromium read nothing: {fault[-300:]}")
    return min(int(float(found[1])) + 1, MOST_HIGH)


def picture(page, name, width=WIDTH):
    """Writes what a page shows, all of it, as PNG."""
    with tempfile.TemporaryDirectory(prefix="altqwork-") as room:
        made = os.path.join(room, "page.png")
        words = [f"--force-device-scale-factor={SCALE}", f"--window-size={width},{height(page, room)}", f"--screenshot={made}", "file://" + os.path.abspath(page)]
        _text, fault = called(page, room, words)
        if not os.path.exists(made):
            raise Refused(f"{page}: Chromium drew nothing: {fault[-300:]}")
        reduced(made, palette(page))
        shutil.copyfile(made, name)
