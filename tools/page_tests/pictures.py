"""The pictures of the guide, drawn from the built program: a board, and a sentence with its tree and its table."""

import collections
import pathlib
import struct
import zlib

from page_tests import chromium
from page_tests.desk import Desk, ROOT, STEPS, holds, same, sample
from page_tests.page import at_board, at_sentence, edit, is_quiet, say_who

FOLDER = ROOT / "docs/guide/images"
# The window in pixels, how many pixels of a picture make one of them, and how many bytes all pictures may have.
WIDTH, HEIGHT, SCALE, MOST = 1200, 1400, 2, 200_000
# The batches of the board: the sample of each, and how many of STEPS it went.
BATCHES = {"news": ("english", 1), "essays": ("hindi", 0), "verse": ("russian", 2), "stories": ("chinese", 3), "letters": ("arabic", 4)}


# ---- PNG, of 8 bits a channel

def paeth(left, up, corner):
    """Which of three neighbours a byte is likely to be, as PNG has it."""
    return min((left, up, corner), key=lambda it: abs(left + up - corner - it))


# What a byte is likely to be, from the one to the left, the one above, and the one above that to the left: by the filter.
LIKELY = [lambda *_: 0, lambda left, up, corner: left, lambda left, up, corner: up, lambda left, up, corner: (left + up) // 2, paeth]


def pixels(png):
    """The rows of a PNG, as lists of pixels. It has no transparent ones."""
    at, width, data = 8, 0, b""
    while at < len(png):
        size, kind = struct.unpack_from(">I4s", png, at)
        part = png[at + 8:at + 8 + size]
        if kind == b"IHDR":
            width, _, depth, color = struct.unpack_from(">IIBB", part)
            assert depth == 8 and color in (2, 6), (depth, color)
            step = 3 if color == 2 else 4
        data += part if kind == b"IDAT" else b""
        at += size + 12
    length, raw, above = width * step, zlib.decompress(data), bytearray(width * step)
    for start in range(0, len(raw), length + 1):
        row, likely = bytearray(raw[start + 1:start + 1 + length]), LIKELY[raw[start]]
        for i in range(length):
            left, corner = (row[i - step], above[i - step]) if i >= step else (0, 0)
            row[i] = (row[i] + likely(left, above[i], corner)) & 255
        above = row
        yield [bytes(row[i:i + 3]) for i in range(0, length, step)]


def with_palette(rows):
    """A PNG of the 256 colors that are seen most. A rare color becomes the nearest of them."""
    counts = collections.Counter(color for row in rows for color in row)
    palette = [color for color, _ in counts.most_common(256)]
    nearest = {color: min(range(len(palette)), key=lambda n: sum((x - y) ** 2 for x, y in zip(color, palette[n]))) for color in counts}
    part = lambda kind, data: struct.pack(">I", len(data)) + kind + data + struct.pack(">I", zlib.crc32(kind + data))
    head = struct.pack(">IIBBBBB", len(rows[0]), len(rows), 8, 3, 0, 0, 0)
    data = b"".join(b"\0" + bytes(nearest[color] for color in row) for row in rows)
    return b"\x89PNG\r\n\x1a\n" + part(b"IHDR", head) + part(b"PLTE", b"".join(palette)) + part(b"IDAT", zlib.compress(data, 9)) + part(b"IEND", b"")


# ---- the pictures

def shoot(browser, name, last):
    """A picture of the page, down to the end of this element."""
    holds("the page has no scroll bars", browser.run(
        "const { scrollWidth, scrollHeight } = document.documentElement; return scrollWidth <= innerWidth && scrollHeight <= innerHeight"))
    end = browser.run("return Math.ceil(document.querySelector(arguments[0]).getBoundingClientRect().bottom) + 16", last)
    path = FOLDER / f"{name}.png"
    browser.shot(path)
    path.write_bytes(with_palette(list(pixels(path.read_bytes()))[:end * SCALE]))


def pictures():
    """Draws the pictures anew."""
    desk, driver = Desk(), chromium.Driver()
    for name, (text, steps) in BATCHES.items():
        desk.put(name, sample(text), *STEPS[:steps])
    same("a pull", 200, desk.ask("POST /pull/6")[0])
    browser = driver.browser()
    browser.devtools("Emulation.setDeviceMetricsOverride", width=WIDTH, height=HEIGHT, deviceScaleFactor=SCALE, mobile=False)
    at_board(browser, desk)
    say_who(browser, "ben")
    browser.see("#e-1-submit.unlikely")
    shoot(browser, "board", "#import")
    at_sentence(browser, desk, 2, "Anna")
    say_who(browser, "ann")
    browser.click("#enhanced")
    edit(browser, 2, 9, "Gloss=livres")
    browser.see("#rev", "not saved yet")
    browser.see(".word[data-at='2']", "books")
    shoot(browser, "sentence", ".grid")
    is_quiet(browser)
    driver.close()
    desk.close()
    sizes = {path.name: path.stat().st_size for path in sorted(FOLDER.glob("*.png"))}
    print(f"bytes of the pictures: {sizes}")
    holds(f"all pictures have fewer than {MOST} bytes", sum(sizes.values()) < MOST)
