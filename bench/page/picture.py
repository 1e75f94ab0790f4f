#!/usr/bin/env python3
"""Makes docs/page.png, the picture in README: the top of examples/mergesort.page.html, in 256 colours.

    picture.py

Requires what test_page.py requires. The picture depends on the fonts of the machine.
"""
import collections
import os
import struct
import sys
import time
import zlib

from browser import Browser

TOP = os.path.normpath(os.path.join(os.path.dirname(os.path.abspath(__file__)), "..", ".."))
PICTURE = os.path.join(TOP, "docs", "page.png")
WIDTH = 1180
LIMIT = 150_000  # bytes
SIGNATURE = b"\x89PNG\r\n\x1a\n"


def chunks(data):
    """Yields the kind and the content of each chunk of a PNG file."""
    at = len(SIGNATURE)
    while at < len(data):
        size, kind = struct.unpack_from(">I4s", data, at)
        yield kind, data[at + 8 : at + 8 + size]
        at += 12 + size


def predicted(kind, left, above, corner):
    """Returns what the filter of a line predicts for a byte."""
    if kind == 4:
        to_left, to_above, to_corner = abs(above - corner), abs(left - corner), abs(left + above - 2 * corner)
        return left if to_left <= min(to_above, to_corner) else above if to_above <= to_corner else corner
    return [0, left, above, (left + above) // 2][kind]


def lines_of(data):
    """Returns the size of a PNG file without transparency, and the bytes of its lines."""
    parts = collections.defaultdict(bytes)
    for kind, content in chunks(data):
        parts[kind] += content
    width, height, depth, colours = struct.unpack_from(">IIBB", parts[b"IHDR"])
    assert (depth, colours) == (8, 2), "8 bits for each of red, green and blue"
    raw, line, lines = zlib.decompress(parts[b"IDAT"]), bytearray(3 * width), []
    for at in range(0, len(raw), 3 * width + 1):
        kind, above, line = raw[at], line, bytearray(raw[at + 1 : at + 1 + 3 * width])
        if kind:
            for i, it in enumerate(line):
                line[i] = it + predicted(kind, line[i - 3] if i > 2 else 0, above[i], above[i - 3] if i > 2 else 0) & 255
        lines.append(line)
    return width, height, lines


def in_256_colours(data):
    """Returns a PNG file with a palette: the most frequent colours, and for each other colour the nearest of them."""
    width, height, lines = lines_of(data)
    pixels = [[bytes(line[i : i + 3]) for i in range(0, 3 * width, 3)] for line in lines]
    counted = collections.Counter(pixel for line in pixels for pixel in line)
    palette = [colour for colour, _ in counted.most_common(256)]
    nearest = {it: min(range(len(palette)), key=lambda i: sum((a - b) ** 2 for a, b in zip(palette[i], it))) for it in counted}
    body = b"".join(b"\0" + bytes(nearest[it] for it in line) for line in pixels)
    parts = [(b"IHDR", struct.pack(">IIBBBBB", width, height, 8, 3, 0, 0, 0)), (b"PLTE", b"".join(palette)), (b"IDAT", zlib.compress(body, 9)), (b"IEND", b"")]
    return SIGNATURE + b"".join(struct.pack(">I", len(it)) + kind + it + struct.pack(">I", zlib.crc32(kind + it)) for kind, it in parts)


def main():
    if missing := Browser.missing():
        sys.exit("not installed: " + missing)
    browser = Browser()
    browser.width(WIDTH)
    browser.media()
    browser.driver.get("file://" + os.path.join(TOP, "examples", "mergesort.page.html"))
    while not browser.driver.execute_script("return document.querySelector('#speedup svg')"):
        time.sleep(0.02)
    height = browser.driver.execute_script("return Math.ceil(document.querySelector('#speedup').getBoundingClientRect().bottom) + 16")
    data = in_256_colours(browser.picture(WIDTH, height))
    browser.close()
    print("docs/page.png: %d bytes, at most %d" % (len(data), LIMIT))
    if len(data) > LIMIT:
        return 1
    with open(PICTURE, "wb") as file:
        file.write(data)
    return 0


if __name__ == "__main__":
    sys.exit(main())
