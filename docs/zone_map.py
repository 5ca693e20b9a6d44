#!/usr/bin/env python3
"""Draws the zones of an image as an SVG picture, from what `zenfs dump` prints of it.

Usage: zenfs dump --image=P | zone_map.py P > zones.svg

The image file is asked for its geometry alone. Each zone is a bar as high as its capacity: filled up to its write pointer, blocks
that files have in the colour of their hint, and garbage grey. A zone that is sealed has a thick frame. Zones 0 to 2 have the log.
"""
import json
import struct
import sys
from xml.sax.saxutils import escape

WIDTH, HEIGHT, GAP, COLUMNS, TOP = 14, 64, 4, 64, 40
LOG, GARBAGE, EMPTY, FRAME = "#7a5cb8", "#b9b4ac", "#f4f1ea", "#55504a"
HINTS = {0: "#3b7dd8", 1: "#3b7dd8", 2: "#d8572a", 3: "#e0a030", 4: "#5aa469", 5: "#2f6f63"}
NAMES = {0: "no hint", 2: "short", 3: "medium", 4: "long", 5: "extreme"}


def geometry(path):
    """The block's bytes, and the blocks, capacity and number of zones, of the image's header."""
    try:
        with open(path, "rb") as image:
            head = image.read(28)
    except OSError as error:
        sys.exit(f"{path}: {error.strerror}")
    if head[:6] != b"ZNSIMG":
        sys.exit(f"{path}: not a zoned image")
    return struct.unpack("<IIII", head[8:24])


def hints_of(files, zone_bytes):
    """The hint of the most bytes in each zone."""
    bytes_by = {}
    for file in files:
        for extent in file["extents"]:
            zone = bytes_by.setdefault(extent["start"] // zone_bytes, {})
            zone[file["hint"]] = zone.get(file["hint"], 0) + extent["len"]
    return {zone: max(by, key=by.get) for zone, by in bytes_by.items()}


def bar(number, zone, capacity, hint):
    """The picture of one zone, at its place."""
    left = GAP + (number % COLUMNS) * (WIDTH + GAP)
    top = TOP + (number // COLUMNS) * (HEIGHT + 4 * GAP)
    written, live = (zone["written"], zone["live"]) if zone else (0, 0)
    sealed = bool(zone and zone["sealed"])
    if number < 3:
        parts = [(written, LOG)]
    else:
        parts = [(min(live, written), HINTS.get(hint, HINTS[0])), (max(written - live, 0), GARBAGE)]
    title = f"zone {number}: {written} of {capacity} blocks written, {live} live" + (", sealed" if sealed else "")
    out = [f"<g><title>{escape(title)}</title>", f'<rect x="{left}" y="{top}" width="{WIDTH}" height="{HEIGHT}" fill="{EMPTY}"/>']
    bottom = top + HEIGHT
    for blocks, colour in parts:
        high = HEIGHT * blocks / capacity
        bottom -= high
        if high:
            out.append(f'<rect x="{left}" y="{bottom:.2f}" width="{WIDTH}" height="{high:.2f}" fill="{colour}"/>')
    thick = 2 if sealed else 0.5
    out.append(f'<rect x="{left}" y="{top}" width="{WIDTH}" height="{HEIGHT}" fill="none" stroke="{FRAME}" stroke-width="{thick}"/></g>')
    return "".join(out)


def legend():
    """What each colour means."""
    words = [(LOG, "log"), *((HINTS[hint], f"live, {name}") for hint, name in NAMES.items()), (GARBAGE, "garbage"), (EMPTY, "not written")]
    out, left = [], GAP
    for colour, word in words:
        out.append(f'<rect x="{left}" y="10" width="12" height="12" fill="{colour}" stroke="{FRAME}" stroke-width="0.5"/>')
        out.append(f'<text x="{left + 16}" y="20" font-family="sans-serif" font-size="12">{word}</text>')
        left += 32 + 7 * len(word)
    return "".join(out)


def main():
    if len(sys.argv) != 2:
        sys.exit(__doc__)
    block, zone_blocks, capacity, count = geometry(sys.argv[1])
    dump = json.load(sys.stdin)
    zones = {zone["zone"]: zone for zone in dump["zones"]}
    hints = hints_of(dump["files"], zone_blocks * block)
    rows = -(-count // COLUMNS)
    wide = max(min(count, COLUMNS) * (WIDTH + GAP) + GAP, 820)
    high = TOP + rows * (HEIGHT + 4 * GAP)
    print(f'<svg xmlns="http://www.w3.org/2000/svg" width="{wide}" height="{high}" viewBox="0 0 {wide} {high}">')
    print(f'<rect width="{wide}" height="{high}" fill="white"/>{legend()}')
    for number in range(count):
        print(bar(number, zones.get(number), capacity, hints.get(number)))
    print("</svg>")


if __name__ == "__main__":
    main()
