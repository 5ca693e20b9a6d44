#!/usr/bin/env python3
"""Writes three images that are within the rules of the format, and dear to read, into a folder.

    snapshot    a snapshot of COUNT files with one name each
    names       a snapshot of one file with COUNT names
    updates     a snapshot of no files, and COUNT updates behind it, each of a new file

They are written from docs/FORMAT.md by examples/make_small_image.py, without the program's own code. Each zone is large
enough for the log, and holes of the image files take no room on the disk.

Usage: hostile_images.py FOLDER [COUNT]
"""
import os
import struct
import sys

TOP = os.path.dirname(os.path.dirname(os.path.abspath(__file__)))
COUNT = 60_000

sys.dont_write_bytecode = True
sys.path.insert(0, f"{TOP}/examples")
import make_small_image as maker

# zones of 64 MiB, so that each record of an update, of one block, has its place
maker.BLOCK, maker.ZONE_BLOCKS, maker.CAPACITY, maker.ZONES, maker.ACTIVE = 512, 131_072, 131_072, 32, 6


def table():
    """What eight bits make of a register, for each value of its lowest byte."""
    entries = []
    for byte in range(256):
        for _ in range(8):
            byte = (byte >> 1) ^ (0x82F63B78 if byte & 1 else 0)
        entries.append(byte)
    return entries


TABLE = table()


def crc32c(data):
    crc = 0xFFFFFFFF
    for byte in data:
        crc = (crc >> 8) ^ TABLE[(crc ^ byte) & 0xFF]
    return crc ^ 0xFFFFFFFF


maker.crc32c = crc32c


def name_of(number):
    return f"table-{number:08}.sst"


def entry(number, names):
    """The entry of a file without bytes that has these names."""
    first, *others = names
    fields = [struct.pack("<I", 9) + maker.varint(len(name)) + name.encode() for name in others]
    return maker.entry(number, first, 1_700_000_000) + b"".join(fields)


def snapshot(entries):
    body = b"".join(maker.varint(len(one)) + one for one in entries)
    return struct.pack("<I", 1) + maker.varint(len(body)) + body


def update(one):
    return struct.pack("<I", 2) + maker.varint(len(one)) + one


def snapshot_log(count):
    return [snapshot(entry(number, [name_of(number)]) for number in range(1, count + 1))]


def names_log(count):
    return [snapshot([entry(1, [name_of(number) for number in range(1, count + 1)])])]


def updates_log(count):
    return [snapshot([])] + [update(entry(number, [name_of(number)])) for number in range(1, count + 1)]


def write(path, payloads):
    """An image whose log has these payloads behind the superblock."""
    log = b"".join(map(maker.record, [maker.superblock(), *payloads]))
    if len(log) // maker.BLOCK + 1 > maker.CAPACITY:
        sys.exit(f"{path}: the log doesn't fit into a zone")
    head = b"ZNSIMG01" + struct.pack("<IIIII", maker.BLOCK, maker.ZONE_BLOCKS, maker.CAPACITY, maker.ZONES, maker.ACTIVE)
    head = (head + struct.pack("<I", maker.masked(head))).ljust(4096, b"\0")
    descriptors = struct.pack("<II", len(log) // maker.BLOCK, 0).ljust(8 * maker.ZONES, b"\0")
    front = (head + descriptors).ljust(8192, b"\0")
    with open(path, "wb") as out:
        out.write(front + log)
        out.truncate(len(front) + maker.ZONES * maker.ZONE_BLOCKS * maker.BLOCK)


def main():
    folder = sys.argv[1]
    count = int(sys.argv[2]) if len(sys.argv) > 2 else COUNT
    for name, log in (("snapshot", snapshot_log), ("names", names_log), ("updates", updates_log)):
        write(f"{folder}/{name}", log(count))


if __name__ == "__main__":
    main()
