#!/usr/bin/env python3
"""Writes the small image of this folder from the description in docs/FORMAT.md, without the program's own code.

Usage: make_small_image.py PATH
"""
import struct
import sys

BLOCK, ZONE_BLOCKS, CAPACITY, ZONES, ACTIVE = 512, 16, 16, 32, 6
FILES = [("a.txt", 1700000000), ("notes/today", 1764547200)]


def crc32c(data):
    crc = 0xFFFFFFFF
    for byte in data:
        crc ^= byte
        for _ in range(8):
            crc = (crc >> 1) ^ (0x82F63B78 if crc & 1 else 0)
    return crc ^ 0xFFFFFFFF


def masked(data):
    crc = crc32c(data)
    return (((crc >> 15) | (crc << 17)) + 0xA282EAD8) & 0xFFFFFFFF


def varint(number):
    out = b""
    while number >= 0x80:
        out += bytes([number & 0x7F | 0x80])
        number >>= 7
    return out + bytes([number])


def record(payload):
    body = struct.pack("<I", len(payload)) + payload
    whole = struct.pack("<I", masked(body)) + body
    return whole + bytes(-len(whole) % BLOCK)


def superblock():
    identifier = b"6f1c2b9e-4d0a-4c55-9a3e-0d8f5b7c1e22"
    out = struct.pack("<I", 0x5A454E46) + identifier + b"\0"
    out += struct.pack("<IIIIIII", 1, 2, 0, BLOCK, ZONE_BLOCKS, ZONES, 0)
    out += b"/aux".ljust(256, b"\0") + b"profile-2".ljust(64, b"\0")
    return out.ljust(512, b"\0")


def entry(number, name, time):
    out = struct.pack("<IQ", 1, number) + struct.pack("<IQ", 3, 0) + struct.pack("<II", 4, 0)
    out += struct.pack("<IQ", 6, time) + struct.pack("<IQ", 7, 2**64 - 1)
    return out + struct.pack("<I", 9) + varint(len(name)) + name.encode()


def snapshot():
    entries = [entry(number, name, time) for number, (name, time) in enumerate(FILES, 1)]
    body = b"".join(varint(len(one)) + one for one in entries)
    return struct.pack("<I", 1) + varint(len(body)) + body


def image():
    head = b"ZNSIMG01" + struct.pack("<IIIII", BLOCK, ZONE_BLOCKS, CAPACITY, ZONES, ACTIVE)
    head = (head + struct.pack("<I", masked(head))).ljust(4096, b"\0")
    log = record(superblock()) + record(snapshot())
    descriptors = struct.pack("<II", len(log) // BLOCK, 0).ljust(8 * ZONES, b"\0")
    front = (head + descriptors).ljust(8192, b"\0")
    return (front + log).ljust(8192 + ZONES * ZONE_BLOCKS * BLOCK, b"\0")


if __name__ == "__main__":
    with open(sys.argv[1], "wb") as out:
        out.write(image())
