#!/usr/bin/env python3
"""Writes a small CMYK file: one uncompressed strip, nine entries, least significant byte first.

usage: make_input.py WIDTH LENGTH OUT.tif

The black samples are a ramp from left to right; cyan, magenta and yellow are a third of them.
"""
import struct
import sys


def entry(tag, kind, count, value):
    return struct.pack("<HHII", tag, kind, count, value)


def main():
    width, length, out = int(sys.argv[1]), int(sys.argv[2]), sys.argv[3]
    strip = 4 * width * length
    head = struct.pack("<2sHIH", b"II", 42, 8, 9)
    head += entry(256, 4, 1, width)
    head += entry(257, 4, 1, length)
    head += entry(258, 3, 4, 122)
    head += entry(259, 3, 1, 1)
    head += entry(262, 3, 1, 5)
    head += entry(273, 4, 1, 130)
    head += entry(277, 3, 1, 4)
    head += entry(278, 4, 1, length)
    head += entry(279, 4, 1, strip)
    head += struct.pack("<I4H", 0, 8, 8, 8, 8)
    row = bytearray()
    for x in range(width):
        black = 255 * x // max(1, width - 1)
        row += bytes([black // 3, black // 3, black // 3, black])
    with open(out, "wb") as file:
        file.write(head)
        for _ in range(length):
            file.write(row)


main()
