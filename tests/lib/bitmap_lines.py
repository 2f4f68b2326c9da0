#!/usr/bin/env python3
"""bitmap_lines.py LINE[@BYTE].. < PICTURE: the first 16 pixels of these lines of a PNG file of one bit a pixel, or those from
a byte on, as two numbers: the first pixel is the highest bit, and 1 is white. Before them the file's first 29 bytes, its last 12, and how many bytes
its data are, inflated by zlib."""
import sys
import zlib

picture = sys.stdin.buffer.read()
at = picture.index(b"IDAT")
lines = zlib.decompress(picture[at + 4:at + 4 + int.from_bytes(picture[at - 4:at], "big")])
stride = 1 + int.from_bytes(picture[16:20], "big") // 8
print(picture[:29].hex(" "), picture[-12:].hex(" "), len(lines), sep="\n")
for word in sys.argv[1:]:
    line, _, byte = word.partition("@")
    first = stride * int(line) + 1 + int(byte or 0)
    print(word, *lines[first:first + 2])
