#!/usr/bin/env python3
"""Makes an image of a text: image.py TEXT IMAGE [WORDS]

TEXT is a file of instruction words, IMAGE the image to write, with no data, 8192 bytes of stack, the entry
at the first word and no listing. With WORDS the text is padded with ADDI x0, x0, 0 to so many words.
"""
import struct
import sys

text = open(sys.argv[1], "rb").read()
text += bytes(-len(text) % 4)
if len(sys.argv) > 3:
    text += struct.pack("<I", 0x13) * (int(sys.argv[3]) - len(text) // 4)
header = struct.pack("<4s5I", b"RVI1", len(text) // 4, 0, 8192, 0x10000, 0)
open(sys.argv[2], "wb").write(header + text)
