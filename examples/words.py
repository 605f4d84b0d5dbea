"""words.py FILE WORD..: an image with one segment at 0x10000 that holds these words, given in hexadecimal."""
import struct
import sys

words = [int(word, 16) for word in sys.argv[2:]]
size = 4 * len(words)
header = struct.pack("<16sHHIIIIIHHHHHH", b"\x7fELF\x01\x01\x01", 2, 243, 1, 0x10000, 52, 0, 0, 52, 32, 1, 0, 0, 0)
segment = struct.pack("<8I", 1, 84, 0x10000, 0x10000, size, size, 7, 4)
with open(sys.argv[1], "wb") as file:
    file.write(header + segment)
    file.write(struct.pack(f"<{len(words)}I", *words))
