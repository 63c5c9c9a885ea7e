"""Writes a script that loads texts whose hashes under the seed 0 are equal, and counts them.

    clashing.py ROWS

The hash takes in the length of a text, its first eight bytes and its last eight, each by an xor and a multiplication. So the
last eight of sixteen bytes can cancel the first eight: if they are the state after these, the next state is 0, and so is the
hash. For one prefix in about four hundred they are bytes that a field of CSV can have without quotes.
"""
import itertools
import string
import sys

START = 0xCBF29CE484222325
APART = 0x9E3779B97F4A7C15
WORD = 2**64 - 1
HIGH = 0x8080808080808080
PLAIN = bytes(set(range(1, 128)) - set(b'\n\r,"\\'))


def step(state, word):
    product = (state ^ word) * APART
    return product & WORD ^ product >> 64


def texts():
    length = step(START, 16)
    for letters in itertools.product(string.ascii_lowercase, repeat=8):
        front = "".join(reversed(letters)).encode()
        back = step(length, int.from_bytes(front, "little"))
        if not back & HIGH:
            data = back.to_bytes(8, "little")
            if not data.translate(None, PLAIN):
                yield front + data


def main(rows):
    out = sys.stdout.buffer
    out.write(b"create t (a text, key (a))\nload t\na\n")
    out.writelines(text + b"\n" for text in itertools.islice(texts(), rows))
    out.write(b"\\.\ngroup t show count(*), min(a), max(a)\n")


main(int(sys.argv[1]))
