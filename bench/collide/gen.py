#!/usr/bin/env python3
"""gen.py FOLDER ROWS: makes two projects of one table, whose texts have 32 bytes each and are all distinct. In
FOLDER/chosen all of them collide under the library's usual hasher, `FoldHasher`, whose seed is fixed; in FOLDER/random
they are drawn. Both take as long under keys that are drawn for each run:

    cd FOLDER/chosen && time cfdbench run p
    cd FOLDER/random && time cfdbench run p

`FoldHasher` multiplies 16 bytes at a time. A chosen text is 16 letters, then the 8 bytes of the state that they lead to,
then any 8 digits: the second factor is multiplied with 0, so that the hash is 0 whatever the digits are.
"""
import random
import sys
from pathlib import Path

MULTIPLIER = 0x9E3779B97F4A7C15
START = 0x243F6A8885A308D3
LETTERS = "abcdefghijklmnopqrstuvwxyz"
# What a cell may hold without quotes.
PLAIN = set(range(33, 127)) - set(b'",')


def folded(a, b):
    product = a * b
    return product % 2**64 ^ product >> 64


def word(text, at):
    return int.from_bytes(text[at : at + 8], "little")


def hashed(text):
    """What `FoldHasher` answers for a text of more than 16 bytes."""
    state = (START + len(text)) % 2**64
    at = 0
    while len(text) - at > 16:
        state = folded(word(text, at) ^ state, word(text, at + 8) ^ MULTIPLIER)
        at += 16
    end = len(text)
    return folded(word(text, end - 16) ^ state, word(text, end - 8) ^ MULTIPLIER)


def drawn_front(draw):
    """The first 24 bytes of texts that collide."""
    while True:
        letters = "".join(draw.choices(LETTERS, k=16)).encode()
        state = folded(word(letters, 0) ^ START + 32, word(letters, 8) ^ MULTIPLIER).to_bytes(8, "little")
        if PLAIN.issuperset(state):
            return letters + state


def write(folder, texts):
    folder.mkdir(parents=True, exist_ok=True)
    (folder / "p").write_text("table t 't.csv'\nattr a\nattr b\nrules 'r'\nscript 's'\n")
    (folder / "r").write_text("cfd f1 t: [a] -> [b]\nrow _ || _\n")
    (folder / "s").write_text("count\n")
    (folder / "t.csv").write_bytes(b"a,b\n" + b"".join(text + b",0\n" for text in texts))


def main():
    folder, rows = Path(sys.argv[1]), int(sys.argv[2])
    draw = random.Random(7)
    front = drawn_front(draw)
    chosen = [front + b"%08d" % row for row in range(rows)]
    assert all(hashed(text) == 0 for text in chosen)
    write(folder / "chosen", chosen)
    write(folder / "random", ["".join(draw.choices(LETTERS, k=24)).encode() + b"%08d" % row for row in range(rows)])


main()
