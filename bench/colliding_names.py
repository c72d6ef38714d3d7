#!/usr/bin/env python3
"""Writes a document whose names all have one hash, by the hash of the kit's maps, whose seed is fixed.

    python3 bench/colliding_names.py [COUNT] > FILE

COUNT is 9,950 if it isn't given. Names are found by ordered maps, so `einv outline FILE` takes as long as for any other
document of that size. By the hash each look-up would pass all names before.

The hash takes a text by sixteen bytes and multiplies the first eight by the other eight, each joined with something.
The first eight are joined with the state before. Where they are that state, the product is 0 whatever the others are.
So a namespace and a length are sought whose state has eight bytes that may stand in a name.
"""
import itertools
import sys

WORD = 2**64 - 1
MULTIPLIER = 0x9E3779B97F4A7C15
START = 0x243F6A8885A308D3
LETTERS = "abcdefghijklmnopqrstuvwxyz"
FIRST = set((LETTERS + LETTERS.upper() + "_").encode())
OTHER = FIRST | set(b"0123456789-.")


def folded(a, b):
    product = a * b
    return (product & WORD) ^ (product >> 64)


def behind_space(number):
    """The state behind the number of a namespace, eight bytes."""
    return folded(START ^ number, MULTIPLIER ^ 16)


def behind_name(state, name):
    """The state behind a name of more than 16 bytes."""
    word = lambda at: int.from_bytes(name[at : at + 8], "little")
    last = len(name) - 16
    state = (state + len(name)) & WORD
    for at in itertools.chain(range(0, last, 16), [last]):
        state = folded(word(at) ^ state, word(at + 8) ^ MULTIPLIER)
    return state


def front():
    """The number of a namespace, and the length and the first eight bytes of names in it."""
    for number in itertools.count(2):
        for length in range(32, 120):
            state = ((behind_space(number) + length) & WORD).to_bytes(8, "little")
            if state[0] in FIRST and OTHER.issuperset(state):
                return number, length, state


def main():
    count = int(sys.argv[1]) if len(sys.argv) > 1 else 9950
    number, length, start = front()
    middles = ("".join(letters).encode() for letters in itertools.product(LETTERS, repeat=8))
    names = [start + middle + b"x" * (length - 16) for middle in itertools.islice(middles, count)]
    assert len({behind_name(behind_space(number), name) for name in names}) == 1
    # The first tag declares the namespace of number 0 and is in that of number 1, none; each further tag declares one.
    print('<a xmlns:p="n0">')
    for k in range(1, number):
        print(f'<a xmlns:p="n{k}"/>')
    print(f'<a xmlns="n{number - 1}">')
    for name in names:
        print(f"<{name.decode()}/>")
    print("</a></a>")


if __name__ == "__main__":
    main()
