#!/usr/bin/env python3
"""Writes a bag of cells to standard output: a random tree of ordinary cells with 0 to 4 children each.

    bench/make_bag.py CELLS [--low BYTES] [--high BYTES] [--seed N]

Each cell has LOW to HIGH bytes of data (0 to 60 where they aren't given). Parents stand before their children, as a bag
wants it. The same words give the same bag.
"""
import argparse
import random
import sys


def width(value):
    return max(1, (value.bit_length() + 7) // 8)


def tree(cells, source):
    """The children of each cell; a cell's parent is among the cells before it that have room."""
    children = [[] for _ in range(cells)]
    room = [0]
    for cell in range(1, cells):
        place = source.randrange(len(room))
        parent = room[place]
        children[parent].append(cell)
        if len(children[parent]) == 4:
            room[place] = room[-1]
            room.pop()
        room.append(cell)
    return children


def bag(cells, low, high, seed):
    source = random.Random(seed)
    children = tree(cells, source)
    size = width(cells)
    texts = []
    for cell, below in enumerate(children):
        count = source.randint(low, high)
        # The number of the cell keeps cells apart where the data are short.
        data = (cell.to_bytes(4, "big") + source.randbytes(count))[:count]
        texts.append(bytes([len(below), 2 * count]) + data + b"".join(child.to_bytes(size, "big") for child in below))
    joined = b"".join(texts)
    off_bytes = width(len(joined))
    header = bytes.fromhex("b5ee9c72") + bytes([size, off_bytes])
    for number in (cells, 1, 0):
        header += number.to_bytes(size, "big")
    header += len(joined).to_bytes(off_bytes, "big") + (0).to_bytes(size, "big")
    return header + joined


def main():
    words = argparse.ArgumentParser(description=__doc__, formatter_class=argparse.RawDescriptionHelpFormatter)
    words.add_argument("cells", type=int)
    words.add_argument("--low", type=int, default=0)
    words.add_argument("--high", type=int, default=60)
    words.add_argument("--seed", type=int, default=1)
    given = words.parse_args()
    sys.stdout.buffer.write(bag(given.cells, given.low, given.high, given.seed))


main()
