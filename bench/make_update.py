#!/usr/bin/env python3
"""Writes lines for `inspect updates` to standard output: a state, and Merkle updates of it, as bags in hexadecimal.

    bench/make_update.py UPDATES [--number N] [--chain N]

The state is a full binary tree with 512 leaves, numbered 0 to 511 from the left: 1,023 ordinary cells. An inner cell has
no bits; a leaf has 120: a number (8 bytes), a chain (1), the leaf's own number (2), and the number of the update that last
wrote it (4), which is 0 in the state. The number and the chain tell one such state from another; both are 0 where they
aren't given.

Update S, from 1 on, writes S into the 32 leaves 16 I + (S + the state's number) mod 16, for I from 0 to 31. Each half
shows the cells on the paths from the root to these leaves, 191 of them; the 128 other children of shown cells are pruned
branches, which both halves share. All updates are of the one state.
"""
import argparse
import hashlib

LEAVES = 512
GROUP = 16


class Cell:
    """A cell with its mask, and its hash and depth at level 0."""

    def __init__(self, data, children=(), mask=0, exotic=False, shown=None):
        self.data = data
        self.children = children
        self.mask = mask
        self.exotic = exotic
        # A pruned branch shows the hash and the depth of the cell that it stands for.
        self.hash, self.depth = (shown.hash, shown.depth) if shown else self.own()

    def own(self):
        depth = max((child.depth + 1 for child in self.children), default=0)
        text = bytes([len(self.children) + 8 * self.exotic, 2 * len(self.data)]) + self.data
        text += b"".join(child.depth.to_bytes(2, "big") for child in self.children)
        text += b"".join(child.hash for child in self.children)
        return hashlib.sha256(text).digest(), depth

    def text(self, places):
        first = len(self.children) + 8 * self.exotic + 32 * self.mask
        refs = b"".join(places[child].to_bytes(2, "big") for child in self.children)
        return bytes([first, 2 * len(self.data)]) + self.data + refs


def inner(left, right):
    return Cell(b"", (left, right), mask=left.mask | right.mask)


def pruned(cell):
    data = bytes([1, 1]) + cell.hash + cell.depth.to_bytes(2, "big")
    return Cell(data, mask=1, exotic=True, shown=cell)


def update_of(old, new):
    data = bytes([4]) + old.hash + new.hash + old.depth.to_bytes(2, "big") + new.depth.to_bytes(2, "big")
    return Cell(data, (old, new), mask=(old.mask | new.mask) >> 1, exotic=True)


class State:
    """A state, by the rows of its tree: the first one has the root alone, the last one the leaves."""

    def __init__(self, number, chain):
        self.number = number
        self.chain = chain
        self.rows = [[self.leaf(leaf, 0) for leaf in range(LEAVES)]]
        while len(self.rows[0]) > 1:
            below = self.rows[0]
            self.rows.insert(0, [inner(below[k], below[k + 1]) for k in range(0, len(below), 2)])
        self.pruned = [[pruned(cell) for cell in row] for row in self.rows]

    def leaf(self, leaf, writer):
        texts = (self.number.to_bytes(8, "big"), self.chain.to_bytes(1, "big"), leaf.to_bytes(2, "big"), writer.to_bytes(4, "big"))
        return Cell(b"".join(texts))

    def half(self, leaves):
        """The cells on the paths to some leaves, with these leaves in their places, and pruned branches beside them."""
        shown = leaves
        for row in range(len(self.rows) - 2, -1, -1):
            below, hidden = shown, self.pruned[row + 1]
            shown = {}
            for place in {place // 2 for place in below}:
                left, right = 2 * place, 2 * place + 1
                shown[place] = inner(below.get(left, hidden[left]), below.get(right, hidden[right]))
        return shown[0]

    def update(self, writer):
        places = [GROUP * group + (writer + self.number) % GROUP for group in range(LEAVES // GROUP)]
        old = self.half({place: self.rows[-1][place] for place in places})
        new = self.half({place: self.leaf(place, writer) for place in places})
        return update_of(old, new)


def below(cell, done, ordered):
    """Appends a cell behind all cells below it, each once."""
    if cell not in done:
        done.add(cell)
        for child in cell.children:
            below(child, done, ordered)
        ordered.append(cell)


def bag(root):
    ordered = []
    below(root, set(), ordered)
    ordered.reverse()
    places = {cell: place for place, cell in enumerate(ordered)}
    joined = b"".join(cell.text(places) for cell in ordered)
    header = bytes.fromhex("b5ee9c72") + bytes([2, 3])
    for number in (len(ordered), 1, 0):
        header += number.to_bytes(2, "big")
    return header + len(joined).to_bytes(3, "big") + (0).to_bytes(2, "big") + joined


def main():
    words = argparse.ArgumentParser(description=__doc__, formatter_class=argparse.RawDescriptionHelpFormatter)
    words.add_argument("updates", type=int)
    words.add_argument("--number", type=int, default=0)
    words.add_argument("--chain", type=int, default=0)
    given = words.parse_args()
    state = State(given.number, given.chain)
    print(bag(state.rows[0][0]).hex())
    for writer in range(1, given.updates + 1):
        print(bag(state.update(writer)).hex())


if __name__ == "__main__":
    main()
