"""The feed of a number as `inspect feed` prints it, worked out from the definition of generated feeds and not by the program.

Of the bags only the sizes are told: that of a state with 512 leaves and 511 inner cells, and that of an update with 64 leaves,
318 inner cells, 128 pruned branches and the root.
"""
import hashlib

LEAVES = 512
LAST_MASTER, LAST_SHARD = 66, 67
# A leaf takes 17 bytes, an inner cell 6, a pruned branch 38 and the root of an update 75; each cell 2 more in the index; and the
# rest of the header takes 16, the checksum 4.
STATE_BAG = 512 * 17 + 511 * 6 + 1023 * 2 + 16 + 4
UPDATE_BAG = 64 * 17 + 318 * 6 + 128 * 38 + 75 + 511 * 2 + 16 + 4
SHARDS = ("(-1,8000000000000000,{})", "(0,4000000000000000,{})", "(0,c000000000000000,{})")


def zero_root(number, chain):
    """The hash of the root of a zero state: descriptors, contents, depths and hashes, from the leaves up."""
    row = [hashlib.sha256(bytes((0, 30)) + number.to_bytes(8, "big") + bytes((chain,)) + leaf.to_bytes(2, "big") + bytes(4)).digest()
           for leaf in range(LEAVES)]
    depth = 0
    while len(row) > 1:
        row = [hashlib.sha256(bytes((2, 0)) + 2 * depth.to_bytes(2, "big") + left + right).digest() for left, right in zip(row[::2], row[1::2])]
        depth += 1
    return row[0]


def feed_lines(number):
    """The lines of all tasks, below one with their numbers."""
    zeros = [zero_root(number, chain) for chain in range(3)]

    def name(chain, seqno):
        root = bytes(27) + bytes((chain,)) + seqno.to_bytes(4, "big") if seqno else zeros[chain]
        return f"{SHARDS[chain].format(seqno)}:{root.hex()}:{number:064x}"

    def block(chain, seqno):
        tops = 0 if chain else 2
        return f"block {name(chain, seqno)} parent {name(chain, seqno - 1)} tops {tops} bag {UPDATE_BAG}"

    phases = [[[f"zero {name(chain, 0)} tops {0 if chain else 2} bag {STATE_BAG}" for chain in range(3)]]]
    for seqno in range(1, LAST_SHARD + 1):
        phases.append([
            [block(1, seqno)],
            [block(2, seqno)],
            [block(0, seqno)] if seqno <= LAST_MASTER else [],
            [f"read {name(1, seqno - 1)} path 9"] + ([f"slice {name(2, seqno - 1)} max 4096"] if seqno % 16 == 0 else []),
            [f"expire {name(0, seqno - 1)}"] if seqno % 8 == 0 else [],
        ])
    lines = [f"{phase}.{worker}.{task} {text}" for phase, workers in enumerate(phases) for worker, tasks in enumerate(workers)
             for task, text in enumerate(tasks)]
    return [f"ok phases {len(phases)} tasks {len(lines)}"] + lines
