"""Names that collide by the kit's hash, which has no seed."""
import itertools
import random
import string
import subprocess

import kit

MASK = 2**64 - 1
FIRST, MULTIPLIER = 0x243F6A8885A308D3, 0x9E3779B97F4A7C15
LETTERS = (string.ascii_letters + string.digits).encode()
# by the byte that both are joined with by xor: the letters that become letters
KEPT = [[letter for letter in LETTERS if letter ^ byte in LETTERS] for byte in range(256)]


def in_tables(folder, parts, count):
    """Names that collide in a hash table, where only some bits of a hash decide; with `parts` 2 as labels of the root package. Searched for
    by collide.c, which takes some seconds."""
    program = f"{folder}/collide"
    subprocess.run(["cc", "-O2", "-o", program, f"{kit.ROOT}/bench/collide.c"], check=True)
    return subprocess.run([program, str(parts), str(count)], capture_output=True, text=True, check=True).stdout.split()


def word(letters):
    """Eight letters as a number."""
    return int.from_bytes(letters, "little")


def after(state, block):
    """The state of the hash after a block of 16 bytes."""
    product = (word(block[:8]) ^ state) * (word(block[8:]) ^ MULTIPLIER)
    return (product & MASK) ^ (product >> 64)


def masks(state):
    """What the halves of a block are joined with by xor where they change places: then the product of both is the same."""
    return (state ^ MULTIPLIER).to_bytes(8, "little")


def pair(state, choose):
    """Two blocks of letters with the same state after them, one after which there are such blocks too."""
    mask = masks(state)
    while True:
        left, right = (bytes(choose.choice(KEPT[byte]) for byte in mask) for _ in range(2))
        other = bytes(letter ^ byte for letter, byte in zip(right + left, mask + mask))
        if other != left + right and all(KEPT[byte] for byte in masks(after(state, other))):
            return left + right, other


def of_one_hash(*counts):
    """Lists of so many beginnings, middles .. of names: any that is put together of one of each has the same hash as all others."""
    choose = random.Random(1)
    pairs = [(count - 1).bit_length() for count in counts]
    start = (FIRST + 16 * (1 + sum(pairs))) & MASK
    blocks = (bytes(choose.choices(LETTERS, k=16)) for _ in itertools.count())
    head = next(block for block in blocks if all(KEPT[byte] for byte in masks(after(start, block))))
    state, lists, heads = after(start, head), [], [head]
    for count, length in zip(counts, pairs):
        parts = []
        for _ in range(length):
            parts.append(pair(state, choose))
            state = after(state, parts[-1][0])
        whole = (b"".join(it) for it in itertools.product(heads, *parts))
        lists.append([it.decode() for it in itertools.islice(whole, count)])
        heads = [b""]
    return lists
