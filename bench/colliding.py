"""Texts of wires whose names have one hash, where nothing in the hash is drawn by lot, in two families: a hash that goes on from byte to byte by
`hash * FACTOR + byte`, modulo 2^32; and a hash that multiplies 16 bytes at a time (`std::hash::FoldHasher` of the kit)."""
import itertools
import random
import string

FACTOR, MODULUS = 2_246_822_507, 2**32
LETTERS = string.ascii_letters
# a name has so many pieces, each of two halves of so many letters, digits and `_`
PIECES, HALF = 5, 3

# what the hash that multiplies begins with, and what it multiplies by
BEGINNING, MULTIPLIER, WORD = 0x243F_6A88_85A3_08D3, 0x9E37_79B9_7F4A_7C15, 2**64
LENGTH, BLOCK = 32, 8
# 16 letters whose hash is 8 letters: one text of letters in about 345,000 is so
FIRST = b"tVptbcOMGctkiabM"


def hash_of(text):
    """The hash of a text."""
    found = 0
    for byte in text.encode():
        found = (found * FACTOR + byte) % MODULUS
    return found


def pieces(count):
    """So many pieces that have one hash: then all names of as many pieces have one hash, too."""
    halves = {hash_of(half): half for half in map("".join, itertools.product(LETTERS + string.digits + "_", repeat=HALF))}
    turn = pow(FACTOR, HALF, MODULUS)
    for wanted in itertools.count():
        rests = ((first, (wanted - value * turn) % MODULUS) for value, first in halves.items())
        found = [first + halves[rest] for first, rest in rests if rest in halves and first[0] in LETTERS]
        if len(found) >= count:
            return found[:count]


def colliding_names(count):
    """So many names that have one hash."""
    fewest = next(some for some in itertools.count(1) if some**PIECES >= count)
    return list(itertools.islice(map("".join, itertools.product(pieces(fewest), repeat=PIECES)), count))


def folded(one, other):
    """The two halves of a product of 128 bits, joined."""
    product = one * other
    return product % WORD ^ product // WORD


def annulling_front():
    """The 24 letters behind which any 8 have no effect: the hash of the first 16 of them is the number that the next 8 are, so 0 is multiplied."""
    one, other = (int.from_bytes(FIRST[at : at + BLOCK], "little") for at in (0, BLOCK))
    state = folded(one ^ (BEGINNING + LENGTH) % WORD, other ^ MULTIPLIER)
    return (FIRST + state.to_bytes(BLOCK, "little")).decode()


def annulled_names(count):
    """So many names that have one hash where 16 bytes are multiplied at a time."""
    front = annulling_front()
    return [front + "".join(last) for last in itertools.islice(itertools.product(LETTERS, repeat=BLOCK), count)]


def other_names(count):
    """So many names of the same length, in no order."""
    numbers = random.Random(1)
    return ["".join(numbers.choices(LETTERS, k=2 * HALF * PIECES)) for _ in range(count)]


def text(names):
    """A netlist text of wires of these names."""
    return "".join(["format 4\nhorizon 1\n", *(f"wire {name} 1 0\n" for name in names)])
