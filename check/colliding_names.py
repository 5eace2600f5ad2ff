#!/usr/bin/env python3
"""Names that have one hash in the kit's tables.

    python3 check/colliding_names.py COUNT [--labels]    prints that many names, or labels
    python3 check/colliding_names.py --find N [--labels] finds N beginnings for such names, in seconds each

The kit's FoldHasher has a fixed seed. It takes a text of 32 bytes as two blocks of two numbers each, and multiplies the
numbers of a block: the first with the state, the second with a constant. So where the third number of a text is the state
after its first block, the product is 0 whatever the fourth is: all names with that beginning of 24 bytes have one hash.
A label is hashed behind the number of its variant.
"""
import itertools
import string
import sys

SEED, MULTIPLIER, WORD = 0x243F6A8885A308D3, 0x9E3779B97F4A7C15, (1 << 64) - 1
LETTERS = string.ascii_lowercase
LENGTH = 32
# what `beginnings` found
OF_NAMES, OF_LABELS = "krdjibdochvafiyosmubv2uw", "zzzzzzzraaaablqto1g5w0zo"


def folded(one, other):
    """The two halves of a product of 128 bits, joined."""
    product = one * other
    return product & WORD ^ product >> 64


def number(text, at=0, size=8):
    return int.from_bytes(text[at : at + size], "little")


def short_number(text):
    """Up to 8 bytes as one number."""
    if len(text) >= 4:
        return number(text, 0, 4) | number(text, len(text) - 4, 4) << 32
    return text[0] | text[len(text) // 2] << 8 | text[-1] << 16 if text else 0


def written(state, text):
    """The state of a FoldHasher after some bytes."""
    length = len(text)
    if length <= 8:
        return folded(state ^ short_number(text), MULTIPLIER ^ 2 * length)
    state = state + length & WORD
    for at in range(0, length - 16, 16):
        state = folded(number(text, at) ^ state, number(text, at + 8) ^ MULTIPLIER)
    return folded(number(text, max(0, length - 16)) ^ state, number(text, length - 8) ^ MULTIPLIER)


# the state in which the text of a label is met
LABEL_SEED = written(SEED, bytes(8))


def hash_of(name, seed=SEED):
    """The hash of a text: of its bytes, and of one that ends it."""
    return written(written(seed, name.encode()), b"\xff")


def words(letters, length):
    return map("".join, itertools.product(letters, repeat=length))


def names(count, beginning=OF_NAMES):
    """That many names of 32 letters and digits that have one hash."""
    return [beginning + end for end in itertools.islice(words(LETTERS, LENGTH - len(beginning)), count)]


def labels(count):
    return names(count, OF_LABELS)


def beginnings(firsts, seconds, seed=SEED):
    """Beginnings of 24 letters and digits, from words of eight letters."""
    last = frozenset(f"{LETTERS}{string.digits}".encode())
    factors = [(it, number(it.encode()) ^ MULTIPLIER) for it in seconds]
    for first in firsts:
        state = number(first.encode()) ^ (seed + LENGTH & WORD)
        for second, factor in factors:
            third = folded(state, factor).to_bytes(8, "little")
            if last.issuperset(third):
                yield f"{first}{second}{third.decode()}"


def main(given):
    of_labels = "--labels" in given
    given = [it for it in given if it != "--labels"]
    if len(given) == 2 and given[0] == "--find":
        seconds = itertools.islice(words(LETTERS, 8), 100_000)
        found = beginnings(words(LETTERS[::-1], 8), seconds, LABEL_SEED if of_labels else SEED)
        for it in itertools.islice(found, int(given[1])):
            print(it, flush=True)
    elif len(given) == 1 and given[0].isdigit():
        print("\n".join((labels if of_labels else names)(int(given[0]))))
    else:
        sys.exit(__doc__)
    return 0


if __name__ == "__main__":
    sys.exit(main(sys.argv[1:]))
