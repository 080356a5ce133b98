"""Texts with errors whose hashes are one, for scripts/measure/input_growth.py.

The hash of an error has no seed that changes, so names can be chosen for which the hashes of all errors are the same: n of them in
a hash set take n n comparisons. The hash is followed up to the name, and names are sought for which it is 0 there.
"""
import itertools
import random
import sys

from harness import SCOPE

OPENING = SCOPE + " when { ["
# The hasher of a hash set: what it multiplies by, and where it begins.
MULTIPLIER, BEGINNING, MASK = 0x9E3779B97F4A7C15, 0x243F6A8885A308D3, (1 << 64) - 1
# Which kind of error it is, and which kind of type has no such attribute, by number.
UNSAFE_ACCESS, UNREAD_TEXT, ENTITY = 5, 11, 7
# What a name may be made of: letters and digits, and then whatever is shown as it stands.
PLAIN = b"abcdefghijklmnopqrstuvwxyz"
SHOWN = bytes(it for it in range(0x20, 0x7F) if it not in b'"\\`')


def folded(a, b):
    """The product, its halves joined."""
    product = a * b
    return (product & MASK) ^ (product >> 64)


def number(text, at):
    return int.from_bytes(text[at:at + 8], "little")


def fed(state, text):
    """The hasher's state behind some bytes."""
    size = len(text)
    if size <= 8:
        short = int.from_bytes(text[:4], "little") | int.from_bytes(text[-4:], "little") << 32 if size >= 4 else text[0] | text[size // 2] << 8 | text[-1] << 16
        return folded(state ^ short, MULTIPLIER ^ (2 * size))
    state = (state + size) & MASK
    for at in range(0, size - 16, 16):
        state = folded(number(text, at) ^ state, number(text, at + 8) ^ MULTIPLIER)
    return folded(number(text, size - 16) ^ state, number(text, size - 8) ^ MULTIPLIER)


def fed_all(state, parts):
    """The state behind these numbers and texts."""
    for it in parts:
        state = fed(state, it.to_bytes(8, "little")) if isinstance(it, int) else fed(fed(state, it), b"\xff")
    return state


def behind_blocks(state, text):
    """The state behind the whole blocks of 16 bytes at the beginning of a text, and the rest of it."""
    whole = len(text) - len(text) % 16
    for at in range(0, whole, 16):
        state = folded(number(text, at) ^ state, number(text, at + 8) ^ MULTIPLIER)
    return state, text[whole:]


def name_of_no_hash(state, front):
    """A name behind these bytes, of which the second half is such that the hash is 0 behind it.

    Of each 16 bytes the first eight are joined to the state and multiplied by the others: so where they are the state, it is 0.
    """
    state, begun = behind_blocks(state, front)
    fill = b"a" * (8 - len(begun))
    behind = number(fill + b"aaaaaaaa", len(fill)) ^ MULTIPLIER
    for letters in itertools.product(PLAIN, repeat=len(fill)):
        name = bytes(letters)
        there = folded(int.from_bytes(begun + name, "little") ^ state, behind).to_bytes(8, "little")
        if not there.translate(None, SHOWN):
            return name + b"aaaaaaaa" + there
    sys.exit("there is no such name")


def other_name(size):
    """A name of so many letters."""
    return bytes(random.choices(PLAIN, k=size))


def accesses(count, is_one):
    """So many accesses to attributes that there are not, whose errors have one hash or not."""
    parts, start = [], len(OPENING)
    for i in range(count):
        end = start + len('principal["') + 32 + len('"]')
        state = fed_all(BEGINNING, [UNSAFE_ACCESS, 1, start, end, b"policy0", ENTITY, 0, 1, 0, b"User"])
        name = name_of_no_hash((state + 32) & MASK, b"") if is_one else other_name(24)
        parts.append(f'principal["{name.decode()}{i:08}"]')
        start = end + len(", ")
    return parts


def unread_texts(count, is_one):
    """So many calls on texts that are no addresses, whose errors have one hash or not. What such an error says ends alike."""
    front, back = b"`ip` cannot read `", "x" * 15
    parts, start = [], len(OPENING)
    for i in range(count):
        end = start + len('ip("') + 45 + len('")')
        state = fed_all(BEGINNING, [UNREAD_TEXT, 1, start, end, b"policy0"])
        name = name_of_no_hash((state + 64) & MASK, front) if is_one else other_name(22)
        parts.append(f'ip("{name.decode()}{i:08}{back}")')
        start = end + len(", ")
    return parts


def policy_of(parts):
    return OPENING + ", ".join(parts) + "].isEmpty() };\n"
