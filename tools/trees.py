#!/usr/bin/env python3
"""Writes what the program `trees` should print: python3 tools/trees.py > crates/trees/stdout

It shares nothing with the crates: SHA-256 is hashlib's, roots and paths are those of RFC 9162, section 2.1.1 and
2.1.3.1, and paths are verified from the leaf up, as in section 2.1.3.2 there.
"""
import hashlib

PIECE = 16384
MOST = 40


def sha256(data):
    return hashlib.sha256(data).digest()


def leaf(piece):
    return sha256(b"\0" + piece)


def node(left, right):
    return sha256(b"\1" + left + right)


def split(n):
    """The largest power of two below n."""
    return 1 << ((n - 1).bit_length() - 1)


def root_of(leaves):
    if len(leaves) == 1:
        return leaves[0]
    k = split(len(leaves))
    return node(root_of(leaves[:k]), root_of(leaves[k:]))


def path_of(m, leaves):
    """From the leaf up, as in the RFC."""
    if len(leaves) == 1:
        return []
    k = split(len(leaves))
    if m < k:
        return path_of(m, leaves[:k]) + [root_of(leaves[k:])]
    return path_of(m - k, leaves[k:]) + [root_of(leaves[:k])]


def leads(length, root, place, piece, path):
    """Whether a piece and its path, the digest next to the root first, lead to the root of a file of this length."""
    count = -(-length // PIECE)
    if place >= count or len(piece) != min(PIECE, length - PIECE * place) or len(path) % 32 != 0:
        return False
    digests = [path[i : i + 32] for i in range(0, len(path), 32)]
    fn, sn, r = place, count - 1, leaf(piece)
    for p in reversed(digests):
        if sn == 0:
            return False
        if fn & 1 or fn == sn:
            r = node(p, r)
            while not (fn & 1 or fn == 0):
                fn >>= 1
                sn >>= 1
        else:
            r = node(r, p)
        fn >>= 1
        sn >>= 1
    return sn == 0 and r == root


def drawn(pieces):
    last = [PIECE, pieces, PIECE - pieces, 401 * pieces][pieces % 4]
    state, file = pieces, bytearray()
    for _ in range(PIECE * (pieces - 1) + last):
        state = (1664525 * state + 1013904223) % 2**32
        file.append(state >> 24)
    return bytes(file)


def turned(data, at):
    copy = bytearray(data)
    if copy:
        copy[at % len(copy)] ^= 1 << at % 8
    return bytes(copy)


def row(answers):
    return "".join(" yes" if answer else " no" for answer in answers)


def show(pieces):
    file = drawn(pieces)
    cut = [file[i : i + PIECE] for i in range(0, len(file), PIECE)]
    leaves = [leaf(piece) for piece in cut]
    root = root_of(leaves)
    paths = [b"".join(reversed(path_of(m, leaves))) for m in range(pieces)]
    print(f"{pieces} {root.hex()}" + row([True] * 4))
    for m in range(pieces):
        if (pieces - 1 - m) % (1 + pieces // 8) == 0:
            piece, path = cut[m], paths[m]
            tries = [
                (m, piece, path),
                (m, turned(piece, 37 * m), path),
                (m, piece, turned(path, 29 * m)),
                (m, piece, paths[(m + 1) % pieces]),
                (m, piece, path[:-32]),
                (m, piece, path + root),
                (m, piece, path + b"\0"),
                (m + 1, piece, path),
            ]
            print(f"  {m}" + row([True] + [leads(len(file), root, *tried) for tried in tries]))


print("pieces, root, the same by one piece, by three, by six, in the tree")
print("  place, paths alike, right, piece turned, path turned, other path, short, long, ragged, beside")
for n in range(1, MOST + 1):
    show(n)
