"""Damaged files: the same ones for the same number."""

import hashlib
import random
from collections.abc import Callable

# Marks that formats give a meaning.
MARKS = [
    b"\n",
    b" ",
    b"<",
    b">",
    b'"',
    b"&",
    b"=",
    b"[",
    b"]",
    b"\\",
    b"\0",
    b"\xff",
    b"4294967295",
    b"-1",
    b"P99",
    b"XM",
    b"END",
    b"SYSTEM",
]
DIGEST = 16


def changed(content: bytes, chance: random.Random) -> bytes:
    """A file with one change: a byte, a bit, a part that is gone, doubled, moved or put in, or its end cut."""
    begin = chance.randrange(len(content) + 1)
    end = min(len(content), begin + chance.choice([1, 1, 2, 4, 16, 100]))
    part = content[begin:end]
    changes: list[Callable[[], bytes]] = [
        lambda: content[:begin] + bytes([chance.randrange(256)]) + content[begin + 1 :],
        lambda: content[:begin]
        + bytes(byte ^ 1 << chance.randrange(8) for byte in content[begin : begin + 1])
        + content[begin + 1 :],
        lambda: content[:begin] + content[end:],
        lambda: content[:end] + part + content[end:],
        lambda: content[:begin],
        lambda: content[:begin] + chance.choice(MARKS) + content[begin:],
        lambda: content[:begin] + bytes(len(part)) + content[end:],
        lambda: content[:begin] + b"\xff" * len(part) + content[end:],
        lambda: content[:begin] + chance.randbytes(len(part)) + content[end:],
    ]
    return chance.choice(changes)()


def damaged(content: bytes, number: int) -> bytes:
    """A file with one to four changes."""
    chance = random.Random(number)
    for _ in range(chance.choice([1, 1, 1, 2, 4])):
        content = changed(content, chance)
    return content


def digested(content: bytes) -> bytes:
    """A container or an image with its length and its digest made right, so that what is in it is read."""
    if len(content) < 10 + DIGEST:
        return content
    body = content[:6] + len(content).to_bytes(4, "big") + content[10:-DIGEST]
    return body + hashlib.md5(body).digest()
