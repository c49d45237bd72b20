"""The ids of sessions, computed from their public rule: of a tenant's session n, words 4n to 4n+3
of the ChaCha20 stream (RFC 8439, with a counter of 64 bits) whose key is the seed and whose nonce
is the tenant's number, each word least byte first, marked as a version 4 UUID (RFC 9562)."""

import struct
import uuid

CONSTANTS = struct.unpack("<4I", b"expand 32-byte k")
COLUMNS = ((0, 4, 8, 12), (1, 5, 9, 13), (2, 6, 10, 14), (3, 7, 11, 15))
DIAGONALS = ((0, 5, 10, 15), (1, 6, 11, 12), (2, 7, 8, 13), (3, 4, 9, 14))


def session_id(tenant, number, seed=bytes(32)):
    words = block(seed, number // 4, tenant)[4 * (number % 4) :][:4]
    return str(uuid.UUID(bytes=struct.pack("<4I", *words), version=4))


def block(key, counter, nonce):
    """The 16 words of one block of the stream."""
    start = [
        *CONSTANTS,
        *struct.unpack("<8I", key),
        *struct.unpack("<4I", struct.pack("<QQ", counter, nonce)),
    ]
    words = start[:]
    for _ in range(10):
        for places in (*COLUMNS, *DIAGONALS):
            quarter_round(words, *places)
    return [(one + other) & 0xFFFFFFFF for one, other in zip(words, start)]


def quarter_round(words, a, b, c, d):
    for into, by, turned, left in ((a, b, d, 16), (c, d, b, 12), (a, b, d, 8), (c, d, b, 7)):
        words[into] = (words[into] + words[by]) & 0xFFFFFFFF
        mixed = words[turned] ^ words[into]
        words[turned] = (mixed << left | mixed >> (32 - left)) & 0xFFFFFFFF
