"""The random words that START's key gives: ChaCha with eight rounds, stream 0 (RFC 8439 has the rounds).

Open k has 16 words of its own. The first is its transaction number by DHCP, and its low half the number by DNS.
"""

from __future__ import annotations

import struct

ROUNDS = 8
WORDS = 16
# "expand 32-byte k", as the four words at the state's beginning
CONSTANTS = struct.unpack("<4I", b"expand 32-byte k")
COLUMNS = ((0, 4, 8, 12), (1, 5, 9, 13), (2, 6, 10, 14), (3, 7, 11, 15))
DIAGONALS = ((0, 5, 10, 15), (1, 6, 11, 12), (2, 7, 8, 13), (3, 4, 9, 14))


def _turned(word: int, bits: int) -> int:
    return (word << bits | word >> (32 - bits)) & 0xFFFFFFFF


def _quarter_round(state: list[int], a: int, b: int, c: int, d: int) -> None:
    for left, middle, right, bits in ((a, b, d, 16), (c, d, b, 12), (a, b, d, 8), (c, d, b, 7)):
        state[left] = (state[left] + state[middle]) & 0xFFFFFFFF
        state[right] = _turned(state[right] ^ state[left], bits)


def words_of(key: bytes, k: int) -> list[int]:
    """The 16 words of open k."""
    before = [*CONSTANTS, *struct.unpack("<8I", key), k, 0, 0, 0]
    state = list(before)
    for _ in range(ROUNDS // 2):
        for places in (*COLUMNS, *DIAGONALS):
            _quarter_round(state, *places)
    return [(one + other) & 0xFFFFFFFF for one, other in zip(before, state)]


def xid_of(k: int, key: bytes = bytes(32)) -> int:
    """The number of a lease's transaction."""
    return words_of(key, k)[0]


def query_number(k: int, key: bytes = bytes(32)) -> int:
    """The number of a look-up's query."""
    return xid_of(k, key) & 0xFFFF
