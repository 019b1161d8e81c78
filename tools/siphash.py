#!/usr/bin/env python3
"""SipHash-2-4, written apart from the program, for values to compare with.

siphash.py K0 K1 MESSAGE: the hash of a message in hexadecimal under the halves of a key.
siphash.py TEXT: the discriminator of a text.
"""
import sys

MASK = 2**64 - 1


def siphash(k0, k1, message):
    v = [k0 ^ 0x736F6D6570736575, k1 ^ 0x646F72616E646F6D, k0 ^ 0x6C7967656E657261, k1 ^ 0x7465646279746573]

    def half(a, b, c, d, s, t):
        v[a] = (v[a] + v[b]) & MASK
        v[c] = (v[c] + v[d]) & MASK
        v[b] = ((v[b] << s | v[b] >> (64 - s)) & MASK) ^ v[a]
        v[d] = ((v[d] << t | v[d] >> (64 - t)) & MASK) ^ v[c]
        v[a] = (v[a] << 32 | v[a] >> 32) & MASK

    def rounds(n):
        for _ in range(n):
            half(0, 1, 2, 3, 13, 16)
            half(2, 1, 0, 3, 17, 21)

    padded = message + bytes(7 - len(message) % 8) + bytes([len(message) % 256])
    for i in range(0, len(padded), 8):
        word = int.from_bytes(padded[i : i + 8], "little")
        v[3] ^= word
        rounds(2)
        v[0] ^= word
    v[2] ^= 0xFF
    rounds(4)
    return v[0] ^ v[1] ^ v[2] ^ v[3]


def discriminator(text):
    key = bytes.fromhex("b5d4c9eb79104a796fec8b1b428781d4")
    k0, k1 = (int.from_bytes(key[i : i + 8], "little") for i in (0, 8))
    return siphash(k0, k1, text) % 65535 + 1


if __name__ == "__main__":
    if len(sys.argv) == 4:
        print(f"{siphash(int(sys.argv[1], 0), int(sys.argv[2], 0), bytes.fromhex(sys.argv[3])):#018x}")
    else:
        print(discriminator(sys.argv[1].encode()))
