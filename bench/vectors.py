#!/usr/bin/env python3
"""Prints the tables that the tests of gf64 and wc_tags compare with.

Written apart from the crates, over lists of coefficients: the product is the
convolution of two lists, the remainder is long division, a power is a repeated
product, and a text is padded as a whole before it is cut into blocks.

    python3 bench/vectors.py
"""

MODULUS = [1 if i in (64, 4, 3, 1, 0) else 0 for i in range(65)]


def coefficients(number, count=64):
    return [number >> i & 1 for i in range(count)]


def number(coefficient_list):
    return sum(c << i for i, c in enumerate(coefficient_list))


def convolution(p, q):
    result = [0] * (len(p) + len(q) - 1)
    for i, c in enumerate(p):
        for j, d in enumerate(q):
            result[i + j] = (result[i + j] + c * d) % 2
    return result


def divide(p):
    """The quotient and the remainder by the modulus."""
    rest = p[:]
    quotient = [0] * max(len(p) - 64, 1)
    for top in range(len(rest) - 1, 63, -1):
        if rest[top]:
            quotient[top - 64] = 1
            for i, c in enumerate(MODULUS):
                rest[top - 64 + i] = (rest[top - 64 + i] + c) % 2
    return quotient, rest[:64]


def product(a, b):
    return number(divide(convolution(coefficients(a), coefficients(b)))[1])


def power(a, exponent):
    result = 1
    for _ in range(exponent):
        result = product(result, a)
    return result


def inverse(a):
    """By Euclid's algorithm, not as a power."""
    def degree(n):
        return n.bit_length() - 1
    r, s = number(MODULUS), a
    t, u = 0, 1
    while s != 1:
        shift = degree(r) - degree(s)
        if shift < 0:
            r, s, t, u = s, r, u, t
        else:
            r ^= s << shift
            t ^= u << shift
    return number(divide(coefficients(u, 130))[1])


def blocks(text):
    padded = text + bytes(-len(text) % 8)
    return [int.from_bytes(padded[i:i + 8], "big") for i in range(0, len(padded), 8)] + [len(text)]


def hash_of(key, text):
    m = blocks(text)
    result = 0
    for i, block in enumerate(m, 1):
        result ^= product(block, power(key, len(m) + 1 - i))
    return result


def rising(count):
    """The octets 0, 1, 2 .. modulo 256."""
    return bytes(i % 256 for i in range(count))


def row(*numbers):
    print("    (" + ", ".join(f"0x{n:016x}" for n in numbers) + "),")


A, B = 0x0123456789abcdef, 0xfedcba9876543210

print("// gf64: products")
for a, b in [(0, A), (1, A), (3, 3), (1 << 63, 2), (1 << 63, 1 << 63), (A, B), (B, A), (A, A), (2**64 - 1, 2**64 - 1),
             (0xd, 1 << 63), (0x1b, 1 << 63)]:
    row(a, b, product(a, b))
print("// gf64: x^63 * x^i for each i")
for i in range(64):
    print(f"    0x{product(1 << 63, 1 << i):016x},")
print("// gf64: a number and its inverse, whose polynomial product is a multiple of the modulus and 1 more")
for a in [1, 2, 3, 0x1b, 1 << 63, A, B, 2**64 - 1]:
    assert product(a, inverse(a)) == 1
    row(a, inverse(a))
print("// wc_tags: length of the text, of the octets 0, 1, 2 .., key, hash")
for key in [1, 2, A]:
    for length in [0, 1, 7, 8, 9, 585]:
        print(f"    ({length}, 0x{key:016x}, 0x{hash_of(key, rising(length)):016x}),")
# The header of a frame and its masked payload, of 33 octets.
FRAME = bytes.fromhex("0100000000110000" "0000000000000008" "0300000000000080" "0080000000000000" "01")
print("// wc_tags: single texts")
print(f"    hash(2, [1]) = 0x{hash_of(2, bytes([1])):016x}")
print(f"    hash(2, FRAME) = 0x{hash_of(2, FRAME):016x}")
