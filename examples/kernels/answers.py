#!/usr/bin/env python3
"""What each kernel must leave in x10 to x13, found apart from the kernels: from the standards, by Python's library, or by
arithmetic that is written another way. Call: answers.py > answers"""

import functools
import hashlib
import re
import zlib

U64 = 1 << 64
PRIME = 2147483647


def numbers(state):
    """The generator of common.c."""
    while True:
        state = (state * 6364136223846793005 + 1442695040888963407) % U64
        yield state >> 33


def signed(value, bits=64):
    """A number read as signed."""
    value %= 1 << bits
    return value - (1 << bits) if value >> (bits - 1) else value


def quotient(a, b):
    """The quotient and the remainder of C."""
    q = abs(a) // abs(b)
    q = q if (a < 0) == (b < 0) else -q
    return q, a - q * b


def march():
    n, order = 96, 0
    for at in [*range(n), *range(n), *reversed(range(n)), *reversed(range(n))]:
        order = order * 3 + at
    return 0, 10 * n, order, 0


def checkerboard():
    even, odd = 0x5555555555555555, 0xAAAAAAAAAAAAAAAA
    evens, odds = sum(range(1, 65, 2)), sum(range(2, 65, 2))
    return 0, even * evens + odd * odds, odd * evens + even * odds, sum(range(1, 65))


def determinant(rows):
    """By the expansion along the first row, with the columns that are left as the key."""
    @functools.lru_cache(None)
    def minor(columns):
        if not columns:
            return 1
        row = rows[len(rows) - len(columns)]
        return sum((-1) ** i * row[c] * minor(columns[:i] + columns[i + 1:]) for i, c in enumerate(columns))
    return minor(tuple(range(len(rows))))


def matrices():
    drawn = numbers(1)
    pairs = [[(next(drawn) - 0x40000000, next(drawn) - 0x40000000) for _ in range(8)] for _ in range(8)]
    a = [[pair[0] for pair in row] for row in pairs]
    b = [[pair[1] for pair in row] for row in pairs]
    c = [[sum(x * y for x, y in zip(row, column)) for column in zip(*b)] for row in a]
    low = sum(signed(value, 32) for row in c for value in row)
    return sum(c[i][i] for i in range(8)), sum(map(sum, c)), low, determinant(a) % PRIME


def crc32():
    check = zlib.crc32(b"123456789")
    assert check == 0xCBF43926, "the check value of CRC-32/ISO-HDLC"
    return check, check, zlib.crc32(bytes(range(256))), zlib.crc32(b"")


def sha256():
    text = hashlib.sha256(b"abcdbcdecdefdefgefghfghighijhijkijkljklmklmnlmnomnopnopq").hexdigest()
    assert text == "248d6a61d20638b8e5c026930c3e6039a33ce45964ff2167f6ecedd419db06c1", "FIPS 180, two blocks"
    return tuple(int(text[i:i + 16], 16) for i in range(0, 64, 16))


def aes128():
    """FIPS 197, appendices B and C.1."""
    return 0x3925841D02DC09FB, 0xDC118597196A0B32, 0x69C4E0D86A7B0430, 0xD8CDB78070B4C55A


def quicksort():
    drawn = numbers(1)
    ordered = sorted(next(drawn) for _ in range(200))
    return 0, ordered[0], ordered[-1], sum(i * value for i, value in enumerate(ordered))


def list_():
    drawn = numbers(1)
    odd = [value for value in (next(drawn) % 1000 for _ in range(64)) if value % 2]
    return len(odd), sum(odd), min(odd), max(odd)


def strings():
    text = "the quick brown fox jumps over the lazy dog"
    return len(text), text.find("fox"), int(str(1234567890123)[::-1]), ord("i") - ord("o")


def machine():
    text = open(__file__.replace("answers.py", "machine.c"), encoding="ascii").read()
    words = re.search(r'"([^"]*)"', text[text.index("text[]"):]).group(1).split(" ")
    whole = re.compile(r"[+-]?[0-9]+")
    decimal = re.compile(r"[+-]?(([0-9]+\.[0-9]*|\.[0-9]+)(e[+-]?[0-9]+)?|[0-9]+e[+-]?[0-9]+)")
    name = re.compile(r"[a-z_][a-z_0-9]*")
    kinds = [0, 0, 0, 0]
    for word in words:
        kinds[next((i for i, form in enumerate((whole, decimal, name)) if form.fullmatch(word)), 3)] += 1
    return tuple(kinds)


def recursion():
    fibonacci = [0, 1]
    while len(fibonacci) < 13:
        fibonacci.append(sum(fibonacci[-2:]))
    return fibonacci[12], 2 * 3 + 3, 2 ** 8 - 1, 4


def sieve():
    primes = [n for n in range(2, 1000) if all(n % d for d in range(2, n))]
    return len(primes), sum(primes), primes[-1], sum(p - 2 in primes for p in primes)


def division():
    drawn, total = numbers(1), 0
    for i in range(60):
        high = next(drawn)
        a = signed(((high << 32) ^ next(drawn)) - (1 << 62))
        b = (next(drawn) >> (i % 28)) - 2 or 1
        q, r = quotient(a, b)
        total = total * 5 + q + r + (a % U64) // (b % U64) + (a % U64) % (b % U64)
        total = total * 5 + quotient(signed(a, 32), signed(b, 32))[0] + a % 2 ** 32 % (b % 2 ** 32)
    return total, 36, pow(3, 1000000, PRIME), 0


def lz():
    source = open(__file__.replace("answers.py", "lz.c"), encoding="ascii").read()
    text = "".join(re.findall(r'"([^"]*)"', source[source.index("text[]"):source.index("packed[")]))
    at, size, copies = 0, 0, 0
    while at < len(text):
        best = 0
        while best < 130 and at + best < len(text) and text.find(text[at:at + best + 1], max(at - 255, 0), at + best) >= 0:
            best += 1
        copy = best >= 3
        at, size, copies = at + (best if copy else 1), size + 1 + copy, copies + copy
    return size, 0, zlib.adler32(text.encode()), copies


def is_greater(left, right):
    return int(left.encode() > right.encode())


def dhry():
    """The rounds, with the records, arrays and names as Python has them."""
    here = {"name": 0, "number": 0, "text": "a program of twenty rounds, one"}
    line, square, total, words, place = {}, {}, 0, 0, 0
    first = "a program of twenty rounds, 1st"
    chosen = lambda name: (0, 0 if place > 100 else 3, 1, 3, 2)[name]
    for turn in range(1, 21):
        here["name"] = 1 if turn % 3 == 0 else 0
        second = "a program of twenty rounds, 2nd" if turn % 2 else "a program of ninety rounds, two"
        letter = "B" if is_greater(first, second) else "A"
        high = 3 + turn % 4
        total += sum(5 * low - high for low in range(2, high))
        row = high % 10
        at, place = row + 5, 5 + row
        line[at] = line[at + 1] = total
        line[35] = at
        square[at % 16, at % 16] = square[at % 16, (at + 1) % 16] = at
        square[at % 16, (at - 1) % 16] = square.get((at % 16, (at - 1) % 16), 0) + 1
        square[(at + 4) % 16, at % 16] = line[at]
        there = dict(here, number=5)
        here["number"] = 5
        if there["name"] == 0:
            there["name"], there["number"] = chosen(here["name"]), 6 + 2 + 10
        total += there["number"] * turn + there["name"] + ord(letter)
        words += is_greater(there["text"], second) + chosen(turn % 5)
        total = (total * 31 - total // 7) % 1000003
    lines = sum(value * (i + 1) for i, value in line.items())
    squares = sum(value * (16 * i + j) for (i, j), value in square.items())
    return total, lines, squares, words * 1000 + place


def crc16(data):
    """CRC-16/ARC by long division: the bits of each byte are turned round, and so is the remainder."""
    value = int("".join(f"{byte:08b}"[::-1] for byte in data) + "0" * 16, 2)
    for bit in range(value.bit_length() - 1, 15, -1):
        if value >> bit & 1:
            value ^= 0x18005 << (bit - 16)
    return int(f"{value:016b}"[::-1], 2)


def halves(values):
    return b"".join((value % 65536).to_bytes(2, "little") for value in values)


def core():
    assert crc16(b"123456789") == 0xBB3D, "the check value of CRC-16/ARC"
    drawn = numbers(1)
    nodes = sorted((next(drawn) % 65536, i) for i in range(32))
    keys = [next(drawn) % 65536 for _ in range(8)]
    listed = [part for node in nodes for part in node] + [sum(node[0] < key for node in nodes) for key in keys]
    drawn = numbers(2)
    pairs = [[(signed(next(drawn), 16), signed(next(drawn), 16)) for _ in range(6)] for _ in range(6)]
    sums = []
    for i in range(6):
        for j in range(6):
            total = 0
            for k in range(6):
                product = pairs[i][k][0] * pairs[k][j][1] % 2 ** 32
                total = (total + product) % 2 ** 32 ^ (product // 4 % 16) * (product // 32 % 128)
            sums += [total, total >> 16]
    drawn = numbers(3)
    counted = []
    for _ in range(24):
        word = f"{next(drawn):031b}{next(drawn):031b}"
        bits = "0" + word
        counted.append(word.count("1") << 8 | sum(bits[i] != bits[i + 1] for i in range(62)))
    return crc16(halves(listed)), crc16(halves(sums)), crc16(halves(counted)), crc16(b"123456789")


KERNELS = (march, checkerboard, matrices, crc32, sha256, aes128, quicksort, list_, strings, machine, recursion, sieve,
           division, lz, dhry, core)

if __name__ == "__main__":
    for kernel in KERNELS:
        print(kernel.__name__.strip("_"), *(f"0x{value % U64:016x}" for value in kernel()))
