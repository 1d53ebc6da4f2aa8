#!/usr/bin/env python3
"""Makes the vectors that the program `conformance` runs, and what it must write of them.

    python3 tools/vectors.py | tools/section v      puts them into crates/conformance/stdin
    python3 tools/vectors.py --answers              the first lines of crates/conformance/stdout

Nothing here is shared with the crates: integers go by int.to_bytes, floats by struct and by exact fractions, the rest
by document 01's words.

A line that begins with #v names a group. A vector is the group's letter, the byte order (< or >), whether an answer is
expected (=) or a refusal (!), and in hexadecimal a size in two digits, a word of 16 digits, and 32 digits, which are 16
bytes or two words.
"""
import random
import struct
import sys
from fractions import Fraction

BIG = {"<": "little", ">": "big"}
WORD = 1 << 64


def line(group, size=0, order="<", answer=True, a=0, b=0, c=0, data=None):
    data = b.to_bytes(8, "big") + c.to_bytes(8, "big") if data is None else data.ljust(16, b"\0")
    return f"{group} {order} {'=' if answer else '!'} {size:02X} {a % WORD:016X} {data.hex().upper()}\n"


# ---- floats

def f64(bits):
    return struct.unpack(">d", struct.pack(">Q", bits))[0]


def bits64(x):
    return struct.unpack(">Q", struct.pack(">d", x))[0]


def f32(bits):
    return struct.unpack(">f", struct.pack(">I", bits))[0]


def is_nan64(bits):
    return bits % (1 << 63) > 0x7FF << 52


def is_finite64(bits):
    return bits % (1 << 63) < 0x7FF << 52


def is_nan32(bits):
    return bits % (1 << 31) > 0xFF << 23


def nearest32(v):
    """The f32 pattern nearest to a fraction, a tie to the even one: the fraction in units of the last place, rounded."""
    exponent = -126
    while v >= Fraction(2) ** (exponent + 1):
        exponent += 1
    pattern = (exponent + 126 << 23) + round(v / Fraction(2) ** (exponent - 23))
    return min(pattern, 0x7F800000)


def narrowed(bits):
    """For f: rounded to f32, nearest, ties to even; a NaN keeps sign and top 23 fraction bits and becomes quiet."""
    sign = bits >> 63 << 31
    if is_nan64(bits):
        return sign | 0x7FC00000 | (bits >> 29 & 0x7FFFFF)
    magnitude = bits % (1 << 63)
    nearest = nearest32(Fraction(f64(magnitude))) if is_finite64(bits) else 0x7F800000
    try:
        assert nearest == struct.unpack(">I", struct.pack(">f", f64(magnitude)))[0]
    except OverflowError:
        assert nearest == 0x7F800000
    return sign | nearest


def widened(bits):
    """f gives its exact f64; a NaN becomes quiet, payload kept."""
    if is_nan32(bits):
        return bits >> 31 << 63 | 0x7FF8 << 48 | (bits & 0x7FFFFF) << 29
    return bits64(f32(bits))


def exact(bits32):
    """A pattern's magnitude as a fraction, and 2^128 for an infinity's."""
    return Fraction(2) ** 128 if bits32 == 0x7F800000 else Fraction(f32(bits32))


def around(bits):
    """A pattern and its neighbours, with both signs."""
    return [s << 63 | b for b in (bits - 1, bits, bits + 1) if 0 <= b < 1 << 63 for s in (0, 1)]


NANS64 = [s << 63 | 0x7FF << 52 | f for s in (0, 1)
          for f in (1, 1 << 28, 1 << 29, (1 << 29) - 1, 1 << 50, 1 << 51, 1 << 51 | 1, (1 << 52) - 1, 0x5555555555555)]
NANS32 = [s << 31 | 0xFF << 23 | f for s in (0, 1) for f in (1, 2, 1 << 21, 1 << 22, 1 << 22 | 1, (1 << 23) - 1, 0x2AAAAA)]


def tie_after(p):
    """The f64 halfway between an f32 pattern and the next one, which a tie or a neighbour of it decides."""
    tie = (exact(p) + exact(p + 1)) / 2
    assert Fraction(float(tie)) == tie
    return bits64(float(tie))


def narrow():
    rng = random.Random(1)
    edges = [0, 1, 2, 3, 4, 5, 0x7FFFFE, 0x7FFFFF, 0x800000, 0x800001, 0x3F7FFFFF, 0x3F800000, 0x3F800001, 0x7F7FFFFE, 0x7F7FFFFF]
    seen = [x for p in edges for x in around(tie_after(p)) + around(bits64(float(exact(p))))]
    subnormals = [(1 << k) + d for k in range(3, 23) for d in (-1, 0)]
    carries = [(e << 23) - 1 for e in [*range(2, 254, 6), 253, 254]]
    seen += [tie_after(p) + d for p in subnormals + carries for d in (-1, 0, 1)]
    seen += [0x7FF << 52, 0xFFF << 52, (0x7FF << 52) - 1, 1, 1 << 52, (1 << 52) - 1, bits64(2.0 ** 128), bits64(-(2.0 ** 128))]
    seen += NANS64 + [rng.getrandbits(64) for _ in range(40)]
    seen += [rng.getrandbits(1) << 63 | rng.randrange(1023 - 152, 1023 + 130) << 52 | rng.getrandbits(52) for _ in range(100)]
    return [line("n", a=x, b=narrowed(x)) for x in dict.fromkeys(seen)]


def widen():
    rng = random.Random(2)
    seen = [s << 31 | p for p in (0, 1, 2, 3, 0x7FFFFF, 0x800000, 0x800001, 0x3F800000, 0x7F7FFFFF, 0x7F800000) for s in (0, 1)]
    seen += [(1 << k) + d for k in range(1, 23) for d in (-1, 0, 1)] + [e << 23 for e in range(1, 255, 8)]
    seen += NANS32 + [rng.getrandbits(32) for _ in range(60)]
    return [line("w", a=x, b=widened(x)) for x in dict.fromkeys(seen)]


# ---- integers

def integers(n):
    """Integers of 64 bits at -2^(8n-1), 2^(8n-1) and 2^(8n), and beside them."""
    ends = [m + d for m in (0, 1 << 8 * n - 1, -(1 << 8 * n - 1), 1 << 8 * n, -(1 << 8 * n)) for d in (-1, 0, 1)]
    ends += [-(1 << 63), (1 << 63) - 1, 0x0102030405060708, -0x0102030405060708]
    return [z for z in dict.fromkeys(ends) if -(1 << 63) <= z < 1 << 63]


def sizes():
    return [(n, o) for n in range(1, 17) for o in "<>"]


def write_signed():
    return [line("p", n, o, a=z, data=(z % (1 << 8 * n)).to_bytes(n, BIG[o])) for n, o in sizes() for z in integers(n)]


def write_unsigned():
    return [line("q", n, o, a=z, data=(z % WORD % (1 << 8 * n)).to_bytes(n, BIG[o]))
            for n, o in sizes() for z in (1 << 63, WORD - 1, 0xF1F2F3F4F5F6F7F8)]


def patterns(n):
    """Numbers of n bytes at the ends of their range and, above 8 bytes, at those of 64 bits."""
    top = 1 << 8 * n
    ends = [0, 1, top - 1, top // 2 - 1, top // 2, top // 2 + 1, 0x0102030405060708 % top, top - 2]
    if n > 8:
        ends += [m + d for m in (1 << 63, WORD, top - (1 << 63), top - WORD, top - (1 << 56), 0xFF << 56) for d in (-1, 0, 1)]
    return dict.fromkeys(ends)


def read(group, signed, low, high):
    lines = []
    for n, o in sizes():
        for u in patterns(n):
            data = u.to_bytes(n, BIG[o])
            z = int.from_bytes(data, BIG[o], signed=signed)
            fits = low <= z < high
            lines.append(line(group, n, o, fits, z if fits else 0, data=data))
    return lines


# ---- as_integer, as_number, T

def integer_of(bits):
    """A float equal to an integer of -2^63..2^63-1, that integer; otherwise none."""
    v = Fraction(f64(bits)) if is_finite64(bits) else Fraction(1, 2)
    return int(v) if v.denominator == 1 and -(1 << 63) <= v < 1 << 63 else None


def modulo(bits):
    """T of a float lacking an integer."""
    if not is_finite64(bits):
        return 0
    v = Fraction(f64(bits))
    r = abs(v) % WORD * (-1 if v < 0 else 1)
    if r < 0:
        r = Fraction(float(r + WORD))  # a fraction's float is rounded once, nearest, ties to even
    return min(int(r), WORD - 1)


def floats():
    """Floats at which as_integer and T have something to decide."""
    rng = random.Random(3)
    near = [0.5, 1.0, 1.5, 2.0, 2.5, 255.5, 1023.0, 1023.5, 1024.0, 1024.5, 1025.0, 2047.5, 2048.0, 2048.5, 3071.5, 3072.0,
            3072.5, 4096.5, 2.0 ** 52, 2.0 ** 52 + 0.5, 2.0 ** 53, 2.0 ** 53 + 2, 2.0 ** 62, 2.0 ** 63, 2.0 ** 63 + 2048,
            2.0 ** 63 + 4096, 2.0 ** 64, 2.0 ** 64 + 4096, 2.0 ** 65, 2.0 ** 65 + 2.0 ** 13, 2.0 ** 116, 2.0 ** 117, 1e300,
            5e-324, 2.2250738585072014e-308, 1e-9, 0.1, 1e18, 1e19, 3e19, 123456789.25]
    seen = [b for x in near for b in around(bits64(x))]
    # at every exponent below 2^64 the last bit before the point and the first one behind it
    seen += [bits64(x) for k in range(64) for x in (2.0 ** k + 1, -(2.0 ** k) - 1, 2.0 ** k + 0.5, -(2.0 ** k) - 0.5)]
    seen += [0, 1 << 63, 0x7FF << 52, 0xFFF << 52] + NANS64
    seen += [rng.getrandbits(1) << 63 | rng.randrange(1023 - 3, 1023 + 70) << 52 | rng.getrandbits(52) for _ in range(60)]
    return list(dict.fromkeys(seen))


def as_integer():
    return [line("i", answer=integer_of(x) is not None, a=x, b=(integer_of(x) or 0) % WORD) for x in floats()]


def option_t():
    """What T writes of a float, and what it would write if none had an integer."""
    return [line("t", a=x, b=modulo(x) if integer_of(x) is None else integer_of(x) % WORD, c=modulo(x)) for x in floats()]


def whole():
    """Integers at which rounding to f64 has something to decide, and the one that shows rounding twice."""
    near = [m + d for k in (24, *range(53, 63)) for m in (1 << k, (1 << k) + (1 << max(k - 53, 0))) for d in range(-3, 4)]
    near += [1 << k for k in range(63)] + [(1 << k) - 1 for k in range(63)]
    near += [(1 << 63) - d for d in (1, 255, 256, 257, 511, 512, 513, 1023, 1024, 1025, 1536, 1537)]
    near += [0, 1, 1152921573326323713, 1152921573326323712, 16777217, 16777219, 33554433]
    return [s * z for z in dict.fromkeys(near) for s in (1, -1)] + [-(1 << 63)]


def as_number():
    """An integer's f64, and its f32, for which the number is first an f64."""
    return [line("r", a=z, b=bits64(float(z)), c=narrowed(bits64(float(z)))) for z in whole()]


# ---- places, lengths, value lists

def starts():
    """Start p: 1..len+1, or -len..-1 meaning len+1+p."""
    lines = []
    for length in (0, 1, 2, 7, 256, (1 << 63) - 2, (1 << 63) - 1, 1 << 63, WORD - 1):
        ends = [m + d for m in (0, length, -length) for d in (-2, -1, 0, 1, 2)] + [-(1 << 63), (1 << 63) - 1]
        for p in dict.fromkeys(z for z in ends if -(1 << 63) <= z < 1 << 63):
            position = p if p > 0 else length + 1 + p
            inside = p != 0 and 1 <= position <= length + 1
            lines.append(line("o", answer=inside, a=p, b=length, c=position if inside else 0))
    return lines


POWERS = (1, 2, 4, 8, 16)


def padding():
    lines = []
    for limit in POWERS:
        for natural in range(1, 17):
            least = min(natural, limit)
            for length in (0, 1, 7, 14, (1 << 63) - 1, (1 << 63) + 9, WORD - 1):
                fill = -length % least
                lines.append(line("a", natural, answer=least in POWERS, a=length, b=limit, c=fill if least in POWERS else 0))
    return lines


def lengths():
    most = (1 << 63) - 1
    pairs = [(0, 0), (0, 1), (5, 11), (0, most), (most, 0), (most, 1), (1, most), (most - 1, 1), (most - 1, 2), (0, most + 1),
             (0, WORD - 1), (most, WORD - 1), (most + 1, 0), (most + 1, WORD - 1), (WORD - 1, WORD - 1), (WORD - 1, 1)]
    return [line("l", answer=m + n <= most, a=m, b=n, c=m + n if m + n <= most else 0) for m, n in pairs]


def states():
    return [line("d", answer=limit in POWERS and length < 1 << 63, a=length, b=limit)
            for limit in list(range(19)) + [32, WORD - 1] for length in (0, (1 << 63) - 1, 1 << 63, WORD - 1)]


def fields():
    return ([line("v", a=z, data=struct.pack(">BHq", 1, 8, z)) for z in integers(8) + integers(1)]
            + [line("y", a=x, data=struct.pack(">BHQ", 2, 8, x)) for x in floats()[::5] + NANS64])


def lists():
    """Lists of at most 16 bytes, well formed or not."""
    eight = b"\x01\x02\x03\x04\x05\x06\x07\x08"
    other = b"\0\0\0"
    good = [b"", other, other * 5, b"\x03\0\0", b"\x03\0\x01A", b"\x03\0\x0d" + bytes(13), b"\x01\0\x08" + eight, b"\x02\0\x08" + eight,
            b"\x01\0\x08" + eight + other, other + b"\x03\0\x02AB" + other, b"\x03\0\0" * 4]
    bad = [b"\0", b"\0\0", b"\0\0\x01A", b"\x04\0\0", b"\xff\0\0", b"\x03\0\x01", b"\x03\0\x02A", b"\x03\x01\0A", b"\x01\0\x07" + eight[:7],
           b"\x01\0\x08" + eight[:7], b"\x01\x08\0" + eight, b"\x02\0\x09" + eight + b"\x09", b"\x02\0\0", b"\x04\0\x08" + eight,
           b"\x01\0\x08" + eight + b"\0\0", other + b"\x03\0\x02A", b"A"]
    return [line("k", len(s), answer=ok, data=s) for ok, them in ((True, good), (False, bad)) for s in them]


GROUPS = [
    ("f64 to f32", narrow), ("f32 to f64", widen),
    ("integers written", write_signed), ("words written", write_unsigned),
    ("signed integers read", lambda: read("s", True, -(1 << 63), 1 << 63)), ("unsigned integers read", lambda: read("u", False, 0, WORD)),
    ("as_integer", as_integer), ("as_number", as_number), ("T of floats", option_t),
    ("start positions", starts), ("padding", padding), ("lengths", lengths), ("states", states),
    ("fields of a value list", fields), ("value lists", lists),
]


def main():
    made = [(name.ljust(23), make()) for name, make in GROUPS]
    if sys.argv[1:] == ["--answers"]:
        sys.stdout.write("".join(f"{name} {len(lines)} ok\n" for name, lines in made))
    else:
        sys.stdout.write("".join(f"#v {name} \n" + "".join(lines) for name, lines in made))


main()
