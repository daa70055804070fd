#!/usr/bin/env python3
"""Usage: python3 vectors/weights.py (at the repository's root): writes crates/test_weights/stdin and crates/test_weights/stdout.

Each line of stdin has the bits of two probabilities p and q and a largest half weight M, in hexadecimal. Each line of stdout has the answer of weight_of_p
to p (16 digits, or r and the refusing question), that of compute_weights to the edges p, q (two half weights and the untouched third place, or r and the
number), and the numbers that set_probability and set_erasure_probability give to p (0: accepted). Written from document 01's sections "Weights" and
"Questions at the door"; Python's floats are IEEE 754 binary64, each operation rounded once."""
import struct
import sys

INFINITY = float('inf')


def of_bits(n):
    return struct.unpack('>d', struct.pack('>Q', n))[0]


def bits(x):
    return struct.unpack('>Q', struct.pack('>d', x))[0]


LN2 = of_bits(0x3fe62e42fefa39ef)


def accepted(p):
    return bits(p) == 0 or 2.0 ** -40 <= p <= 0.5


def weight(p):
    if p == 0:
        return INFINITY
    q, k = (1.0 - p) / p, 0
    while not q < 2.0:
        q, k = q / 2.0, k + 1
    s = (q - 1.0) / (q + 1.0)
    z, h = s * s, 1.0 / 35.0
    for n in range(16, -1, -1):
        h = h * z + 1.0 / float(2 * n + 1)
    return float(k) * LN2 + (2.0 * s) * h


def half_weight(most, w, largest):
    v = (float(most) * w) / largest
    if v != v:
        n = 0
    else:
        n = most if v >= most else int(v) + 1
        while n > 0 and not v >= float(n) - 0.5:
            n -= 1
    return n if n > 0 else 1


def computed(ps, most):
    if not 1 <= most <= 250000:
        return 'r8'
    if not all(accepted(p) for p in ps):
        return 'r9'
    ws = [weight(p) for p in ps]
    largest = 0.0
    for w in ws:
        if w > largest:
            largest = w
    if not largest > 0.0:
        return 'r10'
    return ' '.join(str(half_weight(most, w, largest)) for w in ws) + ' 7'


def patterns():
    out = [0, 1 << 63]
    # subnormals, the least normal number and its neighbours, of both signs
    out += [1, 2, 0xfffffffffffff, 0x10000000000000, 0x10000000000001, (1 << 63) | 1, (1 << 63) | 0xfffffffffffff]
    # infinities and NaNs
    out += [0x7ff << 52, 0xfff << 52, (0x7ff << 52) | 1, (0x7ff8 << 48), (0x7ff8 << 48) | 1, (0xfff8 << 48), (1 << 64) - 1, (1 << 63) - 1]
    # the limits and their neighbours
    for limit in (0x3d70 << 48, 0x3fe0 << 48):
        out += [limit + d for d in range(-4, 5)] + [(1 << 63) | limit]
    out += [bits(x) for x in (1.0, -1.0, 2.0, 0.75, 1e-300, 1e300, 5e-324, 1.7976931348623157e308)]
    # powers of 2 with their neighbours
    for e in range(-46, 3):
        out += [bits(2.0 ** e) + d for d in (-1, 0, 1)]
    # p where the odds come to a power of 2 or close to it
    for e in range(1, 41):
        out += [bits(1.0 / (1.0 + 2.0 ** e)) + d for d in (-1, 0, 1)]
    # decimals, and a third of each
    decimals = [i / 100.0 for i in range(1, 51)] + [float('%de-%d' % (i, e)) for i in (1, 2, 5) for e in range(3, 14)]
    out += [bits(x) for x in decimals] + [bits(x / 3.0) for x in decimals]
    # patterns by a xorshift generator: some in the range, some anywhere
    x = 88172645463325252
    for i in range(260):
        x ^= (x << 13) % 2 ** 64
        x ^= x >> 7
        x ^= (x << 17) % 2 ** 64
        out.append(((983 + x % 40) << 52) | (x >> 12))
        if i % 4 == 0:
            out.append(x)
    return list(dict.fromkeys(out))


def cases():
    listed = patterns()
    beside = [bits(x) for x in (0.1, 0.01, 0.25, 0.3, 2.0 ** -40, 0.5, 1e-6, 0.0)]
    most = [1, 2, 3, 7, 500, 501, 1000, 99999, 249999, 250000]
    for i, p in enumerate(listed):
        yield p, beside[i % 8], most[i % 10]
    # two edges alike, and the same p beside itself at each M
    for p in (0.5, 0.0, 0.125, 0.01):
        for m in most:
            yield bits(p), bits(p), m
    # the limits of M; 8 is asked before 9, 9 before 10
    for m in (0, 1, 250000, 250001, 4294967295):
        for p, q in ((0.1, 0.2), (-0.0, 0.1), (0.1, float('nan')), (0.5, 0.5), (0.5, 0.7)):
            yield bits(p), bits(q), m
    # v next to a half: p 0.25 beside 0.1 with M 501, and its neighbours
    for m in range(495, 508):
        yield bits(0.25), bits(0.1), m
        yield bits(0.1), bits(0.25), m


def main():
    given, expected = [], []
    for p, q, m in cases():
        given.append('%016x %016x %08x' % (p, q, m))
        w = of_bits(p)
        first = '%016x' % bits(weight(w)) if accepted(w) else 'r9'
        numbers = (0 if accepted(w) else 9, 0 if 0.0 <= w <= 1.0 else 9)
        expected.append('%s %s %d %d' % (first, computed([w, of_bits(q)], m), *numbers))
    print(len(patterns()), 'patterns,', len(given), 'cases', file=sys.stderr)
    assert 43 * len(given) <= 65536
    for name, lines in (('stdin', given), ('stdout', expected)):
        with open('crates/test_weights/' + name, 'w') as f:
            f.write('\n'.join(lines) + '\n')


main()
