#!/usr/bin/env python3
"""Prints what the program test_sampling must print: an own model of document 01's sampling, errors, syndromes and reordering."""
import struct

M = (1 << 64) - 1
A = [0, 0, 1, 2, 3, 3, 4, 4, 5]
B = [2, 3, 3, 4, 4, 5, 6, 7, 7]
BOUNDARY = [0, 2, 1, 0, 0, 2, 1, 0]
P = [0.5, 0.25, 0.1, 0.5, 0.25, 0.1, 0.01, 0.5, 0.125]
PE = [0.5, 0.0, 1.0, 0.25, 0.1, 0.0, 0.5, 0.125, 0.03125]


def split_mix(seed):
    while True:
        seed = (seed + 0x9E3779B97F4A7C15) & M
        z = seed
        z = ((z ^ (z >> 30)) * 0xBF58476D1CE4E5B9) & M
        z = ((z ^ (z >> 27)) * 0x94D049BB133111EB) & M
        yield z ^ (z >> 31)


def rotl(x, k):
    return ((x << k) | (x >> (64 - k))) & M


def draws(seed):
    words = split_mix(seed)
    s = [next(words) for _ in range(4)]
    while True:
        word = (rotl((s[1] * 5) & M, 7) * 9) & M
        t = (s[1] << 17) & M
        s[2] ^= s[0]
        s[3] ^= s[1]
        s[1] ^= s[2]
        s[0] ^= s[3]
        s[2] ^= t
        s[3] = rotl(s[3], 45)
        yield struct.unpack('<d', struct.pack('<Q', 0x3FF << 52 | word >> 12))[0] - 1.0


def show(xs):
    print(''.join(f'{x} ' for x in xs))


def flip(defect, k):
    for v in (A[k], B[k]):
        if BOUNDARY[v] == 0:
            defect[v] = 1 - defect[v]


def listing(defect, erasure):
    d = [v for v in range(8) if defect[v] == 1]
    s = [k for k in range(9) if erasure[k] == 1]
    show([0, len(d), len(s)])
    show(defect)
    show(erasure)
    show(d + [7] * (9 - len(d)))
    show(s + [7] * (10 - len(s)))


def sample(seed):
    draw = draws(seed)
    defect, erasure = [0] * 8 + [7], [7] * 10
    for k in range(9):
        erasure[k] = 1 if next(draw) < PE[k] else 0
        if next(draw) < (0.5 if erasure[k] else P[k]):
            flip(defect, k)
    listing(defect, erasure)


def errors(named):
    defect, erasure = [1, 0, 1, 0, 1, 0, 0, 0, 7], [0, 1, 0, 1, 0, 0, 0, 0, 1, 7]
    if any(k >= 9 for k in named):
        show([13])
        show(defect)
        show(erasure)
        show([7] * 9)
        show([7] * 10)
        return
    for k in named:
        flip(defect, k)
    listing(defect, erasure)


def syndrome(named):
    if any(k >= 9 for k in named):
        show([113])
        show([7] * 9)
        return
    found = set()
    for k in named:
        found ^= {A[k]}
        found ^= {B[k]}
    found = sorted(v for v in found if BOUNDARY[v] == 0)
    show([len(found)])
    show(found + [7] * (9 - len(found)))


def door(order, extra=()):
    if any(u >= len(order) for u in list(order) + list(extra)):
        return 13
    return 14 if len(set(order)) < len(order) else 0


def numbers(order, named):
    number = door(order)
    show([number])
    new = {u: k for k, u in enumerate(order)}
    show([new[u] for u in range(len(order))] + [99] * (9 - len(order)) if number == 0 else [99] * 9)
    number = door(order, named)
    if number:
        show([100 + number])
        show([99] * 4)
    else:
        show([len(named)])
        show([new[u] for u in named] + [99] * (4 - len(named)))


def reorder(order):
    defect = [1, 0, 1, 0, 1, 0, 0, 0]
    lists = [[k for k in range(9) if v in (A[k], B[k])] for v in range(8)]
    flat = [k for one in lists for k in one]
    number = 11 if len(order) != 8 else door(order)
    show([number])
    scratch = [9] * 20
    a, b, boundary = A, B, BOUNDARY
    if number == 0:
        new = {u: k for k, u in enumerate(order)}
        a, b = [new[x] for x in A], [new[x] for x in B]
        boundary, defect = [boundary[u] for u in order], [defect[u] for u in order]
        scratch = flat + [9] * (20 - len(flat))
        lists = [lists[u] for u in order]
        flat = [k for one in lists for k in one]
    show(a)
    show(b)
    show(boundary)
    show(defect)
    show([len(one) for one in lists])
    show(flat + [7] * (20 - len(flat)))
    show(scratch)


for seed in (0, 1, 2, 42, 123456789, M, 1477776061723855037, 1 << 63):
    sample(seed)
errors([0, 8, 0, 3])
errors([0, 9])
syndrome([1, 1, 4, 5, 7])
syndrome([0, 9])
show([0])
show([0] * 8 + [1])
show([1] * 9 + [0])
ORDER = [3, 1, 7, 0, 2, 6, 5, 4]
numbers(ORDER, [7, 0, 4])
numbers([0, 1, 1], [0, 5])
numbers([0, 3, 3], [0, 5])
reorder(ORDER)
reorder([0, 1, 1])
