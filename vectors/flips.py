#!/usr/bin/env python3
"""Prints what the program test_flips must print: each byte flipped at an inner, a left and a right vertex, then errors and syndromes on an inner vertex (0) joined by
edge 0 to a virtual one (1), left and then right."""


def show(xs):
    print(''.join(f'{x} ' for x in xs))


def listing(defects):
    show(defects + [7] * (2 - len(defects)))


def errors(times, inner, virtual):
    if max(inner, virtual) > 1:
        show([7])
        show([inner, virtual])
        listing([7, 7])
        return
    inner = (inner + times) % 2
    defects = [v for v, byte in ((0, inner), (1, virtual)) if byte]
    show([0, len(defects), 0])
    show([inner, virtual])
    listing(defects)


def syndrome(times):
    defects = [0] if times % 2 else []
    show([len(defects)])
    listing(defects)


show([1] + [0] * 255)
show(range(256))
show(range(256))
for _ in ('left', 'right'):
    errors(1, 0, 0)
    errors(2, 0, 0)
    errors(1, 1, 0)
    errors(1, 0, 1)
    errors(1, 1, 1)
    errors(2, 1, 1)
    errors(1, 2, 0)
    syndrome(1)
    syndrome(2)
