"""Writes what crates/test_codes prints: the six codes of the Rust text example_codes.rs, `create_code`, made again in Python.

Usage: python3 vectors/codes.py > crates/test_codes/stdout"""
import struct

ROOT2 = struct.unpack('>d', bytes.fromhex('3ff6a09e667f3bcd'))[0]
MASK = (1 << 64) - 1


def planar_row(edges, bias, d):
    for i in range(d - 1):
        edges.append((bias + i, bias + i + 1))
    edges.append((bias, bias + d))


def create(kind, d, rounds):
    edges, positions, virtual = [], [], {}
    td = rounds + 1
    if kind == 1:
        planar_row(edges, 0, d)
        virtual[d - 1], virtual[d] = 2, 1
        positions = [(0., float(i), 0.) for i in range(d)] + [(0., -1., 0.)]
    elif kind in (2, 3, 4):
        w = (d - 1) + 2
        size = w * d
        for t in range(td):
            for row in range(d):
                bias = t * size + row * w
                planar_row(edges, bias, d)
                if row + 1 < d:
                    for i in range(d - 1):
                        edges.append((bias + i, bias + i + w))
            if t + 1 < td:
                for row in range(d):
                    bias = t * size + row * w
                    for i in range(d - 1):
                        edges.append((bias + i, bias + i + size))
                        if kind == 4:
                            for di, dj in ((0, 1), (1, 0), (1, 1)):
                                if row + di < d and i + dj < d - 1:
                                    edges.append((bias + i, t * size + (row + di) * w + size + i + dj))
        for t in range(td):
            for row in range(d):
                bias = t * size + row * w
                virtual[bias + d - 1], virtual[bias + d] = 2, 1
                shift, time = (0., 0.) if kind == 2 else (0.5, float(t))
                for i in range(d):
                    positions.append((float(row), float(i) if kind == 2 else float(i) + shift, time))
                positions.append((float(row), -1. if kind == 2 else -1. + shift, time))
    else:
        w = (d - 1) // 2 + 1
        size = w * (d + 1)
        for t in range(td):
            for row in range(d):
                bias = t * size + row * w
                for i in range(d):
                    if i % 2 == 0:
                        edges.append((bias + i // 2, bias + w + i // 2))
                    elif row % 2 == 0:
                        edges.append((bias + (i - 1) // 2, bias + w + (i + 1) // 2))
                    else:
                        edges.append((bias + (i + 1) // 2, bias + w + (i - 1) // 2))
            if t + 1 < td:
                for row in range(d + 1):
                    bias = t * size + row * w
                    for i in range(w):
                        edges.append((bias + i, bias + i + size))
        for t in range(td):
            for row in range(d + 1):
                bias = t * size + row * w
                if row % 2 == 0:
                    virtual[bias + w - 1] = 2
                else:
                    virtual[bias] = 1
                for i in range(w):
                    positions.append((float(row), float(i * 2 + (1 if row % 2 == 0 else 0)), 0. if kind == 5 else float(t) * ROOT2))
    lists = [[] for _ in positions]
    for k, (a, b) in enumerate(edges):
        lists[a].append(k)
        lists[b].append(k)
    return edges, positions, [virtual.get(v, 0) for v in range(len(positions))], lists


def mix(h, x):
    return ((h << 5) + (h >> 3) + x) & MASK


def bits(x):
    return struct.unpack('>Q', struct.pack('>d', x))[0]


def show(kind, d, rounds):
    edges, positions, bytes_, lists = create(kind, d, rounds)
    print(len(positions))
    print(len(edges))
    columns = [[a for a, _ in edges], [b for _, b in edges], bytes_, [len(l) for l in lists], [k for l in lists for k in l]]
    columns += [[bits(p[c]) for p in positions] for c in range(3)]
    for column in columns:
        h = 1
        for x in column:
            h = mix(h, x)
        print(h)


for case in ((1, 3, 0), (1, 4095, 0), (2, 3, 0), (2, 63, 0), (3, 3, 2), (3, 5, 40), (4, 3, 1), (4, 15, 16), (5, 3, 0), (5, 89, 0), (6, 3, 2), (6, 7, 100)):
    show(*case)
# refused: 2, 3, 4, 5, 6
for number in (2, 3, 4, 5, 6):
    print(number)
