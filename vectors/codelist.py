"""Usage: python3 vectors/codelist.py (at the repository's root): writes crates/test_codelist/stdin and crates/test_codelist/stdout.

stdin has inputs of `codelist`, each ended by the byte 7c. stdout has for each the first line of the text that document 01 wants, its number of bytes and a
checksum of them. Written from document 01; the codes are those of vectors/codes.py, the crossing is found by Dijkstra's algorithm over a heap."""
import heapq
import re
import struct

codes = {}
exec(open('vectors/codes.py').read().split('\n\nfor case in')[0], codes)
LN2 = struct.unpack('>d', bytes.fromhex('3fe62e42fefa39ef'))[0]
LINE = re.compile(rb'(0|[1-9][0-9]{0,8}),(0|[1-9][0-9]{0,8}),(0|[1-9][0-9]{0,8}),([0-9a-f]{16}),(0|[1-9][0-9]{0,8})\n\Z')


def weight(p):
    if p == 0:
        return float('inf')
    q, k = (1.0 - p) / p, 0
    while not q < 2.0:
        q, k = q / 2.0, k + 1
    s = (q - 1.0) / (q + 1.0)
    z, h = s * s, 1.0 / 35.0
    for n in range(16, -1, -1):
        h = h * z + 1.0 / float(2 * n + 1)
    return float(k) * LN2 + (2.0 * s) * h


def half_weight(most, w, largest):
    v = (float(most) * w) / largest
    n = 0 if v != v else most if v >= most else int(v) + 1
    while n > 0 and not v >= float(n) - 0.5:
        n -= 1
    return max(n, 1)


def accepted(p):
    return struct.pack('>d', p) == bytes(8) or 2.0 ** -40 <= p <= 0.5


def vertex_num(kind, d, rounds):
    return (rounds + 1) * (d + 1 if kind == 1 else d * (d + 1) if kind <= 4 else (d + 1) // 2 * (d + 1))


def crossing(edges, weights, marks):
    at = [[] for _ in marks]
    for (a, b), w in zip(edges, weights):
        at[a].append((b, w))
        at[b].append((a, w))
    least = [0 if m == 1 else None for m in marks]
    queue = [(0, v) for v, m in enumerate(marks) if m == 1]
    while queue:
        w, v = heapq.heappop(queue)
        if w > least[v]:
            continue
        for u, c in at[v]:
            if least[u] is None or w + c < least[u]:
                least[u] = w + c
                heapq.heappush(queue, (w + c, u))
    return min(least[v] for v, m in enumerate(marks) if m == 2)


def text(line):
    fields = LINE.match(line)
    if not fields:
        return 'r,1\n'
    kind, d, rounds, most = (int(fields[i]) for i in (1, 2, 3, 5))
    p = struct.unpack('>d', bytes.fromhex(fields[4].decode()))[0]
    if not 1 <= kind <= 6:
        return 'r,2\n'
    if not (d % 2 == 1 and 3 <= d <= 4095):
        return 'r,3\n'
    if not (rounds <= 4095 and (rounds == 0 or kind in (3, 4, 6))):
        return 'r,4\n'
    if vertex_num(kind, d, rounds) > 4096:
        return 'r,5\n'
    if vertex_num(kind, d, rounds) > 1024:
        return 'r,6\n'
    if not 1 <= most <= 250000:
        return 'r,8\n'
    if not (accepted(p) and (kind != 4 or accepted(p / 3.0))):
        return 'r,9\n'
    edges, positions, marks, _ = codes['create'](kind, d, rounds)
    ps = [p / 3.0 if kind == 4 and sum(abs(x - y) for x, y in zip(positions[a], positions[b])) > 1.0 else p for a, b in edges]
    ws = [weight(q) for q in ps]
    largest = 0.0
    for w in ws:
        largest = w if w > largest else largest
    if not largest > 0.0:
        return 'r,10\n'
    weights = [2 * half_weight(most, w, largest) for w in ws]
    out = [f'g,{kind},{d},{rounds},{len(marks)},{len(edges)}']
    out += [f'v,{v},{m}' for v, m in enumerate(marks)]
    out += [f'e,{k},{a},{b},{w}' for k, ((a, b), w) in enumerate(zip(edges, weights))]
    out.append(f'c,{crossing(edges, weights, marks)}')
    return '\n'.join(out) + '\n'


def bits(x):
    return struct.pack('>d', x).hex()


TENTH, EIGHTH, HALF = bits(0.1), bits(0.125), bits(0.5)
GOOD = f'1,3,0,{EIGHTH},500\n'
cases = [GOOD.encode()]
# each kind, small and at the limit of 1,024 vertices
for kind, d, rounds in ((1, 3, 0), (1, 1023, 0), (2, 3, 0), (2, 31, 0), (3, 3, 2), (3, 9, 10), (4, 3, 0), (4, 3, 1), (4, 5, 3), (4, 9, 10), (5, 3, 0), (5, 43, 0), (6, 3, 1), (6, 15, 7)):
    cases.append(f'{kind},{d},{rounds},{TENTH},500\n'.encode())
# other probabilities and largest half weights
for p in (EIGHTH, bits(0.0), bits(2.0 ** -40), bits(0.49), bits(3 * 2.0 ** -40)):
    for kind, d, rounds, most in ((2, 5, 0, 250000), (4, 3, 2, 1), (6, 5, 2, 501)):
        cases.append(f'{kind},{d},{rounds},{p},{most}\n'.encode())
# 2
for kind in (0, 7, 8, 4294967, 999999999):
    cases.append(f'{kind},3,0,{TENTH},500\n'.encode())
# 3
for d in (0, 1, 2, 4, 1024, 4096, 4097, 999999999):
    cases.append(f'2,{d},0,{TENTH},500\n'.encode())
# 4
for kind, rounds in ((1, 1), (2, 1), (5, 1), (3, 4096), (4, 4096), (6, 999999999)):
    cases.append(f'{kind},3,{rounds},{TENTH},500\n'.encode())
# 5, with limits on both sides
for kind, d, rounds in ((2, 63, 0), (2, 65, 0), (3, 3, 340), (3, 3, 341), (4, 3, 341), (5, 89, 0), (5, 91, 0), (6, 3, 511), (6, 3, 512), (6, 4095, 4095)):
    cases.append(f'{kind},{d},{rounds},{TENTH},500\n'.encode())
# 6: over 1,024 vertices
for kind, d, rounds in ((1, 1025, 0), (1, 4095, 0), (2, 33, 0), (3, 3, 84), (3, 3, 85), (4, 9, 11), (5, 45, 0), (6, 15, 8), (6, 3, 127), (6, 3, 128)):
    cases.append(f'{kind},{d},{rounds},{TENTH},500\n'.encode())
# 8
for most in (0, 1, 250000, 250001, 999999999):
    cases.append(f'1,5,0,{TENTH},{most}\n'.encode())
# 9, with limits on both sides; kind 4 reads p/3 too, with no rounds as well
for p in ('8000000000000000', '3d6fffffffffffff', '3d70000000000000', HALF, '3fe0000000000001', '7ff0000000000000', '7ff8000000000000', 'ffffffffffffffff', 'bfb999999999999a', '0000000000000001'):
    cases.append(f'3,3,1,{p},500\n'.encode())
for p, rounds in (('3d70000000000000', 0), ('3d70000000000000', 1), ('3d88000000000000', 1), ('3d87ffffffffffff', 1)):
    cases.append(f'4,3,{rounds},{p},500\n'.encode())
# 10
for kind, rounds in ((1, 0), (4, 0), (4, 1), (6, 1)):
    cases.append(f'{kind},3,{rounds},{HALF},500\n'.encode())
# the order of the questions
cases += [f'7,4,1,{HALF},0\n'.encode(), f'1,4,1,{HALF},0\n'.encode(), f'1,3,1,{HALF},0\n'.encode(), f'2,65,0,{HALF},0\n'.encode(), f'2,33,0,{HALF},0\n'.encode(),
          b'2,3,0,3ff0000000000000,0\n', b'2,3,0,3ff0000000000000,1\n', f'2,3,0,{HALF},1\n'.encode()]
# 1: damaged lines
line = GOOD.encode()
cases += [b'', b'\n', b',', b',,,,\n', line[:-1], line + b'\n', line + b' ', b' ' + line, line.replace(b'\n', b'\r\n'), line.replace(b',500', b', 500'), line.replace(b'3fc', b'3FC'),
          line.replace(b'3fc0', b'3fc'), line.replace(b'3fc0', b'3fc00'), line.replace(b'3fc0', b'3fcg'), line.replace(b'500', b'0500'), line.replace(b'500', b'+500'), line.replace(b'500', b'-500'),
          line.replace(b'500', b'1000000000'), line.replace(b'500', b'999999999'), line.replace(b'500', b''), line.replace(b'1,3', b'01,3'), line.replace(b'1,3', b'1,03'), line.replace(b'1,3', b'1,'),
          line.replace(b'1,3,0', b'1,3,00'), line.replace(b'1,3,0', b'1,3'), line.replace(b'1,3,0', b'1,3,0,0'), line.replace(b',', b';'), line.replace(b'500', b'5\x000'), line.replace(b'500', b'50\xff'),
          line + line, line.replace(b'1,3', b'/,3'), line.replace(b'1,3', b':,3'), line.replace(b'3fc0', b'3fc`'), line.replace(b'3fc0', b'3fc/'), line.replace(b'3fc0', b'3fc:'), line[1:], b'a' * 58, b'1' * 300,
          b'9' * 57, b'000000000,000000000,000000000,0000000000000000,000000000\n', b'999999999,999999999,999999999,ffffffffffffffff,999999999\n', b'\n' + line]
assert all(b'|' not in c for c in cases) and len(cases) >= 60
with open('crates/test_codelist/stdin', 'wb') as f:
    f.write(b''.join(c + b'|' for c in cases))
with open('crates/test_codelist/stdout', 'w') as f:
    for case in cases:
        t, h = text(case), 1
        for x in t.encode():
            h = codes['mix'](h, x)
        f.write(f'{t.split(chr(10))[0]} {len(t)} {h}\n')
    # a text column that is too short
    f.write('6\n')
print(len(cases), 'cases')
