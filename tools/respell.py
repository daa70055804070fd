#!/usr/bin/env python3
"""Brings the repository's own definitions, lemmas and record fields to snake case: words of a name are joined by '_'; a dash stays between two names of definitions.

usage: respell.py [--show] [FOLDER]

Run once, after port.py, at the top. Types, facts and modules keep their capitals; functions of src/, exported names, strings and outputs keep their names.
--show prints each name with its new spelling and what a new spelling falls together with, and writes nothing.
"""
import collections
import os
import re
import sys

W = r"[^\s(){}.;,@\"«»\[\]\\`]+"
# Definitions before which a lemma on them keeps its dash.
HEADS = {"length", "take", "drop", "append", "get_or", "set", "map", "sum", "all"}
# New spellings that would fall together with another name.
OTHER = {
    "diagonal-of": "diagonal_of_lem",
    "edge-room": "edge_room_holds",
    "entry-by": "entry_by_lem",
    "from-left": "from_left_holds",
    "graph-sound": "graph_sound_holds",
    "half-weight": "half_weight_holds",
    "is-sound": "is_sound_holds",
    "lists-long": "lists_long_lem",
    "long-enough": "long_enough_lem",
    "new-diagonal": "new_diagonal_holds",
    "new-number": "new_number_lem",
    "path-of": "path_of_lem",
    "planar-boundary": "planar_boundary_lem",
    "planar-height": "planar_height_lem",
    "positions-long": "positions_long_lem",
    "rotated-boundary": "rotated_boundary_lem",
    "rotated-height": "rotated_height_lem",
    "scratch-fits": "scratch_fits_holds",
    "scratch-long": "scratch_long_holds",
    "scratch-of": "scratch_of_lem",
    "some-above": "some_above_lem",
    "steps-after": "steps_after_holds",
    "three-long": "three_long_lem",
    "two-long": "two_long_lem",
    "vertex-of": "vertex_of_lem",
    "vertex-room": "vertex_room_holds",
    "vertices-after": "vertices_after_holds",
    "weighed-of": "weighed_of_lem",
    "weight-of": "weight_of_lem",
    "cutOff": "cut_off_at",
    "readBack": "read_back_of",
    "listAt": "neighbor_list_at",
}


def files(root, ends):
    for d, dd, fs in os.walk(os.path.join(root, "crates")):
        dd[:] = sorted(x for x in dd if x != "out")
        for f in sorted(fs):
            if f.endswith(ends):
                yield os.path.join(d, f)


def read(p):
    with open(p, encoding="utf-8") as f:
        return f.read()


def snake(name):
    if name[0].isupper():
        return re.sub(r"-(?=\w)", "-", name)
    s = re.sub(r"(?<=[a-z0-9₀-₉])([A-Z])(?=[a-z]|$|-|')", lambda m: "_" + m[1].lower(), name)
    s = re.sub(r"(?<=[a-z])([A-Z])(?![a-z])", lambda m: "_" + m[1].lower(), s)
    return s


DECL = re.compile(r"^((?:abbrev |unfoldable |pub |private |opaque |mutual )*)(record |data )?(" + W + r")((?: [^\n:=]*?)?) :(?=\s)([^\n]*)", re.M)
BODY = re.compile(r"^(?:pub |abbrev |unfoldable )*(?:record|data) [^\n]*where\n((?:[ \t]+[^\n]*\n|\n)*)", re.M)


def main(argv):
    show = "--show" in argv
    argv = [a for a in argv if a != "--show"]
    root = argv[0] if argv else "."
    defs, fields, specs = collections.OrderedDict(), set(), set()
    tokens = collections.Counter()
    for p in files(root, ".antt"):
        t = read(p)
        code = re.sub(r"--[^\n]*", "", t)
        for w in re.findall(W, code):
            tokens[w] += 1
        made = set()
        for m in DECL.finditer(t):
            if re.match(r"\s*(tie\.|goal\.)", m[5]) or "statement" in m[5]:
                made.add(m[3])
                continue
            if m[3] in ("--",):
                continue
            defs.setdefault(m[3], []).append(p)
            if "/specs/" in p:
                specs.add(m[3])
        for m in BODY.finditer(t):
            for line in m[1].split("\n"):
                k = re.match(r"\s+(?:\| )?(?:pub )?(" + W + r") :", line)
                if k:
                    fields.add(k[1])
    names = {}
    lows = {snake(n) for n in specs if "-" not in n and n[0].islower()} | HEADS
    for n in list(defs) + sorted(fields):
        if n in names or n[0].isupper() and "-" not in n:
            continue
        parts = [snake(x) for x in n.split("-")]
        new = parts[0]
        for x in parts[1:]:
            join = "-" if n in defs and "_".join(re.split("-", new)) in lows and x in lows else "_"
            if new[:1].isupper():
                join = "-" if re.fullmatch(r"[A-Z]\w*", new) else "_"
            new += join + x
        new = OTHER.get(n, new)
        if new != n:
            names[n] = new
    back = collections.defaultdict(set)
    for n, new in names.items():
        back[new].add(n)
    for new, olds in sorted(back.items()):
        also = [new] if new in tokens or new in defs else []
        if len(olds) > 1 or also:
            print("together:", new, sorted(olds), "stands already, %d times" % tokens[new] if also else "")
    if show:
        for n, new in names.items():
            print(n, new)
        return
    rx = re.compile(W)
    sub = lambda text: rx.sub(lambda m: names.get(m[0], m[0]), text)
    camel = {n: v for n, v in names.items() if "-" not in n}
    subc = lambda text: rx.sub(lambda m: camel.get(m[0], m[0]), text)
    spans = lambda text: re.sub(r"`([^`\n]*)`", lambda m: "`" + sub(m[1]) + "`", subc(text))

    def antt(t):
        out = []
        for line in t.split("\n"):
            k = re.search(r"(?<![^\s(){}.;,@\"«»])--", line)
            code, note = (line[: k.start()], line[k.start() :]) if k else (line, "")
            out.append(sub(code) + spans(note))
        return "\n".join(out)

    def rt(t):
        t = re.sub(r"ghost use [^;]*;", lambda m: sub(m[0]), t)
        out, i = [], 0
        for m in re.finditer(r"(?m)^\s*(?:requires|ensures)\*?(?: \w+)? \{", t):
            if m.start() < i:
                continue
            out.append(rtcode(t[i : m.end()]))
            depth, j = 1, m.end()
            while depth:
                depth += {"{": 1, "}": -1}.get(t[j], 0)
                j += 1
            out.append(sub(t[m.end() : j]))
            i = j
        return "".join(out) + rtcode(t[i:])

    def rtcode(t):
        return "\n".join(re.sub(r"//.*$", lambda m: spans(m[0]), line) for line in t.split("\n"))

    for p in files(root, ".antt"):
        t = read(p)
        n = antt(t)
        if n != t:
            with open(p, "w", encoding="utf-8") as f:
                f.write(n)
    for p in files(root, ".rt"):
        t = read(p)
        n = rt(t)
        if n != t:
            with open(p, "w", encoding="utf-8") as f:
                f.write(n)


if __name__ == "__main__":
    main(sys.argv[1:])
