#!/usr/bin/env python3
"""Turns the Proof.antt files of a crate, which close a Tie, into Invariants.antt and Answers.antt.

usage: turn_proofs.py CRATE NAMES [FUNCTION..]

CRATE is the crate's folder, NAMES the names.json that 'rt check --generated DIR --old-names' wrote for it. Each Proof.antt that cites `tie.spec` is turned;
a FUNCTION, as questions/all_below, turns that one alone. What could not be told is said in lines that begin 'look:'.
"""
import glob
import json
import os
import re
import sys

W = r"[^\s(){}.;,@\"«»\[\]\\`]+"
norm = lambda s: re.sub(r"^(overflow|nonzero)-(?=(add|sub|mul|shl|shr|cast|div|rem)-)", "", s.replace("_", "-"))


def read(p):
    with open(p, encoding="utf-8") as f:
        return f.read()


def clauses_of(root):
    """The names of the clauses of each function of the repository: its path, then its requires and its ensures."""
    out = {}
    for p in glob.glob(os.path.join(root, "crates", "*", "src", "**", "*.rt"), recursive=True):
        crate = p.split(os.sep + "src" + os.sep)[0].split(os.sep)[-1]
        mod = p.split(os.sep + "src" + os.sep)[1][:-3].split(os.sep)
        mod = [x for x in mod if x not in ("lib", "main", "mod")]
        t = re.sub(r"//[^\n]*", "", read(p))
        t = re.sub(r"\"(?:[^\"\\\n]|\\.)*\"", '""', t)
        stack, i, impl = [], 0, None
        for m in re.finditer(r"\bfn (\w+)", t):
            pre = t[: m.start()]
            k = None
            for im in re.finditer(r"(?m)^impl(?:<[^>]*>)? (?:\w+(?:<[^>]*>)? for )?(\w+)[^{]*\{", pre):
                depth = 0
                for ch in pre[im.end() - 1 :]:
                    depth += {"{": 1, "}": -1}.get(ch, 0)
                    if depth == 0:
                        break
                if depth:
                    k = im[1]
            j = m.end()
            depth = 0
            while True:
                ch = t[j]
                depth += {"(": 1, ")": -1}.get(ch, 0)
                j += 1
                if ch == ")" and depth == 0:
                    break
            req, ens = [], []
            rest = t[j:]
            pos = 0
            while True:
                c = re.compile(r"\s*(?:->[^{;]*?(?=\s*(?:requires|ensures|ghost|\{|;)))?\s*(requires|ensures|ghost)(\*?)(?: (\w+))?:? \{").match(rest, pos)
                if not c:
                    break
                e, d = c.end(), 1
                while d:
                    d += {"{": 1, "}": -1}.get(rest[e], 0)
                    e += 1
                {"requires": req, "ensures": ens}.get(c[1], []).append(c[3])
                pos = e
            name = "::".join([crate] + mod + ([k] if k else []) + [m[1]])
            out[name] = (req, ens)
    return out


def kit_clauses():
    out = {}
    kit = "/opt/rattle/rattle"
    for lib in ("core", "std", "std_alloc", "std_heap", "std_io", "std_collections", "io"):
        for p in glob.glob(os.path.join(kit, lib, "**", "*.rt"), recursive=True):
            if "/tests/" in p:
                continue
            t = re.sub(r"//[^\n]*", "", read(p))
            for m in re.finditer(r"\bfn (\w+)[^{;]*?(?=\s(?:requires|ensures)\b)", t):
                req, ens, pos = [], [], m.end()
                while True:
                    c = re.compile(r"\s*(requires|ensures|ghost)(\*?)(?: (\w+))?:? \{").match(t, pos)
                    if not c:
                        break
                    e, d = c.end(), 1
                    while d and e < len(t):
                        d += {"{": 1, "}": -1}.get(t[e], 0)
                        e += 1
                    if c[1] != "ghost":
                        (req if c[1] == "requires" else ens).append(c[3])
                    pos = e
                out.setdefault(m[1], []).append((req, ens))
    return {k: v[0] for k, v in out.items() if all(x == v[0] for x in v)}


def groups(text):
    """The declarations of a file: (comment lines, name, signature lines, other lines)."""
    out, note = [], []
    cur = None
    for line in text.split("\n"):
        if not line.strip():
            if note and note[-1] is not None:
                note.append("")
            continue
        if line.startswith("--"):
            note.append(line)
            continue
        if line[0].isspace():
            out[-1][3].append(line) if out[-1][3] else out[-1][2].append(line)
            continue
        m = re.match(r"(?:(?:abbrev|unfoldable|pub|private) )*(record |data |ruleset |module )?(" + W + r")(?:[^=]*?) :(?=\s|$)", line)
        if line.startswith("unfolding") or (out and re.match(re.escape(out[-1][1]) + r"(\s|$)", line)):
            out[-1][3].append(line)
        elif m:
            out.append([[x for x in note if x], m[2], [line], []])
            note = []
        else:
            out[-1][3].append(line)
    return out


def split_args(text):
    """The arguments of an application: identifiers or bracketed groups."""
    out, i, depth, cur = [], 0, 0, ""
    for ch in text:
        if ch in "([{":
            depth += 1
        if ch in ")]}":
            depth -= 1
            if depth < 0:
                break
        if ch.isspace() and depth == 0:
            if cur:
                out.append(cur)
            cur = ""
        else:
            cur += ch
    if cur:
        out.append(cur)
    return out


def split_tuple(text):
    text = text.strip()
    if not text.startswith("("):
        return None
    out, depth, cur = [], 0, ""
    for n, ch in enumerate(text):
        if ch in "([{":
            depth += 1
            if depth == 1:
                continue
        if ch in ")]}":
            depth -= 1
            if depth == 0:
                if text[n + 1 :].strip():
                    return None
                break
        if ch == "," and depth == 1:
            out.append(cur)
            cur = ""
        else:
            cur += ch
    if cur.strip():
        out.append(cur)
    return [x.strip() for x in out]


def subst(text, table):
    """Replaces whole words that do not stand behind a dot."""
    return re.sub(r"(?<![.\w'-])" + W, lambda m: table.get(m[0], m[0]), text)


KIT = kit_clauses()


class Function:
    def __init__(self, crate, folder, entry, clauses):
        self.crate, self.folder, self.entry, self.clauses, self.kit = crate, folder, entry, clauses, KIT
        self.path = os.path.join(crate, "proofs", folder)
        self.name = os.path.basename(os.path.abspath(crate))
        self.module = "Rattle.%s.proofs.%s" % (self.name, folder.replace("/", "."))
        self.own = clauses.get("::".join([self.name] + folder.split("/")), ([], []))
        self.said = []
        self.params = entry["params"]
        src = "".join(read(p) for p in glob.glob(os.path.join(crate, "src", "**", "*.rt"), recursive=True))
        self.rust = set(re.findall(r"\b[a-z]\w*", re.sub(r"//[^\n]*", "", src)))

    def look(self, text):
        self.said.append("look: %s/%s: %s" % (self.name, self.folder, text))

    def turn(self):
        text = read(os.path.join(self.path, "Proof.antt"))
        lines = text.split("\n")
        head, i = [], 0
        while i < len(lines) and (lines[i].startswith("--") or not lines[i].strip()):
            head.append(lines[i])
            i += 1
        uses, body, j = [], [], i
        while j < len(lines):
            if re.match(r"(pub )?use ", lines[j]):
                u = lines[j]
                while u.count("{") > u.count("}"):
                    j += 1
                    u += " " + lines[j].strip()
                uses.append(u)
            else:
                body.append(lines[j])
            j += 1
        decls = groups("\n".join(body))
        e = self.entry
        spec = [d for d in decls if any("tie.spec" in x for x in d[3])]
        if len(spec) != 1:
            self.look("no spec")
            return False
        st = " ".join(x.strip() for x in spec[0][3])
        args = split_args(st[st.index("tie.spec") + len("tie.spec") :])
        typed = {}
        for d in decls:
            sig = " ".join(x.strip() for x in d[2])
            m = re.search(r" : tie\.(Need|invariant|decreases)-?(" + W + r")?", sig)
            if m:
                typed[d[1]] = (m[1], m[2] or "")
        needs = [tuple(x) for x in e["needs"]]
        places = e["asked_at"]
        steps = {p[0]: p for p in e["places"]}

        def chain_of(place):
            out = []
            while place:
                p = steps.get(place)
                if not p:
                    break
                if p[2] and p[2][0]:
                    out.append((p[2][0], p[2][1], p[3]))
                place = p[1]
            return out

        # which answer is for which need
        order = [a for a in args if typed.get(a, ("",))[0] not in ("invariant", "decreases")]
        answer = {}
        byname = {}
        for n, (old, new) in enumerate(needs):
            byname.setdefault(norm(old), n)
        for a in order:
            if a in typed:
                n = byname.get(norm(typed[a][1]))
                if n is not None:
                    answer[n] = a
        if len(order) == len(needs):
            for n, a in enumerate(order):
                if n not in answer and a not in answer.values():
                    answer[n] = a
        else:
            # between two that are known, as many as are left
            pos = {a: k for k, a in enumerate(order)}
            known = sorted((n, pos[a]) for n, a in answer.items())
            for (n0, k0), (n1, k1) in zip([(-1, -1)] + known, known + [(len(needs), len(order))]):
                if n1 - n0 == k1 - k0:
                    for k in range(1, n1 - n0):
                        answer.setdefault(n0 + k, order[k0 + k])
        for a in order:
            if a in typed and a not in answer.values():
                self.look("no goal for %s : %s; goals: %s" % (a, typed[a][1], ", ".join(x[0] for x in needs)))
            if a not in typed and a not in answer.values() and not re.fullmatch(r"\(λ c( κs)?\. (tt|search rules|search needs)\)", a):
                self.look("no goal for " + a)
        bydecl = {d[1]: d for d in decls}
        context = {}
        for d in decls:
            sig = " ".join(x.strip() for x in d[2])
            if re.search(r"tie\.(Start|After|Then|Else|At|In)", sig) and d[1] not in typed:
                context[d[1]] = d
        allsteps = {}
        for p in e["places"]:
            if p[2] and p[2][0]:
                allsteps.setdefault(norm(p[2][0]), (p[2][1], p[3]))

        def names_for(chain):
            table = {}
            for old, new, callee in chain:
                table.setdefault(norm(old), (new, callee))
            return table

        rust = self.rust

        def clause(parts, at, fields):
            """A path into clauses that stood as pairs to the right: .0, .1.0, .1.1."""
            i, n = 0, len(fields)
            k = at
            while i < n - 1 and k < len(parts) and parts[k] == "1":
                i, k = i + 1, k + 1
            if i < n - 1:
                if k >= len(parts):
                    return parts if k == at else parts[:at] + [["%s" % f for f in fields[i:]]]
                if parts[k] != "0":
                    return None
                k += 1
            return parts[:at] + [fields[i] or "?"] + parts[k:]

        def resolve(parts, table):
            """The new path for an old one, below the record of a goal."""
            parts = list(parts)
            while parts and parts[0] == "before":
                parts.pop(0)
            if not parts:
                return parts
            fields, at = None, 0
            parts = [re.sub("[-_](lem|holds)$", "", x) if x not in rust and re.sub("[-_](lem|holds)$", "", x) in rust else x for x in parts]
            parts = [{"List-set_of_Decides": "list-set", "IsEdge-count": "edge-count"}.get(x, x) for x in parts]
            parts = [{"well-formed": "well_formed", "type-inv": "type_inv"}.get(x, x) for x in parts]
            if norm(parts[0]) not in table and norm(re.sub("[-_](lem|holds)$", "", parts[0])) in table:
                parts[0] = re.sub("[-_](lem|holds)$", "", parts[0])
            if norm(parts[0]) not in table and parts[0] in ("args", "requires", "ranges", "lifetimes", "type_inv", "auto", "fn", "new", "initial", "well_formed", "utf8"):
                if parts[0] == "requires":
                    fields, at = self.own[0], 1
                if len(parts) > 1:
                    parts[1] = parts[1] if parts[0] == "requires" else parts[1].replace("-", "_")
            else:
                k = norm(parts[0])
                new = table.get(k) or allsteps.get(k)
                if new is None:
                    self.look("no step %s (%s)" % (parts[0], ", ".join(x + "=" + y[0] for x, y in table.items())))
                else:
                    parts[0] = new[0]
                    if len(parts) > 1 and parts[1] in ("ensures", "requires"):
                        known = self.clauses.get(new[1]) or self.kit.get((new[1] or parts[0]).split("::")[-1]) or self.kit.get(norm(parts[0]).replace("-", "_"))
                        if known:
                            fields, at = known[1 if parts[1] == "ensures" else 0], 2
                    if len(parts) > 2 and parts[1] in ("new", "auto") and parts[2] in ("0", "1"):
                        k = 2
                        while k < len(parts) and parts[k] == "1":
                            k += 1
                        ps = self.params.get(new[1]) or []
                        if k - 2 < len(ps) and (k == len(parts) or parts[k] == "0"):
                            parts = parts[:2] + [ps[k - 2]] + parts[k + 1 :]
                        else:
                            self.look("a place among " + ".".join(parts) + " " + " ".join(ps))
                    for j in range(1, len(parts)):
                        if parts[j].replace("-", "_") in rust:
                            parts[j] = parts[j].replace("-", "_")
            if fields and len(fields) == 1 and fields[0] and len(parts) >= at:
                parts[at:at] = [fields[0]]
            if fields and len(fields) > 1 and len(parts) > at:
                got = clause(parts, at, fields)
                if got is None:
                    self.look("a part of several clauses: " + ".".join(map(str, parts)))
                else:
                    parts = got
            return parts

        def rename(text, table, var):
            """Every path below var, or below a name that a let gives to such a path."""
            alias = {var: []}
            while True:
                more = False
                for m in re.finditer(r"(?:let|in) (" + W + r")(?: : tie\.[^=]*)? = (" + W + r")((?:\." + W + r")*)(?=\s+in\s)", text):
                    if m[2] in alias and m[1] not in alias:
                        alias[m[1]] = alias[m[2]] + [x for x in m[3].split(".") if x]
                        more = True
                if not more:
                    break

            def one(m):
                v, rest = m[1], [x for x in m[2].split(".") if x]
                full = resolve(alias[v] + rest, table)
                base = resolve(alias[v], table) if alias[v] else []
                head = [var]
                if full[: len(base)] == base:
                    head, full = [v], full[len(base) :]
                if full and isinstance(full[-1], list):
                    rest = [".".join(head + full[:-1] + [f]) for f in full[-1]]
                    out = rest.pop()
                    while rest:
                        out = "(%s, %s)" % (rest.pop(), out)
                    return out
                return ".".join(head + full)

            vs = "|".join(re.escape(v) for v in sorted(alias, key=len, reverse=True))
            return re.sub(r"(?<![.\w'-])(" + vs + r")((?:\." + W + r")+)", one, text)

        def parts_of(sig):
            """The binders of a signature: (names, type), and what is behind the last."""
            out, depth, cur = [], 0, ""
            k = 0
            while k < len(sig):
                ch = sig[k]
                depth += {"(": 1, "{": 1, "[": 1, ")": -1, "}": -1, "]": -1}.get(ch, 0)
                if ch == "→" and depth == 0:
                    out.append(cur.strip())
                    cur = ""
                else:
                    cur += ch
                k += 1
            binders = []
            for b in out:
                groups_ = re.findall(r"\(([^():]+) : ((?:[^()]|\((?:[^()]|\([^()]*\))*\))*)\)", b)
                whole = re.fullmatch(r"(?:\([^():]+ : (?:[^()]|\((?:[^()]|\([^()]*\))*\))*\)\s*)+", b)
                if whole:
                    for names_, t in groups_:
                        for x in names_.split():
                            binders.append((x, t))
                else:
                    binders.append((None, b))
            return binders, cur.strip()

        def inline(text, depth=0):
            """Writes out what takes a record of the old form."""
            if depth > 12:
                return text
            for name, d in context.items():
                rx = re.compile(r"(?<![.\w'-])" + re.escape(name) + r"(?=[\s)])(?! =)")
                while True:
                    m = rx.search(text)
                    if not m:
                        break
                    rest = text[m.end() :]
                    sig = " ".join(x.strip() for x in d[2])
                    lines = [x for x in d[3] if not x.startswith("unfolding")]
                    one = " ".join(x.strip() for x in lines)
                    df = re.match(re.escape(name) + r"((?: (?!=)" + W + r")*) = (.*)$", one, re.S)
                    ty = re.match(r"(?:(?:abbrev|pub|unfoldable) )*" + re.escape(name) + r" : (.*)$", sig)
                    if not df or not ty:
                        self.look("cannot write out " + name)
                        return text
                    params = df[1].split()
                    binders, result = parts_of(ty[1])
                    args_, at = [], 0
                    for _ in params:
                        b = at
                        while b < len(rest) and rest[b].isspace():
                            b += 1
                        if b >= len(rest) or rest[b] in "=)":
                            break
                        e_ = b
                        if rest[b] == "(":
                            d_ = 0
                            while True:
                                d_ += {"(": 1, ")": -1}.get(rest[e_], 0)
                                e_ += 1
                                if d_ == 0:
                                    break
                            k = re.match(r"(?:\.[\w'-]+)*", rest[e_:])
                            e_ += k.end()
                        else:
                            k = re.match(W + r"(?:\." + W + r")*", rest[b:])
                            if not k:
                                break
                            e_ = b + k.end()
                        args_.append(re.sub(r"^\((" + W + r"(?:\." + W + r")*)\)$", r"\1", rest[b:e_]))
                        at = e_
                    if len(args_) != len(params) or len(binders) < len(params):
                        self.look("cannot write out " + name)
                        return text
                    table_ = dict(zip(params, args_))
                    typed_ = {b[0]: a for b, a in zip(binders, args_) if b[0]}
                    put = lambda s, tb: re.sub(r"(?<![.\w'-])(" + "|".join(re.escape(v) for v in sorted(tb, key=len, reverse=True)) + r")(?![\w'-])", lambda q: tb[q[1]], s) if tb else s
                    self.opened |= {w for x in d[3] if x.startswith("unfolding") for w in x.split()[1:]}
                    left_ = "".join((" (%s : %s) →" % b if b[0] else " %s →" % b[1]) for b in binders[len(params) :])
                    got = inline(put(df[2], table_), depth + 1)
                    typ = inline(put((left_ + " " + result).strip(), typed_), depth + 1)
                    plain_type = re.fullmatch(r"[\w'. -]+", typ) and len(typ.split()) == 1 or True
                    text = text[: m.start()] + "(let it : " + typ + " = " + got + " in it)" + rest[at:]
            return text

        answers, used = [], set()
        for n in sorted(answer):
            a = answer[n]
            old, new = needs[n]
            chain = chain_of(places[n][0]) if n < len(places) else []
            table = names_for(chain)
            self.opened = set()
            note, extra = [], []
            if a in bydecl:
                d = bydecl[a]
                used.add(a)
                note = d[0]
                extra = [x for x in d[3] if x.startswith("unfolding")]
                lines = [x for x in d[3] if not x.startswith("unfolding")]
                src = "\n".join(lines)
                m = re.match(re.escape(a) + r"((?: (?!=)" + W + r")*) =(.*)$", src, re.S)
                if not m:
                    self.look("cannot read " + a)
                    continue
                params, bodytext = m[1].split(), m[2]
            else:
                m = re.match(r"\(λ ((?:" + W + r" ?)+)\. (.*)\)$", a, re.S)
                if m:
                    params, bodytext = m[1].split(), " " + m[2]
                elif re.fullmatch(W, a):
                    params, bodytext = ["c"], " " + a + " c"
                    used.discard(a)
                else:
                    self.look("cannot read the answer " + a)
                    continue
            if len(params) > 1:
                for p in params[1:]:
                    if re.search(r"(?<![.\w'-])" + re.escape(p) + r"(?![\w'-])", bodytext):
                        self.look("%s uses %s" % (new, p))
                params = params[:1]
            var = params[0] if params else "c"
            bare = bodytext.strip()
            if bare in ("tt", "search rules", "search needs", "omega arith"):
                continue
            bodytext = inline(bodytext)
            bodytext = re.sub(r"(let (?:" + W + r")) : tie\.(?:Start|After|Then|Else|At|In)[^=\n]* = ", r"\1 = ", bodytext)
            bodytext = rename(bodytext, table, var)
            # a test of !x says now what x is
            bodytext = re.sub(r"\(not-(?:true|false) \S+ ([\w.'-]*if-not-[\w.'-]+\.(?:true|false))\)", r"\1", bodytext)
            bodytext = re.sub(r"not-(?:true|false) \S+ ([\w.'-]*if-not-[\w.'-]+\.(?:true|false))", r"\1", bodytext)
            # a record behind an alias of a step
            fields = None
            if old.startswith("returns"):
                fields = self.own[1]
            elif old.endswith("requires") or re.search(r"requires-\d+$", old):
                callee = [c for o, nn, c in [(p[2][0], p[2][1], p[3]) for p in e["places"] if p[2]] if c and norm(c.split("::")[-1]) == norm(re.sub(r"-requires(-\d+)?$", "", old))]
                if callee:
                    fields = (self.clauses.get(callee[0]) or self.kit.get(callee[0].split("::")[-1]) or ([], []))[0]
            if fields and len(fields) > 1:
                pre, core = "", bodytext.strip()
                k = len(core) - 1
                if core.endswith(")"):
                    d = 0
                    while k >= 0:
                        d += {")": 1, "(": -1}.get(core[k], 0)
                        if d == 0:
                            break
                        k -= 1
                    pre, core = core[:k], core[k:]
                t, left = [], core
                for k in range(len(fields)):
                    if k == len(fields) - 1:
                        t.append(left)
                        break
                    u = split_tuple(left)
                    if not u or len(u) < 2:
                        t = None
                        break
                    t.append(u[0])
                    left = u[1] if len(u) == 2 else "(" + ", ".join(u[1:]) + ")"
                if not t and not pre.strip():
                    lets = re.match(r"(?s)((?:let (?:(?!\blet\b).)*? in\s+)*)(.*)$", core)
                    if lets and not re.search(r"\bin\s", lets[2]):
                        pre, core = lets[1], lets[2].strip()
                if not t and re.match(r"[a-z][\w'-]* ", core) and (not pre.strip() or pre.strip().endswith(" in")) and core.split()[0] not in ("let", "rw", "simp", "omega", "grind", "search", "record", "elim", "cc", "absurd", "subst"):
                    path = lambda k: ".1" * k + (".0" if k < len(fields) - 1 else "")
                    bodytext = " " + pre + "let both = " + core + " in record { " + "; ".join("%s = both%s" % (f, path(k)) for k, f in enumerate(fields)) + " }"
                if t and (not pre.strip() or re.search(r"(\bin|(rw|simp) .*)$", pre.strip().split("\n")[-1].strip())):
                    bodytext = " " + pre + "record { " + "; ".join("%s = %s" % (f, x) for f, x in zip(fields, t)) + " }"
            words_ = ({w for x in extra for w in x.split()[1:]} | self.opened) - set(context)
            extra = ["unfolding " + " ".join(sorted(words_))] if words_ else []
            answers.append((new, note, extra, var, bodytext))
        # answers that other answers cite
        given_name = {answer[n]: needs[n][1] for n in answer if answer[n] in bydecl}
        answers = [(new, note, extra, var, subst(b, {k: v for k, v in given_name.items() if v != new})) for new, note, extra, var, b in answers]
        names = {x[0] for x in answers}
        done, left = [], list(answers)
        while left:
            for x in left:
                cited = {w for w in re.findall(r"(?<![.\w'-])" + W, x[4])} & names - {x[0]}
                if cited <= {y[0] for y in done}:
                    break
            else:
                x = left[0]
            done.append(x)
            left.remove(x)
        answers = done
        # invariants and measures
        given, gone = [], set()
        for d in decls:
            kind, loop = typed.get(d[1], ("", ""))
            if kind not in ("invariant", "decreases"):
                continue
            gone.add(d[1])
            found = [(k, v) for k, v in enumerate(e["loops"]) if norm(v[0][0]) == norm(loop)]
            if not found and len(e["loops"]) == 1:
                found = [(0, e["loops"][0])]
            if not found:
                self.look("no loop %s among %s" % (loop, [v[0] for v in e["loops"]]))
                continue
            k, ((_, newloop), variables) = found[0]
            changed = e["changed"][k]
            src = "\n".join(x for x in d[3] if not x.startswith("unfolding"))
            m = re.match(re.escape(d[1]) + r"((?: (?!=)" + W + r")*) =(.*)$", src, re.S)
            if not m:
                self.look("cannot read " + d[1])
                continue
            names = m[1].split()
            want = [("l.initial." if c else "l.") + v for v, c in zip(variables, changed)] + ["l." + v for v, c in zip(variables, changed) if c]
            if len(names) != len(want):
                self.look("%s has %d variables, %s wants %d: %s" % (d[1], len(names), newloop, len(want), " ".join(want)))
            table = dict(zip(names, want))
            table.pop("_", None)
            bound = set(re.findall(r"\((" + W + r") :", m[2])) | {x for y in re.findall(r"λ ([^.]*)\.", m[2]) for x in y.split()}
            for x in bound & set(table):
                self.look("%s binds %s" % (d[1], x))
                table.pop(x)
            given.append(("%s-%s" % (kind, newloop), d[0], [x for x in d[3] if x.startswith("unfolding")], subst(m[2], table)))
        helpers = [d for d in decls if d[1] not in typed and d is not spec[0] and d[1] not in context]
        helpers = [d for d in helpers if d[1] not in answer.values() or True]
        # helpers that the invariants need
        words = lambda t: set(re.findall(W, t))
        low, todo = set(), words(" ".join(x[3] for x in given))
        while True:
            more = {d[1] for d in helpers if d[1] in todo} - low
            if not more:
                break
            low |= more
            for d in helpers:
                if d[1] in more:
                    todo |= words("\n".join(d[2] + d[3]))
        uses = [u for u in uses if ".Statement" not in u and not re.search(r"\.Tie as tie", u)]

        def write(file, parts, module):
            text = "\n\n".join(parts)
            ws = words(re.sub(r"--[^\n]*", "", text))
            keep = []
            for u in uses:
                m = re.match(r"((?:pub )?use \S+)\.\{(.*)\}\s*$", u)
                if m:
                    got = [x.strip() for x in m[2].split(",")]
                    got = [x for x in got if x == "[]" and "[]" in text or x.split(" as ")[-1].strip("«»") in ws or "◌" in x and any(y in ws for y in x.split(" as ")[-1].replace("◌", " ").split())]
                    if got:
                        keep.append("%s.{%s}" % (m[1], ", ".join(got)))
                else:
                    m = re.match(r"use (\S+)(?: as (\S+))?", u)
                    last = m[2] or m[1].split(".")[-1]
                    if last in ws:
                        keep.append(u)
            if "Invariants" not in file and low & ws:
                keep.append("use %s.Invariants.{%s}" % (self.module, ", ".join(sorted(low & ws))))
            keep.append("use %s.%s as goal" % (self.module, module))
            if "tie." in text:
                self.look("tie stands in " + file)
            with open(os.path.join(self.path, file), "w", encoding="utf-8") as f:
                f.write("\n".join(x for x in head if x.strip()) + "\n" + "\n".join(keep) + "\n\n" + text + "\n")

        parts = []
        for d in helpers:
            if d[1] in low:
                first = d[2][0]
                first = first if re.match(r"(\w+ )*pub ", first) else re.sub(r"^((?:abbrev |unfoldable )*)", r"\1pub ", first)
                parts.append("\n".join(d[0] + [first] + d[2][1:] + d[3]))
        for name, note, extra, bodytext in given:
            parts.append("\n".join(note + ["abbrev pub %s : goal.%s" % (name, name)] + extra + ["%s l =%s" % (name, bodytext)]))
        if parts:
            write("Invariants.antt", parts, "Given")
        parts = []
        atext = "\n".join(x[4] for x in answers)
        live, todo = set(), words(atext)
        while True:
            more = {d[1] for d in helpers if d[1] in todo} - live
            if not more:
                break
            live |= more
            for d in helpers:
                if d[1] in more:
                    todo |= words("\n".join(d[2] + d[3]))
        for d in helpers:
            if d[1] not in low and d[1] in live:
                parts.append("\n".join(d[0] + d[2] + d[3]))
            elif d[1] not in low and "pub" in d[2][0].split(" : ")[0].split():
                self.look("helper %s is public" % d[1])
                parts.append("\n".join(d[0] + d[2] + d[3]))
        for new, note, extra, var, bodytext in answers:
            parts.append("\n".join(note + ["pub %s : goal.%s" % (new, new)] + extra + ["%s %s =%s" % (new, var, bodytext)]))
        if parts:
            write("Answers.antt", parts, "Goals")
        os.remove(os.path.join(self.path, "Proof.antt"))
        if not os.listdir(self.path):
            os.rmdir(self.path)
        return True


def main(argv):
    crate, names = argv[0].rstrip("/"), json.load(open(argv[1], encoding="utf-8"))
    only = set(argv[2:])
    root = os.path.dirname(os.path.dirname(os.path.abspath(crate)))
    clauses = clauses_of(root)
    name = os.path.basename(os.path.abspath(crate))
    for p in sorted(glob.glob(os.path.join(crate, "proofs", "**", "Proof.antt"), recursive=True)):
        folder = os.path.relpath(os.path.dirname(p), os.path.join(crate, "proofs"))
        if only and folder not in only:
            continue
        key = "Rattle-%s-proofs.%s.Lts" % (name, folder.replace("/", "."))
        if key not in names:
            print("look: %s: no names (%s)" % (folder, key))
            continue
        if "tie.spec" not in read(p):
            print("look: %s: no tie" % folder)
            continue
        f = Function(crate, folder, names[key], clauses)
        try:
            f.turn()
        except Exception as ex:
            import traceback
            print("look: %s failed: %r" % (folder, ex))
            traceback.print_exc()
        for s in f.said:
            print(s)


if __name__ == "__main__":
    main(sys.argv[1:])
