#!/usr/bin/env python3
"""Turns the Proof.antt files of an older Rattle's crate, which answer `tie.Need-..`, into Invariants.antt and Answers.antt.

usage: convert.py CRATE OLD NAMES [FUNCTION..]
CRATE: the crate's folder, after port.py (and the renaming of names). OLD: the same folder before port.py. NAMES: names.json of
`rt check --generated DIR --old-names`. Functions that call one another (folders '+..') are left alone.
"""
import json, os, re, sys, collections

norm = lambda s: s.replace("_", "-").replace("′", "'")
W = r"[^\s(){}\[\],;@\"«».]"
DECL = re.compile(r"^(?:(?:abbrev|pub|unfoldable) )*([^\s(){}.;,@\"«»]+)(?: \{[^{}\n]*\})* :(?= |$)")
TIE = "tie"


def blocks(text):
    """The file in parts: ('use', text), ('decl', name, text), ('comment', text)."""
    parts, cur = [], None
    lines = text.split("\n")
    for l in lines:
        if l.startswith("use ") or l.startswith("pub use "):
            cur = ["use", None, [l]]; parts.append(cur)
        elif l.startswith("--"):
            if cur and cur[0] == "comment": cur[2].append(l)
            else: cur = ["comment", None, [l]]; parts.append(cur)
        elif (m := DECL.match(l)) and not l.startswith(" "):
            cur = ["decl", m[1], [l]]; parts.append(cur)
        elif l.startswith(("module ", "pub record", "record", "data", "pub data", "mod ", "pub mod ", "ruleset", "mutual", "infix")):
            cur = ["other", None, [l]]; parts.append(cur)
        elif not l.strip():
            if cur and cur[0] in ("comment",): cur = None
            elif cur: cur[2].append(l)
        else:
            if cur is None: cur = ["other", None, []]; parts.append(cur)
            cur[2].append(l)
    for p in parts:
        while p[2] and not p[2][-1].strip(): p[2].pop()
    return parts


class Function:
    def __init__(self, entry):
        self.e = entry
        self.places = {}
        self.new = {}
        for i, p in enumerate(entry["places"]):
            name, parent, (old, new), callee = p[0], p[1], p[2], p[3]
            self.places[norm(name)] = (norm(parent) if parent else None, norm(old), new, i)
            self.new[norm(name)] = entry["places_by_name"][i]
        self.needs = {norm(a): (b, k) for k, (a, b) in enumerate(entry["needs"])}
        self.asked = [norm(a[0]) for a in entry["asked_at"]]
        self.arms = entry["arms"]
        self.cycle = False
        self.lemmas = {}
        self.loops = entry["loops"]
        self.changed = entry["changed"]

    def up(self, place):
        return self.places[place][0]

    def merged(self, place):
        """Whether the place and the one before it are shown as one arm."""
        parent = self.up(place)
        if parent is None: return False
        a, b = self.arms[self.places[place][3]], self.arms[self.places[parent][3]]
        return bool(a and b and a[0] == b[0] and a[1] > 1)

    def named(self, i, comps):
        """The parts of a path behind a call's step: what the call left in its arguments goes by the parameters' names."""
        callee = self.e["places"][i][3]
        ps = self.e["params"].get(callee) if callee else None
        if ps and comps and comps[0] in ("new", "auto"):
            k = 1
            while k < len(comps) and comps[k] == "1": k += 1
            if k < len(comps) and comps[k] == "0" and k - 1 < len(ps): return [comps[0], ps[k - 1]] + comps[k + 1:]
        return comps

    def step(self, place, name, comps):
        """What stands for the step called `name`, with the parts of the path behind it, at `place` or above it."""
        p, n = place, norm(name)
        while p is not None:
            parent, old, new, i = self.places[p]
            arm = self.arms[i]
            if arm:
                for field, step, path in arm[2]:
                    if norm(step) == n and [norm(x) for x in comps[: len(path)]] == [norm(str(x)) for x in path]:
                        return [arm[0], field] + comps[len(path):]
            if old == n and not (arm and arm[1] > 1): return [new] + self.named(i, comps)
            p = parent
        p = place
        while p is not None:
            parent, old, new, i = self.places[p]
            if old == n: return [new] + self.named(i, comps)
            p = parent
        return None


def split_path(s):
    return [x for x in s.split(".") if x != ""]


FIXED = {"args", "requires", "lifetimes", "ranges", "well-formed", "well_formed", "type-inv", "type_inv", "utf8", "ghost"}
said = []


def convert_body(f, text, scope, where, goal_=False):
    """Paths in text, whose variables of `scope` stand at places."""
    scope = dict(scope)
    out, pos = [], 0
    token = re.compile(r"--[^\n]*|\"(?:[^\"\\]|\\.)*\"|\blet ([^\s:=(]+) = |\)((?:\.[^\s(){}\[\],;.]+)+)|(?<![^\s(){}\[\],;])([^\s(){}\[\],;.\"]+)((?:\.[^\s(){}\[\],;.]+)*)")
    prev = None
    goalname = where.split(": ")[-1] if goal_ else None
    def path(var, comps, place):
        n, p = 0, place
        comps = [{"well-formed": "well_formed", "type-inv": "type_inv"}.get(x, x) for x in comps]
        while comps and comps[0] == "before":
            comps = comps[1:]
            if not (p and f.merged(p)): n += 1
            p = f.up(p) if p else None
        if not comps:
            target = f.lemmas.get(prev)
            if target and goalname and where.split(": ")[-1] == goalname and target != place:
                return f"(goal.at.{goalname} {var}).{f.new[target]}", target
            if target and target != p:
                q, k = place, 0
                while q is not None and q != target:
                    if not f.merged(q): k += 1
                    q = f.up(q)
                if q == target: n, p = k, q
            return var + ".before" * n, p
        x = comps[0]
        if f.cycle and x == "requires" and comps[1:2] == ["1"]: comps = ["requires"] + comps[2:]
        if norm(x) in {norm(y) for y in FIXED}:
            comps = [{"well-formed": "well_formed", "type-inv": "type_inv"}.get(x, x)] + comps[1:]
            return ".".join([var] + comps), None
        new = f.step(p, x, comps[1:]) if p else None
        if new is None: new = f.step(place, x, comps[1:])
        if new is None:
            said.append(f"{where}: no step {x} at {place} for {var}.{'.'.join(comps)}")
            return ".".join([var] + ["before"] * n + comps), None
        return ".".join([var] + new), None
    i = 0
    pend = None
    for m in token.finditer(text):
        out.append(text[pos:m.start()]); pos = m.end()
        if m[0].startswith(("--", '"')) or m[2] is not None:
            out.append(m[0]); continue
        if m[1]:
            out.append(m[0]); pend = m[1]; continue
        var, comps = m[3], split_path(m[4])
        if var not in scope and not comps: prev = var
        if var in scope:
            new, place = path(var, comps, scope[var])
            if pend and place is not None and re.match(r"\s+in\b", text[pos:]):
                scope[pend] = place
            elif pend: scope.pop(pend, None)
            out.append(new)
        else:
            if pend: scope.pop(pend, None)
            out.append(m[0])
        pend = None
    out.append(text[pos:])
    t = "".join(out)
    # the test of `!x` says what that of `x` says
    return re.sub(r"\(?not[-_](?:true|false) (?:_|\(\S+\)) (\S*\bif-not-[^\s().]+\.(?:true|false))(\)?)", lambda m: m[1] + (m[2] if not m[0].startswith("(") else ""), t)


def convert(folder, old_text, new_text, entry, fq):
    f = Function(entry)
    olds = [b for b in blocks(old_text) if b[0] == "decl"]
    parts = blocks(new_text)
    news = [b for b in parts if b[0] == "decl"]
    if len(olds) != len(news): said.append(f"{folder}: {len(olds)} declarations before, {len(news)} now"); return None
    inv, ans, uses, head, places_used = [], [], [], [], set()
    renamed = {}
    k = -1
    spec_text = ""
    started = False
    pending = []
    has_inv_args = None
    lemma_names = set()
    for b in parts:
        text = "\n".join(b[2])
        if b[0] == "use":
            started = True
            if re.search(r"\.(Statement\.\{statement\}|Tie as \S+)$", text.strip()): continue
            uses.append(text); continue
        if b[0] == "comment":
            if not started: head.append(text)
            else: pending.append(text)
            continue
        if b[0] == "other": pending.append(text); continue
        k += 1
        oname, name = olds[k][1], b[1]
        osig = " ".join(olds[k][2])
        if re.search(r": \{M : Type 1\} → ", osig.replace("  ", " ")) and name.endswith(("spec", "-spec", "_spec")):
            spec_text = text
            continue
        m = re.search(r": *tie\.(InvT|MeasureT|Need|ListedT|ChoiceT|\w+)-?(\S*)", osig)
        sig_end = re.search(r"(?m)^" + re.escape(name) + r"(?=[ \n])", text[len(name):])
        # the text in lines: signature, optional unfolding line, clauses
        lines = b[2]
        j = 1
        while j < len(lines) and (lines[j].startswith(" ") or not lines[j].strip()): j += 1
        unf = ""
        if j < len(lines) and lines[j].startswith("unfolding "):
            unf = lines[j]; j += 1
            while j < len(lines) and lines[j].startswith(" "): unf += "\n" + lines[j]; j += 1
        clauses = "\n".join(lines[j:])
        cl = re.match(re.escape(name) + r"((?: [^\n=]*?)?) =(?=\s)", clauses)
        here = ("\n".join(pending) + "\n") if pending else ""
        pending = []
        if m and m[1] in ("InvT", "MeasureT"):
            loop = norm(m[2])
            at = next((i for i, L in enumerate(f.loops) if norm(L[0][0]) == loop), None)
            if at is None: said.append(f"{folder}: no loop {loop}"); continue
            L = f.loops[at]
            new = ("invariant-" if m[1] == "InvT" else "decreases-") + L[0][1]
            ch = f.changed[at]
            vs = L[1]
            subs = ["l." + (("initial." + v) if c else v) for v, c in zip(vs, ch)] + ["l." + v for v, c in zip(vs, ch) if c]
            ps = cl[1].split() if cl else []
            if len(ps) != len(subs):
                said.append(f"{folder}: {name} has {len(ps)} parameters, {len(subs)} expected: {subs}"); continue
            body = clauses[cl.end():]
            mp = dict(zip(ps, subs))
            body = re.sub(r"(?<![^\s(){}\[\],;.])([^\s(){}\[\],;.\"]+)", lambda w: mp.get(w[1], w[1]) if (w.start() == 0 or body[w.start()-1] != ".") else w[1], body)
            inv.append(f"{here}abbrev pub {new} : goal.{new}\n" + (unf + "\n" if unf else "") + f"{new} l ={body}")
            renamed[name] = new
            continue
        if m and m[1] == "Need":
            key = norm(m[2])
            if key not in f.needs:
                for a, b_ in (("holds", "init"), ("less", "smaller"), ("again", "preserved")):
                    key2 = re.sub(rf"-{a}(?=$|-)", f"-{b_}", key)
                    if key2 in f.needs: key = key2
            if key not in f.needs:
                if any(norm(s) == key for s in entry["settled"]): continue
                said.append(f"{folder}: no goal for {m[2]}"); continue
            new, idx = f.needs[key]
            place = f.asked[idx]
            ps = cl[1].split() if cl else []
            if new.endswith("-requires") or "-requires-" in new: ps = ps[:1]
            elif len(ps) > 1 and ps[1] == "κs": ps = ps[:1]
            if not cl or not ps: said.append(f"{folder}: {name}: clause not read"); continue
            body = convert_body(f, clauses[cl.end():], {ps[0]: place}, f"{folder}: {new}", True)
            renamed[name] = new
            ans.append([new if here or unf or body.strip() not in ("search rules", "omega arith", "tt", "refl") else "?" + new, f"{here}pub {new} : goal.{new}\n" + (unf + "\n" if unf else "") + f"{new} {' '.join(ps)} ={body}"])
            renamed[name] = new
            continue
        # a lemma; its parameters may stand at places
        sig = "\n".join(lines[:1 + 0]) if False else "\n".join(lines[: (lines.index(unf.split(chr(10))[0]) if unf else j)])
        scope = {}
        types = re.findall(r"\(([^():]+?) : tie\.([^\s()]+)((?: [^\s()]+)*)\)", sig)
        order = re.findall(r"[({]([^(){}:]+?) : ", sig)
        flat = [v for g in order for v in g.split()]
        psraw = cl[1].split() if cl else []
        for vs, ty, _ in types:
            for v in vs.split():
                at = flat.index(v)
                if at < len(psraw): scope[psraw[at]] = norm(ty)
                scope.setdefault(v, norm(ty))
        def place_type(mm):
            p = norm(mm[2])
            if p not in f.new: said.append(f"{folder}: no place {mm[2]} for {name}"); return mm[0]
            places_used.add(f.new[p])
            f.lemmas[name] = p
            return f"({mm[1]} : {f.new[p]})"
        sig2 = re.sub(r"\(([^():]+?) : tie\.([^\s()]+)((?: [^\s()]+)*)\)", place_type, sig)
        body = convert_body(f, clauses, scope, f"{folder}: {name}")
        ans.append([None, here + convert_body(f, sig2, scope, f"{folder}: {name}") + "\n" + (unf + "\n" if unf else "") + body])
    # answers that stand in the call itself
    m = re.search(r"\(?tie\.spec\b", spec_text)
    if m and "(λ" in spec_text[m.end():]:
        t, args, i = spec_text[m.end():], [], 0
        while i < len(t):
            if t[i].isspace(): i += 1
            elif t[i] == "(":
                deep, j = 0, i
                while j < len(t):
                    deep += (t[j] == "(") - (t[j] == ")"); j += 1
                    if not deep: break
                args.append(t[i:j]); i = j
            elif t[i] == ")": break
            else:
                j = i
                while j < len(t) and not t[j].isspace() and t[j] not in "()": j += 1
                args.append(t[i:j]); i = j
        skip = 2 * len(f.loops)
        unf = re.search(r"(?m)^unfolding .*$", spec_text)
        if len(args) - skip != len(entry["needs"]):
            said.append(f"{folder}: {len(args)} arguments of tie.spec, {skip} + {len(entry['needs'])} expected")
        else:
            for n, a in enumerate(args[skip:]):
                lam = re.match(r"\(λ ([^.]*)\. ?(.*)\)$", a, re.S)
                if not lam: continue
                new = entry["needs"][n][1]
                ps = lam[1].split()
                if new.endswith("-requires") or "-requires-" in new: ps = ps[:1]
                body = convert_body(f, lam[2], {ps[0]: f.asked[n]}, f"{folder}: {new}", True)
                ans.append([new, f"pub {new} : goal.{new}\n" + (unf[0] + "\n" if unf else "") + f"{new} {' '.join(ps)} = {body}"])
    # answers that name answers, and those that Rattle finds itself
    NM = r"(?<![^\s(){}\[\],;])([^\s(){}\[\],;.\"]+)(?![^\s(){}\[\],;.])"
    def refs(t):
        first, _, rest_ = t.partition("=")
        return first + "=" + re.sub(NM, lambda w: renamed.get(w[1], w[1]), rest_) if _ else t
    ans = [[n, refs(t)] for n, t in ans]
    cited = {w for n, t in ans for w in re.findall(NM, t.partition("=")[2])}
    ans = [[n.lstrip("?") if n else n, t] for n, t in ans if not (n and n.startswith("?") and n[1:] not in cited)]
    goal = fq
    h = "\n".join(head)
    out = {}
    # lemmas that an invariant cites go with it
    used = "\n".join(inv)
    lem_inv, rest = [], []
    for n, t in ans:
        nm = None
        if n is None:
            mm = [DECL.match(l) for l in t.split("\n")]
            nm = next((x[1] for x in mm if x), None)
        if nm and re.search(r"(?<![^\s(){}\[\],;.])" + re.escape(nm) + r"(?![^\s(){}\[\],;.])", used): lem_inv.append(t if t.startswith(("pub", "abbrev")) else t)
        else: rest.append(t)
    if inv:
        out["Invariants.antt"] = "\n".join(([h] if h else []) + uses + [f"use {goal}.Given as goal", ""]) + "\n" + "\n\n".join(lem_inv + inv) + "\n"
    if rest:
        extra = [f"use {goal}.Goals as goal"]
        if places_used: extra.append(f"use {goal}.Goals.{{{', '.join(sorted(places_used))}}}")
        if lem_inv:
            nms = [next(x[1] for x in (DECL.match(l) for l in t.split('\n')) if x) for t in lem_inv]
            extra.append(f"use {goal}.Invariants.{{{', '.join(nms)}}}")
        out["Answers.antt"] = "\n".join(([h] if h else []) + uses + extra + [""]) + "\n" + "\n\n".join(rest) + "\n"
    return out


def src_params(crate, module, fn):
    """The names of a function's parameters."""
    path = os.path.join(crate, "src", module + ".rt") if module else None
    if not path or not os.path.exists(path):
        path = os.path.join(crate, "src", "lib.rt")
        if not os.path.exists(path): path = os.path.join(crate, "src", "main.rt")
    t = open(path).read()
    m = re.search(r"\bfn " + re.escape(fn) + r"\s*(?:<[^>]*>)?\s*\(", t)
    if not m: return None
    deep, i, cur, out = 1, m.end(), "", []
    while deep:
        ch = t[i]
        if ch in "([{<": deep += 1
        elif ch in ")]}" or (ch == ">" and t[i-1] != "-"): deep -= 1
        if ch == "," and deep == 1: out.append(cur); cur = ""
        elif deep: cur += ch
        i += 1
    if cur.strip(): out.append(cur)
    return [re.sub(r"^\s*(?:mut )?", "", p).split(":")[0].strip() for p in out]


def convert_cycle(crate, rel, d, oldd, j, cname, fq):
    """A folder +NAME: Proof.antt and Proof/*.antt of all members."""
    base = f"Rattle-{cname}-proofs.{rel.replace('/', '.')}."
    members = {k[len(base):].replace("Lts-", ""): Function(e) for k, e in j.items() if k.startswith(base + "Lts-")}
    for f in members.values(): f.cycle = True
    if not members: said.append(f"{rel}: no members in names"); return None
    module = os.path.dirname(rel)
    def gather(folder):
        out = [os.path.join(folder, "Proof.antt")]
        sub = os.path.join(folder, "Proof")
        if os.path.isdir(sub): out += sorted(os.path.join(sub, f) for f in os.listdir(sub) if f.endswith(".antt"))
        return out
    news, olds = gather(d), gather(oldd)
    mem = {norm(m): m for m in members}
    inv, ans, uses, heads, places_used, renamed, seen_use = [], [], [], [], set(), {}, set()
    files = []
    for np, op in zip(news, olds):
        parts, oparts = blocks(open(np).read()), [b for b in blocks(open(op).read()) if b[0] == "decl"]
        nd = [b for b in parts if b[0] == "decl"]
        if len(nd) != len(oparts): said.append(f"{rel}: {os.path.basename(np)}: {len(oparts)} declarations before, {len(nd)} now"); return None
        alias, claims_mod = {}, set()
        file_uses, file_head, file_ans, pending, started = [], [], [], [], False
        for b in parts:
            if b[0] == "use":
                t = "\n".join(b[2])
                m = re.search(r"\.Lts-(\S+) as (\S+)", t)
                if m: alias[m[2]] = m[1]
        k = -1
        for b in parts:
            text = "\n".join(b[2])
            if b[0] == "use":
                started = True
                if re.search(r"\.Lts-|\.(Reads|Kinds) as |\.\{statement\}|\.Tie\.|borrow\.Fn\.(Kinds|PlainCycle)|\.Proof\.\w+", text): continue
                file_uses.append(text); continue
            if b[0] == "comment":
                (pending if started else file_head).append(text); continue
            if b[0] == "other":
                if not re.match(r"(pub )?mod ", text): pending.append(text)
                continue
            k += 1
            oname, name = oparts[k][1], b[1]
            osig = " ".join(" ".join(oparts[k][2]).split())
            lines = b[2]
            jx = 1
            while jx < len(lines) and (lines[jx].startswith(" ") or not lines[jx].strip()): jx += 1
            unf = ""
            if jx < len(lines) and lines[jx].startswith("unfolding "):
                unf = lines[jx]; jx += 1
                while jx < len(lines) and lines[jx].startswith(" "): unf += "\n" + lines[jx]; jx += 1
            sig, clauses = "\n".join(lines[: next((q for q, l in enumerate(lines) if l.startswith("unfolding ")), jx)]), "\n".join(lines[jx:])
            cl = re.match(re.escape(name) + r"((?: [^\n=]*?)?) =(?=\s)", clauses)
            here = ("\n".join(pending) + "\n") if pending else ""
            if re.search(r": \{M : Type 1\} → ", osig): pending = []; continue
            if re.match(r"(?:abbrev )?(?:pub )?\S+ : (?:ℕ → )?(?:In \d|\S*\.Claims|\(?t : ℕ\)? → \S*Claims)", osig) or re.search(r" → (?:In \d+ |\S+\.Claims$)", osig.split(" = ")[0].split(" " + oname + " ")[0]) and "Need" not in osig: continue
            m = re.search(r": Measures \d+ (\S+?)(?:-kinds)?\.ps", osig)
            if m:
                fn = mem.get(norm(re.sub(r"^μ-", "", oname)))
                ps = src_params(crate, module, fn) if fn else None
                if not ps: said.append(f"{rel}: measure {oname}: no parameters found"); continue
                body = clauses[cl.end():]
                v = cl[1].split()[-1]
                def arg(mm):
                    n = mm[1].count(".1")
                    return f"l.{ps[n]}" if n < len(ps) else mm[0]
                body = re.sub(r"(?<![\w.])" + re.escape(v) + r"((?:\.1)*)\.0(?![\w])", arg, body)
                new = f"decreases-{fn}"
                inv.append(f"{here}abbrev pub {new} : goal.{new}\n" + (unf + "\n" if unf else "") + f"{new} l ={body}")
                pending = []; continue
            m = re.search(r"(?:^|[ (])(\S+)\.(InvT|MeasureT|Need)-(\S+)", osig.split(" = ")[0])
            osig_al = None
            if m:
                # the alias in the old text, the member
                ma = re.search(r"(\S+)\.(?:InvT|MeasureT|Need|invariant|decreases)-", sig.replace("\n", " "))
                al = (ma[1] if ma else m[1]).lstrip("(")
                fn = alias.get(al) or mem.get(norm(re.sub(r"-lts$", "", al)))
                if fn not in members: said.append(f"{rel}: {oname}: no member for {al}"); continue
                f = members[fn]; e = f.e; stem = e.get("stem", "")
                if m[2] in ("InvT", "MeasureT"):
                    loop = norm(m[3])
                    at = next((i for i, L in enumerate(f.loops) if norm(L[0][0]) == loop), None)
                    if at is None: said.append(f"{rel}: {fn}: no loop {loop}"); continue
                    L, ch = f.loops[at], f.changed[at]
                    new = ("invariant-" if m[2] == "InvT" else "decreases-") + stem + L[0][1]
                    vs = L[1]
                    subs = ["l." + (("initial." + x) if c else x) for x, c in zip(vs, ch)] + ["l." + x for x, c in zip(vs, ch) if c]
                    ps = cl[1].split() if cl else []
                    if len(ps) != len(subs): said.append(f"{rel}: {oname} has {len(ps)} parameters, {len(subs)} expected: {subs}"); continue
                    body = clauses[cl.end():]
                    mp = dict(zip(ps, subs))
                    body = re.sub(r"(?<![^\s(){}\[\],;])([^\s(){}\[\],;.\"]+)", lambda w: mp.get(w[1], w[1]), body)
                    inv.append(f"{here}abbrev pub {new} : goal.{new}\n" + (unf + "\n" if unf else "") + f"{new} l ={body}")
                    pending = []; continue
                key = norm(m[3])
                if key not in f.needs:
                    for a, b_ in (("holds", "init"), ("less", "smaller"), ("again", "preserved")):
                        key2 = re.sub(rf"-{a}(?=$|-)", f"-{b_}", key)
                        if key2 in f.needs: key = key2
                if key not in f.needs:
                    if not any(norm(x) == key for x in e["settled"]): said.append(f"{rel}: {fn}: no goal for {m[3]}")
                    pending = []; continue
                new, idx = f.needs[key]
                new = new if new.startswith(stem) else stem + new
                ps = [x for x in (cl[1].split() if cl else []) if x != "κs"]
                if not ps: said.append(f"{rel}: {oname}: clause not read"); continue
                cvar = ps[-1] if len(ps) < 2 else ps[1]
                body = convert_body(f, clauses[cl.end():], {cvar: f.asked[idx]}, f"{rel}: {new}")
                renamed[name] = new
                drop = not (here or unf) and body.strip() in ("search rules", "omega arith", "tt", "refl")
                file_ans.append(["?" + new if drop else new, f"{here}pub {new} : goal.{new}\n" + (unf + "\n" if unf else "") + f"{new} {' '.join(ps[:2])} ={body}"])
                pending = []; continue
            # a lemma
            scope, lemf = {}, None
            def place_type(mm):
                nonlocal lemf
                fn = alias.get(mm[2]) or mem.get(norm(re.sub(r"-lts$", "", mm[2])))
                if fn not in members: said.append(f"{rel}: {name}: no member for {mm[2]}"); return mm[0]
                f = members[fn]; lemf = f
                p = norm(mm[3])
                if p not in f.new: said.append(f"{rel}: no place {mm[3]} for {name}"); return mm[0]
                stem = f.e.get("stem", "")
                pl = f.new[p]
                f.lemmas[name] = p
                places_used.add(pl)
                for v in mm[1].split(): scope[v] = p
                tv = re.search(r"claims (\S+?)\)", mm[4])
                return f"({mm[1]} : {pl} {tv[1] if tv else 't'})"
            sig2 = re.sub(r"\(([^():]+?) : (\S+?)\.((?:After|Then|Else|In|At|Start|Joined|Left|Past)\S*)((?: (?:\([^()]*\)|[^\s()]+))*)\)", place_type, sig)
            order = re.findall(r"[({]([^(){}:]+?) : ", sig)
            flat = [v for g in order for v in g.split()]
            psraw = cl[1].split() if cl else []
            for v in list(scope):
                if v in flat and flat.index(v) < len(psraw): scope[psraw[flat.index(v)]] = scope[v]
            body = clauses
            if lemf: body = convert_body(lemf, clauses, scope, f"{rel}: {name}")
            file_ans.append([None, here + sig2 + "\n" + (unf + "\n" if unf else "") + body])
            pending = []
        files.append([np, file_head, file_uses, file_ans])
    NM = r"(?<![^\s(){}\[\],;])([^\s(){}\[\],;.\"]+)(?![^\s(){}\[\],;.])"
    def refs(t):
        first, _, rest_ = t.partition("=")
        return first + "=" + re.sub(NM, lambda w: renamed.get(w[1], w[1]), rest_) if _ else t
    out = {}
    allans = [[n, refs(t)] for fl in files for n, t in fl[3]]
    cited = {w for n, t in allans for w in re.findall(NM, t.partition("=")[2])}
    alluses = []
    for fl in files:
        for u in fl[2]:
            if u not in alluses: alluses.append(u)
    # one import line for each module
    mods, others = collections.OrderedDict(), []
    for u in alluses:
        m = re.fullmatch(r"use (\S+)\.\{([^}]*)\}", u)
        if m:
            L = mods.setdefault(m[1], [])
            for x in m[2].split(","):
                if x.strip() and x.strip() not in L: L.append(x.strip())
        else: others.append(u)
    useline = [f"use {m}.{{{', '.join(xs)}}}" for m, xs in mods.items()] + others
    h = "\n".join("\n".join(fl[1]) for fl in files[:1] if fl[1])
    if inv: out["Invariants.antt"] = "\n".join(([h] if h else []) + useline + [f"use {fq}.Given as goal", ""]) + "\n" + "\n\n".join(inv) + "\n"
    body = []
    for fl in files:
        keep = [t for n, t in ((n, refs(t)) for n, t in fl[3]) if not (n and n.startswith("?") and n[1:] not in cited)]
        if keep:
            if fl is not files[0] and fl[1]: body.append("\n".join(fl[1]))
            body += keep
    extra = [f"use {fq}.Goals as goal"] + ([f"use {fq}.Goals.{{{', '.join(sorted(places_used))}}}"] if places_used else [])
    out["Answers.antt"] = "\n".join(([h] if h else []) + useline + extra + [""]) + "\n" + "\n\n".join(body) + "\n"
    return out, news


def main(argv):
    crate, old, names = argv[:3]
    only = argv[3:]
    j = json.load(open(names))
    cname = os.path.basename(os.path.normpath(crate))
    n = 0
    for d, ds, fs in os.walk(os.path.join(crate, "proofs")):
        if "Proof.antt" not in fs: continue
        rel = os.path.relpath(d, os.path.join(crate, "proofs"))
        if "/+" in "/" + rel:
            if "/Proof" in rel.split("/+")[1] or (only and rel not in only): continue
            par = os.path.dirname(rel)
            olds = [x for x in os.listdir(os.path.join(old, "proofs", par)) if x.startswith("+")]
            want = norm(os.path.basename(rel)[1:])
            pick = [x for x in olds if norm(x[1:].replace("+", "_")) == want] or (olds if len(olds) == 1 else [])
            if len(pick) != 1:
                key = [k for k in j if k.startswith(f"Rattle-{cname}-proofs.{rel.replace('/', '.')}.Lts-")]
                ms = {norm(k.split("Lts-")[1]) for k in key}
                pick = [x for x in olds if {norm(y) for y in x[1:].split("+")} == ms]
            if len(pick) != 1: said.append(f"{rel}: old folder not found among {len(olds)}"); continue
            r = convert_cycle(crate, rel, d, os.path.join(old, "proofs", par, pick[0]), j, cname, f"Rattle.{cname}.proofs.{rel.replace('/', '.')}")
            if r is None: continue
            r, gone = r
            for p in gone: os.remove(p)
            if os.path.isdir(os.path.join(d, "Proof")) and not os.listdir(os.path.join(d, "Proof")): os.rmdir(os.path.join(d, "Proof"))
            for k, t in r.items(): open(os.path.join(d, k), "w").write(t)
            n += 1
            continue
        if only and rel not in only and os.path.basename(rel) not in only: continue
        op = os.path.join(old, "proofs", rel, "Proof.antt")
        if not os.path.exists(op): said.append(f"{rel}: not in OLD"); continue
        key = f"Rattle-{cname}-proofs.{rel.replace('/', '.')}.Lts"
        if key not in j: said.append(f"{rel}: no names"); continue
        r = convert(rel, open(op).read(), open(os.path.join(d, "Proof.antt")).read(), j[key], f"Rattle.{cname}.proofs.{rel.replace('/', '.')}")
        if r is None: continue
        os.remove(os.path.join(d, "Proof.antt"))
        for k, t in r.items(): open(os.path.join(d, k), "w").write(t)
        n += 1
    print("\n".join(said)); print(n, "converted")

main(sys.argv[1:])
