#!/usr/bin/env python3
"""Turns the Proof.antt files of a crate, which name a function's goals by `tie.spec`, into Invariants.antt and Answers.antt.

usage: convert.py CRATE_FOLDER NAMES.json [FUNCTION ..]

NAMES.json is what `rt check --generated DIR --old-names` writes for the crate: of each goal and each step its old and its new name.
An answer's path goes from its goal's place upward by `.before`; here it becomes the step's own name. A goal that was answered by
`search rules` alone gets no answer. What does not resolve is left as it stands and listed.
"""
import json, os, re, sys

WORD = r"[^\s(){}.;,@\"«»]+"
norm = lambda s: re.sub(r"-+", "-", s.replace("_", "-")).lower()


def decls(text):
    """Top-level declarations: (signature line .. with 'unfolding' lines .. and clauses) as lists of lines; and use lines; and comments before the first."""
    out, uses, head, cur = [], [], [], None
    for line in text.split("\n"):
        if line.startswith("--") and cur is None and not out:
            head.append(line)
        elif line.startswith("use ") or line.startswith("pub use "):
            uses.append(line); cur = None
        elif not line.strip():
            cur = None
        else:
            if cur is None:
                cur = []; out.append(cur)
            cur.append(line)
    return head, uses, out


def spec_args(block):
    """The arguments of tie.spec, in order."""
    t = "\n".join(block)
    i = t.index("tie.spec") + len("tie.spec")
    args, depth, tok = [], 0, ""
    for ch in t[i:]:
        if ch in "([{": depth += 1
        if ch in ")]}":
            depth -= 1
            if depth < 0: break
        if ch.isspace() and depth == 0:
            if tok: args.append(tok); tok = ""
            continue
        tok += ch
    if tok: args.append(tok)
    return args


def used(names, text):
    toks = set(re.findall(WORD, text))
    # tokens joined by dots: each part counts
    keep = []
    for n in names:
        local = n.split(" as ")[-1].strip()
        if "◌" in local:
            parts = [p for p in local.split("◌") if p]
            if all(p in toks or p in text for p in parts): keep.append(n)
        elif local in toks: keep.append(n)
    return keep


def use_lines(uses, text):
    out = []
    for u in uses:
        if re.search(r"\.(Statement|Tie)(\.|$| as )", u): continue
        m = re.match(r"^(use .*)\.\{(.*)\}\s*$", u)
        if not m:
            alias = u.split(" as ")[-1].split(".")[-1].strip()
            if re.search(rf"(?<![^\s(){{}};,@\"]){re.escape(alias)}\b", text): out.append(u)
            continue
        keep = used([x.strip() for x in m[2].split(",")], text)
        if keep: out.append(f"{m[1]}.{{{', '.join(keep)}}}")
    return out


class Function:
    def __init__(self, key, v):
        self.key, self.v = key, v
        self.places = {p[0]: p for p in v["places"]}
        self.order = [p[0] for p in v["places"]]
        self.said = []

    def path(self, place, chain, where, again=False):
        """A chain of fields after `c`, at a place, in the new form."""
        i, start = 0, place
        while i < len(chain) and chain[i] == "before":
            p = self.places.get(place)
            if p is None or p[1] is None:
                while i < len(chain) and chain[i] == "before": i += 1
                place = start; break
            place = p[1]; i += 1
        rest = chain[i:]
        if not rest:
            self.said.append(f"{where}: ends in before: {'.'.join(chain)}"); return None
        f = norm(rest[0])
        if f.endswith("-lem"): f = f[:-4]
        q = place
        first = True
        while q is not None:
            p = self.places[q]
            step = p[2]
            if step[0] and norm(step[0]) == f:
                if not first: self.said.append(f"{where}: {rest[0]} found above its place, at {q}: {'.'.join(chain)}")
                tail = rest[1:]
                ty = self.v["typed"][self.order.index(q)]
                if tail and tail[0] == "given" and "shared-slice-known" in f or "slice-known" in f:
                    for var, st in ty:
                        if norm(st) == f: return ["type_inv", var] + tail[1:]
                arm = self.v["arms"][self.order.index(q)]
                if arm:
                    for field, old, path in sorted(arm[2], key=lambda x: -len(x[2])):
                        if norm(old) == f and tail[: len(path)] == path:
                            return [arm[0]] + ([] if field.endswith("-own") else [field]) + tail[len(path):]
                ren = {norm(a): b for a, b in p[4]}
                if tail and norm(tail[0]) in ren: tail = [ren[norm(tail[0])]] + tail[1:]
                return [step[1]] + tail
            if f in ("args", "requires", "ranges", "well-formed", "lifetimes", "type-inv", "utf8") and p[1] is None:
                return [rest[0]] + rest[1:]
            q = p[1]; first = False
        if f in ("args", "requires", "ranges", "well-formed", "lifetimes"): return rest
        if place != start and not again: return self.path(start, rest, where, True)
        self.said.append(f"{where}: no step {rest[0]} at {place} [{self.places[place][2]}]: {'.'.join(chain)}")
        return None

    def body(self, text, var, place, where):
        def turn(m):
            chain = m[1][1:].split(".")
            new = self.path(place, chain, where)
            return m[0] if new is None else var + "." + ".".join(new)
        return re.sub(rf"(?<![^\s(){{}};,@\"]){re.escape(var)}((?:\.{WORD})+)", turn, text)


def convert(folder, key, v):
    fn = Function(key, v)
    path = key.split(".", 1)[1][: -len(".Lts")]
    crate = key.split("-", 2)[1]
    at = os.path.join(folder, "proofs", *path.split("."))
    pf = os.path.join(at, "Proof.antt")
    if not os.path.exists(pf): return None
    text = open(pf, encoding="utf-8").read()
    head, uses, ds = decls(text)
    spec = [d for d in ds if any("tie.spec" in l for l in d)]
    if len(spec) != 1: return [f"{path}: no tie.spec"]
    args = spec_args(spec[0])
    loops = v["loops"]
    n_inv = len([a for a in args if re.match(r"(invariant|decreases)-", a)])
    goals = args[n_inv:]
    if len(goals) != len(v["needs"]):
        fn.said.append(f"{len(goals)} answers for {len(v['needs'])} goals")
    by_decl = {}
    oldneeds = {norm(a): k for k, (a, b) in enumerate(v["needs"])}
    for k, g in enumerate(goals): by_decl[g] = k
    same = len(goals) == len(v["needs"])
    inv, ans, helpers = [], [], []
    for d in ds:
        if d is spec[0]: continue
        sig = d[0]
        m = re.match(r"^(?:pub )?(?:abbrev )?(?:pub )?(\S+) : tie\.(\S+)", sig)
        if not m:
            helpers.append("\n".join(d)); continue
        name, ty = m[1], m[2]
        if ty.startswith("invariant-") or ty.startswith("decreases-"):
            kind, loop = ty.split("-", 1)
            hit = [(i, l) for i, l in enumerate(loops) if norm(l[0][0]) == norm(loop)]
            if not hit:
                fn.said.append(f"no loop {loop}"); inv.append("\n".join(d)); continue
            i, l = hit[0]
            vars_, changed = l[1], v["changed"][i]
            slots = [("l.initial." if c else "l.") + x for x, c in zip(vars_, changed)] + ["l." + x for x, c in zip(vars_, changed) if c]
            body = "\n".join(d[1:])
            mm = re.match(rf"((?:unfolding [^\n]*\n)*){re.escape(name)}((?: {WORD})*?) =\s*(.*)$", body, re.S)
            if not mm:
                fn.said.append(f"cannot read {name}"); inv.append("\n".join(d)); continue
            ps = mm[2].split()
            if len(ps) != len(slots):
                fn.said.append(f"{name}: {len(ps)} parameters for {len(slots)}: {ps} / {slots}")
                byname = {s.split('.')[-1] + ("₀" if "initial" in s else ""): s for s in slots}
                m_ = {p: byname.get(p, "l.initial." + p[:-1] if p.endswith("₀") else "l." + p) for p in ps}
            else: m_ = dict(zip(ps, slots))
            m_.pop("_", None)
            toks = re.sub(rf"(?<![.\w«]){WORD}", lambda t: m_.get(t[0], t[0]), mm[3])
            new = f"{kind}-{l[0][1]}"
            inv.append(f"abbrev pub {new} : goal.{new}\n{mm[1]}{new} l = {toks}")
            continue
        if not ty.startswith("Need-"):
            fn.said.append(f"unknown type tie.{ty}"); ans.append("\n".join(d)); continue
        ks = []
        if same and name in by_decl: ks = [k for k, g in enumerate(goals) if g == name]
        elif norm(ty[5:]) in oldneeds: ks = [oldneeds[norm(ty[5:])]]
        if not ks:
            fn.said.append(f"{name} answers no goal ({ty})"); continue
        for k in ks:
            new = v["needs"][k][1]
            place = v["asked_at"][k][0]
            ls, rest = [], d[1:]
            for l in rest:
                mm = re.match(rf"^{re.escape(name)}((?: {WORD})*?) =(.*)$", l)
                if mm:
                    ps = mm[1].split()
                    var = ps[0] if ps else "c"
                    more = "".join(" " + p for p in ps[1:] if p != "κs")
                    l = f"{new} {var}{more} ={mm[2]}"
                ls.append(l)
            b = fn.body("\n".join(ls), "c", place, new)
            if re.fullmatch(rf"{re.escape(new)} \S+ = search rules", b.strip()): continue
            ans.append(f"pub {new} : goal.{new}\n{b}")
    if same:
        for k, g in enumerate(goals):
            if g.startswith("("):
                mm = re.match(r"^\(λ (\S+)(?: \S+)?\. (.*)\)$", g, re.S)
                if mm and mm[2].strip() == "search rules": continue
                new = v["needs"][k][1]
                if not mm: fn.said.append(f"cannot read {g}"); continue
                b = fn.body(mm[2], mm[1], v["asked_at"][k][0], new)
                ans.append(f"pub {new} : goal.{new}\n{new} {mm[1]} = {b}")
    modpath = path
    head_text = "\n".join(head)
    # helpers go where they are used
    inv_text, ans_text = "\n\n".join(inv), "\n\n".join(ans)
    h_inv = [h for h in helpers if (n := re.match(rf"(?:pub |abbrev |unfoldable )*({WORD})", h)) and re.search(rf"(?<![^\s(){{}};,]){re.escape(n[1])}(?![^\s(){{}};,.])", inv_text)]
    h_ans = [h for h in helpers if h not in h_inv]
    first = []
    if inv:
        body = "\n\n".join(h_inv + inv)
        first.append("Invariants.antt")
        us = use_lines(uses, body)
        open(os.path.join(at, "Invariants.antt"), "w", encoding="utf-8").write((head_text + "\n" if head_text else "") + "\n".join(us + [f"use Rattle.{crate}.proofs.{modpath}.Given as goal"]) + "\n\n" + body + "\n")
    if ans:
        body = "\n\n".join(h_ans + ans)
        us = use_lines(uses, body)
        hd = "" if inv else (head_text + "\n" if head_text else "")
        open(os.path.join(at, "Answers.antt"), "w", encoding="utf-8").write(hd + "\n".join(us + [f"use Rattle.{crate}.proofs.{modpath}.Goals as goal"]) + "\n\n" + body + "\n")
    os.remove(pf)
    return [f"{path}: {s}" for s in fn.said]


def main():
    folder, names, only = sys.argv[1], sys.argv[2], set(sys.argv[3:])
    for key, v in json.load(open(names)).items():
        if not key.endswith(".Lts"): continue
        if only and key.split(".", 1)[1][:-4] not in only: continue
        said = convert(folder, key, v)
        for s in said or []: print(s)


main()
