#!/usr/bin/env python3
"""Turns a crate's proofs by hand, proofs/F/Proof.antt, into Invariants.antt and Answers.antt.

usage: python3 tools/answers.py CRATE [F..]

CRATE is a folder below crates/, whose lower crates are proved: the names that Rattle gives to goals and steps are asked of
'rt check --generated DIR --old-names'. An answer that only calls a tactic is left out, as the check finds it again.
A lemma over a place of the code is written out in each answer that cites it, and all places of an answer are its `c`.
What it cannot turn it says, and the check says the rest. Each Proof.antt that it turned lies in target/aside/ after it.
"""

import json
import os
import re
import subprocess
import sys
import tempfile

WORD = r"[^\s(){}.;,\"«»\[\]\\λ]+"
TOKEN = re.compile(r"--[^\n]*|\"(?:[^\"\\]|\\.)*\"|\s+|[(){}.;,\[\]\\λ]|" + WORD)
plain = lambda it: re.sub("-+", "-", it.replace("_", "-"))
TRIVIAL = re.compile(r"^(omega arith|search rules|refl|tt|search \(rules, arith\)|omega \(arith\))$")


def tokens(text):
    out = TOKEN.findall(text)
    assert "".join(out) == text, text
    return out


def declarations(text):
    """The file's declarations: (name, comments and head, type, unfolding lines, clauses) or raw blocks."""
    lines = text.split("\n")
    blocks, now = [], []
    for line in lines:
        if line.strip() == "" and now:
            blocks.append(now)
            now = []
        elif line.strip():
            now.append(line)
    if now:
        blocks.append(now)
    # a block that is indented goes on the one before it
    merged = []
    for b in blocks:
        if merged and b[0].startswith(" "):
            merged[-1] += [""] + b
        else:
            merged.append(b)
    return merged


class Decl:
    def __init__(self, lines):
        self.comments = []
        i = 0
        while i < len(lines) and lines[i].startswith("--"):
            self.comments.append(lines[i])
            i += 1
        self.raw = lines[i:]
        self.name = None
        body = self.raw
        if not body:
            return
        m = re.match(r"((?:(?:abbrev|unfoldable|pub) )*)(record |data |module |use )?(\S+)", body[0])
        self.marks = m.group(1)
        self.kind = (m.group(2) or "").strip()
        self.name = m.group(3)
        if self.kind:
            return
        # signature lines: up to the first line that starts at column 0 after the first
        j = 1
        while j < len(body) and (body[j].startswith(" ") or body[j] == ""):
            j += 1
        sig = "\n".join(body[:j])
        self.type = sig.split(" : ", 1)[1] if " : " in sig else sig.split(":", 1)[1]
        self.unfolding = []
        while j < len(body) and body[j].startswith("unfolding "):
            self.unfolding += body[j].split()[1:]
            j += 1
        self.clauses = []
        now = []
        for line in body[j:]:
            if line and not line.startswith(" ") and now:
                self.clauses.append("\n".join(now))
                now = []
            now.append(line)
        if now:
            self.clauses.append("\n".join(now))

    def text(self):
        return "\n".join(self.comments + self.raw)


def split_clause(clause):
    """(params tokens list, body) of a clause `name p q = body`."""
    toks = tokens(clause)
    depth = 0
    for k, t in enumerate(toks):
        if t in "([{":
            depth += 1
        elif t in ")]}":
            depth -= 1
        elif t == "=" and depth == 0:
            head = "".join(toks[:k]).strip()
            return head, "".join(toks[k + 1 :]).strip("\n")
    raise ValueError(clause)


def split_args(head):
    out, now, depth = [], "", 0
    for t in tokens(head):
        if t.isspace() and depth == 0:
            if now:
                out.append(now)
            now = ""
            continue
        if t in "([{":
            depth += 1
        elif t in ")]}":
            depth -= 1
        now += t
    if now:
        out.append(now)
    return out


class Function:
    def __init__(self, crate, path, names, known):
        self.crate, self.path, self.said = crate, path, []
        self.names = names
        self.steps, self.params_of = {}, {}
        self.calls = {re.sub(r"-\d+$", "", new) for place, parent, (old, new), callee, extra in names["places"] if callee}
        self.calls |= {callee.split("::")[-1] for place, parent, step, callee, extra in names["places"] if callee}
        for place, parent, (old, new), callee, extra in names["places"]:
            if old:
                self.steps[plain(old)] = new
                self.steps.setdefault(new, new)
                if callee and callee in names["params"]:
                    self.params_of[new] = names["params"][callee]
        self.arms = {}
        for arm in names["arms"]:
            for field, old, path in arm[2] if arm else []:
                if not field.endswith("-own") and path:
                    self.arms.setdefault(plain(old), []).append((path, arm[0], field))
        self.needs = {}
        for old, new in names["needs"]:
            self.needs[plain(old)] = new
        for old, new in names["needs"]:
            self.needs.setdefault(plain(new), new)
            self.needs.setdefault("overflow-" + plain(old), new)
        self.order = [new for old, new in names["needs"]]
        self.loops = {}
        for ((old, new), fields), changed in zip(names["loops"], names["changed"]):
            self.loops[plain(old)] = (new, fields, changed)
            self.steps[plain(old)] = new
        self.known = known
        self.temps = {old.split(".")[-1]: new.split(".")[-1] for old, new in names["args"] if old.startswith(".args ")}

    # ---- contexts

    def context_end(self, toks, k, ctx):
        """If a context expression begins at token k, the index after it: a context variable with its .before, or a path helper of one."""
        n = len(toks)
        if k >= n:
            return None
        if toks[k] in ctx:
            j = k + 1
            while j + 1 < n and toks[j] == "." and toks[j + 1] == "before":
                j += 2
            return j
        if toks[k] == "(":
            j = self.context_end(toks, self.skip(toks, k + 1), ctx)
            if j is not None:
                j = self.skip(toks, j)
                if j < n and toks[j] == ")":
                    j += 1
                    while j + 1 < n and toks[j] == "." and toks[j + 1] == "before":
                        j += 2
                    return j
            return None
        if toks[k] in self.paths:
            j = self.context_end(toks, self.skip(toks, k + 1), ctx)
            return j
        return None

    @staticmethod
    def skip(toks, k):
        while k < len(toks) and toks[k].isspace():
            k += 1
        return k

    def turn(self, text, ctx, used):
        """The text with every context collapsed to c; adds to `used` the helpers that it cites."""
        ctx, hidden, depth = set(ctx), [], 0
        toks = tokens(text)
        out, k, n = [], 0, len(toks)
        while k < n:
            t = toks[k]
            if t in "([{":
                depth += 1
            elif t in ")]}":
                depth -= 1
                ctx |= {n for d_, n in hidden if d_ > depth}
                hidden = [(d_, n) for d_, n in hidden if d_ <= depth]
            elif t == "λ":
                # a binder that hides a place's name
                j = k + 1
                while j < n and toks[j] != ".":
                    if toks[j] in ctx:
                        hidden.append((depth, toks[j]))
                        ctx.discard(toks[j])
                    j += 1
            # let x = CONTEXT in
            if t == "let":
                a = self.skip(toks, k + 1)
                b = self.skip(toks, a + 1)
                if b < n and toks[b] == "=":
                    e = self.context_end(toks, self.skip(toks, b + 1), ctx)
                    if e is not None:
                        f = self.skip(toks, e)
                        if f < n and toks[f] == "in":
                            ctx.add(toks[a])
                            k = self.skip(toks, f + 1)
                            continue
            before_dot = bool(out) and out[-1] == "."
            if not before_dot and (t in ctx or t == "(" or t in self.paths):
                e = self.context_end(toks, k, ctx)
                if e is not None:
                    out.append("c")
                    k = e
                    # the step after it
                    if k + 1 < n and toks[k] == ".":
                        step = toks[k + 1]
                        key = plain(step)
                        key = key if key in self.steps or key in self.arms else next((k_ for k_ in (*self.steps, *self.arms) if k_.lower() == key.lower()), key)
                        arm = next(((p_, a_, f_) for p_, a_, f_ in self.arms.get(key, []) if toks[k + 2 : k + 2 + 2 * len(p_)] == [x for q in p_ for x in (".", q)]), None)
                        if arm:
                            out += [".", arm[1], ".", arm[2]]
                            k += 2 + 2 * len(arm[0])
                            continue
                        new = self.steps.get(key) or self.steps.get(re.sub("-(law|lem)$", "", key)) or self.steps.get(re.sub(r"\d+$", "", key), step)
                        new = {"well-formed": "well_formed", "type-inv": "type_inv", "good": "well_formed"}.get(new, new)
                        out += [".", new]
                        k += 2
                        if k + 1 < n and toks[k] == "." and toks[k + 1] == "new" and new in self.params_of:
                            j, ones = k + 2, 0
                            while j + 1 < n and toks[j] == "." and toks[j + 1] == "1":
                                ones, j = ones + 1, j + 2
                            last = j + 1 < n and toks[j] == "." and toks[j + 1] == "0"
                            ps = self.params_of[new]
                            if (last or ones) and ones < len(ps):
                                out += [".", "new", ".", ps[ones]]
                                k = j + 2 if last else j
                    continue
            if not before_dot and t in self.helpers:
                j = self.skip(toks, k + 1)
                e = self.context_end(toks, j, ctx)
                if e is not None:
                    used.append(t)
                    h = self.helpers[t]
                    if h["macro"]:
                        out.append("(" + h["body"] + ")" if not re.fullmatch(r"[\w.'-]+", h["body"]) else h["body"])
                    else:
                        out.append(t)
                    k = e
                    continue
            if t == "κs":
                self.said.append("κs in a body")
            out.append(t)
            k += 1
        text = "".join(out)
        # (path) without need
        text = re.sub(r"\(([\w.'-]+)\)(?=\.)", r"\1", text)
        text = re.sub(r"\((c(?:\.[\w'-]+)+)\)", r"\1", text)
        text = re.sub(r"\(([\w'-]+)\)", lambda m: m.group(1) if m.group(1) in self.helpers else m.group(0), text)
        text = re.sub(r"\bc\.pre\b", "c.requires", text)
        text = re.sub(r"not-(?:true|false) (?:_|[\w.'-]+|\([^()]*\)) (c\.if-not-([\w'-]+)\.(?:true|false))", self.test, text)
        text = re.sub(r"\.inv\b(?!-)", ".invariant", text)
        text = re.sub(r"\.(t\d+)\b", lambda m: "." + self.temps.get(m.group(1), m.group(1)), text)
        text = re.sub(r"(c\.wrapping_[\w-]+)\.ensures\b(?!\.)", r"\1.ensures.value", text)
        text = re.sub(r"(\.if-[\w'-]+)\.(?:taken|true)\b", r"\1.true", text)
        text = re.sub(r"(\.if-[\w'-]+)\.left\b", r"\1.false", text)
        text = re.sub(r", c\.[\w-]+\.type-inv\b", "", text)
        text = re.sub(r"\((omega|search|grind) \(arith\)\)", r"(\1 arith)", text).replace("omega (arith)", "omega arith")
        return text

    def test(self, m):
        """A test of `!f(x)` says what f returned; one of `!x.field` says it with `not`."""
        call = re.sub(r"-\d+$", "", m.group(2))
        return m.group(1) if call in self.params_of or call in self.calls else m.group(0)

    def closure(self, used, done=None):
        done = [] if done is None else done
        for h in used:
            if h in done:
                continue
            self.closure(self.helpers[h]["used"], done)
            if h not in done:
                done.append(h)
        return done

    def lets(self, used):
        out, unfold = [], []
        for h in self.closure(used):
            it = self.helpers[h]
            unfold += it["unfolding"]
            if not it["macro"]:
                out.append(f"let {h} : {it['type']} = {it['body']} in")
        return out, unfold

    # ---- the whole

    def run(self, text):
        blocks = [Decl(b) for b in declarations(text)]
        self.paths, self.helpers, self.easy, self.spec, self.opened = set(), {}, {}, "", []
        head = blocks[0]
        uses = []
        invariants, answers, others = [], [], []
        for d in blocks:
            raws = [l for l in d.raw]
            us = [l for l in raws if l.startswith("use ")]
            if us and d.kind == "use":
                # a use line may go on over several lines
                uses += [m.group(0) for m in re.finditer(r"(?m)^use [^\n]*(?:\n [^\n]*)*", "\n".join(raws))]
                continue
            if not d.name:
                continue
            if d.kind:
                others.append(d)
                continue
            ty = d.type.strip()
            if d.name.endswith(("_spec", "-spec")) or "tie.close" in "\n".join(d.clauses):
                self.spec = split_clause(d.clauses[0])[1]
                self.opened = d.unfolding
                continue
            m = re.match(r"tie\.(invariant|decreases)-(\S+)", ty)
            if m:
                invariants.append((m.group(1), m.group(2), d))
                continue
            m = re.match(r"tie\.Need-(\S+)", ty)
            if m:
                answers.append((m.group(1), d))
                continue
            if "tie." in ty:
                self.helper(d)
                continue
            others.append(d)
        drop = ("Statement.{statement}", ".Tie as tie")
        uses = [u for u in uses if not any(x in u for x in drop)]
        mod = f"Rattle.{self.crate}.proofs.{self.path.replace('/', '.')}"
        comment = "\n".join(l for l in head.comments)
        # ---- invariants
        inv_text = []
        for kind, loop, d in invariants:
            got = self.loops.get(plain(loop))
            if not got:
                self.said.append(f"no loop {loop}")
                continue
            new, fields, changed = got
            head_, body = split_clause(d.clauses[0])
            params = split_args(head_)[1:]
            want = fields + [f for f, ch in zip(fields, changed) if ch]
            if len(params) != len(want):
                self.said.append(f"{kind}-{loop}: {len(params)} parameters for {want}")
            sub = {}
            for i, p in enumerate(params):
                if i < len(fields):
                    f = fields[i]
                    sub[p] = f"l.initial.{f}" if changed[i] else f"l.{f}"
                elif i < len(want):
                    sub[p] = f"l.{want[i]}"
            ts = tokens(body)
            res = "".join(sub.get(t, t) if not (i and ts[i - 1] == ".") else t for i, t in enumerate(ts))
            lines = list(d.comments) + [f"abbrev pub {kind}-{new} : goal.{kind}-{new}", f"{kind}-{new} l ={res if res.startswith(chr(10)) else ' ' + res.strip()}"]
            inv_text.append("\n".join(lines))
        # what the invariants cite
        cited, todo = [], set(re.findall(r"[\w'-]+", " ".join(inv_text)))
        names = {d.name: d for d in others}
        changed_ = True
        while changed_:
            changed_ = False
            for n, d in names.items():
                if n in todo and n not in cited:
                    cited.append(n)
                    todo |= set(re.findall(r"[\w'-]+", d.text()))
                    changed_ = True
        moved = [d for d in others if d.name in cited] if inv_text else []
        out = {}
        if inv_text:
            body = []
            for d in moved:
                body.append(self.public(d))
            out["Invariants.antt"] = "\n".join([comment] + uses + [f"use {mod}.Given as goal"]) + "\n\n" + "\n\n".join(body + inv_text) + "\n"
        self.pair([n for n, d in answers])
        # ---- answers
        inline = self.inline(answers, {d.name for k, l, d in invariants})
        parts, cites = [], set()
        for d in others:
            if d in moved:
                continue
            parts.append(d.text())
        done = set()
        given = []
        for need, d in answers:
            new = self.needs.get(plain(need))
            if new is None:
                self.said.append(f"goal {need} is settled or has another name")
                continue
            head_, body = split_clause(d.clauses[0])
            params = split_args(head_)[1:]
            ctx = {params[0]} if params else {"c"}
            used = []
            if not params:
                self.said.append(f"{need}: no parameter")
            res = self.turn(body, ctx, used).strip()
            if len(params) > 2 or (len(params) == 2 and not params[1].startswith("κ")):
                self.said.append(f"{need}: parameters {params}")
            lets, unfold = self.lets(used)
            if TRIVIAL.match(res) and not d.unfolding:
                self.easy[new] = f"pub {new} : goal.{new}\n{new} c = {res}"
                continue
            lines = list(d.comments) + [f"pub {new} : goal.{new}"]
            un = list(dict.fromkeys(d.unfolding + unfold))
            if un:
                lines.append("unfolding " + " ".join(un))
            if lets:
                lines += [f"{new} c ="] + ["    " + l.replace("\n", "\n    ") for l in lets] + ["    " + res.replace("\n", "\n    ")]
            elif "\n" in res:
                lines += [f"{new} c =", "    " + res]
            else:
                lines.append(f"{new} c = {res}")
            given.append("\n".join(lines))
        self.fallback = {}
        for new, (params, body) in inline.items():
            used = []
            res = self.turn(body, {params[0]} if params else set(), used).strip()
            lets, unfold = self.lets(used)
            unfold = self.opened + unfold
            text_ = [f"pub {new} : goal.{new}"] + (["unfolding " + " ".join(dict.fromkeys(unfold))] if unfold else [])
            text_ += ([f"{new} c ="] + ["    " + l.replace("\n", "\n    ") for l in lets] + ["    " + res.replace("\n", "\n    ")]) if lets or "\n" in res else [f"{new} c = {res}"]
            if TRIVIAL.match(res):
                self.fallback[new] = "\n".join(text_)
            else:
                given.append("\n".join(text_))
        moved_names = {d.name for d in moved}
        cite = sorted(moved_names & set(re.findall(r"[\w'-]+", "\n".join(parts + given))))
        if given:
            ans_uses = list(uses)
            if cite:
                ans_uses.append(f"use {mod}.Invariants.{{{', '.join(cite)}}}")
            out["Answers.antt"] = "\n".join([comment] + ans_uses + [f"use {mod}.Goals as goal"]) + "\n\n" + "\n\n".join(parts + given) + "\n"
        elif parts:
            self.said.append("lemmas without an answer")
        return out

    def pair(self, olds):
        """Goals that have another number now: where as many of a kind are left on both sides, they go together in their order."""
        kind = lambda it: "-".join(plain(it).split("-")[:2])
        taken = {self.needs[plain(o)] for o in olds if plain(o) in self.needs}
        left = [o for o in olds if plain(o) not in self.needs]
        free = [n for n in self.order if n not in taken]
        for k in {kind(o) for o in left}:
            a, b = [o for o in left if kind(o) == k], [n for n in free if kind(n) == k]
            if len(a) == len(b):
                self.needs.update(zip(map(plain, a), b))

    def inline(self, answers, invariants):
        """The answers that the theorem gives in place, by the goals that they must be for: those between two that have names."""
        m = re.search(r"tie\.spec\b", self.spec)
        if not m:
            return {}
        depth, end = 0, len(self.spec)
        for k in range(m.end(), len(self.spec)):
            if self.spec[k] in "([{":
                depth += 1
            elif self.spec[k] in ")]}":
                depth -= 1
                if depth < 0:
                    end = k
                    break
        args = split_args(self.spec[m.end() : end])
        args = [a for a in args if a not in invariants]
        named = {d.name: self.needs.get(plain(n)) for n, d in answers}
        out = {}
        marks = [(-1, -1)] + [(i, self.order.index(named[a])) for i, a in enumerate(args) if named.get(a) in self.order] + [(len(args), len(self.order))]
        for (a, x), (b, y) in zip(marks, marks[1:]):
            if b - a != y - x:
                continue
            for i in range(1, b - a):
                arg = args[a + i]
                q = re.fullmatch(r"(?s)\(λ ([^.]*)\. (.*)\)", arg)
                if q:
                    out[self.order[x + i]] = (q.group(1).split(), q.group(2))
        return out

    def public(self, d):
        lines = []
        for i, line in enumerate(d.raw):
            if i == 0 and "pub " not in line.split(":")[0]:
                line = re.sub(r"^(abbrev |unfoldable |opaque )?", lambda m: (m.group(1) or "") + "pub ", line)
            elif d.kind == "record" and re.match(r"  (?!pub )\S+ : ", line):
                line = "  pub " + line[2:]
            lines.append(line)
        return "\n".join(d.comments + lines)

    def helper(self, d):
        ty = d.type.strip()
        # a place to a place
        if re.fullmatch(r"(?s)tie\.[^→]*→ tie\.[^→]*", ty):
            self.paths.add(d.name)
            return
        if len(d.clauses) != 1:
            self.said.append(f"helper {d.name}: {len(d.clauses)} clauses")
            return
        head_, body = split_clause(d.clauses[0])
        params = split_args(head_)[1:]
        # the leading parameter of the type is the place
        m = re.match(r"(?s)\((\S+) : tie\.[^()]*\)(?: →)?\s*(→)?\s*(.*)", ty)
        m2 = re.match(r"(?s)tie\.[^→]*→\s*(.*)", ty)
        if m:
            var, rest = m.group(1), re.sub(r"^→\s*", "", m.group(3).strip())
        elif m2:
            var, rest = None, m2.group(1)
        else:
            self.said.append(f"helper {d.name}: {ty[:60]}")
            return
        used = []
        ctx = {params[0]} if params else set()
        body_ = self.turn(body.strip(), ctx, used)
        ty_ = self.turn(rest, {var} if var else set(), used)
        more = params[1:]
        if more:
            body_ = "λ " + " ".join(more) + ". " + body_
        macro = "abbrev" in d.marks and not more and not body_.startswith("let") and "\n" not in body_
        self.helpers[d.name] = {"type": ty_ if not ty_.startswith("let") else f"({ty_})", "body": body_, "used": used, "unfolding": d.unfolding, "macro": macro}


def main():
    crate, only = sys.argv[1], sys.argv[2:]
    folder = os.path.join("crates", crate)
    with tempfile.TemporaryDirectory() as top:
        said = subprocess.run(["rt", "check", "--generated", top, "--old-names"], cwd=folder, capture_output=True, text=True)
        path = os.path.join(top, "names.json")
        if not os.path.exists(path):
            print(said.stdout[-3000:], said.stderr[-2000:])
            sys.exit(2)
        names = json.load(open(path))
    for base, dirs, fs in sorted(os.walk(os.path.join(folder, "proofs"))):
        if "Proof.antt" not in fs:
            continue
        rel = os.path.relpath(base, os.path.join(folder, "proofs"))
        if only and rel not in only:
            continue
        key = f"Rattle-{crate}-proofs.{rel.replace('/', '.')}.Lts"
        if key not in names:
            print(f"{rel}: not listed")
            continue
        f = Function(crate, rel, names[key], None)
        text = open(os.path.join(base, "Proof.antt")).read()
        try:
            out = f.run(text)
        except Exception as e:  # what it cannot read stays
            print(f"{rel}: not turned: {type(e).__name__} {e}")
            continue
        aside = os.path.join("target/aside", crate, rel)
        os.makedirs(aside, exist_ok=True)
        json.dump(dict(f.fallback, **f.easy), open(os.path.join(aside, "fallback.json"), "w"))
        for name, t in out.items():
            with open(os.path.join(base, name), "w") as it:
                it.write(t)
        os.makedirs(os.path.join("target/aside", crate, rel), exist_ok=True)
        os.replace(os.path.join(base, "Proof.antt"), os.path.join("target/aside", crate, rel, "Proof.antt"))
        print(f"{rel}: {' '.join(out) or 'nothing'}" + (" | " + "; ".join(f.said) if f.said else ""))


if __name__ == "__main__":
    main()
