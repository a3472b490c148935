#!/usr/bin/env python3
"""Turns Proof.antt files that name each goal by `tie.Need-..` into Invariants.antt and Answers.antt.

usage: answers.py NAMES CRATE [FUNCTION ..]

NAMES is the names.json that `rt check --generated DIR --old-names` writes in the crate's folder, CRATE that folder, FUNCTION a path below proofs/, as
`files/look` (none: each that has a Proof.antt). An answer that only says `search rules` is left out: the check tries that by itself. A Proof.antt that is turned
is taken away. It says what it cannot turn: '??' then stands in the answer.
"""
import json
import os
import re
import sys

W = r"[^\s(){}.;,@\"«»\[\]\\:=|]+"
PLAIN = ("search rules", "search needs")


def flat(name):
    name = re.sub(r"[-_]", "", name).lower()
    return re.sub(r"^overflow", "", name)


def clause_names(crate):
    """The names of the clauses of each function that has several, by its crate and name, in the crate's repository."""
    out = {}
    for folder, _, files in os.walk(os.path.join(crate, "..")):
        if os.sep + "src" not in folder:
            continue
        for name in files:
            if not name.endswith(".rt"):
                continue
            with open(os.path.join(folder, name), encoding="utf-8") as it:
                text = it.read()
            for m in re.finditer(r"\bfn (\w+)[^{;]*?((?:\n\s+(?:requires|ensures)[^\n]*)+)\n\{", text):
                named = re.findall(r"\n\s+ensures (\w+) \{", m.group(2))
                if len(named) > 1:
                    out[os.path.relpath(folder, os.path.join(crate, "..")).split(os.sep)[0] + "::" + m.group(1)] = named
    return out


def as_record(body, named):
    """A tuple with a part for each named clause, as a record."""
    text = body.rstrip()
    if not text.endswith(")"):
        return body
    depth, k = 0, len(text) - 1
    while k >= 0:
        depth += {")": 1, "]": 1, "}": 1, "(": -1, "[": -1, "{": -1}.get(text[k], 0)
        if depth == 0:
            break
        k -= 1
    before, inner = text[:k], text[k + 1 : -1]
    if before.strip() and not re.search(r"\bin\s*$", before):
        return body
    parts, depth, now = [], 0, ""
    for ch in inner:
        depth += {")": -1, "]": -1, "}": -1, "(": 1, "[": 1, "{": 1}.get(ch, 0)
        if ch == "," and depth == 0:
            parts.append(now)
            now = ""
        else:
            now += ch
    if now.strip():
        parts.append(now)
    if len(parts) != len(named):
        return body
    return before + "record { " + "; ".join(f"{n} = {p.strip()}" for n, p in zip(named, parts)) + " }"


class Function:
    def __init__(self, of, said):
        self.of = of
        self.args = {a.split(".")[-1]: b.split(".")[-1] for a, b in of["args"] if a.startswith(".args .")}
        self.callee = {p[0]: re.sub("::.*::", "::", p[3] or "") for p in of["places"]}
        self.said = said
        self.parent = {p[0]: p[1] for p in of["places"]}
        self.fields = {p[0]: p[2] for p in of["places"]}
        self.within = {p[0]: dict(map(tuple, p[4])) for p in of["places"]}
        self.arms = {p[0]: a for p, a in zip(of["places"], of["arms"]) if a}
        self.new_place = {p[0]: n for p, n in zip(of["places"], of["places_by_name"])}
        self.needs = of["needs"]
        self.at = {n[0]: a[0] for n, a in zip(of["needs"], of["asked_at"])}

    def need(self, word):
        for old, new in self.needs:
            if word in (old, new):
                return old, new
        for old, new in self.needs:
            if flat(word) == flat(old):
                return old, new
        for old, new in self.needs:
            if flat(word) == flat(new):
                return old, new
        return None

    def place(self, word):
        if word in self.parent:
            return word
        for p in self.parent:
            if flat(p) == flat(word) or flat(self.new_place[p]) == flat(word):
                return p
        return None

    def arm(self, place, field, tail):
        """What an arm of a match says of a step of the older kit: the new path, and what is left of the old one."""
        at = place
        while at:
            name, _, fields = self.arms.get(at, (None, 0, []))
            best = None
            for new, old, path in fields:
                if flat(old) == flat(field) and tail[: len(path)] == path and (best is None or len(path) > len(best[1])):
                    best = (new, path)
            if best:
                return f"{name}.{best[0]}", tail[len(best[1]) :]
            at = self.parent.get(at)
        return None

    def step(self, place, field):
        """The new name of a step that is known at a place, and the new names of its fields."""
        at = place
        while at:
            old, new = self.fields[at]
            if old and (old == field or flat(old) == flat(field) or new == field):
                return new, self.within[at], CLAUSES.get(self.callee[at], [])
            at = self.parent.get(at)
        return None, {}, []


CLAUSES = {}
RENAMED = {"inv": "invariant", "taken": "true", "left": "false", "pre": "requires", "told": "ensures", "given": "is"}
KNOWN = {"args", "requires", "ranges", "auto", "type_inv", "initial", "well_formed", "utf8", "settings"}


def paths(f, text, env, goal):
    """Rewrites the paths of a body: `c.before.if1.true` becomes `c.if-x.true`. env: variable: (place, new text)."""
    out, i = [], 0
    token = re.compile(rf"--[^\n]*|\"(?:[^\"\\]|\\.)*\"|{W}")
    local = dict(env)
    while True:
        m = token.search(text, i)
        if not m:
            out.append(text[i:])
            break
        word = m.group()
        out.append(text[i : m.start()])
        i = m.end()
        if word == "let":
            # let x = c.before.before in
            b = re.match(rf"(\s+)({W})(\s*=\s*)({W})((?:\.before)*)(\s+in\b\s*)", text[i:])
            if b and b.group(4) in local:
                place = local[b.group(4)][0]
                for _ in range(b.group(5).count(".before")):
                    place = f.parent.get(place) if place else None
                local[b.group(2)] = (place, local[b.group(4)][1])
                i += b.end()
                # the layout of the let goes with it
                continue
        if word in local and (m.start() == 0 or text[m.start() - 1] != "."):
            place, name = local[word]
            rest = re.match(r"(?:\.before)*", text[i:]).group()
            i += len(rest)
            at = place
            n = rest.count(".before")
            for _ in range(n):
                at = f.parent.get(at) if at else None
            step = re.match(rf"\.({W})", text[i:])
            if not step:
                # the record of a place itself
                if at is None:
                    f.said.append(f"{goal}: no place for {word}{rest}")
                    out.append(name + rest + " ??")
                else:
                    up, k = f.here, 0
                    while up and up != at:
                        up, k = f.parent.get(up), k + 1
                    out.append(name + ".before" * k if up else name + rest + " ??")
                continue
            field = step.group(1)
            i += step.end()
            within, named = {}, []
            if flat(field) in {flat(k) for k in KNOWN} or field == "pre":
                new = {"pre": "requires"}.get(field, field)
            else:
                new, within, named = f.step(at, field) if at else (None, {}, [])
                if new is None:
                    # The older kit had a step more here: names of steps are counted, so the place of the goal finds it too.
                    new, within, named = f.step(f.here, field)
            more = re.match(rf"((?:\.{W})*)", text[i:])
            tail = more.group()
            i += more.end()
            arm = f.arm(f.here, field, tail.split(".")[1:])
            if arm:
                out.append(".".join([name, arm[0], *arm[1]]))
                continue
            if new is None:
                f.said.append(f"{goal}: no step {word}{rest}.{field}{tail}")
                new = field + "??"
            parts = tail.split(".") if new == "args" else [RENAMED.get(p, p) for p in tail.split(".")]
            if len(parts) > 1:
                parts[1] = within.get(parts[1], parts[1])
                if len(parts) > 2 and parts[1] == "ensures" and named and parts[2].isdigit():
                    parts[2] = named[int(parts[2])]
                if new == "args":
                    # The older kit counted a parameter that has the name of a word of its own.
                    parts[1] = f.args.get(parts[1], parts[1])
            tail = ".".join(parts)
            out.append(f"{name}.{new}{tail}")
            continue
        out.append(word)
    return "".join(out)


def main(argv):
    names, crate, only = argv[0], argv[1].rstrip("/"), argv[2:]
    with open(names, encoding="utf-8") as it:
        of_all = json.load(it)
    CLAUSES.update(clause_names(crate))
    for key, of in sorted(of_all.items()):
        m = re.match(r"Rattle-([\w]+)-proofs\.(.+)\.Lts$", key)
        if not m:
            continue
        folder = os.path.join(crate, "proofs", m.group(2).replace(".", "/"))
        path = os.path.join(folder, "Proof.antt")
        if not os.path.exists(path) or only and m.group(2).replace(".", "/") not in only:
            continue
        convert(path, folder, of, f"Rattle.{m.group(1)}.proofs.{m.group(2)}")
    return 0


def declarations(text):
    """A file as (comments, unfolding, kind, name, type, clauses) and other pieces, in order."""
    lines = text.split("\n")
    out, i, comments = [], 0, []
    while i < len(lines):
        line = lines[i]
        if not line.strip():
            if comments:
                out.append(("comment", "\n".join(comments)))
                comments = []
            i += 1
            continue
        if line.startswith("--"):
            comments.append(line)
            i += 1
            continue
        j = i + 1
        while j < len(lines) and (lines[j][:1].isspace() or not lines[j].strip()):
            j += 1
        chunk = lines[i:j]
        while chunk and not chunk[-1].strip():
            chunk.pop()
        whole = "\n".join(chunk)
        if line.startswith("use "):
            if comments:
                out.append(("comment", "\n".join(comments)))
                comments = []
            out.append(("use", whole))
            i = j
            continue
        sig = re.match(rf"((?:abbrev |pub |unfoldable )*)({W}) :\s+(.*)", whole, re.S)
        if sig and not whole.startswith(("module ", "record ", "data ")):
            name = sig.group(2)
            unfolding, clauses = None, []
            i = j
            while i < len(lines):
                l = lines[i]
                if l.startswith("unfolding "):
                    unfolding = l
                    i += 1
                    continue
                if re.match(rf"{re.escape(name)}(?=[\s=])", l):
                    j = i + 1
                    while j < len(lines) and (lines[j][:1].isspace() or (not lines[j].strip() and j + 1 < len(lines) and lines[j + 1][:1].isspace())):
                        j += 1
                    chunk = lines[i:j]
                    while chunk and not chunk[-1].strip():
                        chunk.pop()
                    clauses.append("\n".join(chunk))
                    i = j
                    continue
                break
            out.append(("decl", comments, sig.group(1), name, sig.group(3), unfolding, clauses))
            comments = []
            continue
        out.append(("other", comments, whole))
        comments = []
        i = j
    if comments:
        out.append(("comment", "\n".join(comments)))
    return out


def split_args(text):
    """The arguments of an application, by brackets."""
    out, depth, now = [], 0, ""
    for ch in text:
        if ch in "([{":
            depth += 1
        if ch in ")]}":
            depth -= 1
        if ch.isspace() and depth == 0:
            if now:
                out.append(now)
            now = ""
        else:
            now += ch
    if now:
        out.append(now)
    return out


def convert(path, folder, of, module):
    said = []
    f = Function(of, said)
    own = CLAUSES.get(module.split(".")[1] + "::" + module.split(".")[-1], [])
    with open(path, encoding="utf-8") as it:
        text = it.read()
    decls = declarations(text)
    head, uses, inv, ans = [], [], [], []
    by_name = {}
    for d in decls:
        if d[0] == "comment":
            if not uses and not head:
                head.append(d[1])
            else:
                ans.append(d[1])
        elif d[0] == "use":
            uses.append(d[1])
        elif d[0] == "other":
            ans.append("\n".join([*d[1], d[2]]))
            said.append("other: " + d[2].split("\n")[0])
        else:
            _, comments, marks, name, typ, unfolding, clauses = d
            typ1 = " ".join(typ.split())
            goal = re.match(r"tie\.Need-(\S+)", typ1)
            loop = re.match(r"tie\.(invariant|decreases)-(\S+)$", typ1)
            if name.endswith(("-spec", "_spec")) and "statement" in typ1:
                spec = "\n".join(clauses)
                k = spec.find("tie.spec")
                if k >= 0:
                    rest = spec[k + len("tie.spec") :].strip()
                    # up to the bracket that closes (tie.spec ..)
                    depth, end = 0, len(rest)
                    for p, ch in enumerate(rest):
                        depth += {"(": 1, ")": -1}.get(ch, 0)
                        if depth < 0:
                            end = p
                            break
                    args = split_args(rest[:end])
                    args = [a for a in args if not re.match(r"(invariant|decreases)[-_]", a)]
                    if len(args) == len(f.needs):
                        for a, (old, new) in zip(args, f.needs):
                            lam = re.match(r"\(λ ([^.]*)\.\s*(.*)\)$", a, re.S)
                            if lam and not lam.group(2).strip().startswith(PLAIN):
                                var = lam.group(1).split()[0]
                                f.here = f.at.get(old)
                                body = paths(f, lam.group(2), {var: (f.here, var)}, new)
                                ans.append(f"pub {new} : goal.{new}\n{new} {var} = {body}")
                            elif not lam and a in by_name and by_name[a][0] != new:
                                said.append(f"spec: {a} is asked for {old} {new}, and answers {by_name[a]}")
                            elif not lam and a not in by_name:
                                said.append(f"spec: {a} for {new} has no declaration")
                    else:
                        said.append(f"spec: {len(args)} answers for {len(f.needs)} goals; by hand: " + " | ".join(f"{a}" for a in args if a.startswith("(") and "search rules" not in a))
                continue
            if loop:
                inv.append((comments, loop.group(1), loop.group(2), unfolding, clauses, name))
                continue
            if goal:
                need = f.need(goal.group(1))
                if need is None:
                    said.append(f"no goal for {goal.group(1)} (declared as {name})")
                    ans.append("\n".join([*comments, f"-- ?? {typ1}", *clauses]))
                    continue
                old, new = need
                by_name[name] = (new,)
                f.here = f.at.get(old)
                lines = list(comments) + [f"pub {new} : goal.{new}"]
                if unfolding:
                    lines.append(unfolding)
                plain = len(clauses) == 1
                for c in clauses:
                    m = re.match(rf"{re.escape(name)}((?:\s+{W})*)\s*=\s*(.*)", c, re.S)
                    if not m:
                        said.append(f"{new}: clause not read: {c[:60]}")
                        lines.append(c)
                        continue
                    args = m.group(1).split()
                    var = args[0] if args else None
                    body = m.group(2)
                    if var:
                        body = paths(f, body, {var: (f.here, var)}, new)
                    if new.startswith("returns") and own:
                        body = as_record(body, own)
                    nl = "\n    " if "\n" in body or len(body) > 130 else " "
                    lines.append(f"{new} {var or ''} ={nl}{body}".replace("  =", " ="))
                    if not body.strip() in PLAIN or unfolding:
                        plain = False
                if not plain:
                    ans.append("\n".join(lines))
                continue
            # A helper of the file: its places are named in the module of the goals, and a path in it begins at its place.
            env = {}
            for var, word in re.findall(rf"\(({W}) : tie\.({W})[^()]*\)", typ):
                at = f.place(word)
                if at:
                    env[var] = (at, var)
                    f.here = at
                else:
                    said.append(f"helper {name}: no place {word}")
            named_places = lambda m: "goal." + (f.new_place[f.place(m.group(1))] if f.place(m.group(1)) else m.group(1) + "??")
            text = "\n".join(clauses)
            loose = not env and "tie." in typ + text
            typ = re.sub(rf"tie\.({W})((?:\s+(?:invariant|decreases)[-_]{W})*)", named_places, typ)
            text = re.sub(rf"tie\.({W})((?:\s+(?:invariant|decreases)[-_]{W})*)", named_places, text)
            if env:
                typ = paths(f, typ, env, name)
                text = paths(f, text, env, name)
            if loose or not env and re.search(r"\bbefore\b", text):
                said.append(f"helper {name} : {typ1[:100]}")
            ans.append("\n".join([*comments, f"{marks}{name} : {typ}", *([unfolding] if unfolding else []), text]))
    uses = [u for u in uses if not re.search(r"\.(Statement\.\{statement\}|Tie as tie)$", u)]
    if ans:
        out = "\n".join([*head, *uses, f"use {module}.Goals as goal", ""]) + "\n" + "\n\n".join(ans) + "\n"
        with open(os.path.join(folder, "Answers.antt"), "w", encoding="utf-8") as it:
            it.write(out)
    if inv:
        out = "\n".join([*([] if ans else head), *uses, f"use {module}.Given as goal", ""]) + "\n" + "\n\n".join(invariant(f, of, *i) for i in inv) + "\n"
        with open(os.path.join(folder, "Invariants.antt"), "w", encoding="utf-8") as it:
            it.write(out)
    os.remove(path)
    print(("turned: " if not said else "look: ") + path + ("\n    " + "\n    ".join(said) if said else ""))


def invariant(f, of, comments, kind, loop, unfolding, clauses, name):
    """The variables of a loop stand in order: those that stay, or the first value of those that change, then what changes, as it is now."""
    entry = None
    for (names, variables), changed in zip(of["loops"], of["changed"]):
        if loop in names or flat(loop) == flat(names[0]) or flat(loop) == flat(names[1]):
            entry = entry or (names[1], variables, changed)
    new = entry[0] if entry else loop
    to_all = []
    if entry:
        to_all = [("l.initial." if ch else "l.") + v for v, ch in zip(entry[1], entry[2])] + ["l." + v for v, ch in zip(entry[1], entry[2]) if ch]
    else:
        f.said.append(f"no loop {loop}: {of['loops']}")
    lines = [*comments, f"abbrev pub {kind}-{new} : goal.{kind}-{new}"]
    if unfolding:
        lines.append(unfolding)
    for c in clauses:
        m = re.match(rf"{re.escape(name)}((?:\s+{W})*)\s*=\s*(.*)", c, re.S)
        if not m:
            f.said.append("invariant not read: " + c[:80])
            continue
        args, body = m.group(1).split(), m.group(2)
        if entry and len(args) != len(to_all):
            f.said.append(f"{loop}: {len(args)} names for {len(to_all)} variables: {args} {to_all}")
        to = {x: (to_all[k] if k < len(to_all) else x + "??") for k, x in enumerate(args) if x != "_"}
        body = re.sub(rf"(?<![.\w'₀-₉-])({'|'.join(sorted(map(re.escape, to), key=len, reverse=True))})(?![\w'₀-₉-])", lambda m: to[m.group(1)], body) if to else body
        nl = "\n    " if "\n" in body or len(body) > 130 else " "
        lines.append(f"{kind}-{new} l ={nl}{body}")
    return "\n".join(lines)


if __name__ == "__main__":
    raise SystemExit(main(sys.argv[1:]))
