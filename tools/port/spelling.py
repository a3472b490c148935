#!/usr/bin/env python3
"""Spells the repository's own definitions and lemmas in snake case: `hasBit-or` becomes `has_bit_or`.

usage: spelling.py [--names]    at the top of a repository that port.py has turned

A name is one of the repository's own if a file of specs/ or proofs/ declares it: in a signature, as a field or as a constructor. Names of types and modules
keep their capital. A name that a file imports from a library stays as it is there. Written are the files of crates/ (in sources only the clauses and the lines
`ghost use`), the must-fail edits, and what stands between backticks in README.md and docs/. Where two names would fall together in a file, it says so and
writes nothing. --names prints the old and the new name of each, and writes nothing.
"""
import glob
import os
import re
import sys

WORD = r"[^\s(){}.;,@\"«»\[\]\\:=`|]+"
TOKEN = re.compile(r"--[^\n]*|//[^\n]*|\"(?:[^\"\\]|\\.)*\"|" + WORD)
DECLARED = re.compile(rf"(?m)^([ ]*)((?:pub |abbrev |unfoldable )*)({WORD}(?: {WORD})*) :(?= |$)")
RECORD = re.compile(r"(?m)^( *)(?:pub )?(record|data) [^\n]*\bwhere\n((?:\1 [^\n]*\n|\n)+)")


def snake(name):
    """hasBit-or: has_bit_or; AllFew and AllFew-more keep the capital of the type: AllFew, AllFew_more."""
    parts = name.split("-")
    out = []
    for part in parts:
        if part[:1].isupper():
            out.append(part)
        else:
            out.append(re.sub(r"(?<=[a-z0-9])([A-Z])", lambda m: "_" + m.group(1).lower(), part))
    return "_".join(out)


def read(path):
    with open(path, encoding="utf-8") as it:
        return it.read()


def bare(text):
    return re.sub(r"--[^\n]*", "", text)


def own_names(files):
    names, fields = set(), set()
    for path in files:
        text = bare(read(path))
        for m in DECLARED.finditer(text):
            names |= set(m.group(3).split())
        for m in RECORD.finditer(text):
            for d in DECLARED.finditer(m.group(3)):
                fields |= set(d.group(3).split())
    names = {n for n in names if re.fullmatch(r"[A-Za-z][\w'\u2080-\u2089-]*", n)}
    turned = {n: snake(n) for n in names if snake(n) != n}
    # A lemma that would have a definition's name gets `_lem`.
    defined = {snake(n) for n in names if "-" not in n and snake(n) != n}
    for n in names:
        if snake(n) in defined and ("-" in n or snake(n) == n):
            turned[n] = snake(n) + "_lem"
        elif "-" in n and snake(n) in names:
            turned[n] = snake(n) + "_lem"
    return turned, fields


def imported(text):
    """The names that a file takes from a library."""
    out = set()
    for m in re.finditer(r"(?m)^(?:ghost )?(?:pub )?use ([^\s;{]+?)\.\{([^}]*)\}", text):
        module = m.group(1)
        if module.startswith("Rattle.") and module.split(".")[1] in CRATES:
            continue
        for item in m.group(2).split(","):
            out.add(item.split(" as ")[-1].strip())
    return out


def turn(text, turned, fields, stays):
    def one(m):
        word = m.group()
        if word not in turned or word in stays:
            return word
        before = text[m.start() - 1 : m.start()]
        # A part of a path, unless it is the last, or a step or a field that Rattle names.
        if before == "." and (text[m.end() : m.end() + 1] == "." or not re.search(r"Rattle\.[\w.+-]*\.$", text[max(0, m.start() - 200) : m.start()])):
            if word not in fields:
                return word
        return turned[word]

    return TOKEN.sub(one, text)


def clauses(text, turned, fields, stays):
    """A source: only the clauses and the imports of definitions."""
    out, at = [], 0
    for m in re.finditer(r"(?m)^ghost use [^;]*;|\b(?:requires|ensures|invariant|ghost)\b[ \w]*\{", text):
        if m.start() < at:
            continue
        end = m.end()
        if m.group().endswith("{"):
            depth = 1
            while depth and end < len(text):
                depth += {"{": 1, "}": -1}.get(text[end], 0)
                end += 1
        out.append(text[at : m.start()])
        out.append(turn(text[m.start() : end], turned, fields, stays))
        at = end
    out.append(text[at:])
    return "".join(out)


def fallen(path, text, new, turned, stays):
    """The names that would fall together with another in this file."""
    here = {m.group() for m in TOKEN.finditer(text) if not m.group().startswith(("--", "//", '"')) and text[m.start() - 1 : m.start()] != "."}
    seen = {}
    for w in sorted(here):
        seen.setdefault(turned.get(w, w) if w not in stays else w, set()).add(w)
    return [f"{path}: {' and '.join(sorted(ws))} would both be {n}" for n, ws in sorted(seen.items()) if len(ws) > 1]


def main(argv):
    antt = sorted(glob.glob("crates/*/specs/**/*.antt", recursive=True) + glob.glob("crates/*/proofs/**/*.antt", recursive=True))
    turned, fields = own_names(antt)
    if argv == ["--names"]:
        for n in sorted(turned):
            print(n, turned[n])
        return 0
    written, said = {}, []
    for path in antt:
        text = read(path)
        stays = imported(text)
        new = turn(text, turned, fields, stays)
        said += fallen(path, text, new, turned, stays)
        written[path] = new
    for path in sorted(glob.glob("crates/*/src/**/*.rt", recursive=True)):
        text = read(path)
        written[path] = clauses(text, turned, fields, imported(text))
    for path in sorted(glob.glob("crates/*/must-fail/*.edit")):
        text = read(path)
        lines = text.split("\n")
        ghost = any(l.startswith("file: ") and l.endswith(".antt") for l in lines)
        for i, line in enumerate(lines):
            if re.match(r"(old|new):", line):
                if ghost:
                    lines[i] = turn(line, turned, fields, set())
                else:
                    lines[i] = clauses(line, turned, fields, set())
        written[path] = "\n".join(lines)
    for path in ["README.md", *sorted(glob.glob("docs/**/*.md", recursive=True))]:
        text = read(path)
        written[path] = re.sub(r"`[^`\n]+`", lambda m: "`" + turn(m.group()[1:-1], turned, turned, set()) + "`", text)
    if said:
        print("\n".join(said))
        return 1
    n = 0
    for path, new in written.items():
        if new != read(path):
            n += 1
            with open(path, "w", encoding="utf-8") as it:
                it.write(new)
    print(f"spelling: {len(turned)} names, {n} files written")
    return 0


CRATES = {os.path.basename(p) for p in glob.glob("crates/*")}
if __name__ == "__main__":
    raise SystemExit(main(sys.argv[1:]))
