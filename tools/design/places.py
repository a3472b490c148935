#!/usr/bin/env python3
"""Lists the places of a tree that read like a language without today's forms, by the eight points of docs/DESIGN-PASS.md.

usage: places.py [--counts] [--point N] [TREE]

TREE is the top of a repository (by default this one), a worktree or an exported tree of another commit. Read are the `.rt` files of crates/*/src, for point 8
the Answers.antt of crates/*/proofs. Each line has the place, the rule that found it and the text; a place may stand under two points. A place with a comment
beside it that says why it stays (`KEPT` below) is marked and counted by itself. --counts prints the table alone, by point and crate.

The rules are shapes and names, and no verdict: what they list is a place to look at.
"""
import collections
import difflib
import glob
import os
import re
import sys

POINTS = {
    1: "own Option or Result, a flag with a value, numbers for kinds and refusals",
    2: "twins",
    3: "an index counted by hand",
    4: "equality, order, copying, conversion, printing by hand",
    5: "a fact in three contracts, parameters that travel together",
    6: "a length beside a buffer, parallel arrays, searches by hand",
    7: "a switch on which step to run",
    8: "answers that repeat, or that the check finds",
}

# How a comment says why a place stays: its first words name the form, up to a colon; or it has the words of such a reason.
FORM = (r"while|loop|index|match|switch|numbers?|flags?|answers?|structs?|enums?|types?|counts?|casts?|cop(?:y|ies)|constants?|twins?|arrays?|buffers?|slices?|places?|"
        r"search|order|minimum|fold|tests?|names?|functions?|method[^:]*|parameters?|facts?|hand|cases?|chain|forms?|other")
KEPT = re.compile(rf"//+ (?:An?|Own|Two|Three|No|By)(?: [\w'`]+){{0,4}}? (?:{FORM}): |"
                  r"//.*(?:[Pp]aper 01 asks for|would take a closure|would cost|costs? a copy|allocates nothing|no plainer|is plainer|slower|faster|did not (?:prove|close)|does not (?:prove|close)|guarantee's|theorem)")

INSIDE = re.compile(r"//+ (?:An?|Two|No) (?:while|loops?|index|match|switch|search|fold|minimum|list|order)\b[^:]*: |//.*(?:[Pp]aper 01 asks for|would take a closure)")

# The names of a case or a field that say whether there is a value.
NONE = {"None", "Nothing", "Unknown", "Off", "Bad", "Refused", "Malformed", "Unreadable", "Invalid", "Missing", "Absent", "Failed", "Error"}
FAULTS = NONE - {"None", "Nothing", "Failed"}
FLAGS = {**dict.fromkeys(("good", "timed", "typed", "quiet", "loaded", "found", "point", "valid"), "bool"), **dict.fromkeys(("refusal", "number"), r"u\d+|usize"),
         **dict.fromkeys(("answer", "verdict", "status"), ".*")}
COUNTS = {"n", "count", "len", "length", "depth", "used", "begun", "size"}
NUMBER = r"(?:u8|u16|u32|u64|usize)"

WORD = re.compile(r"[A-Za-z_]\w*|\d[\w.]*|'[a-z]\b|b?'(?:\\.|[^'])+'|b?\"(?:\\.|[^\"\\])*\"|::|->|=>|[<>=!]=|[-+*/|&]=|\.\.=?|&&|\|\||\S")
KEYWORDS = set("as break const continue else enum fn for if impl in let loop match mod move mut pub ref return self Self static struct trait true false use where while "
               "u8 u16 u32 u64 usize i32 bool str Some None Ok Err".split())


def blank(text):
    """The text with comments, strings and bytes in quotes blanked out, so that places and braces stay what they are."""
    def hole(m):
        if m.group().startswith("//"):
            return " " * len(m.group())
        start = 2 if m.group().startswith("b") else 1
        return m.group()[:start] + re.sub(r"[^\n]", "_", m.group()[start:-1]) + m.group()[-1]
    return re.sub(r"//[^\n]*|b?\"(?:\\.|[^\"\\])*\"|b?'(?:\\.|[^'\\\n])'", hole, text)


def closing(text, at):
    """The place past the bracket that closes the one at a place."""
    ends, depth = {"(": ")", "{": "}", "[": "]"}, 0
    for k in range(at, len(text)):
        if text[k] in ends:
            depth += 1
        elif text[k] in ends.values():
            depth -= 1
            if depth == 0:
                return k + 1
    return len(text)


def parts(text, mark):
    """What a mark separates outside brackets."""
    out, depth, now = [], 0, ""
    for k, c in enumerate(text):
        if c in "([{" or c == "<" and mark == ",":
            depth += 1
        elif c in ")]}" or c == ">" and mark == "," and text[k - 1 : k] != "-":
            depth -= 1
        if c == mark and depth == 0:
            out.append(now)
            now = ""
        else:
            now += c
    return [p.strip() for p in out + [now] if p.strip()]


def one_line(text, most=110):
    text = " ".join(text.split())
    return text if len(text) <= most else text[: most - 3] + "..."


class Function:
    """name, params [(name, type)], result, requires and ensures [(name, text, place)], body."""

    def __init__(self, file, m):
        text = file.bare
        self.file, self.name, self.at = file, m.group(2), m.start(2)
        # The trait that it is a part of, where it stands in an impl of one.
        self.trait = next((t for t, start, end in file.impls if start < self.at < end), "")
        k = m.end()
        if text[k : k + 1] == "<":
            depth = 0
            while k < len(text):
                depth += {"<": 1, ">": 0 if text[k - 1] == "-" else -1}.get(text[k], 0)
                k += 1
                if depth == 0:
                    break
        end = closing(text, k)
        self.params = []
        for p in parts(text[k + 1 : end - 1], ","):
            name, colon, of = p.partition(":")
            name = name.replace("mut ", "").strip()
            self.params.append((name if colon else "self", " ".join(of.split()) if colon else p))
        head = re.compile(r"\s*(requires|ensures|decreases|reads|panics)\b([ \w]*)\{")
        stop = re.compile(r"\n\s*(?:requires|ensures|decreases)\b|\{|;").search(text, end)
        self.result = " ".join(text[end : stop.start()].replace("->", " ").split()) if stop else ""
        self.requires, self.ensures = [], []
        k = stop.start() if stop else len(text)
        while True:
            c = head.match(text, k)
            if not c:
                break
            k = closing(text, c.end() - 1)
            if c.group(1) in ("requires", "ensures"):
                getattr(self, c.group(1)).append((c.group(2).strip(), file.bare[c.end() : k - 1], c.start(1)))
        b = re.compile(r"\s*\{").match(text, k)
        self.start, self.end = (b.end(), closing(text, b.end() - 1) - 1) if b else (k, k)
        self.body, self.said = text[self.start : self.end], file.text[self.start : self.end]


class File:
    def __init__(self, tree, path):
        self.path = os.path.relpath(path, tree)
        self.crate = self.path.split(os.sep)[1]
        with open(path, encoding="utf-8") as it:
            self.text = it.read()
        self.bare = blank(self.text)
        self.lines = self.text.split("\n")
        self.impls = [(m.group(1) or "", m.start(), closing(self.bare, m.end() - 1))
                      for m in re.finditer(r"(?m)^impl(?:<[^{]*?>)? (?:([A-Z]\w*)[^{;]*? for )?[^{;]*\{", self.bare)]
        self.functions = [Function(self, m) for m in re.finditer(r"(?m)^[ \t]*(pub(?:\([^)]*\))? )?(?:const )?(?:extern \"C\" )?fn (\w+)", self.bare)]
        self.types = []
        for m in re.finditer(r"(?m)^[ \t]*(?:pub(?:\([^)]*\))? )?(struct|enum) (\w+)[^;{(]*\{", self.bare):
            inside = self.bare[m.end() : closing(self.bare, m.end() - 1) - 1]
            # What is for proofs alone, a field or an invariant, is no part of it.
            inside = re.sub(r"#\[[^\]]*\]", "", re.sub(r"\b(?:pub )?(?:ghost|invariant)\b[^,;{}]*(?:\{[^{}]*\})?[,;]?", "", inside))
            self.types.append((m.group(1), m.group(2), m.start(2), parts(inside, ",")))

    def line(self, at):
        return self.text.count("\n", 0, at) + 1


class Places:
    def __init__(self, tree):
        self.tree = tree
        self.found = []
        self.files = [File(tree, p) for p in sorted(glob.glob(os.path.join(tree, "crates/*/src/**/*.rt"), recursive=True))]
        self.all = [f for file in self.files for f in file.functions]
        for rule in (self.point1, self.point2, self.point3, self.point4, self.point5, self.point6, self.point7, self.point8):
            rule()
        self.found.sort(key=lambda p: (p[0], p[1], p[2], p[3]))

    def add(self, point, file, at, rule, text=None, line=None):
        line = line or file.line(at)
        if text is None:
            text = file.lines[line - 1]
        place = (point, file.path, line, rule, one_line(text), self.reason(file, line))
        if place not in self.found:
            self.found.append(place)

    @staticmethod
    def reason(file, line):
        """The comment that says why a place stays: at the end of its line, or in the lines above it that are comments and attributes; or above the function
        that the place stands in, where the comment speaks of a part of it."""
        said = file.lines[line - 1]
        near = [said[said.index("//") :]] if "// " in said else []
        found = next((c for c in near + Places.above(file, line) if KEPT.match(c)), "")
        f = next((f for f in file.functions if file.line(f.at) < line <= file.line(f.end)), None)
        if not found and f:
            found = next((c for c in Places.above(file, file.line(f.at)) if INSIDE.match(c)), "")
        return one_line(found, 100)

    @staticmethod
    def above(file, line):
        found = []
        while line > 1 and re.match(r"\s*(//|#\[|$)", file.lines[line - 2]):
            # A comment that stands by itself, with an empty line below it, counts too.
            if not file.lines[line - 2].strip() and not (line > 2 and file.lines[line - 3].lstrip().startswith("//")):
                break
            found.append(file.lines[line - 2].strip())
            line -= 1
        return found

    @staticmethod
    def fields(inside):
        """The fields of a struct, as (name, type)."""
        found = [re.match(r"(?:pub(?:\([^)]*\))? )?(\w+)\s*:\s*(.*)", f, re.S) for f in inside]
        return [m.groups() for m in found if m]

    # ---- 1

    def enums(self):
        """Each enum with its cases, a case as (name, what it carries)."""
        for file in self.files:
            for kind, name, at, inside in file.types:
                if kind == "enum":
                    yield file, name, at, [(re.match(r"(?:#\[[^\]]*\]\s*)*(\w+)", c).group(1), bool(re.search(r"[({]", c))) for c in inside]

    def point1(self):
        for file, name, at, cases in self.enums():
            bare, full = [c for c, value in cases if not value], [c for c, value in cases if value]
            if len(cases) == 2 and len(bare) == len(full) == 1:
                self.add(1, file, at, "an enum like Option or Result")
            elif len(cases) == 2 and len(full) == 2 and len(FAULTS & set(full)) == 1:
                self.add(1, file, at, "an enum like Result")
            elif len(full) == len(cases) and set(full) <= FAULTS:
                # an enum of errors
                continue
            elif (NONE if full else NONE - FAULTS | {"Unknown", "Off"}) & set(bare) or FAULTS & set(full):
                self.add(1, file, at, "an enum with a case for none or a fault")
        for file in self.files:
            for kind, name, at, inside in file.types:
                fields = dict(self.fields(inside)) if kind == "struct" else {}
                flags = [f for f, t in fields.items() if re.fullmatch(FLAGS.get(f, "-"), t, re.S)]
                if flags and len(fields) > 1:
                    self.add(1, file, at, f"a struct with `{flags[0]}` beside values")
            self.kinds_as_numbers(file)
        for f in self.all:
            above = next((l for l in f.file.lines[: f.file.line(f.at) - 1][::-1] if not l.startswith("#[")), "")
            if re.match(r"\s*//(?!.* set ).*\b(?:where (?:there|it) (?:is|fits) none|for none|none of (?:them|theirs))", above) and re.fullmatch(NUMBER, f.result):
                self.add(1, f.file, f.at, "a number that stands for none")
            if self.numbering(f):
                self.add(1, f.file, f.at, "a kind to a number, or back")

    @staticmethod
    def is_match(f):
        """The body is one match, at most after lets that name fields."""
        return re.fullmatch(r"\s*(?:let \w+ = \w+\.\w+;\s*)*match [^{]*\{.*\}\s*", f.body, re.S) and closing(f.body, f.body.index("{", f.body.index("match"))) >= len(f.body.rstrip())

    @classmethod
    def arms(cls, f):
        """The arms of the match that a body is, as (pattern, value)."""
        if not cls.is_match(f):
            return []
        inside = f.body[f.body.index("{", f.body.index("match")) + 1 : f.body.rindex("}")]
        out = []
        while "=>" in inside:
            pattern, _, rest = inside.partition("=>")
            rest = rest.lstrip()
            end = closing(rest, 0) if rest.startswith("{") else len(parts(rest, ",")[0]) if parts(rest, ",") else 0
            out.append((pattern.strip(" ,\n"), rest[:end].strip()))
            inside = rest[end:].lstrip(" ,\n")
        return out

    def numbering(self, f):
        arms = self.arms(f) if f.trait not in ("From", "TryFrom") else []
        number = [a for a in arms if re.fullmatch(r"\d+|[A-Z][A-Z_0-9]+", a[1])]
        back = [a for a in arms if re.fullmatch(r"\d+(?: \| \d+)*|_", a[0]) and re.match(r"[A-Z]\w+(?:::|$)", a[1])]
        return len(arms) > 2 and (len(number) >= len(arms) - 1 and not re.match(r"\d", arms[0][0]) or len(back) == len(arms))

    def kinds_as_numbers(self, file):
        run, last = [], None
        for m in [*re.finditer(rf"(?m)^[ \t]*(?:pub(?:\([^)]*\))? )?const (\w+): {NUMBER} = (\d+);", file.bare), None]:
            if m and run and int(m.group(2)) == last + 1:
                run.append(m)
            else:
                if len(run) > 2:
                    self.add(1, file, run[0].start(), "constants that number kinds", f"{run[0].group(1)} .. {run[-1].group(1)}: {run[0].group(2)} to {run[-1].group(2)}")
                run = [m] if m else []
            last = int(m.group(2)) if m else None
        listed = [p[2] for p in self.found if p[1] == file.path and p[3].startswith("a struct with")]
        texts = "|\\btext: usize" if any(p[1] == file.path and p[3] == "constants that number kinds" for p in self.found) else ""
        for m in re.finditer(rf"(?<!mut )(?:\bnumber: u8|\bverb: usize|\brefusal: u64{texts})\b(?!::)", file.bare):
            # The field that a struct is listed for stands in a line soon after.
            if not any(line < file.line(m.start()) <= line + 3 for line in listed):
                self.add(1, file, m.start(), "a number for a kind or a refusal")
        written = list(re.finditer(r"\bnumber: [1-9]\d*|\bbare\([1-9]\d*|\brefused_reply\(\d+|\bnumber\w* (?:==|<|<=|!=) [1-9]\d*|[1-9]\d* <= number", file.bare))
        if written:
            self.add(1, file, written[0].start(), "numbers of refusals", ", ".join(sorted({re.search(r"\d+", m.group()).group() for m in written}, key=int)))

    # ---- 2

    @staticmethod
    def shape(body, loose):
        """The words of a body, with each name by the order in which it comes; loose: numbers, bytes and constants too."""
        seen, out = {}, []
        for w in WORD.findall(body):
            if re.match(r"[A-Za-z_]", w) and w not in KEYWORDS and not (w.startswith(("b'", 'b"'))):
                w = seen.setdefault(w, f"n{len(seen)}")
            elif loose and re.match(r"\d|b?['\"]", w):
                w = "0"
            out.append(w)
        return tuple(out)

    def point2(self):
        of = [(f, self.shape(re.sub(r"//[^\n]*", "", f.said), True)) for f in self.all if f.body.strip() and not self.tabled(f)]
        groups = collections.defaultdict(list)
        for f, shape in of:
            # What picks between two cases is short; so is a search, and says no more. A body of a few words is one only beside others in its crate.
            if len(shape) >= 9 and {"if", "while", "for", "match", "loop", "{", "["} & set(shape):
                groups[shape if len(shape) >= 18 or "::" not in shape else (f.file.crate, shape)].append(f)
        twins = set()
        for same in groups.values():
            for f in same[1:]:
                twins.add(f)
                self.twin(f, same[0], "the same body")
        long = [(f, shape) for f, shape in of if len(shape) >= 40 and f not in twins]
        for k, (f, shape) in enumerate(long):
            best = None
            for g, other in long[:k]:
                least = 0.8 if f.file.crate == g.file.crate else 0.9 if len(shape) >= 60 else 0.97
                if min(len(shape), len(other)) / max(len(shape), len(other)) < 0.75:
                    continue
                match = difflib.SequenceMatcher(None, shape, other, False)
                if match.quick_ratio() >= least:
                    ratio = match.ratio()
                    if ratio >= least and (best is None or ratio > best[0]):
                        best = (ratio, g)
            if best:
                self.twin(f, best[1], f"a body {best[0]:.0%} alike")
        groups = collections.defaultdict(list)
        for file in self.files:
            for kind, name, at, inside in file.types:
                bare = [re.sub(r"pub(?:\([^)]*\))? ", "", p) for p in inside]
                # A type with parameters is what others may go into.
                if kind == "struct" and len(bare) > 1 and not file.bare.startswith("<", at + len(name)):
                    fields = [p.split(":")[0].strip() for p in bare]
                    groups["answer", len(fields)].append((file, name, at)) if fields[0] == "answer" else groups[tuple(fields)].append((file, name, at))
                elif kind == "enum" and any("(" in p for p in bare):
                    last = [p.split("(")[0] for p in bare if "(" in p][-1]
                    groups["enum", last, len(bare)].append((file, name, at)) if last in NONE else None
        for same in groups.values():
            for file, name, at in same[1:]:
                self.add(2, file, at, "a type of the same form", f"{name} ~ {same[0][1]} of {same[0][0].path}:{same[0][0].line(same[0][2])}")

    def tabled(self, f):
        """A match to true and false, or to numbers: point 1 and point 4 have these."""
        return f.trait in ("From", "TryFrom") or self.numbering(f) or len(self.arms(f)) > 1 and all(v in ("true", "false") for _, v in self.arms(f))

    def twin(self, f, g, rule):
        self.add(2, f.file, f.at, rule, f"{f.name} ~ {g.name} of {g.file.path}:{g.file.line(g.at)}")

    # ---- 3

    @staticmethod
    def loops(f):
        """Each loop of a function: its word, its head, its body, where it begins in the file."""
        for m in re.finditer(r"\b(while|for|loop)\b", f.body):
            k, depth = m.end(), 0
            while k < len(f.body) and not (f.body[k] == "{" and depth == 0):
                depth += {"(": 1, "[": 1, ")": -1, "]": -1}.get(f.body[k], 0)
                k += 1
            yield m.group(1), f.body[m.end() : k], f.body[k : closing(f.body, k)], f.start + m.start()

    @staticmethod
    def counted(head, body):
        """The name in the head of a loop that the body moves by one."""
        for name in dict.fromkeys(re.findall(r"\b[a-z_]\w*\b", head)):
            if re.search(rf"(?<![\w.]){name} [+-]= 1\b|(?<![\w.]){name} = {name} [+-] 1\b", body):
                return name
            for step in re.findall(rf"\blet (\w+) = {name} [+-] 1\b", body):
                if re.search(rf"(?<![\w.]){name} = {step}\b", body):
                    return name
        return None

    def point3(self):
        for f in self.all:
            for word, head, body, at in self.loops(f):
                if word == "while" and self.counted(head, body):
                    self.add(3, f.file, at, f"`{self.counted(head, body)}` counts")

    # ---- 4

    def point4(self):
        for f in self.all:
            arms = self.arms(f)
            if len(arms) > 1 and all(v in ("true", "false") for _, v in arms):
                self.add(4, f.file, f.at, "a match to true and false")
            if self.numbering(f):
                self.add(4, f.file, f.at, "a conversion by a match")
            same = [p for p, v in arms if p == v or re.fullmatch(r"\w+::(\w+)", p) and re.search(rf"\b{re.escape(p)}\b", v)]
            if len(same) > 1:
                self.add(4, f.file, f.at, "cases that stay, one by one")
            if len(arms) > 1 and all(re.search(r"b\"_*\"", v) for _, v in arms):
                self.add(4, f.file, f.at, "printing by a match")
            bare = [v for p, v in arms if not re.search(r"[({]", p)]
            if len(arms) == 2 and len(bare) == 1 and bare[0] in ("0", "true", "false") and not any("|" in p for p, _ in arms) and not all(v in ("true", "false") for _, v in arms):
                self.add(4, f.file, f.at, "`unwrap_or` or `is_some_and` by a match")
            if re.fullmatch(rf"\s*(?!self)\w+ as {NUMBER}\s*", f.body) and not f.trait:
                self.add(4, f.file, f.at, "a cast as a function")
            words = re.findall(r"\b(?:write|print|put)\w*\((?:\w+, )+b\"_*\"\)", f.body)
            if len(words) > 2 and not arms:
                self.add(4, f.file, f.at, "printing piece by piece", f"{f.name}: {len(words)} pieces")
            for m in re.finditer(r"(?<![\w:])(?:[A-Z]\w+|Self) \{((?:[^{}]|\{[^{}]*\})*)\}", f.body):
                copied = collections.Counter(b for a, b, c in re.findall(r"(?:^|[\s,{])(\w+): (\w+)\.(\w+)(?=\s*[,}\n]|$)", m.group(1)) if a == c and b != "self")
                if copied and max(copied.values()) > 1 and ".." not in m.group(1):
                    self.add(4, f.file, f.start + m.start(), "fields copied one by one")
            for _, head, body, at in self.loops(f):
                if re.search(r"\w+\[[^\]]*\] [=!]= \w+\[[^\]]*\](?!\])", body) and f.result == "bool":
                    self.add(4, f.file, at, "equality byte by byte", f"{f.name}: {f.file.lines[f.file.line(at) - 1].strip()}")
            for m in re.finditer(r"\bif ([^{};]+?) \{\s*([^{};]+?)\s*\} else \{\s*([^{};]+?)\s*\}", f.body):
                test, a, b = (" ".join(x.split()) for x in m.groups())
                sides = re.fullmatch(r"([\w.()]+) <=? ([\w.()]+)", test)
                if (a, b) == ("1", "0"):
                    self.add(4, f.file, f.start + m.start(), "a flag to a number", m.group())
                elif sides and {a, b} == set(sides.groups()):
                    self.add(4, f.file, f.start + m.start(), "a minimum by hand", m.group())
                elif sides and b == "0" and re.fullmatch(rf"{re.escape(sides.group(2))} - (?:{re.escape(sides.group(1))}|1)", a):
                    self.add(4, f.file, f.start + m.start(), "a difference that stops at 0", m.group())
                elif sides and re.fullmatch(r"&?\w+\[[^\]]*\]", a) and re.fullmatch(r"0|&\w+\[\.\.0\]|\w+", b):
                    self.add(4, f.file, f.start + m.start(), "`get` by hand", m.group())
            m = re.fullmatch(r"\s*if ([\w.]+) < ([\w.]+) \{\s*return 0;\s*\}\s*([\w.]+) - ([\w.]+)\s*", f.body)
            if m and m.groups()[:2] == m.groups()[2:]:
                self.add(4, f.file, f.at, "a difference that stops at 0", f.body)
            m = re.fullmatch(r"\s*if (\w+) <= (\w+) \{\s*return \1;\s*\}\s*\2\s*", f.body)
            if m:
                self.add(4, f.file, f.at, "a minimum by hand", f.body)

    # ---- 5

    def point5(self):
        for crate in sorted({file.crate for file in self.files}):
            own = [f for f in self.all if f.file.crate == crate]
            facts = collections.defaultdict(dict)
            for f in own:
                names = {n: f"<{re.sub('&|mut |[^ ]*. ', '', t) or n}>" for n, t in f.params}
                for of in f.requires + f.ensures:
                    for fact in self.conjuncts(of[1]):
                        key = re.sub(r"(?<![\w.])[A-Za-z_]\w*", lambda m: names.get(m.group(), m.group()), fact)
                        facts[key].setdefault(f, (fact, of[2]))
            for places in facts.values():
                if len(places) > 2:
                    first = next(iter(places))
                    where = ", ".join(f.name for f in places)
                    self.add(5, first.file, places[first][1], f"a fact of {len(places)} contracts", f"{one_line(places[first][0], 70)}: {where}")
            self.together(own)

    @staticmethod
    def conjuncts(text):
        text = " ".join(text.split())
        while text.startswith("(") and closing(text, 0) == len(text):
            text = text[1:-1].strip()
        several = parts(text, "×")
        return [c for p in several for c in Places.conjuncts(p)] if len(several) > 1 else several

    def together(self, own):
        """Parameters that three or more signatures of a crate have, the widest and most common ones first. Those that come next have two that no set before
        them has in the same function, in three functions or more."""
        by, sets = collections.defaultdict(set), {}
        for f in own:
            for n, t in f.params:
                if n != "self":
                    by[n, re.sub(r"&(?:'\w+ )?(?:mut )?|impl |^\((.*)\)$", r"\1", t)].add(f)
        items = sorted(by, key=str)
        for i, p in enumerate(items):
            for q in items[i + 1 :]:
                both = by[p] & by[q]
                if len(both) > 2:
                    sets.setdefault(frozenset(both), set()).update((p, q))
        left, spoken = list(sets.items()), collections.defaultdict(set)
        while True:
            def new(s):
                return [f for f in s[0] if len(s[1] - spoken[f]) > 1]
            left = [s for s in left if len(new(s)) > 2]
            if not left:
                return
            functions, params = max(left, key=lambda s: (len(new(s)) * (len(s[1]) - 1), sorted(map(str, s[1]))))
            for f in functions:
                spoken[f] |= params
            first = min(functions, key=lambda f: (f.file.path, f.at))
            names = ", ".join(sorted(f"{n}: {t}" for n, t in params))
            self.add(5, first.file, first.at, f"{len(functions)} signatures have", f"{names}: {', '.join(sorted(f.name for f in functions))}")

    # ---- 6

    def point6(self):
        for file in self.files:
            for kind, name, at, inside in file.types:
                if kind != "struct":
                    continue
                fields = self.fields(inside)
                arrays = [(n, t) for n, t in fields if re.match(r"&?(?:mut )?\[", t)]
                numbers = [n for n, t in fields if re.fullmatch(NUMBER, t)]
                if arrays and COUNTS & set(numbers):
                    self.add(6, file, at, "a count beside an array", f"{name}: {', '.join(sorted(COUNTS & set(numbers)))}, {arrays[0][0]}: {arrays[0][1]}")
                lengths = collections.Counter(re.sub(r".*;", "", t) for _, t in arrays)
                if lengths and max(lengths.values()) > 1:
                    self.add(6, file, at, "parallel arrays", f"{name}: {', '.join(n for n, _ in arrays)}")
                if {"at", "from", "start"} & set(numbers) and {"count", "end", "len"} & set(numbers):
                    self.add(6, file, at, "a place and its end or count", f"{name}: {', '.join(numbers)}")
            for m in re.finditer(r"(?m)^[ \t]*(?:pub(?:\([^)]*\))? )?const (\w+): \[u8; \w+\] = \*b\"|\[(?:\s*b\"_*\"(?: as &\[u8\])?,){3}", file.bare):
                self.add(6, file, m.start(), "a list of names, known by their place")
        self.beside()
        for f in self.all:
            for word, head, body, at in self.loops(f):
                said = f"{f.name}: {one_line(word + head, 60)}"
                lone = re.fullmatch(r"\{\s*(?:let [^;{}]*;\s*)*if ([^{}]*)\{\s*(return|\w+ [+=]+ [^;{}]*|)\s*([^;{}]*);?\s*\}\s*(?:else \{\s*(?:return ([^;{}]*)|[^;{}]*);\s*\}\s*)?(?:\w+ \+= 1;|\w+ = \w+;)?\s*\}", body)
                gone = lone and (lone.group(3) if lone.group(2) == "return" else lone.group(4))
                folded = re.search(r"\b(\w+) = \1 ([|&]) ", body)
                if gone in ("true", "false") or folded and folded.group(1) in ("ok", "found", "same", "all", "any", "good"):
                    self.add(6, f.file, at, "`any` or `all` by hand", said)
                elif gone:
                    self.add(6, f.file, at, "a search by hand", said)
                m = re.search(r"\b(\w+)\[(\w+)\] = [^;]*;\s*\2 \+= 1", body)
                if m and not re.search(rf"\b{m.group(2)}\b", head):
                    self.add(6, f.file, at, "a buffer filled by a place of its own", f"{f.name}: {m.group(1)}[{m.group(2)}]")

    def beside(self):
        """Parameters: a count beside an array, parallel arrays, bytes with the positions in them, a place in a buffer. Each set of names once in a crate."""
        sets = collections.defaultdict(list)
        for f in self.all:
            def names(these):
                return ", ".join(f"{n}: {re.sub(r'mut |.a (?=.)', '', t)}" for n, t in these)
            arrays = [(n, t) for n, t in f.params if re.search(r"\[[^\]]+\]$", t) or re.search(r"\b(?:Numbers|Counts|Buffer|Positions|Places|Output)$", t)]
            numbers = [(n, t) for n, t in f.params if re.fullmatch(NUMBER, t)]
            for n, t in numbers:
                if n in COUNTS and t == "usize" or n == "count":
                    beside = [a for a in arrays if n == "n" and re.search(r"input|buffer|ends|rows|; MAX_", " ".join(a)) or n != "n" and not re.search(r"\[u8\]|Output|Numbers", a[1])]
                    if beside:
                        sets[f.file.crate, "a count beside an array", names([(n, t), beside[0]])].append(f)
            of = collections.defaultdict(list)
            for n, t in arrays:
                if not re.search(r"\bu8\b|Numbers|Output|^&\[u64\]$", t):
                    of[re.sub(r".*; |&|mut ", "", t)].append((n, t))
            for same in of.values():
                if len(same) > 1:
                    sets[f.file.crate, "parallel arrays", names(same)].append(f)
            bytes_in = [a for a in arrays if re.search(r"\[u8\]$|Buffer$", a[1]) and a[0] in ("lent", "buffer", "bytes", "text")]
            places = [a for a in arrays if re.search(r"\[usize\]$|Positions$", a[1])]
            if bytes_in and places:
                sets[f.file.crate, "bytes and the positions in them", names([bytes_in[0], places[0]])].append(f)
            to = [(n, t) for n, t in numbers if n in ("at", "to", "o", "place", "pos") and t == "usize"]
            written = [a for a in arrays if a[1].startswith("&mut ")]
            if to and written and f.result == "usize" and f.params.index(to[0]) > f.params.index(written[0]):
                sets[f.file.crate, "a buffer and the next place in it", names([written[0], to[0]])].append(f)
        for (_, rule, said), functions in sets.items():
            first = functions[0]
            self.add(6, first.file, first.at, rule, f"{said}: {', '.join(f.name for f in functions)}")

    # ---- 7

    def point7(self):
        for f in self.all:
            inside = [(f.start + f.body.find(body), len(body)) for _, _, body, _ in self.loops(f)]
            for m in re.finditer(r"\bmatch ([^{;]*?)\s*\{", f.body):
                end = closing(f.body, m.end() - 1)
                arms = self.arms_of(f.body[m.end() : end - 1])
                called = [set(re.findall(r"(?<![\w!])([a-z_]\w*(?:::[a-z_]\w*)*)\(", v)) for _, v in arms]
                steps = set().union(*called) if called else set()
                here = f.start + m.start()
                looped = any(a <= here < a + n for a, n in inside)
                numbers = [p for p, _ in arms if re.match(r"\d|b'|[A-Z][A-Z_0-9]+\b(?!::)(?=$|[ |.])", p)]
                calling = sum(1 for c in called if c)
                if looped and calling > 1 and len(steps) > 1:
                    self.add(7, f.file, here, "a switch in a loop", f"{f.name}: match {m.group(1)}: {', '.join(sorted(steps))}")
                elif len(numbers) > 1 and calling > 2 and len(steps) > 2:
                    self.add(7, f.file, here, "a switch on a number", f"{f.name}: match {m.group(1)}: {', '.join(sorted(steps))}")
                elif calling > 2 and len(steps) > 2 and f.result != "bool":
                    self.add(7, f.file, here, "a switch on a kind", f"{f.name}: match {m.group(1)}: {', '.join(sorted(steps))}")
            chain = re.findall(r"\bif (\w+) == ([A-Z][A-Z_0-9]+) \{\s*(?:return )?([a-z_]\w*)\(", f.body)
            if len({b for _, b, _ in chain}) > 1 and len({a for a, _, _ in chain}) == 1 and len({c for _, _, c in chain}) > 1:
                self.add(7, f.file, f.at, "a chain of tests of a number", f"{f.name}: {', '.join(b for _, b, _ in chain)}")
        for file in self.files:
            for m in re.finditer(r"\[[^\]\n;]*\bfn\([^\]]*\]", file.bare):
                self.add(7, file, m.start(), "a table of functions")

    @staticmethod
    def arms_of(inside):
        out = []
        while "=>" in inside:
            pattern, _, rest = inside.partition("=>")
            rest = rest.lstrip()
            if rest.startswith("{"):
                end = closing(rest, 0)
            else:
                end, depth = 0, 0
                while end < len(rest) and not (rest[end] == "," and depth == 0):
                    depth += {"(": 1, "[": 1, "{": 1, ")": -1, "]": -1, "}": -1}.get(rest[end], 0)
                    end += 1
            out.append((pattern.strip(" ,\n"), rest[:end].strip()))
            inside = rest[end:].lstrip(" ,\n")
        return out

    # ---- 8

    def point8(self):
        answers = []
        for path in sorted(glob.glob(os.path.join(self.tree, "crates/*/proofs/**/Answers.antt"), recursive=True)):
            where = os.path.relpath(path, self.tree)
            with open(path, encoding="utf-8") as it:
                lines = it.read().split("\n")
            name = None
            for k, line in enumerate(lines):
                m = re.match(r"pub (\S+) : goal\.", line)
                if m:
                    name, at, body = m.group(1), k + 1, []
                elif name and re.match(rf"{re.escape(name)}\b", line) and "=" in line:
                    body = [line.split("=", 1)[1]]
                    j = k + 1
                    while j < len(lines) and lines[j].startswith(" "):
                        body.append(lines[j])
                        j += 1
                    answers.append((where, at, name, " ".join(" ".join(b for b in body if not b.strip().startswith("--")).split())))
                    name = None
        said, lets = collections.defaultdict(list), collections.defaultdict(list)
        for where, at, name, body in answers:
            if body == "search rules":
                self.plain(where, at, "`search rules` alone", f"{name} = {body}")
            elif re.fullmatch(r"search \w+|search \(\w+(?:, \w+)*\)(?: depth \d+)?", body) or len(body) > 25:
                said[where.split(os.sep)[1], body].append((where, at, name))
            for let in re.findall(r"let (\S+ (?:: .*? )?= .*?) in(?= |$)", body):
                if len(let) > 40:
                    lets[where.split(os.sep)[1], let].append((where, at, name))
        for rule, found in (("an answer of", said), ("a `let` of", lets)):
            for (_, body), places in found.items():
                if len(places) > 2:
                    where, at, name = places[0]
                    self.plain(where, at, f"{rule} {len(places)} goals", f"{name}: {body}")

    def plain(self, where, at, rule, text):
        self.found.append((8, where, at, rule, one_line(text), ""))


def table(found, tree):
    """The counts, by point and crate."""
    crates = sorted({p[1].split(os.sep)[1] for p in found})
    out = ["| point | places | with a reason beside them | by crate |", "|---|---|---|---|"]
    for point, name in POINTS.items():
        own = [p for p in found if p[0] == point]
        by = collections.Counter(p[1].split(os.sep)[1] for p in own)
        each = ", ".join(f"{c} {by[c]}" for c in crates if by[c])
        out.append(f"| {point}. {name} | {len(own)} | {sum(1 for p in own if p[5])} | {each} |")
    return out


def main(argv):
    counts, point, tree = False, None, os.path.dirname(os.path.dirname(os.path.dirname(os.path.abspath(__file__))))
    while argv:
        word = argv.pop(0)
        if word == "--counts":
            counts = True
        elif word == "--point" and argv and argv[0].isdigit():
            point = int(argv.pop(0))
        elif word.startswith("-"):
            print(__doc__)
            return 2
        else:
            tree = os.path.abspath(word)
    if not os.path.isdir(os.path.join(tree, "crates")):
        print(f"{tree} has no crates/")
        return 2
    found = Places(tree).found
    if counts:
        print("\n".join(table(found, tree)))
        return 0
    for p, name in POINTS.items():
        if point in (None, p):
            own = [x for x in found if x[0] == p]
            print(f"{p}. {name}: {len(own)}")
            for _, path, line, rule, text, why in own:
                print(f"  {path}:{line}: {rule}: {text}" + (f"  [{why}]" if why else ""))
    return 0


if __name__ == "__main__":
    raise SystemExit(main(sys.argv[1:]))
