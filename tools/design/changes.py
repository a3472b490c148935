#!/usr/bin/env python3
"""Lists what changed between two commits that a reader may rely on: contracts, types, facts of types, definitions and theorems, old and new side by side.

usage: changes.py [--counts] OLD [NEW]

OLD and NEW are commits of this repository or trees; NEW is by default the tree that this file stands in. Markdown goes to standard output. --counts prints how
many of each there are. Read are crates/*/src, crates/*/specs and crates/*/proofs, and for the names of theorems README.md and docs/.

A function is found again by its crate, its type and its name; then by `PAIRS` below; then by name alone. A change in which words gave way to words one for one
(`WORDS`) stands in a list by itself, so that what is written out old beside new is what reads otherwise.
"""
import collections
import difflib
import glob
import io
import os
import re
import subprocess
import sys
import tarfile

HERE = os.path.dirname(os.path.dirname(os.path.dirname(os.path.abspath(__file__))))
HEAD = re.compile(r"(?P<vis>pub(?:\([^)]*\))?\s+)?(?:const\s+)?(?:unsafe\s+)?(?:extern\s+\"C\"\s+)?fn\s+(?P<name>\w+)")
CLAUSE = re.compile(r"\s*(requires|ensures|decreases|reads|panics)\b([ \w]*)\{")
OPENS, CLOSES = "({[", ")}]"


# ---- trees

def tree_of(where):
    """The texts of a tree or a commit, by path."""
    wanted = re.compile(r"crates/[^/]+/(?:src/.*\.rt|(?:specs|proofs)/.*\.antt)$|README\.md$|docs/.*\.md$")
    if os.path.isdir(where):
        found = {}
        for pattern in ("crates/*/src/**/*.rt", "crates/*/specs/**/*.antt", "crates/*/proofs/**/*.antt", "README.md", "docs/**/*.md"):
            for path in sorted(glob.glob(os.path.join(where, pattern), recursive=True)):
                with open(path, encoding="utf-8") as it:
                    found[os.path.relpath(path, where)] = it.read()
        return found
    packed = subprocess.run(["git", "-C", HERE, "archive", where, "crates", "README.md", "docs"], check=True, stdout=subprocess.PIPE).stdout
    with tarfile.open(fileobj=io.BytesIO(packed)) as it:
        return {m.name: it.extractfile(m).read().decode() for m in it.getmembers() if m.isfile() and wanted.match(m.name)}


def one_line(text):
    text = re.sub(r"\s+", " ", text).strip()
    return re.sub(r",? ([)\]])", r"\1", re.sub(r"([(\[]) ", r"\1", text))


# ---- src/

def blank(text):
    """The text with comments, strings and bytes in quotes blanked out, place for place."""
    def hole(m):
        if m.group().startswith("//"):
            return " " * len(m.group())
        start = 2 if m.group().startswith("b") else 1
        return m.group()[:start] + re.sub(r"[^\n]", "_", m.group()[start:-1]) + m.group()[-1]
    return re.sub(r"//[^\n]*|b?\"(?:\\.|[^\"\\])*\"|b?'(?:\\.|[^'\\\n])'", hole, text)


def without_comments(text):
    return re.sub(r"b?\"(?:\\.|[^\"\\])*\"|//[^\n]*", lambda m: "" if m.group().startswith("//") else m.group(), text)


def closing(text, at):
    """The place past the bracket that closes the one at a place."""
    depth = 0
    for k in range(at, len(text)):
        if text[k] in OPENS:
            depth += 1
        elif text[k] in CLOSES:
            depth -= 1
            if depth == 0:
                return k + 1
    return len(text)


class Item:
    """A function, a type or a fact: its crate, file, line, kind, owner, name, whether others can use it, and what it says."""

    def __init__(self, crate, path, line, kind, owner, name, public, text, says=""):
        self.crate, self.path, self.line, self.kind, self.owner, self.name, self.public, self.text, self.says = crate, path, line, kind, owner, name, public, text, says

    @property
    def full(self):
        return f"{self.owner}::{self.name}" if self.owner else self.name


def items_of(texts):
    """The functions, types and ghost items of src/."""
    out = []
    for path, text in texts.items():
        if "/src/" in path and path.endswith(".rt"):
            walk(path, text, blank(text), 0, len(text), "", False, out)
    return out


def walk(path, text, bare, at, end, owner, within, out):
    crate = path.split("/")[1]

    def add(kind, name, public, start, stop, says=None):
        out.append(Item(crate, path, text.count("\n", 0, start) + 1, kind, owner, name, public, one_line(without_comments(text[start:stop])), says))

    while at < end:
        space = re.compile(r"(?:\s+|#!?\[[^\]]*\])+").match(bare, at, end)
        if space:
            at = space.end()
            continue
        m = re.compile(r"(?:ghost )?(?:pub(?:\([^)]*\))? )?use\b[^;]*;|(?:pub(?:\([^)]*\))? )?mod \w+;").match(bare, at, end)
        if m:
            at = m.end()
            continue
        m = re.compile(r"impl\b([^{;]*)\{").match(bare, at, end)
        if m:
            stop, whose = closing(bare, m.end() - 1), one_line(re.sub(r"^<[^>]*>", "", m.group(1).strip()))
            trait, _, of = whose.rpartition(" for ")
            walk(path, text, bare, m.end(), stop - 1, f"<{of} as {trait}>" if trait else re.sub(r"<.*", "", of), bool(trait), out)
            at = stop
            continue
        m = re.compile(r"(pub(?:\([^)]*\))? )?trait (\w+)[^{;]*\{").match(bare, at, end)
        if m:
            stop = closing(bare, m.end() - 1)
            add("trait", m.group(2), m.group(1) == "pub ", at, stop)
            walk(path, text, bare, m.end(), stop - 1, m.group(2), m.group(1) == "pub ", out)
            at = stop
            continue
        m = HEAD.match(bare, at, end)
        if m:
            k = m.end()
            k = closing(bare, bare.index("(", k))
            clause = re.compile(r"\n\s*(?:requires|ensures|decreases|reads|panics)\b")
            while k < end and bare[k] not in "{;" and not clause.match(bare, k):
                k = closing(bare, k) if bare[k] == "[" else k + 1
            head, clauses = one_line(without_comments(text[m.start("name") : k])), []
            while True:
                c = CLAUSE.match(bare, k, end)
                if not c:
                    break
                k = closing(bare, c.end() - 1)
                clauses.append((c.group(1), one_line(without_comments(text[c.start(1) : k]))))
            said = [c for kind, c in clauses if kind != "decreases"]
            out.append(Item(crate, path, text.count("\n", 0, at) + 1, "fn", owner, m.group("name"), bool(within or (m.group("vis") or "").strip() == "pub"),
                            " ".join(["fn " + head] + said), " ".join(c for kind, c in clauses if kind == "ensures")))
            body = re.compile(r"\s*(\{|;)").match(bare, k, end)
            at = closing(bare, body.end() - 1) if body and body.group(1) == "{" else body.end() if body else k + 1
            out[-1].body = bare[k:at]
            continue
        m = re.compile(r"(pub(?:\([^)]*\))? )?(struct|enum|type|const|static|ghost) (\w+)").match(bare, at, end)
        if m:
            k, depth = m.end(), 0
            while k < end:
                if bare[k] in OPENS:
                    shut = closing(bare, k)
                    if bare[k] == "{" and m.group(2) in ("struct", "enum"):
                        k = shut
                        break
                    k = shut
                elif bare[k] in ";," and bare[m.end() : k].count("<") == bare[m.end() : k].count(">"):
                    k += 1
                    break
                else:
                    k += 1
            kind = m.group(2)
            if kind in ("struct", "enum"):
                brace = bare.find("{", at, k)
                inside = text[brace + 1 : k - 1] if brace > 0 else ""
                for g in re.finditer(r"\b(?:pub )?(?:ghost|invariant)\b[^,;{}]*(?:\{[^{}]*\})?[,;]?", bare[brace + 1 : k - 1] if brace > 0 else ""):
                    said = one_line(without_comments(inside[g.start() : g.end()])).rstrip(",;")
                    name = re.match(r"(?:pub )?(?:ghost )?(\w+)", said).group(1)
                    out.append(Item(crate, path, text.count("\n", 0, brace + 1 + g.start()) + 1, "ghost", m.group(3), name, True, said))
                derives = re.findall(r"#\[derive\(([^)]*)\)\]", text[max(0, bare.rfind("\n\n", 0, at)) : at])
                add(kind, m.group(3), (m.group(1) or "").strip() == "pub", at, k, derives[-1] if derives else "")
            else:
                add(kind, m.group(3), (m.group(1) or "").strip() == "pub" or within or kind == "ghost", at, k)
            at = k
            continue
        at += 1


# ---- specs/ and proofs/

class Word:
    """A definition or a lemma: how it is declared, its type, its equations."""

    def __init__(self, crate, path, line, form, name, of):
        self.crate, self.path, self.line, self.form, self.name, self.of, self.rest = crate, path, line, form, name, of, []

    @property
    def lemma(self):
        return self.form == "pub" or self.form == ""

    @property
    def text(self):
        return one_line(f"{self.form} {self.name} : {self.of} " + " ".join(r for r in self.rest if not r.startswith("unfolding")))

    @property
    def statement(self):
        return one_line(f"{self.name} : {self.of}")


def names_of(text):
    """What a file calls by another name than the file it comes from: a case by its type and itself, `NoDeadline` by `Deadline.None`."""
    names = {}
    for m in re.finditer(r"(?m)^use ([\w.]+)\.\{([^}]*)\}", text):
        of = re.search(r"declared\.(?:\w+\.)*?(\w+)\.TheVariants$", m.group(1))
        for n in m.group(2).split(","):
            name, _, called = n.strip().partition(" as ")
            if of or called and name != called:
                names[called.strip() or name] = f"{of.group(1)}.{name}" if of else name
    return names


def words_of(texts, part):
    """The definitions and lemmas of specs/ or proofs/, but for those of a function's own answers."""
    out = []
    plain = re.compile(r"((?:(?:abbrev|unfoldable|pub) )*)([^\s({]+)\s+:(?: (.*)|$)")
    shaped = re.compile(r"((?:pub )?(?:data|record)) (\S+) (.*)")
    for path, text in texts.items():
        pieces = path.split("/")
        if len(pieces) < 4 or pieces[2] != part or not path.endswith(".antt"):
            continue
        now, names = None, names_of(text)
        # The modules that a line stands in, each with its indent and what it takes; its header may go over lines.
        modules, header = [], None
        for k, line in enumerate(text.split("\n"), 1):
            line = re.sub(r"(^|\s)--.*", "", line)
            indent = len(line) - len(line.lstrip())
            if line.strip() and header is None:
                while modules and indent <= modules[-1][0]:
                    modules.pop()
            if header is None and re.match(r"\s*module\b", line) and indent == 2 * len(modules):
                header, now = (indent, ""), None
            if header:
                header = header[0], header[1] + " " + line.strip()
                if re.search(r"\bwhere$", line.strip()):
                    modules.append((header[0], re.sub(r"^ module \S+|where$", "", header[1]).strip()))
                    header = None
                continue
            line = line[2 * len(modules) :]
            if not line.strip() or re.match(r"use\b|\}|\)$", line):
                if re.match(r"use\b", line):
                    now = None
                continue
            m = shaped.match(line) or plain.match(line)
            if m and not line.startswith(" "):
                now = Word(pieces[1], path, k, m.group(1).strip(), m.group(2), m.group(3) or "")
                now.typing, now.names = True, names
                now.given = " ".join(g for _, g in modules if g)
                if m.re is shaped:
                    now.of = now.of.lstrip(": ")
                out.append(now)
            elif now is None:
                continue
            elif line.startswith(" ") and now.typing:
                if "data" in now.form or "record" in now.form:
                    now.rest.append(line.strip())
                else:
                    now.of += " " + line.strip()
            else:
                now.typing = "data" in now.form or "record" in now.form
                now.rest.append(line.strip())
    for w in out:
        w.of = one_line(f"{w.given} → {w.of}" if w.given and w.lemma else w.of)
    return out


# ---- what reads otherwise only by words that gave way to others

# (family, crates, old, new). The old text has the names of `names_of`.
NUMBERED = {6: "BadByte", 7: "Malformed", 8: "OpenQuote", 9: "LastBackslash", 10: "UnknownProperty", 11: "OutsideRule", 12: "TooManyDependencies", 13: "NoType",
            14: "NoCommand", 15: "NoSuchService"}
FAMILIES = {
    "a": ("`Deadline`, `NoDeadline`, `At d`", "`Option ℕ`, `None`, `Some d`"),
    "b": ("`Verdict`, `Scan`, `Line`, `Opening` with `Good`, `Tokens z`, `Nothing`, `Named s`, `Bad f`", "`Result` of nothing, of `Sizes`, of `Effect`, of `Option Places`, with `Ok` and `Err f`"),
    "c": ("a fault's number, `fault 6 i` to `fault 15 i`, `f.number`", "the case of `Wrong`, `fault BadByte i` to `fault NoSuchService i`, `wrong_number f.wrong`: `wrong_number` of the case is the number"),
    "d": ("`Worth`, `Change`, `Reading` with `Value n`, `To v`, `On k`, and `Bad`, `Refused`, `Off`", "`Option ℕ`, `Option Settings`, `Option Decimal` with `Some` and `None`"),
    "e": ("`Accepted`, a refusal as an `Answer`: `bare n s`, `Refused n s l c`", "`Ok tt`, `Err (bare n s)`, `refused_at n s l c`"),
    "f": ("`Fits`, `Which`", "`PerRule ℕ`, `PerRule Bool`"),
    "g": ("`NoRule`, `Fit k s`", "`None`, `Some (k, s)`"),
    "h": ("`EventAnswer`, `ActionAnswer`, `RunAnswer`, `QueryAnswer`; `Changed`, `Stepped`, `Ran`", "`Result` of nothing, `Action`, `ℕ`, `Option ℕ`, and `Refusal`; `Answered` of them"),
    "i": ("`Read`, `read_if true n`, `read_if false 0`", "`Option ℕ`, `Some n`, `None`"),
    "t": ("a text's place as a number, `ok_text` and its like", "the case of `Text`"),
    "v": ("a verb's number, `set_record + 4` and its like; `Held`, `held (given ..)`", "the case of `Verb`, `SetRecord 4`; `Given`, `given ..`"),
}
VERBS = "Next Run RunIn Start Stop StopAll End Clock Query State Show".split()
VERB = {"set_record": "Verb.SetRecord", "set_table": "Verb.SetTable", "set_clock": "Verb.SetClock", "set_count": "Verb.SetCount", "load": "Verb.Load",
        "load_at": "Verb.LoadAt", "begin": "Verb.Begin", "add_line": "Verb.AddLine", "add_piece": "Verb.AddPiece", "nothing": "Verb.Nothing"}
TEXTS = "Accepted Loaded Refused LoadRefused BadLine Quiet Moved Launch StopCommand Signal RunCount Earliest NoEarliest".split()
TEXT_NAMED = {"ok": "Accepted", "ok_count": "Loaded", "refused": "Refused", "load_refused": "LoadRefused", "bad_line": "BadLine", "quiet": "Quiet", "moved": "Moved",
              "launch": "Launch", "stop_command": "StopCommand", "signal": "Signal", "earliest": "Earliest", "no_earliest": "NoEarliest"}
WORDS = [
    ("a", "", r"\bDeadline\.None\b", "None"), ("a", "", r"\bDeadline\.At\b", "Some"), ("a", "", r"(?<![.\w])Deadline\b(?!\.)", "(Option ℕ)"),
    ("b", "", r"\bVerdict\.Good\b", "(Ok tt)"), ("b", "", r"\bVerdict\.Bad\b", "Err"), ("b", "", r"(?<![.\w])Verdict\b(?!\.)", "(Result (Unit {0}) Fault)"),
    ("b", "", r"\bScan\.Tokens\b", "Ok"), ("b", "", r"\bScan\.Bad\b", "Err"), ("b", "", r"(?<![.\w])Scan\b(?!\.)", "(Result Sizes Fault)"),
    ("b", "", r"\bLine\.Good\b", "Ok"), ("b", "", r"\bLine\.Bad\b", "Err"), ("b", "", r"(?<![.\w])Line\b(?!\.)", "(Result Effect Fault)"),
    ("b", "", r"\bOpening\.Nothing\b", "(Ok None)"), ("b", "", r"\(Opening\.Named (\w+)\)", r"(Ok (Some \1))"),
    ("b", "", r"\bOpening\.Bad\b", "Err"), ("b", "", r"(?<![.\w])Opening\b(?!\.)", "(Result (Option Places) Fault)"),
    ("c", "", r"\bfault (\w+)\.number\b", r"fault \1.wrong"), ("c", "load_value", r"\brefused (\d+)", lambda m: "refused Wrong." + NUMBERED[int(m.group(1))]),
    ("b", "load_description", r"verdict = \(Ok tt\)", "verdict = good"),
    ("c", "", r"\bfault (\d+)", lambda m: "fault Wrong." + NUMBERED[int(m.group(1))]), ("c", "", r"\b(\w+)\.number\b", r"(wrong_number \1.wrong)"),
    ("d", "", r"\bWorth\.Value\b", "Some"), ("d", "", r"\bWorth\.Bad\b", "None"), ("d", "", r"(?<![.\w])Worth\b(?!\.)", "(Option ℕ)"),
    ("d", "", r"\bChange\.To\b", "Some"), ("d", "", r"\bChange\.Refused\b", "None"), ("d", "", r"(?<![.\w])Change\b(?!\.)", "(Option Settings)"),
    ("d", "", r"\bReading\.On\b", "Some"), ("d", "", r"\bReading\.Off\b", "None"), ("d", "", r"(?<![.\w])Reading\b(?!\.)", "(Option Decimal)"),
    ("e", "", r"\bAnswer\.Accepted\b", "(Ok tt)"), ("e", "loader", r"= Answer\.Refused (\d+ \d+ \d+ \d+)", r"= refused_at \1"),
    ("e", "load_lent|loader", r"\((bare (?:\d+|\w) (?:\d+|\w))\)", r"(Err (\1))"), ("e", "load_lent|loader", r"(?<== )(bare \d+ \d+)", r"Err (\1)"),
    ("f", "engine_choice", r"(?<![.\w])Fits\b(?!\.)", "(PerRule ℕ)"), ("f", "engine_choice", r"(?<![.\w])Which\b(?!\.)", "(PerRule Bool)"),
    ("g", "", r"\bChoice\.Quiet\b", "None"), ("g", "", r"\(Choice\.Fit ([\w.]+) (\w+)\)", r"(Some (\1, \2))"),
    ("g", "", r"\(Choice\.Fit (\w+) (\(first .*? n\)|\(first .*? t\.count\))\)", r"(Some (\1, \2))"),
    ("h", "", r"\b(?:Run|Event|Action|Query)Answer\.Refused\b", "Err"), ("h", "", r"\bRunAnswer\.Ran\b", "Ok"), ("h", "", r"\bEventAnswer\.Done\b", "(Ok tt)"),
    ("h", "", r"\b(?:ActionAnswer\.Act|QueryAnswer\.Earliest)\b", "Ok"), ("h", "", r"(?<![.\w])RunAnswer\b(?!\.)", "(Result ℕ Refusal)"),
    ("h", "", r"(?<![.\w])EventAnswer\b(?!\.)", "(Result (Unit {0}) Refusal)"), ("h", "", r"(?<![.\w])ActionAnswer\b(?!\.)", "(Result Action Refusal)"),
    ("h", "", r"(?<![.\w])QueryAnswer\b(?!\.)", "(Result (Option ℕ) Refusal)"), ("h", "engine|plain|rules", r"(?<![.\w])Ran\b(?!\.)", "(Answered ℕ)"),
    ("h", "engine|plain|rules", r"(?<![.\w])Changed\b(?!\.)", "(Answered (Unit {0}))"), ("h", "rules", r"(?<![.\w])Stepped\b(?!\.)", "(Answered Action)"),
    ("i", "scenario_words|scenario_lines", r"(?<![.\w])Read\b(?!\.)", "(Option ℕ)"),
    ("v", "scenario_lines", r"\bis = plain (nothing|begin|add_line|add_piece)\b", lambda m: f"is = asks {VERB[m.group(1)]} 0 0"),
    ("v", "scenario_lines", r"\(load \+ 1\)", "Verb.LoadNone"), ("v", "scenario_.*", r"\b(set_(?:record|table)) \+ (\d+)", lambda m: f"{VERB[m.group(1)]} {m.group(2)}"),
    ("v", "scenario_.*", r"\b(?:set_record|set_table)\b(?! [:=≡∷]| verb)", lambda m: f"({VERB[m.group()]} 0)"),
    ("v", "scenario_.*", r"(?<![.\w])(?:set_clock|set_count|load_at|load|begin|add_line|add_piece|nothing)(?![\w.])(?= \(| [a-z0-9]|;)(?! l\b)", lambda m: VERB[m.group()]),
    ("v", "scenario_lines", r"\bis = plain (\d+)", lambda m: f"is = asks Verb.{VERBS[int(m.group(1))]} 0 0"),
    ("v", "scenario_lines", r"\basks (\d+)", lambda m: f"asks Verb.{VERBS[int(m.group(1))]}"), ("v", "scenario_lines", r"\bis = bad\b", "is = None"),
    ("v", "scenario_services", r"(?<![.\w])Held\b", "Given"), ("v", "scenario_services", r"\bheld \(given (\w+|\(.*?\)) (\w+) (\w+)\)", r"given \1 \2 \3"),
    ("t", "scenario_replies", r"\breply_of (\d+)", lambda m: f"reply_of Text.{TEXTS[int(m.group(1))]}"),
    ("t", "scenario_replies", r"\b(\w+)_text\b(?! [:=a])", lambda m: "Text." + TEXT_NAMED.get(m.group(1), m.group(1))),
    ("t", "scenario_replies", r"^action_text : ℕ → ℕ", "action_text : ℕ → Text"),
    ("i", "scenario_words", r"\bread_if true (\d+)", r"Some \1"), ("i", "scenario_words", r"\(read_if false 0\)", "None"), ("i", "scenario_words", r"\bread_if false 0", "None"),
]


def plain(text):
    """Without the brackets that a name of one word doesn't need."""
    was = None
    while was != text:
        was = text
        text = re.sub(r"\(((?:Option|PerRule) [\wℕ]+|Option \([^()]*\)|Result (?:[\wℕ]+|\([^()]*\)) [\wℕ]+|Answered (?:[\wℕ]+|\([^()]*\))|Ok tt|Ok None|wrong_number [\w.]+|[\wℕ.]+)\)", r"‹\1›", text)
        text = text.replace("(first", "(first")
    text = text.replace("‹", "").replace("›", "")
    return one_line(re.sub(r"; ?\}", " }", text))


def resolved(word, text):
    text = re.sub(r"(?<![.\w])[A-Za-z_]\w*", lambda m: word.names.get(m.group(), m.group()), text)
    return re.sub(r"^(?:(?:abbrev|unfoldable|pub) )+", "", text)


def replaced(old, was):
    """The old text with its words given way to others, and the families that did."""
    used, strings = set(), []

    def aside(m):
        strings.append(m.group())
        return f'"{len(strings) - 1}"'

    was = re.sub(r'"(?:\\.|[^"\\])*"', aside, was)
    for family, crates, pattern, to in WORDS:
        if not crates or re.fullmatch(crates, old.crate):
            then = re.sub(pattern, to, was)
            if then != was:
                used.add(family)
            was = then
    return re.sub(r'"(\d+)"', lambda m: strings[int(m.group(1))], was), used


def same_but_words(old, new, statement=False):
    """The families by which the new text reads otherwise and not further; None where there is more."""
    was, now = (resolved(w, w.statement if statement else w.text) for w in (old, new))
    was, used = replaced(old, was)
    return used if plain(was) == plain(now) else None


# ---- functions that have another name, or that stand as something else

# What a function of old is called now, where neither its name nor its type tells.
PAIRS = {
    ("load_lent", "Answer::bare"): "Refused::bare",
    ("load_lent", "refused_in"): "Refused::within",
    ("load_lent", "text_at"): "Lent::text",
    ("load_lent", "find_name"): "Lent::find",
    ("scenario_services", "given_after"): "Given::take_line",
    ("service", "phase_number"): "<u64 as From<Phase>>::from",
    ("service", "phase_at"): "<Phase as From<u64>>::from",
    ("service", "cause_number"): "<u64 as From<Cause>>::from",
    ("service", "cause_at"): "<Cause as From<u64>>::from",
    ("service", "signal_number"): "<u64 as From<Signal>>::from",
    ("service", "kind_number"): "<u64 as From<Kind>>::from",
    ("service", "kind_at"): "<Kind as From<u64>>::from",
    ("service", "signal_at"): "<Signal as From<u64>>::from",
    ("service", "all_links"): "Settings::all_links",
    ("service", "refusal_number"): "<u64 as From<Refusal>>::from",
    ("service", "action_service"): "Action::service",
    ("service", "action_number"): "Action::number",
    ("service", "form_of"): "Settings::form",
}

# What states the promise of a function that is gone, where no function of its crate has a contract of the same definition.
NOW = {
    **{("engine_record_tests", n): f"`service::Form::{n}`" for n in ("is_passing", "starts_first", "lives_up")},
    **{("engine_record_tests", n): "`==` of `service::Phase`, derived: the check finds that `p == Phase::..` is `" + n + " p`" for n in ("is_down", "is_waiting", "is_starting", "is_up", "is_ending")},
    **{("engine_record_tests", n): "`==` of `service::Cause`, derived, in the same way" for n in ("is_none", "is_user")},
    ("engine_record_tests", "is_active"): "`service::Phase::is_active`",
    ("simulate", "line_after"): "the library's `split_inclusive`",
    ("check_services", "least"): "`usize::min`",
    ("check_services", "read_up"): "`Buffer::read` and the facts of `Buffer`; `read_full` for standard input",
    ("engine", "refuse_run"): "`service::Answered::refused`",
    ("engine_calls", "refuse"): "`service::Answered::refused`",
    ("engine_choice", "choose_later"): "`choose`",
    ("engine_records", "cause_if"): "`either`",
    ("engine_records", "either_number"): "`either`",
    ("engine_records", "zero_if"): "`either`",
    ("engine_records", "user_or_fell"): "`lose`",
    ("engine_records", "user_or_failed"): "`Moment::timed_out`",
    ("engine_records", "begin"): "`Moment::begun`",
    ("engine_records", "end"): "`Moment::ending`",
    ("engine_records", "time_out"): "`Moment::timed_out`",
    ("engine_records", "kill"): "`Moment::expired`",
    ("engine_records", "expire"): "`Moment::expired`",
    ("engine_records", "leave_sound"): "`Moment::left`",
    ("engine_records", "time_since"): "`saturating_sub`",
    ("engine_records", "count_sound"): "`Moment::fall_counted`",
    ("engine_records", "count_fall"): "`Moment::fall_counted`, and `leave` where the record is not sound",
    ("engine_records", "settle_fall"): "`Moment::settled_fall`",
    ("engine_records", "settle_sound"): "`Moment::settled`",
    ("engine_records", "settle"): "`Moment::settled`, and `leave` where the record is not sound",
    ("links", "wide"): "`as usize`",
    ("load_description", "link_number"): "`==` of `load_word::Link`, derived",
    ("load_description", "kind_line"): "`Description::read_word`",
    ("load_description", "setting_line"): "`Description::read_word`",
    ("load_lent", "name_start"): "`Lent::name`",
    ("load_lent", "within"): "`Lent::find`",
    ("load_links", "refuse"): "`make` (`in_text`), `load_lent::Refused::within`",
    ("load_links", "link_rows"): "`lowest_cyclic`",
    ("load_reader", "with_settings"): "`affect`",
    ("load_reader", "with_command"): "`affect`",
    ("load_reader", "with_dependency"): "`affect`",
    ("load_reader", "is_unknown"): "`read_property`",
    ("load_reader", "says_nothing"): "`read_line`",
    ("load_reader", "ended"): "`read_lines`",
    ("load_text", "line_after"): "`line_number`",
    ("load_text", "column_after"): "`column_number`",
    ("load_value", "before"): "`saturating_sub` in `Mode::ended`",
    ("load_word", "find_place"): "`find`",
    ("load_word", "digit"): "`Decimal::with_byte`",
    ("load_word", "scale"): "`read_time`",
    ("load_word", "with_signal"): "`read_setting`",
    ("loader", "refuse_text"): "`read_into` (`in_text`), `load_lent::Refused::within`",
    ("loader", "refuse"): "`Loaded::refused`",
    **{("loader", n): "`try_load`, which runs the checks in order by `?`" for n in ("store_acyclic", "link_set", "read_set", "load_texts", "load_set")},
    ("plain", "are_meant"): "`check`",
    ("plain", "event_refusal"): "`event`, by the numbers of `From<Refusal>`",
    ("plain", "load_of"): "`keep_loaded`",
    ("plain", "put_counts"): "`write_counts`",
    **{("plain_encoding", n): "`<Record as Encoded>::encode`, whose law names `record_numbers`" for n in ("flag_number", "is_timed", "time_of", "record_numbers")},
    ("plain_encoding", "deadline_of"): "`<Record as Encoded>::decode`, whose law names `record_from`",
    ("plain_encoding", "record_from"): "`<Record as Encoded>::decode`, whose law names `record_from`",
    ("plain_encoding", "put"): "`write_places`, for both",
    ("plain_encoding", "settings_numbers"): "`<Settings as Encoded>::encode`, whose law names `settings_numbers`",
    ("plain_encoding", "settings_from"): "`<Settings as Encoded>::decode`, whose law names `settings_from`",
    **{("plain_encoding", n): "`read_places`, for both" for n in ("read_records", "read_services")},
    **{("plain_encoding", n): "`is_meant`, for both" for n in ("is_record", "is_settings", "stand_as")},
    ("scenario_lines", "bad_line"): "`None`",
    **{("scenario_lines", n): "`read_line`" for n in ("read_any", "read_after", "read_parted")},
    ("scenario_setting", "set_deadline"): "`set_record`",
    ("scenario_services", "keep_bytes"): "`Given::keep`",
    ("scenario_services", "least_of"): "`usize::min`",
    ("scenario_services", "range"): "`Given::lent_positions`",
    ("scenario_setting", "set_first"): "`set`",
    ("scenario_words", "piece_end"): "`piece`, the library's `split`",
    ("scenario_words", "piece_start"): "`piece`, the library's `split`",
    **{("service", n): f"an update, `Record {{ .., ..r }}`; the definition `{n}` stands, and what engine_records gives is still said by it" for n in ("moved", "with_phase", "with_cause")},
    ("service", "is_quiet"): "`==` of `Action`, derived; the definition `is_quiet` stands",
    ("service", "wide"): "`as u64`",
    ("service", "sent_number"): "`Action::number`",
}

PROGRAMS = ("bench", "check_services", "simulate")

# What stands for a type or the constants that are gone; for what is not named, by crate and kind.
TYPES_NOW = {
    ("engine_choice", "Fits"): "`PerRule<u64>`",
    ("engine_choice", "Which"): "`PerRule<bool>`",
    ("load_description", "Line"): "`Result<Effect, Fault>`",
    ("load_description", "Read"): "`Result<Description, Fault>`; no description stands beside a fault",
    ("load_lent", "Answer"): "`Result<(), Refused>`",
    ("load_links", "Linked"): "`Result<Links, Fault>`; no links stand beside a fault",
    ("load_links", "Services"): "`Result<[Settings; MAX_SERVICES], Refused>`; no settings stand beside a refusal",
    ("load_text", "Verdict"): "`Result<(), Fault>`",
    ("load_text", "Opening"): "`Result<Option<Places>, Fault>`",
    ("load_value", "Scan"): "`Result<Sizes, Fault>`",
    ("load_word", "Worth"): "`Option<bool>`, `Option<u64>`, `Option<Kind>`, `Option<Signal>`, by what the word is",
    ("load_word", "Change"): "`Option<Settings>`",
    ("load_word", "Reading"): "`Option<Decimal>`",
    ("loader", "Descriptions"): "`Result<[Description; MAX_SERVICES], Refused>`; no descriptions stand beside a refusal",
    ("plain", "Next"): "`Result<Option<Handed>, u64>`",
    ("plain", "Run"): "`Result<u64, u64>`",
    ("plain", "Asked"): "`Result<Option<u64>, u64>`",
    ("plain", "Load"): "`Result<u64, LoadRefused>`",
    ("rules", "Choice"): "`Option<(Rule, usize)>`",
    ("scenario_lines", "const"): "the cases of `Verb`; a bad line is `None`",
    ("scenario_replies", "const"): "the cases of `Text`",
    ("scenario_services", "Positions"): "the field `positions` of `Given`",
    ("scenario_services", "Buffer"): "the field `buffer` of `Given`",
    ("scenario_words", "Read"): "`Option<u64>`",
    ("service", "Deadline"): "`Option<u64>`",
    ("service", "EventAnswer"): "`Result<(), Refusal>`",
    ("service", "ActionAnswer"): "`Result<Action, Refusal>`",
    ("service", "RunAnswer"): "`Result<usize, Refusal>`",
    ("service", "QueryAnswer"): "`Result<Option<u64>, Refusal>`",
    ("service", "Changed"): "`Answered<()>`",
    ("service", "Stepped"): "`Answered<Action>`",
    ("service", "Ran"): "`Answered<usize>`",
}

# What states a definition that is gone; for what is not named, by crate.
WORDS_NOW = {
    ("engine_choice", "later_choice"): "`choice_from`, over all eight rules (`in_turn`, `tries`)",
    ("load_description", "is_silent"): "`opening_read`: `Ok None`",
    ("load_description", "read_as"): "`Ok`, `Err` of `Result Description Fault`",
    ("load_description", "clean_read"): "`checked`",
    ("load_links", "services_on"): "`in_text` of load_lent, for both twins",
    ("load_links", "too_many"): "`Err (bare 1 0)` in `services_in`",
    ("loader", "descriptions_on"): "`in_text` of load_lent, for both twins",
    ("plain", "refusal_of"): "`event_of`",
    ("plain", "is_accepted"): "the library's `is_ok`",
    ("scenario_lines", "bad_verb"): "`None`",
    ("scenario_lines", "bad"): "`None`",
    "scenario_lines": "the cases of `Verb`",
    "scenario_replies": "`place` of the cases of `Text`",
    ("scenario_services", "Held"): "`Given`, which has the buffer and the positions",
    ("scenario_services", "held"): "`Given`, which has the buffer and the positions",
    ("scenario_services", "Kept"): "`kept`, the contract of `Given::keep`",
    ("scenario_services", "least"): "the library's `min`",
}

# What states a lemma that is gone: for what is not named below, the contracts or the laws of its crate.
SERVED = {
    "links": "the contracts of `has_cycle` and `reach_of`",
    "load_description": "the contracts of the methods of `Description`",
    "load_lent": "the contracts of `Lent::find`, `Lent::check_names`, `Lent::check_sizes` and `Refused::within`",
    "load_links": "the contracts of `resolve`, `make`, `make_services` and `lowest_cyclic`",
    "load_reader": "the contracts of `read_line`, `read_property` and `read_lines`",
    "load_text": "the contracts of `opening_of`, `line_number`, `column_number` and `same_bytes`, and the laws of the chains in them (Chains.antt)",
    "load_value": "the contract of `scan_value`",
    "load_word": "the contracts of `read_setting`, `find_property` and `is_name`",
    "loader": "the contracts of `try_load` and of what it calls, and `every_load`",
    "plain": "the contracts of `event`, `next_action`, `run_to_quiet`, `query` and `load`",
    "plain_encoding": "`copied_placed`, `line_placed`, `read_all`, for both",
    "scenario_lines": "the contracts of `read_line` and of what it calls",
    "scenario_replies": "the contract of `next_reply`",
    "scenario_services": "the contracts of the methods of `Given`, and `put_sets`, `kept_put`",
    "scenario_words": "the contracts of `number`, `number_to`, `piece` and `place`, and what the library's `split` gives",
}

LEMMAS_NOW = {(crate, name): now for crate, of, now in (
    ("base", "and_none and_all or_none or_all", "the library's `and-false`, `and-true`, `or-false`, `or-true`"),
    ("base", "refute", "the library's `false_from_ne_true`"),
    ("links", "rounds_answer", "the contract of `has_cycle`, which says the limit of rows itself"),
    ("load_description", "word_at_fits", "`word_fits`, and the invariant of `Word`"),
    ("load_description", "links_as", "`==` of `Link`, derived"),
    ("load_description", "no_command single_read_lem", "the contract of `Description::read_tokens`"),
    ("load_lent", "past_last past_even", "`name_past`, `text_past`"),
    ("load_links", "links_read", "`get_or_default` of the library, in `rows_more`"),
    ("load_links", "lowest_past", "the contract of `lowest_cyclic`"),
    ("load_links", "one_link", "the contract of `Links::with`"),
    ("load_reader", "opened_inside", "`opened`, of the case that has places"),
    ("load_reader", "silent_read property_told", "the contract of `read_line`"),
    ("load_text", "same_long", "`same_pointwise`"),
    ("load_text", "at_now", "`found_is`, `found_at` of load_word"),
    ("load_word", "ten_digits units_fit", "the contract of `read_time`"),
    ("load_word", "no_word", "`found_is`"),
    ("loader", "Passes refused_not_accepted", "the cases of `Result`"),
    ("loader", "texts_end", "`descriptions_from`, by its first equation"),
    ("loader", "refused", "`refused` of specs/Load.antt"),
    ("loader", "set_descriptions set_bytes", "`Whole`"),
    ("plain", "Told refusal_told action_told next_refusal run_refusal acted_as", "`next_told`, `query_told`, over `numbered`"),
    ("plain", "Told-by", "`found_good`, `found_bad`"),
    ("plain", "changed_as", "the contract of `change`"),
    ("plain_encoding", "same_written", "`written_back`, `places_back` of proofs/Back.antt"),
    ("plain_encoding", "Reading state_read table_read", "`read_all`, for both"),
    ("plain_encoding", "Writing table_more", "`line_placed`, for both"),
    ("scenario_replies", "next_quiet next_action_lem next_refused", "the cases of `next_reply`"),
    ("scenario_services", "take_few", "the contract of `leading`"),
    ("scenario_services", "part_none", "`ranged`"),
    ("scenario_services", "fitting_full take_none fitting_none fitting_next Keeping keeping_none", "`put_sets`, `sets_none`, `kept_put`"),
) for name in of.split()}


def head_of(says):
    """The definition that a contract says its result is."""
    m = re.search(r"(?:result|\.new|result\.now) ≡ \(?(?:record )?\(?([A-Za-z_][\w.]*)", says)
    return m.group(1) if m and m.group(1) not in ("record", "let", "pick") else ""


class Compared:
    def __init__(self, old, new):
        self.old, self.new = tree_of(old), tree_of(new)
        was, now = items_of(self.old), items_of(self.new)
        self.was = [i for i in was if i.kind == "fn"]
        self.now = [i for i in now if i.kind == "fn"]
        self.types = [[i for i in items if i.kind in ("struct", "enum", "type", "const", "static", "trait") and i.public] for items in (was, now)]
        self.facts = [[i for i in items if i.kind == "ghost"] for items in (was, now)]
        self.pair()

    def pair(self):
        free = {(i.crate, i.full): i for i in self.now}
        self.pairs, left = [], []
        for i in self.was:
            n = free.pop((i.crate, i.full), None)
            self.pairs.append((i, n)) if n else left.append(i)
        gone = []
        for i in left:
            n = free.pop((i.crate, PAIRS.get((i.crate, i.full))), None)
            self.pairs.append((i, n)) if n else gone.append(i)
        self.gone = []
        for i in gone:
            same = [n for n in free.values() if n.crate == i.crate and n.name == i.name]
            if len(same) == 1 and sum(1 for g in gone if (g.crate, g.name) == (i.crate, i.name)) == 1:
                self.pairs.append((i, free.pop((i.crate, same[0].full))))
            else:
                self.gone.append(i)
        self.fresh = list(free.values())

    def stated(self, i):
        """What states now what a function that is gone promised."""
        if (i.crate, i.full) in NOW:
            return NOW[i.crate, i.full]
        if i.crate in PROGRAMS and not i.says:
            return "nothing: they had no contract; `stdout/` holds what the program writes"
        head = head_of(i.says)
        if head:
            places = [n for n in self.now if n.crate == i.crate and re.search(rf"(?<![\w.]){re.escape(head)}\b", n.says)]
            if places:
                return ", ".join(f"`{n.full}`" for n in places[:3])
        return ""


# ---- the page

def cell(text, most=1200):
    """A text as code in a cell of a table."""
    text = one_line(text)
    if len(text) > most:
        text = text[: most - 4] + " ..."
    return "`" + text.replace("|", "\\|").replace("`", "'") + "`" if text else ""


def differing(old, new, same_old, same_new):
    """Two long texts with the parts left out that are the same in both, or in what their words gave way to."""
    if len(old) + len(new) < 1200:
        return old, new
    a, b, x, y = (re.split(r"(?<= ∷) ", t) for t in (old, new, same_old, same_new))
    if min(len(a), len(b)) < 4:
        return old, new
    if len(a) != len(x) or len(b) != len(y):
        x, y = a, b
    x, y = ([plain(e) for e in l] for l in (x, y))
    said = ([], [])
    for kind, i, j, k, l in difflib.SequenceMatcher(None, x, y, autojunk=False).get_opcodes():
        if kind == "equal" and i:
            for s in said:
                s.append("...")
        else:
            said[0].extend(a[i:j])
            said[1].extend(b[k:l])
    return tuple(" ".join(s) for s in said)


def rows(head, lines):
    return ["| " + " | ".join(head) + " |", "|" + "---|" * len(head)] + ["| " + " | ".join(l) + " |" for l in lines] + [""] if lines else []


def names(found):
    """Names, crate by crate."""
    by = collections.defaultdict(list)
    for crate, name in found:
        by[crate].append(f"`{name}`")
    return "; ".join(f"{c}: " + ", ".join(by[c]) for c in sorted(by))


class Page(Compared):
    def functions(self):
        changed = sorted(((a, b) for a, b in self.pairs if (a.public or b.public) and a.text != b.text), key=lambda p: (p[0].crate, p[0].path, p[0].line))
        out = ["### Public functions whose signature or clauses changed", ""]
        said = [(a.crate, a, b) for a, b in changed]
        gives = {(f.crate, f.owner): f.text for f in self.facts[1] if f.name == "from_gives"}
        out += rows(("crate", "old", "new"), [(c, cell(a.text), cell((b.text if a.full == b.full else b.text.replace("fn ", f"fn {b.owner}::" if b.owner else "fn ", 1))
                                                                  + (f" {{ {gives[b.crate, b.owner]} }}" if (b.crate, b.owner) in gives else ""))) for c, a, b in said])
        out += ["### Public functions that are gone, with what states their promise now", ""]
        out += rows(("crate", "function", "what states it now"), [(i.crate, cell(i.text), self.stated(i) or "?") for i in self.gone if i.public])
        out += ["### Public functions that are new", ""]
        out += rows(("crate", "function"), [(i.crate, cell(f"{i.owner}::" * bool(i.owner) + i.text[3:] + (f" {{ {gives[i.crate, i.owner]} }}" if (i.crate, i.owner) in gives else "")))
                                            for i in self.fresh if i.public])
        out += ["### Functions of one crate that are gone, with what states their promise now", ""]
        by = collections.defaultdict(list)
        for i in self.gone:
            if not i.public:
                by[i.crate, self.stated(i) or "?"].append(f"`{i.full}`")
        out += rows(("crate", "functions", "what states it now"), [(c, ", ".join(l), now) for (c, now), l in sorted(by.items())])
        return out, len(changed)

    def clauses(self):
        """What a function asked for in a clause and a type keeps now."""
        kept = {f.owner for f in self.facts[1] if ":" in f.text or "invariant" in f.text}
        kept = {re.sub(r"<(\w+) as Model>", r"\1", k) for k in kept if k and not k.startswith("<u")} - {"Encoded"}
        lines = []
        for a, b in self.pairs + [(g, None) for g in self.gone]:
            asked = re.findall(r"requires [^{]*\{[^{}]*(?:\{[^{}]*\}[^{}]*)*\}", a.text)
            if not asked:
                continue
            if b is None:
                now = [n for n in self.now if n.crate == a.crate and f"`{n.full}`" in self.stated(a)]
                b = now[0] if len(now) == 1 else None
            if b is None:
                continue
            type_ = next((t for t in kept if re.search(rf"\b{t}\b", b.text.split(" ensures ")[0]) or b.owner == t), None)
            asks = re.findall(r"requires [^{]*\{[^{}]*(?:\{[^{}]*\}[^{}]*)*\}", b.text)
            if type_ and asks != asked:
                callers = sorted({n.crate + "::" + n.full for n in self.now if n is not b and re.search(rf"(?<!fn )\b{b.name}\(", getattr(n, "body", "")) and n.crate == b.crate})
                lines.append((a.crate, cell(a.full + " " + " ".join(asked)), cell(b.full + (" " + " ".join(asks) if asks else "")), f"`{type_}`", ", ".join(f"`{c}`" for c in callers)))
        if not lines:
            return []
        return ["### Clauses that went into a type", "", "None is a public function's: each is of a function that its crate alone calls, in the places that the last column names.", ""] + rows(
            ("crate", "old", "new", "type", "called in"), lines)

    def of_types(self):
        was, now = ({(i.crate, i.full): i for i in items} for items in self.types)
        changed = [(k[0], cell(was[k].text), cell(now[k].text)) for k in was if k in now and was[k].text != now[k].text]
        derived = [(k, now[k].says) for k in was if k in now and was[k].text == now[k].text and was[k].says != now[k].says]
        out = ["### Public types, traits and constants that changed", ""] + rows(("crate", "old", "new"), changed)
        if derived:
            out += ["Derived since (`PartialEq`, `Eq`, `Default`): " + names([k for k, _ in derived]) + ".", ""]
        gone = collections.defaultdict(list)
        for k, i in was.items():
            if k not in now:
                gone[k[0], TYPES_NOW.get(k) or TYPES_NOW.get((k[0], i.kind)) or "?"].append(i)
        out += ["### Public types and constants that are gone", ""]
        out += rows(("crate", "old", "new"), [(c, cell(i[0].text) if len(i) == 1 else ", ".join(f"`{x.full}`" for x in i), to) for (c, to), i in sorted(gone.items(), key=lambda g: g[0])])
        out += ["### Public types and constants that are new", ""] + rows(("crate", "type"), [(k[0], cell(i.text)) for k, i in now.items() if k not in was])
        old, new = ({(f.crate, f.owner, f.name): f for f in facts} for facts in self.facts)
        changed = [(k[0], f"`{k[1]}`", cell(old[k].text) if k in old else "", cell(f.text)) for k, f in new.items() if k not in old or old[k].text != f.text]
        out += ["### Facts of types, new or changed", ""] + rows(("crate", "type", "old", "new"), changed)
        return out

    def definitions(self):
        was, now = ([w for w in words_of(t, "specs")] for t in (self.old, self.new))
        was, now = ({(w.crate, w.name): w for w in l} for l in (was, now))
        by, full, lemmas = collections.defaultdict(list), [], []
        same = 0
        for k, a in was.items():
            b = now.get(k)
            if b is None:
                continue
            whole = a.lemma and b.lemma
            if (a.statement == b.statement) if whole else (resolved(a, a.text) == resolved(b, b.text)):
                same += 1
                continue
            used = same_but_words(a, b, whole)
            if used is not None:
                by[tuple(sorted(used))].append(k)
            else:
                old, new = (w.statement if whole else re.sub(r"^(?:(?:abbrev|unfoldable|pub) )+", "", w.text) for w in (a, b))
                like = replaced(a, resolved(a, old))[0], resolved(b, new)
                (lemmas if whole else full).append((k[0], *(cell(t, 3000) for t in differing(old, new, *like))))
        out = ["### Definitions and theorems of specs/ in which words gave way to words", "",
               f"Of {len(was)} definitions and theorems {same} are the same, {sum(map(len, by.values()))} are the same but for these words:", ""]
        used = {f for u in by for f in u}
        out += rows(("", "old", "new"), [(f, *FAMILIES[f]) for f in sorted(FAMILIES) if f in used])
        out += rows(("words", "definitions and theorems"), [(", ".join(u) or "(line breaks alone)", names(l)) for u, l in sorted(by.items())])
        out += ["### Definitions of specs/ that changed otherwise", "", "Parts of a list that are the same in both are left out (...).", ""]
        out += rows(("crate", "old", "new"), sorted(full))
        out += ["### Theorems of specs/ whose statement changed otherwise", ""] + rows(("crate", "old", "new"), sorted(lemmas))
        gone = collections.defaultdict(list)
        for k in was:
            if k not in now:
                gone[k[0], WORDS_NOW.get(k) or WORDS_NOW.get(k[0]) or "?"].append(k[1])
        out += ["### Definitions of specs/ that are gone", ""] + rows(("crate", "definitions", "what states it now"), [(c, ", ".join(f"`{n}`" for n in l), to) for (c, to), l in sorted(gone.items())])
        out += ["### Definitions and theorems of specs/ that are new", ""]
        out += rows(("crate", "definition"), [(k[0], cell(w.statement if w.lemma else re.sub(r"^(?:(?:abbrev|unfoldable|pub) )+", "", w.text), 600)) for k, w in now.items() if k not in was])
        return out

    def lemmas(self):
        pages = " ".join(t for texts in (self.old, self.new) for p, t in texts.items() if not p.startswith("crates/") and p not in ("docs/PORT.md", "docs/DESIGN-PASS.md"))
        named = set(re.findall(r"`(?:[\w/]+::)?([A-Za-z_][\w']*)`", pages))
        was, now = ([w for w in words_of(t, "proofs") if w.path.count("/") == 3] for t in (self.old, self.new))
        stands = collections.defaultdict(list)
        for w in now + words_of(self.new, "specs"):
            stands[w.crate, w.name].append(w)
        by, full, gone, count = collections.defaultdict(list), [], collections.defaultdict(list), 0
        for a in was:
            found = stands.get((a.crate, a.name))
            if not found:
                gone[a.crate, LEMMAS_NOW.get((a.crate, a.name)) or SERVED.get(a.crate) or "?"].append(a.name)
                continue
            b = next((w for w in found if w.path == a.path), found[0])
            if a.name in named and a.form.endswith("pub"):
                count += 1
                old, new = (w.statement if w.lemma else w.text for w in (a, b))
                if old != new:
                    used = same_but_words(a, b, a.lemma)
                    if used:
                        by[tuple(sorted(used))].append((a.crate, a.name))
                    elif used is None:
                        full.append((a.crate, cell(old), cell(new)))
        out = ["### Theorems of proofs/ that README.md or docs/ name", "", f"Of {count} the statements are the same but for what follows.", ""]
        out += rows(("words", "theorems"), [(", ".join(u), names(l)) for u, l in sorted(by.items())]) + rows(("crate", "old", "new"), sorted(full))
        out += ["### Lemmas and shorthands of proofs/ that are gone", "",
                "Each served the proof of a function or of a theorem, which stands; those of a function's own folder (what holds in its loops, its answers) are not listed.", ""]
        out += rows(("crate", "lemmas", "what states it now"), [(c, ", ".join(f"`{n}`" for n in l), to) for (c, to), l in sorted(gone.items())])
        return out

    def text(self):
        functions, changed = self.functions()
        return "\n".join(["Written by `tools/design/changes.py " + OLD_NAME + "`: what others may rely on, as it was in the commit of the first line and as it is. No public function has a",
                          "`requires`, in that commit or now.", "", NOTES] + functions + self.clauses() + self.of_types() + self.definitions() + self.lemmas()).rstrip()


OLD_NAME = "COMMIT"
NOTES = """What a reader should know of these lists:

- Where a refusal had a value beside it, the description or the links or the settings so far, `Err` has none (`read_text`, `make_services` and what they call). What
  was lent stays as it was said to. No function read such a value.
- So `text_few`, `text_in` and `read_looked_through`, which spoke of the description that `text_read` gives, speak of it where it is `Ok d`: there is no other.
- A fault has the case of `Wrong` in place of a number, a command the case of `Verb`, a reply the case of `Text`: the numbers that no case has had no meaning, and
  none was ever made.
- `scenario_lines` reads a line of `load` by the form that `forms` has at its place, whatever the list of forms is that it is given (`read_load`, `load_form`);
  `command_of`, which its contract names, gives it that very list.
"""


def main(argv):
    words = [a for a in argv if a != "--counts"]
    if not 1 <= len(words) <= 2 or any(w.startswith("-") for w in words):
        print(__doc__)
        return 2
    page = Page(words[0], words[1] if len(words) == 2 else HERE)
    if "--counts" in argv:
        same = sum(1 for a, b in page.pairs if a.text == b.text)
        print(f"functions {len(page.was)} -> {len(page.now)}: the same {same}, changed {len(page.pairs) - same}, gone {len(page.gone)}, new {len(page.fresh)}")
        for k, name in enumerate(("types and constants", "facts of types")):
            old, new = ({(i.crate, i.full, i.kind): i.text for i in l} for l in (page.types if k == 0 else page.facts))
            print(f"{name} {len(old)} -> {len(new)}: changed {sum(1 for n in old if n in new and old[n] != new[n])}, gone {sum(1 for n in old if n not in new)}, new {sum(1 for n in new if n not in old)}")
        return 0
    print(page.text())
    return 0


if __name__ == "__main__":
    raise SystemExit(main(sys.argv[1:]))
