"""What the tree declares: its crates, functions, types, statements and must-fail edits. The check of the pages reads the sources by it.

Comments count for nothing here: a name that stands only in one is not declared.
"""
import functools
import glob
import os
import re
import sys

ROOT = os.path.dirname(os.path.dirname(os.path.dirname(os.path.abspath(__file__))))

# The checks use what is known there of the definitions and of the manual's form. It is looked for last: there is another `check`.
sys.path.append(os.path.join(ROOT, 'scripts', 'people'))

# A name in a definition or a proof, and as one was written by an older Rattle: a page that still has such a name must be seen. The lines that declare
# one: a long statement may begin on the line below its name.
NAME = r"[A-Za-z][\w\-'′″]*"
WORDS = r'(?:(?:abbrev|unfoldable|opaque) )*(?:pub )?'
SAYS = r' :(?= |$)'
TYPE = re.compile(r'(?m)^\s*' + WORDS + r'(?:data|record) (' + NAME + ')')
SIGNATURE = re.compile(r'(?m)^\s*' + WORDS + '(' + NAME + '(?: ' + NAME + ')*)' + SAYS)
DEFINED = re.compile(r'(?m)^' + WORDS + '(?:(?:data|record) (' + NAME + ')|(' + NAME + ')' + SAYS + ')')
PART = re.compile(r'(?m)^  (?:pub )?(' + NAME + '(?: ' + NAME + ')*)' + SAYS)
# What a file brings in: the crate, the module of its definitions, and the names. A library of the toolchain is named in the same way.
MODULE = re.compile(r'(?m)^use Rattle\.(\w+)\.specs\.(\w+)')
IMPORTED = re.compile(r'(?m)^use Rattle\.(\w+)\.specs\.(?!declared)(\w+)\.\{([^}]*)\}')
MADE = re.compile(r'crates/\w+/out(?:/|$)')
VISIBLE = r'(?:pub(?:\([^)]*\))? )?'
FUNCTION = re.compile(r'(?m)^[ \t]*(pub )?(?:pub\([^)]*\) )?(?:const )?(?:extern "C" )?fn (\w+)')
# The parameters of a type or of an impl, one pair of brackets in another at most; and the type of an impl, which may be one of a trait for it.
PARAMETERS = r'(?:<(?:[^<>]|<[^<>]*>)*>)?'
IMPL = re.compile(r'(?m)^impl' + PARAMETERS + r' (?:((?:\w+::)*(\w+)' + PARAMETERS + r') for )?(?:\w+::)*(\w+)')
# The traits of the standard library whose functions are as public as the type. What theirs promise is a law that the impl gives by name.
PUBLIC = {'From', 'TryFrom', 'Default', 'Display', 'Index', 'IndexMut', 'Deref'}
DECLARED = re.compile(r'(?m)^' + VISIBLE + r'(?:(struct|enum) (\w+)(' + PARAMETERS + r')\s*([{(])|type (\w+' + PARAMETERS + r') = ((?:\[[^\]]*\]|[^;\[])*);)')
CLOSED = {'{': '}', '(': ')'}


@functools.lru_cache(maxsize=None)
def without_comments(text, mark):
    """The text with each comment blanked out, so that places stay what they are."""
    return re.sub(r'(?m)(?<!\S)' + mark + '.*$', lambda m: ' ' * len(m.group()), text)


@functools.lru_cache(maxsize=None)
def types_in(text):
    """Each struct, enum and name of a type of a source, in one line, by name."""
    found = {}
    for m in DECLARED.finditer(text):
        if m.group(5):
            found[re.match(r'\w+', m.group(5)).group()] = f'type {m.group(5)} = {" ".join(m.group(6).split())}'
            continue
        end, depth = m.end(), 1
        while depth and end < len(text):
            depth += {m.group(4): 1, CLOSED[m.group(4)]: -1}.get(text[end], 0)
            end += 1
        inside = re.sub(r'#\[[^\]]*\]\s*|\bpub(?:\([^)]*\))? ', '', text[m.end():end - 1])
        inside = ' '.join(inside.split()).rstrip(',').replace(', }', ' }')
        words = f'{m.group(1)} {m.group(2)}{m.group(3)}'
        found[m.group(2)] = f'{words} {{ {inside} }}' if m.group(4) == '{' else f'{words}({inside})'
    return found


@functools.lru_cache(maxsize=None)
def declared_in_definitions(text):
    """Statements, definitions, types, constructors and fields; and the properties of a description, which their list names in quotes."""
    names = set(TYPE.findall(text)) | set(re.findall(r'\bnamed "([^"]+)"', text))
    for together in SIGNATURE.findall(text):
        names.update(together.split())
    return names


def used_in(text, words='(?:pub )?'):
    """What a source brings in by its name, as (what it stands in, its name); `pub ` finds what it hands on."""
    found = []
    for home, one, group in re.findall(r'(?m)^' + words + r'use (\w+)::(?:(\w+)|\{([^}]*)\});', text):
        found += [(home, name.strip()) for name in (one or group).split(',') if name.strip()]
    return found


@functools.lru_cache(maxsize=None)
def declared_in_source(text):
    """Functions, types, constants, variants and fields, and what is brought in by its name."""
    names = set(re.findall(r'(?m)^\s*' + VISIBLE + r'(?:const )?(?:extern "C" )?(?:fn|const|struct|enum|type|trait) (\w+)', text))
    names.update(name for _, name in used_in(text))
    for words in types_in(text).values():
        names.update(re.findall(r'(?:^|[,{]) ?(\w+)(?=[,:({ ])', words.partition('{')[2]))
    return names


def variants(words):
    """The variants of a type, or its fields, from its words in one line."""
    return re.findall(r'(\w+)(?=[,({ ]|$)', re.sub(r'\([^)]*\)|\{[^}]*\}', '', words.partition('{')[2]))


def clauses(text, kind):
    """What stands in the braces of each clause of a kind, `requires` or `ensures`, with its name or without."""
    found = []
    for head in re.finditer(r'(?m)^[ \t]*' + kind + r'\b[^{\n]*\{', text):
        end, depth = head.end(), 1
        while depth and end < len(text):
            depth += {'{': 1, '}': -1}.get(text[end], 0)
            end += 1
        found.append(text[head.end():end - 1])
    return found


class Tree:
    """The files of a repository."""

    def __init__(self, root):
        self.root = root
        self.crates = {}
        for line in self.text('crates.txt').split('\n'):
            name, colon, imports = line.split('#')[0].partition(':')
            if colon:
                self.crates[name.strip()] = imports.split()

    def exists(self, path):
        return os.path.exists(os.path.join(self.root, path))

    def glob(self, pattern):
        """The paths of a pattern, from the root; what rt builds in a crate's out/ is left out."""
        paths = (os.path.relpath(p, self.root) for p in glob.glob(os.path.join(self.root, pattern), recursive=True))
        return sorted(path for path in paths if not MADE.match(path))

    def text(self, path):
        with open(os.path.join(self.root, path), encoding='utf-8') as file:
            return file.read()

    def held(self, path):
        """What a file has, or each file of a folder by its name."""
        folder = os.path.join(self.root, path)
        if os.path.isdir(folder):
            return {name: self.text(os.path.join(path, name)) for name in os.listdir(folder)}
        return self.text(path) if self.exists(path) else None

    def bare(self, path):
        """The file without its comments."""
        return without_comments(self.text(path), '--' if path.endswith('.antt') else '//')

    def is_library(self, crate):
        return self.exists(f'crates/{crate}/src/lib.rt')

    def sources(self, crate):
        return self.glob(f'crates/{crate}/src/**/*.rt')

    def library_sources(self):
        """Each source file of each library, with its crate."""
        return [(crate, path) for crate in self.crates if self.is_library(crate) for path in self.sources(crate)]

    def handed_on(self):
        """What a host can name as CRATE::NAME: functions with their signatures, types and constants with their words; and the variants of each type."""
        functions, types, inside = {}, {}, {}
        for crate, path in self.library_sources():
            for name, public, start, _ in self.functions(path):
                _, of_trait, of = name.partition(' for ')
                if public and of_trait:
                    functions[f'{of}::{FUNCTION.search(self.bare(path), start).group(2)}'] = name
                elif public:
                    functions[name if '::' in name else f'{crate}::{name}'] = self.signature(path, start)
            for name, words in self.types(path):
                types[f'{crate}::{name}'] = words
                inside.setdefault(name, set()).update(variants(words))
            types.update({f'{crate}::{name}': name for name in re.findall(r'(?m)^\s*pub const (\w+)', self.bare(path))})
            handed = used_in(self.bare(path), 'pub ')
            for kept in (functions, types):
                kept.update({f'{crate}::{name}': kept[f'{other}::{name}'] for other, name in handed if f'{other}::{name}' in kept})
        return functions, types, inside

    def functions(self, path):
        """Each function of a source file as (name, its type before it; public; where it begins; where the next begins). The first function of an
        impl of a public trait begins with the impl, and has its words as its name."""
        text = self.bare(path)
        homes = [(m.group(3), m.group(1), m.group(2) in PUBLIC, m.start(), text.find('\n}', m.start())) for m in IMPL.finditer(text)]
        met, found = set(), []
        for m in FUNCTION.finditer(text):
            name, trait, public, start, _ = next((home for home in homes if home[3] < m.start() < home[4]), ('', None, False, 0, 0))
            if public and start not in met:
                met.add(start)
                found.append((f'{trait} for {name}', True, start))
            else:
                found.append((f'{name}::{m.group(2)}' if name else m.group(2), bool(m.group(1)), m.start()))
        for k, (name, public, start) in enumerate(found):
            yield name, public, start, found[k + 1][2] if k + 1 < len(found) else len(text)

    def part(self, path, start, end):
        """The text of the function that begins there, with what its impl says before the functions, and without what follows the impl."""
        text = self.bare(path)
        for impl in IMPL.finditer(text):
            close = text.find('\n}', impl.start())
            if impl.start() <= start < close:
                head = text[impl.start():FUNCTION.search(text, impl.start()).start()]
                return head + text[start:min(end, close)]
        return text[start:end]

    def signature(self, path, start):
        """The name, parameters and result of the function that begins there, in one line, as a caller sees them."""
        text = self.bare(path)[start:]
        end = re.search(r'\n\s*(?:where|requires|ensures|\{)|\s\{\s*\n', text).start()
        words = ' '.join(text[:end].split('fn ', 1)[1].split())
        return re.sub(r'\bmut (?=\w+:)', '', words.replace('( ', '(').replace(', )', ')'))

    def types(self, path):
        return types_in(self.bare(path)).items()

    def declared(self, path):
        """The names that a file declares."""
        return (declared_in_definitions if path.endswith('.antt') else declared_in_source)(self.bare(path))

    def everything(self):
        """Every name that the tree declares, every crate, every source file and every must-fail edit by its name."""
        names = set(self.crates)
        names.update(name for crate in self.crates for name, _, _ in self.edits(crate))
        for path in self.glob('crates/**/*.antt') + self.glob('crates/**/*.rt'):
            names |= self.declared(path)
            names.add(os.path.splitext(os.path.basename(path))[0])
        return names

    def edits(self, crate):
        """Each must-fail edit of a crate as (its name, the file that it changes, the words that it replaces)."""
        for path in self.glob(f'crates/{crate}/must-fail/*.edit'):
            lines = self.text(path).split('\n')
            file = next(line[6:].strip() for line in lines if line.startswith('file: '))
            old = next(line[5:] for line in lines if line.startswith('old: '))
            yield os.path.basename(path)[:-5], file, old

    def unapplied(self, crate):
        """Each must-fail edit of a crate that `rt ci` could not apply: its path, and what is not there. What a pair of lines replaces stands once in the
        file, as the pairs before it left that."""
        for path in self.glob(f'crates/{crate}/must-fail/*.edit'):
            texts, file, old = {}, None, None
            for line in self.text(path).split('\n'):
                if line.startswith('file: '):
                    file = f'crates/{crate}/{line[6:].strip()}'
                    texts.setdefault(file, self.text(file) if self.exists(file) else '')
                elif line.startswith('old: '):
                    old = line[5:]
                elif line.startswith('new:'):
                    if texts[file].count(old) != 1:
                        yield path, f'what it replaces is in {file} {texts[file].count(old)} times: {old}'
                    texts[file] = texts[file].replace(old, line[4:].removeprefix(' '))

    def rests_on(self, path):
        """A file of definitions, all that it imports, and all that those import."""
        met, left = set(), [path]
        while left:
            at = left.pop()
            if at in met:
                continue
            met.add(at)
            if not at.endswith('.antt'):
                continue
            for crate, module in MODULE.findall(self.bare(at)):
                if crate in self.crates:
                    left.append(f'crates/{crate}/src/lib.rt' if module == 'declared' else f'crates/{crate}/specs/{module}.antt')
        return sorted(met)

    def definitions(self, path):
        """Each definition of a file by name, with its text: from its signature to the next one."""
        text = self.bare(path)
        heads = [(m.group(1) or m.group(2), m.start()) for m in DEFINED.finditer(text)]
        ends = [start for _, start in heads[1:]] + [len(text)]
        found = {}
        for (name, start), end in zip(heads, ends):
            found[name] = found.get(name, '') + text[start:end]
        return found

    def brought_in(self, path):
        """What each name that a file of definitions imports is: the file that declares it, and its name there."""
        found = {}
        for crate, module, names in IMPORTED.findall(self.bare(path)):
            for name in names.split(',') if crate in self.crates else []:
                there, _, here = name.partition(' as ')
                found[here.strip() or there.strip()] = (f'crates/{crate}/specs/{module}.antt', there.strip())
        return found

    def parts(self, path):
        """The constructors and fields of the types of a file, each with its type."""
        types = [(kind, text) for kind, text in self.definitions(path).items() if re.match(r'(?:pub )?(?:data|record) ', text)]
        return {part: kind for kind, text in types for parts in PART.findall(text) for part in parts.split()}

    def comes_down_to(self, path, names):
        """All definitions that those of a file come down to, through every file of definitions: (file, name)."""
        met, left, files = set(), [(path, name) for name in names], {}
        while left:
            at = left.pop()
            file, name = at
            if at in met:
                continue
            if file not in files:
                files[file] = (self.definitions(file), self.brought_in(file), self.parts(file))
            here, imports, types = files[file]
            if name not in here:
                # a constructor, which stands for its type
                left += [(file, types[name])] if name in types else []
                continue
            met.add(at)
            for word in set(re.findall(NAME, here[name])):
                if word in here:
                    left.append((file, word))
                elif word in imports:
                    left.append(imports[word])
        return met
