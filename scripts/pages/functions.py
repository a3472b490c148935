"""Makes the tables of docs/INDEX.md that follow from the tree: the trusted files of definitions, the types in them, the public functions with the
definitions that each contract cites and the must-fail edits inside it, and the wrong programs that the edits stand for.

The page holds them between two marks. `scripts/functions` prints them, `scripts/functions --write` puts them on the page, and `scripts/check_docs`
compares.
"""
import itertools
import os
import re
import sys

import marked
from tree import ROOT, Tree, clauses

INDEX, SCRIPT = 'docs/INDEX.md', 'scripts/functions'

# How the first line of a trusted file of definitions begins, and the heading of the list of these files.
TRUSTED = '-- Trusted: '
HEADING = '## All that the statements rest on, by file'

# The file of the load, and that of demand 3 with its statements.
LOADING = 'crates/loader/specs/Load.antt'
DEMAND = 'crates/rules/specs/Demand.antt'
DEMANDED = ['Holds', 'Demand3', 'RestsEverywhere', 'AlwaysFormed']

# What a reader may want to believe, and the definitions that it says: from these on down a file is needed for it. No names: all of the file.
NEEDED_FOR = {
    'load': {LOADING: ['load']},
    'calls': {'crates/rules/specs/Calls.antt': ['outcome', 'changed_outcome', 'stepped_outcome', 'ran_outcome', 'query_outcome']},
    'demand 3': {DEMAND: DEMANDED, 'crates/guarantee/specs/Guarantee.antt': []},
    'W-201': {'crates/guarantee/specs/Refusals.antt': [], 'crates/load_text/specs/Offsets.antt': []},
    'examples': {'crates/guarantee/specs/Worked.antt': []},
    'plain numbers': {'crates/plain/specs/Calls.antt': [], 'crates/plain/specs/Loads.antt': []},
}

# How a source brings in definitions: their crate and their names. How a file of definitions brings in a type of the sources: its crate, the module
# that declares it where that is not the root, its name.
BROUGHT_IN = re.compile(r'ghost use Rattle\.(\w+)\.specs\.[^;{]*\{([^}]*)\}')
DECLARED = re.compile(r'(?m)^use Rattle\.(\w+)\.specs\.declared\.((?:[a-z]\w*\.)?)([A-Z]\w*)\.')


def quoted(names):
    return ', '.join(f'`{name}`' for name in names)


def trusted(tree):
    """The trusted files of definitions, from the top down; those that only a host over plain numbers needs come last."""
    place = {crate: at for at, crate in enumerate(tree.crates)}
    paths = [path for path in tree.glob('crates/*/specs/*.antt') if tree.text(path).startswith(TRUSTED)]
    return sorted(paths, key=lambda path: (path.startswith('crates/plain'), -place[path.split('/')[1]], path))


def needs(tree):
    """For each file, what it is needed for."""
    found = {}
    for what, roots in NEEDED_FOR.items():
        for path, names in roots.items():
            for file, _ in tree.comes_down_to(path, names or list(tree.definitions(path))):
                found.setdefault(file, []).append(what)
    return {file: list(dict.fromkeys(uses)) for file, uses in found.items()}


def purpose(tree, path):
    """The first sentence of a trusted file of definitions."""
    head = itertools.takewhile(lambda line: line.startswith('-- '), tree.text(path).split('\n'))
    words = ' '.join(line[3:].strip() for line in head)[len(TRUSTED) - 3:]
    return re.match(r'.*?\.(?=["”]? |["”]?$)["”]?|.*', words).group()


def definitions(tree):
    """Each trusted file: what it is needed for, what it holds, and the definitions in it."""
    uses = needs(tree)
    rows = ['| file | needed for | what it holds | definitions |', '|---|---|---|---|']
    for path in trusted(tree):
        rows.append(f'| `{path}` | {", ".join(uses.get(path, []))} | {purpose(tree, path)} | {quoted(tree.definitions(path))} |')
    return rows


def types(tree):
    """The types of the sources that the trusted files speak of, by the source that declares them."""
    found = {}
    for path in trusted(tree):
        for crate, module, name in DECLARED.findall(tree.bare(path)):
            source = f'crates/{crate}/src/{module[:-1] or "lib"}.rt'
            found.setdefault(source, {})[name] = None
    return ['| file | types |', '|---|---|'] + [f'| `{source}` | {quoted(sorted(found[source]))} |' for source in sorted(found)]


def cited(tree, text, part):
    """The definitions of specs/ that the contract in this part names; those of the toolchain's libraries are left out."""
    names = []
    for crate, group in BROUGHT_IN.findall(text):
        if crate in tree.crates:
            names += [item.split(' as ')[-1].strip() for item in group.split(',')]
    said = ' '.join(clauses(part, 'ensures') + clauses(part, r'ghost \w+'))
    return [n for n in dict.fromkeys(names) if re.search(r"(?<![\w'])" + re.escape(n) + r"(?![\w'])", said)]


def homes(tree, crate):
    """The edits of a crate by the function that they change, as (file, where the function begins); and the rows of those that change none."""
    within, others = {}, []
    for name, file, old in tree.edits(crate):
        path = f'crates/{crate}/{file}'
        at = tree.text(path).find(old)
        home = None
        if tree.is_library(crate) and file.startswith('src/'):
            home = next((start for _, _, start, end in tree.functions(path) if start <= at < end), None)
        if home is None:
            others.append(f'| `{crate}` | `{file}` | `{name}` |')
        else:
            within.setdefault((path, home), []).append(name)
    return within, others


def functions(tree):
    """The public functions, and the inner ones that an edit changes; and the edits of definitions and programs."""
    rows = ['| crate | public function | its contract cites | must-fail edits in it |', '|---|---|---|---|']
    elsewhere = ['| crate | file | must-fail edit |', '|---|---|---|']
    for crate in tree.crates:
        # By place and not by name: two types may have functions of one name.
        within, others = homes(tree, crate)
        elsewhere += others
        for path in tree.sources(crate) if tree.is_library(crate) else []:
            rows += functions_of(tree, crate, path, within)
    return rows, elsewhere


def functions_of(tree, crate, path, within):
    """The rows of one source file; `within` has the edits by the place of the function that they change."""
    rows, text = [], tree.bare(path)
    for name, public, start, end in tree.functions(path):
        inside = within.get((path, start), [])
        if public or inside:
            shown = f'`{name}`' if public else f'`{name}` (inner)'
            rows.append(f'| `{crate}` | {shown} | {quoted(cited(tree, text, tree.part(path, start, end)))} | {quoted(inside)} |')
    return rows


def wrong_programs(tree):
    """Each must-fail edit with the wrong program that its first line names."""
    rows = ['| crate | wrong program | edit |', '|---|---|---|']
    for crate in tree.crates:
        for name, _, _ in tree.edits(crate):
            path = f'crates/{crate}/must-fail/{name}.edit'
            program = tree.text(path).split('\n')[0]
            if not program.startswith('# '):
                raise SystemExit(f'{path}: its first line does not name the wrong program')
            rows.append(f'| `{crate}` | {program[2:]} | `{path}` |')
    return rows


# What stands between the marks; each name in braces is a table.
PAGE = '''{heading}

The first line of these files says "Trusted:". To believe a statement one must believe the files that are needed for it. "load" and "calls" are the
contracts of demand 2, "demand 3" is `Guarantee` with the statements beside it, "W-201" is `RefusalsPoint`, "examples" is `worked`, and "plain
numbers" are the contracts of the crate `plain`. All other files of definitions say "Of the code:" first: they mirror the code and are discharged by
laws, or are cases, on which no demand rests; the pair of the examples is one, in `crates/loader/specs/Examples.antt`.

{definitions}

The types in them are declared in the sources:

{types}

## Public functions

Every public function has a contract with no precondition, which equates what it gives with definitions. An inner function stands here where a
must-fail edit changes it.

{public}

## Must-fail edits of definitions and programs

{elsewhere}

## Wrong programs

Each is a small edit that `rt ci` makes to a copy of its crate, and that the prover must refuse. Those of `rules` change definitions, nearly all
others change code.

{wrong}
'''


def made(tree):
    """All that stands between the marks."""
    faults = [f'{path}: {why}' for crate in tree.crates for path, why in tree.unapplied(crate)]
    if faults:
        raise SystemExit('\n'.join(faults))
    public, elsewhere = functions(tree)
    tables = {'definitions': definitions(tree), 'types': types(tree), 'public': public, 'elsewhere': elsewhere, 'wrong': wrong_programs(tree)}
    return PAGE.format(heading=HEADING, **{name: '\n'.join(rows) for name, rows in tables.items()})


if __name__ == '__main__':
    here = Tree(ROOT)
    if sys.argv[1:] == ['--write']:
        before, _, after = marked.split(here.text(INDEX), SCRIPT)
        page = before + made(here) + after
        with open(os.path.join(here.root, INDEX), 'w', encoding='utf-8') as file:
            file.write(page)
    else:
        print(made(here), end='')
