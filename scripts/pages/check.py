"""Holds the pages to the tree: prints what a page says and the tree does not have, or the other way round, and exits with 1 where there is any.

The auditor reads docs/AUDIT.md and docs/INDEX.md in place of the sources, and the writer of a host docs/HOST.md. Both trust what stands there, so
nothing on a page may rot unseen. `scripts/check_docs_fails` shows that this check can fail.
"""
import os
import re
import sys

import functions
import layout
import manual
import marked
import sums
from functions import INDEX
from manual_page import anchor  # of scripts/people, which `tree` makes known
from tree import NAME, ROOT, Tree

AUDIT, DESIGN, HOST, DECISIONS, README = 'docs/AUDIT.md', 'docs/DESIGN.md', 'docs/HOST.md', 'docs/DECISIONS.md', 'README.md'
ELSEWHERE = ['second/README.md', 'tools/README.md', 'examples/README.md']

# What the three demands and the requests rest on: a statement's name, its file, and how it is declared there. Nothing else in the tree need cite
# these, so only this list sees it where one is renamed, weakened or taken off the page.
PROMISED = [
    ('refusal_leaves_all', 'crates/rules/proofs/Refusals.antt',
     'pub refusal_leaves_all : (c : Call) → is_refused (outcome t x c).answer ≡ true → (k : ℕ) × (outcome t x c ≡ gives c (refused k) x)'),
    ('RefusedLoadLeavesAll', 'crates/guarantee/specs/Guarantee.antt', 'abbrev pub RefusedLoadLeavesAll : Type 0'),
    ('refused_load_leaves_all', 'crates/guarantee/proofs/Refusals.antt', 'pub refused_load_leaves_all : RefusedLoadLeavesAll'),
    ('load', 'crates/loader/specs/Load.antt', 'unfoldable pub load : List ℕ → List ℕ → List ℕ → Outcome'),
    ('load', 'crates/loader/src/lib.rt',
     '(record { loaded = result; buffer = tokens.new }) (load lent.now ends.now tokens.old) }'),
    ('outcome', 'crates/rules/specs/Calls.antt', 'unfoldable pub outcome : Table → State → Call → Outcome'),
    ('start', 'crates/engine_calls/src/events.rt', '{ changed_outcome result ≡ outcome t x (startCall s) }'),
    ('stop', 'crates/engine_calls/src/events.rt', '{ changed_outcome result ≡ outcome t x (stopCall s) }'),
    ('stop_all', 'crates/engine_calls/src/events.rt', '{ changed_outcome result ≡ outcome t x stop_all }'),
    ('end', 'crates/engine_calls/src/events.rt', '{ changed_outcome result ≡ outcome t x (endCall s good) }'),
    ('clock', 'crates/engine_calls/src/events.rt', '{ changed_outcome result ≡ outcome t x (clockCall to) }'),
    ('next_action', 'crates/engine/src/lib.rt', '{ stepped_outcome result ≡ outcome t x nextCall }'),
    ('run_to_quiet', 'crates/engine/src/lib.rt',
     '{ ran_outcome result services.new actions.new ≡ outcome t x (runCall services.old actions.old) }'),
    ('query', 'crates/engine_calls/src/times.rt', '{ query_outcome result x ≡ outcome t x queryCall }'),
    ('fresh', 'crates/engine/src/lib.rt', '{ result ≡ fresh_state }'),
    ('cases', 'crates/guarantee/specs/Worked.antt', 'abbrev pub cases : List Case'),
    ('worked', 'crates/guarantee/specs/Worked.antt', 'pub worked : AllPass cases'),
    ('Guarantee', 'crates/guarantee/specs/Guarantee.antt', '(cs : List Call) → Holds (load lent ends tokens).loaded.table cs'),
    ('guarantee', 'crates/guarantee/proofs/Guarantee.antt', 'pub guarantee : Guarantee'),
    ('loads_formed', 'crates/guarantee/proofs/Loaded.antt', 'pub loads_formed : LoadsFormed'),
    ('Demand3', 'crates/rules/specs/Demand.antt', 'Demand3 = (t : Table) → table_formed t ≡ true → (cs : List Call) → Holds t cs'),
    ('Holds', 'crates/rules/specs/Demand.antt', 'pub record Holds (t : Table) (cs : List Call) : Type 0 where'),
    ('demand3', 'crates/rules/proofs/Demand.antt', 'pub demand3 : Demand3'),
    ('always_safe', 'crates/rules/proofs/Safety.antt',
     'pub always_safe : (t : Table) → table_formed t ≡ true → (cs : List Call) → Each (Clear t) recorded nobody (story t fresh_state cs)'),
    ('always_live', 'crates/rules/proofs/Safety.antt',
     'fed recorded (story t fresh_state cs) nobody s ≡ (record_at (after_calls t fresh_state cs) s).live'),
    ('rests_everywhere', 'crates/rules/proofs/Resting.antt', 'pub rests_everywhere : RestsEverywhere'),
    ('all_down', 'crates/rules/proofs/Rounds.antt', "pub all_down : {n n' : Now} {cs : List Call} → Rounds t (suc t.count) n cs n'"),
    ('always_formed', 'crates/rules/proofs/Formed.antt', 'pub always_formed : AlwaysFormed'),
    ('RefusalsPoint', 'crates/guarantee/specs/Refusals.antt',
     '→ (load lent ends tokens).loaded.answer ≡ Err r → Told (text_at lent ends r.service) r.number r.line r.column'),
    ('refusals_point', 'crates/guarantee/proofs/Pointing.antt', 'pub refusals_point : RefusalsPoint'),
    ('LineAndColumnTell', 'crates/load_text/specs/Offsets.antt',
     'LineAndColumnTell = (text : List ℕ) (at : ℕ) → Stands text at (line_number text at) (column_number text at)'),
    ('line_and_column_tell', 'crates/load_text/proofs/Offsets.antt', 'pub line_and_column_tell : LineAndColumnTell'),
    ('Refused::within', 'crates/load_lent/src/lib.rt', '{ result ≡ refused_in text.now service f }'),
    ('column_number', 'crates/load_text/src/lib.rt', '{ result ≡ column_number s.now at }'),
    ('pair_loads', 'crates/loader/specs/Examples.antt', 'pub pair_loads : load_of pair 30 ≡ pair_loaded'),
    ('readings_hold', 'crates/rules/specs/Readings.antt', 'pub readings_hold : AllGiven readings'),
]

# Where the statements stand that the auditor's page prints.
STATED = ['crates/guarantee/specs/Guarantee.antt', 'crates/guarantee/specs/Refusals.antt', 'crates/rules/specs/Demand.antt']

# What else the statements of the page begin from: every file of definitions that these rest on is in the index.
BEGUN = ['crates/guarantee/specs/Guarantee.antt', 'crates/guarantee/specs/Refusals.antt', 'crates/guarantee/specs/Worked.antt']

# The heading, in the file of demand 3, of its list of what the statement rests on.
RESTS_ON = '-- ---- WHAT THE STATEMENT RESTS ON'

# How a file of definitions begins: what a reader must believe, and what mirrors the code and is discharged by laws.
KINDS = (functions.TRUSTED, '-- Of the code: ')

# How the auditor's first page ends, how many lines fit a printed page, and what it must have.
FIRST_PAGE_END, FIRST_PAGE_LINES = '\n---\n', 50
FIRST_PAGE = ['`depends-on: reader`', '`Guarantee`', '`crates/guarantee/specs/Guarantee.antt`', '`guarantee`',
              '`crates/guarantee/proofs/Guarantee.antt`', 'A live process is what the host counts', HOST, INDEX, '`scripts/check_docs`',
              '`rt ci guarantee`', '`scripts/test`', '`scripts/reproduce`', '`scripts/sums`', marked.mark(sums.SCRIPT).strip()]

# The words of the demands and the requests whose definitions must stand in the index, under this heading.
WORDS_HEADING = '## What the words mean'
WORDS = ['Call', 'after_calls', 'fresh_state', 'accepted', 'Moment', 'Mark', 'story', 'ActsOn', 'recorded', 'fed', 'Path', 'hard_links', 'Clear',
         'Each', 'Rests', 'eventless', 'actions_in', 'deadline_kill', 'sent', 'ToQuiet', 'Round', 'Rounds', 'WoundDown', 'NoZeroTimeout', 'fits',
         'leaves', 'hands', 'chosen', 'next_action', 'formed', 'gives', 'check', 'refused_with', 'positioned', 'names_from', 'sizes_from',
         'descriptions_from', 'text_read', 'services_from', 'lowest_cyclic', 'stored', 'settings_of', 'refusal_number', 'has_byte', 'column_of_fault',
         'refused_in', 'column_number', 'Stands', 'Decides', 'Points', 'Told']

# The wrong programs that paper 01 names. Any other edit may go together with its row; these may not, nor may their rows on the auditor's page.
SHUT_OUT = ['loader/refuses_all', 'loader/one_fixed_table', 'engine/always_quiet', 'engine_calls/ignores_start', 'engine_calls/ignores_stop_all',
            'engine_calls/ignores_clock', 'engine/shutdown_in_one_action', 'engine/run_invents_its_number', 'engine/run_writes_past_its_number',
            'rules/launches_before_averager_ended', 'rules/ends_while_blocked', 'rules/deadline_before_launch', 'rules/settles_user_wanted',
            'rules/releases_before_waking', 'rules/begins_on_closing', 'engine_calls/ignores_stop', 'engine_calls/ignores_end',
            'engine_records/restarts_after_stop', 'engine_record_tests/closing_is_serving', 'engine_records/start_timeout_from_before_launch']

# The wrong programs that stand for a request of paper 02, likewise.
REQUESTED = {'W-201': ['load_text/columns_from_zero', 'load_text/column_counted_through_newlines', 'load_lent/column_of_15_of_the_value',
                       'load_lent/line_without_column', 'load_reader/offsets_from_the_line', 'scenario_replies/line_told_for_the_column']}

# The page of the stored cases, and how a refused load is written.
CASES = 'examples/README.md'
REFUSED = r'refused \d+ service \d+ line \d+ column \d+'

# The stored cases on which `rt ci` runs the programs too, with what each part is called in the crate. rt takes no link, so each stands twice.
OF_CRATES = {'examples/simulate/march-incident': 'crates/simulate', 'examples/check_services/pair': 'crates/check_services'}
CALLED = {'input': 'stdin', 'output': 'stdout', 'files': 'data'}

# What README.md names of each demand, so that a reader needs no other page to find it.
ON_README = ['refusal_leaves_all', 'refused_load_leaves_all', 'load', 'outcome', 'Guarantee', 'guarantee']

# The pages that say how something was when it was done: a file of a crate that they name may have gone since.
RECORDS = ['docs/PORT.md', 'docs/DESIGN-PASS.md']
OF_A_CRATE = re.compile(r'(?:crates/\w+/)?(?:src|specs|proofs|must-fail)/')

# Quoted words of a page that are nobody's declaration: programs, libraries and words of the toolchain's verdict, signs of Rattle's own.
FOREIGN = {'Result', 'Ok', 'Err', 'Option', 'rt', 'cargo', 'python3', 'valgrind', 'std', 'check', 'requires', 'ensures', 'specs', 'proofs', 'memcpy'}

# The crates that a host names; they hand on what they are made of.
HANDED_ON_BY = ('engine', 'loader')

# What the sketch of a host leaves to the host.
SKETCHED = {'Happening', 'act', 'is_all_down', 'serve', 'launch', 'send', 'now', 'happening'}

PATH = re.compile(r'(?<![\w./~$<>\-])(?:\./)?((?:[\w.\-]+/)+[\w.\-]*)')
KNOWN = ('.md', '.rt', '.antt', '.rs', '.edit', '.svg', '.sh', '.txt', '.toml')
BUILT = ('Lts.antt',)
TOPS = ('crates', 'docs', 'scripts', 'examples', 'second', 'tools', '.ci', 'src')


def quoted(text):
    return re.findall(r'`([^`\n]+)`', text)


def rows(text):
    return [line for line in text.split('\n') if line.startswith('|')]


def files_in(row):
    return [q for q in quoted(row) if q.startswith('crates/') and q.endswith(('.antt', '.rt'))]


def section(page, heading):
    """A section of a page, from its heading up to the next."""
    return page[page.find(heading):].split('\n## ')[0] if heading in page else ''


def blocks(text):
    """The lines that are set off as code."""
    return [line.strip() for line in text.split('\n') if line.startswith('    ')]


class Check:
    def __init__(self, root):
        self.tree = Tree(root)
        self.faults = []
        self.made = set()
        self.pages = [README] + self.tree.glob('docs/*.md') + ELSEWHERE
        self.whole = {}
        for page in self.pages + [AUDIT, INDEX, DESIGN, HOST, DECISIONS]:
            if self.tree.exists(page):
                self.whole[page] = self.tree.text(page)
            else:
                self.fault(page, 'there is no such page')
                self.whole[page] = ''

    def fault(self, place, what):
        if (place, what) not in self.faults:
            self.faults.append((place, what))

    def all(self):
        self.functions()
        self.first_page()
        self.sums()
        self.paths()
        self.links()
        self.names()
        self.statements()
        self.definitions()
        self.rests_on()
        self.trusted()
        self.edits()
        self.contracts()
        self.host()
        self.structure()
        self.cases()
        self.decisions()
        self.layout()
        self.manual()
        return [f'{place}: {what}' for place, what in self.faults]

    def functions(self):
        """The tables of the index are those that the tree gives. The pages that lead to it have no copy."""
        try:
            made = functions.made(self.tree)
            _, held, _ = marked.split(self.whole[INDEX], functions.SCRIPT)
        except (ValueError, SystemExit) as error:
            self.fault(INDEX, f'no tables can be made or found: {error}')
            return
        self.made = set(rows(made))
        if held != made:
            self.fault(INDEX, 'its tables are not what `scripts/functions` prints')
        for page in (AUDIT, DESIGN):
            if INDEX not in self.whole[page]:
                self.fault(page, f'it does not lead to {INDEX}')
            for row in self.made & set(rows(self.whole[page])):
                if quoted(row):
                    self.fault(page, f'it has a copy of a row of {INDEX}: {row}')

    def first_page(self):
        """The auditor's page begins with one that fits a printed page, and has the theorem, the commands and the sums."""
        page, end, _ = self.whole[AUDIT].partition(FIRST_PAGE_END)
        if not end or page.count('\n') > FIRST_PAGE_LINES:
            self.fault(AUDIT, f'its first page has more than {FIRST_PAGE_LINES} lines')
        for words in FIRST_PAGE:
            if words not in page:
                self.fault(AUDIT, f'its first page says nothing of {words}')

    def sums(self):
        """The auditor's page has a sum for each program, and for no other, and the kit that built them. `scripts/sums` says whether these are right;
        the checks below read the page without them."""
        try:
            before, held, after = marked.split(self.whole[AUDIT], sums.SCRIPT)
        except ValueError:
            self.fault(AUDIT, f'it has no place for what {sums.SCRIPT} writes')
            return
        by, found = sums.read(held)
        if sorted(found) != sorted(sums.programs(self.tree)) or not by or held != sums.written(by, found):
            self.fault(AUDIT, 'its sums are not one for each program, as `scripts/sums --write` puts them there')
        self.whole[AUDIT] = before + after

    def paths(self):
        """Every path on every page is there, quoted or not: from the root, the page's folder, or a crate's. What a build makes is not looked for."""
        homes = [f'crates/{crate}' for crate in self.tree.crates]
        for page in self.pages:
            for left in re.findall(r'@\w+@', self.whole[page]):
                self.fault(page, f'{left} stands for something that was never filled in')
            folder = os.path.dirname(page)
            named = [m.group(1).rstrip('.') for m in PATH.finditer(self.whole[page])]
            named = [p for p in named if p.split('/')[0] in TOPS or p.endswith(KNOWN)]
            named += [q for q in quoted(self.whole[page]) if re.fullmatch(r'[\w\-]+\.\w+', q) and q.endswith(KNOWN)]
            for path in named:
                if 'target/' in path or path in BUILT or re.search(r'(?:^|/)[A-Z_]+(?:/|$)', path):
                    continue
                if page in RECORDS and OF_A_CRATE.match(path):
                    continue
                if not any(self.tree.exists(os.path.join(base, path)) for base in ['', folder, 'crates'] + homes):
                    self.fault(page, f'there is no {path}')
        for page in self.tree.glob('docs/*.md'):
            if page not in self.whole[README]:
                self.fault(README, f'nothing is said of {page}')

    def links(self):
        """A link to a heading of a page, its own or another's, leads to one."""
        headings = {page: {anchor(words) for words in re.findall(r'(?m)^#+ (.*)$', text)} for page, text in self.whole.items()}
        for page, text in self.whole.items():
            for path, name in re.findall(r'\]\(([^)#\s]*)#([^)\s]+)\)', text):
                other = os.path.normpath(os.path.join(os.path.dirname(page), path)) if path else page
                if name not in headings.get(other, ()):
                    self.fault(page, f'there is no heading for the link {path}#{name}')

    def names(self):
        """Every name in quotes is declared somewhere; one in a table's row is declared in a file that the row names. A row that was made from the
        tree may have a name that a contract gives to a definition of another."""
        everything = self.tree.everything() | FOREIGN | SKETCHED
        for page in (README, AUDIT, INDEX, DESIGN, HOST, DECISIONS):
            for line in self.whole[page].split('\n'):
                files = files_in(line) if line.startswith('|') else []
                for name in filter(re.compile(NAME).fullmatch, quoted(line)):
                    self.name(page, line, files, name, everything)

    def name(self, page, line, files, name, everything):
        """A name in quotes of a line of a page, which names these files."""
        if files and name not in self.tree.crates:
            if not any(name in self.tree.declared(f) for f in files if self.tree.exists(f)):
                self.fault(page, f'{name} is not declared in {", ".join(files)}')
        elif page != DECISIONS and line not in self.made and name not in everything:
            self.fault(page, f'{name} is declared nowhere')

    def statements(self):
        """What carries the demands is declared as it was when the page was written, and stands on the page beside its file."""
        audit = rows(self.whole[AUDIT])
        for name, file, words in PROMISED:
            if not self.tree.exists(file) or words not in ' '.join(self.tree.bare(file).split()):
                self.fault(file, f'{name} is no longer declared as: {words}')
            if not any(f'`{name}`' in row and f'`{file}`' in row for row in audit):
                self.fault(AUDIT, f'no row has {name} with {file}')
        printed = ' '.join(self.tree.bare(f) for f in STATED if self.tree.exists(f))
        for line in blocks(self.whole[AUDIT]):
            if not self.tree.exists(line.split()[0]) and line not in printed:
                self.fault(AUDIT, f'it prints what {", ".join(STATED)} do not have: {line}')
        words = [row for row in rows(section(self.whole[INDEX], WORDS_HEADING)) if files_in(row)]
        for name in WORDS:
            if not any(f'`{name}`' in row for row in words):
                self.fault(INDEX, f'no row says what {name} is defined as')
        for name in ON_README:
            if not any(f'`{name}`' in row and files_in(row) for row in rows(self.whole[README])):
                self.fault(README, f'no row has {name} with its file')

    def definitions(self):
        """Every file that the files of the statements bring in is in the index's list, or is a case that the auditor's page names."""
        for start in BEGUN:
            if not self.tree.exists(start):
                continue
            for file in self.tree.rests_on(start):
                if f'`{file}`' not in section(self.whole[INDEX], functions.HEADING) + self.whole[AUDIT]:
                    self.fault(INDEX, f'nothing is said of {file}, on which {start} rests')

    def rests_on(self):
        """The list at the end of the statement's file has every definition that the statement comes down to, and no other; the index has every one
        that the load comes down to."""
        text = self.tree.text(functions.DEMAND)
        listed, file = set(), None
        for line in text[text.rfind(RESTS_ON):].split('\n'):
            row = re.match(r'-- (?:(\w+)/(\w+)| ) +(\S.*)$', line)
            if row:
                file = f'crates/{row.group(1)}/specs/{row.group(2)}.antt' if row.group(1) else file
                listed |= {(file, name) for name in re.findall(NAME, row.group(3))}
        needed = self.tree.comes_down_to(functions.DEMAND, functions.DEMANDED)
        for file, name in needed - listed:
            self.fault(functions.DEMAND, f'its list leaves out {name} of {file}')
        for file, name in listed - needed:
            self.fault(functions.DEMAND, f'its list has {name} of {file}, which the statement does not rest on')
        trusted = rows(section(self.whole[INDEX], functions.HEADING))
        indexed = {(file, name) for row in trusted for file in files_in(row) for name in quoted(row)}
        for file, name in self.tree.comes_down_to(functions.LOADING, ['load']) - indexed:
            self.fault(INDEX, f'it leaves out {name} of {file}, which the load rests on')

    def trusted(self):
        """Every file of definitions says first whether a reader must believe it. The index has those that he must, and no other, and all that the
        statements and the load come down to is among them."""
        trusted = set()
        for path in self.tree.glob('crates/*/specs/*.antt'):
            first = self.tree.text(path).split('\n')[0]
            if not first.startswith(KINDS):
                self.fault(path, f'its first line says neither of {", ".join(kind.strip("- ") for kind in KINDS)}')
            if first.startswith(KINDS[0]):
                trusted.add(path)
        listed = {file for row in rows(section(self.whole[INDEX], functions.HEADING)) for file in files_in(row) if '/specs/' in file}
        for path in sorted(trusted - listed):
            self.fault(INDEX, f'its list leaves out {path}, which is trusted')
        for path in sorted(listed - trusted):
            self.fault(INDEX, f'its list has {path}, which is not trusted')
        needed = self.tree.comes_down_to(functions.DEMAND, functions.DEMANDED) | self.tree.comes_down_to(functions.LOADING, ['load'])
        for file, name in needed:
            if '/specs/' in file and file not in trusted:
                self.fault(file, f'what the statements come down to is here, {name}, and it is not trusted')

    def edits(self):
        """The must-fail edits of the tree and those of the index are the same, each with its path in one row. Those that a paper names are there, and
        on the auditor's page."""
        named = [q for row in rows(self.whole[INDEX]) for q in quoted(row) if q.endswith('.edit')]
        there = self.tree.glob('crates/*/must-fail/*.edit')
        for path in there:
            if named.count(path) != 1:
                self.fault(INDEX, f'{path} has {named.count(path)} rows')
        for path in set(named) - set(there):
            self.fault(INDEX, f'there is no {path}')
        audit = rows(self.whole[AUDIT])
        for name in SHUT_OUT:
            crate, edit = name.split('/')
            if f'crates/{crate}/must-fail/{edit}.edit' not in there:
                self.fault(f'crates/{crate}/must-fail/{edit}.edit', 'paper 01 names this wrong program, and no edit stands for it')
            if not any(f'`{edit}`' in row for row in audit):
                self.fault(AUDIT, f'no row has {edit}, a wrong program that paper 01 names')
        for request, names in REQUESTED.items():
            for name in names:
                crate, edit = name.split('/')
                if f'crates/{crate}/must-fail/{edit}.edit' not in there:
                    self.fault(f'crates/{crate}/must-fail/{edit}.edit', f'it stands for a wrong program of {request}, and is gone')
                if not any(row.startswith(f'| {request} |') and f'`{edit}`' in row for row in audit):
                    self.fault(AUDIT, f'no row of {request} has {edit}')

    def contracts(self):
        """Demand 1: every public function of a library refuses bad input itself. So it has a contract, and asks nothing of its caller."""
        for _, path in self.tree.library_sources():
            text = self.tree.bare(path)
            for name, public, start, end in self.tree.functions(path):
                if public and re.search(r'(?m)^\s*requires\b', text[start:end]):
                    self.fault(path, f'{name} is public and has a precondition')
                if public and not re.search(r'(?m)^\s*(?:ensures\b|ghost \w+ = \{)', text[start:end]):
                    self.fault(path, f'{name} is public and has no contract')

    def host(self):
        """What the host's page says of functions and types is what the sources say, word for word where it stands in a block."""
        functions, types, inside = self.tree.handed_on()
        for first, second in re.findall(r'\b(\w+)::(\w+)', self.whole[HOST]):
            name = f'{first}::{second}'
            if first not in SKETCHED and name not in functions and name not in types and second not in inside.get(first, ()):
                self.fault(HOST, f'{name} is neither a function, a type nor a variant')
        spoken = {words for words in types.values()}
        for line in blocks(self.whole[HOST]):
            call = re.fullmatch(r'(?:let \w+ = )?(\w+)::(\w+)(\([^;]*\) -> .*)', line)
            if call and functions.get(f'{call[1]}::{call[2]}') != call[2] + call[3]:
                self.fault(HOST, f'{line}: the sources have {functions.get(f"{call[1]}::{call[2]}")}')
            if call and call[1] not in HANDED_ON_BY + ('plain',):
                self.fault(HOST, f'{line}: {call[1]} is a crate that no host names')
            declared = re.match(r'(?:struct|enum|type) ([A-Z]\w*)', line)
            if declared and declared[1] not in SKETCHED:
                if line not in spoken:
                    self.fault(HOST, f'{line}: the sources have no such type')
                if not any(f'{crate}::{declared[1]}' in types for crate in HANDED_ON_BY):
                    self.fault(HOST, f'{declared[1]} is handed on by neither of {", ".join(HANDED_ON_BY)}')

    def structure(self):
        """The table of crates and what each imports is crates.txt's; the toolchain's own libraries are left out."""
        found = {}
        for row in rows(self.whole[DESIGN]):
            cells = [cell.strip() for cell in row.strip('|').split('|')]
            if len(cells) == 3 and re.fullmatch(r'`\w+`', cells[0]) and cells[0].strip('`') in self.tree.crates:
                found[cells[0].strip('`')] = cells[2]
        for crate, imports in self.tree.crates.items():
            own = ', '.join(i for i in imports if i in self.tree.crates) or '-'
            if found.get(crate) != own:
                self.fault(DESIGN, f'{crate} imports {own}, and not {found.get(crate)}')

    def cases(self):
        """Each answer on the page of the stored cases is stored; every refusal by check_services is on it, and every number of a load is
        among them. The cases on which `rt ci` runs the programs are those of the crates."""
        shown = set()
        for row in rows(self.whole[CASES]):
            named = quoted(row)
            answers = [q for q in named if re.fullmatch(REFUSED, q)]
            if not answers:
                continue
            output = f'examples/{named[0]}/output'
            stored = self.tree.text(output).split('\n') if self.tree.exists(output) else []
            for answer in answers:
                shown.add((output, answer))
                if answer not in stored:
                    self.fault(CASES, f'{output} has no line: {answer}')
        numbers = {int(answer.split()[1]) for _, answer in shown}
        for number in sorted(manual.numbers_of(self.tree)[0]):
            if number not in numbers:
                self.fault(CASES, f'no stored case is refused with {number}')
        for output in self.tree.glob('examples/check_services/*/output'):
            for answer in self.tree.text(output).split('\n'):
                if answer.startswith('refused ') and (output, answer) not in shown:
                    self.fault(CASES, f'no row has the answer of {output}: {answer}')
        for case, crate in OF_CRATES.items():
            for part, called in CALLED.items():
                if self.tree.held(f'{case}/{part}') != self.tree.held(f'{crate}/{called}'):
                    self.fault(f'{case}/{part}', f'it is not what {crate}/{called} has')

    def decisions(self):
        """Every decision has a number, and they go up by one through the whole page."""
        entries = re.findall(r'(?m)^(?:(\d+)\.|-) +(\S.*)', self.whole[DECISIONS])
        for expected, (number, words) in enumerate(entries, 1):
            if number != str(expected):
                self.fault(DECISIONS, f'decision {expected} has the number {number or "none"}: {words[:40]}')
                break

    def manual(self):
        """The manual of the format is held to the definitions."""
        for what in manual.faults(self.tree.root, self.whole.get(manual.PAGE, '')):
            self.fault(manual.PAGE, what)

    def layout(self):
        """The layout of plain numbers on the host's page is that of the definitions."""
        for what in layout.faults(self.tree.root, self.whole[HOST]):
            self.fault(HOST, what)


def faults(root):
    return Check(root).all()


if __name__ == '__main__':
    found = faults(ROOT)
    for line in found:
        print(line)
    print(f'{len(found)} faults in the pages')
    sys.exit(1 if found else 0)
