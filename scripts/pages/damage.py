"""Shows that `scripts/check_docs` can fail: damages a copy of the pages and sources in many small ways, one at a time, and sees each refused.
Shows the same of `scripts/sums`, `scripts/reproduce` and `scripts/test`.

It exits with 1 where a damage goes unseen, or no longer applies. It takes some seconds.
"""
import os
import re
import shutil
import sys
import tempfile

import marked
import sums
import unlike
from check import FIRST_PAGE_END, faults
from functions import INDEX
from tree import ROOT

AUDIT, HOST, README, DESIGN = 'docs/AUDIT.md', 'docs/HOST.md', 'README.md', 'docs/DESIGN.md'
RULES, GUARANTEE = 'crates/rules', 'crates/guarantee'
MANUAL, PROPERTIES, WORDS = 'docs/DESCRIPTIONS.md', 'crates/load_word/specs/Properties.antt', 'crates/load_word/specs/Words.antt'
LIMITS = 'crates/service/specs/Limits.antt'
WORKED = 'pub worked : AllPass cases'


def swap(old, new):
    """The first place of some words, changed."""
    def change(text):
        assert old in text, f'the words are gone: {old}'
        return text.replace(old, new, 1)
    return change


def rename(name, other):
    """A name changed wherever it is no comment's: the comments keep the old one, so that only a reader of declarations sees it."""
    def change(text):
        lines = [line if line.lstrip().startswith(('--', '//')) else re.sub(r'(?<![\w\-·])' + re.escape(name) + r'(?![\w\-·])', other, line)
                 for line in text.split('\n')]
        assert '\n'.join(lines) != text, f'the name is gone: {name}'
        return '\n'.join(lines)
    return change


def comment_out(words, mark='-- '):
    return swap(words, mark + words)


def without_line(words):
    """The page without the lines that have some words."""
    def change(text):
        lines = [line for line in text.split('\n') if words not in line]
        assert len(lines) < len(text.split('\n')), f'no line has: {words}'
        return '\n'.join(lines)
    return change


def above(words, line):
    """A line put in above the first that has some words."""
    def change(text):
        lines = text.split('\n')
        lines.insert(next(at for at, here in enumerate(lines) if words in here), line)
        return '\n'.join(lines)
    return change


def last_change_lost(text):
    """The edit with other words in the last line of what it replaces."""
    before, old, after = text.rpartition('\nold: ')
    assert old, 'no line says what is replaced'
    return f'{before}{old}no such words {after}'


def without_section(heading):
    def change(text):
        start = text.index(heading)
        return text[:start] + text[text.index('\n## ', start) + 1:]
    return change


def out_of_list(name):
    """The page without the first place of a name in a list of names."""
    def change(text):
        changed = re.sub(f'`{name}`, |, `{name}`(?= \\|)|`{name}`(?= \\|)', '', text, count=1)
        assert changed != text, f'the name is gone: {name}'
        return changed
    return change


def both(first, second):
    return lambda text: second(first(text))


def with_row_of(path, words):
    """The page with a row of another page at its end: the first that has some words."""
    def change(text):
        with open(os.path.join(ROOT, path), encoding='utf-8') as file:
            row = next(line for line in file if line.startswith('|') and words in line)
        return text + '\n' + row
    return change


def read(place):
    """The text of a file, or none where there is no such file."""
    if not os.path.exists(place):
        return None
    with open(place, encoding='utf-8') as file:
        return file.read()


def changed_sum(text):
    """The page with a sum that is a digit short."""
    before, held, after = marked.split(text, sums.SCRIPT)
    value = next(iter(sums.read(held)[1].values()))
    return before + held.replace(value, value[1:], 1) + after


def gone(text):
    return None


# What is done to which files, and a word that the check must then say.
DAMAGES = [
    ('a theorem is commented out', 'guarantee', {f'{GUARANTEE}/proofs/Guarantee.antt': comment_out('pub guarantee : Guarantee')}),
    ('another is', 'refused_load_leaves_all',
     {f'{GUARANTEE}/proofs/Refusals.antt': comment_out('pub refused_load_leaves_all : RefusedLoadLeavesAll')}),
    ('the worked examples are', 'worked', {f'{GUARANTEE}/specs/Worked.antt': comment_out(WORKED)}),
    ('a theorem says less', 'demand3', {f'{RULES}/proofs/Demand.antt': swap('pub demand3 : Demand3', 'pub demand3 : Unit')}),
    ('the statement says less', 'Guarantee', {f'{GUARANTEE}/specs/Guarantee.antt': swap('→ Holds (load', '→ Held (load')}),
    ('the law of lines and columns says less', 'LineAndColumnTell',
     {'crates/load_text/specs/Offsets.antt': swap('(line_number text at) (column_number text at)', '(line_number text at) 1')}),
    ('what a refused load points at says less', 'pub absent', {f'{GUARANTEE}/specs/Refusals.antt': without_line('pub absent : number')}),
    ('its proof is commented out', 'refusals_point', {f'{GUARANTEE}/proofs/Pointing.antt': comment_out('pub refusals_point : RefusalsPoint')}),
    ('a part of it is gone', 'pub safe', {f'{RULES}/specs/Demand.antt': without_line('pub safe : Each (Clear t) recorded nobody')}),
    ('another part is', 'pub live', {f'{RULES}/specs/Demand.antt': without_line('pub live : (s : ℕ)')}),
    ('the list of what it rests on leaves one out', 'links_of', {f'{RULES}/specs/Demand.antt': swap('links_of, defaults_with', 'defaults_with')}),
    ('the list has one too many', 'earliest', {f'{RULES}/specs/Calls.antt': swap('(told (earliest t x))', '(told NoDeadline)')}),
    ('the index leaves out one that the load rests on', 'needs_command', {INDEX: swap(', `needs_command`', '')}),
    ('a trusted file is said to be one of the code', 'Lines.antt, which is not trusted',
     {'crates/load_text/specs/Lines.antt': swap('-- Trusted: ', '-- Of the code: ')}),
    ('what the load comes down to is not trusted', 'and it is not trusted',
     {'crates/load_text/specs/Lines.antt': swap('-- Trusted: ', '-- Of the code: ')}),
    ('one of the code is said to be trusted', 'Rows.antt, which is trusted',
     {'crates/links/specs/Rows.antt': swap('-- Of the code: ', '-- Trusted: ')}),
    ('a file of definitions says neither', 'says neither', {'crates/links/specs/Rows.antt': swap('-- Of the code: ', '-- ')}),
    ('a type is no longer handed on', 'Refusal is handed on', {'crates/engine/src/lib.rt': swap('Refusal,', '')}),
    ('a contract cites another definition', 'stop_all', {'crates/engine_calls/src/events.rt': swap('outcome t x stop_all }', 'outcome t x nextCall }')}),
    ('a statement is renamed', 'always_safe', {f'{RULES}/proofs/Safety.antt': rename('always_safe', 'mostly_safe')}),
    ('a statement of cases is renamed', 'readings_hold',
     {f'{RULES}/specs/Readings.antt': rename('readings_hold', 'readings_pass')}),
    ('the table of cases is renamed', 'cases', {f'{GUARANTEE}/specs/Worked.antt': rename('cases', 'samples')}),
    ('a definition is renamed', 'fits', {f'{RULES}/specs/Rules.antt': rename('fits', 'suits')}),
    ('a word of the demand is renamed', 'sent', {f'{RULES}/specs/Demand.antt': rename('sent', 'mailed')}),
    ('a row has a wrong file', 'ToQuiet',
     {INDEX: swap('| `ToQuiet` | `crates/rules/specs/Demand.antt` |', '| `ToQuiet` | `crates/rules/specs/Calls.antt` |')}),
    ('a name in the text is misspelt', 'always_saef', {AUDIT: swap('list, `always_safe` says', 'list, `always_saef` says')}),
    ('a row of the statements is gone', 'always_formed', {AUDIT: without_line('| `always_formed` |')}),
    ('the words section is gone', 'WoundDown', {INDEX: without_section('## What the words mean')}),
    ('a word of a demand is in no row', 'no row says what Clear', {INDEX: swap('| `Each`, `Clear`, `ClearBy` |', '| `Each` |')}),
    ('a file of definitions is not in the index', 'Tokens.antt', {INDEX: without_line('`crates/loader/specs/Tokens.antt`')}),
    ('an edit is gone, its row kept', 'always_quiet', {'crates/engine/must-fail/always_quiet.edit': gone}),
    ('an edit is kept, its row gone', 'always_quiet', {INDEX: without_line('must-fail/always_quiet.edit')}),
    ('an edit that paper 01 names is not on the page', 'no row has refuses_all', {AUDIT: without_line('refuses_all')}),
    ('an edit of a request is not on the page', 'no row of W-201 has columns_from_zero', {AUDIT: without_line('columns_from_zero')}),
    ('an edit is gone with all that is said of it', 'refuses_all.edit: paper 01 names',
     {'crates/loader/must-fail/refuses_all.edit': gone, AUDIT: without_line('refuses_all'),
      INDEX: both(out_of_list('refuses_all'), without_line('refuses_all'))}),
    ('an edit of a request is gone with all that is said of it', 'columns_from_zero.edit: it stands for',
     {'crates/load_text/must-fail/columns_from_zero.edit': gone, AUDIT: without_line('columns_from_zero'),
      INDEX: both(out_of_list('columns_from_zero'), without_line('columns_from_zero'))}),
    ('an edit no longer applies', 'always_quiet', {'crates/engine/must-fail/always_quiet.edit': swap('old: answer', 'old: the answer')}),
    ('the last change of an edit no longer applies', 'shutdown_in_one_action', {'crates/engine/must-fail/shutdown_in_one_action.edit': last_change_lost}),
    ('a public function has a precondition', 'query is public',
     {'crates/engine_calls/src/times.rt': above('query_outcome result', '    requires { t.count ≤ 32 }')}),
    ('a public function has a precondition with a name', 'query is public',
     {'crates/engine_calls/src/times.rt': above('query_outcome result', '    requires few { t.count ≤ 32 }')}),
    ('a public function has no contract', 'is_closing is public', {'crates/engine_record_tests/src/lib.rt': without_line('result ≡ closing r')}),
    ('so has one in a further file', 'extra is public', {'crates/load_text/src/further.rt': lambda text: 'pub fn extra() -> bool {\n    true\n}\n'}),
    ('a function that the host calls is renamed', 'run_to_quiet', {'crates/engine/src/lib.rt': rename('run_to_quiet', 'run_to_rest')}),
    ('its parameters change', 'engine::end', {'crates/engine_calls/src/events.rt': swap('s: usize, good: bool)', 's: usize, good: u8)')}),
    ('a variant is renamed', 'Refusal::NoRoom', {'crates/service/src/lib.rt': rename('NoRoom', 'TooSmall')}),
    ('a field is renamed', 'struct Tokens', {'crates/loader/src/tokens.rt': swap('pub count: usize', 'pub number: usize')}),
    ('a stored case answers another column', 'value-missing', {'examples/check_services/value-missing/output': swap('column 9', 'column 6')}),
    ('a refused load is not on the page of the cases', 'hash-far-along', {'examples/README.md': without_line('check_services/hash-far-along')}),
    ('no stored case is refused with a number', 'refused with 9', {'examples/README.md': without_line('check_services/last-backslash')}),
    ('a stored case is not the one of its crate', 'simulate/stdin', {'examples/simulate/march-incident/input': swap('\n', '\n% a line more\n')}),
    ('a file of a stored case is not the one of its crate', 'check_services/data', {'crates/check_services/data/reader': swap('\n', '\n# a line more\n')}),
    ('a page is gone', 'BENCHMARKS.md', {'docs/BENCHMARKS.md': gone}),
    ('a page is not in the README', 'SCENARIO.md', {README: without_line('docs/SCENARIO.md')}),
    ('a demand is not in the README', 'Guarantee', {README: without_line('`Guarantee`')}),
    ('a script of a code block is gone', 'scripts/play', {'scripts/play': gone}),
    ('a script named in the text is gone', 'scripts/cases', {'scripts/cases': gone}),
    ('a page of the second program names no file', 'src/texts.rs', {'second/README.md': swap('`src/text.rs`', '`src/texts.rs`')}),
    ('the page of the tools names no file', 'src/watches.rs', {'tools/README.md': swap('`src/watch.rs`', '`src/watches.rs`')}),
    ('a file of proofs is renamed', 'Weights', {f'{RULES}/proofs/Weights.antt': gone}),
    ('a decision names a wrong file', 'barred',
     {'docs/DECISIONS.md': swap('| `barred` | `crates/rules/specs/Dependencies.antt` |', '| `barred` | `crates/rules/specs/Rules.antt` |')}),
    ('an import is not in the table of crates', 'load_links imports', {'crates.txt': swap('load_links: base', 'load_links: rules base')}),
    ('the table of functions is stale', 'docs/INDEX.md: its tables', {INDEX: without_line('| `engine_calls` | `query` |')}),
    ('the list of trusted files is stale', 'docs/INDEX.md: its tables', {INDEX: swap('| load, calls, demand 3,', '| load, demand 3,')}),
    ('the list of types is stale', 'docs/INDEX.md: its tables', {INDEX: swap('`Action`, ', '')}),
    ('an edit names another program than its row', 'docs/INDEX.md: its tables',
     {'crates/engine/must-fail/always_quiet.edit': swap('# a next action', '# an action')}),
    ('the index has no place for its tables', 'no tables can be made or found', {INDEX: without_line(marked.mark('scripts/functions').strip())}),
    ('the index is gone', 'docs/INDEX.md: there is no such page', {INDEX: gone}),
    ('a page has a copy of a row of the index', 'docs/DESIGN.md: it has a copy', {DESIGN: with_row_of(INDEX, '`always_quiet`')}),
    ('the auditor has one too', 'docs/AUDIT.md: it has a copy', {AUDIT: with_row_of(INDEX, 'must-fail/always_quiet.edit')}),
    ('a page does not lead to the index', 'docs/DESIGN.md: it does not lead', {DESIGN: without_line(INDEX)}),
    ('the first page is longer than a page', 'its first page has more', {AUDIT: swap('\n', '\n' * 40)}),
    ('the first page has no end', 'its first page has more', {AUDIT: swap(FIRST_PAGE_END, '\n')}),
    ('the first page does not name the theorem', 'nothing of `Guarantee`', {AUDIT: swap('`Guarantee`', '`Holds`')}),
    ('the first page leaves out a command', 'nothing of `scripts/reproduce`', {AUDIT: without_line('| `scripts/reproduce` |')}),
    ('the first page does not say what counts as live', 'nothing of A live process', {AUDIT: swap('A live process is', 'A process is')}),
    ('a program has no sum', 'its sums are not one', {AUDIT: without_line('  target/bin/bench')}),
    ('a sum is cut', 'its sums are not one', {AUDIT: changed_sum}),
    ('the kit of the sums is not said', 'its sums are not one', {AUDIT: swap('(`rt version`) on', 'on')}),
    ('a link leads to no heading', 'in-three-minutes', {README: swap('HOST.md#in-two-minutes', 'HOST.md#in-three-minutes')}),
    ('a figure was never filled in', '@time@', {AUDIT: swap(' 1 s |', ' @time@ |')}),
    ('a decision has no number', 'decision 12 has', {'docs/DECISIONS.md': swap('12. **16 dependencies', '- **16 dependencies')}),
    ('two decisions have one number', 'decision 13 has', {'docs/DECISIONS.md': swap('13. **A service', '12. **A service')}),
    ('the manual leaves out a property', 'leaves out waits-for', {MANUAL: without_line('| `waits-for` |')}),
    ('it has one that is none', 'waits-too', {MANUAL: swap('| `waits-for` | [the', '| `waits-too` | [the')}),
    ('there is a new property', 'pid-file', {PROPERTIES: swap('    ∷ []', '    ∷ named "pid-file" (Command Start)\n    ∷ []')}),
    ('there is a new property whose value is a time', 'leaves out halt-timeout',
     {PROPERTIES: swap('    ∷ []', '    ∷ named "halt-timeout" (Setting StopTimeout)\n    ∷ []')}),
    ('the manual leaves out a type', 'the values of type', {MANUAL: swap('| `process`, `scripted`, `internal` |', '| `process`, `scripted` |')}),
    ('its types leave one out', 'the types', {MANUAL: without_line('| `internal` | nothing is run')}),
    ('there is a new type', 'the values of type', {WORDS: swap('(bytes "internal")', '(bytes "triggered")')}),
    ('it leaves out a signal', 'the values of term-signal', {MANUAL: swap('`QUIT`, ', '')}),
    ('it has a flag too many', 'the values of smooth-recovery', {MANUAL: swap('| `smooth-recovery` | `no`', '| `smooth-recovery` | `yes`, `no`')}),
    ('it takes a time for a count', 'the values of restart-delay', {MANUAL: swap('| `restart-delay` | [seconds]', '| `restart-delay` | [a count]')}),
    ('it has a wrong default', 'the default of stop-timeout', {MANUAL: swap('(#times-and-counts) | `10` | process', '(#times-and-counts) | `60` | process')}),
    ('a default changes', 'the default of restart-delay', {LIMITS: swap('default_delay = 2000', 'default_delay = 2500')}),
    ('the default signal changes', 'the default of term-signal', {'crates/service/specs/Settings.antt': swap('signal = Term;', 'signal = Hup;')}),
] + [
    (f'the manual has a wrong limit: {new}', 'the limit of ', {MANUAL: swap(old, new)}) for old, new in [
        ('| services of a set | 32', '| services of a set | 33'), ('| a name | 1 to 32', '| a name | 1 to 31'), ('| a text | 4,096', '| a text | 4,097'),
        ('| all texts together | 32,768', '| all texts together | 65,536'), ('the three kinds together | 16', 'the three kinds together | 17'),
        ('| a time | 86,400', '| a time | 84,600'), ('6 digits before the point', '5 digits before the point'), ('and 4 after it', 'and 3 after it'),
        ('0.1 ms; 10,000', '1 ms; 1,000'), ('| a count | 65,535; 5', '| a count | 65,536; 5'), ('65,535; 5 digits', '65,535; 6 digits')]
] + [
    ('a limit changes', 'the limit of services', {LIMITS: swap('max_services = 32', 'max_services = 64')}),
    ('a number has no section', 'leaves out 16', {MANUAL: without_line('### Number 16')}),
    ('a section has no number', 'has 26', {MANUAL: swap('### Number 25', '### Number 26')}),
    ('a load gives a new number', 'leaves out 28', {'crates/load_text/specs/Numbers.antt': swap('wrong_number NoCommand = 14', 'wrong_number NoCommand = 28')}),
    ('a load gives a number that does not show', 'completion makes', {'crates/load_description/specs/Texts.antt': swap('fault NoCommand 0', 'fault (either NoCommand) 0')}),
    ('a number is not linked', 'linked at the top', {MANUAL: swap('[11](#number-11) ', '')}),
    ('nothing is said of a byte', 'Number 9: a line', {MANUAL: swap('**Line and column:** the backslash', 'The backslash')}),
    ('a byte is said of none', 'Number 13: a line', {MANUAL: swap('gives its type. Line and column are 0.', 'gives its type. **Line and column:** the last.')}),
    ('a number has no example', 'Number 10: it has no example', {MANUAL: lambda text: text.replace('| 10, column', '| 11, column')}),
    ('a number is explained otherwise', 'Number 11: it does not begin', {MANUAL: swap('The value does not fit the rule', 'The value fits not the rule')}),
    ('a number has other advice', 'Number 8: its advice', {'scripts/people/words.py': swap('Close the quote on the same line', 'Close the quote')}),
    ('the bad bytes are others', 'Number 6: the bad bytes', {MANUAL: swap('0 to 8, 14 to 31', '0 to 8, 13 to 31')}),
    ('a property of Dinit is left out', 'the property chain-to', {MANUAL: without_line('| `chain-to` |')}),
    ('a property of Dinit has another one in its place', 'the property after', {MANUAL: swap('Write `waits-for` in', 'Write `depends-on` in')}),
    ('a property of Dinit has other advice', 'the property nosigterm',
     {'scripts/people/words.py': swap('`term-signal = none`', '`term-signal = KILL`')}),
    ('a known one is taken for Dinit\'s alone', 'restart is known', {MANUAL: swap('| `chain-to` |', '| `chain-to`, `restart` |')}),
    ('a type of Dinit is left out', 'type = triggered', {MANUAL: without_line('| `type = triggered` |')}),
    ('a stored case of the manual answers otherwise', 'repeated-name', {MANUAL: swap('`refused 4 service 2', '`refused 4 service 1')}),
    ('a link of the manual leads nowhere', '#time-and-counts', {MANUAL: swap('(#times-and-counts)', '(#time-and-counts)')}),
    ('a field of the layout is another', 'the layout has', {HOST: swap('| 2 | `delay` |', '| 2 | `interval` |')}),
    ('two numbers of a record change places', 'the layout has',
     {'crates/plain_encoding/specs/Numbers.antt': swap('flag_number r.aside\n    ∷ flag_number r.live', 'flag_number r.live\n    ∷ flag_number r.aside')}),
    ('a phase gets another number', 'phase_number', {'crates/service/specs/Numbers.antt': swap('phase_number Up = 3', 'phase_number Up = 5')}),
    ('a place has more numbers', '17 for each', {'crates/plain_encoding/specs/Numbers.antt': swap('per_place = 16', 'per_place = 17')}),
    ('a part of an answer in numbers is renamed', 'Handed has', {'crates/plain/src/forms.rt': swap('pub action: u64', 'pub deed: u64')}),
    ('a signal of a run has another number', 'signals of a run', {HOST: swap('5 INT, 6 TERM', '5 INT, 5 TERM')}),
    ('a default of the pair changes', 'the pair has no line', {'crates/service/specs/Limits.antt': swap('default_delay = 2000', 'default_delay = 2500')}),
    ('a list of the layout is renamed', 'cannot be held', {'crates/service/specs/Numbers.antt': rename('cause_number', 'reasonNumber')}),
]


def put(place, text):
    if text is None:
        os.remove(place)
    else:
        with open(place, 'w', encoding='utf-8') as file:
            file.write(text)


def seen(root, before, word, changes):
    """The faults of a damaged tree that say the word and were not there before; the tree is mended again."""
    kept = {os.path.join(root, path): read(os.path.join(root, path)) for path in changes}
    for (place, text), change in zip(kept.items(), changes.values()):
        put(place, change(text))
    found = [fault for fault in set(faults(root)) - before if word in fault]
    for place, text in kept.items():
        put(place, text)
    return found


def damaged(root):
    """How many damages go unseen."""
    before, unseen = set(faults(root)), 0
    for name, word, changes in DAMAGES:
        found = seen(root, before, word, changes)
        print(f'{name}: ' + (min(found) if found else 'NOT SEEN'))
        unseen += not found
    assert set(faults(root)) == before, 'a damage was not mended'
    return unseen


def main():
    with tempfile.TemporaryDirectory() as work:
        root = os.path.join(work, 'copy')
        shutil.copytree(ROOT, root, ignore=shutil.ignore_patterns('target', 'out', '.git', '__pycache__'))
        unseen = damaged(root) + unlike.compared() + unlike.judged(root) + unlike.reproduced(root)
    trials = [DAMAGES, unlike.COMPARED, unlike.JUDGED, unlike.BUILDS]
    print(f'{sum(map(len, trials))} damages and trials, {unseen} unseen')
    sys.exit(1 if unseen else 0)


if __name__ == '__main__':
    main()
