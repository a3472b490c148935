"""Shows that scripts/sums, scripts/reproduce and scripts/test can fail: gives them programs that differ, and a false toolchain, and sees what they
answer."""
import os
import subprocess
import tempfile

import marked
import sums
from tree import Tree

# A page's kit and sums, and what is compared with them: the kit, the sums, and what must come of it.
KIT, BUILT = ('a kit', 'machine'), {'simulate': '0' * 64, 'bench': '1' * 64}
COMPARED = [
    ('the programs are the page\'s', KIT, BUILT, []),
    ('a program has another sum', KIT, {**BUILT, 'bench': '2' * 64}, ['bench']),
    ('a program is not on the page', KIT, {**BUILT, 'more': '3' * 64}, ['more']),
    ('a program of the page is not built', KIT, {'bench': '1' * 64}, ['simulate']),
    ('another kit built them', ('another kit', 'machine'), BUILT, None),
    ('another kind of machine did', ('a kit', 'another'), BUILT, None),
]

# A kit that is not the page's, so that no sums are compared, and the page's own.
OTHER_KIT, PAGE_KIT = 'a false kit', None

# What a false `rt ci` does in a clone, for each program p; the kit that it says it is; the status that scripts/reproduce must end with.
BUILDS = [
    ('the clones differ', 'pwd > $p', OTHER_KIT, 1),
    ('the clones are the same', 'echo > $p', OTHER_KIT, 0),
    ('the clones are the same, and not the page\'s', 'echo > $p', PAGE_KIT, 1),
    ('a clone is not proved', 'exit 1', OTHER_KIT, 2),
    ('a clone is proved and has no program', 'true', OTHER_KIT, 2),
]
FALSE_RT = '''#!/bin/sh
[ "$*" = "ci --anew" ] || exec echo "%s"
for main in crates/*/src/main.rt; do
  of=${main%%/src/main.rt}
  mkdir -p "$of/out"
  p=$of/out/${of#crates/}
  %s
  [ ! -f "$p" ] || chmod +x "$p"
done
'''


# What a false `rt ci` writes before its last line, that line, its status; what scripts/test must then say, and with which status. Where `rt ci` is good
# it goes on with the pages, which fail here: python3 does.
SAID = 'rt: ok; handles allowed: none; must-fail edits: %s; every proof and must-fail edit was done in this run'
PASSED = '203 passed, 0 failed'
JUDGED = [
    ('the proofs fail', 'rt: FAILED: base', '202 passed, 1 failed', 3, 'rt ci', 3),
    ('the proofs fail with status 0', 'rt: FAILED: base', '202 passed, 1 failed', 0, 'rt ci ended in: 202 passed, 1 failed', 1),
    ('an edit is bad', SAID % '172 refused, 1 bad', PASSED, 0, 'must-fail edits that were not tried: 172 refused, 1 bad', 1),
    ('an edit is bad beside a limit', SAID % '172 refused, 2 of them only by a limit, 1 bad', PASSED, 0, '172 refused, 2 of them only by a limit, 1 bad', 1),
    ('no edit is spoken of', 'rt: ok; handles allowed: none; every proof was done in this run', PASSED, 0, 'nothing of the must-fail edits', 1),
    ('all edits are refused', SAID % '173 refused', PASSED, 0, 'the pages', 1),
    ('all are, some by a limit', SAID % '173 refused, 2 of them only by a limit', PASSED, 0, 'the pages', 1),
]
JUDGE = '#!/bin/sh\n[ "$*" = ci ] || exit 9\necho "%s"\necho "%s"\nexit %d\n'


def compared():
    """How many comparisons of sums come out wrong."""
    wrong = 0
    for name, kit, built, expected in COMPARED:
        found = sums.differences(sums.written(KIT, BUILT), kit, built)
        named = found if found is None else [line.split(':')[0] for line in found]
        print(f'{name}: ' + ('as it must be' if named == expected else f'NOT SEEN: {found}'))
        wrong += named != expected
    return wrong


def executable(path, text):
    with open(path, 'w', encoding='utf-8') as file:
        file.write(text)
    os.chmod(path, 0o755)


def judged(root):
    """How many runs of scripts/test, over a copy of the tree and with a false toolchain, end otherwise than they must."""
    wrong = 0
    for name, before, last, status, words, expected in JUDGED:
        with tempfile.TemporaryDirectory() as tools:
            executable(os.path.join(tools, 'rt'), JUDGE % (before, last, status))
            executable(os.path.join(tools, 'python3'), '#!/bin/sh\nexit 1\n')
            path = tools + os.pathsep + os.environ['PATH']
            run = subprocess.run(['scripts/test'], cwd=root, env={**os.environ, 'PATH': path}, capture_output=True, text=True, check=False)
        ended = run.stdout.strip().split('\n')[-1]
        good = run.returncode == expected and ended.startswith('not passed: ') and ended.endswith(words)
        print(f'{name}: ' + (ended if good else f'NOT AS IT MUST BE: status {run.returncode}: {run.stdout}{run.stderr}'))
        wrong += not good
    return wrong


def reproduced(root):
    """How many runs of scripts/reproduce, over a copy of the tree that becomes a repository, end with another status than they must."""
    for words in (['init', '--quiet'], ['add', '--all'], ['-c', 'user.name=a', '-c', 'user.email=a', 'commit', '--quiet', '--message=a']):
        subprocess.run(['git', *words], cwd=root, check=True)
    wrong = 0
    its_builder, _ = sums.read(marked.split(Tree(root).text(sums.AUDIT), sums.SCRIPT)[1])
    for name, does, kit, expected in BUILDS:
        with tempfile.TemporaryDirectory() as tools:
            executable(os.path.join(tools, 'rt'), FALSE_RT % (kit or its_builder[0], does))
            path = tools + os.pathsep + os.environ['PATH']
            run = subprocess.run(['scripts/reproduce'], cwd=root, env={**os.environ, 'PATH': path}, capture_output=True, text=True, check=False)
        print(f'{name}: status {run.returncode}' + ('' if run.returncode == expected else f', NOT {expected}: {run.stdout}{run.stderr}'))
        wrong += run.returncode != expected
    return wrong
