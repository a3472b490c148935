"""Runs `scripts/check` on the stored cases of scripts/people/cases/check: python3 -B scripts/people/test_check.py FOLDER_WITH_THE_PROGRAMS [--store]

A case is a folder with `run`, lines of bash in which `check` calls scripts/check and writes its status behind it; `output`, all that is written;
and the descriptions in `files`, which `run` finds as the folder `services`. Where they cannot well be stored, `make` stands in their place: a script
that is run in an empty folder. The first difference is shown, and the exit status is then 1. With --store the outputs are written again: read what
git shows then.
"""
import concurrent.futures
import difflib
import os
import re
import shutil
import subprocess
import sys
import tempfile

import facts
import words
from check_set import VERBS
from check_values import takes

CASES = os.path.join(facts.ROOT, 'scripts', 'people', 'cases', 'check')
PRELUDE = 'check() { "$root/scripts/check" --program "$program" "$@"; echo "status $?"; }\n'

# The numbers that a check can give: 2 and 25 are faults of a host, and 20 to 24 are no load's.
CHECKED = [1, *range(3, 17)]


def text_of(path):
    with open(path, encoding='utf-8') as file:
        return file.read()


def written(name, program):
    """What a case writes."""
    case = os.path.join(CASES, name)
    with tempfile.TemporaryDirectory(prefix='cases') as work:
        environment = {**os.environ, 'root': facts.ROOT, 'program': program}
        if os.path.exists(os.path.join(case, 'make')):
            subprocess.run(['bash', os.path.join(case, 'make')], cwd=work, env=environment, check=True)
        elif os.path.isdir(os.path.join(case, 'files')):
            shutil.copytree(os.path.join(case, 'files'), os.path.join(work, 'services'))
        ran = subprocess.run(['bash', '-c', PRELUDE + text_of(os.path.join(case, 'run'))], cwd=work, env=environment, stdout=subprocess.PIPE,
                             stderr=subprocess.STDOUT, timeout=120, check=False)
        return ran.stdout.decode('utf-8', 'backslashreplace').replace(work, 'WORK')


def stored(name):
    path = os.path.join(CASES, name, 'output')
    return text_of(path) if os.path.exists(path) else ''


def difference(name, output):
    lines = difflib.unified_diff(stored(name).splitlines(), output.splitlines(), 'expected', 'written', lineterm='')
    return '\n'.join(lines)


def missing(outputs):
    """What no stored output has: a number, a rule of 11, the words of --number; and a kind of dependency that is not spoken of."""
    every, known = '\n'.join(outputs), words.KNOWN
    found = [f'no case is refused with {number}' for number in CHECKED if not re.search(rf'(?m) \[{number}\]$', every)]
    found += [f'no case has the rule {rule}' for rule in set(known.rules.values()) if f': {takes(known, rule)}; for example' not in every]
    found += [f'no case has --number {number}' for number in words.MEANS
              if f'{number}: {words.MEANS[number]}\nWhat to do: {words.DO[number]}\n' not in every]
    found += [f'no words for the dependency {name}' for name, rule in known.rules.items() if rule == 'service' and name.encode() not in VERBS]
    return found


def main(folder, store):
    program = os.path.abspath(os.path.join(folder, 'check_services'))
    names = sorted(name for name in os.listdir(CASES) if os.path.isdir(os.path.join(CASES, name)))
    with concurrent.futures.ThreadPoolExecutor(os.cpu_count()) as pool:
        outputs = list(pool.map(lambda name: written(name, program), names))
    for name, output in zip(names, outputs):
        if store:
            with open(os.path.join(CASES, name, 'output'), 'w', encoding='utf-8') as file:
                file.write(output)
        if output != stored(name):
            print(f'{name}: not what is expected\n{difference(name, output)}')
            return 1
    if missing(outputs):
        print('\n'.join(missing(outputs)))
        return 1
    print(f'{len(names)} cases, each as expected')
    return 0


if __name__ == '__main__':
    if len(sys.argv) < 2 or sys.argv[2:] not in ([], ['--store']):
        sys.exit('usage: python3 -B scripts/people/test_check.py FOLDER_WITH_THE_PROGRAMS [--store]')
    sys.exit(main(sys.argv[1], sys.argv[2:] == ['--store']))
