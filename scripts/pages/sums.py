"""The sha256 sums of the built programs, which docs/AUDIT.md holds between two marks beside the kit that built them.

    scripts/sums [FOLDER]           compares the programs of FOLDER, else of target/bin, with the page
    scripts/sums --write [FOLDER]   puts their sums on the page

The exit status is 0 where each program is the page's, 1 where one is not, 2 where it could not run. The bytes follow from the sources and the kit, so
where the kit or the kind of machine is not the page's there is nothing to compare: it says so, with status 0.
"""
import hashlib
import os
import re
import subprocess
import sys

import marked
from tree import ROOT, Tree

AUDIT, SCRIPT, BUILT = 'docs/AUDIT.md', 'scripts/sums', 'target/bin'
BUILDER = re.compile(r'(?m)^Built by the kit `([^`\n]+)` \(`rt version`\) on (\w+) \(`uname -m`\):$')
SUM = re.compile(r'(?m)^    ([0-9a-f]{64})  ' + BUILT + r'/(\w+)$')


def programs(tree):
    return [crate for crate in tree.crates if not tree.is_library(crate)]


def builder():
    """The kit and the kind of machine, here."""
    kit = subprocess.run(['rt', 'version'], capture_output=True, text=True, check=True).stdout.strip()
    return kit, os.uname().machine


def sums_in(folder, names):
    found = {}
    for name in names:
        with open(os.path.join(folder, name), 'rb') as file:
            found[name] = hashlib.sha256(file.read()).hexdigest()
    return found


def written(by, sums):
    """What stands between the marks. The lines are those that `sha256sum target/bin/*` prints."""
    lines = [f'    {value}  {BUILT}/{name}' for name, value in sorted(sums.items())]
    return f'Built by the kit `{by[0]}` (`rt version`) on {by[1]} (`uname -m`):\n\n' + '\n'.join(lines) + '\n'


def read(stretch):
    """The kit with its machine, and the sums, that stand between the marks; None for the kit where it is not there."""
    by = BUILDER.search(stretch)
    return by and by.groups(), {name: value for value, name in SUM.findall(stretch)}


def differences(stretch, by, sums):
    """What the page says otherwise than these sums; None where they were built by another kit or on another kind of machine."""
    its_builder, its_sums = read(stretch)
    if its_builder and its_builder != by:
        return None
    names = list(dict.fromkeys([*sums, *its_sums]))
    return [f'{name}: built {sums.get(name, "not at all")}, on the page {its_sums.get(name, "nowhere")}'
            for name in names if sums.get(name) != its_sums.get(name)]


def compare(stretch, by, sums):
    found = differences(stretch, by, sums)
    if found is None:
        print(f'not compared: {AUDIT} has the sums of {" on ".join(read(stretch)[0])}, and this is {" on ".join(by)}')
        return 0
    for line in found:
        print(line)
    print(f'{len(sums)} programs, {len(found)} unlike {AUDIT}' + ('; `scripts/sums --write` puts those of the build there' if found else ''))
    return 1 if found else 0


def main(words):
    if words == ['-h']:
        print(__doc__)
        return 0
    here = Tree(ROOT)
    is_writing = words[:1] == ['--write']
    folder = (words[1:] if is_writing else words)[:1] or [os.path.join(ROOT, BUILT)]
    try:
        by, sums = builder(), sums_in(folder[0], programs(here))
        before, stretch, after = marked.split(here.text(AUDIT), SCRIPT)
    except (OSError, subprocess.CalledProcessError, ValueError) as error:
        print(f'scripts/sums: {error}; `scripts/build` builds the programs', file=sys.stderr)
        return 2
    if not is_writing:
        return compare(stretch, by, sums)
    with open(os.path.join(ROOT, AUDIT), 'w', encoding='utf-8') as file:
        file.write(before + written(by, sums) + after)
    return 0


if __name__ == '__main__':
    sys.exit(main(sys.argv[1:]))
