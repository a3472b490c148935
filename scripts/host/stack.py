"""How much stack the calls of the core take, in the built programs: read from their machine code, and held to what they need when they run.

    stack.py FOLDER        the folder of the proved programs: target/bin

In the code: the frame of each function is what it pushes and subtracts, and the deepest way through the functions that it calls is summed up. That
is a bound for every input, whatever the number of services, as long as no function calls itself, none is called by a pointer, and no frame has a
size that is computed. Each of these is looked for, and ends the program with status 1 where it is found.

When it runs: the least limit of the stack, to a page, under which a loop of `bench` over 2 and over 32 services still ends as it should. It must be
the sum of the frames on the loop's deepest way, and at most two pages more, which the start of a process takes. Where it is not, the status is 1
too.
"""
import ctypes
import functools
import os
import re
import resource
import subprocess
import sys

PAGE = 4096

# The most that the start of a process may take beside the frames: its arguments, what the C library adds, and what is lost to a whole page.
START = 2 * PAGE

# What has a process begin with its stack at the same place each time.
ADDR_NO_RANDOMIZE = 0x0040000

# A function that a program calls in another library, by way of a table. What it takes is seen when it runs.
ELSEWHERE = '@plt'

# Each call with the program and the function that the compiler has put it into, and which functions below that one are not part of it.
CALLS = [
    ('engine::start', 'bench', 'engine_calls::events::start', 'none'),
    ('engine::stop, engine::stop_all, engine::end, engine::clock, with the caller', 'bench', 'bench::event_loop', 'inputs|events::start'),
    ('engine::next_action, with the caller', 'bench', 'bench::request_loop', 'inputs'),
    ('loader::load, with the caller', 'check_services', 'check_services::load_lent', 'none'),
    ('every call of plain, its load too, with the caller', 'simulate', 'simulate::obey', 'simulate::|scenario_|rattle_'),
]

# The loops of `bench`, and below the program's own function those on the deepest way of each. The compiler has put the last three into that function; a
# run there begins with a start. The few words of the C function `main` are counted with the start of the process: where the processor is too old for the
# program, it ends there with a message, on a frame of another kind.
BELOW, CHECK = ['bench::main'], ['engine_wellformed::is_formed', 'links::has_cycle']
EVENT = ['bench::event_loop'] + CHECK
WAYS = {
    'start': ['bench::event_loop', 'engine_calls::events::start'] + CHECK,
    'stop': EVENT, 'stop-all': EVENT, 'end': EVENT, 'clock': EVENT,
    'next-quiet': ['bench::request_loop'] + CHECK,
    'next-launch': ['bench::request_loop'] + CHECK,
    'query': CHECK,
    'run': ['engine_calls::events::start'] + CHECK,
    'load': ['links::has_cycle'],
}


class Code:
    """The functions of a program: the frame of each, and what it calls."""

    def __init__(self, path):
        text = subprocess.run(['objdump', '-d', '-C', '--no-show-raw-insn', path], stdout=subprocess.PIPE, check=True, text=True).stdout
        self.lines = {}
        for name, body in re.findall(r'(?m)^[0-9a-f]+ <(.+)>:\n((?:.+\n)*)', text):
            self.lines[name] = [line.split('\t', 1)[1].strip() for line in body.splitlines() if '\t' in line]

    @functools.lru_cache(maxsize=None)
    def frame(self, name):
        """The most that a function has of the stack: the place to return to, what it pushes, and what it subtracts."""
        total, probed = 8, None
        for line in self.lines[name]:
            words = re.split(r'[ ,]+', line)
            if words[0] == 'push':
                total += 8
            elif words[:3] == ['mov', '%rsp', '%r11']:
                probed = 'next'
            elif re.match(r'lea +-0x[0-9a-f]+\(%rsp\),%r11$', line):
                # The same in one step.
                probed = int(re.search(r'-0x([0-9a-f]+)', line)[1], 16)
                total += probed
            elif probed == 'next':
                # A large frame is entered page by page, down to this register: its loop subtracts a page each time.
                probed = self.number(words[1]) if words[0] == 'sub' and words[2] == '%r11' else None
                total += probed or 0
            elif words[0] == 'sub' and words[2] == '%rsp':
                total += 0 if probed else self.number(words[1])
                probed = None
            elif words[0] == 'add' and words[2] == '%rsp':
                total += max(0, -self.number(words[1]))
            elif words[-1] == '%rsp' and words[0] not in ('cmp', 'test', 'pop'):
                raise SystemExit(f'stack: {name} changes its frame in a way that is not known: {line}')
        return total

    @staticmethod
    def number(word):
        """An immediate number, which may be below 0; what is none has no known size."""
        if not re.fullmatch(r'\$-?0x[0-9a-f]+', word):
            raise SystemExit(f'stack: a frame has a size that is computed: {word}')
        value = int(word[1:], 16)
        return value - (1 << 64) if value >= 1 << 63 else value

    @functools.lru_cache(maxsize=None)
    def called(self, name):
        """The functions of this program that one calls, or goes on with."""
        found = set()
        for line in self.lines[name]:
            to = re.match(r'(call|jmp)q? +(.*)$', line)  # older disassemblers write callq and jmpq
            if not to:
                continue
            # A place inside a function has its distance from the start; a name may have a + of its own.
            place = re.match(r'[0-9a-f]+ <(.+?)(\+0x[0-9a-f]+)?>$', to[2])
            if place and not place[2] and place[1] != name:
                found.add(place[1])
            elif to[1] == 'call' and to[2].startswith('*'):
                raise SystemExit(f'stack: {name} calls by a pointer: {line}')
        return sorted(other for other in found if ELSEWHERE not in other)

    def deepest(self, name, skip=None, way=()):
        """The bytes of the deepest way through a function, and the functions on it; those that match `skip` are left out."""
        if name in way:
            raise SystemExit(f'stack: {name} calls itself, through {way}')
        below = [self.deepest(other, skip, way + (name,)) for other in self.called(name) if not (skip and skip.search(other))]
        depth, names = max(below, default=(0, []))
        return self.frame(name) + depth, [name] + names


def texts(services, size=1024):
    """Names of 3 bytes and texts of 1,024, as the loop of loads reads them."""
    parts = []
    for service in range(services):
        text = f'type = process\ncommand = /bin/service {service}\n'
        parts.append(f'n{service:02d}' + text + '#' * (size - len(text) - 1) + '\n')
    return ''.join(parts).encode()


def runs(program, loop, services, limit):
    """Whether a turn of a loop ends as it should under a limit of the stack."""
    def lower():
        ctypes.CDLL(None).personality(ADDR_NO_RANDOMIZE)
        resource.setrlimit(resource.RLIMIT_STACK, (limit, limit))
        resource.setrlimit(resource.RLIMIT_CORE, (0, 0))
    # Names of other libraries are looked up at the start, and not in the deepest place.
    run = subprocess.run([program, loop, str(services), '1'], input=texts(services), stdout=subprocess.PIPE, env={'LD_BIND_NOW': '1'},
                         preexec_fn=lower, check=False)
    return run.returncode == 0 and run.stdout.strip().isdigit()


def least(program, loop, services):
    """The least limit, in bytes, a whole number of pages."""
    low, high = 1, 512
    if not runs(program, loop, services, high * PAGE):
        raise SystemExit(f'stack: {loop} does not run at all')
    while high - low > 1:
        middle = (low + high) // 2
        low, high = (low, middle) if runs(program, loop, services, middle * PAGE) else (middle, high)
    return high * PAGE


def show_calls(folder):
    print('bytes of stack, read from the code: the function that holds the call, and the deepest way below it')
    for call, program, function, skip in CALLS:
        code = Code(os.path.join(folder, program))
        total, names = code.deepest(function, re.compile(skip))
        print(f'{total:>8,}  {call}\n          in {program}: ' + ' + '.join(f'{name} {code.frame(name):,}' for name in names))


def are_borne_out(folder):
    """Prints, for each loop, the frames on its way and what it needs when it runs; whether the two agree."""
    program = os.path.join(folder, 'bench')
    code = Code(program)
    print(f'{"loop":<12} {"frames":>8} {"2 services":>11} {"32 services":>12}   the least stack with which bench makes a turn, in pages of {PAGE}')
    wrong = []
    for loop, way in WAYS.items():
        frames = sum(code.frame(name) for name in BELOW + way)
        needed = [least(program, loop, services) for services in (2, 32)]
        print(f'{loop:<12} {frames:>8,} {needed[0]:>11,} {needed[1]:>12,}', flush=True)
        wrong += [loop] * any(not 0 <= found - frames <= START for found in needed)
    for loop in wrong:
        print(f'stack: {loop} needs another stack than its frames say')
    return not wrong


def main():
    if len(sys.argv) != 2:
        raise SystemExit('usage: scripts/stack')
    show_calls(sys.argv[1])
    print()
    return 0 if are_borne_out(sys.argv[1]) else 1


if __name__ == '__main__':
    sys.exit(main())
