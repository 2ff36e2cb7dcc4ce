"""Runs a built program under less and less memory, and judges how each run ends.

    python3 bench/refused_memory.py
    python3 bench/refused_memory.py PROGRAM

A limit on the address space makes the system refuse memory, at a place that depends on the limit. The addresses are the same at each
run, so that the place is. Each run has to end in one of these ways, and under a higher limit in none that stands further up here:

- the system can't load the program;
- it ends with status 6, no output and the line that says so, also where its words are refused;
- it ends with status 0 and the whole output.

Where the limit lets the stack not grow, the system ends the program by SIGSEGV, with no output: no contract speaks of the stack. Such
ends are counted apart, as `no stack`, under any limit. Any other end is printed, and counts.
"""

import collections
import ctypes
import os
import resource
import signal
import subprocess
import sys
import tempfile

import shapes
from measure import PROGRAM, QUESTIONS, most_points

LIBC = ctypes.CDLL(None)
OUT_OF_MEMORY = b'bounds: out of memory\n'
# The status that the loader of shared libraries ends with.
NOT_LOADED = 127
# The ways to end, in the order of the limits under which they come.
WAYS = ['not loaded', 'out of memory', 'done']
# Linux's flag for a process whose addresses are not drawn by lot.
ADDR_NO_RANDOMIZE = 0x0040000


def run(command, limit):
    """The status, output and error output of a run whose address space has so many bytes."""

    def refuse():
        LIBC.personality(ADDR_NO_RANDOMIZE)
        resource.setrlimit(resource.RLIMIT_AS, (limit, limit))

    try:
        done = subprocess.run(command, capture_output=True, preexec_fn=refuse)
    except OSError:
        return NOT_LOADED, b'', b''
    return done.returncode, done.stdout, done.stderr


def ending(result, whole):
    """Which of the ways to end this is, or what it is instead."""
    status, out, err = result
    if (status, out, err) == (0, whole, b''):
        return 'done'
    if (status, out, err) == (6, b'', OUT_OF_MEMORY):
        return 'out of memory'
    if out == b'' and (status == NOT_LOADED or err == b'' and -status == signal.SIGKILL):
        return 'not loaded'
    if (out, err) == (b'', b'') and -status == signal.SIGSEGV:
        return 'no stack'
    return f'wrong: status {status}, {len(out)} bytes, {err!r}'


def endings(command, whole):
    """How often each way to end was seen, under rising limits. Once a run got further, none under a higher limit may end before."""
    seen = collections.Counter()
    furthest = 0
    for pages in range(600, 1600, 3):
        end = ending(run(command, 4096 * pages), whole)
        if end in WAYS[:furthest]:
            end = f'wrong: {end} under a higher limit than {WAYS[furthest]}'
        elif end in WAYS:
            furthest = WAYS.index(end)
        # An end of another name is wrong by its own words, or `no stack`.
        seen[end] += 1
    return seen


def main():
    program = sys.argv[1] if len(sys.argv) > 1 else PROGRAM
    wrong = 0
    with tempfile.TemporaryDirectory() as folder:
        points, answer = os.path.join(folder, 'points'), os.path.join(folder, 'answer')
        for kind, options, makers in QUESTIONS:
            made = next(iter(makers.values()))(most_points(options))
            with open(points, 'w') as file:
                file.write(shapes.text(*made) if isinstance(made, tuple) else shapes.text(made))
            solving = [program, kind, points] + options
            solved = subprocess.run(solving, capture_output=True)
            if solved.returncode != 0:
                continue
            with open(answer, 'wb') as file:
                file.write(solved.stdout)
            checking = [program, 'check', points, answer, '--kind', kind] + options
            for command, whole in ((solving, solved.stdout), (checking, b'yes\n')):
                seen = endings(command, whole)
                wrong += sum(count for end, count in seen.items() if end.startswith('wrong'))
                name = 'check' if command is checking else 'answer'
                print(' '.join([name, kind] + options), dict(seen), flush=True)
    print(f'{wrong} wrong')


if __name__ == '__main__':
    main()
