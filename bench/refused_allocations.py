"""Refuses a program one allocation at a time, and judges how each run ends.

    python3 bench/refused_allocations.py PROGRAM
    python3 bench/refused_allocations.py --rows ROWS

PROGRAM is `bounds`, and ROWS the program `rows`, each linked with `fail_alloc.c` in the place of the call that gives memory
(docs/TESTING.md, "Memory"). PROGRAM answers one question of each kind over real files, and judges each answer. ROWS runs the
questions over files and sinks that never fail.

Each run has to end with status 6, no output and the line that says so, or as it ends with all memory. With ROWS it may also be the
program `rows` that wants memory for its own table. Any other end is printed, and counts.
"""

import os
import subprocess
import sys
import tempfile

# The words, and the point file. Each is asked, and the answer with all memory is then judged by `check`.
TASKS = [
    ('circle a', '0 0\n4 0\n0 3\n'),
    ('sphere a', '0 0 0\n4 0 0\n0 3 0\n0 0 5\n'),
    ('rectangle a', '0 1\n1 0\n2 1\n1 2\n'),
    ('parallelogram a', '0 0\n100 0\n100 10\n0 11\n'),
    ('strip a', '0 0\n4 0\n0 3\n'),
    ('annulus a', '0 0\n4 0\n0 3\n5 5\n'),
    ('empty --box 0,0,4,4 a', '1 2\n'),
    ('kgon --k 3 a', '0 0\n2 0\n2 2\n0 2\n'),
    ('distance a', '0 0 0\n1 0 0\n0 1 0\n---\n3 3 3\n4 3 3\n'),
    ('centres --p 1 a', '0 0\n4 0\n0 3\n'),
    ('centres --p 2 a', '0 0\n4 0\n0 3\n'),
    ('centres --p 3 a', '0 0\n4 0\n0 3\n9 9\n'),
    ('centres --p 4 a', '0 0\n4 0\n0 3\n9 9\n5 1\n'),
    ('furthest a', '0 0\n4 0\n0 3\n'),
    ('shell a', '0 0 0\n4 0 0\n0 3 0\n0 0 5\n1 1 1\n'),
    ('rectangle a', 'scale 10\n0 1\n1 0\n2 1\n1 2\n'),
]
OUT_OF_MEMORY = b'bounds: out of memory\n'
# So many calls in a row that refusing changes nothing means that the run makes no more.
QUIET = 40


def run(program, words, folder, number):
    """The status, output and error output of a run of which this allocation is refused."""
    environment = {'FAIL_ALLOC': str(number)}
    done = subprocess.run([program, *words], cwd=folder, env=environment, capture_output=True, check=False)
    return done.returncode, done.stdout, done.stderr


def count_ends(program, words, folder, is_refused):
    """How many runs end for want of memory, how many as with all memory, and the others."""
    whole = run(program, words, folder, 0)
    if whole[0] != 0 or whole[1] == b'' or whole[1].endswith(b' 1 wrong\n'):
        sys.exit(f'with all memory: {whole}')
    refused, spared, others, quiet, number = 0, 0, [], 0, 0
    while quiet < QUIET:
        number += 1
        end = run(program, words, folder, number)
        quiet = quiet + 1 if end == whole else 0
        if end == whole:
            spared += 1
        elif is_refused(end):
            refused += 1
        else:
            others.append((number, end))
    return refused, spared - QUIET, others


def is_refused_run(end):
    return end == (6, b'', OUT_OF_MEMORY)


def is_refused_row(end):
    """The row ended so, or the program `rows` had no memory for its table."""
    status, output, errors = end
    if status == 1:
        return output == b'' and errors.startswith(b'Error: ')
    return status == 0 and output.endswith(b' ends with status 6\n  out \n  told bounds: out of memory\\n\n1 rows, 1 wrong\n')


def checking(words):
    """The words that judge the answer in the file b to the question that these words ask."""
    kind, *options, points = words.split()
    return ['check', '--kind', kind, *options, points, 'b']


def table(words, points):
    """A table of one row, over files and sinks that never fail."""
    head = 'answer 2 ' if points.startswith('scale ') else 'answer 1 '
    kind = 'centres4' if '--p 4' in words else words.split()[0]
    lines = ['row refused', 'words ' + words, 'over sure', 'file a ' + points.replace('\n', '\\n'), 'begins ' + head + kind + '\\n']
    return '\n'.join(lines) + '\n'


def write(folder, name, text):
    with open(os.path.join(folder, name), 'w', encoding='ascii') as file:
        file.write(text)


def judged(program, words, folder, is_refused):
    """Prints how the runs of these words end, and gives how many are wrong."""
    refused, spared, others = count_ends(program, words, folder, is_refused)
    print(f"{' '.join(words)}: {refused} refused, {spared} of no effect, {len(others)} wrong")
    for number, end in others:
        print(f'  allocation {number}: {end}')
    return len(others)


def main():
    over_rows = sys.argv[1] == '--rows'
    program = os.path.abspath(sys.argv[2 if over_rows else 1])
    wrong = 0
    for words, points in TASKS:
        with tempfile.TemporaryDirectory() as folder:
            write(folder, 'a', points)
            if over_rows:
                print(words, end=', ')
                write(folder, 'table', table(words, points))
                wrong += judged(program, ['table'], folder, is_refused_row)
                continue
            wrong += judged(program, words.split(), folder, is_refused_run)
            write(folder, 'b', run(program, words.split(), folder, 0)[1].decode('ascii'))
            wrong += judged(program, checking(words), folder, is_refused_run)
    return 1 if wrong else 0


if __name__ == '__main__':
    sys.exit(main())
