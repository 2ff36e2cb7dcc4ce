"""Times and peak memory of a built program, as Markdown tables for docs/PERFORMANCE.md.

    python3 bench/measure.py                                  every kind at 100, 1000 and 10000 points
    python3 bench/measure.py --kinds strip annulus --runs 50

A time is the least of several runs of the whole process on one core, from its start to its end, with its output read. Beside the
answer, `check` judges it. Each is also given as a multiple of reading: the time of `check` with the same point file and an answer
file that is refused at its first line, so that the points are read and parsed and nothing else is done. The peak is what the system
reports for the process (`time -f %M`).
"""

import argparse
import os
import subprocess
import sys
import tempfile
import time

import shapes

TOP = os.path.join(os.path.dirname(os.path.abspath(__file__)), '..')
PROGRAM = os.path.join(TOP, 'crates', 'bounds', 'out', 'bounds')
LIMIT = shapes.PLANE_LIMIT
FRAME = f'--box={-LIMIT},{-LIMIT},{LIMIT},{LIMIT}'

# A question: the kind, its options, and the shapes that it is put to.
QUESTIONS = [
    ('circle', [], shapes.PLANE),
    ('sphere', [], shapes.SPACE),
    ('rectangle', [], shapes.PLANE),
    ('parallelogram', [], shapes.PLANE),
    ('strip', [], shapes.PLANE),
    ('annulus', [], shapes.PLANE),
    ('empty', [FRAME], shapes.PLANE),
    ('distance', [], shapes.PAIRS),
    ('centres', ['--p', '1'], shapes.PLANE),
    ('centres', ['--p', '2'], shapes.PLANE),
    ('centres', ['--p', '3'], shapes.PLANE),
    ('centres', ['--p', '4'], shapes.SQUARES),
    ('kgon', ['--k', '4'], shapes.FEW_CORNERS),
    ('kgon', ['--k', '12'], shapes.FEW_CORNERS),
    ('furthest', [], shapes.PLANE),
    ('shell', [], shapes.SPACE),
]


def most_points(options):
    """How many points a set of this question may have."""
    return 1000 if options == ['--p', '4'] else 10000


def once(command):
    """The milliseconds of a run, its status and its output."""
    start = time.perf_counter()
    done = subprocess.run(command, stdout=subprocess.PIPE, stderr=subprocess.PIPE)
    return (time.perf_counter() - start) * 1000, done.returncode, done.stdout


def least(commands, runs):
    """The least time of each command. They are run in turn, so that what else the machine does falls on all of them alike."""
    times = [[once(command)[0] for command in commands] for _ in range(runs)]
    return [min(column) for column in zip(*times)]


def peak(command):
    """The most memory that the process held, in MiB."""
    done = subprocess.run(['/usr/bin/time', '-q', '-f', '%M'] + command, stdout=subprocess.DEVNULL, stderr=subprocess.PIPE)
    return int(done.stderr.split()[-1]) / 1024


class Figures:
    """The times of reading, answering and checking in milliseconds, and the peaks of the last two in MiB."""

    def __init__(self, program, kind, options, points, runs, folder):
        paths = {name: os.path.join(folder, name) for name in ['points', 'answer', 'refused']}
        with open(paths['points'], 'w') as file:
            file.write(points)
        with open(paths['refused'], 'w') as file:
            file.write('no answer\n')
        judge = [program, 'check', paths['points']]
        asked = ['--kind', kind] + options
        answering = [program, kind, paths['points']] + options
        checking = judge + [paths['answer']] + asked
        reading = judge + [paths['refused']] + asked
        _, status, answer = once(answering)
        if status != 0:
            sys.exit(f'{answering} ended with status {status}')
        with open(paths['answer'], 'wb') as file:
            file.write(answer)
        _, status, verdict = once(checking)
        if status != 0 or verdict != b'yes\n':
            sys.exit(f'{checking} ended with status {status} and {verdict}')
        self.reading, self.answering, self.checking = least([reading, answering, checking], runs)
        self.peak = peak(answering)
        self.check_peak = peak(checking)


def measure(program, question, sizes, runs, folder):
    kind, options, makers = question
    sizes = [size for size in sizes if size <= most_points(options)]
    words = ' '.join([kind] + options)
    if subprocess.run([program, kind], capture_output=True).stderr == b'bounds: usage: unknown command\n':
        print(f'The program does not know `{kind}`.\n')
        return
    heads = [f'{size} points' for size in sizes] + ['reading', 'of reading', '`check`', 'of reading', 'peak', "peak of `check`"]
    print(f'`{words}`, times in ms, peaks in MiB; from the fifth column on for {sizes[-1]} points:\n')
    print('| points | ' + ' | '.join(heads) + ' |')
    print('|---' * (len(heads) + 1) + '|')
    for name, make in makers.items():
        figures = []
        for size in sizes:
            made = make(size)
            points = shapes.text(*made) if isinstance(made, tuple) else shapes.text(made)
            figures.append(Figures(program, kind, options, points, runs, folder))
        last = figures[-1]
        cells = [f'{each.answering:.1f}' for each in figures]
        cells += [f'{last.reading:.1f}', f'{last.answering / last.reading:.1f}']
        cells += [f'{last.checking:.1f}', f'{last.checking / last.reading:.1f}', f'{last.peak:.1f}', f'{last.check_peak:.1f}']
        print(f'| {name} | ' + ' | '.join(cells) + ' |', flush=True)
    print()


def main():
    parser = argparse.ArgumentParser(description='Times and peak memory of a built program.')
    parser.add_argument('program', nargs='?', default=PROGRAM)
    parser.add_argument('--kinds', nargs='+', default=None, help='only these kinds')
    parser.add_argument('--sizes', nargs='+', type=int, default=[100, 1000, 10000])
    parser.add_argument('--runs', type=int, default=15, help='of how many runs the least is taken')
    parser.add_argument('--core', type=int, default=None, help='the core to run on')
    words = parser.parse_args()
    # The program inherits this, as under `taskset`.
    os.sched_setaffinity(0, {words.core if words.core is not None else max(os.sched_getaffinity(0))})
    with tempfile.TemporaryDirectory(dir='/dev/shm' if os.path.isdir('/dev/shm') else None) as folder:
        for question in QUESTIONS:
            if words.kinds is None or question[0] in words.kinds:
                measure(words.program, question, words.sizes, words.runs, folder)


if __name__ == '__main__':
    main()
