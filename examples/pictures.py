"""Makes the pictures of docs/pictures from the point files beside this script, with a built program.

    python3 examples/pictures.py path/to/bounds
    python3 examples/pictures.py path/to/bounds --folder /tmp/pictures

Each answer is judged by `check`, recomputed by `read_answer.py`, and drawn by `draw.py`.
"""

import argparse
import os
import subprocess
import sys
import tempfile

from bounds import program_of, run
from formats import Refused

HERE = os.path.dirname(os.path.abspath(__file__))
FOLDER = os.path.join(HERE, '..', 'docs', 'pictures')
FIELD = '--box=0,0,1000,700'

# The picture, its kind, its points, its options, and what the drawing is told beside the answer.
PICTURES = [
    ('circle', 'circle', 'villages.txt', [], []),
    ('sphere', 'sphere', 'atoms.txt', [], []),
    ('rectangle', 'rectangle', 'sites.txt', [], []),
    ('parallelogram', 'parallelogram', 'stones.txt', [], []),
    ('strip', 'strip', 'drill_holes.txt', [], []),
    ('annulus', 'annulus', 'bearing.txt', [], []),
    ('empty', 'empty', 'masts.txt', [FIELD], [FIELD]),
    ('kgon', 'kgon', 'grove.txt', ['--k=5'], []),
    ('distance', 'distance', 'parts.txt', [], []),
    ('centres', 'centres', 'villages.txt', ['--p=3'], []),
    ('centres4', 'centres', 'farms.txt', ['--p=4'], []),
    ('furthest', 'furthest', 'harbour.txt', [], []),
    ('shell', 'shell', 'worn_ball.txt', [], []),
]


def script(name, *words):
    """The output of a script beside this one; where it fails, its line."""
    done = subprocess.run([sys.executable, os.path.join(HERE, name), *words], capture_output=True, text=True)
    if done.returncode != 0:
        raise Refused(done.stderr.strip() or done.stdout.strip() or f'{name} ended with status {done.returncode}', 1)
    return done.stdout


def picture_of(program, kind, points, options, drawn):
    """The SVG of an answer to one question."""
    with tempfile.TemporaryDirectory() as folder:
        answer = os.path.join(folder, 'answer.txt')
        with open(answer, 'w', newline='') as file:
            file.write(run(program, [kind, points, *options]))
        if run(program, ['check', points, answer, f'--kind={kind}', *options]) != 'yes\n':
            raise Refused('check says no', 1)
        script('read_answer.py', points, answer)
        return script('draw.py', points, answer, *drawn)


def main():
    parser = argparse.ArgumentParser(description='Makes the pictures of the thirteen kinds.')
    parser.add_argument('program', nargs='?', help='the program: else the one that the variable BOUNDS names, or bounds on the path')
    parser.add_argument('--folder', default=FOLDER, help='where the pictures go; docs/pictures without it')
    words = parser.parse_args()
    program = os.path.abspath(words.program) if words.program else program_of()
    failed = False
    for name, kind, points, options, drawn in PICTURES:
        try:
            picture = picture_of(program, kind, os.path.join(HERE, points), options, drawn)
            with open(os.path.join(words.folder, name + '.svg'), 'w', newline='') as file:
                file.write(picture)
        except (Refused, OSError) as trouble:
            print(f'{name}: {trouble}', file=sys.stderr)
            failed = True
    sys.exit(1 if failed else 0)


if __name__ == '__main__':
    main()
