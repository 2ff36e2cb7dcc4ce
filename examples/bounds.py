"""Asks `bounds` from Python, and gives shapes as exact coordinates and as WKT for maps.

    from bounds import solve
    answer = solve('rectangle', [(0, 0), (40, 10), (15, 60)])
    answer.size                  # Fraction(2250, 1), in whole units
    answer.corners()             # the rectangle's corners, as pairs of fractions
    answer.wkt()                 # 'POLYGON ((...))'

    python3 examples/bounds.py rectangle examples/sites.txt
    python3 examples/bounds.py rectangle points.txt --wkt

The program is the one that --program or the variable BOUNDS names, or `bounds` on the path. Coordinates are whole numbers in units of a
scale; corners, centres and WKT are in whole units, so in a file of `to_points.py` in the coordinates that it was made of, with the origin
added. docs/FORMATS.md has the limits.
"""

import argparse
import os
import subprocess
import sys
import tempfile
from collections import namedtuple
from fractions import Fraction

from formats import KINDS, Refused, answer_of, cross, dot, place, point_bytes, point_file_of, squared_radii, turned
from why_no import add_question, check_question

# How many digits a number has where its decimals don't end: as many as tell every two doubles apart.
DIGITS = 17

# What a shape is made of. Places are tuples of fractions in whole units, and radii and widths are squared.
Ball = namedtuple('Ball', 'center squared_radius')
Ring = namedtuple('Ring', 'center inner outer')
Strip = namedtuple('Strip', 'normal low high')
Way = namedtuple('Way', 'start end')


def program_of(program=None):
    """The program that is run."""
    return program or os.environ.get('BOUNDS') or 'bounds'


def run(program, words):
    """The output of the program for these words; or `Refused`, with its line and its status. A `no` is an output, too."""
    program = program_of(program)
    try:
        done = subprocess.run([program, *words], capture_output=True, text=True, errors='replace')
    except OSError as error:
        raise Refused(f'{program} can not be run ({error.strerror}): name it by --program or by the variable BOUNDS', 2) from None
    if done.returncode not in (0, 1):
        raise Refused(done.stderr.strip() or f'the program ended with status {done.returncode}', done.returncode)
    return done.stdout


def options_of(kind, p=None, k=None, box=None):
    """The options that a question has."""
    options = [] if p is None else [f'--p={p}']
    options += [] if k is None else [f'--k={k}']
    return options + ([] if box is None else ['--box=' + ','.join(map(str, box))])


def point_text(sets, scale=1):
    """The text of a point file."""
    lines = [] if scale == 1 else [f'scale {scale}']
    for number, points in enumerate(sets):
        lines += (['---'] if number else []) + [' '.join(map(str, p)) for p in points]
    return '\n'.join(lines) + '\n'


class Solution:
    """An answer with the points that it is for. `size`, corners and places are exact, in whole units; the parts of the answer, `parts`,
    are in units of the file, as docs/FORMATS.md has them, and `text` is what the program printed."""

    def __init__(self, text, sets, scale=1, origin=None, names=None):
        self.text, self.sets, self.scale, self.origin = text, sets, scale, origin
        self.names = names or [[''] * len(points) for points in sets]
        answer = answer_of(text)
        self.kind, self.size, self.parts = answer.kind, answer.size, answer.parts

    def at(self, p):
        """A place in units of the file as one in whole units, from the file's origin."""
        origin = self.origin if self.origin and len(self.origin) == len(p) else (0,) * len(p)
        return tuple(Fraction(x) / self.scale + start for x, start in zip(p, origin))

    def between(self, u, u_bounds, v, v_bounds):
        """The corners between two bounds along u and two along v, counterclockwise."""
        determinant = cross(u, v)
        corners = []
        for i, j in ((0, 0), (1, 0), (1, 1), (0, 1)):
            a, b = u_bounds[i], v_bounds[j]
            corners.append(self.at((Fraction(a * v[1] - b * u[1], determinant), Fraction(b * u[0] - a * v[0], determinant))))
        return corners if determinant > 0 else corners[::-1]

    def corners(self):
        """The corners, counterclockwise, of a rectangle, a parallelogram, an empty rectangle, a k-gon and the hull of furthest corners; of
        a strip, those of its part that the points reach along. Other kinds have none."""
        parts = self.parts
        if self.kind == 'rectangle':
            u = tuple(parts['direction'])
            return self.between(u, parts['along'], turned(u), parts['across'])
        if self.kind == 'parallelogram':
            first, second = parts['first'], parts['second']
            return self.between(tuple(first[:2]), first[2:], tuple(second[:2]), second[2:])
        if self.kind == 'strip':
            u = tuple(parts['direction'])
            reach = [dot(turned(u), p) for p in self.sets[0]]
            return self.between(u, parts['bounds'], turned(u), (min(reach), max(reach)))
        if self.kind == 'empty':
            left, bottom, right, top = parts['rectangle']
            return [self.at(p) for p in ((left, bottom), (right, bottom), (right, top), (left, top))]
        if self.kind in ('kgon', 'furthest'):
            return [self.at(self.sets[0][number]) for number in self.corner_numbers()]
        raise Refused(f'{self.kind} has no corners', 2)

    def corner_numbers(self):
        """The numbers of the points that are the corners of a k-gon, or of the hull of furthest corners."""
        numbers = [line[0] for line in self.parts['corners']]
        return [numbers[position] for (position,) in self.parts['chosen']] if self.kind == 'kgon' else numbers

    def squares(self):
        """The corners of each of the squares of `centres`, counterclockwise."""
        found = []
        for (centre,) in self.parts['squares']:
            (x, y), r = self.at(place(centre)), self.size
            found.append([(x - r, y - r), (x + r, y - r), (x + r, y + r), (x - r, y + r)])
        return found

    def pairs(self):
        """The numbers of each corner's point and of the point furthest from it, of `furthest`."""
        numbers = self.corner_numbers()
        return [(number, numbers[far]) for number, far in self.parts['corners']]

    def diameter(self):
        """The ends of the first longest line between two corners, of `furthest`."""
        ways = [Way(self.at(self.sets[0][a]), self.at(self.sets[0][b])) for a, b in self.pairs()]
        return next(way for way in ways if sum((x - y) ** 2 for x, y in zip(*way)) == self.size)

    def shape(self):
        """What the answer's object is, exactly: a `Ball`, a `Ring`, a `Strip`, a `Way`, a list of squares, or a list of corners. The strip
        has the products of its normal with places between its bounds."""
        parts = self.parts
        if self.kind in ('circle', 'sphere'):
            return Ball(self.at(place(parts['center'][0])), self.size)
        if self.kind in ('annulus', 'shell'):
            radii = squared_radii(parts) if self.kind == 'shell' else [parts['inner'][0], parts['outer'][0]]
            return Ring(self.at(place(parts['center'][0])), *(radius / self.scale**2 for radius in radii))
        if self.kind == 'strip':
            u = tuple(parts['direction'])
            start = dot(u, self.at((0, 0)))
            return Strip(u, *(Fraction(bound, self.scale) + start for bound in parts['bounds']))
        if self.kind == 'distance':
            return Way(*(self.at(place(parts[word][0])) for word in ('from', 'to')))
        return self.squares() if self.kind == 'centres' else self.corners()

    def wkt(self, note=None):
        """The shape as WKT, in whole units. A circle, a sphere, an annulus and a shell are their centre: WKT has no way to say a radius
        that is a root. What is flat is a line or a point. `note` is a list that numbers are added to whose decimals don't end."""
        shape = self.shape()
        if self.kind == 'centres':
            if self.size == 0:
                return 'MULTIPOINT (' + ', '.join(f'({coordinates(square[0], note)})' for square in shape) + ')'
            return 'MULTIPOLYGON (' + ', '.join(f'({ring(square, note)})' for square in shape) + ')'
        if isinstance(shape, (Ball, Ring)):
            return word_of('POINT', shape.center) + '(' + coordinates(shape.center, note) + ')'
        if isinstance(shape, Way):
            return flat_wkt(list(shape), note)
        return flat_wkt(self.corners(), note)


def word_of(word, p):
    """The word of a shape in WKT, before its bracket."""
    return word + (' ' if len(p) == 2 else ' Z ')


def flat_wkt(corners, note=None):
    """A polygon, or the line between its ends where it has no area, or one point."""
    area = sum(cross(a, b) for a, b in zip(corners, corners[1:] + corners[:1])) if len(corners) > 2 else 0
    ends = [min(corners), max(corners)] if len(corners) > 2 else [corners[0], corners[-1]]
    if area != 0:
        return 'POLYGON (' + ring(corners, note) + ')'
    if ends[0] != ends[1]:
        return word_of('LINESTRING', ends[0]) + '(' + ', '.join(coordinates(p, note) for p in ends) + ')'
    return word_of('POINT', ends[0]) + '(' + coordinates(ends[0], note) + ')'


def ring(corners, note=None):
    return '(' + ', '.join(coordinates(p, note) for p in corners + corners[:1]) + ')'


def coordinates(p, note=None):
    return ' '.join(decimals(x, note) for x in p)


def decimals(x, note=None):
    """A fraction in decimals: exactly where they end, else rounded to so many digits, and then the fraction is added to the note."""
    x = Fraction(x)
    rest, places = x.denominator, 0
    for factor in (2, 5):
        count = 0
        while rest % factor == 0:
            rest //= factor
            count += 1
        places = max(places, count)
    if rest != 1:
        if note is not None:
            note.append(x)
        # The digits before the point are counted, and as many less stand behind it; a number below 1 has all its digits behind its zeros.
        before = len(str(abs(x.numerator) // x.denominator)) if abs(x) >= 1 else 0
        zeros = 0 if abs(x) >= 1 else len(str(x.denominator // abs(x.numerator))) - 1
        places = max(1, DIGITS - before + zeros)
    number = round(x * 10**places)
    digits = str(abs(number)).rjust(places + 1, '0')
    text = digits[: len(digits) - places] + ('.' + digits[len(digits) - places :] if places else '')
    if '.' in text:
        text = text.rstrip('0').rstrip('.')
    return ('-' if number < 0 else '') + text


def solve(kind, *sets, scale=1, p=None, k=None, box=None, program=None):
    """The best object of a kind for sets of points with whole coordinates, of which `scale` units make a whole one. `distance` takes two
    sets and the other kinds one; `centres` takes p, `kgon` takes k, and `empty` a box of left, bottom, right and top in units of the
    points. Where the program refuses, `Refused` has its line and its status."""
    text = answer_text(kind, point_text(sets, scale), options_of(kind, p, k, box), program)
    return Solution(text, [list(map(tuple, points)) for points in sets], scale)


def solve_file(kind, path, form='text', p=None, k=None, box=None, program=None):
    """The best object of a kind for a point file, with the origin that its comments say. For `empty` without a box the file's own is taken,
    as `to_points.py --box` writes it."""
    return solve_text(kind, point_bytes(path), form, p, k, box, program)


def solve_text(kind, points, form='text', p=None, k=None, box=None, program=None):
    """The same for the text of a point file, a character for each byte."""
    if kind == 'empty' and box is None:
        box = point_file_of(points, kind, form).box
    text = answer_text(kind, points, [f'--form={form}', *options_of(kind, p, k, box)], program)
    file = point_file_of(points, kind, form)
    return Solution(text, file.sets, file.scale, file.origin, file.names)


def answer_text(kind, points, options, program=None):
    """What the program prints for the text of a point file. It gets a file, since standard input can be read only once."""
    with tempfile.TemporaryDirectory() as folder:
        path = os.path.join(folder, 'points.txt')
        with open(path, 'w', encoding='latin-1', newline='') as file:
            file.write(points)
        return run(program, [kind, path, *options])


def check(kind, text, *sets, scale=1, p=None, k=None, box=None, program=None):
    """Whether the program says that the text of an answer passes for these points."""
    with tempfile.TemporaryDirectory() as folder:
        points, answer = os.path.join(folder, 'points.txt'), os.path.join(folder, 'answer.txt')
        with open(points, 'w') as file:
            file.write(point_text(sets, scale))
        with open(answer, 'w', newline='') as file:
            file.write(text)
        return run(program, ['check', points, answer, f'--kind={kind}', *options_of(kind, p, k, box)]) == 'yes\n'


SIZES = {
    'circle': 'squared radius',
    'sphere': 'squared radius',
    'strip': 'squared width',
    'annulus': 'difference of the squared radii',
    'shell': 'difference of the squared radii',
    'distance': 'squared distance',
    'furthest': 'greatest squared distance',
    'centres': 'half a side',
}


def told(x):
    """A fraction, and its decimals where it is none of one of them."""
    note = []
    text = decimals(x, note)
    return text if not note else f'{x}, about {text}'


def report(solution):
    """The lines that the command prints: the size, the exact parts, and the WKT."""
    kind, shape, note, names = solution.kind, solution.shape(), [], solution.names[0]
    name = lambda number: f' {names[number]}' if names[number] else ''
    yield f'{kind}: {SIZES.get(kind, "area")} {told(solution.size)}'
    point = lambda p: '(' + ', '.join(map(str, p)) + ')'
    if isinstance(shape, Ball):
        yield f'center {point(shape.center)}'
    elif isinstance(shape, Ring):
        yield f'center {point(shape.center)}'
        yield f'inner squared radius {told(shape.inner)}'
        yield f'outer squared radius {told(shape.outer)}'
    elif isinstance(shape, Strip):
        yield f'normal {point(shape.normal)}, products from {shape.low} to {shape.high}'
    elif isinstance(shape, Way):
        yield f'from {point(shape.start)}'
        yield f'to {point(shape.end)}'
    elif kind == 'centres':
        for (centre,), square in zip(solution.parts['squares'], shape):
            yield f'square around {point(solution.at(place(centre)))}: ' + ' '.join(map(point, square))
    elif kind in ('kgon', 'furthest'):
        for number, corner in zip(solution.corner_numbers(), shape):
            yield f'corner {point(corner)}, the point {number}{name(number)}'
    else:
        for corner in shape:
            yield f'corner {point(corner)}'
    if kind == 'furthest':
        for number, far in solution.pairs():
            yield f'from the point {number}{name(number)} the furthest is {far}{name(far)}'
        yield f'diameter from {point(solution.diameter().start)} to {point(solution.diameter().end)}'
    yield solution.wkt(note)
    if note:
        yield rounded(note)


def rounded(note):
    """What is said of numbers whose decimals don't end."""
    return f'{len(set(note))} numbers of the WKT have decimals without end: they are rounded to {DIGITS} digits'


def main():
    parser = argparse.ArgumentParser(description='Asks bounds, and prints the size, the exact shape, and the shape as WKT.')
    parser.add_argument('kind', choices=KINDS)
    parser.add_argument('points', help='a point file')
    parser.add_argument('--form', choices=('text', 'csv'), default='text', help='how the point file is written')
    add_question(parser)
    parser.add_argument('--wkt', action='store_true', help='the WKT alone; where it is rounded, standard error says so')
    parser.add_argument('--answer', metavar='FILE', help="keep the program's answer in a file")
    parser.add_argument('--program', help='the program: else the one that the variable BOUNDS names, or bounds on the path')
    words = parser.parse_args()
    try:
        points = point_bytes(words.points)
        if words.kind == 'empty' and words.box is None:
            words.box = point_file_of(points, words.kind, words.form).box
        check_question(parser, words)
        solution = solve_text(words.kind, points, words.form, words.p, words.k, words.box, words.program)
        if words.answer:
            with open(words.answer, 'w', newline='') as file:
                file.write(solution.text)
    except Refused as refused:
        line = refused.line
        print(line if line.startswith('bounds: ') else f'bounds.py: {line}', file=sys.stderr)
        sys.exit(refused.status)
    except OSError as error:
        sys.exit(f'bounds.py: {error.filename}: {error.strerror}')
    if words.wkt:
        note = []
        print(solution.wkt(note))
        if note:
            print(rounded(note), file=sys.stderr)
    else:
        print('\n'.join(report(solution)))


if __name__ == '__main__':
    main()
