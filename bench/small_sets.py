"""Small sets of points with the best sizes that trying everything finds: as rows for crates/rows, or put to a built program.

    python3 bench/small_sets.py rows                  writes the tables small and ties of crates/rows/data
    python3 bench/small_sets.py run --rounds 20       puts 20 times 25 other sets of each kind to the program
    python3 bench/small_sets.py self --rounds 20      puts other directions to the brute force itself

The sets have few points and many ties: equal points, points on a line, on a circle or on a grid, and the ends of the range. The
same words make the same sets at each run.
"""

import argparse
import os
import random
import subprocess
import tempfile
from fractions import Fraction

import brute_force

TOP = os.path.join(os.path.dirname(os.path.abspath(__file__)), '..')
TABLES = os.path.join(TOP, 'crates', 'rows', 'data')
PROGRAM = os.path.join(TOP, 'crates', 'bounds', 'out', 'bounds')
PLANE_KINDS = ['circle', 'rectangle', 'parallelogram', 'strip', 'annulus', 'empty', 'centres', 'kgon']
KINDS = PLANE_KINDS + ['sphere', 'distance', 'furthest', 'centres4', 'shell']
SETS = 25
# The greatest coordinates of the plane and of space.
PLANE, SPACE = 200000, 8000


def draw(rng, dimension, count, reach):
    return [tuple(rng.randint(-reach, reach) for _ in range(dimension)) for _ in range(count)]


def moved(points, offset):
    return [tuple(x + y for x, y in zip(p, offset)) for p in points]


def on_a_line(rng, dimension):
    start, step = draw(rng, dimension, 2, 4)
    return [tuple(s + t * d for s, d in zip(start, step)) for t in (rng.randint(-4, 4) for _ in range(6))]


def on_a_plane(rng):
    start, first, second = draw(rng, 3, 3, 3)
    steps = draw(rng, 2, 6, 3)
    return [tuple(s + i * u + j * v for s, u, v in zip(start, first, second)) for i, j in steps]


def on_a_circle(rng, count):
    """Whole points of a circle around (0, 0) whose squared radius is 25, 65 or 325."""
    square = rng.choice([25, 65, 325])
    round_points = [(x, y) for x in range(-18, 19) for y in range(-18, 19) if x * x + y * y == square]
    return rng.sample(round_points, count)


def on_a_sphere(rng, count):
    """Whole points of a sphere around (0, 0, 0) of radius 3 or 9."""
    radius = rng.choice([3, 9])
    span = range(-radius, radius + 1)
    round_points = [(x, y, z) for x in span for y in span for z in span if x * x + y * y + z * z == radius * radius]
    return rng.sample(round_points, count)


# Each shape has a name and gives points of the plane. No set has more than eight points.
PLANE_SHAPES = [
    ('one point', lambda rng: draw(rng, 2, 1, 9)),
    ('equal points', lambda rng: draw(rng, 2, 1, 9) * 3),
    ('two points', lambda rng: draw(rng, 2, 2, 9)),
    ('points on a line', lambda rng: on_a_line(rng, 2)),
    ('points of a grid of nine', lambda rng: draw(rng, 2, 8, 1)),
    ('points of a grid of 25', lambda rng: draw(rng, 2, 7, 2)),
    ('three points', lambda rng: draw(rng, 2, 3, 6)),
    ('points within nine', lambda rng: draw(rng, 2, 8, 9)),
    ('points on a circle', lambda rng: on_a_circle(rng, 7)),
    ('points on a circle and their middle', lambda rng: moved(on_a_circle(rng, 6) + [(0, 0)], draw(rng, 2, 1, 9)[0])),
    ('points on a circle, some twice', lambda rng: on_a_circle(rng, 5) + on_a_circle(rng, 3)),
    ('points within 1000', lambda rng: draw(rng, 2, 6, 1000)),
    ('points of the whole range', lambda rng: draw(rng, 2, 6, PLANE)),
    ('ends of the range', lambda rng: [(rng.choice([-PLANE, PLANE]), rng.choice([-PLANE, 0, PLANE])) for _ in range(5)]),
    ('points near a line', lambda rng: [(x, 3 * x + rng.randint(-1, 1)) for x in rng.sample(range(-60000, 60000), 6)]),
    ('two clusters', lambda rng: draw(rng, 2, 3, 2) + moved(draw(rng, 2, 4, 2), draw(rng, 2, 1, 40)[0])),
    ('points of a narrow band', lambda rng: [(rng.randint(-30, 30), rng.randint(0, 1)) for _ in range(7)]),
]

SPACE_SHAPES = [
    ('one point', lambda rng: draw(rng, 3, 1, 9)),
    ('equal points', lambda rng: draw(rng, 3, 1, 9) * 3),
    ('two points', lambda rng: draw(rng, 3, 2, 9)),
    ('points on a line', lambda rng: on_a_line(rng, 3)),
    ('points on a plane', on_a_plane),
    ('corners of a cube', lambda rng: [tuple(rng.choice([-1, 1]) for _ in range(3)) for _ in range(7)]),
    ('points of a grid of 27', lambda rng: draw(rng, 3, 7, 1)),
    ('points on a sphere', lambda rng: on_a_sphere(rng, 6)),
    ('points on a sphere and their middle', lambda rng: moved(on_a_sphere(rng, 6) + [(0, 0, 0)], draw(rng, 3, 1, 9)[0])),
    ('points within nine', lambda rng: draw(rng, 3, 7, 9)),
    ('points of the whole range', lambda rng: draw(rng, 3, 6, SPACE)),
    ('ends of the range', lambda rng: [tuple(rng.choice([-SPACE, SPACE]) for _ in range(3)) for _ in range(5)]),
    ('two points and a cluster', lambda rng: draw(rng, 3, 2, 100) + draw(rng, 3, 4, 2)),
]


def few(rng):
    """At most five points of space of any shape."""
    return rng.choice(SPACE_SHAPES)[1](rng)[:5]


def split(points):
    return points[: len(points) // 2], points[len(points) // 2 :]


def cube(rng):
    return [tuple(rng.choice([-1, 1]) for _ in range(3)) for _ in range(5)]


def set_and_copy(rng):
    points = draw(rng, 3, 4, 2)
    return points, moved(points, draw(rng, 3, 1, 5)[0])


# Sets that four squares don't cover so easily, of at most twelve points. Those of the plane follow them.
FOUR_SHAPES = [
    ('twelve points of a grid of 25', lambda rng: draw(rng, 2, 12, 2)),
    ('twelve points within nine', lambda rng: draw(rng, 2, 12, 9)),
    ('four clusters', lambda rng: [p for _ in range(4) for p in moved(draw(rng, 2, 3, 2), draw(rng, 2, 1, 30)[0])]),
    ('five clusters', lambda rng: [p for _ in range(5) for p in moved(draw(rng, 2, 2, 2), draw(rng, 2, 1, 30)[0])]),
    ('twelve points of two columns', lambda rng: [(rng.randint(0, 1), rng.randint(-12, 12)) for _ in range(12)]),
    ('twelve points of a falling line', lambda rng: [(x, rng.randint(-1, 1) - x) for x in rng.sample(range(-20, 20), 12)]),
    ('twelve points of the whole range', lambda rng: draw(rng, 2, 12, PLANE)),
    ('a turned cross', lambda rng: around(draw(rng, 2, 3, 12))),
]

# Each shape gives two sets of points of space, of at most five points each.
PAIR_SHAPES = [
    ('one point each', lambda rng: (draw(rng, 3, 1, 9), draw(rng, 3, 1, 9))),
    ('equal points', lambda rng: ([(1, 2, 3)] * 2, [(1, 2, 3)] * 3)),
    ('a point and a grid', lambda rng: (draw(rng, 3, 1, 3), draw(rng, 3, 5, 2))),
    ('sets of one grid', lambda rng: (draw(rng, 3, 5, 2), draw(rng, 3, 4, 2))),
    ('sets side by side', lambda rng: (draw(rng, 3, 5, 3), moved(draw(rng, 3, 5, 3), draw(rng, 3, 1, 12)[0]))),
    ('sets of one plane', lambda rng: split(on_a_plane(rng))),
    ('sets of one line', lambda rng: split(on_a_line(rng, 3))),
    ('two lines', lambda rng: (on_a_line(rng, 3)[:4], on_a_line(rng, 3)[:4])),
    ('a set and itself moved', set_and_copy),
    ('two cubes', lambda rng: (cube(rng), moved(cube(rng), draw(rng, 3, 1, 4)[0]))),
    ('sets of the whole range', lambda rng: (draw(rng, 3, 4, SPACE), draw(rng, 3, 4, SPACE))),
    ('small sets far apart', lambda rng: (moved(draw(rng, 3, 4, 9), (-7000, 0, 0)), moved(draw(rng, 3, 4, 9), (7000, 3, 1)))),
    ('any two shapes', lambda rng: (few(rng), few(rng))),
    ('any two shapes', lambda rng: (few(rng), moved(few(rng), draw(rng, 3, 1, 6)[0]))),
]


def in_range(points):
    limit = PLANE if points and len(points[0]) == 2 else SPACE
    return all(abs(x) <= limit for p in points for x in p)


BEST_SIZE = {
    'circle': brute_force.ball,
    'sphere': brute_force.ball,
    'rectangle': brute_force.rectangle,
    'parallelogram': brute_force.parallelogram,
    'strip': brute_force.strip,
    'annulus': brute_force.annulus,
    'furthest': brute_force.furthest_distance,
    'centres4': brute_force.four_centres,
    'shell': brute_force.shell,
}

# The shapes of the sets of a kind, where they aren't those of the plane.
SHAPES = {'sphere': SPACE_SHAPES, 'shell': SPACE_SHAPES, 'centres4': FOUR_SHAPES + PLANE_SHAPES}


class Case:
    """A set of points, the words that ask for its best object, and the best size."""

    def __init__(self, kind, rng, number):
        self.kind = kind
        self.options = []
        if kind == 'distance':
            shape, self.sets = self.chosen(PAIR_SHAPES, rng, number)
            self.size = brute_force.distance(*self.sets)
        else:
            shape, points = self.chosen(SHAPES.get(kind, PLANE_SHAPES), rng, number)
            self.sets = (points,)
            self.size = self.size_of_one(points, rng)
        self.name = f'{self.what()} of {shape}, set {number + 1}'

    def what(self):
        return {'centres4': 'four squares', 'furthest': 'furthest corners'}.get(self.kind, self.kind)

    def command(self):
        return 'centres' if self.kind == 'centres4' else self.kind

    @staticmethod
    def chosen(shapes, rng, number):
        name, make = shapes[number % len(shapes)]
        while True:
            made = make(rng)
            if all(map(in_range, made if isinstance(made, tuple) else (made,))):
                return name, made

    def size_of_one(self, points, rng):
        if self.kind == 'empty':
            frame = random_frame(points, rng)
            self.options = ['--box=%d,%d,%d,%d' % frame]
            return brute_force.empty(points, frame)
        if self.kind == 'centres':
            p = rng.randint(1, 3)
            self.options = ['--p', str(p)]
            return brute_force.centres(points, p)
        if self.kind == 'kgon':
            k = rng.randint(3, 6)
            self.options = ['--k', str(k)]
            return brute_force.kgon(points, k)
        if self.kind == 'centres4':
            self.options = ['--p', '4']
        return BEST_SIZE[self.kind](points)

    def text(self):
        return '---\n'.join(''.join(' '.join(map(str, p)) + '\n' for p in points) for points in self.sets)

    def beginning(self):
        """The first lines of the answer: up to the witness where the definition fixes the object, else up to the size."""
        size = f'answer 1 {self.kind}\nsize {self.size.numerator}/{self.size.denominator}\n'
        if self.kind == 'strip':
            return size + 'direction %d %d\nbounds %d %d\n' % flat(brute_force.first_strip(*self.sets))
        if self.kind == 'rectangle':
            return size + 'direction %d %d\nalong %d %d\nacross %d %d\n' % flat(brute_force.first_rectangle(*self.sets))
        if self.kind == 'kgon':
            return size + polygon_lines(self.sets[0], int(self.options[1]))
        if self.kind == 'centres4':
            return size + 'squares 4\n'
        if self.kind == 'furthest':
            return size + furthest_lines(self.sets[0])
        if self.kind == 'shell' and (only := brute_force.only_shell(*self.sets)):
            return size + 'center %d %d %d %d\nlevels %d %d\n' % flat(only)
        return size


def flat(pairs):
    return tuple(x for pair in pairs for x in pair)


def polygon_lines(points, k):
    """The corners and the chosen positions. Where points are equal, how many corners there are."""
    corners = brute_force.hull_corners(points)
    if len(set(points)) < len(points):
        return f'corners {len(corners)}\n'
    chosen = brute_force.first_kgon(points, k)
    numbers = [points.index(c) for c in corners]
    return ''.join(f'{line}\n' for line in [f'corners {len(corners)}', *numbers, f'chosen {len(chosen)}', *chosen])


def furthest_lines(points):
    """The rest of the answer: of equal points the first has the number of their corner."""
    corners, positions = brute_force.furthest_corners(points)
    lines = [f'{points.index(corner)} {position}' for corner, position in zip(corners, positions)]
    return ''.join(f'{line}\n' for line in [f'corners {len(corners)}', *lines, 'end'])


def around(directions):
    """Each of these vectors, turned by each number of right angles, in an order that is not that of the hull."""
    turned = brute_force.turned
    return [p for d in directions for p in (turned(turned(d)), d, turned(turned(turned(d))), turned(d))]


# Sets with many best objects.
TIES = [
    ('a square', [(0, 0), (1, 0), (1, 1), (0, 1)]),
    ('a square and its middle', [(3, 3), (0, 0), (0, 6), (6, 6), (6, 0)]),
    ('a tilted square', [(0, 1), (1, 0), (2, 1), (1, 2)]),
    ('a square with points on its sides', [(x, y) for x in range(4) for y in range(4)]),
    ('two crossed squares', around([(2, 2), (3, 0)])),
    ('an octagon', around([(2, 1), (1, 2)])),
    ('a turned octagon', around([(3, 1), (1, 2)])),
    ('twelve points of a circle', around([(5, 0), (4, 3), (3, 4)])),
    ('a hexagon', [(2, 0), (1, 1), (-1, 1), (-2, 0), (-1, -1), (1, -1)]),
    ('a long hexagon', [(0, 0), (4, 0), (6, 3), (6, 7), (2, 7), (0, 4)]),
    ('two crossed rectangles', around([(4, 1)]) + around([(1, 4)])),
    ('a star of equal rectangles', [(10, 5), (10, -5), (-10, 5), (-10, -5), (5, 10), (5, -10), (-5, 10), (-5, -10), (11, 2), (-11, -2), (2, -11), (-2, 11)]),
    ('a triangle of equal heights', [(0, 0), (4, 0), (2, 3), (2, -3)]),
    ('two points far apart', [(PLANE, -PLANE), (-PLANE, PLANE)]),
    ('the corners of the plane', [(PLANE, PLANE), (-PLANE, PLANE), (PLANE, -PLANE), (-PLANE, -PLANE)]),
]


class Tie(Case):
    """A set with many best objects, which is the same at each run."""

    def __init__(self, kind, name, points, options=()):
        self.kind, self.options, self.sets = kind, list(options), (points,)
        self.size = brute_force.kgon(points, int(self.options[1])) if kind == 'kgon' else BEST_SIZE[kind](points)
        self.name = ' '.join([kind, 'of', name] + (['with', *options] if options else []))


def ties():
    asks = [('strip', ()), ('rectangle', ()), ('kgon', ('--k', '3')), ('kgon', ('--k', '4')), ('kgon', ('--k', '5'))]
    return [Tie(kind, name, points, options) for kind, options in asks for name, points in TIES]


def random_frame(points, rng):
    """A frame around the points, or one that has some of them on its sides or outside."""
    xs, ys = [x for x, _ in points], [y for _, y in points]
    margin = rng.choice([-1, 0, 0, 1, 3])
    left, right = max(min(xs) - margin, -PLANE), min(max(xs) + margin, PLANE)
    bottom, top = max(min(ys) - margin, -PLANE), min(max(ys) + margin, PLANE)
    if left >= right or bottom >= top:
        left, bottom = max(min(xs) - 2, -PLANE), max(min(ys) - 3, -PLANE)
        left, bottom = min(left, PLANE - 5), min(bottom, PLANE - 4)
        right, top = left + 5, bottom + 4
    return left, bottom, right, top


def cases(kind, seed):
    rng = random.Random(f'{kind} {seed}')
    return [Case(kind, rng, number) for number in range(SETS)]


TIES_HEAD = '''# Sets with many best strips, rectangles or polygons, of which the answer has the first. Made by bench/small_sets.py; the objects come
# from bench/brute_force.py, which tries every one, and not from the program.

'''

HEAD = '''# Small sets of points with the best size that trying every object of the definition finds. Made by bench/small_sets.py, which says
# how; the sizes come from bench/brute_force.py and not from the program.

'''


def write_table(name, head, rows):
    lines = [head]
    for case in rows:
        lines.append(f'row {case.name}\n')
        lines.append(' '.join(['words', case.command(), 'a'] + case.options) + '\n')
        lines.append('pieces 4096\n')
        lines.append('file a ' + case.text().replace('\n', '\\n') + '\n')
        lines.append('begins ' + case.beginning().replace('\n', '\\n') + '\n')
        lines.append('checked\n\n')
    with open(os.path.join(TABLES, name), 'w') as file:
        file.write(''.join(lines).rstrip('\n') + '\n')


def run(command):
    done = subprocess.run(command, capture_output=True, text=True)
    return done.returncode, done.stdout, done.stderr


def try_program(program, kinds, rounds, first):
    """Puts each case to the program, and its answer to the program's check. Prints each that goes wrong."""
    tried = wrong = 0
    with tempfile.TemporaryDirectory() as folder:
        points, answer = os.path.join(folder, 'points'), os.path.join(folder, 'answer')
        for seed in range(first, first + rounds):
            for kind in kinds:
                for case in cases(kind, seed):
                    with open(points, 'w') as file:
                        file.write(case.text())
                    status, out, err = run([program, case.command(), points] + case.options)
                    with open(answer, 'w') as file:
                        file.write(out)
                    verdict = run([program, 'check', points, answer, '--kind', case.command()] + case.options)
                    tried += 1
                    if status != 0 or not out.startswith(case.beginning()) or verdict != (0, 'yes\n', ''):
                        wrong += 1
                        print(f'WRONG {case.name}, seed {seed}, {case.options}, best size {case.size}')
                        print(f'{case.text()}status {status}\n{out}{err}check: {verdict}')
    print(f'{tried} sets, {wrong} wrong')


def try_brute_force(rounds):
    """Puts to the brute force strips, rectangles and parallelograms of other directions, annuli and shells around other places, and four
    squares over each way to share six points out to them: none is smaller. No two points are farther apart than a corner and its
    furthest one. And two hulls are not nearer than the shortest way between them: as seen along it, each point of one set is at least
    as far from each of the other."""
    normals = [(x, y) for x in range(-7, 8) for y in range(-7, 8) if (x, y) > (0, 0)]
    better = 0
    for seed in range(rounds):
        rng = random.Random(f'self {seed}')
        for _, make in PLANE_SHAPES:
            points = make(rng)
            extents = {n: brute_force.extent(n, points) for n in normals}
            strips = min(Fraction(extents[n] ** 2, brute_force.dot(n, n)) for n in normals)
            rectangles = min(
                Fraction(extents[n] * brute_force.extent(brute_force.turned(n), points), brute_force.dot(n, n)) for n in normals
            )
            parallelograms = min(
                Fraction(extents[u] * extents[v], abs(brute_force.cross(u, v)))
                for u in normals
                for v in normals
                if brute_force.cross(u, v) != 0
            )
            places = [(Fraction(x, 2), Fraction(y, 2)) for x in range(-10, 11) for y in range(-10, 11)]
            heights = [[brute_force.dot(p, p) - 2 * brute_force.dot(c, p) for p in set(points)] for c in places]
            annuli = min(max(h) - min(h) for h in heights)
            better += strips < brute_force.strip(points)
            better += rectangles < brute_force.rectangle(points)
            better += parallelograms < brute_force.parallelogram(points)
            better += annuli < brute_force.annulus(points)
            better += brute_force.centres(points[:6], 4) < brute_force.four_centres(points[:6])
            better += brute_force.furthest_distance(points) > farthest_corners(points)
        for _, make in SPACE_SHAPES:
            points = make(rng)
            places = [(x, y, z) for x in range(-5, 6) for y in range(-5, 6) for z in range(-5, 6)]
            heights = [[brute_force.dot(p, p) - brute_force.dot(c, p) for p in set(points)] for c in places]
            better += min(max(h) - min(h) for h in heights) < brute_force.shell(points)
        for _, make in PAIR_SHAPES:
            first, second = make(rng)
            way = brute_force.shortest_way(first, second)
            along = min(brute_force.dot(way, brute_force.minus(p, q)) for p in first for q in second)
            better += along < brute_force.dot(way, way)
    print(f'{rounds * (len(PLANE_SHAPES) + len(SPACE_SHAPES) + len(PAIR_SHAPES))} sets, {better} with something better')


def farthest_corners(points):
    """The greatest squared distance of a corner of the hull from the one that is named for it."""
    corners, positions = brute_force.furthest_corners(points)
    ways = [brute_force.minus(corner, corners[position]) for corner, position in zip(corners, positions)]
    return max(brute_force.dot(way, way) for way in ways)


def main():
    parser = argparse.ArgumentParser(description='Small sets of points and their best sizes.')
    parser.add_argument('what', choices=['rows', 'run', 'self'])
    parser.add_argument('--program', default=PROGRAM, help='a built program')
    parser.add_argument('--kinds', nargs='+', choices=KINDS, default=KINDS)
    parser.add_argument('--rounds', type=int, default=20)
    parser.add_argument('--first', type=int, default=1, help='the seed of the first round; the rows have 0')
    words = parser.parse_args()
    if words.what == 'rows':
        write_table('small', HEAD, [case for kind in KINDS for case in cases(kind, 0)])
        write_table('ties', TIES_HEAD, ties())
    elif words.what == 'run':
        try_program(words.program, words.kinds, words.rounds, words.first)
    else:
        try_brute_force(words.rounds)


if __name__ == '__main__':
    main()
