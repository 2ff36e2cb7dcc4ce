"""Tests the scripts beside it, with a built program.

    python3 examples/run_tests.py path/to/bounds
    python3 examples/run_tests.py path/to/bounds --mutants 1000 --sets 40

What is expected comes from outside the program where it can: from worked examples, from trying every object (`bench/brute_force.py`), and
from the tables of rows. Only the verdicts on mutated answers are the program's own, since they are what `why_no.py` has to agree with. The
last line has the counts, and the status is 1 where a test is wrong. Python alone is needed.
"""

import argparse
import contextlib
import io
import os
import random
import re
import subprocess
import sys
import tempfile
import xml.etree.ElementTree
from collections import Counter
from concurrent.futures import ThreadPoolExecutor
from fractions import Fraction
from itertools import combinations

HERE = os.path.dirname(os.path.abspath(__file__))
sys.path.insert(0, os.path.join(HERE, '..', 'bench'))

import brute_force
from bounds import Solution, check, decimals, options_of, point_text, run, solve, solve_file
from formats import BODIES, Refused, answer_of, cross, dot, minus, read_answer, read_point_file, square_of_way
from read_answer import recomputed
from why_no import Fails, judge, largest_empty, why

ROWS = os.path.join(HERE, '..', 'crates', 'rows', 'data')
FRAME = (-8, -7, 9, 8)

# The thirteen kinds: the word, and the options of a question.
QUESTIONS = [
    ('circle', {}),
    ('sphere', {}),
    ('rectangle', {}),
    ('parallelogram', {}),
    ('strip', {}),
    ('annulus', {}),
    ('empty', {'box': FRAME}),
    ('kgon', {'k': 4}),
    ('distance', {}),
    ('centres', {'p': 1}),
    ('centres', {'p': 2}),
    ('centres', {'p': 3}),
    ('centres', {'p': 4}),
    ('furthest', {}),
    ('shell', {}),
]

groups, wrong, conditions = Counter(), [], set()


def test(group, name, holds, told=''):
    """Counts a test, and tells of it where it is wrong."""
    groups[group] += 1
    if not holds:
        wrong.append(name)
        print(f'wrong: {group}: {name}: {str(told)[:400]}')


def equal(group, name, found, expected):
    test(group, name, found == expected, f'found {found!r}, expected {expected!r}')


def refusal(f):
    """The line of a refusal, or what was given instead."""
    try:
        return f()
    except Refused as refused:
        return refused.line


# ---- sizes by trying everything


def least_ring(points):
    """The least difference of squared radii of a shell. It is a linear program in the centre, within the points' affine hull of dimension
    d, and at a vertex of it d pairs of points are as far from the centre as each other."""
    points = sorted(set(points))
    if len(points) == 1:
        return Fraction(0)
    basis = []
    for p in points[1:]:
        v = minus(p, points[0])
        if brute_force.solved(gram(basis + [v]), [0] * (len(basis) + 1)) is not None:
            basis.append(v)
    best = None
    for pairs in combinations(list(combinations(points, 2)), len(basis)):
        # The centre is points[0] plus the sum of t_i v_i: for each pair 2 c.(q - p) = |q|^2 - |p|^2.
        rows = [[2 * dot(v, minus(q, p)) for v in basis] for p, q in pairs]
        right = [dot(q, q) - dot(p, p) - 2 * dot(points[0], minus(q, p)) for p, q in pairs]
        factors = brute_force.solved(rows, right)
        if factors is None:
            continue
        centre = tuple(points[0][i] + sum(t * v[i] for t, v in zip(factors, basis)) for i in range(len(points[0])))
        ways = [square_of_way(p, centre) for p in points]
        best = max(ways) - min(ways) if best is None else min(best, max(ways) - min(ways))
    return best


def gram(vectors):
    return [[dot(v, w) for w in vectors] for v in vectors]


def size_by_trying(kind, sets, options):
    """The size of a best object, by trying everything."""
    points = sets[0]
    if kind in ('circle', 'sphere'):
        return brute_force.ball(points)
    if kind == 'furthest':
        return Fraction(max(square_of_way(p, q) for p in points for q in points))
    if kind == 'shell':
        return least_ring(points)
    if kind == 'centres':
        return brute_force.centres(points, options['p'])
    if kind == 'empty':
        return brute_force.empty(points, options['box'])
    if kind == 'kgon':
        return brute_force.kgon(points, options['k'])
    return {
        'rectangle': brute_force.rectangle,
        'parallelogram': brute_force.parallelogram,
        'strip': brute_force.strip,
        'annulus': brute_force.annulus,
        'distance': brute_force.distance,
    }[kind](*sets)


def small_sets(kind, rng, number):
    """A small set of points, or two: general ones, and at some numbers on a line, equal, or on a grid."""
    dimension = 3 if kind in ('sphere', 'distance', 'shell') else 2

    def some(most):
        count = rng.randint(1, most)
        if number % 6 == 3:
            a, v = [rng.randint(-3, 3) for _ in range(dimension)], [rng.randint(-1, 1) for _ in range(dimension)]
            return [tuple(x + t * d for x, d in zip(a, v)) for t in (rng.randint(-3, 3) for _ in range(count))]
        if number % 6 == 5:
            return [tuple(rng.randint(0, 2) for _ in range(dimension)) for _ in range(count)]
        return [tuple(rng.randint(-6, 6) for _ in range(dimension)) for _ in range(count)]

    if kind == 'distance':
        shift = rng.choice((0, 5, 14))
        return [some(4), [(x + shift, y, z) for x, y, z in some(4)]]
    return [some({'centres': 5, 'shell': 6, 'parallelogram': 6}.get(kind, 7))]


# ---- shapes


def area_of(corners):
    return abs(sum(cross(a, b) for a, b in zip(corners, corners[1:] + corners[:1]))) / 2


def holds_points(corners, points):
    """Whether all points are in a polygon whose corners go counterclockwise."""
    edges = zip(corners, corners[1:] + corners[:1])
    return all(cross(minus(b, a), minus(p, a)) >= 0 for a, b in edges for p in points)


def fits_shape(solution):
    """Whether the exact shape, in whole units, fits the true points and has the size."""
    kind, shape, size = solution.kind, solution.shape(), solution.size
    points = [solution.at(p) for p in solution.sets[0]]
    if kind in ('circle', 'sphere'):
        ways = [square_of_way(p, shape.center) for p in points]
        return shape.squared_radius == size == max(ways)
    if kind in ('annulus', 'shell'):
        ways = [square_of_way(p, shape.center) for p in points]
        return (shape.inner, shape.outer) == (min(ways), max(ways)) and shape.outer - shape.inner == size
    if kind == 'strip':
        products = [dot(shape.normal, p) for p in points]
        width = Fraction((shape.high - shape.low) ** 2, dot(shape.normal, shape.normal))
        return (min(products), max(products)) == (shape.low, shape.high) and width == size and holds_points(solution.corners(), points)
    if kind in ('rectangle', 'parallelogram'):
        return area_of(shape) == size and holds_points(shape, points)
    if kind == 'empty':
        (left, bottom), (right, top) = shape[0], shape[2]
        return area_of(shape) == size and not any(left < x < right and bottom < y < top for x, y in points)
    if kind == 'kgon':
        return area_of(shape) == size and set(shape) <= set(points)
    if kind == 'furthest':
        return shape == [solution.at(p) for p in brute_force.hull_corners(solution.sets[0])] and square_of_way(*solution.diameter()) == size
    if kind == 'distance':
        return square_of_way(*shape) == size
    sides = [square[2][0] - square[0][0] for square in shape]
    near = [any(a[0] <= x <= c[0] and a[1] <= y <= c[1] for a, _, c, _ in shape) for x, y in points]
    return all(near) and set(sides) == {2 * size}


NUMBER = re.compile(r'-?[0-9]+(?:[.][0-9]+)?')


def wkt_numbers(text):
    return [Fraction(number) for number in NUMBER.findall(text)]


def numbers_of_shape(solution):
    """The numbers that the WKT has, as fractions, where it is a polygon, a point or polygons."""
    shape = solution.shape()
    if solution.kind in ('circle', 'sphere', 'annulus', 'shell'):
        return list(shape.center)
    if solution.kind == 'centres':
        return [x for square in shape for p in square + square[:1] for x in p]
    corners = solution.corners()
    return [x for p in corners + corners[:1] for x in p]


def test_answers(program, count, folder):
    """Small sets of each kind, at scale 1 and at another."""
    rng = random.Random('answers')
    largest = {}
    for kind, options in QUESTIONS:
        for number in range(count):
            sets = small_sets(kind, rng, number)
            scale = 1 if number % 2 == 0 else rng.choice((2, 3, 8, 10, 100, 1000))
            name = f'{kind} {options} at scale {scale} of {sets}'
            solution = solve(kind, *sets, scale=scale, program=program, **options)
            power = 1 if kind == 'centres' else 2
            equal('sizes against trying everything', name, solution.size, size_by_trying(kind, sets, options) / scale**power)
            test('shapes fit and have the size', name, fits_shape(solution), solution.shape())
            answer = answer_of(solution.text)
            size, fits = recomputed(answer, sets)
            test('read_answer.py recomputes the size', name, fits and size == answer.own_size, size)
            note = []
            wkt = solution.wkt(note)
            if wkt.startswith(('POLYGON', 'MULTIPOLYGON', 'POINT')) and (kind in ('circle', 'sphere', 'annulus', 'shell') or 'POINT' not in wkt):
                exact, printed = numbers_of_shape(solution), wkt_numbers(wkt)
                near = len(exact) == len(printed) and all(abs(a - b) <= abs(a) * Fraction(1, 10**15) for a, b in zip(exact, printed))
                test('WKT is the shape', name, near and (bool(note) or exact == printed), wkt)
            judged = judged_by(solution.text, kind, sets, scale, options, folder)
            equal('why_no.py finds nothing in an answer', name, judged, 'yes')
            if len(solution.text) < 3000 and (kind, str(options), scale > 1) not in largest or number % 6 in (0, 1) and number < 12:
                largest[kind, str(options), scale > 1] = (sets, scale, solution.text)
    return largest


def judged_by(text, kind, sets, scale, options, folder, form='text'):
    """What `why_no.py` says of a text: `yes`, `no`, or its refusal."""
    points, answer = os.path.join(folder, 'points.txt'), os.path.join(folder, 'answer.txt')
    write(points, point_text(sets, scale))
    write(answer, text)
    return why_words(points, answer, kind, options, form)


def why_words(points, answer, kind, options, form='text'):
    try:
        found = why(points, answer, kind, options.get('p'), options.get('k'), options.get('box'), form)
    except Refused as refused:
        return refused.line
    if found is None:
        return 'yes'
    conditions.add((kind + ('4' if options.get('p') == 4 else ''), found.split(':')[0]))
    return 'no'


def write(path, text):
    with open(path, 'w', encoding='latin-1', newline='') as file:
        file.write(text)


# ---- mutated answers


def mutants(text, rng, count):
    """Texts that differ from an answer in little: in a number, in a line, or in the head."""
    lines = text.split('\n')
    made = set()
    for _ in range(20 * count):
        if len(made) >= count:
            break
        new = list(lines)
        at = rng.randrange(len(lines) - 1)
        what = rng.randrange(40)
        if what == 0:
            del new[at]
        elif what == 1:
            new.insert(at, new[at])
        elif what == 2 and at > 0:
            new[at], new[at - 1] = new[at - 1], new[at]
        else:
            words = new[at].split(' ')
            numbers = [i for i, word in enumerate(words) if re.fullmatch('-?[0-9]+(/[0-9]+)?', word)]
            if not numbers:
                continue
            i = rng.choice(numbers)
            words[i] = mutated(words[i], rng)
            if what < 8:
                words = [mutated(word, rng) if re.fullmatch('-?[0-9]+', word) and rng.random() < 0.5 else word for word in words]
            if 8 <= what < 14 and len(numbers) > 1:
                j = rng.choice(numbers)
                words[i], words[j] = new[at].split(' ')[j], new[at].split(' ')[i]
            new[at] = ' '.join(words)
        made.add('\n'.join(new))
    made.discard(text)
    return sorted(made)


def mutated(word, rng):
    """Another number in place of one."""
    if '/' in word:
        a = Fraction(word)
        b = rng.choice((a + 1, max(a - 1, Fraction(0)), a / 2, a * 2, a / 3, a + Fraction(1, 1000000), Fraction(0), a + 2000000, -a, a + 2**127))
        return f'{b.numerator}/{b.denominator}' if rng.random() < 0.95 else f'{2 * b.numerator}/{2 * b.denominator}'
    n = int(word)
    if rng.random() < 0.75:
        return str(rng.choice((n + 1, max(n - 1, min(n, 0)), 0, 1, 2, 3, 2 * n, -n if n < 0 else n + 2)))
    ways = (n - 1, -n, 5, 9999, 10000, n + 400000, n + 2**41, n + 2**60, n + 2**81, 2**126, 2**126 + 1, -(2**127))
    return str(rng.choice(ways)) if rng.random() < 0.9 else rng.choice(('+' + word, '0' + word, '-0', 'x', ''))


def test_mutants(program, bases, count, folder):
    """`why_no.py` and `check` say the same of each mutated answer: yes, no, or one refusal."""
    rng = random.Random('mutants')
    verdicts = Counter()

    def program_says(job):
        kind, options, points, text, number = job
        answer = os.path.join(folder, f'mutant {number}.txt')
        write(answer, text)
        line = refusal(lambda: run(program, ['check', points, answer, f'--kind={kind}', *options_of(kind, **options)]))
        return line.removeprefix('bounds: ').strip()

    with ThreadPoolExecutor(4) as pool:
        for number, ((kind, _, _), (options, sets, scale, text)) in enumerate(sorted(bases.items(), key=str)):
            points = os.path.join(folder, f'points {number}.txt')
            write(points, point_text(sets, scale))
            jobs = [(kind, options, points, mutant, f'{number} {i}') for i, mutant in enumerate(mutants(text, rng, count))]
            for job, said in zip(jobs, pool.map(program_says, jobs)):
                answer = os.path.join(folder, 'mine.txt')
                write(answer, job[3])
                found = why_words(points, answer, kind, options)
                verdicts[said if said in ('yes', 'no') else 'refused'] += 1
                test('mutated answers judged as check judges them', f'{kind} {options} {sets} {scale}', found == said, (found, said, job[3]))
                os.remove(os.path.join(folder, f'mutant {job[4]}.txt'))
    return verdicts


# ---- the tables of rows


def unescaped(text):
    return re.sub(r'\\(x[0-9a-f]{2}|.)', lambda m: {'n': '\n', 'r': '\r', 't': '\t'}.get(m[1]) or (chr(int(m[1][1:], 16)) if m[1][0] == 'x' else m[1]), text)


def rows_of(path):
    """The rows of a table: their words, files, and what they have to end with."""
    shared, rows, row, last = {}, [], None, None
    for line in open(path, encoding='latin-1').read().split('\n'):
        key, _, rest = line.partition(' ')
        if key == 'row':
            row, last = {'name': rest, 'words': [], 'files': dict(shared), 'keys': set()}, None
            rows.append(row)
        elif key == 'file':
            name, _, text = rest.partition(' ')
            last = ((row['files'] if row else shared), name)
            last[0][name] = unescaped(text)
        elif key == '|' and last:
            last[0][last[1]] += unescaped(rest) + '\n'
        elif key == 'times' and last:
            count, _, text = rest.partition(' ')
            last[0][last[1]] += unescaped(text) * int(count)
        elif row is not None and key == 'words':
            row['words'].append(rest.split(' '))
        elif row is not None and key in ('out', 'begins'):
            row[key] = unescaped(rest)
            last = (row, key)
        elif row is not None and key in ('err', 'status'):
            row[key] = unescaped(rest)
        elif row is not None and key:
            row['keys'].add(key)
    return rows


def words_parsed(words):
    """The files and the options of a line of words, or None where it is none of those that are looked at here."""
    files, options, at = [], {}, 0
    while at < len(words):
        word = words[at]
        if word.startswith('--') and len(word) > 2:
            name, equals, value = word[2:].partition('=')
            if not equals and name != 'brief':
                at += 1
                if at == len(words):
                    return None
                value = words[at]
            if name not in ('kind', 'p', 'k', 'box', 'form') or name in options:
                return None
            options[name] = value
        else:
            files.append(word)
        at += 1
    try:
        numbers = {name: int(options[name]) for name in ('p', 'k') if name in options}
        if 'box' in options:
            numbers['box'] = tuple(map(int, options['box'].split(',')))
    except ValueError:
        return None
    return files, options.get('kind'), numbers, options.get('form', 'text')


def test_rows(folder):
    """Rows on answers are judged by `why_no.py` as they have to end, and rows on refused points are refused by `formats.py`."""
    if not os.path.isdir(ROWS):
        print('the tables of rows are not beside this clone: they are left out')
        return
    for table in sorted(os.listdir(ROWS)):
        if '.' in table or table == 'faults':
            continue
        for row in rows_of(os.path.join(ROWS, table)):
            if row['keys'] & {'fails', 'cut', 'over', 'told', 'opens'}:
                continue
            for words in row['words']:
                parsed = words_parsed(words[1:])
                if parsed is None or not words or any(name not in row['files'] for name in parsed[0]):
                    continue
                files, kind, options, form = parsed
                paths = [os.path.join(folder, f'row {i}.txt') for i in range(len(files))]
                for path, name in zip(paths, files):
                    write(path, row['files'][name])
                name = f'{table}: {row["name"]}: {" ".join(words)}'
                err = row.get('err', '')
                if words[0] == 'check' and len(files) == 2 and kind in {k for k, _ in QUESTIONS} and not err.startswith('usage'):
                    expected = err or row.get('out', '').strip()
                    if expected:
                        equal('rows of answers', name, why_words(*paths, kind, options, form), expected)
                elif words[0] in {k for k, _ in QUESTIONS} and len(files) == 1 and err.startswith('points: ') and 'corners' not in err:
                    if 'four centres' not in err:
                        found = refusal(lambda: read_point_file(paths[0], words[0], form))
                        equal('rows of refused points', name, found if isinstance(found, str) else 'read', err)


# ---- worked examples


def test_worked(program, folder):
    """Answers that were worked out by hand, with their WKT."""
    triangle = [(0, 0), (4, 0), (0, 3)]
    tetrahedron = [(0, 0, 0), (2, 0, 0), (0, 2, 0), (0, 0, 2)]
    square = [(0, 0), (4, 0), (4, 4), (0, 4)]
    # Two balls around (0, 0, 0): the points of the outer one are at the way 2, those of the inner one at 1.
    nested = [(2, 0, 0), (-2, 0, 0), (0, 2, 0), (0, -2, 0), (0, 0, 2), (0, 0, -2), (1, 0, 0), (-1, 0, 0), (0, 1, 0), (0, -1, 0), (0, 0, 1), (0, 0, -1)]
    flat = [(x, y) for x, y, z in nested if z == 0]
    worked = [
        ('circle', [triangle], {}, 1, Fraction(25, 4), 'POINT (2 1.5)'),
        ('circle', [[(10 * x, 10 * y) for x, y in triangle]], {}, 10, Fraction(25, 4), 'POINT (2 1.5)'),
        ('circle', [[(0, 0), (1, 0)]], {}, 1000, Fraction(1, 4000000), 'POINT (0.0005 0)'),
        ('sphere', [tetrahedron], {}, 1, Fraction(3) - Fraction(1, 3), 'POINT Z (0.66666666666666667 0.66666666666666667 0.66666666666666667)'),
        ('rectangle', [square], {}, 8, Fraction(1, 4), 'POLYGON ((0 0, 0.5 0, 0.5 0.5, 0 0.5, 0 0))'),
        ('rectangle', [[(0, 0), (3, 3)]], {}, 1, Fraction(0), 'LINESTRING (0 0, 3 3)'),
        ('rectangle', [[(5, 7)]], {}, 10, Fraction(0), 'POINT (0.5 0.7)'),
        ('parallelogram', [square], {}, 1, Fraction(16), None),
        ('strip', [[(0, 0), (10, 0), (10, 2), (0, 2)]], {}, 1, Fraction(4), 'POLYGON ((10 0, 10 2, 0 2, 0 0, 10 0))'),
        ('annulus', [flat], {}, 1, Fraction(3), 'POINT (0 0)'),
        ('annulus', [flat], {}, 2, Fraction(3, 4), 'POINT (0 0)'),
        ('empty', [[(0, 0)]], {'box': (-2, -3, 4, 5)}, 1, Fraction(32), 'POLYGON ((0 -3, 4 -3, 4 5, 0 5, 0 -3))'),
        ('empty', [[]], {'box': (-2, -3, 4, 5)}, 10, Fraction(48, 100), 'POLYGON ((-0.2 -0.3, 0.4 -0.3, 0.4 0.5, -0.2 0.5, -0.2 -0.3))'),
        ('kgon', [square], {'k': 3}, 1, Fraction(8), 'POLYGON ((0 0, 4 0, 4 4, 0 0))'),
        ('kgon', [[(1, 1), (1, 1)]], {'k': 3}, 1, Fraction(0), 'POINT (1 1)'),
        ('distance', [[(0, 0, 0)], [(3, 4, 12)]], {}, 1, Fraction(169), 'LINESTRING Z (0 0 0, 3 4 12)'),
        ('distance', [[(0, 0, 0)], [(0, 0, 0)]], {}, 1, Fraction(0), 'POINT Z (0 0 0)'),
        ('centres', [square], {'p': 1}, 10, Fraction(1, 5), 'MULTIPOLYGON (((0 0, 0.4 0, 0.4 0.4, 0 0.4, 0 0)))'),
        ('centres', [square], {'p': 4}, 10, Fraction(0), None),
        ('centres', [[(3, 4)]], {'p': 1}, 1, Fraction(0), 'MULTIPOINT ((3 4))'),
        ('furthest', [square], {}, 10, Fraction(32, 100), 'POLYGON ((0 0, 0.4 0, 0.4 0.4, 0 0.4, 0 0))'),
        ('shell', [nested], {}, 1, Fraction(3), 'POINT Z (0 0 0)'),
        ('shell', [nested], {}, 2, Fraction(3, 4), 'POINT Z (0 0 0)'),
    ]
    for kind, sets, options, scale, size, wkt in worked:
        name = f'{kind} {options} of {sets} at scale {scale}'
        solution = solve(kind, *sets, scale=scale, program=program, **options)
        equal('worked answers', name, solution.size, size)
        if wkt is not None:
            equal('worked answers', name + ', WKT', solution.wkt(), wkt)
        test('worked answers', name + ', checked', check(kind, solution.text, *sets, scale=scale, program=program, **options))
        test('worked answers', name + ', at another scale', not check(kind, solution.text, *sets, scale=scale % 1000 + 1, program=program, **options))
    furthest = solve('furthest', square, program=program)
    equal('worked answers', 'pairs of a square', furthest.pairs(), [(0, 2), (1, 3), (2, 0), (3, 1)])
    equal('worked answers', 'diameter of a square', furthest.diameter(), ((0, 0), (4, 4)))
    for x, text in ((Fraction(1, 8), '0.125'), (Fraction(-7, 2), '-3.5'), (Fraction(-1, 1000), '-0.001'), (Fraction(12), '12'), (Fraction(0), '0')):
        equal('worked answers', f'decimals of {x}', decimals(x), text)
    for x, text in ((Fraction(1, 3), '0.33333333333333333'), (Fraction(-2000, 3), '-666.66666666666667'), (Fraction(1, 3000), '0.00033333333333333333')):
        note = []
        equal('worked answers', f'decimals of {x}', (decimals(x, note), note), (text, [x]))
    for kind, sets, options, line in (
        ('circle', [[]], {}, 'bounds: points: set 1 has no points'),
        ('circle', [[(200001, 0)]], {}, 'bounds: points: line 1 is out of range'),
        ('sphere', [[(0, 0)]], {}, 'bounds: points: line 1 is not a point'),
        ('distance', [[(0, 0, 0)]], {}, 'bounds: points: found 1 sets'),
        ('kgon', [[(0, 0)]], {}, 'bounds: usage: option --k is missing'),
        ('circle', [[(0, 0)]], {'p': 1}, 'bounds: usage: option --p is not used here'),
    ):
        equal('refusals of the program', line, refusal(lambda: solve(kind, *sets, program=program, **options)), line)
    for kind, options, points, place in (
        ('rectangle', {}, '# origin 512000.5 -20.25\nscale 4\n0 0\n2 0\n2 2\n0 2\n',
         'POLYGON ((512000.5 -20.25, 512001 -20.25, 512001 -19.75, 512000.5 -19.75, 512000.5 -20.25))'),
        ('strip', {}, '# origin 100 200\n0 0\n4 0\n4 1\n0 1\n', 'POLYGON ((104 200, 104 201, 100 201, 100 200, 104 200))'),
        ('sphere', {}, '# origin 1 2 3\n0 0 0\n2 0 0\n', 'POINT Z (2 2 3)'),
        ('empty', {}, '# origin 10 20\n# box 0,0\n# box 0 0 3 4\nscale 1\n', 'POLYGON ((10 20, 13 20, 13 24, 10 24, 10 20))'),
    ):
        path = os.path.join(folder, 'origin.txt')
        write(path, points)
        equal('worked answers', f'{kind} with an origin', refusal(lambda: solve_file(kind, path, program=program, **options).wkt()), place)


def test_empty_boxes():
    """The search for a larger empty box, by which `why_no.py` judges condition 3, against trying every box."""
    rng = random.Random('boxes')
    for number in range(300):
        reach = rng.choice((2, 4, 9))
        points = [(rng.randint(-reach, reach), rng.randint(-reach, reach)) for _ in range(rng.randint(0, 9))]
        area, (left, bottom, right, top) = largest_empty(points, FRAME)
        inside = any(left < x < right and bottom < y < top for x, y in points)
        fits = not inside and (right - left) * (top - bottom) == area
        test('largest empty boxes against trying everything', str(points), fits and area == brute_force.empty(points, FRAME), area)


# ---- decimals to points


def converted(folder, name, text, *words):
    """What `to_points.py` writes and tells of a file."""
    path = os.path.join(folder, name)
    with open(path, 'w', encoding='utf-8', newline='') as file:
        file.write(text)
    done = subprocess.run([sys.executable, os.path.join(HERE, 'to_points.py'), path, *words], capture_output=True, text=True, encoding='utf-8')
    if done.returncode:
        return done.stderr.replace(path, name).replace('to_points.py: ', '').strip()
    return [line for line in done.stdout.splitlines() if not line.startswith('# made')]


def test_to_points(program, folder):
    """Files and what becomes of them, worked out by hand; then random decimals, which come back exactly."""
    group = 'to_points.py'
    named = 'mark,east,north\nA,512304.25,5403118.5\nB 2,512341.75,5403131.25\n'
    cases = [
        ('a.csv', named, [], ['# origin 500000 5400000', 'scale 4', '49217 12474 # A', '49367 12525 # B 2']),
        ('a.csv', named, ['--origin=512304.25,5403118'], ['# origin 512304.25 5403118', 'scale 4', '0 2 # A', '150 53 # B 2']),
        ('a.csv', named, ['--columns', 'north,east'], ['# origin 5400000 500000', 'scale 4', '12474 49217 # A', '12525 49367 # B 2']),
        ('a.csv', named, ['--columns', '2,3', '--name', 'north', '--scale', '100', '--origin=512300,5403000'],
         ['# origin 512300 5403000', 'scale 100', '425 11850 # 5403118.5', '4175 13125 # 5403131.25']),
        ('a.csv', '1,2\n3,4\n', [], ['# origin 0 0', '1 2', '3 4']),
        ('a.csv', 'name;x;y\nÄ1;1,5;2\n', ['--comma'], ['# origin 0 0', 'scale 2', '3 4 # Ä1']),
        ('a.csv', '\ufeffx,y\r\n"0.1",1e-1\r\n\r\n-0.5,2.E1\r\n', [], ['# origin 0 0', 'scale 10', '1 1', '-5 200']),
        ('a.csv', 'x,y,z\n1,2,3\n', [], ['# origin 0 0', '1 2']),
        ('a.csv', 'x,y,z\n1,2,.5\n', ['--space'], ['# origin 0 0 0', 'scale 2', '2 4 1']),
        ('a.csv', 'x,y\n0.125,0\n', [], ['# origin 0 0', 'scale 8', '1 0']),
        ('a.csv', 'x,y\n0.001,0\n', [], ['# origin 0 0', 'scale 1000', '1 0']),
        ('a.csv', 'x,y\n0.0001,0\n', [], 'line 2: 0.0001 needs a scale of 10000 to stay exact, and at most 1000 is taken: '
         'round it with --round, or with --round --scale 100 to hundredths'),
        ('a.csv', 'x,y\n0.0006,0\n', ['--round'], ['# origin 0 0', 'scale 1000', '1 0']),
        ('a.csv', 'x,y\n0.126,7\n', ['--round', '--scale', '100'], ['# origin 0 0', 'scale 100', '13 700']),
        ('a.csv', 'x,y\n0.5,7\n', ['--scale', '3'], 'the scale 3 does not keep each decimal, and 2 does: leave out --scale, or round with --round'),
        ('a.csv', 'x,y\n0.5,7\n', ['--scale', '6'], ['# origin 0 0', 'scale 6', '3 42']),
        ('a.csv', 'x,y\n0,0\n1000.123,0\n', [],
         'the points reach from 0 to 1000.123 in x, and at the scale 1000 at most 400 fit: round with --round --scale 100'),
        ('a.csv', 'x,y\n0,0\n500000,0\n', [],
         'the points reach from 0 to 500000 in x, and at the scale 1 at most 400000 fit: divide the coordinates by 10 or more first'),
        ('a.csv', 'x,y\n0,0\n400000,0\n', [], ['# origin 200000 0', '-200000 0', '200000 0']),
        ('a.csv', 'x,y\n7,0\n400007,0\n', [], ['# origin 200007 0', '-200000 0', '200000 0']),
        ('a.csv', 'x,y,z\n0,0,16000\n', ['--space'], ['# origin 0 0 20000', '0 0 -4000']),
        ('a.csv', 'x,y\n0,0\n300000,0\n', ['--origin=0,0'],
         'line 3: (300000, 0) is further than 200000 from the origin: leave out --origin, or give one near the points'),
        ('a.csv', 'x,y\n1,zwei\n', [], 'a.csv: line 2, column y: "zwei" is no number'),
        ('a.csv', 'x;y\n1;2,5\n', [], 'a.csv: line 2, column y: "2,5" is no number: decimals with a comma are read with --comma'),
        ('a.csv', 'x,y\n1\n', [], 'a.csv: line 2: there is no column 2'),
        ('a.csv', 'x,y\n', [], 'a.csv: there are no points'),
        ('a.csv', 'x,y\n1,2\n', ['--columns', 'x,q'], 'a.csv: there is no column "q": the first line has x, y'),
        ('a.csv', 'x,y\n1,2\n', ['--space'], 'a.csv: line 2: there is no column 3'),
        ('a.csv', 'x,y\n' + '1,2\n' * 10001, [], 'a.csv: there are 10001 points, and a set takes at most 10000: leave out points inside the others'),
        ('a.csv', 'name,x,y\n"two\nlines # here",1,2\n', [], ['# origin 0 0', '1 2 # two lines # here']),
        ('a.csv', 'x,y\n1,2\n', ['--box=0,0,3.5,4'], ['# origin 0 0', '# box 0 0 7 8', 'scale 2', '2 4']),
        ('a.csv', 'x,y\n1,2\n', ['--box=3,0,1,4'], '--box is left,bottom,right,top, with left below right and bottom below top'),
        ('a.json', '{"type": "Point", "coordinates": [0.1, 2]}', [], ['# origin 0 0', 'scale 10', '1 20']),
        ('a.geojson', '{"type": "FeatureCollection", "features": [{"type": "Feature", "properties": {"name": "N"}, "geometry": '
         '{"type": "Polygon", "coordinates": [[[0, 0], [1.5, 0], [0, 1], [0, 0]]]}}, {"type": "Feature", "id": 7, "properties": null, '
         '"geometry": {"type": "Point", "coordinates": [3, 4, 5]}}]}', [],
         ['# origin 0 0', 'scale 2', '0 0 # N', '3 0 # N', '0 2 # N', '6 8 # 7']),
        ('a.json', '{"type": "MultiPolygon", "coordinates": [[[[0, 0, 1], [1, 0, 1], [0, 1, 1], [0, 0, 1]]]]}', ['--space'],
         ['# origin 0 0 0', '0 0 1', '1 0 1', '0 1 1']),
        ('a.json', '{"type": "Point", "coordinates": ["1", 2]}', [], 'a.json: the file: a position is no list of numbers'),
        ('a.json', '{"type": "Point", "coordinates": [1]}', [], 'a.json: the file: a position has 1 coordinates, and 2 are called for'),
        ('a.json', '{"type": "Circle", "coordinates": [1, 2]}', [], 'a.json: the file: Circle is no kind of geometry'),
        ('a.json', '[1, 2]', [], 'a.json: the file: it is no geometry'),
        ('a.wkt', 'POLYGON ((0 0, 0.5 0, 0 1, 0 0))', [], ['# origin 0 0', 'scale 2', '0 0', '1 0', '0 2']),
        ('a.wkt', 'SRID=25832;MULTIPOINT ((1 2), (3 4))\nPOINT Z (5 6 7)\nLINESTRING(0 0,1 1,0 0)', [],
         ['# origin 0 0', '1 2', '3 4', '5 6', '0 0', '1 1', '0 0']),
        ('a.wkt', 'POINT Z (5 6 7.25)\nPOINTZ(1 2 3)', ['--space'], ['# origin 0 0 0', 'scale 4', '20 24 29', '4 8 12']),
        ('a.wkt', 'POINT M (5 6 7)', ['--space'], 'a.wkt: line 1: a measure (M) is no height'),
        ('a.wkt', 'POINT (5)', [], 'a.wkt: line 1: "5" has 1 numbers, and 2 are called for'),
        ('a.wkt', 'POINT EMPTY', [], 'a.wkt: there are no points'),
        ('a.wkt', 'CIRCLE (1 2)', [], 'a.wkt: line 1: "CIRCLE" is no shape that is read'),
        ('a.txt', 'POINT (5 6)', [], ['# origin 0 0', '5 6']),
    ]
    for name, text, words, expected in cases:
        equal(group, f'{text[:60]!r} {words}', converted(folder, name, text, *words), expected)
    write(os.path.join(folder, 'other.csv'), 'x,y,z\n0.5,0,0\n')
    found = converted(folder, 'a.csv', 'x,y,z\n1,2,3\n', os.path.join(folder, 'other.csv'), '--space')
    equal(group, 'two sets', found, ['# origin 0 0 0', 'scale 2', '2 4 6', '---', '1 0 0'])
    rng = random.Random('decimals')
    for number in range(40):
        places, dimension = rng.randint(0, 3), rng.choice((2, 3))
        middle, reach = [rng.randint(-6000000, 6000000) for _ in range(dimension)], 10 ** (4 - places) // (1 if dimension == 2 else 2)
        points = [[f'{m + rng.randint(-reach, reach)}.{rng.randrange(10**places):0{places}d}'.rstrip('.') if places else str(m + rng.randint(-reach, reach))
                   for m in middle] for _ in range(rng.randint(1, 9))]
        text = 'x,y,z\n'[: 2 * dimension - 1] + '\n' + ''.join(','.join(p) + '\n' for p in points)
        words = ['--space'] if dimension == 3 else []
        lines = converted(folder, 'a.csv', text, *words)
        path = os.path.join(folder, 'back.txt')
        write(path, '\n'.join(lines if isinstance(lines, list) else [lines]) + '\n')
        file = refusal(lambda: read_point_file(path, 'sphere' if dimension == 3 else 'circle'))
        exact = [tuple(map(Fraction, p)) for p in points]
        back = file if isinstance(file, str) else [tuple(Fraction(x, file.scale) + o for x, o in zip(p, file.origin)) for p in file.sets[0]]
        equal(group, f'{points} come back', back, exact)
        smaller = [s for s in range(1, getattr(file, 'scale', 1)) if all((x * s).denominator == 1 for p in exact for x in p)]
        equal(group, f'{points} at the smallest scale', smaller, [])


# ---- the commands


def test_commands(program, folder):
    """Each script as a command: what it prints, and that bad words and bad files get a line in words."""
    environment = {**os.environ, 'BOUNDS': os.path.abspath(program) if os.path.exists(program) else program}
    example = lambda name: os.path.join(HERE, name)

    def ended(script, *words, **changed):
        return subprocess.run([sys.executable, example(script), *words], capture_output=True, text=True, env={**environment, **changed})

    path = lambda name: os.path.join(folder, name)
    examples = [
        ('circle', 'villages.txt', []),
        ('sphere', 'atoms.txt', []),
        ('rectangle', 'sites.txt', []),
        ('parallelogram', 'stones.txt', []),
        ('strip', 'drill_holes.txt', []),
        ('annulus', 'bearing.txt', []),
        ('empty', 'masts.txt', ['--box=0,0,1000,700']),
        ('kgon', 'grove.txt', ['--k=5']),
        ('distance', 'parts.txt', []),
        ('centres', 'villages.txt', ['--p=3']),
        ('centres', 'farms.txt', ['--p=4']),
        ('furthest', 'harbour.txt', []),
        ('shell', 'worn_ball.txt', []),
    ]
    for kind, name, options in examples:
        for scale in (1, 25):
            points, answer = path('example.txt'), path('answer.txt')
            write(points, (f'scale {scale}\n' if scale > 1 else '') + open(example(name)).read())
            done = ended('bounds.py', kind, points, *options, '--answer', answer)
            solution = Solution(open(answer).read(), read_point_file(points, kind).sets, scale)
            first = done.stdout.split('\n')[0]
            size = Fraction(re.search(r'(-?[0-9./]+)(?:, about|$)', first)[1])
            test('commands', f'bounds.py {kind} {scale}', done.returncode == 0 and done.stderr == '' and size == solution.size, done.stdout + done.stderr)
            done = ended('bounds.py', kind, points, *options, '--wkt')
            test('commands', f'bounds.py --wkt {kind}', done.returncode == 0 and done.stdout == solution.wkt() + '\n', done.stdout)
            done = ended('read_answer.py', points, answer)
            line = f'{kind}: printed {solution.size}, recomputed {solution.size}, fits\n'
            equal('commands', f'read_answer.py {kind} {scale}', (done.returncode, done.stdout), (0, line))
            done = ended('draw.py', points, answer, *(options if kind == 'empty' else []))
            dots = well_formed(done.stdout)
            count = sum(map(len, solution.sets))
            test('commands', f'draw.py {kind} {scale}', done.returncode == 0 and dots >= count, done.stderr or f'{dots} dots of {count} points')
            done = ended('why_no.py', points, answer, '--kind', kind, *options)
            equal('commands', f'why_no.py {kind} {scale}', (done.returncode, done.stdout), (0, 'yes\n'))
            worse = re.sub(r'size ([0-9]+)/', lambda m: f'size {int(m[1]) + 1}/', open(answer).read())
            write(path('worse.txt'), worse)
            done = ended('why_no.py', points, path('worse.txt'), '--kind', kind, *options)
            verdict = ended_program(program, 'check', points, path('worse.txt'), '--kind', kind, *options)
            said = 'no' if done.returncode == 1 and done.stdout.startswith(f'no: {kind}, ') else done.stderr.removeprefix('why_no: ').strip()
            equal('commands', f'why_no.py of another size {kind} {scale}', said, verdict)
            # A size of another format is a number of another unit: the size is the numerator's neighbour, so it isn't in lowest terms or wrong.
            done = ended('read_answer.py', points, path('worse.txt'))
            test('commands', f'read_answer.py of another size {kind}', done.returncode in (1, 3) and 'Traceback' not in done.stderr, done.stdout)
    write(path('bad.txt'), '0 0\n1 x\n')
    write(path('three.txt'), '0 0 0\n')
    write(path('one.txt'), '0 0\n')
    write(path('brief.txt'), 'size 1/1\n')
    write(path('named.txt'), 'answer 1 circle\nsize 0/1\ncenter 0 0 1\nsupports 1\n7 1\nend\n')
    write(path('nothing.txt'), '')
    bad = [
        (['bounds.py', 'circle', path('bad.txt')], 3, 'bounds: points: line 2 is not a point'),
        (['bounds.py', 'circle', path('absent.txt')], 4, 'points: cannot be opened'),
        (['bounds.py', 'circle', path('nothing.txt')], 3, 'bounds: points: set 1 has no points'),
        (['bounds.py', 'oval', path('one.txt')], 2, 'invalid choice'),
        (['bounds.py', 'kgon', path('one.txt')], 2, 'kgon needs --k'),
        (['bounds.py', 'empty', path('one.txt')], 2, 'empty needs --box'),
        (['bounds.py', 'circle', path('one.txt'), '--p', '2'], 2, 'circle takes no --p'),
        (['bounds.py', 'centres', path('one.txt'), '--p', '5'], 2, '5 is no number from 1 to 4'),
        (['bounds.py', 'empty', path('one.txt'), '--box=1,2,3'], 2, 'is not left,bottom,right,top'),
        (['bounds.py', 'empty', path('one.txt'), '--box=3,0,1,4'], 2, 'is no frame'),
        (['bounds.py', 'circle', path('one.txt'), '--program', path('absent')], 2, 'name it by --program'),
        (['bounds.py', 'circle', path('one.txt'), '--answer', path('absent/a')], 1, 'No such file'),
        (['bounds.py'], 2, 'usage'),
        (['read_answer.py'], 2, 'usage'),
        (['read_answer.py', path('one.txt'), path('brief.txt')], 3, 'answer: line 1 is not understood'),
        (['read_answer.py', path('one.txt'), path('nothing.txt')], 3, 'answer: line 1 is not understood'),
        (['read_answer.py', path('one.txt'), path('named.txt')], 1, 'the answer names the point 7, and there are 1'),
        (['read_answer.py', path('three.txt'), path('named.txt')], 3, 'points: line 1 is not a point'),
        (['read_answer.py', folder, path('named.txt')], 4, 'points: cannot be read'),
        (['draw.py'], 2, 'usage'),
        (['draw.py', path('one.txt'), path('named.txt')], 1, 'the answer names the point 7'),
        (['draw.py', path('absent.txt'), path('named.txt')], 4, 'points: cannot be opened'),
        (['draw.py', path('one.txt'), path('named.txt'), '--box=a,b,c,d'], 2, 'is not left,bottom,right,top'),
        (['why_no.py', path('one.txt'), path('named.txt')], 2, 'usage'),
        (['why_no.py', path('one.txt'), path('named.txt'), '--kind', 'kgon'], 2, 'kgon needs --k'),
        (['why_no.py', path('one.txt'), path('named.txt'), '--kind', 'strip', '--k', '4'], 2, 'strip takes no --k'),
        (['why_no.py', path('bad.txt'), path('named.txt'), '--kind', 'circle'], 3, 'points: line 2 is not a point'),
        (['why_no.py', path('one.txt'), path('brief.txt'), '--kind', 'circle'], 3, 'answer: line 1 is not understood'),
        (['to_points.py'], 2, 'usage'),
        (['to_points.py', path('absent.csv')], 4, 'No such file'),
        (['to_points.py', folder], 4, 'directory'),
        (['to_points.py', path('one.txt'), path('one.txt'), path('one.txt')], 2, 'at most two files'),
        (['to_points.py', path('one.txt'), '--scale', '0'], 2, '0 is no scale from 1 to 1000'),
        (['to_points.py', path('one.txt'), '--delimiter', 'ab'], 2, '--delimiter is one sign'),
        (['pictures.py', path('absent'), '--folder', folder], 1, 'name it by --program'),
        (['in_doubles.py', 'more'], 2, 'usage'),
        (['run_tests.py', path('absent')], 2, 'can not be run'),
    ]
    for words, status, line in bad:
        done = ended(*words)
        told = line in done.stderr and 'Traceback' not in done.stderr
        test('bad words and files', ' '.join(words), done.returncode == status and told, (done.returncode, done.stderr))
    done = ended('bounds.py', 'circle', path('one.txt'), BOUNDS='')
    test('bad words and files', 'no program', done.returncode in (0, 2) and 'Traceback' not in done.stderr, done.stderr)


def ended_program(program, *words):
    return refusal(lambda: run(program, list(words))).removeprefix('bounds: ').strip()


def well_formed(svg):
    """How many dots an SVG has; -1 where it is none."""
    try:
        root = xml.etree.ElementTree.fromstring(svg)
    except xml.etree.ElementTree.ParseError:
        return -1
    return sum(element.get('r') == '2.2' for element in root)


def main():
    parser = argparse.ArgumentParser(description='Tests the scripts of this folder with a built program.')
    parser.add_argument('program', nargs='?', help='the program: else the one that the variable BOUNDS names, or bounds on the path')
    parser.add_argument('--sets', type=int, default=24, help='how many small sets of each kind')
    parser.add_argument('--mutants', type=int, default=80, help='how many mutated texts of each of some 30 answers')
    parser.add_argument('--conditions', action='store_true', help='list the conditions that some answer failed first')
    words = parser.parse_args()
    program = words.program or os.environ.get('BOUNDS') or 'bounds'
    program = os.path.abspath(program) if os.path.exists(program) else program
    try:
        run(program, ['demo', '--kind=circle', '--seed=1', '--count=2'])
    except Refused as refused:
        print(f'run_tests.py: {refused.line}', file=sys.stderr)
        sys.exit(2)
    with tempfile.TemporaryDirectory() as folder:
        test_worked(program, folder)
        test_empty_boxes()
        found = test_answers(program, words.sets, folder)
        bases = {key: (next(o for k, o in QUESTIONS if k == key[0] and str(o) == key[1]), *value) for key, value in found.items()}
        verdicts = test_mutants(program, bases, words.mutants, folder)
        test_rows(folder)
        test_to_points(program, folder)
        test_commands(program, folder)
    for group, count in groups.items():
        print(f'{count:6} {group}')
    print('mutated answers: ' + ', '.join(f'{count} {verdict}' for verdict, count in sorted(verdicts.items())))
    print(f'conditions that some answer failed first: {len(conditions)}, of {len({kind for kind, _ in conditions})} kinds')
    if words.conditions:
        print('\n'.join(f'{kind}: {condition}' for kind, condition in sorted(conditions)))
    print(f'{sum(groups.values())} tests, {len(wrong)} wrong')
    sys.exit(1 if wrong else 0)


if __name__ == '__main__':
    main()
