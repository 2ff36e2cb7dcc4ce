"""Large sets of points of known shapes, the same at each run: those that docs/PERFORMANCE.md names.

Each function gives a list of points: pairs for the plane, triples for space. `PLANE`, `SPACE` and `PAIRS` name them; the last gives
two lists of points of space.
"""

import math
import random
from functools import cmp_to_key

# The greatest coordinates of the plane and of space.
PLANE_LIMIT, SPACE_LIMIT = 200000, 8000


def generator(name, count):
    return random.Random(f'{name} {count}')


def uniform(count, dimension=2, limit=PLANE_LIMIT):
    rng = generator('uniform', count)
    return [tuple(rng.randint(-limit, limit) for _ in range(dimension)) for _ in range(count)]


def polygon(count):
    """A convex polygon with so many corners, an even number, and no three on a line. Its edges are the shortest vectors without a
    common factor, each with its opposite, in the order of their directions."""
    reach = 2 + math.isqrt(count)
    half = [(x, y) for x in range(-reach, reach) for y in range(reach) if math.gcd(x, y) == 1 and (y > 0 or x > 0)]
    half.sort(key=lambda v: (v[0] * v[0] + v[1] * v[1], v))
    half = half[: count // 2]
    # All of these are in the upper half plane, so the cross product alone orders them.
    half.sort(key=cmp_to_key(lambda a, b: b[0] * a[1] - b[1] * a[0]))
    corners, x, y = [], 0, 0
    for dx, dy in half + [(-dx, -dy) for dx, dy in half]:
        corners.append((x, y))
        x, y = x + dx, y + dy
    middle_x = (min(x for x, _ in corners) + max(x for x, _ in corners)) // 2
    middle_y = (min(y for _, y in corners) + max(y for _, y in corners)) // 2
    corners = [(x - middle_x, y - middle_y) for x, y in corners]
    generator('polygon', count).shuffle(corners)
    return corners


def polygon_of_100(count):
    """A convex polygon of 100 corners, and points inside it."""
    corners = [(400 * x, 400 * y) for x, y in polygon(100)]
    inside = [(x // 16, y // 16) for x, y in uniform(count - len(corners))]
    return corners + inside


def rounded_circle(count):
    """The whole points nearest to points of a circle."""
    rng = generator('rounded', count)
    angles = [rng.uniform(0, 2 * math.pi) for _ in range(count)]
    return [(round(199999 * math.cos(a)), round(199999 * math.sin(a))) for a in angles]


def cocircular(count):
    """Points of the circle of radius 6 times 5 times 13 times 17 times 29. It has 324 whole points, so large sets have repeats."""
    rng, radius = generator('cocircular', count), 5 * 13 * 17 * 29
    round_points = []
    for x in range(-radius, radius + 1):
        y = math.isqrt(radius * radius - x * x)
        if y * y == radius * radius - x * x:
            round_points += [(6 * x, 6 * y), (6 * x, -6 * y)]
    return [rng.choice(round_points) for _ in range(count)]


def line(count):
    rng = generator('line', count)
    return [(39 * t + 7, 17 * t - 3) for t in rng.sample(range(-5000, 5000), count)]


def equal(count):
    return [(1234, -567)] * count


def rising_stairs(count):
    """Points each of which is to the right of the one before it and above it."""
    rng = generator('stairs', count)
    span = range(-PLANE_LIMIT, PLANE_LIMIT + 1)
    return list(zip(sorted(rng.sample(span, count)), sorted(rng.sample(span, count))))


def falling_stairs(count):
    return [(x, -y) for x, y in rising_stairs(count)]


def clusters(count, dimension=2, limit=PLANE_LIMIT):
    """Points around five places."""
    rng = generator('clusters', count)
    spread = limit // 100
    places = [[rng.randint(-limit // 2, limit // 2) for _ in range(dimension)] for _ in range(5)]
    return [tuple(round(rng.gauss(x, spread)) for x in rng.choice(places)) for _ in range(count)]


def grid(count):
    """Points of a square grid, row by row."""
    side = math.isqrt(count - 1) + 1
    step = 2 * (PLANE_LIMIT - 1) // side
    return [(step * (i % side) - PLANE_LIMIT, step * (i // side) - PLANE_LIMIT) for i in range(count)]


def disc(count):
    """Points drawn from a disc."""
    rng, points = generator('disc', count), []
    while len(points) < count:
        x, y = rng.randint(-PLANE_LIMIT, PLANE_LIMIT), rng.randint(-PLANE_LIMIT, PLANE_LIMIT)
        if x * x + y * y <= PLANE_LIMIT * PLANE_LIMIT:
            points.append((x, y))
    return points


def boxes(count, places, reach):
    """Points of so many small boxes."""
    rng = generator(f'boxes {places}', count)
    most = PLANE_LIMIT - reach
    middles = [(rng.randint(-most, most), rng.randint(-most, most)) for _ in range(places)]
    return [(x + rng.randint(-reach, reach), y + rng.randint(-reach, reach)) for x, y in (middles[i % places] for i in range(count))]


def two_columns(count):
    rng = generator('columns', count)
    return [(rng.choice([-150000, 150000]), rng.randint(-PLANE_LIMIT, PLANE_LIMIT)) for _ in range(count)]


def cross(count):
    """Points of the two axes."""
    rng = generator('cross', count)
    ends = [rng.randint(-PLANE_LIMIT, PLANE_LIMIT) for _ in range(count)]
    return [(end, 0) if i % 2 else (0, end) for i, end in enumerate(ends)]


def frame(count):
    """Points of the sides of a square."""
    rng = generator('frame', count)
    ends = [(rng.randint(-PLANE_LIMIT, PLANE_LIMIT), rng.choice([-PLANE_LIMIT, PLANE_LIMIT])) for _ in range(count)]
    return [(along, side) if i % 2 else (side, along) for i, (along, side) in enumerate(ends)]


def space_uniform(count):
    return uniform(count, 3, SPACE_LIMIT)


def rounded_sphere(count, radius=7999, centre=(0, 0, 0), name='sphere'):
    """The whole points nearest to points of a sphere."""
    rng = generator(name, count)
    points = []
    for _ in range(count):
        way = [rng.gauss(0, 1) for _ in range(3)]
        length = math.sqrt(sum(x * x for x in way))
        points.append(tuple(c + round(radius * x / length) for c, x in zip(centre, way)))
    return points


def cospherical(count):
    """Points of the sphere of radius 25 times 315; large sets have repeats."""
    rng, radius = generator('cospherical', count), 315
    round_points = []
    for x in range(-radius, radius + 1):
        for y in range(-radius, radius + 1):
            rest = radius * radius - x * x - y * y
            if rest >= 0 and math.isqrt(rest) ** 2 == rest:
                round_points += [(25 * x, 25 * y, 25 * math.isqrt(rest)), (25 * x, 25 * y, -25 * math.isqrt(rest))]
    return [rng.choice(round_points) for _ in range(count)]


def space_line(count):
    rng = generator('line', count)
    return [(t, -t, 1) for t in rng.choices(range(-8000, 8001), k=count)]


def space_clusters(count):
    return clusters(count, 3, SPACE_LIMIT)


def space_equal(count):
    return [(123, -45, 6)] * count


def apart(count):
    """Random points on both sides of a plane."""
    rng = generator('apart', count)

    def side(low, high):
        return [(rng.randint(low, high), rng.randint(-8000, 8000), rng.randint(-8000, 8000)) for _ in range(count)]

    return side(-8000, -1), side(1, 8000)


def overlapping(count):
    rng = generator('overlapping', count)

    def points():
        return [tuple(rng.randint(-8000, 8000) for _ in range(3)) for _ in range(count)]

    return points(), points()


def two_spheres(count):
    return rounded_sphere(count, 3900, (-4000, 500, 0), 'left'), rounded_sphere(count, 3900, (4000, -500, 0), 'right')


def near_spheres(count):
    """Two rounded spheres that touch or nearly do."""
    return rounded_sphere(count, 4000, (-4000, 0, 0), 'left'), rounded_sphere(count, 4000, (4000, 0, 0), 'right')


PLANE = {
    'random': uniform,
    'a convex polygon': polygon,
    'rounded from a circle': rounded_circle,
    'on a circle, repeated': cocircular,
    'on a line': line,
    'equal': equal,
    'a rising staircase': rising_stairs,
    'a falling staircase': falling_stairs,
    'five clusters': clusters,
    'a grid': grid,
}

# Where four squares are asked for.
SQUARES = {
    'random': uniform,
    'random in a disc': disc,
    'rounded from a circle': rounded_circle,
    'on a circle, repeated': cocircular,
    'a convex polygon': polygon,
    '100 boxes': lambda count: boxes(count, 100, 3000),
    '20 boxes': lambda count: boxes(count, 20, 8000),
    '4 boxes': lambda count: boxes(count, 4, 20000),
    'five clusters': clusters,
    'a falling staircase': falling_stairs,
    'a cross': cross,
    'two columns': two_columns,
    'a frame': frame,
}

# The hull may have 128 corners at most where a k-gon is asked for.
FEW_CORNERS = {
    'random': uniform,
    'a polygon of 100 corners, and points inside': polygon_of_100,
    'on a line': line,
    'equal': equal,
    'five clusters': clusters,
    'a grid': grid,
}

SPACE = {
    'random': space_uniform,
    'rounded from a sphere': rounded_sphere,
    'on a sphere, repeated': cospherical,
    'on a line': space_line,
    'equal': space_equal,
    'five clusters': space_clusters,
}

PAIRS = {
    'random, apart': apart,
    'random, overlapping': overlapping,
    'rounded from two spheres': two_spheres,
    'rounded from two spheres that touch': near_spheres,
}


def text(*sets):
    """The text of a point file."""
    return '---\n'.join(''.join(' '.join(map(str, p)) + '\n' for p in points) for points in sets)
