"""The best size of each kind on a small set of points, by trying everything.

These functions follow the definitions of docs/DEFINITIONS.md and nothing of the program: they try every object of a finite
list that holds a best one, in whole numbers and fractions, and keep the best that fits. They are slow and short on purpose.
Points of the plane are pairs, points of space are triples, of Python's whole numbers. Each function gives the printed size as a
`Fraction`, and those named `first_..` or `only_..` the first of the best objects, or the only one.
"""

from fractions import Fraction
from itertools import combinations, product
from math import gcd, lcm


def minus(a, b):
    return tuple(x - y for x, y in zip(a, b))


def dot(a, b):
    return sum(x * y for x, y in zip(a, b))


def cross(a, b):
    return a[0] * b[1] - a[1] * b[0]


def turned(a):
    """A vector of the plane turned left by a right angle."""
    return (-a[1], a[0])


def extent(direction, points):
    """The greatest product of a point with the direction less the least one."""
    products = [dot(direction, p) for p in points]
    return max(products) - min(products)


def edges(points):
    """The vectors between two different points. Those along the edges of the hull are among them."""
    return {minus(b, a) for a in points for b in points if a != b}


def lowest(d):
    """The vector without the common factor of its entries."""
    factor = gcd(*d)
    return (d[0] // factor, d[1] // factor)


def bounds(direction, points):
    """The least and the greatest product of a point with the direction."""
    products = [dot(direction, p) for p in points]
    return min(products), max(products)


def first_in_turn(directions):
    """The first of some directions from the east on, within half a turn."""
    first = directions[0]
    for d in directions:
        if cross(d, first) > 0:
            first = d
    return first


def first_strip(points):
    """The normal and the bounds of the first of the thinnest strips: of the normals from the east on, before the west, across the
    vectors between points. Equal points have a strip with each normal, and the east comes first."""
    normals = {lowest(n) for n in map(turned, edges(points)) if n[1] > 0 or n[1] == 0 and n[0] > 0} or {(1, 0)}
    least = strip(points)
    best = [n for n in normals if Fraction(extent(n, points) ** 2, dot(n, n)) == least]
    normal = first_in_turn(best)
    return normal, bounds(normal, points)


def first_rectangle(points):
    """The direction and both bounds of the first of the smallest rectangles: of the directions from the east on, before the north,
    along the vectors between points or across them."""
    directions = {lowest(d) for e in edges(points) for d in (e, turned(e)) if d[0] > 0 and d[1] >= 0} or {(1, 0)}
    least = rectangle(points)
    best = [d for d in directions if Fraction(extent(d, points) * extent(turned(d), points), dot(d, d)) == least]
    direction = first_in_turn(best)
    return direction, bounds(direction, points), bounds(turned(direction), points)


def strip(points):
    """The least squared width. In the normals between those of two neighbouring edges of the hull the width is the product of one
    vector with the unit normal, so it is least at an end: a thinnest strip lies along an edge."""
    return min((Fraction(extent(n, points) ** 2, dot(n, n)) for n in map(turned, edges(points))), default=Fraction(0))


def rectangle(points):
    """The least area. Between two neighbouring directions at which a side meets an edge of the hull, the area is the product of two
    sines of one angle, each with its own shift, and has no minimum inside: a smallest rectangle lies along an edge."""
    areas = (Fraction(extent(d, points) * extent(turned(d), points), dot(d, d)) for d in edges(points))
    return min(areas, default=Fraction(0))


def parallelogram(points):
    """The least area. Hold one normal v. For the other, u, between the normals of two neighbouring edges, the extent and the cross
    product with v are both linear in u, so the area has no minimum inside, and it grows without bound towards v. So a best u stands
    on an edge, and then so does a best v. Points on one line have a parallelogram without area."""
    normals = [turned(e) for e in edges(points)]
    areas = (
        Fraction(extent(u, points) * extent(v, points), abs(cross(u, v)))
        for u, v in combinations(normals, 2)
        if cross(u, v) != 0
    )
    return min(areas, default=Fraction(0))


def annulus(points):
    """The least difference of the squared radii. For the centre c a point has the height |p|² - 2 c.p, and the difference is the
    greatest height less the least. It is a linear program in the centre and the two heights. Where the points are not on one line a
    vertex of it is best, and there two pairs of points have equal heights: the centre is where the bisectors of two pairs meet. On
    one line it is the middle of a pair, and where all points are equal any place."""
    pairs = list(combinations(sorted(set(points)), 2))
    # The bisector of p and q: the places c with c.(q - p) = (|q|² - |p|²) / 2.
    bisectors = [(minus(q, p), Fraction(dot(q, q) - dot(p, p), 2)) for p, q in pairs]
    centres = []
    for (u, h), (v, k) in combinations(bisectors, 2):
        if cross(u, v) != 0:
            centres.append(((h * v[1] - k * u[1]) / cross(u, v), (k * u[0] - h * v[0]) / cross(u, v)))
    if not centres:
        centres = [(Fraction(p[0] + q[0], 2), Fraction(p[1] + q[1], 2)) for p, q in pairs]

    def difference(c):
        heights = [dot(p, p) - 2 * dot(c, p) for p in points]
        return Fraction(max(heights) - min(heights))

    return min(map(difference, centres), default=Fraction(0))


def empty(points, frame):
    """The greatest area of a rectangle in the frame with no point strictly inside. A greatest one can't be widened, so each of its
    sides lies on the frame or goes through a point."""
    left, bottom, right, top = frame
    xs = sorted({left, right} | {x for x, y in points if left < x < right})
    ys = sorted({bottom, top} | {y for x, y in points if bottom < y < top})
    best = 0
    for (l, r), (b, t) in product(combinations(xs, 2), combinations(ys, 2)):
        if not any(l < x < r and b < y < t for x, y in points):
            best = max(best, (r - l) * (t - b))
    return Fraction(best)


def hull_corners(points):
    """The corners of the convex hull, counterclockwise from the least point: a point is a corner where it is an end of a line that
    has all points on one side, and of the points on that line it is the last. Points on one line have two corners, equal points
    one."""
    points = sorted(set(points))
    if len(points) == 1:
        return points
    following = {}
    for a, b in product(points, points):
        if a == b:
            continue
        sides = [(cross(minus(b, a), minus(p, a)), dot(minus(b, a), minus(p, a))) for p in points]
        length = dot(minus(b, a), minus(b, a))
        if all(side > 0 or side == 0 and 0 <= along <= length for side, along in sides):
            following[a] = b
    corners = [points[0]]
    while following[corners[-1]] != corners[0]:
        corners.append(following[corners[-1]])
    return corners


def twice_area(corners):
    """Twice the area of a polygon."""
    return sum(cross(corners[i - 1], corners[i]) for i in range(len(corners)))


def kgon(points, k):
    """The greatest area of a polygon whose corners are at most k corners of the hull: each choice of corners is tried."""
    corners = hull_corners(points)
    best = 0
    for count in range(1, min(k, len(corners)) + 1):
        best = max(best, max(twice_area(chosen) for chosen in combinations(corners, count)))
    return Fraction(best, 2)


def first_kgon(points, k):
    """The positions of the first of the largest polygons on at most k corners of the hull, in the order of lists."""
    corners = hull_corners(points)
    lists = [chosen for count in range(1, min(k, len(corners)) + 1) for chosen in combinations(range(len(corners)), count)]
    greatest = kgon(points, k)
    return min(chosen for chosen in lists if Fraction(twice_area([corners[i] for i in chosen]), 2) == greatest)


def centres(points, p):
    """Half the least side of p squares that cover the points. A square covers some points exactly where neither their extent in x nor
    that in y is above its side; so each way to share out the points to p squares is tried."""
    best = None
    for shares in product(range(p), repeat=len(points)):
        side = 0
        for square in range(p):
            share = [q for q, owner in zip(points, shares) if owner == square]
            if share:
                side = max(side, extent((1, 0), share), extent((0, 1), share))
        if best is None or side < best:
            best = side
    return Fraction(best, 2)


def four_centres(points):
    """Half the least side of four squares that cover the points. Where squares of a side cover them, each can be moved right and up
    until its left side and its lower side meet points that it covers. So the squares with such a corner are tried, for each side that
    is a difference of two coordinates; of those that cover the same points one is enough."""
    points = sorted(set(points))
    everything = 2 ** len(points) - 1
    sides = {0} | {abs(p[axis] - q[axis]) for p, q in combinations(points, 2) for axis in (0, 1)}
    for side in sorted(sides):
        covered = set()
        for left, bottom in product({x for x, _ in points}, {y for _, y in points}):
            inside = [left <= x <= left + side and bottom <= y <= bottom + side for x, y in points]
            covered.add(sum(2 ** i for i, is_inside in enumerate(inside) if is_inside))
        greatest = [c for c in covered if not any(c != d and c & d == c for d in covered)]
        for chosen in combinations(greatest, min(4, len(greatest))):
            union = 0
            for one in chosen:
                union |= one
            if union == everything:
                return Fraction(side, 2)
    return None


def furthest_distance(points):
    """The greatest squared distance of two points."""
    return Fraction(max(dot(minus(p, q), minus(p, q)) for p, q in product(points, points)))


def furthest_corners(points):
    """The corners of the hull, and for each of them the position of the corner that is furthest from it, of several the first going
    around from it: all are compared."""
    corners = hull_corners(points)
    count = len(corners)
    positions = []
    for i, corner in enumerate(corners):
        others = [(i + step) % count for step in range(1, count)] or [0]
        squares = [dot(minus(corners[j], corner), minus(corners[j], corner)) for j in others]
        positions.append(others[squares.index(max(squares))])
    return corners, positions


def solved(rows, right):
    """The solution of a square system of equations by elimination, or None where it has not exactly one."""
    matrix = [[Fraction(x) for x in row] + [Fraction(b)] for row, b in zip(rows, right)]
    size = len(matrix)
    for column in range(size):
        pivot = next((r for r in range(column, size) if matrix[r][column] != 0), None)
        if pivot is None:
            return None
        matrix[column], matrix[pivot] = matrix[pivot], matrix[column]
        matrix[column] = [x / matrix[column][column] for x in matrix[column]]
        for r in range(size):
            if r != column:
                factor = matrix[r][column]
                matrix[r] = [x - factor * y for x, y in zip(matrix[r], matrix[column])]
    return [row[-1] for row in matrix]


def ball(points):
    """The least squared radius of a circle or a sphere around the points. A smallest one is the smallest through some of the points,
    at most one more than there are dimensions, with its centre in their affine hull: each such ball is tried, and the smallest with no
    point outside kept."""
    distinct = sorted(set(points))
    dimension = len(distinct[0])
    best = None
    for count in range(1, dimension + 2):
        for chosen in combinations(distinct, count):
            vectors = [minus(p, chosen[0]) for p in chosen[1:]]
            # The centre is chosen[0] plus the sum of f_j v_j, as far from each chosen point: 2 v_i.(sum f_j v_j) = v_i.v_i.
            factors = solved([[2 * dot(v, w) for w in vectors] for v in vectors], [dot(v, v) for v in vectors])
            if factors is None:
                continue
            centre = tuple(chosen[0][i] + sum(f * v[i] for f, v in zip(factors, vectors)) for i in range(dimension))
            radius = dot(minus(chosen[0], centre), minus(chosen[0], centre))
            if best is not None and radius >= best:
                continue
            if all(dot(minus(p, centre), minus(p, centre)) <= radius for p in distinct):
                best = Fraction(radius)
    return best


def shortest_way(first, second):
    """The shortest vector from the convex hull of the second set to that of the first. The nearest points of two hulls that are apart lie in a corner, an edge or a
    triangle of each, and two hulls that meet do so with a corner in a tetrahedron, an edge in a triangle, or parts of these. So for
    one to four points of each set, five in all, the nearest points of their affine hulls are found, and count where they lie between
    the points."""
    first, second = sorted(set(first)), sorted(set(second))
    best = None
    for count_first, count_second in product(range(1, 5), repeat=2):
        if count_first + count_second > 5:
            continue
        for ps, qs in product(combinations(first, count_first), combinations(second, count_second)):
            start = minus(ps[0], qs[0])
            vectors = [minus(p, ps[0]) for p in ps[1:]] + [minus(qs[0], q) for q in qs[1:]]
            factors = solved([[dot(v, w) for w in vectors] for v in vectors], [-dot(v, start) for v in vectors])
            if factors is None:
                continue
            own, other = factors[: count_first - 1], factors[count_first - 1 :]
            if min(factors, default=0) < 0 or sum(own) > 1 or sum(other) > 1:
                continue
            way = tuple(start[i] + sum(f * v[i] for f, v in zip(factors, vectors)) for i in range(3))
            if best is None or dot(way, way) < dot(best, best):
                best = way
    return best


def distance(first, second):
    """The least squared distance of the convex hulls."""
    way = shortest_way(first, second)
    return Fraction(dot(way, way))


def open_axes(points):
    """The axes of space that are left where each coordinate is struck that those before it determine at all points: where an axis adds
    nothing to the rank of the vectors between points, seen along the axes before it."""
    vectors = [minus(p, points[0]) for p in points]
    kept = []
    for axis in range(3):
        if rank([[v[k] for k in kept + [axis]] for v in vectors]) > len(kept):
            kept.append(axis)
    return kept


def rank(rows):
    """How many of the rows are independent, by elimination."""
    rows, count = [[Fraction(x) for x in row] for row in rows], 0
    for column in range(len(rows[0])):
        pivot = next((r for r in range(count, len(rows)) if rows[r][column] != 0), None)
        if pivot is None:
            continue
        rows[count], rows[pivot] = rows[pivot], rows[count]
        for r in range(count + 1, len(rows)):
            factor = rows[r][column] / rows[count][column]
            rows[r] = [x - factor * y for x, y in zip(rows[r], rows[count])]
        count += 1
    return count


def shells(points):
    """The least difference of the squared radii of two spheres of one centre, and the centres that have it. For the centre c a point
    has the height |p|² - 2 c.p, and the difference is the greatest height less the least. It is a linear program in the centre and the
    two heights, so one of its vertices is best, and there three pairs of points have equal heights: the centre is where the planes
    between three pairs of points meet. Where all points lie in one plane, on one line or in one place, the difference does not depend on
    the coordinates that others determine: these are 0, and there are fewer pairs."""
    points = sorted(set(points))
    axes = open_axes(points)
    pairs = [(minus(q, p), dot(q, q) - dot(p, p)) for p, q in combinations(points, 2)]
    best, centres = None, []
    for chosen in combinations(pairs, len(axes)):
        # The heights of p and q are equal at c where 2 c.(q - p) = |q|² - |p|².
        found = solved([[2 * vector[axis] for axis in axes] for vector, _ in chosen], [square for _, square in chosen])
        if found is None:
            continue
        centre = tuple(found[axes.index(axis)] if axis in axes else Fraction(0) for axis in range(3))
        heights = [dot(p, p) - 2 * dot(centre, p) for p in points]
        difference = max(heights) - min(heights)
        if best is None or difference < best:
            best, centres = Fraction(difference), []
        if difference == best and centre not in centres:
            centres.append(centre)
    return best, centres


def shell(points):
    """The least difference of the squared radii of two spheres of one centre around the points."""
    return shells(points)[0]


def only_shell(points):
    """The centre of the best shell over its least denominator, and the least and the greatest level of a point for it; None where
    several centres are best. Coordinates that others determine are 0."""
    centres = shells(points)[1]
    if len(centres) > 1:
        return None
    height = lcm(*(x.denominator for x in centres[0]))
    centre = tuple(int(x * height) for x in centres[0])
    levels = [height * dot(p, p) - 2 * dot(centre, p) for p in points]
    return (*centre, height), (min(levels), max(levels))
