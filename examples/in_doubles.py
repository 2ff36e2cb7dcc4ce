"""What three textbook algorithms give in floating-point numbers of 64 bits, beside what is true of their own results.

    python3 examples/in_doubles.py

Each of the three point files beside this script is small, and each result is judged in fractions of whole numbers. The algorithms are
written here as textbooks have them; no library is run.
"""

import argparse
import math
import os
from fractions import Fraction

from formats import read_points, square_of_way


def extents(points, ux, uy):
    """How far points reach along a vector and across it."""
    along = [ux * x + uy * y for x, y in points]
    across = [ux * y - uy * x for x, y in points]
    return max(along) - min(along), max(across) - min(across)


def smallest_rectangle(points):
    """The least area of a rectangle along the way between two points, by unit vectors, and that way."""
    best = math.inf, None
    for a in points:
        for b in points:
            if a != b:
                length = math.hypot(b[0] - a[0], b[1] - a[1])
                u = b[0] - a[0], b[1] - a[1]
                along, across = extents(points, u[0] / length, u[1] / length)
                best = min(best, (along * across, u))
    return best


def rectangle_of(points, u):
    """The area of the rectangle along a vector, exactly."""
    along, across = extents(points, *u)
    return Fraction(along * across, u[0] ** 2 + u[1] ** 2)


def circle_of_two(p, q):
    x, y = (p[0] + q[0]) / 2, (p[1] + q[1]) / 2
    return x, y, max(math.hypot(x - p[0], y - p[1]), math.hypot(x - q[0], y - q[1]))


def circle_of_three(p, q, r):
    (ax, ay), (bx, by), (cx, cy) = p, q, r
    a, b, c = ax * ax + ay * ay, bx * bx + by * by, cx * cx + cy * cy
    d = 2 * (ax * (by - cy) + bx * (cy - ay) + cx * (ay - by))
    x = (a * (by - cy) + b * (cy - ay) + c * (ay - by)) / d
    y = (a * (cx - bx) + b * (ax - cx) + c * (bx - ax)) / d
    return x, y, math.hypot(x - ax, y - ay)


def holds(circle, p):
    return math.hypot(p[0] - circle[0], p[1] - circle[1]) <= circle[2]


def smallest_circle(points):
    """The smallest circle, point by point: a point outside is on the border of the next circle (Welzl's way, in three loops)."""
    points = [(float(x), float(y)) for x, y in points]
    circle = (*points[0], 0.0)
    for i, p in enumerate(points):
        if not holds(circle, p):
            circle = (*p, 0.0)
            for j, q in enumerate(points[:i]):
                if not holds(circle, q):
                    circle = circle_of_two(p, q)
                    for r in points[:j]:
                        if not holds(circle, r):
                            circle = circle_of_three(p, q, r)
    return circle


def annulus_of_four(outer, other_outer, inner, other_inner):
    """The radii of the annulus with two points on each circle: the centre is where two bisectors meet (Cramer's rule), and each radius
    is the way from the centre to a point."""

    def bisector(p, q):
        return 2.0 * (q[0] - p[0]), 2.0 * (q[1] - p[1]), float(q[0] ** 2 + q[1] ** 2 - p[0] ** 2 - p[1] ** 2)

    a, b, c = bisector(outer, other_outer)
    d, e, f = bisector(inner, other_inner)
    x, y = (c * e - f * b) / (a * e - d * b), (a * f - d * c) / (a * e - d * b)
    return math.hypot(outer[0] - x, outer[1] - y), math.hypot(inner[0] - x, inner[1] - y)


def example(name):
    return read_points(os.path.join(os.path.dirname(os.path.abspath(__file__)), name))[0]


def main():
    argparse.ArgumentParser(description='Runs three textbook algorithms in doubles on files beside this script.').parse_args()
    points = example('needle.txt')
    area, u = smallest_rectangle(points)
    print(f'needle.txt: the rectangle along {u} has the area {area!r} in doubles, and {rectangle_of(points, u)} in fractions')

    points = example('ring_of_six.txt')
    x, y, radius = smallest_circle(points)
    outside = [p for p in points if square_of_way(p, (Fraction(x), Fraction(y))) > Fraction(radius) ** 2]
    print(f'ring_of_six.txt: the circle around ({x!r}, {y!r}) of radius {radius!r} leaves {len(outside)} of {len(points)} points outside')

    points = example('six_wells.txt')
    circle = smallest_circle(points)
    outside = [p for p in points if square_of_way(p, tuple(map(Fraction, circle[:2]))) > Fraction(circle[2]) ** 2]
    own = [p for p in points if not holds(circle, p)]
    print(f'six_wells.txt: the circle {circle} leaves {len(outside)} of {len(points)} points outside, {len(own)} by its own test')

    points = example('four_marks.txt')
    outer, inner = annulus_of_four(points[0], points[2], points[1], points[3])
    print(f'four_marks.txt: the outer radius is {outer!r} and the inner {inner!r}, so the width is {outer - inner!r}')


if __name__ == '__main__':
    main()
