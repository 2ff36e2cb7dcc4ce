"""Draws points, an answer's object and its witness as an SVG, for all thirteen kinds and both formats of answers.

    python3 examples/draw.py examples/sites.txt answer.txt > answer.svg
    python3 examples/draw.py examples/masts.txt answer.txt --box=0,0,1000,700 > answer.svg

Points are dark, the object is blue, and red are the points that hold the object in place, or that are too far apart for smaller
squares, or furthest apart. Answers in space are seen from the side and a little from above. The frame of an empty rectangle isn't written
in its answer, so `--box` gives it, in units of the file.
"""

import argparse
import math

from formats import cross, dot, place, square_of_way, squared_radii, turned
from read_answer import add_files, read_both
from why_no import frame

WIDTH, HEIGHT, MARGIN = 320, 240, 16
INK, OBJECT, WITNESS, HULL = '#333333', '#1f6feb', '#d1242f', '#8c959f'


def seen(p):
    """Where a point of the plane or of space stands in the picture's plane."""
    if len(p) == 2:
        return float(p[0]), float(p[1])
    x, y, z = map(float, p)
    turn, tilt = math.radians(-28), math.radians(24)
    right, away = x * math.cos(turn) - y * math.sin(turn), x * math.sin(turn) + y * math.cos(turn)
    return right, z * math.cos(tilt) + away * math.sin(tilt)


def hull(points):
    """The corners of the convex hull of points of the picture's plane."""
    points = sorted(set(points))

    def chain(points):
        corners = []
        for x, y in points:
            while len(corners) > 1:
                (a, b), (c, d) = corners[-2:]
                if (c - a) * (y - b) - (d - b) * (x - a) > 0:
                    break
                corners.pop()
            corners.append((x, y))
        return corners[:-1] or corners

    return chain(points) + chain(points[::-1]) if len(points) > 1 else points


class Picture:
    """Shapes in the coordinates of the points, drawn once it is known how far they reach."""

    def __init__(self):
        self.shapes = []
        self.reach = []

    def polygon(self, corners, line, fill='none', dash=''):
        self.reach += corners
        self.shapes.append(('polygon', corners, line, fill, dash))

    def line(self, a, b, color, dash=''):
        self.polygon([a, b], color, dash=dash)

    def circle(self, center, radius, line, fill='none'):
        self.reach += [(center[0] + x * radius, center[1] + y * radius) for x, y in ((1, 0), (-1, 0), (0, 1), (0, -1))]
        self.shapes.append(('circle', center, radius, line, fill))

    def dot(self, p, color, size=2.2):
        self.reach.append(p)
        self.shapes.append(('dot', p, size, color))

    def svg(self):
        xs, ys = [x for x, _ in self.reach], [y for _, y in self.reach]
        extent_x, extent_y = max(xs) - min(xs) or 1, max(ys) - min(ys) or 1
        scale = min((WIDTH - 2 * MARGIN) / extent_x, (HEIGHT - 2 * MARGIN) / extent_y)
        left, top = (WIDTH - scale * extent_x) / 2, (HEIGHT - scale * extent_y) / 2

        def at(p):
            return left + scale * (p[0] - min(xs)), top + scale * (max(ys) - p[1])

        lines = [f'<svg xmlns="http://www.w3.org/2000/svg" width="{WIDTH}" height="{HEIGHT}" viewBox="0 0 {WIDTH} {HEIGHT}">']
        lines.append(f'<rect width="{WIDTH}" height="{HEIGHT}" fill="white"/>')
        for what, *shape in self.shapes:
            if what == 'dot':
                p, size, color = shape
                lines.append('<circle cx="%.1f" cy="%.1f" r="%.1f" fill="%s"/>' % (*at(p), size, color))
            elif what == 'circle':
                center, radius, line, fill = shape
                form = '<circle cx="%.1f" cy="%.1f" r="%.1f" stroke="%s" fill="%s" fill-opacity="%s"/>'
                lines.append(form % (*at(center), scale * radius, line, fill, 1 if fill == 'white' else 0.1))
            else:
                corners, line, fill, dash = shape
                places = ' '.join('%.1f,%.1f' % at(p) for p in corners)
                dashes = ' stroke-dasharray="3 3"' if dash else ''
                form = 'polygon' if len(corners) > 2 else 'polyline'
                lines.append(f'<{form} points="{places}" stroke="{line}" fill="{fill}" fill-opacity="0.1"{dashes}/>')
        return '\n'.join(lines + ['</svg>', ''])


def corner(u, a, v, b):
    """The point whose product with u is a, and with v is b."""
    determinant = cross(u, v)
    return (a * v[1] - b * u[1]) / determinant, (b * u[0] - a * v[0]) / determinant


def between(picture, u, u_bounds, v, v_bounds, points, line=OBJECT):
    """The parallelogram between bounds for two normals, with the points that touch it. It gives the corners."""
    order = [(0, 0), (1, 0), (1, 1), (0, 1)]
    corners = [corner(u, u_bounds[i], v, v_bounds[j]) for i, j in order]
    picture.polygon(corners, line, OBJECT)
    for p in points:
        if any(dot(p, n) in bounds for n, bounds in ((u, u_bounds), (v, v_bounds))):
            picture.dot(p, WITNESS, 3.5)
    return corners


def draw_ball(picture, answer, sets):
    center, radius = seen(place(answer.parts['center'][0])), math.sqrt(answer.own_size)
    picture.circle(center, radius, OBJECT, OBJECT)
    picture.dot(center, OBJECT)
    for support, _ in answer.parts['supports']:
        p = seen(sets[0][support])
        picture.line(center, p, WITNESS, dash='dashed')
        picture.dot(p, WITNESS, 3.5)


def draw_strip(picture, answer, sets):
    u, bounds = answer.parts['direction'], answer.parts['bounds']
    along = turned(u)
    products = [dot(p, along) for p in sets[0]]
    length = max(products) - min(products) or 1
    ends = [min(products) - length / 12, max(products) + length / 12]
    low_start, high_start, high_end, low_end = between(picture, u, bounds, along, ends, sets[0], 'none')
    picture.line(low_start, low_end, OBJECT)
    picture.line(high_start, high_end, OBJECT)


def draw_rectangle(picture, answer, sets):
    u = answer.parts['direction']
    between(picture, u, answer.parts['along'], turned(u), answer.parts['across'], sets[0])


def draw_parallelogram(picture, answer, sets):
    first, second = answer.parts['first'], answer.parts['second']
    between(picture, first[:2], first[2:], second[:2], second[2:], sets[0])


def draw_ring(picture, answer, sets):
    """An annulus, or a shell seen from the side, with the outer sphere's equator."""
    parts = answer.parts
    middle = place(parts['center'][0])
    center = seen(middle)
    inner, outer = squared_radii(parts) if answer.kind == 'shell' else (parts['inner'][0], parts['outer'][0])
    picture.circle(center, math.sqrt(outer), OBJECT, OBJECT)
    picture.circle(center, math.sqrt(inner), OBJECT, 'white')
    if answer.kind == 'shell':
        radius, turns = math.sqrt(outer), [math.tau * i / 72 for i in range(72)]
        equator = [(middle[0] + radius * math.cos(turn), middle[1] + radius * math.sin(turn), middle[2]) for turn in turns]
        picture.polygon([seen(p) for p in equator], HULL, dash='dashed')
    picture.dot(center, OBJECT)
    for outer_point, inner_point, _ in parts['pairs']:
        a, b = seen(sets[0][outer_point]), seen(sets[0][inner_point])
        picture.line(a, b, WITNESS, dash='dashed')
        picture.dot(a, WITNESS, 3.5)
        picture.dot(b, WITNESS, 3.5)


def draw_empty(picture, answer, sets):
    left, bottom, right, top = answer.parts['rectangle']
    picture.polygon([(left, bottom), (right, bottom), (right, top), (left, top)], OBJECT, OBJECT)
    for side in ('left', 'bottom', 'right', 'top'):
        (rests,) = answer.parts[side]
        if rests != 'box':
            picture.dot(sets[0][rests], WITNESS, 3.5)


def draw_kgon(picture, answer, sets):
    corners = [sets[0][number] for (number,) in answer.parts['corners']]
    picture.polygon(corners, HULL, dash='dashed')
    chosen = [corners[position] for (position,) in answer.parts['chosen']]
    picture.polygon(chosen, OBJECT, OBJECT)
    for p in chosen:
        picture.dot(p, WITNESS, 3.5)


def draw_furthest(picture, answer, sets):
    """The hull, and a line from each corner to the one furthest from it; the longest of these are red."""
    corners = [sets[0][number] for number, _ in answer.parts['corners']]
    picture.polygon(corners, HULL, dash='dashed')
    lines = [(corner, corners[far]) for corner, (_, far) in zip(corners, answer.parts['corners'])]
    for a, b in lines:
        picture.line(a, b, OBJECT)
    for a, b in lines:
        if square_of_way(a, b) == answer.own_size:
            picture.line(a, b, WITNESS)
            picture.dot(a, WITNESS, 3.5)
            picture.dot(b, WITNESS, 3.5)


def draw_distance(picture, answer, sets):
    parts = answer.parts
    for points in sets:
        picture.polygon(hull([seen(p) for p in points]), HULL, HULL)
    start, end = seen(place(parts['from'][0])), seen(place(parts['to'][0]))
    for side in (0, 1):
        named = [seen(sets[side][pair[side]]) for pair in parts['pairs']]
        picture.polygon(hull(named), WITNESS, dash='dashed')
        for p in named:
            picture.dot(p, WITNESS, 3.5)
    picture.line(start, end, OBJECT)
    picture.dot(start, OBJECT, 3)
    picture.dot(end, OBJECT, 3)


def draw_centres(picture, answer, sets):
    """The squares, and the two points of each leaf once."""
    radius = float(answer.own_size)
    for (centre,) in answer.parts['squares']:
        x, y = seen(place(centre))
        picture.polygon([(x + i * radius, y + j * radius) for i, j in ((-1, -1), (1, -1), (1, 1), (-1, 1))], OBJECT, OBJECT)
    for leaf in dict.fromkeys(map(tuple, answer.parts['leaves'])):
        a, b = (sets[0][number] for number in leaf)
        picture.line(a, b, WITNESS, dash='dashed')
        picture.dot(a, WITNESS, 3.5)
        picture.dot(b, WITNESS, 3.5)


DRAWN = {
    'circle': draw_ball,
    'sphere': draw_ball,
    'strip': draw_strip,
    'rectangle': draw_rectangle,
    'parallelogram': draw_parallelogram,
    'annulus': draw_ring,
    'empty': draw_empty,
    'kgon': draw_kgon,
    'distance': draw_distance,
    'centres': draw_centres,
    'furthest': draw_furthest,
    'shell': draw_ring,
}


def main():
    parser = argparse.ArgumentParser(description='Draws an answer as an SVG.')
    add_files(parser)
    parser.add_argument('--box', type=frame, metavar='L,B,R,T', help='the frame of an empty rectangle, in units of the file, written --box=L,B,R,T')
    words = parser.parse_args()
    answer, file = read_both(words)
    picture = Picture()
    if words.box:
        left, bottom, right, top = words.box
        picture.polygon([(left, bottom), (right, bottom), (right, top), (left, top)], HULL, dash='dashed')
    DRAWN[answer.kind](picture, answer, file.sets)
    for points in file.sets:
        for p in points:
            picture.dot(seen(p), INK)
    print(picture.svg(), end='')


if __name__ == '__main__':
    main()
