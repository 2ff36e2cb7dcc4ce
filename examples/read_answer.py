"""Reads an answer, and recomputes its size from its object and the points, with fractions of whole numbers.

    python3 examples/read_answer.py examples/sites.txt answer.txt

It says whether the object fits the points and has the printed size, for all thirteen kinds and both formats. That nothing is better is what
the witness shows, which `bounds check` and `why_no.py` test and this does not.
"""

import argparse
import sys
from fractions import Fraction

from formats import Refused, cross, dot, minus, place, read_answer, read_point_file, square_of_way, squared_radii, turned


def spans(normal, low, high, points):
    """The width between the bounds, and whether all products of the normal with a point are between them."""
    return high - low, all(low <= dot(normal, p) <= high for p in points)


def surrounded(corners, points):
    """Whether all points are to the left of each edge of a polygon, or on it."""
    edges = list(zip(corners, corners[1:] + corners[:1]))
    return all(cross(minus(b, a), minus(p, a)) >= 0 for a, b in edges for p in points)


def recomputed(answer, sets):
    """The size of the object that an answer names, in units of the file, and whether the object fits the points."""
    kind, parts, size, points = answer.kind, answer.parts, answer.own_size, sets[0]
    if kind in ('circle', 'sphere'):
        center, (support, _) = place(parts['center'][0]), parts['supports'][0]
        return square_of_way(points[support], center), all(square_of_way(p, center) <= size for p in points)
    if kind == 'strip':
        u = parts['direction']
        width, fits = spans(u, *parts['bounds'], points)
        return Fraction(width**2, dot(u, u) or 1), fits and any(u)
    if kind == 'rectangle':
        u = parts['direction']
        along, fits_along = spans(u, *parts['along'], points)
        across, fits_across = spans(turned(u), *parts['across'], points)
        return Fraction(along * across, dot(u, u) or 1), fits_along and fits_across and any(u)
    if kind == 'parallelogram':
        (a, b, *first), (c, d, *second) = parts['first'], parts['second']
        one, fits_one = spans((a, b), *first, points)
        other, fits_other = spans((c, d), *second, points)
        return Fraction(one * other, abs(a * d - b * c) or 1), fits_one and fits_other and a * d != b * c
    if kind in ('annulus', 'shell'):
        center = place(parts['center'][0])
        inner, outer = squared_radii(parts) if kind == 'shell' else (parts['inner'][0], parts['outer'][0])
        return outer - inner, all(inner <= square_of_way(p, center) <= outer for p in points)
    if kind == 'empty':
        left, bottom, right, top = parts['rectangle']
        inside = any(left < x < right and bottom < y < top for x, y in points)
        return Fraction((right - left) * (top - bottom)), not inside
    if kind == 'kgon':
        corners = [points[number] for (number,) in parts['corners']]
        chosen = [corners[position] for (position,) in parts['chosen']]
        area = Fraction(sum(cross(a, b) for a, b in zip(chosen, chosen[1:] + chosen[:1])), 2)
        return area, surrounded(corners, points)
    if kind == 'furthest':
        corners = [points[number] for number, _ in parts['corners']]
        ways = [square_of_way(corner, corners[far]) for corner, (_, far) in zip(corners, parts['corners'])]
        furthest = all(square_of_way(corner, p) <= way for corner, way in zip(corners, ways) for p in points)
        return Fraction(max(ways)), furthest and surrounded(corners, points)
    if kind == 'distance':
        pairs, ends = parts['pairs'], []
        total = sum(weight for *_, weight in pairs) or 1
        for side in (0, 1):
            ends.append(tuple(Fraction(sum(sets[side][pair[side]][i] * pair[2] for pair in pairs), total) for i in range(3)))
        return square_of_way(*ends), ends == [place(parts['from'][0]), place(parts['to'][0])]
    squares = [place(centre) for (centre,) in parts['squares']]
    reaches = [min(max(abs(x - a), abs(y - b)) for a, b in squares) for x, y in points]
    # Squares of one size are as large as the reach of the furthest point calls for.
    return Fraction(max(reaches)), max(reaches) <= size


def read_both(words):
    """The answer and the point file that two words name; or a line that says why not, and an end with its status."""
    try:
        answer = read_answer(words.answer)
        file = read_point_file(words.points, answer.kind, words.form)
        if answer.scale != file.scale:
            raise Refused(f'the answer is at the scale {answer.scale}, and the point file at {file.scale}', 1)
        named = largest_numbers(answer)
        for points, number in zip(file.sets, named):
            if number >= len(points):
                raise Refused(f'the answer names the point {number}, and there are {len(points)}', 1)
        return answer, file
    except Refused as refused:
        print(f'{sys.argv[0].rpartition("/")[2]}: {refused.line}', file=sys.stderr)
        sys.exit(refused.status)


def largest_numbers(answer):
    """The largest number of a point that an answer names, of each set; it is -1 where none is named. A position that is none of a corner
    counts as a number that no point has."""
    kind, parts = answer.kind, answer.parts
    if kind in ('circle', 'sphere'):
        return [max(number for number, _ in parts['supports'])]
    if kind in ('strip', 'rectangle', 'parallelogram'):
        columns = {'strip': (2, 4), 'rectangle': (2, 6), 'parallelogram': (2, 7)}[kind]
        numbers = [number for line in parts['fan'] for number in line[slice(*columns)]]
        return [max(numbers + (parts['last'][2:5] if kind == 'parallelogram' else []))]
    if kind == 'distance':
        return [max(pair[side] for pair in parts['pairs']) for side in (0, 1)]
    if kind in ('annulus', 'shell'):
        return [max(max(pair[:2]) for pair in parts['pairs'])]
    if kind == 'empty':
        return [max([parts[side][0] for side in ('left', 'bottom', 'right', 'top') if parts[side][0] != 'box'], default=-1)]
    if kind == 'centres':
        return [max([number for leaf in parts['leaves'] for number in leaf], default=-1)]
    positions = [position for (position,) in parts['chosen']] if kind == 'kgon' else [far for _, far in parts['corners']]
    return [max(line[0] for line in parts['corners']) if max(positions) < len(parts['corners']) else 10000]


def add_files(parser):
    parser.add_argument('points', help='a point file')
    parser.add_argument('answer', help='an answer file: what `bounds KIND POINTS` printed, without --brief')
    parser.add_argument('--form', choices=('text', 'csv'), default='text', help='how the point file is written')


def main():
    parser = argparse.ArgumentParser(description="Recomputes the size of an answer's object, and says whether it fits the points.")
    add_files(parser)
    words = parser.parse_args()
    answer, file = read_both(words)
    size, fits = recomputed(answer, file.sets)
    size /= answer.scale ** (1 if answer.kind == 'centres' else 2)
    print(f'{answer.kind}: printed {answer.size}, recomputed {size}, {"fits" if fits else "does not fit"}')
    sys.exit(0 if fits and size == answer.size else 1)


if __name__ == '__main__':
    main()
