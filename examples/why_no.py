"""Says why `bounds check` says no: the first condition of docs/DEFINITIONS.md that an answer does not meet, with the numbers.

    python3 examples/why_no.py examples/sites.txt answer.txt --kind rectangle

The words are those of `bounds check`. It ends with `yes`, status 0, where every condition holds, and else with `no`, status 1, and a line
that names the condition by its number and its field on the kind's page. A file that `check` refuses is refused with the same line.
Nothing of the program runs: each function below is a page of that document, in whole numbers and fractions.
"""

import argparse
import sys
from fractions import Fraction
from math import gcd

from formats import PLANE_LIMIT, KINDS, Refused, cross, dot, minus, place, read_answer, read_point_file, square_of_way, turned


class Fails(Exception):
    """The first condition that fails: its number and its field, and the numbers."""


def ask(holds, condition, field, numbers):
    """The condition holds, or it is the first that fails. The numbers are a text, or a function that makes one."""
    if not holds:
        raise Fails(f'{condition}, `{field}`: {numbers() if callable(numbers) else numbers}')


def within(limit, *numbers):
    return all(abs(number) <= limit for number in numbers)


def named(points, numbers, field='numbers'):
    """Each number is that of a point."""
    for number in numbers:
        ask(number < len(points), 'before condition 1', field, f'the point {number} is named, and there are {len(points)} points')


def hull(points):
    """The corners of the hull, counterclockwise from the least point."""
    points = sorted(set(points))
    chains = []
    for some in (points, points[::-1]):
        chain = []
        for p in some:
            while len(chain) > 1 and cross(minus(chain[-1], chain[-2]), minus(p, chain[-2])) <= 0:
                chain.pop()
            chain.append(p)
        chains.append(chain[:-1])
    return chains[0] + chains[1] if len(points) > 1 else points


# ---- circle and sphere


def ball(answer, points):
    """Circle and sphere: the supports, seen from the first of them, weigh in the centre of a ball around all points."""
    limit = 2**80 if answer.kind == 'circle' else 2**92
    supports = answer.parts['supports']
    named(points, [number for number, _ in supports])
    first, total = points[supports[0][0]], sum(weight for _, weight in supports)
    seen = [(number, weight, minus(points[number], first)) for number, weight in supports]
    for number, weight, _ in seen:
        ask(weight >= 1, 'condition 1', 'weights', f'the point {number} has the weight {weight}')
    ask(total <= limit, 'condition 1', 'weight_limit', f'the weights add up to {total}')
    pull = tuple(sum(weight * v[i] for _, weight, v in seen) for i in range(len(first)))
    for number, _, v in seen:
        left, right = 2 * dot(v, pull), total * dot(v, v)
        ask(left == right, 'condition 2', 'on_ball', f'of the support {number}, 2 p.C is {left} and W |p|^2 is {right}')
    for number, p in enumerate(points):
        v = minus(p, first)
        left, right = total * dot(v, v), 2 * dot(v, pull)
        ask(left <= right, 'condition 3', 'none_outside', f'the point {number} is outside: W |p|^2 is {left}, above 2 p.C = {right}')
    size = Fraction(sum(weight * dot(v, v) for _, weight, v in seen), 2 * total)
    ask(answer.own_size == size, 'condition 4', 'size', f'it is {answer.own_size}, and the supports give {size}')
    centre = tuple(first[i] + Fraction(pull[i], total) for i in range(len(first)))
    ask(place(answer.parts['center'][0]) == centre, 'condition 5', 'centre', f'the mean of the supports is ({listed(centre)})')


def listed(numbers):
    return ', '.join(map(str, numbers))


# ---- fans


def short(direction, field):
    ask(within(400000, *direction), 'condition 1', field, f'the direction ({listed(direction)}) has a coordinate past 400000')


def short_bounds(bounds, field):
    ask(within(2**40, *bounds), 'condition 1', field, f'a bound of {listed(bounds)} is past 2^40')


def reach(points, direction, high, low):
    return dot(direction, minus(points[high], points[low]))


def holds_fan(points, cones, directions, last, conditions):
    """The fan's numbers are of points, its directions turn left from the east to the last one, and the points of each cone are extreme at
    both its ends. A cone is pairs of a highest and a lowest point, the second of them for the direction turned left by a right angle."""
    for cone in cones:
        for pair in cone:
            for number in pair:
                ask(number < len(points), conditions[0], 'fan, numbers', f'the point {number} is named, and there are {len(points)} points')
    ask(directions[0] == (1, 0), conditions[0], 'fan, directions', f'the first direction is ({listed(directions[0])})')
    ask(directions[-1] == last, conditions[0], 'fan, directions', f'the last direction is ({listed(directions[-1])})')
    for a, b in zip(directions, directions[1:]):
        ask(cross(a, b) > 0, conditions[0], 'fan, directions', f'from ({listed(a)}) to ({listed(b)}) is no left turn')
    corners = hull(points)
    for i, cone in enumerate(cones):
        for d in directions[i : i + 2]:
            for axis, (high, low) in zip((d, turned(d)), cone):
                products = [dot(axis, p) for p in corners]
                for number, most, word in ((high, max(products), 'higher'), (low, min(products), 'lower')):
                    own = dot(axis, points[number])
                    told = f'in the direction ({listed(axis)}) a point at {most} is {word} than the point {number} at {own}'
                    ask(own == most, conditions[1], 'fan, extremes', told)


def comes_first(directions, sizes, size, u, condition):
    """The direction is that at which some cone begins, in lowest terms, and at each one before that the size is greater."""
    begins = next((i for i, d in enumerate(directions[:-1]) if cross(d, u) == 0 and dot(d, u) > 0), None)
    told = f'no cone begins in the direction ({listed(u)}), or it is not in lowest terms'
    ask(begins is not None and gcd(*u) == 1, condition, 'first', told)
    for d, at in zip(directions[:begins], sizes):
        told = f'({listed(d)}) comes before ({listed(u)}), and its size {at} is not above {size}'
        ask(at > size, condition, 'first', told)


def tight(points, u, bounds, field):
    products = [dot(u, p) for p in points]
    told = f'the bounds are {listed(bounds)}, and the products of ({listed(u)}) with the points go from {min(products)} to {max(products)}'
    ask(tuple(bounds) == (min(products), max(products)), 'condition 6', field, told)


def strip(answer, points):
    """A fan in which no strip is thinner, and the first of the thinnest ones."""
    parts, size = answer.parts, answer.own_size
    directions = [tuple(line[:2]) for line in parts['fan']] + [tuple(parts['last'])]
    u, bounds = tuple(parts['direction']), parts['bounds']
    for d in directions:
        short(d, 'short_directions')
    short(u, 'short_direction')
    short_bounds(bounds, 'short_bounds')
    ask(u != (0, 0), 'condition 1', 'normal', 'the direction is 0, 0')
    holds_fan(points, [[line[2:4]] for line in parts['fan']], directions, (-1, 0), ('condition 2', 'condition 3'))
    begins = []
    for i, line in enumerate(parts['fan']):
        sizes = [Fraction(reach(points, d, *line[2:4]) ** 2, dot(d, d)) for d in directions[i : i + 2]]
        begins.append(sizes[0])
        for d, at in zip(directions[i : i + 2], sizes):
            ask(at >= size, 'condition 4', 'not_thinner', f'across ({listed(d)}) the squared width is {at}, below {size}')
    comes_first(directions, begins, size, u, 'condition 5')
    tight(points, u, bounds, 'tight')
    own = Fraction((bounds[1] - bounds[0]) ** 2, dot(u, u))
    ask(size == own, 'condition 6', 'size', f'it is {size}, and that of the strip {own}')


def rectangle(answer, points):
    """A fan in which no rectangle is smaller, and the first of the smallest ones."""
    parts, size = answer.parts, answer.own_size
    directions = [tuple(line[:2]) for line in parts['fan']] + [tuple(parts['last'])]
    u, along, across = tuple(parts['direction']), parts['along'], parts['across']
    for d in directions:
        short(d, 'short_directions')
    short(u, 'short_direction')
    short_bounds(along, 'short_along')
    short_bounds(across, 'short_across')
    ask(u != (0, 0), 'condition 1', 'normal', 'the direction is 0, 0')
    holds_fan(points, [[line[2:4], line[4:6]] for line in parts['fan']], directions, (0, 1), ('condition 2', 'condition 3'))
    begins = []
    for i, line in enumerate(parts['fan']):
        ends = directions[i : i + 2]
        sizes = [Fraction(reach(points, d, *line[2:4]) * reach(points, turned(d), *line[4:6]), dot(d, d)) for d in ends]
        begins.append(sizes[0])
        for d, at in zip(ends, sizes):
            ask(at >= size, 'condition 4', 'not_smaller', f'along ({listed(d)}) the area is {at}, below {size}')
    comes_first(directions, begins, size, u, 'condition 5')
    tight(points, u, along, 'tight_along')
    tight(points, turned(u), across, 'tight_across')
    own = Fraction((along[1] - along[0]) * (across[1] - across[0]), dot(u, u))
    ask(size == own, 'condition 6', 'size', f'it is {size}, and that of the rectangle {own}')


def parallelogram(answer, points):
    """A fan with a chord across each direction, with which no parallelogram is smaller."""
    parts, size = answer.parts, answer.own_size
    fan, last = parts['fan'], parts['last']
    directions = [tuple(line[:2]) for line in fan] + [tuple(last[:2])]
    chords = [line[4:] for line in fan] + [last[2:]]
    (a, b, *first), (c, d, *second) = parts['first'], parts['second']
    named(points, [number for chord in chords for number in chord[:3]], 'chord_numbers')
    for direction in directions:
        short(direction, 'short_directions')
    short((a, b), 'short_first')
    short((c, d), 'short_second')
    short_bounds(first, 'short_first_bounds')
    short_bounds(second, 'short_second_bounds')
    for *_, beta, gamma, k in chords:
        ask(1 <= beta + gamma <= 2**39 and within(2**39, k), 'condition 1', 'short_chords', f'a chord has the weights {beta}, {gamma} and k = {k}')
    holds_fan(points, [[line[2:4]] for line in fan], directions, (-1, 0), ('condition 2', 'condition 2'))
    for direction, (i, j, l, beta, gamma, k) in zip(directions, chords):
        to_b, to_c = minus(points[j], points[i]), minus(points[l], points[i])
        way = tuple(beta * x + gamma * y for x, y in zip(to_b, to_c))
        right = tuple(k * x for x in turned(direction))
        told = f'at ({listed(direction)}) the chord goes ({listed(way)}), and k rot(d) is ({listed(right)})'
        ask(way == right, 'condition 3', 'across', told)
    for i, line in enumerate(fan):
        for direction, (*_, beta, gamma, k) in zip(directions[i : i + 2], chords[i : i + 2]):
            at = Fraction(reach(points, direction, *line[2:4]) * abs(k), beta + gamma)
            ask(at >= size, 'condition 4', 'not_smaller', f'at ({listed(direction)}) the fan gives the area {at}, below {size}')
    area = cross((a, b), (c, d))
    ask(area != 0, 'condition 5', 'normals', f'({a}, {b}) and ({c}, {d}) are parallel')
    for normal, bounds, field in (((a, b), first, 'inside_first'), ((c, d), second, 'inside_second')):
        for number, p in enumerate(points):
            product = dot(normal, p)
            told = f'the point {number} has the product {product} with ({listed(normal)}), and the bounds are {listed(bounds)}'
            ask(bounds[0] <= product <= bounds[1], 'condition 5', field, told)
    own = Fraction((first[1] - first[0]) * (second[1] - second[0]), abs(area))
    ask(size == own, 'condition 5', 'size', f'it is {size}, and that of the parallelogram {own}')


# ---- annulus and shell


def ring_witness(answer, points, w_limit, entry_limit):
    """The limits, and the pairs' balance: conditions 1 and 2 of annulus and shell."""
    *entries, w = answer.parts['center'][0]
    pairs = answer.parts['pairs']
    named(points, [number for pair in pairs for number in pair[:2]])
    ask(w <= w_limit, 'condition 1', 'w_limit', f'w is {w}')
    for axis, entry in zip('xyz', entries):
        ask(within(entry_limit, entry), 'condition 1', f'{axis}_limit', f'{axis} is {entry}')
    for *_, weight in pairs:
        ask(weight >= 1, 'condition 1', 'weights', f'a pair has the weight {weight}')
    total = sum(weight for *_, weight in pairs)
    ask(total <= w_limit, 'condition 1', 'weight_limit', f'the weights add up to {total}')
    for i, axis in enumerate('xyz'[: len(entries)]):
        balance = sum(weight * (points[p][i] - points[q][i]) for p, q, weight in pairs)
        ask(balance == 0, 'condition 2', f'balanced_{axis}', f'the weighted differences add up to {balance}')
    least = Fraction(sum(weight * (dot(points[p], points[p]) - dot(points[q], points[q])) for p, q, weight in pairs), total)
    levels = [w * dot(p, p) - 2 * dot(entries, p) for p in points]
    return entries, w, min(levels), max(levels), least


def annulus(answer, points):
    """Balanced pairs, whose weighted difference is the printed one, and the extreme powers give both radii."""
    entries, w, low, high, least = ring_witness(answer, points, 2**42, 2**58)
    size = answer.own_size
    ask(size == Fraction(high - low, w), 'condition 3', 'size', f'it is {size}, and (M - m)/w is {Fraction(high - low, w)}')
    ask(size == least, 'condition 3', 'least_size', f'the size is {size}, and the pairs give {least}')
    for word, level in (('inner', low), ('outer', high)):
        own, (printed,) = Fraction(w * level + dot(entries, entries), w * w), answer.parts[word]
        ask(printed == own, 'condition 4', word, f'it is {printed}, and by the points {own}')


def shell(answer, points):
    """Balanced pairs, whose weighted difference is the printed one, and the extreme levels."""
    entries, w, low, high, least = ring_witness(answer, points, 2**50, 2**66)
    size, levels = answer.own_size, answer.parts['levels']
    ask(levels[0] == low, 'condition 3', 'low', f'it is {levels[0]}, and the least level of a point is {low}')
    ask(levels[1] == high, 'condition 3', 'high', f'it is {levels[1]}, and the greatest level of a point is {high}')
    ask(size == Fraction(high - low, w), 'condition 3', 'size', f'it is {size}, and (high - low)/w is {Fraction(high - low, w)}')
    ask(size == least, 'condition 3', 'least_size', f'the size is {size}, and the pairs give {least}')


# ---- empty rectangle


def largest_empty(points, frame):
    """A largest box in the frame with no point strictly inside. It can't be widened: its left or its right side goes through a point that
    is strictly between the side's ends, or both are on the frame."""
    left, bottom, right, top = frame
    points = sorted({(x, y) for x, y in points if left < x < right and bottom < y < top})
    heights = sorted({bottom, top} | {y for _, y in points})
    below, above = max(zip(heights, heights[1:]), key=lambda pair: pair[1] - pair[0])
    best = ((right - left) * (above - below), (left, below, right, above))
    for mirror in (1, -1):
        order = sorted((mirror * x, y) for x, y in points)
        wall = right if mirror == 1 else -left
        for i, (x, y) in enumerate(order):
            low, high = bottom, top
            for far, other in order[i + 1 :] + [(wall, None)]:
                if far > x:
                    area = (far - x) * (high - low)
                    if area > best[0]:
                        ends = sorted((mirror * x, mirror * far))
                        best = area, (ends[0], low, ends[1], high)
                    if other == y:
                        break
                    if other is not None and other > y:
                        high = min(high, other)
                    elif other is not None:
                        low = max(low, other)
    return best


def empty(answer, points, frame):
    """A box in the frame whose sides rest on something, and none is larger."""
    parts, size = answer.parts, answer.own_size
    sides = ('left', 'bottom', 'right', 'top')
    left, bottom, right, top = box = parts['rectangle']
    named(points, [parts[side][0] for side in sides if parts[side][0] != 'box'])
    told = f'the box {listed(box)} is not in the frame {listed(frame)}'
    ask(frame[0] <= left, 'condition 1', 'in_left', told)
    ask(left < right, 'condition 1', 'wide', f'it goes from {left} to {right}')
    ask(right <= frame[2], 'condition 1', 'in_right', told)
    ask(frame[1] <= bottom, 'condition 1', 'in_bottom', told)
    ask(bottom < top, 'condition 1', 'high', f'it goes from {bottom} to {top}')
    ask(top <= frame[3], 'condition 1', 'in_top', told)
    for number, (x, y) in enumerate(points):
        ask(not (left < x < right and bottom < y < top), 'condition 1', 'empty', f'the point {number} at ({x}, {y}) is strictly inside')
    area = (right - left) * (top - bottom)
    ask(size == area, 'condition 1', 'size', f'it is {size}, and the area is {area}')
    for i, side in enumerate(sides):
        (rests,) = parts[side]
        if rests == 'box':
            ask(box[i] == frame[i], 'condition 2', f'blocked, {side}', f'the side is at {box[i]}, and that of the frame at {frame[i]}')
        else:
            p, along = points[rests], 1 - i % 2
            told = f'the point {rests} at ({listed(p)}) is not on the side at {box[i]}, strictly between {box[along]} and {box[along + 2]}'
            ask(p[i % 2] == box[i] and box[along] < p[along] < box[along + 2], 'condition 2', f'blocked, {side}', told)
    area, larger = largest_empty(points, frame)
    ask(area <= size, 'condition 3', 'none_larger', f'the box {listed(larger)} is empty, and its area is {area}')


# ---- hulls


def surround(points, corners):
    """Condition 1 of k-gons and of furthest corners. Where the corners are those of the hull, in its order, all of it holds."""
    if corners == hull(points):
        return
    least = min(points)
    told = f'the first corner is ({listed(corners[0])}), and the least point ({listed(least)})'
    ask(corners[0] == least, 'condition 1', 'corners, from_least', told)
    for i, c in enumerate(corners[1:], 1):
        ask(c != corners[0], 'condition 1', 'corners, once', f'the corner {i} is the first again')
    if len(corners) == 1:
        for number, p in enumerate(points):
            ask(p == corners[0], 'condition 1', 'corners, surround', f'there is one corner, and the point {number} is another one')
    if len(corners) == 2:
        told = f'the second corner is ({listed(corners[1])}), and the greatest point ({listed(max(points))})'
        ask(corners[1] == max(points), 'condition 1', 'corners, surround', told)
    for i, a in enumerate(corners if len(corners) > 2 else []):
        b, c = corners[(i + 1) % len(corners)], corners[(i + 2) % len(corners)]
        told = f'at the corner {(i + 1) % len(corners)} is no left turn'
        ask(cross(minus(b, a), minus(c, b)) > 0, 'condition 1', 'corners, surround', told)
    for i, a in enumerate(corners[: 1 if len(corners) == 2 else len(corners)]):
        b = corners[(i + 1) % len(corners)]
        for number, p in enumerate(points):
            side = cross(minus(b, a), minus(p, a))
            told = f'the point {number} is to the right of the edge from corner {i}, or off the line of two corners'
            ask(side == 0 if len(corners) == 2 else side >= 0, 'condition 1', 'corners, surround', told)


def twice_area(corners):
    """Twice the area, by the triangles from the first corner."""
    a = corners[0]
    return sum(cross(minus(b, a), minus(c, b)) for b, c in zip(corners[1:], corners[2:]))


def kgon(answer, points, k):
    """Potentials that no larger polygon leaves room for, and the first of the largest."""
    parts, size = answer.parts, answer.own_size
    named(points, [number for (number,) in parts['corners']])
    corners = [points[number] for (number,) in parts['corners']]
    chosen, layers, count = [i for (i,) in parts['chosen']], parts['layers'], len(parts['corners'])
    surround(points, corners)
    ask(len(chosen) <= min(k, count), 'condition 2', 'chosen', f'{len(chosen)} are chosen of {count} corners, with k = {k}')
    ask(all(a < b for a, b in zip(chosen, chosen[1:])), 'condition 2', 'chosen', f'the positions {listed(chosen)} do not rise')
    ask(chosen[-1] < count, 'condition 2', 'chosen', f'the position {chosen[-1]} is chosen of {count} corners')
    own = Fraction(twice_area([corners[i] for i in chosen]), 2)
    ask(size == own, 'condition 2', 'size', f'it is {size}, and the area of the chosen corners {own}')
    ask(layers == max(0, min(k, count) - 2), 'condition 3', 'layers', f'there are {layers}, for k = {k} and {count} corners')

    def potential(a, layer, b):
        return parts['potentials'][a][layer - 1][b - a - 1] if layer > 0 else 0

    turn = lambda a, b, c: cross(minus(corners[b], corners[a]), minus(corners[c], corners[b]))
    for c in range(count):
        for b in range(c):
            for a in range(b):
                added = turn(a, b, c) if layers else 0
                for layer in range(layers):
                    left, right = potential(a, layer + 1, c), potential(a, layer, b) + added
                    told = f'the potential of {a} and {c} in layer {layer + 1} is {left}, below that of {a} and {b} with the triangle, {right}'
                    ask(left >= right, 'condition 4', 'grows', told)
    everything = [(a, layer, b) for a in range(count - 1) for layer in range(1, layers + 1) for b in range(a + 1, count)]
    for a, layer, b in everything:
        u = potential(a, layer, b)
        ask(u <= 2 * size, 'condition 5', 'under_size', f'the potential of {a} and {b} in layer {layer} is {u}, above {2 * size}')
    for a, layer, b in everything:
        u = potential(a, layer, b)
        told = f'the potential of {a} and {b} in layer {layer} is {u}, not below {2 * size}, and {chosen[0]} is the first that is chosen'
        ask(a >= chosen[0] or u < 2 * size, 'condition 6', 'earlier_below', told)
    ask(count >= 3 or chosen == [0], 'condition 6', 'few', f'of {count} corners the positions {listed(chosen)} are chosen')
    added = {}

    def most_added(more, last):
        """The most that so many later corners add to twice the area."""
        if more == 0:
            return 0
        if (more, last) not in added:
            ways = [turn(chosen[0], last, c) + most_added(more - 1, c) for c in range(last + 1, count)]
            added[more, last] = max(ways + [0])
        return added[more, last]

    for i in range(len(chosen) - 1):
        for other in range(chosen[i] + 1, chosen[i + 1]):
            area = twice_area([corners[j] for j in chosen[: i + 1] + [other]]) + most_added(layers - i, other)
            told = f'with {other} in place of {chosen[i + 1]}, twice the area can be {area}, not below {2 * size}'
            ask(area < 2 * size, 'condition 6', 'none_between', told)


def furthest(answer, points):
    """For each corner of the hull the first of its furthest corners, and the greatest of their distances."""
    entries = answer.parts['corners']
    named(points, [number for number, _ in entries])
    corners = [points[number] for number, _ in entries]
    surround(points, corners)
    sizes = []
    for i, (a, (_, far)) in enumerate(zip(corners, entries)):
        ask(far < len(corners), 'condition 2', 'furthest, in_range', f'the position {far} is named, of {len(corners)} corners')
        ways = [square_of_way(a, c) for c in corners]
        most = max(ways)
        told = f'from the corner {i} the corner {ways.index(most)} is farther: {most}, above {ways[far]}'
        ask(ways[far] == most, 'condition 2', 'furthest', told)
        first = next(j % len(corners) for j in range(i, i + len(corners)) if ways[j % len(corners)] == most)
        ask(far == first, 'condition 2', 'furthest, first', f'from the corner {i} the corner {first} is as far as {far}, and comes first')
        sizes.append(most)
    ask(answer.own_size == max(sizes), 'condition 3', 'size', f'it is {answer.own_size}, and the greatest squared distance {max(sizes)}')


# ---- distance


def distance(answer, firsts, seconds):
    """Pairs whose weighted means are nearest, since no pair of points is nearer along the way between them."""
    pairs, parts = answer.parts['pairs'], answer.parts
    for p, q, _ in pairs:
        named(firsts, [p])
        named(seconds, [q])
    for p, q, weight in pairs:
        ask(weight >= 1, 'condition 1', 'weights', f'the pair {p}, {q} has the weight {weight}')
    total = sum(weight for *_, weight in pairs)
    ask(total <= 2**66, 'condition 1', 'weight_limit', f'the weights add up to {total}')
    sums = [tuple(sum(pair[2] * points[pair[side]][i] for pair in pairs) for i in range(3)) for side, points in ((0, firsts), (1, seconds))]
    pull = minus(*sums)
    products = [dot(pull, minus(firsts[p], seconds[q])) for p, q, _ in pairs]
    for (p, q, _), product in zip(pairs, products):
        ask(product == products[0], 'condition 2', 'same_products', f'the pair {p}, {q} has the product {product}, and the first {products[0]}')
    nearest = min(range(len(firsts)), key=lambda i: dot(pull, firsts[i]))
    other = max(range(len(seconds)), key=lambda i: dot(pull, seconds[i]))
    product = dot(pull, minus(firsts[nearest], seconds[other]))
    told = f'the points {nearest} and {other} have the product {product}, below {products[0]}'
    ask(product >= products[0], 'condition 3', 'no_smaller', told)
    size = Fraction(products[0], total)
    ask(answer.own_size == size, 'condition 4', 'size', f'it is {answer.own_size}, and the pairs give {size}')
    for word, sum_ in zip(('from', 'to'), sums):
        mean = tuple(Fraction(x, total) for x in sum_)
        ask(place(parts[word][0]) == mean, 'condition 4', word, f'the mean of the pairs is ({listed(mean)})')
    factor = gcd(*pull) or 1
    lowest = [x // factor for x in pull]
    ask(parts['direction'] == lowest, 'condition 4', 'direction', f'it is ({listed(parts["direction"])}), and the way is ({listed(lowest)})')


# ---- centres


def holds_leaves(leaves, points, placed, side, rest, first, count):
    """The leaves from a number on: squares in the corners that a leaf's number names, and two points that are left and far apart."""
    for n in range(4**count):
        left, digits = rest, []
        for i in range(count):
            digits.append(n // 4 ** (count - 1 - i) % 4)
        for digit in digits:
            if not left:
                break
            xs, ys = [x for x, _ in left], [y for _, y in left]
            x = min(xs) if digit % 2 == 0 else max(xs) - side
            y = min(ys) if digit // 2 == 0 else max(ys) - side
            left = outside(left, x, y, side)
        number = first + n
        for point in leaves[number]:
            told = f'{placed}in the leaf {number}, of the corners {listed(digits) or "none"}, the point {point} is not left over'
            ask(points[point] in left, 'condition 5', 'leaves', told)
        (a, b), (c, d) = (points[point] for point in leaves[number])
        told = f'{placed}in the leaf {number} the points {listed(leaves[number])} are no more than {side} apart'
        ask(abs(a - c) > side or abs(b - d) > side, 'condition 5', 'leaves', told)


def outside(points, left, bottom, side):
    """The points that a square does not contain."""
    return {(x, y) for x, y in points if not (left <= x <= left + side and bottom <= y <= bottom + side)}


def centres(answer, points, squares):
    """Squares that cover the points, and leaves which show that no smaller ones do."""
    places, leaves, size = [c for (c,) in answer.parts['squares']], answer.parts['leaves'], answer.own_size
    named(points, [number for leaf in leaves for number in leaf])
    ask(size.denominator in (1, 2), 'condition 1', 'halves', f'the size {size} is no whole number of halves')
    ask(size.numerator <= 1000000, 'condition 1', 'size_limit', f'the size is {size}')
    for x, y, w in places:
        ask(w in (1, 2) and within(1000000, x, y), 'condition 1', 'centres', f'a centre is {x} {y} {w}')
    ask(len(places) == squares, 'condition 2', 'covers', f'there are {len(places)} squares, and {squares} are asked for')
    for number, (x, y) in enumerate(points):
        near = any(max(abs(w * x - a), abs(w * y - b)) <= size * w for a, b, w in places)
        ask(near, 'condition 2', 'covers', f'the point {number} at ({x}, {y}) is in no square')
    side, distinct = int(2 * size), set(points)
    if side == 0:
        ask(leaves == [], 'condition 3', 'leaves', f'there are {len(leaves)}, and none for the side 0')
    elif squares < 4:
        ask(len(leaves) == 4 ** (squares - 1), 'condition 3', 'leaves', f'there are {len(leaves)}, and {4 ** (squares - 1)} are to be')
        holds_leaves(leaves, points, '', side - 1, distinct, 0, squares - 1)
    else:
        least = min(points)
        heights = sorted({y for _, y in points if least[1] - (side - 1) <= y <= least[1]})
        told = f'there are {len(leaves)}, and sixteen for each of {len(heights)} heights are to be'
        ask(len(leaves) == 16 * len(heights), 'condition 3', 'leaves', told)
        for i, height in enumerate(heights):
            rest = outside(distinct, least[0], height, side - 1)
            holds_leaves(leaves, points, f'with the first square at the height {height}, ', side - 1, rest, 16 * i, 2)


# ---- all kinds


def judge(answer, file, kind, squares=None, k=None, box=None):
    """Raises `Fails` for the first condition that an answer to this question does not meet."""
    told = f'the answer is of {answer.kind}' + (f' with {answer.squares} squares' if answer.squares else '')
    four = (answer.squares == 4) == (squares == 4)
    ask(answer.kind == kind and four, 'before condition 1', 'claim', told)
    told = f'the answer is at the scale {answer.scale}, and the point file at {file.scale}'
    ask(answer.scale == file.scale, 'before condition 1', 'scale', told)
    extra = {'empty': [box], 'kgon': [k], 'centres': [squares]}.get(kind, [])
    JUDGES[kind](answer, *file.sets, *extra)


JUDGES = {
    'circle': ball,
    'sphere': ball,
    'rectangle': rectangle,
    'parallelogram': parallelogram,
    'strip': strip,
    'annulus': annulus,
    'empty': empty,
    'kgon': kgon,
    'distance': distance,
    'centres': centres,
    'furthest': furthest,
    'shell': shell,
}


def why(points, answer, kind, squares=None, k=None, box=None, form='text'):
    """None where `bounds check` says yes to the answer in a file, and else the condition that fails. Raises `Refused` where it refuses."""
    file = read_point_file(points, kind, form)
    try:
        judge(read_answer(answer), file, kind, squares, k, box)
    except Fails as fails:
        return str(fails)
    return None


def number_in(low, high):
    """A number of the command line, in a range."""

    def read(word):
        number = int(word) if word.isascii() and word.isdigit() else -1
        if not low <= number <= high:
            raise argparse.ArgumentTypeError(f'{word} is no number from {low} to {high}')
        return number

    return read


def frame(word):
    """The frame of an empty rectangle."""
    try:
        left, bottom, right, top = box = tuple(map(int, word.split(',')))
    except ValueError:
        raise argparse.ArgumentTypeError(f'{word} is not left,bottom,right,top') from None
    if not within(PLANE_LIMIT, *box) or left >= right or bottom >= top:
        raise argparse.ArgumentTypeError(f'{word} is no frame: sides are within {PLANE_LIMIT}, left below right and bottom below top')
    return box


def add_question(parser):
    """The options that say what is asked, as those of the program."""
    parser.add_argument('--p', type=number_in(1, 4), help='of centres: how many squares, 1 to 4')
    parser.add_argument('--k', type=number_in(3, 12), help='of kgon: the most corners, 3 to 12')
    parser.add_argument('--box', type=frame, metavar='L,B,R,T', help='of empty: the frame, in units of the file, written --box=L,B,R,T')


def check_question(parser, words):
    """Each kind has its option, and no other."""
    for kind, option in (('centres', 'p'), ('kgon', 'k'), ('empty', 'box')):
        given = getattr(words, option) is not None
        if given != (words.kind == kind):
            parser.error(f'{words.kind} takes no --{option}' if given else f'{words.kind} needs --{option}')


def main():
    parser = argparse.ArgumentParser(description='Says which condition of docs/DEFINITIONS.md an answer does not meet.')
    parser.add_argument('points', help='a point file')
    parser.add_argument('answer', help='an answer file')
    parser.add_argument('--kind', required=True, choices=KINDS)
    parser.add_argument('--form', choices=('text', 'csv'), default='text', help='how the point file is written')
    add_question(parser)
    words = parser.parse_args()
    check_question(parser, words)
    try:
        fails = why(words.points, words.answer, words.kind, words.p, words.k, words.box, words.form)
    except Refused as refused:
        print(f'why_no: {refused.line}', file=sys.stderr)
        sys.exit(refused.status)
    print('yes' if fails is None else f'no: {words.kind}, {fails}')
    sys.exit(0 if fails is None else 1)


if __name__ == '__main__':
    main()
