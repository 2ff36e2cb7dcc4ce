"""Turns decimal coordinates into a point file: with the smallest scale that keeps each decimal, and an origin near by where one is needed.

    python3 examples/to_points.py survey.csv > points.txt
    python3 examples/to_points.py part.geojson other.geojson --space -o points.txt

It reads CSV (with or without names of columns), GeoJSON and WKT. Decimals are read as fractions, never as floating-point numbers, and
nothing is rounded unless --round asks for it. A comment of the file has the origin, which is to be added to get the old coordinates back,
and each point's name is the comment behind it; `bounds.py` reads both. What was done is told on standard error.
"""

import argparse
import csv
import io
import json
import re
import sys
from fractions import Fraction
from math import lcm

from formats import MOST_POINTS, PLANE_LIMIT, SCALE_LIMIT, SPACE_LIMIT, Refused

# Names of columns that are taken where none are given, in small letters: those of x, of y, of z, and of the points' names.
COLUMNS = (
    ('x', 'east', 'easting', 'e', 'lon', 'longitude'),
    ('y', 'north', 'northing', 'n', 'lat', 'latitude'),
    ('z', 'height', 'elevation', 'h', 'alt', 'altitude'),
)
NAMES = ('name', 'id', 'point', 'mark', 'station', 'nr', 'no', 'number', 'label')

# What may stand in a file: digits with or without a point and an exponent.
DECIMAL = re.compile('[+-]?([0-9]+[.]?[0-9]*|[.][0-9]+)([eE][+-]?[0-9]{1,3})?', re.ASCII)


def decimal(word, where, comma=False):
    """The fraction of a decimal."""
    word = word.strip()
    if comma:
        word = word.replace(',', '.')
    if len(word) > 100 or not DECIMAL.fullmatch(word):
        hint = ': decimals with a comma are read with --comma' if re.fullmatch('[+-]?[0-9]+,[0-9]+', word, re.ASCII) else ''
        raise Refused(f'{where}: "{word[:40]}" is no number{hint}', 2)
    return Fraction(word)


# ---- what a file says: a list of points, each a list of fractions with a name and the place that a complaint names


def csv_points(text, words, width):
    """The points of a CSV file. The first row has the names of columns where one of its coordinates is no number."""
    delimiter = words.delimiter
    if delimiter is None:
        first = text.split('\n', 1)[0]
        delimiter = max(';\t,', key=first.count)
    rows = [(reader_line, row) for reader_line, row in numbered(csv.reader(io.StringIO(text), delimiter=delimiter)) if any(map(str.strip, row))]
    if not rows:
        return []
    header = [cell.strip() for cell in rows[0][1]]
    columns = [column.strip() for column in words.columns.split(',')] if words.columns else None
    if columns is not None and len(columns) != width:
        raise Refused(f'--columns names {len(columns)} columns, and {width} are called for' + ('' if width == 3 else ' (three with --space)'), 2)
    if columns is None:
        columns = columns_by_name(header, width) or [str(i + 1) for i in range(width)]
    places = [place_of(column, header) for column in columns]
    name = place_of(words.name, header) if words.name else next((i for i, cell in enumerate(header) if cell.lower() in NAMES), None)
    titled = any(place >= len(header) or not is_number(header[place], words.comma) for place in places)
    if not titled and not words.name:
        name = None
    points = []
    for number, row in rows[1 if titled else 0 :]:
        where = f'line {number}'
        if len(row) <= max(places):
            raise Refused(f'{where}: there is no column {max(places) + 1}', 2)
        told = [f'{where}, column {header[place] if titled and place < len(header) else place + 1}' for place in places]
        point = [decimal(row[place], at, words.comma) for place, at in zip(places, told)]
        points.append((point, row[name] if name is not None and name < len(row) else '', where))
    return points


def numbered(reader):
    """The rows of a file, with the number of the line that each begins on."""
    begins = 1
    try:
        for row in reader:
            yield begins, row
            begins = reader.line_num + 1
    except csv.Error as error:
        raise Refused(f'line {begins}: {error}', 2) from None


def columns_by_name(header, width):
    """The columns with known names, one for each coordinate, or None."""
    found = [next((cell for cell in header if cell.lower() in names), None) for names in COLUMNS[:width]]
    return None if None in found else found


def place_of(column, header):
    """Where a column stands that is given by its name, or by its number from 1."""
    if column in header:
        return header.index(column)
    folded = [cell.lower() for cell in header]
    if column.lower() in folded:
        return folded.index(column.lower())
    if column.isascii() and column.isdigit() and 1 <= int(column) <= 10000:
        return int(column) - 1
    raise Refused(f'there is no column "{column}": the first line has {", ".join(header)}', 2)


def is_number(word, comma):
    try:
        decimal(word, '', comma)
    except Refused:
        return False
    return True


class Written(str):
    """A number as it is written."""


def geojson_points(text, words, width):
    """The positions of all geometries. The last position of a ring, which is the first again, is left out."""
    try:
        data = json.loads(text, parse_float=Written, parse_int=Written, parse_constant=Written)
    except (ValueError, RecursionError) as error:
        raise Refused(f'it is no JSON: {error}', 2) from None
    points = []

    def add(position, name, where):
        if not isinstance(position, list) or not all(isinstance(x, Written) for x in position):
            raise Refused(f'{where}: a position is no list of numbers', 2)
        if len(position) < width:
            raise Refused(f'{where}: a position has {len(position)} coordinates, and {width} are called for', 2)
        points.append(([decimal(x, where) for x in position[:width]], name, where))

    def walk(geometry, name, where):
        if geometry is None:
            return
        if not isinstance(geometry, dict) or not isinstance(geometry.get('type'), str):
            raise Refused(f'{where}: it is no geometry', 2)
        kind, inner = geometry['type'], geometry.get('coordinates')
        depth = {'Point': 0, 'MultiPoint': 1, 'LineString': 1, 'MultiLineString': 2, 'Polygon': 2, 'MultiPolygon': 3}.get(kind)
        if kind == 'FeatureCollection':
            for number, feature in enumerate(listed(geometry.get('features'), where), 1):
                walk(feature, '', f'feature {number}')
        elif kind == 'Feature':
            properties = geometry.get('properties')
            properties = properties if isinstance(properties, dict) else {}
            wanted = [words.name] if words.name else NAMES
            found = next((value for key, value in properties.items() if key.lower() in wanted or key in wanted), geometry.get('id', ''))
            walk(geometry.get('geometry'), found if isinstance(found, str) else '', where)
        elif kind == 'GeometryCollection':
            for part in listed(geometry.get('geometries'), where):
                walk(part, name, where)
        elif depth is None:
            raise Refused(f'{where}: {kind[:40]} is no kind of geometry', 2)
        else:
            positions = [inner]
            for level in range(depth):
                rings = kind.endswith('Polygon') and level == depth - 1
                positions = [p for part in positions for p in (opened(listed(part, where)) if rings else listed(part, where))]
            for position in positions:
                add(position, name, where)

    walk(data, '', 'the file')
    return points


def listed(value, where):
    if not isinstance(value, list):
        raise Refused(f'{where}: a list is missing', 2)
    return value


def opened(ring):
    """A ring without the last position, where that is the first again."""
    return ring[:-1] if len(ring) > 1 and ring[0] == ring[-1] else ring


def wkt_points(text, words, width):
    """The positions of all shapes, each line or the whole text being one or more of them."""
    points, word, measured, at = [], None, False, 0
    for token in re.finditer(r'\(([^()]*)\)|[A-Za-z]+|SRID=[0-9]+;|[(),;]|\s+|.', text):
        inner, said = token.group(1), token.group(0)
        where = f'line {text.count(chr(10), 0, token.start()) + 1}'
        if inner is not None:
            if word is None:
                raise Refused(f'{where}: no name of a shape stands before a bracket', 2)
            if measured and width == 3:
                raise Refused(f'{where}: a measure (M) is no height', 2)
            ring = []
            for position in inner.split(','):
                numbers = position.split()
                if len(numbers) < width:
                    raise Refused(f'{where}: "{position.strip()[:40]}" has {len(numbers)} numbers, and {width} are called for', 2)
                ring.append(([decimal(number, where) for number in numbers[:width]], '', where))
            same = len(ring) > 1 and ring[0][0] == ring[-1][0]
            points += ring[:-1] if same and word.endswith(('POLYGON', 'TRIANGLE')) else ring
        elif said.isalpha():
            known = said.upper()
            if known in ('Z', 'M', 'ZM', 'EMPTY'):
                measured = known == 'M'
            elif re.fullmatch('(MULTI)?(POINT|LINESTRING|POLYGON)(Z|M|ZM)?|GEOMETRYCOLLECTION|LINEARRING|TRIANGLE|SRID', known):
                measured = known.endswith('M')
                word = known.removesuffix('M').removesuffix('Z')
            else:
                raise Refused(f'{where}: "{said[:40]}" is no shape that is read', 2)
        elif not said.isspace() and said not in '(),;=' and not said.isdigit() and not said.startswith('SRID'):
            raise Refused(f'{where}: "{said}" is not understood', 2)
    return points


READERS = {'csv': csv_points, 'geojson': geojson_points, 'wkt': wkt_points}


def form_of(path, text):
    """The form of a file, by the end of its name or by how it begins."""
    end = path.lower().rpartition('.')[2]
    if end in ('json', 'geojson'):
        return 'geojson'
    if end in READERS:
        return end
    begins = text.lstrip()
    if begins.startswith('{'):
        return 'geojson'
    return 'wkt' if re.match('(SRID=[0-9]+;)?(MULTI|POINT|LINESTRING|POLYGON|GEOMETRYCOLLECTION)', begins, re.IGNORECASE) else 'csv'


def read(path, words, width):
    """The points of a file, and its form."""
    try:
        with open(path, encoding='utf-8-sig', newline='') as file:
            text = file.read()
    except OSError as error:
        raise Refused(f'{path}: {error.strerror}', 4) from None
    except (UnicodeDecodeError, ValueError):
        raise Refused(f'{path}: it is no text in UTF-8', 2) from None
    try:
        points = READERS[words.form or form_of(path, text)](text, words, width)
    except Refused as refused:
        raise Refused(f'{path}: {refused.line}', refused.status) from None
    if not points:
        raise Refused(f'{path}: there are no points', 2)
    if len(points) > MOST_POINTS:
        raise Refused(f'{path}: there are {len(points)} points, and a set takes at most {MOST_POINTS}: leave out points inside the others', 2)
    return points


# ---- the scale and the origin


def text_of(x):
    """A fraction whose decimals end, in decimals."""
    places = 0
    while (x * 10**places).denominator != 1:
        places += 1
    number = int(x * 10**places)
    digits = str(abs(number)).rjust(places + 1, '0')
    return ('-' if number < 0 else '') + digits[: len(digits) - places] + ('.' + digits[len(digits) - places :] if places else '')


def scale_for(points, origin):
    """The least scale that makes every coordinate whole, and the point that calls for the most."""
    scale, worst = 1, None
    for point, _, where in points:
        for x, start in zip(point, origin):
            if scale % (x - start).denominator:
                scale = lcm(scale, (x - start).denominator)
                if scale > SCALE_LIMIT:
                    return scale, (x, where)
    return scale, worst


def is_near(points, origin, scale, limit):
    return all(abs(round((x - start) * scale)) <= limit for point, _, _ in points for x, start in zip(point, origin))


def near_origin(points, scale, limit):
    """The origin 0 if it does, else the roundest one near the middle of the points: of whole numbers if one does. None where the points
    reach too far."""
    width = len(points[0][0])
    zero = (Fraction(0),) * width
    if is_near(points, zero, scale, limit):
        return zero
    axes = [[point[i] for point, _, _ in points] for i in range(width)]
    middle = [(min(axis) + max(axis)) / 2 for axis in axes]
    if any((max(axis) - min(axis)) * scale > 2 * limit for axis in axes):
        return None
    steps = [Fraction(10) ** n for n in range(len(str(int(max(map(abs, middle))))), -1, -1)] + [Fraction(1, scale)]
    for step in steps:
        origin = tuple(round(x / step) * step for x in middle)
        if is_near(points, origin, scale, limit):
            return origin
    return None


def fitting(points, limit):
    """The greatest power of ten up to the greatest scale with which the points are in bounds, or None."""
    return next((scale for scale in (1000, 100, 10, 1) if near_origin(points, scale, limit) is not None), None)


def plan(points, words, limit):
    """The scale and the origin. Nothing is rounded unless it was asked for."""
    width = len(points[0][0])
    given = None
    if words.origin:
        given = tuple(decimal(word, '--origin') for word in words.origin.split(','))
        if len(given) != width:
            raise Refused(f'--origin has {len(given)} numbers, and the points have {width}', 2)
    scale, worst = scale_for(points, given or (Fraction(0),) * width)
    if words.round:
        best = fitting(points, limit)
        exact = scale <= SCALE_LIMIT and (given is not None or near_origin(points, scale, limit) is not None)
        scale = words.scale or (scale if exact else best)
        if scale is None:
            raise Refused(f'{reached(points, limit)}, too far for whole units: divide the coordinates by 10 or more first', 2)
    elif worst is not None:
        x, where = worst
        raise Refused(
            f'{where}: {told(x)} needs a scale of {scale} to stay exact, and at most {SCALE_LIMIT} is taken: '
            'round it with --round, or with --round --scale 100 to hundredths',
            2,
        )
    elif words.scale:
        if words.scale % scale:
            raise Refused(f'the scale {words.scale} does not keep each decimal, and {scale} does: leave out --scale, or round with --round', 2)
        scale = words.scale
    origin = given or near_origin(points, scale, limit)
    if origin is None:
        best = fitting(points, limit)
        advice = f'round with --round --scale {best}' if best else 'divide the coordinates by 10 or more first'
        raise Refused(f'{reached(points, limit)}, and at the scale {scale} at most {told(Fraction(2 * limit, scale))} fit: {advice}', 2)
    if not is_near(points, origin, scale, limit):
        point, _, where = next(p for p in points if not is_near([p], origin, scale, limit))
        raise Refused(
            f'{where}: ({", ".join(map(told, point))}) is further than {told(Fraction(limit, scale))} from the origin: '
            'leave out --origin, or give one near the points',
            2,
        )
    return scale, origin


def told(x):
    """A fraction in decimals, or as it is."""
    return text_of(x) if 10**60 % x.denominator == 0 else str(x)


def reached(points, limit):
    """How far points reach, in words."""
    axes = list(zip(*(point for point, _, _ in points)))
    far = max(range(len(axes)), key=lambda i: max(axes[i]) - min(axes[i]))
    return f'the points reach from {told(min(axes[far]))} to {told(max(axes[far]))} in {"xyz"[far]}'


def comment(name):
    """A name as a comment of one line."""
    name = ' '.join(''.join(c if c.isprintable() else ' ' for c in name).split())
    return f' # {name}' if name else ''


def frame_in_units(text, scale, origin, limit):
    """A frame in the old coordinates, in units of the file."""
    sides = [decimal(word, '--box') for word in text.split(',')]
    if len(sides) != 4 or sides[0] >= sides[2] or sides[1] >= sides[3]:
        raise Refused('--box is left,bottom,right,top, with left below right and bottom below top', 2)
    units = [(side - origin[i % 2]) * scale for i, side in enumerate(sides)]
    for side, unit in zip(sides, units):
        if unit.denominator != 1:
            raise Refused(f'--box: {told(side)} is no whole number of units at the scale {scale}', 2)
        if abs(unit) > limit:
            raise Refused(f'--box: {told(side)} is further than {told(Fraction(limit, scale))} from the origin', 2)
    return [int(unit) for unit in units]


def convert(words):
    """The text of the point file, and what is told of it."""
    width, limit = (3, SPACE_LIMIT) if words.space else (2, PLANE_LIMIT)
    if words.box and words.space:
        raise Refused('--box is of the plane', 2)
    sets = [read(path, words, width) for path in words.files]
    everything = [point for points in sets for point in points]
    box = []
    if words.box:
        # The corners of the frame are to be in bounds as points are, and to be whole at the scale.
        sides = [decimal(word, '--box') for word in words.box.split(',')]
        box = [(sides[:2], '', '--box'), (sides[2:], '', '--box')] if len(sides) == 4 else []
    scale, origin = plan(everything + box, words, limit)
    lines = ['# made by to_points.py: the origin is to be added to coordinates in whole units']
    lines.append('# origin ' + ' '.join(told(x) for x in origin))
    if words.box:
        lines.append('# box ' + ' '.join(map(str, frame_in_units(words.box, scale, origin, limit))))
    lines += [f'scale {scale}'] if scale > 1 else []
    moved, most = 0, Fraction(0)
    for number, points in enumerate(sets):
        lines += ['---'] if number else []
        for point, name, _ in points:
            exact = [(x - start) * scale for x, start in zip(point, origin)]
            units = [round(x) for x in exact]
            moved += sum(x != unit for x, unit in zip(exact, units))
            most = max([most] + [abs(x - unit) / scale for x, unit in zip(exact, units)])
            lines.append(' '.join(map(str, units)) + comment(name))
    counts = ' and '.join(str(len(points)) for points in sets)
    notes = [f'{counts} points, scale {scale}, origin ' + ' '.join(told(x) for x in origin)]
    notes.append(f'{moved} coordinates are rounded, by at most {told(most)}' if moved else 'every coordinate is exact')
    return '\n'.join(lines) + '\n', notes


def scale_word(word):
    if not (word.isascii() and word.isdigit() and 1 <= int(word) <= SCALE_LIMIT):
        raise argparse.ArgumentTypeError(f'{word} is no scale from 1 to {SCALE_LIMIT}')
    return int(word)


def main():
    parser = argparse.ArgumentParser(description='Turns decimal coordinates (CSV, GeoJSON, WKT) into a point file.')
    parser.add_argument('files', nargs='+', metavar='FILE', help='one file; or two, whose points are the two sets of distance')
    parser.add_argument('--space', action='store_true', help='three coordinates, for sphere, shell and distance')
    parser.add_argument('--form', choices=READERS, help='how the files are written; else by the name or the beginning')
    parser.add_argument('--columns', metavar='X,Y', help='of CSV: the columns of the coordinates, by name or by number from 1')
    parser.add_argument('--name', metavar='COLUMN', help="of CSV and GeoJSON: the column, or the property, of the points' names")
    parser.add_argument('--delimiter', metavar='SIGN', help='of CSV: what parts the columns; else the commonest of , ; and tab')
    parser.add_argument('--comma', action='store_true', help='of CSV: decimals are written with a comma')
    parser.add_argument('--round', action='store_true', help='round what is not whole at the scale, to the nearest')
    parser.add_argument('--scale', type=scale_word, metavar='S', help='so many units make a whole one; else the least that keeps each decimal')
    parser.add_argument('--origin', metavar='X,Y', help='the origin, in the old coordinates, written --origin=X,Y')
    parser.add_argument('--box', metavar='L,B,R,T', help='the frame for empty, in the old coordinates, written --box=L,B,R,T')
    parser.add_argument('-o', '--output', metavar='FILE', help='where the point file goes, instead of standard output')
    words = parser.parse_args()
    if len(words.files) > 2:
        parser.error('at most two files are taken')
    if words.delimiter is not None and len(words.delimiter) != 1:
        parser.error('--delimiter is one sign')
    try:
        text, notes = convert(words)
        if words.output:
            with open(words.output, 'w', encoding='utf-8', newline='') as file:
                file.write(text)
        else:
            sys.stdout.write(text)
            sys.stdout.flush()
    except Refused as refused:
        print(f'to_points.py: {refused.line}', file=sys.stderr)
        sys.exit(refused.status)
    except OSError as error:
        sys.exit(f'to_points.py: {error.filename or "output"}: {error.strerror}')
    for note in notes:
        print(f'to_points.py: {note}', file=sys.stderr)


if __name__ == '__main__':
    main()
