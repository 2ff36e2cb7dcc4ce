"""Reads point files and answers, as docs/FORMATS.md says, and refuses what the program refuses, in its own words.

    from formats import read_point_file, read_answer
    file = read_point_file('points.txt')          # file.sets, file.scale
    answer = read_answer('answer.txt')            # answer.kind, answer.size, answer.parts

Points are tuples of whole numbers in units of the file. Of an answer the size is a `Fraction` in whole units, and `own_size` the same
in units of the file; all other numbers are in units of the file.
"""

import re
from collections import namedtuple
from fractions import Fraction
from math import gcd

PLANE_LIMIT, SPACE_LIMIT, SCALE_LIMIT = 200000, 8000, 1000
MOST_POINTS, MOST_POINT_BYTES, MOST_ANSWER_BYTES = 10000, 2**21, 2**23
NUMBER_LIMIT = 2**126

# The kinds of the command line. Those of space ask of points with three coordinates.
KINDS = ('circle', 'sphere', 'rectangle', 'parallelogram', 'strip', 'annulus', 'empty', 'kgon', 'distance', 'centres', 'furthest', 'shell')
SPACE_KINDS = ('sphere', 'distance', 'shell')


class Refused(Exception):
    """A line in words that says why there is no result, as the program's own error lines, and the program's status."""

    def __init__(self, line, status=3):
        super().__init__(line)
        self.line, self.status = line, status


# A point file: its sets, its scale, and what comments of `to_points.py` say: the origin, a frame, and for each set the names of its points.
PointFile = namedtuple('PointFile', 'sets scale origin box names')

# An answer: its kind as on the command line, the number of squares or None, the format, the scale, the size in whole units and in units of
# the file, and its parts by their words.
Answer = namedtuple('Answer', 'kind squares format scale size own_size parts')


def bytes_of(path, name, most):
    """The bytes of a file, or why there are none."""
    try:
        with open(path, 'rb') as file:
            try:
                data = file.read(most + 1)
            except OSError:
                raise Refused(f'{name}: cannot be read', 4) from None
    except (OSError, ValueError) as error:
        if isinstance(error, IsADirectoryError):
            raise Refused(f'{name}: cannot be read', 4) from None
        raise Refused(f'{name}: cannot be opened', 4) from None
    if len(data) > most:
        raise Refused(f'{name}: file is too long')
    return data.decode('latin-1')


# ---- point files


def text_records(text):
    """The fields of each line of a point file, and its comment."""
    lines = text.split('\n')
    if lines[-1] == '':
        lines.pop()
    for line in lines:
        content, _, comment = line.removesuffix('\r').partition('#')
        yield re.split('[ \t]+', content.strip(' \t')) if content.strip(' \t') else [], comment.strip(' \t\r')


def csv_records(text):
    """The fields of each record of a file of comma-separated fields, in the form that the program takes."""
    text = text.removeprefix('\u00ef\u00bb\u00bf')
    at, fields, field, begun = 0, [], '', False
    while at < len(text):
        byte = text[at]
        if byte == '"' and field == '' and begun != 'quoted':
            at += 1
            while at < len(text):
                if text[at] != '"':
                    field += text[at]
                elif text[at + 1 : at + 2] == '"':
                    field += '"'
                    at += 1
                else:
                    break
                at += 1
            begun = 'quoted'
        elif byte == ',':
            fields.append(field)
            field, begun = '', 'field'
        elif byte in '\r\n':
            if byte == '\r' and text[at + 1 : at + 2] == '\n':
                at += 1
            if begun or fields:
                yield fields + [field], ''
            fields, field, begun = [], '', False
        else:
            field += byte
            begun = begun or 'field'
        at += 1
    if begun or fields:
        yield fields + [field], ''


def whole(field):
    """The whole number that a field says, or None. A number of any length is taken."""
    if not re.fullmatch('[+-]?[0-9]+', field, re.ASCII):
        return None
    digits = field.lstrip('+-').lstrip('0') or '0'
    # A number of more digits is past every bound, and Python would refuse some of them.
    number = int(digits) if len(digits) < 20 else 10**20
    return -number if field[0] == '-' else number


def noted(comment, word, counts):
    """The numbers behind a word of a comment, as `origin 512000 5403000`, where there are so many; whole ones are `int`."""
    fields = comment.split()
    if fields[:1] != [word] or len(fields) - 1 not in counts:
        return None
    if not all(re.fullmatch('-?[0-9]{1,40}([.][0-9]{1,40})?', number, re.ASCII) for number in fields[1:]):
        return None
    return tuple(Fraction(number) if '.' in number else int(number) for number in fields[1:])


def read_point_file(path, kind=None, form='text'):
    """The point file at a path."""
    return point_file_of(point_bytes(path), kind, form)


def point_bytes(path):
    """The bytes of a point file, as characters of one byte each."""
    return bytes_of(path, 'points', MOST_POINT_BYTES)


def point_file_of(text, kind=None, form='text'):
    """The point file that a text says. Of a kind its points are asked for: as many coordinates, and as many sets. Without a kind the first
    point says how many coordinates there are."""
    width = None if kind is None else 3 if kind in SPACE_KINDS else 2
    sets, names, scale, origin, box = [[]], [[]], None, None, None
    begun = False
    for number, (fields, comment) in enumerate(csv_records(text) if form == 'csv' else text_records(text), 1):
        refused = f'points: line {number} '
        if fields == []:
            if not begun and scale is None:
                origin = noted(comment, 'origin', (2, 3)) or origin
                box = noted(comment, 'box', (4,)) or box
            continue
        if fields == ['---']:
            sets.append([])
            names.append([])
            begun = True
            continue
        if fields[0] == 'scale':
            if len(fields) != 2 or not re.fullmatch('[0-9]+', fields[1], re.ASCII) or begun or scale is not None:
                raise Refused(refused + 'is not a point')
            if not 1 <= whole(fields[1]) <= SCALE_LIMIT:
                raise Refused(refused + 'is out of range')
            scale = whole(fields[1])
            continue
        point = tuple(map(whole, fields))
        if width is None and len(point) in (2, 3):
            width = len(point)
        if None in point or len(point) != width:
            raise Refused(refused + 'is not a point')
        if max(map(abs, point)) > (PLANE_LIMIT if width == 2 else SPACE_LIMIT):
            raise Refused(refused + 'is out of range')
        if len(sets[-1]) == MOST_POINTS:
            raise Refused(refused + 'is one point too many')
        begun = True
        sets[-1].append(point)
        names[-1].append(comment.encode('latin-1').decode('utf-8', 'replace'))
    if kind is not None and len(sets) != (2 if kind == 'distance' else 1):
        raise Refused(f'points: found {len(sets)} sets')
    for number, points in enumerate(sets, 1):
        if not points and kind is not None and kind != 'empty':
            raise Refused(f'points: set {number} has no points')
    return PointFile(sets, scale or 1, origin, box, names)


def read_points(path):
    """The sets of points of a file."""
    return read_point_file(path).sets


# ---- answers


def numeral(word):
    """The natural number of a word, or None."""
    return int(word) if re.fullmatch('0|[1-9][0-9]{0,4000}', word, re.ASCII) else 2**127 if re.fullmatch('[1-9][0-9]*', word, re.ASCII) else None


def signed(word):
    """The whole number of a word, or None. There is no -0."""
    if not word.startswith('-'):
        return numeral(word)
    size = numeral(word[1:])
    return -size if size else None


class Field:
    """How many words a field has, how their numbers are read, and what they must meet beside their form."""

    def __init__(self, read, accepts=lambda numbers: True, make=lambda numbers: numbers[0], width=1):
        self.read, self.accepts, self.make, self.width = read, accepts, make, width

    def numbers(self, words):
        """The numbers of the field's words, or None."""
        numbers = [self.read(word) for word in words]
        return None if None in numbers else numbers


class FractionField(Field):
    def numbers(self, words):
        numerator, slash, denominator = words[0].partition('/')
        numbers = [signed(numerator), signed(denominator)]
        return None if not slash or None in numbers else numbers


class BlockerField(Field):
    def numbers(self, words):
        return [] if words == ['box'] else super().numbers(words)


def is_lowest(numbers):
    return numbers[-1] >= 1 and gcd(*numbers) == 1


def bounded(low, high):
    return Field(numeral, lambda numbers: low <= numbers[0] <= high)


NUM, NAT, POINT = Field(signed), Field(numeral), bounded(0, 9999)
FRAC = FractionField(None, lambda numbers: numbers[0] >= 0 and is_lowest(numbers), lambda numbers: Fraction(*numbers))
PLACE = Field(signed, is_lowest, tuple, 3)
SPACE_PLACE = Field(signed, is_lowest, tuple, 4)
BLOCKER = BlockerField(numeral, lambda numbers: numbers == [] or numbers[0] <= 9999, lambda numbers: numbers[0] if numbers else 'box')
CHORD = [POINT, POINT, POINT, NAT, NAT, NUM]

# A part of a body is a line with a word, lines with a count, a count alone, a line without a word, or the rows of potentials.
Part = namedtuple('Part', 'word fields low high less')


def line(word, *fields):
    return Part(word, list(fields), None, None, 0)


def counted(word, low, high, *fields, less=0):
    return Part(word, list(fields), low, high, less)


SQUARES_LEAVES = (PLACE,), (POINT, POINT)
BODIES = {
    'circle': [line('center', PLACE), counted('supports', 1, 3, POINT, NAT)],
    'sphere': [line('center', SPACE_PLACE), counted('supports', 1, 4, POINT, NAT)],
    'rectangle': [
        line('direction', NUM, NUM),
        line('along', NUM, NUM),
        line('across', NUM, NUM),
        counted('fan', 2, 10003, NUM, NUM, POINT, POINT, POINT, POINT, less=1),
        line(None, NUM, NUM),
    ],
    'strip': [
        line('direction', NUM, NUM),
        line('bounds', NUM, NUM),
        counted('fan', 2, 10003, NUM, NUM, POINT, POINT, less=1),
        line(None, NUM, NUM),
    ],
    'parallelogram': [
        line('first', NUM, NUM, NUM, NUM),
        line('second', NUM, NUM, NUM, NUM),
        counted('fan', 2, 10003, NUM, NUM, POINT, POINT, *CHORD, less=1),
        line(None, NUM, NUM, *CHORD),
    ],
    'annulus': [line('center', PLACE), line('inner', FRAC), line('outer', FRAC), counted('pairs', 1, 3, POINT, POINT, NAT)],
    'empty': [line('rectangle', NUM, NUM, NUM, NUM), *(line(side, BLOCKER) for side in ('left', 'bottom', 'right', 'top'))],
    'kgon': [counted('corners', 1, 128, POINT), counted('chosen', 1, 12, bounded(0, 127)), counted('layers', 0, 10)],
    'distance': [
        line('from', SPACE_PLACE),
        line('to', SPACE_PLACE),
        line('direction', NUM, NUM, NUM),
        counted('pairs', 1, 4, POINT, POINT, NAT),
    ],
    'centres': [counted('squares', 1, 3, PLACE), counted('leaves', 0, 16, POINT, POINT)],
    'centres4': [counted('squares', 4, 4, PLACE), counted('leaves', 0, 16000, POINT, POINT)],
    'furthest': [counted('corners', 1, 10000, POINT, bounded(0, 9999))],
    'shell': [line('center', SPACE_PLACE), line('levels', NUM, NUM), counted('pairs', 1, 4, POINT, POINT, NAT)],
}


class Lines:
    """The lines of an answer, taken one after the other."""

    def __init__(self, text):
        self.lines = text.split('\n')
        # What stands behind the last line feed is a line only where it is not empty, and it lacks its own.
        self.unended = self.lines.pop() != ''
        self.at = 0

    def refuse(self, number=None):
        raise Refused(f'answer: line {number or self.at} is not understood')

    def take(self, word, fields):
        """What the next line says, which begins with the word if there is one."""
        self.at += 1
        if self.at > len(self.lines):
            self.refuse()
        words = self.lines[self.at - 1].split(' ')
        if word is not None and words.pop(0) != word or len(words) != sum(field.width for field in fields):
            self.refuse()
        read, at = [], 0
        for field in fields:
            read.append(field.numbers(words[at : at + field.width]))
            at += field.width
        if None in read:
            self.refuse()
        if any(abs(number) > NUMBER_LIMIT for numbers in read for number in numbers):
            raise Refused(f'answer: line {self.at} has a number past the limit')
        if not all(field.accepts(numbers) for field, numbers in zip(fields, read)):
            self.refuse()
        return [field.make(numbers) for field, numbers in zip(fields, read)]


def body(lines, name):
    """The parts of a body by their words. A line is the list of what it says, and a counted part the list of its lines. The last direction
    of a fan, with its chord, is the part `last`, and the rows of potentials are the part `potentials`."""
    parts = {}
    for part in BODIES[name]:
        if part.low is None:
            parts[part.word or 'last'] = lines.take(part.word, part.fields)
            continue
        (count,) = lines.take(part.word, [bounded(part.low, part.high)])
        if part.fields:
            parts[part.word] = [lines.take(None, part.fields) for _ in range(count - part.less)]
        else:
            parts[part.word] = count
    if name == 'kgon':
        count = len(parts['corners'])
        parts['potentials'] = [[lines.take(None, [NAT] * width) for _ in range(parts['layers'])] for width in range(count - 1, 0, -1)]
    return parts


def answer_of(text):
    """The answer that a text says."""
    lines = Lines(text)
    lines.at = 1
    first = lines.lines[0].split(' ') if lines.lines else []
    if len(first) != 3 or first[0] != 'answer' or first[1] not in ('1', '2') or first[2] not in BODIES:
        lines.refuse()
    _, version, name = first
    (scale,) = lines.take('scale', [bounded(2, SCALE_LIMIT)]) if version == '2' else (1,)
    (size,) = lines.take('size', [FRAC])
    own_size = size * scale ** (1 if name.startswith('centres') else 2)
    if own_size.numerator > NUMBER_LIMIT:
        lines.refuse()
    parts = body(lines, name)
    lines.take('end', [])
    if lines.at < len(lines.lines) or lines.unended:
        lines.refuse(lines.at + 1)
    squares = len(parts['squares']) if name.startswith('centres') else None
    return Answer('centres' if name == 'centres4' else name, squares, int(version), scale, size, own_size, parts)


def read_answer(path):
    """The answer in a file."""
    return answer_of(bytes_of(path, 'answer', MOST_ANSWER_BYTES))


# ---- vectors


def dot(a, b):
    return sum(x * y for x, y in zip(a, b))


def minus(a, b):
    return tuple(x - y for x, y in zip(a, b))


def cross(a, b):
    return a[0] * b[1] - a[1] * b[0]


def turned(a):
    """A vector of the plane turned left by a right angle."""
    return -a[1], a[0]


def square_of_way(a, b):
    """The squared distance of two points."""
    return sum((x - y) ** 2 for x, y in zip(a, b))


def place(numbers):
    """The point x/w, y/w of `x y w`, or that of space of `x y z w`."""
    return tuple(Fraction(number, numbers[-1]) for number in numbers[:-1])


def squared_radii(parts):
    """The inner and the outer squared radius of a shell."""
    *entries, w = parts['center'][0]
    return [Fraction(w * level + dot(entries, entries), w * w) for level in parts['levels']]
