"""Data files and colouring files that a seed gives: lines of docs/data-files.md over a small vocabulary, so that triples meet."""
from typing import NamedTuple, Optional

XSD = 'http://www.w3.org/2001/XMLSchema#'
SUBJECTS = [f'<u:s{i}>' for i in range(6)]
BLANKS = ['_:b', '_:b.c', '_:0']
PREDICATES = [f'<u:p{i}>' for i in range(9)] + ['<http://www.w3.org/1999/02/22-rdf-syntax-ns#type>']
FRESH = [f'<u:fresh{i}>' for i in range(4)]
TYPED = {
    'integer': ['0', '1', '01', '+1', '-1', '-0', '7', '1.0', '', '999999999999999999', '1000000000000000000'],
    'decimal': ['1.0', '1', '.5', '-0.5', '1.0000000001', '.', '0.000000001', '1.'],
    'boolean': ['true', 'false', '1', '0', 'TRUE'],
    'byte': ['1', '127', '128', '-129'],
    'unsignedLong': ['1', '18446744073709551615', '18446744073709551616', '-1'],
    'positiveInteger': ['1', '0'],
    'dateTime': ['2024-01-01T00:00:00Z', '2024-01-01T00:00:00', '2024-01-01T01:00:00+01:00', '2024-02-30T00:00:00Z',
                 '0001-01-01T00:00:00+14:00', '9999-12-31T23:59:59.999999999-14:00', '2023-12-31T24:00:00Z'],
    'string': ['x', '1'],
    'double': ['1', '1e0'],
}
LITERALS = [f'"{text}"^^<{XSD}{name}>' for name, texts in TYPED.items() for text in texts] + [
    '""', '"x"', '"y"', '"1"', '"caf\\u00E9"', '"café"', '"\\t\\n\\"\\\\"', '"x"@en', '"x"@EN-gb', '"x"@de', '""@en',
    '"1"^^<u:other>', '"\\U0001F600"']
OTHER_SPELLINGS = {'<u:s0>': '<u:\\u0073\\u0030>', '<u:p0>': '<\\U00000075:p0>', '"x"': f'"\\u0078"^^<{XSD}string>', '"x"@en': '"x"@EN'}


class Line(NamedTuple):
    """A line of a data file: its mark (`A`, `D` or none), its triple as it is spelled (or none), and its bytes without their end."""
    mark: str
    triple: Optional[tuple]
    text: bytes


def literal(rng):
    return rng.choice(LITERALS)


def subject(rng):
    return rng.choice(BLANKS) if rng.random() < 0.15 else rng.choice(SUBJECTS)


def object_of(rng):
    return literal(rng) if rng.random() < 0.5 else subject(rng)


def line_of(mark, triple, rng=None):
    """A line with this mark and triple, in one of its spellings where a generator is given."""
    words = list(triple)
    blank, before, behind = ' ', '', ''
    if rng and rng.random() < 0.3:
        words = [OTHER_SPELLINGS.get(word, word) if rng.random() < 0.5 else word for word in words]
        blank = rng.choice([' ', '\t', '  '])
        before = rng.choice(['', ' ', '\t'])
        behind = rng.choice(['', ' ', ' # x', '#'])
    marked = [mark] if mark else []
    return Line(mark, tuple(triple), (before + blank.join(marked + words + ['.']) + behind).encode())


def lines(rng, most, deletions=True):
    """Up to so many lines that are in the grammar."""
    present, found = [], []
    predicates = rng.sample(PREDICATES, rng.choice([1, 2, 2, 3, 3, 5, len(PREDICATES)]))
    subjects = [subject(rng) for _ in range(rng.choice([1, 2, 3, 3, 5]))]
    objects = subjects + [object_of(rng) for _ in range(rng.choice([1, 2, 3, 5, 20]))]
    for _ in range(rng.choice([0, rng.randint(0, most), most, most, most])):
        draw = rng.random()
        if draw < 0.05:
            found.append(Line('', None, rng.choice([b'', b' ', b'# x', b'\t# <u:s0> <u:p0> <u:s1> .'])))
        elif draw < 0.15 and deletions:
            gone = rng.choice(present) if present and rng.random() < 0.8 else (subject(rng), rng.choice(predicates), object_of(rng))
            found.append(line_of('D', gone, rng))
        else:
            new = (rng.choice(subjects), rng.choice(predicates), rng.choice(objects))
            present.append(new)
            found.append(line_of(rng.choice(['', '', 'A']), new, rng))
    return found


def files(rng, most):
    """One to three files, seldom sixteen."""
    count = rng.choice([1] * 8 + [2] * 4 + [3] * 2 + [16])
    return [lines(rng, max(1, most // count)) for _ in range(count)]


def triples_of(some_files):
    """All triples that lines of these files name, as they are spelled; one where there is none."""
    return [line.triple for some_lines in some_files for line in some_lines if line.triple] or [(SUBJECTS[0], PREDICATES[0], SUBJECTS[1])]


def text_of(some_lines, end=b'\n'):
    return b''.join(line.text + end for line in some_lines)


def colouring(rng, direct, reverse):
    """The lines of a colouring file for so many columns on each side."""
    found, seen = [], set()
    for _ in range(rng.randint(0, 6)):
        side = rng.choice('DR')
        iri = rng.choice(PREDICATES)
        if (side, iri) not in seen:
            seen.add((side, iri))
            found.append(f'{side} {iri} {rng.randint(1, direct if side == "D" else reverse)}'.encode())
        elif rng.random() < 0.3:
            found.append(rng.choice([b'', b'# x', b' ']))
    return found
