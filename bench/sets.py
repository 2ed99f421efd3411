"""The sets of data and queries of the bench: made from a seed, and the same each time.

Each set gives triples as three spelled terms, and pairs of one query in SPARQL and in SQL. The SQL is over the tables that
`run` makes in SQLite: term(id, txt), with a term as it is spelled, and triple(s, p, o), three ids, under three covering indexes.
Its columns are the spelled terms of the shown variables, with '' where one is unbound. Numbers in names have leading zeros,
so that names are ordered as their numbers.
"""
import random
from collections import namedtuple

Query = namedtuple('Query', 'name sparql sql ordered')
Set = namedtuple('Set', 'size triples queries')  # size: how many things of its kind the whole set has

RDF_TYPE = '<http://www.w3.org/1999/02/22-rdf-syntax-ns#type>'
XSD = 'http://www.w3.org/2001/XMLSchema#'


def iri(kind, number):
    return f'<u:{kind}{number:07}>'


def integer(number):
    return f'"{number}"^^<{XSD}integer>'


def pred(name):
    """The id of a predicate or another constant, in SQL."""
    return f"(SELECT id FROM term WHERE txt = '<u:{name}>')"


def text(column):
    """The spelled term of an id that may be null, in SQL."""
    return f"COALESCE((SELECT txt FROM term WHERE id = {column}), '')"


def columns(*names):
    return ', '.join(text(name) for name in names)


# ---- a chain of links

def chain_triples(count, draws):
    order = list(range(count))
    draws.shuffle(order)
    for at in order:
        yield iri('n', at), '<u:next>', iri('n', at + 1)


def chain_queries(count):
    last = iri('n', count)
    return [
        Query('two links', 'SELECT ?a ?b ?c { ?a <u:next> ?b . ?b <u:next> ?c }',
              f"SELECT {columns('x.s', 'x.o', 'y.o')} FROM triple x JOIN triple y ON y.s = x.o "
              f"WHERE x.p = {pred('next')} AND y.p = {pred('next')}", False),
        Query('from the end', f'SELECT ?a ?b {{ ?a <u:next> ?b . ?b <u:next> {last} }}',
              f"SELECT {columns('x.s', 'x.o')} FROM triple y JOIN triple x ON x.o = y.s "
              f"WHERE y.o = (SELECT id FROM term WHERE txt = '{last}') AND x.p = {pred('next')} AND y.p = {pred('next')}", False),
    ]


# ---- people with names, some with homepages, and whom they know

def people_triples(count, draws):
    for at in range(count):
        person = iri('person', at)
        yield person, '<u:name>', f'"Person {at:07}"@en'
        if draws.randrange(2):
            yield person, '<u:homepage>', iri('page', at)
        for other in sorted({draws.randrange(count) for _ in range(3)}):
            yield person, '<u:knows>', iri('person', other)


def people_queries(count):
    return [
        Query('names of friends', 'SELECT ?a ?b ?name ?page { ?a <u:knows> ?b . ?b <u:name> ?name OPTIONAL { ?b <u:homepage> ?page } }',
              f"SELECT {columns('k.s', 'k.o', 'n.o', 'h.o')} FROM triple k JOIN triple n ON n.s = k.o AND n.p = {pred('name')} "
              f"LEFT JOIN triple h ON h.s = k.o AND h.p = {pred('homepage')} WHERE k.p = {pred('knows')}", False),
        Query('both know one another', 'SELECT DISTINCT ?a ?b { ?a <u:knows> ?b . ?b <u:knows> ?a } ORDER BY ?a ?b',
              f"SELECT DISTINCT {text('x.s')} AS a, {text('x.o')} AS b FROM triple x JOIN triple y ON y.s = x.o AND y.o = x.s "
              f"WHERE x.p = {pred('knows')} AND y.p = {pred('knows')} ORDER BY a, b", True),
    ]


# ---- entities of twelve predicates

WIDTH = 12


def wide_triples(count, draws):
    for at in range(count):
        for predicate in range(WIDTH):
            yield iri('entity', at), f'<u:p{predicate:02}>', integer(draws.randrange(1000))


def wide_queries(count):
    names = [f'?v{at:02}' for at in range(WIDTH)]
    patterns = ' . '.join(f'?e <u:p{at:02}> {name}' for at, name in enumerate(names))
    joins = ' '.join(f"JOIN triple t{at} ON t{at}.s = t0.s AND t{at}.p = {pred(f'p{at:02}')}" for at in range(1, WIDTH))
    shown = columns('t0.s', *(f't{at}.o' for at in range(WIDTH)))
    return [
        Query('all twelve', f"SELECT ?e {' '.join(names)} {{ {patterns} }}",
              f"SELECT {shown} FROM triple t0 {joins} WHERE t0.p = {pred('p00')}", False),
        Query('two of twelve', 'SELECT ?e ?x { ?e <u:p03> "7"^^<%sinteger> ; <u:p07> ?x }' % XSD,
              f"SELECT {columns('x.s', 'y.o')} FROM triple x JOIN triple y ON y.s = x.s AND y.p = {pred('p07')} "
              f"WHERE x.p = {pred('p03')} AND x.o = (SELECT id FROM term WHERE txt = '{integer(7)}')", False),
    ]


# ---- one entity with all values under one predicate, and one value of all entities

def hub_triples(count, draws):
    for at in range(count):
        yield '<u:hub>', '<u:has>', iri('part', at)
        yield iri('part', at), '<u:of>', '<u:hub>'


def hub_queries(count):
    return [
        Query('there and back', 'SELECT ?x { <u:hub> <u:has> ?x . ?x <u:of> <u:hub> }',
              f"SELECT {text('x.o')} FROM triple x JOIN triple y ON y.s = x.o AND y.p = {pred('of')} AND y.o = x.s "
              f"WHERE x.s = {pred('hub')} AND x.p = {pred('has')}", False),
    ]


# ---- departments, courses and students

def school_triples(count, draws):
    departments = max(1, count // 200)
    courses = max(1, count // 20)
    for at in range(departments):
        yield iri('department', at), RDF_TYPE, '<u:Department>'
    for at in range(courses):
        yield iri('course', at), RDF_TYPE, '<u:Course>'
        yield iri('course', at), '<u:givenBy>', iri('department', draws.randrange(departments))
    for at in range(count):
        student = iri('student', at)
        yield student, RDF_TYPE, '<u:Student>'
        yield student, '<u:memberOf>' if draws.randrange(3) else '<u:guestOf>', iri('department', draws.randrange(departments))
        for course in sorted({draws.randrange(courses) for _ in range(3)}):
            yield student, '<u:takes>', iri('course', course)
        if draws.randrange(4) == 0:
            yield student, '<u:advisor>', iri('advisor', draws.randrange(departments * 5))


def school_queries(count):
    kind = f"(SELECT id FROM term WHERE txt = '{RDF_TYPE}')"
    return [
        Query('courses of the own department',
              'SELECT ?student ?course ?advisor { ?student <u:memberOf> ?d ; <u:takes> ?course . ?course <u:givenBy> ?d '
              'OPTIONAL { ?student <u:advisor> ?advisor } }',
              f"SELECT {columns('m.s', 't.o', 'a.o')} FROM triple m JOIN triple t ON t.s = m.s AND t.p = {pred('takes')} "
              f"JOIN triple g ON g.s = t.o AND g.p = {pred('givenBy')} AND g.o = m.o "
              f"LEFT JOIN triple a ON a.s = m.s AND a.p = {pred('advisor')} WHERE m.p = {pred('memberOf')}", False),
        Query('members and guests',
              'SELECT ?student ?d { ?student a <u:Student> { ?student <u:memberOf> ?d } UNION { ?student <u:guestOf> ?d } }',
              f"SELECT {columns('k.s', 'm.o')} FROM triple k JOIN triple m ON m.s = k.s AND m.p = {pred('memberOf')} "
              f"WHERE k.p = {kind} AND k.o = {pred('Student')} UNION ALL "
              f"SELECT {columns('k.s', 'm.o')} FROM triple k JOIN triple m ON m.s = k.s AND m.p = {pred('guestOf')} "
              f"WHERE k.p = {kind} AND k.o = {pred('Student')}", False),
    ]


# ---- numbers and dates

def measure_triples(count, draws):
    for at in range(count):
        measure = iri('measure', at)
        yield measure, '<u:value>', integer(draws.randrange(1000000))
        day = f'{1990 + draws.randrange(30)}-{1 + draws.randrange(12):02}-{1 + draws.randrange(28):02}'
        yield measure, '<u:at>', f'"{day}T12:00:00Z"^^<{XSD}dateTime>'
        yield measure, '<u:by>', iri('device', draws.randrange(100))


def measure_queries(count):
    written = "substr({0}.txt, 2, instr({0}.txt, '\"^^') - 2)"
    number = f"CAST({written.format('v')} AS INTEGER)"
    date = written.format('d')
    day = '"2010-01-01T00:00:00Z"^^<%sdateTime>' % XSD
    return [
        Query('the ten greatest', 'SELECT ?m ?x { ?m <u:value> ?x } ORDER BY DESC(?x) ?m LIMIT 10',
              f"SELECT {text('t.s')} AS m, v.txt FROM triple t JOIN term v ON v.id = t.o "
              f"WHERE t.p = {pred('value')} ORDER BY {number} DESC, m LIMIT 10", True),
        Query('great values after a day',
              f'SELECT ?m ?x ?when {{ ?m <u:value> ?x ; <u:at> ?when FILTER(?x > 900000 && ?when >= {day}) }}',
              f"SELECT {text('t.s')}, v.txt, d.txt FROM triple t JOIN term v ON v.id = t.o "
              f"JOIN triple w ON w.s = t.s AND w.p = {pred('at')} JOIN term d ON d.id = w.o "
              f"WHERE t.p = {pred('value')} AND {number} > 900000 AND {date} >= '2010-01-01T00:00:00Z'", False),
    ]


SETS = {
    'chain': Set(200000, chain_triples, chain_queries),
    'people': Set(100000, people_triples, people_queries),
    'wide': Set(50000, wide_triples, wide_queries),
    'hub': Set(200000, hub_triples, hub_queries),
    'school': Set(100000, school_triples, school_queries),
    'measures': Set(200000, measure_triples, measure_queries),
}


def made(name, share, seed):
    """The triples and the queries of a set, with this share of its whole size."""
    chosen = SETS[name]
    count = max(2, int(chosen.size * share))
    return chosen.triples(count, random.Random(f'{name} {count} {seed}')), chosen.queries(count)
