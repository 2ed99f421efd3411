"""Tables as text (docs/table-text.md) and scripts of the SQL dialect (docs/sql-dialect.md) that a seed gives.

A script is a dict: `steps` (a list of a name and a body) and `last` (a body). A body is a list of cores; a core is a dict of `distinct`,
`items` (expression and name), `sources` (joins; the first has none), `where`, `keys`, `limit` and `offset`. An
expression is a list of tokens.
"""
import re

TABLES = {'T': [('a', 'int'), ('b', 'text')], 'U': [('x', 'int'), ('y', 'int')], 'E': [('z', 'text')]}
TEXTS = ['""', '"x"', '"y"', '"\\t\\n"', '"é"', '"\\"\\\\"']
INTS = ['0', '1', '2', '-1', '170141183460469231731687303715884105727', '-170141183460469231731687303715884105728']


def cell(rng, kind):
    if rng.random() < 0.2:
        return '.'
    return rng.choice(TEXTS if kind == 'text' else INTS[:3] if rng.random() < 0.8 else INTS)


def tables(rng):
    """The lines of the tables, without the line that ends them."""
    found = [b'tables 2']
    for name, columns in TABLES.items():
        found.append('\t'.join(['table', name] + [f'{column}:{kind}' for column, kind in columns]).encode())
        for _ in range(rng.choice([0, 1, 3, 5])):
            found.append('\t'.join(cell(rng, kind) for _, kind in columns).encode())
    return found


def listed(parts, between):
    return [token for at, part in enumerate(parts) for token in ([between] if at else []) + part]


def expression(rng, kind, scope, depth=3):
    """An expression of this kind over the columns of a scope, each an alias, a name and a kind."""
    fitting = [(alias, name) for alias, name, its in scope if its == kind]
    draw = rng.random()
    if depth and draw < 0.12:
        parts = listed([expression(rng, kind, scope, depth - 1) for _ in range(rng.randint(2, 3))], ',')
        return ['COALESCE', '(', *parts, ')']
    if depth and draw < 0.22:
        branches = []
        for _ in range(rng.randint(1, 2)):
            branches += ['WHEN', *expression(rng, 'truth', scope, depth - 1), 'THEN', *expression(rng, kind, scope, depth - 1)]
        return ['CASE', *branches, 'ELSE', *expression(rng, kind, scope, depth - 1), 'END']
    if kind == 'truth' and depth and draw < 0.9:
        inner = rng.choice(['int', 'text', 'truth'])
        if draw < 0.6:
            one, other = expression(rng, inner, scope, depth - 1), expression(rng, inner, scope, depth - 1)
            return ['(', *one, rng.choice(['=', '<']), *other, ')']
        if draw < 0.75:
            word = rng.choice(['AND', 'OR'])
            return ['(', *listed([expression(rng, 'truth', scope, depth - 1) for _ in range(rng.randint(2, 3))], word), ')']
        if draw < 0.82:
            return ['(', 'NOT', *expression(rng, 'truth', scope, depth - 1), ')']
        return ['(', *expression(rng, inner, scope, depth - 1), 'IS', 'NULL', ')']
    if fitting and draw < 0.8:
        alias, name = rng.choice(fitting)
        return [alias, '.', name]
    if draw < 0.88:
        return ['CAST', '(', 'NULL', 'AS', kind.upper(), ')']
    if kind == 'int':
        return [rng.choice(INTS)]
    return [rng.choice(["''", "'x'", "'it''s'", "'é'"])] if kind == 'text' else [rng.choice(['TRUE', 'FALSE'])]


def core(rng, kinds, known, numbers, ending):
    scope, sources = [], []
    for at in range(rng.choice([0, 1, 1, 2, 2, 3])):
        table = rng.choice(list(known))
        alias = f'k{next(numbers)}'
        scope = scope + [(alias, name, kind) for name, kind in known[table]]
        sources.append((rng.random() < 0.4, table, alias, expression(rng, 'truth', scope) if at else None))
    made = {'distinct': ending and rng.random() < 0.3, 'sources': sources, 'keys': [], 'limit': None, 'offset': None,
            'items': [(expression(rng, kind, scope), f'c{at}') for at, kind in enumerate(kinds)],
            'where': expression(rng, 'truth', scope) if rng.random() < 0.4 else None}
    if ending:
        made['keys'] = [(expression(rng, rng.choice(['int', 'text', 'truth']), scope), rng.random() < 0.5)
                        for _ in range(rng.choice([0, 1, 2]))]
        made['limit'] = rng.randint(0, 5) if rng.random() < 0.3 else None
        made['offset'] = rng.randint(0, 3) if rng.random() < 0.3 else None
    return made


def script(rng):
    known, steps = dict(TABLES), []
    numbers = iter(range(1, 10000))
    kinds = [rng.choice(['int', 'text', 'truth']) for _ in range(rng.randint(1, 3))]

    def body():
        count = rng.choice([1, 1, 1, 2, 3])
        return [core(rng, kinds, known, numbers, count == 1) for _ in range(count)]

    for at in range(rng.choice([0, 0, 1, 2])):
        name = f'w{at}'
        steps.append((name, body()))
        known[name] = [(f'c{column}', kind) for column, kind in enumerate(kinds)]
        kinds = [rng.choice(['int', 'text', 'truth']) for _ in range(rng.randint(1, 3))]
    return {'steps': steps, 'last': body()}


def core_tokens(c):
    found = ['SELECT'] + (['DISTINCT'] if c['distinct'] else []) + listed([[*e, 'AS', name] for e, name in c['items']], ',')
    for at, (left, table, alias, on) in enumerate(c['sources']):
        before = ['FROM'] if at == 0 else ['LEFT', 'JOIN'] if left else ['JOIN']
        found += before + [table, 'AS', alias] + (['ON', *on] if at else [])
    if c['where']:
        found += ['WHERE', *c['where']]
    if c['keys']:
        found += ['ORDER', 'BY'] + listed([[*e] + (['DESC'] if down else []) for e, down in c['keys']], ',')
    for word in ('limit', 'offset'):
        if c[word] is not None:
            found += [word.upper(), str(c[word])]
    return found


def body_tokens(body):
    found = []
    for at, c in enumerate(body):
        found += (['UNION', 'ALL'] if at else []) + core_tokens(c)
    return found


def tokens(s):
    steps = listed([[name, 'AS', '(', *body_tokens(body), ')'] for name, body in s['steps']], ',')
    return (['WITH'] if steps else []) + steps + body_tokens(s['last'])


def text(some_tokens, rng=None):
    """A text of these tokens, with other blanks where a generator is given."""
    return ''.join(token + (rng.choice([' ', '\n', '\t', '  ', '\r\n']) if rng else ' ') for token in some_tokens).encode()


def file_of(table_lines, sql):
    return b''.join(line + b'\n' for line in table_lines) + b'-- sql\n' + sql


RUN = re.compile(rb"-?[0-9][A-Za-z0-9_]*|[A-Za-z0-9_]+|'(?:[^']|'')*'|[(),.=<]")


def end_of_token(sql, at):
    """Where the token that begins at a place ends, or none where none begins there."""
    found = RUN.match(sql, at)
    return found.end() if found else None
