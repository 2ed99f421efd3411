"""Queries of the fragment (docs/query-language.md) that a seed gives, as trees; their tokens, and texts of these tokens.

A query is a dict: `head` (a list of variables, or none for `*`), `distinct`, `group`, `keys`, `slice`. A group is a list of elements:
('triples', [(s, p, o), ..]), ('optional', group), ('unions', [group, ..]), ('filter', condition). A condition is a
tuple with its kind first.
"""
import re
from typing import NamedTuple

from hostile import data

VARIABLES = ['?a', '?b', '?c', '?d', '?e']
NUMBERS = ['0', '1', '01', '-1', '+1', '1.0', '.5', 'true', 'false', "'x'", "'y'@en"]
OPERATORS = ['=', '!=', '<', '>', '<=', '>=']


class Around(NamedTuple):
    """What a query is made of: variables of subjects and objects, those of predicates, and triples whose terms stand in it."""
    variables: list
    verbs: list
    triples: list

    def any_variable(self, rng):
        return rng.choice(self.variables * 3 + self.verbs)


def around(rng, triples):
    return Around(VARIABLES[:rng.choice([1, 2, 3, 3, 4, 5])], ['?p'] if rng.random() < 0.9 else ['?a'], triples)


def constant_of(rng, triples, place):
    """A term that stands at this place of some triple; blank nodes can't stand in a query."""
    found = rng.choice(triples)[place]
    return rng.choice(data.SUBJECTS) if found.startswith('_:') else found


def pattern(rng, words, subject=None):
    if subject is None:
        subject = rng.choice(words.variables) if rng.random() < 0.88 else constant_of(rng, words.triples, 0)
    verb = rng.choice(words.verbs) if rng.random() < 0.15 else constant_of(rng, words.triples, 1)
    if rng.random() < 0.06:
        verb = rng.choice(data.PREDICATES)
    draw = rng.random()
    others = [name for name in words.variables if name != subject] if rng.random() < 0.9 else words.variables
    if draw < 0.85:
        return subject, verb, rng.choice(others or words.variables)
    return subject, verb, constant_of(rng, words.triples, 2) if draw < 0.95 else constant(rng, words.triples)


def constant(rng, triples):
    draw = rng.random()
    if draw < 0.4:
        return constant_of(rng, triples, 2)
    return data.literal(rng) if draw < 0.7 else rng.choice(NUMBERS) if draw < 0.9 else rng.choice(data.SUBJECTS + data.PREDICATES)


def value(rng, words, depth=2):
    if depth and rng.random() < 0.25:
        return ('fun', rng.choice(['str', 'lang', 'datatype']), value(rng, words, depth - 1))
    return ('term', words.any_variable(rng) if rng.random() < 0.65 else constant(rng, words.triples))


def condition(rng, words, depth=3):
    draw = rng.random()
    if depth and draw < 0.35:
        parts = [condition(rng, words, depth - 1) for _ in range(rng.randint(2, 3))]
        return (rng.choice(['and', 'or', 'or']), parts)
    if depth and draw < 0.5:
        return ('not', condition(rng, words, depth - 1))
    if draw < 0.72:
        return ('compare', rng.choice(OPERATORS), value(rng, words), value(rng, words))
    if draw < 0.8:
        return ('in', rng.random() < 0.5, value(rng, words), [value(rng, words) for _ in range(rng.randint(0, 3))])
    if draw < 0.87:
        return ('bound', words.any_variable(rng))
    if draw < 0.95:
        name = rng.choice(['isIRI', 'isURI', 'isBlank', 'isLiteral', 'sameTerm'])
        return ('test', name, [value(rng, words) for _ in range(2 if name == 'sameTerm' else 1)])
    return ('value', value(rng, words))


def group(rng, patterns, words, depth=2):
    """A group with at most so many patterns, and how many it has."""
    elements, used = [], 0
    for number in range(rng.choice([1, 2, 2, 3])):
        left = patterns - used
        draw = rng.random()
        if number == 0 and draw < 0.7 and left:
            draw = 1
        if draw < 0.15:
            elements.append(('filter', condition(rng, words)))
        elif draw < 0.5 and depth and left:
            inner, count = group(rng, max(1, left // 2), words, depth - 1)
            elements.append(('optional', inner))
            used += count
        elif draw < 0.75 and depth and left:
            members = []
            for _ in range(rng.choice([1, 2, 2, 3])):
                inner, count = group(rng, max(0, (patterns - used) // 2), words, depth - 1)
                members.append(inner)
                used += count
            elements.append(('unions', members))
        elif left:
            count = rng.randint(1, min(3, left))
            first = rng.choice(words.variables) if rng.random() < 0.5 else None
            elements.append(('triples', [pattern(rng, words, first) for _ in range(count)]))
            used += count
    return elements, used


def query(rng, patterns, words):
    body, _ = group(rng, patterns, words)
    head = None
    if rng.random() < 0.6:
        head = [words.any_variable(rng) if rng.random() < 0.95 else '?none' for _ in range(rng.randint(1, 4))]
    keys = [(words.any_variable(rng), rng.choice(['', 'ASC', 'DESC'])) for _ in range(rng.choice([0, 0, 0, 1, 2]))]
    cut = []
    if rng.random() < 0.2:
        cut = [('LIMIT', rng.randint(0, 12)), ('OFFSET', rng.randint(0, 4))][rng.choice([0, 0, 1]):rng.choice([1, 2, 2])]
    return {'head': head, 'distinct': rng.random() < 0.25, 'group': body, 'keys': keys, 'slice': cut}


def spelled(text):
    """The tokens of a term as it is written in data lines or queries."""
    found = re.fullmatch(r'("(?:[^"\\]|\\.)*"|\'[^\']*\')(?:(\^\^)(.*)|(@.*))', text)
    return [part for part in found.groups() if part] if found else [text]


def value_tokens(v):
    return spelled(v[1]) if v[0] == 'term' else [v[1], '(', *value_tokens(v[2]), ')']


def listed(parts, between):
    return [token for at, part in enumerate(parts) for token in ([between] if at else []) + part]


def condition_tokens(e):
    kind = e[0]
    if kind in ('and', 'or'):
        return ['(', *listed([condition_tokens(part) for part in e[1]], '&&' if kind == 'and' else '||'), ')']
    if kind == 'not':
        return ['(', '!', '(', *condition_tokens(e[1]), ')', ')']
    if kind == 'compare':
        return ['(', *value_tokens(e[2]), e[1], *value_tokens(e[3]), ')']
    if kind == 'in':
        members = listed([value_tokens(part) for part in e[3]], ',')
        return ['(', *value_tokens(e[2]), *(['NOT'] if e[1] else []), 'IN', '(', *members, ')', ')']
    if kind == 'bound':
        return ['(', 'bound', '(', e[1], ')', ')']
    if kind == 'test':
        return ['(', e[1], '(', *listed([value_tokens(part) for part in e[2]], ','), ')', ')']
    return ['(', *value_tokens(e[1]), ')']


def group_tokens(elements):
    found = ['{']
    for kind, what in elements:
        if kind == 'triples':
            for triple in what:
                found += [token for part in triple for token in spelled(part)] + ['.']
        elif kind == 'optional':
            found += ['OPTIONAL'] + group_tokens(what)
        elif kind == 'unions':
            found += listed([group_tokens(member) for member in what], 'UNION')
        else:
            found += ['FILTER'] + condition_tokens(what)
    return found + ['}']


def merged(elements):
    """The same group with neighbouring triples in one element, as the grammar wants no dot behind another one."""
    found = []
    for kind, what in elements:
        if kind == 'optional':
            what = merged(what)
        elif kind == 'unions':
            what = [merged(member) for member in what]
        if kind == 'triples' and found and found[-1][0] == 'triples':
            found[-1] = ('triples', found[-1][1] + what)
        else:
            found.append((kind, what))
    return found


def tokens(q):
    found = ['SELECT'] + (['DISTINCT'] if q['distinct'] else []) + (['*'] if q['head'] is None else list(q['head']))
    found += ['WHERE'] + group_tokens(merged(q['group']))
    if q['keys']:
        found += ['ORDER', 'BY']
        for variable, way in q['keys']:
            found += [way, '(', variable, ')'] if way else [variable]
    for word, number in q['slice']:
        found += [word, str(number)]
    return found


def text(some_tokens, rng=None):
    """A text that is cut into these tokens, with other blanks, comments and cases where a generator is given."""
    parts = []
    for token in some_tokens:
        if rng and re.fullmatch('[A-Za-z]+', token) and token != 'a':
            token = rng.choice([token, token.lower(), token.upper()])
        parts.append(token)
        parts.append(rng.choice([' ', ' ', '\n', '\t', '\r\n', ' # {"\n']) if rng else ' ')
    return ''.join(parts).encode()


def of(q, rng=None):
    return text(tokens(q), rng)


def variables_of(elements, into=None):
    """The variables of the patterns, in order of the text."""
    into = [] if into is None else into
    for kind, what in elements:
        if kind == 'triples':
            for triple in what:
                into += [part for part in triple if part[0] == '?' and part not in into]
        elif kind == 'optional':
            variables_of(what, into)
        elif kind == 'unions':
            for member in what:
                variables_of(member, into)
    return into


BASE = 'A-Za-z\u00C0-\u00D6\u00D8-\u00F6\u00F8-\u02FF\u0370-\u037D\u037F-\u1FFF\u200C-\u200D\u2070-\u218F\u2C00-\u2FEF\u3001-\uD7FF' \
       '\uF900-\uFDCF\uFDF0-\uFFFD\U00010000-\U000EFFFF'
LATER = '\u00B7\u0300-\u036F\u203F-\u2040'
LETTER = rf'[{BASE}_]'
PART = rf'[{BASE}_\-0-9{LATER}]'
KEPT = r"(?:%[0-9A-Fa-f]{2}|\\[_~.\-!$&'()*+,;=/?#@%])"
ESCAPE = r'\\[tbnrf"\'\\]|\\u[0-9A-Fa-f]{4}|\\U[0-9A-Fa-f]{8}'
FORMS = [re.compile(form) for form in (
    r'<(?:[^\x00-\x20<>"{}|^`\\]|\\u[0-9A-Fa-f]{4}|\\U[0-9A-Fa-f]{8})*>',
    rf'(?:[{BASE}](?:(?:{PART}|\.)*{PART})?)?:(?:(?:{LETTER}|[:0-9]|{KEPT})(?:(?:{PART}|[.:]|{KEPT})*(?:{PART}|:|{KEPT}))?)?',
    rf'[?$](?:{LETTER}|[0-9])(?:{LETTER}|[0-9{LATER}])*',
    rf'"(?:[^"\\\n\r]|{ESCAPE})*"', rf"'(?:[^'\\\n\r]|{ESCAPE})*'",
    rf'"""(?:[^\\]|{ESCAPE})*?"""', rf"'''(?:[^\\]|{ESCAPE})*?'''",
    r'@[A-Za-z]+(?:-[A-Za-z0-9]+)*',
    rf'_:(?:{LETTER}|[0-9])(?:(?:{PART}|\.)*{PART})?',
    r'[+-]?(?:[0-9]+\.[0-9]*[eE][+-]?[0-9]+|\.[0-9]+[eE][+-]?[0-9]+|[0-9]+[eE][+-]?[0-9]+)', r'[+-]?[0-9]*\.[0-9]+', r'[+-]?[0-9]+',
    r'[A-Za-z][A-Za-z0-9_]*', r'\^\^|!=|<=|>=|&&|\|\||[{}()\[\].;,*/+\-=<>!|^?]')]
SPACE = re.compile(r'[ \t\r\n]+|#[^\n\r]*')


def spans(content):
    """Where the tokens of a text begin and end, in bytes, and the first bad place, or none. None where that isn't judged here."""
    try:
        whole = content.decode('utf-8')
    except UnicodeDecodeError:
        return None
    if re.search(r'\\[uU]', whole):
        return None
    found, at = [], 0
    offset = [0]
    for character in whole:
        offset.append(offset[-1] + len(character.encode()))
    while at < len(whole):
        blank = SPACE.match(whole, at)
        if blank:
            at = blank.end()
            continue
        end = max((match.end() for match in (form.match(whole, at) for form in FORMS) if match), default=None)
        if end is None:
            return found, offset[at]
        found.append((offset[at], offset[end]))
        at = end
    return found, None
