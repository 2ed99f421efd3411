"""How a text is broken: cut, doubled, with bytes changed, or with tokens that don't belong."""

QUERY_WORDS = ['SELECT', 'MINUS', 'BIND', 'VALUES', 'FILTER', 'OPTIONAL', 'UNION', 'NOT', 'EXISTS', 'GRAPH', 'GROUP', 'HAVING', 'LIMIT',
               'ORDER', 'a', '{', '}', '(', ')', '[', ']', '.', ';', ',', '*', '+', '-', '/', '|', '^', '^^', '!', '=', '<', '&&', '||',
               '?', '1', '-1', '1.5', '1e0', '"x"', '"""x"""', '@en', '_:b', 'x:y', ':', '<u:p0>', '?a', '$b', 'true', 'count', 'regex',
               'str', 'bound', 'IN', 'in', 'PREFIX', 'BASE', 'xyz', 'INSERT', 'ASK', 'CONSTRUCT', 'FROM', 'REDUCED', 'AS', 'DISTINCT',
               '~', '&', '"', "'", '\\', '%']
SQL_WORDS = ['SELECT', 'WITH', 'AS', 'FROM', 'JOIN', 'LEFT', 'ON', 'WHERE', 'ORDER', 'BY', 'LIMIT', 'UNION', 'ALL', 'DISTINCT', 'CASE',
             'WHEN', 'THEN', 'ELSE', 'END', 'AND', 'OR', 'NOT', 'IS', 'NULL', 'TRUE', 'COALESCE', 'CAST', 'INT', 'select', 'T', 'U', 'k1',
             'c0', 'a', '(', ')', ',', '.', '=', '<', '>', '-', '1', '-0', '01', '1x', "'x'", "'", '_', '*', '999999999999999999',
             '1000000000000000000', '170141183460469231731687303715884105728', 'x' * 64, 'x' * 65]
BYTES = [b'\x00', b'\xff', b'\xc3', b'\xed\xa0\x80', b'\xef\xbb\xbf', b'\r', b'\n', b'\t', b'"', b"'", b'\\', b'\\u0041', b'\\uD800',
         b'<', b'>', b'#', b'.', b'@', b'-', b'_:', b' ', b'x', b'0', 'é'.encode(), b'{', b'}', b'(', b'^^']


def bytes_of(rng, content):
    """The bytes with one to three faults, or by chance none."""
    for _ in range(rng.choice([1, 1, 1, 2, 3])):
        at = rng.randint(0, len(content))
        end = min(len(content), at + rng.choice([1, 1, 2, 5, 20]))
        way = rng.randrange(6)
        if way == 0:
            content = content[:at]
        elif way == 1:
            content = content[:end] + content[at:]
        elif way == 2:
            content = content[:at] + content[end:]
        elif way == 3:
            content = content[:at] + rng.choice(BYTES) + content[at:]
        elif way == 4:
            content = content[:at] + rng.choice(BYTES) + content[at + 1:]
        elif at < len(content):
            content = content[:at] + bytes([content[at] ^ (1 << rng.randrange(8))]) + content[at + 1:]
    return content


def tokens_of(rng, tokens, words):
    """The tokens with one or two of them dropped, doubled, exchanged, or put in the place of others."""
    tokens = list(tokens)
    for _ in range(rng.choice([1, 1, 2])):
        at = rng.randrange(len(tokens) + 1)
        way = rng.randrange(6)
        if way == 0:
            tokens = tokens[:at]
        elif way == 1:
            tokens[at:at] = tokens[at:at + rng.randint(1, 4)]
        elif way == 2:
            del tokens[at:at + rng.choice([1, 1, 2])]
        elif way == 3 and at + 1 < len(tokens):
            tokens[at], tokens[at + 1] = tokens[at + 1], tokens[at]
        elif way == 4:
            tokens[at:at + 1] = [rng.choice(words)]
        else:
            tokens.insert(at, rng.choice(words))
    return tokens or [rng.choice(words)]
