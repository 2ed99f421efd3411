"""What is tried: each kind makes inputs from a generator and checks them by laws, which compare runs with runs.

Inputs are dicts of `files` (lists of data lines), `colouring` (lines), `query` (a tree), `second` (a group), `condition`,
`text` (bytes), `tables` (lines), `script` (a tree), `style` (a seed for how things are written) and further choices. A check raises Broken.
"""
import random
import re
from collections import Counter

from hostile import breaks, data, queries, scripts
from hostile.program import holds, same

LAYOUTS = [[], ['--columns', '1', '--reverse', '1'], ['--columns', '2', '--layout', 'hash', '--hashes', '1'],
           ['--columns', '3', '--reverse', '2', '--layout', 'hash', '--hashes', '4'],
           ['--columns', '5', '--reverse', '3', '--colouring', 'c']]
PIECES = ['1', '2', '7']
LETTERS = {'t': '\t', 'n': '\n', 'r': '\r', '"': '"', '\\': '\\'}


def store(rng, patterns=None, fewer=1):
    """Inputs with data, a colouring file and a query; few lines where the query has many patterns, so that answers stay small."""
    patterns = patterns or rng.choice([1, 1, 2, 2, 3, 3, 4, 5])
    most = {1: 60, 2: 40, 3: 18, 4: 10, 5: 6}[patterns] // fewer
    files = data.files(rng, most)
    words = queries.around(rng, data.triples_of(files))
    return {'files': files, 'colouring': data.colouring(rng, 5, 3), 'query': queries.query(rng, patterns, words),
            'second': queries.group(rng, 2, words)[0], 'condition': queries.condition(rng, words), 'style': rng.getrandbits(32),
            'layout': rng.randrange(len(LAYOUTS))}


def style_of(inputs):
    """A generator for how texts are written; none, where they are written plainly."""
    return random.Random(inputs['style']) if inputs['style'] else None


def files_of(inputs, query=None):
    """The contents of the files of inputs, by name, and the names of the data files."""
    names = [f'd{at}' for at in range(len(inputs['files']))]
    contents = {name: data.text_of(lines) for name, lines in zip(names, inputs['files'])}
    contents['c'] = b''.join(line + b'\n' for line in inputs['colouring'])
    if query is None:
        query = inputs['text'] if 'text' in inputs else queries.of(inputs['query'], style_of(inputs))
    contents['q'] = query
    return contents, names


def answer(program, inputs, query=None, options=None, command='query'):
    """A run over inputs, with another query or other options where they are given."""
    contents, names = files_of(inputs, query)
    options = LAYOUTS[inputs['layout']] if options is None else options
    return program.run([command, *options, *names, 'q'], contents)


def counts(program, inputs, options=None):
    contents, names = files_of(inputs)
    return program.run(['stats', *(LAYOUTS[inputs['layout']] if options is None else options), *names], contents)


def rows_of(run):
    return run.out.split(b'\n')[1:-1]


def changed(inputs, **others):
    return {**inputs, **others}


def cell_text(cell):
    return re.sub(r'\\(.)', lambda found: LETTERS[found.group(1)], cell[1:-1])


def term_of(kind, text, aux):
    """The spelling of a term whose class, text and second text stand in cells; the empty text for three nulls."""
    if kind == '.':
        holds(text == aux == '.', 'three nulls are one unbound variable', kind, text, aux)
        return ''
    if kind == '1':
        return '_:' + cell_text(text)
    if kind == '2':
        return '<' + re.sub(r'[\x00-\x20<>"{}|^`\\]', lambda found: f'\\u{ord(found.group()):04X}', cell_text(text)) + '>'
    if kind == '6':
        return text + '@' + cell_text(aux)
    kind_of = re.sub(r'[\x00-\x20<>"{}|^`\\]', lambda found: f'\\u{ord(found.group()):04X}', cell_text(aux))
    return text + ('' if kind_of == data.XSD + 'string' else f'^^<{kind_of}>')


def decoded(cells):
    """The lines of an answer that the cells of a shown script carry."""
    found = []
    for line in rows_of(cells):
        one, *rest = line.decode().split('\t')
        holds(one == '1' and len(rest) % 3 == 0, 'a row has the cell one and three for each variable', line)
        found.append('\t'.join(term_of(*rest[at:at + 3]) for at in range(0, len(rest), 3)).encode())
    return found


def check_answers(program, inputs, rng):
    """Pieces and layouts change no answer; what show puts out is run by exec, whose rows are the answer; the counts fit."""
    first = answer(program, inputs)
    for pieces in PIECES:
        same('pieces', first, answer(program, inputs, options=LAYOUTS[inputs['layout']] + ['--pieces', pieces]))
    for layout in LAYOUTS:
        same('layouts', first, answer(program, inputs, options=layout))
    shown = answer(program, inputs, command='show')
    holds((shown.code, shown.err) == (first.code, first.err), 'show refuses what query does', first, shown)
    if first.code:
        return
    for pieces in PIECES[1:]:
        same('pieces of show', shown, answer(program, inputs, options=LAYOUTS[inputs['layout']] + ['--pieces', pieces], command='show'))
    for pieces in PIECES:
        cells = program.run(['exec', '--pieces', pieces, 'f'], {'f': shown.out})
        holds(cells.code == 0, 'exec runs what show puts out', cells)
        holds(decoded(cells) == rows_of(first), 'the rows of the shown script are the answer', decoded(cells)[:9], rows_of(first)[:9])


def check_counts(program, inputs, rng):
    """Counts: the same for all pieces, triples and terms for all layouts, and as many as the query for all triples and the tables say."""
    first = counts(program, inputs)
    for pieces in PIECES:
        same('pieces of stats', first, counts(program, inputs, LAYOUTS[inputs['layout']] + ['--pieces', pieces]))
    for layout in LAYOUTS:
        other = counts(program, inputs, layout)
        holds(other.out.split(b'\n')[:2] == first.out.split(b'\n')[:2], 'layouts have the same triples and terms', first, other)
    every = answer(program, inputs, b'SELECT * { ?s ?p ?o }')
    holds(first.out.startswith(b'triples %d\n' % len(rows_of(every))), 'as many triples as the query for all gives', first, every)
    shown = answer(program, inputs, b'SELECT * { }', command='show').out.split(b'\n-- sql\n')[0].decode()
    tables = {}
    for part in shown.split('\ntable\t')[1:]:
        head, *rows = part.split('\n')
        tables[head.split('\t')[0]] = rows
    holds(b'terms %d\n' % len(tables['TERM']) in first.out, 'a row for each term', first, tables['TERM'])
    for side, rows, lists in (('direct', 'DPH', 'DS'), ('reverse', 'RPH', 'RS')):
        told = re.search(rf'{side} columns \d+ rows (\d+) lists (\d+)', first.out.decode())
        numbers = len(tables[rows]), len({row.split('\t')[0] for row in tables[lists]})
        holds(tuple(int(number) for number in told.groups()) == numbers, 'rows and lists are those of the tables', first, numbers)


def check_exchanges(program, inputs, rng):
    """Neighbouring lines of one sign change places."""
    first = answer(program, inputs)
    files = [list(lines) for lines in inputs['files']]
    for lines in files:
        for at in range(len(lines) - 1):
            if (lines[at].mark == 'D') == (lines[at + 1].mark == 'D') and rng.random() < 0.5:
                lines[at], lines[at + 1] = lines[at + 1], lines[at]
    other = changed(inputs, files=files)
    same('exchanged lines', first, answer(program, other))
    same('exchanged lines, triples and terms', counts(program, inputs).out.split(b'\n')[:2], counts(program, other).out.split(b'\n')[:2])


def check_lines(program, inputs, rng):
    """Lines written otherwise: doubled, with marks, other ends, blanks and comments, and cut into other files."""
    first, shown = answer(program, inputs), answer(program, inputs, command='show')
    ends = []
    for lines in inputs['files']:
        found = []
        for line in lines:
            found += [line] * (2 if line.triple and rng.random() < 0.3 else 1)
            found += [data.Line('', None, b'#')] if rng.random() < 0.1 else []
        ends.append([line._replace(text=line.text + rng.choice([b'', b'', b'\r', b'\r\r'])) for line in found])
    same('doubled lines and other ends', first, answer(program, changed(inputs, files=ends)))
    same('doubled lines and other ends, shown', shown, answer(program, changed(inputs, files=ends), command='show'))
    if not any(b'_:' in line.text for lines in inputs['files'] for line in lines):
        flat = [line for lines in inputs['files'] for line in lines]
        cut = rng.randint(0, len(flat))
        same('other files', shown, answer(program, changed(inputs, files=[flat]), command='show'))
        same('other files', shown, answer(program, changed(inputs, files=[flat[:cut], flat[cut:]]), command='show'))


def check_added(program, inputs, rng):
    """Triples that are added and then deleted, and present ones that are added again."""
    first = answer(program, inputs)
    files = [list(lines) for lines in inputs['files']]
    for number, iri in enumerate(data.FRESH):
        verb = rng.choice(data.PREDICATES)
        new = rng.choice([(iri, verb, data.object_of(rng)), (rng.choice(data.SUBJECTS), verb, iri)])
        lines = files[rng.randrange(len(files))]
        added = rng.randint(0, len(lines))
        lines.insert(added, data.line_of('A', new))
        lines.insert(rng.randint(added + 1, len(lines)), data.line_of('D', new))
    same('added and deleted', first, answer(program, changed(inputs, files=files)))


def check_renamed(program, inputs, rng):
    """A query and itself with other names of variables, of one length, so that places stay."""
    some_tokens = inputs['tokens'] if 'tokens' in inputs else queries.tokens(inputs['query'])
    old = sorted({token[1:] for token in some_tokens if re.fullmatch(r'[?$]\w+', token)})
    new = {name: 'xyzuvwklmnrstqgh'[at] * len(name) for at, name in enumerate(old)}
    names = {mark + name: mark + new[name] for name in old for mark in '?$'}
    first = answer(program, inputs, queries.text(some_tokens, style_of(inputs)))
    other = answer(program, inputs, queries.text([names.get(token, token) for token in some_tokens], style_of(inputs)))
    holds((first.code, first.err) == (other.code, other.err), 'other names, refused', first, other)
    if first.code == 0:
        head = [names[name.decode()].encode() for name in first.out.split(b'\n')[0].split(b'\t') if name]
        holds(other.out.split(b'\n')[0] == b'\t'.join(head), 'other names, the head', first, other)
        holds(rows_of(first) == rows_of(other), 'other names', first, other)


def plain(inputs, group, head=None, **others):
    """The inputs with a query of this group that shows all variables by name."""
    head = head or queries.VARIABLES + ['?p']
    return changed(inputs, query={'head': head, 'distinct': False, 'group': group, 'keys': [], 'slice': [], **others})


def check_unions(program, inputs, rng):
    """`{A} UNION {B}` has the rows of A and of B, in either order of the two."""
    one, other = inputs['query']['group'], inputs['second']
    whole = answer(program, plain(inputs, [('unions', [one, other])]))
    turned = answer(program, plain(inputs, [('unions', [other, one])]))
    same('a union turned', whole, turned)
    parts = rows_of(answer(program, plain(inputs, one))) + rows_of(answer(program, plain(inputs, other)))
    holds(Counter(rows_of(whole)) == Counter(parts), 'a union has the rows of its parts', whole, parts)


def check_groups(program, inputs, rng):
    """Groups written otherwise: an empty OPTIONAL, a group in brackets, filters moved, patterns exchanged."""
    group = inputs['query']['group']
    first = answer(program, plain(inputs, group))
    same('an empty OPTIONAL', first, answer(program, plain(inputs, group + [('optional', [])])))
    same('a group in a group', first, answer(program, plain(inputs, [('unions', [group])])))
    moved = [part for part in group if part[0] == 'filter'] + [part for part in group if part[0] != 'filter']
    if all(part[0] in ('filter', 'triples') for part in group) or not any(part[0] == 'filter' for part in group):
        same('filters moved', first, answer(program, plain(inputs, moved)))
    turned = [(kind, rng.sample(what, len(what)) if kind == 'triples' else what) for kind, what in group]
    same('patterns exchanged', first, answer(program, plain(inputs, turned)))


def check_filters(program, inputs, rng):
    """A condition and its negation keep different rows; true keeps all; a condition twice is the condition."""
    group, test = [('unions', [inputs['query']['group']])], inputs['condition']
    every = answer(program, plain(inputs, group))
    kept = answer(program, plain(inputs, group + [('filter', test)]))
    other = answer(program, plain(inputs, group + [('filter', ('not', test))]))
    more = Counter(rows_of(kept) + rows_of(other)) - Counter(rows_of(every))
    holds(not more, 'a condition and its negation', every, kept, other)
    same('a true condition', every, answer(program, plain(inputs, group + [('filter', ('value', ('term', 'true')))])))
    same('a condition twice', kept, answer(program, plain(inputs, group + [('filter', test), ('filter', test)])))
    same('a condition or itself', kept, answer(program, plain(inputs, group + [('filter', ('or', [test, test]))])))
    same('a condition twice negated', kept, answer(program, plain(inputs, group + [('filter', ('not', ('not', test)))])))


def check_modifiers(program, inputs, rng):
    """DISTINCT keeps the first of equal rows; OFFSET drops rows and LIMIT keeps some."""
    query = inputs['query']
    whole = rows_of(answer(program, changed(inputs, query={**query, 'distinct': False, 'slice': []})))
    rows = list(dict.fromkeys(whole))
    holds(rows_of(answer(program, changed(inputs, query={**query, 'distinct': True, 'slice': []}))) == rows, 'DISTINCT', whole)
    for skip, most in ((0, 0), (1, 2), (2, 1), (0, len(rows)), (len(rows), 3), (rng.randint(0, 5), rng.randint(0, 5))):
        for distinct, these in ((False, whole), (True, rows)):
            cut = changed(inputs, query={**query, 'distinct': distinct, 'slice': [('OFFSET', skip), ('LIMIT', most)]})
            holds(rows_of(answer(program, cut)) == these[skip:skip + most], 'OFFSET and LIMIT', skip, most, these)


def check_refused_query(program, inputs, rng):
    """A broken query: query and show say the same under each layout, and what stands behind the place changes nothing."""
    first = answer(program, inputs)
    for options in LAYOUTS[:2]:
        same('a refused query, by layouts', first, answer(program, inputs, options=options))
    shown = answer(program, inputs, command='show')
    holds((shown.code, shown.err) == (first.code, first.err), 'show refuses what query does', first, shown)
    place = first.place() if first.code == 4 else None
    if place is None:
        return
    text, cut = inputs['text'], queries.spans(inputs['text'])
    if cut is None:
        return
    spans, bad = cut
    if bad is not None:
        holds(first.err == b'db2rdf: bad query: syntax at %d\n' % bad, 'the first bad place', first, bad)
        same('cut behind a bad place', first, answer(program, inputs, text[:bad + 1]))
        return
    ends = dict(spans)
    holds(place in ends or place == len(text), 'a place at which a token begins', first, place)
    if place in ends:
        for tail in (b'', b' ', b' } } ( . SELECT', b'\n?x ?y ?z # "'):
            same('cut behind the place', first, answer(program, inputs, text[:ends[place]] + tail))


def broken_data(rng):
    inputs = store(rng)
    at = rng.randrange(len(inputs['files']))
    inputs['files'][at] = [data.Line('', None, breaks.bytes_of(rng, line.text)) if rng.random() < 0.15 else line
                           for line in inputs['files'][at]]
    if rng.random() < 0.1:
        inputs['files'][at].append(data.Line('', None, b'#' + b'x' * rng.choice([65534, 65535, 65536])))
    return inputs


def cut_behind(content, line):
    """A content up to the end of a line, whose line feed is kept."""
    parts = content.split(b'\n')
    return b'\n'.join(parts[:line]) + (b'\n' if line < len(parts) else b'')


def check_refused_data(program, inputs, rng):
    """Broken data: all commands say the same, and what stands behind the line changes nothing."""
    first = answer(program, inputs)
    for options in LAYOUTS:
        same('refused data, by layouts', first, answer(program, inputs, options=options))
    told = counts(program, inputs)
    holds(first.code == 4 or (told.code, told.err) == (first.code, first.err), 'stats refuses what query does', first, told)
    if first.code != 3:
        return
    number = re.search(rb'of file (\d+)', first.err)
    contents, names = files_of(inputs)
    at = int(number.group(1)) if number else 0
    for tail in (b'', b'x', b'\xff\n', b'<u:a> <u:p> <u:b> .\n'):
        contents[names[at]] = cut_behind(data.text_of(inputs['files'][at]), first.place()) + tail
        for later in names[at + 1:]:
            contents[later] = b'x'
        same('cut behind the bad line', first, program.run(['query', *LAYOUTS[inputs['layout']], *names, 'q'], contents))


def check_refused_colouring(program, inputs, rng):
    """A broken colouring file: refused before data and query, and what stands behind the line changes nothing."""
    contents, names = files_of(inputs)
    words = ['query', *LAYOUTS[4], *names, 'q']
    first = program.run(words, contents)
    if first.code != 10:
        return
    contents['c'] = cut_behind(contents['c'], first.place()) + rng.choice([b'', b'x', b'\xff'])
    same('cut behind the bad line of a colouring file', first, program.run(words, contents))
    contents.update({name: b'x' for name in names}, q=b'')
    same('a colouring file goes first', first, program.run(words, contents))


def sql_inputs(rng):
    return {'tables': scripts.tables(rng), 'script': scripts.script(rng), 'style': rng.getrandbits(32)}


def cells(program, inputs, sql=None, options=()):
    sql = scripts.text(scripts.tokens(inputs['script'])) if sql is None else sql
    return program.run(['exec', *options, 'f'], {'f': scripts.file_of(inputs['tables'], sql)})


def check_scripts(program, inputs, rng):
    """Pieces, blanks and names change no rows; UNION ALL appends; a step has the rows of its body; LIMIT, OFFSET and DISTINCT."""
    script = inputs['script']
    first = cells(program, inputs)
    holds(first.code == 0, 'a script that binds is run', first)
    for pieces in PIECES:
        same('pieces of exec', first, cells(program, inputs, options=('--pieces', pieces)))
    some_tokens = scripts.tokens(script)
    same('other blanks', first, cells(program, inputs, scripts.text(some_tokens, rng)))
    others = [re.sub(r'^k(\d+)$', r'alias_\1', re.sub(r'^w(\d+)$', r'step_\1', token)) for token in some_tokens]
    same('other names of steps and sources', first, cells(program, inputs, scripts.text(others)))
    last = script['last']
    if len(last) > 1:
        parts = [cells(program, changed(inputs, script={**script, 'last': [core]})) for core in last]
        holds(rows_of(first) == [row for part in parts for row in rows_of(part)], 'UNION ALL appends', first, parts)
    names = [name for _, name in last[0]['items']]
    outer = {'distinct': False, 'items': [(['o', '.', name], name) for name in names], 'sources': [(False, 'whole', 'o', None)],
             'where': None, 'keys': [], 'limit': None, 'offset': None}
    wrapped = {'steps': script['steps'] + [('whole', last)], 'last': [outer]}
    same('a step has the rows of its body', first, cells(program, changed(inputs, script=wrapped)))
    if len(last) == 1:
        def ended(**others):
            return rows_of(cells(program, changed(inputs, script={**script, 'last': [{**last[0], **others}]})))
        whole = ended(distinct=False, limit=None, offset=None)
        for distinct, rows in ((False, whole), (True, list(dict.fromkeys(whole)))):
            skip, most = rng.randint(0, 3), rng.randint(0, 4)
            cut = ended(distinct=distinct, limit=most, offset=skip)
            holds(cut == rows[skip:skip + most], 'LIMIT, OFFSET and DISTINCT of a script', whole, skip, most, cut)


def check_refused_sql(program, inputs, rng):
    """A broken script: what stands behind the place changes nothing."""
    sql = inputs['text']
    first = cells(program, inputs, sql)
    same('pieces of exec', first, cells(program, inputs, sql, ('--pieces', '7')))
    if first.code == 9 and first.err.startswith(b'db2rdf: bad sql: syntax'):
        place, end = first.place(), scripts.end_of_token(sql, first.place())
        if end is None:
            same('cut behind the place of a script', first, cells(program, inputs, sql[:place + 1]))
            return
        for tail in (b'', b' ', b' AS AS', b" 'x"):
            same('cut behind the place of a script', first, cells(program, inputs, sql[:end] + tail))


def check_refused_tables(program, inputs, rng):
    """Broken tables: what stands behind the line changes nothing."""
    content = inputs['text']
    first = program.run(['exec', 'f'], {'f': content})
    same('pieces of exec', first, program.run(['exec', '--pieces', '2', 'f'], {'f': content}))
    if first.code == 8:
        cut = cut_behind(content, first.place())
        same('cut behind the bad line of tables', first, program.run(['exec', 'f'], {'f': cut}))
        if cut.endswith(b'\n') and cut.count(b'\n') == first.place():
            longer = cut + rng.choice([b'x', b'-- sql\n', b'\xff'])
            same('cut behind the bad line of tables', first, program.run(['exec', 'f'], {'f': longer}))


def check_limits(program, inputs, rng):
    """A query at a limit is read, and one more is refused by the limit's name."""
    name, at_most, more = inputs['limit']
    one, other = answer(program, inputs, at_most), answer(program, inputs, more)
    holds(one.code == 0, 'what is equal to a limit is read', name, one)
    holds(other.code == 5 and other.err == b'db2rdf: limit: %s\n' % name.encode(), 'one more is refused', name, other)
    shown = answer(program, inputs, at_most, command='show')
    same('a script at a limit', decoded(program.run(['exec', 'f'], {'f': shown.out})), rows_of(one))


def limit_inputs(rng):
    inputs = store(rng, 1)
    inputs['files'] = [data.lines(rng, 2)]
    p = rng.choice(data.PREDICATES[:3])

    def with_count(count, name):
        if name == 'patterns':
            return 'SELECT * { ' + f'?a {p} ?b . ' * count + '}'
        if name == 'groups':
            return 'SELECT * ' + '{' * count + '}' * count
        if name == 'blocks':
            return 'SELECT * {' + '{}' * (count - 1) + '}'
        if name == 'depth':
            return f'SELECT * {{ ?a {p} ?b FILTER' + '(' * count + '?b' + ')' * count + '}'
        if name == 'keys':
            return f'SELECT * {{ ?a {p} ?b }} ORDER BY' + rng.choice([' ?a', ' DESC(?b)']) * count
        if name == 'digits':
            return f'SELECT * {{ ?a {p} ?b }} LIMIT 000' + '9' * count
        if name == 'variables':
            return 'SELECT ' + ' '.join(f'?v{number}' for number in range(count)) + f' {{ ?v0 {p} ?v1 }}'
        front = f'SELECT * {{ ?a {p} ?b }}'
        return front + ' ' * (count - len(front))
    name, most = rng.choice([('patterns', 48), ('groups', 24), ('blocks', 512), ('depth', 48), ('keys', 64), ('digits', 18),
                             ('variables', 64), ('query', 65536)])
    return changed(inputs, limit=(name, with_count(most, name).encode(), with_count(most + 1, name).encode()))


def check_depth(program, inputs, rng):
    """A script at the greatest depth is run, and one level more is too deep."""
    for levels, code in ((1023, 0), (1024, 9)):
        run = cells(program, inputs, b'SELECT ' + inputs['front'] * levels + inputs['core'] + inputs['back'] * levels + b' AS a')
        holds(run.code == code, 'the depth of a script', levels, run)
        holds(code == 0 or run.err == b'db2rdf: bad sql: too deep\n', 'a script that is too deep', run)


def depth_inputs(rng):
    front, core, back = rng.choice([(b'(NOT ', b'TRUE', b')'), (b'(TRUE AND ', b'FALSE', b')'), (b'COALESCE(', b'1', b', 1)'),
                                    (b'CASE WHEN TRUE THEN ', b'1', b' ELSE 1 END'), (b'(', b'1', b' IS NULL)')])
    return {'tables': scripts.tables(rng), 'front': front, 'core': core, 'back': back}


def check_words(program, inputs, rng):
    """Any words: words that are no command are so whatever the files hold."""
    contents, _ = files_of(inputs)
    words = inputs['words']
    first = program.run(words, contents)
    bare = program.run(words, {})
    holds((first.code == 2) == (bare.code == 2), 'words are judged before files', words, first, bare)
    if words and words[0] in ('plan', 'drill') and first.code == 20:
        same('not built whatever the files hold', first, bare)


def word_inputs(rng):
    inputs = store(rng)
    numbers = ['0', '1', '8', '32', '33', '08', '-1', '+1', '64', '65', '4', '5', 'x', '', '18446744073709551617', '1000', '100000',
               '100001']
    words = [rng.choice(['query', 'show', 'stats', 'exec', 'plan', 'drill', 'Query', '', '--columns', 'update'])]
    for _ in range(rng.choice([0, 0, 1, 1, 2, 3])):
        words += [rng.choice(['--columns', '--reverse', '--hashes', '--pieces', '--layout', '--colouring', '--other', '--']),
                  rng.choice(numbers + ['hash', 'colour', 'c', '--c', 'missing'])]
    names = [rng.choice(['d0', 'q', 'c', 'missing', '', '--q', 'é', '7', '-'])
             for _ in range(rng.choice([0, 1, 2, 2, 2, 3, 16, 17, 18]))]
    return changed(inputs, words=words + names)


def check_outside(program, inputs, rng):
    """Files that can't be read, outputs that can't be written, and one file for two names."""
    contents, names = files_of(inputs)
    options = LAYOUTS[inputs['layout']]
    words = ['query', *options, *names, 'q']
    first = program.run(words, contents)
    stuck = program.run(words, contents, full='out')
    holds(stuck.code == (7 if first.code == 0 else first.code), 'an output on which no write succeeds', first, stuck)
    silent = program.run(words, contents, full='err')
    holds((silent.code, silent.out) == (first.code, first.out), 'an error output on which no write succeeds', first, silent)
    for gone in (['c'] if '--colouring' in options else []) + names[:1] + ['q']:
        left = {name: content for name, content in contents.items() if name != gone}
        run = program.run(words, left)
        told = run.err == b'db2rdf: cannot read %s\n' % gone.encode()
        holds(run.code in (3, 5, 6, 10) and (told or run.code != 6), 'a file that is not there', run)
    folder = program.run(['stats', '/'], {})
    holds(folder.err == b'db2rdf: cannot read /\n', 'a folder is no file', folder)
    both = changed(inputs, files=[inputs['files'][0]])
    text = rng.choice([data.text_of(both['files'][0]), queries.of(inputs['query']), b'', b'# x\n'])
    apart = program.run(['query', 'd0', 'q'], {'d0': text, 'q': text})
    same('one file for data and query', apart, program.run(['query', 'q', 'q'], {'q': text}))


def check_rooms(program, inputs, rng):
    """Outputs that take only so many bytes: a front of the same text stands, and the code says so; of the error output it doesn't."""
    contents, names = files_of(inputs)
    command = rng.choice(['query', 'show', 'stats', 'exec'])
    words = [command, *LAYOUTS[1], *names] + (['q'] if command != 'stats' else [])
    if command == 'exec':
        contents = {'f': scripts.file_of([b'tables 2'], b'SELECT 1 AS a')}
        words = ['exec', 'f']
    first = program.run(words, contents)
    full = len(first.out)
    if first.code == 0:
        for room in range(full + 2) if full < 40 else sorted({0, 1, full - 1, full, full + 1, *(rng.randint(0, full) for _ in range(20))}):
            run = program.run_into_room(words, room, 'out')
            wanted = first if room >= full else (7, first.out[:room], b'db2rdf: cannot write\n')
            holds(tuple(run) == tuple(wanted), 'a front of the text stands in the room', words, room, run, first)
    for room in range(0, len(first.err), 5):
        run = program.run_into_room(words, room, 'err')
        holds(tuple(run) == (first.code, first.out, first.err[:room]), 'a front of the line stands in the room', words, room, run, first)


def broken_query(rng):
    inputs = store(rng)
    some_tokens = queries.tokens(inputs['query'])
    if rng.random() < 0.5:
        inputs['text'] = queries.text(breaks.tokens_of(rng, some_tokens, breaks.QUERY_WORDS), rng)
    else:
        inputs['text'] = breaks.bytes_of(rng, queries.text(some_tokens, rng))
    return inputs


def broken_names(rng):
    inputs = store(rng)
    return changed(inputs, tokens=breaks.tokens_of(rng, queries.tokens(inputs['query']), breaks.QUERY_WORDS))


def broken_colouring(rng):
    inputs = store(rng)
    lines = inputs['colouring'] + data.colouring(rng, 7, 5)
    return changed(inputs, colouring=[breaks.bytes_of(rng, line) if rng.random() < 0.2 else line for line in lines])


def broken_sql(rng):
    inputs = sql_inputs(rng)
    some_tokens = scripts.tokens(inputs.pop('script'))
    if rng.random() < 0.6:
        return changed(inputs, text=scripts.text(breaks.tokens_of(rng, some_tokens, breaks.SQL_WORDS), rng))
    return changed(inputs, text=breaks.bytes_of(rng, scripts.text(some_tokens)))


def broken_tables(rng):
    return {'text': breaks.bytes_of(rng, scripts.file_of(scripts.tables(rng), b'SELECT 1 AS a'))}


# The kinds, each with how often it is tried among the others, how its inputs are made, and its laws.
KINDS = {
    'answers': (10, store, check_answers),
    'counts': (3, store, check_counts),
    'exchanged lines': (4, store, check_exchanges),
    'lines written otherwise': (3, store, check_lines),
    'added and deleted': (4, store, check_added),
    'other names': (3, store, check_renamed),
    'other names, broken': (3, broken_names, check_renamed),
    'unions': (4, lambda rng: store(rng, 3), check_unions),
    'groups': (4, store, check_groups),
    'filters': (5, lambda rng: store(rng, rng.choice([1, 2, 3])), check_filters),
    'modifiers': (3, store, check_modifiers),
    'scripts': (6, sql_inputs, check_scripts),
    'broken queries': (10, broken_query, check_refused_query),
    'broken data': (5, broken_data, check_refused_data),
    'broken colouring files': (4, broken_colouring, check_refused_colouring),
    'broken scripts': (6, broken_sql, check_refused_sql),
    'broken tables': (5, broken_tables, check_refused_tables),
    'limits': (2, limit_inputs, check_limits),
    'depth': (1, depth_inputs, check_depth),
    'words': (5, word_inputs, check_words),
    'files and outputs': (3, store, check_outside),
    'rooms': (1, lambda rng: broken_query(rng) if rng.random() < 0.3 else store(rng), check_rooms),
}
