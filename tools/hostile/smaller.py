"""Smaller inputs, one step at a time."""


def shorter(items):
    """A list with a part left out: halves first, then single items."""
    size = len(items) // 2
    while size:
        for at in range(0, len(items), size):
            yield items[:at] + items[at + size:]
        size //= 2
    if len(items) == 1:
        yield []


def groups(elements):
    """A group with a part left out, or with a part of a part left out."""
    yield from shorter(elements)
    for at, (kind, what) in enumerate(elements):
        if kind == 'triples':
            inner = (part for part in shorter(what) if part)
        elif kind == 'optional':
            inner = groups(what)
        elif kind == 'unions':
            inner = unions(what)
        else:
            inner = conditions(what)
        for part in inner:
            yield elements[:at] + [(kind, part)] + elements[at + 1:]


def unions(members):
    yield from (part for part in shorter(members) if part)
    for at, member in enumerate(members):
        for part in groups(member):
            yield members[:at] + [part] + members[at + 1:]


def conditions(condition):
    if condition[0] in ('and', 'or'):
        yield from condition[1]
        for at, inner in enumerate(condition[1]):
            for part in conditions(inner):
                yield (condition[0], condition[1][:at] + [part] + condition[1][at + 1:])
    elif condition[0] == 'not':
        yield condition[1]
        for part in conditions(condition[1]):
            yield ('not', part)


def query_trees(query):
    for group in groups(query['group']):
        yield {**query, 'group': group}
    for name in ('keys', 'slice'):
        for part in shorter(query[name]):
            yield {**query, name: part}
    for name, least in (('distinct', False), ('head', None)):
        if query[name] != least:
            yield {**query, name: least}


def cores(core):
    for name, least in (('where', None), ('limit', None), ('offset', None), ('distinct', False)):
        if core[name] not in (least, None):
            yield {**core, name: least}
    for part in shorter(core['keys']):
        yield {**core, 'keys': part}
    if len(core['sources']) > 1:
        yield {**core, 'sources': core['sources'][:-1]}


def script_trees(script):
    for part in shorter(script['steps']):
        yield {**script, 'steps': part}
    for part in shorter(script['last']):
        if part:
            yield {**script, 'last': part}
    for at, core in enumerate(script['last']):
        for part in cores(core):
            yield {**script, 'last': script['last'][:at] + [part] + script['last'][at + 1:]}


def inputs_of(inputs):
    """Inputs of which one thing is smaller."""
    if inputs.get('style'):
        yield {**inputs, 'style': 0}
    for at, lines in enumerate(inputs.get('files', [])):
        if len(inputs['files']) > 1:
            yield {**inputs, 'files': inputs['files'][:at] + inputs['files'][at + 1:]}
        for part in shorter(lines):
            yield {**inputs, 'files': inputs['files'][:at] + [part] + inputs['files'][at + 1:]}
    for name in ('colouring', 'tables', 'tokens', 'text'):
        for part in shorter(inputs.get(name, [])):
            yield {**inputs, name: part}
    for name, parts in (('query', query_trees), ('script', script_trees), ('second', groups), ('condition', conditions)):
        if name in inputs:
            for part in parts(inputs[name]):
                yield {**inputs, name: part}
