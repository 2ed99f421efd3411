"""The program as a process, and what holds for each of its runs: a listed code, a listed line, and a place that is in the text."""
import os
import re
import resource
import subprocess
from collections import Counter
from typing import NamedTuple

USAGE = (b'db2rdf: usage: db2rdf query|show|plan [options] DATA... QUERY; stats [options] DATA...; exec [--pieces N] FILE; '
         b'drill [options] N SEED\n')
LINES = {
    3: rb'db2rdf: bad data at line [1-9]\d*( of file ([1-9]|1[0-5]))?\n',
    4: rb'db2rdf: bad query: (not in fragment: [A-Z][A-Za-z]* at \d+|syntax at \d+|unknown prefix at \d+)\n',
    5: rb'db2rdf: limit: (file|line|query|patterns|variables|groups|blocks|depth|keys|digits|terms|triples)\n',
    7: rb'db2rdf: cannot write\n',
    8: rb'db2rdf: bad tables at line [1-9]\d*\n',
    9: rb'db2rdf: bad sql: (syntax at \d+|too deep|(no table|no column|twice|kind clash|not truth) in select [1-9]\d*)\n',
    10: rb'db2rdf: bad colouring at line [1-9]\d*\n',
    20: rb'db2rdf: not built yet\n',
    70: rb'db2rdf: no memory\n',
}
OF_DATA = {0, 2, 3, 5, 6, 7, 10, 70}
CODES = {'query': OF_DATA | {4}, 'show': OF_DATA | {4}, 'plan': OF_DATA | {4, 20}, 'stats': OF_DATA, 'exec': {0, 2, 5, 6, 7, 8, 9, 70},
         'drill': {0, 2, 7, 20, 70}}
SECONDS = 60


class Broken(Exception):
    """A law that doesn't hold: its name, and what came."""

    def __init__(self, law, told):
        super().__init__(f'{law}: {told}')
        self.law = law


class NoMemory(Exception):
    """The program had no memory, so nothing can be said."""


class Run(NamedTuple):
    code: int
    out: bytes
    err: bytes

    def place(self):
        """The number that the line on the error output names last, or none."""
        numbers = re.findall(rb'(?:at|line) (\d+)', self.err)
        return int(numbers[0]) if numbers else None


def holds(true, law, *told):
    if not true:
        raise Broken(law, ' '.join(repr(part) for part in told)[:2000])


def same(law, one, other):
    """Both runs ended alike."""
    holds(one == other, law, one, other)


class Program:
    """Runs the program in the current folder, and counts."""

    def __init__(self, path):
        self.path = path
        self.runs = 0
        self.codes = Counter()
        self.written = {}

    def put(self, files):
        for name, content in files.items():
            if self.written.get(name) != content:
                with open(name, 'wb') as file:
                    file.write(content)
                self.written[name] = content

    def run(self, words, files, full=None):
        """A run over these files alone; `full` is `out` or `err`, if that output is one on which every write fails."""
        for name in [name for name in self.written if name not in files]:
            os.remove(name)
            del self.written[name]
        self.put(files)
        with open('/dev/full', 'wb') as nowhere:
            out = nowhere if full == 'out' else subprocess.PIPE
            err = nowhere if full == 'err' else subprocess.PIPE
            try:
                done = subprocess.run([self.path, *words], stdin=subprocess.DEVNULL, stdout=out, stderr=err, timeout=SECONDS,
                                      close_fds=False)
            except subprocess.TimeoutExpired:
                raise Broken('each run ends', f'{words} ran for more than {SECONDS} s') from None
        self.runs += 1
        self.codes[done.returncode] += 1
        run = Run(done.returncode, done.stdout or b'', done.stderr or b'')
        told = (words, run)
        holds(run.code in CODES.get(words[0] if words else '', {2}) or (run.code == 2), 'a listed code', *told)
        holds(run.code in (0, 7) or run.out == b'', 'nothing is written under a refusal', *told)
        if run.code == 70:
            raise NoMemory()
        if full != 'err':
            self.check_line(words, files, run)
        if run.code == 0 and full != 'out':
            check_form(words, run)
        return run

    def run_into_room(self, words, room, which):
        """A run over the files of the last one, of which one output, `out` or `err`, is a file that takes so many bytes."""
        soft, hard = resource.getrlimit(resource.RLIMIT_FSIZE)
        with open('output', 'w+b') as output:
            resource.setrlimit(resource.RLIMIT_FSIZE, (room, hard))
            try:
                streams = {'stdout': output, 'stderr': subprocess.PIPE} if which == 'out' else {'stdout': subprocess.PIPE, 'stderr': output}
                done = subprocess.run([self.path, *words], stdin=subprocess.DEVNULL, timeout=SECONDS, restore_signals=False, **streams)
            finally:
                resource.setrlimit(resource.RLIMIT_FSIZE, (soft, hard))
            output.seek(0)
            text = output.read()
        os.remove('output')
        self.runs += 1
        self.codes[done.returncode] += 1
        if done.returncode == 70:
            raise NoMemory()
        return Run(done.returncode, text, done.stderr) if which == 'out' else Run(done.returncode, done.stdout, text)

    def check_line(self, words, files, run):
        names = file_names(words)
        if run.code == 0:
            wanted = run.err == b''
        elif run.code == 2:
            wanted = run.err == USAGE
        elif run.code == 6:
            wanted = run.err in [b'db2rdf: cannot read ' + name.encode() + b'\n' for name in names]
        else:
            wanted = re.fullmatch(LINES[run.code], run.err) is not None
        holds(wanted, 'the line of its code', words, run)
        place = run.place()
        if place is None:
            return
        text = {3: None, 4: files.get(names[-1]), 8: files.get(names[-1]), 9: files.get(names[-1]), 10: files.get(names[0])}[run.code]
        if run.code == 3:
            data = names[1:-1] if '--colouring' in words else names[:-1] if words[0] != 'stats' else names
            if words[0] == 'stats' and '--colouring' in words:
                data = names[1:]
            number = re.search(rb'of file (\d+)', run.err)
            text = files.get(data[int(number.group(1)) if number else 0])
        if text is None:
            return
        if run.code == 9:
            text = text.split(b'-- sql\n', 1)[1]
        most = len(text) if run.code in (4, 9) else text.count(b'\n') + 1
        holds(place <= most, 'the place is in the text', words, run, most)


def file_names(words):
    """The names of the files of a command, that of --colouring first."""
    names, colouring, at = [], [], 1
    while at < len(words) and words[at].startswith('--'):
        if words[at] == '--colouring':
            colouring = words[at + 1:at + 2]
        at += 2
    names = list(words[at:])
    return colouring + names


TERM = r'(?:<[^<>"{}|^`\x00-\x20]*>|_:[^\t]+|"(?:[^"\\\t\r\n]|\\[tnr"\\])*"(?:@[a-z]+(?:-[a-z0-9]+)*|\^\^<[^<>"{}|^`\x00-\x20]*>)?)?'
CELL = r'(?:\.|T|F|-?\d+|"(?:[^"\\\t\r\n]|\\[tnr"\\])*")'
COUNTS = re.compile(rb'triples \d+\nterms \d+\n(?:(?:direct|reverse) columns \d+ rows \d+ lists \d+ spilled \d+\n){2}')


def check_form(words, run):
    """What a whole answer looks like."""
    text = run.out.decode('utf-8')
    holds(text.endswith('\n'), 'the answer ends with a line feed', words, run)
    if words[0] in ('query', 'exec'):
        head, *rows = text[:-1].split('\n')
        width = head.count('\t')
        cell = TERM if words[0] == 'query' else CELL
        row = re.compile('\t'.join([cell] * (width + 1)))
        for line in rows:
            holds(row.fullmatch(line), 'a row of the answer has its form', words, line)
    elif words[0] == 'stats':
        holds(COUNTS.fullmatch(run.out), 'the counts have their form', words, run)
    elif words[0] == 'show':
        holds(text.startswith('tables 2\n') and '\n-- sql\n' in text, 'tables and a script are shown', words)
