#!/usr/bin/env python3
"""Turns a folder of outside vectors into the data files of the program `vectors`.

    python3 tools/vectors.py VECTORS_FOLDER crates/vectors/data

VECTORS_FOLDER has calls.txt, a library call with its answer to a line, and levels/NNN.sag, a problem file,
with levels/NNN.out, the text that `levels` prints for it; a README.md in it or above it gives the format.
The script reads them as text and knows nothing of what a call does. It writes calls.bin and levels.bin:

- A number is a byte n, 0 to 8, and then n bytes, highest first.
- A file is: how many cases of each kind it holds, a number for each kind; the store's length, a number;
  the store's bytes; the cases, each a row of numbers. What is no number stands in the store, once, and
  a case has two numbers for it, where it starts in the store and how many bytes it has.
- calls.bin has ten kinds, in the order of KINDS. A case has the values of CALL in their order, 28 numbers,
  since `file`, `edits`, `list` and `edits2` are parts of the store. `graph` is 0 where the line has none,
  1 for the memory as the build left it, cut to `words`, 2 for a fill by `base` and `mask`; `edits` is a row
  of pairs of numbers, a word's index and what is xored to it; `list` is a run's actions, a byte each, or a
  page's goals, a build's possible sets or the weights of the states, a row of numbers, how many and then each.
  Where a line has two graphs, `words` to `edits` are of the sure sets, and `words2` to `edits2` the same of the
  possible ones, with the memory as the build for possible sets left it. `numerator` and `denominator` are those
  of the share. `answer` is the answer's place in ANSWERS, `first` and `second` are its numbers; of two levels,
  256 stands for `never` and 257 for `not-by-depth`. What a line lacks is 0.
- levels.bin has one kind. A case is three parts of the store: the file's name, its bytes, the text.
"""
import pathlib
import re
import sys

KINDS = ['build', 'rest', 'level', 'extract', 'plan', 'run', 'page', 'build-within', 'level-within', 'weighted']
KEYS = {
    'build': 'file depth words fill',
    'rest': 'file depth words graph',
    'level': 'file depth set goal words graph',
    'extract': 'file depth set words graph out fill',
    'plan': 'file depth set goal words graph out fill',
    'run': 'file set list out fill',
    'page': 'file depth set goals words graph out fill',
    'build-within': 'file possible depth words fill',
    'level-within': 'file depth set goal words possible words2 sure',
    'weighted': 'file depth goal weights share words graph',
}
# The lists that are rows of numbers: of which kind, under which key, and how many bits a number has.
LISTS = {'page': ('goals', 32), 'build-within': ('possible', 32), 'weighted': ('weights', 16)}
CALL = ['kind', 'file', 'depth', 'set', 'goal', 'words', 'graph', 'base', 'mask', 'edits', 'list', 'out', 'fill',
        'answer', 'first', 'second', 'digest', 'words2', 'graph2', 'base2', 'mask2', 'edits2',
        'numerator', 'denominator']
ANSWERS = ['refused # #', 'built # looked #', 'rest #', 'none', 'level #', 'never', 'not by depth', 'extracted #',
           'plan # count #', 'ran # idle #', 'paged #', 'levels # #']

# The memory that the program has (the same names in crates/vectors/src/calls.rt).
WORDS, SETS, ENTRIES, LISTED = 60000, 512, 64, 64
OUT = {'extract': WORDS, 'page': ENTRIES}
MEMORY = {kind: {'words': WORDS, 'words2': WORDS, 'out': OUT.get(kind, SETS)} for kind in KINDS}


def number(n):
    some = (n.bit_length() + 7) // 8
    if some > 8:
        raise ValueError(f'{n} has more than 8 bytes')
    return bytes([some]) + n.to_bytes(some, 'big')


def octets(text):
    return b'' if text == '-' else bytes.fromhex(text)


class Store:
    """The bytes that the cases share, each part once."""

    def __init__(self):
        self.bytes, self.starts = b'', {}

    def part(self, some):
        if some not in self.starts:
            self.starts[some] = len(self.bytes)
            self.bytes += some
        return number(self.starts[some]) + number(len(some))


def data(counts, store, cases):
    head = [number(n) for n in counts] + [number(len(store.bytes))]
    return b''.join(head) + store.bytes + b''.join(cases)


def graph(text, words, name, built):
    """A graph as numbers: a fill, or the memory `name`, of which the build above was lent so many words.

    An edit lies within the words that are lent."""
    if text.startswith('fill:'):
        _, base, mask = text.split(':')
        return {'words': words, 'graph': 2, 'base': int(base), 'mask': int(mask, 16)}
    source, *edits = text.split('^')
    pairs = [edit.split(':') for edit in edits]
    if source != name or words > built or any(int(i) >= words for i, _ in pairs):
        raise ValueError(f'graph={text} over {words} of {built} words')
    return {'words': words, 'graph': 1, 'edits': b''.join(number(int(i)) + number(int(x, 16)) for i, x in pairs)}


def listed(text, bits):
    """A list of numbers of so many bits as a row, of which the first says how many there are."""
    some = [] if text == '-' else [int(one, 16) for one in text.split(',')]
    if len(some) > LISTED or any(one >= 2 ** bits for one in some):
        raise ValueError(f'the program has not so much room: {text}')
    return b''.join(map(number, [len(some), *some]))


def fraction(text):
    numerator, denominator = map(int, text.split('/'))
    if max(numerator, denominator) >= 2 ** 16:
        raise ValueError(f'the program has not so much room: {text}')
    return {'numerator': numerator, 'denominator': denominator}


def answer(text):
    if text.startswith('levels '):
        text = text.replace('never', '256').replace('not-by-depth', '257')
    numbers = [int(n) for n in re.findall(r'\d+', text)]
    place = ANSWERS.index(re.sub(r'\d+', '#', text))
    return {'answer': place, 'first': (numbers + [0])[0], 'second': (numbers + [0, 0])[1]}


def graphs(kind, given, built):
    """The graphs of a call; one that a call has alone is that of the file's states, as the sure sets are."""
    if kind == 'level-within':
        possible = graph(given['possible'], int(given['words']), 'within', built['build-within'])
        sure = graph(given['sure'], int(given['words2']), 'built', built['build'])
        return sure | {key + '2': value for key, value in possible.items()}
    if 'graph' in given:
        return graph(given['graph'], int(given['words']), 'built', built['build'])
    return {}


def call(line, built):
    """A line's values by the names of CALL; `built` is how many words the last build of each kind was lent."""
    before, after = line.split(' -> ')
    kind, *pairs = before.split(' ')
    given = dict(pair.split('=', 1) for pair in pairs)
    text, _, digest = after.partition(' digest=')
    if list(given) != KEYS[kind].split() or bool(digest) != ('fill' in given):
        raise ValueError(f'keys of {line}')
    case = {'kind': KINDS.index(kind), 'file': octets(given['file'])}
    key, bits = LISTS.get(kind, ('list', 8))
    case['list'] = octets(given.get(key, '-')) if bits == 8 else listed(given[key], bits)
    case |= fraction(given['share']) if 'share' in given else {}
    case |= {key: int(given[key]) for key in ('depth', 'words', 'out', 'fill') if key in given}
    case |= {key: int(given[key], 16) for key in ('set', 'goal') if key in given}
    case |= graphs(kind, given, built)
    if case.get('goal', 0) >= 2 ** 32 or any(case.get(key, 0) > most for key, most in MEMORY[kind].items()):
        raise ValueError(f'the program has not so much room: {line}')
    return case | answer(text) | {'digest': int(digest or '0', 16)}


def calls(text):
    store, cases, counts = Store(), [], [0] * len(KINDS)
    built = {'build': 0, 'build-within': 0}
    for line in text.splitlines():
        case = call(line, built)
        counts[case['kind']] += 1
        if KINDS[case['kind']].startswith('build'):
            built[KINDS[case['kind']]] = case['words']
        values = [case.get(key, b'' if key.startswith('edits') else 0) for key in CALL]
        cases.append(b''.join(store.part(v) if isinstance(v, bytes) else number(v) for v in values))
    return data(counts, store, cases)


def levels(folder):
    store, cases = Store(), []
    for file in sorted(folder.glob('*.sag')):
        parts = file.stem.encode(), file.read_bytes(), file.with_suffix('.out').read_bytes()
        cases.append(b''.join(store.part(part) for part in parts))
    return data([len(cases)], store, cases)


def digest(some):
    """FNV-1a of 64 bits, as the program prints it of each data file."""
    value = 0xCBF29CE484222325
    for byte in some:
        value = (value ^ byte) * 0x100000001B3 % 2 ** 64
    return value


def main(vectors, folder):
    for name, some in ('calls.bin', calls((vectors / 'calls.txt').read_text())), ('levels.bin', levels(vectors / 'levels')):
        (folder / name).write_bytes(some)
        print(f'{name}: {len(some)} bytes, digest {digest(some):016x}')


if len(sys.argv) != 3:
    sys.exit(__doc__)
main(pathlib.Path(sys.argv[1]), pathlib.Path(sys.argv[2]))
