#!/usr/bin/env python3
"""Scripts for the console, made from others or at random.

    tests/desk/scripts.py undone < SCRIPT    every call that was done is taken back and made again, and others are in between
    tests/desk/scripts.py wrong < SCRIPT     the last expected number is another
    tests/desk/scripts.py bytes SEED         commands that damage the card too, and lines of any bytes
    tests/desk/scripts.py large              a card of full size, filled and with gaps
    tests/desk/scripts.py shown < PAGE       the run of the console that a page of the documents shows
"""
import random
import sys

CHANGING = ('reserve', 'accept', 'grow', 'put', 'term', 'complete', 'pause', 'resume', 'release')
NAMES = ('fresh reserve put term count complete show grow pause resume release offer accept standing search survey close save '
         'load cut rule limit summary role break card data why expect run history undo help ?').split()
WORDS = ('0 1 2 3 7 8 63 64 128 1024 4096 4294967295 4294967296 -1 x on off check from before step block byte entry bit image '
         'torn free mark start length none absent 2.50 99999999.99 1e9 2026-11-15 2026-13-45 0-0-0 shown card carer').split()


FILES = [[b'save'], [b'load'], [b'run'], [b'history']]

# Commands with numbers in the places of the signs: a small one for %, any for ?.
PLAUSIBLE = ('fresh 8 4|fresh 70 9|reserve % %|reserve % % from % before ? step %|put % % one tablet|term % % ? a course|'
             'count % % % 2.50|count % % %|complete %|show % %|show % % on 2026-11-15|grow % %|pause %|resume %|release %|'
             'offer % %|accept % % %|accept|standing %|search %|survey|close|save|load|limit 0 ?|limit 0 none|summary on|'
             'summary off|summary check|role 1|role 1|role %|'
             'break block % byte ?|break entry %|break entry % mark ?|break entry % start ?|'
             'break entry % length ?|break bit ?|break free ?|break image ?|card|picture /dev/null|why|cut|cut torn % ?|'
             'rule|history /dev/null|run /dev/null|data card|data commands|data block %|data sheet %|data picture 400|'
             'data picture 300 % ?|data legend|undo|undo|undo')


def detour(line, card):
    """Calls that are done here, and are taken back: another text before a sheet is completed, closing where there is a gap; and
    power cuts."""
    if line.startswith('complete '):
        return [f'put {line.split()[1]} 0 another text', 'undo']
    if line.startswith(('put ', 'pause ', 'resume ')):
        return ['cut', 'undo']
    return ['close', 'undo'] if '.' in card.rstrip('.') else []


def undone(lines):
    """A line that was given before may change nothing, and then undo would take back another: it is made once."""
    seen, card = set(), ''
    for line, after in zip(lines, lines[1:] + ['']):
        is_done = line.split()[0] in CHANGING and after.startswith('expect 0 ')
        if is_done:
            yield from detour(line, card)
        yield line
        if is_done and line not in seen:
            yield 'undo'
            yield line
        seen.add(line)
        if line.startswith('expect card '):
            card = line.split()[2]


def wrong(lines):
    last = max(i for i, line in enumerate(lines) if line.startswith('expect ') and line.split()[1].isdigit())
    return lines[:last] + ['expect 99'] + lines[last + 1:]


def nearly(r):
    """A line that begins like a command, and goes on anyhow. No card is so large that a list of them takes long."""
    if r.random() < 0.1:
        return f'fresh {r.choice([0, 1, 8, 64, 65, 300, 262144, 262145])} {r.choice([0, 1, 4, 1024, 1025])}'.encode()
    words = [r.choice(NAMES)] + [r.choice(WORDS) for _ in range(r.randrange(7))]
    return ' '.join(words).encode()


def plausible(r):
    """A command that is understood. Damage comes about by it, and what damage is drawn, saved and taken back."""
    anything = [0, 1, 5, 7, 8, 17, 63, 64, 79, 80, 503, 511, 65536, 4294967295]
    words = r.choice(PLAUSIBLE.split('|')).split()
    return ' '.join(str(r.randrange(5)) if word == '%' else str(r.choice(anything)) if word == '?' else word
                    for word in words).encode()


def any_bytes(r):
    return bytes(r.randrange(256) for _ in range(r.choice([0, 1, 5, 40, 3000]))).replace(b'\n', b'')


def spoiled(r):
    line = bytearray(nearly(r))
    for _ in range(r.randrange(3)):
        line[r.randrange(len(line))] = r.randrange(256)
    return bytes(line).replace(b'\n', b'')


def random_bytes(seed):
    r = random.Random(seed)
    lines = [b'fresh 8 4'] + [r.choice([plausible] * 12 + [nearly, any_bytes, spoiled])(r) for _ in range(600)]
    # No file is written or read by a name that came about by chance.
    lines = [b'#' + line if line.split()[:1] in FILES and line.split()[1:2] not in ([], [b'/dev/null']) else line
             for line in lines]
    return b'\n'.join(lines) + r.choice([b'', b'\n', b'\0'])


def large():
    """Sheets of very different lengths. Some of the short ones are filled and completed, and a few of these paused."""
    r = random.Random(1)
    yield 'fresh 262144 1024'
    counts = [r.choice([20, 60, 150, 300, 700]) for _ in range(1024)]
    yield from (f'reserve {sheet} {count}' for sheet, count in enumerate(counts))
    yield from (f'release {sheet}' for sheet in range(0, 1024, 3))
    short = [sheet for sheet in range(1, 1024, 3) if counts[sheet] == 60][:20]
    for sheet in short:
        yield from (f'put {sheet} {place} one tablet at 8' for place in range(60))
        yield f'complete {sheet}'
    yield from (f'pause {sheet}' for sheet in short[::3])
    yield 'card'


def shown(lines):
    """The indented lines of the first run on a page, without the line that starts the console."""
    first = next(i for i, line in enumerate(lines) if line.startswith('    > '))
    while lines[first - 1].startswith('    '):
        first -= 1
    last = next(i for i in range(first, len(lines)) if not lines[i].startswith('    '))
    return [line[4:] for line in lines[first:last] if not line.startswith('    $ ')]


def main(words):
    if words[:1] == ['undone']:
        print('\n'.join(undone(sys.stdin.read().splitlines())))
    elif words[:1] == ['wrong']:
        print('\n'.join(wrong(sys.stdin.read().splitlines())))
    elif words[:1] == ['bytes'] and len(words) == 2:
        sys.stdout.buffer.write(random_bytes(int(words[1])))
    elif words[:1] == ['large']:
        print('\n'.join(large()))
    elif words[:1] == ['shown']:
        print('\n'.join(shown(sys.stdin.read().splitlines())))
    else:
        sys.exit(__doc__)


main(sys.argv[1:])
