"""The numbers of the decisions, and the groups of crates in docs/ARCHITECTURE.md and crates.txt."""
import re

DECISIONS = ('docs/DECISIONS.md', 'docs/DECISIONS-02.md')
ARCHITECTURE = 'docs/ARCHITECTURE.md'
CRATES = 'crates.txt'


def points(sources):
    """the points are 1, 2, 3 and on, over both pages, and no other is cited"""
    found, cited = [], []
    for path in DECISIONS:
        for number, line in enumerate(sources.text(path).split('\n'), 1):
            m = re.match(r'(\d+)\. ', line)
            if m:
                found.append((int(m.group(1)), path, number))
            cited += [(int(n), path, number) for n in re.findall(r'\bpoint\s+(\d+)', line)]
    wrong = [(path, line, f'point {n} stands in place {i}') for i, (n, path, line) in enumerate(found, 1) if n != i]
    return wrong[:1] + [(path, line, f'no point {n}') for n, path, line in cited if not 1 <= n <= len(found)]


def section(text, heading):
    """the lines of a section, with their numbers"""
    lines = list(enumerate(text.split('\n'), 1))
    starts = [i for i, (_, line) in enumerate(lines) if line == heading]
    if not starts:
        return []
    rest = lines[starts[0] + 1:]
    ends = [i for i, (_, line) in enumerate(rest) if line.startswith('## ')]
    return rest[:ends[0]] if ends else rest


def in_layout(sources):
    found = []
    for number, line in section(sources.text(ARCHITECTURE), '## Layout'):
        group = re.match(r'\s+(\w+): (.+)$', line)
        crate = re.match(r'\s+crates/(\w+)\s', line)
        if crate and found:
            found[-1][1].append(crate.group(1))
        elif group:
            found.append((f'{group.group(1)}: {group.group(2)}'.lower().strip(), [], number))
    return found


def in_crates(sources):
    found = []
    for number, line in enumerate(sources.text(CRATES).split('\n'), 1):
        group = re.match(r'# (\w+: .+)\.$', line)
        crate = re.match(r'(\w+)(?: staticlib)?:', line)
        if crate:
            if not found:
                found.append(('', [], number))
            found[-1][1].append(crate.group(1))
        elif group:
            found.append((group.group(1).lower(), [], number))
    return found


def groups(sources):
    layout, crates = in_layout(sources), in_crates(sources)
    wrong = []
    for (name, here, line), (listed, there, number) in zip(layout, crates):
        if name != listed:
            wrong.append((ARCHITECTURE, line, f'the group "{name}" is "{listed}" in {CRATES}, line {number}'))
        elif here != there:
            apart = ', '.join(sorted(set(here) ^ set(there))) or 'their order'
            wrong.append((ARCHITECTURE, line, f'the group "{name}" differs from {CRATES}, line {number}: {apart}'))
    if len(layout) != len(crates):
        wrong.append((ARCHITECTURE, 1, f'the layout has {len(layout)} groups and {CRATES} {len(crates)}'))
    return wrong
