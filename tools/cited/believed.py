"""What a customer must believe: docs/SPECIFICATION.md lists every file of specs/ that those in it are stated with."""
import re

from cited.groups import section

SPECIFICATION = 'docs/SPECIFICATION.md'
HEADING = '## All files'
USE = re.compile(r'Rattle\.(\w+)\.specs\.(\w+)(?:\.\{([^}]*)\})?')
# What the check makes of the sources, and the kit's own.
MADE = ('declared', 'contracts')
KIT = ('std', 'core')
PUBLIC = re.compile(r'(?ms)^ *pub (?:extern "C" )?fn .*?^ *\{$')


def specs_used(text):
    """the files of specs/ that a text brings in, each with the names that it takes from it (None: all)"""
    for m in USE.finditer(text):
        if m.group(2) not in MADE and m.group(1) not in KIT:
            names = m.group(3) and {n.strip() for n in m.group(3).split(',')}
            yield f'crates/{m.group(1)}/specs/{m.group(2)}.antt', names


def stated_with(path, text):
    """of code, what the contracts of its public functions are stated with; of definitions, all"""
    if not path.endswith('.rt'):
        return {used for used, _ in specs_used(text)}
    contracts = set(re.findall(r"[\w']+", ' '.join(PUBLIC.findall(text))))
    return {used for used, names in specs_used(text) if names and names & contracts}


def believed(sources):
    rows = [(number, line.split('|')[1].strip()) for number, line in section(sources.text(SPECIFICATION), HEADING)
            if line.startswith('| crates/')]
    listed = {path for _, path in rows}
    wrong = [] if rows else [(SPECIFICATION, 1, f'no table under "{HEADING}"')]
    for number, path in rows:
        if path in sources.all:
            for used in sorted(stated_with(path, sources.text(path)) - listed):
                wrong.append((SPECIFICATION, number, f'{path} is stated with {used}, which the table lacks'))
    return wrong
