"""The names of walks: a walk serves every function of its parameters and its code, so it is named by what it is lent and not by
one of these functions. The rule is at the top of docs/WALKS.md."""
import re

from walk.wrong import Wrong

# what every call takes in front is not in the name
FRONT = ('role', 'self', 'shape')


def word(name):
    return ''.join(x.capitalize() for x in name.split('_'))


def name_of(params, part=None):
    """by the parameters; part: of a local array, the part of it that is lent"""
    changed, read, values, before = '', '', 0, True
    for p in params:
        if p.name in FRONT or part and p is part.of.count:
            continue
        slice = part.slice if part and p is part.of.array else p.slice
        if slice == 'mut':
            changed += word(p.name)
        elif slice:
            read += word(p.name)
        if slice and not values:
            before = False
        values += not slice
    return changed + ('From' + read if read else '') + (str(values) if values else '') + ('First' if values and before else '')


def check_name(walk, part=None):
    """that a walk has the name of its parameters; a word more may follow, where another walk has the same"""
    name = name_of(walk.params, part) + walk.form
    if not re.fullmatch(name + r'((?!First)[A-Z][a-z]+)?', walk.name):
        raise Wrong(f'by its parameters the walk {walk.name} is named {name} (the rule is in docs/WALKS.md)')
