"""The layout of a written file: no line is longer than WIDTH, and what is broken is broken as `rt fmt` keeps it. There, what
follows a break stands four blanks from the start of its declaration or field, and a record or tuple that is broken has a line
for each of its parts."""
import re

WIDTH = 128
OPERATORS = '∷→⊛×∙≡+'


def laid_out(text):
    """the text, its long lines broken"""
    out, head = [], None        # head: where the declaration begins that a line belongs to
    for line in text.split('\n'):
        bare = line.lstrip(' ')
        indent = len(line) - len(bare)
        if bare.startswith('--'):
            out += comment(line)
            continue
        if bare.startswith('use '):
            out += use(line)
            continue
        if not bare or bare == 'where':
            head = None
        elif head is None or indent < head:
            head = indent
        # a line further in than a field is one that was broken off already
        out += broken(line, indent + 4 if head is None or indent <= head + 2 else indent)
        if bare.endswith(' where'):
            head = None
    return '\n'.join(out)


def comment(line):
    """a comment, filled anew if it is too long; what is set further in, as code is, goes on further in"""
    mark, text = re.fullmatch(r'( *-- *)(.*)', line).groups()
    on = mark if mark.endswith('-- ') else mark + '    '
    lines = [mark]
    for word in text.split(' '):
        if len(lines[-1]) + len(word) > WIDTH:
            lines[-1] = lines[-1].rstrip(' ')
            lines.append(on)
        lines[-1] += word + ' '
    return lines[:-1] + [lines[-1][:-1]]


def use(line):
    """the names of a module, in as many `use` lines as they need"""
    listed = re.fullmatch(r'(use .*\.\{)(.*)\}', line)
    if len(line) <= WIDTH or not listed:
        return [line]
    module, lines = listed[1], [listed[1]]
    for name in listed[2].split(', '):
        if len(lines[-1]) + len(f', {name}}}') > WIDTH:
            lines.append(module)
        lines[-1] += name if lines[-1] == module else ', ' + name
    return [x + '}' for x in lines]


def broken(line, on):
    """a line of a declaration, in as many lines as it needs; `on` is where it goes on"""
    if len(line) <= WIDTH:
        return [line]
    found = groups(line)
    blanks = list(places(line, on, found))
    # of the blanks in the line's last third, or before a tuple that has room on a line: those in the fewest brackets, of these
    # those before an operator, if there are any, and of these the last
    late = [(depth, line[i + 1] not in OPERATORS, -i) for i, depth in blanks if i > WIDTH * 2 // 3 or i + 1 in dict(found)]
    wide = [(start, end) for start, end in found if start < WIDTH and end > WIDTH * 2 // 3]
    if late or not wide:
        at = -min(late)[2] if late else blanks[-1][0] if blanks else None
        return [line[:at]] + broken(' ' * on + line[at + 1:], on) if at else [line]
    return spread(line, on, *wide[-1])


def groups(line):
    """where the outermost tuples, records and other braces begin and end: what the layout does not break but part by part"""
    found, opened = [], []
    for i, c in enumerate(line):
        if c in '({':
            opened.append([i, c == '{'])
        elif c == ',' and opened:
            opened[-1][1] = True
        elif c in ')}' and opened:
            start, whole = opened.pop()
            if whole:
                found = [(a, b) for a, b in found if a < start] + [(start, i)]
    return found


def spread(line, on, start, end):
    """a tuple or a record, each of its parts on a line"""
    indent = ' ' * (len(line) - len(line.lstrip(' ')))
    mark = ';' if line[start] == '{' else ','
    lines = [line[:start + 1]]
    for part in apart(line[start + 1:end].strip(' '), mark):
        lines += broken(f'{indent}  {part}{mark}', len(indent) + 6)
    return lines + broken(indent + line[end:], on)


def apart(text, mark):
    """the parts of a tuple or a record"""
    parts, depth = [''], 0
    for c in text:
        depth += (c in '({') - (c in ')}')
        if c == mark and depth == 0:
            parts.append('')
        else:
            parts[-1] += c
    return [x.strip(' ') for x in parts]


def places(line, on, found):
    """the blanks where the line can be broken, each with the number of brackets that it stands in"""
    depth = 0
    for i, c in enumerate(line[:WIDTH + 1]):
        depth += (c in '({') - (c in ')}')
        inside = any(start < i < end for start, end in found)
        # a value stays together with what is taken of it, and a tuple that has no room on a line with what is before it
        if c == ' ' and i > on and not inside and not re.match(r'[.{)]|where$', line[i + 1:]):
            if not any(start == i + 1 and end - start > WIDTH - on - 8 for start, end in found):
                yield i, depth
