"""A document as blocks: paragraphs, points of a list and cells of a table; of a header, its comments."""
import re

TABLE = re.compile(r'\s*\|')
RULE = re.compile(r'[\s|:-]+$')
POINT = re.compile(r'\s*(?:[-*]|\d+\.) ')
COMMENT = re.compile(r'/\*.*?\*/', re.S)


class Block:
    """its text with line ends as spaces, so that what is cited may go over two lines"""

    def __init__(self, path, line, text, heading=''):
        self.path = path
        self.first = line
        self.raw = text
        self.text = text.replace('\n', ' ')
        self.heading = heading

    def line(self, at):
        return self.first + self.raw.count('\n', 0, at)


def cells(path, number, line, headings):
    parts = [c.strip() for c in line.strip().strip('|').split('|')]
    return [Block(path, number, c, headings[i] if i < len(headings) else '') for i, c in enumerate(parts)]


def comments(path, text):
    for m in COMMENT.finditer(text):
        yield Block(path, 1 + text.count('\n', 0, m.start()), re.sub(r'(?m)^ \* ?', lambda s: ' ' * len(s.group()), m.group()))


# The notes of changes: each is of its own commit, and names what there was then. The newest is the last of NEWEST.
NOTES = re.compile(r'docs/CHANGES[\w-]*\.md')
NEWEST = 'docs/CHANGES.md'
BEFORE = 'Before'


def is_of_before(block):
    """whether a block is of an older note of the changes, or in a column of names that were before"""
    return block.heading.startswith(BEFORE) or bool(NOTES.fullmatch(block.path)) and block.first < newest(block.path)


def newest(path):
    """the line at which the newest note begins; of another file than NEWEST no line is"""
    if path != NEWEST:
        return float('inf')
    with open(path, encoding='utf-8') as f:
        return max(number for number, line in enumerate(f, 1) if line.startswith('## '))


def blocks(path, text):
    if path.endswith('.h'):
        yield from comments(path, text)
        return
    lines = text.split('\n')
    held, start, headings = [], 0, []
    for number, line in enumerate(lines + [''], 1):
        table = TABLE.match(line)
        if held and (not line.strip() or table or POINT.match(line)):
            yield Block(path, start, '\n'.join(held))
            held = []
        if not table:
            headings = []
        elif RULE.match(line):
            continue
        elif number < len(lines) and RULE.match(lines[number] or 'x'):
            headings = [c.strip() for c in line.strip().strip('|').split('|')]
        else:
            yield from cells(path, number, line, headings)
        if line.strip() and not table:
            start = start if held else number
            held.append(line)
