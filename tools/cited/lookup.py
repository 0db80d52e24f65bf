"""Whether what a block cites is there."""
import fnmatch
import os
import re

from cited.promises import COLUMN, WHY

# words and dots, with or without slashes between them; a star or a part in capitals stands for any
TOKEN = re.compile(r'(?<![\w./*-])(?:\.?[\w*-]+(?:\.[\w*-]+)*/?)(?:/?[\w*.-]+)*/?')
ENDINGS = ('.rt', '.antt', '.rs', '.c', '.h', '.py', '.md', '.txt', '.toml', '.edit', '.a')
BUILT = re.compile(r'lib(\w+)\.a')
QUOTED = re.compile(r'`([^`]+)`')
NAME = r"[^\W\d][\w′']*(?:-[^\W\d][\w′']*)*"
FORMS = (re.compile(rf'({NAME}(?:::{NAME})*)(?:\([^()]*\))?'), re.compile(rf'impl ({NAME})'))
GROUP = re.compile(
    r"`[^`]+`(?:(?:,|,? and|,? or| to| of) +`[^`]+`)*(?: and (?:its|their)(?: \w+)? like)?(?: \(|, +| in +| of +)(?=[\w.])")

# Names that no source has, and why a document speaks of them.
ELSEWHERE = {
    'lem': 'a word of the proof language, said to be used nowhere',
    'ac': 'a word of the proof language, said to be used nowhere',
}


def is_path(token):
    parts = token.strip('/').split('/')
    if any(not re.search(r'[^\W\d]|\*', p) for p in parts):
        return False  # a quotient
    return '/' in token or token.endswith(ENDINGS)


def name_in(quoted):
    """the names of `A::b`, `f(x)` and `impl T`; none for what is no name"""
    for form in FORMS:
        m = form.fullmatch(quoted)
        if m:
            return m.group(1).split('::')
    return []


class Lookup:
    def __init__(self, sources):
        self.sources = sources
        self.paths = self.names = self.edits = 0

    def block(self, block):
        if block.heading == COLUMN and not block.text.startswith(WHY):
            yield from self.edit_column(block)
            return
        named = set(re.findall(r'crates/(\w+)', block.text)) & self.sources.crates
        for m in TOKEN.finditer(block.text):
            token = m.group().rstrip('.-')
            if is_path(token):
                self.paths += 1
                wrong = self.path(token, named)
                if wrong:
                    yield block.line(m.start()), wrong
        yield from self.quoted(block)

    def edit_column(self, block):
        for item in (i.strip() for i in block.text.split(',')):
            if item:
                self.edits += 1
                if not self.is_edit(item):
                    yield block.first, f'no must-fail edit {item}'

    def is_edit(self, item):
        crate, _, edit = item.partition('/')
        return f'crates/{crate}/must-fail/{edit}.edit' in self.sources.all

    # ---- paths

    def path(self, token, named):
        """what is wrong with a path, or None"""
        whole = token.rstrip('/')
        parts = whole.split('/')
        library = BUILT.fullmatch(parts[-1])
        if library:
            return None if library.group(1) in self.sources.crates else f'no crate for {token}'
        if parts[0] == 'target':
            return None
        if parts[0] == 'crates' and parts[2:3] == ['out']:
            is_program = parts[1:2] == parts[3:] and f'crates/{parts[1]}/src/main.rt' in self.sources.all
            return None if is_program else f'no program {token}'
        if self.files(token):
            return None
        if parts[0] in self.sources.tops:
            return f'no tracked file or folder {token}'
        if len(parts) == 2 and parts[0] in self.sources.crates and '.' not in parts[1]:
            self.edits += 1
            return None if self.is_edit(whole) else f'no must-fail edit {whole}'
        places = [f'crates/{c}/' for c in named] or ['']
        if any(p.startswith(tuple(places)) and self.matches('/' + p, '*/' + whole) for p in self.sources.all):
            return None
        return f'no tracked file or folder {token}' + (f' in crates {", ".join(sorted(named))}' if named else '')

    def matches(self, path, pattern):
        open_parts = re.sub(r'(?<![^/])[A-Z]+(?![^/])', '*', pattern)
        return fnmatch.fnmatchcase(path, pattern) or fnmatch.fnmatchcase(path, open_parts)

    def files(self, token):
        whole = token.rstrip('/')
        return [p for p in self.sources.all if p == whole] or [p for p in self.sources.all if self.matches(p, whole)]

    # ---- names

    def quoted(self, block):
        beside = self.beside(block)
        for m in QUOTED.finditer(block.text):
            place = beside.get(m.start())
            for name in name_in(m.group(1).strip()):
                self.names += 1
                if name in ELSEWHERE:
                    continue
                if name not in self.sources.identifiers(''):
                    yield block.line(m.start()), f'no source has the name {name}'
                elif place and name not in self.sources.identifiers(place):
                    yield block.line(m.start()), f'{place} does not have the name {name}'

    def beside(self, block):
        """for each name that a path stands right behind: that path, if it is a tracked source or folder"""
        found = {}
        for m in GROUP.finditer(block.text):
            token = TOKEN.match(block.text, m.end())
            path = token.group().rstrip('.-/') if token else ''
            if path in self.sources.folders or (path in self.sources.all and self.sources.is_source(path)):
                for q in QUOTED.finditer(block.text, m.start(), m.end()):
                    found[q.start()] = path
        return found
