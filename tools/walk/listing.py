"""The list of a crate, crates/NAME/walks.txt, line by line:

    crate NAME                        the first line: the lines after it are about this crate
    struct [CRATE::]PATH FIELD ..     a struct that is passed by value or in a slice; its fields, if a loop ends on one
    value NAME ..                     in a crate of walks: any type by value, for which a `prove` puts the struct of this name
    use MODULE NAME ..                a module of antt that has these definitions; NAME=OTHER brings NAME in under another name
    fn [CRATE::]PATH DEFINITION ..    a callee: what it gives, if anything, and what it leaves in each `&mut` slice, each of its
                                      parameters in order; F(D) is the definition D, whose arguments F puts in that order,
                                      and F(E,D) the same where F takes E first; D.FIELD is a field of what D gives. Of a walk
                                      of a call on a part of an array: the one proposition that it ensures
    walk NAME(PARAMS) [-> RESULT]     a walk module; the indented lines after it are its code, with a type at each let. `by law`
                                      at the end of the line: its functions' contracts follow from what its calls come to
    by CRATE::NAME                    the walk module of another crate; the `prove` lines after it are by it
    prove FUNCTION ROLE=FN .. LAW ..  a function that has this code: which fn a callee of the walk is, where it is not
                                      the one of its name; for a loop also what it gives and leaves, with the laws of that;
                                      for a chain whose contract follows from what its calls come to, and for a call on a
                                      part of an array, the definition of what it says, which may be an F(D), and the law

A line that ends with a comma goes on in the next; what follows a `#` is a remark. The lists are read in the order of
crates.txt, so that a walk is declared before a `by` names it."""
import re

from walk.array import LentArray
from walk.chain import Chain
from walk.loop import Loop
from walk.part import Part
from walk.proof import Proof
from walk.rounds import Rounds
from walk.types import Type, parameters
from walk.wrong import Line, Wrong, at

WORDS = 'crate', 'struct', 'value', 'use', 'fn', 'walk', 'by', 'prove'


def applied(word):
    """F(D) and F(E,D) as antt has them"""
    return re.sub(r'(\w+)\((\w+(?:,\w+)*)\)', lambda m: f'({m[1]} {m[2].replace(",", " ")})', word)


class Section:
    """What the list says of a crate."""

    def __init__(self, crate):
        self.crate, self.structs, self.fields, self.uses, self.functions, self.walks = crate, {}, {}, [], {}, []
        self.made = {}      # the walks, once they are made

    def add(self, word, rest, line):
        if word == 'struct':
            path, *fields = rest.split()
            crate, _, within = path.rpartition('::') if path.count('::') < 2 else path.partition('::')
            name = path.split('::')[-1]
            self.structs[name], self.fields[name] = (crate or self.crate, within.replace('::', '.')), fields
        elif word == 'value':
            self.structs.update((name, None) for name in rest.split())
        elif word == 'use':
            module, *names = rest.split()
            self.uses.append((module, [tuple(n.partition('=')[::2]) if '=' in n else (n, n) for n in names]))
        elif word == 'fn':
            path, *definitions = rest.split()
            path = path if '::' in path else f'{self.crate}::{path}'
            self.functions[path.split('::')[-1]] = (path, [applied(d) for d in definitions])
        elif word in ('walk', 'by'):
            self.walks.append((line, [], []))
        elif not self.walks:
            raise Wrong(f'`{word}` stands behind no `walk` and no `by`', line)
        elif word == 'prove':
            path, *words = rest.split()
            chosen = dict(x.split('=', 1) for x in words if '=' in x)
            self.walks[-1][2].append((line, path, chosen, [applied(x) for x in words if '=' not in x]))

    def code(self, line):
        """a line of a walk's code"""
        if not self.walks or self.walks[-1][0].startswith('by ') or self.walks[-1][2]:
            raise Wrong('an indented line is code of a walk, and none is begun here', line)
        self.walks[-1][1].append(line)

    def function(self, name, walk):
        """a callee's path, and what it gives and leaves"""
        if name not in self.functions:
            raise Wrong(f'crate {self.crate} has no fn {name}, which the walk {walk.name} calls')
        return self.functions[name]

    def files(self, sections):
        """each file that is written, its text, and the line that asks for it"""
        for line, code, functions in self.walks:
            if line.startswith('by '):
                walk = at(line, lambda: self.found(line, sections))
                if not functions:
                    raise Wrong('no `prove` stands behind it', line)
            else:
                walk = at(line, lambda: self.walk(line, code, functions))
                yield f'crates/{self.crate}/proofs/{walk.name}.antt', at(line, walk.text), line
            for said, path, chosen, laws in functions:
                walk.serves += 1
                proof = at(said, lambda: Proof(self, walk, path, chosen, laws))
                yield f'crates/{self.crate}/proofs/{path.replace("::", "/")}/Proof.antt', at(said, proof.text), said

    def found(self, line, sections):
        """the walk of another crate"""
        crate, _, name = line.removeprefix('by ').partition('::')
        section = next((s for s in sections if s.crate == crate), None)
        if not section:
            raise Wrong(f'there is no crate {crate}; a line is `by CRATE::WALK`')
        if name not in section.made:
            raise Wrong(f'crate {crate} declares no walk {name} before this line')
        return section.made[name]

    def walk(self, line, code, functions):
        form = re.fullmatch(r'walk (\w+)\((.*)\)(?: -> (\S+))?( by law)?', line)
        if not form:
            raise Wrong('a line is `walk NAME(PARAMETERS) -> RESULT`, with `by law` behind it or not')
        name, params, result, law = form.groups()
        if name in self.made:
            raise Wrong(f'crate {self.crate} has a walk {name} already')
        if not code:
            raise Wrong(f'the walk {name} has no code: the lines after it, indented')
        words = (self, name, parameters(params, self.structs), Type(result or '()', self.structs), code)
        if 'catalogue[i]' in code[0]:
            walk = Loop(*words)
        elif code[0].startswith('let end: '):
            walk = Part(*words)
        elif re.fullmatch(r'let (mut )?\w+ = \w+;', code[0]):
            walk = LentArray(*words)
        elif code[0].startswith('while '):
            walk = Rounds(*words)
        else:
            walk = Chain(*words, by_law=bool(law or any(laws for *_, laws in functions)))
        walk.line, walk.serves = line, 0
        self.made[name] = walk
        return walk


def lines_of(file, text):
    """the lines of a list, without remarks; one that ends with a comma goes on in the next"""
    begun = None
    for number, line in enumerate(text.split('\n'), 1):
        bare, indented = line.split('#')[0].strip(), line.startswith(' ')
        place = f'{file}:{number}'
        if begun and not bare:
            raise Wrong('the line ends with a comma, and nothing follows', Line(*begun[:2]))
        if begun:
            bare, place, indented = f'{begun[0]} {bare}', *begun[1:]
        begun = (bare, place, indented) if bare.endswith(',') else None
        if bare and not begun:
            yield Line(bare, place), indented
    if begun:
        raise Wrong('the line ends with a comma, and nothing follows', Line(*begun[:2]))


def read(sections, file, text):
    """the sections of a list, put to those of the lists before it"""
    for line, indented in lines_of(file, text):
        word, _, rest = line.partition(' ')
        if not indented and word not in WORDS:
            raise Wrong(f'no word `{word}`: a line begins with one of {", ".join(WORDS)}, and code of a walk is indented', line)
        if not indented and not rest:
            raise Wrong(f'nothing stands behind `{word}`', line)
        if word == 'crate' and not indented:
            if rest in [s.crate for s in sections]:
                raise Wrong(f'there is a crate {rest} already', line)
            sections.append(Section(rest))
        elif not sections:
            raise Wrong('the first line is `crate NAME`', line)
        elif indented:
            sections[-1].code(line)
        else:
            sections[-1].add(word, rest, line)


def files(lists):
    """each file that the lists ask for, and its text; lists: the name and the content of each"""
    sections, found = [], {}
    for file, text in lists:
        read(sections, file, text)
    for section in sections:
        for path, written, line in section.files(sections):
            if path in found:
                raise Wrong(f'another line asks for {path} already', line)
            found[path] = written
    for section in sections:
        for walk in section.made.values():
            if not walk.serves:
                raise Wrong(f'no function is proved by the walk {walk.name}', walk.line)
    return found
