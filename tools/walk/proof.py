"""The proof of one function: its code is that of a walk module, and its callees are those that the list names."""
import re

from walk.layout import WIDTH
from walk.module import HOME, SIGN, proofs
from walk.text import paragraphs
from walk.wrong import Wrong


def projected(model, count):
    """D.F as antt has it: a field of what the definition D gives, of so many arguments"""
    name, *fields = model.split('.')
    if not fields:
        return model
    xs = ' '.join(f'x{i}' for i in range(count))
    return f'(λ {xs}. {name} {xs}{"".join(" ." + f for f in fields)})'


class Proof:
    """path: the function, as Shape::pause; chosen: which function a callee of the walk is, if not the one of its name;
    laws: what a loop gives and leaves, with the laws of that; what a chain's contract says, with its law"""

    def __init__(self, section, walk, path, chosen, laws):
        self.section, self.walk, self.path, self.here = section, walk, path, section.crate
        self.name = path.split('::')[-1].replace('_', '-')
        roles = [c.role for c in walk.callees]
        for role in chosen:
            if role not in roles:
                raise Wrong(f'the walk {walk.name} calls no {role}: it calls {", ".join(roles)}')
        self.callees = [(c, *section.function(chosen.get(c.role, c.role), walk)) for c in walk.callees]
        for c, function, models in self.callees:
            if len(models) != len(c.models):
                raise Wrong(f'the fn {function} has {len(models)} definitions, and its call in the walk {walk.name} wants'
                            f' {len(c.models)}: {c.modelled}')
        named = [m for _, _, models in self.callees for m in models] + laws
        self.names = [name.split('.')[0] for m in named for name in re.findall(r'[^()\s]+', m)]
        self.callees = [(c, function, [projected(m, len(c.args)) for m in models]) for c, function, models in self.callees]
        self.given = [m for _, _, models in self.callees for m in models] + laws
        self.check_laws(laws)
        # a function that is called twice is brought in once
        self.brought = {}
        for c, function, _ in self.callees:
            self.brought.setdefault(function, c.label)

    def check_laws(self, laws):
        """that `prove` takes what the walk wants, and that each name is brought in"""
        wants = self.walk.wants()
        if len(laws) != len(wants):
            raise Wrong(f'`prove` takes {len(wants)} names here and has {len(laws)}'
                        + (f': {", ".join(wants)}' if wants else ''))
        brought = [n for _, names in self.section.uses for _, n in names]
        for name in self.names:
            if name not in brought:
                raise Wrong(f'no `use` line of the crate {self.here} has {name}')

    def text(self):
        return '\n'.join(self.headed() + self.uses()) + '\n\n' + paragraphs(self.types() + [self.statement()])

    def headed(self):
        of = '' if self.walk.section is self.section else f' of the crate {self.walk.section.crate}'
        calls = ', '.join(f'`{function}`' for _, function, _ in self.callees)
        return [f'{SIGN} `{self.here}::{self.path}` meets its contract, by the walk of `{self.walk.name}.antt`{of}, with the'
                f' calls of {calls}.', '-- Assumes nothing.']

    # ---- what is brought in

    def uses(self):
        walk, here = self.walk, self.here
        lines = ['use contract.Running.{givenOf, tables, tablesOf}', 'use denote.Triple.Spec.{tripleOf}',
                 'use denote.Triple.Table.{entered, cited}']
        for module, names in self.section.uses:
            wanted = [n if n == called else f'{n} as {called}' for n, called in names if called in self.names]
            if wanted:
                lines.append(f'use {module}.{{{", ".join(wanted)}}}')
        if walk.values:
            lines.append(f'use {proofs(HOME, here, "Values")}.{{Value, valueOf}}')
        for value in walk.values:
            crate, within = self.struct(value)
            at = proofs(crate, here, within)
            lines += [f'use {at} as {value}′', f'use {at}.Laws as {value}″']
        contracts = ', '.join(c.label + '-contract' for c in walk.callees)
        lines.append(f'use {proofs(walk.section.crate, here, walk.name)}.{{{contracts}, meets}}')
        for function, label in self.brought.items():
            crate, _, rest = function.partition('::')
            at = proofs(crate, here, rest.replace('::', '.'))
            lines += [f'use {at}.Symbol as {label}-def', f'use {at}.Met as {label}-met']
            lines += [f'use {at} as {label}-said'] if walk.over else []
        at = proofs(here, here, self.path.replace('::', '.'))
        return lines + [f'use {at}.Key.{{name as {self.key()}}}', f'use {at} as {self.name}', f'use {at}.Statement as stated',
                        f'use {at}.Code as code']

    def key(self):
        """what the function's symbol is called here: by the function's name, unless the line that brings it were too long"""
        at = proofs(self.here, self.here, self.path.replace('::', '.'))
        named = '#' + self.name
        return named if len(f'use {at}.Key.{{name as {named}}}') <= WIDTH else '#function'

    def struct(self, value):
        """the struct that this crate puts for a type by value of the walk: its crate, and where it is there"""
        if not self.section.structs.get(value):
            raise Wrong(f'crate {self.here} has no struct {value}, which the walk {self.walk.name} is over')
        return self.section.structs[value]

    def types(self):
        return [f'abbrev {value} : Value\n{value} = valueOf {value}′.the-type {value}″.the-laws {value}″.the-plain\n'
                for value in self.walk.values]

    # ---- the theorem

    def cites(self):
        """that each callee meets its contract"""
        for c, function, models in self.callees:
            f, called = self.brought[function], function.replace('::', '·').replace('_', '-')
            yield (f'(cited 𝓤 H {c.stated(self.walk.values + models)} 𝓜 𝓡 code.env {f}-def.name {f}-def.routine'
                   f' code.calls-{called} ({f}-met.met 𝓤 H 𝓜 𝓖 𝓡))')

    def statement(self):
        name, walk = self.name, self.walk
        keys = [self.brought[function] + '-def.name' for _, function, _ in self.callees]
        cited = '\n    '.join(self.cites())
        over = ''.join('\n    ' + c.ensured() for c in walk.callees) + '\n   ' if walk.over else ''
        return f'''pub {name}-spec : {{M : Type 1}} → stated.statement M
unfolding code.routine tablesOf
{name}-spec 𝓤 H 𝓜 𝓖 𝓡 =
    entered 𝓤 H (tripleOf 𝓤 H (𝓖 .A) {name}.signature ({name}.spec 𝓤 H (𝓖 .A) (𝓜 .mem) (𝓡 .run)))
    (tables 𝓤 H 𝓜 𝓡 code.env .C) (tables 𝓤 H 𝓜 𝓡 code.env .Λ) {self.key()} code.function (code.unfolded 𝓤 H 𝓜 𝓡)
    (meets {' '.join(walk.values + keys + self.given)}
    𝓤 H (𝓖 .A) (givenOf 𝓤 H 𝓜 𝓖){over} (tablesOf 𝓤 H 𝓜 (tables 𝓤 H 𝓜 𝓡 code.env))
    {cited})
'''
