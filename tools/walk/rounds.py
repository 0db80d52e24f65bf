"""The walk of a counted loop around a call that is lent whole slices:

    let mut state = start;
    let mut i: u32 = 0;
    while i < count {
        state = round(.., state, ..);
        i += 1;
    }
    state

A round takes the state, the parameters but `count` and `start`, and `i`, as many of these as it wants and in any order; every
`&mut` slice of the function is lent to it as a `&mut`. `count` is a `u32` or a `usize`, and `i` is of its type. A round of
several calls is a function that is a chain of them; a count that is first to be found is a parameter, and a chain finds it and
goes on to the loop.

The contract is given by functions of the parameters in their order: what the loop gives, and what it leaves in each `&mut`
slice. They can be any that meet two laws, which say what they are where the count is 0, and where it is one more, by what the
round gives of what they are at the count."""
import re

from walk.call import Call, argument, copy
from walk.module import Walk
from walk.naming import check_name
from walk.rounds_turns import Turns
from walk.text import Steps, arrows, cons, facts, paragraphs, spaced
from walk.types import WIDTHS, Value
from walk.wrong import Wrong, at

FORM = r'while i < count \{ state = (\w+)\((.*)\); i \+= 1; \}'


class Component:
    """A thing that the loop gives or leaves: the state, or the list of a `&mut` slice."""

    def __init__(self, name, value, type):
        self.name, self.value, self.type = name, value, type
        self.after = 'after-' + name                    # the function that says what it is
        self.none, self.more = self.after + '-none', self.after + '-more'      # its laws


class Rounds(Turns, Walk):
    form = 'Rounds'

    def __init__(self, section, name, params, result, lines):
        values = {p.name: p for p in params}
        form = re.fullmatch(FORM, lines[0])
        if not form or len(lines) != 1:
            raise Wrong('a counted loop is one line: `while i < count { state = ROUND(..); i += 1; }`', lines[-1])
        if 'count' not in values or 'start' not in values:
            raise Wrong('a counted loop has a parameter that is named `count` and one that is named `start`')
        self.lines, self.count, self.start = lines, values.pop('count'), values.pop('start')
        if self.count.slice or self.count.type.name not in ('u32', 'usize'):
            raise Wrong('the parameter `count` of a counted loop is a u32 or a usize')
        self.width = f'w{WIDTHS[self.count.type.name]}'
        values['state'] = self.state = Value('state', self.start.type)
        values['i'] = self.index = Value('i', self.count.type)
        self.state.machine, self.index.machine = '(machine-state v-state)', f'(vint {self.width} v-i)'
        args = at(lines[0], lambda: [argument(a, values) for a in re.split(r',\s*', form[2])])
        self.round = Call(form[1], args, result)
        super().__init__(section, name, params, result, [self.round])
        check_name(self)
        if self.start.slice or result.name != self.start.type.name:
            raise Wrong('a counted loop gives its state: the result is of the type of the parameter `start`')
        if [p for p in self.muts if p not in [a.of for a in self.round.muts]]:
            raise Wrong('a round takes every `&mut` slice as a `&mut`', lines[0])
        self.components = [Component('state', self.state, self.state.denotes)]
        self.components += [Component(p.var, p, p.speaks) for p in self.muts]
        self.lay_out()

    def wants(self):
        """what `prove` takes besides the callees"""
        names = [c.value.name for c in self.components]
        return ([f'what the loop makes of the {x}' for x in names]
                + [f'the law of {x} {k}' for x in names for k in ('at no round', 'at one round more')])

    def lay_out(self):
        """the locals in the compiler's order, and the statements of a turn"""
        self.places = {p.var: i for i, p in enumerate(self.params, 1)}
        self.locals = [self.result.mir] + [p.mir() for p in self.params]
        self.places['v-state'] = self.local(self.start.type.mir)
        self.places['v-i'] = self.i = self.local(self.count.type.mir)
        self.test = self.local('tyBool')
        count, state = self.places[self.count.var], self.places['v-state']
        turn = [f'assign (place {self.test} []) (op2 (lt unsigned) ({copy(self.i)}) ({copy(count)}))',
                f'cond ({copy(self.test)}) skip (exit 1)'] + self.round.reborrow(self.places, self.local)
        turn.append(self.round.statement(self.places, state))
        turn.append(f'assign (place {self.i} []) (op2 (add unsigned) ({copy(self.i)}) (int {self.width} 1))')
        self.statements = turn

    # ---- terms

    def words(self, k, shared='now'):
        """what the contract's functions take, at k rounds; a slice is in a walk its elements now, and in a law these"""
        return spaced(k if p is self.count else p.now if shared == 'now' else p.var for p in self.params)

    def round_args(self, k, component, shared='now'):
        """the arguments of round k, of what says the components there"""
        of = {c.value: component(c) for c in self.components} | {self.index: k}
        return spaced(of.get(a.of) or (a.of.now if shared == 'now' else a.of.var) for a in self.round.args)

    def models(self):
        return dict(zip(self.components, [self.round.gives[0]] + [self.leaves(c) for c in self.components[1:]]))

    def leaves(self, c):
        return next(m for a, m in zip(self.round.muts, self.round.leaves) if a.of is c.value)

    # ---- the text of the module

    def text(self):
        free = [('v-i', 'ℕ')] if self.index in self.round.values else []
        free += [('v-state', self.state.denotes)] if self.state in self.round.values else []
        self.free = [x for x, _ in free] + [f'l-{p.var}' for p in self.muts]
        free += [(f'l-{p.var}', p.speaks) for p in self.muts]
        asked = self.round.asks(lambda a: f'l-{a.of.var}', free)
        body = paragraphs([self.signature(), self.code(), self.round.contract(), self.meaning(), self.clauses(), self.in_hand(),
                           self.points(), asked, self.exits(), self.turns(), self.walk(), self.theorem()])
        served = ('One walk serves every round: it takes its name and what its contract says, what the loop gives and leaves,'
                  ' and the laws of that.')
        return self.page(served, body)

    def code(self):
        turn = self.statements[-1]
        for s in reversed(self.statements[:-1]):
            turn = f'seq ({s})\n    ({turn})'
        l, state = self.round.label, self.places['v-state']
        body = (f'seq (assign (place {state} []) (rvOpd ({copy(self.places[self.start.var])}))) '
                f'(seq (assign (place {self.i} []) (rvOpd (int {self.width} 0))) (seq (block (loop (turn #{l}))) rest))')
        return f'''-- ---- the code
abbrev turn : Name → Body
turn #{l} = {turn}

abbrev rest : Body
rest = seq (assign (place 0 []) (rvOpd ({copy(state)}))) return

''' + self.function(self.locals, body)

    def meaning(self):
        """what the loop gives and leaves, its laws, and what the function ensures"""
        takes = arrows(p.speaks for p in self.params)
        binders = ''.join(f' ({p.var} : {p.speaks})' for p in self.params if p is not self.count)
        models, words = self.models(), lambda k: self.words(k, shared='list')
        text = f'module _ ({self.keys} : Name){self.round.model_params()}\n'
        for c in self.components:
            text += f'    ({c.after} : {takes}{c.type})\n'
        args = self.round_args('k', lambda c: f'({c.after}{words("k")})', shared='list')
        for c in self.components:
            none = self.start.var if c.name == 'state' else c.value.var
            text += f'''    ({c.none} :{binders} → {c.after}{words('0')} ≡ {none})
    ({c.more} : (k : ℕ){binders} → {c.after}{words('(suc k)')} ≡ {models[c]}{args})
'''
        given = ['r'] + [p.var + '′' for p in self.muts]
        said = [f'{x} ≡ {c.after}{words(self.count.var)}' for x, c in zip(given, self.components)]
        return text[:-1] + f''' where
  abbrev Says : {arrows(p.speaks for p in self.params)}{self.result.denotes} → {arrows(p.speaks for p in self.muts)}Type 0
  Says{spaced(p.var for p in self.params)} r{spaced(p.var + '′' for p in self.muts)} = {facts(said)}
'''

    def now(self, c, x='x'):
        """a component, where the loop stands"""
        return f'({x} .state)' if c.name == 'state' else f'({x} .z-{c.name})'

    def point_fields(self):
        """the fields of a point, each with its type and its value before the first round"""
        t, count = self.start.type, self.count.var
        none = spaced(p.now for p in self.params if p is not self.count)
        fields = [('done', 'ℕ', '0'), ('left', 'ℕ', count), ('all', f'done + left ≡ {count}', f'zero-add {count}'),
                  ('state', t.denotes, self.start.var),
                  ('is-state', f'Is {t.row} state (machine-state state ∷ [])', f'is-{self.start.var}')]
        for p in self.muts:
            fields += [(f'z-{p.var}', p.speaks, f'now {p.var}'),
                       (f'l-{p.var}', f'length z-{p.var} ≡ length (now {p.var})', 'refl')]
        for c in self.components:
            stands = 'state' if c.name == 'state' else f'z-{c.name}'
            fields.append((f'is-{c.after}', f'{stands} ≡ {c.after}{self.words("done")}', f'sym ({c.none}{none})'))
        return fields

    def points(self):
        """where the loop can stand"""
        t, fields, lines = self.start.type, self.point_fields(), '\n'.join
        typed = f'Holds (hasTy {t.mir} (machine-state x)) × WT (machine-state x)'
        ends = [f'{self.now(c)} ≡ {c.after}{self.words(self.count.var)}' for c in self.components]
        return f'''    abbrev machine-state : {t.denotes} → Val
    machine-state x = only ({t.vals} x)

    typed-state : (x : {t.denotes}) → Is {t.row} x (machine-state x ∷ []) → {typed}
    typed-state x is = {t.typed} x _ is .0

    spelled : (r : {t.denotes}) (w : Val) → Is {t.row} r (w ∷ []) → Is {t.row} r (machine-state r ∷ [])
    spelled r w is = subst (λ (vs : List Val). Is {t.row} r vs) ({t.tells} r _ is) is

    count-fits : {self.count.var} < 2 ^ {self.width[1:]}
    count-fits = typed-{self.count.var} .1 .fits

    -- ---- where the loop stands: the rounds that are done, those that are left, and what they came to
    record At : Type 0 where
{lines(f'      {name} : {type}' for name, type, _ in fields)}

    -- the loop ends here: what stands is the outcome
    abbrev Ends : At → Type 0
    Ends x = {facts(ends)}

    abbrev size : At → ℕ
    size x = x .left

    abbrev at-first : At
    at-first = record {{ {'; '.join(f'{name} = {value}' for name, _, value in fields)} }}
'''

    def exits(self):
        """the walk's end: what is in hand is what the contract says"""
        t = self.result
        items = cons(x for p in self.slices for x in p.left({p.var: 'z-' + p.var}))
        self.left = [x for p in self.slices for x in ('o' + p.var, 't' + p.var)]
        lasts, lengths = ([f'{x}-{p.var}' if p.slice == 'mut' else 'tt' for p in self.params] for x in 'zl')
        ending = self.ends(Steps(self.left), '(machine-state r)', 'r', t.owns('r', 'is'), lasts, lengths, 'said')
        takes = [('r', t.denotes)] + [(f'z-{p.var}', p.speaks) for p in self.muts]
        said = spaced([p.now for p in self.params] + ['r'] + [f'z-{p.var}' for p in self.muts])
        asks = [f'Is {t.row} r (machine-state r ∷ [])', f'Says{said}']
        asks += [f'length z-{p.var} ≡ length (now {p.var})' for p in self.muts]
        return f'''    -- ---- the exit
    exits : {' '.join(f'({x} : {y})' for x, y in takes)} → {arrows(asks)}ent 𝓤 (⋆ 𝓤 H A ({items})) (Post (machine-state r))
    exits{spaced(x for x, _ in takes)} is said{spaced('l-' + p.var for p in self.muts)} =
        qed W ({items}) ∵
        {ending}
'''
