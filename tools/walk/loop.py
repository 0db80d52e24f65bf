"""The walk of a loop over all entries, around a covered step on one entry:

    let mut i: usize = 0;                                  let mut state = start;  let mut i: usize = 0;
    while i < catalogue.len() {                            while i < catalogue.len() {
        let entry = step(.., catalogue[i]);                    let turn = step(.., state, .., catalogue[i]);
        catalogue[i] = entry;                                  catalogue[i] = turn.entry;
        i += 1;                                                state = turn.state;
    }                                                          if state.stop { break; }
                                                               i += 1;
                                                           }
                                                           state

On the right the catalogue is a `&mut`; where it is a `&`, `state = step(.., state, .., catalogue[i]);` stands for the
first three lines of the body. The line with `break` may be left out.

The contract is given by functions of the entries and the step's other arguments: what the loop gives, and what it
leaves in the catalogue and in each `&mut` slice. They can be any that meet two laws, which say what they are of no
entries, and of one entry more by what the step gives."""
import re

from walk.call import Arg, Call, argument, copy
from walk.loop_points import SIZE, Points
from walk.loop_turns import Turns
from walk.module import Walk, imports
from walk.text import arrows, facts, paragraphs, spaced
from walk.types import Type, Value
from walk.wrong import Wrong, at


class Component:
    """A thing that the loop gives or leaves: the state, the entries, or the list of a `&mut` slice."""

    def __init__(self, name, type, slice=None):
        self.name, self.type, self.slice = name, type, slice
        self.after = 'after-' + name                                        # the function that says what it is
        self.nil, self.cons = self.after + '-nil', self.after + '-cons'     # its laws


class Loop(Points, Turns, Walk):
    def __init__(self, section, name, params, result, lines):
        values = {p.name: p for p in params}
        self.lines = lines
        self.catalogue, self.start = values.get('catalogue'), values.get('start')
        if not self.catalogue or not self.catalogue.slice:
            raise Wrong('a loop over all entries is over a slice that is named `catalogue`')
        self.stores = self.catalogue.slice == 'mut'
        self.entry = self.catalogue.type
        first = self.parse()
        # what the step gives: the entry, the state, or a struct of both
        self.turn = self.start.type if self.start else self.entry
        if first[1]:
            self.turn = at(lines[0], lambda: Type(first[1], section.structs))
        self.state = None
        if self.start:
            values['state'] = self.state = Value('state', self.start.type)
            self.stop = self.stops and self.place_of_stop(section)
        entry = Value('entry', self.entry)
        for x in filter(None, (self.state, entry)):
            x.machine = f'(machine-{x.name} {x.var})'
        others = at(lines[0], lambda: [argument(a, values) for a in re.split(r',\s*', first[3])])
        self.step = Call(first[2], others + [Arg(entry)], self.turn)
        super().__init__(section, name, params, result, [self.step])
        self.others = [a.of for a in self.step.args[:-1]]
        self.lent = [p for p in self.slices if p is not self.catalogue]
        self.changed = [p for p in self.lent if p.slice == 'mut']
        self.components = []
        if self.start:
            self.components.append(Component('state', self.start.type.denotes))
        if self.stores:
            self.components.append(Component('entries', self.catalogue.speaks, self.catalogue))
        self.components += [Component(p.var, p.speaks, p) for p in self.changed]
        self.lay_out()

    def parse(self):
        """the first line: the type of `turn`, the step, and its arguments but the entry. The others follow from the form"""
        if self.start and self.stores:
            given, shown = r'let turn: (\w+)', 'let turn: TYPE'
            rest = ['catalogue[i] = turn.entry;', 'state = turn.state;']
        elif self.start:
            given, shown, rest = r'state()', 'state', []
        else:
            given, shown, rest = r'let entry()', 'let entry', ['catalogue[i] = entry;']
            if not self.stores:
                raise Wrong('a loop over a `&` catalogue has a state: a parameter that is named `start`')
        first = re.fullmatch(given + r' = (\w+)\((.*), catalogue\[i\]\);', self.lines[0])
        if not first:
            raise Wrong(f'the first line of this loop is `{shown} = STEP(.., catalogue[i]);`', self.lines[0])
        # whether the loop can end on the state
        self.stops = bool(self.start) and len(self.lines) > len(rest) + 1
        rest += ['if state.stop { break; }'] * self.stops
        for line, wanted in zip(self.lines[1:] + [None], rest + [None]):
            if line != wanted:
                raise Wrong(f'in this loop `{wanted}` stands here' if wanted else 'the loop is at its end before this line',
                            line or self.lines[-1])
        return first

    def place_of_stop(self, section):
        """which field of the state ends the loop"""
        fields = section.fields.get(self.start.type.name, [])
        if 'stop' not in fields:
            raise Wrong(f'the `struct` line of {self.start.type.name} lists its fields, and `stop` among them')
        return fields.index('stop')

    def wants(self):
        """what `prove` takes besides the callees"""
        return [x for c in self.components
                for x in (f'what the loop makes of the {c.slice.name if c.slice else c.name}', 'its law of no entries',
                          'its law of one entry more')]

    def lay_out(self):
        """the locals in the compiler's order, and the statements of a turn"""
        self.places = {p.var: i for i, p in enumerate(self.params, 1)}
        self.locals = [self.result.mir] + [p.mir() for p in self.params]
        if self.start:
            self.places['v-state'] = self.local(self.start.type.mir)
        self.i = self.local('(tyInt w64)')
        if self.stores:
            self.given = self.local(self.turn.mir)
        self.number, self.test = self.local('(tyInt w64)'), self.local('tyBool')
        lends = self.step.reborrow(self.places, self.local)
        self.read, self.places['v-entry'] = self.local('tyPtr'), self.local(self.entry.mir)
        if self.stores:
            self.written = self.local('tyPtr')
        catalogue, state, deref = self.places[self.catalogue.var], self.places.get('v-state'), f'(deref {self.entry.mir} ∷ [])'

        def point(pointer):
            return [f'assign (place {self.number} []) (op2 (mul unsigned) ({copy(self.i)}) (int w64 {SIZE}))',
                    f'assign (place {pointer} []) (op2 offset ({copy(catalogue, 0)}) ({copy(self.number)}))']

        turn = [f'assign (place {self.number} []) (rvOpd ({copy(catalogue, 1)}))',
                f'assign (place {self.test} []) (op2 (lt unsigned) ({copy(self.i)}) ({copy(self.number)}))',
                f'cond ({copy(self.test)}) skip (exit 1)'] + lends + point(self.read)
        turn.append(f'assign (place {self.places["v-entry"]} []) (rvOpd (copy (place {self.read} {deref})))')
        turn.append(self.step.statement(self.places, self.given if self.stores else state))
        if self.stores:
            turn += point(self.written)
            turn.append(f'assign (place {self.written} {deref}) (rvOpd ({copy(self.given, 1 if self.start else None)}))')
        if self.start and self.stores:
            turn.append(f'assign (place {state} []) (rvOpd ({copy(self.given, 0)}))')
        if self.stops:
            turn.append(f'assign (place {self.test} []) (rvOpd ({copy(state, self.stop)}))')
            turn.append(f'cond ({copy(self.test)}) (exit 1) skip')
        turn.append(f'assign (place {self.i} []) (op2 (add unsigned) ({copy(self.i)}) (int w64 1))')
        self.statements = turn

    # ---- terms

    def state_of(self, turn):
        return f'({turn} .state)' if self.stores else turn

    def entry_of(self, turn):
        return f'({turn} .entry)' if self.start else turn

    def rest_args(self, state, lists, shared='now'):
        """the step's arguments but the entry; a `&` slice stands in a walk for its elements now, and in a law for them"""
        def of(a):
            if a is self.state:
                return state
            return lists.get(a.var) or (a.now if shared == 'now' else a.var)
        return spaced(map(of, self.others))

    def at(self, x):
        """these at a point of the loop"""
        return self.rest_args(f'({x} .state)', {p.var: f'({x} .z-{p.var})' for p in self.changed})

    def final(self, c):
        """what a component is after the whole loop"""
        return f'{c.after} ys{self.rest_args(self.start and self.start.var, {})}'

    def stopped(self, c, turn, lists):
        """a component, where a turn ends the loop and leaves the entries es"""
        if c.name == 'state':
            return self.state_of(turn)
        return f'{self.entry_of(turn)} ∷ es' if c.name == 'entries' else lists[c.name]

    def goes_on(self, c, turn, lists, shared='now'):
        """a component, where the loop goes on from a turn to the entries es"""
        after = f'{c.after} es{self.rest_args(self.state_of(turn), lists, shared)}'
        return f'{self.entry_of(turn)} ∷ {after}' if c.name == 'entries' else after

    def in_front(self, c, x, term):
        """a component, with the entries that are passed in front of it"""
        return f'{x} .past ++ ({term})' if c.name == 'entries' else term

    def pointer(self):
        return f'({self.catalogue.var} .ptr .0) ({self.catalogue.var} .ptr .1)'

    def row(self, elements):
        return f'row {self.entry.row} {"fullShare" if self.stores else "q′"} {elements} {self.pointer()}'

    # ---- the text of the module

    def text(self):
        body = paragraphs([self.signature(), self.code(), self.step.contract(), self.meaning(), self.clauses(), self.in_hand(),
                           self.points(), self.asked(), self.exits(), self.turns(), self.walk(), self.theorem()])
        shown = '\n'.join(f'--         {line}' for line in self.lines)
        opened = 'opened' if self.stores else 'looked into'
        return f'''{self.headed()} a loop over all entries,
--     while i < catalogue.len() {{
{shown}
--         i += 1;
--     }}
-- One walk serves every step: it takes the step's name and what its contract says, what the loop gives and leaves, and the
-- laws of that. The catalogue is {opened} once, before the loop. Every other `&mut` slice is
-- lent again for each turn's call.
-- Assumes `Given`.
{imports(body, self.section)}

{body}'''

    def code(self):
        turn = self.statements[-1]
        for s in reversed(self.statements[:-1]):
            turn = f'seq ({s})\n    ({turn})'
        l = self.step.label
        body = f'seq (assign (place {self.i} []) (rvOpd (int w64 0))) (seq (block (loop (turn #{l}))) rest)'
        if self.start:
            body = f'seq (assign (place {self.places["v-state"]} []) (rvOpd ({copy(self.places[self.start.var])}))) ({body})'
        return f'''-- ---- the code
abbrev turn : Name → Body
turn #{l} = {turn}

abbrev rest : Body
rest = seq (assign (place 0 []) (rvOpd {f'({copy(self.places["v-state"])})' if self.start else 'opdUnit'})) return

''' + self.function(self.locals, body)

    def meaning(self):
        """what the loop gives and leaves, its laws, and what the function ensures"""
        E, takes = self.entry.denotes, arrows(a.speaks for a in self.others)
        binders, words = ''.join(f' ({a.var} : {a.speaks})' for a in self.others), spaced(a.var for a in self.others)
        turn = f'({self.step.label}-out{words} e)'
        lists = {a.of.var: f'({m}{words} e)' for a, m in zip(self.step.muts, self.step.leaves)}
        none = {'state': 'v-state', 'entries': '[]'}
        text = f'module _ ({self.keys} : Name){self.step.model_params()}\n'
        for c in self.components:
            more = self.goes_on(c, turn, lists, shared='list')
            if self.stops:
                more = f'choose ({self.state_of(turn)} .stop) ({self.stopped(c, turn, lists)}) ({more})'
            text += f'''    ({c.after} : List {E} → {takes}{c.type})
    ({c.nil} :{binders} → {c.after} []{words} ≡ {none.get(c.name, c.name)})
    ({c.cons} : (e : {E}) (es : List {E}){binders} → {c.after} (e ∷ es){words} ≡ {more})
'''
        whole = f'{self.catalogue.var}{self.rest_args(self.start and self.start.var, {}, shared="list")}'
        said = [f'{c.slice.var + "′" if c.slice else "r"} ≡ {c.after} {whole}' for c in self.in_source_order()]
        return text[:-1] + f''' where
  abbrev Says : {arrows(p.speaks for p in self.params)}{self.result.denotes} → {arrows(p.speaks for p in self.muts)}Type 0
  Says{spaced(p.var for p in self.params)} r{spaced(p.var + '′' for p in self.muts)} = {facts(said)}
'''

    def in_source_order(self):
        """the components as the contract has them: the state, then the `&mut` slices in the order of the source"""
        of = {c.slice: c for c in self.components}
        return ([of[None]] if self.start else []) + [of[p] for p in self.muts]
