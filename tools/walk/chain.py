"""The walk of a chain of calls:

    let x = first(..);  second(..);  ..  last(..)

with a call or the name of a let at its end. Each callee is lent what it takes: a value and a `&` slice are copied; a
`&mut` slice is lent again, or as a `&`, for a lifetime of the call, and comes back.

The function ensures what the calls come to, composed as they are; or, by a law, what follows from that."""
import re

from walk.call import Call, argument, copy
from walk.module import Walk
from walk.naming import check_name
from walk.text import HERE, Steps, arrows, cons, facts, indented, paragraphs, spaced, tuple_of
from walk.types import Type, Value
from walk.wrong import Wrong, at


def parse(lines, params, result, structs):
    """the calls, of statements as the source has them, with a type at each let; and what is returned"""
    values = {p.name: p for p in params}
    calls = []
    for line in lines[:-1]:
        m = re.fullmatch(r'(?:let (\w+): (\S+) = )?(\w+)\((.*)\);', line)
        if not m:
            raise Wrong('no line of a chain of calls: that is `let NAME: TYPE = CALL(..);` or `CALL(..);`', line)
        call = at(line, lambda: Call(m[3], arguments(m[4], values), Type(m[2] or '()', structs)))
        if call.label in [c.label for c in calls]:
            raise Wrong(f'two calls are named {m[3]}: give one a name of its own, and say in `prove` which fn it is', line)
        calls.append(call)
        call.value = values[m[1] or m[3]] = Value(m[1] or m[3], call.result)
    return ended(calls, lines[-1], values, result)


def arguments(text, values):
    return [argument(a, values) for a in re.split(r',\s*', text)]


def ended(calls, line, values, result):
    """the calls with the one that a chain ends on, if it ends on a call; and what is returned"""
    m = re.fullmatch(r'(\w+)(?:\((.*)\))?', line)
    if not m or result.name == '()':
        raise Wrong('a chain of calls gives something: its last line is a call or the name of a let, without `;`', line)
    if m[2] is None:
        if line not in [c.value.name for c in calls if c.gives]:
            raise Wrong(f'no let is named `{line}`', line)
        return calls, values[line]
    calls.append(at(line, lambda: Call(m[1], arguments(m[2], values), result)))
    if calls[-1].label in [c.label for c in calls[:-1]]:
        raise Wrong(f'two calls are named {m[1]}: give one a name of its own, and say in `prove` which fn it is', line)
    calls[-1].value = Value('result', result)
    return calls, calls[-1].value


class Chain(Walk):
    def __init__(self, section, name, params, result, lines, by_law=False):
        calls, self.returned = parse(lines, params, result, section.structs)
        super().__init__(section, name, params, result, calls)
        self.lines, self.by_law = lines, by_law
        check_name(self)
        self.lay_out()
        self.name_values()

    def lay_out(self):
        """the locals in the compiler's order: the result, the parameters, the lets, then temporaries as they come"""
        self.places = {p.var: i for i, p in enumerate(self.params, 1)}
        self.locals = [self.result.mir] + [p.mir() for p in self.params]
        for c in self.callees:
            if c.gives and c.value.name != 'result':
                self.places[c.value.var] = self.local(c.value.type.mir)
        self.statements = []
        unit = None
        for c in self.callees:
            last = c.value.name == 'result'
            c.first_use = True
            if not c.gives and not last:      # the callees that give nothing share a local
                c.first_use = unit is None
                unit = self.local('tyUnit') if unit is None else unit
                self.places[c.value.var] = unit
            c.to = 0 if last else self.places[c.value.var]
            self.statements += c.reborrow(self.places, self.local)
            self.statements.append(c.statement(self.places, c.to))
        if self.returned.name != 'result':
            self.statements.append(f'assign (place 0 []) (rvOpd ({copy(self.places[self.returned.var])}))')

    def name_values(self):
        """a name for what each call gives, and for the list that it leaves in each `&mut` slice"""
        now = {p.var: p.var for p in self.params}
        self.named = []
        for c in self.callees:
            c.given = [now[a.of.var] for a in c.args]
            if c.gives:
                self.named.append((c.value.var, c.value.denotes, [c.gives[0]] + c.given))
            c.left = {a.of.var: f'z-{m}' for a, m in zip(c.muts, c.leaves)}
            self.named += [(f'z-{m}', a.of.speaks, [m] + c.given) for a, m in zip(c.muts, c.leaves)]
            now[c.value.var] = c.value.var
            now.update(c.left)
        self.last = now

    def wants(self):
        """what `prove` takes besides the callees"""
        law = ['the definition of what the contract says', 'the law that what the calls come to meets it']
        return law if self.by_law else []

    def elements(self, c):
        """what an argument is when c is called: of a slice, its elements"""
        def of(a):
            x = c.given[c.args.index(a)]
            return f'(now {x})' if a.slice and x == a.of.var else x
        return of

    # ---- the text of the module

    def text(self):
        walked = [self.clauses(), self.in_hand(), self.values_in_hand()]
        walked += [c.asks(self.elements(c)) for c in self.callees] + [self.exits(), self.walk(), self.theorem()]
        if self.by_law:
            walked = [indented(x) for x in walked]
            walked[0] = self.law() + walked[0]
        callees = [c.contract() for c in self.callees]
        body = paragraphs([self.signature(), self.in_order()] + callees + [self.meaning()] + walked)
        served = 'One walk serves every choice of the callees: it takes their names and what their contracts say.'
        return self.page(served, body)

    def meaning(self):
        """what the chain gives, and what the function ensures"""
        takes = ''.join(f' ({p.var} : {p.speaks})' for p in self.params)
        text = f'''module _ ({self.keys} : Name){''.join(c.model_params() for c in self.callees)} where
  -- ---- what the chain gives, call by call
  module _{takes} where
'''
        params = {p.var for p in self.params}
        for name, type, words in self.named:
            text += f'''    abbrev {name}-of : {type}
    {name}-of = {' '.join(w if i == 0 or w in params else w + '-of' for i, w in enumerate(words))}

'''
        if self.by_law:
            return text.rstrip('\n') + '\n'
        of = lambda v: v if v in params else v + '-of'
        given = [f'r ≡ {self.returned.var}-of'] + [f'{p.var}′ ≡ {of(self.last[p.var])}' for p in self.muts]
        return text + f'''    abbrev Says : {self.result.denotes} → {arrows(p.speaks for p in self.muts)}Type 0
    Says r{spaced(p.var + '′' for p in self.muts)} = {facts(given)}
'''

    def law(self):
        """what the function ensures, and the law that the chain gives that"""
        words = spaced(p.var for p in self.params)
        takes = ''.join(f' ({p.var} : {p.speaks})' for p in self.params)
        of = lambda v: v if v in self.places and v.startswith('x-') else f'({v}-of{words})'
        given = spaced([f'({self.returned.var}-of{words})'] + [of(self.last[p.var]) for p in self.muts])
        return f'''  -- ---- what the function ensures: what a law says of that
  module _ (Says : {arrows(p.speaks for p in self.params)}{self.result.denotes} → {arrows(p.speaks for p in self.muts)}Type 0)
      (law :{takes} → Says{words}{given}) where
'''

    def values_in_hand(self):
        now = ' '.join(p.now for p in self.params)
        text = ''
        for name, type, _ in self.named:
            text += f'''    abbrev {name} : {type}
    {name} = {name}-of {now}

'''
        for c in self.callees:
            x, t = c.value, c.value.type
            if not c.gives:
                text += f'''    abbrev {x.var} : {t.denotes}
    {x.var} = tt

'''
            text += f'''    abbrev {x.machine} : Val
    {x.machine} = only ({t.vals} {x.var})

    spelled-{x.var} : (w : Val) → Is {t.row} {x.var} (w ∷ []) → Is {t.row} {x.var} ({x.machine} ∷ [])
    spelled-{x.var} w is = subst (λ (vs : List Val). Is {t.row} {x.var} vs) ({t.tells} {x.var} _ is) is

'''
        return text

    def exits(self):
        """the walk's end: what is in hand is what the contract says"""
        r = self.returned
        at_last = {p.var: f'(now {p.var})' if self.last[p.var] == p.var else self.last[p.var] for p in self.muts}
        items = cons(x for p in self.slices for x in p.left(at_last))
        self.left = [x for p in self.slices for x in ('o' + p.var, 't' + p.var)]
        lasts = [at_last[p.var] if p.slice == 'mut' else 'tt' for p in self.params]
        lengths = ['l-' + p.var if p.slice == 'mut' else 'tt' for p in self.params]
        said = f"(law{spaced(p.now for p in self.params)})" if self.by_law else tuple_of(['refl'] * (1 + len(self.muts)))
        ending = self.ends(Steps(self.left), r.machine, r.var, r.type.owns(r.var, 'is'), lasts, lengths, said)
        as_long = arrows(f'length {at_last[p.var]} ≡ length (now {p.var})' for p in self.muts)
        return f'''    -- ---- the exit
    exits : Is {r.row} {r.var} ({r.machine} ∷ []) → {as_long}ent 𝓤 (⋆ 𝓤 H A ({items})) (Post {r.machine})
    exits is{spaced('l-' + p.var for p in self.muts)} =
        qed W ({items}) ∵
        {ending}
'''

    def walk(self):
        steps = Steps([x for i in reversed(range(len(self.locals))) for x in (f'L{i}', f'D{i}')] + ['tokens', 'owns'])
        self.enters(steps, self.locals, self.places)
        lengths = {p.var: 'refl' for p in self.muts}      # that a slice has as many elements as at the entry
        told = {}                                         # what is known of the machine value of what a callee gave
        for c in self.callees:
            steps.remark(c.label)
            self.calls(c, steps, lengths, told)
        known_result = told[self.returned.var]
        if self.returned.name != 'result':
            typed = f'({self.result.typed} {self.returned.var} _ {known_result} .0)'
            steps.assign(0, f'of-opd ! {steps.load(self.places[self.returned.var])}', typed)
        steps.say(f'returns ! (look ! {steps.place(0)} refl)')
        for i in range(len(self.locals)):
            steps.leave(i)
        steps.say('free0 !')
        steps.front(*self.left)
        assert steps.items == self.left, steps.items
        known = ' '.join('known-' + c.label for c in self.callees)
        end = f'by ! (exits {known_result}{spaced(lengths[p.var] for p in self.muts)})'
        return f'''    -- ---- the walk
    walk : {self.walk_type()}
    walk 𝓣 {known} =
        {self.entered()}
        {steps.close(end, '        ')}
'''

    def calls(self, c, steps, lengths, told):
        """one call: its slices are lent, its contract is put to use, what it gave is stored, and the slices come back"""
        elements, x, t = self.elements(c), c.value, c.result
        c.reborrows(steps, self.places)
        c.lend(steps, elements, lengths)
        w, r, e = c.perform(steps, elements, told)
        # what it gave, and what it left, are what the contract says
        if c.gives:
            steps.say(f'rewrite ! 0 (λ (r : {t.denotes}). ‵ ({t.row} .own r ({w} ∷ []))) ({c.said(e, 0)}) refl')
        longer = {}
        for i, a in enumerate(c.muts, len(c.gives)):
            v = a.of.var
            has = f'‵ (finally {a.of.row} {a.δ} l)'
            steps.say(f'rewrite ! {steps.at("f" + v)} (λ (l : {a.of.speaks}). {has}) ({c.said(e, i)}) refl')
            longer[v] = f'(ap {{B = ℕ}} length (sym ({c.said(e, i)})) ∙ h-{c.label}-{v})'
        told[x.var] = f'(spelled-{x.var} {w} is-{w})'
        steps.under(f'peeks ! {t.row} (Is {t.row}) (shows 𝓤 H A {t.row}) {x.var} ({w} ∷ [])', f'is-{w}')
        how = 'init' if c.first_use else 'store'
        steps.say(f'land ! {HERE} ({how} ! {steps.place(c.to)} refl ({t.typed} {x.var} _ is-{w} .0))')
        steps.retell(c.to, self.locals[c.to], 'u : Val', 'u', f'ap only ({t.tells} {x.var} _ is-{w})')
        steps.drop('owned')
        c.come_back(steps, elements, lengths, c.left, longer)
        for v, more in longer.items():
            lengths[v] = more if lengths[v] == 'refl' else f'({more} ∙ {lengths[v]})'
