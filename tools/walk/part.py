"""The walk of a loop over a part of the entries, from the parameter `first` on, around a covered step on one entry:

    let mut state = start;
    let mut i = first;
    let end = bound(.., catalogue.len());
    while i < end {
        state = step(.., state, .., catalogue[i]);
        i += 1;
    }
    state

The catalogue is a `&`, and no other slice is lent. Where the part ends is found once, by a covered call that is told how many
entries there are: no index is tested again inside the loop.

The contract is given by a function of the entries, of where the part begins and ends, and of the step's other arguments: what
the loop gives. It can be any that meets two laws, which say what it is where nothing is left of the part, and where one entry
is, by what the step gives. A third law says that the part ends within the entries."""
import re

from walk.call import Arg, Call, argument, copy
from walk.loop import Loop
from walk.module import imports
from walk.text import HERE, Steps, arrows, paragraphs, spaced
from walk.types import Type, Value
from walk.wrong import Wrong, at

FORM = r'let end: usize = (\w+)\((.*), catalogue\.len\(\)\);'


class Part(Loop):
    def __init__(self, section, name, params, result, lines):
        values, number = {p.name: p for p in params}, Type('usize', section.structs)
        form = re.fullmatch(FORM, lines[0])
        if not form or len(lines) != 2:
            raise Wrong('a loop over a part is `let end: usize = BOUND(.., catalogue.len());` and one line for a turn',
                        lines[-1])
        self.first, self.heading = values.get('first'), lines[0]
        if not self.first or self.first.type.name != 'usize' or self.first.slice:
            raise Wrong('a loop over a part of the entries has a parameter `first: usize`')
        self.counted_all = Value('count', number)
        self.counted_all.var, self.counted_all.machine = 'n', '(vint w64 n)'
        args = at(lines[0], lambda: [argument(a, values) for a in re.split(r',\s*', form[2])])
        self.bound = Call(form[1], args + [Arg(self.counted_all)], number)
        super().__init__(section, name, params, result, lines[1:])
        if self.stores or self.lent:
            raise Wrong('a loop over a part of the entries is lent the catalogue as a `&`, and no other slice')
        self.callees = [self.bound, self.step]
        self.keys = ' '.join('#' + c.label for c in self.callees)

    def wants(self):
        """what `prove` takes besides the callees"""
        return ['what the loop makes of the state', 'its law where nothing is left', 'its law of one entry more',
                'the law that the part ends within the entries']

    def lay_out(self):
        """the locals in the compiler's order, and the statements of a turn"""
        self.places = {p.var: i for i, p in enumerate(self.params, 1)}
        self.locals = [self.result.mir] + [p.mir() for p in self.params]
        self.places['v-state'] = self.local(self.start.type.mir)
        self.i, self.end, self.all = (self.local('(tyInt w64)') for _ in range(3))
        self.test, self.number = self.local('tyBool'), self.local('(tyInt w64)')
        self.read, self.places['v-entry'] = self.local('tyPtr'), self.local(self.entry.mir)
        self.places['n'] = self.all
        catalogue, state, deref = self.places[self.catalogue.var], self.places['v-state'], f'(deref {self.entry.mir} ∷ [])'
        self.statements = [
            f'assign (place {self.test} []) (op2 (lt unsigned) ({copy(self.i)}) ({copy(self.end)}))',
            f'cond ({copy(self.test)}) skip (exit 1)',
            f'assign (place {self.number} []) (op2 (mul unsigned) ({copy(self.i)}) (int w64 12))',
            f'assign (place {self.read} []) (op2 offset ({copy(catalogue, 0)}) ({copy(self.number)}))',
            f'assign (place {self.places["v-entry"]} []) (rvOpd (copy (place {self.read} {deref})))',
            self.step.statement(self.places, state),
            f'assign (place {self.i} []) (op2 (add unsigned) ({copy(self.i)}) (int w64 1))']

    # ---- terms

    def bound_args(self, shared='now'):
        """the arguments of the call that finds the end, but the number of entries"""
        return spaced(a.of.now if shared == 'now' else a.of.var for a in self.bound.args[:-1])

    def after(self, i, state):
        """what the loop makes of a state, from the entry i on"""
        return f'after-state ys {i} end{self.rest_args(state, {})}'

    def final(self, c):
        return self.after(self.first.var, self.start.var)

    # ---- the text of the module

    def text(self):
        asked = self.bound.asks(lambda a: a.of.now) + '\n' + self.asked()
        body = paragraphs([self.signature(), self.code(), self.bound.contract(), self.step.contract(), self.meaning(),
                           self.clauses(), self.in_hand(), self.points(), asked, self.exits(), self.turns(), self.walk(),
                           self.theorem()])
        return f'''{self.headed()} a loop over a part of the entries,
--     {self.heading}
--     while i < end {{
--         {self.lines[0]}
--         i += 1;
--     }}
-- One walk serves every bound and every step: it takes their names and what their contracts say, what the loop gives, and the
-- laws of that. The catalogue is looked into once, before the loop.
-- Assumes `Given`.
{imports(body, self.section)}

{body}'''

    def code(self):
        turn = self.statements[-1]
        for s in reversed(self.statements[:-1]):
            turn = f'seq ({s})\n    ({turn})'
        l, state = self.step.label, self.places['v-state']
        before = [f'assign (place {state} []) (rvOpd ({copy(self.places[self.start.var])}))',
                  f'assign (place {self.i} []) (rvOpd ({copy(self.places[self.first.var])}))',
                  f'assign (place {self.all} []) (rvOpd ({copy(self.places[self.catalogue.var], 1)}))',
                  self.bound.statement(self.places, self.end)]
        body = f'seq (block (loop (turn #{l}))) rest'
        for s in reversed(before):
            body = f'seq ({s}) ({body})'
        return f'''-- ---- the code
abbrev turn : Name → Body
turn #{l} = {turn}

abbrev rest : Body
rest = seq (assign (place 0 []) (rvOpd ({copy(state)}))) return

''' + self.function(self.locals, body)

    def meaning(self):
        """what the loop gives, its laws, and what the function ensures"""
        E, takes = self.entry.denotes, arrows(a.speaks for a in self.others)
        binders, words = ''.join(f' ({a.var} : {a.speaks})' for a in self.others), spaced(a.var for a in self.others)
        turn = f'({self.step.label}-out{words} (getD es i zeros))'
        bound = ''.join(f' ({a.of.var} : {a.of.speaks})' for a in self.bound.args[:-1])
        ends = f'({self.bound.label}-out{self.bound_args("list")} (length {self.catalogue.var}))'
        others = self.rest_args(self.start.var, {}, shared='list')
        models = self.bound.model_params() + self.step.model_params()
        return f'''module _ ({self.keys} : Name){models}
    (after-state : List {E} → ℕ → ℕ → {takes}{self.start.type.denotes})
    (after-state-none : (es : List {E}) (i e : ℕ){binders} → e ≤ i → after-state es i e{words} ≡ v-state)
    (after-state-more : (es : List {E}) (i e : ℕ){binders} → i < e
    → after-state es i e{words} ≡ after-state es (i + 1) e{self.rest_args(turn, {}, shared='list')})
    (inside :{bound} (n : ℕ) → {self.bound.label}-out{self.bound_args('list')} n ≤ n) where
  abbrev Says : {arrows(p.speaks for p in self.params)}{self.result.denotes} → Type 0
  Says{spaced(p.var for p in self.params)} r = r ≡ after-state {self.catalogue.var} {self.first.var} {ends}{others}
'''

    def points(self):
        """where the loop can stand"""
        E, t, v = self.entry.denotes, self.start.type, self.catalogue.var
        return self.machine_values() + f'''    abbrev ys : List {E}
    ys = now {v}

    abbrev n : ℕ
    n = length ys

    is-count : Is usize n (vint w64 n ∷ [])
    is-count = (refl, room-{v} .0)

    -- where the part ends
    abbrev end : ℕ
    end = {self.bound.label}-out{self.bound_args()} n

    ends-inside : end ≤ n
    ends-inside = inside{self.bound_args()} n

    -- ---- where the loop stands: the index, and the state
    record Point : Type 0 where
      at-index : ℕ
      state : {t.denotes}
      is-state : Is {self.start.row} state (machine-state state ∷ [])

    -- the loop ends here: what stands is the outcome
    abbrev Ends : Point → Type 0
    Ends x = x .state ≡ {self.final(None)}

    -- the loop goes on from here, and comes to the outcome
    record At : Type 0 where
      at : Point
      comes-state : {self.after('(at .at-index)', '(at .state)')} ≡ {self.final(None)}

    abbrev size : At → ℕ
    size x = end - x .at .at-index

    abbrev at-first : At
    at-first = record {{
      at = record {{ at-index = {self.first.var}; state = {self.start.var}; is-state = is-{self.start.var} }};
      comes-state = refl;
    }}
'''

    def locals_in_turn(self, names):
        self.kept = {self.places[q.var]: q.machine for q in self.params}
        self.kept |= {self.i: '(vint w64 (x .at-index))', self.end: '(vint w64 end)',
                      self.places['v-state']: '(machine-state (x .state))'}
        hand = []
        for i, (mir, there) in reversed(list(enumerate(zip(self.locals, names)))):
            has = f'fat fullShare {mir} {there} 0 {self.kept[i]}' if i in self.kept else f'froom {mir} {there} 0'
            hand += [(f'L{i}', f'‵ ({has})'), (f'D{i}', f'‵ (fdies {mir} {there})')]
        return hand

    def begins(self, steps, came_out):
        """the test of a turn, and how it came out"""
        steps.assign(self.test, f'bin ! {steps.load(self.i)} {steps.load(self.end)} tt', '(tt, tt)')
        steps.retell(self.test, 'tyBool', 'b : Bool', '(vbool b)', came_out)

    def no_more(self):
        steps, here = Steps(self.order), self.rest_args('(x .at .state)', {})
        self.begins(steps, 'is-false (ltb (x .at .at-index) end) (λ z. not-less (ltb→lt _ _ z))')
        steps.say(f'leaves-loop ! {steps.load(self.test)}')
        steps.say(f'forget ! {steps.place(self.test)} refl')
        steps.say('exec ! C Λ En rest (atRet En Post)')
        return f'''      -- ---- the turn that finds nothing left of the part
      ends : (x : At) → size x ≡ 0 → Sq W (I x) {self.goal}
      unfolding afterTurn
      ends x nil =
          {steps.close('finish (x .at) fin', '          ')}
        where
          not-less : x .at .at-index < end → ⊥
          not-less z = omega (arith, z, nil)

          passed : end ≤ x .at .at-index
          passed = omega (arith, nil)

          fin : Ends (x .at)
          fin = sym (after-state-none ys (x .at .at-index) end{here} passed) ∙ x .comes-state
'''

    def known_in_turn(self):
        """what is known in the turn, and where the loop stands after it"""
        E, v, t, here = self.entry.denotes, self.catalogue.var, self.turn, self.rest_args('(x .at .state)', {})
        told, tells = self.spelled_in_turn()
        goes = self.after('(i + 1)', '(heard j)')
        return f'''      -- ---- a turn that passes one entry
      module _ (x : At) (k : ℕ) (one : size x ≡ suc k) where
        abbrev i : ℕ
        i = x .at .at-index

        abbrev c : List {E}
        c = ys

        abbrev el : {E}
        el = getD c i zeros

        before-end : i < end
        before-end = omega (arith, one)

        small : i < n
        small = omega (arith, before-end, ends-inside)

        within : i < length c
        within = small

        shorter : end - (i + 1) < end - i
        shorter = omega (arith, before-end)

        far : i * 12 < 2 ^ 64
        far = omega (arith, room-{v} .1, small)

        next-fits : i + 1 < 2 ^ 64
        next-fits = omega (arith, room-{v} .0, small)

        spelled : (r : {t.denotes}) (w : Val) → Is {t.row} r (w ∷ []) → {told}
        spelled r w is = {tells}

        -- where the loop stands after the turn
        module _ (r : {t.denotes}) (is : Is {self.start.row} r (machine-state r ∷ [])) (heard : {self.says_in_turn('el')}) where
          abbrev next : At
          next = record {{
            at = record {{ at-index = i + 1; state = r; is-state = is }};
            comes-state = (λ j. {goes}) ∙ sym (after-state-more ys i end{here} before-end) ∙ x .comes-state;
          }}
'''

    def cases(self):
        """a turn that passes one entry, and the choice between it and the end"""
        return f'''        more : Sq W (I x) {self.goal}
        unfolding afterTurn
        more =
            {self.one_more()}

      turn-at : (x : At) → Sq W (I x) {self.goal}
      turn-at x = by-cases (size x) refl
        where
          by-cases : (k : ℕ) → size x ≡ k → Sq W (I x) {self.goal}
          by-cases zero nil = ends x nil
          by-cases (suc k) one = more x k one
'''

    def one_more(self):
        """the steps of a turn that passes one entry"""
        steps = Steps(self.order)
        self.begins(steps, 'is-true (ltb i end) (lt→ltb i end before-end)')
        steps.say(f'stays ! {steps.load(self.test)}')
        self.takes_out(steps)
        r, turned = self.calls_step(steps)
        self.goes_to_next(steps, r)
        return steps.close(f'again ! (Less size) I x (next{turned}) shorter', '            ')

    def points_at(self, steps, pointer, how='init'):
        super().points_at(steps, pointer, how)

    def forgets(self, steps):
        for i in self.places['v-entry'], self.read, self.number, self.test:
            steps.say(f'forget ! {steps.place(i)} refl')

    def goes_to_next(self, steps, r):
        fits = 'record { fits = next-fits }'
        steps.assign(self.i, f'bin ! {steps.load(self.i)} (lit ! tt) ({fits})', f'(tt, {fits})', 'store', 'assigns-last')
        self.forgets(steps)

    def sets_out(self, steps):
        """the index before the first turn, and where the part ends"""
        b, v, t = self.bound, self.catalogue.var, self.bound.result
        steps.assign(self.i, f'of-opd ! {steps.load(self.places[self.first.var])}', self.first.fits)
        steps.assign(self.all, f'of-opd ! {steps.load_field(self.places[v], 1)}', f'(tt, record {{ fits = room-{v} .0 }})')
        steps.remark(b.label)
        w, r, e = b.perform(steps, lambda a: a.of.now if a.of is not self.counted_all else 'n', {'n': 'is-count'})
        steps.under(f'peeks ! {t.row} (Is {t.row}) (shows 𝓤 H A {t.row}) {r} ({w} ∷ [])', f'is-{w}')
        steps.say(f'land ! {HERE} (init ! {steps.place(self.end)} refl ({t.typed} {r} _ is-{w} .0))')
        steps.retell(self.end, self.locals[self.end], 'u : Val', 'u', f'ap only ({t.tells} {r} _ is-{w})')
        steps.retell(self.end, self.locals[self.end], 'j : ℕ', '(vint w64 j)', e)
        steps.drop('owned')
        b.come_back(steps, None, {}, {}, {})
        steps.say(f'forget ! {steps.place(self.all)} refl')
        steps.remark('the loop')
