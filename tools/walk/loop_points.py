"""The points of a loop over all entries: where it can stand, what is known in a turn that passes one entry, and that the loop
comes to the outcome from where the turn leaves it."""
from walk.text import facts, spaced, tuple_of

# the bytes of an entry
SIZE = 12


class Points:
    """What a loop's module says of its points; the rest of the loop is in loop.py."""

    def points(self):
        """where the loop can stand"""
        E, lines = self.entry.denotes, '\n'.join
        now = {'state': 'x .state', 'entries': 'x .past ++ x .left'}
        ends = [f'{now.get(c.name, f"x .z-{c.name}")} ≡ {self.final(c)}' for c in self.components]
        comes = [(c, self.in_front(c, 'at', f"{c.after} (at .left){self.at('at')}")) for c in self.components]
        fields = self.point_fields()
        return self.machine_values() + f'''    abbrev ys : List {E}
    ys = now {self.catalogue.var}

    abbrev n : ℕ
    n = length ys

    -- ---- where the loop stands: the entries that are passed, those that are left, and what else changes
    record Point : Type 0 where
{lines(f'      {name} : {type}' for name, type, _ in fields)}

    -- the loop ends here: what stands is the outcome
    abbrev Ends : Point → Type 0
    Ends x = {facts(ends)}

    -- the loop goes on from here, and comes to the outcome
    record At : Type 0 where
      at : Point
{lines(f'      comes-{c.name} : {term} ≡ {self.final(c)}' for c, term in comes)}

{self.counted(fields)}'''

    def counted(self, fields):
        """the first point, and how many entries there are at each"""
        first = '; '.join(f'{name} = {value}' for name, _, value in fields)
        # of no entries passed, what the loop comes to is the outcome
        comes_first = '; '.join(f'comes-{c.name} = refl' for c in self.components)
        sums = 'x .all' if self.stores else 'sym (length-append (x .past) (x .left)) ∙ ap {B = ℕ} length (x .all)'
        return f'''    abbrev size : At → ℕ
    size x = length (x .at .left)

    abbrev at-first : At
    at-first = record {{ at = record {{ {first} }}; {comes_first} }}

    sums : (x : Point) → length (x .past) + length (x .left) ≡ n
    sums x = {sums}

    len : (x : Point) → length (x .past ++ x .left) ≡ n
    len x = length-append (x .past) (x .left) ∙ sums x
'''

    def machine_values(self):
        """the machine value of an entry, and of a state"""
        text = ''
        for name, type in [('entry', self.entry)] + ([('state', self.start.type)] if self.start else []):
            typed = f'Holds (hasTy {type.mir} (machine-{name} x)) × WT (machine-{name} x)'
            text += f'''    abbrev machine-{name} : {type.denotes} → Val
    machine-{name} x = only ({type.vals} x)

    typed-{name} : (x : {type.denotes}) → Is {type.row} x (machine-{name} x ∷ []) → {typed}
    typed-{name} x is = {type.typed} x _ is .0

'''
        return text

    def point_fields(self):
        """the fields of a point, each with its type and its value before the first turn"""
        E = self.entry.denotes
        fields = [('past', f'List {E}', '[]'), ('left', f'List {E}', 'ys')]
        if self.start:
            fields += [('state', self.start.type.denotes, self.start.var),
                       ('is-state', f'Is {self.start.row} state (machine-state state ∷ [])', f'is-{self.start.var}')]
        for p in self.changed:
            fields += [(f'z-{p.var}', p.speaks, f'now {p.var}'),
                       (f'l-{p.var}', f'length z-{p.var} ≡ length (now {p.var})', 'refl')]
        if self.stores:
            return fields + [('all', 'length past + length left ≡ n', 'zero-add n')]
        return fields + [('all', 'past ++ left ≡ ys', 'refl')]

    # ---- a turn that passes one entry

    def known_in_turn(self):
        """what is known in the turn, and where the loop stands after it"""
        E, v, t = self.entry.denotes, self.catalogue.var, self.turn
        told, tells = self.spelled_in_turn()
        return f'''      -- ---- a turn that passes one entry
      module _ (x : At) (e : {E}) (es : List {E}) (cons : x .at .left ≡ e ∷ es) where
        abbrev i : ℕ
        i = length (x .at .past)

        abbrev c : List {E}
        c = {'x .at .past ++ x .at .left' if self.stores else 'ys'}

        abbrev el : {E}
        el = getD c i zeros

        one-more : length (x .at .left) ≡ suc (length es)
        one-more = ap {{B = ℕ}} length cons

        shorter : length es < length (x .at .left)
        shorter = omega (arith, one-more)

        small : i < n
        small = omega (arith, sums (x .at), one-more)

        within : i < length c
        within = {'subst (λ (j : ℕ). i < j) (sym (len (x .at))) small' if self.stores else 'small'}

        far : i * {SIZE} < 2 ^ 64
        far = omega (arith, room-{v} .1, small)

        next-fits : i + 1 < 2 ^ 64
        next-fits = omega (arith, room-{v} .0, small)

{self.found_in_turn()}
        spelled : (r : {t.denotes}) (w : Val) → Is {t.row} r (w ∷ []) → {told}
        spelled r w is = {tells}

{self.after_turn()}'''

    def found_in_turn(self):
        """that the entry at the index is the one which is passed"""
        E = self.entry.denotes
        if self.stores:
            return f'''        el-is : el ≡ e
        el-is = ap (λ (l : List {E}). getD (x .at .past ++ l) i zeros) cons ∙ getD-append-seam (x .at .past) e es zeros

        -- the entries, with another in the place of e
        put-is : (d : {E}) → set c i d ≡ x .at .past ++ d ∷ es
        put-is d = ap (λ (l : List {E}). set (x .at .past ++ l) i d) cons ∙ set-append-seam (x .at .past) e es d
'''
        return f'''        seam : x .at .past ++ e ∷ es ≡ ys
        seam = ap (λ (l : List {E}). x .at .past ++ l) (sym cons) ∙ x .at .all

        el-is : el ≡ e
        el-is = ap (λ (l : List {E}). getD l i zeros) (sym seam) ∙ getD-append-seam (x .at .past) e es zeros
'''

    def spelled_in_turn(self):
        """what is known of the machine value of what the step gave, and how"""
        t = self.turn
        if self.start and self.stores:
            is_entry = f'Is {self.entry.row} (r .entry) (machine-entry (r .entry) ∷ [])'
            return (f'Is {self.start.row} (r .state) (machine-state (r .state) ∷ []) × ({is_entry} × Unit {{0}})',
                    f'struct.owed {t.name}′.the-type {t.name}″.the-laws r _ is')
        return (f'Is {t.row} r ({"machine-state" if self.start else "machine-entry"} r ∷ [])',
                f'subst (λ (vs : List Val). Is {t.row} r vs) ({t.tells} r _ is) is')

    def says_in_turn(self, entry):
        """what the step's contract says of the turn, on this entry"""
        left = spaced(f'm-{p.var}' for p in self.changed)
        return f"{self.step.label}-says{spaced(self.step.models)}{self.at('x .at')} {entry} r{left}"

    def after_turn(self):
        """where the loop stands after the turn, and where it stands when it is left"""
        E, state, passed = self.entry.denotes, self.state_of('r'), self.entry_of('r') if self.stores else 'e'
        binders = f'(r : {self.turn.denotes})' + ''.join(f' (m-{p.var} : {p.speaks})' for p in self.changed)
        if self.start:
            binders += f' (is : Is {self.start.row} {state} (machine-state {state} ∷ []))'
        binders += f' (heard-el : {self.says_in_turn("el")})'
        binders += ''.join(f' (k-{p.var} : length m-{p.var} ≡ length (now {p.var}))' for p in self.changed)
        common = [f'state = {state}', 'is-state = is'] if self.start else []
        common += [f'z-{p.var} = m-{p.var}; l-{p.var} = k-{p.var}' for p in self.changed]
        counted = 'append-snoc (x .at .past) e es ∙ seam'
        if self.stores:
            counted = f'omega (arith, sums (x .at), one-more, length-append (x .at .past) ({passed} ∷ []))'
        point = '; '.join([f'past = x .at .past ++ {passed} ∷ []', 'left = es'] + common + [f'all = {counted}'])
        comes = ''.join(f'\n            comes-{c.name} = {self.comes(c, "going")};' for c in self.components)
        text = f'''        module _ {binders} where
          said : {self.says_in_turn('e')}
          said = subst (λ (d : {E}). {self.says_in_turn('d')}) el-is heard-el

          -- where the loop stands after the turn
          abbrev next : {f'{state} .stop ≡ false → ' if self.stops else ''}At
          next{' going' if self.stops else ''} = record {{
            at = record {{ {point} }};{comes}
          }}
'''
        return text + self.left_off(passed, common) if self.stops else text

    def left_off(self, passed, common):
        counted = 'omega (arith, sums (x .at), one-more)' if self.stores else 'seam'
        point = '; '.join(['past = x .at .past', f'left = {passed} ∷ es'] + common + [f'all = {counted}'])
        return f'''
          -- where it stands when it is left
          abbrev last : Point
          last = record {{ {point} }}

          left-off : {self.state_of('r')} .stop ≡ true → Ends last
          left-off stopping = {tuple_of([self.comes(c, "stopping") for c in self.components])}
'''

    def comes(self, c, how):
        """that a component comes to the outcome from where a turn leaves it, as the loop goes on or is left"""
        E, here = self.entry.denotes, self.at('x .at')
        front = lambda t: self.in_front(c, 'x .at', t)
        after_turn = self.goes_on if how == 'going' else self.stopped
        # from what the turn gave to what its contract says that it gave,
        said = [f'({self.step.said("said", i)} j)' for i in range(len(self.step.models))]
        path = f'(λ j. {front(after_turn(c, said[0], dict(zip([a.of.var for a in self.step.muts], said[1:]))))})'
        if c.name == 'entries' and how == 'going':
            rest = f"after-entries es{self.rest_args(self.state_of('r'), {p.var: f'm-{p.var}' for p in self.changed})}"
            path = f"append-snoc (x .at .past) {self.entry_of('r')} ({rest}) ∙ {path}"
        if self.stops:
            # by the test on the state,
            out = f'({self.step.label}-out{here} e)'
            lists = {a.of.var: f'({m}{here} e)' for a, m in zip(self.step.muts, self.step.leaves)}
            chosen = front(f'choose b ({self.stopped(c, out, lists)}) ({self.goes_on(c, out, lists)})')
            given = f'ap (λ (t : {self.turn.denotes}). {self.state_of("t")} .stop) ({self.step.said("said", 0)})'
            path += f' ∙ sym (ap (λ (b : Bool). {chosen}) (sym ({given}) ∙ {how}))'
        # and by the law, to what the component was before the turn
        law = f'sym ({c.cons} e es{here})'
        if c.name == 'entries':
            law = f'ap (λ (l : List {E}). x .at .past ++ l) ({law})'
        before = front(f'{c.after} l{here}')
        return f'{path} ∙ {law} ∙ ap (λ (l : List {E}). {before}) (sym cons) ∙ x .comes-{c.name}'
