"""The turns of a counted loop: its invariant, its end, one turn step by step, and the way up to the first."""
from walk.text import HERE, Steps, cons, spaced, subscript, tuple_of


class Turns:
    """What the module of a counted loop says of its turns; the rest of the loop is in rounds.py."""

    def turns(self):
        """the loop's invariant, its end, and a turn"""
        l, names = self.round.label, [f'l{subscript(i)}' for i in range(len(self.locals))]
        hand = self.in_turn(names)
        self.order = [label for label, _ in hand]
        self.goal = f'(runs C Λ En (turn #{l}) (anyQ (afterTurn 𝓤 H (Next x) Left)))'
        items = '\n          ∷ '.join(item for _, item in hand)
        known = f'(known-{l} : Triple 𝓤 (𝓣 .C #{l}) {self.round.meant})'
        return f'''    module _ (𝓣 : Tables 𝓤 H) {known} ({' '.join(names)} : ℕ) where
      abbrev C : Calls 𝓤 H
      C = 𝓣 .C

      abbrev Λ : Loops 𝓤 H
      Λ = 𝓣 .Λ

      abbrev En : Env 𝓤 H
      En = {cons(f'({t}, {x})' for t, x in zip(self.locals, names))}

      -- the invariant: the slices, and the locals from the last to the first
      abbrev I : At → List (Item 𝓤)
      I x = {items} ∷ []

      -- when the loop is left, the rest of the body runs
      abbrev Left : Outs → SProp 𝓤
      Left = afterBlock 𝓤 H (afterSeq 𝓤 H (Wp 𝓤 H C Λ En rest (atReturn 𝓤 H En Post)) (atReturn 𝓤 H En Post))

      abbrev Next : At → SProp 𝓤
      Next x = Below 𝓤 H A (Less size) I x

{self.finish()}
{self.no_more()}
{self.known_in_turn()}
{self.cases()}'''

    def cases(self):
        """a turn that does a round, and the choice between it and the end"""
        return f'''        more : Sq W (I x) {self.goal}
        unfolding afterTurn
        more =
            {self.one_more()}

      turn-at : (x : At) → Sq W (I x) {self.goal}
      turn-at x = by-cases (x .left) refl
        where
          by-cases : (k : ℕ) → x .left ≡ k → Sq W (I x) {self.goal}
          by-cases zero nil = ends x nil
          by-cases (suc k) one = more x k one
'''

    def in_turn(self, names):
        """what is in hand when a turn begins: the slices, and the locals, of which some have a value then"""
        hand = []
        for p in self.slices:
            hand += zip(('o' + p.var, 't' + p.var), p.left({p.var: f'(x .z-{p.var})'}))
        self.hand = [label for label, _ in hand]
        self.kept = {self.places[p.var]: p.machine for p in self.params}
        self.kept |= {self.i: f'(vint {self.width} (x .done))', self.places['v-state']: '(machine-state (x .state))'}
        for i, (mir, at) in reversed(list(enumerate(zip(self.locals, names)))):
            has = f'fat fullShare {mir} {at} 0 {self.kept[i]}' if i in self.kept else f'froom {mir} {at} 0'
            hand += [(f'L{i}', f'‵ ({has})'), (f'D{i}', f'‵ (fdies {mir} {at})')]
        return hand

    def finish(self):
        steps = Steps(self.order)
        steps.assign(0, f'of-opd ! {steps.load(self.places["v-state"])}', '(typed-state (x .state) (x .is-state))')
        steps.say(f'returns ! (look ! {steps.place(0)} refl)')
        for i in range(len(self.locals)):
            steps.leave(i, 'leave' if i == 0 or i in self.kept else 'leave-room')
        steps.say('free0 !')
        steps.front(*self.left)
        assert steps.items == self.left, steps.items
        given = [self.now(c) for c in self.components] + ['(x .is-state)', 'fin'] + [f'(x .l-{p.var})' for p in self.muts]
        return f'''      -- ---- after the loop
      finish : (x : At) → Ends x → Sq W (I x) (runs C Λ En rest (atRet En Post))
      finish x fin =
          {steps.close(f'by ! (exits{spaced(given)})', '          ')}
'''

    def begins(self, steps, came_out):
        """the test of a turn, and how it came out"""
        steps.assign(self.test, f'bin ! {steps.load(self.i)} {steps.load(self.places[self.count.var])} tt', '(tt, tt)')
        steps.retell(self.test, 'tyBool', 'b : Bool', '(vbool b)', came_out)

    def no_more(self):
        steps, n = Steps(self.order), self.count.var
        self.begins(steps, f'is-false (ltb (x .done) {n}) (λ z. not-less (ltb→lt _ _ z))')
        steps.say(f'leaves-loop ! {steps.load(self.test)}')
        steps.say(f'forget ! {steps.place(self.test)} refl')
        steps.say('exec ! C Λ En rest (atRet En Post)')
        fin = [f'x .is-{c.after} ∙ ap (λ (k : ℕ). {c.after}{self.words("k")}) all-done' for c in self.components]
        return f'''      -- ---- the turn that finds all rounds done
      ends : (x : At) → x .left ≡ 0 → Sq W (I x) {self.goal}
      unfolding afterTurn
      ends x nil =
          {steps.close('finish x fin', '          ')}
        where
          not-less : x .done < {n} → ⊥
          not-less z = omega (arith, z, x .all, nil)

          all-done : x .done ≡ {n}
          all-done = omega (arith, x .all, nil)

          fin : Ends x
          fin = {tuple_of(fin)}
'''

    def known_in_turn(self):
        """what is known in a turn that does a round, and where the loop stands after it"""
        n, index = self.count.var, ''
        if self.index in self.round.values:
            index = f'''
        is-i : Is {self.count.row} (x .done) (vint {self.width} (x .done) ∷ [])
        is-i = (refl, omega (arith, small, count-fits))
'''
        binders, point = self.after_round()
        return f'''      -- ---- a turn that does a round
      module _ (x : At) (k : ℕ) (one : x .left ≡ suc k) where
        shorter : k < x .left
        shorter = omega (arith, one)

        small : x .done < {n}
        small = omega (arith, x .all, one)

        next-fits : x .done + 1 < 2 ^ {self.width[1:]}
        next-fits = omega (arith, small, count-fits)

        passes : x .done + 1 + k ≡ {n}
        passes = omega (arith, x .all, one)

        one-more : suc (x .done) ≡ x .done + 1
        one-more = omega arith
{index}
        -- where the loop stands after the turn
        module _{binders} where
          abbrev next : At
          next = record {{
{chr(10).join(f'            {x};' for x in point)}
          }}
'''

    def after_round(self):
        """what a round gave, and the point after it"""
        l, models = self.round.label, self.models()
        given = {c: 'r' if c.name == 'state' else f'm-{c.name}' for c in self.components}
        here = self.round_args('(x .done)', lambda c: self.now(c))
        said = f"{l}-says{spaced(self.round.models)}{here} r{spaced(f'm-{a.of.var}' for a in self.round.muts)}"
        binders = ''.join(f' ({given[c]} : {c.type})' for c in self.components)
        binders += f' (is : Is {self.state.row} r (machine-state r ∷ [])) (said : {said})'
        binders += ''.join(f' (k-{p.var} : length m-{p.var} ≡ length (now {p.var}))' for p in self.muts)
        point = ['done = x .done + 1', 'left = k', 'all = passes', 'state = r', 'is-state = is']
        point += [f'{x}-{p.var} = {y}-{p.var}' for p in self.muts for x, y in ('zm', 'lk')]
        others = spaced(p.now for p in self.params if p is not self.count)
        # from what the round gave to what its contract says; from where the loop stood to what the rounds before came to; and
        # by the law
        for c in self.components:
            i = self.round.models.index(models[c])
            on = self.round_args('(x .done)', lambda d: f'(x .is-{d.after} j)')
            point.append(f'is-{c.after} = {self.round.said("said", i)} ∙ (λ j. {models[c]}{on})'
                         f' ∙ sym ({c.more} (x .done){others}) ∙ ap (λ (m : ℕ). {c.after}{self.words("m")}) one-more')
        return binders, point

    def one_more(self):
        """the steps of a turn that does a round"""
        l, steps = self.round.label, Steps(self.order)
        self.begins(steps, f'is-true (ltb (x .done) {self.count.var}) (lt→ltb (x .done) {self.count.var} small)')
        steps.say(f'stays ! {steps.load(self.test)}')
        steps.remark(l)
        self.round.reborrows(steps, self.places)
        now = {c.value.var: self.now(c) for c in self.components} | {'v-i': '(x .done)'}
        elements = lambda a: now.get(a.of.var) or a.of.now
        lengths = {p.var: f'(x .l-{p.var})' for p in self.muts}
        self.round.lend(steps, elements, lengths)
        free = [now.get(x) or f'(x .z-{x[2:]})' for x in self.free]
        w, r, e = self.round.perform(steps, elements, {'v-state': '(x .is-state)', 'v-i': 'is-i'}, free)
        t, to = self.result, self.places['v-state']
        steps.under(f'peeks ! {t.row} (Is {t.row}) (shows 𝓤 H A {t.row}) {r} ({w} ∷ [])', f'is-{w}')
        steps.say(f'land ! {HERE} (store ! {steps.place(to)} refl ({t.typed} {r} _ is-{w} .0))')
        steps.retell(to, self.locals[to], 'u : Val', 'u', f'ap only ({t.tells} {r} _ is-{w})')
        steps.drop('owned')
        left = {a.of.var: self.round.last(a) for a in self.round.muts}
        self.round.come_back(steps, elements, lengths, left, {v: f'h-{l}-{v}' for v in left})
        steps.remark('the turn is over')
        steps.front(*self.hand)
        assert steps.items == self.order, steps.items
        fits = 'record { fits = next-fits }'
        steps.assign(self.i, f'bin ! {steps.load(self.i)} (lit ! tt) ({fits})', f'(tt, {fits})', 'store', 'assigns-last')
        for i in reversed(range(1, len(self.locals))):
            if i not in self.kept:
                steps.say(f'forget ! {steps.place(i)} refl')
        turned = spaced([r] + [left[p.var] for p in self.muts] + [f'(spelled {r} {w} is-{w})', e]
                        + [f'(h-{l}-{p.var} ∙ {lengths[p.var]})' for p in self.muts])
        return steps.close(f'again ! (Less size) I x (next{turned}) shorter', '            ')

    def walk(self):
        """up to the loop"""
        l = self.round.label
        steps = Steps([x for i in reversed(range(len(self.locals))) for x in (f'L{i}', f'D{i}')] + ['tokens', 'owns'])
        self.enters(steps, self.locals, self.places)
        steps.assign(self.places['v-state'], f'of-opd ! {steps.load(self.places[self.start.var])}', self.start.fits)
        steps.assign(self.i, 'of-opd ! (lit ! tt)', '(tt, record { fits = lit< tt })')
        steps.front(*self.hand)
        assert steps.items == self.order, steps.items
        at = f'𝓣 known-{l}{spaced(f"l{subscript(i)}" for i in range(len(self.locals)))}'
        end = f'first ! $ blocks ! $ loops ! 𝓣 (Less size) (by-size size) (I {at}) (turn-at {at}) at-first'
        return f'''    -- ---- the walk, up to the loop
    walk : {self.walk_type()}
    walk 𝓣 known-{l} =
        {self.entered()}
        {steps.close(end, '        ')}
'''
