"""The turns of a loop over all entries: its invariant, its end, one turn step by step, and the way up to the first."""
from walk.loop_points import SIZE
from walk.text import HERE, Steps, arrows, cons, fact, spaced, subscript, tuple_of


class Turns:
    """What a loop's module says of its turns; the rest of the loop is in loop.py."""

    def asked(self):
        free = [('v-state', self.start.type.denotes)] if self.start else []
        free += [(f'l-{p.var}', p.speaks) for p in self.changed] + [('v-entry', self.entry.denotes)]
        return self.step.asks(lambda a: f'l-{a.of.var}', free)

    def exits(self):
        """the walk's end: what is in hand is what the contract says"""
        p, v = self.catalogue, self.catalogue.var
        if self.stores:
            coded = f'(codedHoleys {p.row} .code (heres {p.row} z-{v}))'
            held = f'Held {p.row} (length z-{v}) {self.pointer()} ({v} .name)'
            hand = [('obs', f'‵ (fobs ({v} .name) {coded})'), ('bor', f'‵ (fbor {p.κ} ({held}))')]
        else:
            hand = [('o' + v, f'‵ ({p.shared()})')]
        hand.append(('t' + v, p.token))
        for q in self.lent:
            hand += zip(('o' + q.var, 't' + q.var), q.left({q.var: 'z-' + q.var}))
        self.left = [label for label, _ in hand]
        items = cons(item for _, item in hand)
        result, machine = ('r', '(machine-state r)') if self.start else ('tt', 'vunit')
        steps = Steps(self.left)
        if self.stores:
            steps.front('obs', 'bor')
            steps.take('fjoin !', 2, 'both')
            same, room = f'ap (λ (j : ℕ). sliceVal ({v} .ptr) j ∷ []) (sym l-{v})', f'subst (Room {p.row}) (sym l-{v}) room-{v}'
            steps.take(f'pureI ! (at-slice {p.row} (at-{v} ({v} .name) z-{v}) ({p.machine} ∷ [])) (tt, (tt, tt))'
                       f' ({same}, {room})', 0, 'pure')
            steps.take('fjoin !', 2, 'o' + v)
        made = self.start.type.owns('r', 'is') if self.start else 'feqI ! (List Val) (vunit ∷ []) (vunit ∷ []) refl'
        lasts, lengths = ([f'{x}-{q.var}' if q.slice == 'mut' else 'tt' for q in self.params] for x in 'zl')
        ending = self.ends(steps, machine, result, made, lasts, lengths, 'said')
        takes = ([('r', self.start.type.denotes)] if self.start else []) + [(f'z-{q.var}', q.speaks) for q in self.muts]
        asks = [f'Is {self.start.row} r (machine-state r ∷ [])'] if self.start else []
        asks.append(f"Says{spaced(q.now for q in self.params)} {result}{spaced(f'z-{q.var}' for q in self.muts)}")
        asks += [f'length z-{q.var} ≡ length (now {q.var})' for q in self.muts]
        words = [x for x, _ in takes] + (['is'] if self.start else []) + ['said'] + ['l-' + q.var for q in self.muts]
        return f'''    -- ---- the exit
    exits : {' '.join(f'({x} : {t})' for x, t in takes)} → {arrows(asks)}ent 𝓤 (⋆ 𝓤 H A ({items})) (Post {machine})
    exits{spaced(words)} =
        qed W ({items}) ∵
        {ending}
'''

    # ---- the loop

    def turns(self):
        """the loop's invariant, its end, and a turn"""
        l, names = self.step.label, [f'l{subscript(i)}' for i in range(len(self.locals))]
        hand = self.held_in_turn() + self.locals_in_turn(names)
        self.order = [label for label, _ in hand]
        self.goal = f'(runs C Λ En (turn #{l}) (anyQ (afterTurn 𝓤 H (Next x) Left)))'
        items = '\n          ∷ '.join(item for _, item in hand)
        known = f'(known-{l} : Triple 𝓤 (𝓣 .C #{l}) {self.step.meant})' + ('' if self.stores else ' (q′ : Share)')
        return f'''    module _ (𝓣 : Tables 𝓤 H) {known} ({' '.join(names)} : ℕ) where
      abbrev C : Calls 𝓤 H
      C = 𝓣 .C

      abbrev Λ : Loops 𝓤 H
      Λ = 𝓣 .Λ

      abbrev En : Env 𝓤 H
      En = {cons(f'({t}, {x})' for t, x in zip(self.locals, names))}

      -- the invariant: the catalogue, the other slices, and the locals from the last to the first
      abbrev J : Point → List (Item 𝓤)
      J x = {items} ∷ []

      abbrev I : At → List (Item 𝓤)
      I x = J (x .at)

      -- when the loop is left, the rest of the body runs
      abbrev Left : Outs → SProp 𝓤
      Left = afterBlock 𝓤 H (afterSeq 𝓤 H (Wp 𝓤 H C Λ En rest (atReturn 𝓤 H En Post)) (atReturn 𝓤 H En Post))

      abbrev Next : At → SProp 𝓤
      Next x = Below 𝓤 H A (Less size) I x

{self.finish()}
{self.no_more()}
{self.known_in_turn()}
{self.cases()}'''

    def cases(self):
        """a turn that passes one entry, and the choice between it and the end"""
        return f'''        more : Sq W (I x) {self.goal}
        unfolding afterTurn
        more =
            {self.one_more()}

      turn-at : (x : At) → Sq W (I x) {self.goal}
      turn-at x = by-cases (x .at .left) refl
        where
          by-cases : (l : List {self.entry.denotes}) → x .at .left ≡ l → Sq W (I x) {self.goal}
          by-cases [] nil = ends x nil
          by-cases (e ∷ es) cons = more x e es cons
'''

    def held_in_turn(self):
        """what is in hand of the slices when a turn begins"""
        p, v = self.catalogue, self.catalogue.var
        if self.stores:
            coded = f'(codedHoleys {p.row} .code (heres {p.row} ys))'
            hand = [('row', f'‵ ({self.row("(x .past ++ x .left)")})'),
                    ('open', f'‵ (fobor {p.κ} {p.q} (Held {p.row} n {self.pointer()} ({v} .name)))'),
                    ('obs', f'‵ (fobs ({v} .name) {coded})'), ('auth', f'‵ (fauth ({v} .name) {coded})')]
        else:
            hand = [('row', f'‵ ({self.row("ys")})'),
                    ('open', f'‵ (fobor {p.κ} {p.q} (arr-parts (shares {p.row}) n .part q′ ys {self.pointer()}))'),
                    ('o' + v, f'‵ ({p.shared()})')]
        for q in self.lent:
            hand += zip(('o' + q.var, 't' + q.var), q.left({q.var: f'(x .z-{q.var})'}))
        self.hand = [label for label, _ in hand]
        return hand

    def locals_in_turn(self, names):
        """the locals when a turn begins; some have a value then"""
        self.kept = {self.places[q.var]: q.machine for q in self.params}
        self.kept[self.i] = '(vint w64 (length (x .past)))'
        if self.start:
            self.kept[self.places['v-state']] = '(machine-state (x .state))'
        hand = []
        for i, (mir, at) in reversed(list(enumerate(zip(self.locals, names)))):
            has = f'fat fullShare {mir} {at} 0 {self.kept[i]}' if i in self.kept else f'froom {mir} {at} 0'
            hand += [(f'L{i}', f'‵ ({has})'), (f'D{i}', f'‵ (fdies {mir} {at})')]
        return hand

    def finish(self):
        steps = Steps(self.order)
        if self.start:
            steps.assign(0, f'of-opd ! {steps.load(self.places["v-state"])}', '(typed-state (x .state) (x .is-state))')
        else:
            steps.assign(0, 'of-opd ! (unit-lit !)', '(tt, tt)')
        v = self.catalogue.var
        if self.stores:
            steps.front('row', 'open', 'obs', 'auth')
            closes = f'closes-slice ! tt {self.entry.row} ys (x .past ++ x .left) (len x) {self.pointer()}'
            steps.take(closes, 4, 'obs', 'bor', 't' + v)
        else:
            steps.front('row', 'open')
            steps.take(f'shuts-slice ! tt {self.entry.row} q′ ys {self.pointer()}', 2, 't' + v)
        steps.say(f'returns ! (look ! {steps.place(0)} refl)')
        for i in range(len(self.locals)):
            steps.leave(i, 'leave' if i == 0 or i in self.kept else 'leave-room')
        steps.say('free0 !')
        steps.front(*self.left)
        assert steps.items == self.left, steps.items
        said = tuple_of([fact('fin', self.components.index(c), len(self.components)) for c in self.in_source_order()])
        given = ['(x .state)'] if self.start else []
        given += ['(x .past ++ x .left)' if p is self.catalogue else f'(x .z-{p.var})' for p in self.muts]
        given += ['(x .is-state)'] if self.start else []
        given += [said] + ['(len x)' if p is self.catalogue else f'(x .l-{p.var})' for p in self.muts]
        return f'''      -- ---- after the loop: the catalogue is {'closed' if self.stores else 'shut'}
      finish : (x : Point) → Ends x → Sq W (J x) (runs C Λ En rest (atRet En Post))
      finish x fin =
          {steps.close(f'by ! (exits{spaced(given)})', '          ')}
'''

    def begins(self, steps, came_out):
        """the test of a turn, and how it came out"""
        v = self.catalogue.var
        steps.assign(self.number, f'of-opd ! {steps.load_field(self.places[v], 1)}', f'(tt, record {{ fits = room-{v} .0 }})')
        steps.assign(self.test, f'bin ! {steps.load(self.i)} {steps.load(self.number)} tt', '(tt, tt)')
        steps.retell(self.test, 'tyBool', 'b : Bool', '(vbool b)', came_out)

    def no_more(self):
        steps, E = Steps(self.order), self.entry.denotes
        self.begins(steps, 'is-false (ltb (length (x .at .past)) n) (λ z. not-less (ltb→lt _ _ z))')
        steps.say(f'leaves-loop ! {steps.load(self.test)}')
        steps.say(f'forget ! {steps.place(self.test)} refl')
        steps.say(f'forget ! {steps.place(self.number)} refl')
        steps.say('exec ! C Λ En rest (atRet En Post)')
        here, fin = self.at('x .at'), []
        for c in self.components:
            none = f'sym ({c.nil}{here})'
            if c.name == 'entries':
                none = f'ap (λ (l : List {E}). x .at .past ++ l) (nil ∙ {none})'
            came = self.in_front(c, 'x .at', f'{c.after} l{here}')
            fin.append(f'{none} ∙ ap (λ (l : List {E}). {came}) (sym nil) ∙ x .comes-{c.name}')
        return f'''      -- ---- the turn that finds no entry
      ends : (x : At) → x .at .left ≡ [] → Sq W (I x) {self.goal}
      unfolding afterTurn
      ends x nil =
          {steps.close('finish (x .at) fin', '          ')}
        where
          not-less : length (x .at .past) < n → ⊥
          not-less z = omega (arith, z, sums (x .at), ap {{B = ℕ}} length nil)

          fin : Ends (x .at)
          fin = {tuple_of(fin)}
'''

    def one_more(self):
        """the steps of a turn that passes one entry"""
        steps = Steps(self.order)
        self.begins(steps, 'is-true (ltb i n) (lt→ltb i n small)')
        steps.say(f'stays ! {steps.load(self.test)}')
        self.step.reborrows(steps, self.places)
        self.takes_out(steps)
        r, turned = self.calls_step(steps)
        if not self.stops:
            self.goes_to_next(steps, r)
            return steps.close(f'again ! (Less size) I x (next{turned}) shorter', '            ')
        steps.assign(self.test, f'of-opd ! {steps.load_field(self.places["v-state"], self.stop)}', '(tt, tt)', 'store')
        steps.write(f'breaks-if ! {steps.load(self.test)}', new_line=True)
        stops, goes = Steps(self.order), Steps(self.order)
        self.forgets(stops)
        stops.say('exec ! C Λ En rest (atRet En Post)')
        self.goes_to_next(goes, r)
        ended = stops.close(f'finish (last{turned}) (left-off{turned} (is-true _ z))', ' ' * 12)
        gone_on = goes.close(f'again ! (Less size) I x (next{turned} (is-not _ z)) shorter', ' ' * 12)
        steps.write(f'(λ z. {ended})', new_line=True)
        steps.write(f'(λ z. {gone_on})', new_line=True)
        return steps.close('', '            ')

    def takes_out(self, steps):
        """the entry is read"""
        self.points_at(steps, self.read)
        E, share = self.entry, 'fullShare' if self.stores else 'q′'
        steps.front('row')
        shown = f'{E.row} (Is {E.row}) (shows 𝓤 H A {E.row}) {E.vals} {E.tells}'
        steps.under(f'elem-out ! {shown} {share} c i zeros {self.pointer()} within', 'g')
        steps.items[:1] = ['element', 'its own', 'others']
        there = f'(from ! (hop ! (look ! {steps.place(self.read)} refl) (stop !)))'
        found = f'(load ! {there} (look-raw ! {steps.at("element")} refl))'
        steps.assign(self.places['v-entry'], f'of-opd ! {found}', '(typed-entry el g)')
        if not self.stores:
            steps.take(f'elem-back ! {E.row} q′ ys i zeros (machine-entry el ∷ []) {self.pointer()} small', 3, 'row')

    def calls_step(self, steps):
        """the step is called, and what it gave is stored; the name of that, and the words for where the turn leads"""
        l = self.step.label
        now = {p.var: f'(x .at .z-{p.var})' for p in self.changed} | {'v-state': '(x .at .state)', 'v-entry': 'el'}
        elements = lambda a: now.get(a.of.var) or a.of.now
        lengths = {p.var: f'(x .at .l-{p.var})' for p in self.changed}
        steps.remark(l)
        self.step.lend(steps, elements, lengths)
        free = (['(x .at .state)'] if self.start else []) + [now[p.var] for p in self.changed] + ['el']
        w, r, e = self.step.perform(steps, elements, {'v-state': '(x .at .is-state)', 'v-entry': 'g'}, free)
        t, to = self.turn, self.given if self.stores else self.places['v-state']
        steps.under(f'peeks ! {t.row} (Is {t.row}) (shows 𝓤 H A {t.row}) {r} ({w} ∷ [])', f'is-{w}')
        how = 'init' if self.stores else 'store'
        steps.say(f'land ! {HERE} ({how} ! {steps.place(to)} refl ({t.typed} {r} _ is-{w} .0))')
        steps.retell(to, self.locals[to], 'u : Val', 'u', f'ap only ({t.tells} {r} _ is-{w})')
        steps.drop('owned')
        left = {a.of.var: self.step.last(a) for a in self.step.muts}
        self.step.come_back(steps, elements, lengths, left, {x: f'h-{l}-{x}' for x in left})
        steps.remark('the turn is over')
        is_state = self.keeps(steps, r, f'(spelled {r} {w} is-{w})')
        steps.front(*self.hand)
        assert steps.items == self.order, steps.items
        return r, spaced([r] + [left[p.var] for p in self.changed] + ([is_state] if self.start else []) + [e]
                         + [f'(h-{l}-{p.var} ∙ {lengths[p.var]})' for p in self.changed])

    def keeps(self, steps, r, told):
        """what the step gave goes to the entries and the state; what is known of the state's machine value"""
        is_state, is_entry = (f'({told} .0)', f'({told} .1 .0)') if self.start and self.stores else (told, told)
        if self.stores:
            self.puts(steps, self.entry_of(r), is_entry)
        if self.start and self.stores:
            state = f'of-opd ! {steps.load_field(self.given, 0)}'
            steps.assign(self.places['v-state'], state, f'(typed-state ({r} .state) {is_state})', 'store')
        return is_state

    def points_at(self, steps, pointer, how='store'):
        """the pointer to the entry"""
        v = self.catalogue.var
        fits = 'record { fits = far }'
        steps.assign(self.number, f'bin ! {steps.load(self.i)} (lit ! tt) ({fits})', f'(tt, {fits})', how)
        steps.assign(pointer, f'bin ! {steps.load_field(self.places[v], 0)} {steps.load(self.number)} tt', '(tt, tt)')
        steps.retell(pointer, 'tyPtr', 'p : ℕ', f'(vptr ({v} .ptr .0) p)', f'sym (place-is {SIZE} ({v} .ptr .1) i)')

    def puts(self, steps, entry, is_entry):
        """the entry is stored"""
        self.points_at(steps, self.written)
        E, given = self.entry, steps.load_field(self.given, 1) if self.start else steps.load(self.given)
        there = f'(from ! (hop ! (look ! {steps.place(self.written)} refl) (stop !)))'
        stored = f'store-raw ! {steps.at("element")} refl (typed-entry {entry} {is_entry})'
        steps.say(f'assigns ! (of-opd ! {given}) {there} ({stored})')
        steps.drop('its own')
        steps.take(E.owns(entry, is_entry), 0, 'its own')
        steps.front('element', 'its own', 'others')
        steps.take(f'elem-put ! {E.row} fullShare c i {entry} (machine-entry {entry} ∷ []) {self.pointer()} within', 3, 'row')
        steps.say(f'rewrite ! 0 (λ (l : List {E.denotes}). ‵ ({self.row("l")})) (put-is {entry}) refl')

    def forgets(self, steps):
        for i in reversed(range(1, len(self.locals))):
            if i not in self.kept:
                steps.say(f'forget ! {steps.place(i)} refl')

    def goes_to_next(self, steps, r):
        passed = self.entry_of(r) if self.stores else 'e'
        fits = 'record { fits = next-fits }'
        steps.assign(self.i, f'bin ! {steps.load(self.i)} (lit ! tt) ({fits})', f'(tt, {fits})', 'store', 'assigns-last')
        self.forgets(steps)
        steps.retell(self.i, '(tyInt w64)', 'j : ℕ', '(vint w64 j)', f'sym (length-append (x .at .past) ({passed} ∷ []))')
        if self.stores:
            seam = f'sym (append-snoc (x .at .past) {passed} es)'
            steps.say(f'rewrite ! {steps.at("row")} (λ (l : List {self.entry.denotes}). ‵ ({self.row("l")})) ({seam}) refl')

    def walk(self):
        """up to the loop"""
        p, v, E, l = self.catalogue, self.catalogue.var, self.entry, self.step.label
        steps = Steps([x for i in reversed(range(len(self.locals))) for x in (f'L{i}', f'D{i}')] + ['tokens', 'owns'])
        self.enters(steps, self.locals, self.places)
        if self.start:
            steps.assign(self.places['v-state'], f'of-opd ! {steps.load(self.places[self.start.var])}', self.start.fits)
        self.sets_out(steps)
        steps.front('o' + v)
        if self.stores:
            steps.take('fsplit !', 1, 'fact', 'both')
            steps.drop('fact')
            steps.take('fsplit !', 1, 'obs', 'bor')
            steps.front('obs', 'bor', 't' + v)
            steps.take(f'opens-slice ! tt {E.row} ys {self.pointer()}', 3, 'row', 'open', 'obs', 'auth')
        else:
            steps.take(p.copied(), 1, 'two')
            steps.take('split !', 1, 'one', 'o' + v)
            for _ in range(2):
                steps.take('fsplit !', 1, 'fact', 'one')
                steps.drop('fact')
            steps.front('one', 't' + v)
            steps.under(f'looks-slice ! tt {E.row} (Is {E.row}) (shows 𝓤 H A {E.row}) {E.vals} {E.tells}'
                        f' (struct.copy {E.name}′.the-type {E.name}″.the-copy 𝓤 H A W) ys {self.pointer()}', 'q′')
            steps.items[:2] = ['row', 'open', 'fact']
            steps.drop('fact')
        steps.front(*self.hand)
        assert steps.items == self.order, steps.items
        at = f'𝓣 known-{l}{"" if self.stores else " q′"}{spaced(f"l{subscript(i)}" for i in range(len(self.locals)))}'
        end = f'first ! $ blocks ! $ loops ! 𝓣 (Less size) (by-size size) (I {at}) (turn-at {at}) at-first'
        return f'''    -- ---- the walk, up to the loop
    walk : {self.walk_type()}
    walk 𝓣{spaced('known-' + c.label for c in self.callees)} =
        {self.entered()}
        {steps.close(end, '        ')}
'''

    def sets_out(self, steps):
        """the index before the first turn"""
        steps.assign(self.i, 'of-opd ! (lit ! tt)', '(tt, record { fits = lit< tt })')
