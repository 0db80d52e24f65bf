"""The walk of a call on a part of a local array:

    let mut all = entries;                          let all = entries;
    let outcome = call(.., &mut all[..c], ..);      let outcome = call(.., &all[..c], ..);
    last(outcome, all)                              last(outcome, all)

The array is a parameter by value, and c another; the function requires that c is at most the array's length. What each callee
ensures is a proposition of its parameters, its result and what it leaves: a parameter of the module. The function ensures what
follows from the two by a law."""
import re

from walk.call import Arg, Call, argument, copy
from walk.module import Walk
from walk.naming import check_name
from walk.text import HERE, Steps, arrows, at_entry, at_exit, cons, indented, nest, paragraphs, signature, spaced, subscript
from walk.types import Type, Value
from walk.wrong import Wrong, at


class Part:
    """The first elements of a local array, as many as a parameter says, that are lent as a slice. `block` is where the array
    lies: a variable in what the call asks, and the local's block in the walk."""
    slice = 'mut'

    def __init__(self, name, array, count, structs):
        self.name, self.var, self.array, self.count = name, 'x-' + name, array, count
        self.type = Type(array.type.of, structs)
        self.row, self.speaks = self.type.row, f'List {self.type.denotes}'
        self.denotes = f'RefT ({self.speaks})'
        self.elements = f'(take {count.var} {array.var})'
        self.block = 'b-' + self.var

    @property
    def at(self):
        return f'at-{self.var} {self.block}'

    @property
    def machine(self):
        return f's-{self.var} {self.block}'

    def slot(self, lifetime, slice):
        return f'{slice}Slice {lifetime} tt (λ _. {self.row})'

    def lent(self, slice, lifetime, ν, δ, elements):
        kind = 'MutSlice' if slice == 'mut' else 'ShrSlice'
        return f'{kind} (named {lifetime}) ({ν} ∷ []) {self.row} .own ({self.at} {δ} {elements}) ({self.machine} ∷ [])'

    def kept(self, slice, ν, δ, elements):
        of = f'{self.row} {self.array.type.count} ({ν} ∷ []) {self.count.var} {self.array.var} {self.block}'
        return f'PartLent {of} {δ}' if slice == 'mut' else f'PartShown {of}'

    def whole(self, elements):
        """the array, at these elements"""
        return f'fat fullShare {self.array.type.mir} {self.block} 0 (only ({self.array.type.vals} {elements}))'


class Told(Call):
    """A call of which a proposition is told: of what it takes, what it gives, and what it leaves."""
    modelled = 'what it says of what it takes, gives and leaves'

    def __init__(self, role, args, result):
        super().__init__(role, args, result)
        self.gives, self.leaves, self.models = [], [], [f'{self.label}-says']
        self.meant = f'({self.label}-contract {self.label}-says 𝓤 H A)'

    def model_params(self):
        of = arrows(a.of.speaks for a in self.args) + f'{self.result.denotes} → ' + arrows(a.of.speaks for a in self.muts)
        return f' ({self.label}-says : {of}Type 0)'

    def contract(self):
        l = self.label
        return f'''-- ---- what `{l}` is
abbrev {l}-signature : Signature
{l}-signature = {signature(self.slices, self.slots(), self.result)}

abbrev {l}-ended : Ended
{l}-ended = record {{ signature = {l}-signature; kept = {nest(['yes'] * len(self.args))} }}

module _{self.model_params()} where
  module _ {{M : Type 1}} (𝓤 : URA M) where
    abbrev {l}-clauses : Clauses 𝓤 {l}-ended
    {l}-clauses κs a = record {{
      ghost = Unit {{0}};
      requires = λ _. emp 𝓤;
      ensures = λ _ r e. fact 𝓤 ({l}-says{at_entry(self.args)} r{at_exit(self.args)});
    }}

    module _ (H : Heap 𝓤) (A : Atoms 𝓤) where
      abbrev pub {l}-contract : Contract 𝓤
      {l}-contract = tripleOf 𝓤 H A {l}-signature (closing 𝓤 H A {l}-ended {l}-clauses)
'''

    def hears(self, steps, elements, args, r, zs, lists):
        l = self.label
        words = spaced([elements(a) for a in self.args] + [r] + [self.last(a) for a in self.muts])
        said, at_last = f'{l}-says{words}', f'lasts {l}-ended {self.lifetimes()} {args} {zs}'
        steps.say(f'use1 W (some (λ ({zs} : {lists}). ‵ ({at_last}) ⊛ raw (fact 𝓤 ({said})))) (id⊢ 𝓤 _)')
        steps.under('pick !', zs)
        steps.take('split !', 1, 'lasts', 'ensures')
        steps.front('ensures')
        steps.under(f'heard ! ({said})', 'e-' + l)
        steps.items.remove('ensures')

    # ---- the part of the array

    def reborrow(self, places, new_local):
        return [s for a in self.lends for s in (self.takes_part(a, places, new_local) if isinstance(a.of, Part)
                                                else self.lends_again(a, places, new_local))]

    def takes_part(self, a, places, new_local):
        kind, p = 'mut' if a.slice == 'mut' else 'imm', a.of
        a.pointer = new_local(f'(tyRef erased {kind} {p.array.type.element})')
        a.place = new_local(f'(sliceTy (tyRef erased {kind} {p.type.element}))')
        return [f'assign (place {a.pointer} []) (addrOf (place {places[p.var]} []))',
                f'assign (place {a.place} []) (aggregate ({copy(a.pointer)} ∷ {copy(places[p.count.var])} ∷ []))']

    def reborrows(self, steps, places):
        for a in self.lends:
            if not isinstance(a.of, Part):
                self.reborrows_one(a, steps, places)
                continue
            steps.assign(a.pointer, f'addr ! {HERE}', '(tt, tt)')
            parts = f'(and-then ! {steps.load(a.pointer)} (and-then ! {steps.load(places[a.of.count.var])} (no-more !)))'
            steps.assign(a.place, f'agg ! {parts}', f'(tt, (tt, (typed-{a.of.count.var} .1, tt)))')

    def of_part(self, p, ν):
        """what the laws of lending a part take"""
        e = p.type
        return (f'{p.row} {p.array.type.count} ({ν} ∷ []) {p.count.var} {p.array.var} {p.block} {e.vals} {e.tells} tt 𝓤 H A W'
                f' {e.makes} is-{p.array.var} ({p.var}-room) asked')

    def lend_one(self, a, steps, elements, lengths):
        if not isinstance(a.of, Part):
            return super().lend_one(a, steps, elements, lengths)
        p, v = a.of, a.of.var
        steps.under('lft-new ! tt', a.ν)
        steps.items.insert(0, 'ν' + v)
        steps.front(p.item)
        lent, kept = p.lent(a.slice, self.number(a), a.ν, 'δ', p.elements), p.kept(a.slice, a.ν, 'δ', p.elements)
        law = 'lends-part' if a.slice == 'mut' else 'shows-part'
        both = f'later (some (λ (δ : GName). ‵ ({lent}) ⊛ ‵ ({kept})))'
        steps.take(f'use1 W ({both}) ({law} {self.of_part(p, a.ν)} (named {self.number(a)}))', 1, 'new')
        steps.say('await ! tt')
        steps.under('pick !', a.δ)
        steps.take('split !', 1, 'a' + v, 'k' + v)

    def come_back_one(self, a, steps, elements, lengths, left, longer):
        if not isinstance(a.of, Part):
            return super().come_back_one(a, steps, elements, lengths, left, longer)
        p, v = a.of, a.of.var
        steps.front('ν' + v)
        steps.take('lft-end ! tt', 1, 'dead')
        if a.slice == 'mut':
            now = f'({left[v]} ++ drop-list {p.count.var} {p.array.var})'
            known = f'Is {p.array.type.row} {now} ({p.array.type.vals} {now})'
            steps.front('dead', 'k' + v, 'f' + v)
            law = f'part-back {self.of_part(p, a.ν)} {a.δ} {left[v]} {longer[v]}'
            steps.take(f'use3 W (later (given ({known}) (‵ ({p.whole(now)})))) ({law})', 3, p.item)
            steps.say('await ! tt')
            steps.under('learn !', f'is-now-{v}')
            p.now, p.is_now = now, f'is-now-{v}'
        else:
            steps.front('dead', 'k' + v)
            steps.take(f'use2 W (later (‵ ({p.whole(p.array.var)}))) (part-home {self.of_part(p, a.ν)})', 2, p.item)
            steps.say('await ! tt')
            p.now, p.is_now = p.array.var, f'is-{p.array.var}'


class LentArray(Walk):
    def __init__(self, section, name, params, result, lines):
        self.lines, values = lines, {p.name: p for p in params}
        first, second, third = self.parse()
        array = at(lines[0], lambda: argument(first[2], values)).of
        if not hasattr(array.type, 'of'):
            raise Wrong(f'the parameter {first[2]} is no array by value', lines[0])
        args = at(lines[1], lambda: [self.argument(a, array, values, section) for a in re.split(r',\s*', second[4])])
        lent = [a for a in args if isinstance(a.of, Part)]
        if len(lent) != 1 or lent[0].of.name != first[1]:
            raise Wrong(f'a part of {first[1]} is one of the arguments: `&mut {first[1]}[..c]` or `&{first[1]}[..c]`', lines[1])
        self.part = lent[0].of
        self.given = Value(second[1], at(lines[1], lambda: Type(second[2], section.structs)))
        self.all = Value(first[1], array.type)
        self.given.machine, self.all.machine = 'm-' + self.given.var, f'only ({array.type.vals} {self.all.var})'
        self.call = Told(second[3], args, self.given.type)
        self.final = Told(third[1], [Arg(self.given), Arg(self.all)], result)
        super().__init__(section, name, params, result, [self.call, self.final])
        check_name(self, lent[0])
        self.requires = lambda args: f'{args[params.index(self.part.count)]} ≤ {array.type.count}'
        self.lay_out()

    def parse(self):
        """the three lines, taken apart"""
        forms = (r'let (?:mut )?(\w+) = (\w+);', r'let (\w+): (\S+) = (\w+)\((.*)\);', r'(\w+)\((\w+), (\w+)\)')
        shown = ('let mut ALL = ARRAY;', 'let GIVEN: TYPE = CALL(.., &mut ALL[..c], ..);', 'LAST(GIVEN, ALL)')
        if len(self.lines) != 3:
            raise Wrong(f'a call on a part of an array has three lines: {"  ".join(shown)}', self.lines[-1])
        found = [re.fullmatch(form, line) for form, line in zip(forms, self.lines)]
        for m, line, words in zip(found, self.lines, shown):
            if not m:
                raise Wrong(f'the line is of another form than `{words}`, in a call on a part of an array', line)
        first, second, third = found
        if third[2] != second[1] or third[3] != first[1]:
            raise Wrong(f'the last call takes {second[1]} and {first[1]}, in this order', self.lines[2])
        return found

    def argument(self, text, array, values, section):
        part = re.fullmatch(r'&(mut )?(\w+)\[\.\.(\w+)\]', text)
        if not part:
            return argument(text, values)
        if part[3] not in values:
            raise Wrong(f'no parameter is named `{part[3]}`')
        return Arg(Part(part[2], array, values[part[3]], section.structs), not part[1])

    def wants(self):
        """what `prove` takes besides the callees"""
        return ['the definition of what the contract says', 'the law that what the calls say comes to it']

    def lay_out(self):
        """the locals in the compiler's order: the result, the parameters, the lets, then temporaries as they come"""
        self.places = {p.var: i for i, p in enumerate(self.params, 1)}
        self.locals = [self.result.mir] + [p.mir() for p in self.params]
        at = self.places[self.part.var] = self.local(self.part.array.type.mir)
        self.memory.add(at)
        self.part.item = f'L{at}'
        self.places[self.given.var] = self.local(self.given.type.mir)
        lends = self.call.reborrow(self.places, self.local)
        self.statements = [f'assign (place {at} []) (rvOpd ({copy(self.places[self.part.array.var])}))'] + lends
        self.statements.append(self.call.statement(self.places, self.places[self.given.var]))
        self.places[self.all.var] = self.local(self.all.type.mir)
        self.statements.append(f'assign (place {self.places[self.all.var]} []) (rvOpd ({copy(at)}))')
        self.statements.append(self.final.statement(self.places, 0))

    def text(self):
        p, of = self.part, lambda a: p.elements if a.of is p else a.of.now
        free = [(self.given.var, self.given.denotes), (self.given.machine, 'Val'), (self.all.var, self.all.denotes)]
        asks = [self.call.asks(of, [(p.block, 'ℕ')]), self.final.asks(of, free)]
        p.block = f'l{subscript(self.places[p.var])}'
        walked = [indented(x) for x in [self.clauses(), self.in_hand(), self.lent_part()] + asks
                  + [self.exits(), self.walk(), self.theorem()]]
        over = ''.join(c.model_params() for c in self.callees)
        walked[0] = f'module _ ({self.keys} : Name){over} where\n{self.law()}{walked[0]}'
        body = paragraphs([self.signature(), self.in_order()] + [c.contract() for c in self.callees] + walked)
        served = 'One walk serves every choice of the callees: it takes their names and what they say.'
        return self.page(served, body)

    def law(self):
        """what the function ensures, and the law that it follows from what the calls say"""
        p, c, f = self.part, self.call, self.final
        left = {a.of.var: 'y-' + a.of.var for a in c.muts}
        takes = ''.join(f' ({q.var} : {q.speaks})' for q in self.params) + f' ({self.given.var} : {self.given.denotes})'
        takes += ''.join(f' ({left[a.of.var]} : {a.of.speaks})' for a in c.muts) + f' (r : {self.result.denotes})'
        told = spaced([p.elements if a.of is p else a.of.var for a in c.args] + [self.given.var] + list(left.values()))
        all = f'({left[p.var]} ++ drop-list {p.count.var} {p.array.var})' if p.var in left else p.array.var
        says = spaced([q.var for q in self.params] + ['r'] + [left.get(q.var, q.var) for q in self.muts])
        of = f'{arrows(q.speaks for q in self.params)}{self.result.denotes} → {arrows(q.speaks for q in self.muts)}Type 0'
        return f'''  -- ---- what the function ensures: what follows from what the calls say
  module _ (Says : {of})
      (law :{takes} → {c.label}-says{told} → {f.label}-says {self.given.var} {all} r → Says{says}) where
'''

    def clauses(self):
        asked = self.requires([f'(a{" .1" * i} .0)' for i in range(len(self.params))])
        return self.clauses_of(f'fact 𝓤 ({asked})', f'fact 𝓤 (Says{at_entry(self.params)} r{at_exit(self.params)})')

    def lent_part(self):
        p = self.part
        return f'''    -- ---- the part of the array that is lent, where the array lies at the block b
    abbrev s-{p.var} : ℕ → Val
    s-{p.var} b = sliceVal (b, 0) {p.count.var}

    abbrev at-{p.var} : ℕ → GName → {p.speaks} → {p.denotes}
    at-{p.var} b δ l = record {{ ptr = (b, 0); name = δ; now = l }}

    {p.var}-room : Room {p.row} {p.array.type.count}
    {p.var}-room = (lit< tt, lit< tt)
'''

    def exits(self):
        """the walk's end: what is in hand is what the contract says, if what the call gave and left is"""
        t, lists = self.result, {p.var: 'z-' + p.var for p in self.muts}
        items = cons(x for p in self.slices for x in p.left(lists))
        self.left = [x for p in self.slices for x in ('o' + p.var, 't' + p.var)]
        lasts = [lists[p.var] if p.slice == 'mut' else 'tt' for p in self.params]
        lengths = ['l-' + p.var if p.slice == 'mut' else 'tt' for p in self.params]
        ending = self.ends(Steps(self.left), 'w', 'r', t.owns('r', 'is'), lasts, lengths, 'said')
        said = spaced([q.now for q in self.params] + ['r'] + [lists[q.var] for q in self.muts])
        binders = f'(r : {t.denotes}) (w : Val)' + ''.join(f' ({lists[p.var]} : {p.speaks})' for p in self.muts)
        as_long = arrows(f'length {lists[p.var]} ≡ length (now {p.var})' for p in self.muts)
        return f'''    -- ---- the exit
    exits : {binders} → Is {t.row} r (w ∷ []) → {as_long}Says{said} → ent 𝓤 (⋆ 𝓤 H A ({items})) (Post w)
    exits r w{spaced(lists.values())} is{spaced('l-' + p.var for p in self.muts)} said =
        qed W ({items}) ∵
        {ending}
'''

    def walk(self):
        p, c, f = self.part, self.call, self.final
        steps = Steps([x for i in reversed(range(len(self.locals))) for x in (f'L{i}', f'D{i}')] + ['tokens', 'owns'])
        self.enters(steps, self.locals, self.places)
        steps.assign(self.places[p.var], f'of-opd ! {steps.load(self.places[p.array.var])}', f'typed-{p.array.var}')
        of = lambda a: p.elements if a.of is p else a.of.now
        lengths = {q.var: 'refl' for q in self.muts}
        steps.remark(c.label)
        c.reborrows(steps, self.places)
        c.lend(steps, of, lengths)
        w, r, _ = c.perform(steps, of, {}, [p.block])
        left = {a.of.var: c.last(a) for a in c.muts}
        longer = {a.of.var: f'h-{c.label}-{a.of.var}' for a in c.muts}
        self.lands(steps, c, w, r, self.places[self.given.var])
        c.come_back(steps, of, lengths, left, longer)
        steps.remark(f.label)
        t = self.all.type
        typed = f'({t.typed} {p.now} _ {p.is_now} .0)'
        steps.assign(self.places[self.all.var], f'of-opd ! {steps.load(self.places[p.var])}', typed)
        told = {self.given.var: f'is-{w}', self.all.var: p.is_now}
        w2, r2, _ = f.perform(steps, lambda a: r if a.of is self.given else p.now, told, [r, w, p.now])
        self.lands(steps, f, w2, r2, 0)
        f.come_back(steps, of, lengths, {}, {})
        steps.say(f'returns ! (look ! {steps.place(0)} refl)')
        steps.front(p.item, p.item.replace('L', 'D'))
        for i in range(len(self.locals)):
            steps.leave(i)
        steps.say('free0 !')
        steps.front(*self.left)
        assert steps.items == self.left, steps.items
        known = ' '.join('known-' + c.label for c in self.callees)
        lists = [left.get(q.var, f'(now {q.var})') for q in self.muts]
        lasts = [r] + [c.last(a) for a in c.muts] + [r2, f'e-{c.label}', f'e-{f.label}']
        said = f'(law{spaced([q.now for q in self.params] + lasts)})'
        end = f"by ! (exits {r2} {w2}{spaced(lists)} is-{w2}{spaced(longer.get(q.var, 'refl') for q in self.muts)} {said})"
        return f'''    -- ---- the walk
    walk : {self.walk_type()}
    walk 𝓣 {known} =
        {self.entered()}
        {steps.close(end, '        ')}
'''

    def lands(self, steps, c, w, r, to):
        """what the callee gave is stored"""
        t = c.result
        steps.under(f'peeks ! {t.row} (Is {t.row}) (shows 𝓤 H A {t.row}) {r} ({w} ∷ [])', f'is-{w}')
        steps.say(f'land ! {HERE} (init ! {steps.place(to)} refl ({t.typed} {r} _ is-{w} .0))')
        steps.drop('owned')
