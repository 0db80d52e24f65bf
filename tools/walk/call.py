"""A call: a callee with any contract of equations, and the steps of a walk from what is lent to it to what it ensures."""
import re

from walk.text import Steps, arrows, at_entry, at_exit, component, cons, fact, facts, nest, product, signature, spaced
from walk.text import subscript
from walk.types import Value
from walk.wrong import Wrong


class Arg:
    """An argument. `slice` says how a slice is passed: as a `&` (shr) or as a `&mut` (mut)."""

    def __init__(self, of, as_shared=False):
        self.of = of
        self.slice = 'shr' if as_shared else of.slice
        # a `&mut` slice is lent for the call, and comes back; a `&` slice is copied
        self.lent = of.slice == 'mut'


# what an argument cannot be, by the form of its text
NO_ARGUMENT = (r'[0-9"\'-]|true$|false$', 'literal'), (r'.*\(', 'call'), (r'.*\[', 'part of a slice'), (r'.*\.', 'field')


def argument(word, values):
    """an argument as the source writes it: a parameter, a let, or a `&mut` slice that is lent as a `&`"""
    name, shared = word.removeprefix('&*'), word.startswith('&*')
    if name in values:
        if shared and values[name].slice != 'mut':
            raise Wrong(f'the argument `{word}`: {name} is no `&mut` slice; it is passed as `{name}`')
        return Arg(values[name], shared)
    for form, is_a in NO_ARGUMENT:
        if re.match(form, name):
            raise Wrong(f'the argument `{word}` is a {is_a}; an argument is a parameter, a let, or `&*NAME`')
    raise Wrong(f'no parameter and no let is named `{name}`')


class Call:
    """What the callee gives, and what each of its `&mut` slices has at last, are parameters of the module: the models."""
    modelled = 'what it gives, if anything, and what it leaves in each `&mut` slice'

    def __init__(self, role, args, result):
        self.role, self.label, self.args, self.result = role, role.replace('_', '-'), args, result
        self.slices = [a for a in args if a.slice]
        self.muts = [a for a in args if a.slice == 'mut']
        self.lends = [a for a in args if a.lent]
        for i, a in enumerate(self.lends):
            a.ν, a.δ = f'ν{subscript(i)}-{self.label}', f'δ{subscript(i)}-{self.label}'
        self.values = list(dict.fromkeys(a.of for a in args if isinstance(a.of, Value)))
        self.gives = [] if result.name == '()' else [f'{self.label}-out']
        self.leaves = [f'{self.label}-{a.of.var}' for a in self.muts]
        self.models = self.gives + self.leaves
        self.meant = f'({self.label}-contract{spaced(self.models)} 𝓤 H A)'

    def number(self, arg):
        """the lifetime of a slice in the callee"""
        return self.slices.index(arg)

    def model_params(self):
        types = [self.result.denotes] * len(self.gives) + [f'({a.of.speaks})' for a in self.muts]
        return ''.join(f' ({m} : {self.label}-Model {t})' for m, t in zip(self.models, types))

    def said(self, e, i):
        """of what the callee ensures, what it says of what it gives (0), or of the i-th list that it leaves"""
        return fact(e, i, len(self.models))

    # ---- what the call makes: a lifetime ν and a ghost name δ for each slice that it lends

    def fresh(self):
        return [a.ν for a in self.lends] + [a.δ for a in self.lends]

    def fresh_types(self):
        return [f"({' '.join(a.ν for a in self.lends)} : ℕ)"] + self.ghost_types() if self.lends else []

    def ghost_types(self):
        return [f"({' '.join(a.δ for a in self.lends)} : GName)"] if self.lends else []

    def lifetimes(self):
        return nest([f'{a.ν} ∷ []' if a.lent else a.of.κ for a in self.slices])

    def shares(self):
        return nest(['fullShare' if a.lent else a.of.q for a in self.slices])

    def tokens(self):
        return [f'‵ (flft ({a.ν} ∷ []) fullShare)' if a.lent else a.of.token for a in self.slices]

    def slots(self):
        return [a.of.slot(self.number(a), a.slice) if a.slice else a.of.slot() for a in self.args]

    def contract(self):
        """the callee's signature and contract"""
        l, xs = self.label, [f'a{i}' for i in range(len(self.args))]
        lasts = [f'b{i}' for i, a in enumerate(self.args) if a.slice == 'mut']
        given = [f'{x} ≡ {m} {" ".join(xs)}' for x, m in zip((['r'] if self.gives else []) + lasts, self.models)]
        ensures = f'fact 𝓤 ({l}-says{at_entry(self.args)} r{at_exit(self.args)})'
        to = arrows(a.of.speaks for a in self.args)
        return f'''-- ---- what `{l}` is, and what it ensures
abbrev {l}-signature : Signature
{l}-signature = {signature(self.slices, self.slots(), self.result)}

abbrev {l}-ended : Ended
{l}-ended = record {{ signature = {l}-signature; kept = {nest(['yes'] * len(self.args))} }}

abbrev {l}-Model : Type 0 → Type 0
{l}-Model X = {to}X

module _{self.model_params()} where
  abbrev {l}-says : {to}{self.result.denotes} → {arrows(a.of.speaks for a in self.muts)}Type 0
  {l}-says {' '.join(xs)} r{spaced(lasts)} = {facts(given)}

  module _ {{M : Type 1}} (𝓤 : URA M) where
    abbrev {l}-clauses : Clauses 𝓤 {l}-ended
    {l}-clauses κs a = record {{ ghost = Unit {{0}}; requires = λ _. emp 𝓤; ensures = λ _ r e. {ensures} }}

    module _ (H : Heap 𝓤) (A : Atoms 𝓤) where
      abbrev pub {l}-contract : Contract 𝓤
      {l}-contract = tripleOf 𝓤 H A {l}-signature (closing 𝓤 H A {l}-ended {l}-clauses)
'''

    # ---- in the MIR

    def reborrow(self, places, new_local):
        """the statements that lend the slices, each in two new locals: the pointer, and the slice"""
        return [s for a in self.lends for s in self.lends_again(a, places, new_local)]

    def lends_again(self, a, places, new_local):
        ref, at = f'(tyRef erased {"mut" if a.slice == "mut" else "imm"} {a.of.type.element})', places[a.of.var]
        a.pointer, a.place = new_local(ref), new_local(f'(sliceTy {ref})')
        return [f'assign (place {a.pointer} []) (addrOf (place {at} (field 0 ∷ deref {a.of.type.mir} ∷ [])))',
                f'assign (place {a.place} []) (aggregate ({copy(a.pointer)} ∷ {copy(at, 1)} ∷ []))']

    def statement(self, places, to):
        self.operands = [a.place if a.lent else places[a.of.var] for a in self.args]
        return f'call #{self.label} ({cons(copy(i) for i in self.operands)}) (place {to} [])'

    # ---- what the callee's triple binds outside, and that the caller has what it asks

    def asks(self, elements, free=()):
        """elements: what a slice has; free: variables, with their types, that stand for what differs from call to call"""
        l, fresh = self.label, spaced(self.fresh() + [x for x, _ in free])
        ghosts = spaced([a.δ for a in self.lends] + [x for x, _ in free])
        over = [f'({x} : {t})' for x, t in free]
        quantified = lambda makes: ' '.join(makes + over) + ' → ' if makes or over else ''
        args = nest([f'{a.of.at} {a.δ} {elements(a)}' if a.lent else a.of.var for a in self.args])
        owns = [a.of.lent(a.slice, self.number(a), a.ν, a.δ, elements(a)) if a.lent else a.of.shared(self.number(a))
                for a in self.slices]
        items = cons(self.tokens() + [f'‵ ({o})' for o in owns])
        tokens, slices = [f't{i}' for i in range(len(owns))], [f'o{i}' for i in range(len(owns))]
        steps = Steps(tokens + slices)
        steps.take('nothing !', 0, 'true')
        joined = steps.together(tokens, 'true')
        steps.owned([slices[self.number(a)] if a.slice else a.of.type.owns(a.of.var, 'is-' + a.of.var) for a in self.args])
        steps.front(joined, 'owned')
        steps.take('join !', 2, 'all')
        steps.take('frame !', 1)
        known = arrows(f'Is {x.row} {x.var} ({x.machine} ∷ [])' for x in self.values)
        machine = nest([a.of.machine + ' ∷ []' for a in self.args])
        return f'''    -- ---- the caller has what `{l}` asks
    abbrev {l}-args : {quantified(self.ghost_types())}{product([a.of.denotes for a in self.args])}
    {l}-args{ghosts} = {args}

    abbrev to-{l} : {quantified(self.fresh_types())}{self.meant} .Ghost
    to-{l}{fresh} = (({self.lifetimes()}, {self.shares()}, tt, {l}-args{ghosts}, {machine}), tt)

    goes-{l} : {quantified(self.fresh_types())}{known}ent 𝓤 (⋆ 𝓤 H A ({items})) ({self.meant} .pre (to-{l}{fresh}))
    goes-{l}{fresh}{spaced('is-' + x.var for x in self.values)} =
        qed W ({items}) ∵
        {steps.close('done !', '        ')}
'''

    # ---- the steps of the call. `elements` says what a slice has, and `lengths` that it has as many as at the entry

    def reborrows(self, steps, places):
        for a in self.lends:
            self.reborrows_one(a, steps, places)

    def reborrows_one(self, a, steps, places):
        at = places[a.of.var]
        steps.assign(a.pointer, f'addr ! (from ! (fld ! refl (hop ! {steps.look_in(at, 0)} (stop !))))', '(tt, tt)')
        parts = f'(and-then ! {steps.load(a.pointer)} (and-then ! {steps.load_field(at, 1)} (no-more !)))'
        steps.assign(a.place, f'agg ! {parts}', a.of.fits)

    def lending(self, a, elements, lengths):
        """what the laws of lending take"""
        p, v = a.of, a.of.var
        return (f'{p.row} {p.κ} ({a.ν} ∷ []) {p.q} ({v} .name) ({v} .ptr .0) ({v} .ptr .1) 𝓤 H A W'
                f' (named {p.lifetime}) (named {self.number(a)}) {elements(a)} (length (now {v})) {lengths[v]}')

    def lend(self, steps, elements, lengths):
        for a in self.slices:
            self.lend_one(a, steps, elements, lengths)

    def lend_one(self, a, steps, elements, lengths):
        p, v = a.of, a.of.var
        if not a.lent:
            steps.front('o' + v)
            steps.take(p.copied(), 1, 'two')
            steps.take('split !', 1, 'a' + v, 'o' + v)
            return
        steps.under('lft-new ! tt', a.ν)
        steps.items.insert(0, 'ν' + v)
        steps.front('o' + v, 't' + v)
        lent, kept = p.lent(a.slice, self.number(a), a.ν, 'δ', elements(a)), p.kept(a.slice, a.ν, 'δ', elements(a))
        law = 'lends-again' if a.slice == 'mut' else 'lends-out'
        both = f'later (some (λ (δ : GName). ‵ ({lent}) ⊛ ‵ ({kept})))'
        steps.take(f'use2 W ({both}) ({law} {self.lending(a, elements, lengths)})', 2, 'new')
        steps.say('await ! tt')
        steps.under('pick !', a.δ)
        steps.take('split !', 1, 'a' + v, 'k' + v)

    def perform(self, steps, elements, told, free=()):
        """the call itself. Its machine value is w, its value r, the last lists zs, and e says what the contract says;
        the items `tokens` and `owned` are left, and `f` for each list, with the fact h that it is as long as before"""
        l = self.label
        w, r, zs, e = (x + '-' + l for x in ('w', 'r', 'zs', 'e'))
        ghosts, free = [a.δ for a in self.lends], list(free)
        to = f'(to-{l}{spaced(self.fresh() + free)})'
        goes = f'goes-{l}{spaced(self.fresh() + free + [told[x.var] for x in self.values])}'
        has = f'(raw ({self.meant} .pre {to})) ({goes})'
        lent = [('ν' if a.lent else 't') + a.of.var for a in self.slices] + ['a' + a.of.var for a in self.slices]
        if lent:
            steps.front(*lent)
            steps.front(steps.together(lent[:-1], lent[-1]))
            steps.take(f'use1 W {has}', 1, 'pre')
        else:
            steps.take(f'use0 W {has}', 0, 'pre')
        operands = '(no-more !)'
        for i in reversed(self.operands):
            operands = f'(and-then ! {steps.load(i)} {operands})'
        steps.under(f'calls-at ! (fmOf 𝓤 H (W .laws) 𝓣) {self.meant} known-{l} {to} {operands}', w)
        args, tokens = f'({l}-args{spaced(ghosts + free)})', ' ⊛ '.join(self.tokens() + ['‵ ftrue'])
        steps.say(f'use1 W (later (some (λ (r : {self.result.denotes}). (({tokens}) ⊛ ‵ ({self.result.row} .own r ({w} ∷ [])))'
                  f' ⊛ raw (ensured 𝓤 H A {l}-ended {self.clauses()} {self.lifetimes()} {args} tt r)))) (id⊢ 𝓤 _)')
        steps.say('await ! tt')
        steps.under('pick !', r)
        steps.take('split !', 1, 'gave', 'ensures')
        steps.front('ensures')
        self.hears(steps, elements, args, r, zs, product([a.of.speaks if a.slice == 'mut' else 'Unit {0}' for a in self.args]))
        self.learns_lengths(steps)
        steps.front('gave')
        steps.take('split !', 1, 'tokens', 'owned')
        steps.front('owned')
        return w, r, e

    def learns_lengths(self, steps):
        """that each `&mut` slice has as many elements as before"""
        steps.part('fparts', 'lasts', *[f'z{i}' for i in range(len(self.args))])
        steps.drop(*[f'z{i}' for i, a in enumerate(self.args) if a.slice != 'mut'])
        for i, a in enumerate(self.args):
            if a.slice != 'mut':
                continue
            steps.front(f'z{i}')
            steps.take('fsplit !', 1, 'f' + a.of.var, 'length')
            steps.front('length')
            steps.under('feqL !', f'h-{self.label}-{a.of.var}')
            steps.items.remove('length')

    def clauses(self):
        return f'({self.label}-clauses{spaced(self.models)} 𝓤)'

    def stated(self, words):
        """in the proof of a function: the contract, at the types by value, and at what the callee gives and leaves"""
        return f'({self.label}-contract {" ".join(words)} 𝓤 H (𝓖 .A))'

    def hears(self, steps, elements, args, r, zs, lists):
        """what the contract says is learned"""
        l = self.label
        words = spaced([elements(a) for a in self.args] + [r] + [self.last(a) for a in self.muts])
        said, at_last = f'{l}-says{spaced(self.models)}{words}', f'lasts {l}-ended {self.lifetimes()} {args} {zs}'
        steps.say(f'use1 W (some (λ ({zs} : {lists}). ‵ ({at_last}) ⊛ raw (fact 𝓤 ({said})))) (id⊢ 𝓤 _)')
        steps.under('pick !', zs)
        steps.take('split !', 1, 'lasts', 'ensures')
        steps.front('ensures')
        steps.under(f'heard ! ({said})', 'e-' + l)
        steps.items.remove('ensures')

    def last(self, a):
        """the list that the callee left"""
        return f'({component("zs-" + self.label, self.args.index(a))})'

    def come_back(self, steps, elements, lengths, left, longer):
        """left: what each `&mut` slice has now; longer: that it has as many elements as before the call"""
        steps.part('parts', 'tokens', *[('ν' if a.lent else 't') + a.of.var for a in self.slices])
        for a in self.lends:
            self.come_back_one(a, steps, elements, lengths, left, longer)

    def come_back_one(self, a, steps, elements, lengths, left, longer):
        p, v = a.of, a.of.var
        steps.front('ν' + v)
        steps.take('lft-end ! tt', 1, 'dead')
        of = f'{self.lending(a, elements, lengths)} room-{v}'
        if a.slice == 'mut':
            steps.front('dead', 'k' + v, 'f' + v)
            law = f'comes-back {of} {a.δ} {left[v]} {longer[v]}'
            steps.take(f'use3 W (later (‵ ({p.held(left[v])}) ⊛ {p.token})) ({law})', 3, 'back')
        else:
            steps.front('dead', 'k' + v)
            steps.take(f'use2 W (later (‵ ({p.held(elements(a))}) ⊛ {p.token})) (comes-home {of})', 2, 'back')
        steps.say('await ! tt')
        steps.take('split !', 1, 'o' + v, 't' + v)


def copy(i, field=None):
    return f'copy (place {i} [])' if field is None else f'copy (place {i} (field {field} ∷ []))'
