"""Types of plain data, and parameters: how each is written in the places of a walk.

The words are the logic's. A type has a row (its meaning), a denotation (what a contract speaks of), its MIR, and laws
about the machine value of a denotation."""
import re

from walk.text import component, subscript
from walk.wrong import Wrong

WIDTHS = {'u8': 8, 'u16': 16, 'u32': 32, 'u64': 64, 'usize': 64}


class Type:
    """A type by value: a number, a bool, nothing, a declared struct, an array of such, or any type (structs[name] is None)."""

    def __init__(self, name, structs, behind=False):
        self.name = name
        if name in WIDTHS:
            width = f'w{WIDTHS[name]}'
            self.row, self.denotes, self.mir = name, 'ℕ', f'(tyInt {width})'
            self.vals, self.tells = f'(uint-vals {width})', f'(uint-tells {width})'
            self.makes, self.typed = f'(uint-makes 𝓤 H A W {width})', f'(uint-lawful 𝓤 H A W {width} .typed)'
            self.element = self.mir
        elif name == 'bool':
            self.row, self.denotes, self.mir = 'Boolean', 'Bool', 'tyBool'
            self.vals, self.tells = 'bool-vals', 'bool-tells'
            self.makes, self.typed = '(bool-makes 𝓤 H A W)', '(bool-lawful 𝓤 H A W .typed)'
            self.element = self.mir
        elif name == '()':
            self.row, self.denotes, self.mir = 'Nothing', '(Unit {0})', 'tyUnit'
            self.vals, self.tells = 'nothing-vals', 'nothing-tells'
            self.makes, self.typed = '(nothing-makes 𝓤 H A W)', '(nothing-lawful 𝓤 H A W .typed)'
        elif name.startswith('['):
            self.array(structs, behind)
        elif name in structs and structs[name] is None:
            self.row, self.denotes, self.mir = f'(rowOf {name})', f'(denotes {name})', f'(mirOf {name})'
            self.vals, self.tells = f'(valsOf {name})', f'({name} .tells)'
            self.makes, self.typed = f'({name} .makes 𝓤 H A)', f'({name} .typed 𝓤 H A W)'
        elif name in structs:
            of, laws = f'{name}′.the-type', f'{name}″.the-laws'
            self.row, self.denotes, self.mir = f'{name}′.the-row', name, f'{name}″.mir'
            self.vals, self.tells = f'(struct.vals {of} {laws})', f'(struct.tells {of} {laws})'
            self.makes = f'(struct.makes {of} {name}″.the-plain 𝓤 H A)'
            self.lawful = f'(struct.lawful {of} {laws} 𝓤 H A W)'
            self.typed = f'(struct.lawful {of} {laws} 𝓤 H A W .typed)'
            # behind a reference a declared type is its bare name; by value it is spelled out
            self.element = f'(pointee ({name}′.the-row .written))'
        else:
            raise Wrong(f'no type {name}: it is no number, no bool, and no `struct` or `value` of the crate')

    def array(self, structs, behind):
        """by value, or behind a reference, where no law of its machine value is wanted"""
        self.of, _, self.count = self.name[1:-1].partition('; ')
        e = Type(self.of, structs)
        if not self.count.isdigit() or not (behind or hasattr(e, 'lawful')):
            raise Wrong(f'no type {self.name}: an array by value is `[STRUCT; NUMBER]`, and a slice is `&[..]` or `&mut [..]`')
        self.row, self.denotes = f'(Array {e.row} {self.count})', f'(List {e.denotes})'
        self.mir = f'(tyArray {e.mir} {self.count})'
        self.element = f'(tyArray {e.element} {self.count})'
        if behind:
            return
        self.vals, self.tells = f'(array-vals {e.vals})', f'(array-tells {e.row} {e.vals} {e.tells} {self.count})'
        self.makes = f'(array-makes 𝓤 H A W {e.row} {e.makes} {self.count})'
        self.typed = f'(array-lawful 𝓤 H A W {e.row} {e.lawful} {self.count} .typed)'

    def owns(self, x, known):
        """the step that makes what the value x owns, from what is known of its machine value"""
        return f'owned ! {self.row} (Is {self.row}) {self.makes} {x} _ {known}'


class Value:
    """A value that a callee gave."""
    slice = None

    def __init__(self, name, type):
        # the prefix keeps a name of the source from hiding one of the library, as `place` would
        self.name, self.type, self.var = name, type, 'v-' + name.replace('_', '-')
        self.row = type.row
        self.speaks = self.denotes = type.denotes
        self.machine = f'm-{self.var}'

    def slot(self, lifetime=None):
        return f'plain (λ _. {self.row})'


class Param:
    """A parameter: a value, or a slice that is lent as a `&` (shr) or a `&mut` (mut). The lifetime of a slice is its
    number among the slices of the function."""

    def __init__(self, name, text, structs, lifetime):
        self.name, self.text, self.var = name, f'{name}: {text}', 'x-' + name.replace('_', '-')
        self.slice = 'mut' if text.startswith('&mut [') else 'shr' if text.startswith('&[') else None
        self.type = Type(text[text.index('[') + 1:-1] if self.slice else text, structs)
        self.row, v = self.type.row, self.var
        if self.slice:
            self.lifetime = lifetime
            self.κ, self.q = 'κ' + subscript(lifetime), 'q' + subscript(lifetime)
            self.speaks = f'List {self.type.denotes}'
            self.denotes, self.now, self.machine = f'RefT ({self.speaks})', f'(now {v})', f's-{v}'
            self.at = f'at-{v}'
            self.known = f'(room-{v} : Room {self.row} (length (now {v})))'
            self.fits = f'(tt, (tt, (record {{ fits = room-{v} .0 }}, tt)))'
            self.token = f'‵ (flft {self.κ} {self.q})'
        else:
            self.speaks = self.denotes = self.type.denotes
            self.now, self.machine = v, f'm-{v}'
            self.known = f'(is-{v} : Is {self.row} {v} ({self.type.vals} {v}))'
            self.fits = f'typed-{v}'

    def in_hand(self):
        """what a walk names of it at the entry"""
        v = self.var
        if self.slice:
            return f'''    abbrev s-{v} : Val
    s-{v} = sliceVal ({v} .ptr) (length (now {v}))

    abbrev at-{v} : GName → {self.speaks} → RefT ({self.speaks})
    at-{v} δ l = record {{ ptr = {v} .ptr; name = δ; now = l }}

'''
        return f'''    abbrev m-{v} : Val
    m-{v} = only ({self.type.vals} {v})

    typed-{v} : Holds (hasTy {self.type.mir} m-{v}) × WT m-{v}
    typed-{v} = {self.type.typed} {v} _ is-{v} .0

'''

    # ---- in a signature, and in what a walk says of a parameter from the entry to the exit

    def slot(self, lifetime=None, slice=None):
        if not self.slice:
            return f'plain (λ _. {self.row})'
        return f'{slice or self.slice}Slice {self.lifetime if lifetime is None else lifetime} tt (λ _. {self.row})'

    def stays(self):
        if not self.slice:
            return f'stay-none (λ _. {self.row}) yes'
        of = f'({self.lifetime} ∷ []) tt (plain (λ _. {self.row}))'
        return f'stay-slice {of}' if self.slice == 'mut' else f'stay-none-slice {of} yes'

    def goes(self, lifetimes):
        if not self.slice:
            return f'goes-none 𝓤 H A W {lifetimes} (λ _. {self.row}) yes (λ κs x f. refl)'
        if self.slice == 'mut':
            return f'goes-slice 𝓤 H A W {lifetimes} {self.lifetime} tt (plain (λ _. {self.row}))'
        return f'goes-none-slice 𝓤 H A W {lifetimes} ({self.lifetime} ∷ []) tt (plain (λ _. {self.row})) yes'

    def spelled(self):
        return 'slice-vals' if self.slice else self.type.vals

    def told(self):
        if not self.slice:
            return self.type.tells
        return f'{self.slice}-slice-tells (named {self.lifetime}) ({component("κs", self.lifetime)}) {self.row}'

    def learned(self, i):
        """of what the entry says of the i-th parameter, what the walk asks"""
        return f'({component("are", i)} .0 .1)' if self.slice else f'({component("are", i)})'

    def mir(self):
        if not self.slice:
            return self.type.mir
        return f'(sliceTy (tyRef (named {self.lifetime}) {"mut" if self.slice == "mut" else "imm"} {self.type.element}))'

    # ---- what is owned of a slice, and of a value

    def row_type(self):
        if not self.slice:
            return self.row
        return f'{"MutSlice" if self.slice == "mut" else "ShrSlice"} (named {self.lifetime}) {self.κ} {self.row}'

    def shared(self, lifetime=None):
        """a `&` slice, at the lifetime's number in the function or in a callee"""
        number = self.lifetime if lifetime is None else lifetime
        return f'ShrSlice (named {number}) {self.κ} {self.row} .own {self.var} ({self.machine} ∷ [])'

    def held(self, elements):
        """a `&mut` slice that has these elements"""
        at = f'(at-{self.var} ({self.var} .name) {elements})'
        return f'MutSlice (named {self.lifetime}) {self.κ} {self.row} .own {at} ({self.machine} ∷ [])'

    def left(self, lists):
        """what the function hands back of a slice, a `&mut` one with the list that it has at last; and its token"""
        return [f'‵ ({self.held(lists[self.var]) if self.slice == "mut" else self.shared()})', self.token]

    def lent(self, slice, lifetime, ν, δ, elements):
        """a `&mut` slice, lent for the lifetime ν of a call under the ghost name δ: again, or as a `&`"""
        kind = 'MutSlice' if slice == 'mut' else 'ShrSlice'
        return f'{kind} (named {lifetime}) ({ν} ∷ []) {self.row} .own (at-{self.var} {δ} {elements}) ({self.machine} ∷ [])'

    def kept(self, slice, ν, δ, elements):
        """what is kept of it meanwhile"""
        of = f'{self.row} {self.κ} ({ν} ∷ []) {self.q} ({self.var} .name) ({self.var} .ptr .0) ({self.var} .ptr .1)'
        return f'LentAgain {of} {δ} {elements}' if slice == 'mut' else f'LentOut {of} {elements}'

    def copied(self):
        """the step that makes two of a `&` slice, and those two"""
        two = f'‵ ({self.shared()}) ⊛ ‵ ({self.shared()})'
        law = f'shr-slice-copy 𝓤 H A W (named {self.lifetime}) {self.κ} {self.row}'
        return f'use1 W ({two}) ({law} .twice {self.var} ({self.machine} ∷ []))'


class ArrayRef(Param):
    """A parameter `&[T; N]`: it is read as a slice is, and its machine value is a pointer alone."""

    def __init__(self, name, text, structs, lifetime):
        self.name, self.text, self.var, self.slice = name, f'{name}: {text}', 'x-' + name.replace('_', '-'), 'shr'
        self.type = Type(text[1:], structs, behind=True)
        self.row, self.speaks, v = self.type.row, self.type.denotes, self.var
        self.lifetime, self.κ, self.q = lifetime, 'κ' + subscript(lifetime), 'q' + subscript(lifetime)
        self.denotes, self.now, self.machine = f'RefT {self.speaks}', f'(now {v})', f's-{v}'
        self.known, self.fits, self.token = '', '(tt, tt)', f'‵ (flft {self.κ} {self.q})'

    def in_hand(self):
        return f'''    abbrev s-{self.var} : Val
    s-{self.var} = vptr ({self.var} .ptr .0) ({self.var} .ptr .1)

'''

    def slot(self, lifetime=None, slice=None):
        return f'shrRef {self.lifetime if lifetime is None else lifetime} tt (λ _. {self.row})'

    def stays(self):
        return f'stay-none-ref ({self.lifetime} ∷ []) tt (plain (λ _. {self.row})) yes'

    def goes(self, lifetimes):
        return f'goes-none-ref 𝓤 H A W {lifetimes} ({self.lifetime} ∷ []) tt (plain (λ _. {self.row})) yes'

    def spelled(self):
        return 'ptr-vals'

    def told(self):
        return f'shr-tells (named {self.lifetime}) ({component("κs", self.lifetime)}) {self.row}'

    def learned(self, i):
        return ''

    def mir(self):
        return f'(tyRef (named {self.lifetime}) imm {self.type.element})'

    def row_type(self):
        return f'ShrRef (named {self.lifetime}) {self.κ} {self.row}'

    def shared(self, lifetime=None):
        number = self.lifetime if lifetime is None else lifetime
        return f'ShrRef (named {number}) {self.κ} {self.row} .own {self.var} ({self.machine} ∷ [])'

    def copied(self):
        two = f'‵ ({self.shared()}) ⊛ ‵ ({self.shared()})'
        law = f'shr-copy 𝓤 H A W (named {self.lifetime}) {self.κ} {self.row}'
        return f'use1 W ({two}) ({law} .twice {self.var} ({self.machine} ∷ []))'


def parameters(text, structs):
    """the parameters of a list, as the source writes it"""
    found, lifetime = [], 0
    for piece in text.split(','):
        name, _, type = piece.strip().partition(':')
        if not type:
            raise Wrong(f'the parameter `{piece.strip()}` has no type')
        kind = ArrayRef if re.fullmatch(r'&\[.*;.*\]', type.strip()) else Param
        found.append(kind(name.strip(), type.strip(), structs, lifetime))
        lifetime += bool(found[-1].slice)
    return found
