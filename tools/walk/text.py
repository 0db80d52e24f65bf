"""Pieces of antt text, and the steps of a proof with the items that it has in hand."""
import re

# the path of a place that is a whole local
HERE = '(from ! (stop !))'


def subscript(i):
    return ''.join('₀₁₂₃₄₅₆₇₈₉'[int(c)] for c in str(i))


def nest(xs):
    """(x, (y, (z, tt)))"""
    text = 'tt'
    for x in reversed(xs):
        text = f'({x}, {text})'
    return text


def product(xs):
    """x × (y × (z × Unit))"""
    text = 'Unit {0}'
    for x in reversed(xs):
        text = f'{x} × ({text})' if '×' in text else f'{x} × {text}'
    return text


def component(x, i):
    """the i-th of a nested tuple"""
    return x + ' .1' * i + ' .0'


def facts(xs):
    """a clause of a contract: one fact, or the product of several"""
    return xs[0] if len(xs) == 1 else ' × '.join(f'({x})' for x in xs)


def fact(e, i, n):
    """the i-th of a clause's n facts"""
    return f'{e} .{i}' if n > 1 else e


def tuple_of(xs):
    """(x, y), or x alone"""
    return xs[0] if len(xs) == 1 else '(' + ', '.join(xs) + ')'


def cons(xs):
    """x ∷ y ∷ []"""
    return ''.join(f'{x} ∷ ' for x in xs) + '[]'


def arrows(xs):
    """x → y → , in front of what is concluded"""
    return ''.join(f'{x} → ' for x in xs)


def signature(slices, slots, result):
    """a signature, as a record"""
    result = f'plain (λ _. {result.row})'
    return f'record {{ lifetimes = {len(slices)}; outlives = []; params = {cons(slots)}; result = {result} }}'


def at_entry(xs):
    """what the arguments `a` of a clause are at the entry: of a slice, its elements"""
    return ''.join(f' (now ({component("a", i)}))' if x.slice else f' ({component("a", i)})' for i, x in enumerate(xs))


def at_exit(xs):
    """what the `&mut` slices have at the exit `e` of a clause"""
    return ''.join(f' (now ({component("e", i)}))' for i, x in enumerate(xs) if x.slice == 'mut')


def spaced(xs):
    """the words, each with a blank before it"""
    return ''.join(f' {x}' for x in xs)


def paragraphs(xs):
    """texts, with one blank line between them"""
    return '\n'.join(x.rstrip('\n') + '\n' for x in xs)


def indented(text):
    return re.sub(r'(?m)^(?=.)', '  ', text)


class Steps:
    """The steps of a proof. An item in hand is known by a label, so that the caller need not count: the steps of the
    logic's kit name an item by its place, and work on those at the front."""
    WIDTH = 108

    def __init__(self, items):
        self.items, self.lines, self.open = list(items), [], 0

    def write(self, text, new_line=False):
        if new_line or not self.lines or len(self.lines[-1]) + len(text) > self.WIDTH or self.lines[-1].startswith('--'):
            self.lines.append(text)
        else:
            self.lines[-1] += ' ' + text

    def say(self, step):
        self.write(step + ' $')

    def remark(self, text):
        self.lines.append('-- ' + text)

    def under(self, step, variable):
        """a step whose rest stands under a λ"""
        self.write(f'{step} (λ {variable}.')
        self.open += 1

    def take(self, step, count, *new):
        """a step that takes items from the front, and leaves new ones there"""
        self.say(step)
        self.items[:count] = new

    def at(self, label):
        return self.items.index(label)

    def out(self, labels):
        """takes items out: the place of each, counted in what the ones before it leave"""
        places = []
        for x in labels:
            places.append(self.at(x))
            self.items.remove(x)
        return places

    def front(self, *labels):
        places = self.out(labels)
        if any(places):
            self.say(f'bring ! ({cons(places)})')
        self.items[:0] = labels

    def drop(self, *labels):
        if labels:
            self.say(f'discard ! ({cons(self.out(labels))})')

    def part(self, step, label, *labels):
        """takes an item that is a chain of products apart, and drops its end"""
        self.front(label)
        self.take(f"{step} W ({cons('_' for _ in labels)}) _", 1, *labels)

    def together(self, labels, last):
        """joins items to one, the last of them at its end"""
        if not labels:
            return last
        self.front(*labels, last)
        self.take(f'group ! {len(labels) + 1}', len(labels) + 1, 'joined')
        return 'joined'

    def owned(self, xs):
        """joins what parameters own to one formula; each of xs is the label of an item, or a step that makes it"""
        self.take('nothing !', 0, 'owned')
        for x in reversed(xs):
            if x in self.items:
                self.front(x, 'owned')
            else:
                self.take(x, 0, 'made')
            self.take('fjoin !', 2, 'owned')

    # ---- the locals: the item L3 is what the local 3 has, and D3 that it dies

    def place(self, i):
        return self.at(f'L{i}')

    def load(self, i):
        return f'(load ! {HERE} (look ! {self.place(i)} refl))'

    def look_in(self, i, field):
        return f'(look-in ! {self.place(i)} (sub ! {field} refl (whole !)))'

    def load_field(self, i, field):
        return f'(load ! (from ! (fld ! refl (stop !))) {self.look_in(i, field)})'

    def assign(self, to, value, typed, how='init', step='assigns'):
        """the local gets a value that is of its type; `init` if it has none yet, else `store`"""
        self.say(f'{step} ! ({value}) {HERE} ({how} ! {self.place(to)} refl {typed})')

    def retell(self, i, mir, variable, value, equal):
        """what the local has is said anew, by an equation"""
        has = f'‵ (fat fullShare {mir} l{subscript(i)} 0 {value})'
        self.say(f'rewrite ! {self.place(i)} (λ ({variable}). {has}) ({equal}) refl')

    def leave(self, i, step='leave'):
        self.say(f'{step} ! {self.place(i)} refl refl')
        self.items.remove(f'L{i}')
        self.items.remove(f'D{i}')

    def close(self, last, indent):
        """the text, with the step that ends it"""
        self.write(last + ')' * self.open)
        return ('\n' + indent).join(self.lines)
