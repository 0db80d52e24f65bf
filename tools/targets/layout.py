"""Fails where a module has one of these, which is another thing on a processor whose pointers have 32 bits:

    layout.py MODULE        MODULE is the module as text
    layout.py test          tries texts of which it is known whether they move

The module is made for x86-64. A struct with a pointer has its parts at other places where pointers are shorter, unless what is
behind the pointer has 8 bytes and stands at a multiple of 8; so do arrays of pointers; and an address that is taken by
`ptrtoaddr` has no more bits than a pointer. What a function keeps of a pointer in memory of its own is not looked at."""
import re
import sys

# No part of it moves: the pointer stands first, and what follows has 8 bytes, unless it is packed.
STAYS = {'{ ptr, i64 }'}
INNERMOST = re.compile(r'\{ [^{}\n]* \}')
PACKED = re.compile(r'<\{[^\n]*?\}>')
MOVES = [
    r'[\[<]\d+ x ptr[\]>]',
    r'<vscale x \d+ x ptr>',
    r'\bgetelementptr (?:\w+ )*\(?ptr,',
    r'\balloca ptr, i\d+ ',
    r'\bptrtoaddr\b',
]

THESE_MOVE = [
    'store { i8, ptr } %1, ptr %2', '%T = type { i8, ptr }', '<{ i8, ptr }>', '%T = type <{ ptr, i64 }>',
    '[2 x <{ ptr, i64 }>]', '{ <{ ptr, i64 }>, i64 }', '{ ptr, ptr }', '{ { i8, i8 }, ptr }', '{ ptr, { i8, i8 } }',
    '{ { { ptr, i64 }, i8 }, ptr }', 'store [2 x ptr] %1, ptr %2', 'store <2 x ptr> %1, ptr %2',
    'store <vscale x 2 x ptr> %1, ptr %2', 'getelementptr inbounds ptr, ptr %p, i64 1',
    'getelementptr inbounds (ptr, ptr @x, i64 1)', '%1 = alloca ptr, i64 2, align 8', '%1 = ptrtoaddr ptr %2 to i64',
    'ret i64 ptrtoaddr (ptr @x to i64)',
]
THESE_STAY = [
    'ret { ptr, i64 } %1', 'store { i8, i64 } %1, ptr %2', '{ { ptr, i64 }, i64 }', '<{ i8, i64 }>', '%1 = alloca ptr, align 8',
    'getelementptr inbounds i8, ptr %p, i64 8', '%1 = ptrtoint ptr %2 to i64',
    'define void @f(ptr %0, i64 %1) {\n  %2 = load ptr, ptr %0, align 8\n  ret void\n}',
]


def moved(text):
    """What moves in the text, or None. A struct that stays is a part without a pointer of the one around it."""
    for struct in PACKED.findall(text):
        if re.search(r'\bptr\b', struct):
            return struct
    while True:
        inner = INNERMOST.findall(text)
        if not inner:
            break
        for struct in inner:
            if struct not in STAYS and re.search(r'\bptr\b', struct):
                return struct
        text = INNERMOST.sub('S', text)
    for pattern in MOVES:
        found = re.search(pattern, text)
        if found:
            return found.group()
    return None


def main():
    if sys.argv[1] == 'test':
        wrong = [t for t in THESE_MOVE if moved(t) is None] + [t for t in THESE_STAY if moved(t) is not None]
        sys.exit(f'layout.py: FAILED: {wrong[0]}' if wrong else 0)
    with open(sys.argv[1], encoding='utf-8') as f:
        found = moved(f.read())
    if found is not None:
        sys.exit(f'layout.py: FAILED: the module has {found}')


main()
