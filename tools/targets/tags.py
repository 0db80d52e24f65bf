"""Prints a module for a processor that has the high byte of a number in front, as s390x.

    tags.py MODULE > module.ll        MODULE is the library's module as text

The kit's module stores the tag of an enum as a number of its whole width, and reads the first byte of it: on x86-64, which it
is made for, that is the lowest. So the bytes of each such number are turned around here before it is stored, and a tag has the
same bytes on every processor. These stores are those of more than one byte that are said to have no alignment (`align 1`), in
all functions but those of the header, which so take and give back what C passes: there nothing is turned. What is stored must
be a constant or a byte that was made wider, and nothing wider than a byte be loaded so, but two bytes side by side; else this
program fails."""
import re
import sys

FUNCTION = re.compile(r'^define internal [^@]*@("[^"]*"|[\w.]+)\(.*?^}$', re.M | re.S)
STORE = re.compile(r'^( *)store i(16|32|64) (\S+), ptr (\S+), align 1$', re.M)
WIDE = re.compile(r'^ *(?:store (?!i8 )|\S+ = load (?!i8,|\{ i8, i8 \},)).*, align 1(?:, .*)?$', re.M)


def fail(text):
    sys.exit(f'tags.py: FAILED: {text}')


def turned(function, widths):
    """the text of a function, with the bytes of each tag turned around"""
    text, name = function[0], function[1]
    wider = set(re.findall(r'^ *(%[\w.]+) = zext i8 \S+ to i', text, re.M))
    others = WIDE.search(STORE.sub('', text))
    if others:
        fail(f'{name} has "{others[0].strip()}", which is no store of a tag')

    def store(found):
        space, width, number, place = found.groups()
        if not number.isdigit() and number not in wider:
            fail(f'{name} has "{found[0].strip()}", which stores no byte')
        widths.add(width)
        of, tag = f'i{width}', f'%tag.{found.start()}'
        return f'{space}{tag} = call {of} @llvm.bswap.{of}({of} {number})\n{space}store {of} {tag}, ptr {place}, align 1'

    return STORE.sub(store, text)


def main():
    if len(sys.argv) != 2:
        sys.exit(__doc__)
    with open(sys.argv[1], encoding='utf-8') as file:
        module = file.read()
    widths = set()
    text = FUNCTION.sub(lambda function: turned(function, widths), module)
    if not widths:
        fail('the module stores no tag')
    print(text + ''.join(f'\ndeclare i{width} @llvm.bswap.i{width}(i{width})\n' for width in sorted(widths)
                         if f'declare i{width} @llvm.bswap.i{width}(' not in module), end='')


main()
