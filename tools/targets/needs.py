"""Prints what an archive needs of others at a link: the names that its objects use and none of them has, a name to a line.

    needs.py ARCHIVE

Objects for Linux and for bare metal are read by nm. nm does not know WebAssembly, so its objects are read here: the functions
that one uses stand in its section of imports, those that it has in its list of symbols."""
import subprocess
import sys

IMPORTS, CUSTOM, SYMBOLS = 2, 0, 8
FUNCTION, DATA, SECTION = 0, 1, 3
UNDEFINED, NAMED = 16, 64


class Reader:
    """Reads an object from a place on."""

    def __init__(self, data, at=0):
        self.data, self.at = data, at

    def byte(self):
        self.at += 1
        return self.data[self.at - 1]

    def number(self):
        """Seven bits to a byte, the lowest first."""
        value = shift = 0
        while True:
            byte = self.byte()
            value, shift = value | (byte & 127) << shift, shift + 7
            if byte < 128:
                return value

    def text(self):
        length = self.number()
        self.at += length
        return self.data[self.at - length:self.at].decode()

    def parts(self, end):
        """The parts up to an end: the kind of each, where it starts and where it ends."""
        while self.at < end:
            kind, size = self.byte(), self.number()
            yield kind, self.at, self.at + size
            self.at += size


def objects(archive):
    """The files of an archive, but for its tables of names."""
    at = 8
    while at < len(archive):
        name, size = archive[at:at + 16].strip(), int(archive[at + 48:at + 58])
        if name not in (b'/', b'//'):
            yield archive[at + 60:at + 60 + size]
        at += 60 + size + size % 2


def used(reader):
    """The functions among the imports. Tables, memories and variables are the linker's to give."""
    for _ in range(reader.number()):
        reader.text()
        name, kind = reader.text(), reader.byte()
        if kind == FUNCTION:
            yield name
            reader.number()
        elif kind == 3:  # a variable: its type, and whether it is written
            reader.at += 2
        else:  # a table, with a type in front, or a memory: one limit or two
            reader.at += kind == 1
            for _ in range(1 + reader.number() % 2):
                reader.number()


def had(reader):
    """The functions that the list of symbols has a name for and that are not used of others."""
    for _ in range(reader.number()):
        kind, flags = reader.byte(), reader.number()
        undefined = flags & UNDEFINED
        if kind == DATA:
            reader.text()
            for _ in range(0 if undefined else 3):
                reader.number()
        elif kind == SECTION:
            reader.number()
        else:
            reader.number()
            name = reader.text() if not undefined or flags & NAMED else ''
            if kind == FUNCTION and not undefined:
                yield name


def of_wasm(data):
    """The functions that a WebAssembly object uses of others, and those that it has."""
    uses, has = set(), set()
    for kind, start, end in Reader(data, 8).parts(len(data)):
        inside = Reader(data, start)
        if kind == IMPORTS:
            uses |= set(used(inside))
        elif kind == CUSTOM and inside.text() == 'linking':
            inside.number()
            for part, here, _ in inside.parts(end):
                has |= set(had(Reader(data, here))) if part == SYMBOLS else set()
    return uses, has


def of_others(path):
    lines = subprocess.run(['nm', path], check=True, capture_output=True, text=True).stdout.splitlines()
    words = [line.split()[-2:] for line in lines if len(line.split()) >= 2]
    return {name for kind, name in words if kind == 'U'}, {name for kind, name in words if kind in 'TWV'}


def main():
    if len(sys.argv) != 2:
        sys.exit(__doc__)
    with open(sys.argv[1], 'rb') as file:
        archive = file.read()
    if archive[:8] != b'!<arch>\n':
        sys.exit(f'needs.py: FAILED: {sys.argv[1]} is no archive')
    read = [of_wasm(data) for data in objects(archive) if data[:4] == b'\0asm'] or [of_others(sys.argv[1])]
    needed = set().union(*(uses for uses, _ in read)) - set().union(*(has for _, has in read))
    print(''.join(name + '\n' for name in sorted(needed)), end='')


main()
