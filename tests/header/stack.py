"""How deep each call's stack goes at most, read from the machine code of an archive, and held to the figures of docs/C.md and
of the line "Stack:" of include/pagunlit.h.

    stack.py x86-64 ARCHIVE C.md HEADER     ARCHIVE is target/staticlib/libpagunlit.a
    stack.py Cortex-M ARCHIVE C.md          ARCHIVE is target/for/thumbv7em-none-eabi/libpagunlit.a

The first word is the column of the page. A function takes what it pushes, what it subtracts from the stack pointer, and then
what the deepest function that it calls takes; on x86-64 also 8 bytes for the address that it returns to, and 128 bytes if it
uses what lies below the stack pointer. Every push and every subtraction is counted, whichever way the code goes, so no call
with any arguments goes deeper. Functions that call themselves, or each other in a circle, are counted as often as they can
stand on the stack at once, which is said below (`TIMES`). Of a function that the archive does not have, one of the C library,
only the address that it returns to is counted. A figure may be larger than what is read here, but not smaller."""
import re
import subprocess
import sys

# How often a function of a crate can stand on the stack at once, by the beginning of the crate's name. Those of the summary go
# from a group of 4,096 words at most to its halves, down to one word: 13 sizes.
TIMES = {'summary': 13}


class X86:
    """The program that reads the code, its relocations of a call, and what a call takes of the stack by itself."""
    objdump, calls, relocation = 'objdump', ('call', 'jmp'), r'R_X86_64_(?:PLT32|PC32)\s+(\S+?)-0x'
    returns, below = 8, 128

    @staticmethod
    def taken(operation, operands):
        """The bytes that an instruction takes, or None if this program cannot follow it."""
        if operation == 'push':
            return 8
        if operation == 'sub' and operands.endswith(',%rsp'):
            return int(re.fullmatch(r'\$(0x[0-9a-f]+),%rsp', operands)[1], 16)
        if operation == 'and' and operands.endswith(',%rsp') or operation == 'call' and operands.startswith('*'):
            return None
        return 0

    @staticmethod
    def uses_below(code):
        return any(re.search(r'-0x[0-9a-f]+\(%rsp', instruction) for instruction in code)


class Thumb:
    """The same of a Cortex-M: the address to return to is pushed with the other registers, and nothing below is used."""
    objdump, calls, relocation = 'arm-linux-gnueabihf-objdump', ('bl', 'b.w', 'b.n', 'b'), r'R_ARM_THM_(?:CALL|JUMP24)\s+(\S+)'
    returns, below = 0, 0

    @staticmethod
    def taken(operation, operands):
        registers = re.fullmatch(r'(?:sp!, )?\{(.*)\}', operands)
        if operation in ('push', 'stmdb') and registers:
            return 4 * len(registers[1].split(', '))
        if re.match(r'sub', operation) and re.match(r'sp\b', operands):
            number = re.fullmatch(r'sp, (?:sp, )?#(\d+)', operands)
            return int(number[1]) if number else None
        before = re.search(r'\[sp, #-(\d+)\]!', operands)
        if before:
            return int(before[1])
        # any other instruction that writes to the stack pointer, or calls by a register
        if re.match(r'(mov|bic|and|vpush)', operation) and re.match(r'sp\b|\{', operands) or operation == 'blx':
            return None
        return 0

    @staticmethod
    def uses_below(code):
        return False


PROCESSORS = {'x86-64': X86, 'Cortex-M': Thumb}


def functions(archive, processor):
    """For each function of the archive its instructions, and the names that it calls or jumps to."""
    words = [processor.objdump, '-dr', '--no-show-raw-insn', archive]
    text = subprocess.run(words, check=True, capture_output=True, text=True).stdout
    found, lines = {}, text.splitlines()
    for line, behind in zip(lines, lines[1:] + ['']):
        head = re.fullmatch(r'[0-9a-f]+ <(.+)>:', line)
        instruction = re.match(r'\s*[0-9a-f]+:\t([^@]+)', line)
        if head:
            code, calls = found.setdefault(head[1], ([], set()))
        elif instruction and not re.search(r'R_\w+\s', line):
            code.append(instruction[1].strip())
            if code[-1].split()[0] not in processor.calls:
                continue
            relocation = re.search(processor.relocation, behind)
            # A call of a function by itself needs no relocation: objdump names the function, at no distance.
            own = re.match(r'\S+\s+[0-9a-f]+ <([^+>]+)>', code[-1])
            if relocation:
                calls.add(relocation[1].removeprefix('.text.'))
            elif own and code[-1].split()[0] in ('call', 'bl'):
                calls.add(own[1])
    return found


def own_depth(name, code, processor):
    """What a function takes itself: the bytes above the functions that it calls, and those below its stack pointer."""
    depth = processor.returns
    for instruction in code:
        operation, _, operands = instruction.replace('\t', ' ').partition(' ')
        taken = processor.taken(operation, operands.strip())
        if taken is None:
            sys.exit(f'stack.py: FAILED: {name} has "{instruction}", which this program cannot follow')
        depth += taken
    return depth, processor.below if processor.uses_below(code) else 0


def reached(name, found):
    """The functions that a function calls, and those that they call, and so on."""
    reach, more = set(), {name}
    while more:
        more = {callee for caller in more for callee in found.get(caller, ([], ()))[1]} - reach
        reach |= more
    return reach


def times(name):
    """How often a function that calls itself can stand on the stack at once."""
    for crate, most in TIMES.items():
        if '::' in name and name.startswith(crate):
            return most
    sys.exit(f'stack.py: FAILED: {name} calls itself: how often it can stand on the stack has to be said in this program')


def deepest(name, found, processor):
    if name not in found:
        return processor.returns
    # The functions that call each other in a circle with this one, and what they call besides.
    circle = {other for other in reached(name, found) if name in reached(other, found)}
    calls = {callee for one in circle | {name} for callee in found[one][1]} - circle
    own = {one: own_depth(one, found[one][0], processor) for one in circle | {name}}
    depth = sum(own[one][0] * (times(one) if one in circle else 1) for one in own)
    return depth + max([below for _, below in own.values()] + [deepest(callee, found, processor) for callee in calls])


def number(text):
    return int(text.replace(',', ''))


def said(page, column):
    """The figures of the page: lines `| name | bytes | bytes |`, one for each processor."""
    with open(page, encoding='utf-8') as file:
        lines = re.findall(r'^\| `(\w+)` \| ([0-9,]+) \| ([0-9,]+) \|$', file.read(), re.M)
    return {line[0]: number(line[1 + list(PROCESSORS).index(column)]) for line in lines}


def said_in_header(header):
    """The figures of the header: the survey's, that of both reserves, that of the calls with a summary if it has one of its
    own, and that of any other call. A function from a call's name to the figure for it."""
    with open(header, encoding='utf-8') as file:
        text = re.sub(r'\n \*\s*', ' ', file.read())
    line = re.search(r'Stack: a survey takes up to ([0-9,]+) bytes, a reserve ([0-9,]+),'
                     r'(?: a call with a summary ([0-9,]+),)? any other call ([0-9,]+) at most', text)
    if not line:
        sys.exit(f'stack.py: FAILED: {header} does not say how much stack a call takes')
    survey, reserve, summary, other = (number(figure or line[4]) for figure in line.groups())
    named = {'pagunlit_survey': survey, 'pagunlit_reserve': reserve, 'pagunlit_reserve_placed': reserve}
    return lambda name: summary if 'summary' in name else named.get(name, other)


def main():
    column, archive, page, *headers = sys.argv[1:] if len(sys.argv) in (4, 5) else [None] * 3
    if column not in PROCESSORS:
        sys.exit(__doc__)
    processor = PROCESSORS[column]
    found, figures = functions(archive, processor), said(page, column)
    figure_in_header = said_in_header(headers[0]) if headers else lambda name: float('inf')
    depths = {name: deepest(name, found, processor) for name in found if re.fullmatch(r'pagunlit_\w+|seal|check', name)}
    if not depths:
        sys.exit(f'stack.py: FAILED: {archive} has no functions')
    wrong = []
    for name, depth in sorted(depths.items()):
        in_header = figure_in_header(name)
        if depth > figures.get(name, -1):
            wrong.append(f'{name} takes up to {depth} bytes of stack, and docs/C.md says {figures.get(name, "nothing")}')
        if depth > in_header:
            wrong.append(f'{name} takes up to {depth} bytes of stack, and include/pagunlit.h says {in_header}')
    wrong += [f'docs/C.md has a figure for {name}, which the archive does not have' for name in figures if name not in depths]
    for line in wrong:
        print(f'stack.py: {line}', file=sys.stderr)
    if wrong:
        sys.exit(1)
    print(f'stack on {column}: ' + ', '.join(f'{name} {depth}' for name, depth in sorted(depths.items())))


main()
