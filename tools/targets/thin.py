"""Prints the C functions by which a program on another processor calls the library: one for each function of the headers.

    thin.py MODULE HEADER.. > thin.c        MODULE is the library's module as text

The functions of the module are for C on x86-64: a result of more than 16 bytes is written through a pointer in front, a struct
of two numbers is one number of 64 bits with the struct's bytes, and every length has 64 bits. C on another processor passes
these otherwise. So the module's functions are renamed proved_NAME (tools/build-for), and each function here hands its arguments
on in that form and does nothing else. That the module has each function with just these types is looked up; where it does not,
this program fails."""
import re
import sys

# What the types of the header are in the module, and the type to pass them by.
ARGUMENTS = {'uint32_t': ('i32', 'uint32_t'), 'size_t': ('i64', 'uint64_t'), 'pagunlit_shape': ('i64', 'uint64_t')}

# The results: in the module, and the function's text. A struct keeps its bytes.
RESULTS = {
    'uint32_t': ('i32', 'uint32_t', '    return proved_{name}({passed});\n'),
    'pagunlit_count': ('i64', 'uint64_t',
                       '    union {{ uint64_t bits; pagunlit_count count; }} result;\n\n'
                       '    result.bits = proved_{name}({passed});\n'
                       '    return result.count;\n'),
}
THROUGH_POINTER = ('ptr', 'void *', '    {result} result;\n\n    proved_{name}(&result, {passed});\n    return result;\n')

HEAD = '''/* Written by tools/targets/thin.py from the headers. */
#include "pagunlit.h"

static uint64_t bits(pagunlit_shape shape)
{
    union { pagunlit_shape shape; uint64_t bits; } same = { shape };

    return same.bits;
}
'''


def fail(text):
    sys.exit(f'thin.py: FAILED: {text}')


def declared(header):
    """The functions of a header: (result, name, parameters as (type, name)), a pointer being a type that ends with *."""
    text = re.sub(r'/\*.*?\*/', '', header, flags=re.S)
    for result, name, parameters in re.findall(r'^(\w+) (\w+)\(([^;{]*?)\)\s*PAGUNLIT_USE_RESULT;', text, re.M | re.S):
        yield result, name, [re.fullmatch(r'(.*?)(\w+)', part.strip(), re.S).groups() for part in parameters.split(',')]


def defined(module):
    """The functions that a module hands out: the types of the result and of the arguments, by their names."""
    found = {}
    for result, name, arguments in re.findall(r'^define ([^@]*)@proved_(\w+)\(([^)]*)\)', module, re.M):
        types = [argument.split()[0] for argument in arguments.split(', ')]
        found[name] = [result.split()[-1]] + types
    return found


def function(result, name, parameters):
    """The text of a function, and the types that its function of the module has."""
    kind, taken, body = RESULTS.get(result, THROUGH_POINTER)
    through = body is THROUGH_POINTER[2]
    prototype, passed, types = (['void *result'], [], ['ptr']) if through else ([], [], [])
    for of, word in parameters:
        of = of.strip()
        if not of.endswith('*') and of not in ARGUMENTS:
            fail(f'{name} has the parameter {word} of type {of}, which this program does not know')
        inside, outside = ('ptr', of) if of.endswith('*') else ARGUMENTS[of]
        types.append(inside)
        prototype.append(outside + ('' if outside.endswith('*') else ' ') + word)
        passed.append(f'bits({word})' if of == 'pagunlit_shape' else word)
    listed = ', '.join(of.strip() + ('' if of.strip().endswith('*') else ' ') + word for of, word in parameters)
    text = f'\nextern {taken}{"" if through else " "}proved_{name}({", ".join(prototype)});\n\n'
    text += f'{result} {name}({listed})\n{{\n' + body.format(name=name, result=result, passed=', '.join(passed)) + '}\n'
    return text, [kind] + types


def main():
    if len(sys.argv) < 3:
        sys.exit(__doc__)
    module, *headers = (open(path, encoding='utf-8').read() for path in sys.argv[1:])
    found, texts = defined(module), [HEAD]
    for result, name, parameters in declared('\n'.join(headers)):
        text, types = function(result, name, parameters)
        if found.get(name) != types:
            fail(f'{name} is {types} by the header, and {found.pop(name, "missing")} in the module')
        del found[name]
        texts.append(text)
    if found or len(texts) == 1:
        fail(f'the headers do not declare {", ".join(found) or "anything"}')
    print(''.join(texts), end='')


main()
