"""A card from Python, through the shared library: one of 8 blocks, and where three of them would go.

    tools/install PREFIX && python3 examples/card.py PREFIX/lib/libpagunlit.so"""
from ctypes import CDLL, Structure, c_size_t, c_uint32, c_uint64
import sys


class Shape(Structure):
    _fields_ = [('blocks', c_uint32), ('free', c_uint32)]


class Outcome(Structure):
    _fields_ = [('shape', Shape)] + [(name, c_uint32) for name in ('number', 'first', 'second', 'third')]


library = CDLL(sys.argv[1])
library.pagunlit_fresh.restype = library.pagunlit_search.restype = Outcome
words, entries, pharmacist = (c_uint64 * 1)(), (c_uint32 * 12)(), 1  # the map of 8 blocks, and 4 entries of three numbers
made = library.pagunlit_fresh(pharmacist, Shape(0, 0), 8, words, c_size_t(1), entries, c_size_t(4))
found = library.pagunlit_search(pharmacist, made.shape, words, c_size_t(1), 3)
print(f'{made.shape.free} of {made.shape.blocks} blocks are free; 3 start at {found.first}, with space for {found.second}')
