"""The library's functions, as include/nigvalds.h declares them, and what is lent to them: nigvalds.py stands on these.

The calls are made by STRUCTS, TABLES and FUNCTIONS, which tools/check-header compares with the header and the library's source.
"""
import ctypes
import os
from array import array
from pathlib import Path

VERSION = '0.8.0'

# ---- what crosses: structs by value, a list as a pointer and its length in places

RECORD = ('m', 'n', 'f', 'c', 'free', 'book_free', 'grade2', 'grade3', 'grade4', 'clock')

STRUCTS = {
    'Factor': [(name, 'u32') for name in RECORD],
    'Opened': [('number', 'u32'), ('factor', 'Factor')],
    'Changed': [('number', 'u32'), ('position', 'u32'), ('touched', 'u32'), ('entries', 'u32'), ('grade', 'u32'), ('factor', 'Factor')],
    'Reply': [('number', 'u32'), ('value', 'u32')],
    'Found': [('number', 'u32'), ('row', 'u32'), ('multiplicity', 'u32')],
    'Read': [('row', 'u32'), ('multiplicity', 'u32'), ('next', 'u32')],
}

# The nine tables in the library's order: each with the width of its places.
TABLES = {'heads': 'u32', 'parents': 'u16', 'rows': 'u16', 'counts': 'u16', 'next': 'u32', 'book_heads': 'u32', 'book_rows': 'u16', 'book_next': 'u32', 'windows': 'u32'}


def _list(name, kind):
    return [(name, kind), (name + '_length', 'usize')]


def _lists(kind, *names):
    return [pair for name in names for pair in _list(name, kind)]


def _tables(heads, stored, book):
    """The nine tables and the work table: whether the heads, the other tables of the factor, and those of the book with the windows are written."""
    star = {'heads': heads, 'book_heads': book, 'book_rows': book, 'book_next': book, 'windows': book}
    return [pair for name, kind in TABLES.items() for pair in _list(name, f'*{star.get(name, stored)} {kind}')] + _list('work', '*mut u32')


_FACTOR = [('factor', 'Factor')]
_READ = _FACTOR + _tables('const', 'const', 'const')
_REPORT = _lists('*mut u16', 'touched', 'labels')
_ANSWER = _list('list', '*mut u32')

# Each function's parameters, and its answer.
FUNCTIONS = {
    'nigvalds_open': ([(name, 'u32') for name in ('m', 'n', 'f', 'c', 'grade2', 'grade3', 'grade4')] + _tables('mut', 'mut', 'mut'), 'Opened'),
    'nigvalds_add': (_FACTOR + _tables('const', 'mut', 'mut') + _REPORT + _lists('*const u32', 'ids', 'row_counts', 'row_list', 'firsts', 'seconds'), 'Changed'),
    'nigvalds_remove': (_FACTOR + _tables('const', 'mut', 'mut') + _REPORT + _list('ids', '*const u32'), 'Changed'),
    'nigvalds_set_clock': (_FACTOR + _tables('const', 'mut', 'const') + _REPORT + [('minute', 'u32')], 'Changed'),
    'nigvalds_check': (_READ, 'Reply'),
    'nigvalds_next_row': (_READ + [('i', 'u32'), ('j', 'u32')], 'Found'),
    'nigvalds_parent': (_READ + [('j', 'u32')], 'Reply'),
    'nigvalds_path': (_READ + _ANSWER + [('j', 'u32'), ('place', 'usize')], 'Reply'),
    'nigvalds_column': (_READ + _ANSWER + [('j', 'u32'), ('place', 'usize')], 'Reply'),
    'nigvalds_meets': (_READ + _ANSWER + [('i', 'u32'), ('place', 'usize')], 'Reply'),
    'nigvalds_common': (_READ + _list('row_list', '*const u32'), 'Reply'),
    'nigvalds_read': (_lists('*const u16', 'rows', 'counts') + _list('next', '*const u32') + [('record', 'u32')], 'Read'),
}

TYPES = {'u16': ctypes.c_uint16, 'u32': ctypes.c_uint32, 'usize': ctypes.c_size_t}
TYPES.update({f'*{star} {kind}': ctypes.POINTER(TYPES[kind]) for star in ('const', 'mut') for kind in ('u16', 'u32')})
for _name, _pairs in STRUCTS.items():
    TYPES[_name] = type(_name, (ctypes.Structure,), {'_fields_': [(name, TYPES[kind]) for name, kind in _pairs]})

CODES = {'u16': 'H', 'u32': 'I'}


def width(kind):
    """The bytes of a place."""
    return ctypes.sizeof(TYPES[kind])


# ---- the library

# The library's names end in the version of the interface, so one of another interface is not taken for this.
INTERFACE = '_0_7'

_loaded = None


def load_library(path=None):
    """Loads the library: from this file, otherwise from the one that NIGVALDS_LIBRARY names, otherwise target/shared/libnigvalds.so of the repository that this
    module stands in, otherwise libnigvalds.so where the system finds it. The first call does so itself. ImportError if it has another interface."""
    global _loaded
    built = Path(__file__).resolve().parents[2] / 'target/shared/libnigvalds.so'
    found = path or os.environ.get('NIGVALDS_LIBRARY') or (built if built.is_file() else 'libnigvalds.so')
    library, functions = ctypes.CDLL(os.fspath(found)), {}
    for name, (parameters, answer) in FUNCTIONS.items():
        try:
            function = functions[name] = getattr(library, name + INTERFACE)
        except AttributeError:
            raise ImportError(f'{found} has no {name + INTERFACE}: it is not of the interface of nigvalds {VERSION}') from None
        function.argtypes, function.restype = [TYPES[kind] for _, kind in parameters], TYPES[answer]
    _loaded = functions


def library():
    if _loaded is None:
        load_library()
    return _loaded


# ---- numbers and lists that are lent

def number(x):
    """A number of 32 bits; ctypes would cut a larger one."""
    return array('I', (x,))[0]


def numbers(values):
    """Numbers of 32 bits, from a buffer of whole numbers or an iterable of them."""
    try:
        view = memoryview(values)
    except TypeError:
        return array('I', values)
    try:
        return array('I', view.tobytes() if view.format == 'I' else view.tolist())
    except NotImplementedError:  # a format of another machine
        return array('I', values)


def zeros(places, kind):
    return array(CODES[kind], bytes(width(kind) * places))


def lent(buffer, kind):
    """A writable buffer as a pointer and its length in places. An empty one has a place, which is not counted, since no pointer may be null."""
    view = memoryview(buffer)
    if view.itemsize != width(kind) or view.format.lower() not in 'hil':
        raise TypeError(f'a buffer of {kind} is needed, not of {view.format!r}')
    places = view.nbytes // view.itemsize
    return ((TYPES[kind] * places).from_buffer(buffer) if places else (TYPES[kind] * 1)()), places


def work_places(m, n, f, c):
    """W, the places of the work table; f is F itself, not 0."""
    return 8 * m + 4 * f + c + n + 1024


def places(m, n, f, c):
    """How many places each table needs."""
    named = {'heads': m, 'parents': m, 'book_heads': n, 'book_rows': c, 'book_next': c, 'windows': 2 * n}
    return {name: named.get(name, f) for name in TABLES}
