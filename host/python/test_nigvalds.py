"""Tests of the Python package: document 01's examples, refusals, lists and tables of other kinds, what is saved, threads. test_random.py has random calls."""
import copy
import mmap
import os
import pickle
import random
import re
import subprocess
import tempfile
import threading
import unittest
from array import array
from pathlib import Path

import nigvalds
import nigvalds_ffi
from nigvalds import Entry, Factor, Limits, Refusal, Report, Short, Tables

try:
    import numpy
except ImportError:
    numpy = None

HERE = Path(__file__).resolve().parent
ROOT = HERE.parents[1]
SHARED = os.environ.get('NIGVALDS_LIBRARY') or ROOT / 'target/shared/libnigvalds.so'
EXAMPLE = [(1, [1, 3]), (2, [1, 4]), (3, [2, 3])]
LISTED = '1 3 1:3 3:1 4:1\n2 3 2:2 3:1\n3 4 3:3 4:1\n4 0 4:2\n5 0 5:1'
LAST = 2**32 - 1


def example():
    factor = Factor(5, 8, 9, 16)
    factor.add(EXAMPLE)
    return factor


def contents(factor):
    return factor.record, [bytes(memoryview(getattr(factor.tables, name))) for name in nigvalds_ffi.TABLES]


class Case(unittest.TestCase):
    def refused(self, number, name, position, call, *arguments):
        with self.assertRaises(Refusal) as caught:
            call(*arguments)
        self.assertEqual((caught.exception.number, caught.exception.name, caught.exception.position), (number, name, position))


# ---- document 01's example and instances

class Examples(Case):
    def test_listing(self):
        factor = Factor(5, 8, 9, 16)
        reports = [factor.add([column]) for column in EXAMPLE]
        self.assertEqual([(len(r.touched), r.entries, r.grade) for r in reports], [(2, 3, 1), (3, 6, 1), (3, 5, 1)])
        self.assertEqual(str(factor), LISTED)
        factor.check()

    def test_one_batch(self):
        factor = Factor(5, 8, 9, 16)
        self.assertEqual(factor.add(dict(EXAMPLE)), Report([1, 2, 3, 4], [2, 3, 3, 3], 8, 1))
        self.assertEqual(str(factor), LISTED)
        self.assertEqual(factor.remove([2]), Report([1, 3, 4], [1, 1, 1], 6, 1))
        self.assertEqual(str(factor), '1 3 1:2 3:1\n2 3 2:2 3:1\n3 0 3:3\n4 0 4:1\n5 0 5:1')
        self.refused(16, 'FACTOR_FULL', 0, Factor(5, 8, 8, 16).add, EXAMPLE)

    def test_questions(self):
        factor = example()
        self.assertEqual((factor.parent(1), factor.parent(4), factor.path(1)), (3, None, [1, 3, 4]))
        self.assertEqual((factor.next_row(2, 1), factor.next_row(5, 1)), (Entry(3, 1), None))
        self.assertEqual(factor.column(1), [Entry(1, 3), Entry(3, 1), Entry(4, 1)])
        self.assertEqual(list(factor.walk(1)), factor.column(1))
        self.assertEqual((factor.meets(4), factor.common([1, 2]), factor.common([1, 5])), ([1, 3, 4], 3, None))

    def test_windows(self):
        factor = Factor(5, 8, 80, 16)
        report = factor.add([(1, [1, 3]), (2, [1, 4], range(480, 720)), (3, [2, 4], (0, 600))])
        self.assertEqual((report.touched, report.labels), ([1, 2, 3, 4], [1, 3, 1, 3]))
        self.assertEqual(factor.set_clock(600), Report([1, 2, 3, 4], [0, 0, 0, 0], 8, 1))
        self.assertEqual((factor.set_clock(700), factor.clock), (Report([], [], 0, 0), 700))
        self.assertEqual(list(factor.booked()), [(1, [1, 3], None), (2, [1, 4], (480, 720)), (3, [2, 4], (0, 600))])

    def test_drawing(self):
        factor, drawn = Factor(7, 8, 80, 32), []
        factor.add([(1, [1, 3]), (2, [1, 4], range(480, 720)), (3, [2, 4], range(600)), (4, [5, 6, 7]), (5, [3, 7], range(600, 900))])
        for minute in (540, 600):
            factor.set_clock(minute)
            drawn.append(factor.drawing() + '\n')
        self.assertEqual(''.join(drawn), (HERE.parent / 'examples/drawing.out').read_text())

    def test_limits(self):
        factor = Factor(5, 8, 9, 16, Limits(4, 8, 16))
        self.assertEqual((factor.add(EXAMPLE).grade, factor.limits), (3, (4, 8, 16)))
        self.assertEqual(Factor(5, 8, 0, 16, (0, 0, 0)).record, (5, 8, 160, 16, 6, 1, 256, 4096, 65536, 0))

    def test_readme(self):
        for name in (HERE / 'README.md', ROOT / 'README.md'):
            programs = re.findall(r'(?ms)^```python\n(.*?)^```$', name.read_text())
            self.assertTrue(programs, name)
            for program in programs:
                exec(compile(program, str(name), 'exec'), {})
        shown = re.search(r'(?ms)^    import nigvalds\n.*?(?=^\S)', nigvalds.__doc__)[0]
        exec('\n'.join(line[4:] for line in shown.splitlines()), {})


# ---- refusals

class Refusals(Case):
    def test_numbers(self):
        factor = example()
        for number, name, position, call, *arguments in [
            (1, 'ROWS', 0, Factor, 0, 8, 9, 16), (1, 'ROWS', 0, Factor, LAST, 8, 0, 16), (2, 'IDS', 0, Factor, 5, 16385, 9, 16),
            (3, 'RECORDS', 0, Factor, 5, 8, 4, 16), (4, 'BOOKED', 0, Factor, 5, 8, 9, 0), (20, 'LIMITS', 0, Factor, 5, 8, 9, 16, (2, 2, 3)),
            (5, 'SHORT', 0, factor.reopen, 6, 8, 9, 16), (7, 'SHAPE', 0, factor.add, []), (7, 'SHAPE', 0, factor.remove, []),
            (7, 'SHAPE', 0, factor.common, []), (7, 'SHAPE', 0, factor.add_lists, [4], [1, 1], [1, 2]), (7, 'SHAPE', 0, factor.add_lists, [4], [1], [1], []),
            (8, 'ID_OUTSIDE', 2, factor.remove, [1, 9]), (9, 'ID_REPEATED', 2, factor.remove, [3, 3]), (10, 'ID_BOOKED', 1, factor.add, [(3, [1])]),
            (11, 'ID_NOT_BOOKED', 2, factor.remove, [3, 4]), (12, 'COUNT', 1, factor.add, [(4, [])]), (12, 'COUNT', 0, factor.add_lists, [4], [1], [1, 2]),
            (13, 'ROW_OUTSIDE', 1, factor.add, [(4, [6])]), (14, 'ROW_ORDER', 1, factor.add, [(4, [4, 4])]),
            (15, 'BOOK_FULL', 0, factor.add, [(k, [1, 2, 3, 4, 5]) for k in (4, 5, 6)]), (16, 'FACTOR_FULL', 0, factor.add, [(4, [1, 5])]),
            (17, 'ASKED_OUTSIDE', 0, factor.parent, 6), (17, 'ASKED_OUTSIDE', 0, factor.path, 0), (17, 'ASKED_OUTSIDE', 0, factor.next_row, 6, 1),
            (21, 'WINDOW', 1, factor.add, [(4, [1], (7, 7))]), (21, 'WINDOW', 1, factor.add, [(4, [1], range(0))]), (21, 'WINDOW', 1, factor.add, [(4, [1], (LAST, 0))]),
        ]:
            before = contents(factor)
            self.refused(number, name, position, call, *arguments)
            self.assertEqual(contents(factor), before)

    def test_unsound(self):
        factor = example()
        factor.tables.parents[0] = 2
        self.refused(6, 'UNSOUND', 0, factor.check)
        self.refused(6, 'UNSOUND', 0, factor.add, [(4, [1])])

    def test_words(self):
        self.assertEqual(str(Refusal(14, 2)), 'refused by 14 at position 2: a row is not above the row before')
        self.assertEqual((str(Refusal(99)), Refusal(99).name), ('refused by 99: no number of this library', 'UNKNOWN'))
        self.assertEqual(len({Refusal(k).words for k in range(1, 22)}), 21)

    def test_numbers_past_32_bits(self):
        factor = example()
        for call, *arguments in [(factor.parent, 2**32), (factor.parent, -1), (factor.set_clock, 2**32), (factor.add, [(2**32 + 4, [1])]), (factor.add, [(4, [1], (-1, 5))]),
                                 (factor.add, [(4, [2**32 + 1])]), (factor.remove, [2**32 + 1]), (factor.common, [2**32 + 1]), (Factor, 2**32 + 5, 8, 9, 16)]:
            self.assertRaises(OverflowError, call, *arguments)
        self.assertRaises(TypeError, factor.parent, 1.0)
        self.assertRaises(TypeError, factor.add, [(4, [1.0])])
        self.assertRaises(ValueError, factor.add, [(4, [1], range(0, 10, 2))])
        self.assertEqual(str(factor), LISTED)


# ---- lists and tables of other kinds

def buffers():
    """Tables for 5, 8, 9 and 16 in memory of the host's own, two places longer than needed, filled with sevens."""
    places = {'heads': 5, 'parents': 5, 'book_heads': 8, 'book_rows': 16, 'book_next': 16, 'windows': 16}
    made = {}
    for name, kind in nigvalds_ffi.TABLES.items():
        memory = mmap.mmap(-1, 4096)
        view = memoryview(memory)[:(places.get(name, 9) + 2) * (2 if kind == 'u16' else 4)].cast('H' if kind == 'u16' else 'I')
        view[:] = array(view.format, [7] * len(view))
        made[name] = view
    return made


class Buffers(Case):
    def test_lists(self):
        for kind in (list, tuple, iter, bytes, bytearray, lambda x: array('I', x), lambda x: array('H', x), lambda x: array('q', x), lambda x: memoryview(array('I', x))):
            factor = Factor(5, 8, 9, 16)
            factor.add([(number, kind(rows)) for number, rows in EXAMPLE])
            self.assertEqual(str(factor), LISTED)
            factor.remove(kind([1, 2, 3]))
            factor.add_lists(kind([1, 2, 3]), kind([2, 2, 2]), kind([1, 3, 1, 4, 2, 3]), kind([0, 0, 0]), kind([0, 0, 9]))
            self.assertEqual((str(factor), factor.common(kind([1, 2]))), (LISTED, 3))

    @unittest.skipUnless(numpy, 'numpy is not here')
    def test_numpy(self):
        for dtype in ('uint32', 'int64', 'uint16', '>u4'):
            factor = Factor(5, 8, 9, 16)
            factor.add([(numpy.uint32(number), numpy.array(rows, dtype)) for number, rows in EXAMPLE])
            self.assertEqual(str(factor), LISTED)
        tables = Tables(**{name: numpy.zeros(200, 'uint16' if kind == 'u16' else 'uint32') for name, kind in nigvalds_ffi.TABLES.items()})
        factor = Factor(5, 8, 9, 16, tables=tables)
        factor.add(EXAMPLE)
        self.assertEqual((str(factor), tables.parents[:5].tolist()), (LISTED, [3, 3, 4, 0, 0]))

    def test_tables(self):
        made = buffers()
        factor = Factor(5, 8, 9, 16, tables=Tables(**made))
        factor.add(EXAMPLE)
        self.assertEqual((str(factor), made['parents'].tolist()), (LISTED, [3, 3, 4, 0, 0, 7, 7]))
        self.assertTrue(all(view[-2:].tolist() == [7, 7] for view in made.values()))

    def test_longer_tables_serve_more_rows(self):
        factor = Factor(5, 8, 9, 16, tables=Tables(**buffers()))
        factor.reopen(6, 1, 9, 14)
        self.assertEqual(factor.add([(1, [5, 6])]), Report([5, 6], [1, 1], 3, 1))

    def test_short_tables(self):
        for name in nigvalds_ffi.TABLES:
            made = buffers()
            made[name] = made[name][:-3]
            self.refused(5, 'SHORT', 0, lambda: Factor(5, 8, 9, 16, tables=Tables(**made)))
            made[name] = made[name][:0]
            self.refused(5, 'SHORT', 0, lambda: Factor(5, 8, 9, 16, tables=Tables(**made)))

    def test_wrong_tables(self):
        for other in (array('Q', [0] * 9), array('f', [0] * 9), bytes(36)):
            self.assertRaises(TypeError, lambda: Tables(**{**buffers(), 'heads': other}))


# ---- saved and restored

class Saved(Case):
    def setUp(self):
        self.factor = Factor(5, 8, 20, 16, Limits(4, 8, 16))
        self.factor.add([*EXAMPLE[:2], (3, [2, 3], range(480, 720))])
        self.factor.set_clock(10)

    def test_goes_on(self):
        with tempfile.TemporaryDirectory() as folder:
            path = Path(folder) / 'factor'
            self.factor.save(path)
            self.factor.save(path)
            others = [Factor.load(path), copy.copy(self.factor), copy.deepcopy(self.factor), pickle.loads(pickle.dumps(self.factor)), Factor.restore(self.factor.record, self.factor.tables)]
            self.assertEqual([each.name for each in Path(folder).iterdir()], ['factor'])
        for other in others:
            self.assertEqual(contents(other), contents(self.factor))
        report, after = self.factor.set_clock(500), contents(self.factor)
        for other in others[:4]:
            self.assertEqual((other.set_clock(500), contents(other)), (report, after))

    def test_longer_tables(self):
        factor = Factor(5, 8, 9, 16, tables=Tables(**buffers()))
        factor.add(EXAMPLE)
        self.assertEqual(factor.to_bytes(), example().to_bytes())

    def test_c_reads_and_writes_it(self):
        with tempfile.TemporaryDirectory() as folder:
            program, file = f'{folder}/restore', Path(folder) / 'factor'
            subprocess.run(['cc', '-I', ROOT / 'include', '-o', program, ROOT / 'examples/restore.c', SHARED], check=True)
            subprocess.run([program, 'save', file], capture_output=True, check=True)
            factor = Factor.load(file)
            self.assertEqual(list(factor.booked()), [(1, [1, 3], None), (2, [1, 4], None), (3, [2, 3], (480, 720))])
            factor.set_clock(599)
            factor.save(file)
            said = subprocess.run([program, 'resume', file], capture_output=True, text=True, check=True).stdout.splitlines()
            self.assertEqual(said[:2], ['resume: sound, clock 599', 'clock to 600: touched 0, accepted'])
            subprocess.run([program, 'old', file], capture_output=True, check=True)
            self.assertEqual([number for number, _, _ in Factor.load(file).booked()], [1, 2])

    def test_older(self):
        factor = example()
        data = factor.to_bytes()
        old = (6).to_bytes(4, 'little') + data[4:40] + data[44:-64]
        self.assertEqual(contents(Factor.from_bytes(old)), contents(factor))

    def test_damaged(self):
        data = bytearray(example().to_bytes())
        for place in range(44, 44 + 20 + 10):  # heads and parents
            spoiled = bytearray(data)
            spoiled[place] ^= 1
            self.refused(6, 'UNSOUND', 0, Factor.from_bytes, spoiled)
        for spoiled in (b'', data[:3], data[:43], data[:-1], data + b'0', b'\x08' + data[1:]):
            self.assertRaises(ValueError, Factor.from_bytes, spoiled)
        record = self.factor.record
        for field, number, name in [('m', 1, 'ROWS'), ('n', 2, 'IDS'), ('f', 3, 'RECORDS'), ('c', 4, 'BOOKED')]:
            for size in (0, LAST):
                self.refused(number, name, 0, Factor.restore, record._replace(**{field: size}), self.factor.tables)
        self.refused(6, 'UNSOUND', 0, Factor.restore, record._replace(grade2=0), self.factor.tables)

    def test_short(self):
        with self.assertRaises(Refusal) as caught:
            Factor.restore(self.factor.record._replace(f=21), self.factor.tables)
        self.assertEqual(caught.exception.short, Short('rows', 20, 21))
        self.assertEqual(str(caught.exception), 'refused by 5: a table or list that is needed is too short: rows has 20 of 21 places')
        with self.assertRaises(Refusal) as caught:
            self.factor.reopen(5, 8, 0, 16)
        self.assertEqual(caught.exception.short, Short('rows', 20, 160))

    def test_grows(self):
        booked = list(self.factor.booked())
        self.refused(16, 'FACTOR_FULL', 0, Factor(5, 8, 6, 16).add, booked + [(4, [1, 2, 3, 4, 5])])
        larger = Factor(5, 8, 40, 32, self.factor.limits)
        larger.set_clock(self.factor.clock)
        larger.add(booked)
        self.assertEqual((str(larger), list(larger.booked()), larger.clock), (str(self.factor), booked, 10))


# ---- the library, threads

class Loading(Case):
    def test_missing(self):
        self.assertRaises(OSError, nigvalds.load_library, '/nowhere/libnigvalds.so')
        example().check()

    def test_another_interface(self):
        with tempfile.TemporaryDirectory() as folder:
            other = Path(folder) / 'libnigvalds.so'
            subprocess.run(['cc', '-shared', '-o', str(other), '-x', 'c', '-'], input='int nigvalds_open_0_0(void) { return 0; }', text=True, check=True)
            with self.assertRaisesRegex(ImportError, f'nigvalds_open{nigvalds_ffi.INTERFACE}.* not of the interface'):
                nigvalds.load_library(other)
        example().check()

    def test_threads(self):
        shared, found = example(), []

        def work(seed):
            own, drawn = Factor(5, 8, 80, 64), random.Random(seed)
            for _ in range(300):
                own.add([(1, sorted(drawn.sample(range(1, 6), 2)))])
                own.remove([1])
                found.append(shared.column(1) == shared.column(1))
                try:
                    shared.add([(4 + seed, [5])])
                    shared.remove([4 + seed])
                except Refusal as refusal:
                    found.append(refusal.name)
            own.check()

        threads = [threading.Thread(target=work, args=(seed,)) for seed in range(4)]
        [t.start() for t in threads]
        [t.join() for t in threads]
        self.assertEqual((len(found), set(found), str(shared)), (1200, {True}, LISTED))
        shared.check()


if __name__ == '__main__':
    unittest.main()
