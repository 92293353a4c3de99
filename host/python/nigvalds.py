"""The pattern of the sparse Cholesky factor of I + AA^T, kept while columns of A enter and leave: the proved library, from Python.

    import nigvalds

    factor = nigvalds.Factor(5, 8, 80, 16)                           # 5 rows, ids 1 to 8, room for 80 entries of L and 16 of A
    report = factor.add([(1, [1, 3]), (2, [1, 4])])                  # column 1 is {1, 3}, column 2 is {1, 4}
    assert (report.touched, report.entries) == ([1, 3, 4], 6)
    factor.add([(3, [2, 4], range(480, 720))])                       # counts from minute 480 up to, not including, 720
    assert factor.set_clock(480).touched == [2, 4]

Each call goes to the library, which reads all tables through first. What it refuses is raised as Refusal, with number, name and position; nothing has changed then.
A number that does not fit in 32 bits is an OverflowError before any call. Rows, ids and minutes may be lists, any iterable, numpy arrays, or anything else with the
buffer protocol; so may tables that a host keeps itself (Tables). A factor may be used from several threads, one call at a time; different factors run in parallel.
It can be saved and loaded, copied and pickled.

It needs the standard library, nigvalds_ffi.py beside it, and libnigvalds.so, which `make shared` writes to target/shared; NIGVALDS_LIBRARY names another file.
tools/check-header holds both modules against include/nigvalds.h.
"""
import os
import threading
from array import array
from collections import namedtuple
from pathlib import Path

import nigvalds_ffi as ffi
from nigvalds_ffi import VERSION, load_library, work_places

__all__ = ['Column', 'Entry', 'Factor', 'Limits', 'Record', 'Refusal', 'Report', 'Short', 'Tables', 'VERSION', 'load_library', 'work_places']

# ---- numbers

REFUSALS = {
    1: ('ROWS', 'm is outside 1 to 4,096'),
    2: ('IDS', 'n is outside 1 to 16,384'),
    3: ('RECORDS', 'F is outside m to 1,048,576'),
    4: ('BOOKED', 'C is outside 1 to 262,144'),
    5: ('SHORT', 'a table or list that is needed is too short'),
    6: ('UNSOUND', 'the tables are not sound'),
    7: ('SHAPE', 'not 1 to 64 columns or rows named, or not as many counts or minutes as ids'),
    8: ('ID_OUTSIDE', 'an id is outside 1 to n'),
    9: ('ID_REPEATED', 'an id stands earlier in the batch'),
    10: ('ID_BOOKED', 'an id to add is booked'),
    11: ('ID_NOT_BOOKED', 'an id to remove is not booked'),
    12: ('COUNT', 'a count is outside 1 to 256, or there are fewer or more rows than the counts say'),
    13: ('ROW_OUTSIDE', 'a row is outside 1 to m'),
    14: ('ROW_ORDER', 'a row is not above the row before'),
    15: ('BOOK_FULL', 'the rows of the booked columns would exceed C'),
    16: ('FACTOR_FULL', 'the sum of all pattern sizes would exceed F'),
    17: ('ASKED_OUTSIDE', 'a row or column asked about is outside 1 to m'),
    18: ('LIST_ENDS', 'the list ends before the answer does'),
    19: ('NO_COMMAND', 'a line is no command'),
    20: ('LIMITS', 'a limit of the grades is below 2 or not above the limit before'),
    21: ('WINDOW', 'the second minute of a window other than 0 and 0 is not later than its first'),
}


class Refusal(Exception):
    """Why a call was turned down: its number, its name, its words, and the position of the column in the batch, from 1, or 0 where there is none. With number 5 short
    is the table that is too short, otherwise None."""

    def __init__(self, number, position=0, short=None):
        super().__init__(number, position, short)
        self.number, self.position, self.short = number, position, short
        self.name, self.words = REFUSALS.get(number, ('UNKNOWN', 'no number of this library'))

    def __str__(self):
        where = f' at position {self.position}' if self.position else ''
        return f'refused by {self.number}{where}: {self.words}' + (f': {self.short}' if self.short else '')


# The first number of a kept factor; before 0.7 there were no clock, the record's last number, and no windows, the last table.
FORM, OLD_FORM = 7, 6


# ---- records, reports, entries

Record = namedtuple('Record', ffi.RECORD)
Record.__doc__ = 'The record of sizes, free heads, limits of the grades and clock. It goes with the tables.'

Limits = namedtuple('Limits', 'grade2 grade3 grade4', defaults=(256, 4096, 65536))
Limits.__doc__ = 'From so many entries on the grade is 2, 3 and 4: the first at least 2, each above the one before. Three zeros mean those that it has by default.'

Report = namedtuple('Report', 'touched labels entries grade')
Report.__doc__ = """What an accepted batch or clock change reports: the touched columns, rising; for each the largest position in the batch whose path passes through it, 0 in a
clock change; the sum of their sizes, of each the larger of before and after the call; the grade of these entries. A call that touches nothing has [], [], 0 and 0."""

Entry = namedtuple('Entry', 'row multiplicity')
Entry.__doc__ = 'An entry of a factor column: a row, and how many children and live columns hold it, with 1 on the diagonal.'


class Column(namedtuple('Column', 'number parent entries')):
    """A factor column: its number, its parent (None for a root) and its entries. As a string it is a line of the listing."""
    __slots__ = ()

    def __str__(self):
        return ' '.join([str(self.number), str(self.parent or 0), *(f'{e.row}:{e.multiplicity}' for e in self.entries)])


class Short(namedtuple('Short', 'name has needs')):
    """A table that is too short: its name, the places that it has, and those that it needs."""
    __slots__ = ()

    def __str__(self):
        return f'{self.name} has {self.has} of {self.needs} places'


class Tables:
    """The nine tables, writable buffers of the host's: places of 16 bits for parents, rows, counts and book_rows, of 32 bits for the others. What belongs to number
    k stands at place k - 1. They may be longer than the sizes need. They are one factor's from then on, and must not be resized."""

    def __init__(self, heads, parents, rows, counts, next, book_heads, book_rows, book_next, windows):
        self.heads, self.parents, self.rows, self.counts, self.next = heads, parents, rows, counts, next
        self.book_heads, self.book_rows, self.book_next, self.windows = book_heads, book_rows, book_next, windows
        self._parts = {name: ffi.lent(getattr(self, name), kind) for name, kind in ffi.TABLES.items()}

    @classmethod
    def for_sizes(cls, m, n, f, c):
        """Tables of zeros with the places that these sizes need; f is F itself, not 0."""
        return cls(**{name: ffi.zeros(places, ffi.TABLES[name]) for name, places in ffi.places(m, n, f, c).items()})

    def _first_short(self, m, n, f, c, work):
        """The first table that is too short for these sizes."""
        lengths = [(name, self._parts[name][1], places) for name, places in ffi.places(m, n, f, c).items()] + [('work', work, work_places(m, n, f, c))]
        return next((Short(*each) for each in lengths if each[1] < each[2]), None)

    def _lend(self, *names):
        return [part for name in names for part in self._parts[name]]


# ---- the factor

class Factor:
    """A factor of m rows for columns with ids 1 to n, in F factor records (0 means 32 x m) and C book records; fresh, at minute 0.

    It makes its tables, or works in those that are given."""

    MOST_ROWS = 4096
    MOST_IDS = 16384
    MOST_RECORDS = 1048576
    MOST_BOOKED = 262144
    RECORDS_PER_ROW = 32

    def __init__(self, m, n, f, c, limits=Limits(), tables=None):
        rows, ids, booked = min(ffi.number(m), self.MOST_ROWS), min(ffi.number(n), self.MOST_IDS), min(ffi.number(c), self.MOST_BOOKED)
        records = min(ffi.number(f), self.MOST_RECORDS) or self.RECORDS_PER_ROW * rows
        self._take(rows, ids, records, booked, tables or Tables.for_sizes(rows, ids, records, booked))
        self.reopen(m, n, f, c, limits)

    def _take(self, m, n, f, c, tables):
        """Takes tables, with a work table for these sizes; the lists of a report serve as many rows as the tables do."""
        self._lock, self._tables, self._all = threading.Lock(), tables, tables._lend(*ffi.TABLES)
        self._all += ffi.lent(ffi.zeros(work_places(m, n, f, c), 'u32'), 'u32')
        rows = min(len(tables.heads), self.MOST_ROWS)
        self._touched, self._labels = (ffi.lent(ffi.zeros(rows, 'u16'), 'u16') for _ in range(2))

    def reopen(self, m, n, f, c, limits=Limits()):
        """Opens anew in the tables there are, without a column and at minute 0. Where it is refused, for the sizes or since the tables are too short for them, the
        factor stays."""
        numbers = [ffi.number(x) for x in (m, n, f, c, *limits)]
        with self._lock:
            opened = ffi.library()['nigvalds_open'](*numbers, *self._all)
            self._fits(opened.number, m, n, f or self.RECORDS_PER_ROW * m, c)
            self._record = opened.factor

    def _fits(self, number, *sizes):
        if number:
            raise Refusal(number, 0, self._tables._first_short(*sizes, self._all[-1]) if number == 5 else None)

    # ---- saved and restored

    @classmethod
    def restore(cls, record, tables):
        """A factor from a record and tables that were kept, or that another host lends. They are read through first: UNSOUND is raised for what is damaged or belongs
        to another record, 1 to 5 for sizes and lengths that cannot be used."""
        factor, sizes = cls.__new__(cls), [ffi.number(x) for x in record[:4]]
        most = (cls.MOST_ROWS, cls.MOST_IDS, cls.MOST_RECORDS, cls.MOST_BOOKED)
        factor._take(*map(min, sizes, most), tables)
        factor._record = ffi.TYPES['Factor'](*(ffi.number(x) for x in record))
        factor._fits(ffi.library()['nigvalds_check'](factor._record, *factor._all).number, *sizes)
        return factor

    def to_bytes(self):
        """Record and tables, to keep: the form, the record's ten numbers, and the nine tables as long as the sizes need, all little-endian. examples/restore.c writes and
        reads the same."""
        with self._lock:
            record = array('I', (FORM, *self.record))
            tables = [memoryview(getattr(self._tables, name))[:places] for name, places in ffi.places(*self.record[:4]).items()]
            return b''.join([record, *tables])

    @classmethod
    def from_bytes(cls, data):
        """The factor that was kept so, read through first; ValueError where the data end early, go on too long, or have another form. What a version from 0.2 to 0.6
        kept (form 6, no clock and no windows) serves on."""
        data = memoryview(data).cast('B')
        form, numbers = int.from_bytes(data[:4], 'little'), {OLD_FORM: 9, FORM: 10}.get(int.from_bytes(data[:4], 'little'))
        if numbers is None or len(data) < 4 + 4 * numbers:
            raise ValueError(f'not a kept factor: form {form}, {len(data)} bytes')
        record, at = array('I', bytes(data[4:4 + 4 * numbers])), 4 + 4 * numbers
        record.extend([0] * (10 - numbers))
        tables = {}
        for name, places in ffi.places(*record[:4]).items():
            end = at + ffi.width(ffi.TABLES[name]) * places
            if form == OLD_FORM and name == 'windows':
                tables[name], end = ffi.zeros(min(places, 2 * cls.MOST_IDS), 'u32'), at
            else:
                tables[name] = array(ffi.CODES[ffi.TABLES[name]], bytes(data[at:end]) if end <= len(data) else b'')
            at = end
        if at != len(data):
            raise ValueError(f'not a kept factor: {len(data)} bytes for sizes that need {at}')
        return cls.restore(record, Tables(**tables))

    def save(self, path):
        """Keeps record and tables in a file. It is written beside it first, so a stop in between leaves the file of before."""
        path = Path(path)
        beside = path.with_name(path.name + '.new')
        with open(beside, 'wb') as file:
            file.write(self.to_bytes())
            file.flush()
            os.fsync(file.fileno())
        os.replace(beside, path)

    @classmethod
    def load(cls, path):
        """The factor that a file keeps."""
        return cls.from_bytes(Path(path).read_bytes())

    def __reduce__(self):
        return type(self).from_bytes, (self.to_bytes(),)

    # ---- changes

    def add(self, columns):
        """Adds columns as one batch: each an id with its rows, and with a window if it has one. They are triples or pairs, or a mapping from ids to rows.

        A window is a range of minutes, or a pair (first, second) as the library has it, in which 0 and 0 mean none; without one, or with None, a column always
        counts. One that lies in the past or the future is taken: its column is booked, and counts when set_clock comes to it."""
        ids, counts, rows, firsts, seconds = (array('I') for _ in range(5))
        for number, held, *window in columns.items() if hasattr(columns, 'items') else columns:
            held, (first, second) = ffi.numbers(held), _minutes(*window)
            ids.append(number)
            counts.append(len(held))
            rows.extend(held)
            firsts.append(first)
            seconds.append(second)
        return self.add_lists(ids, counts, rows, firsts, seconds)

    def add_lists(self, ids, counts, rows, firsts=None, seconds=None):
        """Adds a batch: by position, each id with as many of the rows not yet used as its count says, and a window of its first and second minutes, 0 and 0 for
        none. Counts and both lists of minutes must be as long as the ids, or SHAPE is raised; without minutes all columns always count."""
        ids = ffi.numbers(ids)
        lists = [ids, ffi.numbers(counts), ffi.numbers(rows), *(ffi.zeros(len(ids), 'u32') if x is None else ffi.numbers(x) for x in (firsts, seconds))]
        return self._changed('nigvalds_add', *(part for each in lists for part in ffi.lent(each, 'u32')))

    def remove(self, ids):
        """Removes the columns of these ids, as one batch, those too that do not count now. The report's entries are those that the touched columns had before."""
        return self._changed('nigvalds_remove', *ffi.lent(ffi.numbers(ids), 'u32'))

    def set_clock(self, minute):
        """Sets the clock, forward or back, as one change however many columns it moves: those whose windows end leave the factor, those whose windows begin enter
        it. The report has the columns on the old paths of the ones and on the new paths of the others. Where what counts then does not fit, FACTOR_FULL is raised and
        the clock stays."""
        return self._changed('nigvalds_set_clock', ffi.number(minute))

    def _changed(self, name, *last):
        with self._lock:
            changed = ffi.library()[name](self._record, *self._all, *self._touched, *self._labels, *last)
            _accepted(changed, changed.position)
            self._record, k = changed.factor, changed.touched
            return Report(self._touched[0][:k], self._labels[0][:k], changed.entries, changed.grade)

    # ---- questions: each reads all tables through

    def _asked(self, name, *last):
        with self._lock:
            reply = ffi.library()[name](self._record, *self._all, *last)
        _accepted(reply)
        return reply

    def _listed(self, name, places, number):
        places, length = ffi.lent(ffi.zeros(places, 'u32'), 'u32')
        return places, self._asked(name, places, length, ffi.number(number), 0).value

    def check(self):
        """Reads all tables through; UNSOUND is raised if something else has written them."""
        self._asked('nigvalds_check')

    def next_row(self, i, j):
        """The first row at or above i in column j, with its multiplicity; None if the column ends before. For i up to j that is the diagonal; for j below m, asking
        for j + 1 gives j's parent."""
        found = self._asked('nigvalds_next_row', ffi.number(i), ffi.number(j))
        return Entry(found.row, found.multiplicity) if found.row else None

    def walk(self, j):
        """The entries of column j, walked by questions for the next row. Each step reads all tables through; columns() is the cheap way."""
        entry = self.next_row(1, j)
        while entry:
            yield entry
            entry = self.next_row(entry.row + 1, j) if entry.row < self.record.m else None

    def parent(self, j):
        """The parent of column j; None for a root."""
        return self._asked('nigvalds_parent', ffi.number(j)).value or None

    def path(self, j):
        """The path of column j: j, its parent, and so on up to its root."""
        places, count = self._listed('nigvalds_path', self.record.m, j)
        return places[:count]

    def column(self, j):
        """The entries of column j."""
        places, count = self._listed('nigvalds_column', 2 * self.record.m, j)
        return [Entry(*places[k:k + 2]) for k in range(0, 2 * count, 2)]

    def meets(self, i):
        """The columns whose pattern holds row i, rising; the last is i itself."""
        places, count = self._listed('nigvalds_meets', self.record.m, i)
        return places[:count]

    def common(self, rows):
        """The smallest row that lies on the paths of all of these rows, 1 to 64 of them; None where there is none."""
        return self._asked('nigvalds_common', *ffi.lent(ffi.numbers(rows), 'u32')).value or None

    # ---- what is read without a look at the rest of the tables

    def columns(self):
        """All columns, 1 to m."""
        parts, read = self._tables._lend('rows', 'counts', 'next'), ffi.library()['nigvalds_read']
        for j in range(1, self.record.m + 1):
            with self._lock:
                entries, entry = [], read(*parts, self._tables.heads[j - 1])
                while entry.row and len(entries) < self._record.m:
                    entries.append(Entry(entry.row, entry.multiplicity))
                    entry = read(*parts, entry.next)
                column = Column(j, self._tables.parents[j - 1] or None, entries)
            yield column

    def booked(self):
        """The booked columns by rising id, as add takes them: id, rows, and the window's two minutes, or None."""
        t, n = self._tables, self.record.n
        for k in range(n):
            with self._lock:
                rows, at = [], t.book_heads[k]
                while at and len(rows) < self._record.c:
                    rows.append(t.book_rows[at - 1])
                    at = t.book_next[at - 1]
                window = (t.windows[k], t.windows[n + k])
            if rows:
                yield k + 1, rows, window if window != (0, 0) else None

    def drawing(self):
        """What tools/draw draws: the clock, a line for each booked column (id, two minutes, rows), and the listing."""
        lines = [f'clock {self.clock}']
        lines += [' '.join(map(str, ('line', number, *(window or (0, 0)), *rows))) for number, rows, window in self.booked()]
        return '\n'.join([*lines, str(self)])

    @property
    def record(self):
        return Record(*(getattr(self._record, name) for name in ffi.RECORD))

    @property
    def limits(self):
        """The limits of its grades."""
        return Limits(self._record.grade2, self._record.grade3, self._record.grade4)

    @property
    def clock(self):
        """The minute at which it stands: 0 from an opening on, until it is set."""
        return self._record.clock

    @property
    def tables(self):
        return self._tables

    def __str__(self):
        """The listing: a line for each column."""
        return '\n'.join(map(str, self.columns()))

    def __repr__(self):
        return f'<Factor of {self._record.m} rows at minute {self._record.clock}>'


def _accepted(answer, position=0):
    if answer.number:
        raise Refusal(answer.number, position)


def _minutes(window=None):
    """The two minutes of a window. The empty range of 0 and 0 goes as another empty one, for the library to refuse in its place."""
    if window is None:
        return 0, 0
    if isinstance(window, range):
        if window.step != 1:
            raise ValueError('a window has every minute of its range')
        return (window.start, window.stop) if window.stop else (1, 1)
    first, second = window
    return first, second
