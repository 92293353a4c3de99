"""A second implementation, by brute force from the definition's words: what is booked and live, the factor of that, what a change reports, and by which number a call is
turned down. It shares nothing with the library."""
from collections import namedtuple

DEFAULT_LIMITS = (256, 4096, 65536)

# m, n, F, C
Sizes = namedtuple('Sizes', 'm n f c')


def counts(window, minute):
    """From the first minute up to, not including, the second; 0 and 0 mean none: it always counts."""
    return window == (0, 0) or window[0] <= minute < window[1]


def factor(m, columns):
    """For each j its multiplicities by row and its parent: children that hold i, columns whose smallest row is j and that hold i, and 1 on the diagonal."""
    patterns, parents = {}, {}
    for j in range(1, m + 1):
        held = [set(patterns[c]) - {c} for c in range(1, j) if parents[c] == j] + [set(rows) for rows in columns if rows[0] == j]
        patterns[j] = {i: sum(i in rows for rows in held) + (i == j) for i in sorted({j}.union(*held))}
        parents[j] = min((i for i in patterns[j] if i > j), default=0)
    return patterns, parents


def chained(m, columns):
    """The patterns by the chain rule: i stands in column j if i is j, or if rows lead from j to i, each sharing a column with the next, all between them below j."""
    near = {i: set().union(*(set(rows) for rows in columns if i in rows)) for i in range(1, m + 1)}
    patterns = {}
    for j in range(1, m + 1):
        seen, todo = {j}, [j]
        while todo:
            found = near[todo.pop()] - seen
            seen |= found
            todo += [i for i in found if i < j]
        patterns[j] = {i for i in seen if i >= j}
    return patterns


def path(parents, j):
    rows = []
    while j:
        rows.append(j)
        j = parents[j]
    return rows


class Model:
    """A factor's register: sizes, limits, clock, and the booked columns by id, each with rows and window."""

    def __init__(self, sizes, limits):
        self.sizes, self.limits, self.clock, self.book = self.sizes_for(sizes), self.limits_for(limits), 0, {}
        self.patterns, self.parents = factor(self.sizes.m, [])

    # ---- openings

    @staticmethod
    def sizes_for(s):
        return s._replace(f=s.f or 32 * s.m)

    @staticmethod
    def limits_for(limits):
        return DEFAULT_LIMITS if tuple(limits) == (0, 0, 0) else tuple(limits)

    @classmethod
    def open_number(cls, asked, limits, room):
        """room: the sizes that the tables were made for."""
        s, (a, b, c) = cls.sizes_for(asked), cls.limits_for(limits)
        if not 1 <= s.m <= 4096:
            return 1
        if not 1 <= s.n <= 16384:
            return 2
        if not s.m <= s.f <= 1048576:
            return 3
        if not 1 <= s.c <= 262144:
            return 4
        if not 2 <= a < b < c:
            return 20
        short = s.m > room.m or s.n > room.n or s.f > room.f or s.c > room.c
        return 5 if short or 8 * s.m + 4 * s.f + s.c + s.n > 8 * room.m + 4 * room.f + room.c + room.n else 0

    # ---- changes: number and position

    def add_number(self, ids, counts_, rows, firsts, seconds):
        if not 1 <= len(ids) <= 64 or not len(ids) == len(counts_) == len(firsts) == len(seconds):
            return 7, 0
        used = 0
        for k, (number, count) in enumerate(zip(ids, counts_)):
            held = rows[used:used + count]
            for refused, yes in ((8, not 1 <= number <= self.sizes.n), (9, number in ids[:k]), (10, number in self.book),
                                 (12, not 1 <= count <= 256 or count > len(rows) - used)):
                if yes:
                    return refused, k + 1
            for before, row in zip([0, *held], held):
                if not 1 <= row <= self.sizes.m:
                    return 13, k + 1
                if row <= before:
                    return 14, k + 1
            if (firsts[k], seconds[k]) != (0, 0) and seconds[k] <= firsts[k]:
                return 21, k + 1
            used += count
        if used < len(rows):
            return 12, 0
        after = self.added(ids, counts_, rows, firsts, seconds)
        if sum(len(held) for held, _ in after.values()) > self.sizes.c:
            return 15, 0
        return self.fit_number(after, self.clock)

    def remove_number(self, ids):
        if not 1 <= len(ids) <= 64:
            return 7, 0
        for k, number in enumerate(ids):
            for refused, yes in ((8, not 1 <= number <= self.sizes.n), (9, number in ids[:k]), (11, number not in self.book)):
                if yes:
                    return refused, k + 1
        return 0, 0

    def fit_number(self, book, minute):
        patterns, _ = factor(self.sizes.m, self.live(book, minute).values())
        return (16 if sum(map(len, patterns.values())) > self.sizes.f else 0), 0

    def added(self, ids, counts_, rows, firsts, seconds):
        book, used = dict(self.book), 0
        for number, count, first, second in zip(ids, counts_, firsts, seconds):
            book[number] = (list(rows[used:used + count]), (first, second))
            used += count
        return book

    @staticmethod
    def live(book, minute):
        return {number: rows for number, (rows, window) in book.items() if counts(window, minute)}

    # ---- changes that are accepted: the report

    def become(self, book, minute, batch):
        """The report of a change to these booked columns at this minute; batch has its ids by position, or is None for a clock change."""
        before, after = self.live(self.book, self.clock), self.live(book, minute)
        patterns, parents = factor(self.sizes.m, after.values())
        moved = [(self.parents, number, before[number]) for number in before if number not in after]
        moved += [(parents, number, after[number]) for number in after if number not in before]
        labels = {}
        for tree, number, rows in moved:
            for j in path(tree, rows[0]):
                labels[j] = max(labels.get(j, 0), batch.index(number) + 1 if batch else 0)
        entries = sum(max(len(self.patterns[j]), len(patterns[j])) for j in labels)
        self.book, self.clock, self.patterns, self.parents = book, minute, patterns, parents
        return sorted(labels), [labels[j] for j in sorted(labels)], entries, sum(entries >= first for first in (1, *self.limits))

    # ---- questions

    def next_row(self, i, j):
        return next(((row, times) for row, times in self.patterns[j].items() if row >= i), None)

    def meets(self, i):
        return [j for j in self.patterns if i in self.patterns[j]]

    def common(self, rows):
        paths = [set(path(self.parents, j)) for j in rows]
        return min(set.intersection(*paths), default=None)

    def listing(self):
        return '\n'.join(' '.join([str(j), str(self.parents[j]), *(f'{i}:{k}' for i, k in rows.items())]) for j, rows in self.patterns.items())
