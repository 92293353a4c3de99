"""Random calls, accepted and refused, beside a brute-force model of the definition (model.py): everything is compared after each."""
import random
import unittest

from model import Model, Sizes, chained
from nigvalds import Factor, Refusal
from test_nigvalds import LAST, contents


class Random(random.Random):
    """Sizes, limits, windows and batches, mostly acceptable, with a slip now and then."""

    def once_in(self, k):
        return self.randrange(k) == 0

    def sizes(self):
        m = self.randint(1, 12)
        s = Sizes(m, self.randint(1, 12), self.choice([0, m + self.randint(0, 4 * m)]), self.randint(1, 40))
        return s._replace(**{self.choice('mnfc'): self.choice([0, 4097, 16385, 262145, 1048577, LAST])}) if self.once_in(8) else s

    def limits(self):
        limits = [0] * 3 if self.once_in(3) else sorted(self.sample(range(2, self.choice([8, 40])), 3))
        if self.once_in(8):
            limits[self.randrange(3)] = self.choice([0, 1, LAST])
        return limits

    def minute(self):
        return self.choice([LAST, LAST - 1, 2**31]) if self.once_in(12) else self.randint(0, 12)

    def window(self):
        if self.once_in(3):
            return 0, 0
        first = self.randint(0, 11)
        return (first, self.randint(0, first)) if self.once_in(12) else (first, self.choice([LAST, self.randint(first + 1, 12)]))

    def row(self, model):
        return self.choice([0, model.sizes.m + 1, LAST]) if self.once_in(10) else self.randint(1, model.sizes.m)

    def ids(self, model, booked):
        fitting = [k for k in range(1, model.sizes.n + 1) if (k in model.book) == booked]
        ids = self.sample(fitting, min(len(fitting), self.randint(1, 4)))
        if self.once_in(8):
            ids.insert(self.randint(0, len(ids)), self.choice([0, model.sizes.n + 1, LAST, *range(1, model.sizes.n + 1)]))
        return list(range(1, 66)) if self.once_in(200) else ids

    def lists(self, model):
        ids, m = self.ids(model, False), model.sizes.m
        columns = [sorted(self.sample(range(1, m + 1), self.randint(1, min(m, 4)))) for _ in ids]
        counts, rows = [len(rows) for rows in columns], [i for rows in columns for i in rows]
        firsts, seconds = map(list, zip(*(self.window() for _ in ids))) if ids else ([], [])
        if ids and self.once_in(6):
            slip = self.choice([counts, rows, firsts, seconds])
            slip[self.randrange(len(slip))] = self.choice([0, 1, m, m + 1, 257, LAST])
        if self.once_in(15):
            slip = self.choice([ids, counts, rows, firsts, seconds])
            slip.append(1) if self.once_in(2) or not slip else slip.pop()
        return ids, counts, rows, firsts, seconds


class World:
    """A factor and the model, side by side."""

    def __init__(self, case, draw):
        self.case, self.draw, self.numbers = case, draw, dict.fromkeys(range(22), 0)
        self.factor, self.model, self.room = Factor(12, 12, 60, 40), Model(Sizes(12, 12, 60, 40), (0, 0, 0)), Sizes(12, 12, 60, 40)

    def call(self, expected, call, *arguments):
        """The answer, after a look at the refusal, under which nothing has changed."""
        before = contents(self.factor)
        try:
            answer, found = call(*arguments), (0, 0)
        except Refusal as refusal:
            answer, found = None, (refusal.number, refusal.position)
            self.case.assertEqual(contents(self.factor), before)
        self.case.assertEqual(found, expected, (call.__name__, arguments))
        self.numbers[found[0]] += 1
        return answer

    def open(self):
        sizes, limits = self.draw.sizes(), self.draw.limits()
        expected = self.model.open_number(sizes, limits, self.room)
        self.call((expected, 0), self.factor.reopen, *sizes, limits)
        if not expected:
            self.model = Model(sizes, limits)

    def change(self, expected, book, minute, batch, call, *arguments):
        answer = self.call(expected, call, *arguments)
        if answer:
            self.case.assertEqual(answer, self.model.become(book, minute, batch))

    def add(self):
        lists = self.draw.lists(self.model)
        expected, after = self.model.add_number(*lists), self.model.added(*lists)
        if self.draw.once_in(2) and expected[0] not in (7, 12):  # the same as columns with windows
            ends = [sum(lists[1][:k + 1]) for k in range(len(lists[0]))]
            columns = [(number, lists[2][end - count:end], window) for number, count, end, window in zip(lists[0], lists[1], ends, zip(*lists[3:]))]
            return self.change(expected, after, self.model.clock, lists[0], self.factor.add, columns)
        self.change(expected, after, self.model.clock, lists[0], self.factor.add_lists, *lists)

    def remove(self):
        ids = self.draw.ids(self.model, True)
        book = {k: column for k, column in self.model.book.items() if k not in ids}
        self.change(self.model.remove_number(ids), book, self.model.clock, ids, self.factor.remove, ids)

    def set_clock(self):
        minute = self.draw.minute()
        self.change(self.model.fit_number(self.model.book, minute), self.model.book, minute, None, self.factor.set_clock, minute)

    def ask(self):
        i, j, m = self.draw.row(self.model), self.draw.row(self.model), self.model.sizes.m
        rows = [self.draw.row(self.model) for _ in range(self.draw.choice([0, 1, 2, 3, 65]))]
        outside = lambda *asked: (0 if all(1 <= x <= m for x in asked) else 17, 0)
        model, way = self.model, lambda j: [j, *way(self.model.parents[j])] if j else []
        for expected, answer, call, *arguments in [
            (outside(i, j), lambda: model.next_row(i, j), self.factor.next_row, i, j),
            (outside(j), lambda: model.parents[j] or None, self.factor.parent, j),
            (outside(j), lambda: way(j), self.factor.path, j),
            (outside(j), lambda: list(model.patterns[j].items()), self.factor.column, j),
            (outside(i), lambda: model.meets(i), self.factor.meets, i),
            (outside(*rows) if 1 <= len(rows) <= 64 else (7, 0), lambda: model.common(rows), self.factor.common, rows),
        ]:
            found = self.call(expected, call, *arguments)
            if expected == (0, 0):
                self.case.assertEqual(found, answer(), (call.__name__, arguments))

    def compare(self):
        self.case.assertEqual(str(self.factor), self.model.listing())
        booked = [(k, rows, window if window != (0, 0) else None) for k, (rows, window) in sorted(self.model.book.items())]
        self.case.assertEqual((list(self.factor.booked()), self.factor.clock, self.factor.limits), (booked, self.model.clock, self.model.limits))


class RandomCalls(unittest.TestCase):
    CALLS = 10000

    def test_beside_the_model(self):
        draw = Random(7)
        world, kinds = World(self, draw), [World.open] + [World.add] * 9 + [World.remove] * 4 + [World.set_clock] * 5 + [World.ask]
        while sum(world.numbers.values()) < self.CALLS:
            draw.choice(kinds)(world)
            world.compare()
            if draw.once_in(40):
                live = list(world.model.live(world.model.book, world.model.clock).values())
                self.assertEqual({j: set(rows) for j, rows in world.model.patterns.items()}, chained(world.model.sizes.m, live))
                world.factor.check()
        for number in set(range(22)) - {6, 18, 19}:
            self.assertGreater(world.numbers[number], 5, f'number {number}')


if __name__ == '__main__':
    unittest.main()
