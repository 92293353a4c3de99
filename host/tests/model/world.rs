//! Lent tables and lists beside the plain register: each call is made on the library, and everything that it answers and leaves is compared.
use super::booked::chosen;
use super::random::Random;
use super::{add_number, added, clock_number, factor, limits_for, live, next_row, open_number, path, positions, remove_number, report, size, sizes_for, sound};
use super::{Book, Limits, Lists, Live, Number, Paths, Pattern, Sizes};
use nigvalds::lent::{work_places, Changed, Found, Opened, Record, Tables};

/// Places that tables and lists have beyond what the sizes need.
pub const BEYOND: usize = 3;

/// Each cuts one table to a place less than the sizes 5, 8, 9 and 16 need.
pub const CUTS: [fn(&mut Tables); 9] = [
    |t| t.heads.truncate(4),
    |t| t.parents.truncate(4),
    |t| t.rows.truncate(8),
    |t| t.counts.truncate(8),
    |t| t.next.truncate(8),
    |t| t.book_heads.truncate(7),
    |t| t.book_rows.truncate(15),
    |t| t.book_next.truncate(15),
    |t| t.windows.truncate(15),
];

pub struct World {
    pub sizes: Sizes,
    pub limits: Limits,
    pub book: Book,
    pub clock: u32,
    pub record: Record,
    pub tables: Tables,
    pub work: Vec<u32>,
    pub touched: Vec<u16>,
    pub labels: Vec<u16>,
}

/// Limits as the library takes them.
pub fn handed([grade2, grade3, grade4]: Limits) -> nigvalds::Limits {
    nigvalds::Limits { grade2, grade3, grade4 }
}

fn narrow(list: Vec<u32>) -> Vec<u16> {
    list.into_iter().map(|x| x as u16).collect()
}

// A change of the register: booked columns and clock after it, the factors before and after it and of the columns that stay, the paths that it touches.
struct Change {
    book: Book,
    clock: u32,
    before: Vec<Pattern>,
    after: Vec<Pattern>,
    staying: Vec<Pattern>,
    paths: Paths,
}

impl World {
    /// Tables of any contents, long enough for what is asked, opened.
    pub fn open(asked: Sizes, limits: Limits, random: &mut Random) -> World {
        let s = sizes_for(asked);
        let (m, n, f, c) = (s.m as usize + BEYOND, s.n as usize + BEYOND, s.f as usize + BEYOND, s.c as usize + BEYOND);
        let tables = Tables {
            heads: random.contents(m),
            parents: narrow(random.contents(m)),
            rows: narrow(random.contents(f)),
            counts: narrow(random.contents(f)),
            next: random.contents(f),
            book_heads: random.contents(n),
            book_rows: narrow(random.contents(c)),
            book_next: random.contents(c),
            windows: random.contents(2 * s.n as usize + BEYOND),
        };
        let work = random.contents(work_places(s.m, s.n, s.f, s.c) + BEYOND);
        let (touched, labels) = (narrow(random.contents(m)), narrow(random.contents(m)));
        let mut world = World { sizes: s, limits, book: Book::new(), clock: 0, record: Record::default(), tables, work, touched, labels };
        assert_eq!(world.reopen(asked, limits), 0);
        world
    }

    /// Opens anew in the tables there are. Gives the number.
    pub fn reopen(&mut self, s: Sizes, limits: Limits) -> u32 {
        let expected = open_number(s, limits, |s| self.is_long_for(s));
        let (tables, work) = (self.tables.clone(), self.work.clone());
        let opened = self.tables.open(s.m, s.n, s.f, s.c, handed(limits), &mut self.work);
        if expected != 0 {
            assert_eq!(opened, Opened { number: expected, record: Record::default() });
            assert!(self.tables == tables && self.work == work);
            return expected;
        }
        assert_eq!(opened.number, 0);
        (self.sizes, self.limits, self.record) = (sizes_for(s), limits_for(limits), opened.record);
        (self.book, self.clock) = (Book::new(), 0);
        self.is_as(&tables, &work);
        0
    }

    // The tables and the work table have the places that these sizes need.
    fn is_long_for(&self, s: Sizes) -> bool {
        let (m, n, f, c, t) = (s.m as usize, s.n as usize, s.f as usize, s.c as usize, &self.tables);
        let factor = t.heads.len() >= m && t.parents.len() >= m && t.rows.len() >= f && t.counts.len() >= f && t.next.len() >= f;
        let book = t.book_heads.len() >= n && t.book_rows.len() >= c && t.book_next.len() >= c && t.windows.len() >= 2 * n;
        factor && book && self.work.len() >= work_places(s.m, s.n, s.f, s.c)
    }

    fn places(&self) -> usize {
        work_places(self.sizes.m, self.sizes.n, self.sizes.f, self.sizes.c)
    }

    // Sound tables of the register, its sizes, limits and clock; nothing beyond the sizes has changed, and the work table is zero within its places.
    fn is_as(&self, before: &Tables, work: &[u32]) {
        assert!(sound::is_sound(self.record, &self.tables));
        assert_eq!(sound::booked(self.record, &self.tables).as_ref(), Some(&self.book));
        let (s, t, r) = (self.sizes, &self.tables, self.record);
        assert_eq!(([r.m, r.n, r.f, r.c], [r.grade2, r.grade3, r.grade4], r.clock), ([s.m, s.n, s.f, s.c], self.limits, self.clock));
        assert_eq!(t.heads[s.m as usize..], before.heads[s.m as usize..]);
        assert_eq!(t.parents[s.m as usize..], before.parents[s.m as usize..]);
        assert_eq!(t.rows[s.f as usize..], before.rows[s.f as usize..]);
        assert_eq!(t.counts[s.f as usize..], before.counts[s.f as usize..]);
        assert_eq!(t.next[s.f as usize..], before.next[s.f as usize..]);
        assert_eq!(t.book_heads[s.n as usize..], before.book_heads[s.n as usize..]);
        assert_eq!(t.book_rows[s.c as usize..], before.book_rows[s.c as usize..]);
        assert_eq!(t.book_next[s.c as usize..], before.book_next[s.c as usize..]);
        assert_eq!(t.windows[2 * s.n as usize..], before.windows[2 * s.n as usize..]);
        self.is_cleared(work);
    }

    /// The work table, lent with these contents, is zero within its places and as lent beyond.
    pub fn is_cleared(&self, work: &[u32]) {
        let k = self.places();
        assert!(self.work[..k].iter().all(|x| *x == 0));
        assert_eq!(self.work[k..], work[k..]);
    }

    /// The live columns.
    pub fn live(&self) -> Live {
        live(&self.book, self.clock)
    }

    /// The factor of them.
    pub fn factor(&self) -> Vec<Pattern> {
        self.factor_of(&self.live())
    }

    fn factor_of(&self, live: &Live) -> Vec<Pattern> {
        factor(self.sizes.m, live)
    }

    // The smallest rows of the columns of these ids, by position; "A batch column outside its window has no path".
    fn starts(live: &Live, ids: &[u32]) -> Vec<Option<u32>> {
        ids.iter().map(|id| live.get(id).map(|rows| rows[0])).collect()
    }

    /// Adds a batch on the library and on the register. Gives the number.
    pub fn add(&mut self, x: &Lists) -> Number {
        let expected = add_number(self.sizes, &self.book, self.clock, x);
        let change = (expected.0 == 0).then(|| {
            let (book, before) = (added(&self.book, x), self.factor());
            let live = live(&book, self.clock);
            let after = self.factor_of(&live);
            let paths = positions(&after, &Self::starts(&live, &x.ids));
            Change { book, clock: self.clock, staying: before.clone(), before, after, paths }
        });
        self.change(expected, change, &x.ids, |w| {
            w.tables.add(w.record, &mut w.work, &mut w.touched, &mut w.labels, &x.ids, &x.counts, &x.rows, &x.firsts, &x.seconds)
        })
    }

    /// Removes a batch likewise.
    pub fn remove(&mut self, ids: &[u32]) -> Number {
        let expected = remove_number(self.sizes, &self.book, ids);
        let change = (expected.0 == 0).then(|| {
            let (mut book, before) = (self.book.clone(), self.factor());
            book.retain(|id, _| !ids.contains(id));
            let after = self.factor_of(&live(&book, self.clock));
            let paths = positions(&before, &Self::starts(&self.live(), ids));
            Change { book, clock: self.clock, staying: after.clone(), before, after, paths }
        });
        self.change(expected, change, ids, |w| w.tables.remove(w.record, &mut w.work, &mut w.touched, &mut w.labels, ids))
    }

    /// Sets the clock likewise: "takes out columns that fall outside, then lets in those that begin to count", all columns on the old paths of the ones and the new
    /// paths of the others "listed with label 0". The tables of the book and of the windows stay.
    pub fn set_clock(&mut self, minute: u32) -> Number {
        let (expected, was) = (clock_number(self.sizes, &self.book, minute), self.clock);
        let change = (expected.0 == 0).then(|| {
            let (before, after) = (self.factor(), self.factor_of(&live(&self.book, minute)));
            let staying = self.factor_of(&chosen(&self.book, |line| line.counts_at(was) && line.counts_at(minute)));
            let leave = chosen(&self.book, |line| line.counts_at(was) && !line.counts_at(minute));
            let enter = chosen(&self.book, |line| line.counts_at(minute) && !line.counts_at(was));
            let old = leave.values().map(|rows| (path(&before, rows[0]), 0));
            let paths = old.chain(enter.values().map(|rows| (path(&after, rows[0]), 0))).collect();
            Change { book: self.book.clone(), clock: minute, before, after, staying, paths }
        });
        let (tables, free) = (self.tables.clone(), self.record.book_free);
        let number = self.change(expected, change, &[], |w| w.tables.set_clock(w.record, &mut w.work, &mut w.touched, &mut w.labels, minute));
        let t = &self.tables;
        assert!(t.book_heads == tables.book_heads && t.book_rows == tables.book_rows && t.book_next == tables.book_next && t.windows == tables.windows);
        assert_eq!((&t.heads, self.record.book_free), (&tables.heads, free));
        number
    }

    // A change, none where it is refused, and the ids that it books or removes: numbers, report, tables, and what must stay.
    fn change(&mut self, expected: Number, change: Option<Change>, ids: &[u32], call: impl Fn(&mut World) -> Changed) -> Number {
        let (tables, work, record) = (self.tables.clone(), self.work.clone(), self.record);
        let (touched, labels) = (self.touched.clone(), self.labels.clone());
        let answer = call(self);
        assert_eq!((answer.number, answer.position), expected);
        let Some(x) = change else {
            assert_eq!(answer, Changed { number: expected.0, position: expected.1, touched: 0, entries: 0, grade: 0, record });
            assert!(self.tables == tables && self.touched == touched && self.labels == labels);
            self.is_cleared(&work);
            return expected;
        };
        let said = report(self.limits, &x.before, &x.after, &x.paths);
        (self.book, self.clock, self.record) = (x.book, x.clock, answer.record);
        let k = said.touched.len();
        assert_eq!((answer.touched as usize, answer.entries, answer.grade), (k, said.entries, said.grade));
        assert_eq!((&self.touched[..k], &self.labels[..k]), (&said.touched[..], &said.labels[..]));
        assert_eq!((&self.touched[k..], &self.labels[k..]), (&touched[k..], &labels[k..]));
        self.is_as(&tables, &work);
        self.keeps(record, &tables, &said.touched, &x.staying);
        self.keeps_book(record, &tables, ids);
        expected
    }

    // Columns off the report keep head, parent and every record; "An entry standing before, between and after keeps its record".
    fn keeps(&self, record: Record, before: &Tables, touched: &[u16], staying: &[Pattern]) {
        let (old, new) = (sound::records(record, before), sound::records(self.record, &self.tables));
        for j in 1..=self.sizes.m as usize {
            let t = &self.tables;
            if !touched.contains(&(j as u16)) {
                assert_eq!((before.parents[j - 1], &old[j - 1]), (t.parents[j - 1], &new[j - 1]));
                for r in &old[j - 1] {
                    assert_eq!((before.rows[r - 1], before.counts[r - 1], before.next[r - 1]), (t.rows[r - 1], t.counts[r - 1], t.next[r - 1]));
                }
            }
            for r in &old[j - 1] {
                let row = before.rows[r - 1];
                let between = staying[j - 1].entries.iter().any(|e| e.0 == row as u32);
                let stands = new[j - 1].iter().find(|k| t.rows[**k - 1] == row);
                assert!(!between || stands.is_none_or(|k| k == r));
            }
        }
    }

    // Every other id keeps its head, its records in the book and its minutes.
    fn keeps_book(&self, record: Record, before: &Tables, ids: &[u32]) {
        let (n, t) = (self.sizes.n as usize, &self.tables);
        let (old, new) = (sound::book_records(record, before), sound::book_records(self.record, t));
        for k in (0..n).filter(|k| !ids.contains(&(*k as u32 + 1))) {
            assert_eq!((before.book_heads[k], &old[k]), (t.book_heads[k], &new[k]));
            assert!(old[k].iter().all(|r| (before.book_rows[r - 1], before.book_next[r - 1]) == (t.book_rows[r - 1], t.book_next[r - 1])));
            assert_eq!((before.windows[k], before.windows[n + k]), (t.windows[k], t.windows[n + k]));
        }
    }

    /// Parent, path and column of every column, its next row from every row, and the reader; `ask_meeting` has the other questions.
    pub fn ask(&mut self) {
        let patterns = self.factor();
        assert_eq!(self.tables.check(self.record, &mut self.work).number, 0);
        for j in 0..=self.sizes.m + 1 {
            let pattern = (1..=self.sizes.m).contains(&j).then(|| &patterns[j as usize - 1]);
            let reply = self.tables.parent(self.record, &mut self.work, j);
            assert_eq!((reply.number, reply.value), pattern.map_or((17, 0), |p| (0, p.parent)));
            for i in 0..=self.sizes.m + 1 {
                let asked = pattern.filter(|_| (1..=self.sizes.m).contains(&i));
                let (row, multiplicity) = asked.map_or((0, 0), |p| next_row(p, i));
                let expected = Found { number: if asked.is_some() { 0 } else { 17 }, row, multiplicity };
                assert_eq!(self.tables.next_row(self.record, &mut self.work, i, j), expected);
            }
            self.ask_lists(j, pattern, &patterns);
        }
        assert_eq!(sound::stored(self.record, &self.tables).as_ref(), Some(&patterns));
        assert!(size(&patterns) <= self.sizes.f as usize);
    }

    // Column and path of j, into lists that just hold the answer from a place on, and into lists one place short.
    fn ask_lists(&mut self, j: u32, pattern: Option<&Pattern>, patterns: &[Pattern]) {
        let pairs: Vec<u32> = pattern.map_or(Vec::new(), |p| p.entries.iter().flat_map(|e| [e.0, e.1]).collect());
        let way = pattern.map_or(Vec::new(), |_| path(patterns, j));
        for place in [0, 2] {
            for short in [0, 1] {
                let outcome = |value: usize| match (pattern, short) {
                    (None, _) => (17, 0),
                    (_, 1) => (18, 0),
                    _ => (0, value as u32),
                };
                let mut list = vec![7; (place + pairs.len()).saturating_sub(short)];
                let reply = self.tables.column(self.record, &mut self.work, &mut list, j, place);
                assert_eq!((reply.number, reply.value), outcome(pairs.len() / 2));
                written(&list, place, if reply.number == 0 { &pairs } else { &[] });
                let mut list = vec![7; (place + way.len()).saturating_sub(short)];
                let reply = self.tables.path(self.record, &mut self.work, &mut list, j, place);
                assert_eq!((reply.number, reply.value), outcome(way.len()));
                written(&list, place, if reply.number == 0 { &way } else { &[] });
            }
        }
        let mut at = pattern.map_or(0, |_| self.tables.heads[j as usize - 1]);
        for e in pairs.chunks(2).chain([&[0, 0][..]]) {
            let read = self.tables.read(at);
            assert_eq!([read.row, read.multiplicity], e);
            at = read.next;
        }
        assert_eq!(at, 0);
    }
}

// The answer stands from the place on, and the rest of the list is as lent.
fn written(list: &[u32], place: usize, answer: &[u32]) {
    for (k, x) in list.iter().enumerate() {
        let in_answer = k.checked_sub(place).and_then(|i| answer.get(i));
        assert_eq!(x, in_answer.unwrap_or(&7));
    }
}
