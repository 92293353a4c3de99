//! Random numbers that are the same in every run, and random batches.
use super::{Book, Limits, Lists, Sizes};

/// The last minute of a short day.
pub const LAST: u32 = 12;

/// A generator (xorshift).
pub struct Random(u64);

impl Random {
    pub fn new(seed: u64) -> Random {
        Random(seed.wrapping_mul(0x9e37_79b9_7f4a_7c15) | 1)
    }

    pub fn next(&mut self) -> u64 {
        self.0 ^= self.0 << 13;
        self.0 ^= self.0 >> 7;
        self.0 ^= self.0 << 17;
        self.0.wrapping_mul(0x2545_f491_4f6c_dd1d) >> 16
    }

    /// From low to high, both included.
    pub fn within(&mut self, low: u32, high: u32) -> u32 {
        low + (self.next() % ((high - low) as u64 + 1)) as u32
    }

    /// True once in so many calls.
    pub fn once_in(&mut self, k: u32) -> bool {
        self.within(1, k) == 1
    }

    /// One of a list.
    pub fn one<T: Copy>(&mut self, list: &[T]) -> T {
        list[self.within(0, list.len() as u32 - 1) as usize]
    }

    /// So many different numbers of 1 to most, rising.
    pub fn rising(&mut self, count: u32, most: u32) -> Vec<u32> {
        let mut rows = std::collections::BTreeSet::new();
        while rows.len() < count as usize {
            rows.insert(self.within(1, most));
        }
        rows.into_iter().collect()
    }

    /// Any contents.
    pub fn contents(&mut self, length: usize) -> Vec<u32> {
        (0..length).map(|_| self.next() as u32).collect()
    }

    /// Small sizes with room for some patterns and not for all.
    pub fn sizes(&mut self) -> Sizes {
        let m = self.within(1, 14);
        Sizes { m, n: self.within(1, 12), f: m + self.within(0, m * 4), c: self.within(1, 40) }
    }

    /// Sizes with a slip now and then, and F = 0 at times.
    pub fn any_sizes(&mut self) -> Sizes {
        let mut s = self.sizes();
        if self.once_in(4) {
            s.f = 0;
        }
        if self.once_in(3) {
            let odd = self.one(&[0, 4097, 16385, 262145, 1048577, u32::MAX]);
            match self.within(1, 4) {
                1 => s.m = odd,
                2 => s.n = odd,
                3 => s.f = odd,
                _ => s.c = odd,
            }
        }
        s
    }

    /// Limits that an opening accepts: none, small ones that small factors reach, or any.
    pub fn limits(&mut self) -> Limits {
        let most = match self.within(1, 4) {
            1 => return [0; 3],
            2 => 10,
            3 => 60,
            _ => u32::MAX - 1,
        };
        let firsts = self.rising(3, most);
        [firsts[0] + 1, firsts[1] + 1, firsts[2] + 1]
    }

    /// Limits with a slip now and then, most of which an opening refuses.
    pub fn any_limits(&mut self) -> Limits {
        let mut limits = self.limits();
        if self.once_in(3) {
            let (k, other) = (self.within(0, 2) as usize, self.within(0, 2) as usize);
            limits[k] = self.one(&[0, 1, 2, limits[other], u32::MAX]);
        }
        limits
    }

    /// Two minutes: none, a window of a short day, or one at the end of all minutes.
    pub fn window(&mut self) -> (u32, u32) {
        match self.within(1, 8) {
            1..=3 => (0, 0),
            4 => self.one(&[(0, u32::MAX), (u32::MAX - 1, u32::MAX), (LAST, u32::MAX), (0, 1)]),
            _ => {
                let first = self.within(0, LAST - 1);
                (first, self.within(first + 1, LAST))
            }
        }
    }

    /// A minute to set the clock to.
    pub fn minute(&mut self) -> u32 {
        match self.within(1, 12) {
            1 => self.one(&[u32::MAX, u32::MAX - 1, 1 << 31]),
            _ => self.within(0, LAST),
        }
    }

    /// The lists of an addition, mostly acceptable, with a slip now and then.
    pub fn addition(&mut self, s: Sizes, book: &Book) -> Lists {
        let mut free: Vec<u32> = (1..=s.n).filter(|i| !book.contains_key(i)).collect();
        let mut x = Lists::default();
        for _ in 0..self.within(1, 4) {
            if free.is_empty() {
                break;
            }
            let (k, count) = (self.within(0, free.len() as u32 - 1) as usize, self.within(1, s.m.min(4)));
            let (rows, (first, second)) = (self.rising(count, s.m), self.window());
            x.push(free.swap_remove(k), &rows, first, second);
        }
        if self.once_in(4) {
            self.slip(s, &mut x);
        }
        x
    }

    // Spoils one of the lists at one place, or their lengths.
    fn slip(&mut self, s: Sizes, x: &mut Lists) {
        let odd = [0, 1, s.m, s.m + 1, s.n, s.n + 1, 257, u32::MAX, 65537];
        let value = self.one(&odd);
        let list = match self.within(1, 5) {
            1 => &mut x.ids,
            2 => &mut x.counts,
            3 => &mut x.rows,
            4 => &mut x.firsts,
            _ => &mut x.seconds,
        };
        match self.within(1, 5) {
            1 => list.push(value),
            2 => {
                list.pop();
            }
            3 if self.once_in(4) => *list = vec![value; 65],
            _ if list.is_empty() => {}
            _ => {
                let k = self.within(0, list.len() as u32 - 1) as usize;
                list[k] = value;
            }
        }
    }

    /// Rows that a question names, some of them again, with a slip now and then: a row out of range, no row, more than 64.
    pub fn named(&mut self, m: u32) -> Vec<u32> {
        let most = self.one(&[1, 2, 3, 8, 64]);
        let count = if self.once_in(12) { self.one(&[0, 65, 66, 200]) } else { self.within(1, most) };
        let mut rows: Vec<u32> = (0..count).map(|_| self.within(1, m)).collect();
        if self.once_in(8) && !rows.is_empty() {
            let k = self.within(0, count - 1) as usize;
            rows[k] = self.one(&[0, m + 1, 65536 + rows[k], u32::MAX]);
        }
        rows
    }

    /// Ids of a removal.
    pub fn removal(&mut self, s: Sizes, book: &Book) -> Vec<u32> {
        let mut left: Vec<u32> = book.keys().copied().collect();
        let mut ids = Vec::new();
        for _ in 0..self.within(1, 3) {
            if left.is_empty() {
                break;
            }
            let k = self.within(0, left.len() as u32 - 1) as usize;
            ids.push(left.swap_remove(k));
        }
        if self.once_in(6) {
            ids.push(self.within(0, s.n + 1));
        }
        ids
    }
}
