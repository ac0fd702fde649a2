//! Sets of nodes as bits, in W words. A release of version 1 has at most 127 names, and ⊤ makes 128 nodes: two words.
//! With more names there are up to 1,024 nodes: sixteen. How many is known when the program is built, so that neither
//! size pays for the other.

use std::ops::{BitAnd, BitOr, BitOrAssign, Index, IndexMut, Sub, SubAssign};

/// The words of a small set and of a large one.
pub const SMALL: usize = 2;
pub const LARGE: usize = 16;

/// Whether small sets have room for so many names and ⊤.
pub fn is_small(names: usize) -> bool {
    names < SMALL * 64
}

#[derive(Clone, Copy, PartialEq, Eq)]
pub struct Bits<const W: usize>([u64; W]);

/// A set for each node, in W blocks of 64. The size is fixed, so that a row is found with one test against a constant.
pub struct Rows<const W: usize>(Box<[[Bits<W>; 64]; W]>);

impl<const W: usize> Rows<W> {
    pub fn empty() -> Rows<W> {
        let blocks = vec![[Bits::EMPTY; 64]; W].into_boxed_slice();
        Rows(blocks.try_into().unwrap_or_else(|_| unreachable!("W blocks were made")))
    }
}

impl<const W: usize> Index<usize> for Rows<W> {
    type Output = Bits<W>;
    #[inline]
    fn index(&self, node: usize) -> &Bits<W> {
        &self.0[node / 64][node % 64]
    }
}

impl<const W: usize> IndexMut<usize> for Rows<W> {
    #[inline]
    fn index_mut(&mut self, node: usize) -> &mut Bits<W> {
        &mut self.0[node / 64][node % 64]
    }
}

impl<const W: usize> Bits<W> {
    pub const EMPTY: Bits<W> = Bits([0; W]);

    /// The nodes below `count`.
    pub fn below(count: usize) -> Bits<W> {
        let mut set = Bits::EMPTY;
        for word in 0..W {
            let here = count.saturating_sub(word * 64);
            set.0[word] = if here >= 64 { u64::MAX } else { (1 << here) - 1 };
        }
        set
    }

    pub fn one(node: usize) -> Bits<W> {
        let mut set = Bits::EMPTY;
        set.insert(node);
        set
    }

    #[inline]
    pub fn has(&self, node: usize) -> bool {
        self.0[node / 64] >> (node % 64) & 1 == 1
    }

    #[inline]
    pub fn insert(&mut self, node: usize) {
        self.0[node / 64] |= 1 << (node % 64);
    }

    #[inline]
    pub fn remove(&mut self, node: usize) {
        self.0[node / 64] &= !(1 << (node % 64));
    }

    #[inline]
    pub fn is_empty(&self) -> bool {
        self.0.iter().all(|&word| word == 0)
    }

    pub fn count(&self) -> u32 {
        self.0.iter().map(|word| word.count_ones()).sum()
    }

    #[inline(always)]
    pub fn within(&self, other: &Bits<W>) -> bool {
        (0..W).fold(0, |beyond, word| beyond | self.0[word] & !other.0[word]) == 0
    }

    /// The least member that is not below `start`.
    #[inline]
    pub fn next(&self, start: usize) -> Option<usize> {
        let mut word = start / 64;
        if word >= W {
            return None;
        }
        let mut rest = self.0[word] & (u64::MAX << (start % 64));
        while rest == 0 {
            word += 1;
            if word == W {
                return None;
            }
            rest = self.0[word];
        }
        Some(word * 64 + rest.trailing_zeros() as usize)
    }

    #[inline]
    pub fn members(self) -> Members<W> {
        Members { rest: self.0, word: 0 }
    }
}

/// The members of a set, rising.
pub struct Members<const W: usize> {
    rest: [u64; W],
    word: usize,
}

impl<const W: usize> Iterator for Members<W> {
    type Item = usize;

    #[inline]
    fn next(&mut self) -> Option<usize> {
        while self.word < W {
            let rest = self.rest[self.word];
            if rest != 0 {
                self.rest[self.word] = rest & (rest - 1);
                return Some(self.word * 64 + rest.trailing_zeros() as usize);
            }
            self.word += 1;
        }
        None
    }

    /// The same as by `next`, with the loop over words outside.
    #[inline]
    fn fold<T, F: FnMut(T, usize) -> T>(self, start: T, mut with: F) -> T {
        let mut folded = start;
        for word in self.word..W {
            let mut rest = self.rest[word];
            while rest != 0 {
                folded = with(folded, word * 64 + rest.trailing_zeros() as usize);
                rest &= rest - 1;
            }
        }
        folded
    }
}

/// What is new in a row. Where sets are large it often has few members, close together: then only the words from
/// `start` to `end` are looked at. The others are 0.
#[derive(Clone, Copy)]
pub struct Fresh<const W: usize> {
    set: Bits<W>,
    start: usize,
    end: usize,
}

/// So many words are looked at one by one; with more, it is quicker to take all of them in one go.
const FEW: usize = 3;

impl<const W: usize> Fresh<W> {
    #[inline(always)]
    pub fn of(set: Bits<W>) -> Fresh<W> {
        if W <= SMALL {
            return Fresh { set, start: 0, end: W };
        }
        // A bit for each word, without a branch: where the members are is as good as random.
        let used = (0..W).fold(0u32, |used, word| used | ((set.0[word] != 0) as u32) << word);
        Fresh { set, start: used.trailing_zeros() as usize, end: (u32::BITS - used.leading_zeros()) as usize }
    }

    /// The empty set; the words that are looked at come with the members.
    #[inline(always)]
    pub fn none() -> Fresh<W> {
        Fresh { set: Bits::EMPTY, start: W, end: 0 }
    }

    /// Whether the words are looked at one by one. Small sets never are, which is known when the program is built.
    #[inline(always)]
    fn few(&self) -> bool {
        W > SMALL && self.end.saturating_sub(self.start) <= FEW
    }

    /// The same words of two sets, taken together.
    #[inline(always)]
    fn with(&self, other: &Bits<W>, operation: impl Fn(u64, u64) -> u64) -> Fresh<W> {
        if !self.few() {
            return Fresh { set: each_word(self.set, *other, operation), ..*self };
        }
        let mut set = Bits::EMPTY;
        for word in self.start..self.end {
            set.0[word] = operation(self.set.0[word], other.0[word]);
        }
        Fresh { set, ..*self }
    }

    #[inline(always)]
    pub fn and(&self, other: &Bits<W>) -> Fresh<W> {
        self.with(other, |a, b| a & b)
    }

    #[inline(always)]
    pub fn minus(&self, other: &Bits<W>) -> Fresh<W> {
        self.with(other, |a, b| a & !b)
    }

    /// Whether the other set has all members. It is mostly asked where that is so, and then saves making a set.
    #[inline(always)]
    pub fn within(&self, other: &Bits<W>) -> bool {
        if self.few() {
            (self.start..self.end).all(|word| self.set.0[word] & !other.0[word] == 0)
        } else {
            self.set.within(other)
        }
    }

    #[inline(always)]
    pub fn add_to(&self, set: &mut Bits<W>) {
        if self.few() {
            for word in self.start..self.end {
                set.0[word] |= self.set.0[word];
            }
        } else {
            *set |= self.set;
        }
    }

    #[inline(always)]
    pub fn insert(&mut self, node: usize) {
        self.set.insert(node);
        if W > SMALL {
            self.start = self.start.min(node / 64);
            self.end = self.end.max(node / 64 + 1);
        }
    }

    #[inline(always)]
    pub fn minus_from(&self, set: &mut Bits<W>) {
        if self.few() {
            for word in self.start..self.end {
                set.0[word] &= !self.set.0[word];
            }
        } else {
            *set -= self.set;
        }
    }

    pub fn without(&self, node: usize) -> Fresh<W> {
        let mut set = self.set;
        set.remove(node);
        Fresh { set, ..*self }
    }

    #[inline(always)]
    pub fn has(&self, node: usize) -> bool {
        self.set.has(node)
    }

    #[inline(always)]
    pub fn is_empty(&self) -> bool {
        if self.few() {
            (self.start..self.end).all(|word| self.set.0[word] == 0)
        } else {
            self.set.is_empty()
        }
    }

    #[inline(always)]
    pub fn count(&self) -> u32 {
        if self.few() {
            (self.start..self.end).map(|word| self.set.0[word].count_ones()).sum()
        } else {
            self.set.count()
        }
    }

    /// Calls for each member. The words are read where they are: a copy of a set of which one word was just written
    /// would have to wait for it.
    #[inline(always)]
    pub fn each(&self, mut with: impl FnMut(usize)) {
        let words = if W > SMALL { self.start..self.end } else { 0..W };
        for word in words {
            let mut rest = self.set.0[word];
            while rest != 0 {
                with(word * 64 + rest.trailing_zeros() as usize);
                rest &= rest - 1;
            }
        }
    }
}

#[inline]
fn each_word<const W: usize>(a: Bits<W>, b: Bits<W>, operation: impl Fn(u64, u64) -> u64) -> Bits<W> {
    Bits(std::array::from_fn(|word| operation(a.0[word], b.0[word])))
}

impl<const W: usize> BitOr for Bits<W> {
    type Output = Bits<W>;
    #[inline]
    fn bitor(self, other: Bits<W>) -> Bits<W> {
        each_word(self, other, |a, b| a | b)
    }
}

impl<const W: usize> BitAnd for Bits<W> {
    type Output = Bits<W>;
    #[inline]
    fn bitand(self, other: Bits<W>) -> Bits<W> {
        each_word(self, other, |a, b| a & b)
    }
}

/// The members of the first set that the second has not.
impl<const W: usize> Sub for Bits<W> {
    type Output = Bits<W>;
    #[inline]
    fn sub(self, other: Bits<W>) -> Bits<W> {
        each_word(self, other, |a, b| a & !b)
    }
}

impl<const W: usize> BitOrAssign for Bits<W> {
    #[inline]
    fn bitor_assign(&mut self, other: Bits<W>) {
        *self = *self | other;
    }
}

impl<const W: usize> SubAssign for Bits<W> {
    #[inline]
    fn sub_assign(&mut self, other: Bits<W>) {
        *self = *self - other;
    }
}

/// Names for each node, few on the whole: as sets where these are small, and else as lists, since most of the words
/// of a large set would be 0. Which it is, is known when the program is built.
pub struct Relation<const W: usize> {
    rows: Vec<Bits<W>>,
    /// Where the list of a node goes on, as the place after that of an entry; 0 at its end.
    first: Vec<u16>,
    entries: Vec<(u16, u16)>,
}

impl<const W: usize> Relation<W> {
    pub fn empty(nodes: usize) -> Relation<W> {
        if W > SMALL {
            Relation { rows: Vec::new(), first: vec![0; nodes], entries: Vec::with_capacity(nodes) }
        } else {
            Relation { rows: vec![Bits::EMPTY; nodes], first: Vec::new(), entries: Vec::new() }
        }
    }

    /// There are at most 1,023 axioms with 16 parts each, so the place of an entry fits into 16 bits.
    #[inline]
    pub fn add(&mut self, node: usize, name: usize) {
        if W > SMALL {
            self.entries.push((name as u16, self.first[node]));
            self.first[node] = self.entries.len() as u16;
        } else {
            self.rows[node].insert(name);
        }
    }

    /// The names of a node, in any order.
    #[inline(always)]
    pub fn of(&self, node: usize) -> Related<'_, W> {
        if W > SMALL {
            Related { rest: Bits::EMPTY.members(), place: self.first[node], entries: &self.entries }
        } else {
            Related { rest: self.rows[node].members(), place: 0, entries: &[] }
        }
    }

    /// The names of a node as a set.
    #[inline(always)]
    pub fn row(&self, node: usize) -> Bits<W> {
        if W > SMALL {
            let mut row = Bits::EMPTY;
            self.of(node).for_each(|name| row.insert(name));
            row
        } else {
            self.rows[node]
        }
    }

    /// The names of all these nodes.
    #[inline(always)]
    pub fn of_all(&self, nodes: &Fresh<W>) -> Fresh<W> {
        if W > SMALL {
            let mut names = Fresh::none();
            nodes.each(|node| self.of(node).for_each(|name| names.insert(name)));
            names
        } else {
            let mut names = Bits::EMPTY;
            nodes.each(|node| names |= self.rows[node]);
            Fresh::of(names)
        }
    }
}

/// The names of a node: the members of a set, or what is left of a list.
pub struct Related<'a, const W: usize> {
    rest: Members<W>,
    place: u16,
    entries: &'a [(u16, u16)],
}

impl<const W: usize> Iterator for Related<'_, W> {
    type Item = usize;

    #[inline(always)]
    fn next(&mut self) -> Option<usize> {
        if W > SMALL {
            let (name, next) = *self.entries.get((self.place as usize).wrapping_sub(1))?;
            self.place = next;
            Some(name as usize)
        } else {
            self.rest.next()
        }
    }

    /// The same as by `next`.
    #[inline(always)]
    fn fold<T, F: FnMut(T, usize) -> T>(self, start: T, mut with: F) -> T {
        if W <= SMALL {
            return self.rest.fold(start, with);
        }
        let mut folded = start;
        for name in self {
            folded = with(folded, name);
        }
        folded
    }
}

/// The same relation read the other way: y is in row x exactly when x was in row y.
pub fn transposed<const W: usize>(rows: &Rows<W>) -> Rows<W> {
    let mut turned = Rows::empty();
    for (down, from) in rows.0.iter().enumerate() {
        for (across, to) in turned.0.iter_mut().enumerate() {
            let mut block = from.map(|row| row.0[across]);
            transpose_block(&mut block);
            for (row, line) in to.iter_mut().zip(block) {
                row.0[down] = line;
            }
        }
    }
    turned
}

/// Transposes 64 by 64 bits by exchanging ever smaller blocks off the diagonal.
fn transpose_block(block: &mut [u64; 64]) {
    let mut width = 32;
    let mut low = u64::MAX >> 32;
    while width > 0 {
        let mut i = 0;
        while i < 64 {
            let exchanged = (block[i] >> width ^ block[i + width]) & low;
            block[i] ^= exchanged << width;
            block[i + width] ^= exchanged;
            // The next line whose bit `width` is clear.
            i = (i + width + 1) & !width;
        }
        width /= 2;
        low ^= low << width;
    }
}

#[cfg(test)]
mod tests {
    use super::*;

    fn transposing_exchanges_rows_and_columns<const W: usize>(nodes: usize) {
        let mut rows = Rows::<W>::empty();
        for x in 0..nodes {
            for y in 0..nodes {
                if (x * x + 3 * y) % 7 < 2 {
                    rows[x].insert(y);
                }
            }
        }
        let turned = transposed(&rows);
        for x in 0..nodes {
            for y in 0..nodes {
                assert_eq!(rows[x].has(y), turned[y].has(x));
            }
        }
    }

    #[test]
    fn transposing_small_and_large() {
        for nodes in [1, 63, 64, 65, 128] {
            transposing_exchanges_rows_and_columns::<SMALL>(nodes);
        }
        for nodes in [129, 256, 700, 1024] {
            transposing_exchanges_rows_and_columns::<LARGE>(nodes);
        }
    }

    #[test]
    fn members_rise_and_next_finds_them() {
        let mut set = Bits::<SMALL>::below(3);
        set.insert(63);
        set.insert(64);
        set.insert(127);
        assert_eq!(set.members().collect::<Vec<_>>(), [0, 1, 2, 63, 64, 127]);
        assert_eq!(set.next(3), Some(63));
        assert_eq!(set.next(65), Some(127));
        assert_eq!(set.next(128), None);
        assert_eq!(Bits::<SMALL>::below(128).count(), 128);
        assert_eq!(Bits::<SMALL>::below(64).count(), 64);
    }

    #[test]
    fn the_same_with_sixteen_words() {
        let mut set = Bits::<LARGE>::below(2);
        set.insert(255);
        set.insert(256);
        set.insert(1023);
        assert_eq!(set.members().collect::<Vec<_>>(), [0, 1, 255, 256, 1023]);
        assert_eq!(set.next(2), Some(255));
        assert_eq!(set.next(257), Some(1023));
        assert_eq!(set.next(1024), None);
        assert_eq!(Bits::<LARGE>::below(1024).count(), 1024);
        assert_eq!(Bits::<LARGE>::below(700).count(), 700);
        assert!(is_small(127) && !is_small(128));
    }
}
