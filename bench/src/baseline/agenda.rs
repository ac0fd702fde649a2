//! Rows that only grow, and the work list of what is new in them.
//!
//! What a row gained since it was last looked at is kept apart, so each look handles the new members only, and many at
//! a time. Rows are looked at in an order in which a row tends to come after those it depends on: without it, a long
//! chain that is numbered the wrong way round would move on by one link at each turn.

use super::bits::{Bits, Fresh, Rows};

pub struct Agenda<const W: usize> {
    pub rows: Rows<W>,
    fresh: Rows<W>,
    /// The places, in the order of looking, of the rows with something fresh.
    waiting: Bits<W>,
    /// The rows that some other row depends on; nothing is done about the others.
    watched: Bits<W>,
    /// The row at each place, and the place of each row.
    order: Vec<(u16, u16)>,
    place: usize,
}

impl<const W: usize> Agenda<W> {
    /// Empty rows. `dependents[x]` are the rows that may grow when row x does.
    pub fn new(dependents: &Rows<W>, nodes: usize) -> Agenda<W> {
        let mut agenda = Agenda {
            rows: Rows::empty(),
            fresh: Rows::empty(),
            waiting: Bits::EMPTY,
            watched: Bits::EMPTY,
            order: vec![(0, 0); nodes],
            place: 0,
        };
        for node in 0..nodes {
            if !dependents[node].is_empty() {
                agenda.watched.insert(node);
            }
        }
        agenda.put_in_order(dependents, nodes);
        agenda
    }

    /// Depth first, last finished first: a row comes before its dependents, circles aside. Finished rows fill the places
    /// from the last one on, and the path takes those from the first one on: a row has left the path when it is finished,
    /// so there is room for both.
    fn put_in_order(&mut self, dependents: &Rows<W>, nodes: usize) {
        let mut unseen = Bits::<W>::below(nodes);
        let mut place = nodes;
        while let Some(start) = unseen.next(0) {
            unseen.remove(start);
            self.order[0].0 = start as u16;
            let mut depth = 1;
            while depth > 0 {
                let node = self.order[depth - 1].0 as usize;
                if let Some(next) = (dependents[node] & unseen).next(0) {
                    unseen.remove(next);
                    self.order[depth].0 = next as u16;
                    depth += 1;
                } else {
                    depth -= 1;
                    place -= 1;
                    self.order[place].0 = node as u16;
                    self.order[node].1 = place as u16;
                }
            }
        }
    }

    #[inline(always)]
    pub fn add(&mut self, row: usize, members: &Fresh<W>) {
        if members.within(&self.rows[row]) {
            return;
        }
        self.add_new(row, &members.minus(&self.rows[row]));
    }

    /// Adds what the row does not have yet.
    #[inline(always)]
    pub fn add_new(&mut self, row: usize, fresh: &Fresh<W>) {
        fresh.add_to(&mut self.rows[row]);
        if self.watched.has(row) {
            fresh.add_to(&mut self.fresh[row]);
            self.waiting.insert(self.order[row].1 as usize);
        }
    }

    /// Adds all of row `from` to row `to`.
    #[inline(always)]
    pub fn hand_on(&mut self, from: usize, to: usize) {
        if !self.rows[from].within(&self.rows[to]) {
            self.add_new(to, &Fresh::of(self.rows[from] - self.rows[to]));
        }
    }

    /// The next row with something fresh, and what it is: onwards from the last one, and round the end.
    #[inline(always)]
    pub fn take(&mut self) -> Option<(usize, Fresh<W>)> {
        let place = self.waiting.next(self.place).or_else(|| self.waiting.next(0))?;
        self.waiting.remove(place);
        self.place = place;
        let row = self.order[place].0 as usize;
        let fresh = Fresh::of(self.fresh[row]);
        self.fresh[row] = Bits::EMPTY;
        Some((row, fresh))
    }
}
