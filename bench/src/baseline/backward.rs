//! Right witnesses. Row x is the set of the y such that some signature concept lies below x by the first release and
//! not below y by the second. y is a name of the second release or *nothing*, below which no concept lies; nothing has
//! the number n, so the row has it exactly when any signature concept at all lies below x.

use super::agenda::Agenda;
use super::bits::{Bits, Fresh, Rows};
use super::classify::names_with_filler_in;
use super::file::{Kind, Release, MOST_ROLES};
use super::inclusions::members;
use super::{Chosen, Side};

/// A name that the first release defines as ∃q.X has below it ∃r.C for each role r under q and C below X. Of these roles r, where
/// they are in the signature: the names that the second release defines by ∃ of a role above r, for some r and for every r.
#[derive(Clone, Copy)]
struct Restrictions<const W: usize> {
    some: Bits<W>,
    every: Bits<W>,
    are_there: bool,
}

impl<const W: usize> Restrictions<W> {
    fn of(role: usize, first: &Release<W>, second: &Release<W>, chosen: &Chosen<W>) -> Restrictions<W> {
        let roles = first.inclusions.under(role) & chosen.roles;
        let start = Restrictions { some: Bits::EMPTY, every: second.defined_by_some, are_there: roles != 0 };
        members(roles).fold(start, |all, role| {
            let names = second.with_role_above[role] & second.defined_by_some;
            Restrictions { some: all.some | names, every: all.every & names, ..all }
        })
    }
}

pub struct Backward<'a, const W: usize> {
    first: &'a Release<W>,
    second: &'a Release<W>,
    chosen: &'a Chosen<W>,
    nothing: usize,
    /// Nothing, and the names that the second release does not define as a conjunction.
    plain: Bits<W>,
    /// For each role of the first release what ∃ by it comes to.
    restrictions: [Restrictions<W>; MOST_ROLES],
    agenda: Agenda<W>,
}

impl<'a, const W: usize> Backward<'a, W> {
    pub fn rows(first: &'a Side<W>, second: &'a Side<W>, chosen: &'a Chosen<W>) -> Rows<W> {
        let names = first.release.names;
        let mut backward = Backward {
            first: &first.release,
            second: &second.release,
            chosen,
            nothing: names,
            plain: Bits::below(names + 1) - second.release.conjunctions,
            restrictions: std::array::from_fn(|role| Restrictions::of(role, &first.release, &second.release, chosen)),
            agenda: Agenda::new(&dependents(&first.release, chosen), names + 1),
        };
        backward.start(first, second);
        while let Some((x, fresh)) = backward.agenda.take() {
            backward.to_conjunctions(x, &fresh);
            backward.to_some_over(x, &fresh);
        }
        backward.agenda.rows
    }

    /// Adds plain columns, and with each the conjunctions of the second release that it is a part of: what is not
    /// below a part is not below the conjunction.
    fn add(&mut self, x: usize, plain: &Fresh<W>) {
        if plain.within(&self.agenda.rows[x]) {
            return;
        }
        let fresh = plain.minus(&self.agenda.rows[x]);
        self.agenda.add_new(x, &fresh);
        let conjunctions = self.second.conjunctions_with.of_all(&fresh);
        if !conjunctions.is_empty() {
            self.agenda.add(x, &conjunctions);
        }
    }

    /// ⊤ has every concept below it, as has a name that means everything; another has the signature names below it.
    fn start(&mut self, first: &Side<W>, second: &Side<W>) {
        for everything in self.first.everything.members().chain([self.first.names]) {
            self.add(everything, &Fresh::of(self.plain));
        }
        for x in 0..self.first.names {
            let below = first.order.below[x] & self.chosen.names;
            if self.first.kind(x) != Kind::Conjunction && !below.is_empty() {
                let above_all = below.members().fold(self.plain_names(), |all, name| all & second.order.above[name]);
                self.add(x, &Fresh::of(self.plain - above_all));
            }
        }
    }

    fn plain_names(&self) -> Bits<W> {
        self.plain - Bits::one(self.nothing)
    }

    /// A concept below each part, none of them below a plain y, makes a conjunction that is not below y.
    fn to_conjunctions(&mut self, x: usize, fresh: &Fresh<W>) {
        let first = self.first;
        for conjunction in first.conjunctions_with.of(x) {
            let parts = first.parts.of(conjunction);
            let common = parts.fold(fresh.and(&self.plain), |common, part| common.and(&self.agenda.rows[part]));
            self.add(conjunction, &common);
        }
    }

    /// From C below x to ∃r.C below a name defined as ∃q.x, r under q. It is not below y where y is not defined by ∃ of a role
    /// above r, nor where y is ∃s.Y with C not below Y.
    fn to_some_over(&mut self, x: usize, fresh: &Fresh<W>) {
        let (first, second) = (self.first, self.second);
        if !first.fillers_of_defined.has(x) {
            return;
        }
        let narrower = if fresh.has(self.nothing) {
            names_with_filler_in(second, &fresh.without(self.nothing))
        } else {
            names_with_filler_in(second, fresh)
        };
        for name in first.defined_over(x) {
            let Restrictions { some, every, are_there } = self.restrictions[first.role(name)];
            if !are_there {
                continue;
            }
            self.add(name, &narrower.and(&some));
            if fresh.has(self.nothing) {
                self.add(name, &Fresh::of(self.plain - every));
            }
        }
    }
}

/// The rows that may grow when a row does.
fn dependents<const W: usize>(first: &Release<W>, chosen: &Chosen<W>) -> Rows<W> {
    let mut dependents = Rows::empty();
    for node in 0..=first.names {
        dependents[node] = first.conjunctions_with.row(node);
        for name in first.defined_over(node) {
            if first.inclusions.under(first.role(name)) & chosen.roles != 0 {
                dependents[node].insert(name);
            }
        }
    }
    dependents
}
