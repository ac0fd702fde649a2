//! Which nodes lie below which, by one release.

use super::agenda::Agenda;
use super::bits::{transposed, Bits, Fresh, Rows};
use super::file::{Kind, Release};

pub struct Order<const W: usize> {
    /// The nodes below a node, itself included.
    pub below: Rows<W>,
    /// The nodes above a node, itself and ⊤ included.
    pub above: Rows<W>,
}

impl<const W: usize> Order<W> {
    pub fn of(release: &Release<W>) -> Order<W> {
        let below = Classification::new(release).run();
        let above = transposed(&below);
        Order { below, above }
    }
}

/// Row y of the agenda is the set of the nodes below y, as far as found.
struct Classification<'a, const W: usize> {
    release: &'a Release<W>,
    agenda: Agenda<W>,
    /// For a name b with ∃r.X: the names defined as ∃s.Y with X below Y and r under s. Each lies above b.
    above_some: Rows<W>,
}

impl<'a, const W: usize> Classification<'a, W> {
    fn new(release: &'a Release<W>) -> Classification<'a, W> {
        let mut agenda = Agenda::new(&dependents(release), release.names + 1);
        for name in 0..release.names {
            agenda.add(name, &Fresh::of(Bits::one(name)));
        }
        for everything in release.everything.members().chain([release.names]) {
            agenda.add(everything, &Fresh::of(release.nodes()));
        }
        Classification { release, agenda, above_some: Rows::empty() }
    }

    fn run(mut self) -> Rows<W> {
        while let Some((y, fresh)) = self.agenda.take() {
            self.to_parts(y, &fresh);
            self.to_conjunctions(y, &fresh);
            self.to_wider_some(y, &fresh);
            self.to_some_over(y, &fresh);
        }
        self.agenda.rows
    }

    /// What lies below y lies below its parts.
    fn to_parts(&mut self, y: usize, fresh: &Fresh<W>) {
        for part in self.release.parts.of(y) {
            self.agenda.add(part, fresh);
        }
    }

    /// What lies below all parts of a conjunction lies below it.
    fn to_conjunctions(&mut self, y: usize, fresh: &Fresh<W>) {
        for conjunction in self.release.conjunctions_with.of(y) {
            let parts = self.release.parts.of(conjunction);
            let common = parts.fold(*fresh, |common, part| common.and(&self.agenda.rows[part]));
            self.agenda.add(conjunction, &common);
        }
    }

    /// What lies below y = ∃r.X lies below every ∃s.Y with X below Y and r under s.
    fn to_wider_some(&mut self, y: usize, fresh: &Fresh<W>) {
        for wider in self.above_some[y].members() {
            self.agenda.add(wider, fresh);
        }
    }

    /// Where X came to lie below y, names with ∃r.X come to lie below those defined as ∃s.y with r under s.
    fn to_some_over(&mut self, y: usize, fresh: &Fresh<W>) {
        let release = self.release;
        if !release.fillers_of_defined.has(y) {
            return;
        }
        let narrower = names_with_filler_in(release, fresh);
        for wider in release.defined_over(y) {
            narrower.and(&release.with_role_under[release.role(wider)]).each(|name| {
                self.above_some[name].insert(wider);
                self.agenda.hand_on(name, wider);
            });
        }
    }
}

pub fn names_with_filler_in<const W: usize>(release: &Release<W>, fillers: &Fresh<W>) -> Fresh<W> {
    release.with_filler.of_all(fillers)
}

/// The rows that may grow when a row does.
fn dependents<const W: usize>(release: &Release<W>) -> Rows<W> {
    let mut dependents = Rows::empty();
    for node in 0..=release.names {
        dependents[node] = release.parts.row(node) | release.conjunctions_with.row(node);
        release.defined_over(node).for_each(|name| dependents[node].insert(name));
        if matches!(release.kind(node), Kind::BelowSome | Kind::Some) {
            dependents[node] |= release.with_role_above[release.role(node)] & release.defined_by_some;
        }
    }
    dependents
}
