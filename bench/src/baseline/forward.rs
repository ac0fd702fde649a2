//! Left witnesses. Row x is the set of the nodes y such that some signature concept lies above x by the first release
//! and not above y by the second. Such a concept is a name, or ∃r.D for an edge x -r-> X of the first release that no
//! edge y -r-> Y of the second can match, Y being in row X each time. An edge by a role is one by every role above it; of
//! those in the signature the lowest by the second release are enough, since what matches them matches the others.

use super::agenda::Agenda;
use super::bits::{Bits, Fresh, Rows};
use super::classify::names_with_filler_in;
use super::inclusions::{members, Inclusions};
use super::{Chosen, Side};

/// The edges of the first release to one node by one role of the signature.
#[derive(Clone, Copy)]
struct Edges<const W: usize> {
    /// Where they start.
    starts: Bits<W>,
    /// The names of the second release with an ∃ of that role that may still match.
    matching: Bits<W>,
    /// How many they are.
    left: u32,
    /// The nodes of the second release that no name in `matching` is above.
    unmatched: Bits<W>,
}

pub struct Forward<'a, const W: usize> {
    second: &'a Side<W>,
    all: Bits<W>,
    agenda: Agenda<W>,
    /// The edges, those to node x from `place[x]` to `place[x + 1]`.
    edges: Vec<Edges<W>>,
    place: Vec<usize>,
}

impl<'a, const W: usize> Forward<'a, W> {
    pub fn rows(first: &Side<W>, second: &'a Side<W>, chosen: &Chosen<W>) -> Rows<W> {
        let mut forward = Forward::new(first, second, chosen);
        forward.differ_by_name(first, chosen);
        forward.differ_by_missing_role();
        while let Some((target, fresh)) = forward.agenda.take() {
            forward.rule_out(target, &fresh);
        }
        forward.agenda.rows
    }

    fn new(first: &Side<W>, second: &'a Side<W>, chosen: &Chosen<W>) -> Forward<'a, W> {
        let nodes = first.release.names + 1;
        let mut edges = Vec::with_capacity(nodes);
        let mut place = vec![0; nodes + 1];
        let mut dependents = Rows::empty();
        for target in 0..nodes {
            add_edges_to(target, first, second, chosen, &mut edges);
            place[target + 1] = edges.len();
            for group in &edges[place[target]..] {
                dependents[target] |= group.starts;
            }
        }
        let agenda = Agenda::new(&dependents, nodes);
        Forward { second, all: first.release.nodes(), agenda, edges, place }
    }

    fn differ_by_name(&mut self, first: &Side<W>, chosen: &Chosen<W>) {
        for name in chosen.names.members() {
            let lacking = Fresh::of(self.all - self.second.order.below[name]);
            if !lacking.is_empty() {
                first.order.below[name].members().for_each(|x| self.agenda.add(x, &lacking));
            }
        }
    }

    /// Nodes without any edge of the role.
    fn differ_by_missing_role(&mut self) {
        for at in 0..self.edges.len() {
            let fresh = Fresh::of(self.unmatched_by(&self.edges[at].matching));
            self.grow(at, &fresh);
        }
    }

    /// The nodes in `fresh` are no partners of `target` any more.
    fn rule_out(&mut self, target: usize, fresh: &Fresh<W>) {
        let lost = names_with_filler_in(&self.second.release, fresh);
        for at in self.place[target]..self.place[target + 1] {
            let group = &mut self.edges[at];
            let lost_here = lost.and(&group.matching);
            if lost_here.is_empty() {
                continue;
            }
            lost_here.minus_from(&mut group.matching);
            group.left -= lost_here.count();
            let fresh = self.newly_unmatched(&self.edges[at], &lost_here);
            self.grow(at, &fresh);
        }
    }

    /// Found by whichever is shorter: over the names left, or over the nodes that lost a name.
    #[inline(always)]
    fn newly_unmatched(&self, group: &Edges<W>, lost: &Fresh<W>) -> Fresh<W> {
        let order = &self.second.order;
        let mut touched = Bits::EMPTY;
        lost.each(|name| touched |= order.below[name]);
        let touched = Fresh::of(touched - group.unmatched);
        if group.left <= touched.count() {
            return Fresh::of(self.unmatched_by(&group.matching) - group.unmatched);
        }
        let mut found = Fresh::none();
        touched.each(|y| {
            if (order.above[y] & group.matching).is_empty() {
                found.insert(y);
            }
        });
        found
    }

    fn unmatched_by(&self, matching: &Bits<W>) -> Bits<W> {
        matching.members().fold(self.all, |nodes, name| nodes - self.second.order.below[name])
    }

    /// Every start of these edges gains the nodes that no longer match them.
    fn grow(&mut self, at: usize, fresh: &Fresh<W>) {
        if fresh.is_empty() {
            return;
        }
        let group = &mut self.edges[at];
        fresh.add_to(&mut group.unmatched);
        group.starts.members().for_each(|start| self.agenda.add(start, fresh));
    }
}

/// Of a set of roles those that no other of them lies under, and the first of those that lie under each other.
fn lowest(roles: u32, inclusions: &Inclusions) -> u32 {
    members(roles).fold(roles, |lowest, role| {
        if lowest >> role & 1 == 1 {
            lowest & !inclusions.above(role) | 1 << role
        } else {
            lowest
        }
    })
}

/// Appends the edges of the first release to `target`, one group for each role of the signature.
fn add_edges_to<const W: usize>(
    target: usize,
    first: &Side<W>,
    second: &Side<W>,
    chosen: &Chosen<W>,
    edges: &mut Vec<Edges<W>>,
) {
    let release = &first.release;
    let leading = release.with_filler.row(target);
    let edge_roles = |name| release.inclusions.above(release.role(name)) & chosen.roles;
    let inclusions = &second.release.inclusions;
    let roles = leading.members().fold(0, |roles, name| roles | lowest(edge_roles(name), inclusions));
    for role in members(roles) {
        let serving = leading & release.with_role_under[role];
        let starts = serving.members().fold(Bits::EMPTY, |starts, name| starts | first.order.below[name]);
        let matching = second.release.with_role_under[role];
        edges.push(Edges { starts, matching, left: matching.count(), unmatched: Bits::EMPTY });
    }
}
