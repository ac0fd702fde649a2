//! Questions: is the concept C below the concept D? Both are turned into sets of nodes from the inside out, so that no
//! search goes through the edges of a release again for each nesting.

use super::bits::{Bits, Fresh};
use super::classify::names_with_filler_in;
use super::file::{number_at, Release};
use super::inclusions::Inclusions;
use super::Side;

const LONGEST: usize = 255;

/// A concept, its inner concepts by their place in a list. Inner ones stand after the outer.
#[derive(Clone, Copy)]
pub enum Concept {
    Everything,
    Name(usize),
    Both(usize, usize),
    Some(usize, usize),
}

/// The concept that the bytes hold, as a list with the whole concept first; none where they are not one.
pub fn read<const W: usize>(bytes: &[u8], release: &Release<W>) -> Option<Vec<Concept>> {
    if bytes.len() > LONGEST {
        return None;
    }
    let Release { names, roles, version, .. } = *release;
    let list = Vec::with_capacity(LONGEST);
    let mut reader = Reader { bytes, at: 0, names, roles, width: version.width, list };
    reader.concept()?;
    (reader.at == bytes.len()).then_some(reader.list)
}

struct Reader<'a> {
    bytes: &'a [u8],
    at: usize,
    names: usize,
    roles: usize,
    /// How many bytes a name takes: as many as in the release's file.
    width: usize,
    list: Vec<Concept>,
}

impl Reader<'_> {
    fn number(&mut self, width: usize, limit: usize) -> Option<usize> {
        let number = number_at(self.bytes, self.at, width)?;
        self.at += width;
        (number < limit).then_some(number)
    }

    /// Reads a concept and gives its place in the list.
    fn concept(&mut self) -> Option<usize> {
        let place = self.list.len();
        let form = self.number(1, 4)?;
        self.list.push(Concept::Everything);
        self.list[place] = match form {
            0 => Concept::Everything,
            1 => Concept::Name(self.number(self.width, self.names)?),
            2 => Concept::Both(self.concept()?, self.concept()?),
            _ => Concept::Some(self.number(1, self.roles)?, self.concept()?),
        };
        Some(place)
    }
}

pub fn holds<const W: usize>(side: &Side<W>, below: &[Concept], above: &[Concept]) -> bool {
    let mut question = Question {
        layers: Vec::with_capacity(LONGEST),
        restrictions: Vec::with_capacity(LONGEST),
        above,
        nodes_below: nodes_below(side, above),
        inclusions: &side.release.inclusions,
    };
    let whole = question.new_layer();
    question.spread(below, 0, whole);
    question.find_names_above(side);
    question.holds(whole, 0)
}

/// C, or the inside of one of its ∃: the names and restrictions that ⊓ joins there.
struct Layer<const W: usize> {
    names: Bits<W>,
    last_restriction: Option<usize>,
    names_above: Bits<W>,
}

/// ∃r over an inner layer, and the restriction before it in the same layer.
struct Restriction {
    role: usize,
    inner: usize,
    before: Option<usize>,
}

struct Question<'a, const W: usize> {
    /// C by layers, inner ones after the outer.
    layers: Vec<Layer<W>>,
    restrictions: Vec<Restriction>,
    above: &'a [Concept],
    /// The nodes below each concept in D.
    nodes_below: Vec<Bits<W>>,
    inclusions: &'a Inclusions,
}

impl<const W: usize> Question<'_, W> {
    fn new_layer(&mut self) -> usize {
        self.layers.push(Layer { names: Bits::EMPTY, last_restriction: None, names_above: Bits::EMPTY });
        self.layers.len() - 1
    }

    /// Puts the concept at `place` of C into a layer.
    fn spread(&mut self, concept: &[Concept], place: usize, layer: usize) {
        match concept[place] {
            Concept::Everything => {}
            Concept::Name(name) => self.layers[layer].names.insert(name),
            Concept::Both(left, right) => {
                self.spread(concept, left, layer);
                self.spread(concept, right, layer);
            }
            Concept::Some(role, inside) => {
                let inner = self.new_layer();
                let before = self.layers[layer].last_restriction;
                self.layers[layer].last_restriction = Some(self.restrictions.len());
                self.restrictions.push(Restriction { role, inner, before });
                self.spread(concept, inside, inner);
            }
        }
    }

    /// The restrictions of a layer.
    fn restrictions_of(&self, layer: usize) -> impl Iterator<Item = &Restriction> {
        let at = |place: Option<usize>| place.map(|place| &self.restrictions[place]);
        std::iter::successors(at(self.layers[layer].last_restriction), move |restriction| at(restriction.before))
    }

    fn find_names_above(&mut self, side: &Side<W>) {
        for layer in (0..self.layers.len()).rev() {
            self.layers[layer].names_above = self.names_above(side, layer);
        }
    }

    /// A conjunction lies below a name by one of its names, or by one of its ∃r.C where the name is defined as ∃s.D, r lies
    /// under s and C below D; below a defined conjunction it lies when it lies below all parts, which are not such themselves.
    fn names_above(&self, side: &Side<W>, layer: usize) -> Bits<W> {
        let release = &side.release;
        let mut found = Bits::one(release.names);
        for name in self.layers[layer].names.members() {
            found |= side.order.above[name];
        }
        for restriction in self.restrictions_of(layer) {
            let wider = names_with_filler_in(release, &Fresh::of(self.layers[restriction.inner].names_above));
            wider.and(&release.with_role_above[restriction.role]).and(&release.defined_by_some).add_to(&mut found);
        }
        with_conjunctions(release, found)
    }

    /// Whether a layer of C lies below the concept at `place` of D. A pair of these comes up at most once.
    fn holds(&self, layer: usize, place: usize) -> bool {
        match self.above[place] {
            Concept::Everything => true,
            Concept::Name(name) => self.layers[layer].names_above.has(name),
            Concept::Both(left, right) => self.holds(layer, left) && self.holds(layer, right),
            Concept::Some(role, inside) => {
                let by_name = !(self.layers[layer].names & self.nodes_below[place]).is_empty();
                let fits = |restriction: &Restriction| {
                    self.inclusions.has(restriction.role, role) && self.holds(restriction.inner, inside)
                };
                by_name || self.restrictions_of(layer).any(fits)
            }
        }
    }
}

/// The names, and the defined conjunctions all of whose parts are among them; no part is itself such a conjunction.
pub fn with_conjunctions<const W: usize>(release: &Release<W>, mut found: Bits<W>) -> Bits<W> {
    for conjunction in (release.conjunctions - found).members() {
        if release.parts.of(conjunction).all(|part| found.has(part)) {
            found.insert(conjunction);
        }
    }
    found
}

/// The nodes below each concept in D, from the inside out.
fn nodes_below<const W: usize>(side: &Side<W>, concept: &[Concept]) -> Vec<Bits<W>> {
    let mut nodes = vec![side.release.nodes(); concept.len()];
    for place in (0..concept.len()).rev() {
        match concept[place] {
            Concept::Everything => {}
            Concept::Name(name) => nodes[place] = side.order.below[name],
            Concept::Both(left, right) => nodes[place] = nodes[left] & nodes[right],
            Concept::Some(role, inside) => nodes[place] = nodes_with_edge(side, role, nodes[inside]),
        }
    }
    nodes
}

/// The nodes with an edge of the role, or of one under it, into a set.
pub fn nodes_with_edge<const W: usize>(side: &Side<W>, role: usize, targets: Bits<W>) -> Bits<W> {
    let mut nodes = Bits::EMPTY;
    for name in side.release.with_role_under[role].members() {
        if targets.has(side.release.axiom[name].filler as usize) {
            nodes |= side.order.below[name];
        }
    }
    nodes
}
