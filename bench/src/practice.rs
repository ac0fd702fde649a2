//! Practice inputs: random releases of several densities, the second a changed first, and random concepts. They are
//! made the same at each run. A first release that is drawn as the library's practice releases are comes from the library.

use crate::calls::Call;
use crate::inputs::{axioms_in, file_of, Axiom, Input, Pair, Version};
use crate::ours;

/// Random numbers that are the same at each run (xorshift).
pub struct Draws(u64);

impl Draws {
    /// `seed` is not 0.
    pub fn from(seed: u64) -> Draws {
        Draws(seed)
    }

    pub fn below(&mut self, choices: usize) -> usize {
        self.0 ^= self.0 << 13;
        self.0 ^= self.0 >> 7;
        self.0 ^= self.0 << 17;
        (self.0 >> 33) as usize % choices
    }

    /// True in this many of 100 draws.
    pub fn chance(&mut self, percent: usize) -> bool {
        self.below(100) < percent
    }
}

/// What a practice input is like. Weights are of no axiom and the kinds 1 to 4; shares are of 100.
pub struct Form {
    pub name: &'static str,
    pub names: usize,
    pub roles: usize,
    pub weights: [usize; 5],
    pub fewest_parts: usize,
    pub most_parts: usize,
    /// How many names get another axiom in the second release.
    pub changes: usize,
    pub chosen: usize,
    /// How many pairs of roles are drawn; as many of the second release's are drawn anew as axioms are.
    pub pairs: usize,
}

/// Two releases by their axioms, and a signature.
pub struct Practice {
    pub names: usize,
    pub roles: usize,
    pub first: Vec<Axiom>,
    pub second: Vec<Axiom>,
    pub first_pairs: Vec<Pair>,
    pub second_pairs: Vec<Pair>,
    pub signature: Vec<u8>,
}

impl Practice {
    pub fn first_file(&self, version: Version) -> Vec<u8> {
        file_of(version, self.names, self.roles, &self.first_pairs, &self.first)
    }

    pub fn second_file(&self, version: Version) -> Vec<u8> {
        file_of(version, self.names, self.roles, &self.second_pairs, &self.second)
    }
}

const FORMS: [Form; 10] = [
    form("sparse", 127, 8, [6, 1, 1, 1, 1], 2, 4, 100),
    form("even", 127, 8, [1, 1, 1, 1, 1], 4, 4, 100),
    form("dense", 127, 2, [0, 2, 2, 2, 2], 16, 4, 100),
    form("many_roles", 127, 32, [1, 2, 2, 4, 4], 4, 8, 100),
    form("one_role", 127, 1, [0, 1, 1, 4, 4], 3, 8, 50),
    form("definitions", 127, 4, [1, 0, 4, 0, 4], 3, 8, 30),
    form("rules", 127, 4, [1, 4, 0, 4, 0], 3, 8, 30),
    form("some_only", 127, 2, [0, 0, 0, 1, 1], 1, 16, 10),
    form("all_changed", 127, 4, [1, 2, 2, 2, 2], 6, 127, 60),
    form("small", 24, 3, [1, 2, 2, 2, 2], 4, 2, 60),
];

const fn form(
    name: &'static str,
    names: usize,
    roles: usize,
    weights: [usize; 5],
    most_parts: usize,
    changes: usize,
    chosen: usize,
) -> Form {
    Form { name, names, roles, weights, fewest_parts: 1, most_parts, changes, chosen, pairs: 0 }
}

/// How many inputs of each form.
const EACH: usize = 3;

pub fn inputs() -> Vec<Input> {
    let mut draws = Draws(0x9E37_79B9_7F4A_7C15);
    let mut inputs = Vec::new();
    for form in &FORMS {
        for at in 1..=EACH {
            let practice = practice(form, &mut draws);
            let (first, second) = (practice.first_file(Version::One), practice.second_file(Version::One));
            let call = Call::Compare { first, second, signature: practice.signature };
            inputs.push(Input { name: format!("practice_{}_{at}", form.name), call });
        }
    }
    inputs
}

pub fn practice(form: &Form, draws: &mut Draws) -> Practice {
    let made = made(form, draws);
    let kinds: Vec<usize> = match &made {
        Some(axioms) => axioms.iter().map(kind_of).collect(),
        None => (0..form.names).map(|_| kind(form, draws)).collect(),
    };
    let pool: Vec<u16> = (0..form.names).filter(|&name| kinds[name] != 2).map(|name| name as u16).collect();
    let first = made.unwrap_or_else(|| kinds.iter().map(|&kind| axiom(form, kind, &pool, draws)).collect());
    let mut second = first.clone();
    for _ in 0..if form.names == 0 { 0 } else { form.changes } {
        let name = draws.below(form.names);
        second[name] = axiom(form, changed_kind(kinds[name], draws), &pool, draws);
    }
    let places = form.names + form.roles;
    let signature = (0..places).map(|_| draws.chance(form.chosen) as u8).collect();
    let (first_pairs, second_pairs) = pairs(form, draws);
    Practice { names: form.names, roles: form.roles, first, second, first_pairs, second_pairs, signature }
}

/// The pairs of both releases, in their order and each once.
fn pairs(form: &Form, draws: &mut Draws) -> (Vec<Pair>, Vec<Pair>) {
    let some_pair = |draws: &mut Draws| (draws.below(form.roles) as u8, draws.below(form.roles) as u8);
    let mut first = Vec::new();
    for _ in 0..if form.roles == 0 { 0 } else { form.pairs } {
        first.push(some_pair(draws));
    }
    let mut second = first.clone();
    for _ in 0..if first.is_empty() { 0 } else { form.changes } {
        let place = draws.below(second.len());
        second[place] = some_pair(draws);
    }
    let [first, second] = [first, second].map(|mut pairs| {
        pairs.sort();
        pairs.dedup();
        pairs
    });
    (first, second)
}

/// A practice release, where the form is theirs and the library is linked: each kind as often as another, one to four conjuncts.
fn made(form: &Form, draws: &mut Draws) -> Option<Vec<Axiom>> {
    if form.weights != [1; 5] || (form.fewest_parts, form.most_parts) != (1, 4) {
        return None;
    }
    let file = ours::practice(draws.below(1 << 31) as u32, form.names, form.roles)?;
    Some(axioms_in(&file))
}

fn kind_of(axiom: &Axiom) -> usize {
    match axiom {
        Axiom::None => 0,
        Axiom::Conjunction { equal, .. } => 1 + *equal as usize,
        Axiom::Some { equal, .. } => 3 + *equal as usize,
    }
}

fn kind(form: &Form, draws: &mut Draws) -> usize {
    let mut left = draws.below(form.weights.iter().sum());
    for (kind, &weight) in form.weights.iter().enumerate() {
        if left < weight {
            return kind;
        }
        left -= weight;
    }
    0
}

/// The same kind, or the one-way rule for a definition, or no axiom. None of these makes a new kind 2, which the pool
/// would not know of.
fn changed_kind(kind: usize, draws: &mut Draws) -> usize {
    match draws.below(4) {
        0 if kind == 2 || kind == 4 => kind - 1,
        1 => 0,
        _ => kind,
    }
}

/// A small form: few names, so that circles and equal meanings are frequent.
pub fn small_form(draws: &mut Draws) -> Form {
    Form {
        name: "small",
        names: 1 + draws.below(9),
        roles: 1 + draws.below(3),
        weights: [1, draws.below(3), draws.below(4), draws.below(4), draws.below(5)],
        fewest_parts: 0,
        most_parts: 1 + draws.below(3),
        changes: 1 + draws.below(3),
        chosen: 30 + draws.below(71),
        pairs: 0,
    }
}

/// A small form with pairs of roles: few roles, so that chains and circles of them are frequent.
pub fn small_form_with_pairs(draws: &mut Draws) -> Form {
    let form = small_form(draws);
    Form { roles: 1 + draws.below(6), pairs: draws.below(9), chosen: form.chosen.max(60), ..form }
}

/// How many names a wide form has, apart from a few: at the ends of a byte and of each version.
const EDGES: [usize; 5] = [127, 128, 255, 256, 1023];

/// A form for files of version 2: mostly few names, at times none, and at times as many as in `EDGES`. The larger ones
/// are rarer the longer they take.
pub fn wide_form(draws: &mut Draws) -> Form {
    let mut form = small_form(draws);
    form.names = draws.below(11);
    form.roles = draws.below(4);
    if draws.below(40) == 0 {
        form.names = EDGES[draws.below(EDGES.len() - 1)];
        form.most_parts = 1 + draws.below(16);
    } else if draws.below(400) == 0 {
        form.names = 1023;
    }
    form
}

/// The bytes of a concept with at most so many ⊓ and ∃ around each other, for a release of this version.
pub fn concept(version: Version, names: usize, roles: usize, depth: usize, draws: &mut Draws) -> Vec<u8> {
    // Without names or roles it is at times a concept that is refused, with name 0 or role 0.
    let inner = |draws: &mut Draws| concept(version, names, roles, depth - 1, draws);
    match draws.below(if depth == 0 { 3 } else { 8 }) {
        0 => vec![0],
        1 | 2 => [vec![1], version.number(draws.below(names.max(1)) as u16)].concat(),
        3 | 4 => {
            let left = inner(draws);
            [vec![2], left, inner(draws)].concat()
        }
        _ => [vec![3, draws.below(roles.max(1)) as u8], inner(draws)].concat(),
    }
}

fn axiom(form: &Form, kind: usize, pool: &[u16], draws: &mut Draws) -> Axiom {
    match kind {
        1 | 2 if !pool.is_empty() => {
            let count = form.fewest_parts + draws.below(form.most_parts - form.fewest_parts + 1);
            let mut parts: Vec<u16> = (0..count).map(|_| pool[draws.below(pool.len())]).collect();
            parts.sort();
            parts.dedup();
            Axiom::Conjunction { equal: kind == 2, parts }
        }
        3 | 4 if form.roles > 0 => {
            let filler = draws.below(form.names + 1);
            let filler = if filler == form.names { None } else { Some(filler as u16) };
            Axiom::Some { equal: kind == 4, role: draws.below(form.roles) as u8, filler }
        }
        _ => Axiom::None,
    }
}
