//! Inputs with pairs of roles: those without, where both releases have 32 roles, all chosen, and some shape of pairs. What a call takes is told
//! beside what it takes without the pairs.

use crate::calls::Call;
use crate::inputs::{self, file_of, Axiom, Input, Pair, Version};
use crate::measure::{self, Measured};
use crate::practice::Draws;
use crate::questions;
use std::collections::BTreeMap;
use std::path::Path;

const ROLES: u8 = 32;

/// How many pairs a random shape draws, and how many of these are others in the second release.
const DRAWN: usize = 48;
const CHANGED: usize = 8;

/// The pairs of both releases, and whether their axioms are spread over all roles or keep their own.
pub struct Shape {
    pub name: &'static str,
    spread: bool,
    pairs: fn() -> [Vec<Pair>; 2],
    /// The shape without pairs.
    pub without: &'static str,
}

const NONE: &str = "none";
const SPREAD_NONE: &str = "spread_none";

/// The shapes; 31 pairs in a chain are those with `up` and `down`. Roles are spread over a chain in comparisons only.
pub const SHAPES: [Shape; 9] = [
    Shape { name: NONE, spread: false, pairs: || [vec![], vec![]], without: NONE },
    Shape { name: "up", spread: false, pairs: || [up(), up()], without: NONE },
    Shape { name: "down", spread: false, pairs: || [down(), down()], without: NONE },
    Shape { name: "circle", spread: false, pairs: || [circle(), circle()], without: NONE },
    Shape { name: "random", spread: false, pairs: random, without: NONE },
    Shape { name: "first", spread: false, pairs: || [up(), vec![]], without: NONE },
    Shape { name: SPREAD_NONE, spread: true, pairs: || [vec![], vec![]], without: SPREAD_NONE },
    Shape { name: "spread_up", spread: true, pairs: || [up(), up()], without: SPREAD_NONE },
    Shape { name: "spread_first", spread: true, pairs: || [up(), vec![]], without: SPREAD_NONE },
];

/// Each role under the next.
fn up() -> Vec<Pair> {
    (1..ROLES).map(|role| (role - 1, role)).collect()
}

/// Each role under the one before.
fn down() -> Vec<Pair> {
    (1..ROLES).map(|role| (role, role - 1)).collect()
}

/// Each role under all.
fn circle() -> Vec<Pair> {
    up().into_iter().chain([(ROLES - 1, 0)]).collect()
}

fn random() -> [Vec<Pair>; 2] {
    let mut draws = Draws::from(0x3C6E_F372_FE94_F82B);
    let mut drawn: Vec<Pair> = Vec::new();
    for _ in 0..DRAWN + CHANGED {
        let [lower, upper] = [0; 2].map(|_| draws.below(usize::from(ROLES)) as u8);
        drawn.push((lower, upper));
    }
    [&drawn[..DRAWN], &drawn[CHANGED..]].map(|pairs| {
        let mut pairs = pairs.to_vec();
        pairs.sort();
        pairs.dedup();
        pairs
    })
}

/// The axioms of an accepted release without pairs, one for each name.
fn axioms_of(file: &[u8]) -> Vec<Axiom> {
    let version = [Version::One, Version::Two, Version::Three][usize::from(file[3]) - 1];
    let width = version.width();
    let number = |at: usize| file[at..at + width].iter().rev().fold(0, |high, &low| 256 * high + u16::from(low));
    let mut axioms = vec![Axiom::None; usize::from(number(5))];
    let everything = version.number(u16::MAX);
    let mut at = file_of(version, 0, 0, &[], &[]).len();
    while at < file.len() {
        let (left, kind, role_or_count) = (number(at), file[at + width], file[at + width + 1]);
        at += width + 2;
        let equal = kind % 2 == 0;
        let count = if kind <= 2 { usize::from(role_or_count) } else { 1 };
        let parts: Vec<u16> = (0..count).map(|part| number(at + part * width)).collect();
        let filler = (file[at..].get(..width) != Some(&everything)).then(|| number(at));
        at += count * width;
        axioms[usize::from(left)] = match kind {
            1 | 2 => Axiom::Conjunction { equal, parts },
            _ => Axiom::Some { equal, role: role_or_count, filler },
        };
    }
    axioms
}

impl Shape {
    /// The release with these pairs and 32 roles.
    fn release(&self, file: &[u8], pairs: &[Pair]) -> Vec<u8> {
        let mut axioms = axioms_of(file);
        if self.spread {
            for (name, axiom) in axioms.iter_mut().enumerate() {
                if let Axiom::Some { role, .. } = axiom {
                    *role = ((7 * name + usize::from(*role)) % usize::from(ROLES)) as u8;
                }
            }
        }
        file_of(Version::Three, axioms.len(), usize::from(ROLES), pairs, &axioms)
    }

    fn call(&self, call: &Call) -> Call {
        let [ours, others] = (self.pairs)();
        match call {
            Call::Compare { first, second, signature } => {
                let names = call.names();
                let signature = [&signature[..names], &[1; ROLES as usize]].concat();
                Call::Compare { first: self.release(first, &ours), second: self.release(second, &others), signature }
            }
            Call::Ask { file, below, above } => {
                Call::Ask { file: self.release(file, &ours), below: below.clone(), above: above.clone() }
            }
        }
    }

    /// The shape's name stands behind that of the release.
    fn input(&self, input: &Input) -> Input {
        let (release, concepts) = input.name.split_at(input.name.find('/').unwrap_or(input.name.len()));
        Input { name: format!("{release}+{}{concepts}", self.name), call: self.call(&input.call) }
    }
}

/// Each input in each of these shapes.
fn shaped(inputs: &[Input], keep: impl Fn(&Shape) -> bool) -> Vec<Input> {
    let shapes: Vec<&Shape> = SHAPES.iter().filter(|&shape| keep(shape)).collect();
    inputs.iter().flat_map(|input| shapes.iter().map(|shape| shape.input(input))).collect()
}

/// The comparisons of the folder that are numbered at random, and those in which rows stay open by all roles.
fn at_random(folder: &Path) -> Vec<Input> {
    let mut inputs = inputs::from_folder(folder);
    inputs.retain(|input| input.name.ends_with("_perm"));
    inputs.extend(open_rows());
    inputs
}

/// How many names these have, a prime number, and by what a name is multiplied so that what is made one after the other is spread.
const NAMES: u16 = 127;
const SPREAD: u16 = 50;

/// A release in the making: its names are handed out one after the other.
#[derive(Clone)]
struct Draft {
    axioms: Vec<Axiom>,
    used: u16,
}

impl Draft {
    fn new() -> Draft {
        Draft { axioms: vec![Axiom::None; NAMES.into()], used: 0 }
    }

    /// The next name, with an axiom.
    fn name(&mut self, axiom: Axiom) -> u16 {
        let name = self.used * SPREAD % NAMES;
        self.used += 1;
        self.axioms[usize::from(name)] = axiom;
        name
    }

    fn restriction(&mut self, role: u8, filler: u16) -> u16 {
        self.name(Axiom::Some { equal: false, role, filler: Some(filler) })
    }

    fn conjunction(&mut self, parts: &[u16]) -> u16 {
        let mut parts = parts.to_vec();
        parts.sort();
        self.name(Axiom::Conjunction { equal: false, parts })
    }
}

/// The two releases of a draft: each name left is below a restriction with the lowest role in the first one, and in the second below these names.
fn lowest_against(draft: Draft, filler: u16, names: &[u16]) -> Call {
    let [mut first, mut second] = [draft.clone(), draft];
    while first.used < NAMES {
        first.restriction(0, filler);
        second.conjunction(names);
    }
    let [first, second] =
        [first, second].map(|draft| file_of(Version::Three, NAMES.into(), ROLES.into(), &[], &draft.axioms));
    let names = (0..NAMES).map(|name| (name % SPREAD == 0) as u8);
    let signature = names.chain([1; ROLES as usize]).collect();
    Call::Compare { first, second, signature }
}

/// Comparisons in which names have an edge with the lowest role in the first release, and in the second a partner with each role: where all roles
/// lie above the lowest one, rows stay open whichever role is looked at. In the second of them each role loses one more node.
fn open_rows() -> [Input; 2] {
    let mut draft = Draft::new();
    let filler = draft.name(Axiom::None);
    let restrictions: Vec<u16> = (0..ROLES).map(|role| draft.restriction(role, filler)).collect();
    let halves: Vec<u16> = restrictions.chunks(16).map(|half| draft.conjunction(half)).collect();
    let all = lowest_against(draft, filler, &halves);

    let mut draft = Draft::new();
    let filler = draft.name(Axiom::None);
    let restrictions: Vec<u16> = (0..ROLES).map(|role| draft.restriction(role, filler)).collect();
    let quarters: Vec<u16> = restrictions.chunks(4).map(|quarter| draft.conjunction(quarter)).collect();
    for missing in 0..restrictions.len() {
        let others = quarters.iter().enumerate().filter(|(quarter, _)| *quarter != missing / 4).map(|(_, &name)| name);
        let near =
            (missing / 4 * 4..missing / 4 * 4 + 4).filter(|&role| role != missing).map(|role| restrictions[role]);
        draft.conjunction(&others.chain(near).collect::<Vec<_>>());
    }
    let each = lowest_against(draft, filler, &quarters);

    [("open_by_all_roles_127", all), ("open_by_all_but_each_127", each)]
        .map(|(name, call)| Input { name: name.to_string(), call })
}

/// These in each shape.
pub fn shaped_comparisons(folder: &Path) -> Vec<Input> {
    shaped(&at_random(folder), |_| true)
}

/// These for sheets, which take long: in chains and without pairs.
pub fn shaped_sheets(folder: &Path) -> Vec<Input> {
    shaped(&at_random(folder), |shape| ["none", "up", "down"].iter().any(|name| shape.name.ends_with(name)))
}

/// The questions with names of two bytes about releases that are numbered at random, in each shape that keeps the roles of the axioms and
/// is one of a single release.
pub fn shaped_questions() -> Vec<Input> {
    let mut inputs = questions::pairs_inputs();
    inputs.retain(|input| input.name.contains("_mixed/"));
    shaped(&inputs, |shape| !shape.spread && shape.name != "first")
}

/// The shape of an input, by its name.
fn shape_of(name: &str) -> Option<&'static Shape> {
    let (_, rest) = name.split_once('+')?;
    let word = rest.split('/').next()?;
    SHAPES.iter().find(|shape| shape.name == word)
}

/// The name of the same input without pairs.
fn without_pairs(name: &str) -> Option<String> {
    let shape = shape_of(name)?;
    Some(name.replacen(&format!("+{}", shape.name), &format!("+{}", shape.without), 1))
}

/// A table of the inputs, with what each takes beside the same without pairs, and the most of that for each shape.
pub fn table(what: &str, inputs: &[Input]) -> bool {
    let (rows, agree) = measure::measure_all(inputs);
    let times: BTreeMap<&str, f64> = rows.iter().map(|row| (row.name.as_str(), row.ours)).collect();
    let without = |row: &Measured| without_pairs(&row.name).and_then(|name| times.get(name.as_str()).copied());
    let beside = |row: &Measured| row.ours / without(row).unwrap_or(f64::NAN);
    measure::print_heading(what);
    rows.iter().for_each(measure::print_row);
    for shape in &SHAPES {
        let of_shape = rows.iter().filter(|row| shape_of(&row.name).is_some_and(|other| other.name == shape.name));
        if let Some(most) = of_shape.max_by(|one, other| beside(one).total_cmp(&beside(other))) {
            println!("{}: at most {:.2} times what it takes without pairs, {}", shape.name, beside(most), most.name);
        }
    }
    measure::print_summary(&rows);
    agree
}

/// The input of this name: that of the name before `+`, in the shape behind it.
pub fn named(name: &str, find: impl Fn(&str) -> Option<Input>) -> Option<Input> {
    let shape = shape_of(name)?;
    let base = name.replacen(&format!("+{}", shape.name), "", 1);
    let open = open_rows().into_iter().find(|input| input.name == base);
    open.or_else(|| find(&base)).map(|input| shape.input(&input))
}

#[cfg(test)]
mod tests {
    use super::*;
    use crate::baseline;
    use crate::calls::{Buffers, Implementation};

    #[test]
    fn every_shape_is_accepted() {
        let folder = Path::new(env!("CARGO_MANIFEST_DIR")).join("data");
        let mut buffers = Buffers::for_names(127);
        for input in shaped_comparisons(&folder).iter().chain(&shaped_questions()) {
            input.call.run(Implementation::Baseline, &mut buffers);
            assert!(buffers.answer.is_ok(), "{}", input.name);
            let without = input.name.contains("none");
            assert!(input.call.files().all(|file| (file[10] == 0) == without || input.name.contains("first")));
        }
    }

    /// In another version, with roles that no axiom has and that are not chosen, a comparison says the same.
    #[test]
    fn a_release_in_version_3_says_the_same() {
        let folder = Path::new(env!("CARGO_MANIFEST_DIR")).join("data");
        for input in inputs::from_folder(&folder) {
            let mut buffers = [Buffers::for_names(127), Buffers::for_names(127)];
            input.call.run(Implementation::Baseline, &mut buffers[0]);
            SHAPES[0].call(&input.call).run(Implementation::Baseline, &mut buffers[1]);
            let names = baseline::names_of(input.call.files().next().expect("a file"));
            assert_eq!(buffers[0].result[..names], buffers[1].result[..names], "{}", input.name);
        }
    }
}
