//! The worst questions: circular releases with concepts of as many bytes as a question takes; with 127 names in versions
//! 1 and 3, and a choice of them with 1,023 names in version 2.

use crate::calls::Call;
use crate::inputs::{file_of, Axiom, Input, Version};

/// What the questions with few and with many names differ in.
#[derive(Clone, Copy)]
struct Size {
    version: Version,
    names: usize,
    /// Two neighbours are so far apart in the mixed numbering. It has no divisor in common with the number of names, so
    /// each name has just one place.
    stride: usize,
}

const NARROW: Size = Size { version: Version::One, names: 127, stride: 50 };
const WIDE: Size = Size { version: Version::Two, names: 1023, stride: 400 };
const PAIRS: Size = Size { version: Version::Three, ..NARROW };

/// An axiom of a release in which every name leads on to the next, by the place of the name.
type Link = fn(place: usize, next: u16, after_next: u16) -> Axiom;

fn some(equal: bool, filler: u16) -> Axiom {
    Axiom::Some { equal, role: 0, filler: Some(filler) }
}

fn conjunction(equal: bool, mut parts: Vec<u16>) -> Axiom {
    parts.sort();
    Axiom::Conjunction { equal, parts }
}

/// Conjunctions at even places and ∃ at odd ones: every name has an edge to every second one.
fn by_turns(equal: bool, place: usize, next: u16, after_next: u16) -> Axiom {
    if place % 2 == 0 {
        conjunction(false, vec![next, after_next])
    } else {
        some(equal, next)
    }
}

const LINKS: [(&str, Link); 5] = [
    ("below_some", |_, next, _| some(false, next)),
    ("equal_some", |_, next, _| some(true, next)),
    ("below_name", |_, next, _| conjunction(false, vec![next])),
    ("by_turns", |place, next, after_next| by_turns(false, place, next, after_next)),
    ("by_turns_equal", |place, next, after_next| by_turns(true, place, next, after_next)),
];

/// The name at a place. Neighbours are far apart in the mixed numbering, so that no direction of sweeping helps.
fn name_at(place: usize, mixed: bool, size: Size) -> u16 {
    let place = place % size.names;
    (if mixed { place * size.stride % size.names } else { place }) as u16
}

/// A circle, or a chain, whose last name has no axiom.
fn release(link: Link, circle: bool, mixed: bool, size: Size) -> Vec<u8> {
    let mut axioms = vec![Axiom::None; size.names];
    for place in 0..size.names - !circle as usize {
        // A chain must not lead round from its end to its start.
        let last = if circle { usize::MAX } else { size.names - 1 };
        let next = name_at((place + 1).min(last), mixed, size);
        let after_next = name_at((place + 2).min(last), mixed, size);
        axioms[name_at(place, mixed, size) as usize] = without_repeats(link(place, next, after_next));
    }
    file_of(size.version, size.names, 1, &[], &axioms)
}

fn without_repeats(axiom: Axiom) -> Axiom {
    match axiom {
        Axiom::Conjunction { equal, mut parts } => {
            parts.dedup();
            Axiom::Conjunction { equal, parts }
        }
        other => other,
    }
}

fn releases(size: Size) -> Vec<(String, Vec<u8>)> {
    let mut releases = Vec::new();
    for (name, link) in LINKS {
        for (shape, circle) in [("chain", false), ("circle", true)] {
            for (order, mixed) in [("up", false), ("mixed", true)] {
                releases.push((format!("{shape}_{name}_{order}"), release(link, circle, mixed, size)));
            }
        }
    }
    releases
}

fn name_concept(name: u16, version: Version) -> Vec<u8> {
    [vec![1], version.number(name)].concat()
}

/// 126 ∃, one in the other, over a name: 254 or 255 bytes.
fn nested_over_name(version: Version) -> Vec<u8> {
    [[3, 0].repeat(126), name_concept(0, version)].concat()
}

/// 127 ∃, one in the other, over ⊤: 255 bytes.
fn nested() -> Vec<u8> {
    [[3, 0].repeat(127), vec![0]].concat()
}

/// 127 ⊓ of ⊤: 255 bytes.
fn joined() -> Vec<u8> {
    [vec![2; 127], vec![0; 128]].concat()
}

/// 84 ⊓ of 85 names, 254 bytes, or 63 of 64 longer names, 255 bytes.
fn joined_names(version: Version) -> Vec<u8> {
    let names = if version == Version::One { 85 } else { 64 };
    [vec![2; names as usize - 1], (0..names).flat_map(|name| name_concept(name, version)).collect()].concat()
}

/// 64 ∃r.⊤ joined by ⊓: 255 bytes.
fn joined_some() -> Vec<u8> {
    [vec![2; 63], [3, 0, 0].repeat(64)].concat()
}

/// 50 times ∃r over ⊓ of a name and the rest, 251 bytes, or 42 times with a longer name, 253 bytes.
fn nested_and_joined(version: Version) -> Vec<u8> {
    let times = if version == Version::One { 50 } else { 42 };
    let around = |name| [vec![3, 0, 2], name_concept(name, version)].concat();
    [(0..times).flat_map(around).collect(), vec![0]].concat()
}

/// ⊓ of two ∃ with the same inside, 5 deep, so that many pairs of inner concepts can be tried: 187 bytes over ⊤, and
/// 219 or 251 over a name.
fn tree(depth: usize, leaf: &[u8]) -> Vec<u8> {
    if depth == 0 {
        return leaf.to_vec();
    }
    let inner = [vec![3, 0], tree(depth - 1, leaf)].concat();
    [vec![2], inner.clone(), inner].concat()
}

fn concept(name: &str, version: Version) -> Vec<u8> {
    match name {
        "name" => name_concept(0, version),
        "nested" => nested(),
        "nested_name" => nested_over_name(version),
        "joined" => joined(),
        "joined_names" => joined_names(version),
        "joined_some" => joined_some(),
        "nested_joined" => nested_and_joined(version),
        "tree" => tree(5, &[0]),
        "tree_name" => tree(5, &name_concept(0, version)),
        _ => panic!("no concept {name}"),
    }
}

/// What is asked: the first below the second.
const ASKED: [(&str, &str); 19] = [
    ("name", "name"),
    ("name", "nested"),
    ("nested", "name"),
    ("nested", "nested"),
    ("nested", "nested_name"),
    ("nested_name", "nested"),
    ("nested_name", "nested_name"),
    ("joined", "joined"),
    ("joined_names", "joined_names"),
    ("joined_names", "nested"),
    ("joined_some", "joined_some"),
    ("name", "nested_joined"),
    ("nested_joined", "name"),
    ("nested_joined", "nested"),
    ("nested_joined", "nested_joined"),
    ("name", "tree_name"),
    ("tree", "tree"),
    ("tree", "tree_name"),
    ("tree_name", "tree"),
];

/// Of these, what is asked of a release with 1,023 names, and of which releases.
const WIDE_ASKED: [(&str, &str); 9] = [
    ("name", "name"),
    ("name", "nested"),
    ("nested", "nested_name"),
    ("nested_name", "nested_name"),
    ("joined_names", "joined_names"),
    ("joined_names", "nested"),
    ("joined_some", "joined_some"),
    ("nested_joined", "nested"),
    ("tree", "tree_name"),
];
const WIDE_RELEASES: [&str; 6] = [
    "chain_below_some_mixed",
    "chain_equal_some_mixed",
    "circle_equal_some_mixed",
    "chain_by_turns_equal_mixed",
    "circle_by_turns_equal_mixed",
    "circle_by_turns_equal_up",
];

/// Each release with each question, named RELEASE/BELOW/ABOVE.
pub fn inputs() -> Vec<Input> {
    asked(NARROW.version, &releases(NARROW), &ASKED)
}

/// The same in version 3, without a pair.
pub fn pairs_inputs() -> Vec<Input> {
    asked(PAIRS.version, &releases(PAIRS), &ASKED)
}

/// The same with 1,023 names, named RELEASE_1023/BELOW/ABOVE.
pub fn wide_inputs() -> Vec<Input> {
    let mut chosen = releases(WIDE);
    chosen.retain(|(name, _)| WIDE_RELEASES.contains(&name.as_str()));
    chosen.iter_mut().for_each(|(name, _)| name.push_str("_1023"));
    asked(WIDE.version, &chosen, &WIDE_ASKED)
}

fn asked(version: Version, releases: &[(String, Vec<u8>)], asked: &[(&str, &str)]) -> Vec<Input> {
    let mut inputs = Vec::new();
    for (release, file) in releases {
        for (below, above) in asked {
            let call = Call::Ask { file: file.clone(), below: concept(below, version), above: concept(above, version) };
            inputs.push(Input { name: format!("{release}/{below}/{above}"), call });
        }
    }
    inputs
}

#[cfg(test)]
mod tests {
    use super::*;
    use crate::calls::{Buffers, Implementation};

    #[test]
    fn wide_questions_are_as_long_as_said_and_accepted() {
        let lengths = ["nested_name", "joined_names", "nested_joined", "tree_name"];
        assert_eq!(lengths.map(|name| concept(name, Version::Two).len()), [255, 255, 253, 251]);
        assert_eq!(lengths.map(|name| concept(name, Version::One).len()), [254, 254, 251, 219]);
        let inputs = wide_inputs();
        assert_eq!(inputs.len(), WIDE_ASKED.len() * WIDE_RELEASES.len());
        let mut buffers = Buffers::for_names(WIDE.names);
        for input in inputs.iter().filter(|input| input.name.starts_with("chain_equal_some")) {
            input.call.run(Implementation::Baseline, &mut buffers);
            assert!(buffers.answer.is_ok(), "{}", input.name);
        }
    }
}
