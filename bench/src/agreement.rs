//! Agreement of both implementations on many random inputs: small ones, often damaged by a byte or cut short, with
//! buffers that are at times too short. All of the answer and of the buffers is compared.

use crate::calls::{Buffers, Call, Implementation};
use crate::inputs::{Kind, Pair, Version};
use crate::practice::{self, Draws, Form};
use std::collections::BTreeMap;

/// Changes a byte, removes the end, adds a byte, or mostly does nothing.
pub fn damage(mut bytes: Vec<u8>, draws: &mut Draws) -> Vec<u8> {
    let place = draws.below(bytes.len() + 1);
    match draws.below(16) {
        0 => bytes.truncate(place),
        1 => bytes.push(draws.below(256) as u8),
        2 if place < bytes.len() => bytes[place] = draws.below(256) as u8,
        // A small number is more often in range, and so gets further.
        3 if place < bytes.len() => bytes[place] = draws.below(8) as u8,
        _ => {}
    }
    bytes
}

/// Mostly a few bytes more than needed, at times one less or just enough.
pub fn length(needed: usize, draws: &mut Draws) -> usize {
    (needed + draws.below(12)).saturating_sub(1)
}

/// Damage that a file of version 2 is open to: another version, and numbers at the ends of a byte and of both limits.
fn damage_wide(mut bytes: Vec<u8>, draws: &mut Draws) -> Vec<u8> {
    match draws.below(16) {
        0 if bytes.len() > 3 => bytes[3] = draws.below(5) as u8,
        1 if bytes.len() > 1 => {
            let place = draws.below(bytes.len() - 1);
            let number = [127, 128, 255, 256, 1023, 1024, u16::MAX][draws.below(7)];
            bytes[place..place + 2].copy_from_slice(&number.to_le_bytes());
        }
        _ => return damage(bytes, draws),
    }
    bytes
}

/// Where the pairs of a file of version 3 begin, after their count.
const PAIRS: usize = 11;

/// Damage to the pairs and their count.
fn damage_pairs(mut bytes: Vec<u8>, draws: &mut Draws) -> Vec<u8> {
    let count = bytes.get(PAIRS - 1).map_or(0, |&count| usize::from(count));
    match draws.below(12) {
        0 if bytes.len() > PAIRS => {
            let place = PAIRS - 1 + draws.below(2 * count + 1);
            if let Some(byte) = bytes.get_mut(place) {
                *byte = draws.below(8) as u8;
            }
        }
        1 => bytes.truncate(PAIRS + draws.below(2 * count + 1)),
        _ => return damage_wide(bytes, draws),
    }
    bytes
}

impl Kind {
    fn form(self, draws: &mut Draws) -> Form {
        match self {
            Kind::Narrow => practice::small_form(draws),
            Kind::Wide => practice::wide_form(draws),
            Kind::Pairs if draws.below(40) == 0 => {
                Form { roles: 1 + draws.below(32), pairs: draws.below(256), ..practice::wide_form(draws) }
            }
            Kind::Pairs => practice::small_form_with_pairs(draws),
        }
    }

    /// Of version 1 only where it has room for the names, of version 1 and 2 only where there are no pairs.
    fn version(self, names: usize, pairs: &[Pair], draws: &mut Draws) -> Version {
        match self {
            Kind::Narrow => Version::One,
            Kind::Pairs if !pairs.is_empty() || draws.below(3) > 0 => Version::Three,
            _ if names <= 127 && draws.below(3) == 0 => Version::One,
            _ => Version::Two,
        }
    }

    fn damage(self, file: Vec<u8>, draws: &mut Draws) -> Vec<u8> {
        match self {
            Kind::Narrow => damage(file, draws),
            Kind::Wide => damage_wide(file, draws),
            Kind::Pairs => damage_pairs(file, draws),
        }
    }
}

/// Two releases, which may have different versions, and a signature.
fn comparison(kind: Kind, draws: &mut Draws) -> (Call, Buffers) {
    let form = kind.form(draws);
    let made = practice::practice(&form, draws);
    let first = made.first_file(kind.version(form.names, &made.first_pairs, draws));
    let second = made.second_file(kind.version(form.names, &made.second_pairs, draws));
    let call = Call::Compare {
        first: kind.damage(first, draws),
        second: kind.damage(second, draws),
        signature: damage(made.signature, draws),
    };
    (call, buffers(&form, draws))
}

/// The concepts are at times written for a version of another width.
fn question(kind: Kind, draws: &mut Draws) -> (Call, Buffers) {
    let form = kind.form(draws);
    let made = practice::practice(&form, draws);
    let version = kind.version(form.names, &made.first_pairs, draws);
    let of_concept = if kind != Kind::Narrow && draws.below(20) == 0 { Version::One } else { version };
    let below = practice::concept(of_concept, form.names, form.roles, 5, draws);
    let above = practice::concept(of_concept, form.names, form.roles, 4, draws);
    let file = kind.damage(made.first_file(version), draws);
    (Call::Ask { file, below: damage(below, draws), above: damage(above, draws) }, buffers(&form, draws))
}

fn buffers(form: &Form, draws: &mut Draws) -> Buffers {
    let Form { names, roles, .. } = *form;
    let work = 4 * (names + 1) * (names + 1);
    Buffers::of(length(names, draws), length(roles * roles, draws), length(work, draws))
}

/// A comparison, damaged at times.
#[cfg(feature = "ours")]
pub fn some_comparison(kind: Kind, draws: &mut Draws) -> Call {
    allowed(comparison, kind, draws).0
}

type Make = fn(Kind, &mut Draws) -> (Call, Buffers);

/// The versions of files that inputs of a kind do not have, which damage makes at times: so a library that refuses them can be tried.
fn other_versions(kind: Kind) -> &'static [u8] {
    match kind {
        Kind::Narrow => &[2, 3],
        Kind::Wide => &[3],
        Kind::Pairs => &[],
    }
}

/// An input without a file of another version than those of its kind.
fn allowed(make: Make, kind: Kind, draws: &mut Draws) -> (Call, Buffers) {
    let is_other =
        |file: &[u8]| matches!(file, [b'E', b'L', b'T', version, 0, ..] if other_versions(kind).contains(version));
    loop {
        let made = make(kind, draws);
        if !made.0.files().any(is_other) {
            return made;
        }
    }
}

/// Tries so many comparisons and as many questions; prints how often each number was answered.
pub fn try_many(count: usize, kind: Kind) -> bool {
    let makers: [(&str, Make); 2] = [("comparison", comparison), ("question", question)];
    let mut draws = Draws::from(0x2545_F491_4F6C_DD1D);
    let mut different = 0;
    for (what, make) in makers {
        let mut numbers: BTreeMap<u8, usize> = BTreeMap::new();
        for _ in 0..count {
            let (call, buffers) = allowed(make, kind, &mut draws);
            let (mut ours, mut baseline) = (buffers.clone(), buffers);
            call.run(Implementation::Ours, &mut ours);
            call.run(Implementation::Baseline, &mut baseline);
            different += (ours != baseline) as usize;
            *numbers.entry(baseline.answer.map_or_else(|refusal| refusal.number, |_| 0)).or_default() += 1;
        }
        println!("{what}: {count} inputs; refusals by number, 0 for accepted: {numbers:?}");
    }
    println!("{different} differ");
    different == 0
}
