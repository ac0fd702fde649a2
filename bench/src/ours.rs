//! The proved library, by its wrapper in Rust (`rust/`). Its refusals are told as the baseline's, so that answers can be compared.
//!
//! Without the feature `ours` the baseline stands in, so that the measuring itself can be tried; it writes no concept and has no sessions, so that those are left out.

#[cfg(feature = "ours")]
use crate::baseline::Asked;
use crate::baseline::Refusal;
#[cfg(feature = "ours")]
use berrytick::Session;
pub use linked::{Row, NAME, ROUND_DOWN, ROUND_TO_NEAREST};

/// A row of a concept.
#[cfg(feature = "ours")]
pub type ConceptRow = [u32; 3];

/// How many rows were written.
#[cfg(feature = "ours")]
pub fn show_concept(asked: Asked, rows: &mut [ConceptRow], work: &mut [u8]) -> Result<usize, Refusal> {
    let Asked { first, second, signature, name, side } = asked;
    berrytick::show_concept(first, second, signature, name, side, rows, work).map_err(told)
}

/// Whether the last of the rows shows the difference.
#[cfg(feature = "ours")]
pub fn check_concept(asked: Asked, rows: &[ConceptRow], work: &mut [u8]) -> Result<bool, Refusal> {
    let Asked { first, second, signature, name, side } = asked;
    berrytick::check_concept(first, second, signature, name, side, rows, work).map(|yes| yes == 1).map_err(told)
}

#[cfg(feature = "ours")]
pub fn session_start(first: &[u8], second: &[u8], signature: &[u8], work: &mut [u8]) -> Result<Session, Refusal> {
    Session::start(first, second, signature, work).map_err(told)
}

#[cfg(feature = "ours")]
pub fn session_add(session: &mut Session, side: usize, axiom: &[u8], work: &mut [u8]) -> Result<(), Refusal> {
    session.add(side, axiom, work).map_err(told)
}

#[cfg(feature = "ours")]
pub fn session_withdraw(session: &mut Session, side: usize, name: usize, work: &mut [u8]) -> Result<(), Refusal> {
    session.withdraw(side, name, work).map_err(told)
}

/// A practice release, or none where it is refused, and from the stand-in.
#[cfg(feature = "ours")]
pub fn practice(seed: u32, names: usize, roles: usize) -> Option<Vec<u8>> {
    let mut file = vec![0; berrytick::PRACTICE_BYTES];
    let length = berrytick::practice(seed, names, roles, &mut file).ok()?;
    file.truncate(length);
    Some(file)
}

#[cfg(not(feature = "ours"))]
pub fn practice(_seed: u32, _names: usize, _roles: usize) -> Option<Vec<u8>> {
    None
}

fn told(refusal: linked::Refusal) -> Refusal {
    Refusal { number: refusal.number, side: refusal.side }
}

pub fn compare(
    first: &[u8],
    second: &[u8],
    signature: &[u8],
    result: &mut [u8],
    role_result: &mut [u8],
    work: &mut [u8],
) -> Result<(), Refusal> {
    linked::compare(first, second, signature, result, role_result, work).map_err(told)
}

pub fn compare_branches(
    first: &[u8],
    second: &[u8],
    signatures: &[u8],
    count: usize,
    rule: usize,
    work: &mut [u8],
    rows: &mut [Row],
) -> Result<(), Refusal> {
    linked::compare_branches(first, second, signatures, count, rule, work, rows).map_err(told)
}

pub fn ask(file: &[u8], below: &[u8], above: &[u8], work: &mut [u8]) -> Result<u32, Refusal> {
    linked::ask(file, below, above, work).map_err(told)
}

/// The row of a comparison over the signature, with its byte for each name, and the share by a rule.
pub fn row_of(rule: usize, signature: &[u8], result: &[u8]) -> Row {
    let count = |test: fn(u8) -> bool| result.iter().filter(|&&byte| test(byte)).count() as u32;
    let chosen = signature.iter().take(result.len()).filter(|&&byte| byte == 1).count() as u32;
    let reported = count(|byte| byte != 0);
    let exact = f64::from(1000 * reported) / f64::from(chosen.max(1));
    let share = if rule == ROUND_DOWN { exact.floor() } else { exact.round_ties_even() };
    Row { chosen, left: count(|byte| byte & 1 == 1), right: count(|byte| byte & 2 == 2), share: share as u32 }
}

#[cfg(feature = "ours")]
mod linked {
    pub use berrytick::{ask, compare, compare_branches, Refusal, Row, ROUND_DOWN, ROUND_TO_NEAREST};

    pub const NAME: &str = "ours";
}

#[cfg(not(feature = "ours"))]
mod linked {
    use super::row_of;
    use crate::baseline;
    pub use crate::baseline::{compare, Refusal};
    pub use crate::calls::baseline_ask as ask;
    use crate::calls::MOST_PAIRS;

    pub const NAME: &str = "stand-in";

    pub const ROUND_DOWN: usize = 1;

    pub const ROUND_TO_NEAREST: usize = 2;

    #[derive(Clone, Copy, Debug, Default, PartialEq, Eq)]
    pub struct Row {
        pub chosen: u32,
        pub left: u32,
        pub right: u32,
        pub share: u32,
    }

    /// A sheet by single comparisons.
    pub fn compare_branches(
        first: &[u8],
        second: &[u8],
        signatures: &[u8],
        count: usize,
        rule: usize,
        work: &mut [u8],
        rows: &mut [Row],
    ) -> Result<(), Refusal> {
        let names = baseline::names_of(first);
        let (mut result, mut role_result) = (vec![0; names], [0; MOST_PAIRS]);
        for (signature, row) in signatures.chunks(signatures.len() / count.max(1)).zip(rows) {
            compare(first, second, signature, &mut result, &mut role_result, work)?;
            *row = row_of(rule, signature, &result);
        }
        Ok(())
    }
}
