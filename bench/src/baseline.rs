//! The same calls as the proved library, written apart from it: from the papers and the file format alone, with sets
//! of bits, work lists and indices, and with no proof. It is the yardstick of the measurements, and the proved library
//! has to agree with it byte for byte.

mod agenda;
mod backward;
pub mod bits;
mod classify;
mod file;
mod forward;
mod inclusions;
mod question;
mod rows;

use bits::{is_small, Bits, LARGE, SMALL};
use classify::Order;
pub use file::names_of;
use file::{Release, Version, MOST_ROLES};
use inclusions::members;

/// Why an input is refused, by the numbers of the file format, and which release or concept is concerned.
#[derive(Clone, Copy, Debug, PartialEq, Eq)]
pub struct Refusal {
    pub number: u8,
    pub side: u8,
}

fn refusal(number: u8, side: u8) -> Refusal {
    Refusal { number, side }
}

#[derive(Clone, Copy, Debug, PartialEq, Eq)]
pub struct Counts {
    pub names: usize,
    pub roles: usize,
    pub axioms: usize,
}

/// A release with its order.
pub struct Side<const W: usize> {
    release: Release<W>,
    order: Order<W>,
}

impl<const W: usize> Side<W> {
    fn of(release: Release<W>) -> Side<W> {
        let order = Order::of(&release);
        Side { release, order }
    }
}

/// The signature.
pub struct Chosen<const W: usize> {
    names: Bits<W>,
    roles: u32,
}

impl<const W: usize> Chosen<W> {
    fn has_role(&self, role: usize) -> bool {
        role < MOST_ROLES && self.roles >> role & 1 == 1
    }
}

fn read<const W: usize>(file: &[u8], side: u8) -> Result<Release<W>, Refusal> {
    file::read(file).map_err(|number| refusal(number, side))
}

fn check_in<const W: usize>(file: &[u8], side: u8) -> Result<Counts, Refusal> {
    let release = read::<W>(file, side)?;
    Ok(Counts { names: release.names, roles: release.roles, axioms: release.axioms })
}

fn check_side(file: &[u8], side: u8) -> Result<Counts, Refusal> {
    if is_small(names_of(file)) {
        check_in::<SMALL>(file, side)
    } else {
        check_in::<LARGE>(file, side)
    }
}

pub fn check(file: &[u8]) -> Result<Counts, Refusal> {
    check_side(file, 1)
}

/// Writes a byte for each name to `result`, one for each pair of roles to `role_result`, and leaves the work memory zero.
pub fn compare(
    first: &[u8],
    second: &[u8],
    signature: &[u8],
    result: &mut [u8],
    role_result: &mut [u8],
    work: &mut [u8],
) -> Result<(), Refusal> {
    if is_small(names_of(first)) {
        compare_in::<SMALL>(first, second, signature, result, role_result, work)
    } else {
        compare_in::<LARGE>(first, second, signature, result, role_result, work)
    }
}

fn compare_in<const W: usize>(
    first: &[u8],
    second: &[u8],
    signature: &[u8],
    result: &mut [u8],
    role_result: &mut [u8],
    work: &mut [u8],
) -> Result<(), Refusal> {
    let both = read_both::<W>(first, second)?;
    let chosen = choose(signature, &both.0)?;
    let (names, roles) = (both.0.names, both.0.roles);
    if result.len() < names {
        return Err(refusal(31, 0));
    }
    let pairs = role_result.get_mut(..roles * roles).ok_or(refusal(50, 0))?;
    let work = enough(work, names)?;
    write_role_result(&both, &chosen, pairs);
    let (first, second) = (Side::of(both.0), Side::of(both.1));
    write_result(&first, &second, &chosen, result);
    work.fill(0);
    Ok(())
}

/// 1 where both roles are chosen and the first lies under the second by the first release only.
fn write_role_result<const W: usize>(
    (first, second): &(Release<W>, Release<W>),
    chosen: &Chosen<W>,
    role_result: &mut [u8],
) {
    role_result.fill(0);
    for lower in members(chosen.roles) {
        for upper in members(first.inclusions.above(lower) & chosen.roles) {
            role_result[lower * first.roles + upper] = u8::from(!second.inclusions.has(lower, upper));
        }
    }
}

/// Both releases, where they are accepted and agree in their counts.
fn read_both<const W: usize>(first: &[u8], second: &[u8]) -> Result<(Release<W>, Release<W>), Refusal> {
    let first = read::<W>(first, 1)?;
    if names_of(second) != first.names {
        // The second may have too many names for these sets, but then it only has to be checked.
        return check_side(second, 2).and(Err(refusal(16, 0)));
    }
    let second = read::<W>(second, 2)?;
    if first.roles != second.roles {
        return Err(refusal(16, 0));
    }
    Ok((first, second))
}

fn choose<const W: usize>(signature: &[u8], release: &Release<W>) -> Result<Chosen<W>, Refusal> {
    if signature.len() != release.names + release.roles {
        return Err(refusal(17, 0));
    }
    if signature.iter().any(|&byte| byte > 1) {
        return Err(refusal(18, 0));
    }
    let mut chosen = Chosen { names: Bits::EMPTY, roles: 0 };
    for (place, _) in signature.iter().enumerate().filter(|(_, &byte)| byte == 1) {
        if place < release.names {
            chosen.names.insert(place);
        } else {
            chosen.roles |= 1 << (place - release.names);
        }
    }
    Ok(chosen)
}

/// The part of the work memory that a call needs.
fn enough(work: &mut [u8], names: usize) -> Result<&mut [u8], Refusal> {
    enough_for_rows(work, names, 0)
}

/// The same for a check of so many rows.
fn enough_for_rows(work: &mut [u8], names: usize, rows: usize) -> Result<&mut [u8], Refusal> {
    let for_rows = (2 * (names + 1)).checked_mul(rows).ok_or(refusal(32, 0))?;
    work.get_mut(..4 * (names + 1) * (names + 1) + for_rows).ok_or(refusal(32, 0))
}

/// What is asked of both calls about concepts.
#[derive(Clone, Copy)]
pub struct Asked<'a> {
    pub first: &'a [u8],
    pub second: &'a [u8],
    pub signature: &'a [u8],
    pub name: usize,
    pub side: usize,
}

/// Whether a concept is to be shown in so many lent numbers: the name is reported on that side. Leaves the work memory zero.
pub fn shows(asked: Asked, numbers: usize, work: &mut [u8]) -> Result<bool, Refusal> {
    if is_small(names_of(asked.first)) {
        shows_in::<SMALL>(asked, numbers, work)
    } else {
        shows_in::<LARGE>(asked, numbers, work)
    }
}

fn shows_in<const W: usize>(asked: Asked, numbers: usize, work: &mut [u8]) -> Result<bool, Refusal> {
    let (first, second) = read_both::<W>(asked.first, asked.second)?;
    let chosen = choose(asked.signature, &first)?;
    let names = first.names;
    let work = enough(work, names)?;
    if numbers / 3 < (names + 2).pow(3) {
        return Err(refusal(44, 0));
    }
    let mut result = vec![0; names];
    write_result(&Side::of(first), &Side::of(second), &chosen, &mut result);
    work.fill(0);
    let byte = result.get(asked.name).copied().unwrap_or(0);
    Ok(match asked.side {
        1 => byte & 1 == 1,
        2 => byte & 2 == 2,
        _ => false,
    })
}

/// Whether the last of the rows shows that the name lost something on that side; leaves the work memory zero.
pub fn check_concept(asked: Asked, numbers: &[u32], work: &mut [u8]) -> Result<bool, Refusal> {
    if is_small(names_of(asked.first)) {
        check_concept_in::<SMALL>(asked, numbers, work)
    } else {
        check_concept_in::<LARGE>(asked, numbers, work)
    }
}

fn check_concept_in<const W: usize>(asked: Asked, numbers: &[u32], work: &mut [u8]) -> Result<bool, Refusal> {
    let (first, second) = read_both::<W>(asked.first, asked.second)?;
    let chosen = choose(asked.signature, &first)?;
    let names = first.names;
    enough_for_rows(work, names, numbers.len() / 3)?.fill(0);
    let name = asked.name;
    if name >= names || !chosen.names.has(name) {
        return Ok(false);
    }
    let Some(rows) = rows::read(numbers, names, &chosen) else {
        return Ok(false);
    };
    let sides = [first, second].map(Side::of);
    let sets = match asked.side {
        1 => sides.map(|side| rows::nodes_below(&side, &rows)),
        2 => sides.map(|side| rows::names_above(&side, &rows)),
        _ => return Ok(false),
    };
    let [by_first, by_second] = sets.map(|sets| sets.last().map(|last| last.has(name)));
    Ok(by_first == Some(true) && by_second == Some(false))
}

fn write_result<const W: usize>(first: &Side<W>, second: &Side<W>, chosen: &Chosen<W>, result: &mut [u8]) {
    let left = forward::Forward::rows(first, second, chosen);
    let right = backward::Backward::rows(first, second, chosen);
    for name in 0..first.release.names {
        let reported = left[name].has(name) as u8 + 2 * right[name].has(name) as u8;
        result[name] = if chosen.names.has(name) { reported } else { 0 };
    }
}

/// How two concepts lie: 1 where `below` lies below `above`, and 2 more where `above` lies below `below`; leaves the work memory zero.
pub fn ask(file: &[u8], below: &[u8], above: &[u8], work: &mut [u8]) -> Result<u8, Refusal> {
    if is_small(names_of(file)) {
        ask_in::<SMALL>(file, below, above, work)
    } else {
        ask_in::<LARGE>(file, below, above, work)
    }
}

fn ask_in<const W: usize>(file: &[u8], below: &[u8], above: &[u8], work: &mut [u8]) -> Result<u8, Refusal> {
    let release = read::<W>(file, 1)?;
    let below = question::read(below, &release).ok_or(refusal(19, 1))?;
    let above = question::read(above, &release).ok_or(refusal(19, 2))?;
    let work = enough(work, release.names)?;
    let side = Side::of(release);
    let upward = question::holds(&side, &below, &above);
    let downward = question::holds(&side, &above, &below);
    work.fill(0);
    Ok(upward as u8 + 2 * downward as u8)
}

/// Writes the release as version 1 to `out`, and gives the length.
pub fn rewrite_as_first(file: &[u8], out: &mut [u8]) -> Result<usize, Refusal> {
    rewrite(file, &file::FIRST, out)
}

/// The same as version 2.
pub fn rewrite_as_second(file: &[u8], out: &mut [u8]) -> Result<usize, Refusal> {
    rewrite(file, &file::SECOND, out)
}

/// A release that has the wanted version already comes out the same.
fn rewrite(file: &[u8], wanted: &Version, out: &mut [u8]) -> Result<usize, Refusal> {
    file::version_without_pairs(file).map_err(|number| refusal(number, 1))?;
    check(file)?;
    let header = file::header(file).map_err(|number| refusal(number, 1))?;
    if !wanted.has_room_for(header.names) {
        return Err(refusal(40, 1));
    }
    let rewritten = file::rewritten(file, &header, wanted);
    let place = out.get_mut(..rewritten.len()).ok_or(refusal(41, 0))?;
    place.copy_from_slice(&rewritten);
    Ok(rewritten.len())
}

#[cfg(test)]
mod tests {
    use super::*;
    use crate::calls::{Buffers, Call};
    use crate::{inputs, practice, questions};
    use std::path::Path;

    /// Large sets give the same answers as small ones, on all inputs that both have room for.
    #[test]
    fn both_sizes_of_sets_agree() {
        let folder = Path::new(env!("CARGO_MANIFEST_DIR")).join("data");
        let made = practice::inputs().into_iter().chain(questions::inputs());
        for input in inputs::from_folder(&folder).into_iter().chain(made) {
            let mut small = Buffers::for_names(input.call.names());
            let mut large = small.clone();
            let same = match &input.call {
                Call::Compare { first, second, signature } => {
                    let Buffers { result, role_result, work, .. } = &mut small;
                    let answer = compare_in::<SMALL>(first, second, signature, result, role_result, work);
                    let Buffers { result, role_result, work, .. } = &mut large;
                    answer == compare_in::<LARGE>(first, second, signature, result, role_result, work)
                }
                Call::Ask { file, below, above } => {
                    ask_in::<SMALL>(file, below, above, &mut small.work)
                        == ask_in::<LARGE>(file, below, above, &mut large.work)
                }
            };
            assert!(same && small == large, "{}", input.name);
        }
    }
}
