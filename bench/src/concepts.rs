//! Concepts shown, and checked: agreement with the baseline on random inputs, how many rows and which depth the concepts of the inputs
//! have, and what both calls take beside the input's own comparison.
//!
//! The baseline writes no concept. It tells whether one is to be written, and checks the rows that are.

use crate::agreement;
use crate::baseline::{self, Asked, Refusal};
use crate::calls::{Buffers, Call, Implementation, MOST_PAIRS};
use crate::inputs::{Input, Kind};
use crate::ours::{self, ConceptRow};
use crate::practice::Draws;
use crate::vectors;
use std::collections::BTreeMap;
use std::hint::black_box;
use std::path::Path;

const LEFT: usize = 1;
const RIGHT: usize = 2;

/// What work memory and rows hold before a call. Where many rows are lent they are 0, on pages that nothing has touched.
const FILLED: u8 = 0xA5;
const NO_ROW: ConceptRow = [u32::MAX; 3];
const UNTOUCHED: ConceptRow = [0; 3];
const MANY_NAMES: usize = 32;

/// How many rows are lent to show a concept.
fn rows_needed(names: usize) -> usize {
    (names + 2).pow(3)
}

fn work_needed(names: usize, rows: usize) -> usize {
    4 * (names + 1) * (names + 1) + 2 * (names + 1) * rows
}

fn lent_rows(names: usize, count: usize) -> Vec<ConceptRow> {
    vec![if names < MANY_NAMES { NO_ROW } else { UNTOUCHED }; count]
}

/// Whether the rows are as they were lent. Of many only some are looked at.
fn are_as_lent(names: usize, rows: &[ConceptRow]) -> bool {
    if names < MANY_NAMES {
        rows.iter().all(|&row| row == NO_ROW)
    } else {
        rows.iter().take(1000).chain(rows.last()).all(|&row| row == UNTOUCHED)
    }
}

/// One of the names that are reported, and a side on which it is.
fn some_reported(first: &[u8], second: &[u8], signature: &[u8], draws: &mut Draws) -> Option<(usize, usize)> {
    let names = baseline::names_of(first);
    let (mut result, mut work) = (vec![0; names], vec![FILLED; work_needed(names, 0)]);
    baseline::compare(first, second, signature, &mut result, &mut [0; MOST_PAIRS], &mut work).ok()?;
    let pairs = (0..names).flat_map(|name| [(name, LEFT), (name, RIGHT)]);
    let all: Vec<(usize, usize)> = pairs.filter(|&(name, side)| result[name] as usize & side != 0).collect();
    (!all.is_empty()).then(|| all[draws.below(all.len())])
}

/// One random input: what is asked, the rows and the work memory that are lent.
struct Drawn {
    first: Vec<u8>,
    second: Vec<u8>,
    signature: Vec<u8>,
    name: usize,
    side: usize,
    lent: usize,
    work: usize,
}

impl Drawn {
    fn of(kind: Kind, draws: &mut Draws) -> Drawn {
        let call = agreement::some_comparison(kind, draws);
        let names = call.names();
        let Call::Compare { first, second, signature } = call else { unreachable!("a comparison was drawn") };
        let any_name = if draws.chance(5) { usize::MAX } else { draws.below(names + 2) };
        let any_side = [LEFT, RIGHT, LEFT, RIGHT, LEFT, RIGHT, 0, 3, 257][draws.below(9)];
        let reported = some_reported(&first, &second, &signature, draws).filter(|_| draws.chance(80));
        let (name, side) = reported.unwrap_or((any_name, any_side));
        Drawn {
            name,
            side,
            lent: agreement::length(rows_needed(names), draws),
            work: agreement::length(work_needed(names, 0), draws),
            first,
            second,
            signature,
        }
    }

    fn asked(&self) -> Asked<'_> {
        let Drawn { first, second, signature, name, side, .. } = self;
        Asked { first, second, signature, name: *name, side: *side }
    }

    /// The concept shown, where all that the baseline can tell of it is so, and which refusal was met.
    fn shown(&self) -> Option<(Result<(), Refusal>, Vec<ConceptRow>)> {
        let names = baseline::names_of(&self.first);
        let mut rows = lent_rows(names, self.lent);
        let (mut ours, mut theirs) = (vec![FILLED; self.work], vec![FILLED; self.work]);
        let answer = ours::show_concept(self.asked(), &mut rows, &mut ours);
        let reported = baseline::shows(self.asked(), 3 * self.lent, &mut theirs);
        let count = answer.unwrap_or(0);
        let same = answer.map(|count| count > 0) == reported && ours == theirs && are_as_lent(names, &rows[count..]);
        rows.truncate(count);
        let accepted = work_needed(names, count);
        let passes = count == 0 || self.checked(&rows, accepted) == Some(Ok(true));
        (same && passes).then_some((answer.map(|_| ()), rows))
    }

    /// What checking the rows answers, if both answer the same and leave the same memory.
    fn checked(&self, rows: &[ConceptRow], work: usize) -> Option<Result<bool, Refusal>> {
        let (mut ours, mut theirs) = (vec![FILLED; work], vec![FILLED; work]);
        let answer = ours::check_concept(self.asked(), rows, &mut ours);
        let expected = baseline::check_concept(self.asked(), rows.as_flattened(), &mut theirs);
        (answer == expected && ours == theirs).then_some(answer)
    }
}

/// A row that is mostly well formed; `names` and `roles` may be 0.
fn random_row(at: usize, names: usize, roles: usize, draws: &mut Draws) -> ConceptRow {
    let earlier = |draws: &mut Draws| draws.below(at.max(1)) as u32;
    match draws.below(9) {
        0 => [0, 0, 0],
        1..=3 => [1, draws.below(names.max(1)) as u32, 0],
        4 | 5 if at > 0 => [2, earlier(draws), earlier(draws)],
        6 | 7 if at > 0 => [3, draws.below(roles.max(1)) as u32, earlier(draws)],
        _ => [0; 3].map(|_: u32| [0, 1, 2, 3, 4, 255, 256, u32::MAX][draws.below(8)]),
    }
}

/// Rows to be checked: those shown, at times with a number changed or a row more; else random ones.
fn rows_to_check(drawn: &Drawn, shown: &[ConceptRow], draws: &mut Draws) -> Vec<ConceptRow> {
    let names = baseline::names_of(&drawn.first);
    let roles = drawn.signature.len().saturating_sub(names);
    let mut rows = shown.to_vec();
    if rows.is_empty() || draws.chance(30) {
        rows = Vec::new();
        for at in 0..draws.below(9) {
            rows.push(random_row(at, names, roles, draws));
        }
    } else if draws.chance(60) {
        let at = draws.below(rows.len());
        match draws.below(4) {
            0 => rows.push(random_row(rows.len(), names, roles, draws)),
            1 => rows.insert(at, random_row(at, names, roles, draws)),
            2 => rows[at][draws.below(3)] = draws.below(6) as u32,
            _ => rows.truncate(at + 1),
        }
    }
    rows
}

/// Tries so many inputs; prints how often each number was answered, and how often yes.
pub fn try_many(count: usize, kind: Kind) -> bool {
    let mut draws = Draws::from(0x5DEE_CE66_D1CE_5EED);
    let mut numbers: [BTreeMap<u8, usize>; 2] = Default::default();
    let (mut different, mut written, mut yes) = (0, 0, 0);
    let mut count_in = |place: usize, refusal: Option<Refusal>| {
        *numbers[place].entry(refusal.map_or(0, |refusal| refusal.number)).or_default() += 1;
    };
    for _ in 0..count {
        let drawn = Drawn::of(kind, &mut draws);
        let Some((answer, shown)) = drawn.shown() else {
            different += 1;
            continue;
        };
        count_in(0, answer.err());
        written += usize::from(!shown.is_empty());
        let rows = rows_to_check(&drawn, &shown, &mut draws);
        let work = agreement::length(work_needed(baseline::names_of(&drawn.first), rows.len()), &mut draws);
        let Some(answer) = drawn.checked(&rows, work) else {
            different += 1;
            continue;
        };
        count_in(1, answer.err());
        yes += usize::from(answer == Ok(true));
    }
    let [shows, checks] = numbers;
    println!("concept shown: {count} inputs, {written} written; refusals by number, 0 for accepted: {shows:?}");
    println!("rows checked: {count} inputs, {yes} times yes; refusals by number, 0 for accepted: {checks:?}");
    println!("{different} differ");
    different == 0
}

/// The most ∃ in each other.
fn depth(rows: &[ConceptRow]) -> usize {
    let mut depths: Vec<usize> = Vec::with_capacity(rows.len());
    for &[kind, one, other] in rows {
        depths.push(match kind {
            2 => depths[one as usize].max(depths[other as usize]),
            3 => depths[other as usize] + 1,
            _ => 0,
        });
    }
    depths.last().copied().unwrap_or(0)
}

#[repr(C)]
struct ProcessorTime {
    seconds: i64,
    nanoseconds: i64,
}

extern "C" {
    /// Of the C library.
    fn clock_gettime(clock: i32, time: *mut ProcessorTime) -> i32;
}

/// The processor time of this thread in microseconds: what else the machine does is not in it.
fn processor_time() -> f64 {
    const OF_THREAD: i32 = 3;
    let mut time = ProcessorTime { seconds: 0, nanoseconds: 0 };
    assert_eq!(unsafe { clock_gettime(OF_THREAD, &mut time) }, 0);
    time.seconds as f64 * 1e6 + time.nanoseconds as f64 / 1e3
}

/// The shortest of a few runs: at most nine, and no more than three once they took long.
fn shortest(mut run: impl FnMut()) -> f64 {
    const LONG_ENOUGH: f64 = 20_000.0;
    let mut best = f64::INFINITY;
    let begun = processor_time();
    for done in 1..=9 {
        let start = processor_time();
        run();
        let end = processor_time();
        best = best.min(end - start);
        if done >= 3 && end - begun > LONG_ENOUGH {
            break;
        }
    }
    best
}

/// A concept shown, and what it took beside the comparison.
struct Shown {
    name: usize,
    side: usize,
    rows: usize,
    depth: usize,
    show: f64,
    check: f64,
}

/// The concepts of one input.
struct OfInput {
    compare: f64,
    shown: Vec<Shown>,
    /// The longest call for a name that is not reported, by side.
    not_reported: f64,
}

/// At most so many names of a side are looked at where there are many names: each call takes long then.
const FEW: usize = 24;

/// Of many names a few, evenly spread.
fn spread(names: Vec<usize>, many: bool) -> Vec<usize> {
    let step = if many { names.len().div_ceil(FEW).max(1) } else { 1 };
    names.into_iter().step_by(step).collect()
}

/// Shows and checks the concepts of an input's reported names. None where a concept does not pass.
fn measure(input: &Input) -> Option<OfInput> {
    let Call::Compare { first, second, signature } = &input.call else {
        return None;
    };
    let names = baseline::names_of(first);
    let mut buffers = Buffers::for_names(names);
    let mut compare = || {
        let Buffers { result, role_result, work, .. } = &mut buffers;
        ours::compare(first, second, signature, result, role_result, work)
    };
    compare().ok()?;
    let compare = shortest(|| _ = black_box(compare()));
    let result = buffers.result[..names].to_vec();
    let mut rows = lent_rows(MANY_NAMES, rows_needed(names));
    let mut of_input = OfInput { compare, shown: Vec::new(), not_reported: 0.0 };
    for side in [LEFT, RIGHT] {
        let is_reported = |&name: &usize| result[name] as usize & side != 0;
        let (reported, others): (Vec<usize>, Vec<usize>) = (0..names).partition(is_reported);
        let asked = |name: usize| Asked { first, second, signature, name, side };
        for name in spread(others, true).into_iter().take(2) {
            let time = shortest(|| _ = black_box(ours::show_concept(asked(name), &mut rows, &mut buffers.work)));
            of_input.not_reported = of_input.not_reported.max(time);
        }
        for name in spread(reported, names > 127) {
            let count =
                ours::show_concept(asked(name), &mut rows, &mut buffers.work).ok().filter(|&count| count > 0)?;
            let show = shortest(|| _ = black_box(ours::show_concept(asked(name), &mut rows, &mut buffers.work)));
            let concept = rows[..count].to_vec();
            let mut work = vec![FILLED; work_needed(names, count)];
            let right = [
                ours::check_concept(asked(name), &concept, &mut work),
                baseline::check_concept(asked(name), concept.as_flattened(), &mut work),
            ];
            if right != [Ok(true); 2] {
                return None;
            }
            let check = shortest(|| _ = black_box(ours::check_concept(asked(name), &concept, &mut work)));
            of_input.shown.push(Shown { name, side, rows: count, depth: depth(&concept), show, check });
        }
    }
    Some(of_input)
}

fn middle(mut numbers: Vec<f64>) -> f64 {
    numbers.sort_by(f64::total_cmp);
    numbers.get(numbers.len() / 2).copied().unwrap_or(0.0)
}

fn largest(numbers: impl IntoIterator<Item = f64>) -> f64 {
    numbers.into_iter().fold(0.0, f64::max)
}

/// A table of the inputs; whether each concept passes.
pub fn table(inputs: &[Input]) -> bool {
    println!(
        "{:36} {:>10} {:>9} {:>10} {:>10} {:>10} {:>7} {:>10} {:>7}  slowest",
        "concepts shown", "compare µs", "concepts", "most rows", "most deep", "show µs", "ratio", "check µs", "ratio"
    );
    let mut all: Vec<OfInput> = Vec::new();
    let mut right = true;
    for input in inputs {
        let Some(found) = measure(input) else {
            println!("DIFFERENT: {}", input.name);
            right = false;
            continue;
        };
        let most = |pick: fn(&Shown) -> f64| largest(found.shown.iter().map(pick));
        let slowest = found.shown.iter().max_by(|one, other| one.show.total_cmp(&other.show));
        let slowest =
            slowest.map_or(String::new(), |shown| format!("{} {}", shown.name, ["left", "right"][shown.side - 1]));
        let (show, check) = (most(|shown| shown.show).max(found.not_reported), most(|shown| shown.check));
        println!(
            "{:36} {:>10.1} {:>9} {:>10} {:>10} {show:>10.1} {:>7.1} {check:>10.1} {:>7.1}  {slowest}",
            input.name,
            found.compare,
            found.shown.len(),
            most(|shown| shown.rows as f64),
            most(|shown| shown.depth as f64),
            show / found.compare,
            check / found.compare,
        );
        all.push(found);
    }
    for (label, side) in [("left", LEFT), ("right", RIGHT)] {
        let of_side = |pick: fn(&OfInput, &Shown) -> f64| -> Vec<f64> {
            let shown = all.iter().flat_map(|found| found.shown.iter().map(move |shown| (found, shown)));
            shown.filter(|(_, shown)| shown.side == side).map(|(found, shown)| pick(found, shown)).collect()
        };
        let both = |numbers: Vec<f64>| (middle(numbers.clone()), largest(numbers));
        let rows = both(of_side(|_, shown| shown.rows as f64));
        let depth = both(of_side(|_, shown| shown.depth as f64));
        let ratio = both(of_side(|found, shown| shown.show / found.compare));
        let check = both(of_side(|found, shown| shown.check / found.compare));
        println!(
            "{label}: {} concepts; median and most: rows {} {}, depth {} {}, show to compare {:.2} {:.2}, check to compare {:.2} {:.2}",
            of_side(|_, _| 0.0).len(), rows.0, rows.1, depth.0, depth.1, ratio.0, ratio.1, check.0, check.1
        );
    }
    right
}

/// Of the outside vectors that are reported: how many have at most 1 + 2 × `small` rows. Nine of ten are to.
pub fn against_small(folder: &Path) -> bool {
    let lines = vectors::reported(folder);
    let mut counts = [Vec::new(), Vec::new()];
    let (mut few, mut smalls) = (0, [0, 0]);
    for line in &lines {
        let asked = line.asked();
        let names = baseline::names_of(asked.first);
        let mut rows = lent_rows(names, rows_needed(names));
        let mut work = vec![FILLED; work_needed(names, 0)];
        let count = ours::show_concept(asked, &mut rows, &mut work).unwrap_or(0);
        few += usize::from(count > 0 && count <= 1 + 2 * line.small);
        counts[asked.side - 1].push(count as f64);
        smalls[asked.side - 1] += line.small;
    }
    println!("{} reported lines: {few} have at most 1 + 2 × small rows", lines.len());
    for (label, numbers, small) in [("left", &counts[0], smalls[0]), ("right", &counts[1], smalls[1])] {
        println!(
            "{label}: {} concepts, rows: median {}, most {}, all {}; small {small}",
            numbers.len(),
            middle(numbers.clone()),
            largest(numbers.iter().copied()),
            numbers.iter().sum::<f64>()
        );
    }
    few * 10 >= lines.len() * 9
}

/// The concept of a name, or of the first that is reported, shown, or checked, `count` times: for counting instructions. Whether there is one.
pub fn repeat(input: &Input, named: Option<usize>, check: bool, count: usize) -> bool {
    let Call::Compare { first, second, signature } = &input.call else {
        return false;
    };
    let names = baseline::names_of(first);
    let mut buffers = Buffers::for_names(names);
    input.call.run(Implementation::Ours, &mut buffers);
    if buffers.answer.is_err() {
        return false;
    }
    let first_reported = buffers.result[..names].iter().position(|&byte| byte != 0);
    let Some(name) = named.or(first_reported).filter(|&name| name < names && buffers.result[name] != 0) else {
        return false;
    };
    let side = if buffers.result[name] == 2 { RIGHT } else { LEFT };
    let asked = Asked { first, second, signature, name, side };
    let mut rows = lent_rows(MANY_NAMES, rows_needed(names));
    let mut written = 0;
    for _ in 0..if check { 1 } else { count } {
        written = ours::show_concept(asked, &mut rows, &mut buffers.work).unwrap_or(0);
    }
    let mut work = vec![FILLED; work_needed(names, written)];
    for _ in 0..if check { count } else { 0 } {
        _ = black_box(ours::check_concept(asked, &rows[..written], &mut work));
    }
    println!("{}: name {name} side {side}, {written} rows", input.name);
    true
}
