//! Sessions: agreement with the baseline on random starts and steps, byte for byte, and what a step takes beside the comparison of the files that
//! the session then holds.

use crate::agreement;
use crate::baseline::{self, Refusal};
use crate::calls::{Buffers, Call, MOST_PAIRS};
use crate::inputs::{Input, Kind};
use crate::ours;
use crate::practice::Draws;
use berrytick::{Session, SESSION_BYTES};
use std::collections::BTreeMap;
use std::hint::black_box;
use std::time::{Duration, Instant};

/// Where the bytes of the files start in a session, of the signature and of the result.
const FILES: [usize; 2] = [8, 8 + 2421];
const SIGNATURE: usize = FILES[1] + 2421;
const RESULT: usize = SIGNATURE + 159;

/// What work memory holds before a call.
const FILLED: u8 = 0xA5;

fn refusal(number: u8, side: u8) -> Refusal {
    Refusal { number, side }
}

/// The axioms of an accepted file of version 1, by left name.
fn axioms_of(file: &[u8]) -> BTreeMap<u8, Vec<u8>> {
    let mut rest = &file[8..];
    let mut axioms = BTreeMap::new();
    while let [left, kind, tail, ..] = *rest {
        let (axiom, after) = rest.split_at(if kind <= 2 { 3 + tail as usize } else { 4 });
        axioms.insert(left, axiom.to_vec());
        rest = after;
    }
    axioms
}

/// The file with these axioms in place of its own.
fn with_axioms(file: &[u8], axioms: &BTreeMap<u8, Vec<u8>>) -> Vec<u8> {
    let axioms: Vec<&[u8]> = axioms.values().map(Vec::as_slice).collect();
    [&file[..7], &[axioms.len() as u8], &axioms.concat()].concat()
}

/// A step, as the editor asks for it.
enum Edit {
    Add(Vec<u8>),
    Withdraw(usize),
}

/// A session as it is to be: its files and signature, and all its bytes.
struct Expected {
    files: [Vec<u8>; 2],
    signature: Vec<u8>,
    bytes: [u8; SESSION_BYTES],
}

impl Expected {
    fn put(&mut self, at: usize, content: &[u8]) {
        self.bytes[at..at + content.len()].copy_from_slice(content);
    }

    /// Compares these files; where that is not refused, the session holds them, with the bytes of their comparison.
    fn hold(&mut self, files: [Vec<u8>; 2], signature: Vec<u8>, work: &mut [u8]) -> Result<(), Refusal> {
        let mut result = vec![0; 127];
        baseline::compare(&files[0], &files[1], &signature, &mut result, &mut [0; MOST_PAIRS], work)?;
        let names = baseline::names_of(&files[0]);
        for (place, file) in files.iter().enumerate() {
            self.put(4 * place, &(file.len() as u32).to_le_bytes());
            self.put(FILES[place], file);
        }
        self.put(SIGNATURE, &signature);
        self.put(RESULT, &result[..names]);
        (self.files, self.signature) = (files, signature);
        Ok(())
    }

    fn start(files: [Vec<u8>; 2], signature: Vec<u8>, work: &mut [u8]) -> Result<Expected, Refusal> {
        for (file, side) in files.iter().zip(1..) {
            if file.len() >= 8 && file.starts_with(b"ELT") && file[3..5] != [1, 0] {
                return Err(refusal(3, side));
            }
            baseline::check(file).map_err(|met| refusal(met.number, side))?;
        }
        let mut session = Expected { files: Default::default(), signature: Vec::new(), bytes: [0; SESSION_BYTES] };
        session.hold(files, signature, work)?;
        Ok(session)
    }

    /// What the bytes of an axiom alone are refused for.
    fn refused(&self, axiom: &[u8]) -> Option<u8> {
        let header = &self.files[0][..7];
        if header[5] == 0 {
            return Some(if axiom.is_empty() { 7 } else { 9 });
        }
        let met = baseline::check(&[header, &[1], axiom].concat()).err()?;
        (met.number != 15).then_some(met.number)
    }

    fn step(&mut self, side: usize, edit: &Edit, work: &mut [u8]) -> Result<(), Refusal> {
        let (Some(place), told) = (side.checked_sub(1).filter(|&place| place < 2), side as u8) else {
            return Err(refusal(46, 0));
        };
        let mut axioms = axioms_of(&self.files[place]);
        match edit {
            Edit::Add(axiom) => {
                if let Some(number) = self.refused(axiom) {
                    return Err(refusal(number, told));
                }
                if axioms.insert(axiom[0], axiom.clone()).is_some() {
                    return Err(refusal(47, told));
                }
            }
            Edit::Withdraw(name) => {
                if *name >= baseline::names_of(&self.files[0]) {
                    return Err(refusal(9, told));
                }
                if axioms.remove(&(*name as u8)).is_none() {
                    return Err(refusal(48, told));
                }
            }
        }
        let mut files = self.files.clone();
        files[place] = with_axioms(&files[place], &axioms);
        self.hold(files, self.signature.clone(), work)
    }
}

/// An axiom of either file, at times damaged, or a name.
fn some_edit(files: &[Vec<u8>; 2], draws: &mut Draws) -> Edit {
    let names = baseline::names_of(&files[0]);
    let axioms = axioms_of(&files[draws.below(2)]);
    if axioms.is_empty() || draws.chance(45) {
        return Edit::Withdraw(if draws.chance(3) { usize::MAX } else { draws.below(names + 1) });
    }
    let mut axiom = axioms.values().nth(draws.below(axioms.len())).cloned().unwrap_or_default();
    if draws.chance(40) {
        axiom[0] = draws.below(names + 1) as u8;
    }
    Edit::Add(agreement::damage(axiom, draws))
}

fn run(session: &mut Session, side: usize, edit: &Edit, work: &mut [u8]) -> Result<(), Refusal> {
    match edit {
        Edit::Add(axiom) => ours::session_add(session, side, axiom, work),
        Edit::Withdraw(name) => ours::session_withdraw(session, side, *name, work),
    }
}

/// How many steps follow a start.
const STEPS: usize = 8;

/// A start and its steps: which refusals were met, 0 for none; none where ours and what is expected differ.
fn try_script(call: Call, draws: &mut Draws) -> Option<Vec<u8>> {
    let needed = 4 * (call.names() + 1) * (call.names() + 1);
    let Call::Compare { first, second, signature } = call else { unreachable!("a comparison was drawn") };
    let lent = |draws: &mut Draws| {
        let memory = vec![FILLED; agreement::length(needed, draws)];
        (memory.clone(), memory)
    };
    let number = |answer: Result<(), Refusal>| answer.map_or_else(|met| met.number, |()| 0);
    let (mut ours, mut theirs) = lent(draws);
    let started = ours::session_start(&first, &second, &signature, &mut ours);
    let expected = Expected::start([first, second], signature, &mut theirs);
    let answers = (started.as_ref().map(|_| ()).map_err(|&met| met), expected.as_ref().map(|_| ()).map_err(|&met| met));
    if answers.0 != answers.1 || ours != theirs {
        return None;
    }
    let (Ok(mut session), Ok(mut expected)) = (started, expected) else {
        return Some(vec![number(answers.0)]);
    };
    let mut numbers = vec![0];
    for _ in 0..STEPS {
        let side = [1, 2, 1, 2, 1, 2, 1, 2, 0, 3, 257][draws.below(11)];
        let edit = some_edit(&expected.files, draws);
        let (mut ours, mut theirs) = lent(draws);
        let answer = run(&mut session, side, &edit, &mut ours);
        let same = answer == expected.step(side, &edit, &mut theirs) && ours == theirs;
        if !same || session.bytes != expected.bytes {
            return None;
        }
        numbers.push(number(answer));
    }
    Some(numbers)
}

/// Tries so many scripts; prints how often each number was answered.
pub fn try_many(count: usize) -> bool {
    let mut draws = Draws::from(0x1D87_2B41_9C35_7F0D);
    let mut numbers: BTreeMap<u8, usize> = BTreeMap::new();
    let mut different = 0;
    for _ in 0..count {
        let kind = if draws.chance(80) { Kind::Narrow } else { [Kind::Wide, Kind::Pairs][draws.below(2)] };
        match try_script(agreement::some_comparison(kind, &mut draws), &mut draws) {
            Some(met) => met.into_iter().for_each(|number| *numbers.entry(number).or_default() += 1),
            None => different += 1,
        }
    }
    println!("sessions: {count} scripts; starts and steps by refusal, 0 for accepted: {numbers:?}");
    println!("{different} differ");
    different == 0
}

/// A session of an input, and an axiom of its first release: withdrawn, and added again.
struct Edited {
    session: Session,
    name: usize,
    axiom: Vec<u8>,
    signature: Vec<u8>,
    /// The first file with the axiom and without it, and the second.
    files: [Vec<u8>; 3],
    buffers: Buffers,
}

impl Edited {
    fn of(input: &Input, place: usize) -> Option<Edited> {
        let Call::Compare { first, second, signature } = &input.call else {
            return None;
        };
        let mut buffers = Buffers::for_names(127);
        let session = ours::session_start(first, second, signature, &mut buffers.work).ok()?;
        let mut axioms = axioms_of(first);
        let name = *axioms.keys().nth(place * axioms.len() / PLACES)?;
        let axiom = axioms.remove(&name)?;
        let files = [first.clone(), with_axioms(first, &axioms), second.clone()];
        Some(Edited { session, name: name.into(), axiom, signature: signature.clone(), files, buffers })
    }

    /// Withdraws the axiom, or adds it.
    fn step(&mut self, adds: bool) -> Result<(), Refusal> {
        let work = &mut self.buffers.work;
        if adds {
            ours::session_add(&mut self.session, 1, &self.axiom, work)
        } else {
            ours::session_withdraw(&mut self.session, 1, self.name, work)
        }
    }

    /// Compares the files that the session holds after such a step.
    fn compare(&mut self, adds: bool) -> Result<(), Refusal> {
        let first = &self.files[usize::from(!adds)];
        let Buffers { result, role_result, work, .. } = &mut self.buffers;
        ours::compare(first, &self.files[2], &self.signature, result, role_result, work)
    }
}

/// How many axioms of an input are withdrawn, evenly spread, and how often each is.
const PLACES: usize = 4;
const TIMES: usize = 20;

/// Microseconds of a step and of the comparison, the shortest of each, for adding and for withdrawing. None where one is refused.
fn times(input: &Input, place: usize) -> Option<[[f64; 2]; 2]> {
    let mut edited = Edited::of(input, place)?;
    let mut best = [[Duration::MAX; 2]; 2];
    for _ in 0..TIMES {
        for adds in [false, true] {
            let start = Instant::now();
            black_box(edited.step(adds)).ok()?;
            let stepped = start.elapsed();
            let start = Instant::now();
            black_box(edited.compare(adds)).ok()?;
            let [step, compare] = &mut best[usize::from(adds)];
            *step = stepped.min(*step);
            *compare = start.elapsed().min(*compare);
        }
    }
    Some(best.map(|pair| pair.map(|time| time.as_secs_f64() * 1e6)))
}

/// A table of the inputs: the step that takes longest beside its comparison. Whether none is refused.
pub fn table(inputs: &[Input]) -> bool {
    println!("{:42} {:>12} {:>12} {:>7}", "steps of sessions", "step µs", "compare µs", "ratio");
    let (mut right, mut ratios) = (true, Vec::new());
    for input in inputs {
        let found: Vec<[f64; 2]> = (0..PLACES).filter_map(|place| times(input, place)).flatten().collect();
        let ratio = |pair: &[f64; 2]| pair[0] / pair[1];
        let Some(worst) = found.iter().max_by(|one, other| ratio(one).total_cmp(&ratio(other))) else {
            println!("REFUSED: {}", input.name);
            right = false;
            continue;
        };
        println!("{:42} {:>12.1} {:>12.1} {:>7.2}", input.name, worst[0], worst[1], ratio(worst));
        ratios.push(ratio(worst));
    }
    ratios.sort_by(f64::total_cmp);
    println!(
        "{} inputs: ratio {:.2} at the median, {:.2} at the worst",
        ratios.len(),
        ratios[ratios.len() / 2],
        ratios[ratios.len() - 1]
    );
    right
}

/// COUNT times an axiom withdrawn and added again, or the two comparisons that these steps make: for counting instructions.
pub fn repeat(input: &Input, steps: bool, count: usize) -> bool {
    let Some(mut edited) = Edited::of(input, PLACES / 2) else {
        return false;
    };
    (0..count).all(|_| {
        [false, true].into_iter().all(|adds| if steps { edited.step(adds) } else { edited.compare(adds) }.is_ok())
    })
}
