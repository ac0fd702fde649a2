//! A sheet of 64 branches beside 64 single comparisons of the proved library.
//!
//! A sheet makes the two classifications once. What is to be expected of it at most is the time of the single comparisons without
//! the classifications of all but one: the column before the last. The time of the classifications is that of a sheet without branches, less that
//! of a comparison which is refused after both files were read.

use crate::baseline::{self, Refusal};
use crate::calls::{Buffers, Call};
use crate::inputs::Input;
use crate::ours::{self, Row, ROUND_DOWN, ROUND_TO_NEAREST};
use std::hint::black_box;
use std::time::{Duration, Instant};

const BRANCHES: usize = 64;

/// How often each is timed at least, and when it has been often enough.
const A_FEW: usize = 3;
const OFTEN_ENOUGH: usize = 50;
const LONG_ENOUGH: Duration = Duration::from_millis(400);

struct Sheet<'a> {
    first: &'a [u8],
    second: &'a [u8],
    signatures: Vec<Vec<u8>>,
    names: usize,
}

/// The signatures of an input: its own, and others that choose a part of its names and roles. Each is another, by a simple rule.
fn signatures(own: &[u8]) -> Vec<Vec<u8>> {
    let part =
        |branch: usize, (place, &byte): (usize, &u8)| byte & u8::from((place * (2 * branch + 1) + branch) % 7 < 5);
    let others = (1..BRANCHES).map(|branch| own.iter().enumerate().map(|byte| part(branch, byte)).collect());
    std::iter::once(own.to_vec()).chain(others).collect()
}

impl Sheet<'_> {
    fn of(input: &Input) -> Option<Sheet<'_>> {
        let Call::Compare { first, second, signature } = &input.call else {
            return None;
        };
        let names = baseline::names_of(first);
        Some(Sheet { first, second, signatures: signatures(signature), names })
    }

    /// The rows of the first `count` branches, by a rule.
    fn rows(&self, count: usize, rule: usize, buffers: &mut Buffers) -> Vec<Row> {
        let mut rows = vec![Row::default(); count];
        let together = self.signatures[..count].concat();
        let answer =
            ours::compare_branches(self.first, self.second, &together, count, rule, &mut buffers.work, &mut rows);
        assert_eq!(answer, Ok(()), "a sheet that is refused");
        rows
    }

    fn compare(&self, signature: &[u8], buffers: &mut Buffers) -> Result<(), Refusal> {
        let Buffers { result, role_result, work, .. } = buffers;
        ours::compare(self.first, self.second, signature, result, role_result, work)
    }

    /// The row that a single comparison tells, by a rule.
    fn single(&self, signature: &[u8], rule: usize, buffers: &mut Buffers) -> Row {
        assert_eq!(self.compare(signature, buffers), Ok(()), "a comparison that is refused");
        ours::row_of(rule, signature, &buffers.result[..self.names])
    }

    fn agrees(&self) -> bool {
        let mut buffers = Buffers::for_names(self.names);
        [ROUND_DOWN, ROUND_TO_NEAREST].into_iter().all(|rule| {
            let rows = self.rows(BRANCHES, rule, &mut buffers);
            self.signatures.iter().zip(rows).all(|(signature, row)| self.single(signature, rule, &mut buffers) == row)
        })
    }

    /// Microseconds: the sheet, the single comparisons together, the classifications.
    fn times(&self) -> [f64; 3] {
        let mut buffers = Buffers::for_names(self.names);
        let mut refused = vec![0; self.signatures[0].len()];
        if let Some(last) = refused.last_mut() {
            *last = 2;
        }
        let mut best = [Duration::MAX; 4];
        let start = Instant::now();
        for done in 1..=OFTEN_ENOUGH {
            let mut timed = |place: usize, run: &mut dyn FnMut(&mut Buffers)| {
                buffers.refill();
                let start = Instant::now();
                run(&mut buffers);
                best[place] = best[place].min(start.elapsed());
            };
            timed(0, &mut |buffers| {
                black_box(self.rows(BRANCHES, ROUND_DOWN, buffers));
            });
            timed(1, &mut |buffers| {
                for signature in &self.signatures {
                    _ = black_box(self.compare(signature, buffers));
                }
            });
            timed(2, &mut |buffers| {
                black_box(self.rows(0, ROUND_DOWN, buffers));
            });
            timed(3, &mut |buffers| {
                _ = black_box(self.compare(&refused, buffers));
            });
            if start.elapsed() > LONG_ENOUGH && done >= A_FEW {
                break;
            }
        }
        let [sheet, singles, none, refused] = best.map(|time| time.as_secs_f64() * 1e6);
        [sheet, singles, none - refused]
    }
}

/// A table of the inputs; whether each row is what a single comparison tells.
pub fn table(inputs: &[Input]) -> bool {
    println!(
        "{:42} {:>12} {:>12} {:>14} {:>12} {:>7}",
        "sheet of 64 branches", "sheet µs", "64 single", "classification", "at most", "ratio"
    );
    let mut all_agree = true;
    let mut worst: f64 = 0.0;
    for input in inputs {
        let Some(sheet) = Sheet::of(input) else {
            continue;
        };
        if !sheet.agrees() {
            println!("DIFFERENT: {}", input.name);
            all_agree = false;
            continue;
        }
        let [together, singles, classification] = sheet.times();
        let most = singles - (BRANCHES - 1) as f64 * classification;
        worst = worst.max(together / most);
        println!(
            "{:42} {together:>12.1} {singles:>12.1} {classification:>14.1} {most:>12.1} {:>7.2}",
            input.name,
            together / most
        );
    }
    println!("worst ratio {worst:.2}");
    all_agree
}

/// A sheet of the input, `count` times: for counting instructions. Whether the input is a comparison.
pub fn repeat(input: &Input, count: usize) -> bool {
    let Some(sheet) = Sheet::of(input) else {
        return false;
    };
    let mut buffers = Buffers::for_names(sheet.names);
    for _ in 0..count {
        black_box(sheet.rows(BRANCHES, ROUND_DOWN, &mut buffers));
    }
    true
}
