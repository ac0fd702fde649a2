//! Times of both implementations on the same inputs, after a check that they agree in every byte.

use crate::baseline::Refusal;
use crate::calls::{Buffers, Implementation};
use crate::inputs::Input;
use crate::ours;
use std::time::{Duration, Instant};

pub struct Measured {
    pub name: String,
    pub ours: f64,
    pub baseline: f64,
    pub answer: Result<u32, Refusal>,
}

impl Measured {
    pub fn ratio(&self) -> f64 {
        self.ours / self.baseline
    }
}

/// An input is repeated until it was often enough, or long enough and at least a few times, or far too long.
const OFTEN_ENOUGH: usize = 1000;
const LONG_ENOUGH: Duration = Duration::from_millis(60);
const A_FEW: usize = 3;
const TOO_LONG: Duration = Duration::from_secs(2);

/// What an implementation answers and leaves in the buffers.
fn outcome(input: &Input, by: Implementation) -> Buffers {
    let mut buffers = Buffers::for_names(input.call.names());
    input.call.run(by, &mut buffers);
    buffers
}

/// The time of one call. The buffers are filled again before it, outside of the time.
fn time(input: &Input, by: Implementation, buffers: &mut Buffers) -> Duration {
    buffers.refill();
    let start = Instant::now();
    input.call.run(by, buffers);
    start.elapsed()
}

/// Microseconds of the quickest call by ours and by the baseline. They take turns, so that what else the machine does
/// meets both.
fn best_times(input: &Input) -> (f64, f64) {
    let mut buffers = Buffers::for_names(input.call.names());
    let (mut ours, mut baseline) = (Duration::MAX, Duration::MAX);
    let start = Instant::now();
    for done in 1..=OFTEN_ENOUGH {
        ours = ours.min(time(input, Implementation::Ours, &mut buffers));
        baseline = baseline.min(time(input, Implementation::Baseline, &mut buffers));
        let taken = start.elapsed();
        if taken > TOO_LONG || taken > LONG_ENOUGH && done >= A_FEW {
            break;
        }
    }
    (ours.as_secs_f64() * 1e6, baseline.as_secs_f64() * 1e6)
}

/// Times of one input, or none where the implementations differ.
pub fn measure(input: &Input) -> Option<Measured> {
    let expected = outcome(input, Implementation::Baseline);
    if outcome(input, Implementation::Ours) != expected {
        return None;
    }
    let (ours, baseline) = best_times(input);
    Some(Measured { name: input.name.clone(), ours, baseline, answer: expected.answer })
}

/// Measures all inputs; names those where the implementations differ, and gives whether there are none.
pub fn measure_all(inputs: &[Input]) -> (Vec<Measured>, bool) {
    let mut measured = Vec::new();
    let mut agree = true;
    for input in inputs {
        match measure(input) {
            Some(times) => measured.push(times),
            None => {
                println!("DIFFERENT: {}", input.name);
                agree = false;
            }
        }
    }
    (measured, agree)
}

const WIDTH: usize = 52;

pub fn print_heading(what: &str) {
    println!("{what:WIDTH$} {:>14} {:>14} {:>8}", format!("{} µs", ours::NAME), "baseline µs", "ratio");
}

pub fn print_row(row: &Measured) {
    println!("{:WIDTH$} {:>14.1} {:>14.1} {:>8.2}", row.name, row.ours, row.baseline, row.ratio());
}

/// The middle and the largest of the times and ratios.
pub fn print_summary(rows: &[Measured]) {
    let Some(worst) = rows.iter().max_by(|a, b| a.ratio().total_cmp(&b.ratio())) else {
        return;
    };
    println!("{} inputs", rows.len());
    for (label, pick) in [("median", middle as fn(Vec<f64>) -> f64), ("worst", largest)] {
        let ours = pick(rows.iter().map(|row| row.ours).collect());
        let baseline = pick(rows.iter().map(|row| row.baseline).collect());
        let ratio = pick(rows.iter().map(Measured::ratio).collect());
        println!("{label:WIDTH$} {ours:>14.1} {baseline:>14.1} {ratio:>8.2}");
    }
    println!("worst ratio at {}", worst.name);
}

fn middle(mut numbers: Vec<f64>) -> f64 {
    numbers.sort_by(f64::total_cmp);
    numbers[numbers.len() / 2]
}

fn largest(numbers: Vec<f64>) -> f64 {
    numbers.into_iter().fold(0.0, f64::max)
}
