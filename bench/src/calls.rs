//! Both implementations behind one form: a call with its buffers, and what it answers.

use crate::baseline::{self, Refusal};
use crate::ours;

#[derive(Clone, Copy, PartialEq, Eq)]
pub enum Implementation {
    Ours,
    Baseline,
}

pub fn baseline_ask(file: &[u8], below: &[u8], above: &[u8], work: &mut [u8]) -> Result<u32, Refusal> {
    baseline::ask(file, below, above, work).map(u32::from)
}

/// A call to measure.
#[derive(Clone)]
pub enum Call {
    Compare { first: Vec<u8>, second: Vec<u8>, signature: Vec<u8> },
    Ask { file: Vec<u8>, below: Vec<u8>, above: Vec<u8> },
}

/// What a call is lent and answers: a question its value, a comparison 0.
#[derive(Clone, PartialEq, Eq)]
pub struct Buffers {
    pub result: Vec<u8>,
    pub role_result: Vec<u8>,
    pub work: Vec<u8>,
    pub answer: Result<u32, Refusal>,
}

/// What the buffers hold before each call. It is not 0, so no call can rely on cleared memory, and a byte that is not
/// written shows.
const FILLED: u8 = 0xA5;

/// Bytes more than a call needs, which it has to leave alone.
const SPARE: usize = 8;

/// The bytes of the role result of a release with 32 roles.
pub const MOST_PAIRS: usize = 32 * 32;

impl Buffers {
    pub fn for_names(names: usize) -> Buffers {
        Buffers::of(names + SPARE, MOST_PAIRS + SPARE, 4 * (names + 1) * (names + 1) + SPARE)
    }

    pub fn of(result: usize, role_result: usize, work: usize) -> Buffers {
        let lent = |length| vec![FILLED; length];
        Buffers { result: lent(result), role_result: lent(role_result), work: lent(work), answer: Ok(0) }
    }

    pub fn refill(&mut self) {
        self.result.fill(FILLED);
        self.role_result.fill(FILLED);
        self.work.fill(FILLED);
        self.answer = Ok(0);
    }
}

impl Call {
    /// The release files.
    pub fn files(&self) -> impl Iterator<Item = &[u8]> {
        let files = match self {
            Call::Compare { first, second, .. } => [Some(first), Some(second)],
            Call::Ask { file, .. } => [Some(file), None],
        };
        files.into_iter().flatten().map(Vec::as_slice)
    }

    /// How many names the (first) release has.
    pub fn names(&self) -> usize {
        let (Call::Compare { first: file, .. } | Call::Ask { file, .. }) = self;
        baseline::names_of(file)
    }

    pub fn run(&self, by: Implementation, buffers: &mut Buffers) {
        let Buffers { result, role_result, work, answer } = buffers;
        *answer = match (self, by) {
            (Call::Compare { first, second, signature }, Implementation::Ours) => {
                ours::compare(first, second, signature, result, role_result, work).map(|()| 0)
            }
            (Call::Compare { first, second, signature }, Implementation::Baseline) => {
                baseline::compare(first, second, signature, result, role_result, work).map(|()| 0)
            }
            (Call::Ask { file, below, above }, Implementation::Ours) => ours::ask(file, below, above, work),
            (Call::Ask { file, below, above }, Implementation::Baseline) => baseline_ask(file, below, above, work),
        }
    }
}
