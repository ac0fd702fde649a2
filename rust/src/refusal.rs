//! Refusals, as the error of every call.

use std::error::Error;
use std::fmt;

/// Why a call is refused: a number of `docs/FORMAT.md`, and the side of the release or concept concerned, 1 or 2, else 0.
#[derive(Clone, Copy, Debug, PartialEq, Eq, PartialOrd, Ord, Hash)]
pub struct Refusal {
    pub number: u8,
    pub side: u8,
}

impl Refusal {
    /// What a call that returned this code says: 0, or number × 256 + side of a refusal.
    pub(crate) fn of(code: u32) -> Result<(), Refusal> {
        match code {
            0 => Ok(()),
            _ => Err(Refusal { number: (code / 256) as u8, side: (code % 256) as u8 }),
        }
    }

    /// What the number means.
    pub fn meaning(self) -> &'static str {
        match (self.number, self.side) {
            (1, _) => "the release file is shorter than its header",
            (2, _) => "the release file does not begin with ELT",
            (3, 0) => "the wanted version is neither 1 nor 2",
            (3, _) => "the release file has no version that this call reads",
            (4, 0) => "more names than a release can have",
            (4, _) => "the release has more names than its version of the file can have",
            (5, 0) => "more roles than a release can have",
            (5, _) => "the release has more than 32 roles",
            (6, _) => "the release has more axioms than names",
            (7, _) => "the release file ends inside an axiom or a pair of roles",
            (8, _) => "the kind of an axiom is not 1 to 4",
            (9, _) => "a left name, a conjunct or a filler is out of range",
            (10, _) => "a left name is not above the one before",
            (11, _) => "a role is out of range",
            (12, _) => "an axiom has more than 16 conjuncts",
            (13, _) => "the conjuncts of an axiom do not rise",
            (14, _) => "the release file has bytes after its last axiom",
            (15, _) => "a conjunct is itself the left name of an axiom of kind 2",
            (16, _) => "the releases differ in their numbers of names or roles",
            (17, _) => "the signature's length is not that of the names and roles",
            (18, _) => "a byte of the signature is above 1",
            (19, _) => "the concept is not of the layout of concepts",
            (31, _) => "the result is shorter than the names",
            (32, _) => "the work memory is shorter than 4 × (n + 1) × (n + 1) bytes for n names, and to check k rows 2 × (n + 1) × k more",
            (33, _) => "the output is shorter than the longest report",
            (40, _) => "the release has more names than the wanted version can have",
            (41, _) => "the output is shorter than the rewritten file",
            (42, _) => "more than 64 signatures",
            (43, _) => "fewer rows than signatures",
            (44, _) => "fewer rows than (n + 2) × (n + 2) × (n + 2) for n names",
            (46, _) => "there is no such side, or the session cannot be edited",
            (47, _) => "the name has an axiom already",
            (48, _) => "the name has no axiom",
            (49, _) => "the pairs of roles do not rise",
            (50, _) => "the role result is shorter than m × m bytes for m roles",
            (51, _) => "the result has more than 1,023 bytes or one above 3, or the output is shorter than the page",
            (52, _) => "the output is shorter than the practice release",
            (53, _) => "the rule for the share is neither 1 nor 2",
            _ => "a number that this version does not know",
        }
    }
}

impl fmt::Display for Refusal {
    fn fmt(&self, out: &mut fmt::Formatter<'_>) -> fmt::Result {
        write!(out, "refused {} side {}: {}", self.number, self.side, self.meaning())
    }
}

impl Error for Refusal {}
