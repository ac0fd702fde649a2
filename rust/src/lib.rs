//! Berrytick: the meaning of two releases of a terminology, compared over a signature.
//!
//! Each function is one of the proved calls that `include/berrytick.h` declares, with Rust's types: slices for what is lent, and
//! `Result<_, Refusal>` for what the call returns. None asks anything of its caller, and a refusal changes nothing that is lent.
//! `docs/FORMAT.md` has the files, signatures and concepts, and every refusal.
//!
//! ```
//! // Name 0 is defined as the conjunction of names 1 and 2, and in the next release as that of names 1 and 3.
//! let first = b"ELT\x01\x00\x04\x00\x01\x00\x02\x02\x01\x02";
//! let second = b"ELT\x01\x00\x04\x00\x01\x00\x02\x02\x01\x03";
//! // The branch has chosen names 0, 1 and 2.
//! let signature = [1, 1, 1, 0];
//!
//! let names = berrytick::check(first)?.names;
//! let mut result = vec![0; names];
//! let mut work = vec![0; berrytick::work_length(names)?];
//! // There are no roles, and so no pairs of them to tell of.
//! berrytick::compare(first, second, &signature, &mut result, &mut [], &mut work)?;
//! // Name 0 changed on both sides, name 2 on the right.
//! assert_eq!(result, [3, 0, 2, 0]);
//!
//! // A signature of another length is refused, and the error says why.
//! let refusal = berrytick::compare(first, second, &[1], &mut result, &mut [], &mut work).unwrap_err();
//! assert_eq!(refusal.number, 17);
//! assert_eq!(refusal.to_string(), "refused 17 side 0: the signature's length is not that of the names and roles");
//! # Ok::<(), berrytick::Refusal>(())
//! ```

mod calls;
mod refusal;
mod session;

pub use refusal::Refusal;
pub use session::Session;

/// The most names that a release can have.
pub const NAMES: usize = 1023;

/// The most roles that a release can have.
pub const ROLES: usize = 32;

/// The bytes of the longest release, in version 3 of the file.
pub const RELEASE_BYTES: usize = 37349;

/// The bytes of the longest file that a release is rewritten as, in version 2.
pub const REWRITTEN_BYTES: usize = 36838;

/// The bytes of the longest report. An output that is shorter is refused.
pub const REPORT_BYTES: usize = 6202;

/// The bytes of the longest page.
pub const PAGE_BYTES: usize = 16645;

/// The bytes of the longest practice release.
pub const PRACTICE_BYTES: usize = 897;

/// The rules for the share: down, and to the nearest, with an exact half to the even neighbour.
pub const ROUND_DOWN: usize = 1;

pub const ROUND_TO_NEAREST: usize = 2;

/// The bytes of a session, and those of the longest file and of the longest signature that one can hold.
pub const SESSION_BYTES: usize = 5136;

const SESSION_FILE_BYTES: usize = 2421;

const SESSION_SIGNATURE_BYTES: usize = 159;

/// The counts of an accepted release.
#[derive(Clone, Copy, Debug, PartialEq, Eq)]
pub struct Counts {
    pub names: usize,
    pub roles: usize,
    pub axioms: usize,
}

/// What a comparison tells of one branch.
#[repr(C)]
#[derive(Clone, Copy, Debug, Default, PartialEq, Eq)]
pub struct Row {
    /// The names chosen.
    pub chosen: u32,
    /// The names reported on the left, and on the right.
    pub left: u32,
    pub right: u32,
    /// The names reported, in thousandths of those chosen, rounded by a rule.
    pub share: u32,
}

/// The rows that are lent to show a concept of releases with this many names, at most [`NAMES`].
pub const fn concept_rows(names: usize) -> usize {
    (names + 2).pow(3)
}

/// Checks a release: its counts of names, roles and axioms.
pub fn check(file: &[u8]) -> Result<Counts, Refusal> {
    let mut counts = [0; 3];
    Refusal::of(unsafe { calls::berrytick_check(file.as_ptr(), file.len(), &mut counts) })?;
    let [names, roles, axioms] = counts.map(|count| count as usize);
    Ok(Counts { names, roles, axioms })
}

/// The bytes of work memory that releases of this many names need.
pub fn work_length(names: usize) -> Result<usize, Refusal> {
    let mut length = 0;
    Refusal::of(unsafe { calls::berrytick_work_length(names, &mut length) })?;
    Ok(length as usize)
}

/// Asks how two concepts lie by a release: 0 where neither lies below the other, 1 where only `below` lies below `above`, 2 where only
/// `above` lies below `below`, 3 where both do. The low bit is the yes of before, when the first of these was all that was asked.
pub fn ask(file: &[u8], below: &[u8], above: &[u8], work: &mut [u8]) -> Result<u32, Refusal> {
    let mut answer = 0;
    Refusal::of(unsafe {
        calls::berrytick_ask(
            file.as_ptr(),
            file.len(),
            below.as_ptr(),
            below.len(),
            above.as_ptr(),
            above.len(),
            &mut answer,
            work.as_mut_ptr(),
            work.len(),
        )
    })?;
    Ok(answer)
}

/// Shows the axiom of a name by the release on a side, 1 or 2, as a part of whichever file holds it. Never refuses: where there is none, the
/// part is empty, at the start of the first file.
pub fn show<'a>(first: &'a [u8], second: &'a [u8], side: usize, name: usize) -> Result<&'a [u8], Refusal> {
    let mut place = [0; 3];
    Refusal::of(unsafe {
        calls::berrytick_show(first.as_ptr(), first.len(), second.as_ptr(), second.len(), side, name, &mut place)
    })?;
    let [holder, start, length] = place.map(|number| number as usize);
    let file = if holder == 2 { second } else { first };
    Ok(&file[start..start + length])
}

/// Compares two releases over a signature: a byte of the result for each name, 0 unchanged or not chosen, 1 changed in what follows from it
/// (left), 2 changed in what it follows from (right), 3 both; and a byte of the role result for each two of the m roles, that of r and s at
/// r × m + s, 1 where both are chosen and r lies under s by the first release and not by the second, else 0. Releases are equal over a
/// signature where both orders report no name and no pair of roles.
pub fn compare(
    first: &[u8],
    second: &[u8],
    signature: &[u8],
    result: &mut [u8],
    role_result: &mut [u8],
    work: &mut [u8],
) -> Result<(), Refusal> {
    Refusal::of(unsafe {
        calls::berrytick_compare(
            first.as_ptr(),
            first.len(),
            second.as_ptr(),
            second.len(),
            signature.as_ptr(),
            signature.len(),
            result.as_mut_ptr(),
            result.len(),
            role_result.as_mut_ptr(),
            role_result.len(),
            work.as_mut_ptr(),
            work.len(),
        )
    })
}

/// Compares two releases over `count` signatures, which stand one after another: a row for each, with a share by the rule of this number,
/// [`ROUND_DOWN`] or [`ROUND_TO_NEAREST`]. Rows tell of names only.
pub fn compare_branches(
    first: &[u8],
    second: &[u8],
    signatures: &[u8],
    count: usize,
    rule: usize,
    work: &mut [u8],
    rows: &mut [Row],
) -> Result<(), Refusal> {
    Refusal::of(unsafe {
        calls::berrytick_compare_branches(
            first.as_ptr(),
            first.len(),
            second.as_ptr(),
            second.len(),
            signatures.as_ptr(),
            signatures.len(),
            count,
            rule,
            work.as_mut_ptr(),
            work.len(),
            rows.as_mut_ptr(),
            rows.len(),
        )
    })
}

/// Compares two releases over a signature and writes the report, ASCII, to the start of the output: its length. The output is as long as the
/// longest report, [`REPORT_BYTES`]. It tells of names only: of releases with pairs of roles that report no name in either order, [`compare`]
/// tells whether they are equal.
pub fn report(
    first: &[u8],
    second: &[u8],
    signature: &[u8],
    output: &mut [u8],
    work: &mut [u8],
) -> Result<usize, Refusal> {
    let mut length = 0;
    Refusal::of(unsafe {
        calls::berrytick_report(
            first.as_ptr(),
            first.len(),
            second.as_ptr(),
            second.len(),
            signature.as_ptr(),
            signature.len(),
            output.as_mut_ptr(),
            output.len(),
            &mut length,
            work.as_mut_ptr(),
            work.len(),
        )
    })?;
    Ok(length as usize)
}

/// How long the page of a result is, at most [`PAGE_BYTES`].
pub fn page_length(result: &[u8]) -> Result<usize, Refusal> {
    let mut length = 0;
    Refusal::of(unsafe { calls::berrytick_page_length(result.as_ptr(), result.len(), &mut length) })?;
    Ok(length as usize)
}

/// Writes the page of a result, for the desk wall, to the start of the output: its length. The names that the result reports stand four to a line,
/// in ASCII; byte 12 follows each 50th line. The result is the whole slice: of a longer one that was lent to [`compare`], its first n bytes.
pub fn page(result: &[u8], output: &mut [u8]) -> Result<usize, Refusal> {
    let mut length = 0;
    Refusal::of(unsafe {
        calls::berrytick_page(result.as_ptr(), result.len(), output.as_mut_ptr(), output.len(), &mut length)
    })?;
    Ok(length as usize)
}

/// Shows a concept for a name that a comparison reports on a side, 1 (left) or 2 (right): the number of rows written, of which the last is the
/// concept. It is made of the signature's names and roles, and lies above the name (left), or below it (right), by the first release and not by
/// the second. No row is written where the name is not reported on that side, or there is no such name or side. Rows lent: [`concept_rows`].
///
/// A row is `[0, 0, 0]` for ⊤, `[1, name, 0]`, `[2, i, j]` for the conjunction of rows i and j, or `[3, role, i]` for ∃ of row i by that role;
/// i and j are earlier rows, counted from 0.
pub fn show_concept(
    first: &[u8],
    second: &[u8],
    signature: &[u8],
    name: usize,
    side: usize,
    rows: &mut [[u32; 3]],
    work: &mut [u8],
) -> Result<usize, Refusal> {
    let mut count = 0;
    Refusal::of(unsafe {
        calls::berrytick_show_concept(
            first.as_ptr(),
            first.len(),
            second.as_ptr(),
            second.len(),
            signature.as_ptr(),
            signature.len(),
            name,
            side,
            rows.as_mut_ptr().cast(),
            3 * rows.len(),
            &mut count,
            work.as_mut_ptr(),
            work.len(),
        )
    })?;
    Ok(count as usize)
}

/// Checks rows from any editor for a name and a side: 1 where each row is one of [`show_concept`]'s forms over the signature and the last shows
/// the difference, 0 for no. Of work memory it needs 2 × (n + 1) bytes more a row than [`work_length`] tells of n names.
pub fn check_concept(
    first: &[u8],
    second: &[u8],
    signature: &[u8],
    name: usize,
    side: usize,
    rows: &[[u32; 3]],
    work: &mut [u8],
) -> Result<u32, Refusal> {
    let mut answer = 0;
    Refusal::of(unsafe {
        calls::berrytick_check_concept(
            first.as_ptr(),
            first.len(),
            second.as_ptr(),
            second.len(),
            signature.as_ptr(),
            signature.len(),
            name,
            side,
            rows.as_ptr().cast(),
            3 * rows.len(),
            &mut answer,
            work.as_mut_ptr(),
            work.len(),
        )
    })?;
    Ok(answer)
}

/// Writes a release of version 1 or 2 as a file of the wanted version, 1 or 2, to the start of the output: its length, at most
/// [`REWRITTEN_BYTES`].
pub fn rewrite(file: &[u8], wanted: usize, output: &mut [u8]) -> Result<usize, Refusal> {
    let mut length = 0;
    Refusal::of(unsafe {
        calls::berrytick_rewrite(file.as_ptr(), file.len(), wanted, output.as_mut_ptr(), output.len(), &mut length)
    })?;
    Ok(length as usize)
}

/// Writes the practice release of a seed as a file of version 1 to the start of the output: its length, at most [`PRACTICE_BYTES`]. The same seed and the
/// same numbers of names and roles give the same file on each machine and at each call; it is accepted, with these numbers.
pub fn practice(seed: u32, names: usize, roles: usize, output: &mut [u8]) -> Result<usize, Refusal> {
    let mut length = 0;
    Refusal::of(unsafe {
        calls::berrytick_practice(seed, names, roles, output.as_mut_ptr(), output.len(), &mut length)
    })?;
    Ok(length as usize)
}
