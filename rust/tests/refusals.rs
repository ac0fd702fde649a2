//! Each number of a refusal once, with its side, and that it changes nothing that is lent.

use berrytick::{Refusal, Row, Session};
use std::collections::BTreeSet;

const FILLED: u8 = 0xA5;
const UNTOUCHED: Row = Row { chosen: 7, left: 7, right: 7, share: 7 };
const NO_ROW: [u32; 3] = [7; 3];

fn refusal(number: u8, side: u8) -> Refusal {
    Refusal { number, side }
}

/// A release of two names and one role, where name 0 is defined as the conjunction of name 1 alone.
const RELEASE: &[u8] = b"ELT\x01\x00\x02\x01\x01\x00\x02\x01\x01";

/// Release files, each with the number that refuses it.
const FILES: [(&[u8], u8); 16] = [
    (b"ELT\x01\x00\x02\x01", 1),
    (b"ELF\x01\x00\x02\x01\x00", 2),
    (b"ELT\x04\x00\x02\x01\x00", 3),
    (b"ELT\x01\x00\x80\x01\x00", 4),
    (b"ELT\x01\x00\x02\x21\x00", 5),
    (b"ELT\x01\x00\x02\x01\x03", 6),
    (b"ELT\x01\x00\x02\x01\x01\x00", 7),
    (b"ELT\x01\x00\x02\x01\x01\x00\x05", 8),
    (b"ELT\x01\x00\x02\x01\x01\x02", 9),
    (b"ELT\x01\x00\x02\x01\x02\x01\x01\x00\x01", 10),
    (b"ELT\x01\x00\x02\x01\x01\x00\x03\x01", 11),
    (b"ELT\x01\x00\x02\x01\x01\x00\x01\x11", 12),
    (b"ELT\x01\x00\x02\x01\x01\x00\x01\x02\x01\x01", 13),
    (b"ELT\x01\x00\x02\x01\x00\x00", 14),
    (b"ELT\x01\x00\x02\x01\x01\x00\x02\x01\x00", 15),
    (b"ELT\x03\x00\x02\x00\x01\x00\x00\x02\x00\x00\x00\x00", 49),
];

/// Lent memory of every kind, to be found as it was.
struct Lent {
    result: [u8; 8],
    role_result: [u8; 8],
    work: [u8; 100],
    output: [u8; berrytick::REPORT_BYTES],
    rows: [Row; 2],
    concept: [[u32; 3]; 64],
}

impl Lent {
    fn new() -> Lent {
        Lent {
            result: [FILLED; 8],
            role_result: [FILLED; 8],
            work: [FILLED; 100],
            output: [FILLED; berrytick::REPORT_BYTES],
            rows: [UNTOUCHED; 2],
            concept: [NO_ROW; 64],
        }
    }

    fn is_unchanged(&self) -> bool {
        let Lent { result, role_result, work, output, rows, concept } = self;
        [&result[..], role_result, work, output].concat().iter().all(|&byte| byte == FILLED)
            && rows.iter().all(|&row| row == UNTOUCHED)
            && concept.iter().all(|&row| row == NO_ROW)
    }
}

#[test]
fn files() {
    for (file, number) in FILES {
        let mut lent = Lent::new();
        let Lent { result, role_result, work, output, rows, concept } = &mut lent;
        let (own, other) = (Err(refusal(number, 1)), Err(refusal(number, 2)));
        assert_eq!(berrytick::check(file).map(|_| ()), own);
        assert_eq!(berrytick::ask(file, &[0], &[0], work).map(|_| ()), own);
        // Rewriting knows no version but 1 and 2.
        let of_rewriting = if number == 49 { Err(refusal(3, 1)) } else { own };
        assert_eq!(berrytick::rewrite(file, 2, output).map(|_| ()), of_rewriting);
        assert_eq!(berrytick::compare(file, RELEASE, &[1, 1, 1], result, role_result, work), own);
        assert_eq!(berrytick::compare(RELEASE, file, &[1, 1, 1], result, role_result, work), other);
        assert_eq!(berrytick::compare_branches(RELEASE, file, &[1, 1, 1], 1, 1, work, rows), other);
        assert_eq!(berrytick::report(RELEASE, file, &[1, 1, 1], output, work).map(|_| ()), other);
        assert_eq!(berrytick::show_concept(RELEASE, file, &[1, 1, 1], 0, 1, concept, work).map(|_| ()), other);
        assert_eq!(berrytick::check_concept(RELEASE, file, &[1, 1, 1], 0, 1, concept, work).map(|_| ()), other);
        assert_eq!(berrytick::show(file, RELEASE, 2, 0), Ok(&b""[..]));
        assert!(lent.is_unchanged());
    }
    assert_eq!(FILES.map(|(_, number)| number)[..], (1..=15).chain([49]).collect::<Vec<u8>>());
}

/// The second release, the signature, the lengths of the result, of the role result and of the work memory; the number.
type Comparison = (&'static [u8], &'static [u8], usize, usize, usize, u8);

#[test]
fn comparisons() {
    let fewer_names = b"ELT\x01\x00\x01\x01\x00";
    let mut lent = Lent::new();
    let Lent { result, role_result, work, output, rows, concept } = &mut lent;
    let cases: [Comparison; 6] = [
        (fewer_names, &[1, 1, 1], 2, 1, 36, 16),
        (RELEASE, &[1, 1], 2, 1, 36, 17),
        (RELEASE, &[1, 1, 2], 2, 1, 36, 18),
        (RELEASE, &[1, 1, 1], 1, 0, 36, 31),
        (RELEASE, &[1, 1, 1], 2, 0, 35, 50),
        (RELEASE, &[1, 1, 1], 2, 1, 35, 32),
    ];
    for (second, signature, results, role_results, works, number) in cases {
        let expected = Err(refusal(number, 0));
        let (result, role_result) = (&mut result[..results], &mut role_result[..role_results]);
        let answer = berrytick::compare(RELEASE, second, signature, result, role_result, &mut work[..works]);
        assert_eq!(answer, expected);
        // 31 and 50 are of a comparison alone.
        if number != 31 && number != 50 {
            assert_eq!(
                berrytick::compare_branches(RELEASE, second, signature, 1, 2, &mut work[..works], rows),
                expected
            );
            assert_eq!(berrytick::report(RELEASE, second, signature, output, &mut work[..works]).map(|_| ()), expected);
            let work = &mut work[..works];
            let shown = berrytick::show_concept(RELEASE, second, signature, 0, 1, concept, work);
            assert_eq!(shown.map(|_| ()), expected);
            // Without a row the check needs no more memory than a comparison.
            let checked = berrytick::check_concept(RELEASE, second, signature, 0, 1, &[], work);
            assert_eq!(checked.map(|_| ()), expected);
        }
    }
    let short = berrytick::REPORT_BYTES - 1;
    assert_eq!(berrytick::report(RELEASE, RELEASE, &[1, 1, 1], &mut output[..short], work), Err(refusal(33, 0)));
    assert_eq!(berrytick::compare_branches(RELEASE, RELEASE, &[1; 65 * 3], 65, 1, work, rows), Err(refusal(42, 0)));
    assert_eq!(berrytick::compare_branches(RELEASE, RELEASE, &[1; 3 * 3], 3, 2, work, rows), Err(refusal(43, 0)));
    for no_rule in [0, 3, 257, 258, u32::MAX as usize + 2, u32::MAX as usize + 3, usize::MAX] {
        assert_eq!(berrytick::compare_branches(RELEASE, RELEASE, &[], 65, no_rule, work, rows), Err(refusal(53, 0)));
    }
    // Two names: 36 bytes, 6 more for a row; 64 rows.
    let too_few = &mut concept[..63];
    assert_eq!(berrytick::show_concept(RELEASE, RELEASE, &[1, 1, 1], 0, 1, too_few, work), Err(refusal(44, 0)));
    assert_eq!(
        berrytick::check_concept(RELEASE, RELEASE, &[1, 1, 1], 0, 1, &[[0; 3]], &mut work[..41]),
        Err(refusal(32, 0))
    );
    assert!(lent.is_unchanged());
}

#[test]
fn questions() {
    let mut lent = Lent::new();
    let work = &mut lent.work;
    assert_eq!(berrytick::ask(RELEASE, &[], &[0], work), Err(refusal(19, 1)));
    assert_eq!(berrytick::ask(RELEASE, &[0], &[1, 2], work), Err(refusal(19, 2)));
    assert_eq!(berrytick::ask(RELEASE, &[0], &[0], &mut work[..35]), Err(refusal(32, 0)));
    assert!(lent.is_unchanged());
}

#[test]
fn rewriting() {
    // 128 names, one more than version 1 can have.
    let many_names = b"ELT\x02\x00\x80\x00\x00\x00\x00";
    let mut lent = Lent::new();
    let output = &mut lent.output;
    assert_eq!(berrytick::rewrite(RELEASE, 0, output), Err(refusal(3, 0)));
    assert_eq!(berrytick::rewrite(b"", 3, output), Err(refusal(3, 0)));
    assert_eq!(berrytick::rewrite(many_names, 1, output), Err(refusal(40, 1)));
    assert_eq!(berrytick::rewrite(RELEASE, 1, &mut output[..RELEASE.len() - 1]), Err(refusal(41, 0)));
    assert!(lent.is_unchanged());
}

#[test]
fn pages() {
    let mut lent = Lent::new();
    let output = &mut lent.output;
    assert_eq!(berrytick::page(&[1, 4], output), Err(refusal(51, 0)));
    assert_eq!(berrytick::page(&[0; berrytick::NAMES + 1], output), Err(refusal(51, 0)));
    assert_eq!(berrytick::page(&[1, 3], &mut output[..64]), Err(refusal(51, 0)));
    assert_eq!(berrytick::page_length(&[1, 4]), Err(refusal(51, 0)));
    assert_eq!(berrytick::page_length(&[0; berrytick::NAMES + 1]), Err(refusal(51, 0)));
    assert!(lent.is_unchanged());
}

#[test]
fn practice_releases() {
    let mut lent = Lent::new();
    let output = &mut lent.output;
    assert_eq!(berrytick::practice(7, 128, 33, output), Err(refusal(4, 0)));
    assert_eq!(berrytick::practice(7, usize::MAX, 0, &mut []), Err(refusal(4, 0)));
    assert_eq!(berrytick::practice(7, 127, 33, &mut []), Err(refusal(5, 0)));
    assert_eq!(berrytick::practice(7, 0, usize::MAX, output), Err(refusal(5, 0)));
    assert_eq!(berrytick::practice(7, 0, 0, &mut output[..7]), Err(refusal(52, 0)));
    assert!(lent.is_unchanged());
}

#[test]
fn sessions() {
    let mut lent = Lent::new();
    let work = &mut lent.work;
    assert_eq!(Session::start(RELEASE, b"ELT\x02\x00\x02\x00", &[1, 1, 1], work), Err(refusal(1, 2)));
    assert_eq!(Session::start(RELEASE, b"ELT\x02\x00\x02\x00\x01", &[1, 1, 1], work), Err(refusal(3, 2)));
    let session = Session::start(RELEASE, RELEASE, &[1, 1, 1], &mut [0; 36]).unwrap();
    let mut edited = session;
    assert_eq!(edited.add(3, &[1, 1, 0], work), Err(refusal(46, 0)));
    assert_eq!(Session { bytes: [0; berrytick::SESSION_BYTES] }.withdraw(1, 0, work), Err(refusal(46, 0)));
    assert_eq!(edited.add(2, &[0, 1, 0], work), Err(refusal(47, 2)));
    assert_eq!(edited.add(2, &[1, 1, 1, 0], work), Err(refusal(15, 2)));
    assert_eq!(edited.add(1, &[1, 1, 0, 0], work), Err(refusal(14, 1)));
    assert_eq!(edited.add(1, &[1, 1, 0], &mut work[..35]), Err(refusal(32, 0)));
    assert_eq!(edited.withdraw(1, 2, work), Err(refusal(9, 1)));
    assert_eq!(edited.withdraw(1, 1, work), Err(refusal(48, 1)));
    assert_eq!(edited, session);
    assert!(lent.is_unchanged());
}

#[test]
fn work_lengths() {
    assert_eq!(berrytick::work_length(0), Ok(4));
    assert_eq!(berrytick::work_length(127), Ok(65_536));
    assert_eq!(berrytick::work_length(berrytick::NAMES), Ok(4 * 1024 * 1024));
    for many in [berrytick::NAMES + 1, u32::MAX as usize, usize::MAX] {
        assert_eq!(berrytick::work_length(many), Err(refusal(4, 0)));
    }
}

/// Every number has a meaning of its own, and numbers that no call has are told from them.
#[test]
fn meanings() {
    let numbers = (1..=19).chain([31, 32, 33, 40, 41, 42, 43, 44]).chain(46..=53);
    let unknown = refusal(255, 0).meaning();
    let meanings: BTreeSet<&str> = numbers.clone().map(|number| refusal(number, 1).meaning()).collect();
    assert_eq!(meanings.len(), numbers.count());
    assert!(!meanings.contains(unknown));
    assert_ne!(refusal(3, 0).meaning(), refusal(3, 1).meaning());
    assert_ne!(refusal(4, 0).meaning(), refusal(4, 1).meaning());
    assert_ne!(refusal(5, 0).meaning(), refusal(5, 1).meaning());
    let error: Box<dyn std::error::Error> = Box::new(refusal(15, 2));
    assert_eq!(error.to_string(), "refused 15 side 2: a conjunct is itself the left name of an axiom of kind 2");
}
