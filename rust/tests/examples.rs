//! P1 to P10, the worked examples of the station, and examples of role inclusions.

/// What lent memory holds before a call, so that a byte shows that is not written, or should not be.
const FILLED: u8 = 0xA5;

/// The bytes of a release of version 1: n, m, a and the axioms.
fn release(counts: [u8; 3], axioms: &[&[u8]]) -> Vec<u8> {
    [b"ELT\x01\x00", &counts[..], &axioms.concat()].concat()
}

/// The bytes of a release of version 3: n, m, the pairs of roles and the axioms, which have numbers of two bytes.
fn release_with_pairs([names, roles]: [u8; 2], pairs: &[[u8; 2]], axioms: &[&[u8]]) -> Vec<u8> {
    let counts = [names, 0, roles, axioms.len() as u8, 0, pairs.len() as u8];
    [b"ELT\x03\x00", &counts[..], pairs.as_flattened(), &axioms.concat()].concat()
}

/// The result and the role result. Compares with more memory than is needed, and looks at all of it.
fn results(first: &[u8], second: &[u8], signature: &[u8]) -> (Vec<u8>, Vec<u8>) {
    let berrytick::Counts { names, roles, .. } = berrytick::check(first).unwrap();
    let (needed, pairs) = (berrytick::work_length(names).unwrap(), roles * roles);
    let [mut result, mut role_result, mut work] = [names, pairs, needed].map(|length| vec![FILLED; length + 8]);
    berrytick::compare(first, second, signature, &mut result, &mut role_result, &mut work).unwrap();
    for rest in [&result[names..], &role_result[pairs..], &work[needed..]] {
        assert!(rest.iter().all(|&byte| byte == FILLED));
    }
    assert!(work[..needed].iter().all(|&byte| byte == 0));
    result.truncate(names);
    role_result.truncate(pairs);
    (result, role_result)
}

/// The result of releases without pairs of roles, of which no pair is reported.
fn compared(first: &[u8], second: &[u8], signature: &[u8]) -> Vec<u8> {
    let (result, role_result) = results(first, second, signature);
    assert!(role_result.iter().all(|&byte| byte == 0));
    result
}

fn p1() -> [Vec<u8>; 2] {
    [2, 3].map(|last| release([4, 0, 1], &[&[0, 2, 2, 1, last]]))
}

#[test]
fn p1_and_p2() {
    let [first, second] = p1();
    assert_eq!(compared(&first, &second, &[1, 1, 1, 0]), [3, 0, 2, 0]);
    assert_eq!(compared(&second, &first, &[1, 1, 1, 0]), [0, 0, 0, 0]);
}

#[test]
fn p1_as_a_report() {
    let [first, second] = p1();
    let mut output = [FILLED; berrytick::REPORT_BYTES];
    let mut work = [FILLED; 100];
    let length = berrytick::report(&first, &second, &[1, 1, 1, 0], &mut output, &mut work).unwrap();
    assert_eq!(&output[..length], b"names 4 roles 0\n000 B\n002 R\nleft 1 right 2\n");
    assert!(output[length..].iter().all(|&byte| byte == FILLED));
    assert_eq!(work, [0; 100]);
}

#[test]
fn p1_as_a_page() {
    let [first, second] = p1();
    let result = compared(&first, &second, &[1, 1, 1, 0]);
    let mut output = [FILLED; 100];
    assert_eq!(berrytick::page(&result, &mut output), Ok(65));
    let (page, rest) = output.split_at(65);
    assert_eq!(page, format!("{:64}\n", "   0 B             2 R").as_bytes());
    assert!(rest.iter().all(|&byte| byte == FILLED));
}

/// What a number of a lent row is before a call.
const NO_ROW: [u32; 3] = [u32::MAX; 3];

/// The rows of the concept shown for a name and a side, which the check says yes to with these rows alone.
fn shown(first: &[u8], second: &[u8], signature: &[u8], name: usize, side: usize) -> Vec<[u32; 3]> {
    let names = berrytick::check(first).unwrap().names;
    let needed = berrytick::work_length(names).unwrap();
    let mut rows = vec![NO_ROW; berrytick::concept_rows(names) + 1];
    let mut work = vec![FILLED; needed + 8];
    let count = berrytick::show_concept(first, second, signature, name, side, &mut rows, &mut work).unwrap();
    assert!(rows[count..].iter().all(|&row| row == NO_ROW));
    assert!(work[..needed].iter().all(|&byte| byte == 0));
    assert!(work[needed..].iter().all(|&byte| byte == FILLED));
    rows.truncate(count);
    work.resize(needed + 2 * (names + 1) * count, FILLED);
    let answer = berrytick::check_concept(first, second, signature, name, side, &rows, &mut work);
    assert_eq!(answer, Ok(!rows.is_empty() as u32));
    assert!(work.iter().all(|&byte| byte == 0));
    rows
}

#[test]
fn concepts_of_p1() {
    let [first, second] = p1();
    let shown = |name, side| shown(&first, &second, &[1, 1, 1, 0], name, side);
    assert_eq!(shown(0, 1), [[1, 2, 0]]);
    assert_eq!(shown(0, 2), [[1, 1, 0], [1, 2, 0], [2, 0, 1]]);
    assert_eq!(shown(2, 2), [[1, 0, 0]]);
    for (name, side) in [(1, 1), (3, 2), (2, 1), (0, 0), (0, 3), (4, 1), (usize::MAX, 2), (0, usize::MAX)] {
        assert!(shown(name, side).is_empty());
    }
}

fn p3() -> [Vec<u8>; 2] {
    let first = release([4, 1, 2], &[&[0, 3, 0, 2], &[2, 1, 2, 0, 1]]);
    let second = release([4, 1, 3], &[&[0, 1, 2, 2, 3], &[2, 3, 0, 0], &[3, 3, 0, 1]]);
    [first, second]
}

#[test]
fn p3_and_p4() {
    let [first, second] = p3();
    assert_eq!(compared(&first, &second, &[1, 1, 0, 0, 1]), [1, 0, 0, 0]);
    assert_eq!(compared(&second, &first, &[1, 1, 0, 0, 1]), [0, 0, 0, 0]);
}

#[test]
fn concept_of_p3() {
    let [first, second] = p3();
    assert_eq!(shown(&first, &second, &[1, 1, 0, 0, 1], 0, 1), [[1, 0, 0], [1, 1, 0], [2, 0, 1], [3, 0, 2]]);
}

/// README's: name 3, which no branch uses, is no longer what names 1 and 2 are together.
#[test]
fn concepts_of_the_incident() {
    let [first, second] =
        [2, 1].map(|kind| release([8, 1, 4], &[&[3, kind, 2, 1, 2], &[4, 4, 0, 3], &[5, 2, 2, 0, 4], &[7, 4, 0, 6]]));
    let shown = |name| shown(&first, &second, &[1, 1, 1, 0, 1, 1, 1, 1, 1], name, 2);
    assert_eq!(shown(4), [[1, 1, 0], [1, 2, 0], [2, 0, 1], [3, 0, 2]]);
    assert_eq!(shown(5), [[1, 0, 0], [1, 1, 0], [1, 2, 0], [2, 1, 2], [3, 0, 3], [2, 0, 4]]);
}

#[test]
fn p5() {
    let first = release([2, 1, 1], &[&[0, 3, 0, 0]]);
    let second = release([2, 1, 2], &[&[0, 3, 0, 1], &[1, 1, 1, 0]]);
    assert_eq!(compared(&first, &second, &[1, 0, 1]), [0, 0]);
    assert_eq!(compared(&second, &first, &[1, 0, 1]), [0, 0]);
}

#[test]
fn p6_and_p7() {
    let first = release([2, 1, 1], &[&[0, 3, 0, 0]]);
    let second = release([2, 1, 2], &[&[0, 3, 0, 1], &[1, 3, 0, 255]]);
    assert_eq!(compared(&first, &second, &[1, 0, 1]), [1, 0]);
    assert_eq!(compared(&first, &second, &[1, 0, 0]), [0, 0]);
}

#[test]
fn p8_and_p9() {
    let first = release([2, 2, 2], &[&[0, 4, 0, 1], &[1, 4, 1, 1]]);
    let second = release([2, 2, 2], &[&[0, 3, 0, 1], &[1, 4, 1, 1]]);
    assert_eq!(compared(&first, &second, &[1, 0, 1, 1]), [0, 0]);
    assert_eq!(compared(&second, &first, &[1, 0, 1, 1]), [0, 0]);
    assert_eq!(compared(&first, &second, &[1, 1, 1, 1]), [2, 0]);
}

/// Role 0 lies under role 1 by the first release; by both name 0 lies below ∃0.⊤, and so below ∃1.⊤ by the first alone.
#[test]
fn a_role_under_another() {
    let axiom: &[u8] = &[0, 0, 3, 0, 255, 255];
    let with = release_with_pairs([1, 2], &[[0, 1]], &[axiom]);
    let without = release([1, 2, 1], &[&[0, 3, 0, 255]]);
    assert_eq!(results(&with, &without, &[1, 1, 1]), (vec![1], vec![0, 1, 0, 0]));
    assert_eq!(results(&without, &with, &[1, 1, 1]), (vec![0], vec![0; 4]));
    assert_eq!(results(&with, &without, &[0, 1, 1]), (vec![0], vec![0, 1, 0, 0]));
    assert_eq!(results(&with, &without, &[1, 0, 1]), (vec![1], vec![0; 4]));
    assert_eq!(shown(&with, &without, &[1, 1, 1], 0, 1), [[0, 0, 0], [3, 1, 0]]);
    let (some_0, some_1) = ([3, 0, 0], [3, 1, 0]);
    assert_eq!(berrytick::ask(&with, &some_0, &some_1, &mut [FILLED; 16]), Ok(1));
    assert_eq!(berrytick::ask(&without, &some_0, &some_1, &mut [FILLED; 16]), Ok(0));
}

/// A chain of roles, whose middle is not chosen; and a circle of them, by which all are equal.
#[test]
fn chains_and_circles_of_roles() {
    let with = |pairs: &[[u8; 2]]| release_with_pairs([0, 3], pairs, &[]);
    let (chain, circle) = (with(&[[0, 1], [1, 2]]), with(&[[0, 1], [1, 2], [2, 0]]));
    let (none, equal) = (with(&[]), with(&[[0, 1], [1, 0], [1, 2], [2, 1]]));
    let pairs = |first: &[u8], second: &[u8], signature: &[u8]| results(first, second, signature).1;
    assert_eq!(pairs(&chain, &none, &[1, 0, 1]), [0, 0, 1, 0, 0, 0, 0, 0, 0]);
    assert_eq!(pairs(&chain, &with(&[[0, 2]]), &[1, 0, 1]), [0; 9]);
    assert_eq!(pairs(&circle, &equal, &[1, 1, 1]), [0; 9]);
    assert_eq!(pairs(&equal, &circle, &[1, 1, 1]), [0; 9]);
    assert_eq!(pairs(&circle, &chain, &[1, 1, 1]), [0, 0, 0, 1, 0, 0, 1, 1, 0]);
}

#[test]
fn p10() {
    let file = release([1, 1, 1], &[&[0, 4, 0, 255]]);
    let (some_a, a) = ([3, 0, 1, 0], [1, 0]);
    let mut work = [FILLED; 16];
    assert_eq!(berrytick::ask(&file, &some_a, &a, &mut work), Ok(1));
    assert_eq!(berrytick::ask(&file, &a, &some_a, &mut work), Ok(2));
    assert_eq!(work, [0; 16]);
}
