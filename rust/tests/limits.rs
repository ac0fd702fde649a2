//! The limits that the constants name, and calls from several threads at the same time.

use berrytick::{NAMES, PAGE_BYTES, RELEASE_BYTES, REPORT_BYTES, REWRITTEN_BYTES, ROLES};

/// A release of version 2 with 1,023 names and 32 roles, and this axiom for each name, by the name's number.
fn release(axiom: impl Fn(u16) -> Vec<u8>) -> Vec<u8> {
    let names = (NAMES as u16).to_le_bytes();
    let axioms = (0..NAMES as u16).flat_map(|name| [name.to_le_bytes().to_vec(), axiom(name)].concat());
    [b"ELT\x02\x00", &names[..], &[ROLES as u8], &names].concat().into_iter().chain(axioms).collect()
}

/// Name ≡ ∃r.⊤: over the whole signature each name is reported on both sides against a release that leaves it undefined.
fn all_defined() -> Vec<u8> {
    release(|_| vec![4, 0, 255, 255])
}

fn none_defined() -> Vec<u8> {
    b"ELT\x02\x00\xFF\x03\x20\x00\x00".to_vec()
}

fn report_of(first: &[u8], second: &[u8]) -> String {
    let mut output = vec![0; REPORT_BYTES];
    let mut work = vec![0; berrytick::work_length(NAMES).unwrap()];
    let length = berrytick::report(first, second, &vec![1; NAMES + ROLES], &mut output, &mut work).unwrap();
    output.truncate(length);
    String::from_utf8(output).unwrap()
}

#[test]
fn the_longest_report() {
    let report = report_of(&all_defined(), &none_defined());
    assert_eq!(report.len(), REPORT_BYTES);
    assert!(report.starts_with("names 1023 roles 32\n000 B\n001 B\n"));
    assert!(report.ends_with("1021 B\n1022 B\nleft 1023 right 1023\n"));
}

#[test]
fn the_longest_page() {
    let mut output = vec![0xA5; PAGE_BYTES + 1];
    assert_eq!(berrytick::page_length(&[3; NAMES]), Ok(PAGE_BYTES));
    assert_eq!(berrytick::page(&[3; NAMES], &mut output), Ok(PAGE_BYTES));
    let page = std::str::from_utf8(&output[..PAGE_BYTES]).unwrap();
    assert_eq!(page.split('\x0C').map(|sheet| sheet.lines().count()).collect::<Vec<_>>(), [50, 50, 50, 50, 50, 6]);
    assert!(page.ends_with("1020 B          1021 B          1022 B                          \n"));
    assert_eq!(output[PAGE_BYTES], 0xA5);
}

#[test]
fn the_longest_release() {
    let conjuncts: Vec<u8> = (0..16u16).flat_map(u16::to_le_bytes).collect();
    let without_pairs = release(|_| [&[1, 16], &conjuncts[..]].concat());
    assert_eq!(without_pairs.len(), REWRITTEN_BYTES);
    assert_eq!(berrytick::check(&without_pairs).unwrap().axioms, NAMES);
    let mut output = vec![0; REWRITTEN_BYTES];
    assert_eq!(berrytick::rewrite(&without_pairs, 2, &mut output), Ok(REWRITTEN_BYTES));
    assert_eq!(output, without_pairs);
    let longest = with_pairs(&without_pairs, &first_pairs(255));
    assert_eq!(longest.len(), RELEASE_BYTES);
    assert_eq!(berrytick::check(&longest).unwrap().axioms, NAMES);
    assert_eq!(berrytick::rewrite(&longest, 2, &mut output).map_err(|refusal| refusal.number), Err(3));
    assert_eq!(berrytick::show(&longest, &without_pairs, 1, NAMES - 1).unwrap(), &longest[RELEASE_BYTES - 36..]);
}

/// So many pairs of roles, as low as there are.
fn first_pairs(count: u16) -> Vec<[u8; 2]> {
    (0..count).map(|place| [(place / 32) as u8, (place % 32) as u8]).collect()
}

/// A release of version 2 as one of version 3 with these pairs.
fn with_pairs(file: &[u8], pairs: &[[u8; 2]]) -> Vec<u8> {
    let (header, axioms) = file[5..].split_at(5);
    [b"ELT\x03\x00", header, &[pairs.len() as u8], pairs.as_flattened(), axioms].concat()
}

/// Each role under the next, 31 pairs: of 32 roles each lies under those after it, and by a release without pairs under itself alone.
#[test]
fn the_longest_role_result() {
    let none = none_defined();
    let chain: Vec<[u8; 2]> = (1..ROLES as u8).map(|role| [role - 1, role]).collect();
    let chain = with_pairs(&none, &chain);
    let mut result = vec![0; NAMES];
    let mut role_result = vec![7; ROLES * ROLES + 1];
    let mut work = vec![0; berrytick::work_length(NAMES).unwrap()];
    let signature = vec![1; NAMES + ROLES];
    let mut compared = |first: &[u8], second: &[u8], role_result: &mut [u8]| {
        berrytick::compare(first, second, &signature, &mut result, role_result, &mut work).unwrap();
        assert!(result.iter().all(|&byte| byte == 0));
    };
    compared(&chain, &none, &mut role_result);
    let expected = |place: usize| u8::from(place / ROLES < place % ROLES);
    assert!((0..ROLES * ROLES).all(|place| role_result[place] == expected(place)));
    compared(&none, &chain, &mut role_result);
    assert!(role_result[..ROLES * ROLES].iter().all(|&byte| byte == 0));
    assert_eq!(role_result[ROLES * ROLES], 7);
}

#[test]
fn several_threads() {
    let (all, none) = (all_defined(), none_defined());
    let (forth, back) = (report_of(&all, &none), report_of(&none, &all));
    assert_ne!(forth, back);
    std::thread::scope(|threads| {
        for _ in 0..4 {
            threads.spawn(|| assert_eq!(report_of(&all, &none), forth));
            threads.spawn(|| assert_eq!(report_of(&none, &all), back));
        }
    });
}
