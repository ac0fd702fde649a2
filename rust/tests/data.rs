//! The cases of the program `examples`, crates/examples/data: outside vectors and tables worked out by hand. tools/vectors.py says what the
//! fields of a family are.

use berrytick::{Refusal, Row, Session};
use std::path::Path;

const FILLED: u8 = 0xA5;
const UNTOUCHED: Row = Row { chosen: u32::MAX, left: u32::MAX, right: u32::MAX, share: u32::MAX };

/// The parts of a data file, or of a case: each is a length of four bytes, low byte first, and that many bytes.
fn parts(mut bytes: &[u8]) -> Vec<&[u8]> {
    let mut found = Vec::new();
    while let Some((length, rest)) = bytes.split_first_chunk() {
        let (part, more) = rest.split_at(u32::from_le_bytes(*length) as usize);
        found.push(part);
        bytes = more;
    }
    assert!(bytes.is_empty(), "a part that is cut short");
    found
}

fn number(field: &[u8]) -> usize {
    field.iter().rev().fold(0, |value, &byte| value * 256 + byte as usize)
}

/// Runs every case of a family; a case is its fields.
fn each_case(family: &str, try_case: impl Fn(&[&[u8]])) {
    let path = Path::new(env!("CARGO_MANIFEST_DIR")).join("../crates/examples/data").join(family);
    let bytes = std::fs::read(&path).unwrap_or_else(|error| panic!("{}: {error}", path.display()));
    let cases = parts(&bytes);
    assert!(!cases.is_empty());
    cases.into_iter().for_each(|case| try_case(&parts(case)));
}

/// What a case expects: the answer, or the refusal where its number is not 0.
fn expected<T>(refused: &[u8], side: &[u8], answer: T) -> Result<T, Refusal> {
    match number(refused) {
        0 => Ok(answer),
        refused => Err(Refusal { number: refused as u8, side: number(side) as u8 }),
    }
}

/// Whether the memory begins with these bytes, and is as it was beyond.
fn begins_with(memory: &[u8], start: &[u8]) -> bool {
    memory.starts_with(start) && memory[start.len()..].iter().all(|&byte| byte == FILLED)
}

fn lent(length: &[u8]) -> Vec<u8> {
    vec![FILLED; number(length)]
}

fn zeros(count: &[u8]) -> Vec<u8> {
    vec![0; number(count)]
}

fn try_check(case: &[&[u8]]) {
    let &[file, refused, side, names, roles, axioms] = case else { panic!("fields of a check") };
    let counts = berrytick::Counts { names: number(names), roles: number(roles), axioms: number(axioms) };
    assert_eq!(berrytick::check(file), expected(refused, side, counts));
}

fn try_show(case: &[&[u8]]) {
    let &[first, second, side, name, holder, start, part] = case else { panic!("fields of a shown axiom") };
    let shown = berrytick::show(first, second, number(side), number(name)).unwrap();
    let file = if number(holder) == 1 { first } else { second };
    assert_eq!(shown, part);
    assert_eq!(shown.as_ptr(), file[number(start)..].as_ptr());
}

fn try_question(case: &[&[u8]]) {
    let &[file, below, above, length, refused, side, value, cleared] = case else { panic!("fields of a question") };
    let mut work = lent(length);
    let answer = berrytick::ask(file, below, above, &mut work);
    assert_eq!(answer, expected(refused, side, number(value) as u32));
    assert!(begins_with(&work, &zeros(cleared)));
}

fn try_compare(case: &[&[u8]]) {
    let &[first, second, signature, results, role_results, works, refused, side, bytes, pairs, cleared] = case else {
        panic!("fields of a comparison")
    };
    let [mut result, mut role_result, mut work] = [results, role_results, works].map(lent);
    let answer = berrytick::compare(first, second, signature, &mut result, &mut role_result, &mut work);
    assert_eq!(answer, expected(refused, side, ()));
    assert!(begins_with(&result, bytes));
    assert!(begins_with(&role_result, pairs));
    assert!(begins_with(&work, &zeros(cleared)));
}

/// The station lends 65,536 bytes, and prints a refusal as a line.
fn try_station(case: &[&[u8]]) {
    let &[first, second, signature, text] = case else { panic!("fields of a report") };
    let mut work = vec![FILLED; 65_536];
    let mut output = vec![FILLED; berrytick::REPORT_BYTES];
    match berrytick::report(first, second, signature, &mut output, &mut work) {
        Ok(length) => {
            assert_eq!(length, text.len());
            assert!(begins_with(&output, text));
        }
        Err(Refusal { number, side }) => {
            assert_eq!(format!("refused {number} side {side}\n").as_bytes(), text);
            assert!(begins_with(&output, b"") && begins_with(&work, b""));
        }
    }
}

fn try_rewrite(case: &[&[u8]]) {
    let &[file, wanted, length, refused, side, rewritten] = case else { panic!("fields of a rewriting") };
    let mut output = lent(length);
    let answer = berrytick::rewrite(file, number(wanted), &mut output);
    assert_eq!(answer, expected(refused, side, rewritten.len()));
    assert!(begins_with(&output, rewritten));
}

fn try_page(case: &[&[u8]]) {
    let &[result, length, refused, side, page, asked, needed] = case else { panic!("fields of a page") };
    assert_eq!(berrytick::page_length(result), expected(asked, side, number(needed)));
    let mut output = lent(length);
    assert_eq!(berrytick::page(result, &mut output), expected(refused, side, page.len()));
    assert!(begins_with(&output, page));
}

fn try_practice(case: &[&[u8]]) {
    let &[seed, names, roles, length, refused, side, file] = case else { panic!("fields of a practice release") };
    let mut output = lent(length);
    let made = berrytick::practice(number(seed) as u32, number(names), number(roles), &mut output);
    assert_eq!(made, expected(refused, side, file.len()));
    assert!(begins_with(&output, file));
    if made.is_ok() {
        let counts = berrytick::check(file).unwrap();
        assert_eq!((counts.names, counts.roles), (number(names), number(roles)));
    }
}

fn row(bytes: &[u8]) -> Row {
    let part = |at: usize| u32::from(u16::from_le_bytes([bytes[at], bytes[at + 1]]));
    Row { chosen: part(0), left: part(2), right: part(4), share: part(6) }
}

fn try_sheet(case: &[&[u8]]) {
    let &[first, second, count, rule, signatures, lines, works, refused, side, filled, cleared] = case else {
        panic!("fields of a sheet")
    };
    let mut rows = vec![UNTOUCHED; number(lines)];
    let mut work = lent(works);
    let (count, rule) = (number(count), number(rule));
    let answer = berrytick::compare_branches(first, second, signatures, count, rule, &mut work, &mut rows);
    assert_eq!(answer, expected(refused, side, ()));
    let told: Vec<Row> = filled.chunks(8).map(row).collect();
    assert!(rows.starts_with(&told) && rows[told.len()..].iter().all(|&row| row == UNTOUCHED));
    assert!(begins_with(&work, &zeros(cleared)));
}

/// What a lent row holds before a call.
const NO_ROW: [u32; 3] = [u32::MAX; 3];

/// The rows of these numbers, of four bytes each.
fn concept(bytes: &[u8]) -> Vec<[u32; 3]> {
    let number = |bytes: &[u8]| u32::from_le_bytes(bytes.try_into().unwrap());
    bytes.chunks_exact(12).map(|row| [number(&row[..4]), number(&row[4..8]), number(&row[8..])]).collect()
}

/// A concept that is shown is expected row by row, or only that there is one, which the check then says yes to.
fn try_concept(case: &[&[u8]]) {
    let &[first, second, signature, name, side, lent_numbers, works, refused, refused_side, written, wanted, cleared] =
        case
    else {
        panic!("fields of a concept shown")
    };
    let (name, side) = (number(name), number(side));
    let mut rows = vec![NO_ROW; number(lent_numbers) / 3];
    let mut work = lent(works);
    let answer = berrytick::show_concept(first, second, signature, name, side, &mut rows, &mut work);
    assert_eq!(answer.map(|count| (count > 0) as usize), expected(refused, refused_side, number(written)));
    assert!(begins_with(&work, &zeros(cleared)));
    let (shown, rest) = rows.split_at(answer.unwrap_or(0));
    assert!(rest.iter().all(|&row| row == NO_ROW));
    assert!(wanted.is_empty() || shown == concept(wanted));
    if !shown.is_empty() {
        let names = berrytick::check(first).unwrap().names;
        let mut work = vec![FILLED; berrytick::work_length(names).unwrap() + 2 * (names + 1) * shown.len()];
        assert_eq!(berrytick::check_concept(first, second, signature, name, side, shown, &mut work), Ok(1));
    }
}

fn try_rowcheck(case: &[&[u8]]) {
    let &[first, second, signature, name, side, rows, works, refused, refused_side, yes, cleared] = case else {
        panic!("fields of rows checked")
    };
    let mut work = lent(works);
    let answer =
        berrytick::check_concept(first, second, signature, number(name), number(side), &concept(rows), &mut work);
    assert_eq!(answer, expected(refused, refused_side, number(yes) as u32));
    assert!(begins_with(&work, &zeros(cleared)));
}

/// Where the bytes of a session's files start, of its signature and of its result.
const FIRST: usize = 8;
const SECOND: usize = FIRST + 2421;
const SIGNATURE: usize = SECOND + 2421;
const RESULT: usize = SIGNATURE + 159;

/// The session with these bytes from a place on.
fn put(mut session: Session, at: usize, bytes: &[u8]) -> Session {
    session.bytes[at..at + bytes.len()].copy_from_slice(bytes);
    session
}

/// A session of so many files, each with its length, a signature and a result; what else it has.
fn session(files: [(&[u8], u32); 2], signature: &[u8], result: &[u8], rest: u8) -> Session {
    let [(first, one), (second, two)] = files;
    let filled = Session { bytes: [rest; berrytick::SESSION_BYTES] };
    let with_lengths = put(put(filled, 0, &one.to_le_bytes()), 4, &two.to_le_bytes());
    put(put(put(put(with_lengths, FIRST, first), SECOND, second), SIGNATURE, signature), RESULT, result)
}

fn session_in(fields: &[&[u8]]) -> Session {
    let &[first, one, second, two, signature, result] = fields else { panic!("fields of a session") };
    session([(first, number(one) as u32), (second, number(two) as u32)], signature, result, FILLED)
}

fn whole(file: &[u8]) -> (&[u8], u32) {
    (file, file.len() as u32)
}

fn try_start(case: &[&[u8]]) {
    let &[first, second, signature, works, refused, side, result, cleared] = case else {
        panic!("fields of a session's start")
    };
    let mut work = lent(works);
    let answer = Session::start(first, second, signature, &mut work);
    let started = match number(refused) {
        0 => session([whole(first), whole(second)], signature, result, 0),
        _ => Session { bytes: [0; berrytick::SESSION_BYTES] },
    };
    assert_eq!(answer, expected(refused, side, started));
    assert!(begins_with(&work, &zeros(cleared)));
}

fn try_step(case: &[&[u8]]) {
    let (fields, step) = case.split_at(6);
    let &[side, axiom, name, works, refused, refused_side, file, result, cleared] = step else {
        panic!("fields of a step")
    };
    let before = session_in(fields);
    let mut after = before;
    let (side, mut work) = (number(side), lent(works));
    let answer = match name {
        [] => after.add(side, axiom, &mut work),
        name => after.withdraw(side, number(name), &mut work),
    };
    assert_eq!(answer, expected(refused, refused_side, ()));
    let edited = || {
        let (length, start) = if side == 1 { (0, FIRST) } else { (4, SECOND) };
        put(put(put(before, length, &whole(file).1.to_le_bytes()), start, file), RESULT, result)
    };
    assert!(after == if answer.is_ok() { edited() } else { before });
    assert!(begins_with(&work, &zeros(cleared)));
}

fn try_held(case: &[&[u8]]) {
    let (fields, told) = case.split_at(6);
    let &[names, roles, first, second, signature, result] = told else { panic!("fields of what a session tells") };
    let session = session_in(fields);
    assert_eq!((session.names(), session.roles()), (number(names), number(roles)));
    assert_eq!(
        [session.file(1), session.file(2), session.file(3), session.signature()],
        [first, second, b"", signature]
    );
    assert!((0..result.len()).all(|name| session.byte(name) == result[name]));
    assert_eq!(session.byte(number(names)), 0);
}

#[test]
fn checks() {
    each_case("check", try_check);
    each_case("refusals", try_check);
}

#[test]
fn shown_axioms() {
    each_case("show", try_show);
    each_case("shows", try_show);
}

#[test]
fn questions() {
    each_case("question", try_question);
    each_case("question-roles", try_question);
    each_case("questions", try_question);
    each_case("deep", try_question);
}

#[test]
fn comparisons() {
    each_case("compare", try_compare);
    each_case("compare-roles", try_compare);
    each_case("comparisons", try_compare);
}

#[test]
fn reports() {
    each_case("station", try_station);
}

#[test]
fn rewritten_releases() {
    each_case("rewrite", try_rewrite);
    each_case("rewrites", try_rewrite);
}

#[test]
fn pages() {
    each_case("page", try_page);
    each_case("pages", try_page);
}

#[test]
fn practice_releases() {
    each_case("practice", try_practice);
    each_case("practices", try_practice);
}

#[test]
fn sheets() {
    each_case("sheet", try_sheet);
}

#[test]
fn concepts() {
    each_case("shown", try_concept);
    each_case("concepts", try_concept);
}

#[test]
fn rows_checked() {
    each_case("rowcheck", try_rowcheck);
    each_case("rowchecks", try_rowcheck);
}

#[test]
fn sessions_started() {
    each_case("starts", try_start);
}

#[test]
fn sessions_edited() {
    each_case("steps", try_step);
    each_case("edits", try_step);
}

#[test]
fn sessions_read() {
    each_case("held", try_held);
}
