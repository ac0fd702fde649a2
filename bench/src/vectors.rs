//! Agreement with outside vectors: one JSON object a line, bytes in hex.

use crate::baseline::{self, Asked, Refusal};
use crate::calls::MOST_PAIRS;
use std::path::Path;

/// What follows `"key": ` in a line, up to the next comma or brace, without quotes.
fn field<'a>(line: &'a str, key: &str) -> &'a str {
    let mark = format!("\"{key}\":");
    let start = line.find(&mark).unwrap_or_else(|| panic!("no {key} in {line}")) + mark.len();
    let value = &line[start..];
    let end = value.find([',', '}']).expect("a line ends with a brace");
    value[..end].trim().trim_matches('"')
}

/// What follows `"key": ` where it is true or false.
fn truth(line: &str, key: &str) -> bool {
    field(line, key) == "true"
}

/// The numbers of the rows of a line, one after the other.
fn rows(line: &str) -> Vec<u32> {
    let (_, rest) = line.split_once("\"rows\":").expect("a line with rows");
    let end = rest.find("]]").or_else(|| rest.find("[]")).expect("rows that end");
    let numbers = rest[..end].split(|letter: char| !letter.is_ascii_digit());
    numbers.filter(|digits| !digits.is_empty()).map(|digits| digits.parse().expect("a number of 32 bits")).collect()
}

fn number(line: &str, key: &str) -> usize {
    field(line, key).parse().expect("a number")
}

fn bytes(line: &str, key: &str) -> Vec<u8> {
    let hex = field(line, key);
    (0..hex.len()).step_by(2).map(|at| u8::from_str_radix(&hex[at..at + 2], 16).expect("hex")).collect()
}

fn refusal(line: &str) -> Refusal {
    Refusal { number: number(line, "number") as u8, side: number(line, "side") as u8 }
}

/// The refusal that an answer is, number 0 where it is accepted.
fn refusal_of<T>(answer: &Result<T, Refusal>) -> Refusal {
    match answer {
        Ok(_) => Refusal { number: 0, side: 0 },
        Err(refusal) => *refusal,
    }
}

const FILLED: u8 = 0xA5;

/// Work memory is zero in its first part after an accepted call, and as before otherwise.
fn work_is_right(work: &[u8], accepted: bool, names: usize) -> bool {
    work_for_rows_is_right(work, accepted, names, 0)
}

/// The same after a check of so many rows.
fn work_for_rows_is_right(work: &[u8], accepted: bool, names: usize, rows: usize) -> bool {
    let zeros = if accepted { 4 * (names + 1) * (names + 1) + 2 * (names + 1) * rows } else { 0 };
    work[..zeros].iter().all(|&byte| byte == 0) && work[zeros..].iter().all(|&byte| byte == FILLED)
}

fn check_agrees(line: &str) -> bool {
    let answer = baseline::check(&bytes(line, "file"));
    let counts = answer.map_or((0, 0, 0), |counts| (counts.names, counts.roles, counts.axioms));
    let expected = (number(line, "n"), number(line, "m"), number(line, "a"));
    refusal_of(&answer) == refusal(line) && counts == expected
}

fn question_agrees(line: &str) -> bool {
    let file = bytes(line, "file");
    let mut work = vec![FILLED; number(line, "work_len")];
    let answer = baseline::ask(&file, &bytes(line, "c"), &bytes(line, "d"), &mut work);
    let names = baseline::names_of(&file);
    refusal_of(&answer) == refusal(line)
        && answer.unwrap_or(0) as usize == number(line, "value")
        && work_is_right(&work, answer.is_ok(), names)
}

/// Whether the bytes begin with these, and are as before behind them.
fn begins_with(bytes: &[u8], start: &[u8]) -> bool {
    bytes.starts_with(start) && bytes[start.len()..].iter().all(|&byte| byte == FILLED)
}

fn compare_agrees(line: &str) -> bool {
    let (first, second) = (bytes(line, "first"), bytes(line, "second"));
    let [mut result, mut role_result, mut work] =
        ["result_len", "role_len", "work_len"].map(|length| vec![FILLED; number(line, length)]);
    let answer = baseline::compare(&first, &second, &bytes(line, "sig"), &mut result, &mut role_result, &mut work);
    let expected = bytes(line, "result");
    refusal_of(&answer) == refusal(line)
        && begins_with(&result, &expected)
        && begins_with(&role_result, &bytes(line, "roles"))
        && work_is_right(&work, answer.is_ok(), expected.len())
}

/// The station program's output: a comparison with 64 KiB of work memory.
fn station_output(first: &[u8], second: &[u8], signature: &[u8]) -> String {
    let mut result = [FILLED; 1023];
    let mut role_result = [FILLED; MOST_PAIRS];
    let mut work = vec![FILLED; 1 << 16];
    if let Err(refusal) = baseline::compare(first, second, signature, &mut result, &mut role_result, &mut work) {
        return format!("refused {} side {}\n", refusal.number, refusal.side);
    }
    let names = baseline::names_of(first);
    let roles = signature.len() - names;
    let bytes = &result[..names];
    let count = |bit: u8| bytes.iter().filter(|&byte| byte & bit != 0).count();
    let mut output = format!("names {names} roles {roles}\n");
    for (name, &byte) in bytes.iter().enumerate().filter(|(_, &byte)| byte != 0) {
        output += &format!("{name:03} {}\n", [' ', 'L', 'R', 'B'][byte as usize]);
    }
    output + &format!("left {} right {}\n", count(1), count(2))
}

fn station_agrees(line: &str) -> bool {
    let output = station_output(&bytes(line, "first"), &bytes(line, "second"), &bytes(line, "sig"));
    output == field(line, "out").replace("\\n", "\n")
}

/// A release rewritten as the wanted version; what is behind the output stays as it was.
fn rewrite_agrees(line: &str) -> bool {
    let file = bytes(line, "file");
    let mut out = vec![FILLED; number(line, "out_len")];
    let answer = match number(line, "wanted") {
        1 => baseline::rewrite_as_first(&file, &mut out),
        2 => baseline::rewrite_as_second(&file, &mut out),
        other => panic!("there is no call for version {other}"),
    };
    let expected = bytes(line, "out_file");
    refusal_of(&answer) == refusal(line) && answer.unwrap_or(0) == expected.len() && begins_with(&out, &expected)
}

/// A line of the vectors that is reported, and how many rows another station needs for it.
#[cfg(feature = "ours")]
pub struct Reported {
    first: Vec<u8>,
    second: Vec<u8>,
    signature: Vec<u8>,
    name: usize,
    side: usize,
    pub small: usize,
}

#[cfg(feature = "ours")]
impl Reported {
    pub fn asked(&self) -> Asked<'_> {
        let Reported { first, second, signature, name, side, .. } = self;
        Asked { first, second, signature, name: *name, side: *side }
    }
}

/// The lines of `shown` that are reported.
#[cfg(feature = "ours")]
pub fn reported(folder: &Path) -> Vec<Reported> {
    let text = std::fs::read_to_string(folder.join("shown.jsonl")).expect("vectors of concepts shown");
    let reported = text.lines().filter(|line| truth(line, "reported"));
    let read = |line| Reported {
        first: bytes(line, "first"),
        second: bytes(line, "second"),
        signature: bytes(line, "sig"),
        name: number(line, "name"),
        side: number(line, "side"),
        small: number(line, "small"),
    };
    reported.map(read).collect()
}

/// Two releases, a signature, a name and a side, and what is answered about them: here `side` is what is asked.
fn of_concept(line: &str, tried: impl FnOnce(Asked) -> bool) -> bool {
    let (first, second, signature) = (bytes(line, "first"), bytes(line, "second"), bytes(line, "sig"));
    let (name, side) = (number(line, "name"), number(line, "side"));
    tried(Asked { first: &first, second: &second, signature: &signature, name, side })
}

fn refusal_of_concept(line: &str) -> Refusal {
    Refusal { number: number(line, "number") as u8, side: number(line, "rside") as u8 }
}

/// Whether a concept is shown. The baseline writes none.
fn shown_agrees(line: &str) -> bool {
    of_concept(line, |asked| {
        let mut work = vec![FILLED; number(line, "work_len")];
        let answer = baseline::shows(asked, 3 * number(line, "rows_len"), &mut work);
        refusal_of(&answer) == refusal_of_concept(line)
            && answer.unwrap_or(false) == truth(line, "reported")
            && work_is_right(&work, answer.is_ok(), baseline::names_of(asked.first))
    })
}

fn rowcheck_agrees(line: &str) -> bool {
    of_concept(line, |asked| {
        let rows = rows(line);
        let mut work = vec![FILLED; number(line, "work_len")];
        let answer = baseline::check_concept(asked, &rows, &mut work);
        let names = baseline::names_of(asked.first);
        refusal_of(&answer) == refusal_of_concept(line)
            && answer.unwrap_or(false) == truth(line, "yes")
            && work_for_rows_is_right(&work, answer.is_ok(), names, rows.len() / 3)
    })
}

/// Tries every line of the files and prints how many agree. Gives whether all do. A family without a file is left out.
pub fn try_all(folder: &Path) -> bool {
    let families: [(&str, fn(&str) -> bool); 9] = [
        ("check", check_agrees),
        ("question", question_agrees),
        ("question-roles", question_agrees),
        ("compare", compare_agrees),
        ("compare-roles", compare_agrees),
        ("station", station_agrees),
        ("rewrite", rewrite_agrees),
        ("shown", shown_agrees),
        ("rowcheck", rowcheck_agrees),
    ];
    let mut all = true;
    for (family, agrees) in families {
        let path = folder.join(format!("{family}.jsonl"));
        if !path.exists() {
            continue;
        }
        let text = std::fs::read_to_string(&path).unwrap_or_else(|error| panic!("{}: {error}", path.display()));
        let differing: Vec<_> = text.lines().enumerate().filter(|(_, line)| !agrees(line)).collect();
        println!("{family}: {} lines, {} differ", text.lines().count(), differing.len());
        for (at, line) in differing.iter().take(3) {
            println!("  line {}: {line}", at + 1);
        }
        all &= differing.is_empty();
    }
    all
}
