//! Compares two release files over a signature file, and shows for each name reported what has changed: a concept over the branch's own names
//! and roles, row by row; the last row is the concept.
//!
//!     cargo run --example concepts FIRST SECOND SIGNATURE

use std::error::Error;

/// A row in words: names and roles by their numbers, earlier rows by theirs.
fn words(row: [u32; 3]) -> String {
    match row {
        [0, ..] => "everything".to_string(),
        [1, name, _] => format!("name {name}"),
        [2, one, other] => format!("row {one} and row {other}"),
        [_, role, row] => format!("some {role} of row {row}"),
    }
}

fn print_concepts(first: &[u8], second: &[u8], signature: &[u8]) -> Result<(), berrytick::Refusal> {
    let names = berrytick::check(first)?.names;
    let mut rows = vec![[0; 3]; berrytick::concept_rows(names)];
    let mut work = vec![0; berrytick::work_length(names)?];
    for name in 0..names {
        for (side, place) in [(1, "above"), (2, "below")] {
            let count = berrytick::show_concept(first, second, signature, name, side, &mut rows, &mut work)?;
            if count > 0 {
                println!("{place} name {name} by the first release and not by the second");
            }
            for (at, &row) in rows[..count].iter().enumerate() {
                println!("    row {at}: {}", words(row));
            }
        }
    }
    Ok(())
}

fn main() -> Result<(), Box<dyn Error>> {
    let files: Vec<String> = std::env::args().skip(1).collect();
    let [first, second, signature] = &files[..] else {
        return Err("usage: concepts FIRST SECOND SIGNATURE".into());
    };
    print_concepts(&std::fs::read(first)?, &std::fs::read(second)?, &std::fs::read(signature)?)?;
    Ok(())
}
