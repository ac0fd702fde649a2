//! Measures the proved comparison and question beside a baseline, and checks that both agree.
//!
//!     bench vectors FOLDER            the baseline against outside vectors
//!     bench compare FOLDER [KIND]     a table of comparisons: the inputs of FOLDER, and practice inputs
//!     bench sheet FOLDER [KIND]       a table of sheets of 64 branches beside as many single comparisons
//!     bench question [all] [KIND]     a table of the worst questions
//!     bench concept FOLDER [KIND]     a table of concepts shown and checked beside the comparison; only with the proved library
//!     bench session FOLDER            a table of steps of sessions beside the comparison; only with the proved library
//!     bench small FOLDER              the rows of the concepts of outside vectors beside a yardstick; only with the proved library
//!     bench agree COUNT [KIND]        both on so many random inputs, whole and damaged, short of memory at times; and with the proved
//!                                     library concepts shown and rows checked, and where no KIND is given sessions
//!     bench repeat BY INPUT COUNT FOLDER
//!                                     one input, COUNT times, by `ours` or `baseline`: for counting instructions
//!     bench repeat sheet|step|held INPUT COUNT FOLDER
//!                                     a sheet of it, COUNT times; an axiom of a session of it withdrawn and added again, or the two comparisons of
//!                                     what it then holds
//!     bench repeat show|check INPUT COUNT FOLDER [NAME]
//!                                     a concept of a name, or of the first that is reported, shown or checked
//!     bench list compare|question|sheet FOLDER [KIND]
//!                                     the names of the inputs of such a table
//!
//! KIND is --wide, for files of version 2: those of FOLDER/1023, questions with 1,023 names, random ones; or --pairs, for files of version 3:
//! the inputs with 32 roles and pairs of these in several shapes, random ones. Without it all files are of version 1, so that a library that
//! refuses the later ones can be measured.

mod agreement;
mod baseline;
mod calls;
#[cfg(feature = "ours")]
mod concepts;
mod inputs;
mod measure;
#[cfg(test)]
mod naive;
mod ours;
mod pairs;
mod practice;
mod questions;
#[cfg(feature = "ours")]
mod sessions;
mod sheet;
mod vectors;

use calls::{Buffers, Implementation};
use inputs::{Input, Kind};
use measure::Measured;
use std::path::Path;
use std::process::ExitCode;

fn main() -> ExitCode {
    let arguments: Vec<String> = std::env::args().skip(1).collect();
    let mut arguments: Vec<&str> = arguments.iter().map(String::as_str).collect();
    let mut kind = Kind::Narrow;
    arguments.retain(|&argument| {
        let named = [("--wide", Kind::Wide), ("--pairs", Kind::Pairs)].into_iter().find(|(name, _)| *name == argument);
        kind = named.map_or(kind, |(_, kind)| kind);
        named.is_none()
    });
    let right = match arguments[..] {
        ["vectors", folder] => vectors::try_all(Path::new(folder)),
        ["compare", folder] => compare(Path::new(folder), kind),
        ["sheet", folder] => sheet::table(&sheets_of(Path::new(folder), kind)),
        ["question"] => question(false, kind),
        ["question", "all"] => question(true, kind),
        ["agree", count] => count.parse().map_or_else(|_| usage(), |count| agree(count, kind)),
        #[cfg(feature = "ours")]
        ["concept", folder] => concepts::table(&comparisons_of(Path::new(folder), kind)),
        #[cfg(feature = "ours")]
        ["small", folder] => concepts::against_small(Path::new(folder)),
        #[cfg(feature = "ours")]
        ["session", folder] => sessions::table(&inputs::from_folder(Path::new(folder))),
        ["list", what, folder] => list(what, Path::new(folder), kind),
        ["repeat", by, input, count, folder] => repeat(by, input, count, Path::new(folder), None),
        ["repeat", by, input, count, folder, name] => repeat(by, input, count, Path::new(folder), name.parse().ok()),
        _ => usage(),
    };
    if right {
        ExitCode::SUCCESS
    } else {
        ExitCode::FAILURE
    }
}

fn usage() -> bool {
    eprintln!("bench vectors FOLDER | compare FOLDER [KIND] | sheet FOLDER [KIND] | question [all] [KIND] | agree COUNT [KIND]");
    eprintln!(
        "bench concept FOLDER [KIND] | small FOLDER | session FOLDER | list compare|question|sheet FOLDER [KIND]"
    );
    eprintln!(
        "bench repeat ours|baseline|sheet|step|held INPUT COUNT FOLDER | repeat show|check INPUT COUNT FOLDER [NAME]"
    );
    eprintln!("KIND is --wide or --pairs");
    false
}

/// All calls on so many random inputs.
fn agree(count: usize, kind: Kind) -> bool {
    let calls = agreement::try_many(count, kind);
    #[cfg(feature = "ours")]
    let calls = concepts::try_many(count, kind) & (kind != Kind::Narrow || sessions::try_many(count)) & calls;
    calls
}

/// The comparisons of a kind.
fn comparisons_of(folder: &Path, kind: Kind) -> Vec<Input> {
    match kind {
        Kind::Narrow => inputs::from_folder(folder),
        Kind::Wide => inputs::from_folder(&inputs::wide_folder(folder)),
        Kind::Pairs => pairs::shaped_comparisons(folder),
    }
}

/// The comparisons that sheets are made of.
fn sheets_of(folder: &Path, kind: Kind) -> Vec<Input> {
    if kind == Kind::Pairs {
        pairs::shaped_sheets(folder)
    } else {
        comparisons_of(folder, kind)
    }
}

/// The questions of a kind.
fn questions_of(kind: Kind) -> Vec<Input> {
    match kind {
        Kind::Narrow => questions::inputs(),
        Kind::Wide => questions::wide_inputs(),
        Kind::Pairs => pairs::shaped_questions(),
    }
}

/// Tables of comparisons: the practice inputs too, or what reading long files costs.
fn compare(folder: &Path, kind: Kind) -> bool {
    let inputs = comparisons_of(folder, kind);
    match kind {
        Kind::Narrow => print_tables([("comparison", inputs), ("practice comparison", practice::inputs())]),
        Kind::Wide => print_tables([
            ("comparison, 1,023 names", inputs),
            ("comparison refused after reading, 1,023 names", inputs::refused_late(&inputs::wide_folder(folder))),
        ]),
        Kind::Pairs => pairs::table("comparison, 32 roles", &inputs),
    }
}

/// Prints the names of the inputs of a table.
fn list(what: &str, folder: &Path, kind: Kind) -> bool {
    let mut inputs = match what {
        "compare" => comparisons_of(folder, kind),
        "sheet" => sheets_of(folder, kind),
        "question" => questions_of(kind),
        _ => return usage(),
    };
    if what == "compare" {
        inputs.extend(match kind {
            Kind::Narrow => practice::inputs(),
            Kind::Wide => inputs::refused_late(&inputs::wide_folder(folder)),
            Kind::Pairs => Vec::new(),
        });
    }
    inputs.iter().for_each(|input| println!("{}", input.name));
    true
}

fn print_tables(tables: [(&str, Vec<Input>); 2]) -> bool {
    let mut all_agree = true;
    for (what, inputs) in tables {
        let (rows, agree) = measure::measure_all(&inputs);
        measure::print_heading(what);
        rows.iter().for_each(measure::print_row);
        measure::print_summary(&rows);
        println!();
        all_agree &= agree;
    }
    all_agree
}

/// Prints every question, or for each two concepts the release on which ours takes longest.
fn question(all: bool, kind: Kind) -> bool {
    let inputs = questions_of(kind);
    if kind == Kind::Pairs {
        return pairs::table("question: release/below/above", &inputs);
    }
    let (rows, agree) = measure::measure_all(&inputs);
    measure::print_heading("question: release/below/above");
    let mut slowest: Vec<&Measured> = Vec::new();
    for row in &rows {
        match slowest.iter_mut().find(|other| concepts_of(other) == concepts_of(row)) {
            Some(other) if row.ours > other.ours => *other = row,
            Some(_) => {}
            None => slowest.push(row),
        }
    }
    let shown = if all { rows.iter().collect() } else { slowest };
    shown.into_iter().for_each(measure::print_row);
    measure::print_summary(&rows);
    println!(
        "answers 0 to 3: {:?}",
        [0, 1, 2, 3].map(|answer| rows.iter().filter(|row| row.answer == Ok(answer)).count())
    );
    agree
}

/// BELOW/ABOVE of a question's name.
fn concepts_of(row: &Measured) -> &str {
    row.name.split_once('/').map_or("", |(_, concepts)| concepts)
}

/// The call of an input; `of` is the name whose concept is shown or checked.
#[cfg_attr(not(feature = "ours"), allow(unused_variables))]
fn repeat(by: &str, name: &str, count: &str, folder: &Path, of: Option<usize>) -> bool {
    let (Ok(count), Some(input)) = (count.parse::<usize>(), find(name, folder)) else {
        return usage();
    };
    let by = match by {
        "ours" => Implementation::Ours,
        "baseline" => Implementation::Baseline,
        "sheet" => return sheet::repeat(&input, count),
        #[cfg(feature = "ours")]
        "show" | "check" => return concepts::repeat(&input, of, by == "check", count),
        #[cfg(feature = "ours")]
        "step" | "held" => return sessions::repeat(&input, by == "step", count),
        _ => return usage(),
    };
    let mut buffers = Buffers::for_names(input.call.names());
    for _ in 0..count {
        input.call.run(by, &mut buffers);
    }
    println!("{name}: answer {:?}", buffers.answer);
    true
}

fn find(name: &str, folder: &Path) -> Option<Input> {
    if name.contains('+') {
        return pairs::named(name, |base| {
            if base.contains('/') {
                among(questions::pairs_inputs(), base)
            } else {
                find(base, folder)
            }
        });
    }
    let inputs = if name.contains('/') {
        questions::inputs().into_iter().chain(questions::wide_inputs()).collect()
    } else if name.starts_with("refused_") {
        inputs::refused_late(&inputs::wide_folder(folder))
    } else if name.contains("_1023_") {
        inputs::from_folder(&inputs::wide_folder(folder))
    } else if name.starts_with("practice_") {
        practice::inputs()
    } else {
        inputs::from_folder(folder)
    };
    among(inputs, name)
}

fn among(mut inputs: Vec<Input>, name: &str) -> Option<Input> {
    let at = inputs.iter().position(|input| input.name == name)?;
    Some(inputs.swap_remove(at))
}
