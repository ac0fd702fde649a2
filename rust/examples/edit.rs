//! Edits two release files of version 1 and shows after each step which names are reported over a signature file. The steps are lines of standard
//! input: a side, and an axiom to add, its bytes in hex as they stand in a file, or a name to withdraw the axiom of.
//!
//!     cargo run --example edit FIRST SECOND SIGNATURE
//!     add 2 03 02 02 01 02
//!     withdraw 1 7

use berrytick::Session;
use std::error::Error;
use std::io::stdin;

/// The names reported, each with L, R or B.
fn reported(session: &Session) -> String {
    let letter = |byte| [' ', 'L', 'R', 'B'][usize::from(byte)];
    let names = (0..session.names()).map(|name| (name, session.byte(name))).filter(|&(_, byte)| byte > 0);
    names.map(|(name, byte)| format!(" {name:03} {}", letter(byte))).collect()
}

fn bytes_in(hex: &[&str]) -> Result<Vec<u8>, std::num::ParseIntError> {
    hex.iter().map(|byte| u8::from_str_radix(byte, 16)).collect()
}

/// Takes a step; the error is the step's refusal, or says that the line is none.
fn take(step: &str, session: &mut Session, work: &mut [u8]) -> Result<(), Box<dyn Error>> {
    match step.split_whitespace().collect::<Vec<&str>>()[..] {
        ["add", side, ref axiom @ ..] => session.add(side.parse()?, &bytes_in(axiom)?, work)?,
        ["withdraw", side, name] => session.withdraw(side.parse()?, name.parse()?, work)?,
        _ => return Err("a step is add SIDE BYTES, or withdraw SIDE NAME".into()),
    }
    Ok(())
}

fn main() -> Result<(), Box<dyn Error>> {
    let files: Vec<String> = std::env::args().skip(1).collect();
    let [first, second, signature] = &files[..] else {
        return Err("usage: edit FIRST SECOND SIGNATURE".into());
    };
    let (first, second, signature) = (std::fs::read(first)?, std::fs::read(second)?, std::fs::read(signature)?);
    let mut work = vec![0; berrytick::work_length(berrytick::check(&first)?.names)?];
    let mut session = Session::start(&first, &second, &signature, &mut work)?;
    println!("reported:{}", reported(&session));
    for step in stdin().lines() {
        match take(&step?, &mut session, &mut work) {
            Ok(()) => println!("reported:{}", reported(&session)),
            Err(error) => println!("{error}"),
        }
    }
    Ok(())
}
