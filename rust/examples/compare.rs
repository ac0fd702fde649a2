//! Compares two release files over a signature file, in both orders, and prints the reports, and a line for each pair of roles that is reported:
//! equal over the signature are releases of which neither order reports a name or a pair.
//!
//!     cargo run --example compare FIRST SECOND SIGNATURE

use std::error::Error;

fn report(first: &[u8], second: &[u8], signature: &[u8]) -> Result<String, berrytick::Refusal> {
    let names = berrytick::check(first)?.names;
    let mut work = vec![0; berrytick::work_length(names)?];
    let mut output = vec![0; berrytick::REPORT_BYTES];
    let length = berrytick::report(first, second, signature, &mut output, &mut work)?;
    Ok(output[..length].iter().map(|&byte| char::from(byte)).collect())
}

/// The pairs of roles of which the one lies under the other by the first release and not by the second.
fn pairs(first: &[u8], second: &[u8], signature: &[u8]) -> Result<String, berrytick::Refusal> {
    let berrytick::Counts { names, roles, .. } = berrytick::check(first)?;
    let mut result = vec![0; names];
    let mut role_result = vec![0; roles * roles];
    let mut work = vec![0; berrytick::work_length(names)?];
    berrytick::compare(first, second, signature, &mut result, &mut role_result, &mut work)?;
    let reported = (0..roles * roles).filter(|&place| role_result[place] == 1);
    Ok(reported.map(|place| format!("role {} under {}\n", place / roles, place % roles)).collect())
}

fn main() -> Result<(), Box<dyn Error>> {
    let files: Vec<String> = std::env::args().skip(1).collect();
    let [first, second, signature] = &files[..] else {
        return Err("usage: compare FIRST SECOND SIGNATURE".into());
    };
    let (first, second, signature) = (std::fs::read(first)?, std::fs::read(second)?, std::fs::read(signature)?);
    print!("first to second\n{}{}", report(&first, &second, &signature)?, pairs(&first, &second, &signature)?);
    print!("second to first\n{}{}", report(&second, &first, &signature)?, pairs(&second, &first, &signature)?);
    Ok(())
}
