//! Inputs to measure on: release files from a folder, and files written from axioms.

use crate::calls::Call;
use std::path::{Path, PathBuf};

pub struct Input {
    pub name: String,
    pub call: Call,
}

/// The axiom of a name. A filler `None` is ⊤.
#[derive(Clone)]
pub enum Axiom {
    None,
    Conjunction { equal: bool, parts: Vec<u16> },
    Some { equal: bool, role: u8, filler: Option<u16> },
}

/// A role and one that it lies under.
pub type Pair = (u8, u8);

/// Which files the inputs have: of version 1 alone; of version 2 too, with more names; of all versions, with pairs of roles.
#[derive(Clone, Copy, PartialEq, Eq)]
pub enum Kind {
    Narrow,
    Wide,
    Pairs,
}

/// The version of a release file.
#[derive(Clone, Copy, Debug, PartialEq, Eq)]
pub enum Version {
    One = 1,
    Two = 2,
    Three = 3,
}

impl Version {
    /// How many bytes the number of a name takes, in the file and in a question about it.
    pub fn width(self) -> usize {
        if self == Version::One {
            1
        } else {
            2
        }
    }

    pub fn number(self, number: u16) -> Vec<u8> {
        number.to_le_bytes()[..self.width()].to_vec()
    }
}

/// A release file with an axiom for each name. Only one of version 3 has pairs.
pub fn file_of(version: Version, names: usize, roles: usize, pairs: &[Pair], axioms: &[Axiom]) -> Vec<u8> {
    let count = axioms.iter().filter(|axiom| !matches!(axiom, Axiom::None)).count();
    let mut file = [b"ELT".as_slice(), &[version as u8, 0]].concat();
    file.extend(version.number(names as u16));
    file.push(roles as u8);
    file.extend(version.number(count as u16));
    if version == Version::Three {
        file.push(pairs.len() as u8);
        pairs.iter().for_each(|&(lower, upper)| file.extend([lower, upper]));
    }
    for (name, axiom) in axioms.iter().enumerate() {
        let name = version.number(name as u16);
        match axiom {
            Axiom::None => {}
            Axiom::Conjunction { equal, parts } => {
                file.extend(name);
                file.extend([1 + *equal as u8, parts.len() as u8]);
                parts.iter().for_each(|&part| file.extend(version.number(part)));
            }
            Axiom::Some { equal, role, filler } => {
                file.extend(name);
                file.extend([3 + *equal as u8, *role]);
                // ⊤ has all bits set, in one byte and in two.
                file.extend(version.number(filler.unwrap_or(u16::MAX)));
            }
        }
    }
    file
}

/// The axioms of an accepted file of version 1, one for each name.
pub fn axioms_in(file: &[u8]) -> Vec<Axiom> {
    let mut axioms = vec![Axiom::None; file[5] as usize];
    let mut rest = &file[8..];
    while let [name, kind, first, after @ ..] = rest {
        let (equal, taken) = (kind % 2 == 0, if *kind < 3 { *first as usize } else { 1 });
        let (names, more) = after.split_at(taken);
        axioms[*name as usize] = if *kind < 3 {
            Axiom::Conjunction { equal, parts: names.iter().map(|&part| part.into()).collect() }
        } else {
            Axiom::Some { equal, role: *first, filler: (names[0] != u8::MAX).then_some(names[0].into()) }
        };
        rest = more;
    }
    axioms
}

/// The folder of the inputs with 1,023 names, in that of the others.
pub fn wide_folder(folder: &Path) -> PathBuf {
    folder.join("1023")
}

/// Comparisons that are refused with 18 after both files were read: what reading costs. The last byte of the signature
/// is at fault. The files are those of the folder and, for both releases, the longest that is accepted.
pub fn refused_late(folder: &Path) -> Vec<Input> {
    let mut inputs = from_folder(folder);
    let longest = longest_file();
    let signature = vec![0; MOST_NAMES];
    let call = Call::Compare { first: longest.clone(), second: longest, signature };
    inputs.push(Input { name: "longest_1023".to_string(), call });
    for input in &mut inputs {
        input.name = format!("refused_{}", input.name);
        if let Call::Compare { signature, .. } = &mut input.call {
            *signature.last_mut().expect("a signature with names") = 2;
        }
    }
    inputs
}

const MOST_NAMES: usize = 1023;

/// 1,023 axioms with 16 conjuncts each: 36,838 bytes.
fn longest_file() -> Vec<u8> {
    let axiom =
        |name: u16| Axiom::Conjunction { equal: false, parts: (0..16).map(|part| name / 16 * 15 + part).collect() };
    file_of(Version::Two, MOST_NAMES, 0, &[], &(0..MOST_NAMES as u16).map(axiom).collect::<Vec<_>>())
}

/// Every NAME.a of the folder, with NAME.b and NAME.s, by name.
pub fn from_folder(folder: &Path) -> Vec<Input> {
    let entries = std::fs::read_dir(folder).unwrap_or_else(|error| panic!("{}: {error}", folder.display()));
    let mut paths: Vec<_> = entries.map(|entry| entry.expect("a readable folder").path()).collect();
    paths.retain(|path| path.extension().is_some_and(|extension| extension == "a"));
    paths.sort();
    paths.iter().map(|path| from_files(path)).collect()
}

fn from_files(first: &Path) -> Input {
    let read = |path: &Path| std::fs::read(path).unwrap_or_else(|error| panic!("{}: {error}", path.display()));
    Input {
        name: first.file_stem().expect("a file name").to_string_lossy().into_owned(),
        call: Call::Compare {
            first: read(first),
            second: read(&first.with_extension("b")),
            signature: read(&first.with_extension("s")),
        },
    }
}

#[cfg(test)]
mod tests {
    use super::*;

    #[test]
    fn a_file_is_that_of_its_axioms() {
        let file = b"ELT\x01\x00\x05\x02\x04\x00\x01\x02\x01\x02\x01\x02\x00\x02\x03\x01\xff\x04\x04\x00\x03";
        assert_eq!(file_of(Version::One, 5, 2, &[], &axioms_in(file)), file);
    }

    #[test]
    fn the_longest_file_is_accepted() {
        let file = longest_file();
        assert_eq!(file.len(), 36838);
        assert_eq!(crate::baseline::check(&file).expect("accepted").axioms, MOST_NAMES);
    }
}
