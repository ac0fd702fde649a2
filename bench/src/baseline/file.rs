//! The release file, versions 1 to 3: reading, refusing and rewriting it. The versions differ in how many bytes the
//! number of a name takes, and in whether pairs of roles stand before the axioms, so there is one reader, with a width.
//! ⊤ is node n, after the names 0 to n − 1.

use super::bits::{Bits, Relation};
use super::inclusions::{members, Inclusions};

pub const MOST_ROLES: usize = 32;
const MOST_PARTS: usize = 16;
const MARK: &[u8] = b"ELT";
/// The mark and the version, which every version has.
const START: usize = 5;
/// A file that is shorter is refused before its version is looked at.
const SHORTEST: usize = 8;

/// What the versions differ in.
#[derive(Clone, Copy, PartialEq, Eq)]
pub struct Version {
    number: u16,
    /// How many bytes n, the count of axioms, names and fillers take.
    pub width: usize,
    most_names: usize,
    /// ⊤ as a filler.
    everything: usize,
    /// Pairs of roles stand before the axioms, and how many they are at the header's end.
    has_pairs: bool,
}

pub const FIRST: Version = Version { number: 1, width: 1, most_names: 127, everything: 255, has_pairs: false };
pub const SECOND: Version = Version { number: 2, width: 2, most_names: 1023, everything: 65535, has_pairs: false };
pub const THIRD: Version = Version { number: 3, has_pairs: true, ..SECOND };

impl Version {
    fn of_number(number: u16) -> Option<Version> {
        [FIRST, SECOND, THIRD].into_iter().find(|version| version.number == number)
    }

    pub fn has_room_for(&self, names: usize) -> bool {
        names <= self.most_names
    }

    /// n, a byte for m, the count of axioms and that of pairs follow the start.
    fn header(&self) -> usize {
        START + 2 * self.width + 1 + usize::from(self.has_pairs)
    }
}

/// The number of so many bytes at a place, low byte first; none where the bytes end before.
#[inline]
pub fn number_at(bytes: &[u8], at: usize, width: usize) -> Option<usize> {
    let low = *bytes.get(at)? as usize;
    if width == 1 {
        return Some(low);
    }
    Some(low + 256 * *bytes.get(at + 1)? as usize)
}

fn push_number(file: &mut Vec<u8>, number: usize, width: usize) {
    file.extend(&number.to_le_bytes()[..width]);
}

#[derive(Clone, Copy)]
pub struct Header {
    pub version: Version,
    pub names: usize,
    pub roles: usize,
    pub axioms: usize,
    pub pairs: usize,
}

/// The version of a file, or 1, 2 or 3.
fn version(file: &[u8]) -> Result<Version, u8> {
    if file.len() < SHORTEST {
        return Err(1);
    }
    if &file[..MARK.len()] != MARK {
        return Err(2);
    }
    Version::of_number(u16::from_le_bytes([file[3], file[4]])).ok_or(3)
}

/// The same, where a file with pairs is of no version that is known.
pub fn version_without_pairs(file: &[u8]) -> Result<Version, u8> {
    version(file).and_then(|version| if version.has_pairs { Err(3) } else { Ok(version) })
}

/// What the header says, or the number of the first condition that holds of it: 1, 2, 3, 1 again, 4, 5, 6.
pub fn header(file: &[u8]) -> Result<Header, u8> {
    let version = version(file)?;
    if file.len() < version.header() {
        return Err(1);
    }
    let width = version.width;
    let names = number_at(file, START, width).ok_or(1)?;
    let roles = file[START + width] as usize;
    let axioms = number_at(file, START + width + 1, width).ok_or(1)?;
    let pairs = if version.has_pairs { usize::from(file[version.header() - 1]) } else { 0 };
    let conditions = [(4, !version.has_room_for(names)), (5, roles > MOST_ROLES), (6, axioms > names)];
    match conditions.iter().find(|(_, holds)| *holds) {
        Some((number, _)) => Err(*number),
        None => Ok(Header { version, names, roles, axioms, pairs }),
    }
}

/// How many names the header says, 0 where it is refused: enough to choose the size of the sets.
pub fn names_of(file: &[u8]) -> usize {
    header(file).map_or(0, |header| header.names)
}

#[derive(Clone, Copy, PartialEq, Eq)]
pub enum Kind {
    None,
    /// A ⊑ a conjunction, and A ≡ a conjunction.
    Below,
    Conjunction,
    /// A ⊑ ∃r.B, and A ≡ ∃r.B.
    BelowSome,
    Some,
}

/// The axiom of a name; role and filler only with ∃.
#[derive(Clone, Copy)]
pub struct Axiom {
    pub kind: Kind,
    pub role: u8,
    pub filler: u16,
}

/// What an accepted file says, by name, with indices in the other direction.
pub struct Release<const W: usize> {
    pub version: Version,
    pub names: usize,
    pub roles: usize,
    pub axioms: usize,
    pub axiom: Vec<Axiom>,
    /// The conjuncts of a name, whether ⊑ or ≡.
    pub parts: Relation<W>,
    /// The names defined as a conjunction.
    pub conjunctions: Bits<W>,
    /// Those without a conjunct: each means everything.
    pub everything: Bits<W>,
    /// The names defined as a conjunction in which a name is a part.
    pub conjunctions_with: Relation<W>,
    pub inclusions: Inclusions,
    /// For each role the names with ∃ by a role that lies under it, and by one that it lies under.
    pub with_role_under: [Bits<W>; MOST_ROLES],
    pub with_role_above: [Bits<W>; MOST_ROLES],
    /// The names with ∃, by filler.
    pub with_filler: Relation<W>,
    /// The names defined by ∃ (≡), and their fillers.
    pub defined_by_some: Bits<W>,
    pub fillers_of_defined: Bits<W>,
}

impl<const W: usize> Release<W> {
    /// Every node: the names and ⊤.
    pub fn nodes(&self) -> Bits<W> {
        Bits::below(self.names + 1)
    }

    fn empty(header: &Header) -> Release<W> {
        let nodes = header.names + 1;
        Release {
            version: header.version,
            names: header.names,
            roles: header.roles,
            axioms: header.axioms,
            axiom: vec![Axiom { kind: Kind::None, role: 0, filler: 0 }; nodes],
            parts: Relation::empty(nodes),
            conjunctions: Bits::EMPTY,
            everything: Bits::EMPTY,
            conjunctions_with: Relation::empty(nodes),
            inclusions: Inclusions::OWN,
            with_role_under: [Bits::EMPTY; MOST_ROLES],
            with_role_above: [Bits::EMPTY; MOST_ROLES],
            with_filler: Relation::empty(nodes),
            defined_by_some: Bits::EMPTY,
            fillers_of_defined: Bits::EMPTY,
        }
    }

    #[inline]
    pub fn kind(&self, name: usize) -> Kind {
        self.axiom[name].kind
    }

    /// The role of a name with ∃.
    #[inline]
    pub fn role(&self, name: usize) -> usize {
        self.axiom[name].role as usize
    }

    /// The names defined as ∃ over a node.
    #[inline]
    pub fn defined_over(&self, filler: usize) -> impl Iterator<Item = usize> + '_ {
        self.with_filler.of(filler).filter(|&name| self.defined_by_some.has(name))
    }

    fn add_part(&mut self, name: usize, part: usize, equal: bool) {
        self.parts.add(name, part);
        if equal {
            self.conjunctions_with.add(part, name);
        }
    }

    fn add_conjunction(&mut self, name: usize, equal: bool) {
        self.axiom[name].kind = if equal { Kind::Conjunction } else { Kind::Below };
        if equal {
            self.conjunctions.insert(name);
            if self.parts.row(name).is_empty() {
                self.everything.insert(name);
            }
        }
    }

    fn add_some(&mut self, name: usize, role: usize, filler: usize, equal: bool) {
        let kind = if equal { Kind::Some } else { Kind::BelowSome };
        self.axiom[name] = Axiom { kind, role: role as u8, filler: filler as u16 };
        members(self.inclusions.above(role)).for_each(|above| self.with_role_under[above].insert(name));
        members(self.inclusions.under(role)).for_each(|under| self.with_role_above[under].insert(name));
        self.with_filler.add(filler, name);
        if equal {
            self.defined_by_some.insert(name);
            self.fillers_of_defined.insert(filler);
        }
    }
}

/// The numbers after the header, one at a time.
struct Reader<'a> {
    file: &'a [u8],
    at: usize,
    width: usize,
}

impl Reader<'_> {
    /// The next number: 7 where it is not all there, `refusal` where it does not fit.
    #[inline]
    fn number(&mut self, width: usize, refusal: u8, fits: impl Fn(usize) -> bool) -> Result<usize, u8> {
        let number = number_at(self.file, self.at, width).ok_or(7)?;
        self.at += width;
        if fits(number) {
            Ok(number)
        } else {
            Err(refusal)
        }
    }

    fn byte(&mut self, refusal: u8, fits: impl Fn(usize) -> bool) -> Result<usize, u8> {
        self.number(1, refusal, fits)
    }

    /// A name that is above `before`, or else the refusal `order`.
    #[inline]
    fn rising_name(&mut self, names: usize, before: Option<usize>, order: u8) -> Result<usize, u8> {
        let name = self.number(self.width, 9, |name| name < names)?;
        match before {
            Some(before) if name <= before => Err(order),
            _ => Ok(name),
        }
    }

    /// Reads the pairs of roles; each lies above the one before.
    fn pairs(&mut self, count: usize, roles: usize) -> Result<Inclusions, u8> {
        let mut inclusions = Inclusions::OWN;
        let mut before = None;
        for _ in 0..count {
            let lower = self.byte(11, |role| role < roles)?;
            let upper = self.byte(11, |role| role < roles)?;
            if before.is_some_and(|before| (lower, upper) <= before) {
                return Err(49);
            }
            before = Some((lower, upper));
            inclusions.add(lower, upper);
        }
        inclusions.close();
        Ok(inclusions)
    }

    /// Reads one axiom into the release, and gives its left name.
    fn axiom<const W: usize>(&mut self, release: &mut Release<W>, before: Option<usize>) -> Result<usize, u8> {
        let (names, roles) = (release.names, release.roles);
        let everything = release.version.everything;
        let left = self.rising_name(names, before, 10)?;
        let kind = self.byte(8, |kind| (1..=4).contains(&kind))?;
        let equal = kind % 2 == 0;
        if kind <= 2 {
            let count = self.byte(12, |count| count <= MOST_PARTS)?;
            let mut before = None;
            for _ in 0..count {
                let part = self.rising_name(names, before, 13)?;
                release.add_part(left, part, equal);
                before = Some(part);
            }
            release.add_conjunction(left, equal);
        } else {
            let role = self.byte(11, |role| role < roles)?;
            let filler = self.number(self.width, 9, |filler| filler < names || filler == everything)?;
            release.add_some(left, role, filler.min(names), equal);
        }
        Ok(left)
    }
}

/// The release that a file holds, or the number of the first condition, 1 to 15 or 49, that holds of it. The sets have room
/// for its names, by `names_of`.
pub fn read<const W: usize>(file: &[u8]) -> Result<Release<W>, u8> {
    let header = header(file)?;
    let mut release = Release::empty(&header);
    let mut reader = Reader { file, at: header.version.header(), width: header.version.width };
    release.inclusions = reader.pairs(header.pairs, release.roles)?;
    let mut before = None;
    for _ in 0..release.axioms {
        before = Some(reader.axiom(&mut release, before)?);
    }
    if reader.at < file.len() {
        return Err(14);
    }
    let defined = |name| release.parts.of(name).any(|part| release.conjunctions.has(part));
    if (0..release.names).any(defined) {
        return Err(15);
    }
    Ok(release)
}

/// An accepted file without pairs in a version that has room for its names. Nothing is tested: every byte but the version and
/// the numbers of names is copied.
pub fn rewritten(file: &[u8], header: &Header, to: &Version) -> Vec<u8> {
    let from = header.version;
    let mut out = MARK.to_vec();
    out.extend(to.number.to_le_bytes());
    push_number(&mut out, header.names, to.width);
    out.push(header.roles as u8);
    push_number(&mut out, header.axioms, to.width);
    out.extend(to.has_pairs.then_some(0));
    let mut at = from.header();
    let copy_name = |out: &mut Vec<u8>, at: usize| {
        let name = number_at(file, at, from.width).expect("an accepted file");
        push_number(out, if name == from.everything { to.everything } else { name }, to.width);
    };
    for _ in 0..header.axioms {
        copy_name(&mut out, at);
        at += from.width;
        let [kind, count] = [file[at], file[at + 1]];
        out.extend([kind, count]);
        at += 2;
        // After a role there is one filler, after k there are k names.
        for _ in 0..if kind <= 2 { count } else { 1 } {
            copy_name(&mut out, at);
            at += from.width;
        }
    }
    out
}
