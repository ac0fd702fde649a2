//! A test of the baseline: the same answers by plain sweeps over tables until nothing changes, without bits, work lists
//! or indices, straight from the rules.

use crate::baseline;
use crate::inputs::{file_of, Axiom, Pair, Version};
use crate::practice::{self, Draws, Form, Practice};

type Table = Vec<Vec<bool>>;

const MOST_ROLES: usize = 32;

/// Sets every cell that the rule allows, until it allows no more.
fn sweep(size: usize, rule: impl Fn(&Table, usize, usize) -> bool) -> Table {
    let mut table = vec![vec![false; size]; size];
    let mut changed = true;
    while changed {
        changed = false;
        for x in 0..size {
            for y in 0..size {
                if !table[x][y] && rule(&table, x, y) {
                    table[x][y] = true;
                    changed = true;
                }
            }
        }
    }
    table
}

/// What a release says: its axioms, and which roles lie under which.
#[derive(Clone)]
struct Terms {
    axioms: Vec<Axiom>,
    under: Table,
}

impl Terms {
    fn of(axioms: &[Axiom], pairs: &[Pair]) -> Terms {
        let by_pair = |under: &Table, lower: usize, upper: usize| {
            pairs.iter().any(|&(one, other)| usize::from(one) == lower && under[usize::from(other)][upper])
        };
        let under = sweep(MOST_ROLES, |under, lower, upper| lower == upper || by_pair(under, lower, upper));
        Terms { axioms: axioms.to_vec(), under }
    }

    fn is_under(&self, lower: u8, upper: u8) -> bool {
        self.under[usize::from(lower)][usize::from(upper)]
    }
}

fn conjunction(axioms: &[Axiom], x: usize) -> Option<(bool, Vec<usize>)> {
    match axioms.get(x)? {
        Axiom::Conjunction { equal, parts } => Some((*equal, parts.iter().map(|&part| part as usize).collect())),
        _ => None,
    }
}

/// Whether equal, role and filler; ⊤ is the number after the last name.
fn restriction(axioms: &[Axiom], x: usize) -> Option<(bool, u8, usize)> {
    match axioms.get(x)? {
        Axiom::Some { equal, role, filler } => Some((*equal, *role, filler.map_or(axioms.len(), usize::from))),
        _ => None,
    }
}

fn is_conjunction(axioms: &[Axiom], x: usize) -> bool {
    conjunction(axioms, x).is_some_and(|(equal, _)| equal)
}

/// The edges of a node by a role, by their ends: those by a role under it are such.
fn ends(terms: &Terms, order: &Table, x: usize, role: u8) -> Vec<usize> {
    (0..terms.axioms.len())
        .filter(|&name| order[x][name])
        .filter_map(|name| restriction(&terms.axioms, name))
        .filter(|&(_, other, _)| terms.is_under(other, role))
        .map(|(_, _, end)| end)
        .collect()
}

fn order(terms: &Terms) -> Table {
    let axioms = &terms.axioms;
    let everything = axioms.len();
    sweep(everything + 1, |below, x, y| {
        let by_part = || {
            (0..everything)
                .any(|name| below[x][name] && conjunction(axioms, name).is_some_and(|(_, parts)| parts.contains(&y)))
        };
        let by_all_parts = || match conjunction(axioms, y) {
            Some((true, parts)) => parts.iter().all(|&part| below[x][part]),
            _ => false,
        };
        let by_edge = || match restriction(axioms, y) {
            Some((true, role, filler)) => ends(terms, below, x, role).iter().any(|&end| below[end][filler]),
            _ => false,
        };
        x == y || y == everything || by_part() || by_all_parts() || by_edge()
    })
}

struct Both<'a> {
    made: &'a Practice,
    first_terms: Terms,
    second_terms: Terms,
    first: Table,
    second: Table,
}

impl Both<'_> {
    fn of(made: &Practice) -> Both<'_> {
        let first_terms = Terms::of(&made.first, &made.first_pairs);
        let second_terms = Terms::of(&made.second, &made.second_pairs);
        let (first, second) = (order(&first_terms), order(&second_terms));
        Both { made, first_terms, second_terms, first, second }
    }

    fn names(&self) -> impl Iterator<Item = usize> + '_ {
        (0..self.made.names).filter(|&name| self.made.signature[name] == 1)
    }

    fn roles(&self) -> impl Iterator<Item = u8> + '_ {
        (0..self.made.roles).filter(|&role| self.made.signature[self.made.names + role] == 1).map(|role| role as u8)
    }

    fn forward(&self) -> Table {
        sweep(self.made.names + 1, |table, x, y| {
            let unmatched = |role: u8, end: usize| {
                ends(&self.second_terms, &self.second, y, role).iter().all(|&other| table[end][other])
            };
            self.names().any(|name| self.first[x][name] && !self.second[y][name])
                || self
                    .roles()
                    .any(|role| ends(&self.first_terms, &self.first, x, role).iter().any(|&end| unmatched(role, end)))
        })
    }

    /// Column n is *nothing*.
    fn backward(&self) -> Table {
        let nothing = self.made.names;
        sweep(nothing + 1, |table, x, y| {
            if is_conjunction(&self.made.second, y) {
                let (_, parts) = conjunction(&self.made.second, y).unwrap();
                return parts.iter().any(|&part| table[x][part]);
            }
            if x == self.made.names {
                return true;
            }
            if is_conjunction(&self.made.first, x) {
                let (_, parts) = conjunction(&self.made.first, x).unwrap();
                return parts.iter().all(|&part| table[part][y]);
            }
            self.names().any(|name| self.first[name][x] && (y == nothing || !self.second[name][y]))
                || self.backward_by_edge(table, x, y)
        })
    }

    fn backward_by_edge(&self, table: &Table, x: usize, y: usize) -> bool {
        let nothing = self.made.names;
        let Some((true, role, filler)) = restriction(&self.made.first, x) else {
            return false;
        };
        let second = restriction(&self.made.second, y);
        self.roles().filter(|&chosen| self.first_terms.is_under(chosen, role)).any(|chosen| match second {
            // A partner ⊤ never marks: everything lies below it.
            Some((true, other, partner)) if self.second_terms.is_under(chosen, other) => {
                partner != nothing && table[filler][partner]
            }
            _ => table[filler][nothing],
        })
    }

    fn role_result(&self) -> Vec<u8> {
        let roles = 0..self.made.roles as u8;
        let pairs = roles.clone().flat_map(|lower| roles.clone().map(move |upper| (lower, upper)));
        let is_chosen = |role: u8| self.roles().any(|chosen| chosen == role);
        let is_reported = |(lower, upper): Pair| {
            let follows = [&self.first_terms, &self.second_terms].map(|terms| terms.is_under(lower, upper));
            is_chosen(lower) && is_chosen(upper) && follows == [true, false]
        };
        pairs.map(|pair| u8::from(is_reported(pair))).collect()
    }

    fn result(&self) -> Vec<u8> {
        let (left, right) = (self.forward(), self.backward());
        let mut result = vec![0; self.made.names];
        for name in self.names() {
            result[name] = left[name][name] as u8 + 2 * right[name][name] as u8;
        }
        result
    }
}

/// Adds a definition for the concept whose bytes begin at `at`; gives its name, none for ⊤, and the next place. Names
/// take as many bytes as the version says.
fn define(axioms: &mut Vec<Axiom>, version: Version, concept: &[u8], at: usize) -> (Option<u16>, usize) {
    let (axiom, next) = match concept[at] {
        0 => return (None, at + 1),
        1 => {
            let next = at + 1 + version.width();
            let name = concept[at + 1..next].iter().rev().fold(0, |high, &low| 256 * high + low as u16);
            return (Some(name), next);
        }
        2 => {
            let (left, next) = define(axioms, version, concept, at + 1);
            let (right, next) = define(axioms, version, concept, next);
            let parts = [left, right].into_iter().flatten().collect();
            (Axiom::Conjunction { equal: true, parts }, next)
        }
        _ => {
            let (filler, next) = define(axioms, version, concept, at + 2);
            (Axiom::Some { equal: true, role: concept[at + 1], filler }, next)
        }
    };
    axioms.push(axiom);
    (Some(axioms.len() as u16 - 1), next)
}

/// How two concepts lie: 1 where the first lies below the second, and 2 more where the second lies below the first.
fn position(terms: &Terms, version: Version, first: &[u8], second: &[u8]) -> u8 {
    ask(terms, version, first, second) as u8 + 2 * ask(terms, version, second, first) as u8
}

/// Asks by classifying the release with a new name for each concept inside C and D.
fn ask(terms: &Terms, version: Version, below: &[u8], above: &[u8]) -> bool {
    let mut terms = terms.clone();
    let (below, _) = define(&mut terms.axioms, version, below, 0);
    let (above, _) = define(&mut terms.axioms, version, above, 0);
    let node = |name: Option<u16>| name.map_or(terms.axioms.len(), usize::from);
    order(&terms)[node(below)][node(above)]
}

/// The result and the role result.
fn compared(first: &[u8], second: &[u8], signature: &[u8], names: usize) -> (Vec<u8>, Vec<u8>) {
    let roles = signature.len() - names;
    let (mut result, mut role_result) = (vec![9; names], vec![9; roles * roles]);
    let mut work = vec![9; 4 * (names + 1) * (names + 1)];
    baseline::compare(first, second, signature, &mut result, &mut role_result, &mut work).expect("accepted");
    assert!(work.iter().all(|&byte| byte == 0));
    (result, role_result)
}

/// A version that can say what a release with these pairs says.
fn some_version(pairs: &[Pair], draws: &mut Draws) -> Version {
    let choices = [Version::One, Version::Two, Version::Three];
    choices[if pairs.is_empty() { draws.below(3) } else { 2 }]
}

/// Both files of an input, of one version or another.
fn files(made: &Practice, draws: &mut Draws) -> (Vec<u8>, Vec<u8>) {
    let (first, second) = (some_version(&made.first_pairs, draws), some_version(&made.second_pairs, draws));
    (made.first_file(first), made.second_file(second))
}

fn result_of(made: &Practice) -> (Vec<u8>, Vec<u8>) {
    let both = Both::of(made);
    (both.result(), both.role_result())
}

/// A small form, in every other turn with pairs.
fn some_form(turn: usize, draws: &mut Draws) -> Form {
    [practice::small_form, practice::small_form_with_pairs][turn % 2](draws)
}

#[test]
fn comparisons_agree_with_plain_sweeps() {
    let mut draws = Draws::from(77);
    let (mut reported, mut pairs_reported) = ([0; 4], [0; 2]);
    for turn in 0..6000 {
        let made = practice::practice(&some_form(turn, &mut draws), &mut draws);
        let (first, second) = files(&made, &mut draws);
        let results = compared(&first, &second, &made.signature, made.names);
        assert_eq!(results, result_of(&made), "{first:?} {second:?} {:?}", made.signature);
        results.0.iter().for_each(|&byte| reported[byte as usize] += 1);
        results.1.iter().for_each(|&byte| pairs_reported[byte as usize] += 1);
    }
    println!("bytes 0 to 3: {reported:?}, role pairs 0 and 1: {pairs_reported:?}");
    assert!(reported.iter().chain(&pairs_reported).all(|&count| count > 100));
}

#[test]
fn questions_agree_with_plain_sweeps() {
    let mut draws = Draws::from(78);
    let mut answers = [0; 4];
    for turn in 0..6000 {
        let form = some_form(turn, &mut draws);
        let made = practice::practice(&form, &mut draws);
        let version = some_version(&made.first_pairs, &mut draws);
        let below = practice::concept(version, form.names, form.roles, 4, &mut draws);
        let above = practice::concept(version, form.names, form.roles, 3, &mut draws);
        if below.len().max(above.len()) > 255 {
            continue;
        }
        let file = made.first_file(version);
        let answer = baseline::ask(&file, &below, &above, &mut [9; 1024]).expect("accepted");
        let terms = Terms::of(&made.first, &made.first_pairs);
        assert_eq!(answer, position(&terms, version, &below, &above), "{file:?} {below:?} {above:?}");
        answers[answer as usize] += 1;
    }
    println!("answers 0 to 3: {answers:?}");
    assert!(answers.iter().all(|&count| count > 100));
}

/// Adds a definition for each of well-formed rows; gives the node of the last.
fn define_rows(axioms: &mut Vec<Axiom>, rows: &[[u32; 3]]) -> usize {
    let mut nodes: Vec<Option<u16>> = Vec::new();
    for &[kind, one, other] in rows {
        let axiom = match kind {
            0 => Axiom::Conjunction { equal: true, parts: Vec::new() },
            1 => Axiom::Conjunction { equal: true, parts: vec![one as u16] },
            2 => {
                let parts = [one, other].into_iter().filter_map(|row| nodes[row as usize]).collect();
                Axiom::Conjunction { equal: true, parts }
            }
            _ => Axiom::Some { equal: true, role: one as u8, filler: nodes[other as usize] },
        };
        nodes.push(Some(axioms.len() as u16));
        axioms.push(axiom);
    }
    axioms.len() - 1
}

/// Whether the last row lies above the name (side 1), or below it.
fn lies(mut terms: Terms, rows: &[[u32; 3]], name: usize, side: usize) -> bool {
    let last = define_rows(&mut terms.axioms, rows);
    let order = order(&terms);
    if side == 1 {
        order[name][last]
    } else {
        order[last][name]
    }
}

/// Rows that are well formed over all names and roles.
fn some_rows(made: &Practice, draws: &mut Draws) -> Vec<[u32; 3]> {
    let mut rows = Vec::new();
    for at in 0..=draws.below(6) {
        let earlier = |draws: &mut Draws| draws.below(at) as u32;
        rows.push(match draws.below(if at == 0 { 4 } else { 9 }) {
            0 => [0, 0, 0],
            1..=3 => [1, draws.below(made.names) as u32, 0],
            4..=5 => [2, earlier(draws), earlier(draws)],
            _ => [3, draws.below(made.roles) as u32, earlier(draws)],
        });
    }
    rows
}

#[test]
fn rows_agree_with_plain_sweeps() {
    let mut draws = Draws::from(82);
    let mut answers = [0; 2];
    for turn in 0..3000 {
        let made = practice::practice(&some_form(turn, &mut draws), &mut draws);
        let (first, second) = files(&made, &mut draws);
        let both = Both::of(&made);
        let rows = some_rows(&made, &mut draws);
        let signature = vec![1; made.names + made.roles];
        let mut work = vec![9; 4 * (made.names + 1) * (made.names + 1) + 2 * (made.names + 1) * rows.len()];
        for (name, side) in (0..made.names).flat_map(|name| [(name, 1), (name, 2)]) {
            let asked = baseline::Asked { first: &first, second: &second, signature: &signature, name, side };
            let answer = baseline::check_concept(asked, rows.as_flattened(), &mut work).expect("accepted");
            let [before, after] =
                [&both.first_terms, &both.second_terms].map(|terms| lies(terms.clone(), &rows, name, side));
            assert_eq!(answer, before && !after, "{first:?} {second:?} {rows:?} {name} {side}");
            answers[answer as usize] += 1;
        }
    }
    println!("no and yes: {answers:?}");
    assert!(answers.iter().all(|&count| count > 100));
}

/// The practice input with so many names: its names stand far apart, in the same order, and the others have no axiom.
fn spread(made: &Practice, names: usize) -> Practice {
    let place = |name: u16| (name as usize * (names - 1) / made.names.max(2).saturating_sub(1)) as u16;
    let axiom = |axiom: &Axiom| match axiom {
        Axiom::None => Axiom::None,
        Axiom::Conjunction { equal, parts } => {
            Axiom::Conjunction { equal: *equal, parts: parts.iter().map(|&part| place(part)).collect() }
        }
        Axiom::Some { equal, role, filler } => Axiom::Some { equal: *equal, role: *role, filler: filler.map(place) },
    };
    let axioms = |of: &[Axiom]| {
        let mut spread = vec![Axiom::None; names];
        (0..made.names).for_each(|name| spread[place(name as u16) as usize] = axiom(&of[name]));
        spread
    };
    let mut signature = vec![0; names + made.roles];
    (0..made.names).for_each(|name| signature[place(name as u16) as usize] = made.signature[name]);
    signature[names..].copy_from_slice(&made.signature[made.names..]);
    let (first_pairs, second_pairs) = (made.first_pairs.clone(), made.second_pairs.clone());
    let (first, second) = (axioms(&made.first), axioms(&made.second));
    Practice { names, roles: made.roles, first, second, first_pairs, second_pairs, signature }
}

/// Names without an axiom, and not chosen, change nothing about the others.
#[test]
fn large_comparisons_agree_with_small_ones() {
    let mut draws = Draws::from(79);
    for turn in 0..400 {
        let made = practice::practice(&some_form(turn, &mut draws), &mut draws);
        let large = spread(&made, [128, 255, 256, 700, 1023][turn % 5]);
        let version = if large.first_pairs.is_empty() { Version::Two } else { Version::Three };
        let (first, second) = (large.first_file(version), large.second_file(version));
        let (result, role_result) = compared(&first, &second, &large.signature, large.names);
        let (small, small_roles) = result_of(&made);
        let small = spread(&Practice { signature: small, roles: 0, ..made }, large.names).signature;
        assert_eq!((result, role_result), (small, small_roles));
    }
}

/// Releases whose names all have axioms, with more of them than small sets have room for.
#[test]
fn large_comparisons_and_questions_agree_with_plain_sweeps() {
    let mut draws = Draws::from(80);
    for names in [128, 130, 140] {
        let form = Form { names, most_parts: 3, changes: 6, ..practice::small_form_with_pairs(&mut draws) };
        let made = practice::practice(&form, &mut draws);
        let (first, second) = (made.first_file(Version::Three), made.second_file(Version::Three));
        assert_eq!(compared(&first, &second, &made.signature, names), result_of(&made));
        for _ in 0..3 {
            let [below, above] =
                [2, 2].map(|depth| practice::concept(Version::Three, names, form.roles, depth, &mut draws));
            let answer = baseline::ask(&first, &below, &above, &mut vec![9; 4 * (names + 1) * (names + 1)]);
            let terms = Terms::of(&made.first, &made.first_pairs);
            assert_eq!(answer, Ok(position(&terms, Version::Three, &below, &above)));
        }
    }
}

/// A release says the same in both versions, and comes back as it was.
#[test]
fn rewriting_there_and_back() {
    let mut draws = Draws::from(81);
    for _ in 0..2000 {
        let form = practice::small_form(&mut draws);
        let made = practice::practice(&form, &mut draws);
        let (one, two) = (made.first_file(Version::One), made.first_file(Version::Two));
        let mut room = vec![9; two.len() + 3];
        assert_eq!(baseline::rewrite_as_second(&one, &mut room), Ok(two.len()));
        assert!(room.starts_with(&two) && room.ends_with(&[9, 9, 9]));
        assert_eq!(baseline::rewrite_as_first(&two, &mut room), Ok(one.len()));
        assert!(room.starts_with(&one));
        for (from, mut enough) in [(&one, two.clone()), (&two, two.clone())] {
            assert_eq!(
                baseline::rewrite_as_second(from, &mut enough[1..]),
                Err(baseline::Refusal { number: 41, side: 0 })
            );
            assert_eq!(baseline::rewrite_as_second(from, &mut enough), Ok(two.len()));
        }
    }
    let large = file_of(Version::Two, 128, 0, &[], &[]);
    assert_eq!(baseline::rewrite_as_first(&large, &mut []), Err(baseline::Refusal { number: 40, side: 1 }));
    let with_pairs = file_of(Version::Three, 128, 0, &[], &[]);
    for file in [&with_pairs, &with_pairs[..10]] {
        assert_eq!(baseline::rewrite_as_first(file, &mut []), Err(baseline::Refusal { number: 3, side: 1 }));
        assert_eq!(baseline::rewrite_as_second(file, &mut []), Err(baseline::Refusal { number: 3, side: 1 }));
    }
}

/// What checking answers: the number of a refusal, or 0.
fn number_of(file: &[u8]) -> u8 {
    baseline::check(file).map_or_else(|refusal| refusal.number, |_| 0)
}

#[test]
fn headers_of_all_versions() {
    let header = |version: u8, rest: &[u8]| number_of(&[b"ELT", [version, 0].as_slice(), rest].concat());
    // Eight and nine bytes: the length is tested again once the version is known.
    assert_eq!([header(2, &[0, 0, 0]), header(2, &[0, 0, 0, 0]), header(2, &[0, 0, 0, 0, 0])], [1, 1, 0]);
    assert_eq!([header(3, &[0; 3]), header(3, &[0; 5]), header(3, &[0; 6])], [1, 1, 0]);
    assert_eq!([header(0, &[0, 0, 0]), header(4, &[0; 5]), header(255, &[0; 6])], [3, 3, 3]);
    assert_eq!([header(3, &[255, 3, 32, 0, 0, 0]), header(3, &[0, 4, 33, 0, 0, 0])], [0, 4]);
    assert_eq!([header(3, &[0, 0, 33, 0, 0, 1]), header(3, &[0, 0, 32, 1, 0, 1])], [5, 6]);
    assert_eq!([header(2, &[255, 3, 32, 0, 0]), header(2, &[0, 4, 33, 0, 0])], [0, 4]);
    assert_eq!([header(2, &[255, 3, 33, 0, 4]), header(2, &[255, 3, 32, 0, 4])], [5, 6]);
    assert_eq!([header(1, &[127, 0, 0]), header(1, &[128, 0, 0]), header(2, &[128, 0, 0, 0, 0])], [0, 4, 0]);
}

#[test]
fn pairs_of_roles() {
    // Two roles and no axiom; what a file of version 3 has from the count of pairs on.
    let pairs = |rest: &[u8]| number_of(&[b"ELT\x03\x00\x00\x00\x02\x00\x00".as_slice(), rest].concat());
    assert_eq!([pairs(&[1]), pairs(&[1, 0]), pairs(&[1, 0, 1]), pairs(&[2, 0, 1])], [7, 7, 0, 7]);
    assert_eq!([pairs(&[1, 2]), pairs(&[1, 2, 2]), pairs(&[1, 0, 2]), pairs(&[1, 1, 1])], [11, 11, 11, 0]);
    assert_eq!([pairs(&[2, 0, 0, 0, 1]), pairs(&[2, 0, 1, 1, 0]), pairs(&[2, 1, 0, 1, 1])], [0, 0, 0]);
    assert_eq!([pairs(&[2, 0, 1, 0, 1]), pairs(&[2, 0, 1, 0, 0]), pairs(&[2, 1, 0, 0, 1])], [49, 49, 49]);
    // 49 after 7 and 11 of the same pair, before all of the next; 14 after the last.
    assert_eq!(
        [pairs(&[2, 1, 1, 0, 2]), pairs(&[2, 1, 1, 0]), pairs(&[3, 1, 1, 0, 0, 2]), pairs(&[0, 0])],
        [11, 7, 49, 14]
    );
}

#[test]
fn numbers_of_two_bytes() {
    // One axiom about name 0: ∃ of role 0 over the filler.
    let filler = |names: u16, filler: &[u8]| {
        let [low, high] = names.to_le_bytes();
        number_of(&[b"ELT\x02\x00".as_slice(), &[low, high, 1, 1, 0, 0, 0, 3, 0], filler].concat())
    };
    assert_eq!([filler(255, &[255, 0]), filler(256, &[255, 0]), filler(256, &[0, 1])], [9, 0, 9]);
    assert_eq!([filler(255, &[255, 255]), filler(1023, &[255, 255]), filler(1023, &[254, 255])], [0, 0, 9]);
    // Half a number is no number, whatever it is.
    assert_eq!(
        [filler(1, &[]), filler(1, &[0]), filler(1, &[7]), filler(1, &[7, 0]), filler(1, &[0, 0, 0])],
        [7, 7, 7, 9, 14]
    );
}
