//! Concepts written as rows, three numbers each: whether the last of them shows that a name lost something.

use super::bits::{Bits, Fresh};
use super::classify::names_with_filler_in;
use super::question::{nodes_with_edge, with_conjunctions};
use super::{Chosen, Side};

/// A row over a signature. The rows that it uses are earlier ones.
#[derive(Clone, Copy)]
pub enum Row {
    Everything,
    Name(usize),
    Both(usize, usize),
    Some(usize, usize),
}

/// The rows, where each is well formed and keeps to the signature. Numbers after the last whole row are no row.
pub fn read<const W: usize>(numbers: &[u32], names: usize, chosen: &Chosen<W>) -> Option<Vec<Row>> {
    numbers.chunks_exact(3).enumerate().map(|(at, row)| read_row(row, at, names, chosen)).collect()
}

fn read_row<const W: usize>(row: &[u32], at: usize, names: usize, chosen: &Chosen<W>) -> Option<Row> {
    let &[kind, one, other] = row else {
        return None;
    };
    let (left, right) = (one as usize, other as usize);
    match kind {
        0 if one == 0 && other == 0 => Some(Row::Everything),
        1 if left < names && chosen.names.has(left) && other == 0 => Some(Row::Name(left)),
        2 if left < at && right < at => Some(Row::Both(left, right)),
        3 if chosen.has_role(left) && right < at => Some(Row::Some(left, right)),
        _ => None,
    }
}

/// The nodes below each row.
pub fn nodes_below<const W: usize>(side: &Side<W>, rows: &[Row]) -> Vec<Bits<W>> {
    let mut below: Vec<Bits<W>> = Vec::with_capacity(rows.len());
    for row in rows {
        below.push(match *row {
            Row::Everything => side.release.nodes(),
            Row::Name(name) => side.order.below[name],
            Row::Both(left, right) => below[left] & below[right],
            Row::Some(role, inner) => nodes_with_edge(side, role, below[inner]),
        });
    }
    below
}

/// The names above each row, and ⊤.
pub fn names_above<const W: usize>(side: &Side<W>, rows: &[Row]) -> Vec<Bits<W>> {
    let release = &side.release;
    let mut above: Vec<Bits<W>> = Vec::with_capacity(rows.len());
    for row in rows {
        let mut found = Bits::one(release.names);
        match *row {
            Row::Everything => {}
            Row::Name(name) => found |= side.order.above[name],
            Row::Both(left, right) => {
                found |= above[left];
                found |= above[right];
            }
            Row::Some(role, inner) => {
                let wider = names_with_filler_in(release, &Fresh::of(above[inner]));
                wider.and(&release.with_role_above[role]).and(&release.defined_by_some).add_to(&mut found);
            }
        }
        above.push(with_conjunctions(release, found));
    }
    above
}
