//! Which roles lie under which, by the pairs of a release: each under itself, and chains count. A set of roles is a number, a
//! bit for each.

use super::file::MOST_ROLES;

#[derive(Clone, Copy)]
pub struct Inclusions {
    under: [u32; MOST_ROLES],
    above: [u32; MOST_ROLES],
}

impl Inclusions {
    /// Those without a pair.
    pub const OWN: Inclusions = {
        let mut own = [0; MOST_ROLES];
        let mut role = 0;
        while role < MOST_ROLES {
            own[role] = 1 << role;
            role += 1;
        }
        Inclusions { under: own, above: own }
    };

    pub fn add(&mut self, lower: usize, upper: usize) {
        self.under[upper] |= 1 << lower;
        self.above[lower] |= 1 << upper;
    }

    /// Adds what follows through each role in turn.
    pub fn close(&mut self) {
        for between in 0..MOST_ROLES {
            let (lower, upper) = (self.under[between], self.above[between]);
            members(upper).for_each(|role| self.under[role] |= lower);
            members(lower).for_each(|role| self.above[role] |= upper);
        }
    }

    /// The roles under a role, itself included.
    #[inline]
    pub fn under(&self, role: usize) -> u32 {
        self.under[role]
    }

    /// The roles above a role, itself included.
    #[inline]
    pub fn above(&self, role: usize) -> u32 {
        self.above[role]
    }

    #[inline]
    pub fn has(&self, lower: usize, upper: usize) -> bool {
        self.above[lower] >> upper & 1 == 1
    }
}

/// The roles of a set, rising.
#[inline]
pub fn members(mut set: u32) -> impl Iterator<Item = usize> {
    std::iter::from_fn(move || {
        let role = (set != 0).then_some(set.trailing_zeros() as usize)?;
        set &= set - 1;
        Some(role)
    })
}
