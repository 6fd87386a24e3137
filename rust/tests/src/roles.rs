//! Roles for the tests: their numbers, and numbers that are no role's.

use crate::Random;

pub const OPERATOR: u32 = 0;
pub const TRANSLATOR: u32 = 1;
pub const GUEST: u32 = 2;

/// The roles that may resolve.
pub const RESOLVING: [u32; 2] = [OPERATOR, GUEST];

/// A role that may resolve.
pub fn some_resolving(random: &mut Random) -> u32 {
    RESOLVING[random.below(2)]
}

/// Numbers that are no role's: some up to 300, and far ones, some of which end in the bits of a role's number.
pub fn unknown_roles() -> Vec<u32> {
    let near = (3..=20).chain([126, 127, 128, 129, 254, 255, 256, 257, 258, 259, 300]);
    let far = (9..32).flat_map(|bit| [0, 1, 2].map(|role| (1 << bit) + role));
    near.chain(far).chain([u32::MAX - 1, u32::MAX]).collect()
}
