//! Byte arithmetic of FIPS 197, section 4.

use super::boundary::{self, Gf256InverseAnswer};

/// The sum of two bytes, which is their difference too: the exclusive or.
pub fn add(a: u8, b: u8) -> u8 {
    boundary::sharing_gf256_add(a, b)
}

/// The product of two bytes, by tables.
pub fn mul(a: u8, b: u8) -> u8 {
    boundary::sharing_gf256_mul(a, b)
}

/// The same product, by shifting.
pub fn mul_by_shifting(a: u8, b: u8) -> u8 {
    boundary::sharing_gf256_mul_by_shifting(a, b)
}

/// The byte whose product with `a` is 1; 0 has none.
pub fn inverse(a: u8) -> Option<u8> {
    let Gf256InverseAnswer { exists, inverse } = boundary::sharing_gf256_inverse(a);
    debug_assert!(exists == 1 || (exists, inverse) == (0, 0), "where there is no inverse both are 0");
    (exists == 1).then_some(inverse as u8)
}
