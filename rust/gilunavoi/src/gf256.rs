//! The arithmetic of bytes that the shares are made with, that of FIPS 197, section 4. Every byte is accepted.
//!
//! ```
//! use gilunavoi::gf256;
//!
//! assert_eq!(gf256::add(0x57, 0x83), 0xd4);
//! assert_eq!(gf256::mul(0x57, 0x83), 0xc1);
//! assert_eq!(gf256::inverse(2), Some(0x8d));
//! assert_eq!(gf256::inverse(0), None);
//! ```

pub use crate::raw::{add, inverse, mul, mul_by_shifting};
