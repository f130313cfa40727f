//! Byte arithmetic against the other implementation, on all inputs.

use comparison::reference;
use gilunavoi::raw;

#[test]
fn all_sums() {
    for a in 0..=255 {
        for b in 0..=255 {
            assert_eq!(raw::add(a, b), reference::add(a, b), "{a} plus {b}");
        }
    }
    println!("65536 pairs");
}

#[test]
fn all_products() {
    for a in 0..=255 {
        for b in 0..=255 {
            let product = reference::mul(a, b);
            assert_eq!(raw::mul(a, b), product, "{a} times {b} by tables");
            assert_eq!(raw::mul_by_shifting(a, b), product, "{a} times {b} by shifting");
        }
    }
    println!("65536 pairs");
}

#[test]
fn all_inverses() {
    for a in 0..=255 {
        assert_eq!(raw::inverse(a), reference::inverse(a), "inverse of {a}");
    }
    assert_eq!((0..=255).filter(|&a| raw::inverse(a).is_none()).collect::<Vec<u8>>(), [0], "no inverse");
    println!("255 inverses, and none for 0");
}
