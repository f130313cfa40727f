//! Schemes: accepted and refused as the library does it, and written as they are read.

mod drawn;

use drawn::schemes;
use gilunavoi::limits::*;
use gilunavoi::{raw, Form, Lengths, NotRebuilt, Opened, ParseSchemeError, Pool, Refusal, Scheme};
use std::collections::HashSet;
use std::error::Error;

fn numbers(scheme: &Scheme) -> (u8, u8, u8, Vec<u8>) {
    (scheme.n(), scheme.r(), scheme.z(), scheme.counts().to_vec())
}

#[test]
fn accepted_as_by_the_check() {
    let lists: [&[u8]; 9] =
        [&[], &[2], &[3, 2], &[5, 4, 3], &[4, 4], &[3, 4], &[10, 9, 8, 6], &[16, 15, 14, 13, 12, 11, 10, 9], &[9; 9]];
    let mut accepted = 0;
    for (n, r, z) in (0..=18u8).flat_map(|n| (0..=18u8).flat_map(move |r| (0..=18).map(move |z| (n, r, z)))) {
        for counts in lists.iter().map(|list| list.to_vec()).chain([vec![n], vec![n, n.saturating_sub(r)]]) {
            let scheme = Scheme::new(n, r, z, &counts);
            let answer = scheme.as_ref().map(|scheme| (scheme.block() as u64, scheme.rows() as u64));
            assert_eq!(
                answer.map_err(|refusal| refusal.number()),
                raw::check(n, r, z, &counts),
                "{n} {r} {z} {counts:?}"
            );
            let Ok(scheme) = scheme else { continue };
            assert_eq!(numbers(&scheme), (n, r, z, counts));
            assert_eq!(scheme.to_string().parse(), Ok(scheme));
            accepted += 1;
        }
    }
    println!("{accepted} schemes accepted");
    assert!(accepted > 500);
}

#[test]
fn the_default_and_the_former() {
    let default = Scheme::default();
    assert_eq!(default, Scheme::new(DEFAULT_N, DEFAULT_R, DEFAULT_Z, &DEFAULT_COUNTS).unwrap());
    assert_eq!(numbers(&default), (5, 2, 2, vec![5, 4, 3]));
    assert_eq!(raw::check_default(), Ok((default.block() as u64, default.rows() as u64)));
    assert_eq!(default.to_string(), "5,2,2,5,4,3");
    let former = Scheme::former_default();
    assert_eq!((former.to_string().as_str(), former.block(), former.rows()), ("5,2,1,5,4,3", 12, 6));
    assert_ne!(default, former);
}

#[test]
fn texts() {
    let mut seen = HashSet::new();
    for scheme in schemes() {
        assert_eq!(scheme.to_string().parse::<Scheme>().as_ref(), Ok(&scheme));
        assert!(seen.insert(scheme));
    }
    for scheme in schemes() {
        assert!(!seen.insert(scheme.clone()), "{scheme}");
    }
    for text in [
        "",
        ",",
        "5",
        "5,2",
        "5,2,2,",
        ",5,2,2",
        "5,,2,2,5,4,3",
        "5, 2,2,5,4,3",
        "5,2,2,5,4,3 ",
        "+5,2,2,5,4,3",
        "-5,2,2,5,4,3",
        "5,2,2,5,4,256",
        "five,2,2,5,4,3",
        "5;2;2;5;4;3",
        "0x5,2,2,5,4,3",
        "5,2,2,5,4,٣",
    ] {
        assert_eq!(text.parse::<Scheme>(), Err(ParseSchemeError::NotNumbers), "{text:?}");
    }
    let refused = [
        ("1,0,1,1", Refusal::PartyCount),
        ("5,2,3,5,4,3", Refusal::Colluders),
        ("5,2,2", Refusal::Counts),
        ("10,4,1,10,9,8,6", Refusal::BlockTooLong),
    ];
    for (text, refusal) in refused {
        let error = text.parse::<Scheme>().unwrap_err();
        assert_eq!(error, ParseSchemeError::Refused(refusal), "{text}");
        assert_eq!(error.to_string(), refusal.to_string());
    }
    assert!(ParseSchemeError::NotNumbers.to_string().contains("5,2,2,5,4,3"));
}

fn shared<T: Send + Sync + 'static>() {}
fn an_error<T: Error + Send + Sync + 'static>() {}

#[test]
fn what_threads_may_share() {
    shared::<Scheme>();
    shared::<(Form, Lengths, Opened, Pool)>();
    an_error::<Refusal>();
    an_error::<NotRebuilt>();
    an_error::<ParseSchemeError>();
}
