//! Types read by this crate and by serde_json.

mod samples;

use samples::*;
use serde::de::{DeserializeOwned, IgnoredAny};
use std::collections::{BTreeMap, BTreeSet};
use std::fmt::Debug;

const TEXTS: &[&str] = &[
    "null",
    "true",
    "false",
    "0",
    "1",
    "-1",
    "-0",
    "255",
    "256",
    "-128",
    "1.5",
    "1.0",
    "1e2",
    "0.1",
    "9223372036854775807",
    "9223372036854775808",
    "-9223372036854775808",
    "-9223372036854775809",
    "18446744073709551615",
    "18446744073709551616",
    "1e400",
    "1e-400",
    "3.5e38",
    "-2.5e-3",
    "\"\"",
    "\"a\"",
    "\"\\u00e9\"",
    "\"ab\"",
    "\"tea\"",
    "\"mix\"",
    "\"1\"",
    "\"null\"",
    "[]",
    "[1]",
    "[1, 2]",
    "[1, 2, 3]",
    "[null]",
    "[1, \"a\"]",
    "[\"a\", \"b\"]",
    "[[1], []]",
    "[true, 1, null]",
    "[1, 2.5]",
    "[\"a\", null, \"tea\"]",
    "[\"a\", 1.5, {\"mix\": [1, 2]}]",
    "{}",
    "{\"a\": 1}",
    "{\"a\": 1, \"b\": 2}",
    "{\"a\": 1, \"a\": 2}",
    "{\"1\": true}",
    "{\"-1\": true}",
    "{\"256\": true}",
    "{\"a\": null}",
    "{\"a\": \"b\"}",
    "{\"name\": \"a\", \"kind\": \"tea\"}",
    "{\"kind\": {\"wrapped\": 3}, \"name\": \"b\", \"x\": [1]}",
    "{\"name\": \"a\", \"price\": 2, \"kind\": {\"mix\": [1, 2]}}",
    "{\"name\": \"a\", \"price\": \"2\"}",
    "{\"name\": \"a\", \"name\": \"b\", \"kind\": \"tea\"}",
    "{\"named\": {\"name\": \"c\"}}",
    "{\"tea\": null}",
    "{\"tea\": 1}",
    "{\"mix\": [1]}",
    "{\"mix\": [1, 2]}",
    "{\"wrapped\": -5}",
    "{\"wrapped\": 1, \"tea\": null}",
    "{\"other\": 1}",
    "{\"id\": 7, \"a\": \"b\"}",
    "{\"type\": \"Point\", \"x\": 1, \"y\": 2.5}",
    "{\"type\": \"Point\", \"x\": 1}",
    "{\"type\": \"Line\"}",
    "[1, 2",
    "[1,]",
    "{\"a\" 1}",
    "01",
    "",
    "nul",
    "[1] 2",
];

/// Reads each text by a type, and returns how many texts it takes.
fn beside<T: DeserializeOwned + Debug>() -> usize {
    let mut taken = 0;
    for text in TEXTS {
        let found = mezdruk_serde::from_str::<T>(text);
        let wanted = serde_json::from_str::<T>(text);
        let name = std::any::type_name::<T>();
        match (found, wanted) {
            (Ok(found), Ok(wanted)) => {
                assert_eq!(format!("{found:?}"), format!("{wanted:?}"), "{name} of {text}");
                taken += 1;
            }
            (Err(_), Err(_)) => {}
            (found, wanted) => panic!("{name} of {text}: {found:?}, but {wanted:?}"),
        }
    }
    taken
}

macro_rules! beside {
    ($($type:ty,)*) => { [$((stringify!($type), beside::<$type>()),)*] };
}

#[test]
fn types_are_read_as_serde_json_reads_them() {
    let counts = beside![
        (), bool, u8, i8, u16, i16, u32, i32, u64, i64, f32, f64, char, String, IgnoredAny,
        Option<u8>, Option<String>, Box<i32>, Vec<u8>, Vec<String>, Vec<Vec<u8>>, Vec<Option<u8>>,
        [u8; 2], (u8, String), (bool, u8, ()), (u8, f64), BTreeSet<u8>, BTreeMap<String, u8>,
        BTreeMap<String, Option<String>>, BTreeMap<u8, bool>, BTreeMap<i8, bool>,
        BTreeMap<String, IgnoredAny>, BTreeMap<Kind, Option<u8>>, Item, Kind, Wrapper, Unit, Either,
        Tagged, Flat,
    ];
    for (name, taken) in counts {
        assert!(taken > 0, "no text is a {name}");
    }
}
