//! Types of serde, read from texts and from nodes.

mod samples;

use mezdruk::Document;
use mezdruk_serde::{from_node, from_slice, from_str, Error};
use samples::*;
use serde::de::{DeserializeOwned, IgnoredAny};
use std::collections::{BTreeMap, HashMap};
use std::fmt::Debug;

/// Reads a text by a type, and compares the value.
fn reads<T: DeserializeOwned + PartialEq + Debug>(text: &str, wanted: T) {
    assert_eq!(from_str::<T>(text).unwrap(), wanted, "{text}");
    assert_eq!(from_slice::<T>(text.as_bytes()).unwrap(), wanted, "{text}");
}

/// Reads a text by a type that refuses it, and compares the message.
fn refuses<T: DeserializeOwned + Debug>(text: &str, message: &str) {
    assert_eq!(from_str::<T>(text).unwrap_err().to_string(), message, "{text}");
}

#[test]
fn scalars_are_read() {
    reads("null", ());
    reads("true", true);
    reads("\"\\u00e9\"", String::from("é"));
    reads("\"é\"", 'é');
    reads("255", 255u8);
    reads("-128", -128i8);
    reads("18446744073709551615", u64::MAX);
    reads("-9223372036854775808", i64::MIN);
    reads("340282366920938463463374607431768211455", u128::MAX);
    reads("-170141183460469231731687303715884105728", i128::MIN);
    reads("1", 1i128);
    reads("0.1", 0.1f64);
    reads("1", 1.0f64);
    reads("-2", -2.0f32);
    reads("18446744073709551616", 18446744073709551616.0f64);
    assert!(from_str::<f64>("-0").unwrap().is_sign_negative());
}

#[test]
fn lists_and_maps_are_read() {
    reads("[1, 2]", vec![1, 2]);
    reads("[1, \"a\", null]", (1, String::from("a"), ()));
    reads("[[], [1]]", vec![vec![], vec![1]]);
    reads("[null, 1]", vec![None, Some(1)]);
    reads("{\"b\": 1, \"a\": 2}", BTreeMap::from([("a".to_string(), 2), ("b".to_string(), 1)]));
    reads("{\"a\": 1, \"a\": 2}", HashMap::from([("a".to_string(), 2)]));
    reads("{\"1\": true, \"-20\": false}", BTreeMap::from([(1i8, true), (-20, false)]));
    reads("{\"18446744073709551615\": 1}", BTreeMap::from([(u64::MAX, 1)]));
    assert!(from_str::<IgnoredAny>("[1, {\"a\": [1e400]}]").is_ok());
}

#[test]
fn derived_types_are_read() {
    let item = |price, kind| Item { name: "a".into(), price, kind };
    reads(r#"{"name": "a", "kind": "tea", "more": [1]}"#, item(None, Kind::Tea));
    reads(
        r#"{"kind": {"mix": [1, 2]}, "name": "a", "price": 1.50}"#,
        item(Some(1.5), Kind::Mix(1, 2)),
    );
    reads(r#"{"named": {"name": "b"}}"#, Kind::Named { name: "b".into() });
    reads(r#"{"wrapped": -5}"#, Kind::Wrapped(Wrapper(-5)));
    reads(r#"{"tea": null}"#, Kind::Tea);
    reads(r#"{"tea": 1}"#, BTreeMap::from([(Kind::Tea, 1)]));
    reads("null", Unit);
    reads("[\"a\"]", Either::Names(vec!["a".into()]));
    reads("-3", Either::Number(-3));
    reads(r#"{"y": 2, "type": "Point", "x": 1.5}"#, Tagged::Point { x: 1.5, y: 2.0 });
    let rest = BTreeMap::from([("a".to_string(), "b".to_string())]);
    reads(r#"{"a": "b", "id": 7}"#, Flat { id: 7, rest });
}

#[test]
fn a_refusal_has_a_pointer() {
    refuses::<u8>("256", "invalid value: integer `256`, expected u8 at ``");
    refuses::<i64>("1.5", "invalid type: floating point `1.5`, expected i64 at ``");
    refuses::<f64>("1e400", "number out of range at ``");
    refuses::<Vec<bool>>("[true, null]", "invalid type: null, expected a boolean at `/1`");
    refuses::<(u8, u8)>("[1]", "invalid length 1, expected a tuple of size 2 at ``");
    refuses::<(u8, u8)>("[1, 2, 3]", "invalid length 3, expected fewer elements in array at ``");
    refuses::<BTreeMap<u8, u8>>(
        r#"{"1": 1, "x/y~": 2}"#,
        "invalid type: string \"x/y~\", expected u8 at `/x~1y~0`",
    );
    refuses::<Vec<Item>>(r#"[{"name": "a"}]"#, "missing field `kind` at `/0`");
    refuses::<Item>(
        r#"{"name": "a", "kind": {"mix": [1, 256]}}"#,
        "invalid value: integer `256`, expected u8 at `/kind/mix/1`",
    );
    refuses::<Kind>("\"mix\"", "invalid type: unit variant, expected tuple variant at ``");
    refuses::<Item>(r#"{"name": "a", "name": "b"}"#, "duplicate field `name` at ``");
    let either = "data did not match any variant of untagged enum Either at ``";
    refuses::<Either>("true", either);
}

#[test]
fn a_text_that_is_not_valid_is_an_error_of_the_text() {
    let error: Error = from_str::<Vec<u8>>("[300,\n01]").unwrap_err();
    let text = error.text_error().unwrap();
    assert_eq!((text.line(), text.column(), error.pointer()), (Some(2), Some(2), None));
    assert_eq!(error.to_string(), text.to_string());
    assert!(std::error::Error::source(&error).is_some());
    assert!(from_slice::<String>(b"\"\xff\"").unwrap_err().text_error().is_some());
    let error = from_str::<u8>("true").unwrap_err();
    assert!(error.text_error().is_none() && std::error::Error::source(&error).is_none());
    let shown = r#"Error { message: "invalid type: boolean `true`, expected u8", pointer: "" }"#;
    assert_eq!(format!("{error:?}"), shown);
}

#[test]
fn strings_are_lent_from_a_document() {
    let document = Document::parse(r#"{"names": ["Ada", "Zo\u00eb"], "bytes": "abc"}"#).unwrap();
    let names: Vec<&str> = from_node(document.root().get("names").unwrap()).unwrap();
    let bytes: &[u8] = from_node(document.root().get("bytes").unwrap()).unwrap();
    let all: BTreeMap<&str, IgnoredAny> = from_node(document.root()).unwrap();
    assert_eq!((names, bytes, all.len()), (vec!["Ada", "Zoë"], &b"abc"[..], 2));
}

#[test]
fn errors_go_to_other_threads() {
    fn goes<T: Send + Sync + 'static>() {}
    goes::<Error>();
}
