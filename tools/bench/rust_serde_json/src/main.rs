//! Times `Document::parse` and `edit` of mezdruk beside serde_json and simdjson: see tools/bench/rust.

use serde_json::Value;
use std::fmt::Write;
use std::time::{Duration, Instant};

extern "C" {
    fn peer_parse(text: *const u8, length: usize) -> bool;
}

const EDITS: &str = r#"[["set", [0], {"edited": 1.50}]]"#;

/// A list of records.
fn records() -> String {
    let mut text = String::from("[");
    for number in 0..12_000 {
        let comma = if number == 0 { "" } else { ",\n" };
        let (id, score) = (number * 7_919 % 1_000_003, number * 37 % 1_000);
        write!(
            text,
            "{comma}{{\"id\": {id}, \"user\": {{\"name\": \"User number {number}\", \"active\": {}}}, \
             \"score\": {}.{score:03}, \"tags\": [\"a{}\", \"b\"], \"note\": null}}",
            number % 3 == 0,
            number % 90,
            number % 10,
        )
        .unwrap();
    }
    text + "]"
}

/// A list of pairs of decimals.
fn points() -> String {
    let mut text = String::from("[");
    for number in 0..60_000_u64 {
        let comma = if number == 0 { "" } else { "," };
        let (x, y) = (number * 2_654_435_761 % 1_000_000_007, number * 40_503 % 1_000_003);
        write!(text, "{comma}[-{}.{x:09},{}.{y:06}]", number % 180, number % 90).unwrap();
    }
    text + "]"
}

/// A list of strings, some with escapes.
fn words() -> String {
    let mut text = String::from("[");
    for number in 0..90_000 {
        let comma = if number == 0 { "" } else { "," };
        let end = if number % 16 == 0 { "\\n\\u00e9" } else { "" };
        write!(text, "{comma}\"word {}{end}\"", number * 7_919 % 100_003).unwrap();
    }
    text + "]"
}

/// Returns the text that a word names: one of those above, or a file.
fn text_of(name: &str) -> String {
    match name {
        "records" => records(),
        "points" => points(),
        "words" => words(),
        path => std::fs::read_to_string(path).expect("a file of UTF-8"),
    }
}

/// Returns what `edit` makes of the text, by serde_json.
fn edited(text: &str) -> String {
    let mut value: Value = serde_json::from_str(text).unwrap();
    if let Some(place) = value.pointer_mut("/0") {
        *place = serde_json::from_str(r#"{"edited": 1.50}"#).unwrap();
    }
    value.to_string()
}

/// A call that is timed; it returns whether all is well.
type Call<'a> = (&'a str, Box<dyn Fn() -> bool + 'a>);

fn calls(text: &str) -> Vec<Call<'_>> {
    let parse = |text| serde_json::from_str::<Value>(text).is_ok();
    // SAFETY: the pointer and the length are those of a slice.
    let by_simdjson = move || unsafe { peer_parse(text.as_ptr(), text.len()) };
    let mut calls: Vec<Call<'_>> = vec![
        ("parse mezdruk", Box::new(move || mezdruk::Document::parse(text).is_ok())),
        ("parse serde_json", Box::new(move || parse(text))),
        ("parse simdjson", Box::new(by_simdjson)),
    ];
    if text.starts_with('[') {
        assert_eq!(mezdruk::edit(text, EDITS).unwrap(), edited(text));
        calls.push(("edit mezdruk", Box::new(move || mezdruk::edit(text, EDITS).is_ok())));
        calls.push(("edit serde_json", Box::new(move || !edited(text).is_empty())));
    }
    calls
}

fn main() {
    let words: Vec<String> = std::env::args().skip(1).collect();
    let [name, rounds] = &words[..] else { panic!("rust_serde_json DOCUMENT ROUNDS") };
    let text = text_of(name);
    let calls = calls(&text);
    let mut least = vec![Duration::MAX; calls.len()];
    for _ in 0..rounds.parse().expect("a number of rounds") {
        for ((name, call), least) in calls.iter().zip(&mut least) {
            let start = Instant::now();
            assert!(call(), "{name}");
            *least = start.elapsed().min(*least);
        }
    }
    for ((name, _), least) in calls.iter().zip(least) {
        println!("{name} {} {}", text.len(), least.as_nanos());
    }
}
