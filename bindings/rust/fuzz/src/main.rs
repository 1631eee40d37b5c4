//! Reads random texts by mezdruk and by serde_json, which keeps literals and the order of members,
//! and prints the first text that they read in different ways, made small.
//!
//! What is expected to differ is counted: see docs/DIFFERENCES.md, "Beside serde_json".

mod compare;
mod texts;

use compare::{compare, Counts};
use texts::Source;

const HELP: &str = "\
Usage: mezdruk_fuzz [COUNT [SEED]]

Reads COUNT random texts (1000000) of a seed (1), a third of them damaged, by mezdruk and by
serde_json. The status is 1 at the first difference.";

/// Returns the text without the bytes that it differs without, and what differs.
fn made_small(mut text: Vec<u8>, mut reason: String) -> (Vec<u8>, String) {
    let mut at = 0;
    while at < text.len() {
        let mut shorter = text.clone();
        shorter.remove(at);
        match compare(&shorter, &mut Counts::default()) {
            Err(differs) => (text, reason, at) = (shorter, differs, 0),
            Ok(()) => at += 1,
        }
    }
    (text, reason)
}

fn run(count: u64, seed: u64) -> Result<Counts, String> {
    let mut source = Source::new(seed);
    let mut counts = Counts::default();
    for number in 0..count {
        let text = source.text();
        compare(&text, &mut counts).map_err(|reason| {
            let (small, reason) = made_small(text.clone(), reason);
            let shown = String::from_utf8_lossy(&text).into_owned();
            format!(
                "text {number}: {shown}\nmade small: {small:?}\n{:?}\n{reason}",
                String::from_utf8_lossy(&small)
            )
        })?;
    }
    Ok(counts)
}

fn main() {
    let words: Vec<String> = std::env::args().skip(1).collect();
    let numbers: Result<Vec<u64>, _> = words.iter().map(|word| word.parse()).collect();
    let (count, seed) = match numbers.as_deref() {
        Ok([]) => (1_000_000, 1),
        Ok([count]) => (*count, 1),
        Ok([count, seed]) => (*count, *seed),
        _ => {
            println!("{HELP}");
            std::process::exit(if words == ["--help"] { 0 } else { 2 });
        }
    };
    match run(count, seed) {
        Ok(counts) => println!("{count} texts: {counts}"),
        Err(difference) => {
            println!("{difference}");
            std::process::exit(1);
        }
    }
}
