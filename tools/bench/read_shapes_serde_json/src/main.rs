//! The texts that `read_shapes.rattle` reads, and what it does, by serde_json. Without a second word it prints the text of the kind that the
//! first word names; with a number it reads the text on standard input so many times, and prints its bytes and the least time of once.
use serde::de::DeserializeOwned;
use std::collections::BTreeMap;
use std::io::Read;
use std::time::Instant;

const COUNT: u32 = 60_000;

/// Numbers below 2^20 in no order (the last steps of MurmurHash3).
fn any(number: u32) -> u32 {
    let mut bits = number.wrapping_add(1);
    bits = (bits ^ (bits >> 16)).wrapping_mul(0x85eb_ca6b);
    bits = (bits ^ (bits >> 13)).wrapping_mul(0xc2b2_ae35);
    (bits ^ (bits >> 16)) >> 12
}

fn short(number: u32) -> u32 {
    any(number) % 100_000
}

fn element(kind: &str, number: u32) -> String {
    let n = short(number);
    match kind {
        "lists" => format!("[{}]", (0..1 + n % 5).map(|part| short(number + part).to_string()).collect::<Vec<_>>().join(",")),
        "pairs" => format!("[{n},{}]", short(number + 1)),
        "maps" => format!("{{\"alpha\":{n},\"beta\":{},\"gamma\":{}}}", n / 2, n / 3),
        "texts" => format!("\"{}\"", "x".repeat(1 + n as usize % 20)),
        "bools" => (n % 2 == 0).to_string(),
        "signed" => (i64::from(any(number)) - 524_288).to_string(),
        "options" if n % 2 == 0 => "null".to_string(),
        _ => n.to_string(),
    }
}

fn text(kind: &str) -> String {
    let elements: Vec<String> = (0..COUNT).map(|number| element(kind, number)).collect();
    format!("[{}]", elements.join(","))
}

/// The least time of a reading, in nanoseconds.
fn least<T: DeserializeOwned>(text: &[u8], rounds: u64) -> u128 {
    let mut least = u128::MAX;
    for _ in 0..rounds {
        let start = Instant::now();
        let value: T = serde_json::from_slice(text).unwrap();
        least = least.min(start.elapsed().as_nanos());
        drop(value);
    }
    least
}

fn main() {
    let words: Vec<String> = std::env::args().collect();
    let kind = words[1].as_str();
    let Some(rounds) = words.get(2) else {
        print!("{}", text(kind));
        return;
    };
    let rounds = rounds.parse().unwrap();
    let mut bytes = Vec::new();
    std::io::stdin().read_to_end(&mut bytes).unwrap();
    let time = match kind {
        "lists" => least::<Vec<Vec<u32>>>(&bytes, rounds),
        "pairs" => least::<Vec<(u32, u32)>>(&bytes, rounds),
        "maps" => least::<Vec<BTreeMap<String, u32>>>(&bytes, rounds),
        "texts" => least::<Vec<String>>(&bytes, rounds),
        "bools" => least::<Vec<bool>>(&bytes, rounds),
        "signed" => least::<Vec<i32>>(&bytes, rounds),
        "options" => least::<Vec<Option<u32>>>(&bytes, rounds),
        _ => least::<Vec<u32>>(&bytes, rounds),
    };
    println!("{} {time} true", bytes.len());
}
