//! What `to_vec.rattle` does, by serde_json.
use serde::Serialize;
use std::time::Instant;

const ALBUMS: u64 = 5_000;

#[derive(Serialize)]
struct Album {
    title: String,
    notes: String,
    year: u64,
    change: i64,
    tags: Vec<String>,
    lengths: Vec<u32>,
}

fn album(number: u64) -> Album {
    Album {
        title: format!("Album number {number}"),
        notes: format!("Recorded in \"room {}\", and not heard again until now.\n", number % 12),
        year: 1900 + number % 125,
        change: number as i64 * 911 - 2_000_000,
        tags: (0..4).map(|part| format!("tag {}", (number * 7 + part) % 90)).collect(),
        lengths: (0..4).map(|part| ((number * 37 + part * 1_001) % 100_000) as u32).collect(),
    }
}

fn main() {
    let albums: Vec<Album> = (0..ALBUMS).map(album).collect();
    let Some(rounds) = std::env::args().nth(1) else {
        print!("{}", serde_json::to_string(&albums).unwrap());
        return;
    };
    let (mut bytes, mut least) = (0, u128::MAX);
    for _ in 0..rounds.parse().unwrap() {
        let start = Instant::now();
        let text = serde_json::to_vec(&albums).unwrap();
        least = least.min(start.elapsed().as_nanos());
        bytes = text.len();
    }
    println!("{bytes} {least}");
}
