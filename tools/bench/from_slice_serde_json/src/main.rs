//! What `from_slice.rattle` does, by serde_json.
use serde::Deserialize;
use std::fmt::Write;
use std::time::Instant;

const ALBUMS: u32 = 8_000;

const NUMBERS: u32 = 150_000;

#[derive(Deserialize)]
struct Album {
    title: String,
    year: u32,
    #[serde(default)]
    lengths: Vec<u32>,
    notes: Option<String>,
}

fn albums() -> String {
    let mut text = String::new();
    for number in 0..ALBUMS {
        text.push(if number == 0 { '[' } else { ',' });
        let year = 1900 + number % 125;
        let first = number * 37 % 100_000;
        let (second, third, fourth) = (first + 1_001, first + 2_002, first + 3_003);
        write!(text, "{{\"title\":\"Album number {number}\",\"year\":{year},\"lengths\":[{first},{second},{third},{fourth}]").unwrap();
        if number % 3 != 0 {
            write!(text, ",\"notes\":\"Recorded in \\\"room {}\\\", and not heard again until now.\\n\"", number % 12).unwrap();
        }
        text.push('}');
    }
    text + "]"
}

fn numbers() -> String {
    let mut text = String::new();
    for number in 0..NUMBERS {
        text.push(if number == 0 { '[' } else { ',' });
        write!(text, "{}", number.wrapping_mul(2_654_435_761) >> (number % 24)).unwrap();
    }
    text + "]"
}

fn number_sum(numbers: &[u32]) -> u64 {
    numbers.iter().map(|number| u64::from(*number)).sum()
}

fn album_sum(albums: &[Album]) -> u64 {
    let one = |album: &Album| {
        let notes = album.notes.as_ref().map_or(0, String::len);
        (album.title.len() + notes) as u64 + u64::from(album.year) + number_sum(&album.lengths)
    };
    albums.iter().map(one).sum()
}

/// Prints the bytes of the text, the least time of a reading, in nanoseconds, and the sum of what was read.
fn time<'a, T: Deserialize<'a>>(text: &'a str, rounds: u64, sum: impl Fn(&T) -> u64) {
    let (mut least, mut read) = (u128::MAX, 0);
    for _ in 0..rounds {
        let start = Instant::now();
        let value: T = serde_json::from_slice(text.as_bytes()).unwrap();
        least = least.min(start.elapsed().as_nanos());
        read = sum(&value);
    }
    println!("{} {least} {read}", text.len());
}

fn main() {
    let words: Vec<String> = std::env::args().collect();
    let plain = words.get(1).is_some_and(|kind| kind == "numbers");
    let text = if plain { numbers() } else { albums() };
    match words.get(2) {
        None => print!("{text}"),
        Some(rounds) if plain => time(&text, rounds.parse().unwrap(), |read: &Vec<u32>| number_sum(read)),
        Some(rounds) => time(&text, rounds.parse().unwrap(), |read: &Vec<Album>| album_sum(read)),
    }
}
