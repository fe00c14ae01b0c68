//! How many messages a second one thread appends and reads by the crate: a line of JSON for each figure.
//!
//!     cargo run --release --example rate [CASE..]
//!
//! The cases are those of `c/rate.c`, which makes the same calls in C. `rate` is by the clock's time. REPS is the number of turns, of
//! which the best counts. They are 3 if it is not set. The status is 2 if there is no such case, and then nothing is measured.
use std::hint::black_box;
use std::time::Instant;
use std::{env, process};

use linnetshelf::{Endpoint, Error, Roll, Settings};

const SETTINGS: Settings =
    Settings { epoch: 0, cells: 1_048_576, index_count: 256, index_spacing: 16, cycles: 1, roll: Roll::Daily };

/// The cases, and whether each measures appends. The others measure reads.
const CASES: [(&str, bool); 2] = [("append_by_call", true), ("read_into", false)];

/// Appends until the cycle is full, and returns how many messages that were.
fn append_all(queue: &mut Endpoint, message: &[u8]) -> u32 {
    let mut count = 0;
    loop {
        match queue.append(0, black_box(message)) {
            Ok(_) => count += 1,
            Err(Error::CycleFull) => return count,
            Err(error) => fail(error),
        }
    }
}

/// Reads until no message has come, each into a buffer, and returns how many there were.
fn read_all(queue: &mut Endpoint) -> u32 {
    let (mut count, mut room) = (0, [0; 1024]);
    loop {
        match queue.next(&mut room) {
            Ok(Some(message)) => {
                black_box(message.data);
                count += 1;
            }
            Ok(None) => return count,
            Err(error) => fail(error),
        }
    }
}

fn fail(error: Error) -> ! {
    eprintln!("rate: {error}");
    process::exit(1)
}

/// Messages a second that are appended to a new queue, or read from a full one.
fn rate(length: usize, is_append: bool) -> f64 {
    let message = vec![b'x'; length];
    let mut queue = Endpoint::create(&SETTINGS, &[], 0).unwrap_or_else(|error| fail(error));
    let mut start = Instant::now();
    let count = append_all(&mut queue, &message);
    if !is_append {
        start = Instant::now();
        assert_eq!(read_all(&mut queue), count);
    }
    f64::from(count) / start.elapsed().as_secs_f64()
}

/// Returns the case with this name, or ends the program.
fn case_of(name: &str) -> (&'static str, bool) {
    CASES.into_iter().find(|case| case.0 == name).unwrap_or_else(|| {
        eprintln!("rate: there is no case {name}: the cases are {}", CASES.map(|case| case.0).join(", "));
        process::exit(2)
    })
}

fn main() {
    let repetitions = env::var("REPS").ok().and_then(|text| text.parse().ok()).unwrap_or(3);
    let mut cases: Vec<_> = env::args().skip(1).map(|name| case_of(&name)).collect();
    if cases.is_empty() {
        cases = CASES.to_vec();
    }
    for (case, is_append) in cases {
        for length in [8, 64, 256, 1024] {
            let best = (0..repetitions).map(|_| rate(length, is_append)).fold(0.0, f64::max);
            println!("{{\"name\":\"rust\",\"case\":\"{case}\",\"payload\":{length},\"value\":{best:.0}}}");
        }
    }
}
