//! The plain Rust twin of `sets.rt.bench`: the same look-ups and merges over sorted vectors.
//! It prints the same lines.

use std::time::Instant;

const NAMES: usize = 20_000;
const QUESTIONS: usize = 100_000;
const ROLES: usize = 1_024;

type Pair = (String, String);

fn name_of(number: usize) -> String {
    format!("name{number:06}")
}

fn time_contains() {
    let set: Vec<String> = (0..NAMES).map(|number| name_of(number * 2)).collect();
    let names: Vec<String> = (0..QUESTIONS)
        .map(|number| name_of(number * 7_919 % 40_000))
        .collect();
    let start = Instant::now();
    let found = names
        .iter()
        .filter(|name| set.binary_search(name).is_ok())
        .count();
    let nanos = start.elapsed().as_nanos();
    println!("contains {found} {nanos}");
}

fn merge(entries: Vec<Pair>, others: Vec<Pair>) -> Vec<Pair> {
    let mut all = Vec::with_capacity(entries.len() + others.len());
    let mut entries = entries.into_iter().peekable();
    let mut others = others.into_iter().peekable();
    while let (Some(entry), Some(other)) = (entries.peek(), others.peek()) {
        let next = if entry < other {
            entries.next()
        } else {
            others.next()
        };
        all.extend(next);
    }
    all.extend(entries);
    all.extend(others);
    all
}

fn time_merge(is_first: fn(usize, usize) -> bool, what: &str) {
    let mut set = Vec::new();
    let mut other = Vec::new();
    let mut number = 0;
    for first in 0..ROLES {
        for second in first + 1..ROLES {
            let to = if is_first(first, number) {
                &mut set
            } else {
                &mut other
            };
            to.push((name_of(first), name_of(second)));
            number += 1;
        }
    }
    let start = Instant::now();
    let all = merge(set, other);
    let nanos = start.elapsed().as_nanos();
    println!("{what} {} {nanos}", all.len());
}

fn main() {
    time_contains();
    time_merge(|_, number| number % 2 == 0, "merge-interleaved");
    time_merge(|first, _| first % 2 == 0, "merge-first-roles");
    time_merge(|_, number| number < 261_888, "merge-halves");
}
