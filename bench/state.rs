//! The plain Rust twin of `state.rt.bench`. It reads the same lines and prints the same ones; room is
//! made within the commit.

use std::io::stdin;
use std::time::Instant;

mod office;
#[path = "state/opening.rs"]
mod opening;
#[path = "state/report.rs"]
mod report;
#[path = "state/rows.rs"]
mod rows;
#[path = "state/sums.rs"]
mod sums;

use office::{Office, read_command};
use report::report_roles;
use rows::{rows_of, sum_rows};
use sums::{START, sum_of};

fn time_command(office: &mut Office, label: &str, words: &[&str]) {
    let command = read_command(words).expect("a command");
    let start = Instant::now();
    let plan = office.plan(&command).unwrap_or_else(|refusal| panic!("{words:.99?}: {refusal:?}"));
    let planning = start.elapsed().as_nanos();
    let (count, told) = (plan.count(), plan.told());
    let start = Instant::now();
    office.commit(plan);
    let commit = start.elapsed().as_nanos();
    if label != "-" {
        println!("{label} {count} {told} {planning} 0 {commit}");
    }
}

fn time_opening(office: &Office, label: &str) {
    let rows = rows_of(office);
    let start = Instant::now();
    let made = Office::of_rows(rows).expect("a good office");
    let nanos = start.elapsed().as_nanos();
    let rows = rows_of(&made);
    println!("{label} {} {} {nanos}", rows.len(), sum_rows(&rows));
}

fn time_report(office: &Office, label: &str) {
    let mut sink = Vec::new();
    let start = Instant::now();
    report_roles(office, &mut sink);
    let nanos = start.elapsed().as_nanos();
    println!("{label} {} {} {nanos}", sink.len(), sum_of(START, &sink));
}

fn main() {
    let mut office = Office::default();
    for line in stdin().lines() {
        let line = line.expect("a line");
        let words: Vec<&str> = line.split(' ').collect();
        match words.as_slice() {
            [label, "of_rows"] => time_opening(&office, label),
            [label, "report"] => time_report(&office, label),
            [label, command @ ..] => time_command(&mut office, label, command),
            [] => {}
        }
    }
}
