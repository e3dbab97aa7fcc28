//! One call of the published crate, on sets of any size. `here.rattle` takes the same words and prints the same line.
//!
//!     growth CALL RUNS SETS OFTEN
//!
//! - `insertion` adds RUNS runs, one by one in a scattered order, to each of OFTEN new sets, and keeps these.
//! - `look-up` asks a set of RUNS runs for OFTEN values.
//! - `union` makes the union of SETS sets, which have RUNS runs together, OFTEN times.
//!
//! The line has the nanoseconds that all of that took, and the number of runs that were made or of members that were
//! found. With OFTEN 0, the program only makes what the call needs.

use range_set_blaze::prelude::*;
use std::env;
use std::ops::RangeInclusive;
use std::time::Instant;

type Set = RangeSetBlaze<i64>;

/// What the command line asks for, without the call.
struct Asked {
    runs: i64,
    sets: i64,
    often: i64,
}

/// The first value of run `number`.
fn start(number: i64) -> i64 {
    10 * number
}

/// Run `number`: five values, apart from all other runs.
fn run(number: i64) -> RangeInclusive<i64> {
    start(number)..=start(number) + 4
}

/// A number below `runs`. Turns from 0 to `runs` give each number once, in a scattered order.
fn scattered(turn: i64, runs: i64) -> i64 {
    turn * 7_919 % runs
}

/// A set to which runs were added in a scattered order.
fn filled(runs: i64) -> Set {
    let mut set = Set::new();
    for turn in 0..runs {
        set.ranges_insert(run(scattered(turn, runs)));
    }
    set
}

/// One of the sets of a union. Of each `sets` runs in a row, it has one.
fn share(first: i64, asked: &Asked) -> Set {
    (0..asked.runs / asked.sets).map(|turn| run(first + turn * asked.sets)).collect()
}

fn time_insertions(asked: &Asked) {
    let began = Instant::now();
    let sets: Vec<Set> = (0..asked.often).map(|_| filled(asked.runs)).collect();
    let passed = began.elapsed().as_nanos();
    println!("{passed} {}", sets.iter().map(Set::ranges_len).sum::<usize>());
}

fn time_look_ups(asked: &Asked) {
    let set = share(0, asked);
    let mut members = 0;
    let began = Instant::now();
    for turn in 0..asked.often {
        members += usize::from(set.contains(start(scattered(turn, asked.runs)) + turn % 10));
    }
    println!("{} {members}", began.elapsed().as_nanos());
}

fn time_unions(asked: &Asked) {
    let shares: Vec<Set> = (0..asked.sets).map(|first| share(first, asked)).collect();
    let mut runs = 0;
    let began = Instant::now();
    for _ in 0..asked.often {
        runs += shares.iter().union().ranges_len();
    }
    println!("{} {runs}", began.elapsed().as_nanos());
}

fn main() {
    let words: Vec<String> = env::args().skip(1).collect();
    let number = |place: usize| words[place].parse().expect("a number");
    let asked = Asked { runs: number(1), sets: number(2), often: number(3) };
    match words[0].as_str() {
        "insertion" => time_insertions(&asked),
        "look-up" => time_look_ups(&asked),
        _ => time_unions(&asked),
    }
}
