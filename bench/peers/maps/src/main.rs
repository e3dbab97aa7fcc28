//! Calls on a map from ranges to values, as a Rust user writes them over `BTreeMap`, timed one by one.
//!
//! Each line names a call, how often it was made, how many nanoseconds all of that took, and a sum of the answers. With
//! the name of a call and a number, the program makes that call so often, and no other. `here.rattle` prints the same
//! lines.

use std::collections::BTreeMap;
use std::env;
use std::hint::black_box;
use std::ops::RangeInclusive;
use std::time::Instant;

/// How many ranges the map has: range `i` is from `10 * i` to `10 * i + 4`, and its value is `i % 7`.
const RANGES: i32 = 100_000;
/// How often a call on a whole map is made.
const FEW: i32 = 10;

/// A map from the start of each range to its end and its value.
#[derive(Clone, Default)]
struct Map {
    pieces: BTreeMap<i32, (i32, u32)>,
}

impl Map {
    /// The range at or before a key, and its value.
    fn before(&self, key: i32) -> Option<(i32, i32, u32)> {
        self.pieces.range(..=key).next_back().map(|(&start, &(end, value))| (start, end, value))
    }

    fn get(&self, key: i32) -> Option<u32> {
        let (_, end, value) = self.before(key)?;
        (key <= end).then_some(value)
    }

    fn insert(&mut self, key: i32, value: u32) -> Option<u32> {
        let found = self.get(key);
        self.ranges_insert(key..=key, value);
        found
    }

    fn ranges_insert(&mut self, range: RangeInclusive<i32>, value: u32) {
        let (start, end) = range.into_inner();
        let (mut from, mut to) = (start, end);
        // What reaches past the range, or starts right past it.
        if let Some((_, last, found)) = self.before(end.saturating_add(1)).filter(|&(_, last, _)| end < last) {
            if found == value {
                to = last;
            } else {
                self.pieces.insert(end + 1, (last, found));
            }
        }
        // What starts before the range, and reaches or touches it.
        let below = self.before(start.saturating_sub(1)).filter(|&(first, _, _)| first < start);
        if let Some((first, _, found)) = below.filter(|&(_, last, _)| start - 1 <= last) {
            if found == value {
                from = first;
            } else {
                self.pieces.insert(first, (start - 1, found));
            }
        }
        while let Some((&first, _)) = self.pieces.range(from..=to).next() {
            self.pieces.remove(&first);
        }
        self.pieces.insert(from, (to, value));
    }

    fn from_iter(pairs: impl Iterator<Item = (RangeInclusive<i32>, u32)>) -> Self {
        let mut map = Map::default();
        for (range, value) in pairs {
            map.ranges_insert(range, value);
        }
        map
    }

    /// The keys in ascending order, each with its value.
    fn iter(&self) -> impl Iterator<Item = (i32, u32)> + '_ {
        self.pieces.iter().flat_map(|(&start, &(end, value))| (start..=end).map(move |key| (key, value)))
    }
}

/// A range with its value.
fn pair(number: i32) -> (RangeInclusive<i32>, u32) {
    (10 * number..=10 * number + 4, (number % 7) as u32)
}

/// The number of a range that is drawn.
fn drawn(turn: i32) -> i32 {
    turn * 7_919 % RANGES
}

/// How often a call is made that is usually made `often` times.
fn asked(name: &str, often: i32) -> i32 {
    let words: Vec<String> = env::args().skip(1).collect();
    match &words[..] {
        [only, number] if only == name => number.parse().unwrap_or(0),
        [_, _] => 0,
        _ => often,
    }
}

/// Makes a call as often as was asked, and prints its line.
fn timed(name: &str, often: i32, mut call: impl FnMut(i32) -> i64) {
    let often = asked(name, often);
    let mut sum = 0i64;
    let began = Instant::now();
    for turn in 0..often {
        sum = sum.wrapping_add(black_box(call(black_box(turn))));
    }
    println!("{name} {often} {} {sum}", began.elapsed().as_nanos());
}

/// A value as a number, or -1 for none.
fn number(value: Option<u32>) -> i64 {
    value.map_or(-1, i64::from)
}

fn look_ups(map: &Map) {
    timed("get", RANGES, |turn| number(map.get(10 * drawn(turn) + turn % 8)));
}

fn changes(map: &Map) {
    let mut changed = map.clone();
    timed("insert", RANGES, |turn| number(changed.insert(10 * drawn(turn) + 2, (turn % 7) as u32)));
    let mut changed = map.clone();
    timed("ranges_insert", RANGES, |turn| {
        let first = 10 * drawn(turn) + 3;
        changed.ranges_insert(first..=first + 10, (turn % 7) as u32);
        changed.pieces.len() as i64
    });
}

fn makings() {
    let made = |order: fn(i32) -> i32| Map::from_iter((0..RANGES).map(|turn| pair(order(turn)))).pieces.len() as i64;
    timed("from_iter in order", FEW, |_| made(|turn| turn));
    timed("from_iter out of order", FEW, |_| made(drawn));
}

fn walks(map: &Map) {
    timed("range_values", FEW, |_| map.pieces.values().map(|&(end, value)| i64::from(end) + i64::from(value)).sum());
    timed("iter", FEW, |_| map.iter().map(|(key, value)| i64::from(key) + i64::from(value)).sum());
}

fn main() {
    let map = Map::from_iter((0..RANGES).map(pair));
    look_ups(&map);
    changes(&map);
    makings();
    walks(&map);
}
