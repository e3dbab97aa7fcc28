//! The union of a thousand sets of a thousand runs, by the published crate: of all at once, and one
//! after the other. `crates/rsb_examples`, run with an argument, does the same.

use range_set_blaze::prelude::*;
use std::time::Instant;

const MANY: i32 = 1000;

fn set_no(number: i32) -> RangeSetBlaze<i32> {
    let mut set = RangeSetBlaze::new();
    for block in 0..MANY {
        let place = (number * 37 + block * 53) % 1000 * 4;
        let start = block * 4096 + place;
        set.ranges_insert(start..=start + 1);
    }
    set
}

fn main() {
    let sets: Vec<RangeSetBlaze<i32>> = (0..MANY).map(set_no).collect();

    let began = Instant::now();
    let at_once = sets.iter().union();
    println!("at once: {} runs, {} ms", at_once.ranges_len(), began.elapsed().as_millis());

    let began = Instant::now();
    let mut in_turn = RangeSetBlaze::new();
    for set in &sets {
        in_turn = &in_turn | set;
    }
    println!("one by one: {} runs, {} ms", in_turn.ranges_len(), began.elapsed().as_millis());
}
