//! Uses the sets from Rust. To run it, write
//! `cargo run --manifest-path rust/Cargo.toml --example ranges`.

use range_set::RangeSet;

fn main() {
    let mut open = RangeSet::<u64>::from_iter([9..=11, 13..=18]);
    let was_new = open.insert(12);
    let busy = RangeSet::from(10..=14);
    println!("{was_new} {}", open.contains(12));
    for run in (&open - &busy).runs() {
        println!("free {}..={}", run.start(), run.end());
    }
    println!("closed {}", !open);
}
