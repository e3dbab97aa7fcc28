//! The commands over the published crate.

#[path = "../../commands.rs"]
mod commands;

use commands::Set;
use range_set_blaze::RangeSetBlaze;
use std::cmp::Ordering;
use std::io;

#[derive(Default)]
struct Published(RangeSetBlaze<i32>);

impl Set for Published {
    type Text<'a> = &'a RangeSetBlaze<i32>;

    fn add(&mut self, start: i32, end: i32) -> bool {
        self.0.ranges_insert(start..=end)
    }

    fn remove(&mut self, value: i32) -> bool {
        self.0.remove(value)
    }

    fn has(&self, value: i32) -> bool {
        self.0.contains(value)
    }

    fn run_or_gap(&self, value: i32) -> (i32, i32, bool) {
        let (range, member) = self.0.range_or_gap_at(value);
        (*range.start(), *range.end(), member)
    }

    fn count(&self) -> u64 {
        self.0.len()
    }

    fn runs(&self) -> usize {
        self.0.ranges_len()
    }

    fn text(&self) -> Self::Text<'_> {
        &self.0
    }

    fn either(&self, other: &Self) -> Self {
        Published(&self.0 | &other.0)
    }

    fn both(&self, other: &Self) -> Self {
        Published(&self.0 & &other.0)
    }

    fn less(&self, other: &Self) -> Self {
        Published(&self.0 - &other.0)
    }

    fn one_alone(&self, other: &Self) -> Self {
        Published(&self.0 ^ &other.0)
    }

    fn rest(&self) -> Self {
        Published(!&self.0)
    }

    fn order(&self, other: &Self) -> Ordering {
        self.0.cmp(&other.0)
    }
}

fn main() -> io::Result<()> {
    commands::serve::<Published>()
}
