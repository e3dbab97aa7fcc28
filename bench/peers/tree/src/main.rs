//! The commands over Rust's `BTreeMap`, from the start of each run to its end.

#[path = "../../commands.rs"]
mod commands;

use commands::Set;
use std::cmp::Ordering;
use std::collections::BTreeMap;
use std::fmt;
use std::io;

#[derive(Default)]
struct Tree {
    runs: BTreeMap<i32, i32>,
    count: u64,
}

/// How many values a run has.
fn length(start: i32, end: i32) -> u64 {
    start.abs_diff(end) as u64 + 1
}

impl Tree {
    /// The run at or before a value.
    fn before(&self, value: i32) -> Option<(i32, i32)> {
        self.runs.range(..=value).next_back().map(|(&start, &end)| (start, end))
    }

    fn put(&mut self, start: i32, end: i32) {
        self.count += length(start, end);
        self.runs.insert(start, end);
    }

    fn take(&mut self, start: i32) {
        if let Some(end) = self.runs.remove(&start) {
            self.count -= length(start, end);
        }
    }

    /// The runs of what a rule keeps of two sets, by one pass over the places where either changes.
    fn made(&self, other: &Self, keeps: impl Fn(bool, bool) -> bool) -> Self {
        let mut edges: Vec<(i64, bool)> = Vec::new();
        for (set, second) in [(self, false), (other, true)] {
            for (&start, &end) in &set.runs {
                edges.push((start.into(), second));
                edges.push((i64::from(end) + 1, second));
            }
        }
        edges.sort_unstable();
        let mut made = Tree::default();
        let (mut left, mut right) = (false, false);
        let mut start = keeps(false, false).then_some(i64::from(i32::MIN));
        let mut edges = edges.into_iter().peekable();
        while let Some((place, second)) = edges.next() {
            if second { right = !right } else { left = !left }
            if edges.peek().is_some_and(|&(next, _)| next == place) {
                continue;
            }
            match (start, keeps(left, right)) {
                (Some(from), false) if from < place => {
                    made.put(from as i32, (place - 1) as i32);
                    start = None;
                }
                (Some(_), false) => start = None,
                (None, true) => start = Some(place),
                _ => {}
            }
        }
        if let Some(from) = start {
            if from <= i64::from(i32::MAX) {
                made.put(from as i32, i32::MAX);
            }
        }
        made
    }
}

impl fmt::Display for Tree {
    fn fmt(&self, text: &mut fmt::Formatter<'_>) -> fmt::Result {
        for (place, (start, end)) in self.runs.iter().enumerate() {
            if place > 0 {
                text.write_str(", ")?;
            }
            write!(text, "{start}..={end}")?;
        }
        Ok(())
    }
}

impl Set for Tree {
    type Text<'a> = &'a Tree;

    fn add(&mut self, start: i32, end: i32) -> bool {
        if end < start {
            return false;
        }
        let (mut from, mut to) = (start, end);
        if let Some((first, last)) = self.before(start) {
            if last >= end {
                return false;
            }
            if last >= start.saturating_sub(1) {
                from = first;
            }
        }
        while let Some((first, last)) = self.before(to.saturating_add(1)) {
            if first < from {
                break;
            }
            to = to.max(last);
            self.take(first);
        }
        self.put(from, to);
        true
    }

    fn remove(&mut self, value: i32) -> bool {
        let Some((start, end)) = self.before(value).filter(|&(_, end)| value <= end) else {
            return false;
        };
        self.take(start);
        if start < value {
            self.put(start, value - 1);
        }
        if value < end {
            self.put(value + 1, end);
        }
        true
    }

    fn has(&self, value: i32) -> bool {
        self.before(value).is_some_and(|(_, end)| value <= end)
    }

    fn run_or_gap(&self, value: i32) -> (i32, i32, bool) {
        let start = match self.before(value) {
            Some((start, end)) if value <= end => return (start, end, true),
            Some((_, end)) => end + 1,
            None => i32::MIN,
        };
        let end = self.runs.range(value..).next().map_or(i32::MAX, |(&next, _)| next - 1);
        (start, end, false)
    }

    fn count(&self) -> u64 {
        self.count
    }

    fn runs(&self) -> usize {
        self.runs.len()
    }

    fn text(&self) -> Self::Text<'_> {
        self
    }

    fn either(&self, other: &Self) -> Self {
        self.made(other, |left, right| left || right)
    }

    fn both(&self, other: &Self) -> Self {
        self.made(other, |left, right| left && right)
    }

    fn less(&self, other: &Self) -> Self {
        self.made(other, |left, right| left && !right)
    }

    fn one_alone(&self, other: &Self) -> Self {
        self.made(other, |left, right| left != right)
    }

    fn rest(&self) -> Self {
        self.made(&Tree::default(), |left, _| !left)
    }

    fn order(&self, other: &Self) -> Ordering {
        let (mut left, mut right) = (self.runs.iter(), other.runs.iter());
        loop {
            return match (left.next(), right.next()) {
                (None, None) => Ordering::Equal,
                (None, Some(_)) => Ordering::Less,
                (Some(_), None) => Ordering::Greater,
                (Some(one), Some(two)) if one == two => continue,
                (Some(one), Some(two)) if one.0 != two.0 => one.0.cmp(two.0),
                // What ends first is less, if nothing follows there.
                (Some(one), Some(two)) if one.1 < two.1 => match left.next() {
                    Some(_) => Ordering::Greater,
                    None => Ordering::Less,
                },
                (Some(_), Some(_)) => match right.next() {
                    Some(_) => Ordering::Less,
                    None => Ordering::Greater,
                },
            };
        }
    }
}

fn main() -> io::Result<()> {
    commands::serve::<Tree>()
}
