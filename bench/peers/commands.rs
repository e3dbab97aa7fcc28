//! The commands of `rsb_run` over any ten sets, as both peers read and answer them.

use std::fmt::Display;
use std::io::{self, Read, Write};

/// What a set of `i32` answers and does.
pub trait Set: Default {
    type Text<'a>: Display
    where
        Self: 'a;

    fn add(&mut self, start: i32, end: i32) -> bool;
    fn remove(&mut self, value: i32) -> bool;
    fn has(&self, value: i32) -> bool;
    fn run_or_gap(&self, value: i32) -> (i32, i32, bool);
    fn count(&self) -> u64;
    fn runs(&self) -> usize;
    fn text(&self) -> Self::Text<'_>;
    fn either(&self, other: &Self) -> Self;
    fn both(&self, other: &Self) -> Self;
    fn less(&self, other: &Self) -> Self;
    fn one_alone(&self, other: &Self) -> Self;
    fn rest(&self) -> Self;

    /// What lies in two of three sets, by operations on two.
    fn two_of_three(&self, second: &Self, third: &Self) -> Self {
        let one_more = self.either(second).both(third);
        self.both(second).either(&one_more)
    }

    fn order(&self, other: &Self) -> std::cmp::Ordering;
}

/// Reads all commands, and writes a line for each.
pub fn serve<S: Set>() -> io::Result<()> {
    let mut text = String::new();
    io::stdin().lock().read_to_string(&mut text)?;
    let mut out = io::BufWriter::new(io::stdout().lock());
    let mut sets: Vec<S> = (0..10).map(|_| S::default()).collect();
    for line in text.lines() {
        let words: Vec<&str> = line.split_ascii_whitespace().collect();
        if !words.is_empty() {
            answer(&mut sets, &words, &mut out)?;
        }
    }
    out.flush()
}

fn answer<S: Set>(sets: &mut [S], words: &[&str], out: &mut impl Write) -> io::Result<()> {
    let set = |place: usize| -> usize { words[place].parse().expect("a set") };
    let number = |place: usize| -> i32 { words[place].parse().expect("a number") };
    match words[0] {
        "add" => writeln!(out, "{}", sets[set(1)].add(number(2), number(3))),
        "del" => writeln!(out, "{}", sets[set(1)].remove(number(2))),
        "has" => writeln!(out, "{}", sets[set(1)].has(number(2))),
        "gap" => {
            let (start, end, member) = sets[set(1)].run_or_gap(number(2));
            writeln!(out, "{start}..={end} {member}")
        }
        "len" => writeln!(out, "{}", sets[set(1)].count()),
        "show" => writeln!(out, "{}", sets[set(1)].text()),
        "cmp" => {
            let order = format!("{:?}", sets[set(1)].order(&sets[set(2)]));
            writeln!(out, "{}", order.to_lowercase())
        }
        word => {
            let left = &sets[set(2)];
            let made = match word {
                "or" => left.either(&sets[set(3)]),
                "and" => left.both(&sets[set(3)]),
                "sub" => left.less(&sets[set(3)]),
                "xor" => left.one_alone(&sets[set(3)]),
                "most" => left.two_of_three(&sets[set(3)], &sets[set(4)]),
                "not" => left.rest(),
                _ => panic!("no command"),
            };
            writeln!(out, "{}", made.runs())?;
            sets[set(1)] = made;
            Ok(())
        }
    }
}
