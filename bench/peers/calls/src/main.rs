//! Random calls over the original crate. `here.rattle` makes the same calls over this library.
//!
//! Standard input is a line of four numbers: the seed, the number of calls at each element type, the type, and the
//! first call of the hundred to be shown. The program writes a sum of what each hundred calls returned, or shows them.

use range_set_blaze::prelude::*;
use std::fmt::Debug;
use std::io::Read;

/// Numbers drawn by a seed.
struct Draws {
    state: u64,
}

impl Draws {
    fn next(&mut self) -> u64 {
        self.state = self.state.wrapping_add(0x9E37_79B9_7F4A_7C15);
        let once = (self.state ^ (self.state >> 30)).wrapping_mul(0xBF58_476D_1CE4_E5B9);
        let twice = (once ^ (once >> 27)).wrapping_mul(0x94D0_49BB_1331_11EB);
        twice ^ (twice >> 31)
    }

    fn below(&mut self, end: u64) -> u64 {
        self.next() % end
    }
}

/// An element type, by what is drawn: near the least value, near the greatest, in between, or any.
trait Drawn: Integer + Debug {
    fn drawn(kind: u64, near: u8, any: u64) -> Self;
    fn text_of(length: Self::SafeLen) -> String;
}

impl Drawn for u8 {
    fn drawn(kind: u64, near: u8, any: u64) -> Self {
        match kind {
            0 => near,
            1 => u8::MAX - near,
            2 => 100 + near,
            _ => (any % 256) as u8,
        }
    }

    fn text_of(length: Self::SafeLen) -> String {
        format!("{length}")
    }
}

impl Drawn for i8 {
    fn drawn(kind: u64, near: u8, any: u64) -> Self {
        match kind {
            0 => i8::MIN + near as i8,
            1 => i8::MAX - near as i8,
            2 => near as i8 - 20,
            _ => (any % 128) as i8,
        }
    }

    fn text_of(length: Self::SafeLen) -> String {
        format!("{length}")
    }
}

impl Drawn for i32 {
    fn drawn(kind: u64, near: u8, any: u64) -> Self {
        match kind {
            0 => i32::MIN + near as i32,
            1 => i32::MAX - near as i32,
            2 => near as i32 - 20,
            _ => (any % (1 << 31)) as i32,
        }
    }

    fn text_of(length: Self::SafeLen) -> String {
        format!("{length}")
    }
}

impl Drawn for u64 {
    fn drawn(kind: u64, near: u8, any: u64) -> Self {
        match kind {
            0 => near as u64,
            1 => u64::MAX - near as u64,
            2 => 1_000_000 + near as u64,
            _ => any,
        }
    }

    fn text_of(length: Self::SafeLen) -> String {
        format!("{length}")
    }
}

impl Drawn for i64 {
    fn drawn(kind: u64, near: u8, any: u64) -> Self {
        match kind {
            0 => i64::MIN + near as i64,
            1 => i64::MAX - near as i64,
            2 => near as i64 - 20,
            _ => (any % (1 << 63)) as i64,
        }
    }

    fn text_of(length: Self::SafeLen) -> String {
        format!("{length}")
    }
}

/// The sets that calls are made on.
struct Sets<T: Integer> {
    a: RangeSetBlaze<T>,
    b: RangeSetBlaze<T>,
    c: RangeSetBlaze<T>,
}

fn two_values<T: Drawn>(draws: &mut Draws) -> (T, T) {
    let kind = draws.below(16);
    let low = T::drawn(kind % 4, (draws.next() % 40) as u8, draws.next());
    let high = T::drawn(if kind < 12 { kind % 4 } else { draws.below(4) }, (draws.next() % 40) as u8, draws.next());
    if draws.below(16) > 0 && high < low {
        (high, low)
    } else {
        (low, high)
    }
}

/// Changes of one set.
fn change<T: Drawn>(call: u64, sets: &mut Sets<T>, low: T, high: T) -> String {
    match call {
        0 | 1 => format!("ranges_insert {low:?} {high:?}: {}", sets.a.ranges_insert(low..=high)),
        2 => format!("insert {low:?}: {}", sets.a.insert(low)),
        3 => format!("replace {low:?}: {:?}", sets.a.replace(low)),
        4 | 5 => format!("remove {low:?}: {}", sets.a.remove(low)),
        6 => format!("take {low:?}: {:?}", sets.a.take(low)),
        7 => format!("pop_first: {:?}", sets.a.pop_first()),
        8 => format!("pop_last: {:?}", sets.a.pop_last()),
        _ => format!("at {low:?} is {:?} and {:?}", sets.a.range_at(low), sets.a.range_or_gap_at(low)),
    }
}

/// Changes that move members from one set to another.
fn moved<T: Drawn>(call: u64, sets: &mut Sets<T>, low: T) -> String {
    match call {
        0 => {
            sets.b = sets.a.split_off(low);
            format!("split_off {low:?}: {}", sets.b)
        }
        1 => {
            sets.a.append(&mut sets.b);
            format!("append: {}", sets.b)
        }
        2 => {
            sets.a |= &sets.c;
            format!("bitor_assign: {}", sets.c)
        }
        3 => {
            sets.a.ranges_retain(|run| *run.start() <= low);
            format!("ranges_retain to {low:?}")
        }
        4 => {
            std::mem::swap(&mut sets.a, &mut sets.b);
            String::from("swap")
        }
        _ => {
            std::mem::swap(&mut sets.b, &mut sets.c);
            String::from("swap others")
        }
    }
}

/// Questions about one set and about two.
fn question<T: Drawn>(call: u64, sets: &Sets<T>, low: T, high: T) -> String {
    let (a, b) = (&sets.a, &sets.b);
    match call {
        0 => format!("{:?} {:?} {} {} {}", a.first(), a.last(), T::text_of(a.len()), a.ranges_len(), a.is_empty()),
        1 => format!("{} {:?} {}", a.contains(low), a.get(high), a.is_universal()),
        2 => format!("{} {} {}", a.is_subset(b), a.is_superset(b), a.is_disjoint(b)),
        3 => format!("{:?} {} {}", a.cmp(b), a == b, a < b),
        4 => {
            let mut items = a.iter();
            let first = items.next();
            let last = items.next_back();
            format!("{first:?} {last:?} {:?} {:?}", items.next_back(), items.next())
        }
        5 => {
            let mut runs = a.ranges();
            let last = runs.next_back();
            format!("{last:?} {:?} {:?} {}", runs.next(), runs.next_back(), runs.len())
        }
        _ if low <= high => {
            let mut items = a.range(low..=high);
            let last = items.next_back();
            format!("range {low:?} {high:?}: {last:?} {:?} {:?}", items.next(), items.next_back())
        }
        _ => String::from("no range"),
    }
}

/// Set algebra on sets, and on streams of two and of many.
fn algebra<T: Drawn>(call: u64, sets: &Sets<T>) -> String {
    let (a, b, c) = (&sets.a, &sets.b, &sets.c);
    match call {
        0 => format!("or {}", a | b),
        1 => format!("and {}", a & b),
        2 => format!("sub {}", a - b),
        3 => format!("xor {}", a ^ b),
        4 => format!("not {}", !a),
        5 => format!("or sub {}", ((a.ranges() | b.ranges()) - c.ranges()).into_range_set_blaze()),
        6 => format!("not xor {}", (!(a.ranges() ^ b.ranges()) & c.ranges()).into_range_set_blaze()),
        7 => format!("nest {}", ((!a.ranges() - b.ranges()) ^ (a.ranges() & c.ranges())).into_range_set_blaze()),
        8 => format!("union {}", [a.ranges(), b.ranges(), c.ranges()].union().into_range_set_blaze()),
        9 => format!("all {}", [a.ranges(), b.ranges(), c.ranges()].intersection().into_range_set_blaze()),
        10 => format!("odd {}", [a.ranges(), b.ranges(), c.ranges()].symmetric_difference().into_range_set_blaze()),
        11 => format!("sets {}", MultiwayRangeSetBlazeRef::union([a, b, c])),
        _ => format!("{} {}", a.ranges().equal(b.ranges()), (a.ranges() & !b.ranges()).is_empty()),
    }
}

/// What one call returns, and the set after it.
fn called<T: Drawn>(draws: &mut Draws, sets: &mut Sets<T>) -> String {
    let (low, high) = two_values(draws);
    if sets.a.ranges_len() > 30 {
        sets.a.clear();
    }
    let said = match draws.below(8) {
        0..=2 => change(draws.below(10), sets, low, high),
        3 => moved(draws.below(6), sets, low),
        4 | 5 => question(draws.below(7), sets, low, high),
        _ => algebra(draws.below(13), sets),
    };
    format!("{said} | {}", sets.a)
}

/// Makes the calls, and writes a sum of what each hundred returned, or shows the hundred that begin at a call.
fn calls<T: Drawn>(mut draws: Draws, count: u64, shown: u64) {
    let mut sets: Sets<T> =
        Sets { a: RangeSetBlaze::new(), b: RangeSetBlaze::new(), c: RangeSetBlaze::new() };
    let mut sum: u64 = 0xCBF2_9CE4_8422_2325;
    for call in 0..count {
        let said = called(&mut draws, &mut sets);
        for byte in said.as_bytes() {
            sum = (sum ^ *byte as u64).wrapping_mul(0x100_0000_01B3);
        }
        if shown <= call && call - shown < 100 {
            println!("{call}: {said}");
        } else if call % 100 == 99 {
            println!("{call}: {sum}");
        }
    }
}

fn main() {
    let mut text = String::new();
    std::io::stdin().read_to_string(&mut text).expect("a line");
    let numbers: Vec<u64> = text.split_whitespace().map(|word| word.parse().expect("a number")).collect();
    let (draws, count, shown) = (Draws { state: numbers[0] }, numbers[1], numbers[3]);
    match numbers[2] {
        0 => calls::<u8>(draws, count, shown),
        1 => calls::<i8>(draws, count, shown),
        2 => calls::<i32>(draws, count, shown),
        3 => calls::<u64>(draws, count, shown),
        _ => calls::<i64>(draws, count, shown),
    }
}
