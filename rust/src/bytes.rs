//! Sets as bytes, and read from them.

use core::fmt;

use crate::calls::{self, Handle};
use crate::width::Number;
use crate::{allocated, AllocError, Element, RangeSet};

/// Why no set is read from bytes.
#[derive(Clone, Copy, Debug, PartialEq, Eq)]
pub enum BytesError {
    /// The bytes are those of no set of the type.
    BadBytes {
        /// The number of bytes before the first wrong one. If the bytes end too early, it is their
        /// number.
        position: usize,
        /// What is wrong with that byte.
        reason: BytesReason,
    },
    /// An allocation failed.
    NoMemory(AllocError),
}

/// What is wrong with bytes that are those of no set.
#[derive(Clone, Copy, Debug, PartialEq, Eq, Hash)]
pub enum BytesReason {
    /// The byte is not that of the magic number.
    NotMagic,
    /// The version of the format is not 1.
    OtherVersion,
    /// The number of bits is not that of the type's ranks.
    OtherWidth,
    /// The bytes end before the last run does.
    CutShort,
    /// The byte ends a number that has a shorter form.
    NotShortest,
    /// The gap of a run is 0, so the run touches the one before.
    Touching,
    /// The number is too large: the runs would go past the greatest value.
    PastGreatest,
    /// The byte comes after the last run.
    TooLong,
    /// The first run starts below the least value. This is only possible if the rank of that value
    /// is not 0.
    BelowLeast,
}

use BytesReason::{
    BelowLeast, CutShort, NotMagic, NotShortest, OtherVersion, OtherWidth, PastGreatest, TooLong,
    Touching,
};

impl BytesReason {
    /// The reasons that the library has, from 1 on.
    const ALL: [BytesReason; 8] = [
        NotMagic,
        OtherVersion,
        OtherWidth,
        CutShort,
        NotShortest,
        Touching,
        PastGreatest,
        TooLong,
    ];

    fn of(number: u32) -> Self {
        let place = number.saturating_sub(1) as usize;
        Self::ALL.get(place).copied().unwrap_or(TooLong)
    }
}

impl fmt::Display for BytesReason {
    fn fmt(&self, f: &mut fmt::Formatter<'_>) -> fmt::Result {
        f.write_str(match self {
            NotMagic => "the bytes of a set begin otherwise",
            OtherVersion => "the version of the format is not 1",
            OtherWidth => "the number of bits is not that of the type",
            CutShort => "the bytes end before the last run does",
            NotShortest => "the number that ends here has a shorter form",
            Touching => "the run touches the one before",
            PastGreatest => "the number is too large",
            TooLong => "the last run has ended",
            BelowLeast => "the number is too small",
        })
    }
}

impl fmt::Display for BytesError {
    fn fmt(&self, f: &mut fmt::Formatter<'_>) -> fmt::Result {
        match self {
            BytesError::BadBytes { position, reason } => {
                write!(f, "not the bytes of a set, at byte {position}: {reason}")
            }
            BytesError::NoMemory(error) => error.fmt(f),
        }
    }
}

impl std::error::Error for BytesError {}

impl From<AllocError> for BytesError {
    fn from(error: AllocError) -> Self {
        BytesError::NoMemory(error)
    }
}

/// Returns an empty list with room for so many bytes.
fn room_for(length: usize) -> Result<Vec<u8>, AllocError> {
    let mut list = Vec::new();
    list.try_reserve_exact(length).map_err(|_| AllocError)?;
    Ok(list)
}

impl<T> RangeSet<T> {
    /// Returns the set as bytes, which [`from_bytes`](Self::from_bytes) reads. Equal sets of a type
    /// have equal bytes, on every machine.
    ///
    /// `docs/FORMAT.md` describes them. They have the [ranks](Element::rank) of the members, and the
    /// number of bits of [`Element::Rank`]: 32, 64 or 128. So a set of `u8` has the bytes of the set
    /// of `u32` with the same members.
    ///
    /// ```
    /// # use range_set::RangeSet;
    /// let set = RangeSet::<i64>::from(-1..=300);
    /// assert_eq!(
    ///     set.to_bytes(),
    ///     b"\xF5RSB\x01\x40\x01\xFF\xFF\xFF\xFF\xFF\xFF\xFF\xFF\x7F\xAD\x02"
    /// );
    /// ```
    ///
    /// # Panics
    ///
    /// Panics if an allocation fails. [`try_to_bytes`](Self::try_to_bytes) returns an error instead.
    #[must_use]
    #[track_caller]
    pub fn to_bytes(&self) -> Vec<u8>
    where
        T: Element,
    {
        allocated(self.try_to_bytes())
    }

    /// Returns the set as bytes, as [`to_bytes`](Self::to_bytes) does.
    ///
    /// ```
    /// # use range_set::RangeSet;
    /// let set = RangeSet::<u8>::from([3, 4, 5]);
    /// assert_eq!(set.try_to_bytes()?, b"\xF5RSB\x01\x20\x01\x03\x02");
    /// # Ok::<(), range_set::AllocError>(())
    /// ```
    pub fn try_to_bytes(&self) -> Result<Vec<u8>, AllocError>
    where
        T: Element,
    {
        // Each run has two numbers of seven bits a byte.
        let for_run = 2 * (8 * size_of::<T::Rank>()).div_ceil(7);
        let most = self.run_count().checked_mul(for_run);
        let most = most.and_then(|most| most.checked_add(16));
        let mut buffer = room_for(most.ok_or(AllocError)?)?;
        let mut length = 0;
        // SAFETY: the buffer has room for its capacity, and the call writes the first `length` bytes
        // of it if it returns CHANGED.
        unsafe {
            let to = buffer.as_mut_ptr();
            let answer = (Self::CALLS.to_bytes)(&self.handle, to, buffer.capacity(), &mut length);
            if answer != calls::CHANGED {
                return Err(AllocError);
            }
            buffer.set_len(length);
        }
        let mut bytes = room_for(length)?;
        bytes.extend_from_slice(&buffer);
        Ok(bytes)
    }

    /// Returns the set that [`to_bytes`](Self::to_bytes) wrote as these bytes. It accepts no others.
    ///
    /// The bytes do not say of which type the values are, except by the number of bits of the ranks.
    /// Memory is allocated for runs that were read, not for those that the bytes announce.
    ///
    /// ```
    /// use range_set::{BytesError, BytesReason, RangeSet};
    ///
    /// let mut bytes = RangeSet::from('a'..='e').to_bytes();
    /// assert_eq!(RangeSet::from_bytes(&bytes), Ok(RangeSet::from('a'..='e')));
    /// bytes.pop();
    /// let cut = BytesError::BadBytes { position: 8, reason: BytesReason::CutShort };
    /// assert_eq!(RangeSet::<char>::from_bytes(&bytes), Err(cut));
    /// ```
    pub fn from_bytes(bytes: &[u8]) -> Result<Self, BytesError>
    where
        T: Element,
    {
        let mut set = Self::new();
        let fault = read_bytes::<T>(&mut set.handle, bytes)?;
        let end = fault.map_or(bytes.len(), |(position, _)| position);
        let ranks = Ranks::of::<T>();
        match ranks.first_outside(&bytes[..end]).or(fault) {
            Some((position, reason)) => Err(BytesError::BadBytes { position, reason }),
            None => Ok(set),
        }
    }
}

type Fault = (usize, BytesReason);

/// Has the library read bytes as a set whose ranks are all numbers of their width.
fn read_bytes<T: Element>(out: &mut Handle, bytes: &[u8]) -> Result<Option<Fault>, AllocError> {
    let (mut position, mut reason) = (0, 0);
    let (start, length) = (bytes.as_ptr(), bytes.len());
    // SAFETY: the bytes are those of a slice.
    let answer = unsafe {
        (<T::Rank as Number>::CALLS.from_bytes)(out, start, length, &mut position, &mut reason)
    };
    match answer {
        calls::CHANGED => Ok(None),
        calls::BAD_BYTES => Ok(Some((position, BytesReason::of(reason)))),
        _ => Err(AllocError),
    }
}

/// The ranks of a type.
struct Ranks {
    first: u128,
    last: u128,
    /// Whether these are all numbers of their width.
    are_all: bool,
}

/// The bytes of the magic number, the version and the number of bits.
const HEADER: usize = 6;

impl Ranks {
    fn of<T: Element>() -> Self {
        let (first, last) = (T::MIN.rank(), T::MAX.rank());
        let least = <T::Rank as Number>::LEAST;
        Ranks {
            first: first.above(least),
            last: last.above(least),
            are_all: first == least && last == <T::Rank as Number>::GREATEST,
        }
    }

    /// Finds the first byte with which no set of these ranks begins. Some set of all ranks of the
    /// width begins with the bytes (docs/DECISIONS.md, bytes-by-storage).
    fn first_outside(&self, bytes: &[u8]) -> Option<Fault> {
        if self.are_all || self.first > self.last {
            return None;
        }
        let mut at = HEADER;
        let fault = self.read_runs(bytes, &mut at).err();
        fault.map(|reason| (at, reason))
    }

    /// Reads the runs, or some of them if the bytes end. After an error, `at` is the position of the
    /// byte.
    fn read_runs(&self, bytes: &[u8], at: &mut usize) -> Result<(), BytesReason> {
        let Some(count) = read_number(bytes, at, 0, (self.last - self.first) / 2 + 1)? else {
            return Ok(());
        };
        let mut next = 0;
        for to_come in (0..count).rev() {
            // Each of them takes two ranks or more.
            let least = if next == 0 { self.first } else { 0 };
            let most = (self.last - next).saturating_sub(2 * to_come);
            let Some(gap) = read_number(bytes, at, least, most)? else {
                return Ok(());
            };
            let Some(more) = read_number(bytes, at, 0, most.saturating_sub(gap))? else {
                return Ok(());
            };
            next = (next + gap + more).saturating_add(1);
        }
        Ok(())
    }
}

/// Reads a number that is to be in a range, or returns `None` if the bytes end. After an error, `at`
/// is the position of the first byte with which no number of the range begins.
fn read_number(
    bytes: &[u8],
    at: &mut usize,
    least: u128,
    most: u128,
) -> Result<Option<u128>, BytesReason> {
    let mut value = 0_u128;
    for place in 0.. {
        let Some(byte) = bytes.get(*at) else { break };
        value |= u128::from(byte & 0x7F) << (7 * place);
        let is_last = *byte < 0x80;
        if is_last && value < least {
            return Err(BelowLeast);
        }
        let possible = if is_last {
            Some(value)
        } else {
            least_that_begins(value, 7 * place + 7, least)
        };
        if possible.is_none_or(|possible| possible > most) {
            return Err(PastGreatest);
        }
        *at += 1;
        if is_last {
            return Ok(Some(value));
        }
    }
    Ok(None)
}

/// Returns the least number from `least` on that has more bits than these, or `None` if it is above
/// `u128::MAX`.
fn least_that_begins(bits: u128, number_of_bits: u32, least: u128) -> Option<u128> {
    let step = 1_u128.checked_shl(number_of_bits)?;
    let steps = least.saturating_sub(bits).div_ceil(step).max(1);
    steps.checked_mul(step)?.checked_add(bits)
}
