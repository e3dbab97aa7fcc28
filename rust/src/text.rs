//! Sets as text, and read from it.

use core::fmt;
use core::str::FromStr;

use crate::build::Joining;
use crate::span::Span;
use crate::{AllocError, Element, RangeSet};

/// Why no set is read from text.
#[derive(Clone, Copy, Debug, PartialEq, Eq)]
pub enum ParseError {
    /// The text does not list values and ranges of values of the type.
    BadText {
        /// The number of bytes before the first unexpected one. If a number is too great, this is
        /// its first digit that makes it so. If the text ends too early, it is the text's length.
        position: usize,
    },
    /// An allocation failed.
    NoMemory(AllocError),
}

impl fmt::Display for ParseError {
    fn fmt(&self, f: &mut fmt::Formatter<'_>) -> fmt::Result {
        match self {
            ParseError::BadText { position } => write!(
                f,
                "unexpected text at byte {position}: a set is written as in \"1..=5, 7\""
            ),
            ParseError::NoMemory(error) => error.fmt(f),
        }
    }
}

impl std::error::Error for ParseError {}

impl From<AllocError> for ParseError {
    fn from(error: AllocError) -> Self {
        ParseError::NoMemory(error)
    }
}

/// Writes the runs, as in `1..=5, 7..=7`. The form `{:#}` writes a run of one value as that value.
/// `from_str` reads both as the same set.
///
/// ```
/// # use range_set::RangeSet;
/// let ports = RangeSet::from([22, 80, 8000, 8001]);
/// assert_eq!(ports.to_string(), "22..=22, 80..=80, 8000..=8001");
/// assert_eq!(format!("{ports:#}"), "22, 80, 8000..=8001");
/// assert_eq!(RangeSet::from('a'..='z').to_string(), "'a'..='z'");
/// ```
impl<T: Element + fmt::Display> fmt::Display for RangeSet<T> {
    fn fmt(&self, f: &mut fmt::Formatter<'_>) -> fmt::Result {
        for (place, run) in self.runs().enumerate() {
            if place > 0 {
                f.write_str(", ")?;
            }
            let (first, last) = run.into_inner();
            first.write_text(f)?;
            if !f.alternate() || first != last {
                f.write_str("..=")?;
                last.write_text(f)?;
            }
        }
        Ok(())
    }
}

/// Writes the runs, as in `1..=5, 10..=20`, with the values as their `Debug` writes them.
impl<T: Element + fmt::Debug> fmt::Debug for RangeSet<T> {
    fn fmt(&self, f: &mut fmt::Formatter<'_>) -> fmt::Result {
        for (place, run) in self.runs().enumerate() {
            let separator = if place == 0 { "" } else { ", " };
            write!(f, "{separator}{run:?}")?;
        }
        Ok(())
    }
}

/// Reads the values and ranges that text lists, such as `1..=5, 10..=20, 22`.
///
/// The ranges may come in any order and may overlap. `7` means `7..=7`, and a range whose start is
/// past its end has no values. Blanks may be around each value. Empty text gives the empty set.
///
/// ```
/// use range_set::{ParseError, RangeSet};
/// use std::net::Ipv4Addr;
///
/// let set: RangeSet<u32> = "7, 3..=5, 1..=4".parse()?;
/// assert_eq!(set.to_string(), "1..=5, 7..=7");
/// let hosts: RangeSet<Ipv4Addr> = "10.0.0.1..=10.0.0.9".parse()?;
/// assert_eq!(hosts.len(), 9);
/// let bad = "1..=5, 300".parse::<RangeSet<u8>>();
/// assert_eq!(bad, Err(ParseError::BadText { position: 9 }));
/// # Ok::<(), ParseError>(())
/// ```
impl<T: Element + FromStr> FromStr for RangeSet<T> {
    type Err = ParseError;

    fn from_str(text: &str) -> Result<Self, ParseError> {
        let mut set = RangeSet::new();
        let mut reader = Reader { text, at: 0 };
        reader.skip_blanks();
        if reader.rest().is_empty() {
            return Ok(set);
        }
        let mut joining = Joining::new(&mut set);
        joining.add(reader.range::<T>()?)?;
        while !reader.rest().is_empty() {
            reader.expect(",")?;
            joining.add(reader.range::<T>()?)?;
        }
        joining.finish()?;
        Ok(set)
    }
}

/// A position in a text.
struct Reader<'a> {
    text: &'a str,
    at: usize,
}

impl<'a> Reader<'a> {
    fn rest(&self) -> &'a str {
        self.text.get(self.at..).unwrap_or("")
    }

    fn skip_blanks(&mut self) {
        let rest = self.rest();
        self.at += rest.len() - rest.trim_start_matches(BLANKS).len();
    }

    /// Passes the bytes of a separator.
    fn expect(&mut self, separator: &str) -> Result<(), ParseError> {
        for byte in separator.bytes() {
            if self.text.as_bytes().get(self.at) != Some(&byte) {
                return Err(self.unexpected(0));
            }
            self.at += 1;
        }
        Ok(())
    }

    fn unexpected(&self, ahead: usize) -> ParseError {
        ParseError::BadText {
            position: self.at + ahead,
        }
    }

    /// Reads a value and the blanks around it.
    fn value<T: Element + FromStr>(&mut self) -> Result<T, ParseError> {
        self.skip_blanks();
        let (value, length) = T::read_text(self.rest()).map_err(|at| self.unexpected(at))?;
        self.at += length;
        self.skip_blanks();
        Ok(value)
    }

    /// Reads a value or a range, and the blanks around it. Returns its ranks, if it has values.
    fn range<T: Element + FromStr>(&mut self) -> Result<Option<Span<T::Rank>>, ParseError> {
        let first = self.value::<T>()?.rank();
        if !self.rest().starts_with('.') {
            return match self.rest().bytes().next() {
                None | Some(b',') => Ok(Span::new(first, first)),
                Some(_) => Err(self.unexpected(0)),
            };
        }
        self.expect("..=")?;
        let last = self.value::<T>()?.rank();
        Ok(Span::new(first, last))
    }
}

const BLANKS: [char; 4] = [' ', '\t', '\n', '\r'];

/// Returns the text up to the next comma or `..=`, without blanks at its end.
pub fn first_word(text: &str) -> &str {
    let end = text.find(',').unwrap_or(text.len());
    let before = &text[..end];
    let end = before.find("..=").unwrap_or(end);
    before[..end].trim_end_matches(BLANKS)
}

/// Reads a number with an optional sign at the start of a text, and returns it with the number of
/// its bytes. Otherwise returns the position of the first unexpected byte. `with_digit` appends a
/// digit to a number, which is negative or 0 if it is told so.
pub fn read_number<N: Copy>(
    text: &str,
    zero: N,
    with_digit: impl Fn(N, bool, u8) -> Option<N>,
) -> Result<(N, usize), usize> {
    let bytes = text.as_bytes();
    let is_negative = bytes.first() == Some(&b'-');
    let start = usize::from(is_negative || bytes.first() == Some(&b'+'));
    let mut number = zero;
    let mut at = start;
    while let Some(digit) = bytes.get(at).filter(|byte| byte.is_ascii_digit()) {
        number = with_digit(number, is_negative, digit - b'0').ok_or(at)?;
        at += 1;
    }
    if at == start {
        return Err(at);
    }
    Ok((number, at))
}

/// Reads a character at the start of a text, in quotes or as it is.
pub fn read_char(text: &str) -> Result<(char, usize), usize> {
    let mut rest = text.chars();
    match rest.next() {
        Some('\'') => {
            let value = read_quoted(&mut rest);
            let at = text.len() - rest.as_str().len();
            match (value, rest.next()) {
                (Some(value), Some('\'')) => Ok((value, at + 1)),
                (Some(_), _) => Err(at),
                (None, _) => Err(1),
            }
        }
        Some(value) if value != ',' && value != '.' && !BLANKS.contains(&value) => {
            Ok((value, value.len_utf8()))
        }
        _ => Err(0),
    }
}

/// Reads the character between quotes, which may be escaped as `Debug` does it.
fn read_quoted(rest: &mut core::str::Chars<'_>) -> Option<char> {
    match rest.next()? {
        '\'' => None,
        '\\' => match rest.next()? {
            't' => Some('\t'),
            'r' => Some('\r'),
            'n' => Some('\n'),
            '0' => Some('\0'),
            'u' => {
                let code = rest.as_str().strip_prefix('{')?;
                let end = code.find('}')?;
                let value = u32::from_str_radix(&code[..end], 16).ok()?;
                *rest = code[end + 1..].chars();
                char::from_u32(value)
            }
            escaped @ ('\'' | '"' | '\\') => Some(escaped),
            _ => None,
        },
        value => Some(value),
    }
}
