//! The limits, the refusal, and the checks that several calls share.

use crate::letters::{right_in_pattern, right_in_text};

pub const MAX_K: u32 = 32;
pub const MAX_M: usize = 64;
pub const MAX_N: usize = 65_536;
pub const MAX_PRODUCT_K: u32 = 9;
pub const MAX_SHEET: usize = 8_192;

/// A refusal: its number in the table of refusals, and a place, 0 where none is named.
#[derive(Clone, Copy, Debug, PartialEq, Eq)]
pub struct Refusal {
    pub number: u32,
    pub place: usize,
}

/// The largest place that C is told: one above it is told as this one.
pub const FARTHEST: usize = 1 << 48;

impl Refusal {
    /// What a refused call from C returns: minus the number and 256 times the place.
    pub fn code(self) -> i64 {
        -i64::from(self.number) - 256 * self.place.min(FARTHEST) as i64
    }

    /// The same without the place, as the report is refused.
    pub fn number_code(self) -> i64 {
        -i64::from(self.number)
    }
}

pub fn refuse<T>(number: u32, place: usize) -> Result<T, Refusal> {
    Err(Refusal { number, place })
}

/// Refusal 1.
pub fn check_k(k: u32) -> Result<(), Refusal> {
    if k == 0 || k > MAX_K {
        refuse(1, 0)
    } else {
        Ok(())
    }
}

/// Refusal 2.
pub fn check_m(m: usize) -> Result<(), Refusal> {
    if m == 0 || m > MAX_M {
        refuse(2, 0)
    } else {
        Ok(())
    }
}

/// Refusal 3.
pub fn check_n(n: usize) -> Result<(), Refusal> {
    if n > MAX_N {
        refuse(3, 0)
    } else {
        Ok(())
    }
}

/// A refusal that names the lowest index of an element that is not right.
pub fn check_each(number: u32, elements: &[u32], right: impl Fn(u32) -> bool) -> Result<(), Refusal> {
    match elements.iter().position(|element| !right(*element)) {
        Some(place) => refuse(number, place),
        None => Ok(()),
    }
}

/// Refusal 4.
pub fn check_pattern(k: u32, pattern: &[u32]) -> Result<(), Refusal> {
    check_each(4, pattern, |c| right_in_pattern(k, c))
}

/// Refusal 5, of a text or of letters to be converted.
pub fn check_text(k: u32, text: &[u32]) -> Result<(), Refusal> {
    check_each(5, text, |c| right_in_text(k, c))
}

/// Refusal 8.
pub fn check_room(needed: usize, lent: usize) -> Result<(), Refusal> {
    if lent < needed {
        refuse(8, 0)
    } else {
        Ok(())
    }
}

/// Refusal 16: the start and the pattern's length exceed the text's. A sum that no usize holds exceeds it too.
pub fn check_start(start: usize, m: usize, n: usize) -> Result<(), Refusal> {
    match start.checked_add(m) {
        Some(end) if end <= n => Ok(()),
        _ => refuse(16, 0),
    }
}

/// What a search checks, in its order.
pub fn check_search(k: u32, pattern: &[u32], text: &[u32]) -> Result<(), Refusal> {
    check_k(k)?;
    check_m(pattern.len())?;
    check_n(text.len())?;
    check_pattern(k, pattern)?;
    check_text(k, text)
}

/// What a call about one start checks, in its order, where it is lent room for `lent` values and may write one for each
/// pattern letter: what a search checks, then the start, then the room, whatever there is at the start.
pub fn check_at(k: u32, pattern: &[u32], text: &[u32], start: usize, lent: usize) -> Result<(), Refusal> {
    check_search(k, pattern, text)?;
    check_start(start, pattern.len(), text.len())?;
    check_room(pattern.len(), lent)
}
