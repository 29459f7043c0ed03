//! Why a start was listed, or why not: which base letters each pattern letter and the text letter under it have in common.
//!
//! A base letter is in the set of a position exactly if it is a member of both letters there, and each base letter is asked
//! about by itself. Whether all of them meet is not asked: a start that is no hit has its sets too, empty ones among them.

use crate::letters::{member, members};
use crate::refusals::{check_at, Refusal};

/// The base letters that are members of both, as a set. A mark has no member, and shares none.
pub fn shared(a: u32, b: u32) -> u32 {
    members(a).filter(|letter| member(b, *letter)).map(|letter| 1 << letter).sum()
}

/// What each pattern letter shares with the text letter under it, at a start that the text reaches with all of them.
pub fn reasons_at(pattern: &[u32], text: &[u32], start: usize) -> Vec<u32> {
    (0..pattern.len()).map(|j| shared(pattern[j], text[start + j])).collect()
}

/// The public call, into room for `lent` sets: the checks come first, whether the start is a hit or not.
pub fn reasons(k: u32, pattern: &[u32], text: &[u32], start: usize, lent: usize) -> Result<Vec<u32>, Refusal> {
    check_at(k, pattern, text, start, lent)?;
    Ok(reasons_at(pattern, text, start))
}
