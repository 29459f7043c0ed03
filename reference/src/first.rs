//! The first hit alone, by its section of the rules: the starts in turn, each tested left to right, and none after the
//! first one that is a hit.
//!
//! This is a loop of its own and not Brute's run cut off, so that where it ends is written here and nowhere else. Every
//! comparison of a pattern letter with a text letter is made by `Tally::scan_test`, so the count is the tests
//! themselves.

use crate::letters::meets;
use crate::refusals::{check_search, Refusal};

/// The first hit, if there is one, and the scan tests that were made until that was known.
#[derive(Clone, Copy, Debug, Default, PartialEq, Eq)]
pub struct First {
    pub start: Option<u32>,
    pub scan: u64,
}

impl First {
    /// What C is given: the scan tests, and after them the start, if there is one.
    pub fn numbers(self) -> Vec<u64> {
        [self.scan].into_iter().chain(self.start.map(u64::from)).collect()
    }
}

/// The public call: the checks, which see the whole text, then the run.
pub fn first(k: u32, pattern: &[u32], text: &[u32]) -> Result<First, Refusal> {
    check_search(k, pattern, text)?;
    Ok(first_hit(pattern, text))
}

/// Runs on a checked pattern and text. A pattern longer than the text has no start: no hit, and no test.
pub fn first_hit(pattern: &[u32], text: &[u32]) -> First {
    let mut tally = Tally { p: pattern, t: text, scan: 0 };
    let mut i = 0;
    while i + pattern.len() <= text.len() {
        if tally.hit(i) {
            return First { start: Some(i as u32), scan: tally.scan };
        }
        i += 1;
    }
    First { start: None, scan: tally.scan }
}

/// A run under way.
struct Tally<'a> {
    p: &'a [u32],
    t: &'a [u32],
    scan: u64,
}

impl Tally<'_> {
    /// Pattern letter j against text letter q, counted.
    fn scan_test(&mut self, j: usize, q: usize) -> bool {
        self.scan += 1;
        meets(self.p[j], self.t[q])
    }

    /// Start i, left to right, up to the first pair that does not meet.
    fn hit(&mut self, i: usize) -> bool {
        (0..self.p.len()).all(|j| self.scan_test(j, i + j))
    }
}
