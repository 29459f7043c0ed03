//! The six engines, each by its paragraph of the rules.
//!
//! Every comparison of a pattern letter with a text letter is made by `Tally::scan_test` or `Tally::shift_test`, so
//! the counts are the tests themselves. The one exception is a shift that comes from the pattern's borders or from
//! the table by g: the rules call it untested, and its value is the same least s.

use crate::letters::{meets, single};
use crate::refusals::{check_search, Refusal};

/// The three counts of work.
#[derive(Clone, Copy, Debug, Default, PartialEq, Eq)]
pub struct Work {
    pub scan: u64,
    pub shift: u64,
    pub words: u64,
}

/// The hits that an engine finds, in the order in which it finds them, and its work.
#[derive(Clone, Debug, Default, PartialEq, Eq)]
pub struct Found {
    pub hits: Vec<u32>,
    pub work: Work,
}

#[derive(Clone, Copy, Debug, PartialEq, Eq)]
pub enum Engine {
    Brute,
    Kmp,
    Bm,
    Sunday,
    ShiftAnd,
    Hybrid,
}

/// In the order of the report.
pub const ENGINES: [Engine; 6] =
    [Engine::Brute, Engine::Kmp, Engine::Bm, Engine::Sunday, Engine::ShiftAnd, Engine::Hybrid];

impl Engine {
    pub fn name(self) -> &'static str {
        match self {
            Engine::Brute => "brute",
            Engine::Kmp => "kmp",
            Engine::Bm => "bm",
            Engine::Sunday => "sunday",
            Engine::ShiftAnd => "shiftand",
            Engine::Hybrid => "hybrid",
        }
    }

    /// Runs on a checked pattern and text. A pattern longer than the text: no hits, all counts 0.
    pub fn run(self, pattern: &[u32], text: &[u32]) -> Found {
        let mut tally = Tally { p: pattern, t: text, found: Found::default() };
        if pattern.len() <= text.len() {
            match self {
                Engine::Brute => brute(&mut tally),
                Engine::Kmp => kmp(&mut tally),
                Engine::Bm => bm(&mut tally),
                Engine::Sunday => sunday(&mut tally),
                Engine::ShiftAnd => shiftand(&mut tally),
                Engine::Hybrid => hybrid(&mut tally),
            }
        }
        tally.found
    }
}

/// The public search: the checks, then the run.
pub fn search(engine: Engine, k: u32, pattern: &[u32], text: &[u32]) -> Result<Found, Refusal> {
    check_search(k, pattern, text)?;
    Ok(engine.run(pattern, text))
}

/// R(c): the greatest pattern index whose letter meets c, or -1; so -1 for the mark, which meets none.
pub fn r(pattern: &[u32], c: u32) -> i64 {
    (0..pattern.len()).filter(|j| meets(pattern[*j], c)).map(|j| j as i64).max().unwrap_or(-1)
}

/// Has every letter exactly one member? A mark has none.
fn all_single(letters: &[u32]) -> bool {
    letters.iter().all(|c| single(*c))
}

/// A run under way.
struct Tally<'a> {
    p: &'a [u32],
    t: &'a [u32],
    found: Found,
}

impl Tally<'_> {
    fn m(&self) -> usize {
        self.p.len()
    }

    fn n(&self) -> usize {
        self.t.len()
    }

    /// The start exceeds n - m.
    fn beyond(&self, i: usize) -> bool {
        i > self.n() - self.m()
    }

    fn note(&mut self, i: usize) {
        self.found.hits.push(i as u32);
    }

    /// Pattern letter j against text letter q, counted as a scan test.
    fn scan_test(&mut self, j: usize, q: usize) -> bool {
        self.found.work.scan += 1;
        meets(self.p[j], self.t[q])
    }

    /// Pattern letter j against text letter q, counted as a shift test.
    fn shift_test(&mut self, j: usize, q: usize) -> bool {
        self.found.work.shift += 1;
        meets(self.p[j], self.t[q])
    }

    /// Do the pattern, moved to start `at`, and the text meet at all text positions from `from` to `to`, tried left
    /// to right up to the first pair that does not? Counted unless `untested`.
    fn fits(&mut self, at: usize, from: usize, to: usize, untested: bool) -> bool {
        if untested {
            (from..to).all(|q| meets(self.p[q - at], self.t[q]))
        } else {
            (from..to).all(|q| self.shift_test(q - at, q))
        }
    }

    /// Sunday's shift from start i, or none if the text ends with this start.
    fn sunday_shift(&self, i: usize) -> Option<usize> {
        if i + self.m() == self.n() {
            return None;
        }
        let next = self.t[i + self.m()];
        Some((self.m() as i64 - r(self.p, next)) as usize)
    }

    /// One word step at text position q: up one bit, bring in a 1, keep the positions that meet the letter. A hit is
    /// noted when the last bit is set.
    fn word_step(&mut self, state: &mut [bool], q: usize) {
        self.found.work.words += 1;
        for j in (1..self.m()).rev() {
            state[j] = state[j - 1];
        }
        state[0] = true;
        for (bit, letter) in state.iter_mut().zip(self.p) {
            *bit = *bit && meets(*letter, self.t[q]);
        }
        if state[self.m() - 1] {
            self.note(q + 1 - self.m());
        }
    }
}

fn brute(run: &mut Tally) {
    let mut i = 0;
    while !run.beyond(i) {
        if (0..run.m()).all(|j| run.scan_test(j, i + j)) {
            run.note(i);
        }
        i += 1;
    }
}

fn kmp(run: &mut Tally) {
    let mut i = 0;
    let mut known = 0;
    while !run.beyond(i) {
        let mut h = known;
        while h < run.m() && run.scan_test(h, i + h) {
            h += 1;
        }
        if h == run.m() {
            run.note(i);
        }
        if h == 0 {
            i += 1;
            known = 0;
            continue;
        }
        let untested = all_single(&run.p[..h]) && all_single(&run.t[i..i + h]);
        let s = (1..=h).find(|s| run.beyond(i + s) || run.fits(i + s, i + s, i + h, untested)).unwrap();
        i += s;
        known = h - s;
    }
}

fn bm(run: &mut Tally) {
    let m = run.m();
    let mut i = 0;
    while !run.beyond(i) {
        let mut g = 0;
        while g < m && run.scan_test(m - 1 - g, i + m - 1 - g) {
            g += 1;
        }
        if g == m {
            run.note(i);
        }
        // The g text positions that met are from `met` to `end`; a pattern moved to i + s covers those from i + s on.
        let (met, end) = (i + m - g, i + m);
        let untested = all_single(run.p) && all_single(&run.t[met..end]);
        let first = (1..=m).find(|s| run.beyond(i + s) || run.fits(i + s, met.max(i + s), end, untested)).unwrap();
        let second = if g == m {
            1
        } else {
            let j = m - 1 - g;
            (j as i64 - r(run.p, run.t[i + j])).max(1) as usize
        };
        i += first.max(second);
    }
}

fn sunday(run: &mut Tally) {
    let mut i = 0;
    while !run.beyond(i) {
        if (0..run.m()).all(|j| run.scan_test(j, i + j)) {
            run.note(i);
        }
        match run.sunday_shift(i) {
            Some(s) => i += s,
            None => break,
        }
    }
}

fn shiftand(run: &mut Tally) {
    let mut state = vec![false; run.m()];
    for q in 0..run.n() {
        run.word_step(&mut state, q);
    }
}

fn hybrid(run: &mut Tally) {
    let m = run.m();
    let mut a = 0;
    while !run.beyond(a) {
        if !run.scan_test(m - 1, a + m - 1) {
            match run.sunday_shift(a) {
                Some(s) => a += s,
                None => break,
            }
            continue;
        }
        let mut state = vec![false; m];
        while a < run.n() {
            run.word_step(&mut state, a);
            a += 1;
            if !state.contains(&true) {
                break;
            }
        }
    }
}
