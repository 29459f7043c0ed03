//! Deliberate slips in what is shared at one start, as a run of its own. Without one it takes the bits that both letters
//! have, which is right.

use crate::broken::searched;
use crate::library::before;
use reference::letters::MARK;
use reference::{bound, reasons};

/// What is written for a position: p is its letter, t the one under it.
fn set(name: &str, p: u32, t: u32) -> u32 {
    let both = p & t;
    match name {
        "reasons-union" => p | t,
        "reasons-lowest" => both & both.wrapping_neg(),
        "reasons-number" if both != 0 => both.trailing_zeros(),
        "reasons-yes" => u32::from(both != 0),
        "reasons-own-pattern" if both != 0 => p,
        "reasons-own-text" if both != 0 => t,
        "reasons-mark-any" if t == MARK => p,
        "reasons-31" => both << 1 >> 1,
        _ => both,
    }
}

/// All sets as they are written. What the text does not have shares nothing.
fn slipped(name: &str, p: &[u32], t: &[u32], start: usize) -> Vec<u32> {
    let from = if name == "reasons-window" { 0 } else { start };
    let under = |j: usize| t.get(from.wrapping_add(j)).copied().unwrap_or(MARK);
    let mut sets: Vec<u32> = (0..p.len()).map(|j| set(name, p[j], under(j))).collect();
    let empty = sets.iter().position(|set| *set == 0);
    match (name, empty) {
        ("reasons-first-empty", Some(at)) => sets.truncate(at + 1),
        ("reasons-hit-only", Some(_)) => sets.clear(),
        ("reasons-packed", _) => sets.retain(|set| *set != 0),
        ("reasons-keeps", _) => (0..p.len()).filter(|j| p[*j] & under(*j) == 0).for_each(|j| sets[j] = before(j)),
        ("reasons-backwards", _) => sets.reverse(),
        ("reasons-choice", _) => {
            if let Some(choice) = bound::choice(p, t, start) {
                sets = choice.iter().map(|letter| 1 << letter).collect();
            }
        }
        _ => {}
    }
    sets
}

/// The sets at one start with the slip that was asked for. A slip that is not in the run leaves it right, as long as the
/// start is.
pub fn sets(name: Option<&str>, k: u32, p: &[u32], t: &[u32], start: usize) -> Vec<u32> {
    let (p, t) = &searched(name, k, p, t);
    let reached = start.checked_add(p.len()).is_some_and(|end| end <= t.len());
    match name {
        Some(name) if name.starts_with("reasons-") => slipped(name, p, t, start),
        _ if reached => reasons::reasons_at(p, t, start),
        _ => slipped("", p, t, start),
    }
}

/// Without a slip these runs are the reference's, so that what is noticed is the slip and nothing else.
#[test]
fn without_a_slip_the_shared_sets_are_right() {
    for (letters, m, n) in [(&[1, 2, 3][..], 3, 6), (&[1, 2, 3, 4, 5, 6, 7], 3, 3)] {
        let texts = crate::cases::strings_up_to(&[&[MARK], letters].concat(), n);
        for p in &crate::cases::strings_up_to(letters, m)[1..] {
            for t in texts.iter().filter(|t| t.len() >= p.len()) {
                for start in 0..=t.len() - p.len() {
                    assert_eq!(slipped("", p, t, start), reasons::reasons_at(p, t, start));
                }
            }
        }
    }
}
