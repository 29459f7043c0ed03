//! What a pattern and a text share at one start, position by position.

use crate::library::{self, BorrowedCase};
use crate::random::Random;
use crate::searches::{each_letter, each_limit, random_pair};
use crate::starts::{any_starts, at_limits, each_small, each_start, outside_wrong, several_faults, with_any_room};
use crate::windows::window;
use crate::{Run, Told};
use reference::letters::{hit, hits};

fn at(run: &mut Run, case: &BorrowedCase, start: usize) -> Told {
    let due = run.expect.reasons(case, start);
    let seen = library::reasons(case, start, &due);
    run.count("reasons", &(case, start), &due, seen)
}

fn small(run: &mut Run) -> Told {
    each_small(run, |run, case, index| each_start(run, at, case, index))
}

/// Hits, the starts right beside them, and others.
fn some_starts(random: &mut Random, pattern: &[u32], text: &[u32]) -> Vec<usize> {
    let found = hits(pattern, text);
    let mut starts = any_starts(random, pattern.len(), text.len());
    if !found.is_empty() {
        for start in [random.pick(&found), found[random.index(found.len())]].map(|start| start as usize) {
            starts.extend([start, start + 1, start.saturating_sub(1)]);
        }
    }
    starts
}

fn ask(run: &mut Run, k: u32, pattern: &[u32], text: &[u32]) -> Told {
    let starts = some_starts(&mut run.random, pattern, text);
    with_any_room(run, at, BorrowedCase { k, pattern, text, cap: 0 }, &starts)
}

/// The kinds of the six searches. At a good part of the starts there is a hit, and at a good part there is none, though
/// the pattern fits in, or little was asked.
fn random(run: &mut Run) -> Told {
    let (mut met, mut missed) = (0, 0);
    let rounds = run.times(20_000);
    for _ in 0..rounds {
        let (k, pattern, text) = random_pair(run);
        let any = run.random.between(0, text.len());
        let is_hit = hit(&pattern, &text, any);
        met += usize::from(is_hit);
        missed += usize::from(!is_hit && any + pattern.len() <= text.len());
        at(run, &BorrowedCase { k, pattern: &pattern, text: &text, cap: pattern.len() }, any)?;
        ask(run, k, &pattern, &text)?;
    }
    if met.min(missed) < rounds / 10 {
        return Err(format!("of {rounds} starts {met} are hits, {missed} are others"));
    }
    Ok(())
}

/// Windows of which nearly every pair meets, and those that lie beside them.
fn windows(run: &mut Run) -> Told {
    for _ in 0..run.times(8_000) {
        let ((k, pattern, text), start) = window(run);
        let case = BorrowedCase { k, pattern: &pattern, text: &text, cap: pattern.len() };
        at(run, &case, start)?;
        ask(run, k, &pattern, &text)?;
    }
    Ok(())
}

fn limits(run: &mut Run) -> Told {
    each_limit(run, |run, (k, pattern, text)| {
        let (m, n) = (pattern.len(), text.len());
        let case = BorrowedCase { k, pattern: &pattern, text: &text, cap: 0 };
        at_limits(run, at, case)?;
        // Room for less by one, and for as much as the whole text.
        at(run, &BorrowedCase { cap: m - 1, ..case }, n.saturating_sub(m))?;
        at(run, &BorrowedCase { cap: m + n, ..case }, n.saturating_sub(m) / 2)
    })
}

/// Several faults at once; and every k with letters on both sides of its limit: among others, and over themselves.
fn refusals(run: &mut Run) -> Told {
    for round in 0..run.times(128 * 100) {
        let ((k, pattern, text), start, cap) = several_faults(run, round);
        at(run, &BorrowedCase { k, pattern: &pattern, text: &text, cap }, start)?;
    }
    each_letter(|(k, pattern, text)| {
        let case = BorrowedCase { k, pattern: &pattern, text: &text, cap: pattern.len() };
        at(run, &case, 0)?;
        at(run, &case, 1)?;
        at(run, &BorrowedCase { text: &pattern, ..case }, 0)
    })
}

/// Wrong letters that share nothing with the pattern, since it does not lie over them: the checks see them all the same.
fn outside(run: &mut Run) -> Told {
    for _ in 0..run.times(4_000) {
        let ((k, pattern, text), start, cap) = outside_wrong(run);
        at(run, &BorrowedCase { k, pattern: &pattern, text: &text, cap }, start)?;
    }
    Ok(())
}

pub fn reasons(run: &mut Run) -> Told {
    small(run)?;
    refusals(run)?;
    outside(run)?;
    limits(run)?;
    random(run)?;
    windows(run)
}
