//! The bound mode: the list of its starts, and the choice at one start.

use crate::library::{self, BorrowedCase};
use crate::random::Random;
use crate::searches::{each_letter, each_limit, long, random_pair};
use crate::starts::{any_starts, at_limits, each_small, each_start, outside_wrong, several_faults, with_any_room};
use crate::windows::window;
use crate::{Run, Told};
use reference::bound::{bound_starts, choice};
use reference::letters::{hit, hits};

/// One call for the list.
fn list(run: &mut Run, case: &BorrowedCase) -> Told {
    let due = run.expect.bound(case);
    let seen = library::bound(case, &due);
    run.count("bound", case, &due, seen)
}

/// One call at one start.
fn at(run: &mut Run, case: &BorrowedCase, start: usize) -> Told {
    let due = run.expect.bound_choice(case, start);
    let seen = library::bound_choice(case, start, &due);
    run.count("bound_choice", &(case, start), &due, seen)
}

/// Every small pattern with every small text, its list and its starts.
fn small(run: &mut Run) -> Told {
    each_small(run, |run, case, index| {
        list(run, &BorrowedCase { cap: index % (case.text.len() + 3), ..case })?;
        each_start(run, at, case, index)
    })
}

/// Starts that are bound-listed, that are hits and no more, and others.
fn some_starts(random: &mut Random, pattern: &[u32], text: &[u32]) -> Vec<usize> {
    let listed = bound_starts(pattern, text);
    let only_hits: Vec<u32> = hits(pattern, text).into_iter().filter(|start| !listed.contains(start)).collect();
    let mut starts = any_starts(random, pattern.len(), text.len());
    for from in [&listed, &only_hits] {
        if !from.is_empty() {
            starts.extend([random.pick(from), from[random.index(from.len())]].map(|start| start as usize));
        }
    }
    starts
}

/// The list, and the choice at some starts, with every kind of room.
fn ask(run: &mut Run, k: u32, pattern: &[u32], text: &[u32]) -> Told {
    let case = BorrowedCase { k, pattern, text, cap: 0 };
    let total = bound_starts(pattern, text).len();
    let cap = run.random.pick(&[0, 1, total / 2, total.saturating_sub(1), total, total + 1, total + 9]);
    list(run, &BorrowedCase { cap, ..case })?;
    let starts = some_starts(&mut run.random, pattern, text);
    with_any_room(run, at, case, &starts)
}

/// The kinds of the six searches.
fn random(run: &mut Run) -> Told {
    for _ in 0..run.times(6_000) {
        let (k, pattern, text) = random_pair(run);
        ask(run, k, &pattern, &text)?;
    }
    Ok(())
}

/// Windows of ties. A good part of them is bound-listed, and a good part is a hit and no more, or little was asked.
fn windows(run: &mut Run) -> Told {
    let (mut listed, mut only_hits) = (0, 0);
    let rounds = run.times(16_000);
    for _ in 0..rounds {
        let ((k, pattern, text), start) = window(run);
        let is_listed = choice(&pattern, &text, start).is_some();
        listed += usize::from(is_listed);
        only_hits += usize::from(!is_listed && hit(&pattern, &text, start));
        at(run, &BorrowedCase { k, pattern: &pattern, text: &text, cap: pattern.len() }, start)?;
        ask(run, k, &pattern, &text)?;
    }
    if listed.min(only_hits) < rounds / 5 {
        return Err(format!("of {rounds} windows {listed} are bound-listed, {only_hits} are hits and no more"));
    }
    Ok(())
}

fn limits(run: &mut Run) -> Told {
    each_limit(run, |run, (k, pattern, text)| {
        let n = text.len();
        let case = BorrowedCase { k, pattern: &pattern, text: &text, cap: 0 };
        let total = if long(n) { n } else { bound_starts(&pattern, &text).len() };
        let caps = [0, 1, total.saturating_sub(1), total, total + 1];
        for cap in caps.into_iter().skip(if long(n) { 4 } else { 0 }) {
            list(run, &BorrowedCase { cap, ..case })?;
        }
        at_limits(run, at, case)
    })
}

/// Several faults at once. The list has those of a search alone.
fn refusals(run: &mut Run) -> Told {
    for round in 0..run.times(128 * 100) {
        let ((k, pattern, text), start, cap) = several_faults(run, round);
        let case = BorrowedCase { k, pattern: &pattern, text: &text, cap };
        list(run, &case)?;
        at(run, &case, start)?;
    }
    each_letter(|(k, pattern, text)| {
        let case = BorrowedCase { k, pattern: &pattern, text: &text, cap: pattern.len() };
        list(run, &case)?;
        at(run, &case, 0)
    })
}

/// Wrong letters where nothing is bound: the checks see them all the same.
fn outside(run: &mut Run) -> Told {
    for _ in 0..run.times(4_000) {
        let ((k, pattern, text), start, cap) = outside_wrong(run);
        let case = BorrowedCase { k, pattern: &pattern, text: &text, cap };
        list(run, &case)?;
        at(run, &case, start)?;
    }
    Ok(())
}

pub fn bound(run: &mut Run) -> Told {
    small(run)?;
    refusals(run)?;
    outside(run)?;
    random(run)?;
    windows(run)?;
    limits(run)
}
