//! Deliberate slips in the bound mode, as a run of its own: what each set may stand for is narrowed pair by pair, again
//! and again until nothing changes. That is right; each slip does less than that, or something else.

use crate::broken::searched;
use reference::bound;
use reference::letters::{meets, single, MARK};
use std::collections::BTreeMap;

/// What stands for one letter, and the set that it is of. Sets that are tied are one sign, with the number 0.
type Sign = (usize, u32);

/// The signs of each pair. A slip that does not tie some sets gives them a number of their side or of their position.
fn signs(name: &str, p: &[u32], under: &[u32]) -> Vec<(Sign, Sign)> {
    let mut table = Vec::new();
    let mut sign = |own: usize, set: u32| {
        if !table.contains(&set) && table.len() < 64 {
            table.push(set);
        }
        let untied = name == "bound-64-sets" && !table.contains(&set);
        (if untied { own } else { 0 }, set)
    };
    let mut pair = |j: usize| {
        let (a, b) = (sign(2 * j + 1, p[j]), sign(2 * j + 2, under[j]));
        match name {
            "bound-untied-sides" => (a, (1, b.1)),
            "bound-untied-text" => (a, (j + 1, b.1)),
            "bound-untied-pattern" => ((j + 1, a.1), b),
            _ => (a, b),
        }
    };
    (0..p.len()).map(&mut pair).collect()
}

/// The signs that stand there, each with what is left to it.
struct Left(Vec<(Sign, u32)>);

impl Left {
    fn of(&mut self, sign: Sign) -> &mut u32 {
        let at = self.0.iter().position(|(s, _)| *s == sign).unwrap_or_else(|| {
            self.0.push((sign, sign.1));
            self.0.len() - 1
        });
        &mut self.0[at].1
    }

    /// One pass over the pairs: to both is left what both may stand for. Says whether that changed anything; nothing if
    /// to some pair nothing is left.
    fn pass<'a>(&mut self, pairs: impl Iterator<Item = &'a (Sign, Sign)>) -> Option<bool> {
        let mut changed = false;
        for (a, b) in pairs {
            let (left_a, left_b) = (*self.of(*a), *self.of(*b));
            let common = left_a & left_b;
            if common == 0 {
                return None;
            }
            changed |= left_a != common || left_b != common;
            (*self.of(*a), *self.of(*b)) = (common, common);
        }
        Some(changed)
    }
}

/// Is this pair passed over, by a slip?
fn passed_over(name: &str, p: u32, t: u32) -> bool {
    match name {
        "bound-singles-free" => meets(p, t) && (single(p) || single(t)),
        "bound-mark-any" => t == MARK,
        _ => false,
    }
}

/// What is left to each pattern position, if something is left everywhere.
fn narrowed(name: &str, p: &[u32], under: &[u32]) -> Option<Vec<u32>> {
    if p.iter().zip(under).any(|(p, t)| !meets(*p, *t) && !passed_over(name, *p, *t)) {
        return None;
    }
    let all = signs(name, p, under);
    let mut pairs = all.clone();
    pairs.retain(|(a, b)| !passed_over(name, a.1, b.1));
    let passes = match name {
        "bound-one-pass" => 1,
        "bound-two-passes" | "bound-there-and-back" => 2,
        "bound-32-passes" => 32,
        _ => usize::MAX,
    };
    let mut left = Left(Vec::new());
    for round in 0..passes {
        let back = name == "bound-there-and-back" && round == 1;
        let changed = if back { left.pass(pairs.iter().rev())? } else { left.pass(pairs.iter())? };
        if !changed {
            break;
        }
    }
    Some(all.iter().map(|(a, _)| *left.of(*a)).collect())
}

/// Each set gets the lowest letter that its first pair leaves it, and keeps that.
fn greedy(p: &[u32], under: &[u32]) -> Option<Vec<u32>> {
    let mut kept: BTreeMap<u32, u32> = BTreeMap::new();
    for (p, t) in p.iter().zip(under) {
        let common = kept.get(p).unwrap_or(p) & kept.get(t).unwrap_or(t);
        let lowest = common & common.wrapping_neg();
        if lowest == 0 {
            return None;
        }
        kept.insert(*p, lowest);
        kept.insert(*t, lowest);
    }
    Some(p.iter().map(|set| kept[set]).collect())
}

/// What is left to each pattern position at start i, with the slip, if the start is taken.
fn left_at(name: &str, p: &[u32], t: &[u32], i: usize) -> Option<Vec<u32>> {
    let under = t.get(i..i.checked_add(p.len())?)?;
    match name {
        "bound-hits" => p.iter().zip(under).map(|(p, t)| Some(p & t).filter(|common| *common != 0)).collect(),
        "bound-greedy" => greedy(p, under),
        _ => narrowed(name, p, under),
    }
}

/// The number that is written for a position: p is its letter, t the one under it, and `left` what is left to it.
fn number(name: &str, p: u32, t: u32, left: u32) -> u32 {
    let lowest = left.trailing_zeros();
    match name {
        "bound-highest" => 31 - left.leading_zeros(),
        "bound-pair-lowest" => (p & t).trailing_zeros(),
        "bound-own-lowest" => p.trailing_zeros(),
        "bound-letter" => 1 << lowest,
        "bound-from-1" => lowest + 1,
        "bound-singles-0" if single(p) => 0,
        _ => lowest,
    }
}

/// All starts, where a set keeps for the rest of the text the letter that its first hit has given it.
fn carried(p: &[u32], t: &[u32], starts: usize) -> Vec<u32> {
    let mut kept: BTreeMap<u32, u32> = BTreeMap::new();
    let mut listed = Vec::new();
    for i in 0..starts {
        let now = |letters: &[u32]| -> Vec<u32> { letters.iter().map(|c| *kept.get(c).unwrap_or(c)).collect() };
        let Some(left) = narrowed("", &now(p), &now(&t[i..i + p.len()])) else { continue };
        listed.push(i as u32);
        for (j, left) in left.iter().enumerate() {
            let letter = left & left.wrapping_neg();
            kept.insert(p[j], letter);
            kept.insert(t[i + j], letter);
        }
    }
    listed
}

fn slipped_starts(name: &str, p: &[u32], t: &[u32]) -> Vec<u32> {
    let all = (t.len() + 1).saturating_sub(p.len());
    let starts = if name == "bound-short" { all.saturating_sub(1) } else { all };
    if name == "bound-carries" {
        return carried(p, t, starts);
    }
    let mut listed: Vec<u32> = Vec::new();
    for i in 0..starts {
        let apart = listed.last().is_none_or(|last| i >= *last as usize + p.len());
        if (apart || name != "bound-apart") && left_at(name, p, t, i).is_some() {
            listed.push(i as u32);
        }
    }
    listed
}

fn slipped_choice(name: &str, p: &[u32], t: &[u32], start: usize) -> Option<Vec<u32>> {
    let left = left_at(name, p, t, start)?;
    Some((0..p.len()).map(|j| number(name, p[j], t[start + j], left[j])).collect())
}

/// The list with the slip that was asked for. A slip that is not in the run leaves it right.
pub fn starts(name: Option<&str>, k: u32, p: &[u32], t: &[u32]) -> Vec<u32> {
    let (p, t) = &searched(name, k, p, t);
    match name {
        Some(name) if name.starts_with("bound-") => slipped_starts(name, p, t),
        _ => bound::bound_starts(p, t),
    }
}

/// The choice at one start, likewise.
pub fn choice(name: Option<&str>, k: u32, p: &[u32], t: &[u32], start: usize) -> Option<Vec<u32>> {
    let (p, t) = &searched(name, k, p, t);
    match name {
        Some(name) if name.starts_with("bound-") => slipped_choice(name, p, t, start),
        _ => bound::choice(p, t, start),
    }
}

/// Without a slip these runs are the reference's, so that what is noticed is the slip and nothing else.
#[test]
fn without_a_slip_the_bound_runs_are_right() {
    for (letters, m, n) in [(&[1, 2, 3][..], 3, 6), (&[1, 2, 3, 4, 5, 6, 7], 3, 3)] {
        let texts = crate::cases::strings_up_to(&[&[MARK], letters].concat(), n);
        for p in &crate::cases::strings_up_to(letters, m)[1..] {
            for t in &texts {
                assert_eq!(slipped_starts("", p, t), bound::bound_starts(p, t));
                for start in 0..t.len() + 2 {
                    assert_eq!(slipped_choice("", p, t, start), bound::choice(p, t, start));
                }
            }
        }
    }
}
