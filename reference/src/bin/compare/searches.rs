//! The six searches, and the strings on which the first hit, the bound mode and what is shared are asked for too.

use crate::cases::{pair, strings_up_to};
use crate::fronts;
use crate::library::{self, SearchCase};
use crate::random::Random;
use crate::{Run, Told};
use reference::engines::{Engine, ENGINES};
use reference::letters::{hits, whole, MARK};

fn one(run: &mut Run, engine: Engine, case: &SearchCase) -> Told {
    let due = run.expect.search(engine, case);
    let seen = library::search(engine, case, &due);
    run.count(engine.name(), case, &due, seen)
}

fn each(run: &mut Run, case: &SearchCase) -> Told {
    ENGINES.iter().try_for_each(|engine| one(run, *engine, case))
}

/// k, a pattern and a text.
pub type Question = (u32, Vec<u32>, Vec<u32>);

/// Every text over the letters of k base letters up to n long, and every one with marks among them up to `marked` long.
fn small_texts(k: u32, n: usize, marked: usize) -> Vec<Vec<u32>> {
    let letters: Vec<u32> = (1..=whole(k)).collect();
    let mut texts = strings_up_to(&[&[MARK], &letters[..]].concat(), marked);
    texts.retain(|text| text.contains(&MARK));
    [strings_up_to(&letters, n), texts].concat()
}

/// Every pattern with every text, up to the given lengths: of a pattern, of a text, of a text with marks. The last that
/// is handed on is the text's number among all texts.
pub fn each_small_pair(mut with: impl FnMut(u32, &[u32], &[u32], usize) -> Told) -> Told {
    for (k, m, n, marked) in [(1, 6, 8, 8), (2, 4, 7, 5), (3, 2, 4, 3), (3, 3, 3, 3)] {
        let letters: Vec<u32> = (1..=whole(k)).collect();
        let texts = small_texts(k, n, marked);
        for pattern in strings_up_to(&letters, m).iter().skip(1) {
            for (index, text) in texts.iter().enumerate() {
                with(k, pattern, text, index)?;
            }
        }
    }
    Ok(())
}

pub fn exhaustive(run: &mut Run) -> Told {
    each_small_pair(|k, pattern, text, index| {
        let cap = index % (text.len() + 3);
        each(run, &SearchCase { k, pattern: pattern.to_vec(), text: text.to_vec(), cap, nwork: 3 })
    })
}

fn lengths(run: &mut Run) -> (usize, usize) {
    let random = &mut run.random;
    let m = match random.below(8) {
        0 => 1,
        1 => random.pick(&[63, 64]),
        2 => random.between(9, 62),
        _ => random.between(2, 8),
    };
    let n = match random.below(16) {
        0 => random.pick(&[0, 1, m - 1]),
        1 => m,
        2 => m + 1,
        3 => random.between(0, m),
        4 => random.between(m, 2 * m),
        5 => random.between(300, 1500),
        6 | 7 => random.between(60, 300),
        _ => random.between(m, m + 40),
    };
    (m, n)
}

/// A pair of any k and of any kind.
pub fn random_pair(run: &mut Run) -> Question {
    let k = run.random.pick(&[1, 2, 2, 3, 3, 4, 5, 9, 10, 16, 26, 31, 32]);
    let (m, n) = lengths(run);
    let (pattern, text) = pair(&mut run.random, k, m, n);
    (k, pattern, text)
}

/// A question to all six, each with a list and counts of another length.
fn with_any_room(run: &mut Run, (k, pattern, text): Question) -> Told {
    let total = hits(&pattern, &text).len();
    for engine in ENGINES {
        let caps = [0, 1, total / 2, total.saturating_sub(1), total, total + 1, total + 9];
        let cap = run.random.pick(&caps);
        let nwork = run.random.pick(&[3, 3, 3, 4, 7]);
        one(run, engine, &SearchCase { k, pattern: pattern.clone(), text: text.clone(), cap, nwork })?;
    }
    Ok(())
}

pub fn random(run: &mut Run) -> Told {
    for _ in 0..run.times(40_000) {
        let question = random_pair(run);
        with_any_room(run, question)?;
    }
    for _ in 0..run.times(3_000) {
        let question = fronts::pair(&mut run.random);
        with_any_room(run, question)?;
    }
    Ok(())
}

/// Strings that bring the engines to the ends of their bounds.
fn strings(run: &mut Run, kind: usize, k: u32, m: usize, n: usize) -> (Vec<u32>, Vec<u32>) {
    let last = 1 << (k - 1);
    let all_but = |length: usize, at: usize, other: u32| -> Vec<u32> {
        (0..length).map(|j| if j == at { other } else { 1 }).collect()
    };
    match kind {
        0 => (vec![1; m], vec![1; n]),
        1 => (vec![whole(k); m], vec![whole(k); n]),
        2 => (all_but(m, m - 1, last), vec![1; n]),
        3 => (all_but(m, 0, last), vec![1; n]),
        4 => (all_but(m, m / 2, last), vec![1 | last; n]),
        // A single doubt in the text, once in a pattern's length.
        5 => (vec![1; m], (0..n).map(|q| if q % m == 0 { 1 | last } else { 1 }).collect()),
        6 => (vec![1; m], vec![MARK; n]),
        // Entries that just hold the pattern: every hit has a mark behind it, and every other start one under it.
        7 => (vec![whole(k); m], (0..n).map(|q| if q % (m + 1) == m { MARK } else { 1 | last }).collect()),
        // Entries that are too short by one.
        8 => (vec![1; m], (0..n).map(|q| if q % m == m - 1 { MARK } else { 1 }).collect()),
        _ => pair(&mut run.random, k, m, n),
    }
}

/// A text of the greatest lengths, on which fewer questions are asked.
pub fn long(n: usize) -> bool {
    n > 1000
}

/// Patterns and texts of the least and the greatest lengths.
pub fn each_limit(run: &mut Run, with: fn(&mut Run, Question) -> Told) -> Told {
    for m in [1, 2, 63, 64] {
        for n in [0, 1, m - 1, m, m + 1, 2 * m, 65_535, 65_536] {
            for kind in 0..12 {
                let ks = if long(n) { &[1, 2, 32][kind % 3..][..1] } else { &[1, 2, 31, 32][..] };
                for k in ks {
                    let (pattern, text) = strings(run, kind, *k, m, n);
                    with(run, (*k, pattern, text))?;
                }
            }
        }
    }
    Ok(())
}

pub fn limits(run: &mut Run) -> Told {
    each_limit(run, |run, (k, pattern, text)| {
        let total = hits(&pattern, &text).len();
        let caps = [0, 1, total.saturating_sub(1), total, total + 1];
        for cap in caps.into_iter().skip(if long(text.len()) { 4 } else { 0 }) {
            each(run, &SearchCase { k, pattern: pattern.clone(), text: text.clone(), cap, nwork: 3 })?;
        }
        Ok(())
    })
}

/// A pair in which things can be made wrong.
pub fn right_pair(run: &mut Run) -> Question {
    let k = run.random.pick(&[1, 2, 3, 9, 31, 32]);
    let m = run.random.pick(&[1, 2, 5, 63, 64]);
    let n = run.random.pick(&[0, 1, 2, 64, 200]);
    let (pattern, text) = pair(&mut run.random, k, m, n);
    (k, pattern, text)
}

/// A letter that is wrong in every string for k: with a member from k on, alone or beside right ones. With 32 base
/// letters there is none, and a mark stands for it: that is wrong in a pattern, and taken in a text.
pub fn wrong(random: &mut Random, k: u32, letter: u32) -> u32 {
    if k == 32 {
        return MARK;
    }
    let beside = letter * random.below(2) as u32;
    1 << random.between(k as usize, 31) | beside
}

/// Puts up to three letters in that are wrong for k, and marks.
fn spoil(random: &mut Random, k: u32, letters: &mut Vec<u32>) {
    if letters.is_empty() {
        letters.push(MARK);
    }
    for _ in 0..random.between(1, 3) {
        let at = random.index(letters.len());
        letters[at] = if random.once_in(2) { MARK } else { wrong(random, k, letters[at]) };
    }
}

/// The five things that can be wrong with a question, 1 to 5, each as a bit of `faults`. Where only marks come into the
/// text, that is right.
pub fn faulty(run: &mut Run, faults: usize, base: &Question) -> Question {
    let (right_k, right_pattern, _) = base;
    let (mut k, mut pattern, mut text) = base.clone();
    let random = &mut run.random;
    let fault = |number: usize| faults >> number & 1 == 1;
    if fault(3) {
        spoil(random, *right_k, &mut pattern);
    }
    if fault(4) {
        spoil(random, *right_k, &mut text);
    }
    if fault(0) {
        k = random.pick(&[0, 33, 34, 64, 255, 256, u32::MAX]);
    }
    if fault(1) {
        let m = random.pick(&[0, 65, 66, 128, 300]);
        pattern = (0..m).map(|j| right_pattern[j % right_pattern.len()]).collect();
        if fault(3) && m > 0 {
            pattern[m - 1] = MARK;
        }
    }
    if fault(2) {
        let letter = text.first().copied().unwrap_or(1);
        text.resize(random.pick(&[65_537, 65_538, 70_000]), letter);
    }
    (k, pattern, text)
}

/// Every k with letters on both sides of its limit, in every kind of place.
pub fn each_letter(mut with: impl FnMut(Question) -> Told) -> Told {
    for k in 0..=34 {
        let letters = (0..32).map(|b| 1u32 << b).chain([MARK, 3, 6, whole(k.min(32)), !0, !0 << 1, !0 >> 1]);
        for letter in letters {
            for m in [1, 2, 64] {
                let mut long = vec![1; m];
                long[m / 2] = letter;
                with((k, long.clone(), vec![1; m + 1]))?;
                with((k, vec![1; m], long))?;
            }
        }
    }
    Ok(())
}

pub fn refusals(run: &mut Run) -> Told {
    for round in 0..run.times(64 * 60) {
        let base = right_pair(run);
        let cap = run.random.pick(&[0, 1, 5, 300]);
        let faults = run.random.faults(round, 6);
        let (k, pattern, text) = faulty(run, faults, &base);
        let nwork = if faults >> 5 & 1 == 1 { run.random.below(3) } else { 3 };
        each(run, &SearchCase { k, pattern, text, cap, nwork })?;
    }
    each_letter(|(k, pattern, text)| each(run, &SearchCase { k, pattern, text, cap: 2, nwork: 3 }))
}
