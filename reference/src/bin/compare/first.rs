//! The first hit alone.

use crate::cases::{letter, pair, string};
use crate::expected::Outcome;
use crate::library::{self, FirstCase};
use crate::random::Random;
use crate::searches::{each_letter, each_limit, each_small_pair, faulty, random_pair, right_pair, wrong};
use crate::{Run, Told};
use reference::first::first_hit;
use reference::letters::MARK;
use reference::refusals::MAX_N;

/// One call, and what was expected of it.
fn one(run: &mut Run, case: &FirstCase) -> Result<Outcome, String> {
    let due = run.expect.first(case);
    let seen = library::first(case, &due);
    run.count("first", case, &due, seen)?;
    Ok(due)
}

/// So many letters behind a hit, the pattern's own among them, so that hits may stand there too, and in half of the
/// tails marks.
fn tail(random: &mut Random, k: u32, pattern: &[u32], length: usize) -> Vec<u32> {
    let doubt = random.pick(&[0, 1, 4]);
    let other = letter(random, k, doubt);
    let pool = [random.pick(pattern), random.pick(pattern), other, random.pick(&[MARK, other])];
    string(random, &pool, length)
}

/// A case; and if it has a hit, the same text cut at the end of that, and with another tail there: a shorter one, one
/// as long, or a longer one. What stands behind the first hit changes neither the answer nor a number.
fn with_tails(run: &mut Run, case: &FirstCase) -> Told {
    let due = one(run, case)?;
    if due.answer != 1 {
        return Ok(());
    }
    let end = due.numbers[1] as usize + case.pattern.len();
    let rest = case.text.len() - end;
    let other = match run.random.below(3) {
        0 => run.random.below(rest + 1),
        1 => rest,
        _ => (rest + run.random.between(1, 9)).min(MAX_N - end),
    };
    for length in [0, other] {
        let tail = tail(&mut run.random, case.k, &case.pattern, length);
        let text = [&case.text[..end], &tail].concat();
        let other = FirstCase { k: case.k, pattern: case.pattern.clone(), text, nfound: case.nfound };
        let again = one(run, &other)?;
        if again != due {
            return Err(format!("first\n{case:?}: {due:?}\nwith another tail\n{other:?}: {again:?}"));
        }
    }
    Ok(())
}

/// Every small pair with enough lent, and every other one with too little.
fn small(run: &mut Run) -> Told {
    each_small_pair(|k, pattern, text, index| {
        let case = FirstCase { k, pattern: pattern.to_vec(), text: text.to_vec(), nfound: 2 + index % 3 };
        with_tails(run, &case)?;
        match index % 4 {
            nfound @ (0 | 1) => one(run, &FirstCase { nfound, ..case }).map(drop),
            _ => Ok(()),
        }
    })
}

fn random(run: &mut Run) -> Told {
    for _ in 0..run.times(20_000) {
        let (k, pattern, text) = random_pair(run);
        let nfound = run.random.pick(&[2, 2, 2, 3, 4, 9]);
        let case = FirstCase { k, pattern, text, nfound };
        with_tails(run, &case)?;
        let nfound = run.random.below(2);
        one(run, &FirstCase { nfound, ..case })?;
    }
    Ok(())
}

/// Texts with one hit or none: at the first start, the last one, beside these, in the middle. One letter of the pattern
/// decides, its first or its last: so every other start has one test, or has all m.
fn one_hit(run: &mut Run, k: u32, m: usize, n: usize) -> Told {
    let rare = 1 << (k - 1);
    let last = n - m;
    let mut starts = vec![0, last.min(1), last / 2, last.saturating_sub(1), last];
    starts.sort();
    starts.dedup();
    for decides in [0, m - 1] {
        let mut pattern = vec![1; m];
        pattern[decides] = rare;
        for start in starts.iter().map(Some).chain([None]) {
            let mut text = vec![1; n];
            if let Some(start) = start {
                text[start + decides] = rare;
            }
            with_tails(run, &FirstCase { k, pattern: pattern.clone(), text, nfound: 2 })?;
        }
    }
    for start in starts {
        one_entry(run, k, m, n, start)?;
    }
    Ok(())
}

/// One name among marks: whole; and cut by one more mark, at its first letter, in its middle, at its last one.
fn one_entry(run: &mut Run, k: u32, m: usize, n: usize, start: usize) -> Told {
    let pattern = vec![1 << (k - 1); m];
    let mut text = vec![MARK; n];
    text[start..start + m].copy_from_slice(&pattern);
    let case = FirstCase { k, pattern, text, nfound: 2 };
    with_tails(run, &case)?;
    let mut cuts = vec![0, m / 2, m - 1];
    cuts.dedup();
    for cut in cuts {
        let mut text = case.text.clone();
        text[start + cut] = MARK;
        with_tails(run, &FirstCase { text, ..case.clone() })?;
    }
    Ok(())
}

fn limits(run: &mut Run) -> Told {
    each_limit(run, |run, (k, pattern, text)| with_tails(run, &FirstCase { k, pattern, text, nfound: 2 }))?;
    for m in [1, 2, 63, 64] {
        for (k, n) in [(2, m), (31, m + 1), (32, 2 * m), (2, 65_535), (32, 65_536)] {
            one_hit(run, k, m, n)?;
        }
    }
    Ok(())
}

fn refusals(run: &mut Run) -> Told {
    for round in 0..run.times(64 * 200) {
        let base = right_pair(run);
        let faults = run.random.faults(round, 6);
        let (k, pattern, text) = faulty(run, faults, &base);
        let nfound = if faults >> 5 & 1 == 1 { run.random.below(2) } else { run.random.pick(&[2, 2, 3, 9]) };
        one(run, &FirstCase { k, pattern, text, nfound })?;
    }
    each_letter(|(k, pattern, text)| one(run, &FirstCase { k, pattern, text, nfound: 2 }).map(drop))
}

/// Wrong letters behind the first hit, up to three: no test would come to them, and the checks see them all the same.
/// Marks stand there too, and with 32 base letters marks alone, which are taken.
fn behind(run: &mut Run) -> Told {
    for _ in 0..run.times(20_000) {
        let random = &mut run.random;
        let k = random.pick(&[1, 2, 3, 9, 31, 32]);
        let m = random.pick(&[1, 2, 5, 63, 64]);
        let n = random.between(0, 40);
        let (pattern, mut text) = pair(random, k, m, n);
        // The pattern itself is put in, so that there is a hit, and then at least one letter more.
        let at = random.between(0, n);
        text.splice(at..at, pattern.iter().copied());
        let rest = random.between(1, 9);
        text.extend(tail(random, k, &pattern, rest));
        let start = first_hit(&pattern, &text).start.ok_or("a text that holds its pattern has no hit")?;
        let end = start as usize + m;
        for _ in 0..random.between(1, 3) {
            let at = end + random.index(text.len() - end);
            text[at] = wrong(random, k, text[at]);
        }
        if random.once_in(2) {
            let at = end + random.index(text.len() - end);
            text[at] = MARK;
        }
        let nfound = random.pick(&[0, 1, 2, 2, 2, 3]);
        one(run, &FirstCase { k, pattern, text, nfound })?;
    }
    Ok(())
}

pub fn first(run: &mut Run) -> Told {
    small(run)?;
    random(run)?;
    limits(run)?;
    refusals(run)?;
    behind(run)
}
