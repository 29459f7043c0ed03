//! Questions about one start, which the bound mode's choice and the call for what is shared are both asked.

use crate::cases::strings_up_to;
use crate::library::BorrowedCase;
use crate::random::Random;
use crate::searches::{faulty, right_pair, wrong, Question};
use crate::windows::window;
use crate::{Run, Told};
use reference::letters::{whole, MARK};

/// A call at one start.
pub type At = fn(&mut Run, &BorrowedCase, usize) -> Told;

/// A start that no text reaches, however it is added to m: with it the sum just wraps, or the start has bits above those
/// of the text's length, with a right start below them.
fn far(random: &mut Random, m: usize) -> usize {
    let low = random.below(m + 2);
    match random.below(6) {
        0 => usize::MAX,
        1 => usize::MAX - m,
        2 => random.below(m).wrapping_sub(m),
        3 => usize::MAX / 2 + low,
        4 => (1 << random.between(32, 63)) | low,
        _ => (1 << random.between(17, 31)) | low,
    }
}

/// Every small pattern with every small text. The last that is handed on is the text's number among all texts.
pub fn each_small(run: &mut Run, with: fn(&mut Run, BorrowedCase, usize) -> Told) -> Told {
    for (k, shortest, m, n) in [(1, 1, 5, 6), (2, 1, 4, 5), (3, 1, 2, 4), (3, 3, 3, 3), (4, 1, 2, 2)] {
        let letters: Vec<u32> = (1..=whole(k)).collect();
        let texts = strings_up_to(&[&[MARK], &letters[..]].concat(), n);
        for pattern in strings_up_to(&letters, m).iter().filter(|pattern| pattern.len() >= shortest) {
            for (index, text) in texts.iter().enumerate() {
                with(run, BorrowedCase { k, pattern, text, cap: 0 }, index)?;
            }
        }
    }
    Ok(())
}

/// Every start up to beyond the text's end: with enough room, and one of them with too little.
pub fn each_start(run: &mut Run, at: At, case: BorrowedCase, index: usize) -> Told {
    let (m, n) = (case.pattern.len(), case.text.len());
    for start in 0..n + 2 {
        at(run, &BorrowedCase { cap: m + (index + start) % 3, ..case }, start)?;
    }
    at(run, &BorrowedCase { cap: index % m, ..case }, index / 2 % (n + 2))
}

/// Any start, the last one, those behind it, and a far one.
pub fn any_starts(random: &mut Random, m: usize, n: usize) -> Vec<usize> {
    let last = n.saturating_sub(m);
    vec![random.between(0, n), last, last + 1, random.between(last, n + 1), far(random, m)]
}

/// These starts, each with another room: mostly enough.
pub fn with_any_room(run: &mut Run, at: At, case: BorrowedCase, starts: &[usize]) -> Told {
    let m = case.pattern.len();
    for start in starts {
        let short = run.random.pick(&[0, m / 2, m - 1]);
        let cap = run.random.pick(&[m, m, m, m + 1, m + 2, short]);
        at(run, &BorrowedCase { cap, ..case }, *start)?;
    }
    Ok(())
}

/// The first starts, the middle one, the last ones, and those behind them; at the last one too little room.
pub fn at_limits(run: &mut Run, at: At, case: BorrowedCase) -> Told {
    let (m, n) = (case.pattern.len(), case.text.len());
    let last = n.saturating_sub(m);
    for start in [0, 1, last / 2, last.saturating_sub(1), last, last + 1, n, n + 1, usize::MAX] {
        at(run, &BorrowedCase { cap: m + start % 2, ..case }, start)?;
    }
    (0..m).step_by(m.div_ceil(4)).try_for_each(|cap| at(run, &BorrowedCase { cap, ..case }, last))
}

/// Several faults at once, in another combination each round: those of a search, then the start, then the room.
pub fn several_faults(run: &mut Run, round: usize) -> (Question, usize, usize) {
    let base = right_pair(run);
    let faults = run.random.faults(round, 7);
    let question = faulty(run, faults, &base);
    let (m, n) = (question.1.len(), question.2.len());
    let random = &mut run.random;
    let last = n.saturating_sub(m);
    let beyond = far(random, m.max(1));
    let start = match faults >> 5 & 1 {
        0 => random.index(last + 1),
        _ => random.pick(&[last + 1, n, n + 1, 65_536, 65_537, beyond]),
    };
    let cap = if faults >> 6 & 1 == 1 { random.below(m.max(1)) } else { m + random.below(3) };
    (question, start, cap)
}

/// Wrong letters before the pattern's place and behind it, one to three of them where the window has such places; the
/// start of the window, and room for it or too little.
pub fn outside_wrong(run: &mut Run) -> (Question, usize, usize) {
    let ((k, pattern, mut text), start) = window(run);
    let (m, n) = (pattern.len(), text.len());
    let random = &mut run.random;
    for _ in 0..random.between(1, 3) {
        let at = random.index(n);
        if at < start || at >= start + m {
            text[at] = wrong(random, k, text[at]);
        }
    }
    let cap = random.pick(&[m, m + 1, m - 1]);
    ((k, pattern, text), start, cap)
}
