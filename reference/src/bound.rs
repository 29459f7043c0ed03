//! The bound mode, by its section of the rules: one sign, one letter. For the length of one hit every set stands for one
//! of its members, the same one wherever the set stands in the pattern or under it, and what is paired must agree.
//!
//! The rule is written twice. `tried` tries every choice, and is the definition itself; what it takes grows with the
//! product of the sizes of all sets. `tied` asks which sets are tied to each other, and is what the calls go by. The
//! laws in tests/ hold the one against the other.

use crate::letters::{meets, members};
use crate::refusals::{check_at, check_search, Refusal};

/// One base letter for each set that stands there, as pairs of set and letter.
pub type Choice = Vec<(u32, u32)>;

/// What a choice gives to a set.
pub fn given(choice: &Choice, set: u32) -> Option<u32> {
    choice.iter().find(|(s, _)| *s == set).map(|(_, letter)| *letter)
}

/// Every choice for these sets: each of them with each of its members. A mark has no member, so with a mark there is
/// none.
fn choices(sets: &[u32]) -> Vec<Choice> {
    let mut all = vec![vec![]];
    for set in sets {
        let with = |choice: &Choice| -> Vec<Choice> {
            members(*set).map(|letter| [&choice[..], &[(*set, letter)]].concat()).collect()
        };
        all = all.iter().flat_map(with).collect();
    }
    all
}

/// The choices by which all pairs agree, of a pattern and as many text letters under it.
pub fn chosen(pattern: &[u32], under: &[u32]) -> Vec<Choice> {
    let mut sets = [pattern, under].concat();
    sets.sort();
    sets.dedup();
    let agree = |choice: &Choice| pattern.iter().zip(under).all(|(p, t)| given(choice, *p) == given(choice, *t));
    choices(&sets).into_iter().filter(agree).collect()
}

/// The lowest letter that such a choice gives to each pattern position, if there is such a choice.
pub fn tried(pattern: &[u32], under: &[u32]) -> Option<Vec<u32>> {
    let chosen = chosen(pattern, under);
    pattern.iter().map(|set| chosen.iter().filter_map(|choice| given(choice, *set)).min()).collect()
}

/// The sets that stand there, in classes: two that are paired are in one class, and so are two that are tied over others.
fn classes(pattern: &[u32], under: &[u32]) -> Vec<Vec<u32>> {
    let mut classes: Vec<Vec<u32>> = Vec::new();
    for (p, t) in pattern.iter().zip(under) {
        if classes.iter().any(|class| class.contains(p) && class.contains(t)) {
            continue;
        }
        let holds = |class: &Vec<u32>| class.contains(p) || class.contains(t);
        let (tied, apart): (Vec<_>, Vec<_>) = classes.into_iter().partition(holds);
        classes = apart;
        classes.push([&tied.concat()[..], &[*p, *t]].concat());
    }
    classes
}

/// The same by ties. All sets of a class must stand for one letter, which has to be a member of all of them, and any such
/// letter will do, whatever the other classes stand for. Where a pair does not meet, as over a mark, its class has none.
pub fn tied(pattern: &[u32], under: &[u32]) -> Option<Vec<u32>> {
    if pattern.iter().zip(under).any(|(p, t)| !meets(*p, *t)) {
        return None;
    }
    let classes = classes(pattern, under);
    let lowest = |class: &Vec<u32>| members(class.iter().fold(u32::MAX, |common, set| common & set)).next();
    let letters: Vec<Option<u32>> = classes.iter().map(lowest).collect();
    pattern.iter().map(|set| letters[classes.iter().position(|class| class.contains(set))?]).collect()
}

/// The choice at start i, for each pattern position, if the start is bound-listed.
pub fn choice(pattern: &[u32], text: &[u32], i: usize) -> Option<Vec<u32>> {
    let end = i.checked_add(pattern.len())?;
    tied(pattern, text.get(i..end)?)
}

/// All starts that are bound-listed, ascending.
pub fn bound_starts(pattern: &[u32], text: &[u32]) -> Vec<u32> {
    (0..=text.len()).filter(|i| choice(pattern, text, *i).is_some()).map(|i| i as u32).collect()
}

/// The public call for the list: the checks of a search, then all starts.
pub fn bound(k: u32, pattern: &[u32], text: &[u32]) -> Result<Vec<u32>, Refusal> {
    check_search(k, pattern, text)?;
    Ok(bound_starts(pattern, text))
}

/// The public call for one start, into room for `lent` numbers: the checks come first, whether the start is bound-listed
/// or not.
pub fn bound_choice(
    k: u32,
    pattern: &[u32],
    text: &[u32],
    start: usize,
    lent: usize,
) -> Result<Option<Vec<u32>>, Refusal> {
    check_at(k, pattern, text, start, lent)?;
    Ok(choice(pattern, text, start))
}
