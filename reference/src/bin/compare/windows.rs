//! Windows in which the pattern and the text under it have much to do with each other: links between sets.

use crate::cases::{letter, mark};
use crate::random::Random;
use crate::searches::Question;
use crate::Run;
use reference::letters::{meets, members, whole, MARK};

/// Two sets, one for the pattern and one for the text under it.
type Link = (u32, u32);

/// A letter of a set.
fn one_of(random: &mut Random, set: u32) -> u32 {
    let letters: Vec<u32> = members(set).collect();
    1 << random.pick(&letters)
}

/// So many sets of which each is tied to the next one, and meets it. They share none to three letters, and a single
/// letter may stand at either end, from where it decides for all; or at both, where the two need not agree.
fn chain(random: &mut Random, k: u32, links: usize) -> Vec<Link> {
    let shared = (0..random.below(4)).fold(0, |shared, _| shared | 1 << random.below(k as usize));
    let wide = random.once_in(3);
    let mut set = |_| {
        let some = random.next() as u32;
        let others = if wide { some } else { some & random.next() as u32 & random.next() as u32 };
        let set = shared | others & whole(k);
        if set == MARK {
            1 << random.below(k as usize)
        } else {
            set
        }
    };
    let mut sets: Vec<u32> = (0..=links).map(&mut set).collect();
    for j in 0..links {
        if !meets(sets[j], sets[j + 1]) {
            sets[j + 1] |= one_of(random, sets[j]);
        }
    }
    let ends = random.below(4);
    for (bit, end, next) in [(1, 0, 1), (2, links, links - 1)] {
        if ends & bit != 0 {
            let both = sets[end] & sets[next];
            sets[end] = one_of(random, if shared & both != 0 { shared & both } else { both });
        }
    }
    (0..links).map(|j| (sets[j], sets[j + 1])).collect()
}

/// Chains one after another, so many links in all: one long chain, or many short ones with sets of their own.
fn chains(random: &mut Random, k: u32, links: usize) -> Vec<Link> {
    let longest = random.pick(&[links, links, 2, 3, 1 + links / 2]);
    let mut all = Vec::new();
    while all.len() < links {
        let length = longest.min(links - all.len());
        all.extend(chain(random, k, length));
    }
    all
}

/// Random pairs of a few sets, each of which has a letter in mind that its pairs agree on; at times one pair that only
/// meets.
fn pool(random: &mut Random, k: u32, links: usize) -> Vec<Link> {
    let doubt = random.pick(&[2, 4, 4]);
    let sets: Vec<u32> = (0..random.between(2, 12)).map(|_| letter(random, k, doubt)).collect();
    let minds: Vec<u32> = sets.iter().map(|set| one_of(random, *set)).collect();
    let mut all: Vec<Link> = Vec::new();
    while all.len() < links {
        let (a, b) = (random.below(sets.len()), random.below(sets.len()));
        if minds[a] == minds[b] {
            all.push((sets[a], sets[b]));
        }
    }
    let (a, b) = (random.pick(&sets), random.pick(&sets));
    if meets(a, b) && random.once_in(3) {
        let spoilt = random.index(links);
        all[spoilt] = (a, b);
    }
    all
}

/// The links in another order. What is tied over many links is seen late if they stand from the middle outwards, or from
/// both ends inwards, or if the even ones come first and then the odd ones backwards: a pass over them, in either
/// direction, then leads no more than one link on.
fn reordered(random: &mut Random, links: Vec<Link>) -> Vec<Link> {
    let all = links.len();
    let inwards = |x: usize| if x.is_multiple_of(2) { x / 2 } else { all - 1 - x / 2 };
    let mut order: Vec<usize> = match random.below(6) {
        0 => (0..all).collect(),
        1 => (0..all).rev().collect(),
        2 => (0..all).map(inwards).collect(),
        3 => (0..all).rev().map(inwards).collect(),
        4 => (0..all).step_by(2).chain((0..all).skip(1).step_by(2).collect::<Vec<_>>().into_iter().rev()).collect(),
        _ => (0..all).collect(),
    };
    if random.once_in(6) {
        (1..all).rev().for_each(|x| order.swap(x, random.below(x + 1)));
    }
    order.into_iter().map(|x| links[x]).collect()
}

/// The links as a pattern and the text under it: as they are, changed over, changed over in turn, or by chance.
fn sides(random: &mut Random, links: &[Link]) -> (Vec<u32>, Vec<u32>) {
    let way = random.below(4);
    let mut over = |(x, (a, b)): (usize, &Link)| {
        let changed = match way {
            0 => false,
            1 => true,
            2 => x.is_multiple_of(2),
            _ => random.once_in(2),
        };
        if changed {
            (*b, *a)
        } else {
            (*a, *b)
        }
    };
    links.iter().enumerate().map(&mut over).unzip()
}

/// A pattern, and a text that has under one start what is tied to it, among the same letters; and that start.
pub fn window(run: &mut Run) -> (Question, usize) {
    let random = &mut run.random;
    let m = match random.below(8) {
        0 | 1 => random.pick(&[63, 64, 64]),
        2 => random.between(9, 62),
        _ => random.between(2, 8),
    };
    let k = random.pick(&[2, 3, 4, 5, 9, 31, 32, 32]);
    let links = if random.once_in(3) { pool(random, k, m) } else { chains(random, k, m) };
    let links = reordered(random, links);
    let (pattern, under) = sides(random, &links);
    let longest = random.pick(&[0, 1, 3, 9]);
    let (before, behind) = (random.below(longest + 1), random.below(longest + 1));
    let mut text: Vec<u32> =
        (0..before + behind).map(|_| random.pick(if longest > 3 { &pattern } else { &under })).collect();
    if random.once_in(3) {
        mark(random, &pattern, &mut text);
    }
    text.splice(before..before, under);
    if random.once_in(20) {
        let at = before + random.index(m);
        text[at] = MARK;
    }
    ((k, pattern, text), before)
}
