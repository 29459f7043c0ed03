//! Strings on which much hangs on R: right behind the windows stand letters that the pattern has in its front alone or
//! nowhere, and doubts of letters that it has far apart.

use crate::random::Random;
use crate::searches::Question;
use reference::letters::MARK;

/// Where a pattern has a base letter: at index 0 alone, at the next few indices alone, in the rest, nowhere.
const HEAD: usize = 0;
const FRONT: usize = 1;
const BACK: usize = 2;
const NOWHERE: usize = 3;

/// The base letters of each of these places. Chance puts them there, so that of two members of a doubt either one may
/// stand left of the other: to look at the lowest alone goes wrong, and to look at the highest alone too.
struct Places([Vec<u32>; 4]);

impl Places {
    /// Of four base letters at least: every place has one, and the head has no more than that.
    fn new(random: &mut Random, k: u32) -> Places {
        let mut places = [vec![], vec![], vec![], vec![]];
        let mut left: Vec<u32> = (0..k).map(|b| 1 << b).collect();
        while !left.is_empty() {
            let letter = left.swap_remove(random.below(left.len()));
            let empty = places.iter().position(Vec::is_empty);
            places[empty.unwrap_or_else(|| random.between(FRONT, NOWHERE))].push(letter);
        }
        Places(places)
    }

    fn of(&self, random: &mut Random, place: usize) -> u32 {
        random.pick(&self.0[place])
    }

    fn any(&self, random: &mut Random) -> u32 {
        let place = random.below(4);
        self.of(random, place)
    }

    /// In every other pattern there are doubts; their members have one place.
    fn pattern(&self, random: &mut Random, m: usize) -> Vec<u32> {
        let few = random.between(1, 4);
        let doubts = random.once_in(2);
        let place = |j: usize| match j {
            0 => HEAD,
            _ if j <= few => FRONT,
            _ => BACK,
        };
        let drawn = |j: usize| {
            let letter = self.of(random, place(j));
            letter | if doubts && random.once_in(4) { self.of(random, place(j)) } else { 0 }
        };
        (0..m).map(drawn).collect()
    }

    /// A letter to stand behind a window.
    fn behind(&self, random: &mut Random) -> u32 {
        match random.below(6) {
            0 => MARK,
            1 => self.of(random, HEAD),
            2 => self.of(random, FRONT),
            3 => self.of(random, NOWHERE),
            _ => self.any(random) | self.any(random),
        }
    }

    /// What a window may lie over: the pattern itself, or with doubts, which both are hits; spoilt in its last letter,
    /// which brings Hybrid to shift as Sunday does, or in any one; a part of it; letters of its back in the place of
    /// its last ones.
    fn stretch(&self, random: &mut Random, pattern: &[u32]) -> Vec<u32> {
        let mut letters = pattern.to_vec();
        let at = random.below(pattern.len());
        match random.below(8) {
            0 => {}
            1 | 2 => letters.iter_mut().for_each(|c| *c |= if random.once_in(3) { self.any(random) } else { 0 }),
            3 => letters[pattern.len() - 1] = self.behind(random),
            4 => letters[at] = self.behind(random),
            5 => letters.truncate(at),
            6 => drop(letters.drain(..at)),
            _ => letters[at..].iter_mut().for_each(|c| *c = self.of(random, BACK)),
        }
        letters
    }
}

/// A pattern, mostly of the greatest length, and a text of stretches, none to two such letters behind each. Where there
/// is none, the next stretch may begin with the pattern's first letter, which has R 0.
pub fn pair(random: &mut Random) -> Question {
    let k = random.pick(&[4, 4, 5, 6, 9, 16, 31, 32]);
    let m = match random.below(4) {
        0 => random.between(1, 12),
        1 => random.between(56, 63),
        _ => 64,
    };
    let places = Places::new(random, k);
    let pattern = places.pattern(random, m);
    let n = random.between(2 * m, 6 * m + 20);
    let mut text = vec![];
    while text.len() < n {
        text.extend(places.stretch(random, &pattern));
        for _ in 0..random.below(3) {
            text.push(places.behind(random));
        }
    }
    text.truncate(n);
    (k, pattern, text)
}

#[cfg(test)]
mod tests {
    use super::*;
    use crate::broken;
    use reference::engines::{r, Engine};
    use reference::letters::members;

    fn pairs() -> Vec<Question> {
        let mut random = Random::new(1, "fronts");
        (0..1000).map(|_| pair(&mut random)).collect()
    }

    /// Of these letters behind Sunday's windows with m = 64 none is rare, or little would be tried: those with R 0,
    /// with R 1 to 4, with R -1, marks, and doubts whose lowest member, or whose highest one, has a smaller R.
    #[test]
    fn windows_end_before_such_letters() {
        let mut seen = [0; 6];
        for (_, p, t) in pairs().iter().filter(|(_, p, _)| p.len() == 64) {
            let mut i = 0;
            while i + p.len() < t.len() {
                let c = t[i + p.len()];
                let alone = |member: Option<u32>| member.map_or(-1, |b| r(p, 1 << b));
                let (all, lowest, highest) = (r(p, c), alone(members(c).next()), alone(members(c).last()));
                let (none, front) = (all == -1 && c != MARK, (1..5).contains(&all));
                let kinds = [all == 0, front, none, c == MARK, lowest < all, highest < all];
                seen.iter_mut().zip(kinds).for_each(|(times, is)| *times += u32::from(is));
                i += (p.len() as i64 - all) as usize;
            }
        }
        assert!(seen.iter().all(|times| *times > 100), "{seen:?}");
    }

    /// Every slip in R changes counts of each engine that shifts by R. One by which R is too small loses hits besides;
    /// one by which it is too great loses none.
    #[test]
    fn a_slip_in_r_is_noticed_by_these_alone() {
        let pairs = pairs();
        for name in broken::TOO_SMALL.into_iter().chain(broken::TOO_GREAT) {
            for engine in [Engine::Bm, Engine::Sunday, Engine::Hybrid] {
                let (mut lists, mut counts) = (0, 0);
                for (k, p, t) in &pairs {
                    let (due, slipped) = (engine.run(p, t), broken::run(Some(name), engine, *k, p, t));
                    lists += u32::from(slipped.hits != due.hits);
                    counts += u32::from(slipped.work != due.work);
                }
                let as_due = if broken::TOO_GREAT.contains(&name) { lists == 0 } else { lists > 20 };
                assert!(counts > 20 && as_due, "{name} {engine:?}: {lists} lists, {counts} counts");
            }
        }
    }
}
