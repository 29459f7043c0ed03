//! What the rules say about themselves, tried on the reference: bounds, round trips, entries that are searched apart,
//! and the two places where the reference takes a short way round a definition.

use reference::bound::{bound_starts, choice, chosen, given, tied, tried};
use reference::engines::{Engine, Work, ENGINES};
use reference::first::first_hit;
use reference::letters::{hit, hits, meets, members, single, whole, MARK};
use reference::products::{from_products, is_product, letter, product, products_meet};
use reference::reasons::{reasons_at, shared};
use reference::sheet::{begins_letter, begins_letter_line, bytes, read, spelling, Line, Room, Sheet};
use std::collections::HashSet;

/// All strings of the given length over the given elements.
fn strings<T: Copy>(elements: &[T], length: usize) -> Vec<Vec<T>> {
    let mut all = vec![vec![]];
    for _ in 0..length {
        all = all.iter().flat_map(|s| elements.iter().map(move |e| [&s[..], &[*e]].concat())).collect();
    }
    all
}

fn up_to<T: Copy>(elements: &[T], length: usize) -> Vec<Vec<T>> {
    (0..=length).flat_map(|l| strings(elements, l)).collect()
}

/// Every letter of two base letters, and with it the mark: what a small text may hold.
const SETS: [u32; 3] = [1, 2, 3];
const SETS_AND_MARK: [u32; 4] = [MARK, 1, 2, 3];

/// All patterns over these letters, which have one letter at least.
fn patterns(letters: &[u32], length: usize) -> Vec<Vec<u32>> {
    up_to(letters, length).into_iter().filter(|p| !p.is_empty()).collect()
}

/// Random numbers (splitmix64), the same ones each time.
struct Random(u64);

impl Random {
    fn below(&mut self, bound: u64) -> u64 {
        self.0 = self.0.wrapping_add(0x9e37_79b9_7f4a_7c15);
        let mut z = self.0;
        z = (z ^ (z >> 30)).wrapping_mul(0xbf58_476d_1ce4_e5b9);
        z = (z ^ (z >> 27)).wrapping_mul(0x94d0_49bb_1331_11eb);
        (z ^ (z >> 31)) % bound
    }

    /// So many letters of k base letters, each the whole alphabet or one or two of them.
    fn letters(&mut self, k: u64, length: u64) -> Vec<u32> {
        let letter = |random: &mut Random| match random.below(4) {
            0 => whole(k as u32),
            1 => 1 << random.below(k) | 1 << random.below(k),
            _ => 1 << random.below(k),
        };
        (0..length).map(|_| letter(self)).collect()
    }

    /// The same with about one mark among so many letters.
    fn entries(&mut self, k: u64, length: u64, every: u64) -> Vec<u32> {
        let letters = self.letters(k, length);
        letters.into_iter().map(|c| if self.below(every) == 0 { MARK } else { c }).collect()
    }
}

/// The bounds that stand in the engines' paragraphs. A difference that would fall below 0 is 0.
fn bound(engine: Engine, m: u64, n: u64) -> Work {
    if m > n {
        return Work::default();
    }
    let full = m * (n - m + 1);
    let shift = (n - m) * (m - 1);
    match engine {
        Engine::Brute | Engine::Sunday => Work { scan: full, shift: 0, words: 0 },
        Engine::Kmp => Work { scan: 2 * n - m, shift, words: 0 },
        Engine::Bm => Work { scan: full, shift, words: 0 },
        Engine::ShiftAnd => Work { scan: 0, shift: 0, words: n },
        Engine::Hybrid => Work { scan: n - m + 1, shift: 0, words: n },
    }
}

/// Every engine lists the hits, and keeps its bounds.
fn runs_right(pattern: &[u32], text: &[u32]) {
    for engine in ENGINES {
        let found = engine.run(pattern, text);
        let most = bound(engine, pattern.len() as u64, text.len() as u64);
        assert_eq!(found.hits, hits(pattern, text), "{engine:?} {pattern:?} {text:?}");
        let kept = found.work.scan <= most.scan && found.work.shift <= most.shift;
        assert!(kept && found.work.words <= most.words, "{engine:?} {pattern:?} {text:?} {:?}", found.work);
    }
}

#[test]
fn every_engine_finds_the_hits_within_its_bounds() {
    let texts = up_to(&SETS_AND_MARK, 6);
    for pattern in &patterns(&SETS, 3) {
        texts.iter().for_each(|text| runs_right(pattern, text));
    }
}

/// A mark ends an entry: what is found in two entries with a mark between them is what is found in the first one, and
/// then what is found in the second one, as much further on as the first one and the mark are long.
fn entries_are_searched_apart(pattern: &[u32], first: &[u32], second: &[u32]) {
    let joined = [first, &[MARK], second].concat();
    let moved = hits(pattern, second).into_iter().map(|start| start + first.len() as u32 + 1);
    let apart: Vec<u32> = hits(pattern, first).into_iter().chain(moved).collect();
    assert_eq!(hits(pattern, &joined), apart, "{pattern:?} {first:?} {second:?}");
    runs_right(pattern, &joined);
}

#[test]
fn two_small_entries() {
    let entries = up_to(&SETS_AND_MARK, 3);
    for pattern in &patterns(&SETS, 3) {
        for first in &entries {
            entries.iter().for_each(|second| entries_are_searched_apart(pattern, first, second));
        }
    }
}

#[test]
fn two_random_entries() {
    let mut random = Random(1);
    for round in 0..20_000 {
        let k = [1, 2, 3, 9, 32][round % 5];
        let longest = if round % 50 == 0 { 64 } else { 6 };
        let m = 1 + random.below(longest);
        let pattern = random.letters(k, m);
        let (a, b) = (random.below(3 * m + 9), random.below(3 * m + 9));
        let (first, second) = (random.entries(k, a, 2 * m + 2), random.entries(k, b, 2 * m + 2));
        entries_are_searched_apart(&pattern, &first, &second);
    }
}

/// A name itself, cut by a mark in every place, is not found; with the mark before it or behind it, it is.
#[test]
fn a_mark_cuts_a_name() {
    for pattern in patterns(&SETS, 4) {
        for at in 0..=pattern.len() {
            let cut = [&pattern[..at], &[MARK], &pattern[at..]].concat();
            let due = match at {
                0 => vec![1],
                _ if at == pattern.len() => vec![0],
                _ => vec![],
            };
            assert_eq!(hits(&pattern, &cut), due, "{pattern:?} {at}");
            runs_right(&pattern, &cut);
        }
    }
}

/// Marks among single letters cost none either: the letters that have met are still single.
#[test]
fn single_letters_cost_no_shift_test() {
    let texts = up_to(&[MARK, 1, 2], 7);
    for pattern in &patterns(&[1, 2], 4) {
        for text in &texts {
            assert_eq!(Engine::Kmp.run(pattern, text).work.shift, 0);
            assert_eq!(Engine::Bm.run(pattern, text).work.shift, 0);
        }
    }
}

/// On single letters KMP is the classic one: the shift is h less the longest border of the pattern's first h letters.
/// Written from the pattern alone, it must give the same scan tests.
#[test]
fn kmp_on_single_letters_follows_the_borders() {
    let texts = up_to(&[MARK, 1, 2], 8);
    for pattern in &patterns(&[1, 2], 5) {
        let border = |h: usize| (0..h).rev().find(|b| pattern[..*b] == pattern[h - *b..h]).unwrap();
        for text in &texts {
            let (mut i, mut known, mut scan) = (0, 0, 0);
            while i + pattern.len() <= text.len() {
                let h = (known..pattern.len()).find(|j| pattern[*j] != text[i + j]).unwrap_or(pattern.len());
                scan += (h - known) as u64 + if h < pattern.len() { 1 } else { 0 };
                known = if h == 0 { 0 } else { border(h) };
                i += if h == 0 { 1 } else { h - known };
            }
            assert_eq!(Engine::Kmp.run(pattern, text).work.scan, scan, "{pattern:?} {text:?}");
        }
    }
}

/// On single letters BM's first shift depends on g alone: the least s for which the pattern agrees with itself, moved
/// by s, under its last g letters.
#[test]
fn bm_on_single_letters_follows_a_table() {
    let texts = up_to(&[MARK, 1, 2, 4], 6);
    for pattern in &patterns(&[1, 2, 4], 4) {
        let m = pattern.len();
        let agrees = |g: usize, s: usize| (m - g).max(s)..m;
        let table = |g: usize| (1..=m).find(|s| agrees(g, *s).all(|j| pattern[j - s] == pattern[j])).unwrap();
        for text in &texts {
            let (mut i, mut scan) = (0, 0);
            while i + m <= text.len() {
                let g = (0..m).find(|g| pattern[m - 1 - g] != text[i + m - 1 - g]).unwrap_or(m);
                scan += (g + 1).min(m) as u64;
                let second = if g == m {
                    1
                } else {
                    let j = m - 1 - g;
                    let after_last = pattern.iter().rposition(|c| *c == text[i + j]).map_or(0, |last| last + 1);
                    (j + 1).saturating_sub(after_last).max(1)
                };
                i += table(g).max(second);
            }
            assert_eq!(Engine::Bm.run(pattern, text).work.scan, scan, "{pattern:?} {text:?}");
        }
    }
}

/// What brute tests at one start: the pairs that meet, and the one that ends them, if there is one.
fn tests_at(pattern: &[u32], text: &[u32], i: usize) -> u64 {
    let met = (0..pattern.len()).take_while(|j| meets(pattern[*j], text[i + j])).count();
    (met + 1).min(pattern.len()) as u64
}

#[test]
fn the_first_hit_is_the_head_of_the_list() {
    let texts = up_to(&SETS_AND_MARK, 6);
    for pattern in &patterns(&SETS, 3) {
        for text in &texts {
            assert_eq!(first_hit(pattern, text).start, hits(pattern, text).first().copied(), "{pattern:?} {text:?}");
        }
    }
}

/// The count is the sum over the starts up to the hit, and what brute makes from the next start on is the rest of
/// brute's count. Without a hit it is all of brute's.
#[test]
fn the_first_hit_counts_the_starts_up_to_it() {
    let texts = up_to(&SETS_AND_MARK, 6);
    for pattern in &patterns(&SETS, 3) {
        for text in &texts {
            let found = first_hit(pattern, text);
            let brute = |text: &[u32]| Engine::Brute.run(pattern, text).work.scan;
            match found.start.map(|s| s as usize) {
                Some(s) => {
                    let sum: u64 = (0..=s).map(|i| tests_at(pattern, text, i)).sum();
                    assert_eq!(found.scan, sum, "{pattern:?} {text:?}");
                    assert!(found.scan <= (pattern.len() * (s + 1)) as u64, "{pattern:?} {text:?}");
                    assert_eq!(found.scan + brute(&text[s + 1..]), brute(text), "{pattern:?} {text:?}");
                }
                None => assert_eq!(found.scan, brute(text), "{pattern:?} {text:?}"),
            }
        }
    }
}

/// A text cut at the end of its first hit, and then every tail there: none, shorter ones, longer ones, other ones.
#[test]
fn the_first_hit_does_not_see_the_tail() {
    let (texts, tails) = (up_to(&SETS_AND_MARK, 5), up_to(&SETS_AND_MARK, 3));
    for pattern in &patterns(&SETS, 3) {
        for text in &texts {
            let found = first_hit(pattern, text);
            let Some(start) = found.start else { continue };
            let cut = &text[..start as usize + pattern.len()];
            for tail in &tails {
                assert_eq!(first_hit(pattern, &[cut, tail].concat()), found, "{pattern:?} {text:?} {tail:?}");
            }
        }
    }
}

/// Every pattern of one to so many letters over k base letters, with every text as long, marks among them: all that may
/// stand at one start.
fn each_window(k: u32, longest: usize, with: impl Fn(&[u32], &[u32])) {
    let sets: Vec<u32> = (1..=whole(k)).collect();
    let sets_and_mark: Vec<u32> = (MARK..=whole(k)).collect();
    for m in 1..=longest {
        let unders = strings(&sets_and_mark, m);
        for pattern in &strings(&sets, m) {
            unders.iter().for_each(|under| with(pattern, under));
        }
    }
}

/// Random windows in which most pairs meet: a few sets, each pair drawn anew until it meets, one in nine left as drawn.
fn random_windows(rounds: u64, most: u64, mut with: impl FnMut(&[u32], &[u32])) {
    let mut random = Random(2);
    for _ in 0..rounds {
        let k = 2 + random.below(4);
        let m = 1 + random.below(most);
        let sets: Vec<u32> = (0..3 + random.below(5)).map(|_| 1 + random.below((1 << k) - 1) as u32).collect();
        let (mut pattern, mut under) = (vec![], vec![]);
        for _ in 0..m {
            let mut draw = || sets[random.below(sets.len() as u64) as usize];
            let (mut p, mut t) = (draw(), draw());
            while !meets(p, t) && random.below(9) > 0 {
                let mut draw = || sets[random.below(sets.len() as u64) as usize];
                (p, t) = (draw(), draw());
            }
            pattern.push(p);
            under.push(t);
        }
        with(&pattern, &under);
    }
}

/// To ask which sets are tied comes to the same as to try every choice.
fn both_ways_agree(pattern: &[u32], under: &[u32]) {
    assert_eq!(tied(pattern, under), tried(pattern, under), "{pattern:?} over {under:?}");
}

#[test]
fn ties_come_to_the_same_as_every_choice() {
    for (k, longest) in [(1, 5), (2, 4), (3, 3), (4, 2)] {
        each_window(k, longest, both_ways_agree);
    }
}

#[test]
fn ties_come_to_the_same_as_every_choice_on_random_windows() {
    let (mut listed, mut only_hits) = (0, 0);
    random_windows(40_000, 7, |pattern, under| {
        both_ways_agree(pattern, under);
        listed += u32::from(tied(pattern, under).is_some());
        only_hits += u32::from(hit(pattern, under, 0) && tied(pattern, under).is_none());
    });
    // Neither is rare, or little would have been tried.
    assert!(listed > 8_000 && only_hits > 8_000, "{listed} listed, {only_hits} only hits");
}

/// What is written is the letter of a set, one for all its places, and it is the lowest that any choice gives: the
/// lowest of all sets are reached at once, by one choice.
fn the_choice_is_one_and_the_lowest(pattern: &[u32], under: &[u32]) {
    let Some(written) = tied(pattern, under) else { return };
    let all = chosen(pattern, under);
    let gives = |c: &Vec<(u32, u32)>| pattern.iter().map(|set| given(c, *set).unwrap()).collect::<Vec<u32>>();
    assert!(all.iter().any(|c| gives(c) == written), "{pattern:?} over {under:?}: {written:?} is no choice");
    for c in &all {
        let lower = gives(c).iter().zip(&written).any(|(other, letter)| other < letter);
        assert!(!lower, "{pattern:?} over {under:?}: {c:?} has a lower letter than {written:?}");
    }
    for (j, letter) in written.iter().enumerate() {
        let in_both = members(pattern[j]).any(|b| b == *letter) && members(under[j]).any(|b| b == *letter);
        assert!(in_both, "{pattern:?} over {under:?}: {letter} at {j}");
    }
}

#[test]
fn the_written_choice_is_a_choice_and_the_lowest() {
    for (k, longest) in [(2, 4), (3, 2), (4, 2)] {
        each_window(k, longest, the_choice_is_one_and_the_lowest);
    }
    random_windows(10_000, 6, the_choice_is_one_and_the_lowest);
}

/// It does not matter in which order the pairs stand, nor which of two paired sets is the pattern's.
#[test]
fn a_choice_knows_no_order_and_no_side() {
    random_windows(20_000, 12, |pattern, under| {
        let mirrored = |letters: &[u32]| letters.iter().rev().copied().collect::<Vec<u32>>();
        let choice = tied(pattern, under);
        let back = tied(&mirrored(pattern), &mirrored(under));
        assert_eq!(back.map(|back| mirrored(&back)), choice, "{pattern:?} over {under:?} from its end");
        assert_eq!(tied(under, pattern), choice, "{under:?} over {pattern:?}");
    });
}

/// Every bound start is a hit, and a start is bound-listed exactly if there is a choice at it.
#[test]
fn every_bound_start_is_a_hit() {
    let texts = up_to(&SETS_AND_MARK, 6);
    for pattern in &patterns(&SETS, 3) {
        for text in &texts {
            let listed = bound_starts(pattern, text);
            assert!(listed.iter().all(|start| hit(pattern, text, *start as usize)), "{pattern:?} {text:?}");
            for i in 0..text.len() + 2 {
                let there = choice(pattern, text, i).is_some();
                assert_eq!(there, listed.contains(&(i as u32)), "{pattern:?} {text:?} {i}");
            }
        }
    }
}

/// Where one side has single letters only, all hits are bound starts if no unsure set stands twice; where both have,
/// always.
#[test]
fn on_single_letters_the_bound_starts_are_the_hits() {
    let texts = up_to(&[MARK, 1, 2, 4], 6);
    for pattern in &patterns(&[1, 2, 4], 3) {
        for text in &texts {
            assert_eq!(bound_starts(pattern, text), hits(pattern, text), "{pattern:?} {text:?}");
        }
    }
    for pattern in &patterns(&[1, 2, 3, 4, 5, 6, 7], 2) {
        let unsure: Vec<&u32> = pattern.iter().filter(|c| !single(**c)).collect();
        if unsure.len() == 2 && unsure[0] == unsure[1] {
            continue;
        }
        for text in texts.iter().filter(|text| text.len() < 5) {
            assert_eq!(bound_starts(pattern, text), hits(pattern, text), "{pattern:?} {text:?}");
        }
    }
}

/// Entries are bound each by itself.
fn entries_are_bound_apart(pattern: &[u32], first: &[u32], second: &[u32]) {
    let joined = [first, &[MARK], second].concat();
    let moved = bound_starts(pattern, second).into_iter().map(|start| start + first.len() as u32 + 1);
    let apart: Vec<u32> = bound_starts(pattern, first).into_iter().chain(moved).collect();
    assert_eq!(bound_starts(pattern, &joined), apart, "{pattern:?} {first:?} {second:?}");
}

#[test]
fn two_bound_entries() {
    let entries = up_to(&SETS_AND_MARK, 3);
    for pattern in &patterns(&SETS, 3) {
        for first in &entries {
            entries.iter().for_each(|second| entries_are_bound_apart(pattern, first, second));
        }
    }
    let mut random = Random(3);
    for round in 0..5_000 {
        let k = [1, 2, 3, 9, 32][round % 5];
        let m = 1 + random.below(if round % 50 == 0 { 64 } else { 6 });
        let pattern = random.letters(k, m);
        let (a, b) = (random.below(3 * m + 9), random.below(3 * m + 9));
        let (first, second) = (random.entries(k, a, 2 * m + 2), random.entries(k, b, 2 * m + 2));
        entries_are_bound_apart(&pattern, &first, &second);
    }
}

/// A base letter is in the set of a position exactly if it is in both letters there, and none but these are; the start is
/// a hit exactly if no set is empty.
fn reasons_are_right(pattern: &[u32], text: &[u32], start: usize) {
    let sets = reasons_at(pattern, text, start);
    assert_eq!(sets.len(), pattern.len());
    for (j, set) in sets.iter().enumerate() {
        let due: Vec<u32> = (0..32).filter(|b| pattern[j] & text[start + j] & 1 << b != 0).collect();
        assert_eq!(members(*set).collect::<Vec<_>>(), due, "{pattern:?} in {text:?} at {start}, position {j}");
    }
    let all = sets.iter().all(|set| *set != 0);
    assert_eq!(hit(pattern, text, start), all, "{pattern:?} in {text:?} at {start}");
}

#[test]
fn a_start_is_a_hit_exactly_if_no_shared_set_is_empty() {
    let texts = up_to(&SETS_AND_MARK, 6);
    for pattern in &patterns(&SETS, 3) {
        for text in &texts {
            let starts = (text.len() + 1).saturating_sub(pattern.len());
            (0..starts).for_each(|start| reasons_are_right(pattern, text, start));
        }
    }
    for (k, longest) in [(1, 4), (3, 2), (4, 2)] {
        each_window(k, longest, |pattern, under| reasons_are_right(pattern, under, 0));
    }
}

/// Random pairs of any k, marks in the text, at every start.
#[test]
fn random_reasons() {
    let mut random = Random(4);
    let (mut met, mut missed) = (0, 0);
    for round in 0..4_000 {
        let k = [1, 2, 3, 9, 31, 32][round % 6];
        let m = 1 + random.below(if round % 20 == 0 { 64 } else { 6 });
        let (pattern, more) = (random.letters(k, m), random.below(12));
        let text = random.entries(k, m + more, 2 * m + 2);
        for start in 0..=more as usize {
            reasons_are_right(&pattern, &text, start);
            let is_hit = hit(&pattern, &text, start);
            (met, missed) = (met + u32::from(is_hit), missed + u32::from(!is_hit));
        }
    }
    // Neither is rare, or little would have been tried.
    assert!(met > 4_000 && missed > 4_000, "{met} hits, {missed} others");
}

/// Which of the two letters is the pattern's does not matter; what a letter shares with itself is the letter, with all
/// letters too, and with the mark nothing.
#[test]
fn what_is_shared_knows_no_side() {
    random_windows(20_000, 12, |pattern, under| {
        let (sets, over) = (reasons_at(pattern, under, 0), reasons_at(under, pattern, 0));
        assert_eq!(over, sets, "{under:?} over {pattern:?}");
        assert_eq!(reasons_at(pattern, pattern, 0), pattern);
        assert_eq!(reasons_at(pattern, &vec![!0; pattern.len()], 0), pattern);
        assert_eq!(reasons_at(pattern, &vec![MARK; pattern.len()], 0), vec![0; pattern.len()]);
    });
    for a in MARK..=whole(4) {
        (MARK..=whole(4)).for_each(|b| assert_eq!(shared(a, b), shared(b, a), "{a} {b}"));
    }
}

/// Where a start is bound-listed, what the choice gives to a position is one of the letters that are shared there.
#[test]
fn a_choice_is_made_of_what_is_shared() {
    let mut listed = 0;
    random_windows(20_000, 8, |pattern, under| {
        let Some(choice) = choice(pattern, under, 0) else { return };
        listed += 1;
        for (letter, set) in choice.iter().zip(reasons_at(pattern, under, 0)) {
            assert!(members(set).any(|b| b == *letter), "{pattern:?} over {under:?}: {letter} is not in {set}");
        }
    });
    assert!(listed > 4_000, "{listed} listed");
}

/// Another letter in the text changes the set of its own position and no other, and of a start that it does not lie under
/// none at all.
#[test]
fn a_letter_of_the_text_is_seen_at_its_own_position_alone() {
    let texts = up_to(&SETS_AND_MARK, 4);
    let mut changed = 0;
    for pattern in &patterns(&SETS, 3) {
        for text in texts.iter().filter(|text| text.len() >= pattern.len()) {
            for (at, letter) in (0..text.len()).flat_map(|at| SETS_AND_MARK.map(|letter| (at, letter))) {
                let mut other = text.clone();
                other[at] = letter;
                for start in 0..=text.len() - pattern.len() {
                    let mut due = reasons_at(pattern, text, start);
                    let position = at.checked_sub(start).filter(|j| *j < pattern.len());
                    if let Some(j) = position {
                        let before = due[j];
                        due[j] = shared(pattern[j], letter);
                        changed += u32::from(due[j] != before);
                    }
                    assert_eq!(reasons_at(pattern, &other, start), due, "{pattern:?} {text:?} {at} {start}");
                }
            }
        }
    }
    assert!(changed > 0);
}

/// What may stand in a line: the mark in the text alone.
fn letters_of(line: Line, k: usize) -> Vec<u32> {
    let least = if line == Line::Text { MARK } else { MARK + 1 };
    (least..=whole(k as u32)).collect()
}

/// The reader asks only some letters whether they begin with given bytes; asking all of them gives the same answer.
#[test]
fn enough_letters_are_asked() {
    for alphabet in [&b"a"[..], b"ab", b"abc", b"abcd"] {
        let fronts = up_to(&[alphabet, b"[]*|x"].concat(), alphabet.len() + 1);
        for line in [Line::Pattern, Line::Text] {
            let letters = letters_of(line, alphabet.len());
            let all: Vec<Vec<u8>> = letters.iter().map(|c| spelling(alphabet, *c)).collect();
            for front in &fronts {
                let asked = all.iter().any(|spelled| spelled.starts_with(front));
                assert_eq!(begins_letter(line, alphabet, front), asked, "{line:?} {alphabet:?} {front:?}");
            }
        }
    }
}

/// What begins a right line, up to four bytes of it. A front of four bytes has at most four letters, the last one
/// perhaps not whole.
fn fronts_of_right_lines(line: Line, alphabet: &[u8]) -> HashSet<Vec<u8>> {
    let spelled = |letters: &Vec<u32>| -> Vec<u8> {
        let spelled = letters.iter().flat_map(|c| spelling(alphabet, *c));
        spelled.chain([b'\n']).collect()
    };
    let right = up_to(&letters_of(line, alphabet.len()), 4);
    let right = right.iter().map(spelled);
    right.flat_map(|l| (0..=l.len().min(4)).map(|end| l[..end].to_vec()).collect::<Vec<_>>()).collect()
}

/// All right lines of up to four letters are written out; what begins one of them, and nothing else of that length,
/// begins a right line. The reader's refusal 13 names the first byte for which that fails.
fn the_first_wrong_byte(line: Line, alphabet: &[u8]) {
    let begun = fronts_of_right_lines(line, alphabet);
    let before = if line == Line::Pattern { "\n1\n" } else { "\n1\na\n0\n" };
    let head = [format!("{}\n", alphabet.len()).as_bytes(), alphabet, before.as_bytes()].concat();
    for front in up_to(&[alphabet, b"[]*|\nx"].concat(), 4) {
        assert_eq!(begins_letter_line(line, alphabet, &front), begun.contains(&front), "{line:?} {front:?}");
        let answer = read(&[&head[..], &front].concat(), Room::AMPLE);
        let wrong = (0..front.len()).find(|j| !begun.contains(&front[..=*j])).unwrap_or(front.len());
        let ended = front.iter().position(|b| *b == b'\n').is_some_and(|lf| lf < wrong);
        match answer {
            Err(r) if r.number == 13 => assert!(!ended && r.place == head.len() + wrong, "{front:?} {r:?}"),
            _ => assert!(ended, "{line:?} {alphabet:?} {front:?} {answer:?}"),
        }
    }
}

#[test]
fn the_wrong_byte_is_the_first_one_that_no_right_line_begins_with() {
    for alphabet in [&b"a"[..], b"ab", b"abc"] {
        the_first_wrong_byte(Line::Pattern, alphabet);
        the_first_wrong_byte(Line::Text, alphabet);
    }
}

#[test]
fn what_is_written_reads_back() {
    let alphabet = b"abc".to_vec();
    let texts = up_to(&letters_of(Line::Text, 3), 3);
    for pattern in patterns(&letters_of(Line::Pattern, 3), 2) {
        for text in &texts {
            let sheet = Sheet { alphabet: alphabet.clone(), pattern: pattern.clone(), text: text.clone() };
            assert_eq!(read(&bytes(&sheet), Room::AMPLE), Ok(sheet));
        }
    }
}

#[test]
fn products_return_unchanged() {
    for k in 1..=9 {
        for c in MARK..=whole(k) {
            assert!(is_product(k, product(c)));
            assert_eq!(letter(product(c)), c);
            assert_eq!(products_meet(k, product(c), product(MARK)), Ok(false));
        }
        let products: Vec<u32> = (0..100_000).filter(|v| is_product(k, *v)).collect();
        let letters = from_products(k, &products, products.len()).unwrap();
        assert_eq!(letters.iter().map(|c| product(*c)).collect::<Vec<_>>(), products);
    }
}
