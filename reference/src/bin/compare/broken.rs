//! Deliberate slips on the reference's side, to show that the comparison notices them. None is used unless
//! `--broken NAME` asks for it.

use reference::engines::{Engine, Found};
use reference::first::{first_hit, First};
use reference::letters::{meets, single, whole, MARK};
use reference::sheet::allowed;
use std::ops::Range;

/// A slip, the groups that must notice it, and what it does to the expectation.
pub struct Slip {
    pub name: &'static str,
    pub groups: &'static [&'static str],
    pub what: &'static str,
}

const fn slip(name: &'static str, groups: &'static [&'static str], what: &'static str) -> Slip {
    Slip { name, groups, what }
}

const SEARCHES: &[&str] = &["exhaustive", "random", "limits"];
const LISTS: &[&str] = &["exhaustive", "random", "limits", "bound"];
const RUNS: &[&str] = &["exhaustive", "random", "limits", "first"];
const STARTS: &[&str] = &["exhaustive", "random", "limits", "first", "bound"];
const SHEETS: &[&str] = &["read", "program"];
const READERS: &[&str] = &["read", "reports", "program"];
const FIRST: &[&str] = &["first"];
const BOUND: &[&str] = &["bound"];
const REASONS: &[&str] = &["reasons"];
const AT: &[&str] = &["bound", "reasons"];
const CHECKS: &[&str] = &["refusals", "first", "bound", "reasons"];
const LIMITS: &[&str] = &["limits", "refusals", "first", "bound", "reasons"];
const PLACES: &[&str] = &["refusals", "first", "bound", "reasons", "products", "read", "write", "program"];
const LETTERS: &[&str] = &["refusals", "first", "bound", "reasons", "products", "write"];
const TAKEN: &[&str] = &["refusals", "first", "bound", "reasons", "read", "write", "reports", "program"];
const FOUND: &[&str] = &["exhaustive", "random", "limits", "first", "bound", "reasons", "reports", "program"];
const MET: &[&str] = &["exhaustive", "random", "limits", "first", "bound", "reasons", "products", "reports", "program"];
const EVERY: &[&str] = &[
    "exhaustive",
    "random",
    "limits",
    "refusals",
    "first",
    "bound",
    "reasons",
    "products",
    "read",
    "write",
    "reports",
    "program",
];

pub const SLIPS: &[Slip] = &[
    slip("total", LISTS, "the total is one too high where there are hits"),
    slip("last-start", LISTS, "the list lacks the last start that it holds"),
    slip("tail", LISTS, "the cell after the last hit is expected to be written"),
    slip("scan", RUNS, "scan tests are one too high where there are any"),
    slip("shift", SEARCHES, "shift tests are one too high where there are any"),
    slip("words", SEARCHES, "word steps are one too high where there are any"),
    slip("fourth-count", &["random"], "a fourth count is written where four are lent"),
    slip("kmp-borders", SEARCHES, "KMP shifts by the pattern's borders even if the text is unsure"),
    slip("kmp-beyond", SEARCHES, "KMP makes its trials beyond n - m too, as far as the text goes"),
    slip("kmp-whole-pattern", &["exhaustive", "random"], "KMP asks for all of P to be single, not its first h letters"),
    slip("bm-right-to-left", SEARCHES, "BM's trials go over the covered positions right to left"),
    slip("bm-met-only", &["exhaustive", "random"], "BM asks only the letters that met to be single, not all of P"),
    slip("lowest-member", SEARCHES, "R looks at the lowest member of an unsure letter alone"),
    slip("r-least", SEARCHES, "R is the least index that meets, not the greatest"),
    slip("r-without-0", SEARCHES, "R never looks at index 0, and is -1 where that alone meets"),
    slip("r-none-0", SEARCHES, "R is 0 where no index meets"),
    slip("hybrid-one-on", SEARCHES, "Hybrid goes one on after a failure, not as Sunday does"),
    slip("k-32", LIMITS, "an alphabet of 32 is refused"),
    slip("m-64", LIMITS, "a pattern of 64 letters is refused"),
    slip("n-65536", &["limits", "first", "bound", "reasons"], "a text of 65,536 letters is refused"),
    slip("order-23", CHECKS, "3 is checked before 2"),
    slip("order-45", CHECKS, "5 is checked before 4"),
    slip("work-first", &["refusals"], "the 8 for the counts comes before 4 and 5"),
    slip("refused-writes", CHECKS, "a refused search writes 0s"),
    slip("first-goes-on", FIRST, "the starts after the first hit are tested and counted too"),
    slip("first-last", FIRST, "the last hit is named, with the tests of all starts"),
    slip("first-count", FIRST, "the tests at the hit itself are left out"),
    slip("first-start", FIRST, "the start is one too high"),
    slip("first-tail-seen", FIRST, "one start after the hit is tested and counted too, where the text reaches so far"),
    slip("first-right-to-left", FIRST, "each start is tested right to left"),
    slip("first-beyond", FIRST, "starts beyond n - m are tested and counted too, as far as the text goes"),
    slip("first-short", FIRST, "the last start is not tested"),
    slip("first-total", FIRST, "the total of hits is answered, not 1"),
    slip("first-none-writes", FIRST, "a start is written though there is none"),
    slip("first-third", FIRST, "a third number is written after a hit where three are lent"),
    slip("first-behind", FIRST, "a wrong letter behind the hit is not refused"),
    slip("first-room-early", FIRST, "8 comes before 4 and 5"),
    slip("first-room-hit", FIRST, "8 is asked only where there is a hit"),
    slip("first-room-1", FIRST, "one number lent is enough"),
    slip("first-room-3", FIRST, "three numbers must be lent, as for the counts of a search"),
    slip("bound-hits", BOUND, "every hit is listed, each pair with the lowest letter that it shares"),
    slip("bound-one-pass", BOUND, "sets are narrowed pair by pair, once from left to right"),
    slip("bound-two-passes", BOUND, "sets are narrowed twice from left to right"),
    slip("bound-there-and-back", BOUND, "sets are narrowed once from left to right and once back"),
    slip("bound-32-passes", BOUND, "sets are narrowed 32 times from left to right, and no more"),
    slip("bound-64-sets", BOUND, "only the first 64 different sets of a start are tied"),
    slip("bound-greedy", BOUND, "a set keeps the lowest letter that its first pair leaves it"),
    slip("bound-untied-sides", BOUND, "a set of the pattern is not tied to the same set of the text"),
    slip("bound-untied-text", BOUND, "equal sets of the text are not tied"),
    slip("bound-untied-pattern", BOUND, "equal sets of the pattern are not tied"),
    slip("bound-singles-free", BOUND, "a single letter that meets its pair binds nothing"),
    slip("bound-mark-any", BOUND, "a mark agrees with everything"),
    slip("bound-carries", BOUND, "a set keeps the letter of its first hit in all later ones"),
    slip("bound-apart", BOUND, "a start within the hit before it is not listed"),
    slip("bound-short", BOUND, "the last start is not tried for the list"),
    slip("bound-cut", BOUND, "the total is cut off where the list ends"),
    slip("bound-list-room", BOUND, "a list that is too short is refused with 8"),
    slip("bound-highest", BOUND, "the highest letter is written, not the lowest"),
    slip("bound-pair-lowest", BOUND, "the lowest letter that the pair shares is written, without ties"),
    slip("bound-own-lowest", BOUND, "the lowest letter of the pattern's set is written"),
    slip("bound-letter", BOUND, "the letter is written as a set, not as its number"),
    slip("bound-from-1", BOUND, "base letters are numbered from 1"),
    slip("bound-singles-0", BOUND, "0 is written for a single letter"),
    slip("bound-answers-m", BOUND, "the numbers written are counted in the answer, which is to be 1"),
    slip("bound-none-writes", BOUND, "a choice is written though the start is not listed"),
    slip("bound-none-refused", BOUND, "a start that is not listed is refused with 16"),
    slip("bound-room-listed", BOUND, "8 is asked only where the start is listed"),
    slip("start-outside", AT, "a wrong text letter that is not under the pattern is not refused at one start"),
    slip("start-early", AT, "16 comes before 4 and 5"),
    slip("start-wraps", AT, "the start and m are added without regard to the largest size"),
    slip("start-32", AT, "the start is cut to 32 bits"),
    slip("start-last", AT, "the last start is refused with 16"),
    slip("start-beyond", AT, "the start after the last one is not refused"),
    slip("start-n", AT, "16 is asked of the start alone, not of its sum with m"),
    slip("start-place", AT, "the start is the place of a 16"),
    slip("start-room-early", AT, "8 comes before 4 and 5"),
    slip("start-room-first", AT, "8 comes before 16"),
    slip("start-room-beyond", AT, "room for m values is refused with 8"),
    slip("start-room-short", AT, "room for m - 1 values is enough"),
    slip("start-room-fills", AT, "a call at one start that is refused with 8 writes what there is room for"),
    slip("start-writes-beyond", AT, "one more value is written at a start where more are lent"),
    slip("reasons-union", REASONS, "all members of both letters are written, not those in common"),
    slip("reasons-lowest", REASONS, "the lowest letter in common is written alone"),
    slip("reasons-number", REASONS, "the number of the lowest letter in common is written, not a set"),
    slip("reasons-yes", REASONS, "1 is written where the letters meet, and 0 where they do not"),
    slip("reasons-own-pattern", REASONS, "the whole pattern letter is written where the letters meet"),
    slip("reasons-own-text", REASONS, "the whole text letter is written where the letters meet"),
    slip("reasons-mark-any", REASONS, "a mark shares all of the pattern's letter"),
    slip("reasons-31", REASONS, "the last of 32 base letters is never in common"),
    slip("reasons-choice", REASONS, "at a bound-listed start the letters of its choice are written alone"),
    slip("reasons-window", REASONS, "the text's first letters are looked at, whatever the start"),
    slip("reasons-first-empty", REASONS, "what stands behind the first empty set is not written"),
    slip("reasons-hit-only", REASONS, "nothing is written at a start that is no hit"),
    slip("reasons-keeps", REASONS, "an empty set is not written"),
    slip("reasons-packed", REASONS, "empty sets are left out, and those behind them moved up"),
    slip("reasons-backwards", REASONS, "the sets are written from the last one to the first"),
    slip("reasons-answers-hit", REASONS, "1 is answered at a hit and else 0, not m"),
    slip("reasons-answers-shared", REASONS, "the sets that are not empty are counted in the answer, not all m"),
    slip("reasons-none-refused", REASONS, "a start that is no hit is refused with 16"),
    slip("reasons-room-hit", REASONS, "8 is asked only where the start is a hit"),
    slip("product", &["products"], "the product of all nine letters is one too high"),
    slip("letter", &["products"], "the product of all nine primes gives a letter without its last member"),
    slip("one", &["products"], "1 is refused as no product"),
    slip("zero", &["products"], "0 is taken for the mark's product"),
    slip("ones-meet", &["products"], "1 meets itself"),
    slip("mark-product", &["products"], "the mark's product is 0"),
    slip("mark-letter", &["products"], "1 gives the letter of the first base letter"),
    slip("meet", &["products"], "a product does not meet itself"),
    slip("order-36", &["products"], "3 is checked before 6"),
    slip("order-58", &["products"], "8 is checked before 5 and 7"),
    slip("refused-converts", &["products"], "a conversion refused by 8 writes what there is room for"),
    slip("read-text", &["read"], "the last text letter has one member more, or one less"),
    slip("read-sizes", &["read"], "n is one too high"),
    slip("read-zero", &["read", "reports"], "a leading 0 of the first count is passed over"),
    slip("read-whole", &["read", "reports"], "the whole alphabet may stand in brackets"),
    slip("read-13", &["read", "reports"], "14 comes before 13"),
    slip("read-15", &["read", "reports"], "bytes after the last section are passed over"),
    slip("read-room", &["read"], "the alphabet's 8 comes after all other checks"),
    slip("read-sizes-room", &["read"], "the 8 for the sizes comes before all other checks"),
    slip("read-8192", &["read", "reports"], "a sheet of 8,192 bytes is refused"),
    slip("write-byte", &["write"], "the byte before the last LF is another one"),
    slip("write-12", &["write"], "12 comes after 5"),
    slip("write-twice", &["write"], "an alphabet may hold a byte twice"),
    slip("write-8192", &["write"], "a sheet of 8,192 bytes is not written"),
    slip("write-room", &["write"], "8 comes before 10"),
    slip("report-byte", &["reports"], "the last digit is another one"),
    slip("report-room", &["reports"], "a report needs one byte more than it has"),
    slip("report-writes", &["reports"], "a report refused by 8 fills what there is"),
    slip("report-place", &["reports"], "a refused report tells its place"),
    slip("place", PLACES, "every place but 0 is one too high"),
    slip("no-place", PLACES, "every place is 0"),
    slip("place-4", &["refusals", "first", "bound", "reasons", "write"], "the place of a 4 is one too high"),
    slip("place-5", LETTERS, "the place of a 5 is one too high"),
    slip("place-7", &["products"], "the place of a 7 is one too high"),
    slip("place-12", &["read", "write", "program"], "the place of a 12 is one too high"),
    slip(
        "highest",
        &["refusals", "first", "bound", "reasons", "products"],
        "the highest index of a wrong letter is named, not the lowest",
    ),
    slip("highest-7", &["products"], "the highest index of a value that is no product is named"),
    slip("second-at-0", &["products"], "the second of two products is named as the first"),
    slip("write-first-of-two", &["write"], "of two equal bytes of an alphabet the first is named"),
    slip("write-last-surplus", &["write"], "of the surplus bytes of an alphabet the last is named"),
    slip("write-missing-at-0", &["write"], "a byte that an alphabet lacks is named as its first"),
    slip("size-place", SHEETS, "a count that is too large has the place 0"),
    slip("bracket-place", SHEETS, "a member that is wrong before a closer is found at the closer"),
    slip("short-place", SHEETS, "a sheet that ends too soon is wrong at its last byte"),
    slip("differs-place", SHEETS, "14 has the place of the letters, not of their count"),
    slip("after-place", SHEETS, "15 has the sheet's length as its place"),
    slip("line-end", &["program"], "the last line has no LF"),
    slip("mark-star", MET, "a mark belongs to `*`: the letter of all k meets it"),
    slip("mark-ends", FOUND, "the text ends at its first mark"),
    slip("mark-starts", STARTS, "starts are counted from the beginning of their entry"),
    slip("mark-r", SEARCHES, "R of a mark is 0"),
    slip("mark-past", RUNS, "KMP and the first hit go on behind a mark that they have come to"),
    slip("mark-refused", EVERY, "a mark in the text is refused, with 5 or 13"),
    slip("mark-pattern", TAKEN, "a mark is taken in the pattern"),
    slip("mark-alphabet", &["read", "write", "reports", "program"], "`|` is taken in the alphabet"),
    slip("mark-bracket", READERS, "`|` in a bracket is passed over"),
    slip("mark-bracket-place", SHEETS, "`|` in a bracket is found at the bracket's first byte"),
    slip("mark-uncounted", READERS, "the reader does not count the marks of the text"),
    slip("mark-place", LETTERS, "the place of a 5 is counted from its entry on"),
    slip("read-mark-star", READERS, "the reader takes `|` for `*`"),
    slip("write-mark-star", &["write"], "the writer spells a mark `*`"),
];

/// Shift by the least s up to `most` for which `fits` holds.
fn least(most: usize, fits: impl FnMut(&usize) -> bool) -> usize {
    (1..=most).find(fits).unwrap()
}

/// A count of tests that stops at the first pair that does not meet.
fn tried(count: &mut u64, mut pairs: impl Iterator<Item = (u32, u32)>) -> bool {
    pairs.all(|(a, b)| {
        *count += 1;
        meets(a, b)
    })
}

fn all_single(letters: &[u32]) -> bool {
    letters.iter().all(|c| single(*c))
}

/// The slips in R, by which three engines shift. Where it is too small a shift is too long and loses hits; where it is
/// too great only counts differ.
pub const TOO_SMALL: [&str; 3] = ["lowest-member", "r-least", "r-without-0"];
pub const TOO_GREAT: [&str; 2] = ["r-none-0", "mark-r"];

/// R(c) + 1.
fn after_r(name: &str, p: &[u32], c: u32) -> usize {
    let seen = if name == "lowest-member" { c & c.wrapping_neg() } else { c };
    let mut met = (0..p.len()).filter(|j| meets(p[*j], seen));
    let r = match name {
        "r-least" => met.next(),
        "r-without-0" => met.next_back().filter(|j| *j > 0),
        "r-none-0" => met.next_back().or(Some(0)),
        "mark-r" if c == MARK => Some(0),
        _ => met.next_back(),
    };
    r.map_or(0, |j| j + 1)
}

fn kmp(name: &str, p: &[u32], t: &[u32]) -> Found {
    let (m, n) = (p.len(), t.len());
    let mut found = Found::default();
    let (mut i, mut known) = (0, 0);
    while i + m <= n {
        let mut h = known;
        while h < m && tried(&mut found.work.scan, [(p[h], t[i + h])].into_iter()) {
            h += 1;
        }
        if h == m {
            found.hits.push(i as u32);
        }
        let under = all_single(&t[i..i + h]);
        let s = if name == "mark-past" && h < m && t[i + h] == MARK {
            h + 1
        } else if h == 0 {
            1
        } else if name == "kmp-borders" {
            least(h, |s| (*s..h).all(|j| meets(p[j - s], p[j])))
        } else if under && all_single(if name == "kmp-whole-pattern" { p } else { &p[..h] }) {
            least(h, |s| (*s..h).all(|j| meets(p[j - s], t[i + j])))
        } else {
            let beyond = |s: usize| i + s + m > n && name != "kmp-beyond";
            least(h, |s| beyond(*s) || tried(&mut found.work.shift, (*s..h).map(|j| (p[j - s], t[i + j]))))
        };
        i += s;
        known = h.saturating_sub(s);
    }
    found
}

fn bm(name: &str, p: &[u32], t: &[u32]) -> Found {
    let (m, n) = (p.len(), t.len());
    let mut found = Found::default();
    let mut i = 0;
    while i + m <= n {
        let mut g = 0;
        while g < m && tried(&mut found.work.scan, [(p[m - 1 - g], t[i + m - 1 - g])].into_iter()) {
            g += 1;
        }
        if g == m {
            found.hits.push(i as u32);
        }
        let plain = all_single(if name == "bm-met-only" { &p[m - g..] } else { p }) && all_single(&t[i + m - g..i + m]);
        let first = least(m, |s| {
            let mut pairs: Vec<(u32, u32)> = ((m - g).max(*s)..m).map(|j| (p[j - s], t[i + j])).collect();
            if name == "bm-right-to-left" {
                pairs.reverse();
            }
            let mut untold = 0;
            let count = if plain { &mut untold } else { &mut found.work.shift };
            i + s + m > n || tried(count, pairs.into_iter())
        });
        let second = if g == m { 1 } else { (m - g).saturating_sub(after_r(name, p, t[i + m - 1 - g])).max(1) };
        i += first.max(second);
    }
    found
}

fn sunday(name: &str, p: &[u32], t: &[u32]) -> Found {
    let (m, n) = (p.len(), t.len());
    let mut found = Found::default();
    let mut i = 0;
    while i + m <= n {
        if tried(&mut found.work.scan, (0..m).map(|j| (p[j], t[i + j]))) {
            found.hits.push(i as u32);
        }
        if i + m == n {
            break;
        }
        i += m + 1 - after_r(name, p, t[i + m]);
    }
    found
}

fn hybrid(name: &str, p: &[u32], t: &[u32]) -> Found {
    let (m, n) = (p.len(), t.len());
    let mut found = Found::default();
    let mut a = 0;
    while a + m <= n {
        if !tried(&mut found.work.scan, [(p[m - 1], t[a + m - 1])].into_iter()) {
            if a + m == n {
                break;
            }
            a += if name == "hybrid-one-on" { 1 } else { m + 1 - after_r(name, p, t[a + m]) };
            continue;
        }
        let mut state = 0u64;
        while a < n {
            let mask: u64 = (0..m).filter(|j| meets(p[*j], t[a])).map(|j| 1 << j).sum();
            state = (state << 1 | 1) & mask;
            found.work.words += 1;
            a += 1;
            if state >> (m - 1) & 1 == 1 {
                found.hits.push((a - m) as u32);
            }
            if state == 0 {
                break;
            }
        }
    }
    found
}

/// The strings that a slip about the mark would search in the place of these.
pub fn searched(name: Option<&str>, k: u32, p: &[u32], t: &[u32]) -> (Vec<u32>, Vec<u32>) {
    match name {
        // One base letter more: the mark is that letter, and the letter of all k has it.
        Some("mark-star") if (2..32).contains(&k) => {
            let more = 1 << k;
            let p = p.iter().map(|c| if *c == whole(k) { c | more } else { *c });
            let t = t.iter().map(|c| if *c == MARK { more } else { *c });
            (p.collect(), t.collect())
        }
        Some("mark-ends") => (p.to_vec(), t.iter().copied().take_while(|c| *c != MARK).collect()),
        _ => (p.to_vec(), t.to_vec()),
    }
}

/// An engine's run with the slip that was asked for, if the slip is in that engine or in what it searches.
pub fn run(name: Option<&str>, engine: Engine, k: u32, p: &[u32], t: &[u32]) -> Found {
    let (p, t) = &searched(name, k, p, t);
    let name = name.unwrap_or("");
    let in_r = TOO_SMALL.contains(&name) || TOO_GREAT.contains(&name);
    match (name, engine) {
        ("kmp-borders" | "kmp-beyond" | "kmp-whole-pattern" | "mark-past", Engine::Kmp) => kmp(name, p, t),
        ("bm-right-to-left" | "bm-met-only", Engine::Bm) => bm(name, p, t),
        ("hybrid-one-on", Engine::Hybrid) => hybrid(name, p, t),
        (_, Engine::Bm) if in_r => bm(name, p, t),
        (_, Engine::Sunday) if in_r => sunday(name, p, t),
        (_, Engine::Hybrid) if in_r => hybrid(name, p, t),
        _ => engine.run(p, t),
    }
}

fn slipped_first(name: &str, p: &[u32], t: &[u32]) -> First {
    let (m, n) = (p.len(), t.len());
    let starts = match name {
        "first-beyond" => n,
        "first-short" => n.saturating_sub(m),
        _ => (n + 1).saturating_sub(m),
    };
    let mut found = First::default();
    for i in 0..starts {
        let done = found.start.is_some_and(|start| match name {
            "first-goes-on" | "first-last" => false,
            "first-tail-seen" => i > start as usize + 1,
            _ => true,
        });
        if done {
            break;
        }
        let mut pairs: Vec<(u32, u32)> = p.iter().copied().zip(t[i..].iter().copied()).collect();
        if name == "first-right-to-left" {
            pairs.reverse();
        }
        let before = found.scan;
        if !tried(&mut found.scan, pairs.into_iter()) || i + m > n {
            continue;
        }
        if found.start.is_none() || name == "first-last" {
            found.start = Some(i as u32);
        }
        if name == "first-count" {
            found.scan = before;
        }
    }
    found
}

/// No start is tested again whose window holds a mark that a test has come to, if `past`.
fn first_past_marks(past: bool, p: &[u32], t: &[u32]) -> First {
    let mut found = First::default();
    let mut i = 0;
    while i + p.len() <= t.len() && found.start.is_none() {
        let met = (0..p.len()).take_while(|j| meets(p[*j], t[i + j])).count();
        found.scan += (met + 1).min(p.len()) as u64;
        if met == p.len() {
            found.start = Some(i as u32);
        } else {
            i += if past && t[i + met] == MARK { met + 1 } else { 1 };
        }
    }
    found
}

/// The run for the first hit with the slip that was asked for. A slip that is not in the run leaves it right.
pub fn first(name: Option<&str>, k: u32, p: &[u32], t: &[u32]) -> First {
    let (p, t) = &searched(name, k, p, t);
    match name {
        Some(name) if name.starts_with("first-") => slipped_first(name, p, t),
        Some("mark-past") => first_past_marks(true, p, t),
        _ => first_hit(p, t),
    }
}

/// Where the sheet's line of this number stands, without its LF. The alphabet is 1, the pattern 3, the text 5.
pub fn line(sheet: &[u8], number: usize) -> Range<usize> {
    let mut lines = sheet.split(|b| *b == b'\n');
    let begin: usize = lines.by_ref().take(number).map(|line| line.len() + 1).sum();
    let length = lines.next().map_or(0, <[u8]>::len);
    begin.min(sheet.len())..(begin + length).min(sheet.len())
}

/// The sheet with another byte in the place of every `|` of one line.
fn replaced(sheet: &[u8], number: usize, byte: u8) -> Vec<u8> {
    let mut taken = sheet.to_vec();
    taken[line(sheet, number)].iter_mut().filter(|b| **b == b'|').for_each(|b| *b = byte);
    taken
}

/// The sheet without any `|` that stands in a bracket.
fn unbracketed(sheet: &[u8]) -> Vec<u8> {
    let mut inside = false;
    let mut kept = |byte: &u8| {
        inside = *byte == b'[' || inside && !b"]\n".contains(byte);
        !inside || *byte != b'|'
    };
    sheet.iter().copied().filter(|byte| kept(byte)).collect()
}

/// The sheet that a slip about the mark would take this one for.
pub fn marked_sheet(name: &str, sheet: &[u8]) -> Vec<u8> {
    let alphabet = &sheet[line(sheet, 1)];
    let unused = (33..127).find(|b| allowed(*b) && !alphabet.contains(b)).unwrap_or(b' ');
    match name {
        "mark-alphabet" => replaced(sheet, 1, unused),
        "mark-pattern" => replaced(sheet, 3, alphabet.first().copied().unwrap_or(b'|')),
        // No line holds byte 127.
        "mark-refused" => replaced(sheet, 5, 127),
        "read-mark-star" => replaced(sheet, 5, b'*'),
        "mark-bracket" => unbracketed(sheet),
        _ => sheet.to_vec(),
    }
}

/// Without a slip these runs are the reference's, so that what is noticed is the slip and nothing else.
#[test]
fn without_a_slip_the_runs_are_right() {
    let texts = crate::cases::strings_up_to(&[MARK, 1, 2, 3], 6);
    for p in &crate::cases::strings_up_to(&[1, 2, 3], 3)[1..] {
        for t in &texts {
            assert_eq!(kmp("", p, t), Engine::Kmp.run(p, t));
            assert_eq!(bm("", p, t), Engine::Bm.run(p, t));
            assert_eq!(sunday("", p, t), Engine::Sunday.run(p, t));
            assert_eq!(hybrid("", p, t), Engine::Hybrid.run(p, t));
            assert_eq!(slipped_first("", p, t), first_hit(p, t));
            assert_eq!(first_past_marks(false, p, t), first_hit(p, t));
        }
    }
}
