//! Cases: all short strings, and random strings and sheets that are likely to reach the corners of the rules.

use crate::random::Random;
use reference::letters::{hits, members, whole, MARK};
use reference::sheet::{allowed, bytes, Sheet};
use std::fs;
use std::path::Path;

/// All strings of up to so many letters.
pub fn strings_up_to(letters: &[u32], length: usize) -> Vec<Vec<u32>> {
    let mut all = vec![vec![]];
    let mut longest = 0..1;
    for _ in 0..length {
        let begin = all.len();
        for at in longest {
            for letter in letters {
                all.push([&all[at][..], &[*letter]].concat());
            }
        }
        longest = begin..all.len();
    }
    all
}

/// A letter of an alphabet of k, never the mark. The doubt says how often it is unsure: never at 0, always at 4.
pub fn letter(random: &mut Random, k: u32, doubt: usize) -> u32 {
    let one = 1 << random.below(k as usize);
    if random.below(4) >= doubt {
        return one;
    }
    match random.below(3) {
        0 => whole(k),
        1 => one | 1 << random.below(k as usize),
        _ => random.next() as u32 & whole(k) | one,
    }
}

/// A string over a few letters: random, periodic, or all alike.
pub fn string(random: &mut Random, pool: &[u32], length: usize) -> Vec<u32> {
    let period = random.pick(&[0, 0, 1, 2, 3, 4, 7]);
    if period == 0 {
        return (0..length).map(|_| random.pick(pool)).collect();
    }
    let round: Vec<u32> = (0..period).map(|_| random.pick(pool)).collect();
    let noise = random.pick(&[0, 0, 5, 40]);
    let drawn = |random: &mut Random, at: usize| {
        if noise > 0 && random.once_in(noise) {
            random.pick(pool)
        } else {
            round[at % period]
        }
    };
    (0..length).map(|at| drawn(random, at)).collect()
}

/// Puts the pattern into the text in some places, as itself or with other letters that meet its own, sometimes with one
/// letter that does not.
pub fn plant(random: &mut Random, k: u32, pattern: &[u32], text: &mut [u32]) {
    if pattern.len() > text.len() {
        return;
    }
    for _ in 0..random.between(1, 1 + text.len() / pattern.len() / 2) {
        let at = random.between(0, text.len() - pattern.len());
        let alike = random.once_in(2);
        for (j, letter) in pattern.iter().enumerate() {
            let shared: Vec<u32> = members(*letter).collect();
            let other = 1 << random.pick(&shared) | if random.once_in(3) { 1 << random.below(k as usize) } else { 0 };
            text[at + j] = if alike { *letter } else { other };
        }
        if random.once_in(3) {
            let spoilt = random.below(pattern.len());
            let rest = whole(k) & !pattern[spoilt];
            text[at + spoilt] = if rest == 0 { text[at + spoilt] } else { rest };
        }
    }
}

/// Marks in some of the hits, so that a name is cut in two, or right behind them, where Sunday looks for its shift.
fn mark_hits(random: &mut Random, pattern: &[u32], text: &mut [u32]) {
    for start in hits(pattern, text) {
        let inside = random.below(pattern.len());
        let at = start as usize + random.pick(&[inside, pattern.len()]);
        if at < text.len() && random.once_in(2) {
            text[at] = MARK;
        }
    }
}

/// Stretches that meet whatever stands in the pattern, each with a mark behind it: KMP carries on what has met, and
/// comes to the same mark from start after start.
fn mark_stretches(random: &mut Random, pattern: &[u32], text: &mut [u32]) {
    let any = pattern.iter().fold(0, |all, letter| all | letter);
    for _ in 0..random.between(1, 3) {
        let at = random.below(text.len());
        let end = (at + random.between(1, pattern.len())).min(text.len() - 1);
        text[at..end].fill(any);
        text[end] = MARK;
    }
}

/// Entries all of one length, or none longer than that.
fn mark_entries(random: &mut Random, longest: usize, text: &mut [u32]) {
    let alike = random.once_in(2);
    let mut at = random.below(longest + 1);
    while at < text.len() {
        text[at] = MARK;
        at += 1 + if alike { longest } else { random.between(0, longest) };
    }
}

/// Puts marks into a text: first, last, two in a row, between entries, where the pattern meets it, or nothing else.
pub fn mark(random: &mut Random, pattern: &[u32], text: &mut [u32]) {
    let n = text.len();
    if n == 0 {
        return;
    }
    match random.below(16) {
        0 => text.fill(MARK),
        1 => text[0] = MARK,
        2 => text[n - 1] = MARK,
        3 | 4 => {
            let at = random.below(n);
            text[at..n.min(at + 2)].fill(MARK);
        }
        5..=8 => {
            let longest = random.between(0, 2 * pattern.len());
            mark_entries(random, longest, text);
        }
        9..=12 => mark_hits(random, pattern, text),
        _ => mark_stretches(random, pattern, text),
    }
}

/// A pattern and a text that have something to do with each other. In about every other text there are marks.
pub fn pair(random: &mut Random, k: u32, m: usize, n: usize) -> (Vec<u32>, Vec<u32>) {
    let doubt = random.pick(&[0, 0, 1, 1, 2, 4]);
    let size = random.pick(&[1, 2, 2, 3, 4, 8]);
    let pool: Vec<u32> = (0..size).map(|_| letter(random, k, doubt)).collect();
    let other: Vec<u32> = match random.below(3) {
        // Single pattern, doubtful text, and the other way round.
        0 => pool.iter().map(|c| 1 << c.trailing_zeros()).collect(),
        1 => pool.iter().map(|c| c | 1 << random.below(k as usize)).collect(),
        _ => pool.clone(),
    };
    let pattern = string(random, &pool, m);
    let mut text = string(random, &other, n);
    if random.once_in(2) {
        plant(random, k, &pattern, &mut text);
    }
    if random.once_in(2) {
        mark(random, &pattern, &mut text);
    }
    (pattern, text)
}

pub fn alphabet(random: &mut Random, k: usize) -> Vec<u8> {
    let mut all: Vec<u8> = (0..=255).filter(|b| allowed(*b)).collect();
    (0..k).map(|_| all.swap_remove(random.below(all.len()))).collect()
}

/// A right sheet. One in sixty is as long as a sheet may be, or almost.
pub fn sheet(random: &mut Random) -> Sheet {
    let k = random.pick(&[1, 1, 2, 2, 3, 3, 3, 4, 5, 9, 26, 31, 32]);
    let m = random.pick(&[1, 1, 2, 2, 3, 4, 5, 63, 64]);
    let n = match random.below(12) {
        0 => 0,
        1 => 1,
        2 => m,
        3 => random.between(30, 300),
        _ => random.between(1, 30),
    };
    let (pattern, text) = pair(random, k, m, n);
    let mut sheet = Sheet { alphabet: alphabet(random, k as usize), pattern, text };
    if random.once_in(60) {
        let spare = random.pick(&[0, 0, 1, 2]);
        fill_up(random, &mut sheet, 8192 - spare);
    }
    sheet
}

/// Adds single letters and marks, each one byte long, to the text until the sheet has so many bytes, or one less where
/// the count's digits jump.
pub fn fill_up(random: &mut Random, sheet: &mut Sheet, length: usize) {
    let k = sheet.alphabet.len();
    while bytes(sheet).len() < length {
        let missing = length - bytes(sheet).len();
        let added = (0..missing.div_ceil(2)).map(|_| if random.once_in(9) { MARK } else { 1 << random.below(k) });
        sheet.text.extend(added);
        if bytes(sheet).len() > length {
            sheet.text.pop();
            break;
        }
    }
}

/// One edit: replace, insert, delete, swap, repeat a piece, or cut off.
pub fn damage(random: &mut Random, sheet: &mut Vec<u8>) {
    let likely: Vec<u8> = sheet.iter().copied().chain(*b"\n\n\r []]*[||09123x~\x7f\x00\xff").collect();
    let byte = random.pick(&likely);
    let length = sheet.len();
    // Most of the structure stands in the front, so half of the edits go there.
    let at = if random.once_in(2) { random.below(length.min(16) + 1) } else { random.below(length + 1) };
    match random.below(8) {
        0 | 1 if at < length => sheet[at] = byte,
        2 | 3 => sheet.insert(at, byte),
        4 if at < length => drop(sheet.remove(at)),
        5 if at + 1 < length => sheet.swap(at, at + 1),
        6 => sheet.truncate(at),
        7 if at < length => {
            let piece = sheet[at..length.min(at + random.between(1, 6))].to_vec();
            sheet.splice(at..at, piece);
        }
        _ => sheet.push(byte),
    }
}

/// Counts around every limit, and what is no count.
const COUNTS: [&str; 33] = [
    "",
    "0",
    "00",
    "1",
    "01",
    "2",
    "3",
    "03",
    "4",
    "31",
    "32",
    "33",
    "63",
    "64",
    "65",
    "99",
    "100",
    "65535",
    "65536",
    "65537",
    "99999",
    "100000",
    "65536 ",
    " 1",
    "+1",
    "-1",
    "1.",
    "0x1",
    "a",
    "\r",
    "1\r",
    "000001",
    "4294967297",
];

/// Every count in each section.
fn each_count() -> Vec<Vec<u8>> {
    let mut all: Vec<Vec<u8>> = Vec::new();
    let line = |letter: &str, count: &str| letter.repeat(count.parse::<usize>().unwrap_or(1).min(200));
    let letters = "abcdefghijklmnopqrstuvwxyz0123456789ABCDEFGHIJKLMNOPQRSTUVWXYZ";
    for count in COUNTS {
        let k = count.parse::<usize>().unwrap_or(3).min(40);
        all.push(format!("{count}\n{}\n1\na\n1\na\n", &letters[..k]).into());
        all.push(format!("3\naen\n{count}\n{}\n1\na\n", line("a", count)).into());
        all.push(format!("3\naen\n1\na\n{count}\n{}\n", line("n", count)).into());
        all.push(format!("3\naen\n1\na\n{count}\n{}\n", line("[ae]", count)).into());
        all.push(format!("3\naen\n1\na\n{count}\n\n").into());
    }
    all
}

/// Every place where a sheet may stop, every kind of line end, and what may stand behind a sheet.
fn each_end(sheet: &str) -> Vec<Vec<u8>> {
    let mut all: Vec<Vec<u8>> = Vec::new();
    for end in 0..=sheet.len() {
        all.push(sheet[..end].into());
        all.push([&sheet[..end], "\n"].concat().into());
    }
    for line_end in ["\r\n", "\r", "\n\n"] {
        all.push(sheet.replace('\n', line_end).into());
    }
    for tail in ["\n", "\0", "x", " ", "|", "3\naen\n"] {
        all.push([sheet, tail].concat().into());
    }
    all
}

/// Every byte in every kind of place: in the alphabet, as a letter of either line, and in a bracket of either line.
fn each_byte() -> Vec<Vec<u8>> {
    let places = [
        ("3\na", "n\n1\nn\n1\nn\n"),
        ("2\n ", "\n1\n \n1\n*\n"),
        ("3\naen\n1\n", "\n1\na\n"),
        ("3\naen\n1\na\n1\n", "\n"),
        ("3\naen\n1\n[", "n]\n1\na\n"),
        ("4\naenr\n1\na\n1\n[a", "r]\n"),
    ];
    let placed = |byte: u8| places.map(|(front, back)| [front.as_bytes(), &[byte], back.as_bytes()].concat());
    (0..=255).flat_map(placed).collect()
}

/// Marks in every section: counted and not counted, alone, beside doubts, in brackets, in patterns, in alphabets.
fn each_mark() -> Vec<Vec<u8>> {
    let mut all: Vec<String> = Vec::new();
    for text in ["|", "||", "|a", "a|", "a|a", "a||a", "*|*", "[ae]|[en]", "|[|", "[a|n]", "[|]", "|*|", "an|na"] {
        all.extend((0..=5).map(|n| format!("3\naen\n1\n*\n{n}\n{text}\n")));
        all.push(format!("3\naen\n2\nan\n5\n{text}\n"));
    }
    for pattern in ["|", "||", "|a", "a|", "*|", "[a|n]", "[an|]", "[|", "x|"] {
        all.extend((1..=2).map(|m| format!("3\naen\n{m}\n{pattern}\n1\n|\n")));
    }
    for alphabet in ["|", "a|", "|a", "||", "ae|", "*|n", "aen|", "abcdefghijklmnopqrstuvwxyz01234|"] {
        all.push(format!("{}\n{alphabet}\n1\na\n1\n|\n", alphabet.len()));
    }
    for alphabet in ["a", "ae", "abcdefghijklmnopqrstuvwxyz012345"] {
        let front = format!("{}\n{alphabet}\n1\na\n3\n", alphabet.len());
        all.extend(["|a|", "|*|", "||[", "|||"].map(|text| format!("{front}{text}\n")));
    }
    all.into_iter().map(String::into_bytes).collect()
}

/// Sheets as long as they may be, and longer.
fn each_length() -> Vec<Vec<u8>> {
    let mut all: Vec<Vec<u8>> = Vec::new();
    for length in [8190, 8191, 8192, 8193, 8194, 20_000] {
        let text = |letter: &str, n: usize| format!("3\naen\n1\na\n{n}\n{}\n", letter.repeat(n)).into_bytes();
        all.push(text("e", length - 16));
        all.push(text("|", length - 16));
        all.push([text("e", 100), vec![b'x'; length - text("e", 100).len()]].concat());
        all.push(vec![b'x'; length]);
        all.push([&b"3\naen\n1\na\n1000\n"[..], &vec![b'e'; length - 15]].concat());
    }
    all
}

/// Odd sheets of every kind.
pub fn odd_sheets() -> Vec<Vec<u8>> {
    let worked = each_end("3\naen\n4\nanna\n12\nannann[ae]nann[an]\n");
    let entries = each_end("3\naen\n4\nanna\n9\nan|naanna\n");
    [each_count(), worked, entries, each_byte(), each_mark(), each_length()].concat()
}

/// The sheets that stand in the folder sheets/.
pub fn folder_sheets() -> Result<Vec<Vec<u8>>, String> {
    let folder = Path::new(env!("CARGO_MANIFEST_DIR")).join("../sheets");
    let entries = fs::read_dir(&folder).map_err(|e| format!("{}: {e}", folder.display()))?;
    let mut paths: Vec<_> = entries.flatten().map(|entry| entry.path()).collect();
    paths.retain(|path| path.extension().is_some_and(|e| e == "sheet"));
    paths.sort();
    paths.iter().map(|path| fs::read(path).map_err(|e| format!("{}: {e}", path.display()))).collect()
}
