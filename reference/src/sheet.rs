//! The search sheet: how a letter is spelled, the reader and the writer.
//!
//! The one ground for letters is `spelling`. A letter line is right if it is a row of spellings and LF, and a byte is
//! wrong if no right line begins with the bytes up to it; the reader asks just that. The mark is spelled as any letter
//! is, and only the text's line may hold it.

use crate::letters::{members, whole, MARK};
use crate::refusals::{check_k, check_m, check_n, check_room, check_search, refuse, Refusal, MAX_SHEET};

const LF: u8 = b'\n';

/// What a sheet holds.
#[derive(Clone, Debug, Default, PartialEq, Eq)]
pub struct Sheet {
    pub alphabet: Vec<u8>,
    pub pattern: Vec<u32>,
    pub text: Vec<u32>,
}

/// How much is lent to the reader for each section.
#[derive(Clone, Copy, Debug)]
pub struct Room {
    pub alphabet: usize,
    pub pattern: usize,
    pub text: usize,
}

impl Room {
    /// Enough for every sheet.
    pub const AMPLE: Room = Room { alphabet: usize::MAX, pattern: usize::MAX, text: usize::MAX };
}

/// The two lines that hold letters.
#[derive(Clone, Copy, Debug, PartialEq, Eq)]
pub enum Line {
    Pattern,
    Text,
}

impl Line {
    /// A mark stands in the text alone.
    fn may_hold(self, letter: u32) -> bool {
        self == Line::Text || letter != MARK
    }
}

/// The bytes that an alphabet may hold: those that spell nothing else.
pub fn allowed(byte: u8) -> bool {
    (32..=126).contains(&byte) && !b"[]*|".contains(&byte)
}

/// How a letter is spelled. The order of the questions matters for k = 1: its one letter is its byte, not `*`.
pub fn spelling(alphabet: &[u8], letter: u32) -> Vec<u8> {
    let bytes: Vec<u8> = members(letter).map(|b| alphabet[b as usize]).collect();
    if letter == MARK {
        vec![b'|']
    } else if bytes.len() == 1 {
        bytes
    } else if bytes.len() == alphabet.len() {
        vec![b'*']
    } else {
        [&b"["[..], &bytes, &b"]"[..]].concat()
    }
}

/// The base letters whose bytes occur among these; none for `|`, which is the mark.
fn named(alphabet: &[u8], bytes: &[u8]) -> u32 {
    (0..alphabet.len()).filter(|b| bytes.contains(&alphabet[*b])).map(|b| 1 << b).sum()
}

/// The letter of this line that is spelled so, if there is one.
fn spelled(line: Line, alphabet: &[u8], bytes: &[u8]) -> Option<u32> {
    let whole = whole(alphabet.len() as u32);
    [named(alphabet, bytes), whole].into_iter().find(|c| line.may_hold(*c) && spelling(alphabet, *c) == bytes)
}

/// Does the spelling of some letter of this line begin with these bytes? Such a letter has all the members that the
/// bytes name. If it has more than two others, it can lose one of them and still be spelled in brackets that begin so;
/// so it is enough to ask for up to two others.
pub fn begins_letter(line: Line, alphabet: &[u8], bytes: &[u8]) -> bool {
    let k = alphabet.len();
    let begins = |letter: u32| line.may_hold(letter) && spelling(alphabet, letter).starts_with(bytes);
    let named = named(alphabet, bytes);
    begins(named)
        || begins(whole(k as u32))
        || (0..k).any(|x| begins(named | 1 << x))
        || (0..k).any(|x| (0..x).any(|y| begins(named | 1 << x | 1 << y)))
}

/// The letter whose spelling stands at the front, and the spelling's length. No spelling begins with another one, so
/// there is at most one.
fn first_letter(line: Line, alphabet: &[u8], bytes: &[u8]) -> Option<(u32, usize)> {
    let longest = bytes.len().min(alphabet.len() + 1);
    (1..=longest).find_map(|end| spelled(line, alphabet, &bytes[..end]).map(|letter| (letter, end)))
}

/// Does some right letter line begin with these bytes? A right line is any number of spellings, then LF.
pub fn begins_letter_line(line: Line, alphabet: &[u8], bytes: &[u8]) -> bool {
    if bytes.is_empty() || bytes == [LF] || begins_letter(line, alphabet, bytes) {
        return true;
    }
    match first_letter(line, alphabet, bytes) {
        Some((_, end)) => begins_letter_line(line, alphabet, &bytes[end..]),
        None => false,
    }
}

/// Does some right alphabet line begin with these bytes? There are 91 allowed bytes, so what is right so far can
/// always be brought to k different ones.
pub fn begins_alphabet_line(k: usize, bytes: &[u8]) -> bool {
    let (front, end) = bytes.split_at(k.min(bytes.len()));
    let different = (0..front.len()).all(|j| !front[..j].contains(&front[j]));
    front.iter().all(|b| allowed(*b)) && different && (end.is_empty() || end == [LF])
}

/// The first index such that nothing right begins with the bytes up to it, or the length if there is none.
pub fn first_wrong(bytes: &[u8], begins: impl Fn(&[u8]) -> bool) -> usize {
    (0..bytes.len()).find(|j| !begins(&bytes[..=*j])).unwrap_or(bytes.len())
}

/// A count line at the front: the number, and the place after its LF. It is right if it is how some number of at most
/// five digits is written.
fn read_count(sheet: &[u8], at: usize) -> Result<(usize, usize), Refusal> {
    let end = sheet[at..].iter().position(|b| *b == LF);
    let Some(end) = end.map(|e| at + e) else { return refuse(11, at) };
    let line = std::str::from_utf8(&sheet[at..end]).unwrap_or("");
    match line.parse::<usize>() {
        Ok(number) if number <= 99_999 && number.to_string() == line => Ok((number, end + 1)),
        _ => refuse(11, at),
    }
}

/// A letter line: its letters, and the place after its LF. Right letters are passed one by one, so that the question
/// for the first wrong byte need only look at what stands after them.
fn read_letters(line: Line, alphabet: &[u8], sheet: &[u8], mut at: usize) -> Result<(Vec<u32>, usize), Refusal> {
    let mut letters = Vec::new();
    while let Some((letter, length)) = first_letter(line, alphabet, &sheet[at..]) {
        letters.push(letter);
        at += length;
    }
    let rest = &sheet[at..];
    if rest.first() == Some(&LF) {
        return Ok((letters, at + 1));
    }
    refuse(13, at + first_wrong(rest, |bytes| begins_letter_line(line, alphabet, bytes)))
}

/// The reader. For each section: 11, then its count, then its line, then 14, then 8.
pub fn read(sheet: &[u8], room: Room) -> Result<Sheet, Refusal> {
    if sheet.len() > MAX_SHEET {
        return refuse(10, 0);
    }
    let placed = |result: Result<(), Refusal>, place| result.map_err(|r| Refusal { place, ..r });

    let (k, line) = read_count(sheet, 0)?;
    placed(check_k(k as u32), 0)?;
    let wrong = first_wrong(&sheet[line..], |bytes| begins_alphabet_line(k, bytes));
    if wrong < k + 1 {
        return refuse(12, line + wrong);
    }
    let alphabet = sheet[line..line + k].to_vec();
    check_room(k, room.alphabet)?;

    let count = line + k + 1;
    let (m, line) = read_count(sheet, count)?;
    placed(check_m(m), count)?;
    let (pattern, after) = read_letters(Line::Pattern, &alphabet, sheet, line)?;
    if pattern.len() != m {
        return refuse(14, count);
    }
    check_room(m, room.pattern)?;

    let count = after;
    let (n, line) = read_count(sheet, count)?;
    placed(check_n(n), count)?;
    let (text, after) = read_letters(Line::Text, &alphabet, sheet, line)?;
    if text.len() != n {
        return refuse(14, count);
    }
    check_room(n, room.text)?;

    if after < sheet.len() {
        return refuse(15, after);
    }
    Ok(Sheet { alphabet, pattern, text })
}

/// Refusal 12 of the writer: the lowest index that is missing, is surplus, or has a byte that is not allowed or stands
/// before it already.
fn check_alphabet(k: usize, alphabet: &[u8]) -> Result<(), Refusal> {
    let wrong =
        |j: &usize| *j >= k || *j >= alphabet.len() || !allowed(alphabet[*j]) || alphabet[..*j].contains(&alphabet[*j]);
    match (0..k.max(alphabet.len())).find(wrong) {
        Some(place) => refuse(12, place),
        None => Ok(()),
    }
}

/// The bytes of a sheet, however long.
pub fn bytes(sheet: &Sheet) -> Vec<u8> {
    let mut out = Vec::new();
    out.extend(format!("{}\n", sheet.alphabet.len()).bytes());
    out.extend(&sheet.alphabet);
    out.push(LF);
    for letters in [&sheet.pattern, &sheet.text] {
        out.extend(format!("{}\n", letters.len()).bytes());
        letters.iter().for_each(|c| out.extend(spelling(&sheet.alphabet, *c)));
        out.push(LF);
    }
    out
}

/// The writer, into room for `lent` bytes. It checks as search does, with 12 after 1.
pub fn write(k: u32, alphabet: &[u8], pattern: &[u32], text: &[u32], lent: usize) -> Result<Vec<u8>, Refusal> {
    check_k(k)?;
    check_alphabet(k as usize, alphabet)?;
    check_search(k, pattern, text)?;
    let out = bytes(&Sheet { alphabet: alphabet.to_vec(), pattern: pattern.to_vec(), text: text.to_vec() });
    if out.len() > MAX_SHEET {
        return refuse(10, 0);
    }
    check_room(out.len(), lent)?;
    Ok(out)
}
