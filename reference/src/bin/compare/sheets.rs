//! The sheet's reader and writer, and the report.

use crate::cases::{damage, fill_up, folder_sheets, odd_sheets, pair, sheet, strings_up_to};
use crate::library::{self, ReadCase, WriteCase};
use crate::searches::wrong;
use crate::{Run, Told};
use reference::letters::{whole, MARK};
use reference::report::report;
use reference::sheet::{bytes, Sheet};

/// No report of an accepted sheet is longer, says c/breakwarp.h.
const MAX_REPORT: usize = 40_000;

/// A slice that is short by one, exact, longer, or has no room at all.
fn room(run: &mut Run, needed: usize) -> usize {
    let lengths = [needed, needed, needed, needed + 1, needed + 5, needed.saturating_sub(1), 0];
    run.random.pick(&lengths)
}

fn read_one(run: &mut Run, case: &ReadCase) -> Told {
    let due = run.expect.read_sheet(case);
    let seen = library::read_sheet(case, &due);
    run.count("read_sheet", case, &due, seen)
}

/// Reads with ample room, with exact room, and with one slice each too short by one.
fn read_all_rooms(run: &mut Run, sheet: &[u8], k: usize, m: usize, n: usize) -> Told {
    let ample = ReadCase { sheet: sheet.to_vec(), nalphabet: 40, npattern: 70, ntext: n + 20, nsizes: 5 };
    let exact = ReadCase { nalphabet: k, npattern: m, ntext: n, nsizes: 3, ..ample.clone() };
    read_one(run, &ample)?;
    read_one(run, &exact)?;
    read_one(run, &ReadCase { nalphabet: k.saturating_sub(1), ..exact.clone() })?;
    read_one(run, &ReadCase { npattern: m.saturating_sub(1), ..exact.clone() })?;
    read_one(run, &ReadCase { ntext: n.saturating_sub(1), ..exact.clone() })?;
    read_one(run, &ReadCase { nsizes: 2, ..exact.clone() })?;
    read_one(run, &ReadCase { nalphabet: 0, npattern: 0, ntext: 0, nsizes: 0, ..exact })
}

/// All lines over these bytes, up to so many.
fn lines(alphabet: &str, others: &[u8], length: usize) -> Vec<Vec<u8>> {
    let set: Vec<u32> = [alphabet.as_bytes(), others].concat().iter().map(|b| u32::from(*b)).collect();
    let lines = strings_up_to(&set, length);
    lines.iter().map(|line| line.iter().map(|b| *b as u8).collect()).collect()
}

/// Every line of up to five bytes over a small alphabet, as a text line and as a pattern line; with `|` those that have
/// it in the place of another byte that is no letter.
fn short_lines(run: &mut Run) -> Told {
    for alphabet in ["a", "ab", "abc"] {
        let mut marked = lines(alphabet, b"[]*\n|", 5);
        marked.retain(|line| line.contains(&b'|'));
        for line in lines(alphabet, b"[]*\nx", 5).into_iter().chain(marked) {
            let count = run.random.between(0, line.len());
            let text = format!("{}\n{alphabet}\n1\na\n{count}\n", alphabet.len());
            let sheet = [text.as_bytes(), &line, b"\n"].concat();
            read_one(run, &ReadCase { sheet, nalphabet: 3, npattern: 1, ntext: 6, nsizes: 3 })?;
            let pattern = format!("{}\n{alphabet}\n{}\n", alphabet.len(), count.max(1));
            let sheet = [pattern.as_bytes(), &line, b"\n0\n\n"].concat();
            read_one(run, &ReadCase { sheet, nalphabet: 3, npattern: 6, ntext: 0, nsizes: 3 })?;
        }
    }
    Ok(())
}

pub fn read(run: &mut Run) -> Told {
    for given in folder_sheets()?.into_iter().chain(odd_sheets()) {
        read_all_rooms(run, &given, 3, 4, 12)?;
        read_one(run, &ReadCase { sheet: given, nalphabet: 32, npattern: 64, ntext: 8192, nsizes: 3 })?;
    }
    short_lines(run)?;
    for _ in 0..run.times(20_000) {
        let right = sheet(&mut run.random);
        let (k, m, n) = (right.alphabet.len(), right.pattern.len(), right.text.len());
        let mut sheet = bytes(&right);
        if run.random.once_in(4) {
            read_all_rooms(run, &sheet, k, m, n)?;
        }
        for _ in 0..run.random.below(4) {
            damage(&mut run.random, &mut sheet);
            let (nalphabet, npattern, ntext) = (room(run, k), room(run, m), room(run, n));
            let nsizes = run.random.pick(&[3, 3, 3, 4, 2, 0]);
            read_one(run, &ReadCase { sheet: sheet.clone(), nalphabet, npattern, ntext, nsizes })?;
            read_one(run, &ReadCase { sheet: sheet.clone(), nalphabet: k, npattern: m + 1, ntext: n + 6, nsizes: 3 })?;
        }
    }
    Ok(())
}

fn write_one(run: &mut Run, case: &WriteCase) -> Told {
    let due = run.expect.write_sheet(case);
    let seen = library::write_sheet(case, &due);
    run.count("write_sheet", case, &due, seen)
}

fn case_of(sheet: &Sheet, cap: usize) -> WriteCase {
    let Sheet { alphabet, pattern, text } = sheet.clone();
    WriteCase { k: alphabet.len() as u32, alphabet, pattern, text, cap }
}

/// A wrong alphabet: too short, too long, a byte that is not allowed, a byte twice, or two of these.
fn spoil_alphabet(run: &mut Run, alphabet: &mut Vec<u8>) {
    let random = &mut run.random;
    for _ in 0..random.between(1, 2) {
        if alphabet.is_empty() {
            alphabet.push(b'a');
        }
        let at = random.below(alphabet.len());
        match random.below(5) {
            0 => drop(alphabet.pop()),
            1 => alphabet.push(random.pick(b"\n[a~0|")),
            2 => alphabet.extend([b'a'; 40]),
            3 => alphabet[at] = random.pick(b"[]*||\n\r\x1f\x7f\x00\xff\x80\t"),
            _ => alphabet[at] = random.pick(&alphabet[..]),
        }
    }
}

/// The eight things that can be wrong with a writing, each as a bit of `faults`.
fn faulty(run: &mut Run, faults: usize) -> WriteCase {
    let fault = |number: usize| faults >> number & 1 == 1;
    let right = sheet(&mut run.random);
    let length = bytes(&right).len();
    let mut case = case_of(&right, length + run.random.below(4));
    if fault(6) {
        // Above 8,192 bytes by the text's letters alone.
        let n = run.random.pick(&[8190, 8192, 20_000, 65_536]);
        case.text = (0..n).map(|_| 1).collect();
        case.cap = run.random.pick(&[8192, 8193, 70_000]);
    }
    if fault(4) {
        let wrong = wrong(&mut run.random, case.k, 1);
        case.pattern[right.pattern.len() / 2] = run.random.pick(&[MARK, wrong]);
    }
    if fault(5) {
        // With a mark before it or behind it in half of the cases.
        let wrong = wrong(&mut run.random, case.k, 1);
        case.text.extend(run.random.pick(&[[wrong, 1], [MARK, wrong], [wrong, MARK], [1, wrong]]));
    }
    if fault(1) {
        spoil_alphabet(run, &mut case.alphabet);
    }
    if fault(0) {
        case.k = run.random.pick(&[0, 33, 34, 64, u32::MAX]);
    }
    if fault(2) {
        case.pattern.resize(run.random.pick(&[0, 65, 66]), 0);
    }
    if fault(3) {
        case.text.resize(run.random.pick(&[65_537, 66_000]), 1);
    }
    if fault(7) {
        case.cap = run.random.pick(&[0, 1, length.saturating_sub(1), length / 2]);
    }
    case
}

pub fn write(run: &mut Run) -> Told {
    for _ in 0..run.times(10_000) {
        let right = sheet(&mut run.random);
        let length = bytes(&right).len();
        for cap in [length, length + run.random.between(1, 9), length.saturating_sub(1), run.random.below(length)] {
            write_one(run, &case_of(&right, cap))?;
        }
    }
    for round in 0..run.times(256 * 16) {
        let faults = run.random.faults(round, 8);
        let case = faulty(run, faults);
        write_one(run, &case)?;
    }
    write_full(run)
}

/// Around 8,192 bytes, with single letters, doubts and marks at the end.
fn write_full(run: &mut Run) -> Told {
    for k in [1, 2, 3, 32] {
        let (pattern, text) = pair(&mut run.random, k, 64, 500);
        // For one base letter the third of these is the mark too.
        for last in [1, whole(k), whole(k) & !1, MARK] {
            let alphabet: Vec<u8> = (b'0'..=b'9').chain(b'a'..=b'z').take(k as usize).collect();
            let mut full = Sheet { alphabet, pattern: pattern.clone(), text: text.clone() };
            full.text.push(last);
            fill_up(&mut run.random, &mut full, 8190);
            for _ in 0..5 {
                let length = bytes(&full).len();
                for cap in [length - 1, length, length + 1, 8192, 9000] {
                    write_one(run, &case_of(&full, cap))?;
                }
                let letter = run.random.pick(&[1, MARK]);
                full.text.push(letter);
            }
        }
    }
    Ok(())
}

fn report_one(run: &mut Run, sheet: &[u8], cap: usize) -> Told {
    let due = run.expect.report(sheet, cap);
    let seen = library::report(sheet, cap, &due);
    run.count("report", &format_args!("sheet \"{}\" into {cap}", sheet.escape_ascii()), &due, seen)
}

/// The sheets with the longest reports, a hit at every start, or engines that work as hard as they can; and one of
/// nothing but marks.
fn longest() -> Vec<Vec<u8>> {
    let alphabet = b"ab".to_vec();
    let full = |k: usize, pattern: Vec<u32>, letter: u32| {
        let mut sheet = Sheet { alphabet: alphabet[..k].to_vec(), pattern, text: vec![letter; 8000] };
        while bytes(&sheet).len() < 8192 {
            sheet.text.push(letter);
        }
        bytes(&sheet)
    };
    let hits = [full(1, vec![1], 1), full(1, vec![1; 64], 1), full(2, vec![3; 64], 3), full(2, vec![1; 64], 3)];
    hits.into_iter().chain([full(2, vec![3; 2], MARK)]).collect()
}

pub fn reports(run: &mut Run) -> Told {
    for sheet in longest() {
        let length = report(&sheet).map_err(|r| format!("{r:?}"))?.len();
        if length > MAX_REPORT {
            return Err(format!("a report of {length} bytes, above the bound of the header"));
        }
        for cap in [length - 1, length, length + 1, MAX_REPORT] {
            report_one(run, &sheet, cap)?;
        }
    }
    for given in folder_sheets()?.into_iter().chain(odd_sheets()) {
        report_one(run, &given, MAX_REPORT)?;
        report_one(run, &given, 0)?;
    }
    for _ in 0..run.times(30) {
        let sheet = bytes(&sheet(&mut run.random));
        let length = report(&sheet).map_err(|r| format!("{r:?}"))?.len();
        if length < 2000 {
            (0..=length + 1).try_for_each(|cap| report_one(run, &sheet, cap))?;
        }
    }
    for _ in 0..run.times(10_000) {
        let mut sheet = bytes(&sheet(&mut run.random));
        for _ in 0..run.random.below(3) {
            damage(&mut run.random, &mut sheet);
        }
        let length = report(&sheet).map_or(50, |bytes| bytes.len());
        let cap = room(run, length);
        report_one(run, &sheet, cap)?;
        report_one(run, &sheet, length)?;
    }
    Ok(())
}
