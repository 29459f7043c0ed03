//! What is expected of each call: its answer and every cell that it writes, from the reference.

use crate::library::{BorrowedCase, ConvertCase, FirstCase, ReadCase, SearchCase, Way, WriteCase};
use crate::{broken, broken_bound, broken_reasons};
use reference::bound::{bound, bound_choice};
use reference::engines::{search, Engine};
use reference::first::{first, first_hit};
use reference::letters::{hits, right_in_pattern, right_in_text, whole, MARK};
use reference::products::{from_products, is_product, product, products_meet, to_products};
use reference::reasons::reasons;
use reference::refusals::{
    check_each, check_k, check_m, check_n, check_pattern, check_room, check_search, check_start, check_text, refuse,
    Refusal,
};
use reference::report::{report, report_of};
use reference::sheet::{allowed, read, write, Room};
use std::fmt;

/// The answer, and what is written at the front of each lent slice; all else keeps its content.
#[derive(Clone, Default, PartialEq, Eq)]
pub struct Outcome {
    pub answer: i64,
    pub bytes: Vec<u8>,
    pub letters: Vec<u32>,
    pub more: Vec<u32>,
    pub numbers: Vec<u64>,
}

impl fmt::Debug for Outcome {
    fn fmt(&self, f: &mut fmt::Formatter) -> fmt::Result {
        write!(f, "{}", self.answer)?;
        if !self.bytes.is_empty() {
            write!(f, ", \"{}\"", self.bytes.escape_ascii())?;
        }
        for letters in [&self.letters, &self.more].into_iter().filter(|letters| !letters.is_empty()) {
            write!(f, ", {letters:?}")?;
        }
        if self.numbers.is_empty() {
            Ok(())
        } else {
            write!(f, ", {:?}", self.numbers)
        }
    }
}

fn refused(refusal: Refusal) -> Outcome {
    Outcome { answer: refusal.code(), ..Outcome::default() }
}

/// The last index of a wrong letter or value, where the lowest is to be named.
fn last_wrong(values: &[u32], right: impl Fn(u32) -> bool) -> usize {
    values.iter().rposition(|v| !right(*v)).unwrap_or(0)
}

/// A place in a text, counted from the beginning of its entry.
fn in_entry(text: &[u32], place: usize) -> usize {
    place - text[..place].iter().rposition(|c| *c == MARK).map_or(0, |mark| mark + 1)
}

/// The pattern with a letter in the place of each mark.
fn unmarked(pattern: &[u32]) -> Vec<u32> {
    pattern.iter().map(|c| if *c == MARK { 1 } else { *c }).collect()
}

/// The checks of a search that come before its letters: 1, 2, 3.
fn check_sizes(k: u32, pattern: &[u32], text: &[u32]) -> Result<(), Refusal> {
    check_k(k)?;
    check_m(pattern.len())?;
    check_n(text.len())
}

/// The expectation, with the slip that was asked for, if any.
#[derive(Clone, Copy)]
pub struct Expect {
    pub broken: Option<&'static str>,
}

impl Expect {
    fn is(self, name: &str) -> bool {
        self.broken == Some(name)
    }

    /// A refusal with the place that a slip of any call gives it.
    fn placed(self, refusal: Refusal) -> Refusal {
        let Refusal { number, place } = refusal;
        match (self.broken, number) {
            (Some("place"), _) if place > 0 => Refusal { place: place + 1, ..refusal },
            (Some("place-4"), 4) | (Some("place-5"), 5) | (Some("place-7"), 7) | (Some("place-12"), 12) => {
                Refusal { place: place + 1, ..refusal }
            }
            (Some("no-place"), _) => Refusal { place: 0, ..refusal },
            _ => refusal,
        }
    }

    /// The same for a refusal of the sheet's reader.
    fn placed_in(self, sheet: &[u8], refusal: Refusal) -> Refusal {
        let Refusal { number, place } = refusal;
        let slipped = match (self.broken, number) {
            (Some("size-place"), 2 | 3) => 0,
            (Some("bracket-place"), 13) if sheet.get(place + 1) == Some(&b']') => place + 1,
            (Some("short-place"), 12 | 13) if place == sheet.len() => place - 1,
            (Some("mark-bracket-place"), 13) if sheet.get(place) == Some(&b'|') => {
                let before = sheet[..place].iter().rposition(|b| b"[]\n".contains(b));
                before.filter(|at| sheet[*at] == b'[').unwrap_or(place)
            }
            (Some("differs-place"), 14) => place + sheet[place..].iter().take_while(|b| **b != b'\n').count() + 1,
            (Some("after-place"), 15) => sheet.len(),
            _ => return self.placed(refusal),
        };
        Refusal { place: slipped, ..refusal }
    }

    /// What a search checks, with a slip in a limit or in the order; the checks themselves are the reference's own.
    fn check(self, k: u32, pattern: &[u32], text: &[u32]) -> Result<(), Refusal> {
        let (m, n) = (pattern.len(), text.len());
        let sized = check_sizes(k, pattern, text).is_ok();
        match self.broken {
            Some("k-32") if k == 32 => return refuse(1, 0),
            Some("m-64") if check_k(k).is_ok() && m == 64 => return refuse(2, 0),
            Some("n-65536") if sized && n == 65_536 => return refuse(3, 0),
            Some("order-23") if check_k(k).is_ok() => check_n(n)?,
            Some("order-45") if sized => check_text(k, text)?,
            Some("mark-pattern") => return check_search(k, &unmarked(pattern), text),
            Some("mark-refused") if sized => {
                check_pattern(k, pattern)?;
                check_each(5, text, |c| right_in_pattern(k, c))?;
            }
            _ => {}
        }
        check_search(k, pattern, text)
    }

    /// A refused search, with the place that a slip gives it.
    fn refused_search(self, k: u32, pattern: &[u32], text: &[u32], refusal: Refusal) -> Outcome {
        let place = match (self.broken, refusal.number) {
            (Some("highest"), 4) => last_wrong(pattern, |c| right_in_pattern(k, c)),
            (Some("highest"), 5) => last_wrong(text, |c| right_in_text(k, c)),
            (Some("mark-place"), 5) => in_entry(text, refusal.place),
            _ => refusal.place,
        };
        refused(self.placed(Refusal { place, ..refusal }))
    }

    /// Cuts all starts off where the lent list ends, with the slip that is made in the list or the total.
    fn listed(self, out: &mut Outcome, text: &[u32], cap: usize) {
        let total = out.letters.len();
        out.letters.truncate(cap);
        match self.broken {
            Some("total") if total > 0 => out.answer += 1,
            Some("last-start") => drop(out.letters.pop()),
            Some("tail") if total < cap => out.letters.push(0),
            Some("mark-starts") => {
                out.letters.iter_mut().for_each(|start| *start = in_entry(text, *start as usize) as u32);
            }
            _ => {}
        }
    }

    pub fn search(self, engine: Engine, case: &SearchCase) -> Outcome {
        let checked = self.checked_search(engine, case);
        let mut out = checked.unwrap_or_else(|r| self.refused_search(case.k, &case.pattern, &case.text, r));
        if out.answer < 0 {
            if self.is("refused-writes") {
                out.numbers = vec![0; case.nwork.min(3)];
            }
            return out;
        }
        self.listed(&mut out, &case.text, case.cap);
        match self.broken {
            Some("scan") if out.numbers[0] > 0 => out.numbers[0] += 1,
            Some("shift") if out.numbers[1] > 0 => out.numbers[1] += 1,
            Some("words") if out.numbers[2] > 0 => out.numbers[2] += 1,
            Some("fourth-count") if case.nwork > 3 => out.numbers.push(0),
            _ => {}
        }
        out
    }

    fn checked_search(self, engine: Engine, case: &SearchCase) -> Result<Outcome, Refusal> {
        let SearchCase { k, pattern, text, nwork, .. } = case;
        if self.is("work-first") {
            check_sizes(*k, pattern, text)?;
            check_room(3, *nwork)?;
        }
        self.check(*k, pattern, text)?;
        check_room(3, *nwork)?;
        let found = match self.broken {
            None => search(engine, *k, pattern, text)?,
            Some(_) => broken::run(self.broken, engine, *k, pattern, text),
        };
        let numbers = vec![found.work.scan, found.work.shift, found.work.words];
        Ok(Outcome { answer: found.hits.len() as i64, letters: found.hits, numbers, ..Outcome::default() })
    }

    pub fn first(self, case: &FirstCase) -> Outcome {
        let checked = self.checked_first(case);
        let mut out = checked.unwrap_or_else(|r| self.refused_search(case.k, &case.pattern, &case.text, r));
        if out.answer < 0 {
            if self.is("refused-writes") {
                out.numbers = vec![0; case.nfound.min(2)];
            }
            return out;
        }
        let is_hit = out.answer == 1;
        match self.broken {
            Some("scan") if out.numbers[0] > 0 => out.numbers[0] += 1,
            Some("first-start") if is_hit => out.numbers[1] += 1,
            Some("first-total") if is_hit => out.answer = hits(&case.pattern, &case.text).len() as i64,
            Some("first-third") if is_hit && case.nfound > 2 => out.numbers.push(0),
            Some("first-none-writes") if !is_hit => out.numbers.push(0),
            Some("mark-starts") if is_hit => out.numbers[1] = in_entry(&case.text, out.numbers[1] as usize) as u64,
            _ => {}
        }
        out
    }

    fn checked_first(self, case: &FirstCase) -> Result<Outcome, Refusal> {
        let FirstCase { k, pattern, text, nfound } = case;
        if self.is("first-room-early") {
            check_sizes(*k, pattern, text)?;
            check_room(2, *nfound)?;
        }
        let end_of_hit = || first_hit(pattern, text).start.map_or(text.len(), |start| start as usize + pattern.len());
        match self.check(*k, pattern, text) {
            Err(Refusal { number: 5, place }) if self.is("first-behind") && place >= end_of_hit() => {}
            checked => checked?,
        }
        let found = match self.broken {
            None => first(*k, pattern, text)?,
            Some(_) => broken::first(self.broken, *k, pattern, text),
        };
        let needed = match self.broken {
            Some("first-room-hit") if found.start.is_none() => 0,
            Some("first-room-1") => 1,
            Some("first-room-3") => 3,
            _ => 2,
        };
        check_room(needed, *nfound)?;
        let mut numbers = found.numbers();
        numbers.truncate(*nfound);
        Ok(Outcome { answer: i64::from(found.start.is_some()), numbers, ..Outcome::default() })
    }

    pub fn bound(self, case: &BorrowedCase) -> Outcome {
        let BorrowedCase { k, pattern, text, cap } = *case;
        let starts = match self.broken {
            None => bound(k, pattern, text),
            name => self.check(k, pattern, text).map(|_| broken_bound::starts(name, k, pattern, text)),
        };
        let mut out = match starts {
            Ok(letters) => Outcome { answer: letters.len() as i64, letters, ..Outcome::default() },
            Err(refusal) => {
                let written = if self.is("refused-writes") { cap.min(1) } else { 0 };
                return Outcome { letters: vec![0; written], ..self.refused_search(k, pattern, text, refusal) };
            }
        };
        match self.broken {
            Some("bound-list-room") if out.letters.len() > cap => return refused(Refusal { number: 8, place: 0 }),
            Some("bound-cut") => out.answer = out.answer.min(cap as i64),
            _ => {}
        }
        self.listed(&mut out, text, cap);
        out
    }

    pub fn bound_choice(self, case: &BorrowedCase, start: usize) -> Outcome {
        let BorrowedCase { k, pattern, text, cap } = *case;
        let choose = || broken_bound::choice(self.broken, k, pattern, text, self.taken_start(start));
        let checked = match self.broken {
            None => bound_choice(k, pattern, text, start, cap),
            Some(name) => {
                let unasked = || name == "bound-room-listed" && choose().is_none();
                self.check_at(case, start, unasked).map(|_| choose())
            }
        };
        let chosen = match checked {
            Ok(chosen) => chosen,
            Err(refusal) => return self.refused_at(case, start, refusal, || choose().unwrap_or_default()),
        };
        let (listed, m) = (chosen.is_some(), pattern.len());
        let mut out = Outcome { answer: i64::from(listed), letters: chosen.unwrap_or_default(), ..Outcome::default() };
        match self.broken {
            Some("bound-none-writes") if !listed => out.letters = vec![0; m],
            Some("bound-none-refused") if !listed => return refused(Refusal { number: 16, place: 0 }),
            Some("bound-answers-m") if listed => out.answer = m as i64,
            _ => {}
        }
        self.written_at(out, cap)
    }

    pub fn reasons(self, case: &BorrowedCase, start: usize) -> Outcome {
        let BorrowedCase { k, pattern, text, cap } = *case;
        let share = || broken_reasons::sets(self.broken, k, pattern, text, self.taken_start(start));
        let checked = match self.broken {
            None => reasons(k, pattern, text, start, cap),
            Some(name) => {
                let unasked = || name == "reasons-room-hit" && share().contains(&0);
                self.check_at(case, start, unasked).map(|_| share())
            }
        };
        let letters = match checked {
            Ok(sets) => sets,
            Err(refusal) => return self.refused_at(case, start, refusal, share),
        };
        let (m, shared) = (pattern.len(), letters.iter().filter(|set| **set != 0).count());
        let answer = match self.broken {
            Some("reasons-answers-hit") => usize::from(shared == m),
            Some("reasons-answers-shared") => shared,
            Some("reasons-none-refused") if shared < m => return refused(Refusal { number: 16, place: 0 }),
            _ => m,
        };
        self.written_at(Outcome { answer: answer as i64, letters, ..Outcome::default() }, cap)
    }

    /// What a call at one start checks, with a slip in the order, in the start or in the room. The room is left alone where
    /// it is unasked.
    fn check_at(self, case: &BorrowedCase, start: usize, unasked: impl Fn() -> bool) -> Result<(), Refusal> {
        let BorrowedCase { k, pattern, text, cap } = *case;
        let (m, n) = (pattern.len(), text.len());
        if self.is("start-early") || self.is("start-room-early") {
            check_sizes(k, pattern, text)?;
            if self.is("start-early") {
                check_start(start, m, n)?
            } else {
                check_room(m, cap)?
            }
        }
        let under = |place: usize| place >= start && place - start < m;
        match self.check(k, pattern, text) {
            Err(Refusal { number: 5, place }) if self.is("start-outside") && !under(place) => {}
            checked => checked?,
        }
        if self.is("start-room-first") {
            check_room(m, cap)?;
        }
        self.check_slipped_start(start, m, n)?;
        match self.broken {
            Some("start-room-beyond") => check_room(m + 1, cap),
            Some("start-room-short") => check_room(m - 1, cap),
            _ if unasked() => Ok(()),
            _ => check_room(m, cap),
        }
    }

    /// A refused call at one start, with a slip in its place or in what it leaves alone.
    fn refused_at(self, case: &BorrowedCase, start: usize, refusal: Refusal, values: impl Fn() -> Vec<u32>) -> Outcome {
        let BorrowedCase { k, pattern, text, cap } = *case;
        let place = if self.is("start-place") && refusal.number == 16 { start } else { refusal.place };
        let mut letters = match (self.broken, refusal.number) {
            (Some("refused-writes"), _) => vec![0; pattern.len()],
            (Some("start-room-fills"), 8) => values(),
            _ => vec![],
        };
        letters.truncate(cap);
        Outcome { letters, ..self.refused_search(k, pattern, text, Refusal { place, ..refusal }) }
    }

    /// What a call at one start writes, as far as the room reaches, with the slip that writes one value more.
    fn written_at(self, mut out: Outcome, cap: usize) -> Outcome {
        if self.is("start-writes-beyond") && !out.letters.is_empty() {
            out.letters.push(0);
        }
        out.letters.truncate(cap);
        out
    }

    /// The start that a slip takes this one for.
    fn taken_start(self, start: usize) -> usize {
        if self.is("start-32") {
            start as u32 as usize
        } else {
            start
        }
    }

    /// Refusal 16, with a slip in what is compared.
    fn check_slipped_start(self, start: usize, m: usize, n: usize) -> Result<(), Refusal> {
        let end = start.saturating_add(m);
        let taken = match self.broken {
            Some("start-wraps") => start.wrapping_add(m) <= n,
            Some("start-32") => self.taken_start(start) + m <= n,
            Some("start-last") => end < n,
            Some("start-beyond") => end <= n + 1,
            Some("start-n") => start <= n,
            _ => return check_start(start, m, n),
        };
        if taken {
            Ok(())
        } else {
            refuse(16, 0)
        }
    }

    /// The value that a slip takes this one for.
    fn taken_value(self, way: Way, value: u32) -> u32 {
        match (self.broken, way, value) {
            (Some("one"), Way::FromProducts, 1) => 0,
            (Some("zero"), Way::FromProducts, 0) => 1,
            // No k for products has this letter.
            (Some("mark-refused"), Way::ToProducts, MARK) => 1 << 31,
            _ => value,
        }
    }

    /// The value that a slip writes for this one.
    fn written_value(self, way: Way, value: u32) -> u32 {
        match (self.broken, way, value) {
            (Some("product"), Way::ToProducts, 223_092_870) => value + 1,
            (Some("letter"), Way::FromProducts, 0x1ff) => 0xff,
            (Some("mark-product"), Way::ToProducts, 1) => 0,
            (Some("mark-letter"), Way::FromProducts, MARK) => 1,
            _ => value,
        }
    }

    /// A refused conversion, with the place that a slip gives it.
    fn refused_conversion(self, case: &ConvertCase, refusal: Refusal) -> Outcome {
        let ConvertCase { k, values, .. } = case;
        let place = match (self.broken, refusal.number) {
            (Some("highest"), 5) => last_wrong(values, |c| right_in_text(*k, c)),
            (Some("highest-7"), 7) => last_wrong(values, |v| is_product(*k, v)),
            (Some("mark-place"), 5) => in_entry(values, refusal.place),
            _ => refusal.place,
        };
        refused(self.placed(Refusal { place, ..refusal }))
    }

    pub fn convert(self, case: &ConvertCase) -> Outcome {
        let ConvertCase { way, k, values, cap } = case;
        if self.is("order-36") && (1..=32).contains(k) && values.len() > 65_536 {
            return refused(Refusal { number: 3, place: 0 });
        }
        if self.is("order-58") && (1..=9).contains(k) && values.len() <= 65_536 && *cap < values.len() {
            return refused(Refusal { number: 8, place: 0 });
        }
        let taken: Vec<u32> = values.iter().map(|v| self.taken_value(*way, *v)).collect();
        let converted = match way {
            Way::ToProducts => to_products(*k, &taken, *cap),
            Way::FromProducts => from_products(*k, &taken, *cap),
        };
        let mut out = match converted {
            Ok(letters) => Outcome { answer: letters.len() as i64, letters, ..Outcome::default() },
            Err(refusal) => self.refused_conversion(case, refusal),
        };
        out.letters.iter_mut().for_each(|value| *value = self.written_value(*way, *value));
        if self.is("refused-converts") && out.answer == -8 {
            out.letters = vec![0; *cap];
        }
        out
    }

    pub fn products_meet(self, k: u32, a: u32, b: u32) -> Outcome {
        let taken = |value| self.taken_value(Way::FromProducts, value);
        let meet = match products_meet(k, taken(a), taken(b)) {
            Ok(meet) => meet,
            Err(refusal) if self.is("second-at-0") => return refused(Refusal { place: 0, ..refusal }),
            Err(refusal) => return refused(self.placed(refusal)),
        };
        let meet = match self.broken {
            Some("meet") => meet && a != b,
            Some("ones-meet") => meet || a == 1 && b == 1,
            Some("mark-star") => meet || a.min(b) == 1 && a.max(b) == product(whole(k)),
            _ => meet,
        };
        Outcome { answer: i64::from(meet), ..Outcome::default() }
    }

    /// The sheet that a slip of the reader would take this one for.
    fn taken_for(self, sheet: &[u8]) -> Vec<u8> {
        if self.is("read-zero") && sheet.first() == Some(&b'0') && sheet.get(1).is_some_and(u8::is_ascii_digit) {
            return sheet[1..].to_vec();
        }
        if self.is("read-whole") {
            let alphabet = sheet.split(|b| *b == b'\n').nth(1).unwrap_or(b"");
            let whole = [&b"["[..], alphabet, &b"]"[..]].concat();
            if alphabet.len() > 2 && sheet.windows(whole.len()).any(|w| w == whole) {
                let at = sheet.windows(whole.len()).position(|w| w == whole).unwrap();
                return [&sheet[..at], b"*", &sheet[at + whole.len()..]].concat();
            }
        }
        broken::marked_sheet(self.broken.unwrap_or(""), sheet)
    }

    /// Refusals that a slip of the reader leaves out or brings in.
    fn slipped_read(self, sheet: &[u8]) -> Option<Refusal> {
        self.broken?;
        let answer = read(sheet, Room::AMPLE);
        match (self.broken, answer) {
            (Some("read-13"), Err(Refusal { number: 13, .. })) => Some(Refusal { number: 14, place: 0 }),
            (Some("read-8192"), Ok(_)) if sheet.len() == 8192 => Some(Refusal { number: 10, place: 0 }),
            (Some("mark-uncounted"), Ok(held)) if held.text.contains(&MARK) => {
                Some(Refusal { number: 14, place: broken::line(sheet, 4).start })
            }
            _ => None,
        }
    }

    /// The report, with a slip in what is searched.
    fn reported(self, sheet: &[u8]) -> Result<Vec<u8>, Refusal> {
        if self.broken.is_none() {
            return report(sheet);
        }
        let held = read(sheet, Room::AMPLE)?;
        let (pattern, text) = broken::searched(self.broken, held.alphabet.len() as u32, &held.pattern, &held.text);
        Ok(report_of(&pattern, &text))
    }

    pub fn read_sheet(self, case: &ReadCase) -> Outcome {
        let mut sheet = self.taken_for(&case.sheet);
        if let Some(refusal) = self.slipped_read(&sheet) {
            return refused(refusal);
        }
        let mut room = Room { alphabet: case.nalphabet, pattern: case.npattern, text: case.ntext };
        if self.is("read-sizes-room") && case.nsizes < 3 {
            return refused(Refusal { number: 8, place: 0 });
        }
        if self.is("read-room") {
            room.alphabet = usize::MAX;
        }
        let mut answer = read(&sheet, room);
        if let (true, Err(Refusal { number: 15, place })) = (self.is("read-15"), &answer) {
            sheet.truncate(*place);
            answer = read(&sheet, room);
        }
        let answer = answer.and_then(|sheet| {
            check_room(3, case.nsizes)?;
            check_room(sheet.alphabet.len(), case.nalphabet)?;
            Ok(sheet)
        });
        let sheet = match answer {
            Ok(sheet) => sheet,
            Err(refusal) => return refused(self.placed_in(&case.sheet, refusal)),
        };
        let sizes = [sheet.alphabet.len(), sheet.pattern.len(), sheet.text.len()];
        let mut numbers = sizes.map(|size| size as u64).to_vec();
        let mut more = sheet.text;
        if self.is("read-sizes") {
            numbers[2] += 1;
        }
        if let (true, Some(last)) = (self.is("read-text"), more.last_mut()) {
            *last ^= 2;
        }
        Outcome { answer: 0, bytes: sheet.alphabet, letters: sheet.pattern, more, numbers }
    }

    /// What the writer answers, with a slip in what it takes or in the order of its checks.
    fn written(self, case: &WriteCase) -> Result<Vec<u8>, Refusal> {
        let WriteCase { k, alphabet, pattern, text, cap } = case;
        let written = write(*k, alphabet, pattern, text, *cap);
        let number = written.as_ref().err().map_or(0, |r| r.number);
        // With bytes of its own for all letters the rest of the sheet is as long.
        let as_long = alphabet.len() == *k as usize;
        let fresh: Vec<u8> = (b'0'..=b'9').chain(b'a'..=b'z').take(alphabet.len()).collect();
        let with_fresh = || write(*k, &fresh, pattern, text, *cap);
        match self.broken {
            Some("write-12") if number == 12 => check_search(*k, pattern, text).and(written),
            Some("write-twice") if number == 12 && as_long && alphabet.iter().all(|b| allowed(*b)) => with_fresh(),
            Some("mark-alphabet") if number == 12 && as_long && alphabet.contains(&b'|') => with_fresh(),
            Some("mark-pattern") if number == 4 => write(*k, alphabet, &unmarked(pattern), text, *cap),
            Some("mark-refused") if [0, 5, 8, 10].contains(&number) => {
                check_each(5, text, |c| right_in_pattern(*k, c)).and(written)
            }
            Some("write-8192") if written.as_ref().is_ok_and(|bytes| bytes.len() == 8192) => refuse(10, 0),
            Some("write-room") if number == 10 && *cap <= 8192 => refuse(8, 0),
            _ => written,
        }
    }

    /// A refused writing, with the place that a slip gives it.
    fn refused_writing(self, case: &WriteCase, refusal: Refusal) -> Outcome {
        let WriteCase { k, alphabet, text, .. } = case;
        let place = match (self.broken, refusal.number) {
            // The first of two equal bytes, where the second is to be named.
            (Some("write-first-of-two"), 12) => {
                let twice = alphabet.get(refusal.place).filter(|_| refusal.place < *k as usize);
                twice.and_then(|b| alphabet.iter().position(|a| a == b)).unwrap_or(refusal.place)
            }
            (Some("write-last-surplus"), 12) if refusal.place == *k as usize => alphabet.len() - 1,
            (Some("write-missing-at-0"), 12) if refusal.place == alphabet.len() => 0,
            (Some("mark-place"), 5) => in_entry(text, refusal.place),
            _ => refusal.place,
        };
        refused(self.placed(Refusal { place, ..refusal }))
    }

    pub fn write_sheet(self, case: &WriteCase) -> Outcome {
        let mut bytes = match self.written(case) {
            Ok(bytes) => bytes,
            Err(refusal) => return self.refused_writing(case, refusal),
        };
        if self.is("write-byte") {
            let at = bytes.len() - 2;
            bytes[at] ^= 1;
        }
        if self.is("write-mark-star") {
            bytes.iter_mut().filter(|b| **b == b'|').for_each(|b| *b = b'*');
        }
        Outcome { answer: bytes.len() as i64, bytes, ..Outcome::default() }
    }

    pub fn report(self, sheet: &[u8], cap: usize) -> Outcome {
        let mut sheet = self.taken_for(sheet);
        let refused = |refusal: Refusal| Outcome {
            answer: if self.is("report-place") { refusal.code() } else { refusal.number_code() },
            ..Outcome::default()
        };
        if let Some(refusal) = self.slipped_read(&sheet) {
            return refused(refusal);
        }
        let mut answer = self.reported(&sheet);
        if let (true, Err(Refusal { number: 15, place })) = (self.is("read-15"), &answer) {
            sheet.truncate(*place);
            answer = self.reported(&sheet);
        }
        let needed = |bytes: &Vec<u8>| bytes.len() + usize::from(self.is("report-room"));
        let answer = answer.and_then(|bytes| check_room(needed(&bytes), cap).map(|_| bytes));
        match answer {
            Ok(mut bytes) => {
                if self.is("report-byte") {
                    let at = bytes.len() - 2;
                    bytes[at] ^= 1;
                }
                Outcome { answer: bytes.len() as i64, bytes, ..Outcome::default() }
            }
            Err(refusal) => {
                let mut out = refused(refusal);
                if self.is("report-writes") && refusal.number == 8 {
                    out.bytes = self.reported(&sheet).unwrap()[..cap].to_vec();
                }
                out
            }
        }
    }

    /// What the program `search` prints, as bytes.
    pub fn printed(self, sheet: &[u8]) -> Outcome {
        let taken = self.taken_for(sheet);
        let answer = self.slipped_read(&taken).map_or_else(|| self.reported(&taken), Err);
        let mut out = match answer {
            Ok(bytes) => Outcome { bytes, ..Outcome::default() },
            Err(refusal) => {
                let Refusal { number, place } = self.placed_in(sheet, refusal);
                Outcome { bytes: format!("refused {number} at {place}\n").into_bytes(), ..refused(refusal) }
            }
        };
        if self.is("line-end") {
            out.bytes.pop();
        }
        out
    }
}
