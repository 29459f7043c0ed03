//! The calls of c/breakwarp.h, each made on lent memory that is filled beforehand and looked at as a whole afterwards.

use crate::expected::Outcome;
use reference::engines::Engine;
use std::fmt::{self, Debug};

type Search = unsafe extern "C" fn(u32, *const u32, usize, *const u32, usize, *mut u32, usize, *mut u64, usize) -> i64;

macro_rules! declare_searches {
    ($($name:ident)*) => {
        extern "C" {$(
            fn $name(
                k: u32, pattern: *const u32, m: usize, text: *const u32, n: usize,
                hits: *mut u32, cap: usize, work: *mut u64, nwork: usize,
            ) -> i64;
        )*}
    };
}

declare_searches! { breakwarp_brute breakwarp_kmp breakwarp_bm breakwarp_sunday breakwarp_shiftand breakwarp_hybrid }

type AtStart = unsafe extern "C" fn(u32, *const u32, usize, *const u32, usize, usize, *mut u32, usize) -> i64;

macro_rules! declare_at_start {
    ($($name:ident)*) => {
        extern "C" {$(
            fn $name(
                k: u32, pattern: *const u32, m: usize, text: *const u32, n: usize,
                start: usize, values: *mut u32, cap: usize,
            ) -> i64;
        )*}
    };
}

declare_at_start! { breakwarp_bound_choice breakwarp_reasons }

extern "C" {
    fn breakwarp_first(
        k: u32,
        pattern: *const u32,
        m: usize,
        text: *const u32,
        n: usize,
        found: *mut u64,
        nfound: usize,
    ) -> i64;
    fn breakwarp_bound(
        k: u32,
        pattern: *const u32,
        m: usize,
        text: *const u32,
        n: usize,
        hits: *mut u32,
        cap: usize,
    ) -> i64;
    fn breakwarp_to_products(k: u32, letters: *const u32, n: usize, products: *mut u32, cap: usize) -> i64;
    fn breakwarp_from_products(k: u32, products: *const u32, n: usize, letters: *mut u32, cap: usize) -> i64;
    fn breakwarp_products_meet(k: u32, a: u32, b: u32) -> i64;
    fn breakwarp_read_sheet(
        sheet: *const u8,
        nsheet: usize,
        alphabet: *mut u8,
        nalphabet: usize,
        pattern: *mut u32,
        npattern: usize,
        text: *mut u32,
        ntext: usize,
        sizes: *mut u64,
        nsizes: usize,
    ) -> i64;
    fn breakwarp_write_sheet(
        k: u32,
        alphabet: *const u8,
        nalphabet: usize,
        pattern: *const u32,
        m: usize,
        text: *const u32,
        n: usize,
        sheet: *mut u8,
        cap: usize,
    ) -> i64;
    fn breakwarp_report(sheet: *const u8, nsheet: usize, report: *mut u8, cap: usize) -> i64;
}

/// Cells before and after each lent slice that no call may touch.
const GUARD: usize = 8;

/// What a cell holds before the call: another value in each cell, so that a cell written by mistake shows.
pub trait Cell: Copy + Eq + Debug {
    fn filler(at: usize) -> Self;
}

impl Cell for u8 {
    fn filler(at: usize) -> u8 {
        (at.wrapping_mul(151) + at / 256) as u8 ^ 0xa5
    }
}

impl Cell for u32 {
    fn filler(at: usize) -> u32 {
        (at as u32).wrapping_mul(0x9e37_79b1) ^ 0xa5a5_a5a5
    }
}

impl Cell for u64 {
    fn filler(at: usize) -> u64 {
        (at as u64).wrapping_mul(0x9e37_79b9_7f4a_7c15) ^ 0xa5a5_a5a5_a5a5_a5a5
    }
}

/// Lent memory that a call may write, between two guards.
struct Lent<T> {
    cells: Vec<T>,
    length: usize,
}

impl<T: Cell> Lent<T> {
    fn new(length: usize) -> Lent<T> {
        Lent { cells: (0..length + 2 * GUARD).map(T::filler).collect(), length }
    }

    /// Every other slice of length 0 has a null pointer: both are allowed.
    fn pointer(&mut self, null: bool) -> *mut T {
        if self.length == 0 && null {
            std::ptr::null_mut()
        } else {
            self.cells[GUARD..].as_mut_ptr()
        }
    }

    /// The first cell that does not hold what it should: the guards and the rest keep their filler.
    fn differs(&self, name: &str, written: &[T]) -> Option<String> {
        let due = |at: usize| {
            let inside = at.checked_sub(GUARD).and_then(|index| written.get(index));
            inside.copied().unwrap_or_else(|| T::filler(at))
        };
        let at = (0..self.cells.len()).find(|at| self.cells[*at] != due(*at))?;
        let (index, seen, due) = (at as i64 - GUARD as i64, self.cells[at], due(at));
        let kept = if (index as usize) < written.len() { "" } else { ", its content before the call" };
        Some(format!("{name}[{index}] of {} lent: seen {seen:?}, expected {due:?}{kept}", self.length))
    }
}

/// A slice that is read.
fn read_from<T>(slice: &[T], null: bool) -> *const T {
    if slice.is_empty() && null {
        std::ptr::null()
    } else {
        slice.as_ptr()
    }
}

/// A call's answer and memory against what is expected of them.
fn settle(due: &Outcome, answer: i64, cells: &[Option<String>]) -> Result<(), String> {
    if answer != due.answer {
        return Err(format!("answer: seen {answer}, expected {}", due.answer));
    }
    match cells.iter().flatten().next() {
        Some(difference) => Err(difference.clone()),
        None => Ok(()),
    }
}

#[derive(Clone, Debug)]
pub struct SearchCase {
    pub k: u32,
    pub pattern: Vec<u32>,
    pub text: Vec<u32>,
    pub cap: usize,
    pub nwork: usize,
}

fn entry(engine: Engine) -> Search {
    match engine {
        Engine::Brute => breakwarp_brute,
        Engine::Kmp => breakwarp_kmp,
        Engine::Bm => breakwarp_bm,
        Engine::Sunday => breakwarp_sunday,
        Engine::ShiftAnd => breakwarp_shiftand,
        Engine::Hybrid => breakwarp_hybrid,
    }
}

/// Whether this call lends null pointers for slices of length 0.
fn null(length: usize) -> bool {
    length.is_multiple_of(2)
}

pub fn search(engine: Engine, case: &SearchCase, due: &Outcome) -> Result<(), String> {
    let SearchCase { k, pattern, text, cap, nwork } = case;
    let null = null(pattern.len() + text.len());
    let mut hits = Lent::<u32>::new(*cap);
    let mut work = Lent::<u64>::new(*nwork);
    let (p, t) = (read_from(pattern, null), read_from(text, null));
    let (h, w) = (hits.pointer(null), work.pointer(null));
    let answer = unsafe { entry(engine)(*k, p, pattern.len(), t, text.len(), h, *cap, w, *nwork) };
    settle(due, answer, &[hits.differs("hits", &due.letters), work.differs("work", &due.numbers)])
}

#[derive(Clone, Debug)]
pub struct FirstCase {
    pub k: u32,
    pub pattern: Vec<u32>,
    pub text: Vec<u32>,
    pub nfound: usize,
}

pub fn first(case: &FirstCase, due: &Outcome) -> Result<(), String> {
    let FirstCase { k, pattern, text, nfound } = case;
    let null = null(pattern.len() + text.len());
    let mut found = Lent::<u64>::new(*nfound);
    let (p, t) = (read_from(pattern, null), read_from(text, null));
    let f = found.pointer(null);
    let answer = unsafe { breakwarp_first(*k, p, pattern.len(), t, text.len(), f, *nfound) };
    settle(due, answer, &[found.differs("found", &due.numbers)])
}

/// What a lent slice of 32 bits holds at an index before the call.
pub fn before(index: usize) -> u32 {
    u32::filler(GUARD + index)
}

/// A question of the bound mode, or about what is shared. Many starts are asked about in one text, so the strings are only
/// borrowed.
#[derive(Clone, Copy, Debug)]
pub struct BorrowedCase<'a> {
    pub k: u32,
    pub pattern: &'a [u32],
    pub text: &'a [u32],
    pub cap: usize,
}

pub fn bound(case: &BorrowedCase, due: &Outcome) -> Result<(), String> {
    let BorrowedCase { k, pattern, text, cap } = *case;
    let null = null(pattern.len() + text.len());
    let mut hits = Lent::<u32>::new(cap);
    let (p, t) = (read_from(pattern, null), read_from(text, null));
    let h = hits.pointer(null);
    let answer = unsafe { breakwarp_bound(k, p, pattern.len(), t, text.len(), h, cap) };
    settle(due, answer, &[hits.differs("hits", &due.letters)])
}

/// A call at one start, which writes a value for each pattern letter; `cap` is the room for these.
fn at_start(call: AtStart, name: &str, case: &BorrowedCase, start: usize, due: &Outcome) -> Result<(), String> {
    let BorrowedCase { k, pattern, text, cap } = *case;
    let null = null(pattern.len() + text.len());
    let mut values = Lent::<u32>::new(cap);
    let (p, t) = (read_from(pattern, null), read_from(text, null));
    let v = values.pointer(null);
    let answer = unsafe { call(k, p, pattern.len(), t, text.len(), start, v, cap) };
    settle(due, answer, &[values.differs(name, &due.letters)])
}

pub fn bound_choice(case: &BorrowedCase, start: usize, due: &Outcome) -> Result<(), String> {
    at_start(breakwarp_bound_choice, "choice", case, start, due)
}

pub fn reasons(case: &BorrowedCase, start: usize, due: &Outcome) -> Result<(), String> {
    at_start(breakwarp_reasons, "sets", case, start, due)
}

/// Which way a conversion goes.
#[derive(Clone, Copy, Debug)]
pub enum Way {
    ToProducts,
    FromProducts,
}

#[derive(Clone, Debug)]
pub struct ConvertCase {
    pub way: Way,
    pub k: u32,
    pub values: Vec<u32>,
    pub cap: usize,
}

pub fn convert(case: &ConvertCase, due: &Outcome) -> Result<(), String> {
    let null = null(case.k as usize);
    let mut out = Lent::<u32>::new(case.cap);
    let (from, n) = (read_from(&case.values, null), case.values.len());
    let to = out.pointer(null);
    let answer = unsafe {
        match case.way {
            Way::ToProducts => breakwarp_to_products(case.k, from, n, to, case.cap),
            Way::FromProducts => breakwarp_from_products(case.k, from, n, to, case.cap),
        }
    };
    settle(due, answer, &[out.differs("output", &due.letters)])
}

pub fn products_meet(k: u32, a: u32, b: u32, due: &Outcome) -> Result<(), String> {
    settle(due, unsafe { breakwarp_products_meet(k, a, b) }, &[])
}

#[derive(Clone)]
pub struct ReadCase {
    pub sheet: Vec<u8>,
    pub nalphabet: usize,
    pub npattern: usize,
    pub ntext: usize,
    pub nsizes: usize,
}

impl Debug for ReadCase {
    fn fmt(&self, f: &mut fmt::Formatter) -> fmt::Result {
        write!(f, "sheet \"{}\" into ", self.sheet.escape_ascii())?;
        write!(f, "{}, {}, {}, {}", self.nalphabet, self.npattern, self.ntext, self.nsizes)
    }
}

pub fn read_sheet(case: &ReadCase, due: &Outcome) -> Result<(), String> {
    let null = null(case.sheet.len());
    let mut alphabet = Lent::<u8>::new(case.nalphabet);
    let mut pattern = Lent::<u32>::new(case.npattern);
    let mut text = Lent::<u32>::new(case.ntext);
    let mut sizes = Lent::<u64>::new(case.nsizes);
    let answer = unsafe {
        breakwarp_read_sheet(
            read_from(&case.sheet, null),
            case.sheet.len(),
            alphabet.pointer(null),
            case.nalphabet,
            pattern.pointer(null),
            case.npattern,
            text.pointer(null),
            case.ntext,
            sizes.pointer(null),
            case.nsizes,
        )
    };
    let cells = [
        alphabet.differs("alphabet", &due.bytes),
        pattern.differs("pattern", &due.letters),
        text.differs("text", &due.more),
        sizes.differs("sizes", &due.numbers),
    ];
    settle(due, answer, &cells)
}

#[derive(Clone, Debug)]
pub struct WriteCase {
    pub k: u32,
    pub alphabet: Vec<u8>,
    pub pattern: Vec<u32>,
    pub text: Vec<u32>,
    pub cap: usize,
}

pub fn write_sheet(case: &WriteCase, due: &Outcome) -> Result<(), String> {
    let WriteCase { k, alphabet, pattern, text, cap } = case;
    let null = null(alphabet.len() + pattern.len() + text.len());
    let mut sheet = Lent::<u8>::new(*cap);
    let a = read_from(alphabet, null);
    let (p, t) = (read_from(pattern, null), read_from(text, null));
    let s = sheet.pointer(null);
    let answer = unsafe { breakwarp_write_sheet(*k, a, alphabet.len(), p, pattern.len(), t, text.len(), s, *cap) };
    settle(due, answer, &[sheet.differs("sheet", &due.bytes)])
}

pub fn report(sheet: &[u8], cap: usize, due: &Outcome) -> Result<(), String> {
    let null = null(sheet.len());
    let mut out = Lent::<u8>::new(cap);
    let answer = unsafe { breakwarp_report(read_from(sheet, null), sheet.len(), out.pointer(null), cap) };
    settle(due, answer, &[out.differs("report", &due.bytes)])
}
