//! The calls of c/breakwarp.h answered by the reference, so that compare and the C programs can be tried without the
//! library. A comparison with these calls says nothing about the library; it shows that the comparison itself works.

use crate::bound::{bound, bound_choice};
use crate::engines::{search, Engine};
use crate::first::first;
use crate::products::{from_products, products_meet, to_products};
use crate::reasons::reasons;
use crate::refusals::{check_room, Refusal};
use crate::report::report;
use crate::sheet::{read, write, Room};

/// A lent slice that is read. One of length 0 may have a null pointer.
unsafe fn lent<'a, T>(pointer: *const T, length: usize) -> &'a [T] {
    if length == 0 {
        &[]
    } else {
        std::slice::from_raw_parts(pointer, length)
    }
}

/// Writes as much as both hold, and leaves the rest of the lent slice alone.
unsafe fn put<T: Copy>(pointer: *mut T, length: usize, values: &[T]) {
    for (at, value) in values.iter().take(length).enumerate() {
        pointer.add(at).write(*value);
    }
}

fn answer(result: Result<usize, Refusal>) -> i64 {
    match result {
        Ok(value) => value as i64,
        Err(refusal) => refusal.code(),
    }
}

macro_rules! searches {
    ($($name:ident $engine:ident)*) => {$(
        /// # Safety
        /// Every pointer is valid for its length, as c/breakwarp.h asks.
        #[no_mangle]
        pub unsafe extern "C" fn $name(
            k: u32, pattern: *const u32, m: usize, text: *const u32, n: usize,
            hits: *mut u32, cap: usize, work: *mut u64, nwork: usize,
        ) -> i64 {
            let found = search(Engine::$engine, k, lent(pattern, m), lent(text, n));
            answer(found.and_then(|found| {
                check_room(3, nwork)?;
                put(hits, cap, &found.hits);
                put(work, nwork, &[found.work.scan, found.work.shift, found.work.words]);
                Ok(found.hits.len())
            }))
        }
    )*};
}

searches! {
    breakwarp_brute Brute
    breakwarp_kmp Kmp
    breakwarp_bm Bm
    breakwarp_sunday Sunday
    breakwarp_shiftand ShiftAnd
    breakwarp_hybrid Hybrid
}

/// # Safety
/// Every pointer is valid for its length, as c/breakwarp.h asks.
#[no_mangle]
pub unsafe extern "C" fn breakwarp_first(
    k: u32,
    pattern: *const u32,
    m: usize,
    text: *const u32,
    n: usize,
    found: *mut u64,
    nfound: usize,
) -> i64 {
    let answered = first(k, lent(pattern, m), lent(text, n)).and_then(|first| {
        check_room(2, nfound)?;
        put(found, nfound, &first.numbers());
        Ok(usize::from(first.start.is_some()))
    });
    answer(answered)
}

/// # Safety
/// Every pointer is valid for its length, as c/breakwarp.h asks.
#[no_mangle]
pub unsafe extern "C" fn breakwarp_bound(
    k: u32,
    pattern: *const u32,
    m: usize,
    text: *const u32,
    n: usize,
    hits: *mut u32,
    cap: usize,
) -> i64 {
    let listed = bound(k, lent(pattern, m), lent(text, n)).map(|starts| {
        put(hits, cap, &starts);
        starts.len()
    });
    answer(listed)
}

/// # Safety
/// Every pointer is valid for its length, as c/breakwarp.h asks.
#[no_mangle]
pub unsafe extern "C" fn breakwarp_bound_choice(
    k: u32,
    pattern: *const u32,
    m: usize,
    text: *const u32,
    n: usize,
    start: usize,
    choice: *mut u32,
    cap: usize,
) -> i64 {
    let answered = bound_choice(k, lent(pattern, m), lent(text, n), start, cap).map(|chosen| {
        put(choice, cap, chosen.as_deref().unwrap_or(&[]));
        usize::from(chosen.is_some())
    });
    answer(answered)
}

/// # Safety
/// Every pointer is valid for its length, as c/breakwarp.h asks.
#[no_mangle]
pub unsafe extern "C" fn breakwarp_reasons(
    k: u32,
    pattern: *const u32,
    m: usize,
    text: *const u32,
    n: usize,
    start: usize,
    sets: *mut u32,
    cap: usize,
) -> i64 {
    let written = reasons(k, lent(pattern, m), lent(text, n), start, cap).map(|shared| {
        put(sets, cap, &shared);
        shared.len()
    });
    answer(written)
}

/// # Safety
/// Every pointer is valid for its length, as c/breakwarp.h asks.
#[no_mangle]
pub unsafe extern "C" fn breakwarp_to_products(
    k: u32,
    letters: *const u32,
    n: usize,
    products: *mut u32,
    cap: usize,
) -> i64 {
    let written = to_products(k, lent(letters, n), cap).map(|values| {
        put(products, cap, &values);
        values.len()
    });
    answer(written)
}

/// # Safety
/// Every pointer is valid for its length, as c/breakwarp.h asks.
#[no_mangle]
pub unsafe extern "C" fn breakwarp_from_products(
    k: u32,
    products: *const u32,
    n: usize,
    letters: *mut u32,
    cap: usize,
) -> i64 {
    let written = from_products(k, lent(products, n), cap).map(|values| {
        put(letters, cap, &values);
        values.len()
    });
    answer(written)
}

#[no_mangle]
pub extern "C" fn breakwarp_products_meet(k: u32, a: u32, b: u32) -> i64 {
    answer(products_meet(k, a, b).map(usize::from))
}

/// # Safety
/// Every pointer is valid for its length, as c/breakwarp.h asks.
#[no_mangle]
pub unsafe extern "C" fn breakwarp_read_sheet(
    sheet: *const u8,
    nsheet: usize,
    alphabet: *mut u8,
    nalphabet: usize,
    pattern: *mut u32,
    npattern: usize,
    text: *mut u32,
    ntext: usize,
    sizes: *mut u64,
    nsizes: usize,
) -> i64 {
    let room = Room { alphabet: nalphabet, pattern: npattern, text: ntext };
    let written = read(lent(sheet, nsheet), room).and_then(|sheet| {
        check_room(3, nsizes)?;
        put(alphabet, nalphabet, &sheet.alphabet);
        put(pattern, npattern, &sheet.pattern);
        put(text, ntext, &sheet.text);
        put(sizes, nsizes, &[sheet.alphabet.len(), sheet.pattern.len(), sheet.text.len()].map(|size| size as u64));
        Ok(0)
    });
    answer(written)
}

/// # Safety
/// Every pointer is valid for its length, as c/breakwarp.h asks.
#[no_mangle]
pub unsafe extern "C" fn breakwarp_write_sheet(
    k: u32,
    alphabet: *const u8,
    nalphabet: usize,
    pattern: *const u32,
    m: usize,
    text: *const u32,
    n: usize,
    sheet: *mut u8,
    cap: usize,
) -> i64 {
    let written = write(k, lent(alphabet, nalphabet), lent(pattern, m), lent(text, n), cap).map(|bytes| {
        put(sheet, cap, &bytes);
        bytes.len()
    });
    answer(written)
}

/// # Safety
/// Every pointer is valid for its length, as c/breakwarp.h asks.
#[no_mangle]
pub unsafe extern "C" fn breakwarp_report(sheet: *const u8, nsheet: usize, out: *mut u8, cap: usize) -> i64 {
    let written = report(lent(sheet, nsheet)).and_then(|bytes| {
        check_room(bytes.len(), cap)?;
        put(out, cap, &bytes);
        Ok(bytes.len())
    });
    match written {
        Ok(length) => length as i64,
        Err(refusal) => refusal.number_code(),
    }
}
