//! Letters to products, products to letters, and whether two products meet.

use crate::library::{self, ConvertCase, Way};
use crate::{Run, Told};
use reference::letters::{whole, MARK};
use reference::products::product;

fn convert(run: &mut Run, way: Way, k: u32, values: Vec<u32>, cap: usize) -> Told {
    let case = ConvertCase { way, k, values, cap };
    let due = run.expect.convert(&case);
    let seen = library::convert(&case, &due);
    run.count("convert", &case, &due, seen)
}

fn meet(run: &mut Run, k: u32, a: u32, b: u32) -> Told {
    let due = run.expect.products_meet(k, a, b);
    let seen = library::products_meet(k, a, b, &due);
    run.count("products_meet", &(k, a, b), &due, seen)
}

/// Every set and every small value alone, for every k and for some that are refused.
fn alone(run: &mut Run) -> Told {
    for k in (0..=34).chain([255, 256, u32::MAX]) {
        for set in 0..1024 {
            convert(run, Way::ToProducts, k, vec![set], 1)?;
        }
        for value in 0..if (1..=9).contains(&k) { 30_100 } else { 100 } {
            convert(run, Way::FromProducts, k, vec![value], 1)?;
        }
        for bit in 9..32 {
            convert(run, Way::ToProducts, k, vec![1 << bit], 1)?;
            convert(run, Way::ToProducts, k, vec![1 << bit | 1], 1)?;
        }
    }
    Ok(())
}

/// Values beside products, their multiples and parts, and random ones.
fn beside(run: &mut Run) -> Told {
    for k in 1..=9 {
        for set in 0..512 {
            let p = product(set);
            let near = [p - 1, p, p + 1, p + 2, p / 2, p / 3].into_iter();
            let multiples = (2..30).map(|factor| p.wrapping_mul(factor));
            for value in near.chain(multiples).chain([p.wrapping_mul(p), !p]) {
                convert(run, Way::FromProducts, k, vec![value], 1)?;
            }
        }
        for _ in 0..run.times(10_000) {
            let bits = run.random.below(32);
            let value = run.random.next() as u32 >> bits;
            convert(run, Way::FromProducts, k, vec![value], 1)?;
        }
        convert(run, Way::FromProducts, k, vec![u32::MAX], 1)?;
    }
    Ok(())
}

/// A string with marks in it, and with at most some wrong values.
fn values(run: &mut Run, way: Way, k: u32, n: usize, wrong: usize) -> Vec<u32> {
    let most = whole(k.clamp(1, 9)) as usize;
    let random = &mut run.random;
    let mut letter = || if random.once_in(9) { MARK } else { random.between(1, most) as u32 };
    let mut values: Vec<u32> = (0..n).map(|_| letter()).collect();
    if let Way::FromProducts = way {
        values.iter_mut().for_each(|v| *v = product(*v));
    }
    for _ in 0..if n == 0 { 0 } else { wrong } {
        let at = run.random.index(n);
        values[at] = run.random.pick(&[0, 1, 1 << k.clamp(1, 31), 4, 25, 29, 58, values[at] ^ 1, u32::MAX]);
    }
    values
}

/// Strings: whole tables, the limits of the length, room that is short, exact or ample.
fn strings(run: &mut Run) -> Told {
    for k in 1..=9 {
        let letters: Vec<u32> = (MARK..=whole(k)).collect();
        let products: Vec<u32> = letters.iter().map(|c| product(*c)).collect();
        let n = letters.len();
        for cap in [0, n - 1, n, n + 1, n + 5] {
            convert(run, Way::ToProducts, k, letters.clone(), cap)?;
            convert(run, Way::FromProducts, k, products.clone(), cap)?;
        }
    }
    for way in [Way::ToProducts, Way::FromProducts] {
        for (n, wrong) in [(0, 0), (65_535, 0), (65_536, 0), (65_536, 1), (65_537, 0), (65_537, 1)] {
            let string = values(run, way, 9, n, wrong);
            convert(run, way, 9, string.clone(), n)?;
            convert(run, way, 9, string.clone(), n + 3)?;
            convert(run, way, 9, string, n.saturating_sub(1))?;
        }
    }
    Ok(())
}

/// Several faults at once: k, k for products, the length, a wrong value, the room.
fn faults(run: &mut Run) -> Told {
    for round in 0..run.times(32 * 200) {
        let way = if run.random.once_in(2) { Way::ToProducts } else { Way::FromProducts };
        let faults = run.random.faults(round, 5);
        let fault = |number: usize| faults >> number & 1 == 1;
        let k = match (fault(0), fault(1)) {
            (true, _) => run.random.pick(&[0, 33, 64, u32::MAX]),
            (false, true) => run.random.between(10, 32) as u32,
            _ => run.random.between(1, 9) as u32,
        };
        let n = if fault(2) { run.random.pick(&[65_537, 65_540]) } else { run.random.between(0, 40) };
        let wrong = if fault(3) { run.random.between(1, 3) } else { 0 };
        let string = values(run, way, k, n, wrong);
        let cap = if fault(4) { run.random.below(n.clamp(1, 50)) } else { n + run.random.below(3) };
        convert(run, way, k, string, cap)?;
    }
    Ok(())
}

/// Every letter with every letter, the mark among them, and with 0, which is no product in either place.
fn pairs(run: &mut Run) -> Told {
    for a in 0..512 {
        for b in 0..512 {
            meet(run, 9, product(a), product(b))?;
        }
        meet(run, 9, product(a), 0)?;
        meet(run, 9, 0, product(a))?;
    }
    for k in (0..=33).chain([u32::MAX]) {
        for _ in 0..run.times(4_000) {
            let mut draw = || match run.random.below(8) {
                0 => run.random.below(40) as u32,
                3 => run.random.below(2) as u32,
                1 => run.random.next() as u32,
                2 => product(run.random.below(512) as u32),
                _ => product(run.random.next() as u32 & whole(k.clamp(1, 9))),
            };
            let (a, b) = (draw(), draw());
            meet(run, k, a, b)?;
        }
    }
    Ok(())
}

pub fn products(run: &mut Run) -> Told {
    alone(run)?;
    beside(run)?;
    strings(run)?;
    faults(run)?;
    pairs(run)
}
