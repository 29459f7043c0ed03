//! Letters as products of primes, by multiplication and division.

use crate::letters::members;
use crate::refusals::{check_each, check_k, check_n, check_room, check_text, refuse, Refusal, MAX_PRODUCT_K};

pub const PRIMES: [u32; 9] = [2, 3, 5, 7, 11, 13, 17, 19, 23];

/// The product of the primes of a letter's members; so 1 for the mark, which has none.
pub fn product(letter: u32) -> u32 {
    members(letter).map(|b| PRIMES[b as usize]).product()
}

/// A value is a product for k if it is above 0 and divides the product of the first k primes.
pub fn is_product(k: u32, value: u32) -> bool {
    let all: u32 = PRIMES[..k as usize].iter().product();
    value > 0 && all.is_multiple_of(value)
}

/// The letter whose members' primes divide the value; so the mark for 1, which none divides.
pub fn letter(value: u32) -> u32 {
    (0..9).filter(|b| value.is_multiple_of(PRIMES[*b])).map(|b| 1 << b).sum()
}

/// Refusals 1 and 6.
fn check_product_k(k: u32) -> Result<(), Refusal> {
    check_k(k)?;
    if k > MAX_PRODUCT_K {
        refuse(6, 0)
    } else {
        Ok(())
    }
}

/// Refusal 7: the lowest index of a value that is no product.
fn check_products(k: u32, values: &[u32]) -> Result<(), Refusal> {
    check_each(7, values, |v| is_product(k, v))
}

/// Letters to products, into room for `lent` of them.
pub fn to_products(k: u32, letters: &[u32], lent: usize) -> Result<Vec<u32>, Refusal> {
    check_product_k(k)?;
    check_n(letters.len())?;
    check_text(k, letters)?;
    check_room(letters.len(), lent)?;
    Ok(letters.iter().map(|c| product(*c)).collect())
}

/// Products to letters, into room for `lent` of them.
pub fn from_products(k: u32, values: &[u32], lent: usize) -> Result<Vec<u32>, Refusal> {
    check_product_k(k)?;
    check_n(values.len())?;
    check_products(k, values)?;
    check_room(values.len(), lent)?;
    Ok(values.iter().map(|v| letter(*v)).collect())
}

/// Two products meet exactly if some prime divides both. None divides 1, so the mark's product meets nothing.
pub fn products_meet(k: u32, a: u32, b: u32) -> Result<bool, Refusal> {
    check_product_k(k)?;
    check_products(k, &[a, b])?;
    Ok(PRIMES.iter().any(|p| a.is_multiple_of(*p) && b.is_multiple_of(*p)))
}
