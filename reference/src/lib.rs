//! Breakwarp's rules written a second time, to compare the library against.
//!
//! Everything here is meant to be read next to the rules: a hit is asked for letter by letter, a shift is the least
//! one that has the property, a wrong byte is the first one after which nothing right can follow. Nothing is
//! prepared, packed or remembered to save time, and no code is shared with the library.

pub mod bound;
pub mod engines;
pub mod first;
pub mod letters;
pub mod products;
pub mod reasons;
pub mod refusals;
pub mod report;
pub mod sheet;

#[cfg(feature = "mock")]
pub mod mock;
