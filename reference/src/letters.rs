//! Letters as sets of base letters, the mark that ends an entry, and when a start is a hit.

/// The entry mark: the letter of a text that has no member. So it meets nothing, and no hit goes over it. It is not
/// single, since it has no member; and it is not unsure, since nothing about it is in doubt.
pub const MARK: u32 = 0;

/// Is base letter b a member of the set?
pub fn member(letter: u32, b: u32) -> bool {
    letter >> b & 1 == 1
}

/// The base letters of a set, ascending.
pub fn members(letter: u32) -> impl Iterator<Item = u32> {
    (0..32).filter(move |b| member(letter, *b))
}

/// One member, no more and no less.
pub fn single(letter: u32) -> bool {
    members(letter).count() == 1
}

/// Two letters meet if they share a member.
pub fn meets(a: u32, b: u32) -> bool {
    a & b != 0
}

/// The set of all base letters of an alphabet of k.
pub fn whole(k: u32) -> u32 {
    (0..k).map(|b| 1 << b).sum()
}

/// What a text over k base letters may hold, or a string that is converted: a letter without a member at or above k,
/// the mark among them.
pub fn right_in_text(k: u32, letter: u32) -> bool {
    members(letter).all(|b| b < k)
}

/// What a pattern over k base letters may hold: the same but the mark.
pub fn right_in_pattern(k: u32, letter: u32) -> bool {
    letter != MARK && right_in_text(k, letter)
}

/// Start i is a hit if i + m is at most n and every pattern letter meets the text letter under it.
pub fn hit(pattern: &[u32], text: &[u32], i: usize) -> bool {
    i + pattern.len() <= text.len() && (0..pattern.len()).all(|j| meets(pattern[j], text[i + j]))
}

/// All hits, ascending.
pub fn hits(pattern: &[u32], text: &[u32]) -> Vec<u32> {
    (0..=text.len()).filter(|i| hit(pattern, text, *i)).map(|i| i as u32).collect()
}
