//! The words behind a program's name.

/// The word at a place.
pub fn word(place: usize) -> Option<String> {
    std::env::args().nth(place + 1)
}

/// The number at a place, or another one where there is no word.
pub fn number(place: usize, otherwise: u64) -> u64 {
    word(place).map_or(otherwise, |word| word.parse().expect("a number"))
}
