//! Sets of stations in 64 bits: bit j, worth 2^j, is station j.

pub fn singleton(j: u8) -> u64 {
    1 << j
}

pub fn contains(set: u64, j: u8) -> bool {
    j < 64 && set & singleton(j) != 0
}

pub fn without(set: u64, j: u8) -> u64 {
    set & !singleton(j)
}

/// The number of members, one by one: the library counts ones of a word.
pub fn size(set: u64) -> u8 {
    members(set).count() as u8
}

/// Every member is below k.
pub fn is_within(set: u64, k: u8) -> bool {
    k >= 64 || set >> k == 0
}

pub fn members(set: u64) -> impl Iterator<Item = u8> {
    (0..64).filter(move |&j| contains(set, j))
}
