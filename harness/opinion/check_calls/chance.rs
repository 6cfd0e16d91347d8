//! Numbers from a seed, the same in every run.

/// The seed after this one.
pub fn next(seed: u32) -> u32 {
    let a = seed ^ (seed << 13);
    let b = a ^ (a >> 17);
    b ^ (b << 5)
}

/// The k-th number of a seed, 24 bits.
pub fn draw(seed: u32, k: u32) -> u32 {
    let apart = (k << 27) ^ (k << 14) ^ (k << 7) ^ k;
    let mixed = next(seed.wrapping_add(0x9e37_79b9)).wrapping_add(apart);
    let again = next(next(mixed)).wrapping_add(0x7f4a_7c15);
    next(next(again)) >> 8
}
