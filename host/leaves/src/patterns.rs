//! Which bit patterns are tried, and numbers of 64 bits made from them.

/// Patterns that are tried whatever the stride, each with its two neighbours, of either sign.
const ENDS: [u32; 12] = [
    0x0000_0001, // the smallest value
    0x0080_0000, // the smallest normal value
    0x3eff_ffff, // just below a half
    0x3f00_0000, // a half
    0x3f80_0000, // 1
    0x4020_0000, // 2.5
    0x4b00_0000, // 2^23
    0x4b80_0000, // 2^24
    0x4f00_0000, // 2^31
    0x5f00_0000, // 2^63
    0x5f80_0000, // 2^64
    0x7f80_0000, // infinity
];

/// Every `stride`-th pattern; with a stride above 1 also those around `ENDS`.
pub fn patterns(stride: u32) -> impl Iterator<Item = u32> {
    let ends = if stride == 1 { &ENDS[..0] } else { &ENDS[..] };
    let around = ends
        .iter()
        .flat_map(|&end| [end - 1, end, end + 1])
        .flat_map(|magnitude| [magnitude, magnitude | 1 << 31]);
    around.chain((0..=u32::MAX).step_by(stride as usize))
}

/// 64 bits that depend on all of the pattern's (splitmix64).
pub fn mixed(pattern: u32) -> u64 {
    let mut bits = u64::from(pattern).wrapping_mul(0x9e37_79b9_7f4a_7c15);
    bits = (bits ^ (bits >> 30)).wrapping_mul(0xbf58_476d_1ce4_e5b9);
    bits = (bits ^ (bits >> 27)).wrapping_mul(0x94d0_49bb_1331_11eb);
    bits ^ (bits >> 31)
}

/// A number of any length: the pattern itself where its last bit is 0, else mixed bits cut to some length.
pub fn whole(pattern: u32) -> u64 {
    if pattern % 2 == 0 {
        u64::from(pattern) << (mixed(pattern) % 33)
    } else {
        mixed(pattern) >> (pattern / 2 % 64)
    }
}

/// An f64 at the f32 of the pattern, half way to the next one, or the least step beside either.
pub fn wide(pattern: u32) -> f64 {
    let near = f64::from(f32::from_bits(pattern)).to_bits();
    let steps = [
        0,
        1,
        (1 << 28) - 1,
        1 << 28,
        (1 << 28) + 1,
        mixed(pattern) >> 36,
    ];
    f64::from_bits(near.wrapping_add(steps[(mixed(pattern) % 6) as usize]))
}
