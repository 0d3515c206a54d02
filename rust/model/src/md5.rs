//! The message digest of RFC 1321.

/// The whole part of 4294967296 * |sin(i + 1)|, i in radians (RFC 1321, 3.4).
#[rustfmt::skip]
const SINES: [u32; 64] = [
    0xd76a_a478, 0xe8c7_b756, 0x2420_70db, 0xc1bd_ceee,
    0xf57c_0faf, 0x4787_c62a, 0xa830_4613, 0xfd46_9501,
    0x6980_98d8, 0x8b44_f7af, 0xffff_5bb1, 0x895c_d7be,
    0x6b90_1122, 0xfd98_7193, 0xa679_438e, 0x49b4_0821,
    0xf61e_2562, 0xc040_b340, 0x265e_5a51, 0xe9b6_c7aa,
    0xd62f_105d, 0x0244_1453, 0xd8a1_e681, 0xe7d3_fbc8,
    0x21e1_cde6, 0xc337_07d6, 0xf4d5_0d87, 0x455a_14ed,
    0xa9e3_e905, 0xfcef_a3f8, 0x676f_02d9, 0x8d2a_4c8a,
    0xfffa_3942, 0x8771_f681, 0x6d9d_6122, 0xfde5_380c,
    0xa4be_ea44, 0x4bde_cfa9, 0xf6bb_4b60, 0xbebf_bc70,
    0x289b_7ec6, 0xeaa1_27fa, 0xd4ef_3085, 0x0488_1d05,
    0xd9d4_d039, 0xe6db_99e5, 0x1fa2_7cf8, 0xc4ac_5665,
    0xf429_2244, 0x432a_ff97, 0xab94_23a7, 0xfc93_a039,
    0x655b_59c3, 0x8f0c_cc92, 0xffef_f47d, 0x8584_5dd1,
    0x6fa8_7e4f, 0xfe2c_e6e0, 0xa301_4314, 0x4e08_11a1,
    0xf753_7e82, 0xbd3a_f235, 0x2ad7_d2bb, 0xeb86_d391,
];

/// How far each step of a round rotates; the four numbers repeat.
const TURNS: [[u32; 4]; 4] = [
    [7, 12, 17, 22],
    [5, 9, 14, 20],
    [4, 11, 16, 23],
    [6, 10, 15, 21],
];

/// The digest of `text`.
///
/// ```
/// assert_eq!(model::md5(b"")[..4], [0xd4, 0x1d, 0x8c, 0xd9]);
/// ```
pub fn md5(text: &[u8]) -> [u8; 16] {
    let mut state = [0x6745_2301, 0xefcd_ab89, 0x98ba_dcfe, 0x1032_5476];
    let mut blocks = text.chunks_exact(64);
    for block in &mut blocks {
        add_block(&mut state, block.try_into().expect("a chunk of 64 bytes"));
    }
    add_end(&mut state, blocks.remainder(), text.len());
    let mut digest = [0; 16];
    for (bytes, word) in digest.chunks_exact_mut(4).zip(state) {
        bytes.copy_from_slice(&word.to_le_bytes());
    }
    digest
}

/// Adds the last bytes with their padding: a one bit, zeros, and the length in bits as 64 bits.
fn add_end(state: &mut [u32; 4], rest: &[u8], length: usize) {
    let mut padded = [0; 128];
    padded[..rest.len()].copy_from_slice(rest);
    padded[rest.len()] = 0x80;
    let end = if rest.len() < 56 { 64 } else { 128 };
    let bits = (length as u64).wrapping_mul(8);
    padded[end - 8..end].copy_from_slice(&bits.to_le_bytes());
    for block in padded[..end].chunks_exact(64) {
        add_block(state, block.try_into().expect("a chunk of 64 bytes"));
    }
}

fn add_block(state: &mut [u32; 4], block: &[u8; 64]) {
    let mut words = [0u32; 16];
    for (word, bytes) in words.iter_mut().zip(block.chunks_exact(4)) {
        *word = u32::from_le_bytes(bytes.try_into().expect("a chunk of 4 bytes"));
    }
    let before = *state;
    round::<0>(state, |b, c, d| (b & c) | (!b & d), |i| words[i]);
    round::<1>(
        state,
        |b, c, d| (b & d) | (c & !d),
        |i| words[(5 * i + 1) % 16],
    );
    round::<2>(state, |b, c, d| b ^ c ^ d, |i| words[(3 * i + 5) % 16]);
    round::<3>(state, |b, c, d| c ^ (b | !d), |i| words[(7 * i) % 16]);
    for (word, old) in state.iter_mut().zip(before) {
        *word = word.wrapping_add(old);
    }
}

/// Sixteen steps, each of which makes a new `b` and moves the four words on by one.
#[inline(always)]
fn round<const R: usize>(
    state: &mut [u32; 4],
    mix: impl Fn(u32, u32, u32) -> u32,
    word: impl Fn(usize) -> u32,
) {
    let [mut a, mut b, mut c, mut d] = *state;
    for i in 0..16 {
        let sum = a
            .wrapping_add(mix(b, c, d))
            .wrapping_add(word(i))
            .wrapping_add(SINES[16 * R + i]);
        let next = b.wrapping_add(sum.rotate_left(TURNS[R][i % 4]));
        (a, b, c, d) = (d, next, b, c);
    }
    *state = [a, b, c, d];
}

#[cfg(test)]
mod tests {
    use super::*;

    fn hex(text: &[u8]) -> String {
        md5(text).iter().map(|byte| format!("{byte:02x}")).collect()
    }

    #[test]
    fn the_suite_of_rfc_1321() {
        let digits = b"1234567890".repeat(8);
        let letters = b"ABCDEFGHIJKLMNOPQRSTUVWXYZabcdefghijklmnopqrstuvwxyz0123456789";
        assert_eq!(hex(b""), "d41d8cd98f00b204e9800998ecf8427e");
        assert_eq!(hex(b"a"), "0cc175b9c0f1b6a831c399e269772661");
        assert_eq!(hex(b"abc"), "900150983cd24fb0d6963f7d28e17f72");
        assert_eq!(hex(b"message digest"), "f96b697d7cb7938d525a2f31aaf161d0");
        assert_eq!(hex(&letters[26..52]), "c3fcd3d76192e4007dfb496cca67e13b");
        assert_eq!(hex(letters), "d174ab98d277d9f5a5611c2c9f419d9f");
        assert_eq!(hex(&digits), "57edf4a22be3c955ac49da2e2107b67a");
    }

    /// The lengths around the padding's borders; the digests are those of OpenSSL.
    #[test]
    fn lengths_around_a_block() {
        let digests = [
            (55, "ef1772b6dff9a122358552954ad0df65"),
            (56, "3b0c8ac703f828b04c6c197006d17218"),
            (63, "b06521f39153d618550606be297466d5"),
            (64, "014842d480b571495a4a0363793f7367"),
            (65, "c743a45e0d2e6a95cb859adae0248435"),
            (119, "8a7bd0732ed6a28ce75f6dabc90e1613"),
            (120, "5f61c0ccad4cac44c75ff505e1f1e537"),
            (128, "e510683b3f5ffe4093d021808bc6ff70"),
        ];
        for (length, digest) in digests {
            assert_eq!(hex(&vec![b'a'; length]), digest, "{length} bytes");
        }
    }
}
