//! MD5, as RFC 1321 has it: the digest of an image's bytes. FILES.md, "Files of images".

/// The constants are floor(2^32 * abs(sin(i + 1))).
static SINES: [u32; 64] = [
    0xd76aa478, 0xe8c7b756, 0x242070db, 0xc1bdceee, 0xf57c0faf, 0x4787c62a, 0xa8304613, 0xfd469501, 0x698098d8, 0x8b44f7af, 0xffff5bb1,
    0x895cd7be, 0x6b901122, 0xfd987193, 0xa679438e, 0x49b40821, 0xf61e2562, 0xc040b340, 0x265e5a51, 0xe9b6c7aa, 0xd62f105d, 0x02441453,
    0xd8a1e681, 0xe7d3fbc8, 0x21e1cde6, 0xc33707d6, 0xf4d50d87, 0x455a14ed, 0xa9e3e905, 0xfcefa3f8, 0x676f02d9, 0x8d2a4c8a, 0xfffa3942,
    0x8771f681, 0x6d9d6122, 0xfde5380c, 0xa4beea44, 0x4bdecfa9, 0xf6bb4b60, 0xbebfbc70, 0x289b7ec6, 0xeaa127fa, 0xd4ef3085, 0x04881d05,
    0xd9d4d039, 0xe6db99e5, 0x1fa27cf8, 0xc4ac5665, 0xf4292244, 0x432aff97, 0xab9423a7, 0xfc93a039, 0x655b59c3, 0x8f0ccc92, 0xffeff47d,
    0x85845dd1, 0x6fa87e4f, 0xfe2ce6e0, 0xa3014314, 0x4e0811a1, 0xf7537e82, 0xbd3af235, 0x2ad7d2bb, 0xeb86d391,
];

/// The digest of the bytes.
pub fn digest(bytes: &[u8]) -> [u8; 16] {
    let mut state = [0x67452301, 0xefcdab89, 0x98badcfe, 0x10325476];
    let mut blocks = bytes.chunks_exact(64);
    for block in &mut blocks {
        mix(&mut state, block);
    }
    let mut tail = blocks.remainder().to_vec();
    tail.push(0x80);
    tail.resize(if tail.len() <= 56 { 56 } else { 120 }, 0);
    tail.extend_from_slice(&(bytes.len() as u64 * 8).to_le_bytes());
    for block in tail.chunks_exact(64) {
        mix(&mut state, block);
    }
    let mut digest = [0; 16];
    for (bytes, word) in digest.chunks_exact_mut(4).zip(state) {
        bytes.copy_from_slice(&word.to_le_bytes());
    }
    digest
}

/// Takes one block of 64 bytes in.
fn mix(state: &mut [u32; 4], block: &[u8]) {
    let mut words = [0; 16];
    for (word, bytes) in words.iter_mut().zip(block.chunks_exact(4)) {
        *word = u32::from_le_bytes([bytes[0], bytes[1], bytes[2], bytes[3]]);
    }
    let before = *state;
    round::<0, 1, 0>(state, &words, [7, 12, 17, 22], |b, c, d| (b & c) | (!b & d));
    round::<1, 5, 1>(state, &words, [5, 9, 14, 20], |b, c, d| (d & b) | (!d & c));
    round::<2, 3, 5>(state, &words, [4, 11, 16, 23], |b, c, d| b ^ c ^ d);
    round::<3, 7, 0>(state, &words, [6, 10, 15, 21], |b, c, d| c ^ (b | !d));
    for (word, before) in state.iter_mut().zip(before) {
        *word = word.wrapping_add(before);
    }
}

/// A round of 16 steps. Step k takes the word at (k * TIMES + PLUS) mod 16.
#[inline(always)]
fn round<const NUMBER: usize, const TIMES: usize, const PLUS: usize>(
    state: &mut [u32; 4],
    words: &[u32; 16],
    shifts: [u32; 4],
    mixed: impl Fn(u32, u32, u32) -> u32,
) {
    let [mut a, mut b, mut c, mut d] = *state;
    for step in 0..16 {
        let word = words[(step * TIMES + PLUS) % 16];
        let sum = a.wrapping_add(mixed(b, c, d)).wrapping_add(SINES[NUMBER * 16 + step]).wrapping_add(word);
        (a, d, c) = (d, c, b);
        b = b.wrapping_add(sum.rotate_left(shifts[step % 4]));
    }
    *state = [a, b, c, d];
}

/// The file of a digest: 32 digits, a space, a star, the image's name and a line feed; or the 32 digits alone.
/// FILES.md, "Files of images".
pub fn read_file(bytes: &[u8], image: &[u8]) -> Option<[u8; 16]> {
    let (digits, rest) = bytes.split_at_checked(32)?;
    if !rest.is_empty() && rest.strip_prefix(b" *").and_then(|rest| rest.strip_suffix(b"\n")) != Some(image) {
        return None;
    }
    let mut digest = Vec::with_capacity(16);
    crate::words::read_hex(digits, &mut digest).then(|| digest.try_into().ok())?
}
