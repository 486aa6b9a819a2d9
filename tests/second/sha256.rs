//! SHA-256 of FIPS 180-4. Its constants are worked out from the primes, as the standard defines
//! them (fractional parts of square and cube roots), so that no table is copied from anywhere.

/// The length of a digest, an id and a key, in bytes.
pub const DIGEST: usize = 32;

/// The first `count` primes.
fn primes(count: usize) -> Vec<u128> {
    let mut found: Vec<u128> = Vec::new();
    let mut candidate = 2;
    while found.len() < count {
        if found.iter().all(|prime| candidate % prime != 0) {
            found.push(candidate);
        }
        candidate += 1;
    }
    found
}

/// The first 32 bits of the fractional part of the `degree`-th root of a prime below 312: the
/// largest r with r^degree <= prime * 2^(32 * degree), without its whole part.
fn root_fraction(prime: u128, degree: u32) -> u32 {
    let target = prime << (32 * degree);
    let (mut low, mut high) = (0_u128, 1_u128 << 37);
    while high - low > 1 {
        let middle = (low + high) / 2;
        if middle.pow(degree) <= target {
            low = middle;
        } else {
            high = middle;
        }
    }
    (low & 0xffff_ffff) as u32
}

/// The message with the standard's padding: a one bit, zero bits, the length in bits.
fn padded(message: &[u8]) -> Vec<u8> {
    let mut bytes = message.to_vec();
    bytes.push(0x80);
    while bytes.len() % 64 != 56 {
        bytes.push(0);
    }
    bytes.extend((message.len() as u64 * 8).to_be_bytes());
    bytes
}

/// The 64 schedule words of one 64-byte block.
fn schedule(block: &[u8]) -> [u32; 64] {
    let mut words = [0_u32; 64];
    for (t, word) in block.chunks(4).enumerate() {
        words[t] = u32::from_be_bytes([word[0], word[1], word[2], word[3]]);
    }
    for t in 16..64 {
        let (x, y) = (words[t - 15], words[t - 2]);
        let small_0 = x.rotate_right(7) ^ x.rotate_right(18) ^ (x >> 3);
        let small_1 = y.rotate_right(17) ^ y.rotate_right(19) ^ (y >> 10);
        words[t] = small_1
            .wrapping_add(words[t - 7])
            .wrapping_add(small_0)
            .wrapping_add(words[t - 16]);
    }
    words
}

/// The hash words after one more block.
fn compress(hash: [u32; 8], block: &[u8], constants: &[u32]) -> [u32; 8] {
    let words = schedule(block);
    let [mut a, mut b, mut c, mut d, mut e, mut f, mut g, mut h] = hash;
    for t in 0..64 {
        let big_1 = e.rotate_right(6) ^ e.rotate_right(11) ^ e.rotate_right(25);
        let choice = (e & f) ^ (!e & g);
        let first = h
            .wrapping_add(big_1)
            .wrapping_add(choice)
            .wrapping_add(constants[t])
            .wrapping_add(words[t]);
        let big_0 = a.rotate_right(2) ^ a.rotate_right(13) ^ a.rotate_right(22);
        let majority = (a & b) ^ (a & c) ^ (b & c);
        let second = big_0.wrapping_add(majority);
        (h, g, f, e) = (g, f, e, d.wrapping_add(first));
        (d, c, b, a) = (c, b, a, first.wrapping_add(second));
    }
    let worked = [a, b, c, d, e, f, g, h];
    std::array::from_fn(|i| hash[i].wrapping_add(worked[i]))
}

/// The standard's first hash words and round constants, worked out once.
fn constants() -> &'static ([u32; 8], Vec<u32>) {
    static WORKED_OUT: std::sync::OnceLock<([u32; 8], Vec<u32>)> = std::sync::OnceLock::new();
    WORKED_OUT.get_or_init(|| {
        let primes = primes(64);
        let start = std::array::from_fn(|i| root_fraction(primes[i], 2));
        (
            start,
            primes
                .iter()
                .map(|&prime| root_fraction(prime, 3))
                .collect(),
        )
    })
}

/// SHA-256 of a message.
pub fn sha256(message: &[u8]) -> [u8; DIGEST] {
    let (start, rounds) = constants();
    let hash = padded(message)
        .chunks(64)
        .fold(*start, |hash, block| compress(hash, block, rounds));
    let mut digest = [0; DIGEST];
    for (i, word) in hash.iter().enumerate() {
        digest[4 * i..4 * i + 4].copy_from_slice(&word.to_be_bytes());
    }
    digest
}

/// Bytes in lower-case hex.
pub fn hex(bytes: &[u8]) -> String {
    bytes.iter().map(|byte| format!("{byte:02x}")).collect()
}
