//! SHA-256 (FIPS 180-4), by which the original's text is known. Written here,
//! since no crate comes from a registry.

/// The first 32 bits of the fractional part of a root of a prime, found in whole
/// numbers: the largest n with n^power not above prime * 2^(32 * power), without
/// the root's own whole part.
fn fraction_of_root(prime: u128, power: u32) -> u32 {
    let target = prime << (32 * power);
    // Every root asked for is below 8, so that 35 bits hold it with its 32.
    let root = (0..35).rev().fold(0u128, |n, bit| if (n | 1 << bit).pow(power) <= target { n | 1 << bit } else { n });
    root as u32
}

/// The first `N` primes' roots, as the standard has them.
fn fractions<const N: usize>(power: u32) -> [u32; N] {
    let mut primes = (2u128..).filter(|n| (2..*n).all(|d| n % d != 0));
    std::array::from_fn(|_| fraction_of_root(primes.next().unwrap(), power))
}

/// The message, ended by a one bit, zeros and its length in bits, so that it has
/// whole blocks of 64 bytes.
fn padded(message: &[u8]) -> Vec<u8> {
    let mut bytes = message.to_vec();
    bytes.push(0x80);
    bytes.resize((bytes.len() + 8).next_multiple_of(64) - 8, 0);
    bytes.extend((8 * message.len() as u64).to_be_bytes());
    bytes
}

/// The sixty-four words that a block stands for.
fn schedule(block: &[u8]) -> [u32; 64] {
    let mut w = [0u32; 64];
    for (word, bytes) in w.iter_mut().zip(block.chunks_exact(4)) {
        *word = u32::from_be_bytes(bytes.try_into().unwrap());
    }
    for t in 16..64 {
        let [early, late] = [w[t - 15], w[t - 2]];
        let s0 = early.rotate_right(7) ^ early.rotate_right(18) ^ early >> 3;
        let s1 = late.rotate_right(17) ^ late.rotate_right(19) ^ late >> 10;
        w[t] = w[t - 16].wrapping_add(s0).wrapping_add(w[t - 7]).wrapping_add(s1);
    }
    w
}

/// The state after one block.
fn after_block(state: [u32; 8], block: &[u8], constants: &[u32; 64]) -> [u32; 8] {
    let [mut a, mut b, mut c, mut d, mut e, mut f, mut g, mut h] = state;
    for (word, constant) in schedule(block).into_iter().zip(constants) {
        let s1 = e.rotate_right(6) ^ e.rotate_right(11) ^ e.rotate_right(25);
        let choice = e & f ^ !e & g;
        let one = h.wrapping_add(s1).wrapping_add(choice).wrapping_add(*constant).wrapping_add(word);
        let s0 = a.rotate_right(2) ^ a.rotate_right(13) ^ a.rotate_right(22);
        let majority = a & b ^ a & c ^ b & c;
        [h, g, f, e, d, c, b, a] = [g, f, e, d.wrapping_add(one), c, b, a, one.wrapping_add(s0.wrapping_add(majority))];
    }
    let turned = [a, b, c, d, e, f, g, h];
    std::array::from_fn(|i| state[i].wrapping_add(turned[i]))
}

/// The digest of a message, in hexadecimal.
pub fn hex(message: &[u8]) -> String {
    let constants: [u32; 64] = fractions(3);
    let state =
        padded(message).chunks_exact(64).fold(fractions(2), |state, block| after_block(state, block, &constants));
    state.iter().map(|word| format!("{word:08x}")).collect()
}
