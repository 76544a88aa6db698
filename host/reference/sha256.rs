//! SHA-256 by FIPS 180-4: its functions (4.1.2), constants (4.2.2, 5.3.3), padding (5.1.1) and compression (6.2.2). The
//! constants are not typed but computed, as the standard says where they come from.

pub const BLOCK: usize = 64;

/// The first primes.
const fn primes<const N: usize>() -> [u128; N] {
    let (mut found, mut count, mut n) = ([0; N], 0, 2);
    while count < N {
        let mut divisor = 2;
        while n % divisor != 0 {
            divisor += 1;
        }
        if divisor == n {
            found[count] = n;
            count += 1;
        }
        n += 1;
    }
    found
}

/// The first 32 bits behind the point of the square or cube root of each of the first primes: the root of the prime
/// times 2 to the power 32 times that degree, of which the last 32 bits are taken.
const fn root_bits<const N: usize>(degree: u32) -> [u32; N] {
    let (primes, mut bits, mut i) = (primes::<N>(), [0; N], 0);
    while i < N {
        let (scaled, mut root, mut bit) = (primes[i] << (32 * degree), 0_u128, 1_u128 << 37);
        while bit > 0 {
            if (root + bit).pow(degree) <= scaled {
                root += bit;
            }
            bit >>= 1;
        }
        bits[i] = root as u32;
        i += 1;
    }
    bits
}

/// The chaining words in front of the first block.
pub const INITIAL: [u32; 8] = root_bits(2);
const K: [u32; 64] = root_bits(3);

fn ch(x: u32, y: u32, z: u32) -> u32 {
    (x & y) ^ (!x & z)
}

fn maj(x: u32, y: u32, z: u32) -> u32 {
    (x & y) ^ (x & z) ^ (y & z)
}

fn big_sigma_0(x: u32) -> u32 {
    x.rotate_right(2) ^ x.rotate_right(13) ^ x.rotate_right(22)
}

fn big_sigma_1(x: u32) -> u32 {
    x.rotate_right(6) ^ x.rotate_right(11) ^ x.rotate_right(25)
}

fn small_sigma_0(x: u32) -> u32 {
    x.rotate_right(7) ^ x.rotate_right(18) ^ x >> 3
}

fn small_sigma_1(x: u32) -> u32 {
    x.rotate_right(17) ^ x.rotate_right(19) ^ x >> 10
}

/// The message schedule of a block.
fn schedule(block: &[u8]) -> [u32; 64] {
    let mut w = [0; 64];
    for (word, bytes) in w.iter_mut().zip(block.chunks_exact(4)) {
        *word = u32::from_be_bytes(bytes.try_into().unwrap());
    }
    for t in 16..64 {
        let (near, far) = (small_sigma_1(w[t - 2]), small_sigma_0(w[t - 15]));
        w[t] = near.wrapping_add(w[t - 7]).wrapping_add(far).wrapping_add(w[t - 16]);
    }
    w
}

fn compress(chain: &mut [u32; 8], block: &[u8]) {
    let w = schedule(block);
    let [mut a, mut b, mut c, mut d, mut e, mut f, mut g, mut h] = *chain;
    for t in 0..64 {
        let t1 = h.wrapping_add(big_sigma_1(e)).wrapping_add(ch(e, f, g)).wrapping_add(K[t]).wrapping_add(w[t]);
        let t2 = big_sigma_0(a).wrapping_add(maj(a, b, c));
        (h, g, f, e) = (g, f, e, d.wrapping_add(t1));
        (d, c, b, a) = (c, b, a, t1.wrapping_add(t2));
    }
    for (word, new) in chain.iter_mut().zip([a, b, c, d, e, f, g, h]) {
        *word = word.wrapping_add(new);
    }
}

/// The whole blocks of these bytes; what is behind them is given back.
pub fn take_blocks<'a>(chain: &mut [u32; 8], bytes: &'a [u8]) -> &'a [u8] {
    let blocks = bytes.chunks_exact(BLOCK);
    let rest = blocks.remainder();
    blocks.for_each(|block| compress(chain, block));
    rest
}

/// The digest, where the blocks before were taken, these bytes are left over, fewer than a block, and the message has
/// so many bytes in all.
pub fn close(mut chain: [u32; 8], left: &[u8], length: u64) -> [u8; 32] {
    let mut padded = [0; 2 * BLOCK];
    padded[..left.len()].copy_from_slice(left);
    padded[left.len()] = 0x80;
    // a bit 1 and the number of bits have to find room behind what is left
    let end = if left.len() + 1 + 8 <= BLOCK { BLOCK } else { 2 * BLOCK };
    padded[end - 8..end].copy_from_slice(&(8 * length).to_be_bytes());
    take_blocks(&mut chain, &padded[..end]);
    words_as_bytes(&chain)
}

pub fn words_as_bytes(chain: &[u32; 8]) -> [u8; 32] {
    let mut bytes = [0; 32];
    for (four, word) in bytes.chunks_exact_mut(4).zip(chain) {
        four.copy_from_slice(&word.to_be_bytes());
    }
    bytes
}

pub fn digest(message: &[u8]) -> [u8; 32] {
    let mut chain = INITIAL;
    let left = take_blocks(&mut chain, message);
    close(chain, left, message.len() as u64)
}
