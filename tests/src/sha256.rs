//! SHA-256, section by section of FIPS 180-4, for messages of whole bytes.

pub const DIGEST_SIZE: usize = 32;
const BLOCK_SIZE: usize = 64;
/// The bytes at the end of the last block that hold the message's length in bits.
const LENGTH_SIZE: usize = 8;

/// The words K_0 to K_63 (4.2.2): the first 32 bits of the fractional parts of the cube roots of the first 64 primes.
#[rustfmt::skip]
const K: [u32; 64] = [
    0x428a2f98, 0x71374491, 0xb5c0fbcf, 0xe9b5dba5, 0x3956c25b, 0x59f111f1, 0x923f82a4, 0xab1c5ed5,
    0xd807aa98, 0x12835b01, 0x243185be, 0x550c7dc3, 0x72be5d74, 0x80deb1fe, 0x9bdc06a7, 0xc19bf174,
    0xe49b69c1, 0xefbe4786, 0x0fc19dc6, 0x240ca1cc, 0x2de92c6f, 0x4a7484aa, 0x5cb0a9dc, 0x76f988da,
    0x983e5152, 0xa831c66d, 0xb00327c8, 0xbf597fc7, 0xc6e00bf3, 0xd5a79147, 0x06ca6351, 0x14292967,
    0x27b70a85, 0x2e1b2138, 0x4d2c6dfc, 0x53380d13, 0x650a7354, 0x766a0abb, 0x81c2c92e, 0x92722c85,
    0xa2bfe8a1, 0xa81a664b, 0xc24b8b70, 0xc76c51a3, 0xd192e819, 0xd6990624, 0xf40e3585, 0x106aa070,
    0x19a4c116, 0x1e376c08, 0x2748774c, 0x34b0bcb5, 0x391c0cb3, 0x4ed8aa4a, 0x5b9cca4f, 0x682e6ff3,
    0x748f82ee, 0x78a5636f, 0x84c87814, 0x8cc70208, 0x90befffa, 0xa4506ceb, 0xbef9a3f7, 0xc67178f2,
];

/// The initial hash value (5.3.3): the same of the square roots of the first eight primes.
#[rustfmt::skip]
const INITIAL: [u32; 8] = [
    0x6a09e667, 0xbb67ae85, 0x3c6ef372, 0xa54ff53a, 0x510e527f, 0x9b05688c, 0x1f83d9ab, 0x5be0cd19,
];

/// The digest of a message. Its whole blocks are read where they lie; only what is left at the end is copied, to be padded.
pub fn digest(message: &[u8]) -> [u8; DIGEST_SIZE] {
    let mut hash = INITIAL;
    let blocks = message.chunks_exact(BLOCK_SIZE);
    let (padded, length) = pad(blocks.remainder(), message.len());
    for block in blocks.chain(padded[..length].chunks_exact(BLOCK_SIZE)) {
        add_block(&mut hash, block);
    }
    let mut digest = [0; DIGEST_SIZE];
    for (bytes, word) in digest.chunks_exact_mut(4).zip(hash) {
        bytes.copy_from_slice(&word.to_be_bytes());
    }
    digest
}

/// The end of a message of `length` bytes, padded (5.1.1): a one bit, zero bits, and the length in bits. It fills one block or two.
fn pad(end: &[u8], length: usize) -> ([u8; 2 * BLOCK_SIZE], usize) {
    let mut padded = [0; 2 * BLOCK_SIZE];
    padded[..end.len()].copy_from_slice(end);
    padded[end.len()] = 0x80;
    let whole = (end.len() + 1 + LENGTH_SIZE).next_multiple_of(BLOCK_SIZE);
    let bits = 8 * length as u64;
    padded[whole - LENGTH_SIZE..whole].copy_from_slice(&bits.to_be_bytes());
    (padded, whole)
}

/// One turn of the computation (6.2.2): the hash value after a block.
fn add_block(hash: &mut [u32; 8], block: &[u8]) {
    let [mut a, mut b, mut c, mut d, mut e, mut f, mut g, mut h] = *hash;
    let w = schedule(block);
    for t in 0..64 {
        let t1 = h.wrapping_add(sum_1(e)).wrapping_add(ch(e, f, g)).wrapping_add(K[t]).wrapping_add(w[t]);
        let t2 = sum_0(a).wrapping_add(maj(a, b, c));
        h = g;
        g = f;
        f = e;
        e = d.wrapping_add(t1);
        d = c;
        c = b;
        b = a;
        a = t1.wrapping_add(t2);
    }
    for (word, new) in hash.iter_mut().zip([a, b, c, d, e, f, g, h]) {
        *word = word.wrapping_add(new);
    }
}

/// The message schedule W_0 to W_63 of a block.
fn schedule(block: &[u8]) -> [u32; 64] {
    let mut w = [0; 64];
    for (word, bytes) in w.iter_mut().zip(block.chunks_exact(4)) {
        *word = u32::from_be_bytes([bytes[0], bytes[1], bytes[2], bytes[3]]);
    }
    for t in 16..64 {
        w[t] = sigma_1(w[t - 2]).wrapping_add(w[t - 7]).wrapping_add(sigma_0(w[t - 15])).wrapping_add(w[t - 16]);
    }
    w
}

// The functions of 4.1.2. The sums are written with a capital sigma there, the others with a small one.

fn ch(x: u32, y: u32, z: u32) -> u32 {
    (x & y) ^ (!x & z)
}

fn maj(x: u32, y: u32, z: u32) -> u32 {
    (x & y) ^ (x & z) ^ (y & z)
}

fn sum_0(x: u32) -> u32 {
    x.rotate_right(2) ^ x.rotate_right(13) ^ x.rotate_right(22)
}

fn sum_1(x: u32) -> u32 {
    x.rotate_right(6) ^ x.rotate_right(11) ^ x.rotate_right(25)
}

fn sigma_0(x: u32) -> u32 {
    x.rotate_right(7) ^ x.rotate_right(18) ^ (x >> 3)
}

fn sigma_1(x: u32) -> u32 {
    x.rotate_right(17) ^ x.rotate_right(19) ^ (x >> 10)
}

#[cfg(test)]
mod tests {
    use super::*;

    fn hex(bytes: &[u8]) -> String {
        bytes.iter().map(|byte| format!("{byte:02x}")).collect()
    }

    /// The standard's examples, and the empty message.
    #[test]
    fn published_messages() {
        let two_blocks = b"abcdbcdecdefdefgefghfghighijhijkijkljklmklmnlmnomnopnopq";
        for (message, expected) in [
            (&b""[..], "e3b0c44298fc1c149afbf4c8996fb92427ae41e4649b934ca495991b7852b855"),
            (b"abc", "ba7816bf8f01cfea414140de5dae2223b00361a396177a9cb410ff61f20015ad"),
            (two_blocks, "248d6a61d20638b8e5c026930c3e6039a33ce45964ff2167f6ecedd419db06c1"),
            (&[b'a'; 1_000_000], "cdc76e5c9914fb9281a1c7e284d73e67f1809a48a497200e046d39ccc7112cd0"),
        ] {
            assert_eq!(hex(&digest(message)), expected);
        }
    }

    /// The greatest root of `n` of that degree, rounded down.
    fn root(n: u128, degree: u32) -> u128 {
        (0..40).rev().fold(0, |root, bit| if (root + (1 << bit)).pow(degree) <= n { root + (1 << bit) } else { root })
    }

    /// The constants are what the standard says of them.
    #[test]
    fn constants() {
        let primes: Vec<u128> = (2..312).filter(|n| (2..*n).all(|factor| n % factor != 0)).collect();
        assert_eq!(primes.len(), K.len());
        for (prime, k) in primes.iter().zip(K) {
            assert_eq!(root(prime << 96, 3) as u32, k);
        }
        for (prime, word) in primes.iter().zip(INITIAL) {
            assert_eq!(root(prime << 64, 2) as u32, word);
        }
    }

    /// A one bit stands after the message, the length at the end of the last block, and zeros between them.
    #[test]
    fn padding() {
        let message = [0xA5; BLOCK_SIZE];
        for length in 0..BLOCK_SIZE {
            let (padded, whole) = pad(&message[..length], 3 * BLOCK_SIZE + length);
            assert_eq!(whole, if length < 56 { 64 } else { 128 });
            assert_eq!(padded[..length], message[..length]);
            assert_eq!(padded[length], 0x80);
            assert!(padded[length + 1..whole - 8].iter().all(|byte| *byte == 0));
            assert_eq!(padded[whole - 8..whole], (8 * (192 + length as u64)).to_be_bytes());
        }
    }
}
