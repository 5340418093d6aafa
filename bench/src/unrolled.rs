//! SHA-256 in ordinary Rust written for speed: all 64 rounds of a block one after the other with their constants as literals, the
//! message schedule in sixteen local words beside them, and Ch and Maj in forms with fewer operations than the standard's. Of the shapes
//! that were tried, this was the fastest.

use std::array::from_fn;

const BLOCK_SIZE: usize = 64;
const INITIAL: [u32; 8] =
    [0x6a09e667, 0xbb67ae85, 0x3c6ef372, 0xa54ff53a, 0x510e527f, 0x9b05688c, 0x1f83d9ab, 0x5be0cd19];

/// The digest of a message. Its whole blocks are read where they lie; only what is left at the end is copied, to be padded.
pub fn digest(message: &[u8]) -> [u8; 32] {
    let (blocks, rest) = message.as_chunks();
    let mut last = [0; 2 * BLOCK_SIZE];
    last[..rest.len()].copy_from_slice(rest);
    last[rest.len()] = 0x80;
    let end = if rest.len() < 56 { BLOCK_SIZE } else { 2 * BLOCK_SIZE };
    last[end - 8..end].copy_from_slice(&(8 * message.len() as u64).to_be_bytes());
    let (last, _) = last[..end].as_chunks();

    let mut hash = INITIAL;
    for block in blocks.iter().chain(last) {
        add_block(&mut hash, block);
    }
    hash.map(u32::to_be_bytes).as_flattened().try_into().unwrap()
}

/// The rounds of the given constants. From each to the next, the eight variables and the sixteen words move on by one place. After the
/// round, `$then` is done with its word, whose place is free.
macro_rules! rounds {
    ($then:ident, $variables:tt, $words:tt,) => {};
    (
        $then:ident,
        ($a:ident $b:ident $c:ident $d:ident $e:ident $f:ident $g:ident $h:ident),
        ($w0:ident $w1:ident $w2:ident $w3:ident $w4:ident $w5:ident $w6:ident $w7:ident
         $w8:ident $w9:ident $w10:ident $w11:ident $w12:ident $w13:ident $w14:ident $w15:ident),
        $k:literal $($later:literal)*
    ) => {
        let t1 = $h.wrapping_add($k).wrapping_add($w0).wrapping_add(sum_1($e)).wrapping_add(ch($e, $f, $g));
        let t2 = sum_0($a).wrapping_add(maj($a, $b, $c));
        $d = $d.wrapping_add(t1);
        $h = t1.wrapping_add(t2);
        $then!($w0 $w1 $w9 $w14);
        rounds!(
            $then,
            ($h $a $b $c $d $e $f $g),
            ($w1 $w2 $w3 $w4 $w5 $w6 $w7 $w8 $w9 $w10 $w11 $w12 $w13 $w14 $w15 $w0),
            $($later)*
        );
    };
}

/// The word that is due sixteen rounds later takes the place.
macro_rules! schedule {
    ($w0:ident $w1:ident $w9:ident $w14:ident) => {
        $w0 = $w0.wrapping_add(sigma_0($w1)).wrapping_add($w9).wrapping_add(sigma_1($w14));
    };
}

/// In the last sixteen rounds no word is due later.
macro_rules! nothing {
    ($w0:ident $w1:ident $w9:ident $w14:ident) => {};
}

/// One turn of the computation: the hash value after a block.
fn add_block(hash: &mut [u32; 8], block: &[u8; BLOCK_SIZE]) {
    let [mut a, mut b, mut c, mut d, mut e, mut f, mut g, mut h] = *hash;
    let (words, _) = block.as_chunks();
    let words: [u32; 16] = from_fn(|t| u32::from_be_bytes(words[t]));
    let [mut w0, mut w1, mut w2, mut w3, mut w4, mut w5, mut w6, mut w7, others @ ..] = words;
    let [mut w8, mut w9, mut w10, mut w11, mut w12, mut w13, mut w14, mut w15] = others;
    rounds!(
        schedule, (a b c d e f g h), (w0 w1 w2 w3 w4 w5 w6 w7 w8 w9 w10 w11 w12 w13 w14 w15),
        0x428a2f98 0x71374491 0xb5c0fbcf 0xe9b5dba5 0x3956c25b 0x59f111f1 0x923f82a4 0xab1c5ed5
        0xd807aa98 0x12835b01 0x243185be 0x550c7dc3 0x72be5d74 0x80deb1fe 0x9bdc06a7 0xc19bf174
        0xe49b69c1 0xefbe4786 0x0fc19dc6 0x240ca1cc 0x2de92c6f 0x4a7484aa 0x5cb0a9dc 0x76f988da
        0x983e5152 0xa831c66d 0xb00327c8 0xbf597fc7 0xc6e00bf3 0xd5a79147 0x06ca6351 0x14292967
        0x27b70a85 0x2e1b2138 0x4d2c6dfc 0x53380d13 0x650a7354 0x766a0abb 0x81c2c92e 0x92722c85
        0xa2bfe8a1 0xa81a664b 0xc24b8b70 0xc76c51a3 0xd192e819 0xd6990624 0xf40e3585 0x106aa070
    );
    rounds!(
        nothing, (a b c d e f g h), (w0 w1 w2 w3 w4 w5 w6 w7 w8 w9 w10 w11 w12 w13 w14 w15),
        0x19a4c116 0x1e376c08 0x2748774c 0x34b0bcb5 0x391c0cb3 0x4ed8aa4a 0x5b9cca4f 0x682e6ff3
        0x748f82ee 0x78a5636f 0x84c87814 0x8cc70208 0x90befffa 0xa4506ceb 0xbef9a3f7 0xc67178f2
    );
    for (word, new) in hash.iter_mut().zip([a, b, c, d, e, f, g, h]) {
        *word = word.wrapping_add(new);
    }
}

fn ch(x: u32, y: u32, z: u32) -> u32 {
    z ^ (x & (y ^ z))
}

/// One of its two exclusive ors is the other of the round before, so that it costs one.
fn maj(x: u32, y: u32, z: u32) -> u32 {
    ((x ^ y) & (y ^ z)) ^ y
}

fn sum_0(x: u32) -> u32 {
    x.rotate_right(2) ^ x.rotate_right(13) ^ x.rotate_right(22)
}

fn sum_1(x: u32) -> u32 {
    x.rotate_right(6) ^ x.rotate_right(11) ^ x.rotate_right(25)
}

fn sigma_0(x: u32) -> u32 {
    x.rotate_right(7) ^ x.rotate_right(18) ^ (x >> 3)
}

fn sigma_1(x: u32) -> u32 {
    x.rotate_right(17) ^ x.rotate_right(19) ^ (x >> 10)
}
