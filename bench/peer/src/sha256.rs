//! SHA-256 (FIPS 180-4) and HMAC-SHA-256 (RFC 2104), in software.

pub type Digest = [u8; 32];
pub type State = [u32; 8];
pub type Block = [u32; 16];

const BLOCK: usize = 64;

const START: State = [
    0x6a09e667, 0xbb67ae85, 0x3c6ef372, 0xa54ff53a, 0x510e527f, 0x9b05688c, 0x1f83d9ab, 0x5be0cd19,
];

const ROUND: [u32; 64] = [
    0x428a2f98, 0x71374491, 0xb5c0fbcf, 0xe9b5dba5, 0x3956c25b, 0x59f111f1, 0x923f82a4, 0xab1c5ed5,
    0xd807aa98, 0x12835b01, 0x243185be, 0x550c7dc3, 0x72be5d74, 0x80deb1fe, 0x9bdc06a7, 0xc19bf174,
    0xe49b69c1, 0xefbe4786, 0x0fc19dc6, 0x240ca1cc, 0x2de92c6f, 0x4a7484aa, 0x5cb0a9dc, 0x76f988da,
    0x983e5152, 0xa831c66d, 0xb00327c8, 0xbf597fc7, 0xc6e00bf3, 0xd5a79147, 0x06ca6351, 0x14292967,
    0x27b70a85, 0x2e1b2138, 0x4d2c6dfc, 0x53380d13, 0x650a7354, 0x766a0abb, 0x81c2c92e, 0x92722c85,
    0xa2bfe8a1, 0xa81a664b, 0xc24b8b70, 0xc76c51a3, 0xd192e819, 0xd6990624, 0xf40e3585, 0x106aa070,
    0x19a4c116, 0x1e376c08, 0x2748774c, 0x34b0bcb5, 0x391c0cb3, 0x4ed8aa4a, 0x5b9cca4f, 0x682e6ff3,
    0x748f82ee, 0x78a5636f, 0x84c87814, 0x8cc70208, 0x90befffa, 0xa4506ceb, 0xbef9a3f7, 0xc67178f2,
];

#[inline(always)]
fn big0(x: u32) -> u32 {
    x.rotate_right(2) ^ x.rotate_right(13) ^ x.rotate_right(22)
}

#[inline(always)]
fn big1(x: u32) -> u32 {
    x.rotate_right(6) ^ x.rotate_right(11) ^ x.rotate_right(25)
}

#[inline(always)]
fn small0(x: u32) -> u32 {
    x.rotate_right(7) ^ x.rotate_right(18) ^ (x >> 3)
}

#[inline(always)]
fn small1(x: u32) -> u32 {
    x.rotate_right(17) ^ x.rotate_right(19) ^ (x >> 10)
}

/// One round. The eight working words are not moved; the caller turns their names instead, which
/// spares eight moves a round.
macro_rules! round {
    ($a:ident $b:ident $c:ident $d:ident $e:ident $f:ident $g:ident $h:ident, $word:expr, $k:expr) => {
        let t = $h
            .wrapping_add(big1($e))
            .wrapping_add($g ^ ($e & ($f ^ $g)))
            .wrapping_add($k)
            .wrapping_add($word);
        $d = $d.wrapping_add(t);
        $h = t
            .wrapping_add(big0($a))
            .wrapping_add(($a & $b) ^ ($c & ($a ^ $b)));
    };
}

/// Sixteen rounds; `$word` says how word i of these sixteen is found.
macro_rules! sixteen {
    ($a:ident $b:ident $c:ident $d:ident $e:ident $f:ident $g:ident $h:ident, $k:expr, $word:ident) => {
        round!($a $b $c $d $e $f $g $h, $word(0), $k[0]);
        round!($h $a $b $c $d $e $f $g, $word(1), $k[1]);
        round!($g $h $a $b $c $d $e $f, $word(2), $k[2]);
        round!($f $g $h $a $b $c $d $e, $word(3), $k[3]);
        round!($e $f $g $h $a $b $c $d, $word(4), $k[4]);
        round!($d $e $f $g $h $a $b $c, $word(5), $k[5]);
        round!($c $d $e $f $g $h $a $b, $word(6), $k[6]);
        round!($b $c $d $e $f $g $h $a, $word(7), $k[7]);
        round!($a $b $c $d $e $f $g $h, $word(8), $k[8]);
        round!($h $a $b $c $d $e $f $g, $word(9), $k[9]);
        round!($g $h $a $b $c $d $e $f, $word(10), $k[10]);
        round!($f $g $h $a $b $c $d $e, $word(11), $k[11]);
        round!($e $f $g $h $a $b $c $d, $word(12), $k[12]);
        round!($d $e $f $g $h $a $b $c, $word(13), $k[13]);
        round!($c $d $e $f $g $h $a $b, $word(14), $k[14]);
        round!($b $c $d $e $f $g $h $a, $word(15), $k[15]);
    };
}

/// Takes one block of sixteen words into the state.
pub fn compress(state: &mut State, block: &Block) {
    let [mut a, mut b, mut c, mut d, mut e, mut f, mut g, mut h] = *state;
    // Only the last sixteen words of the schedule are ever needed, so they turn in place.
    let mut w = *block;
    let (rounds, _) = ROUND.as_chunks::<16>();

    let given = |i: usize| w[i];
    sixteen!(a b c d e f g h, rounds[0], given);
    for k in &rounds[1..] {
        let mut next = |i: usize| {
            w[i] = w[i]
                .wrapping_add(small0(w[(i + 1) & 15]))
                .wrapping_add(w[(i + 9) & 15])
                .wrapping_add(small1(w[(i + 14) & 15]));
            w[i]
        };
        sixteen!(a b c d e f g h, k, next);
    }

    let worked = [a, b, c, d, e, f, g, h];
    for (old, new) in state.iter_mut().zip(worked) {
        *old = old.wrapping_add(new);
    }
}

/// The sixteen words of 64 bytes.
#[inline]
pub fn words(bytes: &[u8; BLOCK]) -> Block {
    let (quads, _) = bytes.as_chunks::<4>();
    let mut block = [0; 16];
    for (word, quad) in block.iter_mut().zip(quads) {
        *word = u32::from_be_bytes(*quad);
    }
    block
}

/// Takes the bytes and the padding into a state that has already taken `before` bytes, a multiple of 64.
fn finish(mut state: State, bytes: &[u8], before: u64) -> State {
    let (full, rest) = bytes.as_chunks::<BLOCK>();
    for block in full {
        compress(&mut state, &words(block));
    }
    let bits = (before + bytes.len() as u64) * 8;
    let mut last = [0; BLOCK];
    last[..rest.len()].copy_from_slice(rest);
    last[rest.len()] = 0x80;
    if rest.len() >= BLOCK - 8 {
        compress(&mut state, &words(&last));
        last = [0; BLOCK];
    }
    last[BLOCK - 8..].copy_from_slice(&bits.to_be_bytes());
    compress(&mut state, &words(&last));
    state
}

fn bytes_of(state: &State) -> Digest {
    let mut digest = [0; 32];
    for (quad, word) in digest.as_chunks_mut::<4>().0.iter_mut().zip(state) {
        *quad = word.to_be_bytes();
    }
    digest
}

pub fn digest(bytes: &[u8]) -> Digest {
    bytes_of(&finish(START, bytes, 0))
}

/// A key for HMAC, kept as the two states that have taken the padded key. So a MAC over a short
/// text costs two blocks and not four.
#[derive(Clone, Copy)]
pub struct MacKey {
    inner: State,
    outer: State,
}

impl MacKey {
    /// The key must not be longer than a block; the keys of consoles have 32 bytes.
    pub fn new(key: &[u8]) -> MacKey {
        let mut inner = [0x36; BLOCK];
        let mut outer = [0x5c; BLOCK];
        for (i, byte) in key.iter().enumerate() {
            inner[i] ^= byte;
            outer[i] ^= byte;
        }
        let started = |pad: &[u8; BLOCK]| {
            let mut state = START;
            compress(&mut state, &words(pad));
            state
        };
        MacKey {
            inner: started(&inner),
            outer: started(&outer),
        }
    }

    pub fn mac(&self, bytes: &[u8]) -> Digest {
        let inner = finish(self.inner, bytes, BLOCK as u64);
        bytes_of(&self.close(&inner))
    }

    /// The MAC of a text whose only block, padding included, was made by `short_block`.
    #[inline]
    pub fn mac_block(&self, block: &Block) -> Digest {
        let mut inner = self.inner;
        compress(&mut inner, block);
        bytes_of(&self.close(&inner))
    }

    #[inline]
    fn close(&self, inner: &State) -> State {
        let mut block = [0; 16];
        block[..8].copy_from_slice(inner);
        block[8] = 0x8000_0000;
        block[15] = (BLOCK as u32 + 32) * 8;
        let mut outer = self.outer;
        compress(&mut outer, &block);
        outer
    }
}

/// The last block of a text of N bytes (at most 55) that follows a padded key.
#[inline]
pub fn short_block<const N: usize>(text: &[u8; N]) -> Block {
    const { assert!(N < BLOCK - 8) };
    let mut bytes = [0; BLOCK];
    bytes[..N].copy_from_slice(text);
    bytes[N] = 0x80;
    let mut block = words(&bytes);
    block[15] = (BLOCK + N) as u32 * 8;
    block
}

#[cfg(test)]
mod tests {
    use super::*;
    use crate::text::hex_string;

    #[test]
    fn fips_one_block() {
        assert_eq!(
            hex_string(&digest(b"abc")),
            "ba7816bf8f01cfea414140de5dae2223b00361a396177a9cb410ff61f20015ad"
        );
    }

    #[test]
    fn fips_two_blocks() {
        assert_eq!(
            hex_string(&digest(
                b"abcdbcdecdefdefgefghfghighijhijkijkljklmklmnlmnomnopnopq"
            )),
            "248d6a61d20638b8e5c026930c3e6039a33ce45964ff2167f6ecedd419db06c1"
        );
    }

    #[test]
    fn nothing_has_a_digest() {
        assert_eq!(
            hex_string(&digest(b"")),
            "e3b0c44298fc1c149afbf4c8996fb92427ae41e4649b934ca495991b7852b855"
        );
    }

    #[test]
    fn rfc_4231_case_1() {
        assert_eq!(
            hex_string(&MacKey::new(&[0x0b; 20]).mac(b"Hi There")),
            "b0344c61d8db38535ca8afceaf0bf12b881dc200c9833da726e9376c2e32cff7"
        );
    }

    #[test]
    fn rfc_4231_case_2() {
        assert_eq!(
            hex_string(&MacKey::new(b"Jefe").mac(b"what do ya want for nothing?")),
            "5bdcc146bf60754e6a042426089575c75a003f089d2739839dec58b964ec3843"
        );
    }

    #[test]
    fn the_short_way_is_the_long_way() {
        let key = MacKey::new(&[7; 32]);
        let text = [9; 38];
        assert_eq!(key.mac(&text), key.mac_block(&short_block(&text)));
    }
}
