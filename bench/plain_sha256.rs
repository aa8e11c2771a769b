// SHA-256 (FIPS 180-4) for the plain programs of the measurements, by hand: unrolled by eight rounds, without the processor's
// own instructions for it, which `carte` doesn't use either. A block costs about 2,970 instructions here, 3,050 in `carte`.

const K: [u32; 64] = [
    0x428a2f98, 0x71374491, 0xb5c0fbcf, 0xe9b5dba5, 0x3956c25b, 0x59f111f1, 0x923f82a4, 0xab1c5ed5, 0xd807aa98, 0x12835b01, 0x243185be,
    0x550c7dc3, 0x72be5d74, 0x80deb1fe, 0x9bdc06a7, 0xc19bf174, 0xe49b69c1, 0xefbe4786, 0x0fc19dc6, 0x240ca1cc, 0x2de92c6f, 0x4a7484aa,
    0x5cb0a9dc, 0x76f988da, 0x983e5152, 0xa831c66d, 0xb00327c8, 0xbf597fc7, 0xc6e00bf3, 0xd5a79147, 0x06ca6351, 0x14292967, 0x27b70a85,
    0x2e1b2138, 0x4d2c6dfc, 0x53380d13, 0x650a7354, 0x766a0abb, 0x81c2c92e, 0x92722c85, 0xa2bfe8a1, 0xa81a664b, 0xc24b8b70, 0xc76c51a3,
    0xd192e819, 0xd6990624, 0xf40e3585, 0x106aa070, 0x19a4c116, 0x1e376c08, 0x2748774c, 0x34b0bcb5, 0x391c0cb3, 0x4ed8aa4a, 0x5b9cca4f,
    0x682e6ff3, 0x748f82ee, 0x78a5636f, 0x84c87814, 0x8cc70208, 0x90befffa, 0xa4506ceb, 0xbef9a3f7, 0xc67178f2,
];

pub type Digest = [u8; 32];

const START: [u32; 8] = [0x6a09e667, 0xbb67ae85, 0x3c6ef372, 0xa54ff53a, 0x510e527f, 0x9b05688c, 0x1f83d9ab, 0x5be0cd19];

// Eight rounds: the names of the eight words are turned in place of the words.
macro_rules! round {
    ($a:ident $b:ident $c:ident $d:ident $e:ident $f:ident $g:ident $h:ident, $bc:ident, $kw:expr) => {
        let s1 = ($e ^ ($e ^ $e.rotate_right(14)).rotate_right(5)).rotate_right(6);
        let t1 = $h.wrapping_add($kw).wrapping_add(s1).wrapping_add($g ^ ($e & ($f ^ $g)));
        let s0 = ($a ^ ($a ^ $a.rotate_right(9)).rotate_right(11)).rotate_right(2);
        $d = $d.wrapping_add(t1);
        let ab = $a ^ $b;
        $h = t1.wrapping_add(s0).wrapping_add($b ^ (ab & $bc));
        $bc = ab;
    };
}

fn compress(state: &mut [u32; 8], block: &[u8; 64]) {
    let mut w = [0u32; 64];
    for (word, bytes) in w.iter_mut().zip(block.chunks_exact(4)) {
        *word = u32::from_be_bytes(bytes.try_into().unwrap());
    }
    for i in 16..64 {
        let (x, y) = (w[i - 15], w[i - 2]);
        let s0 = (x ^ x.rotate_right(11)).rotate_right(7) ^ (x >> 3);
        let s1 = (y ^ y.rotate_right(2)).rotate_right(17) ^ (y >> 10);
        w[i] = w[i - 16].wrapping_add(s0).wrapping_add(w[i - 7]).wrapping_add(s1);
    }
    let [mut a, mut b, mut c, mut d, mut e, mut f, mut g, mut h] = *state;
    let mut bc = b ^ c;
    for (w, k) in w.chunks_exact(8).zip(K.chunks_exact(8)) {
        round!(a b c d e f g h, bc, k[0].wrapping_add(w[0]));
        round!(h a b c d e f g, bc, k[1].wrapping_add(w[1]));
        round!(g h a b c d e f, bc, k[2].wrapping_add(w[2]));
        round!(f g h a b c d e, bc, k[3].wrapping_add(w[3]));
        round!(e f g h a b c d, bc, k[4].wrapping_add(w[4]));
        round!(d e f g h a b c, bc, k[5].wrapping_add(w[5]));
        round!(c d e f g h a b, bc, k[6].wrapping_add(w[6]));
        round!(b c d e f g h a, bc, k[7].wrapping_add(w[7]));
    }
    for (old, new) in state.iter_mut().zip([a, b, c, d, e, f, g, h]) {
        *old = old.wrapping_add(new);
    }
}

/// The digest of what was compressed and of the bytes that are left of `length`.
fn finished(mut state: [u32; 8], left: &[u8], length: u64) -> Digest {
    let mut blocks = [0; 128];
    blocks[..left.len()].copy_from_slice(left);
    blocks[left.len()] = 0x80;
    let end = if left.len() < 56 { 64 } else { 128 };
    blocks[end - 8..end].copy_from_slice(&(length * 8).to_be_bytes());
    for block in blocks[..end].chunks_exact(64) {
        compress(&mut state, block.try_into().unwrap());
    }
    let mut digest = [0; 32];
    for (bytes, word) in digest.chunks_exact_mut(4).zip(state) {
        bytes.copy_from_slice(&word.to_be_bytes());
    }
    digest
}

/// The spelling of a number in states and under digests.
pub fn spelled(number: i64) -> [u8; 9] {
    let mut bytes = [1; 9];
    bytes[1..].copy_from_slice(&number.to_be_bytes());
    bytes
}

pub fn digest(number: i64) -> Digest {
    finished(START, &spelled(number), 9)
}

/// The digest of a rule's task: of a byte for the kind of its book, and its printed formula.
pub fn task(kind: u8, formula: &[u8]) -> Digest {
    if formula.len() < 64 {
        let mut text = [0; 64];
        text[0] = kind;
        text[1..=formula.len()].copy_from_slice(formula);
        return digest_of(&text[..=formula.len()]);
    }
    digest_of(&[&[kind], formula].concat())
}

pub fn digest_of(text: &[u8]) -> Digest {
    let (mut state, whole) = (START, text.len() / 64 * 64);
    for block in text[..whole].chunks_exact(64) {
        compress(&mut state, block.try_into().unwrap());
    }
    finished(state, &text[whole..], text.len() as u64)
}
