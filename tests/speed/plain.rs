//! SHA-512 and SHA-256 straight from FIPS 180-4, with no trick: what our own are measured against.

const K_512: [u64; 80] = [
    0x428a2f98d728ae22, 0x7137449123ef65cd, 0xb5c0fbcfec4d3b2f, 0xe9b5dba58189dbbc,
    0x3956c25bf348b538, 0x59f111f1b605d019, 0x923f82a4af194f9b, 0xab1c5ed5da6d8118,
    0xd807aa98a3030242, 0x12835b0145706fbe, 0x243185be4ee4b28c, 0x550c7dc3d5ffb4e2,
    0x72be5d74f27b896f, 0x80deb1fe3b1696b1, 0x9bdc06a725c71235, 0xc19bf174cf692694,
    0xe49b69c19ef14ad2, 0xefbe4786384f25e3, 0x0fc19dc68b8cd5b5, 0x240ca1cc77ac9c65,
    0x2de92c6f592b0275, 0x4a7484aa6ea6e483, 0x5cb0a9dcbd41fbd4, 0x76f988da831153b5,
    0x983e5152ee66dfab, 0xa831c66d2db43210, 0xb00327c898fb213f, 0xbf597fc7beef0ee4,
    0xc6e00bf33da88fc2, 0xd5a79147930aa725, 0x06ca6351e003826f, 0x142929670a0e6e70,
    0x27b70a8546d22ffc, 0x2e1b21385c26c926, 0x4d2c6dfc5ac42aed, 0x53380d139d95b3df,
    0x650a73548baf63de, 0x766a0abb3c77b2a8, 0x81c2c92e47edaee6, 0x92722c851482353b,
    0xa2bfe8a14cf10364, 0xa81a664bbc423001, 0xc24b8b70d0f89791, 0xc76c51a30654be30,
    0xd192e819d6ef5218, 0xd69906245565a910, 0xf40e35855771202a, 0x106aa07032bbd1b8,
    0x19a4c116b8d2d0c8, 0x1e376c085141ab53, 0x2748774cdf8eeb99, 0x34b0bcb5e19b48a8,
    0x391c0cb3c5c95a63, 0x4ed8aa4ae3418acb, 0x5b9cca4f7763e373, 0x682e6ff3d6b2b8a3,
    0x748f82ee5defb2fc, 0x78a5636f43172f60, 0x84c87814a1f0ab72, 0x8cc702081a6439ec,
    0x90befffa23631e28, 0xa4506cebde82bde9, 0xbef9a3f7b2c67915, 0xc67178f2e372532b,
    0xca273eceea26619c, 0xd186b8c721c0c207, 0xeada7dd6cde0eb1e, 0xf57d4f7fee6ed178,
    0x06f067aa72176fba, 0x0a637dc5a2c898a6, 0x113f9804bef90dae, 0x1b710b35131c471b,
    0x28db77f523047d84, 0x32caab7b40c72493, 0x3c9ebe0a15c9bebc, 0x431d67c49c100d4c,
    0x4cc5d4becb3e42b6, 0x597f299cfc657e2a, 0x5fcb6fab3ad6faec, 0x6c44198c4a475817,
];

const START_512: [u64; 8] = [
    0x6a09e667f3bcc908, 0xbb67ae8584caa73b, 0x3c6ef372fe94f82b, 0xa54ff53a5f1d36f1,
    0x510e527fade682d1, 0x9b05688c2b3e6c1f, 0x1f83d9abfb41bd6b, 0x5be0cd19137e2179,
];

/// SHA-256's constants are the first halves of SHA-512's: the same roots, to 32 bits (FIPS 180-4, 4.2.2 and 5.3.3).
const fn halves<const N: usize>(words: &[u64]) -> [u32; N] {
    let mut first = [0; N];
    let mut t = 0;
    while t < N {
        first[t] = (words[t] >> 32) as u32;
        t += 1;
    }
    first
}

const K_256: [u32; 64] = halves(&K_512);
const START_256: [u32; 8] = halves(&START_512);

/// A hash by its words, the number that ends the padding, its constants and rotations; of the small sigmas the last is a shift.
macro_rules! sha2 {
    (
        $name:ident, $word:ty, $length:ty, $rounds:literal, $k:ident, $start:ident,
        $s0a:literal $s0b:literal $s0c:literal, $s1a:literal $s1b:literal $s1c:literal,
        $b0a:literal $b0b:literal $b0c:literal, $b1a:literal $b1b:literal $b1c:literal
    ) => {
        pub fn $name(message: &[u8]) -> [u8; <$word>::BITS as usize] {
            const WORD: usize = <$word>::BITS as usize / 8;
            const BLOCK: usize = 16 * WORD;

            fn block(value: &mut [$word; 8], bytes: &[u8]) {
                let mut w = [0; $rounds];
                for (t, word) in bytes.chunks_exact(WORD).enumerate() {
                    w[t] = <$word>::from_be_bytes(word.try_into().unwrap());
                }
                for t in 16..$rounds {
                    let s0 = w[t - 15].rotate_right($s0a) ^ w[t - 15].rotate_right($s0b) ^ (w[t - 15] >> $s0c);
                    let s1 = w[t - 2].rotate_right($s1a) ^ w[t - 2].rotate_right($s1b) ^ (w[t - 2] >> $s1c);
                    w[t] = s1.wrapping_add(w[t - 7]).wrapping_add(s0).wrapping_add(w[t - 16]);
                }
                let [mut a, mut b, mut c, mut d, mut e, mut f, mut g, mut h] = *value;
                for t in 0..$rounds {
                    let s1 = e.rotate_right($b1a) ^ e.rotate_right($b1b) ^ e.rotate_right($b1c);
                    let ch = (e & f) ^ (!e & g);
                    let t1 = h.wrapping_add(s1).wrapping_add(ch).wrapping_add($k[t]).wrapping_add(w[t]);
                    let s0 = a.rotate_right($b0a) ^ a.rotate_right($b0b) ^ a.rotate_right($b0c);
                    let maj = (a & b) ^ (a & c) ^ (b & c);
                    let t2 = s0.wrapping_add(maj);
                    h = g;
                    g = f;
                    f = e;
                    e = d.wrapping_add(t1);
                    d = c;
                    c = b;
                    b = a;
                    a = t1.wrapping_add(t2);
                }
                for (v, x) in value.iter_mut().zip([a, b, c, d, e, f, g, h]) {
                    *v = v.wrapping_add(x);
                }
            }

            let mut value = $start;
            let whole = message.len() / BLOCK * BLOCK;
            for bytes in message[..whole].chunks_exact(BLOCK) {
                block(&mut value, bytes);
            }
            let mut tail = message[whole..].to_vec();
            tail.push(0x80);
            while tail.len() % BLOCK != BLOCK - 2 * WORD {
                tail.push(0);
            }
            tail.extend_from_slice(&(8 * message.len() as $length).to_be_bytes());
            for bytes in tail.chunks_exact(BLOCK) {
                block(&mut value, bytes);
            }
            let mut digest = [0; <$word>::BITS as usize];
            for (out, x) in digest.chunks_exact_mut(WORD).zip(value) {
                out.copy_from_slice(&x.to_be_bytes());
            }
            digest
        }
    };
}

sha2!(sha512, u64, u128, 80, K_512, START_512, 1 8 7, 19 61 6, 28 34 39, 14 18 41);
sha2!(sha256, u32, u64, 64, K_256, START_256, 7 18 3, 17 19 10, 2 13 22, 6 11 25);
