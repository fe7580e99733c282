//! SHA-256 (FIPS 180-4), so that a signature can name the files that were judged.

use std::io::{self, Write};

/// The first 32 bits of the fractional parts of the square roots of the first eight primes.
const START: [u32; 8] = [0x6a09e667, 0xbb67ae85, 0x3c6ef372, 0xa54ff53a, 0x510e527f, 0x9b05688c, 0x1f83d9ab, 0x5be0cd19];

/// The same of the cube roots of the first sixty-four primes.
#[rustfmt::skip]
const ROUND: [u32; 64] = [
    0x428a2f98, 0x71374491, 0xb5c0fbcf, 0xe9b5dba5, 0x3956c25b, 0x59f111f1, 0x923f82a4, 0xab1c5ed5,
    0xd807aa98, 0x12835b01, 0x243185be, 0x550c7dc3, 0x72be5d74, 0x80deb1fe, 0x9bdc06a7, 0xc19bf174,
    0xe49b69c1, 0xefbe4786, 0x0fc19dc6, 0x240ca1cc, 0x2de92c6f, 0x4a7484aa, 0x5cb0a9dc, 0x76f988da,
    0x983e5152, 0xa831c66d, 0xb00327c8, 0xbf597fc7, 0xc6e00bf3, 0xd5a79147, 0x06ca6351, 0x14292967,
    0x27b70a85, 0x2e1b2138, 0x4d2c6dfc, 0x53380d13, 0x650a7354, 0x766a0abb, 0x81c2c92e, 0x92722c85,
    0xa2bfe8a1, 0xa81a664b, 0xc24b8b70, 0xc76c51a3, 0xd192e819, 0xd6990624, 0xf40e3585, 0x106aa070,
    0x19a4c116, 0x1e376c08, 0x2748774c, 0x34b0bcb5, 0x391c0cb3, 0x4ed8aa4a, 0x5b9cca4f, 0x682e6ff3,
    0x748f82ee, 0x78a5636f, 0x84c87814, 0x8cc70208, 0x90befffa, 0xa4506ceb, 0xbef9a3f7, 0xc67178f2,
];

const BLOCK: usize = 64;

/// The hash of a text that comes in parts.
pub struct Hash {
    state: [u32; 8],
    /// Of the text so far, what fills no block.
    last: Vec<u8>,
    bytes: u64,
}

impl Hash {
    pub fn new() -> Hash {
        Hash { state: START, last: Vec::new(), bytes: 0 }
    }

    pub fn with(mut self, part: &[u8]) -> Hash {
        self.feed(part);
        self
    }

    fn feed(&mut self, part: &[u8]) {
        self.bytes += part.len() as u64;
        let missing = (BLOCK - self.last.len()).min(part.len());
        let (head, part) = part.split_at(missing);
        self.last.extend_from_slice(head);
        if self.last.len() < BLOCK {
            return;
        }
        compress(&mut self.state, &self.last);
        let blocks = part.chunks_exact(BLOCK);
        self.last = blocks.remainder().to_vec();
        for block in blocks {
            compress(&mut self.state, block);
        }
    }

    /// How long the text is, and its hash as 64 hexadecimal digits.
    pub fn ended(mut self) -> (u64, String) {
        for block in padded(self.last, self.bytes).chunks_exact(BLOCK) {
            compress(&mut self.state, block);
        }
        (self.bytes, self.state.iter().map(|word| format!("{word:08x}")).collect())
    }
}

impl Write for Hash {
    fn write(&mut self, part: &[u8]) -> io::Result<usize> {
        self.feed(part);
        Ok(part.len())
    }

    fn flush(&mut self) -> io::Result<()> {
        Ok(())
    }
}

/// What is left of the text, a one bit, zeros, and the text's length in bits.
fn padded(last: Vec<u8>, bytes: u64) -> Vec<u8> {
    let mut padded = last;
    padded.push(0x80);
    while padded.len() % BLOCK != BLOCK - 8 {
        padded.push(0);
    }
    padded.extend((bytes * 8).to_be_bytes());
    padded
}

fn compress(state: &mut [u32; 8], block: &[u8]) {
    let mut words = [0u32; 64];
    for (word, bytes) in words.iter_mut().zip(block.chunks_exact(4)) {
        *word = u32::from_be_bytes([bytes[0], bytes[1], bytes[2], bytes[3]]);
    }
    for at in 16..64 {
        let (near, far) = (words[at - 2], words[at - 15]);
        let near = near.rotate_right(17) ^ near.rotate_right(19) ^ (near >> 10);
        let far = far.rotate_right(7) ^ far.rotate_right(18) ^ (far >> 3);
        words[at] = near.wrapping_add(words[at - 7]).wrapping_add(far).wrapping_add(words[at - 16]);
    }
    let [mut a, mut b, mut c, mut d, mut e, mut f, mut g, mut h] = *state;
    for (word, round) in words.into_iter().zip(ROUND) {
        let mixed = e.rotate_right(6) ^ e.rotate_right(11) ^ e.rotate_right(25);
        let chosen = (e & f) ^ (!e & g);
        let first = h.wrapping_add(mixed).wrapping_add(chosen).wrapping_add(round).wrapping_add(word);
        let mixed = a.rotate_right(2) ^ a.rotate_right(13) ^ a.rotate_right(22);
        let most = (a & b) ^ (a & c) ^ (b & c);
        let second = mixed.wrapping_add(most);
        (h, g, f, e, d, c, b, a) = (g, f, e, d.wrapping_add(first), c, b, a, first.wrapping_add(second));
    }
    for (old, new) in state.iter_mut().zip([a, b, c, d, e, f, g, h]) {
        *old = old.wrapping_add(new);
    }
}

#[cfg(test)]
mod tests {
    use super::Hash;

    fn hex(text: &[u8]) -> String {
        Hash::new().with(text).ended().1
    }

    /// The examples that NIST publishes for FIPS 180-4.
    #[test]
    fn published_vectors() {
        assert_eq!(hex(b""), "e3b0c44298fc1c149afbf4c8996fb92427ae41e4649b934ca495991b7852b855");
        assert_eq!(hex(b"abc"), "ba7816bf8f01cfea414140de5dae2223b00361a396177a9cb410ff61f20015ad");
        let two_blocks = b"abcdbcdecdefdefgefghfghighijhijkijkljklmklmnlmnomnopnopq";
        assert_eq!(hex(two_blocks), "248d6a61d20638b8e5c026930c3e6039a33ce45964ff2167f6ecedd419db06c1");
        let longer = b"abcdefghbcdefghicdefghijdefghijkefghijklfghijklmghijklmnhijklmnoijklmnopjklmnopqklmnopqrlmnopqrsmnopqrstnopqrstu";
        assert_eq!(hex(longer), "cf5b16a778af8380036ce59e7b0492370b249b11e8f07a51afac45037afee9d1");
        assert_eq!(hex(&vec![b'a'; 1_000_000]), "cdc76e5c9914fb9281a1c7e284d73e67f1809a48a497200e046d39ccc7112cd0");
    }

    /// However a text is cut, its hash is the same.
    #[test]
    fn parts_make_the_whole() {
        let text: Vec<u8> = (0..=255).collect();
        for first in [0, 1, 63, 64, 65, 128, 200, 256] {
            for second in [first, (first + 1).min(256), (first + 63).min(256), (first + 64).min(256), 256] {
                let hash = Hash::new().with(&text[..first]).with(&text[first..second]).with(&text[second..]);
                assert_eq!(hash.ended(), (256, hex(&text)), "{first} {second}");
            }
        }
    }

    /// Lengths about the end of a block: the hash of so many bytes `a`.
    #[test]
    fn lengths_about_a_block() {
        let ends = [
            (55, "9f4390f8d30c2dd92ec9f095b65e2b9ae9b0a925a5258e241c9f1e910f734318"),
            (56, "b35439a4ac6f0948b6d6f9e3c6af0f5f590ce20f1bde7090ef7970686ec6738a"),
            (64, "ffe054fe7ae0cb6dc65c3af9b61d5209f439851db43d0ba5997337df154668eb"),
        ];
        for (length, hash) in ends {
            assert_eq!(hex(&vec![b'a'; length]), hash);
        }
    }
}
