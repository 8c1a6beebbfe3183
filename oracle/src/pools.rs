//! The two pools: mixing bytes in and extracting bytes.

use crate::hash;

/// What sets one pool apart from the other.
#[derive(Debug, PartialEq)]
pub struct Shape {
    pub words: usize,
    taps: [usize; 5],
    /// The most its count may be, in eighths of a bit.
    pub size: u32,
}

pub static INPUT: Shape = Shape {
    words: 128,
    taps: [104, 76, 51, 25, 1],
    size: 32_768,
};

pub static BLOCKING: Shape = Shape {
    words: 32,
    taps: [26, 19, 14, 7, 1],
    size: 8_192,
};

const TWIST: [u32; 8] = [
    0x0000_0000,
    0x3b6e_20c8,
    0x76dc_4190,
    0x4db2_6158,
    0xedb8_8320,
    0xd6d6_a3e8,
    0x9b64_c2b0,
    0xa00a_e278,
];

/// The bytes that one hash of a pool gives away.
const BLOCK: usize = 10;

#[derive(Clone, Debug, PartialEq)]
pub struct Pool {
    pub shape: &'static Shape,
    pub words: Vec<u32>,
    pub position: u32,
    pub rotation: u32,
    pub count: u32,
}

impl Pool {
    pub fn fresh(shape: &'static Shape) -> Pool {
        Pool {
            shape,
            words: vec![0; shape.words],
            position: 0,
            rotation: 0,
            count: 0,
        }
    }

    pub fn in_range(&self) -> bool {
        self.count <= self.shape.size
            && (self.position as usize) < self.shape.words
            && self.rotation <= 31
    }

    pub fn mix(&mut self, bytes: &[u8]) {
        for &byte in bytes {
            self.mix_byte(byte);
        }
    }

    fn mix_byte(&mut self, byte: u8) {
        let n = self.shape.words;
        let at = (self.position as usize + n - 1) % n;
        let w = self.shape.taps.iter().fold(
            u32::from(byte).rotate_left(self.rotation) ^ self.words[at],
            |w, tap| w ^ self.words[(at + tap) % n],
        );
        self.words[at] = (w >> 3) ^ TWIST[(w % 8) as usize];
        self.position = at as u32;
        self.rotation = (self.rotation + if at == 0 { 14 } else { 7 }) % 32;
    }

    /// Takes `wanted` bytes out, and says how many compressions that cost.
    /// The count is not this function's affair.
    pub fn extract(&mut self, wanted: usize) -> (Vec<u8>, u64) {
        let mut out = Vec::with_capacity(wanted);
        let mut compressions = 0;
        while out.len() < wanted {
            let mut h = hash::INITIAL;
            for part in self.words.chunks_exact(16) {
                h = hash::compress(h, &block_of(part));
                compressions += 1;
            }
            self.mix(&bytes_of(&h));
            // Folded after the mixing, so that what is delivered does not
            // show what went back into the pool.
            h[0] ^= h[3];
            h[1] ^= h[4];
            h[2] ^= h[2].rotate_left(16);
            let share = BLOCK.min(wanted - out.len());
            out.extend_from_slice(&bytes_of(&h[..3])[..share]);
        }
        (out, compressions)
    }
}

fn bytes_of(words: &[u32]) -> Vec<u8> {
    words.iter().flat_map(|w| w.to_le_bytes()).collect()
}

fn block_of(words: &[u32]) -> [u8; 64] {
    let mut block = [0; 64];
    for (part, word) in block.chunks_exact_mut(4).zip(words) {
        part.copy_from_slice(&word.to_le_bytes());
    }
    block
}

#[cfg(test)]
mod tests {
    use super::*;

    #[test]
    fn first_bytes_by_hand() {
        let mut pool = Pool::fresh(&INPUT);
        pool.mix(&[0xff]);
        assert_eq!((pool.position, pool.rotation), (127, 7));
        assert_eq!(pool.words[127], 0x1f ^ 0xa00a_e278);
        // The next byte is turned by 7 and meets word 127 through tap 1.
        let w = (0x81u32 << 7) ^ pool.words[127];
        pool.mix(&[0x81]);
        assert_eq!((pool.position, pool.rotation), (126, 14));
        assert_eq!(pool.words[126], (w >> 3) ^ TWIST[(w & 7) as usize]);
    }

    #[test]
    fn rotation_makes_a_double_step_at_word_zero() {
        let mut pool = Pool::fresh(&BLOCKING);
        pool.mix(&[0; 31]);
        assert_eq!((pool.position, pool.rotation), (1, 31 * 7 % 32));
        pool.mix(&[0]);
        assert_eq!((pool.position, pool.rotation), (0, (31 * 7 + 14) % 32));
        pool.mix(&[0]);
        assert_eq!(pool.position, 31);
    }

    #[test]
    fn extraction_moves_the_pool_and_counts_compressions() {
        for (shape, each) in [(&INPUT, 8), (&BLOCKING, 2)] {
            for (wanted, blocks) in [(0, 0), (1, 1), (10, 1), (11, 2), (32, 4)] {
                let mut pool = Pool::fresh(shape);
                let (bytes, compressions) = pool.extract(wanted);
                assert_eq!(bytes.len(), wanted);
                assert_eq!(compressions, each * blocks);
                let moved = 20 * blocks as i64;
                assert_eq!(
                    i64::from(pool.position),
                    (-moved).rem_euclid(shape.words as i64)
                );
            }
        }
    }

    #[test]
    fn a_short_extraction_is_the_beginning_of_a_long_one() {
        let mut one = Pool::fresh(&INPUT);
        one.mix(b"some bytes");
        let mut two = one.clone();
        assert_eq!(one.extract(13).0, two.extract(20).0[..13]);
        assert_eq!(one, two);
    }
}
