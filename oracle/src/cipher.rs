//! ChaCha20 blocks (RFC 7539, section 2.3).

/// The four words every generator state opens with.
pub const CONSTANTS: [u32; 4] = [0x6170_7865, 0x3320_646e, 0x7962_2d32, 0x6b20_6574];

/// The four words that each quarter round of a double round works on:
/// first the columns, then the diagonals.
const LANES: [[usize; 4]; 8] = [
    [0, 4, 8, 12],
    [1, 5, 9, 13],
    [2, 6, 10, 14],
    [3, 7, 11, 15],
    [0, 5, 10, 15],
    [1, 6, 11, 12],
    [2, 7, 8, 13],
    [3, 4, 9, 14],
];

fn quarter(x: &mut [u32; 16], [a, b, c, d]: [usize; 4]) {
    x[a] = x[a].wrapping_add(x[b]);
    x[d] = (x[d] ^ x[a]).rotate_left(16);
    x[c] = x[c].wrapping_add(x[d]);
    x[b] = (x[b] ^ x[c]).rotate_left(12);
    x[a] = x[a].wrapping_add(x[b]);
    x[d] = (x[d] ^ x[a]).rotate_left(8);
    x[c] = x[c].wrapping_add(x[d]);
    x[b] = (x[b] ^ x[c]).rotate_left(7);
}

/// One block of the state, as words. The state itself stays as it is; moving
/// the counter on is the caller's work.
pub fn block(state: &[u32; 16]) -> [u32; 16] {
    let mut x = *state;
    for _ in 0..10 {
        for lane in LANES {
            quarter(&mut x, lane);
        }
    }
    for (word, start) in x.iter_mut().zip(state) {
        *word = word.wrapping_add(*start);
    }
    x
}

/// The bytes of a block, each word little endian.
pub fn bytes(block: &[u32; 16]) -> [u8; 64] {
    let mut out = [0; 64];
    for (part, word) in out.chunks_exact_mut(4).zip(block) {
        part.copy_from_slice(&word.to_le_bytes());
    }
    out
}

#[cfg(test)]
mod tests {
    use super::*;

    fn hex(text: &str) -> Vec<u8> {
        let digits: Vec<u8> = text
            .bytes()
            .filter(|b| !b.is_ascii_whitespace())
            .map(|b| (b as char).to_digit(16).unwrap() as u8)
            .collect();
        digits.chunks(2).map(|p| p[0] * 16 + p[1]).collect()
    }

    /// A state from a key, a block counter and a 96-bit nonce.
    fn state(key: &[u8], counter: u32, nonce: &[u8]) -> [u32; 16] {
        let mut s = [0; 16];
        s[..4].copy_from_slice(&CONSTANTS);
        s[12] = counter;
        let word = |b: &[u8]| u32::from_le_bytes(b.try_into().unwrap());
        for (i, part) in key.chunks(4).enumerate() {
            s[4 + i] = word(part);
        }
        for (i, part) in nonce.chunks(4).enumerate() {
            s[13 + i] = word(part);
        }
        s
    }

    #[test]
    fn quarter_round_of_section_2_1_1() {
        let mut x = [0; 16];
        x[..4].copy_from_slice(&[0x11111111, 0x01020304, 0x9b8d6f43, 0x01234567]);
        quarter(&mut x, [0, 1, 2, 3]);
        assert_eq!(x[..4], [0xea2a92f4, 0xcb1cf8ce, 0x4581472e, 0x5881c4bb]);
    }

    #[test]
    fn block_of_section_2_3_2() {
        let key: Vec<u8> = (0..32).collect();
        let s = state(&key, 1, &hex("000000090000004a00000000"));
        let out = bytes(&block(&s));
        assert_eq!(
            out[..],
            hex(
                "10f1e7e4d13b5915500fdd1fa32071c4 c7d1f4c733c068030422aa9ac3d46c4e
                 d2826446079faa0914c2d705d98b02a2 b5129cd1de164eb9cbd083e8a2503c4e"
            )
        );
    }

    #[test]
    fn blocks_of_appendix_a_1() {
        let zero = vec![0; 32];
        let mut last_one = vec![0; 32];
        last_one[31] = 1;
        let mut second_ff = vec![0; 32];
        second_ff[1] = 0xff;
        let nonce = vec![0; 12];
        let mut last_two = vec![0; 12];
        last_two[11] = 2;
        let cases = [
            (
                &zero,
                0,
                &nonce,
                "76b8e0ada0f13d90405d6ae55386bd28 bdd219b8a08ded1aa836efcc8b770dc7
                 da41597c5157488d7724e03fb8d84a37 6a43b8f41518a11cc387b669b2ee6586",
            ),
            (
                &zero,
                1,
                &nonce,
                "9f07e7be5551387a98ba977c732d080d cb0f29a048e3656912c6533e32ee7aed
                 29b721769ce64e43d57133b074d839d5 31ed1f28510afb45ace10a1f4b794d6f",
            ),
            (
                &last_one,
                1,
                &nonce,
                "3aeb5224ecf849929b9d828db1ced4dd 832025e8018b8160b82284f3c949aa5a
                 8eca00bbb4a73bdad192b5c42f73f2fd 4e273644c8b36125a64addeb006c13a0",
            ),
            (
                &second_ff,
                2,
                &nonce,
                "72d54dfbf12ec44b362692df94137f32 8fea8da73990265ec1bbbea1ae9af0ca
                 13b25aa26cb4a648cb9b9d1be65b2c09 24a66c54d545ec1b7374f4872e99f096",
            ),
            (
                &zero,
                0,
                &last_two,
                "c2c64d378cd536374ae204b9ef933fcd 1a8b2288b3dfa49672ab765b54ee27c7
                 8a970e0e955c14f3a88e741b97c286f7 5f8fc299e8148362fa198a39531bed6d",
            ),
        ];
        for (key, counter, nonce, expected) in cases {
            assert_eq!(
                bytes(&block(&state(key, counter, nonce)))[..],
                hex(expected)
            );
        }
    }
}
