//! Words of a trace read back, for the tests of what writes traces.

pub fn number<T: std::str::FromStr>(word: &str) -> T {
    word.parse().ok().unwrap()
}

/// Bytes in hexadecimal; `-` stands for none.
pub fn bytes(word: &str) -> Vec<u8> {
    if word == "-" {
        return Vec::new();
    }
    let digits = |i| u8::from_str_radix(&word[i..i + 2], 16).unwrap();
    (0..word.len()).step_by(2).map(digits).collect()
}
