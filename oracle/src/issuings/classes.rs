//! Class words for a command line: those of a class, and those of none.

use crate::desk::{DRILL, LIVE};
use crate::journal::hex;
use crate::random::Random;

/// All ways to spell a class.
pub const GOOD: [&str; 5] = ["drill", "live", "44", "4c", "4C"];

/// The longest field, in bytes.
pub const LONGEST: usize = 150;

/// So many good ones.
pub fn good(random: &mut Random, count: usize) -> Vec<String> {
    (0..count).map(|_| random.pick(&GOOD).to_owned()).collect()
}

/// So many, of which about one in four is none.
pub fn mixed(random: &mut Random, count: usize) -> Vec<String> {
    let word = |random: &mut Random| match random.below(4) {
        0 => wrong(random),
        _ => random.pick(&GOOD).to_owned(),
    };
    (0..count).map(|_| word(random)).collect()
}

/// The word of a field that is no class's.
pub fn wrong(random: &mut Random) -> String {
    let class = random.pick(&[DRILL, LIVE]);
    let long = random.between(3, LONGEST as u64) as usize;
    let field = match random.below(6) {
        0 => Vec::new(),
        1 => vec![class, class],
        2 => vec![class ^ 1 << random.below(3)],
        3 => random.bytes(2),
        4 => random.bytes(long),
        _ => vec![class; long],
    };
    in_any_case(random, &hex(&field))
}

/// Some digits in upper case, none or all.
pub fn in_any_case(random: &mut Random, digits: &str) -> String {
    let upper = random.below(3);
    let case = |digit: char| match upper == 1 || (upper == 2 && random.one_in(2)) {
        true => digit.to_ascii_uppercase(),
        false => digit,
    };
    digits.chars().map(case).collect()
}
