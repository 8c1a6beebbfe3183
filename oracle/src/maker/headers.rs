//! Headers of each length, with letters or a version that are not right.

use crate::journal::{Version, HEADER, MARK};
use crate::keeper::START;
use crate::random::Random;

/// Those with a wrong low byte come first.
const WRONG_VERSIONS: [u16; 9] = [0, 3, 255, 256, 512, 65_535, 257, 258, 513];
const WRONG_LOW_BYTE: usize = 6;

/// A round of all lengths has wrong letters, the next one right letters and a
/// wrong version, and the third is right, of version 1; journals of version 2 are
/// cut in their headers too. The seed sets which fault meets which length.
pub fn header(random: &mut Random, seed: u64, turn: u64) -> Vec<u8> {
    let lengths = HEADER as u64 + 1;
    let length = (turn % lengths) as usize;
    let sort = seed.wrapping_add(turn);
    let (letters, version) = match turn / lengths % 3 {
        0 => (
            wrong_letters(random, sort, length),
            any_version(random, turn),
        ),
        1 => (MARK, wrong_version(random, sort, length)),
        _ => (MARK, Version::One.number()),
    };
    let mut header = letters.to_vec();
    header.extend(version.to_le_bytes());
    header.extend(random.bytes(START));
    header.truncate(length);
    header
}

/// One letter another byte or in lower case, or all of them in lower case. It
/// is one that the length leaves in.
fn wrong_letters(random: &mut Random, sort: u64, length: usize) -> [u8; 3] {
    let mut letters = MARK;
    let place = sort % length.clamp(1, MARK.len()) as u64;
    let letter = &mut letters[place as usize];
    match sort % 7 {
        0..=2 => *letter ^= random.pick(&[1, 2, 4, 8, 64, 128, 255]),
        3..=5 => letter.make_ascii_lowercase(),
        _ => letters.make_ascii_lowercase(),
    }
    letters
}

/// A right version and a wrong one in turn.
fn any_version(random: &mut Random, turn: u64) -> u16 {
    match turn % 2 {
        0 => random.pick(&Version::ALL).number(),
        _ => random.pick(&WRONG_VERSIONS),
    }
}

/// One of those above, or any other. A header of four bytes has the low byte
/// alone to be wrong in.
fn wrong_version(random: &mut Random, sort: u64, length: usize) -> u16 {
    if length == MARK.len() + 1 {
        return random.pick(&WRONG_VERSIONS[..WRONG_LOW_BYTE]);
    }
    let any = random.between(3, 65_534) as u16;
    let sort = sort % (WRONG_VERSIONS.len() as u64 + 1);
    WRONG_VERSIONS.get(sort as usize).copied().unwrap_or(any)
}

#[cfg(test)]
mod tests {
    use super::*;
    use crate::situations::Situation::{self, *};
    use crate::watch::Shown;

    #[test]
    fn three_rounds_show_each_fault_and_each_length_with_either_fault_and_with_none() {
        for seed in [0, 1, 2, 3, 4, 5, 6, u64::MAX - 50] {
            let mut shown = Shown::default();
            for turn in 0..162 {
                let random = &mut Random::new(seed, turn);
                shown.add(&Shown::by(&header(random, seed, turn)));
            }
            let faults: [Situation; 9] = [
                HeaderRight(Version::One),
                HeaderLetters,
                HeaderVersion,
                OneLetterWrong,
                OneLetterLower,
                AllLettersLower,
                LettersBeforeVersion(true),
                LettersBeforeVersion(false),
                VersionWrong,
            ];
            for situation in faults {
                for value in situation.values() {
                    assert!(shown.times(situation, value) > 0, "{situation}: {value}");
                }
            }
        }
    }
}
