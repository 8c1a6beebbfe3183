//! Small journals cut at each of their bytes.

use std::borrow::Cow;

use super::draft::Draft;
use crate::journal::{Record, Version, HEADER};
use crate::random::Random;

/// A small good journal with a record of each kind, its seed of so many bits.
pub fn one_of_each(random: &mut Random, version: Version, bits: u32) -> Draft {
    let mut draft = Draft::of(random, version);
    let device = draft.any_device(random);
    draft.device(random, device, draft.now);
    draft.interrupt(random, draft.now);
    let bytes = Cow::Owned(random.bytes(3));
    draft.add(Record::Write { now: 1, bytes });
    draft.credit(random, bits);
    draft.generator(draft.now, 5);
    draft.blocking(2);
    draft
}

/// Too few bits for reads to deliver, as their seed has few bytes to cut at.
const FEW_BITS: u32 = 8;

/// One journal cut at each of its bytes in turn, then the next journal, of the two
/// versions in turn. Those of version 1 are cut behind their headers alone: right
/// headers of version 1 come in each length elsewhere.
pub fn cut_in_turn(seed: u64, mut turn: u64) -> Vec<u8> {
    let mut base = 0;
    loop {
        let (version, first) = match base % 2 {
            0 => (Version::Two, 0),
            _ => (Version::One, HEADER as u64 + 1),
        };
        // Numbers that no whole journal has.
        let random = &mut Random::new(seed, u64::MAX - base);
        let mut journal = one_of_each(random, version, FEW_BITS).bytes;
        let cuts = journal.len() as u64 + 1 - first;
        if turn < cuts {
            journal.truncate((first + turn) as usize);
            return journal;
        }
        turn -= cuts;
        base += 1;
    }
}

#[cfg(test)]
mod tests {
    use super::*;

    #[test]
    fn one_journal_is_cut_at_every_byte_and_the_next_behind_its_header() {
        let whole = |base, version| one_of_each(&mut Random::new(9, base), version, 8).bytes;
        let two = whole(u64::MAX, Version::Two);
        for cut in 0..=two.len() {
            assert_eq!(cut_in_turn(9, cut as u64), two[..cut]);
        }
        let one = whole(u64::MAX - 1, Version::One);
        let turns = two.len() as u64 + 1;
        for cut in HEADER + 1..=one.len() {
            let turn = turns + (cut - HEADER - 1) as u64;
            assert_eq!(cut_in_turn(9, turn), one[..cut]);
        }
        let turns = turns + (one.len() - HEADER) as u64;
        assert!(cut_in_turn(9, turns).is_empty());
    }

    /// A run of 1,900 journals has 158 of these.
    #[test]
    fn the_first_158_turns_cut_all_of_version_2_and_an_event_of_version_1() {
        for seed in 0..40 {
            let first = one_of_each(&mut Random::new(seed, u64::MAX), Version::Two, 8);
            assert!(first.bytes.len() + 1 + 18 <= 158);
        }
    }
}
