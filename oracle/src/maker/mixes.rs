//! Mixes of any records.

use super::anything::{any_record, version, Pace};
use super::draft::Draft;
use super::kinds::unknown_kind;
use crate::journal::Version;
use crate::random::Random;

pub fn mix(random: &mut Random, version: Version) -> Draft {
    let mut draft = Draft::of(random, version);
    let pace = Pace::any(random);
    let large = random.one_in(25);
    // Most reads of an unseeded keeper look the same.
    if !random.one_in(4) {
        let bits = random.between(150, 900) as u32;
        draft.credit(random, bits);
    }
    // Most events of new devices look the same too.
    for _ in 0..random.below(3) {
        let device = draft.any_device(random);
        draft.introduce(random, device, draft.now);
    }
    for _ in 0..random.between(1, 45) {
        draft.now = pace.next(random, draft.now);
        let record = any_record(random, version, &draft.keeper, draft.now, large);
        draft.add(record);
    }
    draft
}

/// A mix; four of five have an unknown kind at their end. A mix shows no less
/// for that, and 250 kinds need not have journals of their own.
pub fn mix_in_turn(random: &mut Random, turn: u64) -> Vec<u8> {
    let version = version(random);
    let mut draft = mix(random, version);
    if turn % 5 < 4 {
        unknown_kind(random, turn / 5 * 4 + turn % 5, &mut draft);
    }
    draft.bytes
}
