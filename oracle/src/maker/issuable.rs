//! Journals that leave a keeper to issue numbers from, or one that cannot.

use super::anything::{first_clock, start};
use super::draft::Draft;
use super::reseeds::{seed_in_turn, seeding_clock};
use crate::journal::Version;
use crate::random::Random;

/// Seeded by a device event, an interrupt or a seed in turn, at clocks before zero,
/// after it and any others. The input count is this one; where no credits lead to it,
/// it is just below.
pub fn seeded(random: &mut Random, version: Version, turn: u64, count: u32) -> Vec<u8> {
    let mut draft = about_seeded(random, version, turn, count);
    let reachable = REACHABLE.contains(&count);
    for _ in 0..TRIES {
        if !reachable || draft.keeper.input.count == count {
            break;
        }
        draft = about_seeded(random, version, turn, count);
    }
    draft.bytes
}

/// Counts for which another try is worth it, and how many are made: about every
/// other one is a few units short.
const REACHABLE: std::ops::Range<u32> = 600..4_000;
const TRIES: u32 = 30;

fn about_seeded(random: &mut Random, version: Version, turn: u64, count: u32) -> Draft {
    let start = start(random);
    let now = random.u32();
    let mut draft = Draft::new(version, start, now);
    seed(&mut draft, random, turn, count);
    draft
}

/// The same, with a counter that carries from its low word into its high one after so
/// many blocks. All bits of the high word may be set, and then it wraps.
pub fn about_to_carry(random: &mut Random, version: Version, blocks: u32) -> Vec<u8> {
    let mut start = start(random);
    let high = random.pick(&[0, 7, u32::MAX]);
    start[32..36].copy_from_slice(&blocks.wrapping_neg().to_le_bytes());
    start[36..40].copy_from_slice(&high.to_le_bytes());
    let mut draft = Draft::new(version, start, first_clock(random));
    seed(&mut draft, random, 2, 3_000);
    draft.bytes
}

fn seed(draft: &mut Draft, random: &mut Random, turn: u64, count: u32) {
    let clock = seeding_clock(random, turn / 3);
    seed_in_turn(draft, random, turn, clock);
    draft.now = random.u32();
    if draft.keeper.input.count > count {
        drain(draft);
    }
    draft.steer(random, count);
}

/// Takes out of the input pool what blocking reads can.
fn drain(draft: &mut Draft) {
    while draft.keeper.input.count >= 512 {
        draft.blocking(128);
    }
}

/// Not seeded, with a count up to 1,023 and some calls that leave it so.
pub fn unseeded(random: &mut Random, version: Version, count: u32) -> Vec<u8> {
    let mut draft = Draft::of(random, version);
    let device = draft.any_device(random);
    draft.introduce(random, device, draft.now);
    draft.generator(draft.now, 16);
    draft.steer(random, count.min(1_023));
    draft.bytes
}

#[cfg(test)]
mod tests {
    use super::*;
    use crate::issue::keeper_left;

    #[test]
    fn keepers_are_left_as_they_are_asked_for() {
        let random = &mut Random::new(1, 0);
        let counts = [0, 1_023, 1_024, 1_025, 1_343, 1_344, 2_047, 2_048, 20_000];
        for (turn, version) in (0..180).zip(Version::in_turn()) {
            let count = counts[(turn + turn / 9) as usize % counts.len()];
            let keeper = keeper_left(&seeded(random, version, turn, count)).unwrap();
            assert!(keeper.seeded);
            let found = keeper.input.count;
            let near = match count {
                // What blocking reads leave.
                0 => found < 512,
                20_000 => found > 19_990 && found <= 20_000,
                _ => found == count,
            };
            assert!(near, "turn {turn}: {found} for {count}");
            let keeper = keeper_left(&unseeded(random, version, count)).unwrap();
            assert!(!keeper.seeded);
            assert!(keeper.input.count + 5 >= count.min(1_023));
        }
    }

    #[test]
    fn counters_are_about_to_carry() {
        let random = &mut Random::new(1, 1);
        for blocks in 1..10 {
            let journal = about_to_carry(random, Version::Two, blocks);
            let keeper = keeper_left(&journal).unwrap();
            assert!(keeper.seeded);
            assert_eq!(keeper.generator[12], blocks.wrapping_neg());
        }
    }
}
