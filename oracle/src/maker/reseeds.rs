//! A reseed that is due, or just not due, after each way of first seeding.

use super::anything::{start, version};
use super::draft::Draft;
use crate::random::Random;

/// Seeds a keeper by a device event, an interrupt or a seed in turn, gives it
/// enough for a reseed, and reads when none is due and when one is.
pub fn reseed(random: &mut Random, turn: u64) -> Vec<u8> {
    let round = turn / 3;
    let clock = seeding_clock(random, round);
    // Seeds before and after it have clocks of their own, which must not count.
    let mut draft = Draft::new(version(random), start(random), random.u32());
    seed_in_turn(&mut draft, random, turn, clock);
    draft.now = random.u32();
    let count = random.pick(&[1_024, 1_025, 1_100, 2_047, 2_048, 3_000]);
    draft.steer_above(random, 1_024, count);
    reads(&mut draft, random, round);
    draft.bytes
}

/// Seeds a fresh keeper at this clock by each of the three ways in turn.
pub fn seed_in_turn(draft: &mut Draft, random: &mut Random, turn: u64, clock: u32) {
    match turn % 3 {
        0 => seed_by_event(draft, random, clock),
        1 => seed_by_interrupt(draft, random, clock),
        _ => seed_by_seed(draft, random, clock),
    }
}

/// A clock from which 300,000 ticks go through zero, one that soon runs back
/// through zero, and any other, in turn.
pub fn seeding_clock(random: &mut Random, round: u64) -> u32 {
    let last = u64::from(u32::MAX);
    let clock = match round % 3 {
        0 => random.between(last - 299_999, last),
        1 => random.between(0, 200_000),
        _ => random.between(0, last),
    };
    clock as u32
}

/// By the fourth events of sixteen devices, which are worth enough together, or by
/// one such event after seeds that just do not do it. No event before a fourth
/// earns.
fn seed_by_event(draft: &mut Draft, random: &mut Random, clock: u32) {
    if random.one_in(2) {
        draft.just_unseeded(random);
        let device = draft.any_device(random);
        let ticks = random.between(2, 5_000) as u32;
        draft.introduce(random, device, clock.wrapping_sub(ticks));
        draft.device(random, device, clock);
        return;
    }
    for device in draft.sixteen_devices(random).rev() {
        let ticks = random.between(2_048, 5_000) as u32;
        draft.introduce(random, device, clock.wrapping_sub(ticks));
        draft.device(random, device, clock);
    }
}

fn seed_by_interrupt(draft: &mut Draft, random: &mut Random, clock: u32) {
    draft.wait_for_a_spill(random, clock);
    draft.just_unseeded(random);
    draft.interrupt(random, clock);
}

fn seed_by_seed(draft: &mut Draft, random: &mut Random, clock: u32) {
    if random.one_in(2) {
        draft.just_unseeded(random);
    }
    draft.now = clock;
    let bits = random.pick(&[171, 172, 256, 400]);
    draft.credit(random, bits);
}

fn reads(draft: &mut Draft, random: &mut Random, round: u64) {
    let seeded = draft.keeper.seeding_clock;
    let back = match round % 3 {
        1 => seeded + random.between(1, 1_000) as u32,
        _ => {
            let any = random.between(1, 1_000_000) as u32;
            random.pick(&[1, 300_001, any])
        }
    };
    for ticks in [back.wrapping_neg(), 300_000, 300_001] {
        read(draft, random, seeded.wrapping_add(ticks));
    }
    // The ticks now count from the reseed. What it left may do for another.
    let reseeded = draft.keeper.seeding_clock;
    for ticks in [300_000, 300_001] {
        read(draft, random, reseeded.wrapping_add(ticks));
    }
}

fn read(draft: &mut Draft, random: &mut Random, now: u32) {
    let length = random.between(1, 40) as u16;
    draft.generator(now, length);
}

#[cfg(test)]
mod tests {
    use super::*;
    use crate::situations::{Seeder, Situation, Wait};
    use crate::watch::Shown;

    #[test]
    fn each_journal_shows_all_three_waits_after_its_seeding() {
        for turn in 0..900 {
            let journal = reseed(&mut Random::new(3, turn), turn);
            let shown = Shown::by(&journal);
            let seeder = [Seeder::Event, Seeder::Interrupt, Seeder::Seed][turn as usize % 3];
            let times = |wait, past_zero| {
                let situation = Situation::FirstSeeded(seeder, wait, past_zero);
                shown.times(situation, 0)
            };
            let past_zero = match turn / 3 % 3 {
                0 => [true, true, false],
                1 => [false, false, true],
                // Either, as the clock is.
                _ => [Wait::NotDue, Wait::Due, Wait::RanBack].map(|wait| times(wait, true) > 0),
            };
            assert_eq!(times(Wait::NotDue, past_zero[0]), 1, "turn {turn}");
            assert_eq!(times(Wait::Due, past_zero[1]), 1, "turn {turn}");
            assert_eq!(times(Wait::RanBack, past_zero[2]), 1, "turn {turn}");
            assert!(journal.len() < 1_500);
        }
    }
}
