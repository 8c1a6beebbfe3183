//! Journals that go close to a threshold: counts, clocks, tallies, lengths.

use super::draft::Draft;
use super::HALF;
use crate::pools::INPUT;
use crate::random::Random;

pub fn threshold(random: &mut Random, turn: u64) -> Vec<u8> {
    let mut draft = Draft::any(random);
    match turn % 10 {
        0 => first_seeding(&mut draft, random),
        1 => low_counts(&mut draft, random),
        2 => high_counts(&mut draft, random),
        3 => spill_clocks(&mut draft, random),
        4 => seeding_clocks(&mut draft, random),
        5 => event_clocks(&mut draft, random),
        6 => tallies(&mut draft, random),
        7 => read_lengths(&mut draft, random),
        8 => blocking_reads(&mut draft, random),
        _ => seeding_by_events(&mut draft, random),
    }
    draft.bytes
}

/// A clock that lies at a known distance, or one tick beside it.
fn beside(random: &mut Random, from: u32, distances: &[u32]) -> u32 {
    let distance = random.pick(distances);
    let nudge = random.pick(&[u32::MAX, 0, 1]);
    from.wrapping_add(distance).wrapping_add(nudge)
}

/// One credit onto a fresh keeper, about as much as seeds it.
fn first_seeding(draft: &mut Draft, random: &mut Random) {
    let bits = random.pick(&[169, 170, 171, 172, 255, 256, 257, 341, 342, 4_096]);
    draft.credit(random, bits);
    draft.probe(random);
    let bits = random.pick(&[0, 1, 2]);
    draft.credit(random, bits);
    draft.probe(random);
}

/// Counts at which a debit, a reseed or a refusal turns.
fn low_counts(draft: &mut Draft, random: &mut Random) {
    let target: u32 = random.pick(&[64, 512, 1_024, 1_024, 2_048, 64 * 17]);
    let aim = target + random.pick(&[0, 1, 2]) - 1;
    if random.one_in(2) {
        // Seeded and empty, so that counts over 1,024 can stay.
        draft.credit(random, 256);
    }
    draft.steer(random, aim);
    match random.below(5) {
        0 => {
            let length = random.pick(&[1, 7, 8, 9, 15, 16, 17]);
            draft.blocking(length);
        }
        1 | 2 => {
            let late = draft.keeper.seeding_clock.wrapping_add(300_001);
            draft.generator(late, 16);
        }
        3 => {
            let bits = random.pick(&[0, 1, 2]);
            draft.credit(random, bits);
        }
        _ => {
            let ticks = random.pick(&[0, 1, 2, 3, 4]);
            let device = draft.any_device(random);
            draft.fourth_event(random, device, ticks);
        }
    }
    draft.probe(random);
}

/// Counts close to the size of the input pool.
fn high_counts(draft: &mut Draft, random: &mut Random) {
    let aim = match random.below(3) {
        0 => 16_384 + random.below(3) as u32,
        _ => INPUT.size - random.below(12) as u32,
    };
    let first = random.pick(&[2_048, 4_095, 4_096, 4_097, 8_192, 16_384]);
    draft.credit(random, first);
    draft.steer(random, aim);
    for device in draft.sixteen_devices(random).take(4) {
        match random.below(4) {
            0 => draft.spill(random),
            1 => {
                let ticks = random.pick(&[1, 2, 255, 4_096]);
                draft.fourth_event(random, device, ticks);
            }
            _ => {
                let bits = random.pick(&[0, 1, 8, 100, 2_047, 2_048, 2_049]);
                draft.credit(random, bits);
            }
        }
    }
    let length = random.pick(&[127, 128, 129, 4_096]);
    draft.blocking(length);
    draft.probe(random);
}

/// Interrupts around a thousand ticks, and half the clock, from a spill.
fn spill_clocks(draft: &mut Draft, random: &mut Random) {
    for _ in 0..random.between(4, 20) {
        let distances = [0, 1_000, 1_000, 1_000, HALF, 1_000u32.wrapping_neg()];
        let now = beside(random, draft.keeper.last_spill, &distances);
        draft.interrupt(random, now);
    }
    draft.reveal(random);
    draft.probe(random);
}

/// Generator reads around the time a new key is due.
fn seeding_clocks(draft: &mut Draft, random: &mut Random) {
    // Enough for one key, or for some more.
    let bits = random.pick(&[400, 1_400, 3_000]);
    draft.credit(random, bits);
    for _ in 0..random.between(2, 8) {
        if random.one_in(3) {
            let bits = random.pick(&[1, 100, 200, 400]);
            draft.credit(random, bits);
        }
        let distances = [0, 300_000, 300_000, HALF, 300_000u32.wrapping_neg()];
        let now = beside(random, draft.keeper.seeding_clock, &distances);
        let length = random.pick(&[0, 1, 32, 33, 4_097]);
        draft.generator(now, length);
    }
    draft.probe(random);
}

/// Device events whose differences lie where the credit or the sign turns.
fn event_clocks(draft: &mut Draft, random: &mut Random) {
    // Few enough devices for most events to earn.
    let devices = [random.pick(&[0, 1, 2]), draft.any_device(random)];
    for _ in 0..random.between(6, 40) {
        let device = random.pick(&devices);
        let timer = draft.keeper.timers[device as usize];
        let distance = random.pick(&[0, 1, 2, 4, 8, 256, 1_024, 2_048, 4_096, 65_536, HALF, HALF]);
        // At a distance from the last clock, or from where a steady device
        // would be next, so that the second difference is the small one.
        let from = match random.below(3) {
            0 => timer.clock.wrapping_add(timer.d1 as u32),
            _ => timer.clock,
        };
        let distance = random.pick(&[distance, distance.wrapping_neg()]);
        let now = beside(random, from, &[distance]);
        draft.device(random, device, now);
    }
    draft.reveal(random);
    draft.probe(random);
}

/// Interrupts in a row, about as many as make a spill.
fn tallies(draft: &mut Draft, random: &mut Random) {
    // Late enough for a spill by number to move the spill's clock.
    draft.now = random.between(0, 990) as u32;
    for _ in 0..random.between(62, 66) {
        if random.one_in(10) {
            draft.now = draft.now.wrapping_add(1);
        }
        draft.interrupt(random, draft.now);
    }
    for _ in 0..random.between(1, 70) {
        draft.interrupt(random, draft.now);
    }
    for _ in 0..3 {
        let now = beside(random, draft.keeper.last_spill, &[500, 1_000]);
        draft.interrupt(random, now);
    }
    draft.reveal(random);
    draft.probe(random);
}

/// Reads whose last block is just used up, or leaves just enough for the key.
fn read_lengths(draft: &mut Draft, random: &mut Random) {
    draft.credit(random, 300);
    for _ in 0..random.between(3, 10) {
        let length = random.pick(&[
            1, 3, 4, 5, 28, 29, 31, 32, 33, 36, 60, 61, 63, 64, 65, 95, 96, 97, 127, 128, 129,
        ]);
        draft.generator(draft.now, length);
    }
}

/// Blocking reads around what either pool is good for.
fn blocking_reads(draft: &mut Draft, random: &mut Random) {
    let bits = random.pick(&[80, 85, 86, 87, 171, 600, 1_400, 4_096]);
    draft.credit(random, bits);
    if random.one_in(3) {
        // Byte by byte, until the blocking pool is good for exactly one more.
        for _ in 0..random.between(4, 9) {
            let length = random.pick(&[1, 1, 1, 2]);
            draft.blocking(length);
        }
        return;
    }
    for _ in 0..random.between(3, 14) {
        let good_for = draft.keeper.blocking.count / 64;
        let near = (good_for + random.below(3) as u32).saturating_sub(1) as u16;
        let length = random.pick(&[near, near, near, 1, 7, 8, 9, 16, 127, 128, 129, 4_096]);
        draft.blocking(length);
        if draft.keeper.input.count < 512 {
            let aim = random.pick(&[510, 511, 512, 513, 64 * 9 - 1, 64 * 9, 1_400]);
            draft.steer(random, aim);
        }
    }
}

/// Brings a keeper just below its first seeding, then lets small events do it.
fn seeding_by_events(draft: &mut Draft, random: &mut Random) {
    let aim = random.pick(&[1_000, 1_010, 1_017, 1_018, 1_019, 1_022, 1_023]);
    draft.steer(random, aim);
    draft.probe(random);
    let most = random.between(1, 6) as usize;
    for device in draft.sixteen_devices(random).skip(1).take(most) {
        match random.below(3) {
            0 => {
                draft.spill(random);
                draft.now = draft.keeper.last_spill;
            }
            1 => {
                let ticks = random.pick(&[1, 2, 4, 8, 4_096]);
                draft.fourth_event(random, device, ticks);
            }
            _ => draft.credit(random, 1),
        }
    }
    draft.probe(random);
}
