//! Runs that reach the ledger's bound, such as miss it closely, and such as stay
//! far below it.

use super::draft::Draft;
use crate::journal::Record;
use crate::random::Random;

/// All that a seed of so many bits adds to an empty pool is taken over by one read,
/// and all that this adds to the other pool is delivered: no unit is left.
const BITS: u32 = 128;

/// Reads that take all of it over: it is twelve bytes.
const LENGTHS: [u16; 5] = [12, 13, 128, 129, 4_096];

/// How many times over the bound is reached.
const TIMES: [usize; 3] = [1, 4, 12];

/// The same bits by several seeds, which a pool that is not empty dampens more.
const PARTS: [&[u32]; 3] = [&[64, 64], &[127, 1], &[32, 32, 32, 32]];

/// Bits that seed a keeper, and take 16, 24 and 32 bytes for its key.
const KEYS: [u32; 3] = [171, 256, 4_096];

/// Each of seven sorts in turn, and in each what sets its journals apart.
pub fn ledgers(random: &mut Random, turn: u64) -> Vec<u8> {
    let mut draft = Draft::any(random);
    let round = turn as usize / 7;
    match turn % 7 {
        0 => reached_all_the_same(&mut draft, random, TIMES[round % 3]),
        1 => other_bits(&mut draft, random, [127, 129][round % 2]),
        2 => other_lengths(&mut draft, random, [9, 10, 11][round % 3]),
        3 => in_parts(&mut draft, random, PARTS[round % 3]),
        4 => closest(&mut draft, random, round % 3),
        5 => every_source(&mut draft, random, round % 2 == 1),
        _ => after_a_key(&mut draft, random, KEYS[round % 3]),
    }
    draft.bytes
}

/// A seed and a read, after which the bound is reached if it was before.
fn reach(draft: &mut Draft, random: &mut Random, length: u16) {
    draft.credit(random, BITS);
    draft.blocking(length);
}

/// The bound reached a few times, or not yet.
fn reach_before(draft: &mut Draft, random: &mut Random) {
    for _ in 0..random.below(3) {
        let length = random.pick(&LENGTHS);
        reach(draft, random, length);
    }
}

/// The bound so many times over, after calls that are awarded nothing: if one were,
/// or if the keeper credited one, it would show.
fn reached_all_the_same(draft: &mut Draft, random: &mut Random, times: usize) {
    not_awarded(draft, random);
    for length in LENGTHS.into_iter().cycle().take(times) {
        reach(draft, random, length);
        nothing(draft, random);
    }
    draft.probe(random);
}

/// Calls that look as if they earned, in any order.
fn not_awarded(draft: &mut Draft, random: &mut Random) {
    let others = u64::from(draft.version.devices()) - 1;
    let known = 1 + random.below(others) as u32;
    // Another one, which is not 0 either.
    let new = 1 + known % others as u32;
    let first = random.below(5);
    for which in first..first + 5 {
        match which % 5 {
            0 => too_many_bits(draft, random),
            1 => {
                draft.introduce(random, 0, draft.now);
                draft.repeated(random);
            }
            2 => {
                draft.introduce(random, known, draft.now);
                draft.no_device_like(random, known);
            }
            3 => (0..random.between(1, 3)).for_each(|_| draft.worthy_event(random, new)),
            _ => (0..random.between(1, 5)).for_each(|_| stir(draft, random)),
        }
    }
}

/// A seed that is refused, as it names a bit more than it has.
fn too_many_bits(draft: &mut Draft, random: &mut Random) {
    let length = random.between(0, 40) as usize;
    draft.seed(random, 8 * length as u32 + 1, length);
}

/// An interrupt that does not spill, unless it is the 64th.
fn stir(draft: &mut Draft, random: &mut Random) {
    let ticks = random.pick(&[0, 1_000, 1_000, u32::MAX]);
    draft.interrupt(random, draft.keeper.last_spill.wrapping_add(ticks));
}

/// A call that is awarded nothing and leaves both counts as they are.
fn nothing(draft: &mut Draft, random: &mut Random) {
    let now = draft.now;
    let length = random.between(0, 20) as usize;
    match random.below(5) {
        0 => draft.add(Record::Write {
            now,
            bytes: random.bytes(length).into(),
        }),
        1 => draft.seed(random, 0, length),
        2 => too_many_bits(draft, random),
        3 => draft.generator(now, 4),
        _ => stir(draft, random),
    }
}

/// One bit fewer or one more.
fn other_bits(draft: &mut Draft, random: &mut Random, bits: u32) {
    reach_before(draft, random);
    draft.credit(random, bits);
    let length = random.pick(&LENGTHS);
    draft.blocking(length);
    draft.probe(random);
}

/// A read that takes less over than there is.
fn other_lengths(draft: &mut Draft, random: &mut Random, length: u16) {
    reach_before(draft, random);
    reach(draft, random, length);
    draft.probe(random);
}

fn in_parts(draft: &mut Draft, random: &mut Random, parts: &[u32]) {
    reach_before(draft, random);
    for bits in parts {
        draft.credit(random, *bits);
    }
    let length = random.pick(&LENGTHS);
    draft.blocking(length);
    draft.probe(random);
}

/// Eight bytes taken over are six delivered. They take 512 units: 86 bits make four
/// more, and 160 and then eleven, by a seed or an event, one more than twice that.
fn closest(draft: &mut Draft, random: &mut Random, way: usize) {
    reach_before(draft, random);
    if way == 0 {
        draft.credit(random, 86);
        draft.blocking(6);
        return;
    }
    draft.credit(random, 160);
    draft.blocking(6);
    match way {
        1 => draft.credit(random, 11),
        _ => {
            let device = draft.any_device(random);
            let ticks = random.between(2_048, 5_000) as u32;
            draft.fourth_event(random, device, ticks);
        }
    }
    draft.blocking(6);
}

/// Events that earn, an interrupt that does and seeds, or events alone, and then
/// what they are good for is read.
fn every_source(draft: &mut Draft, random: &mut Random, events_alone: bool) {
    let count = if events_alone { 9 } else { 2 };
    for device in draft.sixteen_devices(random).take(count) {
        let ticks = random.between(2_048, 5_000) as u32;
        draft.fourth_event(random, device, ticks);
    }
    if !events_alone {
        draft.spill(random);
        let count = random.between(512, 1_000) as u32;
        draft.steer_above(random, 512, count);
    }
    draft.blocking(12);
    draft.probe(random);
}

/// What was taken for the key is missing from then on.
fn after_a_key(draft: &mut Draft, random: &mut Random, bits: u32) {
    draft.credit(random, bits);
    for length in LENGTHS.into_iter().take(3) {
        reach(draft, random, length);
    }
    let due = draft.keeper.seeding_clock.wrapping_add(300_001);
    draft.generator(due, 8);
    draft.probe(random);
}

#[cfg(test)]
mod tests {
    use super::*;
    use crate::rules::{Rules, Wrong};
    use crate::situations::{Creditor, NotAwarded, Situation, Situation::*};
    use crate::transcript::transcript;
    use crate::watch::Shown;
    use std::panic::catch_unwind;

    /// What each sort has to show in each of its journals, but for what sets these
    /// apart.
    const EACH: [&[(Situation, u32)]; 7] = [
        &[(BoundReached, 1)],
        &[],
        &[],
        &[(BoundMissedBy, 128)],
        &[],
        &[(DeliveredAfter(Creditor::Event), 0)],
        &[],
    ];

    /// What sets them apart.
    fn apart(turn: u64) -> (Situation, u32) {
        let round = turn as usize / 7;
        match turn % 7 {
            0 => (BoundReached, TIMES[round % 3] as u32),
            1 => (BoundMissedBy, [119, 9][round % 2]),
            2 => (BoundMissedBy, [384, 256, 128][round % 3]),
            3 => (DeliveredAfter(Creditor::Seed), 0),
            4 => (BoundMissedBy, [6, 3, 3][round % 3]),
            5 if round % 2 == 0 => (DeliveredAfter(Creditor::Interrupt), 0),
            5 => (DeliveredAfter(Creditor::Event), 0),
            _ => (DeliveredAfterKey, [16, 24, 32][round % 3]),
        }
    }

    fn journal(turn: u64) -> Vec<u8> {
        ledgers(&mut Random::new(13, turn), turn)
    }

    #[test]
    fn each_journal_shows_what_its_sort_is_for() {
        for turn in 0..420 {
            let journal = journal(turn);
            let shown = Shown::by(&journal);
            for (situation, value) in EACH[turn as usize % 7].iter().chain([&apart(turn)]) {
                assert!(shown.times(*situation, *value) > 0, "turn {turn}");
            }
            assert!(journal.len() < 2_048, "turn {turn}: {}", journal.len());
        }
    }

    #[test]
    fn the_bound_is_reached_all_the_same_so_many_times_over_and_no_more() {
        for turn in (0..140).step_by(7) {
            let shown = Shown::by(&journal(turn));
            let times = TIMES[turn as usize / 7 % 3] as u32;
            assert_eq!(shown.times(BoundReached, times), 1);
            assert_eq!(shown.times(BoundReached, times + 1), 0);
            for call in NotAwarded::ALL {
                let after = shown.times(BoundReachedAfter(call), 0);
                assert_eq!(after, times.into(), "turn {turn}");
            }
        }
    }

    /// Events alone may earn what is delivered.
    #[test]
    fn half_of_the_runs_with_every_source_have_events_alone() {
        for turn in (5..140).step_by(7) {
            let shown = Shown::by(&journal(turn));
            let [interrupt, seed] = [Creditor::Interrupt, Creditor::Seed]
                .map(|creditor| shown.times(DeliveredAfter(creditor), 0) > 0);
            let all = turn / 7 % 2 == 0;
            assert_eq!((interrupt, seed), (all, all), "turn {turn}");
        }
    }

    #[test]
    fn twenty_one_turns_show_all_there_is_to_the_ledger() {
        let mut shown = Shown::default();
        (0..21).for_each(|turn| shown.add(&Shown::by(&journal(turn))));
        let all = Situation::all().into_iter().filter(|situation| {
            matches!(
                situation,
                BoundReached
                    | BoundReachedAsking
                    | BoundReachedAfter(_)
                    | BoundMissedBy
                    | DeliveredAfter(_)
                    | DeliveredAfterKey
            )
        });
        for situation in all {
            for value in situation.values() {
                assert!(shown.times(situation, value) > 0, "{situation}: {value}");
            }
        }
    }

    /// The program breaks off at one of these journals, at the least.
    #[test]
    fn no_wrong_rule_gets_past_these_journals() {
        let journals: Vec<Vec<u8>> = (0..21).map(journal).collect();
        let break_off = || {
            let breaks_off = |journal: &&Vec<u8>| catch_unwind(|| transcript(journal)).is_err();
            journals.iter().filter(breaks_off).count()
        };
        assert_eq!(break_off(), 0);
        let wrong: [fn(&mut Rules); 6] = [
            |rules| rules.transferred = 9,
            |rules| rules.byte = 63,
            |rules| rules.damped = false,
            |rules| rules.delivery_paid = false,
            |rules| rules.transfer_paid = false,
            |rules| rules.new_events = 0,
        ];
        for put_wrong in wrong {
            let _wrong = Wrong::put(put_wrong);
            let times = break_off();
            assert!(times >= 3, "{times}");
        }
    }
}
