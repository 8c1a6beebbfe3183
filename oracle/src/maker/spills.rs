//! A spill by time at each tally, and the spill by number after it.

use super::anything::{start, version};
use super::draft::Draft;
use super::HALF;
use crate::random::Random;

/// Interrupts up to the tally, the last of them late enough to spill by time;
/// then 64 more, of which only the last may spill.
pub fn timed_spill(random: &mut Random, turn: u64) -> Vec<u8> {
    let tally = turn % 63 + 1;
    let first = first_spill(random, turn);
    let mut draft = Draft::new(version(random), start(random), first);
    if first != draft.keeper.last_spill {
        draft.wait_for_a_spill(random, first);
        draft.interrupt(random, first);
    }
    for _ in 1..tally {
        let ticks = too_early(random);
        draft.interrupt(random, first.wrapping_add(ticks));
    }
    let late = match turn % 2 {
        0 => 1_001,
        _ => random.pick(&[1_001, 1_002, 5_000, HALF - 1]),
    };
    let timed = first.wrapping_add(late);
    draft.interrupt(random, timed);
    for ticks in sixty_four(random) {
        draft.interrupt(random, timed.wrapping_add(ticks));
    }
    draft.reveal(random);
    draft.bytes
}

/// The clock that the ticks count from: a fresh keeper's own, one that soon
/// goes through zero, or any.
fn first_spill(random: &mut Random, turn: u64) -> u32 {
    match turn % 4 {
        0 => 0,
        1 => u32::MAX - random.below(1_000) as u32,
        _ => random.u32(),
    }
}

/// Ticks after which nothing spills by time, those of a clock that ran back
/// among them.
fn too_early(random: &mut Random) -> u32 {
    let any = random.below(1_001) as u32;
    let back = random.between(1, 2_000) as u32;
    random.pick(&[any, any, any, 999, 1_000, back.wrapping_neg(), HALF])
}

/// 64 times such ticks. The longest and those of a clock that ran back are
/// anywhere among them but at the last, which spills by number.
fn sixty_four(random: &mut Random) -> Vec<u32> {
    let mut all = vec![1_000, u32::MAX];
    all.resize_with(63, || too_early(random));
    all.rotate_left(random.below(63) as usize);
    all.push(too_early(random));
    all
}

#[cfg(test)]
mod tests {
    use super::*;
    use crate::situations::Situation::*;
    use crate::watch::Shown;

    #[test]
    fn each_journal_shows_a_spill_by_time_and_one_64_interrupts_later() {
        for turn in 0..252 {
            let journal = timed_spill(&mut Random::new(4, turn), turn);
            let shown = Shown::by(&journal);
            let tally = turn as u32 % 63 + 1;
            assert!(shown.times(SpillByTime, tally) > 0);
            assert_eq!(shown.times(SpillByNumberAfterTime, tally), 1);
            assert_eq!(shown.times(SpillByNumberAfterRunningBack, 0), 1);
            assert!(shown.times(NoSpillAt1000, 0) > 0);
            assert!(turn % 2 == 1 || shown.times(SpillAt1001, 0) > 0);
            assert!(turn % 4 != 1 || shown.times(SpillByTimePastZero, 0) > 0);
        }
    }
}
