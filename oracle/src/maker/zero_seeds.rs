//! Seeds that credit nothing onto a count that would seed a keeper.

use super::draft::Draft;
use crate::random::Random;

/// Their bytes are mixed in and nothing else happens. A read shows that the
/// key is the same; a reseed or a blocking read brings the bytes out.
pub fn zero_seed(random: &mut Random, turn: u64) -> Vec<u8> {
    let mut draft = Draft::any(random);
    let bits = random.between(171, 600) as u32;
    draft.credit(random, bits);
    let count = random.pick(&[1_024, 1_025, 1_500, 2_047, 2_048, 4_000]);
    draft.steer_above(random, 1_024, count);
    for _ in 0..random.between(1, 3) {
        let length = random.between(1, 40) as usize;
        draft.seed(random, 0, length);
    }
    draft.seed(random, 0, 0);
    draft.generator(draft.now, 8);
    let due = draft.keeper.seeding_clock.wrapping_add(300_001);
    match turn % 2 {
        0 => draft.generator(due, 8),
        _ => draft.blocking(8),
    }
    draft.probe(random);
    draft.bytes
}

#[cfg(test)]
mod tests {
    use super::*;
    use crate::situations::{Next, Situation};
    use crate::watch::Shown;

    #[test]
    fn each_journal_shows_a_read_and_what_brings_the_bytes_out() {
        for turn in 0..300 {
            let journal = zero_seed(&mut Random::new(5, turn), turn);
            let shown = Shown::by(&journal);
            let times = |next| shown.times(Situation::NothingCredited(next), 0);
            assert!(times(Next::Read) > 0, "turn {turn}");
            match turn % 2 {
                0 => assert!(times(Next::Reseed) > 0, "turn {turn}"),
                _ => assert!(times(Next::BlockingRead) > 0, "turn {turn}"),
            }
            assert!(journal.len() < 1_500);
        }
    }
}
