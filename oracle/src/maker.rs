//! Makes journals to compare two programs over.
//!
//! Families take turns, and within most of them so do the things to show: a
//! run that is long enough shows all of them, whatever its seed. A journal
//! depends on the seed and its number only.

pub mod anything;
pub mod convertible;
mod cuts;
mod damage;
mod devices;
mod draft;
mod headers;
pub mod issuable;
mod kinds;
mod ledgers;
mod mixes;
mod new_devices;
mod reseeds;
pub mod sized;
mod spills;
mod thresholds;
mod worths;
mod zero_seeds;

use crate::random::Random;

pub const HALF: u32 = 1 << 31;

#[derive(Clone, Copy, PartialEq)]
enum Family {
    Mix,
    Threshold,
    Damage,
    Cut,
    Header,
    Steps,
}

/// The families in turn.
const FAMILIES: [Family; 12] = [
    Family::Mix,
    Family::Threshold,
    Family::Damage,
    Family::Mix,
    Family::Threshold,
    Family::Cut,
    Family::Mix,
    Family::Threshold,
    Family::Header,
    Family::Mix,
    Family::Steps,
    Family::Damage,
];

/// What takes several steps to show.
#[derive(Clone, Copy, PartialEq)]
enum Steps {
    TimedSpill,
    Reseed,
    ZeroSeed,
    Devices,
    NewDevices,
    Worths,
    Ledgers,
}

/// The same in turn. A run of 2,000 journals has some 166 of these, and there
/// are 63 tallies to spill at.
const STEPS: [Steps; 20] = [
    Steps::TimedSpill,
    Steps::Reseed,
    Steps::TimedSpill,
    Steps::NewDevices,
    Steps::Worths,
    Steps::TimedSpill,
    Steps::ZeroSeed,
    Steps::TimedSpill,
    Steps::Ledgers,
    Steps::Devices,
    Steps::TimedSpill,
    Steps::Reseed,
    Steps::TimedSpill,
    Steps::NewDevices,
    Steps::Worths,
    Steps::TimedSpill,
    Steps::Ledgers,
    Steps::TimedSpill,
    Steps::Ledgers,
    Steps::Devices,
];

/// Whose turn it is, and how many turns it has had.
pub fn in_turn<T: Copy + PartialEq>(order: &[T], turn: u64) -> (T, u64) {
    let rounds = turn / order.len() as u64;
    let place = (turn % order.len() as u64) as usize;
    let had = |order: &[T], who: T| order.iter().filter(|other| **other == who).count() as u64;
    let who = order[place];
    (who, rounds * had(order, who) + had(&order[..place], who))
}

/// Journal `number`, counted from 1.
pub fn journal(seed: u64, number: u64) -> Vec<u8> {
    let random = &mut Random::new(seed, number);
    let (family, turn) = in_turn(&FAMILIES, number - 1);
    match family {
        Family::Mix => mixes::mix_in_turn(random, turn),
        Family::Threshold => thresholds::threshold(random, turn),
        Family::Damage => damage::damaged(random, turn),
        Family::Cut => cuts::cut_in_turn(seed, turn),
        Family::Header => headers::header(random, seed, turn),
        Family::Steps => steps(random, turn),
    }
}

fn steps(random: &mut Random, turn: u64) -> Vec<u8> {
    let (steps, turn) = in_turn(&STEPS, turn);
    match steps {
        Steps::TimedSpill => spills::timed_spill(random, turn),
        Steps::Reseed => reseeds::reseed(random, turn),
        Steps::ZeroSeed => zero_seeds::zero_seed(random, turn),
        Steps::Devices => devices::devices(random, turn),
        Steps::NewDevices => new_devices::new_devices(random, turn),
        Steps::Worths => worths::worths(random, turn),
        Steps::Ledgers => ledgers::ledgers(random, turn),
    }
}

/// The file name of a journal.
pub fn file_name(number: u64) -> String {
    format!("{number:04}.nkj")
}

#[cfg(test)]
mod tests {
    use super::*;
    use crate::transcript::transcript;

    #[test]
    fn the_same_journal_every_time() {
        for number in 1..60 {
            assert_eq!(journal(5, number), journal(5, number));
        }
        assert_ne!(journal(5, 1), journal(6, 1));
    }

    /// Guards the promise that a seed means the same journals everywhere.
    #[test]
    fn journals_do_not_drift() {
        let sum = (1..=1_000).fold(0u64, |sum, number| {
            journal(1, number)
                .iter()
                .fold(sum, |s, b| s.wrapping_mul(31).wrapping_add(u64::from(*b)))
        });
        assert_eq!(sum, JOURNALS_OF_SEED_1);
    }

    const JOURNALS_OF_SEED_1: u64 = 4_931_647_967_606_665_704;

    #[test]
    fn all_come_in_their_turn() {
        let turns: Vec<(char, u64)> = (0..6).map(|n| in_turn(&['a', 'b', 'a'], n)).collect();
        let expected = [('a', 0), ('b', 0), ('a', 1), ('a', 2), ('b', 1), ('a', 3)];
        assert_eq!(turns, expected);
    }

    #[test]
    fn thresholds_and_steps_are_good_journals_and_so_is_every_fifth_mix() {
        for number in 1..=600 {
            let good = match in_turn(&FAMILIES, number - 1) {
                (Family::Threshold, _) | (Family::Steps, _) => true,
                (Family::Mix, turn) => turn % 5 == 4,
                _ => continue,
            };
            let text = transcript(&journal(2, number));
            assert_eq!(text.ends_with("end 0\n"), good, "journal {number}");
        }
    }
}
