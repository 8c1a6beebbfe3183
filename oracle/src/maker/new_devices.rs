//! Devices from their first event on: three earn nothing, whatever they are
//! worth, and the fourth is the first that earns.

use super::draft::Draft;
use super::HALF;
use crate::random::Random;

/// Each of five sorts in turn, and in each the places where something comes in
/// between.
pub fn new_devices(random: &mut Random, turn: u64) -> Vec<u8> {
    let mut draft = Draft::any(random);
    let round = turn / 5;
    match turn % 5 {
        0 => repeated_in_between(&mut draft, random, round % 3),
        1 => first_clocks(&mut draft, random),
        2 => two_in_turn(&mut draft, random),
        3 => seeding(&mut draft, random, round % 2 == 1),
        _ => worth_nothing(&mut draft, random),
    }
    draft.reveal(random);
    draft.bytes
}

/// So many devices that lie one behind the other, from any one on; behind the last
/// comes the first again.
fn neighbours(draft: &Draft, random: &mut Random, count: u32) -> Vec<u32> {
    let first = draft.any_device(random);
    let devices = draft.version.devices();
    (first..first + count)
        .map(|device| device % devices)
        .collect()
}

/// Five events of device 0. Before the one at this place, counted from 0, comes
/// a repeated one, and before others now and then.
fn repeated_in_between(draft: &mut Draft, random: &mut Random, place: u64) {
    for event in 0..5 {
        if event == place || random.one_in(3) {
            for _ in 0..random.between(1, 2) {
                draft.repeated(random);
            }
        }
        draft.worthy_event(random, 0);
    }
}

/// Five events of each of eleven devices, which begin at clocks whose
/// differences with zero are worth 1 bit, 2 bits and so on.
fn first_clocks(draft: &mut Draft, random: &mut Random) {
    for (bits, device) in (1..).zip(neighbours(draft, random, 11)) {
        let now = clock_worth(random, bits);
        draft.device(random, device, now);
        for _ in 0..4 {
            draft.worthy_event(random, device);
        }
    }
}

/// A clock whose difference with zero is worth so many bits; eleven are the
/// most that any is worth.
fn clock_worth(random: &mut Random, bits: u8) -> u32 {
    let least = 1 << bits;
    let most = match bits {
        11 => HALF - 1,
        _ => 2 * least - 1,
    };
    let ticks = random.between(least.into(), most.into()) as u32;
    random.pick(&[least, most, ticks, ticks.wrapping_neg()])
}

fn two_in_turn(draft: &mut Draft, random: &mut Random) {
    let devices = draft.version.devices();
    let one = draft.any_device(random);
    let other = (one + random.between(1, u64::from(devices) - 1) as u32) % devices;
    for _ in 0..5 {
        draft.worthy_event(random, one);
        draft.worthy_event(random, other);
    }
}

/// One bit more would seed the keeper, and three events leave it unseeded. So
/// does the fourth where it is to be worth nothing; the fifth then seeds it.
fn seeding(draft: &mut Draft, random: &mut Random, by_the_fifth: bool) {
    draft.just_unseeded(random);
    let device = draft.any_device(random);
    for _ in 0..3 {
        draft.worthy_event(random, device);
        draft.generator(draft.now, 1);
    }
    if by_the_fifth {
        draft.worthless_event(random, device);
    }
    draft.worthy_event(random, device);
}

/// Of three devices, the first, second or third event is worth nothing. It
/// counts all the same.
fn worth_nothing(draft: &mut Draft, random: &mut Random) {
    for (place, device) in neighbours(draft, random, 3).into_iter().enumerate() {
        for event in 0..5 {
            match event == place {
                true => draft.worthless_event(random, device),
                false => draft.worthy_event(random, device),
            }
        }
    }
}

#[cfg(test)]
mod tests {
    use super::*;
    use crate::journal::Version;
    use crate::situations::Situation::{self, *};
    use crate::watch::Shown;

    /// What each sort has to show in each of its journals, but for the place
    /// of what comes in between.
    const EACH: [&[(Situation, u32)]; 5] = [
        &[(Answer(7), 0), (KnownDeviceEarns, 5)],
        &[(FirstClockEarnsNothing, 1), (FirstClockEarnsNothing, 11)],
        &[(TwoDevicesInTurn, 0)],
        &[
            (NewDeviceDoesNotSeed, 1),
            (NewDeviceDoesNotSeed, 2),
            (NewDeviceDoesNotSeed, 3),
        ],
        &[
            (WorthNothingCounts, 1),
            (WorthNothingCounts, 2),
            (WorthNothingCounts, 3),
        ],
    ];

    #[test]
    fn each_journal_shows_what_its_sort_is_for() {
        for turn in 0..300 {
            let journal = new_devices(&mut Random::new(7, turn), turn);
            let shown = Shown::by(&journal);
            for (situation, value) in EACH[turn as usize % 5] {
                assert!(shown.times(*situation, *value) > 0, "turn {turn}");
            }
            if turn % 5 == 0 {
                let from_the_fourth = |version| shown.times(EarnsFromTheFourthOn(version), 0);
                let times: u64 = Version::ALL.map(from_the_fourth).iter().sum();
                assert!(times > 0, "turn {turn}");
            }
            let in_between = match (turn % 5, turn / 5) {
                (0, round) => (RepeatedDoesNotCount, round as u32 % 3),
                (3, round) => (KnownDeviceSeeds, 4 + round as u32 % 2),
                _ => (NewDeviceEarnsNothing, 3),
            };
            assert!(shown.times(in_between.0, in_between.1) > 0, "turn {turn}");
            assert!(journal.len() < 1_200);
        }
    }

    #[test]
    fn fifteen_turns_show_all_that_new_devices_bring() {
        let mut shown = Shown::default();
        for turn in 0..15 {
            let journal = new_devices(&mut Random::new(8, turn), turn);
            shown.add(&Shown::by(&journal));
        }
        for situation in [
            NewDeviceEarnsNothing,
            FirstClockEarnsNothing,
            KnownDeviceEarns,
            RepeatedDoesNotCount,
            WorthNothingCounts,
            TwoDevicesInTurn,
            NewDeviceDoesNotSeed,
            KnownDeviceSeeds,
        ] {
            for value in situation.values() {
                assert!(shown.times(situation, value) > 0, "{situation}: {value}");
            }
        }
    }
}
