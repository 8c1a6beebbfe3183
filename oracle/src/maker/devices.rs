//! Events of every device there can be, and of every one there cannot.

use super::draft::Draft;
use crate::journal::Version;
use crate::random::Random;
use crate::situations::{BORDER_DEVICES, BORDER_REFUSALS};

/// An eighth of the 256 numbers in turn.
const SHARE: u32 = 32;

/// In the last of so many turns every device of version 2 has an event.
const ROUND: u64 = 16;

/// An eighth of the numbers of version 1, and the borders of version 2, in turn.
pub fn devices(random: &mut Random, turn: u64) -> Vec<u8> {
    let mut draft = match turn % 2 {
        0 => eighth(random, turn / 2),
        _ if turn % ROUND == ROUND - 1 => everyone(random),
        _ => borders(random, turn / 2),
    };
    draft.reveal(random);
    draft.blocking(8);
    draft.bytes
}

/// Besides the events of an eighth, each device has four, up to three of them
/// before it: what the others earn tells whether one that was refused had moved
/// a timer, or was counted.
fn eighth(random: &mut Random, turn: u64) -> Draft {
    let mut draft = Draft::of(random, Version::One);
    draft.credit(random, 300);
    let devices: Vec<u32> = (0..Version::One.devices()).collect();
    let first = turn as u32 % 8 * SHARE;
    four_of_each(&mut draft, random, &devices, turn, |draft, random| {
        for device in first..first + SHARE {
            any_event(draft, random, device);
        }
    });
    draft
}

/// The same at the borders of version 2. A field that is read too narrow takes
/// two of the devices for one, and a number that is refused for a device.
fn borders(random: &mut Random, turn: u64) -> Draft {
    let mut draft = Draft::of(random, Version::Two);
    draft.credit(random, 300);
    four_of_each(
        &mut draft,
        random,
        &BORDER_DEVICES,
        turn,
        |draft, random| {
            for device in BORDER_REFUSALS {
                any_event(draft, random, device);
            }
        },
    );
    for device in [16, 256, 512, 1_023] {
        draft.value_of_device_0(random, device);
    }
    draft
}

/// One event of each device, from any of them on. None of them earns.
fn everyone(random: &mut Random) -> Draft {
    let mut draft = Draft::of(random, Version::Two);
    let devices = Version::Two.devices();
    let first = draft.any_device(random);
    for device in first..first + devices {
        draft.worthy_event(random, device % devices);
    }
    draft
}

/// Four events of each device that are worth something. Of these none to three
/// come before what is to come in between.
fn four_of_each(
    draft: &mut Draft,
    random: &mut Random,
    devices: &[u32],
    turn: u64,
    in_between: impl Fn(&mut Draft, &mut Random),
) {
    let before = |at: usize| (at as u64 + turn) % 4;
    for (at, device) in devices.iter().enumerate() {
        for _ in 0..before(at) {
            draft.worthy_event(random, *device);
        }
    }
    in_between(draft, random);
    for (at, device) in devices.iter().enumerate() {
        for _ in before(at)..4 {
            draft.worthy_event(random, *device);
        }
    }
}

/// An event of a device, or of a number that none has, a little later.
fn any_event(draft: &mut Draft, random: &mut Random, device: u32) {
    let ticks = random.pick(&[1, 3, 100, 5_000]);
    draft.now = draft.now.wrapping_add(ticks);
    draft.device(random, device, draft.now);
}

#[cfg(test)]
mod tests {
    use super::*;
    use crate::situations::Situation::*;
    use crate::watch::Shown;

    #[test]
    fn sixteen_turns_show_all_devices_of_both_versions() {
        let mut shown = Shown::default();
        for turn in 16..32 {
            let journal = devices(&mut Random::new(6, turn), turn);
            let most = if turn == 31 { 20_000 } else { 2_048 };
            assert!(journal.len() < most, "turn {turn}: {}", journal.len());
            shown.add(&Shown::by(&journal));
        }
        let of_both = Version::ALL.map(|version| {
            [
                DeviceDone(version),
                DeviceRefused(version),
                EarnsFromTheFourthOn(version),
                RefusedDoesNotCount(version),
            ]
        });
        let others = [OtherDeviceDoesNotCount, LastValueOfDevice0Kept];
        for situation in of_both.into_iter().flatten().chain(others) {
            for device in situation.values() {
                assert!(shown.times(situation, device) > 0, "{situation}: {device}");
            }
        }
    }

    #[test]
    fn each_journal_of_the_borders_shows_them_all() {
        for turn in [1, 3, 5, 7, 9, 11, 13, 17, 19] {
            let shown = Shown::by(&devices(&mut Random::new(7, turn), turn));
            for situation in [
                DeviceRefused(Version::Two),
                EarnsFromTheFourthOn(Version::Two),
                RefusedDoesNotCount(Version::Two),
                OtherDeviceDoesNotCount,
                LastValueOfDevice0Kept,
            ] {
                for value in situation.values() {
                    assert!(shown.times(situation, value) > 0, "{situation}: {value}");
                }
            }
        }
    }
}
