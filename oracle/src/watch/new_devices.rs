//! Sees what the events of devices show while these are new, and once they are
//! not. It counts the events itself, and does not ask the keeper.

use std::collections::BTreeSet;

use super::Fields;
use crate::credits::{credited, Credited};
use crate::journal::Version;
use crate::pools::INPUT;
use crate::situations::{Situation, Situation::*};

/// An event of a device that was kept.
struct Kept {
    device: u32,
    /// Which of its device's events it is, counted from 1.
    nth: u32,
    /// The bits that it is worth, earned or not.
    worth: u32,
    /// Whether these bits would raise the count.
    would_raise: bool,
    raised: bool,
}

impl Kept {
    fn is_new(&self) -> bool {
        self.nth <= 3
    }

    fn earns_nothing_though_worth_something(&self) -> bool {
        self.would_raise && !self.raised
    }

    /// Whether the count tells that the event earned because it was not one of
    /// the first three, or earned nothing because it was.
    fn shows_the_rule(&self) -> bool {
        match self.is_new() {
            true => self.earns_nothing_though_worth_something(),
            false => self.raised,
        }
    }
}

/// The events of all devices so far.
#[derive(Default)]
pub struct NewDevices {
    kept: Vec<Kept>,
    /// How many of device 0's events had been kept when one was repeated, for
    /// each that was.
    repeated_after: Vec<u32>,
    /// The device that a refused number has its low bits in common with, for each
    /// that was refused.
    refused_like: Vec<u32>,
}

impl NewDevices {
    pub fn refused(&mut self, version: Version, device: u32) {
        self.refused_like.push(device % version.devices());
    }

    pub fn repeated(&mut self) {
        self.repeated_after.push(self.came(0));
    }

    /// What an event shows that was kept.
    pub fn kept(
        &mut self,
        version: Version,
        device: u32,
        now: u32,
        before: &Fields,
        after: &Fields,
    ) -> Vec<(Situation, u32)> {
        let worth = before.timer.worth(now);
        let Credited { count, added } = credited(before.count, INPUT.size, worth);
        self.kept.push(Kept {
            device,
            nth: self.came(device) + 1,
            worth,
            would_raise: added > 0,
            raised: after.count != before.count,
        });
        let event = &self.kept[self.kept.len() - 1];
        let mut shown = match event.is_new() {
            true => self.by_a_new_device(version, event),
            false => self.by_a_known_device(version, event),
        };
        if event.is_new() && !before.seeded && worth > 0 && count >= 1_024 && !after.seeded {
            shown.push((NewDeviceDoesNotSeed, event.nth));
        }
        if after.seeded && !before.seeded {
            shown.push((KnownDeviceSeeds, event.nth));
        }
        if self.two_came_in_turn() {
            shown.push((TwoDevicesInTurn, 0));
        }
        shown
    }

    fn came(&self, device: u32) -> u32 {
        self.of(device).count() as u32
    }

    fn of(&self, device: u32) -> impl Iterator<Item = &Kept> {
        self.kept.iter().filter(move |kept| kept.device == device)
    }

    fn by_a_new_device(&self, version: Version, event: &Kept) -> Vec<(Situation, u32)> {
        let mut shown = Vec::new();
        if !event.shows_the_rule() {
            return shown;
        }
        shown.push((NewDeviceEarnsNothing, event.nth));
        if event.nth == 1 {
            shown.push((FirstClockEarnsNothing, event.worth));
        }
        // The third would be a fourth, had one more been counted.
        if event.nth == 3 && event.device == 0 {
            let after = self.repeated_after.iter();
            shown.extend(after.map(|came| (RepeatedDoesNotCount, *came)));
        }
        if event.nth == 3 {
            if self.refused_like.contains(&event.device) {
                shown.push((RefusedDoesNotCount(version), 0));
            }
            let others = self.distances_to_others(event.device);
            shown.extend(others.map(|distance| (OtherDeviceDoesNotCount, distance)));
        }
        shown
    }

    /// How far the other devices lie from this one of which an event was kept.
    fn distances_to_others(&self, device: u32) -> impl Iterator<Item = u32> {
        let devices = self
            .kept
            .iter()
            .map(move |kept| kept.device.abs_diff(device));
        let distances: BTreeSet<u32> = devices.filter(|distance| *distance > 0).collect();
        distances.into_iter()
    }

    fn by_a_known_device(&self, version: Version, event: &Kept) -> Vec<(Situation, u32)> {
        let mut shown = Vec::new();
        if !event.shows_the_rule() {
            return shown;
        }
        shown.push((KnownDeviceEarns, event.nth));
        if event.nth == 4 {
            let new = || self.of(event.device).filter(|kept| kept.is_new());
            // The fourth would be a third, had one less been counted.
            let worth_nothing = new().filter(|kept| kept.worth == 0);
            shown.extend(worth_nothing.map(|kept| (WorthNothingCounts, kept.nth)));
            if new().any(|kept| kept.nth == 3 && kept.shows_the_rule()) {
                shown.push((EarnsFromTheFourthOn(version), event.device));
            }
        }
        shown
    }

    /// Whether the last eight events are the first four of two devices in turn.
    fn two_came_in_turn(&self) -> bool {
        let from = match self.kept.len().checked_sub(8) {
            Some(from) => from,
            None => return false,
        };
        let eight = &self.kept[from..];
        let devices = [eight[0].device, eight[1].device];
        devices[0] != devices[1]
            && eight.chunks(2).zip(1..).all(|(pair, nth)| {
                let expected = |kept: &Kept, device| kept.device == device && kept.nth == nth;
                pair.iter()
                    .zip(devices)
                    .all(|(kept, device)| expected(kept, device) && kept.shows_the_rule())
            })
    }
}

#[cfg(test)]
mod tests {
    use crate::journal::{self, Record, Version};
    use crate::situations::{Situation, Situation::*};
    use crate::watch::Shown;
    use std::borrow::Cow;

    /// Clocks at which each of five events is worth something, the first 4 bits.
    const FIVE: [u32; 5] = [16, 80, 300, 800, 3_000];

    fn event(device: u32, now: u32) -> Record<'static> {
        event_of(device, now, now + 1)
    }

    fn event_of(device: u32, now: u32, value: u32) -> Record<'static> {
        Record::Device {
            now,
            device,
            stamp: 1,
            value,
        }
    }

    fn seed(credit: u32) -> Record<'static> {
        Record::Seed {
            now: 0,
            credit,
            bytes: Cow::Owned(vec![9; 4_096]),
        }
    }

    fn five(device: u32) -> [Record<'static>; 5] {
        FIVE.map(|now| event(device, now))
    }

    fn shown(version: Version, records: &[Record]) -> Shown {
        let mut journal = journal::header(version, &[7; 48]);
        for record in records {
            record.write(version, &mut journal);
        }
        Shown::by(&journal)
    }

    /// The values at which a situation comes up, the same in both versions.
    fn values(records: &[Record], situation: Situation) -> Vec<u32> {
        let [one, two] = Version::ALL.map(|version| values_in(version, records, situation));
        assert_eq!(one, two);
        one
    }

    fn values_in(version: Version, records: &[Record], situation: Situation) -> Vec<u32> {
        let shown = shown(version, records);
        let came_up = |value: &u32| shown.times(situation, *value) > 0;
        (0..=1_023).filter(came_up).collect()
    }

    #[test]
    fn the_first_five_events_of_a_device() {
        for device in [0, 7, 15] {
            let events = five(device);
            for (count, new, known) in [
                (1, &[1][..], &[][..]),
                (3, &[1, 2, 3], &[]),
                (4, &[1, 2, 3], &[4]),
                (5, &[1, 2, 3], &[4, 5]),
            ] {
                let events = &events[..count];
                assert_eq!(values(events, NewDeviceEarnsNothing), new);
                assert_eq!(values(events, KnownDeviceEarns), known);
                let from_the_fourth = if count < 4 { vec![] } else { vec![device] };
                for version in Version::ALL {
                    let situation = EarnsFromTheFourthOn(version);
                    let values = values_in(version, events, situation);
                    assert_eq!(values, from_the_fourth);
                }
            }
            assert_eq!(values(&events, FirstClockEarnsNothing), [4]);
            assert_eq!(values(&events, TwoDevicesInTurn), []);
            assert_eq!(values(&events, WorthNothingCounts), []);
        }
    }

    #[test]
    fn events_that_show_nothing() {
        // Worth nothing by their differences.
        let same = [event(3, 1), event(3, 1), event(3, 1), event(3, 1)];
        assert_eq!(values(&same, NewDeviceEarnsNothing), []);
        assert_eq!(values(&same, KnownDeviceEarns), []);
        // On a pool so full that a credit adds nothing.
        let mut full = vec![seed(32_768), seed(32_768)];
        full.extend(five(3));
        for situation in [NewDeviceEarnsNothing, KnownDeviceEarns] {
            assert_eq!(values(&full, situation), []);
        }
    }

    #[test]
    fn clocks_of_first_events() {
        for (now, worth) in [
            (1, &[][..]),
            (2, &[1]),
            (1_024, &[10]),
            (u32::MAX - 4_095, &[11]),
        ] {
            let event = event_of(1, now, 1);
            assert_eq!(values(&[event], FirstClockEarnsNothing), worth);
        }
    }

    #[test]
    fn repeated_events_in_between() {
        for place in 0..5 {
            let mut events = five(0).to_vec();
            let value = match place {
                0 => 0,
                _ => FIVE[place - 1] + 1,
            };
            events.insert(place, event_of(0, 9_999, value));
            let expected = if place < 3 {
                vec![place as u32]
            } else {
                vec![]
            };
            assert_eq!(values(&events, Answer(7)), [0]);
            assert_eq!(values(&events, RepeatedDoesNotCount), expected);
            // On its own it is no third event, nor is that of another device.
            assert_eq!(values(&events[..3], RepeatedDoesNotCount), []);
            events.retain(|record| !five(0)[2..].contains(record));
            events.extend(five(1));
            assert_eq!(values(&events, RepeatedDoesNotCount), []);
        }
    }

    #[test]
    fn refused_events_in_between() {
        for (version, refused, times) in [
            (Version::One, 16 + 3, 1),
            (Version::One, 255, 0),
            (Version::One, 3, 0),
            (Version::Two, 1_024 + 3, 1),
            (Version::Two, 63 * 1_024 + 3, 1),
            (Version::Two, 16 + 3, 0),
            (Version::Two, 65_535, 0),
        ] {
            let mut events = five(3).to_vec();
            events.insert(2, event(refused, 9_999));
            let situation = RefusedDoesNotCount(version);
            let times = &[0][..times];
            assert_eq!(values_in(version, &events, situation), times);
            let other = RefusedDoesNotCount(version.other());
            assert_eq!(values_in(version, &events, other), []);
        }
        let mut after = five(3).to_vec();
        after.insert(3, event(16 + 3, 9_999));
        let situation = RefusedDoesNotCount(Version::One);
        assert_eq!(values_in(Version::One, &after, situation), []);
    }

    #[test]
    fn events_of_other_devices_in_between() {
        let values = |events: &[Record]| values_in(Version::Two, events, OtherDeviceDoesNotCount);
        for other in [3 + 256, 3 + 16, 4, 3 + 512] {
            let mut events = five(3).to_vec();
            events.insert(2, event(other, 9_999));
            assert_eq!(values(&events), [other - 3]);
            // After the third it shows nothing, nor does one that is refused.
            assert_eq!(values(&events[..3]), []);
            events.swap(2, 3);
            assert_eq!(values(&events), []);
            events[3] = event(3, FIVE[2]);
            events[2] = event(3 + 1_024, 9_999);
            assert_eq!(values(&events), []);
        }
    }

    #[test]
    fn events_worth_nothing_among_the_first_three() {
        for place in 0..3 {
            let mut events = five(3).to_vec();
            let before = if place == 0 { 1 } else { FIVE[place - 1] };
            events.insert(place, event(3, before));
            let nth = [place as u32 + 1];
            assert_eq!(values(&events[..4], WorthNothingCounts), nth);
            assert_eq!(values(&events[..3], WorthNothingCounts), []);
        }
    }

    #[test]
    fn two_devices_in_turn() {
        let in_turn = |a: u32, b: u32| -> Vec<Record> {
            FIVE.iter()
                .flat_map(|now| [event(a, *now), event(b, *now)])
                .collect()
        };
        let events = in_turn(2, 9);
        assert_eq!(values(&events, TwoDevicesInTurn), [0]);
        assert_eq!(values(&events[..8], TwoDevicesInTurn), [0]);
        assert_eq!(values(&events[..7], TwoDevicesInTurn), []);
        // One after the other, one more in between, or one that came before.
        assert_eq!(values(&[five(2), five(9)].concat(), TwoDevicesInTurn), []);
        let mut more = events.clone();
        more.insert(5, event(4, 1));
        assert_eq!(values(&more, TwoDevicesInTurn), []);
        let mut before = events;
        before.insert(0, event(9, 1));
        assert_eq!(values(&before, TwoDevicesInTurn), []);
    }

    #[test]
    fn first_seedings() {
        let mut events = vec![seed(170)];
        events.extend(five(6));
        assert_eq!(values(&events, NewDeviceDoesNotSeed), [1, 2, 3]);
        assert_eq!(values(&events, KnownDeviceSeeds), [4]);
        // A fourth that is worth nothing leaves it to the fifth.
        events.insert(4, event(6, FIVE[2]));
        assert_eq!(values(&events, KnownDeviceSeeds), [5]);
        // Too little to seed, or seeded before.
        events[0] = seed(150);
        assert_eq!(values(&events, NewDeviceDoesNotSeed), []);
        events[0] = seed(171);
        assert_eq!(values(&events, NewDeviceDoesNotSeed), []);
        assert_eq!(values(&events, KnownDeviceSeeds), []);
    }
}
