//! A journal of version 1 written as one of version 2.
//!
//! The records are read and written again, each by its own version's layout: no
//! byte of the journal is moved about here.

use crate::index::{self, Placed};
use crate::journal::{self, Opened, Record, Version, LARGEST, TOO_LARGE, WRONG_VERSION};
use crate::keeper::NO_DEVICE;
use crate::transcript::transcript_and_keeper;

/// The number that only a converter brings.
pub const ROOM_TOO_SHORT: u8 = 19;

/// What a room of so many bytes is given, from its first byte on; or the number
/// that refuses it.
pub fn convert(journal: &[u8], room: usize) -> Result<Vec<u8>, u8> {
    let records = index::records(journal)?;
    let Opened { version, start, .. } = journal::open(journal)?;
    if version != Version::One {
        return Err(WRONG_VERSION);
    }
    if records.iter().any(names_no_device) {
        return Err(NO_DEVICE);
    }
    let mut outcome = journal::header(Version::Two, start);
    for Placed { record, .. } in &records {
        record.write(Version::Two, &mut outcome);
    }
    if outcome.len() > LARGEST {
        return Err(TOO_LARGE);
    }
    if outcome.len() > room {
        return Err(ROOM_TOO_SHORT);
    }
    Ok(outcome)
}

/// Whether it is an event that version 1 answers 4. Version 2 may have such a
/// device, and would answer otherwise.
fn names_no_device(placed: &Placed) -> bool {
    match placed.record {
        Record::Device { device, .. } => device >= Version::One.devices(),
        _ => false,
    }
}

/// Whether two journals have the same transcript and leave the same keeper.
pub fn replay_alike(one: &[u8], other: &[u8]) -> bool {
    transcript_and_keeper(one) == transcript_and_keeper(other)
}

#[cfg(test)]
mod tests {
    use super::*;
    use crate::journal::{CUT_SHORT, HEADER, UNKNOWN_KIND, WRONG_MARK};
    use crate::keeper::TOO_LONG;
    use crate::maker::sized;
    use crate::random::Random;

    /// An event of device 2, and the same of version 2.
    const EVENT: [u8; 18] = [
        1, 7, 8, 9, 10, 2, 11, 12, 13, 14, 15, 16, 17, 18, 19, 20, 21, 22,
    ];
    const WIDER: [u8; 19] = [
        1, 7, 8, 9, 10, 2, 0, 11, 12, 13, 14, 15, 16, 17, 18, 19, 20, 21, 22,
    ];
    const READ: [u8; 7] = [5, 0, 0, 0, 0, 4, 0];
    /// Its bytes look like an event.
    const WRITE: [u8; 25] = [
        3, 1, 1, 1, 1, 18, 0, 1, 7, 8, 9, 10, 200, 11, 12, 13, 14, 15, 16, 17, 18, 19, 20, 21, 22,
    ];

    fn journal(version: Version, parts: &[&[u8]]) -> Vec<u8> {
        let mut journal = journal::header(version, &[0x5a; 48]);
        journal.extend(parts.concat());
        journal
    }

    fn event(device: u8) -> Vec<u8> {
        let mut event = EVENT.to_vec();
        event[5] = device;
        event
    }

    #[test]
    fn a_small_journal_by_hand() {
        let one = journal(Version::One, &[&EVENT, &WRITE, &READ, &EVENT]);
        let expected = [
            &b"NKJ\x02\x00"[..],
            &[0x5a; 48],
            &WIDER,
            &WRITE,
            &READ,
            &WIDER,
        ];
        assert_eq!(convert(&one, LARGEST), Ok(expected.concat()));
        assert_eq!(one.len() + 2, expected.concat().len());
    }

    #[test]
    fn without_events_only_the_version_changes() {
        for parts in [&[][..], &[&READ[..], &WRITE]] {
            let mut expected = journal(Version::One, parts);
            expected[3] = 2;
            let one = journal(Version::One, parts);
            assert_eq!(convert(&one, one.len()), Ok(expected));
        }
    }

    /// Reasons in the order in which they count. A journal has all those from one
    /// of them on.
    #[test]
    fn refusals_come_in_their_order() {
        let room = 0;
        // Over 61,440 bytes once it is converted.
        let mut many = journal(Version::One, &[]);
        while many.len() + EVENT.len() <= LARGEST {
            many.extend(EVENT);
        }
        let with = |bytes: &[u8]| [&many[..], bytes].concat();
        let mut foreign = many.clone();
        foreign[HEADER + 5] = 16;
        let mut two = foreign.clone();
        // As version 2 its records are other ones, but they may be whole too.
        two.truncate(HEADER);
        two[3] = 2;
        let cut = [&two[..], &EVENT[..18]].concat();

        assert_eq!(convert(&with(&[0; 100]), room), Err(TOO_LARGE));
        assert_eq!(convert(&cut, room), Err(CUT_SHORT));
        assert_eq!(convert(&[&two[..], &[9]].concat(), room), Err(UNKNOWN_KIND));
        let mut broken = foreign.clone();
        broken.push(77);
        assert_eq!(convert(&broken, room), Err(UNKNOWN_KIND));
        let long = [&foreign[..HEADER + 18], &[3, 0, 0, 0, 0, 1, 16]].concat();
        assert_eq!(convert(&long, room), Err(TOO_LONG));
        let mut marked = foreign.clone();
        marked[0] = b'n';
        assert_eq!(convert(&marked, room), Err(WRONG_MARK));
        for version in [0, 3, 255] {
            let mut wrong = foreign.clone();
            wrong[3] = version;
            assert_eq!(convert(&wrong, room), Err(WRONG_VERSION));
        }
        // All is well with it but for its version, its device and the room.
        let mut wider = WIDER;
        wider[6] = 3;
        let good = [&two[..], &wider].concat();
        assert_eq!(index::records(&good).map(|all| all.len()), Ok(1));
        assert_eq!(convert(&good, room), Err(WRONG_VERSION));
        assert_eq!(convert(&foreign, room), Err(NO_DEVICE));
        assert_eq!(convert(&many, room), Err(TOO_LARGE));
        let small = journal(Version::One, &[&EVENT]);
        assert_eq!(convert(&small, room), Err(ROOM_TOO_SHORT));
    }

    #[test]
    fn devices_up_to_15_and_no_others() {
        for device in 0..=255 {
            let one = journal(Version::One, &[&READ, &event(device), &READ]);
            let expected = if device < 16 { Ok(()) } else { Err(NO_DEVICE) };
            assert_eq!(convert(&one, LARGEST).map(|_| ()), expected, "{device}");
        }
        // Wherever it stands.
        for at in 0..5 {
            let events: Vec<Vec<u8>> = (0..5)
                .map(|i| event(if i == at { 16 } else { 15 }))
                .collect();
            let one = journal(Version::One, &[&events.concat()]);
            assert_eq!(convert(&one, LARGEST), Err(NO_DEVICE));
        }
    }

    #[test]
    fn the_room_may_have_just_the_bytes_of_the_outcome() {
        let one = journal(Version::One, &[&EVENT, &READ]);
        let outcome = convert(&one, usize::MAX).unwrap();
        for room in 0..outcome.len() {
            assert_eq!(convert(&one, room), Err(ROOM_TOO_SHORT));
        }
        assert_eq!(convert(&one, outcome.len()), Ok(outcome));
    }

    #[test]
    fn the_largest_outcome() {
        let random = &mut Random::new(1, 0);
        for (size, expected) in [
            (LARGEST - 2, Ok(LARGEST - 1)),
            (LARGEST - 1, Ok(LARGEST)),
            (LARGEST, Err(TOO_LARGE)),
        ] {
            let mut one = journal(Version::One, &[&EVENT]);
            sized::fill_with_large(random, &mut one, size);
            assert_eq!(one.len(), size);
            let length = convert(&one, usize::MAX).map(|outcome| outcome.len());
            assert_eq!(length, expected);
        }
        // 3,230 events are the most, with 17 bytes to spare.
        for (events, expected) in [(3_230, Ok(53 + 3_230 * 19)), (3_231, Err(TOO_LARGE))] {
            let one = journal(Version::One, &[&EVENT.repeat(events)]);
            let length = convert(&one, usize::MAX).map(|outcome| outcome.len());
            assert_eq!(length, expected);
        }
    }

    #[test]
    fn what_is_converted_replays_as_before() {
        let random = &mut Random::new(1, 1);
        let mut times = 0;
        for turn in 0..200 {
            let one = sized::of_records(random, Version::One, turn % 40);
            match convert(&one, LARGEST) {
                Ok(outcome) => {
                    assert!(replay_alike(&one, &outcome));
                    assert_eq!(convert(&outcome, LARGEST), Err(WRONG_VERSION));
                    times += 1;
                }
                Err(number) => assert_eq!(number, NO_DEVICE),
            }
        }
        assert!(times > 40, "{times}");
    }

    #[test]
    fn journals_that_replay_otherwise_are_told_apart() {
        let one = journal(Version::One, &[&READ]);
        assert!(replay_alike(&one, &one));
        // The same lines, but another keeper.
        let mut other = one.clone();
        other[20] ^= 1;
        assert_eq!(
            crate::transcript::transcript(&one),
            crate::transcript::transcript(&other)
        );
        assert!(!replay_alike(&one, &other));
        let longer = journal(Version::One, &[&READ, &READ]);
        assert!(!replay_alike(&one, &longer));
    }
}
