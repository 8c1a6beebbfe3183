//! The replay of a journal, as text.

use crate::balance::{self, Counts};
use crate::journal::{self, Opened, Record, Version};
use crate::keeper::{Answer, Keeper, DONE, NO_DEVICE};
use crate::ledger::{Ledger, Sums};

/// Makes the call that a record of a journal stands for, and enters it in the
/// ledger that was begun with the keeper. Gives the answer and the bytes that were
/// delivered.
pub fn perform(
    version: Version,
    keeper: &mut Keeper,
    ledger: &mut Ledger,
    record: &Record,
) -> (Answer, Vec<u8>) {
    let (answer, bytes) = perform_in(version, keeper, record);
    ledger.hold(record, &answer, Counts::of(keeper));
    (answer, bytes)
}

/// A device that the version does not have is refused before the keeper hears of
/// it.
fn perform_in(version: Version, keeper: &mut Keeper, record: &Record) -> (Answer, Vec<u8>) {
    if let Record::Device { device, .. } = record {
        if *device >= version.devices() {
            return (Answer::refusal(NO_DEVICE), Vec::new());
        }
    }
    let mut room = vec![0; record.wanted()];
    let answer = perform_into(keeper, record, &mut room);
    room.truncate(answer.delivered);
    (answer, room)
}

/// The call alone, with the caller's own room, whose length is the read's.
/// Whatever is made, replayed or traced comes by here, so this is where the
/// counts are checked, also those of a keeper that was not fresh.
pub fn perform_into(keeper: &mut Keeper, record: &Record, room: &mut [u8]) -> Answer {
    let before = Counts::of(keeper);
    let answer = call(keeper, record, room);
    balance::check(before, record, &answer, Counts::of(keeper));
    answer
}

/// The same, unchecked.
pub fn call(keeper: &mut Keeper, record: &Record, room: &mut [u8]) -> Answer {
    match record {
        Record::Device {
            now,
            device,
            stamp,
            value,
        } => keeper.device_event(*device, *now, *stamp, *value),
        Record::Interrupt {
            now,
            number,
            stamp,
            address,
        } => keeper.interrupt(*now, *number, *stamp, *address),
        Record::Write { bytes, .. } => keeper.write(bytes),
        Record::Seed { now, credit, bytes } => keeper.seed(*now, bytes, *credit),
        Record::Generator { now, .. } => keeper.generator_read(*now, room),
        Record::Blocking { .. } => keeper.blocking_read(room),
    }
}

/// One record of a replay, with what it brought about.
pub struct Step<'a> {
    /// The journal's.
    pub version: Version,
    pub record: &'a Record<'a>,
    pub answer: Answer,
    /// What a read delivered.
    pub bytes: &'a [u8],
    /// The keeper after it, and what all calls came to up to here.
    pub keeper: &'a Keeper,
    pub sums: Sums,
}

/// How a replay ended.
pub struct Ending<'a> {
    pub number: u8,
    /// The journal's version and the keeper as it was left; none where the
    /// header ended it.
    pub left: Option<(Version, Keeper)>,
    /// The journal from the header or the record on that ended the replay;
    /// nothing where every record was replayed.
    pub rest: &'a [u8],
}

/// Replays a journal and shows each record once it is done.
pub fn replay<'a>(journal: &'a [u8], show: &mut dyn FnMut(Step)) -> Ending<'a> {
    let Opened {
        version,
        start,
        mut records,
    } = match journal::open(journal) {
        Ok(opened) => opened,
        Err(number) => {
            return Ending {
                number,
                left: None,
                rest: journal,
            }
        }
    };
    let mut keeper = Keeper::make(start).expect("a header that opens holds a whole start");
    let mut ledger = Ledger::new(version.devices());
    loop {
        let rest = records.rest();
        let record = match records.next().unwrap_or(Err(DONE)) {
            Ok(record) => record,
            Err(number) => {
                return Ending {
                    number,
                    left: Some((version, keeper)),
                    rest,
                }
            }
        };
        let (answer, bytes) = perform(version, &mut keeper, &mut ledger, &record);
        show(Step {
            version,
            record: &record,
            answer,
            bytes: &bytes,
            keeper: &keeper,
            sums: ledger.sums,
        });
    }
}

/// The whole transcript of a journal, its last line included.
pub fn transcript(journal: &[u8]) -> String {
    transcript_and_keeper(journal).0
}

/// The transcript, and the keeper that the replay leaves, if it made one.
pub fn transcript_and_keeper(journal: &[u8]) -> (String, Option<Keeper>) {
    let mut out = String::new();
    let ending = replay(journal, &mut |step| out += &line(&step));
    out += &format!("end {}\n", ending.number);
    (out, ending.left.map(|(_, keeper)| keeper))
}

/// What a journal's calls came to: the bits awarded, the bytes delivered, the two
/// sides of the bound, then what the input pool was given, has and gave, and what
/// the blocking pool was given and has.
pub fn sums(journal: &[u8]) -> String {
    let mut last = (Sums::default(), Counts::default());
    replay(journal, &mut |step| {
        last = (step.sums, Counts::of(step.keeper));
    });
    let (sums, counts) = last;
    let [delivered, awarded] = sums.sides();
    format!(
        "{} {} {delivered} {awarded} {} {} {} {} {}\n",
        sums.awarded,
        sums.delivered(),
        sums.input.added,
        counts.input,
        sums.input.taken,
        sums.blocking.added,
        counts.blocking
    )
}

fn line(step: &Step) -> String {
    let Step {
        answer,
        bytes,
        keeper,
        ..
    } = step;
    let mut line = format!(
        "{} {} {} {} {} {} {}",
        answer.number,
        answer.delivered,
        keeper.input.count,
        keeper.blocking.count,
        answer.blocks,
        answer.compressions,
        answer.added
    );
    if !bytes.is_empty() {
        line.push(' ');
        line += &journal::hex(bytes);
    }
    line.push('\n');
    line
}

#[cfg(test)]
mod tests {
    use super::*;
    use std::borrow::Cow;

    fn journal(version: Version, records: &[Record]) -> Vec<u8> {
        let mut out = journal::header(version, &[0; 48]);
        for record in records {
            record.write(version, &mut out);
        }
        out
    }

    fn event(device: u32, now: u32) -> Record<'static> {
        Record::Device {
            now,
            device,
            stamp: 5,
            value: now,
        }
    }

    #[test]
    fn the_two_line_transcript_in_both_versions() {
        for version in Version::ALL {
            let journal = journal(version, &[Record::Generator { now: 0, length: 4 }]);
            assert_eq!(transcript(&journal), "2 0 0 0 0 0 0\nend 0\n");
        }
    }

    #[test]
    fn a_bad_header_gives_one_line() {
        assert_eq!(transcript(b""), "end 8\n");
        assert_eq!(transcript(b"NKJ\x03\x00"), "end 9\n");
        assert_eq!(transcript(b"NKJ\x02\x00"), "end 10\n");
        assert_eq!(transcript(&[b'N'; 61_441]), "end 12\n");
    }

    #[test]
    fn p10_and_p11_as_a_transcript() {
        let journal = journal(
            Version::One,
            &[
                Record::Seed {
                    now: 0,
                    credit: 4_096,
                    bytes: Cow::Owned(vec![1; 512]),
                },
                Record::Blocking { now: 0, length: 16 },
                Record::Generator {
                    now: 0,
                    length: 4_097,
                },
            ],
        );
        let text = transcript(&journal);
        let lines: Vec<&str> = text.lines().collect();
        assert_eq!(lines.len(), 4);
        assert_eq!(lines[0], "0 0 17920 0 0 32 19968");
        let (numbers, hex) = lines[1].rsplit_once(' ').unwrap();
        assert_eq!(numbers, "0 12 16896 0 0 20 768");
        assert_eq!(hex.len(), 24);
        assert_eq!(lines[2], "3 0 16896 0 0 0 0");
        assert_eq!(lines[3], "end 0");
    }

    #[test]
    fn the_sums_of_a_journal() {
        let round = [
            Record::Seed {
                now: 0,
                credit: 128,
                bytes: Cow::Owned(vec![1; 16]),
            },
            Record::Blocking { now: 0, length: 12 },
        ];
        let key = [Record::Seed {
            now: 0,
            credit: 171,
            bytes: Cow::Owned(vec![1; 22]),
        }];
        for version in Version::ALL {
            let sums = |records: &[Record]| sums(&journal(version, records));
            assert_eq!(sums(&[]), "0 0 0 0 0 0 0 0 0\n");
            assert_eq!(sums(&round[..1]), "128 0 0 1152 768 768 0 0 0\n");
            assert_eq!(sums(&round), "128 9 1152 1152 768 0 12 576 0\n");
            let twice = [&round[..], &round].concat();
            assert_eq!(sums(&twice), "256 18 2304 2304 1536 0 24 1152 0\n");
            // Bytes taken for a key, and units left in both pools.
            let little = [Record::Blocking { now: 0, length: 1 }];
            let after = [&key, &round[..1], &little].concat();
            assert_eq!(sums(&after), "299 1 128 2691 1793 257 24 384 320\n");
        }
        // As far as it is replayed, which may be not at all.
        let mut broken = journal(Version::Two, &round);
        broken.push(9);
        assert_eq!(sums(&broken), "128 9 1152 1152 768 0 12 576 0\n");
        assert_eq!(sums(b"NKJ"), "0 0 0 0 0 0 0 0 0\n");
    }

    #[test]
    fn a_record_that_ends_the_replay_has_no_line() {
        for version in Version::ALL {
            let mut journal = journal(version, &[Record::Blocking { now: 0, length: 1 }]);
            journal.push(9);
            assert_eq!(transcript(&journal), "1 0 0 0 0 0 0\nend 11\n");
        }
    }

    /// The answers to events of these devices.
    fn answers(version: Version, devices: &[u32]) -> Vec<u8> {
        let records: Vec<Record> = devices.iter().map(|device| event(*device, 9)).collect();
        let mut answers = Vec::new();
        replay(&journal(version, &records), &mut |step| {
            answers.push(step.answer.number);
        });
        answers
    }

    #[test]
    fn devices_at_the_borders_of_each_version() {
        assert_eq!(answers(Version::One, &[0, 15, 16, 255]), [0, 0, 4, 4]);
        let devices = [0, 15, 16, 255, 256, 1_023, 1_024, 65_535];
        let expected = [0, 0, 0, 0, 0, 0, 4, 4];
        assert_eq!(answers(Version::Two, &devices), expected);
    }

    #[test]
    fn a_refused_device_leaves_no_mark() {
        for (version, refused) in [
            (Version::One, &[16, 17, 128, 255][..]),
            (Version::Two, &[1_024, 1_025, 65_535]),
        ] {
            let records: Vec<Record> = refused.iter().map(|device| event(*device, 9)).collect();
            let mut keepers = Vec::new();
            replay(&journal(version, &records), &mut |step| {
                assert_eq!(step.answer, Answer::refusal(NO_DEVICE));
                keepers.push(step.keeper.clone());
            });
            let fresh = Keeper::make(&[0; 48]).unwrap();
            assert_eq!(keepers, vec![fresh; refused.len()]);
        }
    }

    #[test]
    fn the_same_records_have_the_same_transcript_in_both_versions() {
        let mut records: Vec<Record> = (0..16)
            .flat_map(|device| [9, 80, 300, 900, 70].map(|now| event(device, now)))
            .collect();
        records.push(Record::Blocking { now: 0, length: 9 });
        records.push(Record::Generator { now: 0, length: 9 });
        let [one, two] = Version::ALL.map(|version| transcript(&journal(version, &records)));
        assert_eq!(one, two);
        assert!(one.lines().any(|line| line.len() > 30));
    }
}
