//! The index beside a journal: where every 64th record begins, how many records
//! there are of each kind, and how many bytes the reads ask for.
//!
//! Everything is worked out by counting from the front. An index is right
//! exactly where it is what counting gives, so nothing here reads one.

use crate::journal::{self, Record};
use crate::keeper::TOO_LONG;

// The numbers that only an index brings.
pub const DIFFERS: u8 = 16;
pub const PAST_THE_LAST: u8 = 18;

pub const MARK: [u8; 3] = *b"NKI";
pub const VERSION: u16 = 1;
/// Records from one entry to the next.
pub const STEP: usize = 64;
/// Entries that the largest journal needs.
pub const PLACES: usize = 138;
pub const KINDS: usize = 6;
/// Record numbers that one look-up call takes.
pub const MOST_NUMBERS: usize = 64;

/// A record, and the byte of its journal at which it begins.
#[derive(Clone, Debug, PartialEq)]
pub struct Placed<'a> {
    pub place: usize,
    pub record: Record<'a>,
}

/// All records of a journal, or the number that ends its replay where that is
/// another than 0.
pub fn records(journal: &[u8]) -> Result<Vec<Placed<'_>>, u8> {
    let mut reading = journal::open(journal)?.records;
    let mut records = Vec::new();
    loop {
        let place = journal.len() - reading.rest().len();
        match reading.next() {
            Some(record) => records.push(Placed {
                place,
                record: record?,
            }),
            None => return Ok(records),
        }
    }
}

#[derive(Clone, Debug, Default, PartialEq)]
pub struct Index {
    /// The places of records 0, 64, 128 and so on, as many as there are.
    pub places: Vec<u32>,
    /// How many records there are of kinds 1 to 6.
    pub kinds: [u32; KINDS],
    /// The lengths of all reads, also of those that a keeper refuses.
    pub reads: u32,
}

/// The index worked out afresh from a journal.
pub fn fresh(journal: &[u8]) -> Result<Index, u8> {
    let mut index = Index::default();
    for (number, Placed { place, record }) in records(journal)?.iter().enumerate() {
        if number % STEP == 0 {
            index.places.push(*place as u32);
        }
        index.kinds[usize::from(record.kind()) - 1] += 1;
        index.reads += asked_for(record);
    }
    Ok(index)
}

/// The length that a read asks for.
fn asked_for(record: &Record) -> u32 {
    match record {
        Record::Generator { length, .. } | Record::Blocking { length, .. } => u32::from(*length),
        _ => 0,
    }
}

impl Index {
    /// How many records the journal has.
    pub fn records(&self) -> u32 {
        self.kinds.iter().sum()
    }
}

/// A form in which an index is kept. It differs from another index where its
/// form does.
pub trait Form: PartialEq {
    fn of(index: &Index) -> Self;
}

/// The bytes of a file.
#[derive(Clone, Debug, PartialEq)]
pub struct InFile(pub Vec<u8>);

impl Form for InFile {
    fn of(index: &Index) -> InFile {
        let mut bytes = MARK.to_vec();
        bytes.extend(VERSION.to_le_bytes());
        let numbers = index.kinds.iter().chain([&index.reads]);
        for number in numbers.chain(&index.places) {
            bytes.extend(number.to_le_bytes());
        }
        InFile(bytes)
    }
}

/// The numbers in memory, where there is room for all places. Those that are
/// not used are 0.
#[derive(Clone, Debug, PartialEq)]
pub struct InMemory {
    pub places: [u32; PLACES],
    pub kinds: [u32; KINDS],
    pub reads: u32,
}

impl Form for InMemory {
    fn of(index: &Index) -> InMemory {
        let mut places = [0; PLACES];
        places[..index.places.len()].copy_from_slice(&index.places);
        InMemory {
            places,
            kinds: index.kinds,
            reads: index.reads,
        }
    }
}

/// Refuses a journal that does not replay to its end, then an index that is not
/// this journal's.
fn test<F: Form>(journal: &[u8], kept: &F) -> Result<(), u8> {
    if F::of(&fresh(journal)?) == *kept {
        Ok(())
    } else {
        Err(DIFFERS)
    }
}

/// The longer journal and its index, or the number that refuses it.
pub fn append<F: Form>(journal: &[u8], kept: &F, more: &[u8]) -> Result<(Vec<u8>, F), u8> {
    test(journal, kept)?;
    let longer = [journal, more].concat();
    let index = fresh(&longer)?;
    Ok((longer, F::of(&index)))
}

/// For each number the record that has it, if any, or the number that refuses
/// them all.
pub fn look<'a, F: Form>(
    journal: &'a [u8],
    kept: &F,
    numbers: &[u64],
) -> Result<Vec<Option<Placed<'a>>>, u8> {
    test(journal, kept)?;
    if numbers.len() > MOST_NUMBERS {
        return Err(TOO_LONG);
    }
    let records = records(journal)?;
    let found = |number: &u64| {
        let number = usize::try_from(*number).ok()?;
        records.get(number).cloned()
    };
    Ok(numbers.iter().map(found).collect())
}

#[cfg(test)]
mod tests {
    use super::*;
    use crate::journal::{Records, Version, CUT_SHORT, HEADER, LARGEST, TOO_LARGE, UNKNOWN_KIND};
    use crate::maker::sized;
    use crate::random::Random;

    const READ: [u8; 7] = [5, 0, 0, 0, 0, 4, 0];
    const LONG_READ: [u8; 7] = [6, 0, 0, 0, 0, 255, 255];
    const EMPTY_WRITE: [u8; 7] = [3, 9, 0, 0, 0, 0, 0];
    const WRITE: [u8; 9] = [3, 9, 0, 0, 0, 2, 0, 0xaa, 0xbb];
    const SEED: [u8; 12] = [4, 9, 0, 0, 0, 1, 0, 8, 0, 0, 0, 0xcc];
    const EVENT: [u8; 18] = [1, 7, 0, 0, 0, 2, 3, 0, 0, 0, 0, 0, 0, 0, 4, 0, 0, 0];
    const INTERRUPT: [u8; 25] = [
        2, 7, 0, 0, 0, 1, 0, 0, 0, 2, 0, 0, 0, 0, 0, 0, 0, 3, 0, 0, 0, 0, 0, 0, 0,
    ];

    fn journal(parts: &[&[u8]]) -> Vec<u8> {
        let mut out = journal::header(Version::One, &[0; 48]);
        out.extend(parts.concat());
        out
    }

    /// 66 records: a read, 62 empty writes, then one of each other kind.
    fn by_hand() -> Vec<u8> {
        let mut parts: Vec<&[u8]> = vec![&READ];
        parts.extend([&EMPTY_WRITE[..]; 62]);
        parts.extend([&EVENT[..], &INTERRUPT, &LONG_READ]);
        journal(&parts)
    }

    #[test]
    fn the_index_of_a_journal_made_by_hand() {
        // Record 0 follows 53 bytes of header. 63 records of 7 bytes and one of
        // 18 stand before record 64: 53 + 441 + 18.
        let index = fresh(&by_hand()).unwrap();
        assert_eq!(index.places, [53, 512]);
        assert_eq!(index.kinds, [1, 1, 62, 0, 1, 1]);
        assert_eq!(index.reads, 4 + 65_535);
        assert_eq!(index.records(), 66);
    }

    #[test]
    fn a_journal_without_records_has_no_places() {
        assert_eq!(fresh(&journal(&[])), Ok(Index::default()));
        let InFile(file) = InFile::of(&Index::default());
        assert_eq!(file, [&b"NKI\x01\x00"[..], &[0; 28]].concat());
        let kept = InMemory::of(&Index::default());
        assert_eq!((kept.places, kept.kinds, kept.reads), ([0; 138], [0; 6], 0));
    }

    #[test]
    fn a_new_place_comes_with_records_0_64_and_128() {
        let mut journal = journal(&[]);
        for count in 1..200 {
            journal.extend(READ);
            let index = fresh(&journal).unwrap();
            let places: &[u32] = match count {
                1..=64 => &[53],
                65..=128 => &[53, 53 + 64 * 7],
                129..=192 => &[53, 53 + 64 * 7, 53 + 128 * 7],
                _ => &[53, 53 + 64 * 7, 53 + 128 * 7, 53 + 192 * 7],
            };
            assert_eq!(index.places, places, "{count} records");
            assert_eq!((index.records(), index.reads), (count, 4 * count));
        }
    }

    #[test]
    fn the_file_of_a_small_index() {
        let InFile(file) = InFile::of(&fresh(&by_hand()).unwrap());
        let expected: [&[u8]; 11] = [
            b"NKI",
            &[1, 0],
            &[1, 0, 0, 0],
            &[1, 0, 0, 0],
            &[62, 0, 0, 0],
            &[0, 0, 0, 0],
            &[1, 0, 0, 0],
            &[1, 0, 0, 0],
            &[3, 0, 1, 0],
            &[53, 0, 0, 0],
            &[0, 2, 0, 0],
        ];
        assert_eq!(file, expected.concat());
    }

    #[test]
    fn the_largest_journal_fills_all_places() {
        assert_eq!((LARGEST - HEADER) / READ.len(), 8_769);
        let journal = journal(&[&LONG_READ[..]; 8_769]);
        let index = fresh(&journal).unwrap();
        assert_eq!(index.places.len(), PLACES);
        assert_eq!(index.places[137], 53 + 137 * 64 * 7);
        assert_eq!(index.reads, 8_769 * 65_535);
        assert_eq!(index.records(), 8_769);
        assert!(InMemory::of(&index).places.iter().all(|place| *place > 0));
    }

    #[test]
    fn from_each_entry_the_same_records_are_reached_as_by_counting() {
        let random = &mut Random::new(3, 0);
        for version in Version::ALL {
            let journal = sized::of_records(random, version, 300);
            let index = fresh(&journal).unwrap();
            for (number, counted) in records(&journal).unwrap().iter().enumerate() {
                let entry = index.places[number / STEP] as usize;
                let mut reading = Records::new(version, &journal[entry..]);
                let found = reading.nth(number % STEP).unwrap();
                assert_eq!(found.as_ref(), Ok(&counted.record));
            }
        }
    }

    #[test]
    fn the_index_after_an_appending_is_the_longer_journals() {
        let random = &mut Random::new(4, 0);
        for version in Version::ALL {
            let mut journal = sized::of_records(random, version, 0);
            let mut kept = InFile::of(&fresh(&journal).unwrap());
            for count in [1, 0, 62, 1, 1, 63, 1, 5] {
                let more = sized::part(random, version, count);
                let (longer, index) = append(&journal, &kept, &more).unwrap();
                assert_eq!(longer, [&journal[..], &more].concat());
                assert_eq!(index, InFile::of(&fresh(&longer).unwrap()));
                (journal, kept) = (longer, index);
            }
            assert_eq!(fresh(&journal).unwrap().records(), 134);
        }
    }

    #[test]
    fn an_event_of_version_2_is_a_byte_longer_and_the_index_knows() {
        let mut journal = journal::header(Version::Two, &[0; 48]);
        for _ in 0..65 {
            let record = Record::Device {
                now: 7,
                device: 1_023,
                stamp: 3,
                value: 4,
            };
            record.write(Version::Two, &mut journal);
        }
        let index = fresh(&journal).unwrap();
        assert_eq!(index.places, [53, 53 + 64 * 19]);
        assert_eq!(index.kinds, [65, 0, 0, 0, 0, 0]);
        // The index's own version is not the journal's.
        let InFile(file) = InFile::of(&index);
        assert_eq!(file[..5], *b"NKI\x01\x00");
    }

    #[test]
    fn what_is_appended_is_read_in_the_journals_version() {
        let one = journal(&[]);
        let two = journal::header(Version::Two, &[0; 48]);
        let wider = [&EVENT[..6], &[0], &EVENT[6..]].concat();
        let number = |journal: &[u8], more: &[u8]| {
            let right = InFile::of(&fresh(journal).unwrap());
            append(journal, &right, more).err().unwrap_or(0)
        };
        assert_eq!(number(&one, &EVENT), 0);
        assert_eq!(number(&two, &wider), 0);
        assert_eq!(number(&two, &EVENT), CUT_SHORT);
        // 18 bytes are an event, and the last is the kind of another record.
        assert_eq!(number(&one, &wider), UNKNOWN_KIND);
    }

    #[test]
    fn a_look_finds_what_counting_finds() {
        let journal = by_hand();
        let kept = InFile::of(&fresh(&journal).unwrap());
        let found = look(&journal, &kept, &[65, 0, 63, 64, 66, 64, u64::MAX]).unwrap();
        let places: Vec<Option<usize>> = found
            .iter()
            .map(|f| f.as_ref().map(|placed| placed.place))
            .collect();
        let expected = [Some(537), Some(53), Some(494), Some(512), None];
        assert_eq!(places, [&expected[..], &[Some(512), None]].concat());
        let record = Record::Generator { now: 0, length: 4 };
        assert_eq!(found[1], Some(Placed { place: 53, record }));
        assert_eq!(look(&journal, &kept, &[]), Ok(vec![]));
    }

    /// A journal with a fault, an index that differs, and an appended part with
    /// a fault or a number too many: each alone, and all that come together.
    #[test]
    fn refusals_come_in_their_order() {
        let good = journal(&[&READ, &WRITE, &SEED]);
        let bad = journal(&[&READ, &WRITE, &SEED, &[7]]);
        let right = InFile::of(&fresh(&good).unwrap());
        let wrong = InFile(Vec::new());
        let fill = vec![READ; LARGEST / READ.len()].concat();
        let mores: [(&[u8], u8); 5] = [
            (&READ, 0),
            (&READ[..6], CUT_SHORT),
            (&[0], UNKNOWN_KIND),
            (&[3, 0, 0, 0, 0, 1, 16], TOO_LONG),
            (&fill, TOO_LARGE),
        ];
        for (more, number) in mores {
            let refused = |journal: &[u8], kept| append(journal, kept, more).err();
            assert_eq!(refused(&bad, &right), Some(UNKNOWN_KIND));
            assert_eq!(refused(&bad, &wrong), Some(UNKNOWN_KIND));
            assert_eq!(refused(&good, &wrong), Some(DIFFERS));
            assert_eq!(refused(&good, &right).unwrap_or(0), number);
        }
        for (count, number) in [(64, 0), (65, TOO_LONG)] {
            let numbers = vec![0; count];
            let refused = |journal, kept| look(journal, kept, &numbers).err();
            assert_eq!(refused(&bad, &right), Some(UNKNOWN_KIND));
            assert_eq!(refused(&bad, &wrong), Some(UNKNOWN_KIND));
            assert_eq!(refused(&good, &wrong), Some(DIFFERS));
            assert_eq!(refused(&good, &right).unwrap_or(0), number);
        }
    }

    #[test]
    fn what_does_not_fit_counts_before_what_is_wrong_in_it() {
        let good = journal(&[]);
        let right = InFile::of(&fresh(&good).unwrap());
        let refused = |more: &[u8]| append(&good, &right, more).err();
        let room = LARGEST - HEADER;
        assert_eq!(refused(&vec![0; room]), Some(UNKNOWN_KIND));
        assert_eq!(refused(&vec![0; room + 1]), Some(TOO_LARGE));
    }

    #[test]
    fn an_unused_place_that_is_not_0_differs() {
        let journal = by_hand();
        let right = InMemory::of(&fresh(&journal).unwrap());
        assert!(look(&journal, &right, &[0]).is_ok());
        for at in 0..PLACES {
            let mut wrong = right.clone();
            wrong.places[at] += 1;
            assert_eq!(look(&journal, &wrong, &[0]), Err(DIFFERS));
        }
        let InFile(file) = InFile::of(&fresh(&journal).unwrap());
        let wrong = InFile([&file[..], &[0; 4]].concat());
        assert_eq!(look(&journal, &wrong, &[0]), Err(DIFFERS));
    }
}
