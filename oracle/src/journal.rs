//! The journal: its header, its records, reading and writing both. What its
//! versions have not in common stands in `Version`, and nowhere else.

use std::borrow::Cow;
use std::fmt;

use crate::keeper::{DEVICES, LONGEST, START, TOO_LONG};

// The numbers that only a replay ends with.
pub const WRONG_MARK: u8 = 8;
pub const WRONG_VERSION: u8 = 9;
pub const CUT_SHORT: u8 = 10;
pub const UNKNOWN_KIND: u8 = 11;
pub const TOO_LARGE: u8 = 12;

pub const MARK: [u8; 3] = *b"NKJ";
/// Mark, version and start bytes.
pub const HEADER: usize = MARK.len() + 2 + START;
/// The largest journal that is replayed.
pub const LARGEST: usize = 61_440;

/// The versions that are replayed.
#[derive(Clone, Copy, Debug, PartialEq, Eq, PartialOrd, Ord)]
pub enum Version {
    One,
    Two,
}

impl Version {
    pub const ALL: [Version; 2] = [Version::One, Version::Two];

    /// Both again and again.
    pub fn in_turn() -> impl Iterator<Item = Version> {
        Version::ALL.into_iter().cycle()
    }

    pub fn number(self) -> u16 {
        match self {
            Version::One => 1,
            Version::Two => 2,
        }
    }

    /// The bytes that stand behind the mark.
    pub fn field(self) -> [u8; 2] {
        self.number().to_le_bytes()
    }

    /// The version that a header names; the mark and the start are not looked at.
    pub fn of(journal: &[u8]) -> Option<Version> {
        let field = journal.get(MARK.len()..MARK.len() + 2)?;
        Version::ALL.into_iter().find(|v| v.field() == field)
    }

    pub fn other(self) -> Version {
        match self {
            Version::One => Version::Two,
            Version::Two => Version::One,
        }
    }

    /// The bytes that an event's device takes.
    pub fn device_bytes(self) -> usize {
        match self {
            Version::One => 1,
            Version::Two => 2,
        }
    }

    /// How many devices its events may name, from 0 on. The keeper has more than
    /// there were when version 1 was written, but its journals replay as ever.
    pub const fn devices(self) -> u32 {
        match self {
            Version::One => 16,
            Version::Two => DEVICES as u32,
        }
    }

    /// The greatest number that its device field holds.
    pub fn last_number(self) -> u32 {
        match self {
            Version::One => u8::MAX.into(),
            Version::Two => u16::MAX.into(),
        }
    }
}

#[derive(Clone, Debug, PartialEq)]
pub enum Record<'a> {
    Device {
        now: u32,
        /// As wide as a call takes it; a journal's field is narrower.
        device: u32,
        stamp: u64,
        value: u32,
    },
    Interrupt {
        now: u32,
        number: u32,
        stamp: u64,
        address: u64,
    },
    Write {
        now: u32,
        bytes: Cow<'a, [u8]>,
    },
    Seed {
        now: u32,
        credit: u32,
        bytes: Cow<'a, [u8]>,
    },
    Generator {
        now: u32,
        length: u16,
    },
    Blocking {
        now: u32,
        length: u16,
    },
}

/// A journal whose header is good.
pub struct Opened<'a> {
    pub version: Version,
    pub start: &'a [u8],
    pub records: Records<'a>,
}

/// Tests the header. Gives what it holds and the records after it, or the
/// number that ends the replay before its first record.
pub fn open(journal: &[u8]) -> Result<Opened<'_>, u8> {
    if journal.len() > LARGEST {
        return Err(TOO_LARGE);
    }
    let rest = journal.strip_prefix(&MARK).ok_or(WRONG_MARK)?;
    let (_, rest) = split(rest, 2)?;
    let version = Version::of(journal).ok_or(WRONG_VERSION)?;
    let (start, rest) = split(rest, START)?;
    Ok(Opened {
        version,
        start,
        records: Records::new(version, rest),
    })
}

/// The first bytes of a part of the journal and what comes after them, or
/// the number for a journal cut short where there are not so many.
fn split(part: &[u8], length: usize) -> Result<(&[u8], &[u8]), u8> {
    if length > part.len() {
        return Err(CUT_SHORT);
    }
    Ok(part.split_at(length))
}

/// The records of a journal in their order. An `Err` holds the number that
/// ends the replay and is the last item.
pub struct Records<'a> {
    version: Version,
    rest: &'a [u8],
}

impl<'a> Records<'a> {
    pub fn new(version: Version, rest: &'a [u8]) -> Records<'a> {
        Records { version, rest }
    }

    /// What has not been read yet.
    pub fn rest(&self) -> &'a [u8] {
        self.rest
    }
}

impl<'a> Iterator for Records<'a> {
    type Item = Result<Record<'a>, u8>;

    fn next(&mut self) -> Option<Self::Item> {
        if self.rest.is_empty() {
            return None;
        }
        let mut fields = Fields { rest: self.rest };
        let record = fields.record(self.version);
        self.rest = if record.is_ok() { fields.rest } else { &[] };
        Some(record)
    }
}

/// Takes fields off the front of what is left of a journal.
struct Fields<'a> {
    rest: &'a [u8],
}

impl<'a> Fields<'a> {
    fn take<const N: usize>(&mut self) -> Result<[u8; N], u8> {
        let (bytes, rest) = split(self.rest, N)?;
        self.rest = rest;
        let mut field = [0; N];
        field.copy_from_slice(bytes);
        Ok(field)
    }

    fn u8(&mut self) -> Result<u8, u8> {
        self.take().map(u8::from_le_bytes)
    }

    fn u16(&mut self) -> Result<u16, u8> {
        self.take().map(u16::from_le_bytes)
    }

    fn u32(&mut self) -> Result<u32, u8> {
        self.take().map(u32::from_le_bytes)
    }

    fn u64(&mut self) -> Result<u64, u8> {
        self.take().map(u64::from_le_bytes)
    }

    fn device(&mut self, version: Version) -> Result<u32, u8> {
        match version {
            Version::One => self.u8().map(u32::from),
            Version::Two => self.u16().map(u32::from),
        }
    }

    /// The bytes of a write or seed, a part of the journal itself. A length
    /// out of bounds counts before bytes that are missing.
    fn bytes(&mut self, length: u16) -> Result<Cow<'a, [u8]>, u8> {
        let length = usize::from(length);
        if length > LONGEST {
            return Err(TOO_LONG);
        }
        let (bytes, rest) = split(self.rest, length)?;
        self.rest = rest;
        Ok(Cow::Borrowed(bytes))
    }

    fn record(&mut self, version: Version) -> Result<Record<'a>, u8> {
        let kind = self.u8()?;
        if !(1..=6).contains(&kind) {
            return Err(UNKNOWN_KIND);
        }
        let now = self.u32()?;
        Ok(match kind {
            1 => Record::Device {
                now,
                device: self.device(version)?,
                stamp: self.u64()?,
                value: self.u32()?,
            },
            2 => Record::Interrupt {
                now,
                number: self.u32()?,
                stamp: self.u64()?,
                address: self.u64()?,
            },
            3 => {
                let length = self.u16()?;
                let bytes = self.bytes(length)?;
                Record::Write { now, bytes }
            }
            4 => {
                let length = self.u16()?;
                let credit = self.u32()?;
                let bytes = self.bytes(length)?;
                Record::Seed { now, credit, bytes }
            }
            5 => Record::Generator {
                now,
                length: self.u16()?,
            },
            _ => Record::Blocking {
                now,
                length: self.u16()?,
            },
        })
    }
}

/// The header of a good journal with these start bytes.
pub fn header(version: Version, start: &[u8]) -> Vec<u8> {
    let mut out = MARK.to_vec();
    out.extend(version.field());
    out.extend(start);
    out
}

impl Record<'_> {
    /// The byte that the record opens with.
    pub fn kind(&self) -> u8 {
        match self {
            Record::Device { .. } => 1,
            Record::Interrupt { .. } => 2,
            Record::Write { .. } => 3,
            Record::Seed { .. } => 4,
            Record::Generator { .. } => 5,
            Record::Blocking { .. } => 6,
        }
    }

    /// The bytes that a read asks for; a call that reads nothing asks for none.
    pub fn wanted(&self) -> usize {
        match self {
            Record::Generator { length, .. } | Record::Blocking { length, .. } => (*length).into(),
            _ => 0,
        }
    }

    /// Puts the record at the end of a journal of this version. A device or
    /// bytes that no field can hold are a mistake of the caller.
    pub fn write(&self, version: Version, out: &mut Vec<u8>) {
        let length = |bytes: &[u8]| u16::try_from(bytes.len()).expect("too many bytes");
        out.push(self.kind());
        match self {
            Record::Device {
                now,
                device,
                stamp,
                value,
            } => {
                out.extend(now.to_le_bytes());
                assert!(*device <= version.last_number(), "no field holds {device}");
                out.extend(&device.to_le_bytes()[..version.device_bytes()]);
                out.extend(stamp.to_le_bytes());
                out.extend(value.to_le_bytes());
            }
            Record::Interrupt {
                now,
                number,
                stamp,
                address,
            } => {
                out.extend(now.to_le_bytes());
                out.extend(number.to_le_bytes());
                out.extend(stamp.to_le_bytes());
                out.extend(address.to_le_bytes());
            }
            Record::Write { now, bytes } => {
                out.extend(now.to_le_bytes());
                out.extend(length(bytes).to_le_bytes());
                out.extend_from_slice(bytes);
            }
            Record::Seed { now, credit, bytes } => {
                out.extend(now.to_le_bytes());
                out.extend(length(bytes).to_le_bytes());
                out.extend(credit.to_le_bytes());
                out.extend_from_slice(bytes);
            }
            Record::Generator { now, length } => {
                out.extend(now.to_le_bytes());
                out.extend(length.to_le_bytes());
            }
            Record::Blocking { now, length } => {
                out.extend(now.to_le_bytes());
                out.extend(length.to_le_bytes());
            }
        }
    }

    pub fn to_bytes(&self, version: Version) -> Vec<u8> {
        let mut out = Vec::new();
        self.write(version, &mut out);
        out
    }
}

/// Lowercase hex.
pub fn hex(bytes: &[u8]) -> String {
    bytes.iter().map(|b| format!("{b:02x}")).collect()
}

/// The hex of bytes as a word of a line, which is never empty.
pub fn hex_word(bytes: &[u8]) -> String {
    match bytes {
        [] => "-".to_owned(),
        bytes => hex(bytes),
    }
}

/// Hex for a reader's eye: long bytes are broken off.
fn short_hex(bytes: &[u8]) -> String {
    const SHOWN: usize = 48;
    if bytes.len() <= SHOWN {
        hex(bytes)
    } else {
        format!("{}..", hex(&bytes[..SHOWN]))
    }
}

impl fmt::Display for Record<'_> {
    fn fmt(&self, f: &mut fmt::Formatter<'_>) -> fmt::Result {
        match self {
            Record::Device {
                now,
                device,
                stamp,
                value,
            } => write!(
                f,
                "device event    now {now} device {device} stamp {stamp:#x} value {value:#x}"
            ),
            Record::Interrupt {
                now,
                number,
                stamp,
                address,
            } => write!(
                f,
                "interrupt       now {now} number {number:#x} stamp {stamp:#x} address {address:#x}"
            ),
            Record::Write { now, bytes } => {
                let length = bytes.len();
                let bytes = short_hex(bytes);
                write!(f, "write           now {now} length {length} bytes {bytes}")
            }
            Record::Seed { now, credit, bytes } => {
                let length = bytes.len();
                let bytes = short_hex(bytes);
                write!(
                    f,
                    "seed            now {now} length {length} credit {credit} bytes {bytes}"
                )
            }
            Record::Generator { now, length } => {
                write!(f, "generator read  now {now} length {length}")
            }
            Record::Blocking { now, length } => {
                write!(f, "blocking read   now {now} length {length}")
            }
        }
    }
}

/// A readable listing of a journal, damaged or not.
pub fn listing(journal: &[u8]) -> String {
    let mut out = format!("{} bytes\n", journal.len());
    let Opened {
        version,
        start,
        mut records,
    } = match open(journal) {
        Ok(opened) => opened,
        Err(number) => {
            out += &format!(
                "header: {}\n",
                short_hex(&journal[..journal.len().min(HEADER)])
            );
            out += &format!("ends with {number} at the header\n");
            return out;
        }
    };
    out += &format!("version {}, start {}\n", version.number(), hex(start));
    let mut line = 1;
    loop {
        let at = journal.len() - records.rest().len();
        match records.next() {
            Some(Ok(record)) => out += &format!("{line:4} at {at:5}  {record}\n"),
            Some(Err(number)) => {
                out += &format!("{line:4} at {at:5}  {}\n", short_hex(&journal[at..]));
                out += &format!("ends with {number} at byte {at}\n");
                return out;
            }
            None => {
                out += "ends with 0\n";
                return out;
            }
        }
        line += 1;
    }
}

#[cfg(test)]
mod tests {
    use super::*;

    fn event(device: u32) -> Record<'static> {
        Record::Device {
            now: 0x0102_0304,
            device,
            stamp: 0x1112_1314_1516_1718,
            value: 0x2122_2324,
        }
    }

    fn one_of_each() -> Vec<Record<'static>> {
        vec![
            event(5),
            Record::Interrupt {
                now: 1,
                number: 2,
                stamp: 3,
                address: 4,
            },
            Record::Write {
                now: 1,
                bytes: Cow::Borrowed(&[7, 8, 9]),
            },
            Record::Seed {
                now: 1,
                credit: 24,
                bytes: Cow::Borrowed(&[7, 8, 9]),
            },
            Record::Generator { now: 1, length: 4 },
            Record::Blocking {
                now: 1,
                length: 65_535,
            },
        ]
    }

    fn journal(version: Version, records: &[Record]) -> Vec<u8> {
        let mut out = header(version, &[1; START]);
        for record in records {
            record.write(version, &mut out);
        }
        out
    }

    fn ending(journal: &[u8]) -> u8 {
        match open(journal) {
            Err(number) => number,
            Ok(mut opened) => opened.records.find_map(Result::err).unwrap_or(0),
        }
    }

    #[test]
    fn what_is_written_is_read_back() {
        for version in Version::ALL {
            let mut records = one_of_each();
            let last = version.last_number();
            records.extend([0, 15, 16, 255, last].map(event));
            let journal = journal(version, &records);
            let opened = open(&journal).unwrap();
            assert_eq!((opened.version, opened.start), (version, &[1; START][..]));
            let read: Vec<Record> = opened.records.map(Result::unwrap).collect();
            assert_eq!(read, records);
        }
    }

    #[test]
    fn layout_of_a_device_event() {
        let stamp_and_value = "1817161514131211".to_owned() + "24232221";
        let laid_out = |device, version| hex(&event(device).to_bytes(version));
        assert_eq!(
            laid_out(5, Version::One),
            "010403020105".to_owned() + &stamp_and_value
        );
        assert_eq!(
            laid_out(5, Version::Two),
            "01040302010500".to_owned() + &stamp_and_value
        );
        assert_eq!(
            laid_out(0x03fe, Version::Two),
            "0104030201fe03".to_owned() + &stamp_and_value
        );
    }

    #[test]
    fn the_versions_differ_in_their_number_and_in_the_device_alone() {
        let [one, two] = Version::ALL.map(|version| journal(version, &one_of_each()));
        assert_eq!(one[3..5], [1, 0]);
        assert_eq!(two[3..5], [2, 0]);
        let at = HEADER + 1 + 4 + 1;
        assert_eq!(two[at], 0);
        assert_eq!(one[5..at], two[5..at]);
        assert_eq!(one[at..], two[at + 1..]);
    }

    #[test]
    fn bytes_are_lent_not_copied() {
        for version in Version::ALL {
            let journal = journal(version, &one_of_each());
            for record in open(&journal).unwrap().records {
                if let Record::Write { bytes, .. } | Record::Seed { bytes, .. } = record.unwrap() {
                    assert!(matches!(bytes, Cow::Borrowed(_)));
                }
            }
        }
    }

    #[test]
    fn every_cut_ends_with_its_number() {
        for version in Version::ALL {
            let records = one_of_each();
            let whole = journal(version, &records);
            let mut bounds = vec![HEADER];
            for record in &records {
                bounds.push(bounds.last().unwrap() + record.to_bytes(version).len());
            }
            for cut in 0..=whole.len() {
                let expected = match cut {
                    0..=2 => WRONG_MARK,
                    _ if bounds.contains(&cut) => 0,
                    _ => CUT_SHORT,
                };
                assert_eq!(ending(&whole[..cut]), expected, "cut at {cut}");
            }
        }
    }

    #[test]
    fn order_of_the_tests() {
        let mut large = vec![0; LARGEST + 1];
        assert_eq!(ending(&large), TOO_LARGE);
        large.pop();
        assert_eq!(ending(&large), WRONG_MARK);
        assert_eq!(ending(b"NKX"), WRONG_MARK);
        assert_eq!(ending(b"NKX\x02\x00"), WRONG_MARK);
        assert_eq!(ending(b"NKJ\x03"), CUT_SHORT);
        assert_eq!(ending(b"NKJ\x01\x00"), CUT_SHORT);
        assert_eq!(ending(b"NKJ\x02\x00"), CUT_SHORT);

        for version in Version::ALL {
            let good = journal(version, &one_of_each());
            let after = |tail: &[u8]| ending(&[&good[..HEADER], tail].concat());
            assert_eq!(after(&[0]), UNKNOWN_KIND);
            assert_eq!(after(&[7]), UNKNOWN_KIND);
            assert_eq!(after(&[3, 0, 0, 0, 0, 1]), CUT_SHORT);
            assert_eq!(after(&[3, 0, 0, 0, 0, 1, 16]), TOO_LONG);
            assert_eq!(after(&[3, 0, 0, 0, 0, 0, 16]), CUT_SHORT);
            // The credit is a field too: it must be there before the length counts.
            assert_eq!(after(&[4, 0, 0, 0, 0, 1, 16]), CUT_SHORT);
            assert_eq!(after(&[4, 0, 0, 0, 0, 1, 16, 0, 0, 0, 0]), TOO_LONG);
            assert_eq!(after(&[5, 0, 0, 0, 0, 255, 255]), 0);
        }
    }

    #[test]
    fn versions_that_are_neither() {
        let whole = |version: u16| {
            let mut journal = journal(Version::One, &[]);
            journal[3..5].copy_from_slice(&version.to_le_bytes());
            journal
        };
        for version in 0..=u16::MAX {
            let expected = if [1, 2].contains(&version) {
                0
            } else {
                WRONG_VERSION
            };
            assert_eq!(ending(&whole(version)), expected, "version {version}");
            // It counts before a start that is missing.
            let expected = if expected == 0 { CUT_SHORT } else { expected };
            assert_eq!(ending(&whole(version)[..5]), expected);
            assert_eq!(ending(&whole(version)[..HEADER - 1]), expected);
        }
    }

    #[test]
    fn a_journal_of_the_largest_size_is_read() {
        for version in Version::ALL {
            let mut journal = journal(version, &[]);
            while journal.len() < LARGEST {
                let room = (LARGEST - journal.len() - 7).min(4_000);
                let bytes = Cow::Owned(vec![0; room]);
                Record::Write { now: 0, bytes }.write(version, &mut journal);
            }
            assert_eq!(journal.len(), LARGEST);
            assert_eq!(ending(&journal), 0);
        }
    }
}
