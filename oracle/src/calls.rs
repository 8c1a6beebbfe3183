//! A trace of calls on one keeper record, for another program to follow.
//!
//! The line format stands in `FORMAT`, which also opens each trace.

mod issuing;

use std::io::{self, Write};

use crate::balance::Counts;
use crate::desk::Desk;
use crate::journal::{hex_word, Record, Version};
use crate::keeper::{Answer, Keeper, Timer, BAD_START, DEVICES, LONGEST, START};
use crate::ledger::Ledger;
use crate::maker::anything::{any_device, any_record, first_clock, start, Pace};
use crate::maker::sized::event_of;
use crate::pools::{BLOCKING, INPUT};
use crate::random::Random;
use crate::situations::{BORDER_DEVICES, BORDER_REFUSALS};
use crate::transcript::perform_into;

pub const FORMAT: &str = "\
# A trace of calls on one keeper record and a desk above it, with what each call must
# leave behind.
# Lines of words with single spaces between. Lines with # stand at the top only.
# Numbers are decimal, some with a minus sign. WORD is a 32-bit number as 8 hex
# digits, most significant first. BYTES are hex, two digits a byte in order, or
# the one sign - for no bytes.
#
# sequence N                          a new sequence; it begins with no keeper, and
#                                     with a desk that is all zero
#
# A call is one of these lines:
# make BYTES                          the start bytes
# device NOW DEVICE STAMP VALUE
# interrupt NOW NUMBER STAMP ADDRESS
# write NOW BYTES
# seed NOW CREDIT BYTES
# generator NOW BYTES                 the room before the read; its length is the read's
# blocking NOW BYTES                  the same
#
# After each of these come three lines:
# answer NUMBER DELIVERED BLOCKS COMPRESSIONS ADDED
# room BYTES                          the room after the call; - where there is none
# keeper FIELDS                       the whole record, or one of two words: none
#                                     before it is made, same where all of it is as it
#                                     was before the call
#
# ADDED are the units that crediting added to either pool, before any debit.
#
# FIELDS, in this order, 11 + 180 words:
#   input count, blocking count, input position, blocking position,
#   input rotation, blocking rotation, device 0's last value, tally,
#   last spill, seeded (0 or 1), seeding clock,
#   128 WORDs of the input pool, 32 of the blocking pool, 4 of the fast pool,
#   16 of the generator
# Then come five words for each device whose timer is another than before the call,
# and the timers of all the other devices, 0 to 1023, are as they were:
#   DEVICE CLOCK D1 D2 CAME           CAME is how many kept events of the device came
#                                     so far, up to 3
# A making that is done sets all timers to 0, and tells none of them.
#
# Between calls the record may be changed from outside; nothing is answered:
# put FIELD INDEX VALUE               VALUE decimal for all fields
# FIELD is one of input-count blocking-count input-position blocking-position
# input-rotation blocking-rotation last-value tally last-spill seeded
# seeding-clock clock d1 d2 came input-word blocking-word fast-word
# generator-word. INDEX is the device or word, and 0 where there is only one.
# A came is a byte: its VALUE is 0 to 255, and above 3 it is out of range.
#
# The desk may be changed from outside too:
# desk COUNT BYTES                    COUNT is any 32-bit number, above 64 it is out of
#                                     range; BYTES are its 64 places of 16 bytes, one
#                                     after the other, also those past the count
#
# A call on the keeper and the desk is
# issue NOW BYTES                     the class field
#
# After it come four lines and no room:
# answer NUMBER DELIVERED BLOCKS COMPRESSIONS ADDED
# number BYTES                        the 16 bytes that are handed back
# keeper FIELDS                       as above, or the word same
# desk-after COUNT BYTES              the whole desk, or the one word same where all of
#                                     it is as it was before the call
# No other call is lent the desk, and making a keeper leaves it as it is.
";

fn call_line(record: &Record, room: &[u8]) -> String {
    match record {
        Record::Device {
            now,
            device,
            stamp,
            value,
        } => format!("device {now} {device} {stamp} {value}"),
        Record::Interrupt {
            now,
            number,
            stamp,
            address,
        } => format!("interrupt {now} {number} {stamp} {address}"),
        Record::Write { now, bytes } => format!("write {now} {}", hex_word(bytes)),
        Record::Seed { now, credit, bytes } => {
            format!("seed {now} {credit} {}", hex_word(bytes))
        }
        Record::Generator { now, .. } => format!("generator {now} {}", hex_word(room)),
        Record::Blocking { now, .. } => format!("blocking {now} {}", hex_word(room)),
    }
}

fn answer_line(answer: &Answer) -> String {
    let Answer {
        number,
        delivered,
        blocks,
        compressions,
        added,
        taken: _,
        bits: _,
    } = answer;
    format!("answer {number} {delivered} {blocks} {compressions} {added}")
}

/// The record after a call, by what it was before.
fn keeper_line(before: &Keeper, after: &Keeper) -> String {
    if after == before {
        return "keeper same".to_owned();
    }
    let mut line = whole_but_timers(after);
    let timers = before.timers.iter().zip(&after.timers).enumerate();
    for (device, (_, timer)) in timers.filter(|(_, (before, after))| before != after) {
        let Timer {
            clock,
            d1,
            d2,
            came,
        } = timer;
        line += &format!(" {device} {clock} {d1} {d2} {came}");
    }
    line
}

fn whole_but_timers(k: &Keeper) -> String {
    let mut line = format!(
        "keeper {} {} {} {} {} {} {} {} {} {} {}",
        k.input.count,
        k.blocking.count,
        k.input.position,
        k.blocking.position,
        k.input.rotation,
        k.blocking.rotation,
        k.last_value,
        k.tally,
        k.last_spill,
        u8::from(k.seeded),
        k.seeding_clock
    );
    let pools = k.input.words.iter().chain(&k.blocking.words);
    for word in pools.chain(&k.fast).chain(&k.generator) {
        line += &format!(" {word:08x}");
    }
    line
}

/// One field of a record, named as in the format.
#[derive(Clone, Copy)]
struct Place {
    field: &'static str,
    index: usize,
}

fn get(k: &Keeper, Place { field, index }: Place) -> i64 {
    i64::from(match field {
        "input-count" => k.input.count,
        "blocking-count" => k.blocking.count,
        "input-position" => k.input.position,
        "blocking-position" => k.blocking.position,
        "input-rotation" => k.input.rotation,
        "blocking-rotation" => k.blocking.rotation,
        "last-value" => k.last_value,
        "tally" => k.tally,
        "last-spill" => k.last_spill,
        "seeded" => u32::from(k.seeded),
        "seeding-clock" => k.seeding_clock,
        "clock" => k.timers[index].clock,
        "d1" => return k.timers[index].d1,
        "d2" => return k.timers[index].d2,
        "came" => k.timers[index].came,
        "input-word" => k.input.words[index],
        "blocking-word" => k.blocking.words[index],
        "fast-word" => k.fast[index],
        "generator-word" => k.generator[index],
        _ => unreachable!("no field {field}"),
    })
}

fn put(k: &mut Keeper, Place { field, index }: Place, value: i64) {
    let word = value as u32;
    match field {
        "input-count" => k.input.count = word,
        "blocking-count" => k.blocking.count = word,
        "input-position" => k.input.position = word,
        "blocking-position" => k.blocking.position = word,
        "input-rotation" => k.input.rotation = word,
        "blocking-rotation" => k.blocking.rotation = word,
        "last-value" => k.last_value = word,
        "tally" => k.tally = word,
        "last-spill" => k.last_spill = word,
        "seeded" => k.seeded = value != 0,
        "seeding-clock" => k.seeding_clock = word,
        "clock" => k.timers[index].clock = word,
        "d1" => k.timers[index].d1 = value,
        "d2" => k.timers[index].d2 = value,
        "came" => k.timers[index].came = word,
        "input-word" => k.input.words[index] = word,
        "blocking-word" => k.blocking.words[index] = word,
        "fast-word" => k.fast[index] = word,
        "generator-word" => k.generator[index] = word,
        _ => unreachable!("no field {field}"),
    }
}

/// The ways to put a record out of range that are tried in any order: each field
/// that is not a timer's with the value just outside and one further off, and the
/// timers of devices at borders further off. Just outside are all timers in turn.
fn ways_out() -> Vec<(Place, i64)> {
    let mut ways = Vec::new();
    let mut way = |field, index, values: &[i64]| {
        for value in values {
            ways.push((Place { field, index }, *value));
        }
    };
    way("input-count", 0, &[i64::from(INPUT.size) + 1, 65_535]);
    way("blocking-count", 0, &[i64::from(BLOCKING.size) + 1, 65_535]);
    way("input-position", 0, &[128, 255]);
    way("blocking-position", 0, &[32, 127, 255]);
    way("input-rotation", 0, &[32, 255]);
    way("blocking-rotation", 0, &[32, 255]);
    way("tally", 0, &[64, 255]);
    for index in 0..4 {
        way("generator-word", index, &[0, 0x7962_2d33]);
    }
    for device in BORDER_DEVICES {
        let device = device as usize;
        way("d1", device, &[i64::MAX, i64::MIN]);
        way("d2", device, &[i64::MAX, i64::MIN]);
        way("came", device, &[5, 128, 255]);
    }
    ways
}

/// A device's timer just outside of each of its ranges.
fn just_outside(device: usize) -> [(Place, i64); 5] {
    [
        ("d1", 1 << 31),
        ("d1", -(1 << 31) - 1),
        ("d2", 1 << 32),
        ("d2", -(1 << 32)),
        ("came", 4),
    ]
    .map(|(field, value)| {
        let index = device;
        (Place { field, index }, value)
    })
}

/// A value at an edge of what a field may hold.
fn edge(random: &mut Random) -> (Place, i64) {
    let any = i64::from(random.u32());
    let clock = random.pick(&[0, any, 1 << 31, u32::MAX.into()]);
    let device = any_device(random, Version::Two) as usize;
    let (field, index, value) = match random.below(20) {
        0 | 1 => {
            let counts = [
                0, 63, 64, 511, 512, 1_023, 1_024, 2_047, 2_048, 4_096, 32_761, 32_762, 32_766,
                32_767, 32_768,
            ];
            ("input-count", 0, random.pick(&counts))
        }
        2 | 3 => {
            let counts = [
                0, 63, 64, 65, 511, 512, 4_096, 8_128, 8_189, 8_190, 8_191, 8_192,
            ];
            ("blocking-count", 0, random.pick(&counts))
        }
        4 => ("input-position", 0, random.pick(&[0, 1, 16, 127])),
        5 => ("blocking-position", 0, random.pick(&[0, 1, 20, 31])),
        6 => ("input-rotation", 0, random.pick(&[0, 1, 18, 25, 31])),
        7 => ("blocking-rotation", 0, random.pick(&[0, 1, 18, 25, 31])),
        8 => ("tally", 0, random.pick(&[0, 62, 63])),
        9 => {
            let ends = [-(1 << 31), 1 - (1 << 31), 0, (1 << 31) - 1];
            ("d1", device, random.pick(&ends))
        }
        10 => {
            let ends = [1 - (1 << 32), 2 - (1 << 32), 0, (1 << 32) - 1];
            ("d2", device, random.pick(&ends))
        }
        11 => {
            let index = random.pick(&[12, 12, 13]);
            let ends = [0, u32::MAX.into(), i64::from(u32::MAX) - 1];
            ("generator-word", index, random.pick(&ends))
        }
        12 => ("seeded", 0, random.pick(&[0, 1, 1])),
        13 => ("seeding-clock", 0, clock),
        14 => ("last-spill", 0, clock),
        15 => ("clock", device, clock),
        16 => ("last-value", 0, random.pick(&[0, 1, any])),
        17 | 18 => ("came", device, random.pick(&[0, 1, 2, 3])),
        _ => {
            let index = random.below(32) as usize;
            match random.below(3) {
                0 => ("fast-word", index % 4, any),
                1 => ("blocking-word", index, any),
                _ => ("input-word", index * 4, any),
            }
        }
    };
    (Place { field, index }, value)
}

struct Trace<'a> {
    out: &'a mut dyn Write,
    keeper: Keeper,
    desk: Desk,
    /// Until something is put into the record, which is no call's doing.
    ledger: Option<Ledger>,
}

impl Trace<'_> {
    fn put(&mut self, place: Place, value: i64) -> io::Result<()> {
        self.ledger = None;
        put(&mut self.keeper, place, value);
        let Place { field, index } = place;
        writeln!(self.out, "put {field} {index} {value}")
    }

    /// Any call at all.
    fn any_call(&mut self, random: &mut Random, now: u32) -> io::Result<()> {
        let large = random.one_in(12);
        let mut record = any_record(random, Version::Two, &self.keeper, now, large);
        if let Record::Device { device, .. } = &mut record {
            if random.one_in(8) {
                *device = random.pick(&PAST_ANY_FIELD);
            }
        }
        if random.one_in(40) {
            // Too long by one, with a credit that is fine or too much.
            let bytes = random.bytes(LONGEST + 1).into();
            let credit = random.pick(&[0, 8 * 4_097, u32::MAX]);
            record = match random.below(2) {
                0 => Record::Write { now, bytes },
                _ => Record::Seed { now, credit, bytes },
            };
        }
        self.call(random, &record)
    }

    fn call(&mut self, random: &mut Random, record: &Record) -> io::Result<()> {
        let mut room = random.bytes(record.wanted());
        writeln!(self.out, "{}", call_line(record, &room))?;
        let before = self.keeper.clone();
        let answer = perform_into(&mut self.keeper, record, &mut room);
        if let Some(ledger) = &mut self.ledger {
            ledger.hold(record, &answer, Counts::of(&self.keeper));
        }
        writeln!(self.out, "{}", answer_line(&answer))?;
        writeln!(self.out, "room {}", hex_word(&room))?;
        writeln!(self.out, "{}", keeper_line(&before, &self.keeper))
    }

    fn put_came(&mut self, device: u32, came: i64) -> io::Result<()> {
        let place = Place {
            field: "came",
            index: device as usize,
        };
        self.put(place, came)
    }

    fn put_count(&mut self, field: &'static str, count: i64) -> io::Result<()> {
        self.put(Place { field, index: 0 }, count)
    }

    /// Says of some devices how many of their events came, of most of them enough
    /// for the next to earn: few devices come four times in one sequence.
    fn devices_that_came(&mut self, random: &mut Random) -> io::Result<()> {
        let any = [(); 4].map(|()| any_device(random, Version::Two));
        for device in BORDER_DEVICES.into_iter().chain(any) {
            let came = random.pick(&[0, 1, 2, 3, 3, 3, 3, 3]);
            self.put_came(device, came)?;
        }
        Ok(())
    }

    /// An event of a device right after it was said how many came before.
    fn event_after(&mut self, random: &mut Random, now: u32) -> io::Result<()> {
        let device = any_device(random, Version::Two);
        let came = random.pick(&[0, 1, 2, 2, 3]);
        self.put_came(device, came)?;
        let record = event(random, device, now);
        self.call(random, &record)
    }

    /// Gives a fresh keeper a count that would seed it, which no journal can.
    /// Nothing seeds it then but a credit, and one does even to a full pool.
    fn unseeded_with_enough(&mut self, random: &mut Random) -> io::Result<()> {
        let count = random.pick(&[1_024, 1_025, 2_048, 32_767, 32_768]);
        self.put_count("input-count", count)?;
        self.put_came(WORTH_NOTHING, 3)?;
        self.put_came(WORTH_ONE_BIT, 3)?;
        let too_few = random.pick(&[0, 1, 2]);
        self.put_came(NEW, too_few)?;
        for record in crediting_nothing(random) {
            self.call(random, &record)?;
        }
        let one_bit = crediting_one_bit(random);
        self.call(random, &one_bit)
    }

    /// Lends a fresh keeper pools that are as good as full, so that a credit adds
    /// little or nothing: to the blocking pool, which no journal fills, and to the
    /// input pool, where it seeds the keeper all the same.
    fn nearly_full(&mut self, random: &mut Random) -> io::Result<()> {
        for _ in 0..3 {
            let count = random.between(8_128, 8_192) as i64;
            let count = random.pick(&[count, 8_187, 8_188, 8_189, 8_190, 8_191, 8_192]);
            self.put_count("blocking-count", count)?;
            let count = random.pick(&[512, 4_096, 4_160, 8_192, 32_768]);
            self.put_count("input-count", count)?;
            let length = random.pick(&[128, 129, 200, 4_096]);
            let now = random.u32();
            self.call(random, &Record::Blocking { now, length })?;
        }
        self.put_came(WORTH_ONE_BIT, 3)?;
        let mut each = one_bit_each(random);
        // The first of them seeds the keeper.
        each.rotate_left(random.below(3) as usize);
        for one_bit in each {
            let count = random.pick(&[27_306, 27_307, 32_762, 32_766, 32_767, 32_768]);
            self.put_count("input-count", count)?;
            self.call(random, &one_bit)?;
        }
        Ok(())
    }

    /// Calls on a record that one timer puts out of range.
    fn out_of_range(&mut self, random: &mut Random, device: usize) -> io::Result<()> {
        for (at, (place, value)) in just_outside(device).into_iter().enumerate() {
            let kept = get(&self.keeper, place);
            self.put(place, value)?;
            let now = random.u32();
            let length = random.below(3) as u16;
            let record = match (at + device) % 7 {
                0 => event_of(random, device as u32),
                1 => event_of(random, 0),
                2 => interrupt(random, now),
                3 => Record::Write {
                    now,
                    bytes: random.bytes(2).into(),
                },
                4 => seed(random, 1, 1),
                5 => Record::Generator { now, length },
                _ => Record::Blocking { now, length },
            };
            self.call(random, &record)?;
            self.put(place, kept)?;
        }
        Ok(())
    }

    /// Puts a timer to the edges of its ranges, and says that some events came.
    fn put_to_the_edges(&mut self, random: &mut Random, device: usize) -> io::Result<()> {
        let d1 = random.pick(&[-(1 << 31), (1 << 31) - 1]);
        let d2 = random.pick(&[1 - (1 << 32), (1 << 32) - 1]);
        let came = random.pick(&[1, 2, 3, 3, 3]);
        for (field, value) in [("d1", d1), ("d2", d2), ("came", came)] {
            let index = device;
            self.put(Place { field, index }, value)?;
        }
        Ok(())
    }
}

/// The devices of the events that an unseeded keeper with enough meets: two of
/// which three events came, and one of which fewer did.
const WORTH_NOTHING: u32 = 3;
const WORTH_ONE_BIT: u32 = 260;
const NEW: u32 = 1_023;

/// Calls that credit nothing to a fresh keeper, though most of them mix.
fn crediting_nothing(random: &mut Random) -> [Record<'static>; 8] {
    // An event within one tick of its device's clock is worth nothing.
    let one_tick = random.pick(&[0, 1, u32::MAX]);
    [
        seed(random, 0, 5),
        seed(random, 0, 0),
        Record::Write {
            now: random.u32(),
            bytes: random.bytes(5).into(),
        },
        event(random, WORTH_NOTHING, one_tick),
        // Worth 10 bits, but its device is new.
        event(random, NEW, 1_024),
        interrupt(random, 1_000),
        Record::Generator {
            now: random.u32(),
            length: 3,
        },
        // Refused, as a bit needs a byte.
        seed(random, 1, 0),
    ]
}

/// A call that credits one bit after those.
fn crediting_one_bit(random: &mut Random) -> Record<'static> {
    let which = random.below(3) as usize;
    one_bit_each(random)[which].clone()
}

/// A seed, an event and an interrupt that credit one bit each to a fresh keeper.
fn one_bit_each(random: &mut Random) -> [Record<'static>; 3] {
    [
        seed(random, 1, 1),
        event(random, WORTH_ONE_BIT, 3),
        interrupt(random, 1_001),
    ]
}

fn seed(random: &mut Random, credit: u32, length: usize) -> Record<'static> {
    Record::Seed {
        now: random.u32(),
        credit,
        bytes: random.bytes(length).into(),
    }
}

fn event(random: &mut Random, device: u32, now: u32) -> Record<'static> {
    Record::Device {
        now,
        device,
        stamp: random.u64(),
        value: random.u32(),
    }
}

fn interrupt(random: &mut Random, now: u32) -> Record<'static> {
    Record::Interrupt {
        now,
        number: random.u32(),
        stamp: random.u64(),
        address: random.u64(),
    }
}

/// One sequence of so many begins with a keeper that is unseeded and has a
/// count that would seed it, and another with pools that are nearly full.
const ONE_OF: u64 = 8;

/// Numbers of devices that no field of a journal holds, such as are one in it if
/// they are cut to 16, 10 or 8 bits.
const PAST_ANY_FIELD: [u32; 8] = [
    65_536,
    65_536 + 3,
    65_536 + 1_023,
    1 << 24,
    1 << 31,
    (1 << 31) + 256,
    u32::MAX - 1_023,
    u32::MAX,
];

/// Writes what every trace goes through, and then `count` sequences of chance.
pub fn calls(seed: u64, count: u64, out: &mut dyn Write) -> io::Result<()> {
    write!(out, "{FORMAT}")?;
    let random = &mut Random::new(!seed, 0);
    every_device(random, out)?;
    every_issuing(random, out)?;
    chance(seed, count, out)
}

/// Makes a keeper from any start. The desk is that of a sequence that begins.
fn make<'a>(random: &mut Random, out: &'a mut dyn Write) -> io::Result<Trace<'a>> {
    let start: [u8; START] = start(random);
    let keeper = Keeper::make(&start).expect("the start has its length");
    writeln!(out, "make {}", hex_word(&start))?;
    writeln!(
        out,
        "answer 0 0 0 0 0\nroom -\n{}",
        whole_but_timers(&keeper)
    )?;
    let ledger = Some(Ledger::new(DEVICES as u32));
    Ok(Trace {
        out,
        keeper,
        desk: Desk::empty(),
        ledger,
    })
}

/// A sequence over all devices: the timer of each out of range, all timers at the
/// edges of their ranges, an event of each device and of numbers that none has. At
/// last the record, in which every timer was used, is made anew.
fn every_device(random: &mut Random, out: &mut dyn Write) -> io::Result<()> {
    writeln!(out, "sequence 0")?;
    let mut trace = make(random, out)?;
    trace.put_count("input-count", 4_096)?;
    trace.put_count("seeded", 1)?;
    for device in 0..DEVICES {
        trace.out_of_range(random, device)?;
    }
    for device in 0..DEVICES {
        trace.put_to_the_edges(random, device)?;
    }
    for device in 0..DEVICES as u32 {
        let record = event_of(random, device);
        trace.call(random, &record)?;
    }
    for device in BORDER_REFUSALS.into_iter().chain(PAST_ANY_FIELD) {
        let record = event_of(random, device);
        trace.call(random, &record)?;
        // A record out of range counts before a device that is none.
        trace.put_count("tally", 64)?;
        trace.call(random, &record)?;
        trace.put_count("tally", 0)?;
    }
    make(random, trace.out)?;
    Ok(())
}

/// A sequence for each of the things that a desk has to show.
fn every_issuing(random: &mut Random, out: &mut dyn Write) -> io::Result<()> {
    for (number, sequence) in (1..).zip(issuing::ALL) {
        writeln!(out, "sequence {number}")?;
        sequence(&mut make(random, out)?, random)?;
    }
    Ok(())
}

/// Sequences of any calls.
fn chance(seed: u64, count: u64, out: &mut dyn Write) -> io::Result<()> {
    // Taken in turn over the whole trace, so that each way comes up.
    let mut ways = ways_out().into_iter().cycle();
    for number in 1..=count {
        let random = &mut Random::new(!seed, number);
        writeln!(out, "sequence {}", issuing::ALL.len() as u64 + number)?;
        if random.one_in(3) {
            let length = random.pick(&[0, 1, 47, 49, 96]);
            let bytes = random.bytes(length);
            writeln!(out, "make {}", hex_word(&bytes))?;
            writeln!(out, "answer {BAD_START} 0 0 0 0\nroom -\nkeeper none")?;
        }
        let mut trace = make(random, out)?;
        match number % ONE_OF {
            1 => trace.unseeded_with_enough(random)?,
            5 => trace.nearly_full(random)?,
            _ => {}
        }
        if !random.one_in(3) {
            trace.devices_that_came(random)?;
        }
        let pace = Pace::any(random);
        let mut now = first_clock(random);
        if random.one_in(2) {
            for _ in 0..random.between(3, 12) {
                let (place, value) = edge(random);
                trace.put(place, value)?;
            }
        }
        for _ in 0..random.between(9, 27) {
            now = pace.next(random, now);
            match random.below(8) {
                0 => {
                    let (place, value) = ways.next().expect("a cycle goes on");
                    let kept = get(&trace.keeper, place);
                    trace.put(place, value)?;
                    trace.any_call(random, now)?;
                    if random.one_in(4) {
                        trace.any_issuing(random, now)?;
                    }
                    trace.put(place, kept)?;
                }
                1 => {
                    let (place, value) = edge(random);
                    trace.put(place, value)?;
                    trace.any_call(random, now)?;
                }
                2 => trace.event_after(random, now)?,
                3 => trace.any_issuing(random, now)?,
                _ => trace.any_call(random, now)?,
            }
        }
    }
    Ok(())
}

#[cfg(test)]
mod tests {
    use super::*;
    use crate::credits::estimate;
    use crate::keeper::OUT_OF_RANGE;
    use crate::read_back::{bytes, number};
    use crate::rules::Wrong;
    use std::collections::BTreeSet;
    use std::panic::catch_unwind;

    fn trace(seed: u64, count: u64) -> String {
        let mut out = Vec::new();
        calls(seed, count, &mut out).unwrap();
        String::from_utf8(out).unwrap()
    }

    /// Without what every trace goes through.
    fn chance_alone(seed: u64, count: u64) -> String {
        let mut out = Vec::new();
        chance(seed, count, &mut out).unwrap();
        String::from_utf8(out).unwrap()
    }

    const FIELDS: [&str; 19] = [
        "input-count",
        "blocking-count",
        "input-position",
        "blocking-position",
        "input-rotation",
        "blocking-rotation",
        "last-value",
        "tally",
        "last-spill",
        "seeded",
        "seeding-clock",
        "clock",
        "d1",
        "d2",
        "came",
        "input-word",
        "blocking-word",
        "fast-word",
        "generator-word",
    ];

    /// No count tells that a first event should not have earned: it takes a ledger.
    #[test]
    fn a_trace_has_a_ledger_until_something_is_put() {
        let _wrong = Wrong::put(|rules| rules.new_events = 0);
        let trace = |put: bool| {
            let random = &mut Random::new(1, 1);
            let mut trace = Vec::new();
            let mut trace = make(random, &mut trace).unwrap();
            if put {
                trace.put_count("tally", 0).unwrap();
            }
            let record = event(random, 5, 1_024);
            trace.call(random, &record).unwrap();
        };
        trace(true);
        assert!(catch_unwind(|| trace(false)).is_err());
    }

    /// The record that a trace tells of, by its text alone.
    pub(super) fn tell(keeper: &mut Keeper, line: &str) {
        let words: Vec<&str> = line.split(' ').collect();
        if words[1] == "same" {
            return;
        }
        let number_at = |at: usize| number::<i64>(words[at]);
        for (at, field) in FIELDS.into_iter().take(11).enumerate() {
            put(keeper, Place { field, index: 0 }, number_at(1 + at));
        }
        let secret = ["input-word", "blocking-word", "fast-word", "generator-word"];
        let mut at = 12;
        for (field, count) in secret.into_iter().zip([128, 32, 4, 16]) {
            for index in 0..count {
                let word = i64::from_str_radix(words[at], 16).unwrap();
                put(keeper, Place { field, index }, word);
                at += 1;
            }
        }
        for timer in words[at..].chunks_exact(5) {
            let index = number(timer[0]);
            for (field, value) in ["clock", "d1", "d2", "came"].into_iter().zip(&timer[1..]) {
                put(keeper, Place { field, index }, number(value));
            }
        }
    }

    /// What a trace puts into the record, by its text alone.
    pub(super) fn put_told(keeper: &mut Keeper, words: &[&str]) {
        let field = FIELDS.into_iter().find(|f| *f == words[1]).unwrap();
        let index = number(words[2]);
        put(keeper, Place { field, index }, number(words[3]));
    }

    /// The desk that a trace tells of, by its text alone.
    pub(super) fn tell_desk(desk: &mut Desk, line: &str) {
        let words: Vec<&str> = line.split(' ').collect();
        if words[1] == "same" {
            return;
        }
        desk.count = number(words[1]);
        let all = bytes(words[2]);
        assert_eq!(all.len(), 1_024);
        for (place, number) in desk.places.iter_mut().zip(all.chunks_exact(16)) {
            place.copy_from_slice(number);
        }
    }

    /// Follows a trace by its text alone, as another program would: one keeper and one
    /// desk are called, and others are kept as the trace tells them.
    #[test]
    fn a_trace_says_all_that_is_needed_to_follow_it() {
        let text = trace(8, 120);
        let mut lines = text.lines().filter(|l| !l.starts_with('#'));
        let mut lent: Option<Keeper> = None;
        let mut told: Option<Keeper> = None;
        let mut desk = Desk::empty();
        let mut desk_told = Desk::empty();
        let mut seen = BTreeSet::new();
        let mut refused = 0;
        while let Some(line) = lines.next() {
            let w: Vec<&str> = line.split(' ').collect();
            let mut room = Vec::new();
            let mut handed = None;
            let answer = match w[0] {
                "sequence" => {
                    (lent, told) = (None, None);
                    (desk, desk_told) = (Desk::empty(), Desk::empty());
                    continue;
                }
                "put" => {
                    for keeper in [&mut lent, &mut told] {
                        put_told(keeper.as_mut().unwrap(), &w);
                    }
                    continue;
                }
                "desk" => {
                    tell_desk(&mut desk, line);
                    tell_desk(&mut desk_told, line);
                    continue;
                }
                "issue" => {
                    let keeper = lent.as_mut().unwrap();
                    let issued = desk.issue(keeper, number(w[1]), &bytes(w[2]));
                    handed = Some(issued.number);
                    issued.answer
                }
                "make" => match Keeper::make(&bytes(w[1])) {
                    Ok(made) => {
                        lent = Some(made);
                        // All that is not a timer comes with the line.
                        told = Some(Keeper::make(&[0; START]).unwrap());
                        Answer::default()
                    }
                    Err(number) => Answer::refusal(number),
                },
                kind => {
                    let k = lent.as_mut().unwrap();
                    let now = number(w[1]);
                    match kind {
                        "device" => k.device_event(number(w[2]), now, number(w[3]), number(w[4])),
                        "interrupt" => k.interrupt(now, number(w[2]), number(w[3]), number(w[4])),
                        "write" => k.write(&bytes(w[2])),
                        "seed" => k.seed(now, &bytes(w[3]), number(w[2])),
                        "generator" => {
                            room = bytes(w[2]);
                            k.generator_read(now, &mut room)
                        }
                        "blocking" => {
                            room = bytes(w[2]);
                            k.blocking_read(&mut room)
                        }
                        other => panic!("{other}"),
                    }
                }
            };
            seen.insert(answer.number);
            refused += u32::from(answer.number == OUT_OF_RANGE);
            assert_eq!(lines.next().unwrap(), answer_line(&answer));
            let room = match handed {
                None => format!("room {}", hex_word(&room)),
                Some(number) => format!("number {}", hex_word(&number)),
            };
            assert_eq!(lines.next().unwrap(), room);
            let line = lines.next().unwrap();
            match &mut told {
                None => assert_eq!(line, "keeper none"),
                Some(told) => tell(told, line),
            }
            assert!(lent == told, "{line}");
            if handed.is_some() {
                let line = lines.next().unwrap();
                assert!(line.starts_with("desk-after "));
                tell_desk(&mut desk_told, line);
                assert!(desk == desk_told, "{line}");
            }
        }
        assert_eq!(seen, BTreeSet::from([0, 1, 2, 3, 4, 5, 6, 7, 13, 14, 17]));
        let ways = ways_out().len() + 5 * DEVICES;
        assert!(refused as usize >= ways, "{refused} of {ways}");
    }

    /// The timers that are put out of range, and the devices whose events are done
    /// and refused, in every trace.
    #[test]
    fn every_trace_goes_through_all_devices() {
        let text = trace(3, 0);
        let lines: Vec<Vec<&str>> = text.lines().map(|l| l.split(' ').collect()).collect();
        let out: BTreeSet<(&str, usize)> = lines
            .windows(3)
            .filter(|w| w[0][0] == "put" && w[1][0] != "issue")
            .filter(|w| w[2][..2] == ["answer", "17"])
            .map(|w| (w[0][1], number(w[0][2])))
            .collect();
        let events = |answer: &str| -> BTreeSet<u32> {
            let answered = lines.windows(2);
            let answered = answered.filter(|w| w[0][0] == "device" && w[1][1] == answer);
            answered.map(|w| number(w[0][2])).collect()
        };
        for device in 0..DEVICES {
            for field in ["d1", "d2", "came"] {
                assert!(out.contains(&(field, device)), "{field} {device}");
            }
        }
        assert_eq!(events("0"), (1..DEVICES as u32).chain([0]).collect());
        let none = BORDER_REFUSALS.into_iter().chain(PAST_ANY_FIELD);
        assert_eq!(events("4"), none.collect());
        assert!(text.len() < 6_000_000, "{}", text.len());
    }

    #[test]
    fn every_way_out_is_out_of_range_and_no_edge_is() {
        let timers = (0..DEVICES).flat_map(just_outside);
        for (place, value) in ways_out().into_iter().chain(timers) {
            let mut keeper = Keeper::make(&[0; START]).unwrap();
            put(&mut keeper, place, value);
            assert!(!keeper.in_range());
            assert_eq!(get(&keeper, place), value);
        }
        let mut random = Random::new(1, 1);
        for _ in 0..2_000 {
            let mut keeper = Keeper::make(&[0; START]).unwrap();
            let (place, value) = edge(&mut random);
            put(&mut keeper, place, value);
            assert!(keeper.in_range());
            assert_eq!(get(&keeper, place), value);
        }
    }

    /// A call that was done, by a trace's text alone.
    struct Done<'a> {
        call: Vec<&'a str>,
        added: i64,
        /// The record before and after it; what was put in between belongs to the
        /// former.
        before: Keeper,
        after: Keeper,
    }

    fn done(text: &str) -> Vec<Done<'_>> {
        let mut done = Vec::new();
        let mut keeper = Keeper::make(&[0; START]).unwrap();
        let mut call = Vec::new();
        let mut answer = Vec::new();
        for line in text.lines().filter(|l| !l.starts_with('#')) {
            let w: Vec<&str> = line.split(' ').collect();
            match w[0] {
                "sequence" | "room" | "desk" | "number" | "desk-after" => {}
                "put" => put_told(&mut keeper, &w),
                "answer" => answer = w,
                "keeper" if w[1] == "none" => {}
                "keeper" => {
                    let before = keeper.clone();
                    tell(&mut keeper, line);
                    if answer[1] == "0" && call[0] != "make" {
                        done.push(Done {
                            call: call.clone(),
                            added: number(answer[5]),
                            before,
                            after: keeper.clone(),
                        });
                    }
                }
                "make" => {
                    keeper = Keeper::make(&[0; START]).unwrap();
                    call = w;
                }
                _ => call = w,
            }
        }
        done
    }

    impl Done<'_> {
        fn before(&self, field: &'static str, index: usize) -> i64 {
            get(&self.before, Place { field, index })
        }

        fn after(&self, field: &'static str, index: usize) -> i64 {
            get(&self.after, Place { field, index })
        }

        /// The device of an event.
        fn device(&self) -> Option<usize> {
            (self.call[0] == "device").then(|| number(self.call[2]))
        }

        fn came(&self) -> Option<i64> {
            self.device().map(|device| self.before("came", device))
        }

        fn name(&self) -> &str {
            match self.call[..] {
                ["seed", _, "0", "-"] => "empty seed of 0 bits",
                ["seed", _, "0", _] => "seed of 0 bits",
                ["device", ..] if self.came() < Some(3) => "event of a new device",
                _ => self.call[0],
            }
        }
    }

    /// The calls that were done on a keeper which was unseeded with a count of
    /// 1,024 or more, and whether they seeded it.
    fn done_unseeded_with_enough(text: &str) -> BTreeSet<(String, bool)> {
        done(text)
            .iter()
            .filter(|d| d.before("seeded", 0) == 0 && d.before("input-count", 0) >= 1_024)
            .map(|d| (d.name().to_owned(), d.after("seeded", 0) == 1))
            .collect()
    }

    #[test]
    fn the_first_sequence_leaves_an_unseeded_keeper_with_enough_alone() {
        let nothing = [
            "device",
            "event of a new device",
            "empty seed of 0 bits",
            "interrupt",
            "seed of 0 bits",
            "write",
        ];
        let mut seeders = BTreeSet::new();
        for seed in 0..30 {
            let done = done_unseeded_with_enough(&chance_alone(seed, 1));
            for name in nothing {
                assert!(done.contains(&(name.to_owned(), false)), "{seed}: {name}");
            }
            let seeds = done.into_iter().filter(|(_, seeds)| *seeds);
            seeders.extend(seeds.map(|(name, _)| name));
        }
        let seeders: Vec<String> = seeders.into_iter().collect();
        assert_eq!(seeders, ["device", "interrupt", "seed"]);
    }

    /// How many of the events that find so many events before them, on a pool
    /// to which one bit still adds, are worth something, and how many earn.
    fn worthy_and_earning(done: &[Done], came: i64) -> (usize, usize) {
        let found = |d: &&Done| d.came() == Some(came) && d.before("input-count", 0) < 27_307;
        let events: Vec<&Done> = done.iter().filter(found).collect();
        let worthy = |d: &&&Done| {
            let device = d.device().unwrap();
            let d2 = d.after("d2", device);
            estimate(d.after("d1", device), d2, d2 - d.before("d2", device)) > 0
        };
        let earning = |d: &&&Done| d.after("input-count", 0) != d.before("input-count", 0);
        let worthy = events.iter().filter(worthy).count();
        (worthy, events.iter().filter(earning).count())
    }

    #[test]
    fn events_of_new_devices_are_worth_something_and_earn_nothing() {
        let text = chance_alone(8, 120);
        let done = done(&text);
        for came in 0..3 {
            let (worthy, earning) = worthy_and_earning(&done, came);
            assert!(worthy >= 30, "{came}: {worthy}");
            assert_eq!(earning, 0);
        }
        let (worthy, earning) = worthy_and_earning(&done, 3);
        assert!(worthy >= 100, "{worthy}");
        assert_eq!(earning, worthy);
    }

    #[test]
    fn each_event_that_is_done_counts_up_to_three() {
        let text = chance_alone(9, 60);
        for d in done(&text) {
            for device in 0..DEVICES {
                let before = d.before("came", device);
                let counts = d.device() == Some(device) && before < 3;
                assert_eq!(d.after("came", device), before + i64::from(counts));
            }
        }
    }

    /// What a count rises by at a call; less than nothing where it falls.
    fn rise(d: &Done, field: &'static str) -> i64 {
        d.after(field, 0) - d.before(field, 0)
    }

    /// Where nothing is taken out of a pool, its count tells what was added.
    #[test]
    fn calls_add_what_the_input_count_rises_by() {
        let text = chance_alone(10, 120);
        let mut times = 0;
        for d in done(&text) {
            let seeds = d.before("seeded", 0) != d.after("seeded", 0);
            let expected = match d.call[0] {
                "write" | "generator" | "issue" => 0,
                "blocking" => continue,
                _ if seeds => continue,
                _ => rise(&d, "input-count"),
            };
            assert_eq!(d.added, expected, "{:?}", d.call);
            times += i32::from(expected > 0);
        }
        assert!(times >= 300, "{times}");
    }

    #[test]
    fn pools_that_are_nearly_full() {
        let text = chance_alone(11, 120);
        let done = done(&text);
        let times = |shows: &dyn Fn(&Done) -> bool| done.iter().filter(|d| shows(d)).count();
        // A transfer that adds nothing to the blocking pool, or very little.
        let transfer = |d: &Done, added: i64| {
            d.call[0] == "blocking" && rise(d, "input-count") < 0 && d.added == added
        };
        for added in 0..3 {
            let times = times(&|d| transfer(d, added));
            assert!(times >= 3, "{added}: {times}");
        }
        // A first seeding by bits that add nothing.
        for call in ["seed", "device", "interrupt"] {
            let seeds = |d: &Done| d.before("seeded", 0) < d.after("seeded", 0);
            let shows = |d: &Done| d.call[0] == call && seeds(d) && d.added == 0;
            let times = times(&shows);
            assert!(times >= 3, "{call}: {times}");
        }
    }

    #[test]
    fn a_keeper_line_tells_of_the_timers_that_changed() {
        let before = Keeper::make(&[0; START]).unwrap();
        assert_eq!(keeper_line(&before, &before), "keeper same");
        let mut after = before.clone();
        after.tally = 3;
        let words = |after: &Keeper| keeper_line(&before, after).split(' ').count();
        assert_eq!(words(&after), 1 + 11 + 180);
        after.timers[1_023] = Timer {
            clock: 1,
            d1: -2,
            d2: -3,
            came: 1,
        };
        after.timers[7].d2 = 9;
        let line = keeper_line(&before, &after);
        assert!(line.ends_with(" 7 0 0 9 0 1023 1 -2 -3 1"), "{line}");
        assert_eq!(words(&after), 1 + 11 + 180 + 10);
    }
}
