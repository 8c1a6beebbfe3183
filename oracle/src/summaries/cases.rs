//! What every comparison goes through, however few journals it makes. Journals are
//! of the two versions in turn.

use std::io;

use super::{INDEX, MORE};
use crate::convert::convert;
use crate::index::{self, Form, InFile, MOST_NUMBERS};
use crate::journal::{Version, HEADER, LARGEST};
use crate::maker::sized::{self, Fault};
use crate::random::Random;
use crate::situations::{BORDER_DEVICES, BORDER_REFUSALS};
use crate::trial::{Case, Trial, JOURNAL};

pub const ALL: [Case; 16] = [
    counts,
    one_by_one,
    at_once,
    damages,
    orders_of_appending,
    orders_of_looking,
    each_fault,
    cut_parts,
    torn,
    full,
    up_to_the_last_byte,
    the_last_place,
    senseless_words,
    missing_files,
    devices,
    the_other_version,
];

/// Both versions in turn, for cases that are few and odd in number.
fn newer_first() -> impl Iterator<Item = Version> {
    Version::in_turn().skip(1)
}

/// The file of a good journal's index.
pub fn index_of(journal: &[u8]) -> Vec<u8> {
    let InFile(bytes) = InFile::of(&index::fresh(journal).expect("the journal is good"));
    bytes
}

/// The words of a look-up.
pub fn look(numbers: &[String]) -> Vec<String> {
    let words = ["look", JOURNAL, INDEX].map(str::to_owned);
    [&words[..], numbers].concat()
}

/// So many record numbers in any order: those around each turn of the journal,
/// some past its last record, and any others, now and then with zeros in front.
pub fn telling(random: &mut Random, records: usize, count: usize) -> Vec<String> {
    let last = records.saturating_sub(1);
    let mut numbers: Vec<String> = [0, last, records, 63, 64, 65, 127, 128, records + 1]
        .iter()
        .chain(&[8_767, 8_768, 8_769, 8_832])
        .map(usize::to_string)
        .collect();
    let large = ["4294967295", "4294967296", "18446744073709551616"];
    numbers.push(random.pick(&large).to_owned());
    while numbers.len() < count {
        let any = random.below(records as u64 + 2);
        numbers.push(match random.one_in(8) {
            true => format!("00{any}"),
            false => any.to_string(),
        });
    }
    for i in (1..numbers.len()).rev() {
        numbers.swap(i, random.below(i as u64 + 1) as usize);
    }
    numbers.truncate(count);
    numbers
}

fn lay_good(trial: &mut Trial, journal: &[u8]) {
    trial.lay(&[(JOURNAL, journal), (INDEX, &index_of(journal))]);
}

fn append(trial: &mut Trial, what: &str, more: &[u8]) -> io::Result<()> {
    trial.put(MORE, more);
    trial.run(what, &["append", JOURNAL, INDEX, MORE])
}

/// Index and look-ups around the records that get an entry.
fn counts(trial: &mut Trial, random: &mut Random) -> io::Result<()> {
    for (count, version) in (60..=68).chain(124..=132).zip(Version::in_turn()) {
        trial.lay(&[(JOURNAL, &sized::of_records(random, version, count))]);
        if count % 3 == 0 {
            trial.put(INDEX, &[b'N'; 60]);
        }
        let what = format!("{count} records");
        trial.run(&what, &["index", JOURNAL, INDEX])?;
        let numbers = telling(random, count, 20);
        trial.run(&what, &look(&numbers))?;
    }
    Ok(())
}

/// Appends a record at a time past records that get an entry.
fn one_by_one(trial: &mut Trial, random: &mut Random) -> io::Result<()> {
    for (first, version) in [0, 62, 126].into_iter().zip(newer_first()) {
        lay_good(trial, &sized::of_records(random, version, first));
        for count in first..first + 4 {
            let what = format!("from {count} records to one more");
            append(trial, &what, &sized::part(random, version, 1))?;
        }
        let numbers = telling(random, first + 4, MOST_NUMBERS);
        trial.run("what was appended one by one", &look(&numbers))?;
    }
    Ok(())
}

/// Appends none and many records at once.
fn at_once(trial: &mut Trial, random: &mut Random) -> io::Result<()> {
    let turns = [(0, 0), (64, 64), (63, 65), (127, 129), (60, 132), (0, 200)];
    for ((from, to), version) in turns.into_iter().zip(Version::in_turn()) {
        lay_good(trial, &sized::of_records(random, version, from));
        let what = format!("from {from} records to {to} at once");
        append(trial, &what, &sized::part(random, version, to - from))?;
    }
    Ok(())
}

/// All ways to spoil a small index file, and how each is called.
fn all_damages(random: &mut Random, file: &[u8]) -> Vec<(String, Vec<u8>)> {
    let mut all = Vec::new();
    for at in 0..file.len() {
        let mut changed = file.to_vec();
        changed[at] ^= random.between(1, 255) as u8;
        all.push((format!("changed at byte {at}"), changed));
    }
    for length in 0..file.len() {
        all.push((format!("cut to {length} bytes"), file[..length].to_vec()));
    }
    let tails = [vec![0], vec![255], vec![0; 4], vec![0; 8], vec![0; 70_000]];
    for tail in tails {
        let what = format!("with {} bytes more", tail.len());
        all.push((what, [file, &tail].concat()));
    }
    all
}

/// One way to spoil an index file, and how it is called.
pub fn damaged(random: &mut Random, file: &[u8]) -> (String, Vec<u8>) {
    let mut ways = all_damages(random, file);
    let way = random.below(ways.len() as u64) as usize;
    ways.swap_remove(way)
}

/// Each damage, and the index of a journal with a record less or more.
fn damages(trial: &mut Trial, random: &mut Random) -> io::Result<()> {
    let version = random.pick(&Version::ALL);
    let shorter = sized::of_records(random, version, 2);
    let journal = [&shorter[..], &sized::part(random, version, 1)].concat();
    let more = sized::part(random, version, 1);
    let longer = [&journal[..], &more].concat();
    let mut wrongs = all_damages(random, &index_of(&journal));
    wrongs.push(("of one record less".to_owned(), index_of(&shorter)));
    wrongs.push(("of one record more".to_owned(), index_of(&longer)));
    for (how, wrong) in wrongs {
        trial.lay(&[(JOURNAL, &journal), (INDEX, &wrong)]);
        let what = format!("an index {how}");
        trial.run(&what, &["look", JOURNAL, INDEX, "0", "3"])?;
        append(trial, &what, &more)?;
    }
    Ok(())
}

/// A journal of this version, good or with a fault, and an index, the good one's or
/// a wrong one.
fn lay_any(
    trial: &mut Trial,
    random: &mut Random,
    version: Version,
    fault: Option<Fault>,
    right: bool,
) -> String {
    let count = random.between(1, 70) as usize;
    let mut journal = sized::of_records(random, version, count);
    let mut index = index_of(&journal);
    if !right {
        index = damaged(random, &index).1;
    }
    if let Some(fault) = fault {
        fault.put(random, &mut journal);
    }
    trial.lay(&[(JOURNAL, &journal), (INDEX, &index)]);
    let right = if right { "right" } else { "wrong" };
    let number = version.number();
    format!("version {number}, fault of the journal {fault:?}, index {right}")
}

/// Every fault of what is appended, with each of the faults that come before.
fn orders_of_appending(trial: &mut Trial, random: &mut Random) -> io::Result<()> {
    let faults = Fault::OF_PARTS.map(Some);
    // An odd number of faults, so that each case before them meets both versions.
    let mut versions = Version::in_turn();
    for last in [None].into_iter().chain(faults) {
        let mut version = versions.next().expect("they go on");
        for right in [true, false] {
            version = version.other();
            for broken in [false, true] {
                let fault = random.pick(&Fault::ALL);
                let fault = broken.then_some(fault);
                let what = lay_any(trial, random, version, fault, right);
                let mut more = sized::part(random, version, 2);
                if let Some(last) = last {
                    last.put_last(random, version, &mut more);
                }
                append(trial, &format!("{what}, of the part {last:?}"), &more)?;
            }
        }
    }
    Ok(())
}

/// As many numbers as may be, and one more, with each of the faults that come
/// before.
fn orders_of_looking(trial: &mut Trial, random: &mut Random) -> io::Result<()> {
    let mut version = Version::One;
    for count in [MOST_NUMBERS, MOST_NUMBERS + 1] {
        for right in [true, false] {
            version = version.other();
            for broken in [false, true] {
                let fault = random.pick(&Fault::ALL);
                let fault = broken.then_some(fault);
                let what = lay_any(trial, random, version, fault, right);
                let numbers = telling(random, 70, count);
                trial.run(&format!("{what}, {count} numbers"), &look(&numbers))?;
            }
        }
    }
    Ok(())
}

/// Each fault of a journal, with all else wrong too.
fn each_fault(trial: &mut Trial, random: &mut Random) -> io::Result<()> {
    for (fault, version) in Fault::ALL.into_iter().zip(newer_first()) {
        let what = lay_any(trial, random, version, Some(fault), false);
        trial.run(&what, &["index", JOURNAL, INDEX])?;
        let numbers = telling(random, 70, MOST_NUMBERS + 1);
        trial.run(&what, &look(&numbers))?;
        let mut more = Vec::new();
        random
            .pick(&Fault::OF_PARTS)
            .put_last(random, version, &mut more);
        append(trial, &what, &more)?;
    }
    // Refused where no index was: none is made.
    trial.lay(&[(JOURNAL, b"NKJ")]);
    trial.run("no index beside a bad journal", &["index", JOURNAL, INDEX])
}

/// Small parts cut at each of their bytes.
fn cut_parts(trial: &mut Trial, random: &mut Random) -> io::Result<()> {
    for version in Version::ALL {
        let journal = sized::of_records(random, version, 63);
        let each = sized::one_of_each(random, version);
        let mut part = sized::event(random, version).to_bytes(version);
        // A seed and a read, or a write.
        let (from, to) = match version {
            Version::One => (27, 7),
            Version::Two => (37, 27),
        };
        part.extend(&each[each.len() - from..each.len() - to]);
        for cut in 0..=part.len() {
            lay_good(trial, &journal);
            let what = format!("a part of {} bytes cut to {cut}", part.len());
            append(trial, &what, &part[..cut])?;
        }
    }
    Ok(())
}

/// A torn journal, and what it lacks appended. It is refused though it would be
/// whole again.
fn torn(trial: &mut Trial, random: &mut Random) -> io::Result<()> {
    let turns = [(Version::One, HEADER - 1), (Version::One, HEADER + 1)];
    let turns = turns
        .into_iter()
        .chain([5, 6, 18].map(|at| (Version::Two, HEADER + at)));
    for (version, torn) in turns {
        let whole = sized::of_records(random, version, 0);
        let event = sized::event(random, version).to_bytes(version);
        let journal = [&whole[..], &event].concat();
        for index in [index_of(&journal), index_of(&whole)] {
            trial.lay(&[(JOURNAL, &journal[..torn]), (INDEX, &index)]);
            append(trial, "a torn journal and what it lacks", &journal[torn..])?;
        }
    }
    Ok(())
}

/// Journals that have not a byte to spare, and one that has a byte too many.
fn full(trial: &mut Trial, random: &mut Random) -> io::Result<()> {
    let fills = [sized::fill_with_tiny, sized::fill_with_large];
    for (fill, version) in fills.into_iter().zip(newer_first()) {
        let mut journal = sized::of_records(random, version, 0);
        fill(random, &mut journal, LARGEST);
        trial.lay(&[(JOURNAL, &journal)]);
        trial.run("a full journal", &["index", JOURNAL, INDEX])?;
        let records = index::records(&journal).map_or(0, |all| all.len());
        let numbers = telling(random, records, MOST_NUMBERS);
        trial.run("a full journal", &look(&numbers))?;
        append(trial, "a full journal, nothing appended", &[])?;
        append(trial, "a full journal, one byte appended", &[5])?;
        append(
            trial,
            "a full journal, one record appended",
            &sized::part(random, version, 1),
        )?;
    }
    let version = random.pick(&Version::ALL);
    let mut journal = sized::of_records(random, version, 0);
    sized::fill_with_tiny(random, &mut journal, LARGEST + 1);
    trial.lay(&[(JOURNAL, &journal), (INDEX, b"NKI")]);
    let what = "whole records, but a byte too many";
    trial.run(what, &["index", JOURNAL, INDEX])?;
    trial.run(what, &["look", JOURNAL, INDEX, "0"])?;
    append(trial, what, &[])
}

/// Appends up to the largest size, and to one byte more.
fn up_to_the_last_byte(trial: &mut Trial, random: &mut Random) -> io::Result<()> {
    let mut version = Version::Two;
    for fill in [sized::fill_with_tiny, sized::fill_with_large] {
        for size in [LARGEST, LARGEST + 1] {
            let what = format!("appended up to {size} bytes");
            // All of it at once, the better half of it, and one record.
            for from in [HEADER, 30_000, LARGEST - 11] {
                version = version.other();
                let mut journal = sized::of_records(random, version, 0);
                fill(random, &mut journal, from);
                lay_good(trial, &journal);
                let mut more = Vec::new();
                fill(random, &mut more, size - from);
                append(trial, &what, &more)?;
            }
        }
    }
    Ok(())
}

/// The most records that a journal can have, of 7 bytes each: the last of them
/// takes the last place.
fn the_last_place(trial: &mut Trial, random: &mut Random) -> io::Result<()> {
    let version = Version::Two;
    let mut journal = sized::of_records(random, version, 0);
    sized::fill_with_tiny(random, &mut journal, HEADER + 8_768 * 7);
    lay_good(trial, &journal);
    let record = sized::tiny(random).to_bytes(version);
    append(trial, "record 8,768", &record)?;
    append(
        trial,
        "four bytes of record 8,769, for which there is room",
        &record[..4],
    )?;
    append(trial, "five bytes of record 8,769", &record[..5])
}

/// Words that make no sense, with good files.
fn senseless_words(trial: &mut Trial, random: &mut Random) -> io::Result<()> {
    let lines = [
        "index",
        "index @journal",
        "index @journal @index @more",
        "append @journal @index",
        "append @journal @index @more @more",
        "look",
        "look @journal",
        "look @journal @index",
        "look @journal @index x",
        "look @journal @index 0 -1",
        "look @journal @index +1",
        "look @journal @index 0x1",
        "look @journal @index 1.0 0",
        "look @journal @index 0 ",
        "index @journal ",
        "append @journal @index ",
    ];
    let version = random.pick(&Version::ALL);
    let journal = sized::of_records(random, version, 5);
    lay_good(trial, &journal);
    trial.put(MORE, &sized::part(random, version, 1));
    for line in lines {
        let words: Vec<&str> = line.split(' ').collect();
        trial.run("words that make no sense", &words)?;
    }
    // They count before what is wrong in the files, and before a number too many.
    let mut numbers = telling(random, 5, MOST_NUMBERS);
    numbers.push("5a".to_owned());
    trial.run("65 numbers, the last of them none", &look(&numbers))?;
    trial.put(JOURNAL, b"NKX");
    trial.run(
        "no number, and a bad journal",
        &["look", JOURNAL, INDEX, "first"],
    )
}

/// Files that are not there, all else being good.
fn missing_files(trial: &mut Trial, random: &mut Random) -> io::Result<()> {
    let what = "a file that is not there";
    let version = random.pick(&Version::ALL);
    let journal = sized::of_records(random, version, 5);
    lay_good(trial, &journal);
    trial.put(MORE, &sized::part(random, version, 1));
    trial.run(what, &["index", "@none", INDEX])?;
    trial.run(what, &["append", "@none", INDEX, MORE])?;
    trial.run(what, &["append", JOURNAL, "@none", MORE])?;
    trial.run(what, &["append", JOURNAL, INDEX, "@none"])?;
    trial.run(what, &["look", "@none", INDEX, "0"])?;
    trial.run(what, &["look", JOURNAL, "@none", "0"])?;
    let what = "an index in a folder that is not there";
    trial.run(what, &["index", JOURNAL, "@none/index"])
}

/// Events of devices at the borders of either version, those among them that a
/// replay refuses.
fn devices(trial: &mut Trial, random: &mut Random) -> io::Result<()> {
    let of_two = [&BORDER_DEVICES[..], &BORDER_REFUSALS].concat();
    let of_one = vec![0, 1, 14, 15, 16, 17, 31, 32, 127, 128, 254, 255];
    for (version, devices) in [(Version::One, of_one), (Version::Two, of_two)] {
        let mut journal = sized::of_records(random, version, 0);
        for device in &devices {
            sized::event_of(random, *device).write(version, &mut journal);
        }
        let what = format!("events at the borders of version {}", version.number());
        trial.lay(&[(JOURNAL, &journal)]);
        trial.run(&what, &["index", JOURNAL, INDEX])?;
        let numbers: Vec<String> = (0..=devices.len()).map(|n| n.to_string()).collect();
        trial.run(&what, &look(&numbers))?;
        let more = sized::event_of(random, version.last_number()).to_bytes(version);
        append(trial, &what, &more)?;
        trial.run(&what, &look(&numbers))?;
    }
    Ok(())
}

/// Records of the other version appended, and the index of the same records in the
/// other version.
fn the_other_version(trial: &mut Trial, random: &mut Random) -> io::Result<()> {
    for version in Version::ALL {
        let journal = sized::of_records(random, version, 3);
        let what = format!(
            "an event of version {} after one of version {}",
            version.other().number(),
            version.number()
        );
        // Behind the bytes of version 1, the last of those of version 2 are a kind.
        for last_byte in [0, 5, 9] {
            let mut more = sized::event_of(random, 2).to_bytes(version.other());
            more.pop();
            more.push(last_byte);
            lay_good(trial, &journal);
            append(trial, &what, &more)?;
        }
    }
    let mut one = sized::of_records(random, Version::One, 0);
    for _ in 0..70 {
        sized::event_of(random, 15).write(Version::One, &mut one);
    }
    let two = convert(&one, LARGEST).expect("the journal is small and good");
    for (journal, other) in [(&one, &two), (&two, &one)] {
        let what = "the index of the same records in the other version";
        trial.lay(&[(JOURNAL, journal), (INDEX, &index_of(other))]);
        trial.run(what, &["look", JOURNAL, INDEX, "64"])?;
        trial.put(INDEX, &index_of(journal));
        trial.run("its own index", &["look", JOURNAL, INDEX, "64"])?;
    }
    Ok(())
}
