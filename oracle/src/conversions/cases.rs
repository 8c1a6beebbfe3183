//! What every comparison goes through, however few journals it makes.

use std::io;

use super::OUT;
use crate::journal::{Version, HEADER, LARGEST};
use crate::maker::convertible::{self, Events, Reasons};
use crate::maker::sized;
use crate::random::Random;
use crate::trial::{Case, Trial, JOURNAL};

pub const ALL: [Case; 11] = [
    small,
    devices,
    cut_at_each_byte,
    cut_in_version_2,
    sizes,
    orders,
    versions,
    in_its_own_place,
    chains,
    senseless_words,
    missing_files,
];

/// The bytes of a file that stands where the outcome goes.
const OLD: &[u8] = b"what was there before";

/// Converts onto a file that is there, or onto none.
fn convert(trial: &mut Trial, what: &str, journal: &[u8], there: bool) -> io::Result<()> {
    trial.lay(&[(JOURNAL, journal)]);
    if there {
        trial.put(OUT, OLD);
    }
    trial.run(what, &["convert", JOURNAL, OUT])
}

/// Converts onto a file and onto none.
fn both(trial: &mut Trial, what: &str, journal: &[u8]) -> io::Result<()> {
    convert(trial, what, journal, false)?;
    convert(trial, what, journal, true)
}

/// No bytes at all, no records, no events, and some records.
fn small(trial: &mut Trial, random: &mut Random) -> io::Result<()> {
    both(trial, "an empty file", b"")?;
    both(trial, "no records", &convertible::of_records(random, 0))?;
    let journal = convertible::without_events(random, 30);
    both(trial, "no events", &journal)?;
    both(trial, "one of each", &convertible::one_of_each(random))?;
    for count in [1, 2, 63, 64, 65, 200] {
        let journal = convertible::of_records(random, count);
        convert(trial, &format!("{count} records"), &journal, count % 2 == 0)?;
    }
    let journal = convertible::of_records(random, 5);
    trial.lay(&[(JOURNAL, &journal), (OUT, &journal)]);
    trial.run("onto a copy of the journal", &["convert", JOURNAL, OUT])
}

/// Devices around the last one that is converted, and at the ends of their bits.
fn devices(trial: &mut Trial, random: &mut Random) -> io::Result<()> {
    for device in [0, 1, 14, 15, 16, 17, 31, 32, 127, 128, 240, 254, 255] {
        let journal = convertible::with_event_of(random, Version::One, device);
        convert(
            trial,
            &format!("device {device}"),
            &journal,
            device % 2 == 0,
        )?;
    }
    // The device stands in the first record, and all others are good.
    for device in [15, 16, 255] {
        let mut journal = convertible::one_of_each(random);
        journal[HEADER + 5] = device;
        both(trial, &format!("device {device} first"), &journal)?;
    }
    // Bytes of a write that look like an event of a device over 15.
    let mut journal = convertible::of_records(random, 2);
    sized::write(random, 18).write(Version::One, &mut journal);
    let at = journal.len() - 18;
    journal[at] = 1;
    journal[at + 5] = 200;
    convert(trial, "bytes that look like an event", &journal, false)
}

/// A record of each kind, cut at each byte.
fn cut_at_each_byte(trial: &mut Trial, random: &mut Random) -> io::Result<()> {
    let journal = convertible::one_of_each(random);
    for cut in 0..=journal.len() {
        let what = format!("cut to {cut} bytes");
        convert(trial, &what, &journal[..cut], cut % 2 == 0)?;
    }
    Ok(())
}

/// Cut journals of version 2: that they are cut counts first.
fn cut_in_version_2(trial: &mut Trial, random: &mut Random) -> io::Result<()> {
    let journal = convertible::with_event_of(random, Version::Two, 1_023);
    let event = sized::event(random, Version::Two).to_bytes(Version::Two);
    let journal = [&journal[..HEADER], &event].concat();
    let cuts = [4, 5, 52, 53, 54, 58, 59, 60, 71, 72];
    for cut in cuts {
        let what = format!("version 2, cut to {cut} bytes");
        convert(trial, &what, &journal[..cut], cut % 2 == 0)?;
    }
    Ok(())
}

/// Outcomes of the largest size, a byte less and more, and a record more.
fn sizes(trial: &mut Trial, random: &mut Random) -> io::Result<()> {
    for events in [Events::Two, Events::Most] {
        for size in [LARGEST - 1, LARGEST, LARGEST + 1, LARGEST + 2] {
            let what = format!("an outcome of {size} bytes, {events:?}");
            let journal = convertible::of_outcome(random, events, size);
            both(trial, &what, &journal)?;
        }
        let mut journal = convertible::of_outcome(random, events, LARGEST - 3);
        sized::tiny(random).write(Version::One, &mut journal);
        both(trial, "a record over the largest outcome", &journal)?;
    }
    // Without an event the outcome is no longer than the journal.
    for size in [LARGEST, LARGEST + 1] {
        let journal = convertible::of_outcome(random, Events::None, size);
        both(trial, &format!("{size} bytes without an event"), &journal)?;
    }
    // As large as a journal may be, and its last record is an event.
    let mut journal = convertible::of_outcome(random, Events::None, LARGEST - 18);
    sized::event_of(random, 3).write(Version::One, &mut journal);
    convert(trial, "61,440 bytes with one event", &journal, false)
}

/// Every reason with all of the others.
fn orders(trial: &mut Trial, random: &mut Random) -> io::Result<()> {
    for (at, reasons) in Reasons::all().into_iter().enumerate() {
        let journal = reasons.journal(random);
        // Not in step with the reasons, which come by twos.
        let there = (at + at / 2 + at / 4 + at / 8) % 2 == 0;
        convert(trial, &format!("{reasons:?}"), &journal, there)?;
    }
    Ok(())
}

/// Versions that are neither, and the other one.
fn versions(trial: &mut Trial, random: &mut Random) -> io::Result<()> {
    for version in [0, 2, 3, 4, 255, 256, 257, 258, 512, 513, 65_535u16] {
        let mut journal = convertible::without_events(random, 4);
        journal[3..5].copy_from_slice(&version.to_le_bytes());
        let what = format!("version {version}");
        convert(trial, &what, &journal, version % 2 == 0)?;
    }
    Ok(())
}

/// Where the journal itself is what is written, for each number.
fn in_its_own_place(trial: &mut Trial, random: &mut Random) -> io::Result<()> {
    let none = Reasons::NONE;
    let mut all = vec![none];
    for large in [false, true] {
        all.push(Reasons { large, ..none });
        all.push(Reasons {
            version: true,
            large,
            ..none
        });
        all.push(Reasons {
            device: true,
            large,
            ..none
        });
    }
    for fault in sized::Fault::ALL {
        let fault = Some(fault);
        all.push(Reasons { fault, ..none });
    }
    for reasons in all {
        trial.lay(&[(JOURNAL, &reasons.journal(random))]);
        let what = format!("onto itself, {reasons:?}");
        trial.run(&what, &["convert", JOURNAL, JOURNAL])?;
    }
    Ok(())
}

/// What was converted is not converted again, in another place or its own.
fn chains(trial: &mut Trial, random: &mut Random) -> io::Result<()> {
    for count in [0, 20] {
        trial.lay(&[(JOURNAL, &convertible::of_records(random, count))]);
        trial.run("first", &["convert", JOURNAL, OUT])?;
        trial.run("what was converted", &["convert", OUT, "@again"])?;
        trial.run("onto itself first", &["convert", JOURNAL, JOURNAL])?;
        trial.run("onto itself again", &["convert", JOURNAL, JOURNAL])?;
        trial.run("onto the journal", &["convert", OUT, JOURNAL])?;
    }
    Ok(())
}

/// Words that make no sense, with a good journal and with a bad one.
fn senseless_words(trial: &mut Trial, random: &mut Random) -> io::Result<()> {
    let lines = [
        "convert",
        "convert @journal",
        "convert @journal @out @out",
        "convert @journal ",
        "convert  @out",
        "convert  ",
    ];
    let good = convertible::of_records(random, 5);
    for journal in [&good[..], b"NKX"] {
        trial.lay(&[(JOURNAL, journal), (OUT, OLD)]);
        for line in lines {
            let words: Vec<&str> = line.split(' ').collect();
            trial.run("words that make no sense", &words)?;
        }
    }
    Ok(())
}

/// Files that are not there, and a folder that is not.
fn missing_files(trial: &mut Trial, random: &mut Random) -> io::Result<()> {
    let what = "a journal that is not there";
    let journal = convertible::of_records(random, 5);
    trial.lay(&[(OUT, OLD)]);
    trial.run(what, &["convert", "@none", OUT])?;
    trial.run(what, &["convert", "@none", "@none"])?;
    trial.run(what, &["convert", "@none", "@none/out"])?;
    trial.lay(&[(JOURNAL, &journal)]);
    let what = "a folder that is not there";
    trial.run(what, &["convert", JOURNAL, "@none/out"])
}
