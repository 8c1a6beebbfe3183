//! What every comparison goes through, however few journals it makes.

use std::io;

use super::classes::{self, good, in_any_case, mixed};
use super::mixture::words;
use crate::desk::{DRILL, LIVE};
use crate::issue::keeper_left;
use crate::journal::{hex, Version, LARGEST};
use crate::maker::sized::{self, Fault};
use crate::maker::{issuable, HALF};
use crate::random::Random;
use crate::trial::{Case, Trial, JOURNAL};

pub const ALL: [Case; 12] = [
    clocks,
    counts,
    ends_of_the_clock,
    unseeded,
    fields_of_one_byte,
    other_fields,
    many_numbers,
    carries,
    endings,
    senseless_clocks,
    senseless_classes,
    missing_files,
];

/// Issues at a clock.
fn issue(trial: &mut Trial, what: &str, clock: u32, classes: &[String]) -> io::Result<()> {
    trial.run(what, &words(&clock.to_string(), classes))
}

/// Issues so many ticks after the seeding of the keeper that the journal leaves.
fn issue_after(
    trial: &mut Trial,
    what: &str,
    journal: &[u8],
    ticks: u32,
    classes: &[String],
) -> io::Result<()> {
    let seeded = keeper_left(journal).map_or(0, |keeper| keeper.seeding_clock);
    trial.lay(&[(JOURNAL, journal)]);
    issue(trial, what, seeded.wrapping_add(ticks), classes)
}

/// Ticks at which a reseed is due or is not, by each way of seeding and in both
/// versions. The draws after the first reseed no more.
fn clocks(trial: &mut Trial, random: &mut Random) -> io::Result<()> {
    let ticks = [
        0,
        1,
        299_999,
        300_000,
        300_001,
        300_002,
        5_000_000,
        HALF - 1,
        HALF,
        HALF + 300_001,
        0u32.wrapping_sub(300_001),
        u32::MAX,
    ];
    for turn in 0..9 {
        let version = Version::ALL[turn as usize % 2];
        let journal = issuable::seeded(random, version, turn, 2_048);
        for (at, ticks) in (0..).zip(ticks) {
            // The first round has all of them, and the others those that matter most.
            if turn < 3 || [300_000, 300_001, u32::MAX].contains(&ticks) {
                let classes = good(random, 1 + (at + turn) as usize % 3);
                let what = format!("{ticks} ticks after seeding {turn}");
                issue_after(trial, &what, &journal, ticks, &classes)?;
            }
        }
    }
    Ok(())
}

/// Counts at the borders of what a reseed takes, where one is due and where none is.
fn counts(trial: &mut Trial, random: &mut Random) -> io::Result<()> {
    let counts = [
        0, 64, 1_022, 1_023, 1_024, 1_025, 1_279, 1_280, 1_343, 1_344, 1_919, 1_920, 1_983, 1_984,
        2_047, 2_048, 2_049, 4_096, 20_000, 32_700,
    ];
    for (turn, count) in (0..).zip(counts) {
        let version = Version::ALL[turn as usize % 2];
        let journal = issuable::seeded(random, version, turn, count);
        for ticks in [300_001, 300_000] {
            let classes = mixed(random, 3);
            let classes = [good(random, 1), classes].concat();
            let what = format!("{ticks} ticks after the seeding, count {count}");
            issue_after(trial, &what, &journal, ticks, &classes)?;
        }
    }
    Ok(())
}

/// The first and the last clock, and numbers with zeros in front.
fn ends_of_the_clock(trial: &mut Trial, random: &mut Random) -> io::Result<()> {
    let journal = issuable::seeded(random, Version::Two, 2, 3_000);
    trial.lay(&[(JOURNAL, &journal)]);
    for clock in [
        "0",
        "1",
        "2147483647",
        "2147483648",
        "4294967294",
        "4294967295",
        "000",
        "007",
        "00000000000000000000004294967295",
    ] {
        trial.run(&format!("clock {clock}"), &words(clock, &good(random, 2)))?;
    }
    Ok(())
}

/// No number is issued before the first seeding, and a class that is none counts first.
fn unseeded(trial: &mut Trial, random: &mut Random) -> io::Result<()> {
    for (count, version) in [0, 500, 1_023].into_iter().zip(Version::in_turn()) {
        let journal = issuable::unseeded(random, version, count);
        trial.lay(&[(JOURNAL, &journal)]);
        let what = format!("unseeded, count {count}");
        let now = random.u32();
        issue(trial, &what, now, &good(random, 5))?;
        issue(trial, &what, now, &mixed(random, 20))?;
        issue(trial, &what, now, &[classes::wrong(random)])?;
    }
    // Nothing but a header.
    let journal = sized::of_records(random, Version::One, 0);
    trial.lay(&[(JOURNAL, &journal)]);
    issue(trial, "no records", 0, &good(random, 2))
}

/// All fields of one byte, by a keeper that is seeded and by one that is not.
fn fields_of_one_byte(trial: &mut Trial, random: &mut Random) -> io::Result<()> {
    let seeded = issuable::seeded(random, Version::Two, 0, 1_500);
    let unseeded = issuable::unseeded(random, Version::One, 900);
    for (what, journal) in [("seeded", seeded), ("unseeded", unseeded)] {
        for first in [0, 64, 128, 192u8] {
            let bytes = first..=first + 63;
            let fields: Vec<String> = bytes
                .map(|byte| in_any_case(random, &hex(&[byte])))
                .collect();
            let what = format!("fields of one byte from {first} on, {what}");
            issue_after(trial, &what, &journal, 300_001, &fields)?;
        }
    }
    Ok(())
}

/// Fields of no byte, of two and of many, between good ones, which must not be drawn
/// for.
fn other_fields(trial: &mut Trial, random: &mut Random) -> io::Result<()> {
    let seeded = issuable::seeded(random, Version::One, 1, 2_048);
    let unseeded = issuable::unseeded(random, Version::Two, 900);
    for (what, journal) in [("seeded", seeded), ("unseeded", unseeded)] {
        for length in [0, 2, 3, 4, 16, 17, 64, 128, classes::LONGEST] {
            let fields = [
                vec![DRILL; length],
                vec![LIVE; length],
                random.bytes(length),
            ];
            let words = fields.map(|field| in_any_case(random, &hex(&field)));
            let mut classes = good(random, 1);
            for word in words {
                classes.push(word);
                classes.extend(good(random, 1));
            }
            let what = format!("fields of {length} bytes, {what}");
            issue_after(trial, &what, &journal, 300_001, &classes)?;
        }
        // The first class is none: the draw after it is the one that reseeds.
        let words = ["", "4444", "4d", "444c", "44", "4C"].map(str::to_owned);
        let what = format!("the first class is none, {what}");
        issue_after(trial, &what, &journal, 300_001, &words)?;
    }
    Ok(())
}

/// As many numbers as a desk remembers, and more.
fn many_numbers(trial: &mut Trial, random: &mut Random) -> io::Result<()> {
    for (turn, count) in (0..).zip([1, 2, 32, 63, 64, 65, 66, 80, 128, 129, 200]) {
        let version = Version::ALL[turn as usize % 2];
        let journal = issuable::seeded(random, version, turn, 2_048);
        let what = format!("{count} numbers");
        for ticks in [0, 300_001] {
            let classes = good(random, count);
            issue_after(trial, &what, &journal, ticks, &classes)?;
        }
        // Classes that are none take no place.
        let mut classes = good(random, count);
        for _ in 0..5 {
            let at = random.below(classes.len() as u64 + 1) as usize;
            classes.insert(at, classes::wrong(random));
        }
        let what = format!("{what}, and some that are refused");
        issue_after(trial, &what, &journal, 0, &classes)?;
    }
    Ok(())
}

/// The generator's counter carries while numbers are issued.
fn carries(trial: &mut Trial, random: &mut Random) -> io::Result<()> {
    for (blocks, version) in [1, 2, 5, 64].into_iter().zip(Version::in_turn()) {
        let journal = issuable::about_to_carry(random, version, blocks);
        let classes = good(random, 70);
        let what = format!("the counter carries after {blocks} blocks");
        issue_after(trial, &what, &journal, 0, &classes)?;
    }
    Ok(())
}

/// Journals that do not end with 0, and the largest that may.
fn endings(trial: &mut Trial, random: &mut Random) -> io::Result<()> {
    for version in Version::ALL {
        for (turn, fault) in (0..).zip(Fault::ALL) {
            let mut journal = issuable::seeded(random, version, turn, 1_500);
            fault.put(random, &mut journal);
            trial.lay(&[(JOURNAL, &journal)]);
            let now = random.u32();
            let what = format!("{fault:?} in {version:?}");
            issue(trial, &what, now, &good(random, 3))?;
            // What is wrong with the classes counts after the journal.
            issue(trial, &what, now, &[classes::wrong(random)])?;
        }
        for size in [LARGEST - 1, LARGEST, LARGEST + 1] {
            let mut journal = issuable::seeded(random, version, 2, 2_048);
            sized::fill_with_large(random, &mut journal, size);
            let what = format!("{size} bytes");
            issue_after(trial, &what, &journal, 300_001, &good(random, 3))?;
        }
    }
    trial.lay(&[(JOURNAL, b"")]);
    issue(trial, "an empty file", 0, &good(random, 1))
}

/// Clocks that make no sense, before classes that do.
fn senseless_clocks(trial: &mut Trial, random: &mut Random) -> io::Result<()> {
    let clocks = [
        "",
        " ",
        "+7",
        "-7",
        "-0",
        "7 ",
        " 7",
        "7.0",
        "0x7",
        "7e1",
        "1_0",
        "1,000",
        "drill",
        "4294967296",
        "4294967302",
        "8589934592",
        "18446744073709551616",
        "99999999999999999999999999999999999999999",
        "\u{663}",
    ];
    let good_one = issuable::seeded(random, Version::One, 0, 2_048);
    trial.lay(&[(JOURNAL, &good_one)]);
    for clock in clocks {
        let what = "a clock that is none";
        trial.run(what, &words(clock, &good(random, 2)))?;
    }
    Ok(())
}

/// Classes that make no sense, alone, first and last, and none at all.
fn senseless_classes(trial: &mut Trial, random: &mut Random) -> io::Result<()> {
    let wrong = [
        "4",
        "444",
        "0x44",
        "4g",
        "g4",
        " 44",
        "44 ",
        "4 4",
        "44,",
        "+4",
        "-4",
        "--",
        "-",
        "drills",
        "dril",
        "Drill",
        "DRILL",
        "LIVE",
        "Live",
        "lives",
        "test",
        " ",
        "D",
        "L",
        "\u{ff14}4",
        "\u{e9}",
        "4\u{301}",
    ];
    let good_one = issuable::seeded(random, Version::Two, 0, 2_048);
    trial.lay(&[(JOURNAL, &good_one)]);
    let what = "a class that is none";
    for (turn, word) in wrong.into_iter().enumerate() {
        let mut classes = mixed(random, 2);
        let at = [0, 1, 2][turn % 3];
        classes.insert(at, word.to_owned());
        trial.run(what, &words("7", &classes))?;
        trial.run(what, &words("7", &[word.to_owned()]))?;
    }
    let long = "4c".repeat(classes::LONGEST) + "4";
    trial.run("an odd number of digits", &words("7", &[long]))?;
    let mut many = good(random, 80);
    many.push("44g".to_owned());
    trial.run("the last of 81 classes", &words("7", &many))?;
    // Whatever the journal holds, and whether it is there or not.
    for journal in [&good_one[..], b"NKX"] {
        trial.lay(&[(JOURNAL, journal)]);
        lines_of_senseless_words(trial)?;
    }
    trial.lay(&[]);
    lines_of_senseless_words(trial)
}

fn lines_of_senseless_words(trial: &mut Trial) -> io::Result<()> {
    let lines = [
        "issue",
        "issue @journal",
        "issue @journal 7",
        "issue @journal drill",
        "issue @journal drill 7",
        "issue @journal 7 drill live 5",
        "issue @journal 4294967296 drill",
        "issue  7 drill",
        "issue  ",
    ];
    for line in lines {
        let words: Vec<&str> = line.split(' ').collect();
        trial.run("words that make no sense", &words)?;
    }
    Ok(())
}

/// A journal that is not there.
fn missing_files(trial: &mut Trial, random: &mut Random) -> io::Result<()> {
    trial.lay(&[]);
    let what = "a journal that is not there";
    issue(trial, what, 7, &good(random, 2))?;
    trial.lay(&[("@other", b"x")]);
    issue(trial, what, 7, &[classes::wrong(random)])?;
    trial.run(what, &["issue", "@none/journal", "7", "drill"])
}
