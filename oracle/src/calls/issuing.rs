//! Calls on a desk, in traces: what each of them brings up comes in turn and not by
//! chance, as no draw ever repeats by itself.

use std::io;

use super::{answer_line, event, get, interrupt, just_outside, keeper_line, seed, ways_out};
use super::{Place, Trace};
use crate::balance::Counts;
use crate::desk::{draws_to_come, Desk, Number, DRAWN, DRILL, LIVE, NUMBER, PLACES};
use crate::journal::{hex_word, Record};
use crate::maker::anything::first_clock;
use crate::random::Random;
use crate::situations::BORDER_DEVICES;

/// A sequence, once its keeper is made.
pub(super) type Sequence = fn(&mut Trace, &mut Random) -> io::Result<()>;

/// Those that every trace goes through.
pub(super) const ALL: [Sequence; 9] = [
    refusals,
    records_out_of_range,
    classes,
    repeats,
    repeats_in_calls_that_follow,
    no_repeats,
    every_count,
    remembered_and_forgotten,
    reseeds,
];

/// Counts that no desk may have, such as are one that it may if they are cut to 8 or
/// 16 bits, or have a sign.
const TOO_MANY: [u32; 14] = [
    65,
    66,
    127,
    128,
    255,
    256,
    256 + 64,
    65_535,
    65_536,
    65_536 + 64,
    1 << 31,
    (1 << 31) + 64,
    u32::MAX - 64,
    u32::MAX,
];

/// The ticks after which a draw reseeds, if there is enough.
const DUE: u32 = 300_001;

fn desk_words(desk: &Desk) -> String {
    format!("{} {}", desk.count, hex_word(&desk.places.concat()))
}

impl Trace<'_> {
    /// Lends another desk.
    fn put_desk(&mut self, desk: &Desk) -> io::Result<()> {
        self.desk = desk.clone();
        writeln!(self.out, "desk {}", desk_words(desk))
    }

    fn issue(&mut self, now: u32, class: &[u8]) -> io::Result<()> {
        writeln!(self.out, "issue {now} {}", hex_word(class))?;
        let keeper = self.keeper.clone();
        let desk = self.desk.clone();
        let issued = self.desk.issue(&mut self.keeper, now, class);
        if let Some(ledger) = &mut self.ledger {
            // To the pools it is a read, however often it was drawn.
            let length = DRAWN as u16;
            let read = Record::Generator { now, length };
            ledger.hold(&read, &issued.answer, Counts::of(&self.keeper));
        }
        writeln!(self.out, "{}", answer_line(&issued.answer))?;
        writeln!(self.out, "number {}", hex_word(&issued.number))?;
        writeln!(self.out, "{}", keeper_line(&keeper, &self.keeper))?;
        match self.desk == desk {
            true => writeln!(self.out, "desk-after same"),
            false => writeln!(self.out, "desk-after {}", desk_words(&self.desk)),
        }
    }

    /// Issues by a desk that is lent for it.
    fn issue_by(&mut self, desk: &Desk, now: u32, class: &[u8]) -> io::Result<()> {
        self.put_desk(desk)?;
        self.issue(now, class)
    }

    /// Seeds the keeper by a call. What is left does for many reseeds.
    fn seed_it(&mut self, random: &mut Random) -> io::Result<u32> {
        let record = seed(random, 4_096, 512);
        self.call(random, &record)?;
        Ok(self.keeper.seeding_clock)
    }

    /// What will be drawn for drills.
    fn to_come(&self, now: u32) -> Vec<Number> {
        draws_to_come(&self.keeper, now, DRILL, 6)
    }

    /// A call of the keeper that leaves its generator alone.
    fn call_in_between(&mut self, random: &mut Random, now: u32) -> io::Result<()> {
        let record = match random.below(3) {
            0 => interrupt(random, now),
            1 => event(random, 5, now),
            _ => Record::Write {
                now,
                bytes: random.bytes(3).into(),
            },
        };
        self.call(random, &record)
    }

    /// Gives the generator the words that it had before.
    fn put_generator(&mut self, words: [u32; 16]) -> io::Result<()> {
        for (index, word) in words.into_iter().enumerate() {
            if self.keeper.generator[index] != word {
                let field = "generator-word";
                self.put(Place { field, index }, word.into())?;
            }
        }
        Ok(())
    }

    /// An issuing of any class, now and then by another desk, which may remember some
    /// of what will be drawn.
    pub fn any_issuing(&mut self, random: &mut Random, now: u32) -> io::Result<()> {
        let class = any_class(random);
        if random.one_in(2) {
            let any = random.below(65) as u32;
            let count = random.pick(&[0, 1, 63, 64, 64, any, any, 65]);
            let mut desk = any_desk(random, count);
            let class = class.first().copied().unwrap_or(DRILL);
            let drawn = draws_to_come(&self.keeper, now, class, 5);
            let remembered = random.below(6) as usize;
            for number in &drawn[..remembered] {
                desk.places[random.below(64) as usize] = *number;
            }
            self.put_desk(&desk)?;
        }
        self.issue(now, &class)
    }
}

/// A class field: mostly the one byte of a class.
fn any_class(random: &mut Random) -> Vec<u8> {
    let class = random.pick(&[DRILL, LIVE]);
    let length = random.pick(&[0, 1, 2, 2, 3, 16]);
    match random.below(8) {
        0 => vec![class; length],
        1 => random.bytes(1),
        _ => vec![class],
    }
}

/// A desk with so many numbers, none of which is drawn. Its free places are not zero.
fn any_desk(random: &mut Random, count: u32) -> Desk {
    let mut desk = Desk::empty();
    desk.count = count;
    for place in &mut desk.places {
        place.copy_from_slice(&random.bytes(NUMBER));
        place[0] = random.pick(&[DRILL, LIVE]);
    }
    desk
}

/// The same with these numbers at these places.
fn desk_with(random: &mut Random, count: u32, places: &[usize], numbers: &[Number]) -> Desk {
    let mut desk = any_desk(random, count);
    for (place, number) in places.iter().zip(numbers) {
        desk.places[*place] = *number;
    }
    desk
}

/// Class fields of one byte and of others that are none.
fn wrong_class(random: &mut Random) -> Vec<u8> {
    let fields: [&[u8]; 5] = [&[DRILL + 1], &[], &[LIVE, LIVE], &[DRILL, 0], b"live"];
    random.pick(&fields).to_vec()
}

/// Each refusal alone and with those that count after it.
fn refusals(trace: &mut Trace, random: &mut Random) -> io::Result<()> {
    let now = random.u32();
    // By the desk that a sequence begins with: unseeded, and of no class.
    trace.issue(now, &[DRILL])?;
    trace.issue(now, &[DRILL + 1])?;
    trace.issue(now, &[])?;
    for seeded in [false, true] {
        if seeded {
            trace.seed_it(random)?;
        }
        for count in TOO_MANY {
            trace.put_desk(&any_desk(random, count))?;
            for class in [vec![LIVE], wrong_class(random)] {
                trace.issue(now, &class)?;
            }
        }
        // The record is out of range, and the desk is or is not.
        for count in [65, 64, 0] {
            trace.put_desk(&any_desk(random, count))?;
            trace.put_count("tally", 64)?;
            for class in [vec![DRILL], wrong_class(random)] {
                trace.issue(now, &class)?;
            }
            trace.put_count("tally", 0)?;
        }
        // All that could be drawn is remembered, and something else counts first.
        let drawn = trace.to_come(now);
        let mut desk = desk_with(random, 64, &[0, 1, 2, 3, 4, 5], &drawn);
        trace.issue_by(&desk, now, &[LIVE + 1])?;
        trace.put_count("tally", 64)?;
        trace.issue(now, &[DRILL])?;
        trace.put_count("tally", 0)?;
        trace.put_count("seeded", 0)?;
        trace.issue(now, &[DRILL])?;
        trace.put_count("seeded", i64::from(seeded))?;
        desk.count = 65;
        trace.issue_by(&desk, now, &[DRILL])?;
        desk.count = 64;
        trace.issue_by(&desk, now, &[DRILL])?;
    }
    Ok(())
}

/// Each way to put the keeper's record out of range, with a class and without one.
fn records_out_of_range(trace: &mut Trace, random: &mut Random) -> io::Result<()> {
    let devices = BORDER_DEVICES.into_iter();
    let timers = devices.flat_map(|device| just_outside(device as usize));
    let ways: Vec<(Place, i64)> = ways_out().into_iter().chain(timers).collect();
    for count in [3, 65] {
        trace.put_desk(&any_desk(random, count))?;
        for (place, value) in &ways {
            let kept = get(&trace.keeper, *place);
            trace.put(*place, *value)?;
            let now = random.u32();
            trace.issue(now, &[LIVE])?;
            trace.issue(now, &wrong_class(random))?;
            trace.put(*place, kept)?;
        }
        // Back in its range it refuses for other reasons, and then not at all.
        let now = random.u32();
        trace.issue(now, &[LIVE])?;
        if !trace.keeper.seeded {
            trace.seed_it(random)?;
        }
    }
    Ok(())
}

/// All fields of one byte, and fields of none and of more.
fn classes(trace: &mut Trace, random: &mut Random) -> io::Result<()> {
    let mut now = random.u32();
    for seeded in [false, true] {
        if seeded {
            now = trace.seed_it(random)?;
        }
        for class in 0..=255 {
            trace.issue(now, &[class])?;
        }
        for length in [0, 2, 3, 4, 15, 16, 17, 64, 256, 257, 4_096, 4_097] {
            for class in [DRILL, LIVE] {
                trace.issue(now, &vec![class; length])?;
            }
        }
        for [first, last] in [[DRILL, 0], [0, DRILL], [LIVE, DRILL], [DRILL, LIVE], [0, 0]] {
            trace.issue(now, &[first, last])?;
        }
        trace.issue(now, &[DRILL])?;
    }
    Ok(())
}

/// One to four draws that repeat, each at the first, a middle, the last and another
/// place, of a desk that is full and of one that is not.
fn repeats(trace: &mut Trace, random: &mut Random) -> io::Result<()> {
    let now = trace.seed_it(random)?;
    for count in [5, 64] {
        let mut places = [0, count / 2, count - 1, 1];
        for _ in 0..places.len() {
            for repeats in 1..=4 {
                let drawn = trace.to_come(now);
                let desk = desk_with(random, count as u32, &places, &drawn[..repeats]);
                trace.issue_by(&desk, now, &[DRILL])?;
            }
            places.rotate_left(1);
            trace.call_in_between(random, now)?;
        }
    }
    // Of the other class too.
    for repeats in 1..=4 {
        let drawn = draws_to_come(&trace.keeper, now, LIVE, repeats);
        let desk = desk_with(random, 64, &[63, 0, 40, 41], &drawn);
        trace.issue_by(&desk, now, &[LIVE])?;
    }
    // By a desk that remembers one number, or the same one everywhere.
    let drawn = trace.to_come(now);
    let desk = desk_with(random, 1, &[0], &drawn[..1]);
    trace.issue_by(&desk, now, &[DRILL])?;
    let mut desk = Desk::empty();
    desk.count = 64;
    desk.places = [trace.to_come(now)[0]; PLACES];
    trace.issue_by(&desk, now, &[DRILL])
}

/// Draws that are remembered before they are drawn, by calls one after the other on
/// a desk that is not changed from outside in between.
fn repeats_in_calls_that_follow(trace: &mut Trace, random: &mut Random) -> io::Result<()> {
    let now = trace.seed_it(random)?;
    // By which of the draws to come, from 0 on.
    let remembered: [&[usize]; 6] = [
        &[1, 2, 3],
        &[0, 2],
        &[1],
        &[0, 1, 2, 3],
        &[0, 1, 2, 3, 4],
        &[0, 1, 2, 3, 5],
    ];
    for which in remembered {
        for count in [10, 64] {
            let drawn = trace.to_come(now);
            let numbers: Vec<Number> = which.iter().map(|draw| drawn[*draw]).collect();
            // Not among the oldest, which a full desk forgets.
            let desk = desk_with(random, count, &[9, 3, 5, 7, 4], &numbers);
            trace.issue_by(&desk, now, &[DRILL])?;
            if random.one_in(2) {
                trace.call_in_between(random, now)?;
            }
            trace.issue(now, &[DRILL])?;
        }
    }
    // A read between two issuings takes a draw away.
    let drawn = trace.to_come(now);
    let desk = desk_with(random, 20, &[2, 4, 6, 8], &drawn[..4]);
    trace.issue_by(&desk, now, &[DRILL])?;
    let length = DRAWN as u16;
    trace.call(random, &Record::Generator { now, length })?;
    trace.issue(now, &[DRILL])
}

/// What is close to a repeat and is none.
fn no_repeats(trace: &mut Trace, random: &mut Random) -> io::Result<()> {
    let now = trace.seed_it(random)?;
    // One byte is another, at the first, a middle and the last place.
    for byte in 0..NUMBER {
        let mut number = trace.to_come(now)[0];
        number[byte] ^= match byte {
            0 => DRILL ^ LIVE,
            _ => random.between(1, 255) as u8,
        };
        let place = [0, 32, 63][byte % 3];
        let desk = desk_with(random, 64, &[place], &[number]);
        trace.issue_by(&desk, now, &[DRILL])?;
    }
    // All of these at once, and each bit of some.
    let mut desk = any_desk(random, 64);
    let number = trace.to_come(now)[0];
    for (at, place) in desk.places.iter_mut().enumerate() {
        *place = number;
        place[at % NUMBER] ^= 1 << (at % 8);
    }
    trace.issue_by(&desk, now, &[DRILL])?;
    // The class byte alone is another: that of the other class, or of none.
    for (class, other) in [(DRILL, LIVE), (LIVE, DRILL), (DRILL, 0), (LIVE, 255)] {
        let drawn = draws_to_come(&trace.keeper, now, other, 4);
        let desk = desk_with(random, 64, &[0, 30, 62, 63], &drawn);
        trace.issue_by(&desk, now, &[class])?;
    }
    // Free places hold it.
    for count in [0, 1, 33, 63] {
        let number = trace.to_come(now)[0];
        let mut desk = any_desk(random, count);
        desk.places[count as usize..].fill(number);
        trace.issue_by(&desk, now, &[DRILL])?;
    }
    // It is the number that a full desk is about to forget, and so a repeat.
    let drawn = trace.to_come(now);
    let desk = desk_with(random, 64, &[0], &drawn[..1]);
    trace.issue_by(&desk, now, &[DRILL])
}

/// Desks of each count, with what is drawn in the first free place and in the last
/// that is not.
fn every_count(trace: &mut Trace, random: &mut Random) -> io::Result<()> {
    let now = trace.seed_it(random)?;
    for count in 0..=PLACES {
        if count < PLACES {
            let drawn = trace.to_come(now);
            let desk = desk_with(random, count as u32, &[count], &drawn[..1]);
            trace.issue_by(&desk, now, &[DRILL])?;
        }
        if count > 0 {
            let drawn = trace.to_come(now);
            let desk = desk_with(random, count as u32, &[count - 1], &drawn[..1]);
            trace.issue_by(&desk, now, &[DRILL])?;
        }
    }
    // Full ones, whose oldest goes, and goes on going.
    trace.put_desk(&any_desk(random, 64))?;
    for _ in 0..3 {
        let class = random.pick(&[DRILL, LIVE]);
        trace.issue(now, &[class])?;
    }
    Ok(())
}

/// A desk that is filled by calls alone, from none to more than it remembers, and
/// what it then draws once more.
fn remembered_and_forgotten(trace: &mut Trace, random: &mut Random) -> io::Result<()> {
    let now = trace.seed_it(random)?;
    let mut before = Vec::new();
    for number in 0..PLACES + 2 {
        before.push(trace.keeper.generator);
        trace.issue(now, &[DRILL])?;
        match number % 11 {
            5 => trace.call_in_between(random, now)?,
            7 => trace.issue(now, &[DRILL, DRILL])?,
            _ => {}
        }
    }
    // Numbers 0 and 1 are forgotten, and all after them are remembered.
    trace.put_generator(before[2])?;
    trace.issue(now, &[DRILL])?;
    trace.put_generator(before[63])?;
    trace.issue(now, &[DRILL])?;
    trace.put_generator(before[0])?;
    trace.issue(now, &[DRILL])?;
    // The newest is what is drawn first, and then the other one.
    trace.put_generator(before[0])?;
    trace.issue(now, &[DRILL])?;
    // Those of the other class were never issued.
    trace.put_generator(before[40])?;
    trace.issue(now, &[LIVE])
}

/// First draws that reseed, or just do not, and then repeat: the draws after them
/// reseed no more, but a reseed that came to nothing stays due.
fn reseeds(trace: &mut Trace, random: &mut Random) -> io::Result<()> {
    let seeded = trace.seed_it(random)?;
    // As calls alone come to it.
    trace.issue(seeded.wrapping_add(DUE - 1), &[LIVE])?;
    trace.issue(seeded.wrapping_add(DUE), &[LIVE])?;
    trace.issue(seeded.wrapping_add(DUE), &[LIVE])?;
    for count in [1_023, 1_024, 1_344, 2_048, 32_768] {
        for repeats in 0..=4 {
            let any = first_clock(random);
            let seeded = random.pick(&[any, u32::MAX - 1_000]);
            let ticks = match repeats % 2 {
                0 => DUE,
                _ => random.pick(&[DUE, DUE + 1, 1 << 30, (1 << 31) - 1]),
            };
            reseed_by(trace, random, count, seeded, ticks, repeats)?;
        }
    }
    // Not due: by a tick, as the clock stands, and as it ran back.
    for ticks in [DUE - 1, 0, 1 << 31, u32::MAX] {
        let seeded = first_clock(random);
        let repeats = random.below(5) as usize;
        reseed_by(trace, random, 2_048, seeded, ticks, repeats)?;
    }
    Ok(())
}

/// A call so many ticks after a seeding, by a desk that remembers so many of its
/// draws, and one more after it.
fn reseed_by(
    trace: &mut Trace,
    random: &mut Random,
    count: i64,
    seeded: u32,
    ticks: u32,
    repeats: usize,
) -> io::Result<()> {
    trace.put_count("input-count", count)?;
    trace.put_count("seeding-clock", seeded.into())?;
    let now = seeded.wrapping_add(ticks);
    let drawn = trace.to_come(now);
    let desk = desk_with(random, 64, &[63, 50, 10, 5], &drawn[..repeats]);
    trace.issue_by(&desk, now, &[DRILL])?;
    trace.issue(now, &[DRILL])
}

#[cfg(test)]
mod tests {
    use super::super::tests::{put_told, tell, tell_desk};
    use super::super::{calls, chance, every_issuing};
    use super::*;
    use crate::credits::clock_difference;
    use crate::desk::wrong_rules;
    use crate::keeper::{Keeper, START};
    use crate::read_back::{bytes, number};
    use crate::rules::Wrong;
    use std::collections::BTreeSet;
    use std::panic::catch_unwind;

    /// A call that a trace tells of, by its text alone.
    struct Told {
        keeper: Keeper,
        desk: Desk,
        now: u32,
        class: Vec<u8>,
        answer: Vec<u64>,
        /// The calls on the desk since it was changed from outside.
        calls: usize,
    }

    impl Told {
        fn number(&self) -> u64 {
            self.answer[0]
        }

        fn record_out(&self) -> bool {
            !self.keeper.in_range()
        }

        fn count_out(&self) -> bool {
            self.desk.count > 64
        }

        fn no_class(&self) -> bool {
            self.class != [DRILL] && self.class != [LIVE]
        }

        /// Four draws, whatever comes of the call; by a class that is none those of a
        /// drill.
        fn draws(&self) -> Vec<Number> {
            let class = if self.no_class() {
                DRILL
            } else {
                self.class[0]
            };
            let mut keeper = self.keeper.clone();
            keeper.tally = keeper.tally.min(63);
            draws_to_come(&keeper, self.now, class, 4)
        }

        /// The places of a full or a lesser desk at which the draws stand.
        fn places(&self) -> Vec<Option<usize>> {
            let remembered = &self.desk.places[..(self.desk.count as usize).min(PLACES)];
            let place = |draw: &Number| remembered.iter().position(|other| other == draw);
            self.draws().iter().map(place).collect()
        }

        /// How many draws of a call that is not refused before repeat.
        fn repeats(&self) -> usize {
            let places = self.places();
            places.iter().take_while(|place| place.is_some()).count()
        }

        /// Whether the input pool was asked for a key at the first draw.
        fn due(&self) -> bool {
            clock_difference(self.now, self.keeper.seeding_clock) > 300_000
        }
    }

    fn told(text: &str) -> Vec<Told> {
        let mut all: Vec<Told> = Vec::new();
        let mut keeper = Keeper::make(&[0; START]).unwrap();
        let mut desk = Desk::empty();
        let mut calls = 0;
        for line in text.lines().filter(|line| !line.starts_with('#')) {
            let w: Vec<&str> = line.split(' ').collect();
            match w[0] {
                "sequence" => (desk, calls) = (Desk::empty(), 0),
                "make" => keeper = Keeper::make(&[0; START]).unwrap(),
                "put" => put_told(&mut keeper, &w),
                "keeper" if w[1] == "none" => {}
                "keeper" => tell(&mut keeper, line),
                "desk" => {
                    tell_desk(&mut desk, line);
                    calls = 0;
                }
                "desk-after" => tell_desk(&mut desk, line),
                "issue" => {
                    all.push(Told {
                        keeper: keeper.clone(),
                        desk: desk.clone(),
                        now: number(w[1]),
                        class: bytes(w[2]),
                        answer: Vec::new(),
                        calls,
                    });
                    calls += 1;
                }
                "answer" => {
                    let unanswered = all.last_mut().filter(|told| told.answer.is_empty());
                    if let Some(told) = unanswered {
                        told.answer = w[1..].iter().map(|word| number(word)).collect();
                    }
                }
                _ => {}
            }
        }
        all
    }

    fn in_turn(seed: u64) -> Vec<Told> {
        let mut out = Vec::new();
        every_issuing(&mut Random::new(!seed, 0), &mut out).unwrap();
        told(&String::from_utf8(out).unwrap())
    }

    #[test]
    fn each_reason_to_refuse_comes_alone_and_with_those_after_it() {
        let all = in_turn(1);
        let shown: BTreeSet<[bool; 5]> = all
            .iter()
            .map(|told| {
                let repeats = told.keeper.seeded && told.repeats() == 4;
                [
                    told.record_out(),
                    told.count_out(),
                    told.no_class(),
                    !told.keeper.seeded,
                    repeats,
                ]
            })
            .collect();
        for reasons in 0..32 {
            let reasons = [16, 8, 4, 2, 1].map(|bit| reasons & bit != 0);
            // A keeper that is unseeded draws nothing.
            let [record, count, class, unseeded, repeats] = reasons;
            if unseeded && repeats {
                continue;
            }
            // Repeats come with one other reason.
            let others = [record, count, class].into_iter().filter(|is| *is).count();
            if repeats && others > 1 {
                continue;
            }
            assert!(shown.contains(&reasons), "{reasons:?}");
        }
        for told in &all {
            let expected: &[u64] = if told.record_out() || told.count_out() {
                &[17, 0, 0, 0, 0]
            } else if told.no_class() {
                &[13, 0, 0, 0, 0]
            } else if !told.keeper.seeded {
                &[2, 0, 0, 0, 0]
            } else if told.repeats() == 4 {
                assert_eq!((told.answer[1], told.answer[2], told.answer[4]), (0, 4, 0));
                &[14]
            } else {
                let draws = told.repeats() as u64 + 1;
                assert_eq!((told.answer[2], told.answer[4]), (draws, 0));
                &[0, 16]
            };
            assert_eq!(&told.answer[..expected.len()], expected);
        }
    }

    #[test]
    fn all_counts_that_a_desk_may_not_have() {
        let all = in_turn(2);
        let counts: BTreeSet<u32> = all.iter().map(|told| told.desk.count).collect();
        for count in (0..=64).chain(TOO_MANY) {
            assert!(counts.contains(&count), "{count}");
        }
        let issued = all.iter().filter(|told| told.number() == 0);
        let counts: BTreeSet<u32> = issued.map(|told| told.desk.count).collect();
        assert_eq!(counts, (0..=64).collect());
    }

    #[test]
    fn class_fields_of_each_byte_and_of_other_lengths() {
        let all = in_turn(3);
        for seeded in [false, true] {
            let such = all.iter().filter(|told| told.keeper.seeded == seeded);
            let fields: BTreeSet<Vec<u8>> = such.map(|told| told.class.clone()).collect();
            for byte in 0..=255 {
                assert!(fields.contains(&vec![byte]));
            }
            for length in [0, 2, 3, 16, 17, 257, 4_097] {
                assert!(fields.contains(&vec![DRILL; length]));
                assert!(fields.contains(&vec![LIVE; length]));
            }
        }
    }

    #[test]
    fn each_draw_repeats_at_each_sort_of_place() {
        let all = in_turn(4);
        let mut shown = BTreeSet::new();
        for told in all.iter().filter(|told| [0, 14].contains(&told.number())) {
            let count = told.desk.count as usize;
            let repeats = told.repeats();
            for (draw, place) in (1..).zip(told.places()).take(repeats) {
                let place = match place.unwrap() {
                    0 => "first",
                    place if place + 1 == count => "last",
                    _ => "middle",
                };
                shown.insert((repeats, draw, place, count == 64));
            }
        }
        for repeats in 1..=4 {
            for draw in 1..=repeats {
                for place in ["first", "middle", "last"] {
                    for full in [false, true] {
                        let what = (repeats, draw, place, full);
                        assert!(shown.contains(&what), "{what:?}");
                    }
                }
            }
        }
    }

    /// The bytes by which the first draw differs from a number, if they are few.
    fn differing(draw: &Number, other: &Number) -> Vec<usize> {
        (0..NUMBER).filter(|at| draw[*at] != other[*at]).collect()
    }

    #[test]
    fn what_is_close_to_a_repeat() {
        let all = in_turn(5);
        let mut bytes = BTreeSet::new();
        let mut free = BTreeSet::new();
        for told in all.iter().filter(|told| told.number() == 0) {
            if told.repeats() > 0 {
                continue;
            }
            let draw = told.draws()[0];
            let count = told.desk.count as usize;
            for other in told.desk.remembered() {
                if let [byte] = differing(&draw, other)[..] {
                    bytes.insert(byte);
                }
            }
            for place in count..PLACES {
                if told.desk.places[place] == draw {
                    free.insert((count, place));
                }
            }
        }
        assert_eq!(bytes, (0..NUMBER).collect());
        for count in 0..PLACES {
            assert!(free.contains(&(count, count)), "{count}");
        }
        assert!(free.contains(&(0, 63)) && free.contains(&(33, 63)));
    }

    #[test]
    fn a_desk_is_filled_by_calls_alone_and_forgets() {
        let all = in_turn(6);
        let alone = |told: &&Told| told.calls >= 64 && told.desk.count == 64;
        let alone: Vec<&Told> = all.iter().filter(alone).collect();
        let numbers: BTreeSet<u64> = alone.iter().map(|told| told.number()).collect();
        assert_eq!(numbers, BTreeSet::from([0, 14]));
        let repeats: BTreeSet<usize> = alone.iter().map(|told| told.repeats()).collect();
        assert_eq!(repeats, BTreeSet::from([0, 1, 3, 4]));
    }

    #[test]
    fn first_draws_reseed_and_repeat() {
        let all = in_turn(7);
        let drawing = all.iter().filter(|told| [0, 14].contains(&told.number()));
        let shown: BTreeSet<(usize, bool, u64)> = drawing
            .map(|told| (told.repeats(), told.due(), told.answer[3]))
            .collect();
        for repeats in 0..=4 {
            for compressions in [0, 16, 24, 32] {
                assert!(shown.contains(&(repeats, true, compressions)));
            }
            assert!(shown.contains(&(repeats, false, 0)));
        }
    }

    #[test]
    fn a_trace_breaks_off_where_a_rule_of_the_desk_is_wrong() {
        let all = || every_issuing(&mut Random::new(8, 0), &mut Vec::new()).unwrap();
        all();
        for put_wrong in wrong_rules::all() {
            let _wrong = Wrong::put(put_wrong);
            assert!(catch_unwind(all).is_err());
        }
    }

    #[test]
    fn issuings_come_among_any_calls_too() {
        let mut out = Vec::new();
        chance(9, 120, &mut out).unwrap();
        let all = told(&String::from_utf8(out).unwrap());
        for (number, least) in [(0, 30), (2, 30), (13, 20), (14, 3), (17, 20)] {
            let times = all.iter().filter(|told| told.number() == number).count();
            assert!(times >= least, "{number}: {times}");
        }
        let repeats: BTreeSet<usize> = all.iter().map(Told::repeats).collect();
        assert_eq!(repeats, (0..=4).collect());
    }

    #[test]
    fn sequences_are_counted_from_none_on() {
        let mut out = Vec::new();
        calls(1, 3, &mut out).unwrap();
        let text = String::from_utf8(out).unwrap();
        let numbers = text
            .lines()
            .filter_map(|line| line.strip_prefix("sequence "));
        let numbers: Vec<usize> = numbers.map(number).collect();
        assert_eq!(numbers, (0..=ALL.len() + 3).collect::<Vec<usize>>());
    }
}
