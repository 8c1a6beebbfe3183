//! The issuing desk above the keeper: numbers for messages, and the last of them,
//! which it remembers so that none of these is issued again.

mod holding;
#[cfg(test)]
pub mod wrong_rules;

use crate::keeper::{Answer, Keeper, DONE, OUT_OF_RANGE};
use crate::rules::rules;

// The numbers that only a desk gives back.
pub const NO_CLASS: u8 = 13;
pub const ALL_REPEATED: u8 = 14;

/// The classes of a message.
pub const DRILL: u8 = 0x44;
pub const LIVE: u8 = 0x4c;

/// The numbers that a desk remembers at the most.
pub const PLACES: usize = 64;
/// The draws that one call takes at the most.
pub const DRAWS: u32 = 4;

/// The bytes of a message's number: its class, and what was drawn for it.
pub const NUMBER: usize = 16;
pub const DRAWN: usize = NUMBER - 1;
pub type Number = [u8; NUMBER];

/// What is handed back where no number is issued.
pub const NO_NUMBER: Number = [0; NUMBER];

/// A desk as it is lent to a call.
#[derive(Clone, Debug, PartialEq)]
pub struct Desk {
    /// How many places hold a number; those past it are free, whatever they hold.
    pub count: u32,
    /// The oldest number first.
    pub places: [Number; PLACES],
}

/// What a call hands back.
#[derive(Clone, Copy, Debug, PartialEq)]
pub struct Issued {
    pub answer: Answer,
    pub number: Number,
}

impl Issued {
    fn refusal(number: u8) -> Issued {
        Issued {
            answer: Answer::refusal(number),
            number: NO_NUMBER,
        }
    }
}

/// The class byte of a class field, if it is the field of one.
pub fn class_of(field: &[u8]) -> Option<u8> {
    match field {
        [class @ (DRILL | LIVE)] => Some(*class),
        _ => None,
    }
}

impl Desk {
    /// All of its memory is zero.
    pub fn empty() -> Desk {
        Desk {
            count: 0,
            places: [NO_NUMBER; PLACES],
        }
    }

    pub fn in_range(&self) -> bool {
        self.count as usize <= PLACES
    }

    /// The numbers that it remembers.
    pub fn remembered(&self) -> &[Number] {
        &self.places[..self.count as usize]
    }

    /// Issues a number, and breaks off where something about it does not hold.
    pub fn issue(&mut self, keeper: &mut Keeper, now: u32, class: &[u8]) -> Issued {
        let given = holding::Given::to(self, keeper, now, class);
        let issued = self.issue_unchecked(keeper, now, class);
        given.hold(&issued, self, keeper);
        issued
    }

    fn issue_unchecked(&mut self, keeper: &mut Keeper, now: u32, class: &[u8]) -> Issued {
        if let Some(number) = self.refuses(keeper, class) {
            return Issued::refusal(number);
        }
        let rules = rules().desk;
        let undrawn = (!rules.draws_stay).then(|| keeper.clone());
        let mut work = Answer::default();
        let mut number = NO_NUMBER;
        for _ in 0..rules.draws {
            number[0] = class[0];
            let draw = keeper.generator_read(now, &mut number[1..]);
            // Only the first can be refused: nothing about the keeper that would
            // refuse it is changed by a draw.
            if draw.number != DONE {
                return Issued::refusal(draw.number);
            }
            work.blocks += draw.blocks;
            work.compressions += draw.compressions;
            work.taken += draw.taken;
            if !self.remembers(&number) {
                self.remember(number);
                let delivered = NUMBER;
                let answer = Answer { delivered, ..work };
                return Issued { answer, number };
            }
        }
        if !rules.kept_at_last {
            self.remember(number);
        }
        if let Some(undrawn) = undrawn {
            *keeper = undrawn;
        }
        // The one refusal that has done something, and says so.
        let answer = Answer {
            number: ALL_REPEATED,
            ..work
        };
        Issued {
            answer,
            number: NO_NUMBER,
        }
    }

    /// The number that refuses a call before anything is drawn.
    fn refuses(&self, keeper: &Keeper, class: &[u8]) -> Option<u8> {
        let out_of_range = !(keeper.in_range() && self.in_range());
        let out_of_range = out_of_range.then_some(OUT_OF_RANGE);
        let no_class = class_of(class).is_none().then_some(NO_CLASS);
        match rules().desk.range_first {
            true => out_of_range.or(no_class),
            false => no_class.or(out_of_range),
        }
    }

    fn remembers(&self, number: &Number) -> bool {
        let rules = rules().desk;
        let compared = match rules.free_left_out {
            true => self.remembered(),
            false => &self.places,
        };
        let from = usize::from(!rules.class_compared);
        let equal = |other: &Number| other[from..] == number[from..];
        rules.repeats_thrown && compared.iter().any(equal)
    }

    fn remember(&mut self, number: Number) {
        let count = self.count as usize;
        if count < PLACES {
            self.places[count] = number;
            self.count += 1;
            return;
        }
        if rules().desk.oldest_goes {
            self.places.rotate_left(1);
        }
        self.places[PLACES - 1] = number;
    }
}

/// What the next calls that issue would draw, behind this class: as many numbers as
/// are asked for. The keeper stays as it is.
pub fn draws_to_come(keeper: &Keeper, now: u32, class: u8, many: usize) -> Vec<Number> {
    let mut keeper = keeper.clone();
    let mut draw = || {
        let mut number = [class; NUMBER];
        keeper.generator_read(now, &mut number[1..]);
        number
    };
    (0..many).map(|_| draw()).collect()
}

#[cfg(test)]
pub mod tests {
    use super::*;
    use crate::keeper::{START, UNSEEDED};

    pub fn fresh() -> Keeper {
        Keeper::make(&[3; START]).unwrap()
    }

    /// Seeded at clock 7, with 17,920 units left.
    pub fn seeded() -> Keeper {
        let mut keeper = fresh();
        keeper.seed(7, &[0x5a; 512], 4_096);
        keeper
    }

    /// The first numbers that a keeper draws at clock 7.
    pub fn drawn(keeper: &Keeper) -> Vec<Number> {
        draws_to_come(keeper, 7, DRILL, 6)
    }

    /// A number that no draw gives.
    fn other(place: usize) -> Number {
        let mut number = [0xaa; NUMBER];
        number[0] = DRILL;
        number[15] = place as u8;
        number
    }

    /// A desk that remembers so many numbers, none of which is drawn. Its free
    /// places are not zero.
    pub fn remembering(count: u32) -> Desk {
        let mut desk = Desk::empty();
        desk.count = count;
        for (place, number) in desk.places.iter_mut().enumerate() {
            *number = other(place);
        }
        desk
    }

    fn issued(number: Number, draws: u64) -> Issued {
        let answer = Answer {
            delivered: 16,
            blocks: draws,
            ..Answer::default()
        };
        Issued { answer, number }
    }

    fn after_reads(keeper: &Keeper, now: u32, reads: usize) -> Keeper {
        let mut keeper = keeper.clone();
        for _ in 0..reads {
            keeper.generator_read(now, &mut [0; 15]);
        }
        keeper
    }

    #[test]
    fn a_number_is_the_class_and_a_generator_read_of_15_bytes() {
        for class in [DRILL, LIVE] {
            let before = seeded();
            let mut keeper = before.clone();
            let mut desk = Desk::empty();
            let given = desk.issue(&mut keeper, 7, &[class]);
            let mut read = before.clone();
            let mut room = [0; 15];
            read.generator_read(7, &mut room);
            let number = [&[class][..], &room].concat();
            assert_eq!(given.number[..], number);
            assert_eq!(given, issued(given.number, 1));
            assert_eq!(keeper, read);
            assert_eq!((desk.count, desk.places[0]), (1, given.number));
            assert_eq!(desk.places[1..], [NO_NUMBER; 63]);
        }
    }

    #[test]
    fn two_fields_of_one_byte_are_classes_and_no_others() {
        for byte in 0..=255 {
            let class = matches!(byte, 0x44 | 0x4c).then_some(byte);
            assert_eq!(class_of(&[byte]), class);
            let mut keeper = seeded();
            let given = Desk::empty().issue(&mut keeper, 7, &[byte]);
            let number = if class.is_some() { DONE } else { NO_CLASS };
            assert_eq!(given.answer.number, number);
        }
        for length in [0, 2, 3, 15, 16, 257, 4_097] {
            for byte in [DRILL, LIVE] {
                assert_eq!(class_of(&vec![byte; length]), None);
            }
        }
        assert_eq!(class_of(&[DRILL, 0]), None);
        assert_eq!(class_of(&[0, LIVE]), None);
    }

    /// Each reason to refuse with each other, and none: the first in the order of
    /// the papers counts.
    #[test]
    fn the_order_of_refusals() {
        for reasons in 0..32 {
            let has = |bit: u32| reasons >> bit & 1 == 1;
            let mut keeper = if has(0) { fresh() } else { seeded() };
            let mut desk = remembering(64);
            // All that could be drawn, so that 14 would be the answer.
            if has(1) {
                desk.places[..6].copy_from_slice(&drawn(&seeded()));
            }
            if has(2) {
                keeper.tally = 64;
            }
            if has(3) {
                desk.count = [65, 320, u32::MAX][reasons as usize % 3];
            }
            let class: &[u8] = if has(4) { &[DRILL, DRILL] } else { &[DRILL] };
            let expected = match (has(2) || has(3), has(4), has(0), has(1)) {
                (true, ..) => OUT_OF_RANGE,
                (_, true, ..) => NO_CLASS,
                (_, _, true, _) => UNSEEDED,
                (_, _, _, true) => ALL_REPEATED,
                _ => DONE,
            };
            let before = (keeper.clone(), desk.clone());
            let given = desk.issue(&mut keeper, 7, class);
            assert_eq!(given.answer.number, expected, "{reasons:05b}");
            if expected != DONE && expected != ALL_REPEATED {
                assert_eq!(given, Issued::refusal(expected));
                assert!((keeper, desk) == before);
            }
        }
    }

    #[test]
    fn a_draw_that_is_remembered_is_thrown_away_up_to_three_times() {
        let before = seeded();
        let drawn = drawn(&before);
        for count in [3, 40, 64] {
            for repeats in 0..4 {
                for turn in 0..count {
                    let mut desk = remembering(count as u32);
                    for (repeat, number) in drawn[..repeats.min(count)].iter().enumerate() {
                        desk.places[(turn + repeat) % count] = *number;
                    }
                    let mut keeper = before.clone();
                    let given = desk.issue(&mut keeper, 7, &[DRILL]);
                    assert_eq!(given, issued(drawn[repeats], repeats as u64 + 1));
                    assert_eq!(keeper, after_reads(&before, 7, repeats + 1));
                    let last = desk.count as usize - 1;
                    assert_eq!(last, count.min(63));
                    assert_eq!(desk.places[last], drawn[repeats]);
                }
            }
        }
    }

    #[test]
    fn four_repeats_are_refused_and_stay_drawn() {
        let before = seeded();
        let drawn = drawn(&before);
        for count in [4, 40, 64] {
            for turn in 0..count {
                let mut desk = remembering(count as u32);
                for (repeat, number) in drawn[..4].iter().enumerate() {
                    desk.places[(turn + 5 * repeat) % count] = *number;
                }
                let lent = desk.clone();
                let mut keeper = before.clone();
                let given = desk.issue(&mut keeper, 7, &[DRILL]);
                let answer = Answer {
                    number: ALL_REPEATED,
                    blocks: 4,
                    ..Answer::default()
                };
                let number = NO_NUMBER;
                assert_eq!(given, Issued { answer, number });
                assert!(desk == lent && keeper == after_reads(&before, 7, 4));
                // The next call goes on from there.
                let given = desk.issue(&mut keeper, 7, &[DRILL]);
                assert_eq!(given, issued(drawn[4], 1));
            }
        }
    }

    #[test]
    fn what_was_drawn_later_or_is_not_the_whole_number_is_no_repeat() {
        let before = seeded();
        let drawn = drawn(&before);
        let first = |desk: &Desk| {
            let mut desk = desk.clone();
            let given = desk.issue(&mut before.clone(), 7, &[DRILL]);
            given == issued(drawn[0], 1)
        };
        let mut later = remembering(64);
        later.places[..5].copy_from_slice(&drawn[1..]);
        assert!(first(&later));
        for byte in 0..NUMBER {
            for bit in 0..8 {
                let mut near = remembering(64);
                near.places[4 * byte] = drawn[0];
                assert!(!first(&near));
                near.places[4 * byte][byte] ^= 1 << bit;
                assert!(first(&near), "byte {byte}, bit {bit}");
            }
        }
        let mut live = remembering(64);
        live.places[9] = drawn[0];
        live.places[9][0] = LIVE;
        assert!(first(&live));
    }

    #[test]
    fn a_free_place_is_not_remembered() {
        let before = seeded();
        let drawn = drawn(&before);
        for count in 0..=64 {
            for place in 0..PLACES {
                let mut desk = remembering(count);
                desk.places[place] = drawn[0];
                let given = desk.issue(&mut before.clone(), 7, &[DRILL]);
                let repeats = place < count as usize;
                assert_eq!(given.number, drawn[usize::from(repeats)]);
            }
        }
    }

    #[test]
    fn a_desk_grows_to_64_and_then_the_oldest_goes() {
        let mut keeper = seeded();
        let mut desk = remembering(0);
        let mut all = Vec::new();
        for number in 0..200 {
            let class = if number % 3 == 0 { DRILL } else { LIVE };
            all.push(desk.issue(&mut keeper, 7, &[class]).number);
            let oldest = all.len().saturating_sub(PLACES);
            assert_eq!(desk.remembered(), &all[oldest..]);
            // The free places are as they were.
            for place in all.len()..PLACES {
                assert_eq!(desk.places[place], other(place));
            }
        }
    }

    #[test]
    fn a_number_may_come_again_once_it_is_forgotten() {
        let before = seeded();
        let mut keeper = before.clone();
        let mut desk = Desk::empty();
        let first = desk.issue(&mut keeper, 7, &[LIVE]).number;
        for _ in 1..64 {
            desk.issue(&mut keeper, 7, &[LIVE]);
        }
        // The key that drew the first number, while it is remembered and after.
        let again = desk.clone().issue(&mut before.clone(), 7, &[LIVE]);
        assert_eq!(again.answer.number, ALL_REPEATED);
        desk.issue(&mut keeper, 7, &[LIVE]);
        let again = desk.issue(&mut before.clone(), 7, &[LIVE]);
        assert_eq!(again, issued(first, 1));
    }

    #[test]
    fn only_the_first_draw_of_a_call_reseeds() {
        let due = 7 + 300_001;
        for (count, compressions, taken) in [
            (1_023, 0, 0),
            (1_024, 16, 16),
            (1_535, 24, 23),
            (17_920, 32, 32),
        ] {
            for repeats in 0..=4 {
                let mut before = seeded();
                before.input.count = count;
                let drawn = draws_to_come(&before, due, DRILL, 5);
                let mut desk = remembering(64);
                desk.places[..repeats].copy_from_slice(&drawn[..repeats]);
                let mut keeper = before.clone();
                let given = desk.issue(&mut keeper, due, &[DRILL]);
                let done = repeats < 4;
                let expected = Answer {
                    number: if done { DONE } else { ALL_REPEATED },
                    delivered: if done { 16 } else { 0 },
                    blocks: (repeats as u64 + 1).min(4),
                    compressions,
                    taken,
                    ..Answer::default()
                };
                assert_eq!(given.answer, expected);
                assert_eq!(keeper.input.count, count - 64 * taken as u32);
                let clock = if taken > 0 { due } else { 7 };
                assert_eq!(keeper.seeding_clock, clock);
            }
        }
    }
}
