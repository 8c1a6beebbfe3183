//! What credits are worth: nothing to a pool that is nearly full, more than is
//! left where a key or a reader takes it at once, and several turns of it.

use super::anything::no_device;
use super::draft::Draft;
use crate::journal::Record;
use crate::keeper::LONGEST;
use crate::pools::INPUT;
use crate::random::Random;

/// Each of four sorts in turn.
pub fn worths(random: &mut Random, turn: u64) -> Vec<u8> {
    let mut draft = Draft::any(random);
    let round = turn / 4;
    match turn % 4 {
        0 => nearly_full(&mut draft, random, round % 4 == 3),
        1 => blocking_reads(&mut draft, random),
        2 => right_after_adding(&mut draft, random),
        _ => several_turns(&mut draft, random, TURNS[round as usize % TURNS.len()]),
    }
    draft.probe(random);
    draft.bytes
}

/// Fills the input pool so far that one bit adds nothing, or up to a few units,
/// where eleven bits add nothing either. Then an event, an interrupt and seeds.
fn nearly_full(draft: &mut Draft, random: &mut Random, to_the_last_units: bool) {
    draft.credit(random, 256);
    if to_the_last_units {
        let aim = INPUT.size - random.between(3, 11) as u32;
        draft.steer(random, aim);
    } else {
        let bits = random.between(8_192, 9_000) as u32;
        draft.credit(random, bits);
    }
    let first = random.below(3);
    for which in [first, first + 1, first + 2] {
        match which % 3 {
            0 => draft.spill(random),
            1 => {
                let most = if to_the_last_units { 5_000 } else { 3 };
                let device = draft.any_device(random);
                let ticks = random.between(2, most) as u32;
                draft.fourth_event(random, device, ticks);
            }
            _ => {
                let bits = draft.bits_for_nothing();
                draft.credit(random, bits);
            }
        }
    }
    let bits = draft.bits_for_nothing() + 1;
    draft.credit(random, bits);
}

/// Blocking reads that add in one turn and in two, and such as add nothing: as
/// their own pool has enough, and as the input pool has too little.
fn blocking_reads(draft: &mut Draft, random: &mut Random) {
    // Eight bytes, and then not enough for eight more.
    let count = random.between(512, 1_000) as u32;
    draft.steer_above(random, 512, count);
    draft.blocking(1);
    let little = random.between(1, 3) as u16;
    draft.blocking(little);
    let much = random.between(6, 200) as u16;
    draft.blocking(much);
    draft.credit(random, 4_096);
    let in_two = random.pick(&[65, 66, 127, 128, 129, 4_096]);
    draft.blocking(in_two);
    let in_one = random.pick(&[1, 8, 9, 63, 64]);
    draft.blocking(in_one);
}

/// The numbers that a journal's calls can be refused with.
const REFUSALS: [u8; 6] = [1, 2, 3, 4, 5, 7];

/// Each refusal right after a call that adds, and then a write and a read: none
/// of them has added anything.
fn right_after_adding(draft: &mut Draft, random: &mut Random) {
    let first = random.below(REFUSALS.len() as u64) as usize;
    for i in 0..REFUSALS.len() {
        add_a_little(draft, random);
        refused(draft, random, REFUSALS[(first + i) % REFUSALS.len()]);
    }
    add_a_little(draft, random);
    let bytes = random.bytes(5).into();
    let now = draft.now;
    draft.add(Record::Write { now, bytes });
    draft.credit(random, 200);
    draft.generator(draft.now, 4);
}

/// So little that a few of these neither seed the keeper nor unblock it.
fn add_a_little(draft: &mut Draft, random: &mut Random) {
    match random.below(2) {
        0 => draft.spill(random),
        _ => {
            let bits = random.between(1, 8) as u32;
            draft.credit(random, bits);
        }
    }
}

/// A call on an unseeded keeper with a low count that is refused so.
fn refused(draft: &mut Draft, random: &mut Random, number: u8) {
    let length = random.between(1, 40) as u16;
    let too_long = random.pick(&[4_097, 65_535]);
    match number {
        1 => draft.blocking(length),
        2 => draft.generator(draft.now, length),
        3 => draft.generator(draft.now, too_long),
        4 => {
            let device = no_device(random, draft.version);
            draft.device(random, device, draft.now);
        }
        5 => draft.seed(random, 8 * u32::from(length) + 1, length.into()),
        _ => draft.repeated(random),
    }
}

/// The turns that seeds are to take: a few, and the most that one can.
const TURNS: [u32; 4] = [2, 3, 4, 16];

/// The bits that one turn takes.
fn one_turn() -> u32 {
    INPUT.size / 2 / 8
}

/// A seed of so many turns, the last of them a whole one, all but a bit, or just
/// a bit. After one of the most, the pool is full before another is used up.
fn several_turns(draft: &mut Draft, random: &mut Random, turns: u32) {
    let most = turns == 16;
    // Half of the others are the first seeding too, which takes units away.
    if most || random.one_in(2) {
        draft.credit(random, 200);
    }
    let turn = one_turn();
    let bits = random.pick(&[turn * (turns - 1) + 1, turn * turns - 1, turn * turns]);
    draft.credit(random, bits);
    if most {
        draft.credit(random, 8 * LONGEST as u32);
    }
}

#[cfg(test)]
mod tests {
    use super::*;
    use crate::situations::{Creditor, Situation, Situation::*, Worth};
    use crate::transcript::transcript;
    use crate::watch::Shown;

    /// What each sort has to show in each of its journals.
    const EACH: [&[(Situation, u32)]; 4] = [
        &[
            (Credit(Creditor::Event, Worth::NoUnits), 0),
            (Credit(Creditor::Interrupt, Worth::NoUnits), 0),
            (Credit(Creditor::Seed, Worth::NoUnits), 0),
        ],
        &[
            (Credit(Creditor::BlockingRead, Worth::OneTurn), 0),
            (Credit(Creditor::BlockingRead, Worth::SeveralTurns), 2),
            (NoTransfer(true), 0),
            (NoTransfer(false), 0),
        ],
        &[
            (RefusedAfterAdding, 1),
            (RefusedAfterAdding, 2),
            (RefusedAfterAdding, 3),
            (RefusedAfterAdding, 4),
            (RefusedAfterAdding, 5),
            (RefusedAfterAdding, 7),
            (OtherAfterAdding, 3),
            (OtherAfterAdding, 5),
        ],
        &[],
    ];

    #[test]
    fn each_journal_shows_what_its_sort_is_for() {
        for turn in 0..320 {
            let journal = worths(&mut Random::new(9, turn), turn);
            let shown = Shown::by(&journal);
            for (situation, value) in EACH[turn as usize % 4] {
                assert!(shown.times(*situation, *value) > 0, "turn {turn}");
            }
            if turn % 4 == 3 {
                let turns = TURNS[turn as usize / 4 % 4];
                let several = Credit(Creditor::Seed, Worth::SeveralTurns);
                assert!(shown.times(several, turns) > 0, "turn {turn}");
                assert_eq!(shown.times(FullBeforeTheRest, 0) > 0, turns == 16);
            }
            // Only a pool that is filled to the last takes much.
            let most = if turn / 4 % 4 == 3 { 11_000 } else { 2_000 };
            assert!(journal.len() < most, "turn {turn}: {}", journal.len());
        }
    }

    /// After the credits for nothing, one bit more adds the first unit.
    #[test]
    fn the_last_seed_of_a_nearly_full_pool_adds_one_unit() {
        for number in 0..60 {
            let random = &mut Random::new(10, number);
            let mut draft = Draft::any(random);
            nearly_full(&mut draft, random, number % 2 == 1);
            let count = draft.keeper.input.count;
            assert!((27_308..INPUT.size - 1).contains(&count), "{count}");
            let text = transcript(&draft.bytes);
            let last = text.lines().rev().nth(1);
            assert_eq!(last, Some(format!("0 0 {count} 0 0 0 1").as_str()));
        }
    }
}
