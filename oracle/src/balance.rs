//! Holds the counts that a call leaves against what it says it did: what a pool
//! has and what was taken out of it is what it had and what was added to it.

use crate::journal::Record;
use crate::keeper::{Answer, Keeper, DONE};

/// A byte taken out of a pool costs eight bits.
const BYTE: u64 = 64;

/// What the two pools are good for.
#[derive(Clone, Copy, Debug, Default, PartialEq)]
pub struct Counts {
    pub input: u32,
    pub blocking: u32,
}

impl Counts {
    pub fn of(keeper: &Keeper) -> Counts {
        Counts {
            input: keeper.input.count,
            blocking: keeper.blocking.count,
        }
    }
}

/// What a call did to one pool.
#[derive(Clone, Copy)]
pub struct Moved {
    added: u32,
    /// In bytes.
    taken: usize,
}

/// What was done to the input pool and to the blocking pool. A blocking read
/// credits the latter, and every other call the former: no call credits both.
pub fn moved(record: &Record, answer: &Answer) -> [Moved; 2] {
    let (to_input, to_blocking, delivered) = match record {
        Record::Blocking { .. } => (0, answer.added, answer.delivered),
        _ => (answer.added, 0, 0),
    };
    [
        Moved {
            added: to_input,
            taken: answer.taken,
        },
        Moved {
            added: to_blocking,
            taken: delivered,
        },
    ]
}

/// What was done to one pool since its count was this.
#[derive(Clone, Copy, Debug, Default, PartialEq)]
pub struct Account {
    since: u32,
    pub added: u64,
    /// In bytes.
    pub taken: u64,
}

impl Account {
    pub fn since(count: u32) -> Account {
        Account {
            since: count,
            ..Account::default()
        }
    }

    pub fn enter(&mut self, moved: Moved) {
        self.added += u64::from(moved.added);
        self.taken += moved.taken as u64;
    }

    /// Whether the pool's count is what it has to be by now.
    pub fn adds_up(&self, count: u32) -> bool {
        u64::from(count) + BYTE * self.taken == u64::from(self.since) + self.added
    }
}

/// Panics where the counts and the answer do not add up: a program that is used
/// to find faults must not go on with one of its own.
pub fn check(before: Counts, record: &Record, answer: &Answer, after: Counts) {
    let [to_input, to_blocking] = moved(record, answer);
    let adds_up = |before, moved, after| {
        let mut account = Account::since(before);
        account.enter(moved);
        account.adds_up(after)
    };
    assert!(
        adds_up(before.input, to_input, after.input)
            && adds_up(before.blocking, to_blocking, after.blocking)
            && (answer.number == DONE || idle(answer)),
        "the counts do not add up: {before:?}, then {record}, {answer:?}, {after:?}"
    );
}

/// Whether an answer tells of nothing that was done, as each refusal has to.
fn idle(answer: &Answer) -> bool {
    let nothing = Answer {
        number: answer.number,
        ..Answer::default()
    };
    *answer == nothing
}

#[cfg(test)]
mod tests {
    use super::*;
    use crate::keeper::{REPEATED, TOO_MUCH_CREDIT, WOULD_BLOCK};
    use std::borrow::Cow;
    use std::panic::catch_unwind;

    fn counts(input: u32, blocking: u32) -> Counts {
        Counts { input, blocking }
    }

    fn seed() -> Record<'static> {
        Record::Seed {
            now: 0,
            credit: 171,
            bytes: Cow::Borrowed(&[9; 22]),
        }
    }

    fn blocking() -> Record<'static> {
        Record::Blocking { now: 0, length: 16 }
    }

    fn moving(added: u32, taken: usize, delivered: usize) -> Answer {
        Answer {
            delivered,
            added,
            taken,
            ..Answer::default()
        }
    }

    fn passes(before: Counts, record: &Record, answer: &Answer, after: Counts) -> bool {
        catch_unwind(|| check(before, record, answer, after)).is_ok()
    }

    #[test]
    fn p8_adds_up_and_nothing_beside_it_does() {
        let passes = |answer, after| passes(counts(0, 5), &seed(), &answer, after);
        assert!(passes(moving(1_026, 16, 0), counts(2, 5)));
        // What the credit was worth after the first seeding, or in full.
        assert!(!passes(moving(2, 16, 0), counts(2, 5)));
        assert!(!passes(moving(1_368, 16, 0), counts(2, 5)));
        assert!(!passes(moving(1_026, 17, 0), counts(2, 5)));
        assert!(!passes(moving(1_026, 16, 0), counts(3, 5)));
        assert!(!passes(moving(1_026, 16, 0), counts(2, 6)));
        // Bytes that were taken and not paid for.
        assert!(!passes(moving(1_026, 16, 0), counts(1_026, 5)));
    }

    #[test]
    fn p11_adds_up_and_nothing_beside_it_does() {
        let before = counts(17_920, 0);
        let passes = |answer, after| passes(before, &blocking(), &answer, after);
        assert!(passes(moving(768, 16, 12), counts(16_896, 0)));
        // What was left of the units once bytes were delivered.
        assert!(!passes(moving(0, 16, 12), counts(16_896, 0)));
        assert!(!passes(moving(768, 15, 12), counts(16_896, 0)));
        assert!(!passes(moving(768, 16, 11), counts(16_896, 0)));
        assert!(!passes(moving(768, 16, 12), counts(16_896, 1)));
        // The units in the wrong pool.
        assert!(!passes(moving(768, 16, 0), counts(16_896 + 768, 0)));
    }

    #[test]
    fn a_refusal_moves_nothing() {
        let before = counts(600, 60);
        for (number, record) in [
            (WOULD_BLOCK, blocking()),
            (TOO_MUCH_CREDIT, seed()),
            (REPEATED, seed()),
        ] {
            let refused = |added, taken| Answer {
                number,
                ..moving(added, taken, 0)
            };
            assert!(passes(before, &record, &refused(0, 0), before));
            assert!(!passes(before, &record, &refused(6, 0), before));
            let raised = counts(606, 60);
            assert!(!passes(before, &record, &refused(6, 0), raised));
            assert!(!passes(before, &record, &refused(0, 0), raised));
            assert!(!passes(before, &record, &refused(0, 1), counts(536, 60)));
        }
    }
}
