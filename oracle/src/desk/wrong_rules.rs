//! Rules of the desk put wrong one at a time, and what is noticed of each.

use super::holding::Given;
use super::tests::{drawn, remembering, seeded};
use super::{Desk, Number, DRILL, LIVE};
use crate::rules::{Rules, Wrong};

struct Case {
    put_wrong: fn(&mut Rules),
    /// The desk that is lent, with a keeper that draws what `drawn` gives, and the
    /// class that is asked for.
    desk: Desk,
    class: &'static [u8],
    noticed: &'static [&'static str],
}

/// A full desk that remembers these numbers.
fn with(numbers: &[Number]) -> Desk {
    let mut desk = remembering(64);
    desk.places[20..20 + numbers.len()].copy_from_slice(numbers);
    desk
}

fn cases() -> [Case; 8] {
    let drawn = drawn(&seeded());
    let mut live = drawn[0];
    live[0] = LIVE;
    let mut free = remembering(63);
    free.places[63] = drawn[0];
    let mut too_many = remembering(64);
    too_many.count = 65;
    [
        // The class byte is outside of the comparison.
        Case {
            put_wrong: |rules| rules.desk.class_compared = false,
            desk: with(&[live]),
            class: &[DRILL],
            noticed: &["draw 1 was thrown away, and is not remembered"],
        },
        // A fifth draw.
        Case {
            put_wrong: |rules| rules.desk.draws = 5,
            desk: with(&drawn[..4]),
            class: &[DRILL],
            noticed: &["a number was issued after 5 draws"],
        },
        // The desk remembers what was drawn last where all draws repeat.
        Case {
            put_wrong: |rules| rules.desk.kept_at_last = false,
            desk: with(&drawn[..4]),
            class: &[DRILL],
            noticed: &["refused with 14, and the desk is another"],
        },
        // A class that is none counts before a desk out of range.
        Case {
            put_wrong: |rules| rules.desk.range_first = false,
            desk: too_many,
            class: &[0x45],
            noticed: &["answered 13, and 17 counts first"],
        },
        // The newest number makes room in a full desk.
        Case {
            put_wrong: |rules| rules.desk.oldest_goes = false,
            desk: with(&[]),
            class: &[DRILL],
            noticed: &["the desk is not what it was with the number behind it"],
        },
        // A number that is remembered is issued.
        Case {
            put_wrong: |rules| rules.desk.repeats_thrown = false,
            desk: with(&drawn[..1]),
            class: &[DRILL],
            noticed: &["the number issued is remembered at place 20"],
        },
        // The draws that a refusal with 14 made are undone.
        Case {
            put_wrong: |rules| rules.desk.draws_stay = false,
            desk: with(&drawn[..4]),
            class: &[DRILL],
            noticed: &[
                "refused with 14 after 0 draws",
                "the work told is not that of 0 reads",
            ],
        },
        // A free place is compared.
        Case {
            put_wrong: |rules| rules.desk.free_left_out = false,
            desk: free,
            class: &[DRILL],
            noticed: &["draw 1 was thrown away, and is not remembered"],
        },
    ]
}

/// All of them, for others to put wrong.
pub fn all() -> [fn(&mut Rules); 8] {
    cases().map(|case| case.put_wrong)
}

/// What does not hold of the case's call, by the rules in force.
fn noticed(case: &Case) -> Vec<String> {
    let mut keeper = seeded();
    let mut desk = case.desk.clone();
    let given = Given::to(&desk, &keeper, 7, case.class);
    let issued = desk.issue_unchecked(&mut keeper, 7, case.class);
    given.faults(&issued, &desk, &keeper)
}

#[test]
fn each_wrong_rule_is_noticed() {
    for case in cases() {
        let _wrong = Wrong::put(case.put_wrong);
        assert_eq!(noticed(&case), case.noticed);
    }
}

#[test]
fn by_the_right_rules_nothing_is_noticed() {
    for case in cases() {
        assert!(noticed(&case).is_empty());
    }
}
