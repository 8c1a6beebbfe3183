//! Rules put wrong one at a time: what the ledger notices of each and at which
//! call, and the call after which the bound itself does not hold.

use super::tests::{event, read, seed, Run};
use super::Fault;
use crate::journal::Record;
use crate::rules::{Rules, Wrong};

struct Case {
    put_wrong: fn(&mut Rules),
    run: Vec<Record<'static>>,
    /// What is noticed first.
    first: &'static str,
    /// What is noticed when the bound is broken.
    bound: &'static str,
}

/// A call, counted from 1, and what does not hold after it.
struct Noticed {
    call: usize,
    faults: Vec<Fault>,
}

impl Noticed {
    fn breaks_the_bound(&self) -> bool {
        let breaks = |fault: &Fault| matches!(fault, Fault::Bound(_));
        self.faults.iter().any(breaks)
    }

    fn told(&self) -> String {
        let faults: Vec<String> = self.faults.iter().map(Fault::to_string).collect();
        format!("call {}: {}", self.call, faults.join("; "))
    }
}

fn noticed(run: &[Record]) -> Vec<Noticed> {
    let mut keeper = Run::fresh();
    let faults = run.iter().map(|record| keeper.call(record));
    let noticed = (1..)
        .zip(faults)
        .map(|(call, faults)| Noticed { call, faults });
    noticed
        .filter(|noticed| !noticed.faults.is_empty())
        .collect()
}

/// What is noticed first, and when the bound is broken.
fn first_and_bound(put_wrong: fn(&mut Rules), run: &[Record]) -> [String; 2] {
    let _wrong = Wrong::put(put_wrong);
    let noticed = noticed(run);
    let bound = noticed.iter().find(|noticed| noticed.breaks_the_bound());
    [&noticed[0], bound.unwrap()].map(Noticed::told)
}

fn cases() -> [Case; 8] {
    let first_events = (1..=8).map(|device| event(device, 2_048));
    [
        // A byte taken over is credited nine bits.
        Case {
            put_wrong: |rules| rules.transferred = 9,
            run: vec![seed(128), read(12)],
            first: "call 2: 128 x 10 bytes delivered are more than 9 x 128 bits awarded",
            bound: "call 2: 128 x 10 bytes delivered are more than 9 x 128 bits awarded",
        },
        // A byte costs 63 units, and what each debit leaves over adds up.
        Case {
            put_wrong: |rules| rules.byte = 63,
            run: vec![seed(170), read(6), read(6)],
            first: "call 2: \
                1020 units were added to the input pool, but it has 516 and gave 8 bytes; \
                384 units were added to the blocking pool, but it has 6 and gave 6 bytes",
            bound: "call 3: \
                1020 units were added to the input pool, but it has 12 and gave 16 bytes; \
                767 units were added to the blocking pool, but it has 11 and gave 12 bytes; \
                128 x 12 bytes delivered are more than 9 x 170 bits awarded",
        },
        // The same with the seed that reaches the bound, which takes eight rounds.
        Case {
            put_wrong: |rules| rules.byte = 63,
            run: vec![[seed(128), read(16)]; 8].concat(),
            first: "call 2: \
                768 units were added to the input pool, but it has 12 and gave 12 bytes; \
                576 units were added to the blocking pool, but it has 9 and gave 9 bytes",
            bound: "call 16: \
                6133 units were added to the input pool, but it has 22 and gave 97 bytes; \
                4637 units were added to the blocking pool, but it has 38 and gave 73 bytes; \
                128 x 73 bytes delivered are more than 9 x 1024 bits awarded",
        },
        // A credit is added in full.
        Case {
            put_wrong: |rules| rules.damped = false,
            run: vec![seed(96), read(12)],
            first: "call 2: 128 x 12 bytes delivered are more than 9 x 96 bits awarded",
            bound: "call 2: 128 x 12 bytes delivered are more than 9 x 96 bits awarded",
        },
        // A blocking read does not pay for what it delivers.
        Case {
            put_wrong: |rules| rules.delivery_paid = false,
            run: vec![seed(128), read(12), read(9)],
            first: "call 2: \
                576 units were added to the blocking pool, but it has 576 and gave 9 bytes",
            bound: "call 3: \
                576 units were added to the blocking pool, but it has 576 and gave 18 bytes; \
                128 x 18 bytes delivered are more than 9 x 128 bits awarded",
        },
        // It does not pay for what it takes over.
        Case {
            put_wrong: |rules| rules.transfer_paid = false,
            run: vec![seed(128), read(12), read(12)],
            first: "call 2: \
                768 units were added to the input pool, but it has 768 and gave 12 bytes",
            bound: "call 3: \
                768 units were added to the input pool, but it has 768 and gave 24 bytes; \
                128 x 18 bytes delivered are more than 9 x 128 bits awarded",
        },
        // It pays for neither.
        Case {
            put_wrong: |rules| {
                rules.delivery_paid = false;
                rules.transfer_paid = false;
            },
            run: vec![seed(128), read(12), read(9)],
            first: "call 2: \
                768 units were added to the input pool, but it has 768 and gave 12 bytes; \
                576 units were added to the blocking pool, but it has 576 and gave 9 bytes",
            bound: "call 3: \
                768 units were added to the input pool, but it has 768 and gave 12 bytes; \
                576 units were added to the blocking pool, but it has 576 and gave 18 bytes; \
                128 x 18 bytes delivered are more than 9 x 128 bits awarded",
        },
        // A device's first event earns.
        Case {
            put_wrong: |rules| rules.new_events = 0,
            run: first_events.chain([read(6)]).collect(),
            first: "call 1: the calls award 0 bits, but the keeper credited 11",
            bound: "call 9: 128 x 6 bytes delivered are more than 9 x 0 bits awarded",
        },
    ]
}

#[test]
fn each_wrong_rule_is_noticed_and_breaks_the_bound() {
    for case in cases() {
        let [first, bound] = first_and_bound(case.put_wrong, &case.run);
        assert_eq!(first, case.first);
        assert_eq!(bound, case.bound);
    }
}

#[test]
fn by_the_right_rules_each_of_these_runs_holds() {
    for case in cases() {
        assert!(noticed(&case.run).is_empty());
    }
}
