//! The rules that the ledger rests on, and those of the desk, where a test can put
//! one of them wrong: a check that cannot fail would tell nothing. The program itself
//! knows the right ones only, and they are constants to it.

use crate::credits::BYTE;
use crate::desk::DRAWS;
use crate::keeper::CAME_MOST;

/// What a keeper goes by.
#[derive(Clone, Copy, Debug)]
pub struct Rules {
    /// The kept events of a device that have to come before one earns.
    pub new_events: u32,
    /// Whether a pool takes the less of a credit the fuller it is.
    pub damped: bool,
    /// The units that a count falls by for each byte taken.
    pub byte: u32,
    /// The bits that the blocking pool is credited for a byte taken over.
    pub transferred: u32,
    /// Whether a blocking read lowers the input pool's count by what it takes over,
    /// and that of its own pool by what it delivers.
    pub transfer_paid: bool,
    pub delivery_paid: bool,
    pub desk: DeskRules,
}

/// What a desk goes by.
#[derive(Clone, Copy, Debug)]
pub struct DeskRules {
    /// Whether a record out of range counts before a class that is none.
    pub range_first: bool,
    /// The draws that one call may take.
    pub draws: u32,
    /// Whether a draw that is remembered is thrown away.
    pub repeats_thrown: bool,
    /// Whether the class byte is a part of what is compared.
    pub class_compared: bool,
    /// Whether the places past the count are left out of the comparison.
    pub free_left_out: bool,
    /// Whether the oldest number makes room in a full desk, and not the newest.
    pub oldest_goes: bool,
    /// Whether a call whose draws all repeat leaves the desk as it was, and whether
    /// its draws stay made.
    pub kept_at_last: bool,
    pub draws_stay: bool,
}

const RIGHT: Rules = Rules {
    new_events: CAME_MOST,
    damped: true,
    byte: BYTE,
    transferred: 8,
    transfer_paid: true,
    delivery_paid: true,
    desk: DeskRules {
        range_first: true,
        draws: DRAWS,
        repeats_thrown: true,
        class_compared: true,
        free_left_out: true,
        oldest_goes: true,
        kept_at_last: true,
        draws_stay: true,
    },
};

#[cfg(not(test))]
pub const fn rules() -> Rules {
    RIGHT
}

#[cfg(test)]
pub use self::in_tests::{rules, Wrong};

#[cfg(test)]
mod in_tests {
    use super::{Rules, RIGHT};
    use std::cell::Cell;

    thread_local! {
        // A test has its thread to itself: the others go on by the right rules.
        static IN_FORCE: Cell<Rules> = const { Cell::new(RIGHT) };
    }

    pub fn rules() -> Rules {
        IN_FORCE.with(Cell::get)
    }

    /// Rules put wrong, for as long as this is there.
    pub struct Wrong(());

    impl Wrong {
        pub fn put(by: impl FnOnce(&mut Rules)) -> Wrong {
            let mut rules = RIGHT;
            by(&mut rules);
            IN_FORCE.with(|in_force| in_force.set(rules));
            Wrong(())
        }
    }

    impl Drop for Wrong {
        fn drop(&mut self) {
            IN_FORCE.with(|in_force| in_force.set(RIGHT));
        }
    }
}
