//! What an event is worth, and how a count rises and falls. Counts are in
//! eighths of a bit.

use crate::rules::rules;

/// The most that one device event is worth, in bits.
const CAP: u32 = 11;

/// A byte taken from a pool costs eight bits.
pub const BYTE: u32 = 64;

/// The difference of two clocks: the shortest way round, so that a clock
/// which ran back gives a negative number.
pub fn clock_difference(now: u32, then: u32) -> i64 {
    i64::from(now.wrapping_sub(then) as i32)
}

/// The bits a device event is worth, from its three differences.
pub fn estimate(d1: i64, d2: i64, d3: i64) -> u32 {
    let least = d1
        .unsigned_abs()
        .min(d2.unsigned_abs())
        .min(d3.unsigned_abs());
    worth(least)
}

fn worth(least: u64) -> u32 {
    match least {
        0 => 0,
        _ => (u64::BITS - 1 - least.leading_zeros()).min(CAP),
    }
}

/// What a crediting comes to.
#[derive(Clone, Copy, Debug, PartialEq)]
pub struct Credited {
    /// The pool's count after it.
    pub count: u32,
    /// The units by which it raised the count.
    pub added: u32,
}

/// Credits `bits` to a pool of this size. What was added is read off the two
/// counts: each turn rounds down, and a rule of its own could round otherwise.
pub fn credited(before: u32, size: u32, bits: u32) -> Credited {
    let count = turns(before, size, bits).last().copied().unwrap_or(before);
    Credited {
        count,
        added: count - before,
    }
}

/// The count after each turn of crediting. There is none for zero bits, and
/// at least one otherwise, however full the pool is.
pub fn turns(count: u32, size: u32, bits: u32) -> Vec<u32> {
    let size = u64::from(size);
    let mut count = u64::from(count);
    let mut rest = 8 * u64::from(bits);
    let mut counts = Vec::new();
    while rest > 0 && (counts.is_empty() || count < size - 2) {
        let a = rest.min(size / 2);
        count += match rules().damped {
            true => (size - count) * a * 3 / (4 * size),
            false => a.min(size - count),
        };
        rest -= a;
        counts.push(count as u32);
    }
    counts
}

/// How many bytes a debit takes, and the count it leaves.
pub fn debited(count: u32, wanted: usize, least: usize) -> (usize, u32) {
    let have = (count / BYTE) as usize;
    let can = wanted.min(have);
    let taken = if can < least { 0 } else { can };
    (taken, count - rules().byte * taken as u32)
}

#[cfg(test)]
mod tests {
    use super::*;

    #[test]
    fn p1_and_p2_worth_of_small_and_large_amounts() {
        let table = [
            (0, 0),
            (1, 0),
            (2, 1),
            (3, 1),
            (4, 2),
            (2_047, 10),
            (2_048, 11),
            (4_096, 11),
            (u64::from(u32::MAX), 11),
        ];
        for (m, bits) in table {
            assert_eq!(worth(m), bits, "m = {m}");
        }
    }

    #[test]
    fn the_least_amount_counts_whatever_its_sign() {
        assert_eq!(estimate(-8, 100, 100), 3);
        assert_eq!(estimate(100, -8, 100), 3);
        assert_eq!(estimate(100, 100, -8), 3);
        assert_eq!(estimate(-(1 << 31), (1 << 32) - 1, -(1 << 33) + 2), 11);
        assert_eq!(estimate(-(1 << 31), 0, 5), 0);
    }

    #[test]
    fn p3_and_p4_clock_differences() {
        assert_eq!(clock_difference(4, 0xffff_ffff), 5);
        assert_eq!(clock_difference(0x8000_0000, 0), -2_147_483_648);
        assert_eq!(clock_difference(0x7fff_ffff, 0), 2_147_483_647);
        assert_eq!(clock_difference(0xffff_ffff, 4), -5);
    }

    /// The count and the units added, of a pool as large as the input pool.
    fn input(before: u32, bits: u32) -> (u32, u32) {
        let Credited { count, added } = credited(before, 32_768, bits);
        (count, added)
    }

    #[test]
    fn p5_and_p6_one_bit() {
        assert_eq!(input(0, 1), (6, 6));
        assert_eq!(input(32_762, 1), (32_762, 0));
    }

    #[test]
    fn p7_to_p10_counts_before_any_reseed() {
        assert_eq!(input(0, 170), (1_020, 1_020));
        assert_eq!(input(0, 171), (1_026, 1_026));
        assert_eq!(input(0, 256), (1_536, 1_536));
        assert_eq!(input(0, 4_096), (19_968, 19_968));
        assert_eq!(turns(0, 32_768, 4_096), [12_288, 19_968]);
    }

    #[test]
    fn p11_a_transfer_of_sixteen_bytes() {
        let expected = Credited {
            count: 768,
            added: 768,
        };
        assert_eq!(credited(0, 8_192, 128), expected);
    }

    #[test]
    fn what_is_added_is_the_rise_and_not_the_new_count() {
        assert_eq!(input(77, 0), (77, 0));
        assert_eq!(input(1_000, 1), (1_005, 5));
        // One bit adds nothing from here on.
        assert_eq!(input(27_306, 1), (27_307, 1));
        assert_eq!(input(27_307, 1), (27_307, 0));
        // Two turns, the second of eight units only.
        assert_eq!(input(10_000, 2_048), (18_538, 8_538));
        assert_eq!(input(10_000, 2_049), (18_540, 8_540));
    }

    #[test]
    fn nothing_credited_changes_nothing_and_a_full_pool_stays_full() {
        assert_eq!(turns(77, 8_192, 0), []);
        assert_eq!(turns(8_192, 8_192, 32_768), [8_192]);
        assert_eq!(turns(8_190, 8_192, 32_768), [8_190]);
        assert_eq!(turns(8_188, 8_192, 32_768), [8_189, 8_190]);
        assert_eq!(credited(8_192, 8_192, 32_768).added, 0);
        assert_eq!(credited(8_188, 8_192, 32_768).added, 2);
        assert!(credited(0, 8_192, 32_768).count <= 8_192);
    }

    #[test]
    fn debits() {
        assert_eq!(debited(1_023, 32, 16), (0, 1_023));
        assert_eq!(debited(1_024, 32, 16), (16, 0));
        assert_eq!(debited(2_111, 32, 16), (32, 63));
        assert_eq!(debited(63, 5, 0), (0, 63));
    }
}
