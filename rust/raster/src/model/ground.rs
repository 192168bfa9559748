//! Ground numbers, exactly: from the bits of an f64 to a whole number of 1024ths, without floating arithmetic.

/// The largest ground number, in 1024ths.
const LIMIT: i128 = 16_777_216 * 1024;

/// The bits of an f64 behind its sign and its exponent.
const FRACTION_BITS: u32 = 52;

/// The exponent field of infinities and of what is no number.
const NOT_FINITE: u64 = 2047;

/// The exponent field of a number whose significand counts 1024ths: a significand counts 2^(field − 1075).
const COUNTS_1024THS: u64 = 1065;

/// A ground number in 1024ths, or nothing if it is not usable.
pub fn in_1024ths(number: f64) -> Option<i128> {
    let bits = number.to_bits();
    let (is_negative, field) = (bits >> 63 == 1, bits >> FRACTION_BITS & NOT_FINITE);
    if field == NOT_FINITE {
        return None;
    }
    let fraction = i128::from(bits & ((1 << FRACTION_BITS) - 1));
    // A subnormal number has no leading one, and counts what the smallest normal ones count.
    let (significand, field) = if field == 0 { (fraction, 1) } else { (fraction + (1 << FRACTION_BITS), field) };
    let size = scaled(significand, field)?;
    (size <= LIMIT).then_some(if is_negative { -size } else { size })
}

/// The whole 1024ths of a significand that counts 2^(field − 1075), or nothing if they are not whole or far above the limit.
fn scaled(significand: i128, field: u64) -> Option<i128> {
    if significand == 0 {
        return Some(0);
    }
    // Above that field the leading one alone is worth more than the limit.
    let halvings = COUNTS_1024THS.checked_sub(field)?;
    // More halvings than that leave nothing whole of a significand.
    if halvings > u64::from(FRACTION_BITS) {
        return None;
    }
    let divisor = 1 << halvings;
    (significand % divisor == 0).then_some(significand / divisor)
}

/// How many cells a distance is, or nothing if they are not whole. Both are in 1024ths, the cell above zero.
pub fn whole_cells(distance: i128, cell: i128) -> Option<i64> {
    // A distance between two usable numbers is at most twice the limit, and a cell is at least 1.
    (distance % cell == 0).then_some((distance / cell) as i64)
}

#[cfg(test)]
mod tests {
    use super::*;

    #[test]
    fn usable_numbers_come_exactly() {
        for (number, expected) in [
            (0.0, 0),
            (-0.0, 0),
            (0.5, 512),
            (1.0, 1024),
            (-1.0, -1024),
            (1.0 / 1024.0, 1),
            (-3.0 / 1024.0, -3),
            (975.0, 998_400),
            (16_777_216.0, LIMIT),
            (-16_777_216.0, -LIMIT),
            (16_777_216.0 - 1.0 / 1024.0, LIMIT - 1),
        ] {
            assert_eq!(in_1024ths(number), Some(expected), "{number}");
        }
    }

    #[test]
    fn no_other_number_is_usable() {
        let above = f64::from_bits(16_777_216_f64.to_bits() + 1);
        let below = f64::from_bits(16_777_216_f64.to_bits() - 1);
        for number in [0.1, 0.001, 1.0 / 2048.0, 1.5 / 1024.0, above, below, -above, 16_777_216.0 + 1.0 / 1024.0, 16_777_217.0] {
            assert_eq!(in_1024ths(number), None, "{number}");
        }
        for number in [5e-324, -5e-324, f64::MIN_POSITIVE, 1e-300, 1e300, f64::MAX, f64::MIN, 9_007_199_254_740_992.0] {
            assert_eq!(in_1024ths(number), None, "{number}");
        }
        for number in [f64::NAN, -f64::NAN, f64::from_bits(0x7ff0_0000_0000_0001), f64::INFINITY, f64::NEG_INFINITY] {
            assert_eq!(in_1024ths(number), None, "{number}");
        }
    }

    #[test]
    fn every_small_number_of_4096ths_is_judged_by_its_quarters() {
        for number in -100_000..100_000 {
            let expected = (number % 4 == 0).then_some(number / 4);
            assert_eq!(in_1024ths(number as f64 / 4096.0), expected, "{number}");
        }
    }

    #[test]
    fn cells_are_whole_on_both_sides_of_zero() {
        assert_eq!(whole_cells(-30, 10), Some(-3));
        assert_eq!(whole_cells(-25, 10), None);
        assert_eq!(whole_cells(25, 10), None);
        assert_eq!(whole_cells(0, 10), Some(0));
    }
}
