//! Words of the torus: integers modulo 2^32, each standing for a multiple of 1/2^32 of a turn.

pub const TURN: i64 = 1 << 32;
pub const HALF_TURN: i64 = 1 << 31;

/// The representative from 0 to 2^32 - 1.
pub fn word(value: i64) -> i64 {
    value.rem_euclid(TURN)
}

/// The representative from -2^31 to 2^31 - 1.
pub fn centred(value: i64) -> i64 {
    let low = word(value);
    if low < HALF_TURN {
        low
    } else {
        low - TURN
    }
}

pub fn magnitude(value: i64) -> i64 {
    centred(value).abs()
}

pub fn distance(left: i64, right: i64) -> i64 {
    magnitude(left - right)
}

pub fn greatest_magnitude(values: &[i64]) -> i64 {
    values.iter().map(|&value| magnitude(value)).max().unwrap_or(0)
}

#[cfg(test)]
mod tests {
    use super::*;

    #[test]
    fn half_a_turn_reads_as_negative_and_has_the_greatest_magnitude() {
        assert_eq!(centred(HALF_TURN), -HALF_TURN);
        assert_eq!(centred(HALF_TURN - 1), HALF_TURN - 1);
        assert_eq!(magnitude(HALF_TURN), HALF_TURN);
        assert_eq!(greatest_magnitude(&[1, TURN - 3, 2]), 3);
    }

    #[test]
    fn distance_goes_the_short_way_round() {
        assert_eq!(distance(1, TURN - 1), 2);
        assert_eq!(distance(0, HALF_TURN), HALF_TURN);
    }
}
