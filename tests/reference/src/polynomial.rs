//! Polynomials modulo X^N + 1, constant coefficient first.

use crate::torus::word;

pub type Polynomial = Vec<i64>;

pub fn zero(degree: usize) -> Polynomial {
    vec![0; degree]
}

pub fn sum(left: &[i64], right: &[i64]) -> Polynomial {
    left.iter().zip(right).map(|(a, b)| word(a + b)).collect()
}

pub fn difference(left: &[i64], right: &[i64]) -> Polynomial {
    left.iter().zip(right).map(|(a, b)| word(a - b)).collect()
}

/// The product of a polynomial of integers and one of words. Products of two are taken modulo 2^32, which the processor
/// makes several of at a time; no sum passes 2^32 * 2^10. A term that passes the end returns with its sign changed.
pub fn product(integers: &[i64], words: &[i64]) -> Polynomial {
    let degree = words.len();
    let mut sums = zero(degree);
    for (i, &a) in integers.iter().enumerate().filter(|(_, &a)| a != 0) {
        let (stay, pass) = words.split_at(degree - i);
        for (sum, &b) in sums[i..].iter_mut().zip(stay) {
            *sum += word_product(a, b);
        }
        for (sum, &b) in sums.iter_mut().zip(pass) {
            *sum -= word_product(a, b);
        }
    }
    sums.into_iter().map(word).collect()
}

fn word_product(a: i64, b: i64) -> i64 {
    i64::from((a as u32).wrapping_mul(b as u32))
}

/// The polynomial times X^(-places), of no more places than it has coefficients. Those that pass the end return
/// with their sign changed.
pub fn rotated(words: &[i64], places: usize) -> Polynomial {
    let (pass, stay) = words.split_at(places);
    stay.iter().copied().chain(pass.iter().map(|&coefficient| word(-coefficient))).collect()
}

#[cfg(test)]
mod tests {
    use super::*;

    #[test]
    fn case_h() {
        assert_eq!(product(&[1, 2], &[0, 1]), [4294967294, 1]);
    }

    #[test]
    fn degree_one_is_a_plain_product() {
        assert_eq!(product(&[-3], &[5]), [4294967281]);
    }

    #[test]
    fn powers_of_x_come_round_after_two_turns() {
        let x = [0, 1, 0, 0];
        let powers = (1..8).fold(x.to_vec(), |power, _| product(&x, &power));
        assert_eq!(powers, [1, 0, 0, 0]);
    }

    #[test]
    fn a_power_of_x_undoes_a_rotation() {
        let words = [5, 7, 0, 2147483648];
        assert_eq!(rotated(&words, 1), [7, 0, 2147483648, 4294967291]);
        for places in 0..4 {
            let mut power = zero(4);
            power[places] = 1;
            assert_eq!(product(&power, &rotated(&words, places)), words);
        }
    }
}
