//! The gadget's steps, and the decomposition of words into signed digits, as Algorithm 1 of the thesis
//! goes: the closest multiple of the last step first, then digit after digit.

use crate::torus::TURN;

#[derive(Clone, Copy, Debug, PartialEq, Eq)]
pub struct Gadget {
    base: i64,
    digits: u32,
    last_step: i64,
}

impl Gadget {
    /// Base 2^g and L digits, with g*L at most 32.
    pub fn new(base_log: u64, digits: u64) -> Gadget {
        Gadget { base: 1 << base_log, digits: digits as u32, last_step: 1 << (32 - base_log * digits) }
    }

    pub fn digits(&self) -> usize {
        self.digits as usize
    }

    /// Step h_j, for j from 1 to L.
    pub fn step(&self, j: usize) -> i64 {
        TURN / self.base.pow(j as u32)
    }

    /// The greatest magnitude of a digit, 2^(g-1).
    pub fn greatest_digit(&self) -> i64 {
        self.base / 2
    }

    /// E, the greatest magnitude of a rounding remainder: 0 where the last step is 1.
    pub fn greatest_remainder(&self) -> i64 {
        self.last_step / 2
    }

    /// Digits 1 to L of a word.
    pub fn decompose(&self, word: i64) -> Vec<i64> {
        let mut rest = (word + self.greatest_remainder()) / self.last_step;
        let mut digits = vec![0; self.digits()];
        for digit in digits.iter_mut().rev() {
            *digit = rest % self.base;
            if *digit >= self.greatest_digit() {
                *digit -= self.base;
            }
            rest = (rest - *digit) / self.base;
        }
        digits
    }

    /// For each j from 1 to L, the polynomial of the digits j.
    pub fn decompose_polynomial(&self, words: &[i64]) -> Vec<Vec<i64>> {
        let digits: Vec<Vec<i64>> = words.iter().map(|&word| self.decompose(word)).collect();
        let of_number = |j: usize| digits.iter().map(|of_word| of_word[j]).collect();
        (0..self.digits()).map(of_number).collect()
    }
}

/// All bases and numbers of digits (g, L) that are lawful.
pub fn all_gadgets() -> Vec<(u64, u64)> {
    let of_base = |base_log: u64| (1..=32 / base_log).map(move |digits| (base_log, digits));
    (1..=16).flat_map(of_base).collect()
}

#[cfg(test)]
mod tests {
    use super::*;
    use crate::torus::distance;

    #[test]
    fn cases_a_to_g() {
        let gadget = Gadget::new(8, 2);
        let table: [(i64, [i64; 2]); 7] = [
            (0, [0, 0]),
            (32767, [0, 0]),
            (32768, [0, 1]),
            (8388608, [1, -128]),
            (2139095040, [-128, -128]),
            (4294934528, [0, 0]),
            (2147483648, [-128, 0]),
        ];
        for (word, digits) in table {
            assert_eq!(gadget.decompose(word), digits, "{word}");
        }
    }

    #[test]
    fn the_remainder_is_zero_when_all_bits_are_used() {
        assert_eq!(Gadget::new(16, 2).greatest_remainder(), 0);
        assert_eq!(Gadget::new(1, 31).greatest_remainder(), 1);
        assert_eq!(Gadget::new(8, 2).greatest_remainder(), 32768);
    }

    #[test]
    fn digits_are_in_range_and_add_up_for_all_gadgets() {
        for (base_log, digits) in all_gadgets() {
            let gadget = Gadget::new(base_log, digits);
            for word in [0, 1, 2147483647, 2147483648, 4294967295, 3141592653, 2718281828] {
                let found = gadget.decompose(word);
                let half = gadget.greatest_digit();
                assert!(found.iter().all(|digit| (-half..half).contains(digit)));
                let back: i64 = (1..).zip(&found).map(|(j, digit)| digit * gadget.step(j)).sum();
                assert!(distance(word, back) <= gadget.greatest_remainder());
            }
        }
    }
}
