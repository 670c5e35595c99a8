//! Packed samples (TRLWE): a mask polynomial and a body polynomial.

use crate::classes::Classes;
use crate::polynomial::{difference, product, rotated, sum, zero, Polynomial};

#[derive(Clone, Debug, PartialEq, Eq)]
pub struct Sample {
    pub mask: Polynomial,
    pub body: Polynomial,
}

impl Sample {
    pub fn trivial(message: Polynomial) -> Sample {
        Sample { mask: zero(message.len()), body: message }
    }

    /// body = mask*key + errors + message.
    pub fn encrypt(key: &[i64], mask: Polynomial, errors: &[i64], message: &[i64]) -> Sample {
        let body = sum(&sum(&product(key, &mask), errors), message);
        Sample { mask, body }
    }

    pub fn degree(&self) -> usize {
        self.body.len()
    }

    /// body - mask*key.
    pub fn phase(&self, key: &[i64]) -> Polynomial {
        difference(&self.body, &product(key, &self.mask))
    }

    /// What coefficients 0 to carried - 1 of the phase decode to.
    pub fn decrypt(&self, key: &[i64], classes: Classes, carried: usize) -> Vec<i64> {
        let phase = self.phase(key);
        phase[..carried].iter().map(|&coefficient| classes.decode(coefficient)).collect()
    }

    pub fn plus(&self, other: &Sample) -> Sample {
        Sample { mask: sum(&self.mask, &other.mask), body: sum(&self.body, &other.body) }
    }

    pub fn minus(&self, other: &Sample) -> Sample {
        Sample { mask: difference(&self.mask, &other.mask), body: difference(&self.body, &other.body) }
    }

    /// The sample times X^(-places).
    pub fn rotated(&self, places: usize) -> Sample {
        Sample { mask: rotated(&self.mask, places), body: rotated(&self.body, places) }
    }

    /// The sample times a polynomial of small integers.
    pub fn times(&self, integers: &[i64]) -> Sample {
        Sample { mask: product(integers, &self.mask), body: product(integers, &self.body) }
    }
}

#[cfg(test)]
mod tests {
    use super::*;

    #[test]
    fn the_phase_of_an_encryption_is_message_plus_error() {
        let sample = Sample::encrypt(&[1, 1], vec![5, 7], &[1, 4294967295], &[100, 200]);
        assert_eq!(sample.body, [99, 211]);
        assert_eq!(sample.phase(&[1, 1]), [101, 199]);
    }

    #[test]
    fn noise_below_the_limit_decrypts_and_noise_at_it_does_not() {
        let classes = Classes::new(16);
        let message = classes.message(&[9], 1);
        let limit = classes.limit();
        for (error, class) in [(limit - 1, 9), (-limit, 9), (limit, 10), (-limit - 1, 8)] {
            let sample = Sample::encrypt(&[1], vec![4000000000], &[error], &message);
            assert_eq!(sample.decrypt(&[1], classes, 1), [class]);
        }
    }
}
