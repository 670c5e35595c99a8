//! Scalar samples (LWE), and their extraction from packed ones.

use crate::torus::word;
use crate::trlwe::Sample;

#[derive(Clone, Debug, PartialEq, Eq)]
pub struct Scalar {
    pub mask: Vec<i64>,
    pub body: i64,
}

impl Scalar {
    /// Coefficient p of a packed sample. Mask word j is a_(p-j), indices going on past the ends with
    /// the sign changed.
    pub fn extract(sample: &Sample, position: usize) -> Scalar {
        let degree = sample.degree();
        let mask_word = |j: usize| {
            if j <= position {
                sample.mask[position - j]
            } else {
                word(-sample.mask[degree + position - j])
            }
        };
        Scalar { mask: (0..degree).map(mask_word).collect(), body: sample.body[position] }
    }

    pub fn phase(&self, key: &[i64]) -> i64 {
        let inner: i64 = self.mask.iter().zip(key).map(|(mask, bit)| mask * bit).sum();
        word(self.body - inner)
    }
}

#[cfg(test)]
mod tests {
    use super::*;

    #[test]
    fn case_l() {
        let sample = Sample { mask: vec![5, 7], body: vec![9, 11] };
        let first = Scalar { mask: vec![5, 4294967289], body: 9 };
        let second = Scalar { mask: vec![7, 5], body: 11 };
        assert_eq!(Scalar::extract(&sample, 0), first);
        assert_eq!(Scalar::extract(&sample, 1), second);
    }

    #[test]
    fn the_extracted_phase_is_the_coefficient_of_the_phase() {
        let sample = Sample { mask: vec![5, 4294967295, 2147483648, 77], body: vec![1, 2, 3, 4] };
        let key = [1, 0, 1, 1];
        let phase = sample.phase(&key);
        for (position, &coefficient) in phase.iter().enumerate() {
            assert_eq!(Scalar::extract(&sample, position).phase(&key), coefficient);
        }
    }
}
