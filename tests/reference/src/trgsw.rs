//! Selector blocks (TRGSW), the external product, the CMux and their charge.

use crate::gadget::Gadget;
use crate::polynomial::{zero, Polynomial};
use crate::torus::word;
use crate::trlwe::Sample;

#[derive(Clone, Debug, PartialEq, Eq)]
pub struct Block {
    pub gadget: Gadget,
    /// L rows for the mask's digits, then L rows for the body's.
    pub rows: Vec<Sample>,
}

impl Block {
    /// Each row is an encryption of 0 plus the bit times its gadget part.
    pub fn encrypt(
        gadget: Gadget,
        bit: i64,
        key: &[i64],
        masks: &[Polynomial],
        errors: &[Polynomial],
    ) -> Block {
        let no_message = zero(key.len());
        let encryption = |(mask, error): (&Polynomial, &Polynomial)| {
            Sample::encrypt(key, mask.clone(), error, &no_message)
        };
        let mut rows: Vec<Sample> = masks.iter().zip(errors).map(encryption).collect();
        let (mask_rows, body_rows) = rows.split_at_mut(gadget.digits());
        for (j, (mask_row, body_row)) in (1..).zip(mask_rows.iter_mut().zip(body_rows)) {
            mask_row.mask[0] = word(mask_row.mask[0] + bit * gadget.step(j));
            body_row.body[0] = word(body_row.body[0] + bit * gadget.step(j));
        }
        Block { gadget, rows }
    }

    /// The sum over the rows of digit polynomial times row.
    pub fn external_product(&self, sample: &Sample) -> Sample {
        let mut digits = self.gadget.decompose_polynomial(&sample.mask);
        digits.extend(self.gadget.decompose_polynomial(&sample.body));
        let nothing = Sample::trivial(zero(sample.degree()));
        let add = |so_far: Sample, (row, digits): (&Sample, &Polynomial)| so_far.plus(&row.times(digits));
        self.rows.iter().zip(&digits).fold(nothing, add)
    }

    pub fn cmux(&self, sample0: &Sample, sample1: &Sample) -> Sample {
        sample0.plus(&self.external_product(&sample1.minus(sample0)))
    }
}

/// What a charge goes by, beside the amplitude of a block.
#[derive(Clone, Copy, Debug)]
pub struct Scheme {
    pub degree: u64,
    pub gadget: Gadget,
    /// The most words of the key that are 1.
    pub weight: u64,
}

impl Scheme {
    /// What an external product with a block of this amplitude adds to the noise.
    pub fn charge(&self, amplitude: i64) -> i128 {
        let rows = 2 * self.gadget.digits() as i128;
        let digit = i128::from(self.gadget.greatest_digit());
        let products = rows * i128::from(self.degree) * digit * i128::from(amplitude);
        products + (1 + i128::from(self.weight)) * i128::from(self.gadget.greatest_remainder())
    }
}

#[cfg(test)]
mod tests {
    use super::*;
    use crate::torus::distance;

    fn scheme(degree: u64, gadget: Gadget, weight: u64) -> Scheme {
        Scheme { degree, gadget, weight }
    }

    #[test]
    fn charges_of_document_01() {
        let job_j = scheme(1, Gadget::new(16, 2), 1);
        assert_eq!([7, 1023, 1024].map(|amplitude| job_j.charge(amplitude)), [917504, 134086656, 134217728]);
        assert_eq!(scheme(1024, Gadget::new(8, 2), 1024).charge(1), 34111488);
    }

    #[test]
    fn a_unit_of_weight_is_charged_the_greatest_remainder() {
        for gadget in [Gadget::new(8, 2), Gadget::new(1, 31), Gadget::new(16, 2), Gadget::new(1, 1)] {
            let remainder = i128::from(gadget.greatest_remainder());
            let without = scheme(1024, gadget, 0).charge(5) - remainder;
            for weight in [0, 1, 2, 511, 1024] {
                let rounding = (1 + i128::from(weight)) * remainder;
                assert_eq!(scheme(1024, gadget, weight).charge(5), without + rounding);
            }
        }
    }

    /// Remainders of -E each, and a key with its ones above the constant place: in coefficient 0 all of them come with one sign.
    #[test]
    fn the_rounding_of_a_charge_is_met() {
        let gadget = Gadget::new(8, 2);
        let greatest = gadget.greatest_remainder();
        let [degree, weight] = [8, 5];
        let key: Vec<i64> = (0..degree).map(|i| (1..=weight).contains(&i).into()).collect();
        let nothing = vec![zero(degree as usize); 4];
        let block = Block::encrypt(gadget, 1, &key, &nothing, &nothing);
        let sample = Sample { mask: vec![word(-greatest); 8], body: vec![word(-greatest); 8] };
        let phases = [block.external_product(&sample), sample].map(|sample| sample.phase(&key)[0]);
        assert_eq!(distance(phases[0], phases[1]), (1 + weight) * greatest);
    }

    #[test]
    fn a_block_without_noise_picks_exactly() {
        let gadget = Gadget::new(16, 2);
        let key = [1, 1];
        let masks = vec![vec![123456789, 4294967295]; 4];
        let errors = vec![zero(2); 4];
        let samples = [
            Sample { mask: vec![1, 2], body: vec![2147483648, 4] },
            Sample { mask: vec![4294967290, 6], body: vec![7, 32768] },
        ];
        for (bit, picked) in [(0, &samples[0]), (1, &samples[1])] {
            let block = Block::encrypt(gadget, bit, &key, &masks, &errors);
            let out = block.cmux(&samples[0], &samples[1]);
            assert_eq!(out.phase(&key), picked.phase(&key));
        }
    }

    #[test]
    fn rows_hold_the_gadget_parts() {
        let gadget = Gadget::new(8, 2);
        let block = Block::encrypt(gadget, 1, &[1], &vec![vec![10]; 4], &vec![vec![3]; 4]);
        let phases: Vec<i64> = block.rows.iter().map(|row| row.phase(&[1])[0]).collect();
        assert_eq!(phases, [4278190080 + 3, 4294901760 + 3, 16777216 + 3, 65536 + 3]);
        assert_eq!(block.rows[0].mask, [16777216 + 10]);
    }
}
