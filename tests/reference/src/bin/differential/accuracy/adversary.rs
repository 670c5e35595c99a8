//! Errors at the amplitude, also such that they add up in one coefficient.

use crate::library;
use crate::random::Random;
use reference::calls::Call;
use reference::gadget::Gadget;
use reference::polynomial::{zero, Polynomial};
use reference::torus::word;
use reference::trlwe::Sample;

/// Every error has exactly the amplitude's magnitude.
#[derive(Clone, Copy, Debug, PartialEq, Eq)]
pub enum Signs {
    Plus,
    Minus,
    Random,
    /// As the digits that the errors are multiplied with, for one coefficient of the result.
    Aligned,
}

impl Signs {
    pub fn draw(random: &mut Random) -> Signs {
        random.pick(&[Signs::Plus, Signs::Minus, Signs::Random, Signs::Aligned, Signs::Aligned])
    }
}

/// The coefficient of the result, and the side, to which noise is pushed.
#[derive(Clone, Copy)]
pub struct Target {
    coefficient: usize,
    side: i64,
}

impl Target {
    pub fn draw(degree: usize, random: &mut Random) -> Target {
        let any = random.below(degree as u64) as usize;
        Target { coefficient: random.pick(&[degree - 1, any]), side: random.sign() }
    }

    /// The place of the factor that meets coefficient i of the other one in this coefficient of a
    /// product, and the sign with which their product arrives.
    fn partner(&self, i: usize, degree: usize) -> (usize, i64) {
        if i <= self.coefficient {
            (self.coefficient - i, 1)
        } else {
            (degree + self.coefficient - i, -1)
        }
    }

    /// Errors of one row of a block, against the digits that it is multiplied with.
    pub fn errors(&self, signs: Signs, amplitude: i64, digits: &[i64], random: &mut Random) -> Polynomial {
        let mut errors = zero(digits.len());
        for (i, digit) in digits.iter().enumerate() {
            let (place, arrives) = self.partner(i, digits.len());
            let sign = match signs {
                Signs::Plus => 1,
                Signs::Minus => -1,
                Signs::Random => random.sign(),
                Signs::Aligned if *digit < 0 => -self.side * arrives,
                Signs::Aligned => self.side * arrives,
            };
            errors[place] = word(sign * amplitude);
        }
        errors
    }

    /// The errors of a sample that is taken over as it is.
    pub fn sample_errors(
        &self,
        signs: Signs,
        amplitude: i64,
        degree: usize,
        random: &mut Random,
    ) -> Polynomial {
        let one = [&[1][..], &zero(degree - 1)].concat();
        self.errors(signs, amplitude, &one, random)
    }

    /// A sample whose digits are all -2^(g-1), and whose remainders add up under the ones of every key.
    pub fn extreme_sample(&self, gadget: Gadget, degree: usize) -> Sample {
        let lowest: i64 = (1..=gadget.digits()).map(|j| -gadget.greatest_digit() * gadget.step(j)).sum();
        let greatest = gadget.greatest_remainder();
        let remainder = |sign: i64| {
            if sign < 0 {
                -greatest
            } else {
                (greatest - 1).max(0)
            }
        };
        let mask_word = |i: usize| word(lowest + remainder(self.side * self.partner(i, degree).1));
        Sample {
            mask: (0..degree).map(mask_word).collect(),
            body: vec![word(lowest + remainder(-self.side)); degree],
        }
    }
}

/// The digit polynomials of a sample, in the order of a block's rows.
pub fn digits_of(gadget: Gadget, sample: &Sample) -> Vec<Polynomial> {
    let [mask, body] = [&sample.mask, &sample.body].map(|words| gadget.decompose_polynomial(words));
    [mask, body].concat()
}

pub fn random_words(count: usize, random: &mut Random) -> Vec<i64> {
    (0..count).map(|_| random.word()).collect()
}

/// A block of the library's making, with random masks and the given errors of each row.
pub fn block(
    numbers: &[u64; 4],
    key: &[i64],
    errors: &[Polynomial],
    amplitude: i64,
    random: &mut Random,
) -> Result<Vec<i64>, String> {
    let errors = errors.concat();
    let masks = random_words(errors.len(), random);
    library::encrypt(Call::EncryptSelector, numbers, &[key.to_vec(), masks, errors], amplitude)
}
