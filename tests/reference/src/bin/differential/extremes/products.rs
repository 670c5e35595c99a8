//! External products and CMuxes: blocks of one word, and samples by their digits.

use super::fillings::{spread, Filling, FILLINGS};
use super::with_written;
use crate::arguments::Arguments;
use crate::parameters::weight;
use crate::random::Random;
use reference::calls::Call;
use reference::gadget::Gadget;
use reference::polynomial::sum;
use reference::torus::{word, HALF_TURN, TURN};

const DEGREES: [u64; 7] = [4, 8, 64, 128, 256, 512, 1024];

/// The greatest sums, the most rows, and digits that don't take up the whole word.
pub const GADGETS: [(u64, u64); 3] = [(16, 2), (1, 32), (8, 2)];

/// Word products of a call above which not every block meets every sample.
const MANY: u64 = 1 << 24;

/// The 2*N words that a block is multiplied with; for a CMux they are the difference of its samples.
#[derive(Clone, Copy, PartialEq, Eq)]
enum Sample {
    /// Every digit is the least one, or the greatest.
    Least,
    Most,
    /// One after the other.
    Alternating,
    /// The first word of each polynomial has the other digits, so that all terms of the constant coefficient
    /// have one sign.
    Turned,
    Each(i64),
    /// So many words are not 0.
    Few(usize),
    /// The first or the last digit alone is not 0.
    FirstDigit,
    LastDigit,
    /// One polynomial is 0.
    MaskAlone,
    BodyAlone,
    Random,
}

const SAMPLES: [Sample; 16] = [
    Sample::Least,
    Sample::Most,
    Sample::Alternating,
    Sample::Turned,
    Sample::Each(HALF_TURN),
    Sample::Each(TURN - 1),
    Sample::Few(0),
    Sample::Few(1),
    Sample::Few(63),
    Sample::Few(64),
    Sample::Few(65),
    Sample::FirstDigit,
    Sample::LastDigit,
    Sample::MaskAlone,
    Sample::BodyAlone,
    Sample::Random,
];

pub struct Case {
    call: Call,
    degree: u64,
    gadget: (u64, u64),
    block: Filling,
    sample: Sample,
}

/// Every block meets every sample, in both calls. Where they cost much, the block of the greatest magnitude
/// meets every sample and the others two, and the calls take turns.
pub fn cases() -> Vec<Case> {
    let mut cases = Vec::new();
    for degree in DEGREES {
        for gadget in GADGETS {
            let costs_much = 4 * gadget.1 * degree * degree > MANY;
            for (b, s) in (0..FILLINGS.len()).flat_map(|b| (0..SAMPLES.len()).map(move |s| (b, s))) {
                let (block, sample) = (FILLINGS[b], SAMPLES[s]);
                let case = |call| Case { call, degree, gadget, block, sample };
                if !costs_much {
                    cases.extend([Call::ExternalProduct, Call::Cmux].map(case));
                } else if b == 0 || [Sample::Least, Sample::Random].contains(&sample) {
                    cases.push(case([Call::ExternalProduct, Call::Cmux][(b + s) % 2]));
                }
            }
        }
    }
    cases
}

impl Case {
    pub fn arguments(&self, random: &mut Random) -> Arguments {
        let degree = self.degree as usize;
        let (base_log, digits) = self.gadget;
        let block = self.block.words(4 * digits as usize * degree, random);
        let difference = self.sample.words(degree, Gadget::new(base_log, digits), random);
        let amplitude = HALF_TURN as u64;
        let weight = weight(self.degree, random);
        let mut numbers = vec![self.degree, base_log, digits, weight, amplitude, amplitude];
        if self.call == Call::ExternalProduct {
            return with_written(self.call, numbers, vec![block, difference], random);
        }
        let sample0 = self.block.words(2 * degree, random);
        let sample1 = sum(&sample0, &difference);
        numbers.push(amplitude);
        with_written(self.call, numbers, vec![block, sample0, sample1], random)
    }
}

impl Sample {
    fn words(self, degree: usize, gadget: Gadget, random: &mut Random) -> Vec<i64> {
        let least = every_digit(gadget, -gadget.greatest_digit());
        let most = every_digit(gadget, gadget.greatest_digit() - 1);
        let places = 2 * degree;
        let drawn: Vec<i64> = (0..places).map(|_| random.word()).collect();
        let of_place = |word: &dyn Fn(usize) -> i64| (0..places).map(word).collect();
        match self {
            Sample::Least => vec![least; places],
            Sample::Most => vec![most; places],
            Sample::Alternating => of_place(&|i| if i % 2 == 0 { least } else { most }),
            Sample::Turned => of_place(&|i| if i % degree == 0 { most } else { least }),
            Sample::Each(word) => vec![word; places],
            Sample::Few(count) => {
                let mut words = vec![0; places];
                spread(count, places).for_each(|place| words[place] = drawn[place] | HALF_TURN);
                words
            }
            Sample::FirstDigit => of_place(&|i| word(drawn[i] * gadget.step(1))),
            Sample::LastDigit => of_place(&|i| last_digit(gadget, drawn[i])),
            Sample::MaskAlone => of_place(&|i| if i < degree { drawn[i] } else { 0 }),
            Sample::BodyAlone => of_place(&|i| if i < degree { 0 } else { drawn[i] }),
            Sample::Random => drawn,
        }
    }
}

/// The word whose digits all are this one.
fn every_digit(gadget: Gadget, digit: i64) -> i64 {
    let found = word((1..=gadget.digits()).map(|j| digit * gadget.step(j)).sum());
    assert!(gadget.decompose(found).iter().all(|&is| is == digit), "digits are unique");
    found
}

/// The word whose last digit is that of the drawn one, and whose other digits are 0.
fn last_digit(gadget: Gadget, drawn: i64) -> i64 {
    let last = gadget.decompose(drawn)[gadget.digits() - 1];
    word(last * gadget.step(gadget.digits()))
}
