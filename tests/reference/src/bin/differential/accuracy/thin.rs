//! The rounding of a charge is met by keys of every weight: beside the bound that goes with a key's own weight, that of one
//! unit less is passed. So no weight below the key's would do.
//!
//! A block without errors picks a sample whose every difference from a multiple of the last step is -E. In coefficient 0 of a
//! product with the mask, key words above the constant place come with their sign changed: each adds E to that of the body.

use super::adversary::{block, random_words};
use crate::library;
use crate::random::Random;
use reference::calls::Call;
use reference::gadget::Gadget;
use reference::polynomial::zero;
use reference::torus::{distance, word, HALF_TURN};
use reference::trlwe::Sample;

/// Gadgets that round, by one bit and by sixteen at most.
const GADGETS: [(u64, u64); 4] = [(1, 31), (7, 3), (8, 2), (16, 1)];

struct Case {
    degree: u64,
    gadget: (u64, u64),
    weight: u64,
}

fn cases() -> Vec<Case> {
    let mut cases = Vec::new();
    for degree in (1..=10).map(|log| 1 << log) {
        for gadget in GADGETS {
            let weights = [1, degree / 2, degree - 1].into_iter();
            cases.extend(weights.map(|weight| Case { degree, gadget, weight }));
        }
    }
    cases
}

impl Case {
    fn greatest_remainder(&self) -> i64 {
        Gadget::new(self.gadget.0, self.gadget.1).greatest_remainder()
    }

    /// Its ones stand above the constant place.
    fn key(&self, random: &mut Random) -> Vec<i64> {
        let mut above: Vec<i64> = (1..self.degree).map(|i| (i <= self.weight).into()).collect();
        random.shuffle(&mut above);
        [vec![0], above].concat()
    }

    fn word(&self, random: &mut Random) -> i64 {
        let step = 2 * self.greatest_remainder();
        word(random.word() / step * step - self.greatest_remainder())
    }

    /// The declared weights are that of the key, and one less.
    fn run(&self, random: &mut Random) -> Result<(), String> {
        let (degree, (g, l)) = (self.degree, self.gadget);
        let key = self.key(random);
        let errors = vec![zero(degree as usize); 2 * l as usize];
        let block = block(&[degree, g, l, 1], &key, &errors, 0, random)?;
        let sample0 = Sample::from_words(&random_words(2 * degree as usize, random));
        let difference: Vec<i64> = (0..2 * degree).map(|_| self.word(random)).collect();
        let sample1 = sample0.plus(&Sample::from_words(&difference));
        let slices = [block, sample0.words(), sample1.words()];
        let [made, lighter] = [self.weight, self.weight - 1]
            .map(|weight| library::call(Call::Cmux, &[degree, g, l, weight, 0, 0, 0], &slices));
        let (made, lighter) = (made?, lighter?);
        let picked = Sample::from_words(&made.written[0]);
        let noise = distance(picked.phase(&key)[0], sample1.phase(&key)[0]);
        if noise == made.bound && noise > lighter.bound && made.written == lighter.written {
            return Ok(());
        }
        let (weight, bounds) = (self.weight, [made.bound, lighter.bound]);
        Err(format!("N = {degree}, g = {g}, L = {l}, W = {weight}: noise {noise}, bounds {bounds:?}"))
    }
}

/// Whether all of them are as they should be.
pub fn all_cases(seed: u64) -> bool {
    let says_something = |case: &Case| (1 + case.weight as i64) * case.greatest_remainder() <= HALF_TURN;
    let (mut count, mut wrong) = (0, 0);
    for (number, case) in (0..).zip(cases().into_iter().filter(says_something)) {
        count += 1;
        if let Err(message) = case.run(&mut Random::of_case(seed, number)) {
            wrong += 1;
            println!("WRONG thin key: {message}");
        }
    }
    println!("thin keys: {count} cases in which a bound is met, {wrong} wrong");
    count > 100 && wrong == 0
}
