//! An external product or a CMux by itself.

use super::adversary::{block, digits_of, random_words, Signs, Target};
use super::{Kind, Measured};
use crate::parameters::{Effort, Parameters};
use crate::random::Random;
use crate::{lawful, library};
use reference::calls::Call;
use reference::polynomial::{difference, zero};
use reference::torus::HALF_TURN;
use reference::trlwe::Sample;

struct Gate {
    parameters: Parameters,
    key: Vec<i64>,
    bit: u64,
    amplitude: i64,
    sample_amplitudes: [i64; 2],
    signs: Signs,
    target: Target,
    /// What is multiplied: the sample of an external product, the difference of a CMux's samples.
    multiplied: Sample,
}

impl Gate {
    fn draw(kind: Kind, effort: Effort, random: &mut Random) -> Gate {
        let (parameters, spare) = meaningful_parameters(effort, random);
        let degree = parameters.degree as usize;
        let target = Target::draw(degree, random);
        let extreme = random.one_in(2);
        let key = lawful::key(degree, parameters.weight, random);
        let multiplied = if extreme {
            target.extreme_sample(parameters.gadget(), degree)
        } else {
            Sample::from_words(&random_words(2 * degree, random))
        };
        let within = random_up_to(spare, random);
        let amplitude = if kind == Kind::Rounding { 0 } else { random.pick(&[spare, within]) };
        let sample_amplitudes = [(); 2].map(|()| random_up_to(1 << 24, random));
        let (bit, signs) = (random.below(2), Signs::draw(random));
        Gate { parameters, key, bit, amplitude, sample_amplitudes, signs, target, multiplied }
    }

    fn block(&self, random: &mut Random) -> Result<Vec<i64>, String> {
        let Parameters { degree, base_log, digits, .. } = self.parameters;
        let digit_polynomials = digits_of(self.parameters.gadget(), &self.multiplied);
        let row = |digits: &Vec<i64>| self.target.errors(self.signs, self.amplitude, digits, random);
        let errors: Vec<Vec<i64>> = digit_polynomials.iter().map(row).collect();
        block(&[degree, base_log, digits, self.bit], &self.key, &errors, self.amplitude, random)
    }

    /// The phase of a sample less errors at its amplitude: the message that it is declared to hold.
    fn message(&self, sample: &Sample, amplitude: i64, random: &mut Random) -> Vec<i64> {
        let errors = self.target.sample_errors(self.signs, amplitude, sample.degree(), random);
        difference(&sample.phase(&self.key), &errors)
    }

    fn external_product(&self, random: &mut Random) -> Result<Measured, String> {
        let sample_amplitude = self.sample_amplitudes[0];
        let slices = [self.block(random)?, self.multiplied.words()];
        let exact = match self.bit {
            0 => zero(self.key.len()),
            _ => self.message(&self.multiplied, sample_amplitude, random),
        };
        self.measure(Call::ExternalProduct, &[sample_amplitude], &slices, &exact)
    }

    fn cmux(&self, random: &mut Random) -> Result<Measured, String> {
        let sample0 = Sample::from_words(&random_words(2 * self.key.len(), random));
        let sample1 = sample0.plus(&self.multiplied);
        let slices = [self.block(random)?, sample0.words(), sample1.words()];
        let picked = self.bit as usize;
        let exact = self.message([&sample0, &sample1][picked], self.sample_amplitudes[picked], random);
        self.measure(Call::Cmux, &self.sample_amplitudes, &slices, &exact)
    }

    fn measure(
        &self,
        call: Call,
        amplitudes: &[i64],
        slices: &[Vec<i64>],
        exact: &[i64],
    ) -> Result<Measured, String> {
        let Parameters { degree, base_log, digits, weight, .. } = self.parameters;
        let mut numbers = vec![degree, base_log, digits, weight, self.amplitude as u64];
        numbers.extend(amplitudes.iter().map(|&amplitude| amplitude as u64));
        let made = library::call(call, &numbers, slices)?;
        let phase = Sample::from_words(&made.written[0]).phase(&self.key);
        let measured = Measured::new(self.parameters, &phase, exact, made.bound)?;
        let brought = amplitudes.iter().copied().max().unwrap_or(0);
        Ok(Measured { brought, ..measured })
    }
}

pub fn run(kind: Kind, effort: Effort, random: &mut Random) -> Result<Measured, String> {
    let gate = Gate::draw(kind, effort, random);
    match kind {
        Kind::ExternalProduct => gate.external_product(random),
        _ => gate.cmux(random),
    }
}

fn random_up_to(most: i64, random: &mut Random) -> i64 {
    random.up_to(most as u64) as i64
}

/// Parameters with which a bound can stay below half a turn, where it says something, and the greatest
/// amplitude of a block for that. A given gadget that allows none gives way to others.
fn meaningful_parameters(mut effort: Effort, random: &mut Random) -> (Parameters, i64) {
    loop {
        let parameters = Parameters::draw(Call::Cmux, effort, random);
        let [rounding, one] = [0, 1].map(|amplitude| parameters.scheme().charge(amplitude));
        let spare = i128::from(HALF_TURN - (1 << 24)) - rounding;
        let amplitude = spare.div_euclid(one - rounding) as i64;
        if amplitude >= 0 {
            return (parameters, amplitude);
        }
        effort.gadget = None;
    }
}
