//! Lawful arguments for every call, with words near the places where rounding and decoding turn over.

use crate::arguments::Arguments;
use crate::noise::{self, Plan};
use crate::parameters::{Effort, Parameters};
use crate::random::Random;
use reference::calls::{bytes_of, words_of, Call, Number, Slice};
use reference::classes::Classes;
use reference::lwe::Scalar;
use reference::polynomial::{sum, zero};
use reference::torus::{word, HALF_TURN, TURN};
use reference::trlwe::Sample;

const EXTREMES: [i64; 6] = [0, 1, HALF_TURN - 1, HALF_TURN, HALF_TURN + 1, TURN - 1];

/// Arguments that pass every check but perhaps the last, that on the bound.
pub fn arguments(call: Call, effort: Effort, random: &mut Random) -> Arguments {
    let plan = if effort.stays_lawful() { Plan::Below } else { Plan::draw(random) };
    let parameters = noise::parameters(call, effort, plan, random);
    let signature = call.signature();
    let numbers: Vec<u64> = signature.numbers.iter().map(|&role| number(role, &parameters, random)).collect();
    let lengths = call.exact_lengths(&numbers);
    let mut slices: Vec<Vec<i64>> = Vec::new();
    for (&role, &length) in signature.slices.iter().zip(&lengths) {
        slices.push(match role {
            Slice::Key => key(length as usize, parameters.weight, random),
            Slice::Errors => noise::errors(call, &parameters, plan, length as usize, random),
            Slice::Amplitudes => noise::amplitudes(call, &parameters, plan, random),
            Slice::SampleAmplitudes => {
                noise::sample_amplitudes(&parameters, plan, &slices[1], length as usize, random)
            }
            Slice::ClassList => class_list(length as usize, parameters.class_count, random),
            Slice::Words | Slice::Written => words(length as usize, &parameters, random),
        });
    }
    let mut arguments = Arguments::new(call, numbers, &slices);
    if random.one_in(2) {
        aim_at_ties(&mut arguments, &parameters, random);
    }
    arguments
}

fn number(role: Number, parameters: &Parameters, random: &mut Random) -> u64 {
    let degree = parameters.degree;
    let position = random.below(degree);
    match role {
        Number::Degree => degree,
        Number::BaseLog => parameters.base_log,
        Number::Digits => parameters.digits,
        Number::Weight => parameters.weight,
        Number::ClassCount => parameters.class_count,
        Number::Carried => parameters.carried,
        Number::Depth => parameters.depth,
        Number::Position => random.pick(&[0, degree - 1, position]),
        Number::Bit => random.below(2),
        Number::Amplitude => noise::amplitude(random),
    }
}

/// A key of at most this weight, often of just this one. Its ones stand side by side, or anywhere.
pub fn key(degree: usize, weight: u64, random: &mut Random) -> Vec<i64> {
    let fewer = random.below(weight + 1);
    let ones = random.pick(&[weight, weight, 0, weight.min(1), fewer]) as usize;
    let mut key = [vec![1; ones], vec![0; degree - ones]].concat();
    key.rotate_right(random.below(degree as u64) as usize);
    if !random.one_in(4) {
        random.shuffle(&mut key);
    }
    key
}

pub fn class_list(count: usize, class_count: u64, random: &mut Random) -> Vec<i64> {
    let highest = class_count - 1;
    let few = random.one_in(4);
    let class = |random: &mut Random| {
        if few {
            random.pick(&[0, highest])
        } else {
            random.below(class_count)
        }
    };
    (0..count).map(|_| class(random) as i64).collect()
}

fn words(count: usize, parameters: &Parameters, random: &mut Random) -> Vec<i64> {
    let kind = random.below(6);
    let one = |random: &mut Random| match kind {
        0 => random.pick(&EXTREMES),
        1 => near_half(last_step(parameters), random),
        2 => near_half(band(parameters), random),
        3 if !random.one_in(8) => 0,
        _ => random.word(),
    };
    (0..count).map(|_| one(random)).collect()
}

fn last_step(parameters: &Parameters) -> i64 {
    parameters.gadget().step(parameters.digits as usize)
}

fn band(parameters: &Parameters) -> i64 {
    Classes::new(parameters.class_count).encode(1)
}

/// A word at or beside an odd multiple of half the step.
fn near_half(step: i64, random: &mut Random) -> i64 {
    word(random.word() / step * step + step / 2 + random.pick(&[-1, 0, 0, 1]))
}

/// Moves phases to the ends of the classes' bands, and a CMux's difference to the ties of rounding.
fn aim_at_ties(arguments: &mut Arguments, parameters: &Parameters, random: &mut Random) {
    let degree = parameters.degree as usize;
    let slice = |place: usize| words_of(&arguments.slices[place]);
    let (place, words) = match arguments.call {
        Call::DecryptClasses => {
            let phase: Vec<i64> = (0..degree).map(|_| near_half(band(parameters), random)).collect();
            let mask = slice(1)[..degree].to_vec();
            (1, Sample::encrypt(&slice(0), mask, &phase, &zero(degree)).words())
        }
        Call::DecryptScalar => {
            let mut scalar = Scalar { mask: slice(1)[..degree].to_vec(), body: 0 };
            scalar.body = word(near_half(band(parameters), random) - scalar.phase(&slice(0)));
            (1, scalar.words())
        }
        Call::Cmux => {
            let step = last_step(parameters);
            let ties: Vec<i64> = (0..2 * degree).map(|_| near_half(step, random)).collect();
            (2, sum(&slice(1), &ties))
        }
        _ => return,
    };
    arguments.slices[place] = bytes_of(&words);
}
