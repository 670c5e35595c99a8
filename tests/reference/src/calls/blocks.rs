//! Encrypting a selector, the external product and the CMux.

use super::bytes::{all_words, polynomials};
use super::{checks, Answer, Call};
use crate::torus::greatest_magnitude;
use crate::trgsw::Block;
use crate::trlwe::Sample;

pub fn encrypt_selector(numbers: &[u64], slices: &[&[u8]]) -> Answer {
    let [n, g, l, bit] = checks::numbers_of(numbers);
    checks::degree(n)?;
    let gadget = checks::gadget(g, l)?;
    checks::lengths(Call::EncryptSelector, numbers, slices)?;
    let [key, masks, errors, _] = all_words(slices);
    checks::selector_bit(bit)?;
    checks::key(&key)?;
    let degree = n as usize;
    let rows = [&masks, &errors].map(|words| polynomials(words, degree));
    let block = Block::encrypt(gadget, bit as i64, &key, &rows[0], &rows[1]);
    checks::accepted(greatest_magnitude(&errors).into(), 0, vec![(3, block.words())])
}

pub fn external_product(numbers: &[u64], slices: &[&[u8]]) -> Answer {
    let [n, g, l, w, amplitude, sample_amplitude] = checks::numbers_of(numbers);
    let scheme = checks::scheme(n, g, l, w)?;
    checks::lengths(Call::ExternalProduct, numbers, slices)?;
    checks::amplitudes(&[amplitude, sample_amplitude])?;
    let [block, sample, _] = all_words(slices);
    let out = Block::from_words(scheme.gadget, &block).external_product(&Sample::from_words(&sample));
    let bound = scheme.charge(amplitude as i64) + i128::from(sample_amplitude);
    checks::accepted(bound, 0, vec![(2, out.words())])
}

pub fn cmux(numbers: &[u64], slices: &[&[u8]]) -> Answer {
    let [n, g, l, w, amplitude, amplitude0, amplitude1] = checks::numbers_of(numbers);
    let scheme = checks::scheme(n, g, l, w)?;
    checks::lengths(Call::Cmux, numbers, slices)?;
    checks::amplitudes(&[amplitude, amplitude0, amplitude1])?;
    let [block, sample0, sample1, _] = all_words(slices);
    let samples = [sample0, sample1].map(|words| Sample::from_words(&words));
    let out = Block::from_words(scheme.gadget, &block).cmux(&samples[0], &samples[1]);
    let bound = scheme.charge(amplitude as i64) + i128::from(amplitude0.max(amplitude1));
    checks::accepted(bound, 1, vec![(3, out.words())])
}
