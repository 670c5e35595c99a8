//! The checks behind refusals, one for each thing that document 01's table and the papers name.

use super::{Answer, Call, Refusal, Report};
use crate::classes::Classes;
use crate::gadget::Gadget;
use crate::torus::HALF_TURN;
use crate::trgsw::Scheme;

pub type Checked = Result<(), Refusal>;

fn check(number: u32, lawful: bool) -> Checked {
    if lawful {
        Ok(())
    } else {
        Err(Refusal { number, bound: 0 })
    }
}

pub fn degree(n: u64) -> Checked {
    check(1, n.count_ones() == 1 && n <= 1024)
}

pub fn gadget(base_log: u64, digits: u64) -> Result<Gadget, Refusal> {
    let bits = u128::from(base_log) * u128::from(digits);
    check(2, (1..=16).contains(&base_log) && digits > 0 && bits <= 32)?;
    Ok(Gadget::new(base_log, digits))
}

pub fn weight(w: u64, n: u64) -> Checked {
    check(12, w <= n)
}

/// Those of every call that has a charge.
pub fn scheme(n: u64, g: u64, l: u64, w: u64) -> Result<Scheme, Refusal> {
    degree(n)?;
    let gadget = gadget(g, l)?;
    weight(w, n)?;
    Ok(Scheme { degree: n, gadget, weight: w })
}

pub fn class_count(m: u64) -> Result<Classes, Refusal> {
    check(3, m.count_ones() == 1 && (2..=65536).contains(&m))?;
    Ok(Classes::new(m))
}

pub fn carried(s: u64, most: u64) -> Checked {
    check(4, s > 0 && s <= most)
}

pub fn depth(d: u64, most: u64) -> Checked {
    check(4, d <= most)
}

pub fn position(p: u64, n: u64) -> Checked {
    check(4, p < n)
}

pub fn lengths(call: Call, numbers: &[u64], slices: &[&[u8]]) -> Checked {
    let exact = call.exact_lengths(numbers);
    let fits = |(words, slice): (&u128, &&[u8])| slice.len() as u128 == 4 * words;
    check(5, exact.iter().zip(slices).all(fits))
}

pub fn amplitudes(declared: &[u64]) -> Checked {
    check(6, declared.iter().all(|&amplitude| amplitude <= HALF_TURN as u64))
}

pub fn class_list(classes: &[i64], m: u64) -> Checked {
    check(7, classes.iter().all(|&class| class < m as i64))
}

pub fn selector_bit(bit: u64) -> Checked {
    check(7, bit <= 1)
}

pub fn key(words: &[i64]) -> Checked {
    check(8, words.iter().all(|&word| word <= 1))
}

pub fn bound_below_limit(bound: i128, classes: Classes) -> Checked {
    if bound < classes.limit().into() {
        Ok(())
    } else {
        Err(Refusal { number: 9, bound })
    }
}

/// A call's numbers, which are as many as its signature says.
pub fn numbers_of<const COUNT: usize>(numbers: &[u64]) -> [u64; COUNT] {
    numbers.try_into().expect("as many numbers as the call takes")
}

pub fn accepted(bound: i128, gates: u64, written: Vec<(usize, Vec<i64>)>) -> Answer {
    Ok(Report { bound, gates, written })
}
