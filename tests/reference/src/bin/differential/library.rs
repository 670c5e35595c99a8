//! The library under test as the accuracy jobs use it: words in, words out.

use crate::exports::{self, Export};
use crate::lent::LentSlices;
use reference::calls::{bytes_of, words_of, Call, Slice};

pub struct Accepted {
    pub bound: i64,
    /// The written slices, in order.
    pub written: Vec<Vec<i64>>,
}

/// Makes a call that has to be accepted, with the slices that it reads.
pub fn call(call: Call, numbers: &[u64], read: &[Vec<i64>]) -> Result<Accepted, String> {
    let signature = call.signature();
    let mut read = read.iter();
    let mut slices = Vec::new();
    for (role, length) in signature.slices.iter().zip(call.exact_lengths(numbers)) {
        slices.push(match role {
            Slice::Written => vec![0; 4 * length as usize],
            _ => bytes_of(read.next().expect("every slice that the call reads")),
        });
    }
    let mut lent = LentSlices::new(&slices, 0);
    let lend = lent.lend();
    // SAFETY: the slices are parts of separate buffers.
    let [number, bound] =
        [Export::Number, Export::Bound].map(|export| unsafe { exports::call(call, export, numbers, &lend) });
    if number != 0 {
        return Err(format!("{} {numbers:?} returned {number}", signature.name));
    }
    let places = (0..slices.len()).filter(|&place| signature.slices[place] == Slice::Written);
    let written = places.map(|place| words_of(lent.bytes(place))).collect();
    Ok(Accepted { bound: i64::try_from(bound).unwrap_or(i64::MAX), written })
}

/// What an encrypting call writes. Its bound has to be the amplitude of its errors.
pub fn encrypt(call: Call, numbers: &[u64], read: &[Vec<i64>], amplitude: i64) -> Result<Vec<i64>, String> {
    let made = self::call(call, numbers, read)?;
    if made.bound != amplitude {
        return Err(format!("{call:?} with amplitude {amplitude} reports {}", made.bound));
    }
    Ok(made.written.concat())
}
