//! The arguments of one call: its numbers and the bytes of its slices.

use reference::calls::{bytes_of, words_of, Call, Number, Slice};
use std::fmt::{self, Display, Formatter};

#[derive(Clone)]
pub struct Arguments {
    pub call: Call,
    pub numbers: Vec<u64>,
    pub slices: Vec<Vec<u8>>,
    /// How many words of each slice are printed.
    pub shown: usize,
}

impl Arguments {
    pub fn new(call: Call, numbers: Vec<u64>, slices: &[Vec<i64>]) -> Arguments {
        let slices = slices.iter().map(|words| bytes_of(words)).collect();
        Arguments { call, numbers, slices, shown: 16 }
    }

    pub fn number(&self, role: Number) -> u64 {
        self.call.number(&self.numbers, role) as u64
    }

    /// The places of the slices with this role.
    pub fn places(&self, role: Slice) -> Vec<usize> {
        let slices = self.call.signature().slices;
        (0..slices.len()).filter(|&place| slices[place] == role).collect()
    }

    pub fn borrowed(&self) -> Vec<&[u8]> {
        self.slices.iter().map(Vec::as_slice).collect()
    }
}

impl Display for Arguments {
    fn fmt(&self, out: &mut Formatter) -> fmt::Result {
        let signature = self.call.signature();
        write!(out, "cikenuma_{}", signature.name)?;
        for (role, number) in signature.numbers.iter().zip(&self.numbers) {
            write!(out, "\n  {role:?} {number}")?;
        }
        for (role, bytes) in signature.slices.iter().zip(&self.slices) {
            let words = words_of(bytes);
            let count = words.len().min(self.shown);
            let cut = if count < words.len() { " ..." } else { "" };
            write!(out, "\n  {role:?} of {} bytes: {:?}{cut}", bytes.len(), &words[..count])?;
        }
        Ok(())
    }
}
