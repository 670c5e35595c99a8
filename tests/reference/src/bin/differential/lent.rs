//! Lent slices with guard bytes before and after each, and what they must hold.

use crate::exports::Lent;

const GUARD: u8 = 0xa5;
const GUARD_LENGTH: usize = 32;

pub struct LentSlices {
    buffers: Vec<Vec<u8>>,
    expected: Vec<Vec<u8>>,
    /// Bytes before each slice: it is lent at any alignment.
    before: usize,
}

impl LentSlices {
    pub fn new(slices: &[Vec<u8>], shift: usize) -> LentSlices {
        let before = GUARD_LENGTH + shift;
        let guarded = |slice: &Vec<u8>| [&vec![GUARD; before], &slice[..], &[GUARD; GUARD_LENGTH]].concat();
        let buffers: Vec<Vec<u8>> = slices.iter().map(guarded).collect();
        LentSlices { expected: buffers.clone(), buffers, before }
    }

    pub fn lend(&mut self) -> Vec<Lent> {
        let before = self.before;
        let lend = |buffer: &mut Vec<u8>| {
            let inner = &mut buffer[before..];
            Lent { start: inner.as_mut_ptr(), length: inner.len() - GUARD_LENGTH }
        };
        self.buffers.iter_mut().map(lend).collect()
    }

    /// From here on a slice must hold these bytes.
    pub fn expect(&mut self, place: usize, bytes: &[u8]) {
        let slice = &mut self.expected[place][self.before..];
        slice[..bytes.len()].copy_from_slice(bytes);
    }

    pub fn bytes(&self, place: usize) -> &[u8] {
        let buffer = &self.buffers[place];
        &buffer[self.before..buffer.len() - GUARD_LENGTH]
    }

    /// The first byte that is not as expected, if there is one.
    pub fn difference(&self) -> Option<String> {
        let mut places = self.buffers.iter().zip(&self.expected).enumerate();
        let (place, (buffer, expected)) = places.find(|(_, (buffer, expected))| buffer != expected)?;
        let at = (0..buffer.len()).find(|&at| buffer[at] != expected[at])?;
        let offset = at as i64 - self.before as i64;
        Some(format!("slice {place}, byte {offset}: {} instead of {}", buffer[at], expected[at]))
    }
}
