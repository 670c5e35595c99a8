//! Lent slices as words, four bytes each, lowest first, and the layout of what is made of them.

use crate::gadget::Gadget;
use crate::lwe::Scalar;
use crate::polynomial::Polynomial;
use crate::trgsw::Block;
use crate::trlwe::Sample;

pub fn words_of(bytes: &[u8]) -> Vec<i64> {
    let word = |four: &[u8]| four.iter().rev().fold(0, |so_far, &byte| so_far * 256 + i64::from(byte));
    bytes.chunks(4).map(word).collect()
}

pub fn bytes_of(words: &[i64]) -> Vec<u8> {
    let bytes = |&word: &i64| [0, 8, 16, 24].map(|shift| (word >> shift & 255) as u8);
    words.iter().flat_map(bytes).collect()
}

/// All slices of a call as words.
pub fn all_words<const COUNT: usize>(slices: &[&[u8]]) -> [Vec<i64>; COUNT] {
    std::array::from_fn(|place| words_of(slices[place]))
}

pub fn polynomials(words: &[i64], degree: usize) -> Vec<Polynomial> {
    words.chunks(degree).map(<[i64]>::to_vec).collect()
}

impl Sample {
    pub fn from_words(words: &[i64]) -> Sample {
        let (mask, body) = words.split_at(words.len() / 2);
        Sample { mask: mask.to_vec(), body: body.to_vec() }
    }

    pub fn words(&self) -> Vec<i64> {
        [&self.mask[..], &self.body].concat()
    }
}

impl Scalar {
    pub fn from_words(words: &[i64]) -> Scalar {
        let (body, mask) = words.split_last().expect("a scalar sample has a body");
        Scalar { mask: mask.to_vec(), body: *body }
    }

    pub fn words(&self) -> Vec<i64> {
        [&self.mask[..], &[self.body]].concat()
    }
}

impl Block {
    pub fn from_words(gadget: Gadget, words: &[i64]) -> Block {
        let row_length = words.len() / (2 * gadget.digits());
        Block { gadget, rows: words.chunks(row_length).map(Sample::from_words).collect() }
    }

    pub fn words(&self) -> Vec<i64> {
        self.rows.iter().flat_map(Sample::words).collect()
    }
}

#[cfg(test)]
mod tests {
    use super::*;

    #[test]
    fn the_lowest_byte_is_first() {
        assert_eq!(words_of(&[1, 2, 3, 255]), [4278387201]);
        assert_eq!(bytes_of(&[4278387201, 0]), [1, 2, 3, 255, 0, 0, 0, 0]);
    }

    #[test]
    fn a_block_is_its_rows_one_after_another() {
        let words: Vec<i64> = (0..16).collect();
        let block = Block::from_words(Gadget::new(8, 2), &words);
        assert_eq!(block.rows[1], Sample { mask: vec![4, 5], body: vec![6, 7] });
        assert_eq!(block.words(), words);
    }
}
