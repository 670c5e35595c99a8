//! Lookups in a table: the tree of CMuxes over its samples, level by level, and the steps that rotate what it
//! picks.

use crate::trgsw::Block;
use crate::trlwe::Sample;

/// How a table fills samples.
#[derive(Clone, Copy, Debug, PartialEq, Eq)]
pub enum Packing {
    /// A sample for each entry.
    Horizontal,
    /// A sample for as many consecutive entries, of one class each, as it has coefficients.
    Vertical,
}

impl Packing {
    pub fn most_selectors(self) -> u64 {
        match self {
            Packing::Horizontal => 10,
            Packing::Vertical => 16,
        }
    }

    /// The most classes of an entry.
    pub fn most_carried(self, degree: u64) -> u64 {
        match self {
            Packing::Horizontal => degree,
            Packing::Vertical => 1,
        }
    }

    /// How many selectors rotate; the degree is a power of two.
    pub fn rotating(self, degree: u64, selectors: u64) -> u64 {
        match self {
            Packing::Horizontal => 0,
            Packing::Vertical => selectors.min(degree.ilog2().into()),
        }
    }

    /// How many samples a table of so many entries has, also where no lookup takes the degree.
    pub fn samples(self, degree: u128, entries: u128) -> u128 {
        match self {
            Packing::Horizontal => entries,
            Packing::Vertical => (entries / degree.max(1)).max(1),
        }
    }

    /// How many CMuxes a lookup takes.
    pub fn gates(self, degree: u64, selectors: u64) -> u64 {
        let rotating = self.rotating(degree, selectors);
        (1 << (selectors - rotating)) - 1 + rotating
    }
}

/// The first blocks rotate. The others join neighbours: the first of them joins samples, the next one those
/// results, and so on to a single one. Then each rotating block i picks between that and X^(-2^i) times it.
pub fn look_up(blocks: &[Block], rotating: usize, samples: Vec<Sample>) -> Sample {
    let (steps, joins) = blocks.split_at(rotating);
    let mut level = samples;
    for block in joins {
        level = level.chunks(2).map(|pair| block.cmux(&pair[0], &pair[1])).collect();
    }
    let turn = |sample: Sample, (i, block): (usize, &Block)| block.cmux(&sample, &sample.rotated(1 << i));
    steps.iter().enumerate().fold(level.swap_remove(0), turn)
}

#[cfg(test)]
mod tests {
    use super::*;
    use crate::gadget::Gadget;
    use crate::polynomial::zero;

    /// The blocks of a number's binary digits, with no mask and no noise.
    fn plain_blocks(number: i64, count: usize, degree: usize) -> Vec<Block> {
        let nothing = vec![zero(degree); 4];
        let block =
            |i| Block::encrypt(Gadget::new(16, 2), number >> i & 1, &vec![1; degree], &nothing, &nothing);
        (0..count).map(block).collect()
    }

    #[test]
    fn selector_zero_is_the_lowest_digit_of_the_entry() {
        for entry in 0..8 {
            let entries = (0..8).map(|number| Sample::trivial(vec![number])).collect();
            assert_eq!(look_up(&plain_blocks(entry, 3, 1), 0, entries).body, [entry]);
        }
    }

    #[test]
    fn without_selectors_the_result_is_the_entry() {
        let entry = Sample::trivial(vec![1, 2]);
        assert_eq!(look_up(&[], 0, vec![entry.clone()]), entry);
    }

    #[test]
    fn rotating_selectors_bring_the_entry_to_coefficient_zero() {
        for entry in 0..16 {
            let sample = |first: i64| Sample::trivial((first..first + 4).collect());
            let samples = [0, 4, 8, 12].map(sample).to_vec();
            assert_eq!(look_up(&plain_blocks(entry, 4, 4), 2, samples).body[0], entry);
        }
    }

    #[test]
    fn what_passes_the_end_changes_its_sign() {
        let sample = Sample::trivial(vec![1, 2, 3, 5]);
        let body = look_up(&plain_blocks(3, 2, 4), 2, vec![sample]).body;
        assert_eq!(body, [5, 4294967295, 4294967294, 4294967293]);
    }

    #[test]
    fn selectors_that_rotate_and_gates() {
        let table = [(1, 11, 0, 2047), (2, 11, 1, 1024), (1024, 12, 10, 13), (1024, 3, 3, 3), (8, 3, 3, 3)];
        for (degree, selectors, rotating, gates) in table {
            assert_eq!(Packing::Vertical.rotating(degree, selectors), rotating);
            assert_eq!(Packing::Vertical.gates(degree, selectors), gates);
        }
        assert_eq!(Packing::Horizontal.gates(1024, 10), 1023);
    }

    #[test]
    fn a_table_has_at_least_one_sample() {
        let table = [(1, 8, 8), (2, 8, 4), (8, 8, 1), (1024, 8, 1), (1024, 65536, 64), (0, 8, 8)];
        for (degree, entries, samples) in table {
            assert_eq!(Packing::Vertical.samples(degree, entries), samples);
            assert_eq!(Packing::Horizontal.samples(degree, entries), entries);
        }
    }
}
