//! Lookups at the greatest degree, each selector with a block of another word.

use super::fillings::FILLINGS;
use super::with_written;
use crate::arguments::Arguments;
use crate::parameters::weight;
use crate::random::Random;
use reference::calls::Call;
use std::ops::Range;

const DEGREE: u64 = 1024;

/// Of a hidden table's samples. With the most classes it is accepted beside charges of 0 alone.
const SAMPLE_AMPLITUDE: i64 = 32767;

pub struct Case {
    call: Call,
    gadget: (u64, u64),
    class_count: u64,
    amplitude: i64,
    carried: u64,
    depth: u64,
    /// Which of the fillings selector 0's block has. Those of the others follow in turn, and then those of a hidden
    /// table's samples.
    first: usize,
}

/// Every second filling comes first, so that each is in some lookup.
fn firsts() -> impl Iterator<Item = usize> {
    (0..FILLINGS.len()).step_by(2)
}

/// With two classes an amplitude of 1 is accepted, with the most classes none but 0. In the difference of two
/// entries as many words are not 0 as an entry carries.
fn horizontal() -> Vec<Case> {
    let call = Call::Lookup;
    let mut cases = Vec::new();
    for (class_count, amplitude) in [(2, 1), (65536, 0)] {
        for carried in [1, 63, 64, 65, DEGREE] {
            for depth in [2, 3] {
                let case =
                    |first| Case { call, gadget: (16, 2), class_count, amplitude, carried, depth, first };
                cases.extend(firsts().map(case));
            }
        }
    }
    let gadget = (1, 32);
    let rows = |first| Case { call, gadget, class_count: 2, amplitude: 1, carried: DEGREE, depth: 2, first };
    cases.extend([0, 2].map(rows));
    cases
}

/// Three selectors rotate a sample with few words that are not 0. Of eleven and of twelve, ten rotate a full
/// one, and the others pick it.
fn vertical() -> Vec<Case> {
    let mut cases = Vec::new();
    for (class_count, amplitude, depth) in [(2, 1, 3), (2, 0, 11), (65536, 0, 12)] {
        let call = Call::LookupVertical;
        let case = |first| Case { call, gadget: (16, 2), class_count, amplitude, carried: 1, depth, first };
        cases.extend(firsts().map(case));
    }
    cases
}

/// The difference of two samples can have every word extreme. Of eleven selectors in the vertical packing one joins
/// two samples; three rotate the only one.
fn hidden() -> Vec<Case> {
    let mut cases = Vec::new();
    for (call, class_count, amplitude, depth) in [
        (Call::LookupHidden, 2, 1, 2),
        (Call::LookupHidden, 65536, 0, 3),
        (Call::LookupHiddenVertical, 2, 1, 3),
        (Call::LookupHiddenVertical, 65536, 0, 11),
    ] {
        let case = |first| Case { call, gadget: (16, 2), class_count, amplitude, carried: 1, depth, first };
        cases.extend(firsts().map(case));
    }
    cases
}

pub fn cases() -> Vec<Case> {
    [horizontal(), vertical(), hidden()].into_iter().flatten().collect()
}

impl Case {
    pub fn arguments(&self, random: &mut Random) -> Arguments {
        let (base_log, digits) = self.gadget;
        let depth = self.depth as usize;
        let weight = weight(DEGREE, random);
        let numbers = vec![DEGREE, base_log, digits, weight, self.class_count, self.carried, self.depth];
        let blocks = self.filled(0..depth, 4 * (digits * DEGREE) as usize, random);
        let mut slices = vec![blocks, vec![self.amplitude; depth]];
        if self.call.hides() {
            let samples = self.call.exact_lengths(&numbers)[3] as usize;
            slices.push(self.filled(depth..depth + samples, 2 * DEGREE as usize, random));
            slices.push(vec![SAMPLE_AMPLITUDE; samples]);
        } else {
            slices.push(self.classes());
        }
        with_written(self.call, numbers, slices, random)
    }

    /// Parts of so many words, each with the filling of its number.
    fn filled(&self, parts: Range<usize>, words: usize, random: &mut Random) -> Vec<i64> {
        let filling = |part: usize| FILLINGS[(self.first + part) % FILLINGS.len()];
        parts.flat_map(|part| filling(part).words(words, random)).collect()
    }

    /// Every class of an entry differs from that of the next.
    fn classes(&self) -> Vec<i64> {
        let entries = 0..1 << self.depth;
        let class = |entry: u64, i: u64| ((entry + i) % self.class_count) as i64;
        entries.flat_map(|entry| (0..self.carried).map(move |i| class(entry, i))).collect()
    }
}
