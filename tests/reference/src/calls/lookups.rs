//! The lookups, in either packing, in a public table or in a hidden one.

use super::bytes::words_of;
use super::{checks, Answer, Call, Refusal};
use crate::classes::Classes;
use crate::lookup::look_up;
use crate::trgsw::Block;
use crate::trlwe::Sample;

/// A sample of a table, and its declared amplitude: 0 if it is public.
struct Leaf {
    sample: Sample,
    amplitude: i64,
}

pub fn lookup(call: Call, numbers: &[u64], slices: &[&[u8]]) -> Answer {
    let packing = call.packing().expect("a call with a table");
    let [n, g, l, w, m, s, d] = checks::numbers_of(numbers);
    let scheme = checks::scheme(n, g, l, w)?;
    let classes = checks::class_count(m)?;
    checks::carried(s, packing.most_carried(n))?;
    checks::depth(d, packing.most_selectors())?;
    checks::lengths(call, numbers, slices)?;
    let amplitudes = declared(slices[1])?;
    let degree = n as usize;
    let rotating = packing.rotating(n, d) as usize;
    let leaves = if call.hides() {
        hidden_leaves(slices[2], slices[3], degree)?
    } else {
        let table = words_of(slices[2]);
        checks::class_list(&table, m)?;
        public_leaves(&table, classes, (s as usize) << rotating, degree)
    };
    let greatest = leaves.iter().map(|leaf| leaf.amplitude).max().expect("a table has a sample");
    let charges: i128 = amplitudes.iter().map(|&amplitude| scheme.charge(amplitude)).sum();
    let bound = charges + i128::from(greatest);
    checks::bound_below_limit(bound, classes)?;
    let blocks = words_of(slices[0]);
    let block = |words| Block::from_words(scheme.gadget, words);
    let blocks = blocks.chunks(4 * scheme.gadget.digits() * degree).map(block);
    let samples = leaves.into_iter().map(|leaf| leaf.sample).collect();
    let sample = look_up(&blocks.collect::<Vec<_>>(), rotating, samples);
    let place = slices.len() - 2;
    let written = vec![(place, sample.words()), (place + 1, vec![0; slices[place + 1].len() / 4])];
    checks::accepted(bound, packing.gates(n, d), written)
}

/// Declared amplitudes, a word each.
fn declared(slice: &[u8]) -> Result<Vec<i64>, Refusal> {
    let amplitudes = words_of(slice);
    let numbers: Vec<u64> = amplitudes.iter().map(|&amplitude| amplitude as u64).collect();
    checks::amplitudes(&numbers)?;
    Ok(amplitudes)
}

/// Trivial samples of a table's classes, so many in each.
fn public_leaves(table: &[i64], classes: Classes, held: usize, degree: usize) -> Vec<Leaf> {
    let trivial = |list: &[i64]| Sample::trivial(classes.message(list, degree));
    table.chunks(held).map(|list| Leaf { sample: trivial(list), amplitude: 0 }).collect()
}

/// Lent samples, one after another.
fn hidden_leaves(samples: &[u8], amplitudes: &[u8], degree: usize) -> Result<Vec<Leaf>, Refusal> {
    let leaf = |(words, amplitude): (&[i64], i64)| Leaf { sample: Sample::from_words(words), amplitude };
    let amplitudes = declared(amplitudes)?;
    Ok(words_of(samples).chunks(2 * degree).zip(amplitudes).map(leaf).collect())
}

#[cfg(test)]
mod tests {
    use crate::calls::{bytes_of, run, Call, Outcome};
    use crate::classes::Classes;
    use crate::trlwe::Sample;

    const LOOKUPS: [Call; 2] = [Call::Lookup, Call::LookupVertical];
    const HIDDEN: [Call; 2] = [Call::LookupHidden, Call::LookupHiddenVertical];

    /// Job J with another amplitude. With N = 1 every packing is the same.
    fn job_j(call: Call, amplitude: i64) -> Outcome {
        let blocks = bytes_of(&[65536, 0, 1, 0, 0, 65536, 0, 1]);
        let amplitudes = bytes_of(&[amplitude]);
        let table = bytes_of(&[3, 8]);
        let slices = [&blocks[..], &amplitudes, &table, &[9; 8], &[9; 16]];
        run(call, &[1, 16, 2, 1, 16, 1, 1], &slices)
    }

    /// So many selectors of an amplitude, with g = 8 and L = 2, and words 0 in all other slices.
    fn zeros(call: Call, n: u64, w: u64, m: u64, s: u64, d: u64, amplitude: i64) -> Outcome {
        let numbers = [n, 8, 2, w, m, s, d];
        let words = |&count: &u128| vec![0; 4 * count as usize];
        let mut slices: Vec<Vec<u8>> = call.exact_lengths(&numbers).iter().map(words).collect();
        slices[1] = bytes_of(&vec![amplitude; d as usize]);
        run(call, &numbers, &slices.iter().map(Vec::as_slice).collect::<Vec<_>>())
    }

    /// Job J in a hidden table with these amplitudes of its samples.
    fn hidden_job_j(call: Call, amplitudes: [i64; 2]) -> Outcome {
        let blocks = bytes_of(&[65536, 0, 1, 0, 0, 65536, 0, 1]);
        let samples = bytes_of(&[5, 6, 7, 8]);
        let slices = [&blocks[..], &bytes_of(&[7]), &samples, &bytes_of(&amplitudes), &[9; 8], &[9; 16]];
        run(call, &[1, 16, 2, 1, 16, 1, 1], &slices)
    }

    fn reported(outcome: &Outcome) -> (u32, u64, u64) {
        (outcome.number, outcome.bound, outcome.gates)
    }

    #[test]
    fn job_j_gives_its_sample() {
        for call in LOOKUPS {
            let outcome = job_j(call, 7);
            assert_eq!(reported(&outcome), (0, 917504, 1));
            assert_eq!(outcome.written, [(3, bytes_of(&[0, 2147483648])), (4, vec![0; 16])]);
        }
    }

    #[test]
    fn job_j_at_the_limit() {
        for call in LOOKUPS {
            assert_eq!(reported(&job_j(call, 1023)), (0, 134086656, 1));
            let at = job_j(call, 1024);
            assert_eq!(reported(&at), (9, 134217728, 0));
            assert!(at.written.is_empty());
        }
    }

    #[test]
    fn three_selectors_are_accepted_and_four_get_nine() {
        for (call, gates) in LOOKUPS.into_iter().zip([7, 3]) {
            assert_eq!(reported(&zeros(call, 1024, 1024, 16, 1, 3, 1)), (0, 3 * 34111488, gates));
            assert_eq!(reported(&zeros(call, 1024, 1024, 16, 1, 4, 1)), (9, 4 * 34111488, 0));
        }
    }

    #[test]
    fn four_selectors_are_accepted_under_a_lighter_key() {
        for (call, gates) in LOOKUPS.into_iter().zip([15, 4]) {
            assert_eq!(reported(&zeros(call, 1024, 1006, 16, 1, 4, 1)), (0, 134217728 - 4 * 32768, gates));
            assert_eq!(reported(&zeros(call, 1024, 1007, 16, 1, 4, 1)), (9, 134217728, 0));
        }
    }

    #[test]
    fn a_weight_above_the_degree_is_refused_whatever_is_wrong_after_it() {
        for call in [LOOKUPS, HIDDEN].concat() {
            for w in [3, 1 << 32, (1 << 32) + 2, u64::MAX] {
                for (m, s, d) in [(16, 1, 0), (16, 1, 1), (3, 1, 1), (16, 0, 17)] {
                    assert_eq!(reported(&zeros(call, 2, w, m, s, d, 0)), (12, 0, 0));
                }
            }
        }
    }

    #[test]
    fn how_many_selectors_and_classes_goes_by_the_packing() {
        let [whole, vertical] = LOOKUPS.map(|call| move |s, d| zeros(call, 2, 2, 2, s, d, 0).number);
        assert_eq!([whole(1, 10), whole(2, 10), whole(1, 11), whole(3, 1)], [0, 0, 4, 4]);
        assert_eq!([vertical(1, 10), vertical(2, 10), vertical(1, 11), vertical(0, 1)], [0, 4, 0, 4]);
        assert_eq!([vertical(1, 16), vertical(1, 17)], [0, 4]);
    }

    #[test]
    fn without_selectors_the_sample_is_the_entry() {
        let table = bytes_of(&[5]);
        let outcome = run(Call::Lookup, &[2, 1, 1, 2, 8, 1, 0], &[&[], &[], &table, &[1; 16], &[1; 16]]);
        assert_eq!((outcome.number, outcome.bound, outcome.gates), (0, 0, 0));
        assert_eq!(outcome.written[0].1, bytes_of(&[0, 0, 2684354560, 0]));
        assert_eq!(outcome.written[1].1, [0; 16]);
    }

    #[test]
    fn the_greatest_amplitude_of_a_sample_goes_into_the_bound() {
        for call in HIDDEN {
            for amplitudes in [[40, 3], [3, 40]] {
                let outcome = hidden_job_j(call, amplitudes);
                assert_eq!(reported(&outcome), (0, 917544, 1));
                assert_eq!(outcome.written, [(4, bytes_of(&[7, 8])), (5, vec![0; 16])]);
            }
            assert_eq!(reported(&hidden_job_j(call, [133300223, 0])), (0, 134217727, 1));
            assert_eq!(reported(&hidden_job_j(call, [0, 133300224])), (9, 134217728, 0));
            assert_eq!(reported(&hidden_job_j(call, [1 << 31, 0])), (9, (1 << 31) + 917504, 0));
            assert_eq!(reported(&hidden_job_j(call, [0, (1 << 31) + 1])), (6, 0, 0));
        }
    }

    #[test]
    fn without_selectors_the_lent_sample_is_the_result() {
        let sample = bytes_of(&[1, 2, 3, 4294967295]);
        for call in HIDDEN {
            for (amplitude, number) in [(134217727, 0), (134217728, 9)] {
                let slices = [&[][..], &[], &sample, &bytes_of(&[amplitude]), &[1; 16], &[1; 16]];
                let outcome = run(call, &[2, 8, 2, 2, 16, 1, 0], &slices);
                assert_eq!(reported(&outcome), (number, amplitude as u64, 0));
                assert!(number == 9 || outcome.written[0].1 == sample);
            }
        }
    }

    /// Two classes in each sample: two of an entry, or those of two entries.
    #[test]
    fn trivial_samples_of_a_public_table_give_its_answer_and_its_sample() {
        let blocks = bytes_of(&(0..32).map(|i| i * 2654435761 % (1 << 32)).collect::<Vec<_>>());
        let amplitudes = bytes_of(&[3, 1]);
        let classes = [7, 1, 0, 15, 4, 4, 9, 12];
        for (call, s, held) in [(0, 2, 8), (1, 1, 4)] {
            let numbers = [2, 8, 2, 1, 16, s, 2];
            let table = &classes[..held];
            let trivial = |list| Sample::trivial(Classes::new(16).message(list, 2)).words();
            let samples = bytes_of(&table.chunks(2).flat_map(trivial).collect::<Vec<_>>());
            let none = vec![0; 2 * held];
            let [out, work] = [[9; 16].as_slice(), &[9; 48]];
            let public = run(LOOKUPS[call], &numbers, &[&blocks, &amplitudes, &bytes_of(table), out, work]);
            let hidden = run(HIDDEN[call], &numbers, &[&blocks, &amplitudes, &samples, &none, out, work]);
            assert_eq!(reported(&hidden), reported(&public));
            assert_eq!(hidden.written[0].1, public.written[0].1);
        }
    }
}
