//! Encrypting and decrypting classes, and sample extraction.

use super::bytes::all_words;
use super::{checks, Answer, Call};
use crate::lwe::Scalar;
use crate::torus::greatest_magnitude;
use crate::trlwe::Sample;

pub fn encrypt_classes(numbers: &[u64], slices: &[&[u8]]) -> Answer {
    let [n, m, s] = checks::numbers_of(numbers);
    checks::degree(n)?;
    let classes = checks::class_count(m)?;
    checks::carried(s, n)?;
    checks::lengths(Call::EncryptClasses, numbers, slices)?;
    let [key, mask, errors, list, _] = all_words(slices);
    checks::class_list(&list, m)?;
    checks::key(&key)?;
    let bound = greatest_magnitude(&errors).into();
    checks::bound_below_limit(bound, classes)?;
    let sample = Sample::encrypt(&key, mask, &errors, &classes.message(&list, key.len()));
    checks::accepted(bound, 0, vec![(4, sample.words())])
}

pub fn decrypt_classes(numbers: &[u64], slices: &[&[u8]]) -> Answer {
    let [n, m, s] = checks::numbers_of(numbers);
    checks::degree(n)?;
    let classes = checks::class_count(m)?;
    checks::carried(s, n)?;
    checks::lengths(Call::DecryptClasses, numbers, slices)?;
    let [key, sample, _] = all_words(slices);
    checks::key(&key)?;
    let list = Sample::from_words(&sample).decrypt(&key, classes, s as usize);
    checks::accepted(0, 0, vec![(2, list)])
}

pub fn decrypt_scalar(numbers: &[u64], slices: &[&[u8]]) -> Answer {
    let [n, m] = checks::numbers_of(numbers);
    checks::degree(n)?;
    let classes = checks::class_count(m)?;
    checks::lengths(Call::DecryptScalar, numbers, slices)?;
    let [key, scalar, _] = all_words(slices);
    checks::key(&key)?;
    let phase = Scalar::from_words(&scalar).phase(&key);
    checks::accepted(0, 0, vec![(2, vec![classes.decode(phase)])])
}

pub fn extract(numbers: &[u64], slices: &[&[u8]]) -> Answer {
    let [n, p] = checks::numbers_of(numbers);
    checks::degree(n)?;
    checks::position(p, n)?;
    checks::lengths(Call::Extract, numbers, slices)?;
    let [sample, _] = all_words(slices);
    let scalar = Scalar::extract(&Sample::from_words(&sample), p as usize);
    checks::accepted(0, 0, vec![(1, scalar.words())])
}

#[cfg(test)]
mod tests {
    use crate::calls::{bytes_of, run, Call};

    #[test]
    fn an_error_of_the_limit_is_refused_with_the_bound() {
        let mask = bytes_of(&[7, 8]);
        let key = bytes_of(&[1, 0]);
        let list = bytes_of(&[3]);
        let sample = bytes_of(&[0; 4]);
        for (error, number) in [(134217727, 0), (134217728, 9), (2147483648, 9)] {
            let errors = bytes_of(&[0, error]);
            let slices = [&key[..], &mask, &errors, &list, &sample];
            let outcome = run(Call::EncryptClasses, &[2, 16, 1], &slices);
            assert_eq!((outcome.number, outcome.bound), (number, error as u64));
        }
    }

    #[test]
    fn the_lowest_number_is_returned() {
        let outcome = run(Call::Extract, &[1 << 32, 5], &[&[], &[]]);
        assert_eq!((outcome.number, outcome.bound), (1, 0));
        assert_eq!(run(Call::Extract, &[2, 2], &[&[], &[]]).number, 4);
        assert_eq!(run(Call::Extract, &[2, 1], &[&[], &[]]).number, 5);
    }
}
