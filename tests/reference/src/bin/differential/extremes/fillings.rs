//! What masks and blocks are filled with, and places spread over a slice.

use crate::random::Random;
use reference::torus::{word, HALF_TURN, TURN};

/// The primes modulo which the library makes large products. Words near their multiples are those at which a
/// reduction turns over.
const PRIMES: [i64; 2] = [1073707009, 1073698817];

#[derive(Clone, Copy, PartialEq, Eq)]
pub enum Filling {
    Each(i64),
    /// At or beside a multiple of a prime, up or down from 0.
    NearPrimes,
    /// 1 or -1 at every 32nd place, 0 elsewhere: sums of few terms, near 0 on either side.
    Sparse,
    Random,
}

/// The first has the greatest magnitude. It reads as negative, as the second does.
pub const FILLINGS: [Filling; 9] = [
    Filling::Each(HALF_TURN),
    Filling::Each(TURN - 1),
    Filling::Each(HALF_TURN - 1),
    Filling::Each(0),
    Filling::Each(PRIMES[0]),
    Filling::Each(PRIMES[1]),
    Filling::NearPrimes,
    Filling::Sparse,
    Filling::Random,
];

impl Filling {
    pub fn words(self, count: usize, random: &mut Random) -> Vec<i64> {
        let word = |place: usize| match self {
            Filling::Each(word) => word,
            Filling::NearPrimes => near_primes(random),
            Filling::Sparse if place % 32 == 0 => word(random.sign()),
            Filling::Sparse => 0,
            Filling::Random => random.word(),
        };
        (0..count).map(word).collect()
    }
}

fn near_primes(random: &mut Random) -> i64 {
    let multiple = random.pick(&PRIMES) * random.below(5) as i64;
    word(random.sign() * (multiple + random.pick(&[-1, 0, 1])))
}

/// So many different places of a power of two, or all of them: an odd factor exchanges them.
pub fn spread(count: usize, places: usize) -> impl Iterator<Item = usize> {
    (0..count.min(places)).map(move |i| (i * 37 + places / 2) % places)
}
