//! Encryption and decryption with keys of every kind, and masks of one word.

use super::fillings::{spread, Filling, FILLINGS};
use super::products::GADGETS;
use super::with_written;
use crate::arguments::Arguments;
use crate::random::Random;
use reference::calls::Call;
use reference::classes::Classes;
use reference::torus::{word, HALF_TURN};

const DEGREES: [u64; 6] = [4, 8, 64, 128, 256, 1024];

#[derive(Clone, Copy)]
enum Key {
    /// So many ones; none, or as many as fit.
    Ones(usize),
    /// One 1, at the first place or at the last.
    First,
    Last,
    Alternating,
}

const KEYS: [Key; 8] = [
    Key::Ones(0),
    Key::Ones(usize::MAX),
    Key::First,
    Key::Last,
    Key::Alternating,
    Key::Ones(63),
    Key::Ones(64),
    Key::Ones(65),
];

/// The calls that a key goes to; a selector with its gadget.
#[derive(Clone, Copy)]
enum Use {
    EncryptClasses,
    DecryptClasses,
    DecryptScalar,
    EncryptSelector(u64, u64),
}

pub struct Case {
    degree: u64,
    to: Use,
    key: Key,
    mask: Filling,
}

pub fn cases() -> Vec<Case> {
    let selectors = GADGETS.map(|(base_log, digits)| Use::EncryptSelector(base_log, digits));
    let uses = [&[Use::EncryptClasses, Use::DecryptClasses, Use::DecryptScalar][..], &selectors].concat();
    let mut cases = Vec::new();
    for degree in DEGREES {
        for &to in &uses {
            for key in KEYS {
                cases.extend(FILLINGS.map(|mask| Case { degree, to, key, mask }));
            }
        }
    }
    cases
}

impl Case {
    /// Decryption has the most classes, so that they tell the most of a phase.
    pub fn arguments(&self, random: &mut Random) -> Arguments {
        let n = self.degree;
        let degree = n as usize;
        let key = self.key.words(degree);
        let mut masks = |count: usize| self.mask.words(count * degree, random);
        match self.to {
            Use::EncryptClasses => {
                let slices = vec![key, masks(1), great_errors(degree), vec![1; degree]];
                with_written(Call::EncryptClasses, vec![n, 2, n], slices, random)
            }
            Use::DecryptClasses => {
                let sample = [masks(1), Filling::Random.words(degree, random)].concat();
                with_written(Call::DecryptClasses, vec![n, 65536, n], vec![key, sample], random)
            }
            Use::DecryptScalar => {
                let scalar = [masks(1), vec![random.word()]].concat();
                with_written(Call::DecryptScalar, vec![n, 65536], vec![key, scalar], random)
            }
            Use::EncryptSelector(g, l) => {
                let rows = 2 * l as usize;
                let slices = vec![key, masks(rows), vec![HALF_TURN; rows * degree]];
                with_written(Call::EncryptSelector, vec![n, g, l, random.below(2)], slices, random)
            }
        }
    }
}

impl Key {
    fn words(self, degree: usize) -> Vec<i64> {
        let mut words = vec![0; degree];
        match self {
            Key::Ones(count) => spread(count, degree).for_each(|place| words[place] = 1),
            Key::First => words[0] = 1,
            Key::Last => words[degree - 1] = 1,
            Key::Alternating => words.iter_mut().step_by(2).for_each(|word| *word = 1),
        }
        words
    }
}

/// The greatest errors that two classes allow, with either sign.
fn great_errors(degree: usize) -> Vec<i64> {
    let most = Classes::new(2).limit() - 1;
    (0..degree).map(|i| if i % 2 == 0 { most } else { word(-most) }).collect()
}
