//! Encoding and decoding of classes, M bands of the torus.

use crate::polynomial::{zero, Polynomial};
use crate::torus::{word, TURN};

#[derive(Clone, Copy, Debug)]
pub struct Classes {
    band: i64,
}

impl Classes {
    /// M classes, M a power of two.
    pub fn new(count: u64) -> Classes {
        Classes { band: TURN / count as i64 }
    }

    pub fn encode(&self, class: i64) -> i64 {
        class * self.band
    }

    /// Ties go up.
    pub fn decode(&self, phase: i64) -> i64 {
        word(phase + self.limit()) / self.band
    }

    /// 2^31/M: noise below it leaves every class as it is.
    pub fn limit(&self) -> i64 {
        self.band / 2
    }

    /// The message of a packed sample: the classes in the first coefficients, 0 in the others.
    pub fn message(&self, classes: &[i64], degree: usize) -> Polynomial {
        let mut message = zero(degree);
        for (coefficient, &class) in message.iter_mut().zip(classes) {
            *coefficient = self.encode(class);
        }
        message
    }
}

#[cfg(test)]
mod tests {
    use super::*;

    #[test]
    fn cases_i_j_k() {
        let sixteen = Classes::new(16);
        let table = [(134217727, 0), (134217728, 1), (4160749568, 0), (4160749567, 15)];
        for (phase, class) in table {
            assert_eq!(sixteen.decode(phase), class, "{phase}");
        }
    }

    #[test]
    fn every_class_decodes_to_itself_at_both_ends_of_its_band() {
        for count in [2, 4, 65536] {
            let classes = Classes::new(count);
            for class in [0, 1, count as i64 - 1] {
                let middle = classes.encode(class);
                assert_eq!(classes.decode(middle - classes.limit()), class);
                assert_eq!(classes.decode(middle + classes.limit() - 1), class);
            }
        }
    }

    #[test]
    fn unused_coefficients_are_zero() {
        assert_eq!(Classes::new(4).message(&[3], 2), [3221225472, 0]);
    }
}
