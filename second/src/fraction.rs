//! Fractions: a whole numerator over a whole denominator above zero.

use std::cmp::Ordering;
use std::fmt;
use std::ops::{Add, Mul, Sub};

use crate::bigint::BigInt;

/// Not reduced: equality and order are judged in whole numbers after multiplying
/// by the denominators.
#[derive(Clone, Debug)]
pub struct Fraction {
    numerator: BigInt,
    denominator: BigInt,
}

impl Fraction {
    pub fn whole(value: i64) -> Self {
        Fraction::of(value, 1)
    }

    /// The denominator is above zero.
    pub fn of(numerator: i64, denominator: i64) -> Self {
        assert!(denominator > 0);
        Fraction {
            numerator: numerator.into(),
            denominator: denominator.into(),
        }
    }

    pub fn abs(&self) -> Self {
        Fraction {
            numerator: self.numerator.abs(),
            denominator: self.denominator.clone(),
        }
    }

    /// 1, 0 or −1.
    pub fn signum(&self) -> i64 {
        match (self.numerator.is_zero(), self.numerator.is_negative()) {
            (true, _) => 0,
            (false, false) => 1,
            (false, true) => -1,
        }
    }

    fn combine(&self, other: &Fraction, join: fn(&BigInt, &BigInt) -> BigInt) -> Fraction {
        if self.denominator == other.denominator {
            return Fraction {
                numerator: join(&self.numerator, &other.numerator),
                denominator: self.denominator.clone(),
            };
        }
        Fraction {
            numerator: join(
                &(&self.numerator * &other.denominator),
                &(&other.numerator * &self.denominator),
            ),
            denominator: &self.denominator * &other.denominator,
        }
    }
}

impl Add for &Fraction {
    type Output = Fraction;

    fn add(self, other: &Fraction) -> Fraction {
        self.combine(other, |a, b| a + b)
    }
}

impl Sub for &Fraction {
    type Output = Fraction;

    fn sub(self, other: &Fraction) -> Fraction {
        self.combine(other, |a, b| a - b)
    }
}

impl Mul for &Fraction {
    type Output = Fraction;

    fn mul(self, other: &Fraction) -> Fraction {
        Fraction {
            numerator: &self.numerator * &other.numerator,
            denominator: &self.denominator * &other.denominator,
        }
    }
}

impl Ord for Fraction {
    fn cmp(&self, other: &Self) -> Ordering {
        let left = &self.numerator * &other.denominator;
        left.cmp(&(&other.numerator * &self.denominator))
    }
}

impl PartialOrd for Fraction {
    fn partial_cmp(&self, other: &Self) -> Option<Ordering> {
        Some(self.cmp(other))
    }
}

impl PartialEq for Fraction {
    fn eq(&self, other: &Self) -> bool {
        self.cmp(other) == Ordering::Equal
    }
}

impl Eq for Fraction {}

impl fmt::Display for Fraction {
    fn fmt(&self, f: &mut fmt::Formatter) -> fmt::Result {
        write!(f, "{}/{}", self.numerator, self.denominator)
    }
}

#[cfg(test)]
mod tests {
    use super::*;

    #[test]
    fn fractions_are_equal_by_value() {
        assert_eq!(Fraction::of(20, 3), Fraction::of(-40, 6).abs());
        assert_eq!(
            &Fraction::of(1, 2) + &Fraction::of(1, 3),
            Fraction::of(5, 6)
        );
        assert_eq!(
            &Fraction::of(1, 2) - &Fraction::of(2, 3),
            Fraction::of(-1, 6)
        );
        assert_eq!(
            &Fraction::of(2, 3) * &Fraction::of(3, 2),
            Fraction::whole(1)
        );
        assert!(Fraction::of(20, 3) < Fraction::whole(7));
        assert_eq!(Fraction::of(-1, 9).signum(), -1);
        assert_eq!(Fraction::of(0, 9).signum(), 0);
    }
}
