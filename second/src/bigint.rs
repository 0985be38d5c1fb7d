//! Whole numbers of any size: a sign and a magnitude in digits of 32 bits.

use std::cmp::Ordering;
use std::fmt;
use std::ops::{Add, Mul, Neg, Sub};

/// Zero has no digits and is not negative; the highest digit is never zero.
#[derive(Clone, Debug, Default, PartialEq, Eq)]
pub struct BigInt {
    negative: bool,
    /// Lowest digit first.
    digits: Vec<u32>,
}

impl BigInt {
    pub fn zero() -> Self {
        Self::default()
    }

    pub fn is_zero(&self) -> bool {
        self.digits.is_empty()
    }

    pub fn is_negative(&self) -> bool {
        self.negative
    }

    pub fn abs(&self) -> Self {
        Self::of(false, self.digits.clone())
    }

    fn of(negative: bool, mut digits: Vec<u32>) -> Self {
        while digits.last() == Some(&0) {
            digits.pop();
        }
        BigInt {
            negative: negative && !digits.is_empty(),
            digits,
        }
    }

    fn plus(&self, other_negative: bool, other: &[u32]) -> Self {
        if self.negative == other_negative {
            return Self::of(self.negative, add_digits(&self.digits, other));
        }
        match compare_digits(&self.digits, other) {
            Ordering::Less => Self::of(other_negative, subtract_digits(other, &self.digits)),
            _ => Self::of(self.negative, subtract_digits(&self.digits, other)),
        }
    }
}

impl From<i128> for BigInt {
    fn from(value: i128) -> Self {
        let magnitude = value.unsigned_abs();
        let digits = (0..4).map(|k| (magnitude >> (32 * k)) as u32).collect();
        Self::of(value < 0, digits)
    }
}

impl From<i64> for BigInt {
    fn from(value: i64) -> Self {
        Self::from(i128::from(value))
    }
}

impl Neg for BigInt {
    type Output = BigInt;

    fn neg(self) -> BigInt {
        Self::of(!self.negative, self.digits)
    }
}

impl Add for &BigInt {
    type Output = BigInt;

    fn add(self, other: &BigInt) -> BigInt {
        self.plus(other.negative, &other.digits)
    }
}

impl Sub for &BigInt {
    type Output = BigInt;

    fn sub(self, other: &BigInt) -> BigInt {
        self.plus(!other.negative, &other.digits)
    }
}

impl Mul for &BigInt {
    type Output = BigInt;

    fn mul(self, other: &BigInt) -> BigInt {
        let mut product = vec![0u32; self.digits.len() + other.digits.len()];
        for (place, digit) in self.digits.iter().enumerate() {
            let mut carry = 0u64;
            for (k, by) in other.digits.iter().enumerate() {
                let sum =
                    u64::from(*digit) * u64::from(*by) + u64::from(product[place + k]) + carry;
                product[place + k] = sum as u32;
                carry = sum >> 32;
            }
            product[place + other.digits.len()] = carry as u32;
        }
        BigInt::of(self.negative != other.negative, product)
    }
}

impl Ord for BigInt {
    fn cmp(&self, other: &Self) -> Ordering {
        match (self.negative, other.negative) {
            (false, true) => Ordering::Greater,
            (true, false) => Ordering::Less,
            (false, false) => compare_digits(&self.digits, &other.digits),
            (true, true) => compare_digits(&other.digits, &self.digits),
        }
    }
}

impl PartialOrd for BigInt {
    fn partial_cmp(&self, other: &Self) -> Option<Ordering> {
        Some(self.cmp(other))
    }
}

impl fmt::Display for BigInt {
    fn fmt(&self, f: &mut fmt::Formatter) -> fmt::Result {
        let mut rest = self.digits.clone();
        let mut groups = Vec::new();
        while !rest.is_empty() {
            let mut remainder = 0u64;
            for digit in rest.iter_mut().rev() {
                let value = (remainder << 32) | u64::from(*digit);
                *digit = (value / 1_000_000_000) as u32;
                remainder = value % 1_000_000_000;
            }
            while rest.last() == Some(&0) {
                rest.pop();
            }
            groups.push(remainder);
        }
        let mut text = groups.pop().unwrap_or(0).to_string();
        for group in groups.iter().rev() {
            text += &format!("{group:09}");
        }
        f.pad_integral(!self.negative, "", &text)
    }
}

fn compare_digits(a: &[u32], b: &[u32]) -> Ordering {
    a.len()
        .cmp(&b.len())
        .then_with(|| a.iter().rev().cmp(b.iter().rev()))
}

fn add_digits(a: &[u32], b: &[u32]) -> Vec<u32> {
    let (long, short) = if a.len() < b.len() { (b, a) } else { (a, b) };
    let mut sum = Vec::with_capacity(long.len() + 1);
    let mut carry = 0u64;
    for (k, digit) in long.iter().enumerate() {
        let total = u64::from(*digit) + u64::from(short.get(k).copied().unwrap_or(0)) + carry;
        sum.push(total as u32);
        carry = total >> 32;
    }
    sum.push(carry as u32);
    sum
}

/// a − b, where a is not below b.
fn subtract_digits(a: &[u32], b: &[u32]) -> Vec<u32> {
    let mut difference = Vec::with_capacity(a.len());
    let mut borrow = 0i64;
    for (k, digit) in a.iter().enumerate() {
        let total = i64::from(*digit) - i64::from(b.get(k).copied().unwrap_or(0)) - borrow;
        difference.push(total as u32);
        borrow = i64::from(total < 0);
    }
    difference
}

#[cfg(test)]
mod tests {
    use super::*;

    fn samples() -> Vec<i128> {
        let edge = 1i128 << 32;
        let mut samples = vec![0, 1, 2, edge - 1, edge, edge + 1, edge * edge / 2 - 3];
        samples.extend([
            7_200_000_000_000_000_000,
            edge * edge / 4,
            123_456_789_012_345,
        ]);
        let below: Vec<i128> = samples.iter().map(|value| -value).collect();
        samples.extend(below);
        samples
    }

    #[test]
    fn arithmetic_agrees_with_i128() {
        for a in samples() {
            for b in samples() {
                let (x, y) = (BigInt::from(a), BigInt::from(b));
                assert_eq!(&x + &y, BigInt::from(a + b));
                assert_eq!(&x - &y, BigInt::from(a - b));
                assert_eq!(&x * &y, BigInt::from(a * b));
                assert_eq!(x.cmp(&y), a.cmp(&b));
            }
        }
    }

    #[test]
    fn numbers_print_in_decimal() {
        for a in samples() {
            assert_eq!(BigInt::from(a).to_string(), a.to_string());
        }
        let large = BigInt::from(10i128.pow(36));
        let square = &large * &large;
        assert_eq!(square.to_string(), format!("1{}", "0".repeat(72)));
    }

    #[test]
    fn zero_has_one_form() {
        let five = BigInt::from(5i64);
        assert_eq!(&five - &five, BigInt::zero());
        assert_eq!(-BigInt::zero(), BigInt::zero());
        assert!(!(&BigInt::zero() * &-five).is_negative());
    }
}
