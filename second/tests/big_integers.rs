//! Whole numbers far beyond 128 bits, held against Python's.

use std::cmp::Ordering;
use std::process::Command;

use second::bigint::BigInt;

/// Prints on each line two numbers, their sum, difference and product, and -1, 0 or 1
/// as the first is below, at or above the second. Numbers of up to 700 bits, many of
/// them next to a power of two, where carries run.
const PYTHON: &str = "
import random
chance = random.Random(2024)
def number():
    bits = chance.choice([1, 31, 32, 33, 64, 127, 128, 129, 160, 192, 256, 700])
    near = (1 << bits) + chance.choice([-2, -1, 0, 1, 2])
    return chance.choice([1, -1]) * chance.choice([near, chance.getrandbits(bits)])
for _ in range(4000):
    a = number()
    b = chance.choice([number(), number(), number(), a, -a, a + 1])
    print(a, b, a + b, a - b, a * b, (a > b) - (a < b))
";

/// Nine digits at a time.
fn parsed(text: &str) -> BigInt {
    let (negative, digits) = match text.strip_prefix('-') {
        Some(digits) => (true, digits),
        None => (false, text),
    };
    let mut value = BigInt::zero();
    for group in digits.as_bytes().rchunks(9).rev() {
        let group: i64 = str::from_utf8(group).unwrap().parse().unwrap();
        value = &(&value * &BigInt::from(1_000_000_000i64)) + &BigInt::from(group);
    }
    if negative { -value } else { value }
}

#[test]
fn arithmetic_beyond_128_bits_agrees_with_python() {
    let output = Command::new("python3").args(["-c", PYTHON]).output();
    let output = output.expect("python3 runs");
    assert!(output.status.success());
    let text = String::from_utf8(output.stdout).unwrap();
    let mut beyond = 0;
    for line in text.lines() {
        let words: Vec<&str> = line.split(' ').collect();
        let [a, b, sum, difference, product, order] = words[..] else {
            panic!("{line}");
        };
        let (x, y) = (parsed(a), parsed(b));
        assert_eq!((x.to_string(), y.to_string()), (a.into(), b.into()));
        assert_eq!((&x + &y).to_string(), sum);
        assert_eq!((&x - &y).to_string(), difference);
        assert_eq!((&x * &y).to_string(), product);
        let expected: i32 = order.parse().unwrap();
        assert_eq!(x.cmp(&y), expected.cmp(&0));
        assert_eq!(x == y, x.cmp(&y) == Ordering::Equal);
        // 2^128 has 39 digits.
        beyond += usize::from(product.len() > 40);
    }
    assert_eq!(text.lines().count(), 4000);
    assert!(beyond > 2000, "{beyond} products beyond 128 bits");
}
