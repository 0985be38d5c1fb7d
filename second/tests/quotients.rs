//! Rounded quotients, held against Python's rounding of fractions, which takes the even
//! one of two that are equally near.

use std::process::Command;

use second::units::rounded_quotient;

/// Prints on each line dividend, divisor, quotient and remainder: any of 64 bits, the
/// ends of an i64 among them, and dividends that lie just between two multiples.
const PYTHON: &str = "
import random
from fractions import Fraction
chance = random.Random(2026)
ends = [-2**63, -2**63 + 1, -1, 0, 1, 2**62, 2**63 - 2, 2**63 - 1]
made = 0
while made < 4000:
    d = max(1, chance.choice([chance.getrandbits(chance.choice([2, 12, 22, 40, 63])), 2**63 - 1, 2**63 - 2, 3600000]))
    n = chance.choice([chance.choice(ends), chance.getrandbits(64) - 2**63, chance.randrange(-4 * d, 4 * d)])
    if chance.random() < 0.5:
        d += d % 2
        n = n // d * d + d // 2
    if d < 2**63 and -2**63 <= n < 2**63:
        q = round(Fraction(n, d))
        print(n, d, q, n - q * d)
        made += 1
";

#[test]
fn quotients_agree_with_python() {
    let output = Command::new("python3").args(["-c", PYTHON]).output();
    let output = output.expect("python3 runs");
    assert!(output.status.success());
    let text = String::from_utf8(output.stdout).unwrap();
    // Halves toward zero and away from it, above and below zero.
    let mut halves = [0; 4];
    for line in text.lines() {
        let numbers: Vec<i64> = line.split(' ').map(|word| word.parse().unwrap()).collect();
        let [n, d, quotient, remainder] = numbers[..] else {
            panic!("{line}");
        };
        assert_eq!(rounded_quotient(n, d), (quotient, remainder), "{line}");
        if remainder.unsigned_abs() * 2 == d.unsigned_abs() {
            let away = (remainder < 0) != (n < 0);
            halves[2 * usize::from(n < 0) + usize::from(away)] += 1;
        }
    }
    assert_eq!(text.lines().count(), 4000);
    assert!(halves.iter().all(|count| *count > 100), "{halves:?}");
}
