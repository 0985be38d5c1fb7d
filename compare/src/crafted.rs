//! Names chosen to collide.

use second::names::{NameField, folded};

use crate::chance::Chance;

/// Names that share a bucket of the hash on both sides, whatever the table's size.
/// Ours adds the remainders of both halves and keeps the lowest twelve bits (fewer in
/// smaller tables); the Rust implementation's folds the halves into one word, so that
/// names of one folded word have one hash.
pub fn one_bucket(chance: &mut Chance, count: usize) -> Vec<NameField> {
    const FOLDED: u64 = 0x5a17_c3e9_0b64_d28f;
    const BUCKET: u64 = 0x2b5;
    let mut names = Vec::with_capacity(count);
    while names.len() < count {
        let high = chance.draw();
        let low = high.rotate_left(29) ^ FOLDED;
        let name = ((u128::from(high) << 64) | u128::from(low)).to_be_bytes();
        if bucket(&name) == BUCKET && name.iter().all(|byte| *byte != 0) {
            names.push(name);
        }
    }
    names
}

fn halves(name: &NameField) -> [u64; 2] {
    let name = u128::from_be_bytes(*name);
    [(name >> 64) as u64, name as u64]
}

fn bucket(name: &NameField) -> u64 {
    let [high, low] = halves(name);
    (high % 65_521 + low % 65_519) & 4_095
}

/// Whether all of them share a bucket on both sides.
pub fn share_a_bucket<'a>(mut names: impl Iterator<Item = &'a NameField>) -> bool {
    let both = |name: &NameField| (bucket(name), folded(u128::from_be_bytes(*name)));
    let Some(first) = names.next().map(both) else {
        return true;
    };
    names.all(|name| both(name) == first)
}

#[cfg(test)]
mod tests {
    use super::*;
    use std::collections::HashSet;

    #[test]
    fn crafted_names_differ_and_share_a_bucket() {
        let names = one_bucket(&mut Chance::of(1, 1), 50);
        assert!(share_a_bucket(names.iter()));
        assert_eq!(names.iter().collect::<HashSet<_>>().len(), 50);
        assert!(!share_a_bucket([[1; 16], [2; 16]].iter()));
    }
}
