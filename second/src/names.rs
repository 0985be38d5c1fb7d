//! Names of flowgates, zones, units, points and PARs.

use std::collections::HashSet;
use std::fmt;
use std::hash::{BuildHasherDefault, Hasher};

/// The bytes of a name's field, well formed or not.
pub type NameField = [u8; 16];

/// 1 to 16 non-zero bytes, filled with zero bytes on the right; as one big-endian
/// number.
#[derive(Clone, Copy, PartialEq, Eq)]
pub struct Name(u128);

impl Name {
    /// None where row 6 is met.
    pub fn of(field: NameField) -> Option<Self> {
        let length = bearing(&field).len();
        let filled = field[length..].iter().all(|byte| *byte == 0);
        (length > 0 && filled).then_some(Name(u128::from_be_bytes(field)))
    }

    pub fn field(self) -> NameField {
        self.0.to_be_bytes()
    }
}

impl fmt::Debug for Name {
    fn fmt(&self, f: &mut fmt::Formatter) -> fmt::Result {
        write!(f, "\"{}\"", bearing(&self.field()).escape_ascii())
    }
}

/// The name without its filling.
pub fn bearing(field: &NameField) -> &[u8] {
    let length = field.iter().position(|byte| *byte == 0);
    &field[..length.unwrap_or(field.len())]
}

/// Up to this many names, looking through them all beats hashing.
const FEW: usize = 16;

/// The names met so far in one kind of record.
pub struct NamesSeen {
    few: [u128; FEW],
    count: usize,
    /// All names as soon as they are more than a few.
    many: HashSet<u128, BuildHasherDefault<NameHasher>>,
    most: usize,
}

impl NamesSeen {
    /// None yet, at most so many to come.
    pub fn expecting(most: usize) -> Self {
        NamesSeen {
            few: [0; FEW],
            count: 0,
            many: HashSet::default(),
            most,
        }
    }

    /// Notes the name; false if it was noted before.
    pub fn note(&mut self, Name(name): Name) -> bool {
        if self.count == FEW && self.many.is_empty() {
            self.many.reserve(self.most);
            self.many.extend(self.few);
        }
        let is_new = if self.count < FEW {
            let is_new = !self.few[..self.count].contains(&name);
            self.few[self.count] = name;
            is_new
        } else {
            self.many.insert(name)
        };
        self.count += usize::from(is_new);
        is_new
    }

    pub fn clear(&mut self) {
        self.count = 0;
        self.many.clear();
    }
}

/// Names are at most 2,500, so that even names chosen to collide cost little; the
/// standard hasher's safety from them is not worth its time here.
#[derive(Default)]
struct NameHasher(u64);

/// Both halves of a name in one word, which decides its hash.
pub fn folded(name: u128) -> u64 {
    (name as u64) ^ ((name >> 64) as u64).rotate_left(29)
}

impl Hasher for NameHasher {
    fn finish(&self) -> u64 {
        self.0
    }

    fn write(&mut self, bytes: &[u8]) {
        for byte in bytes {
            self.write_u128(u128::from(*byte));
        }
    }

    fn write_u128(&mut self, name: u128) {
        let mixed = (folded(name) ^ self.0).wrapping_mul(0x9e37_79b9_7f4a_7c15);
        self.0 = mixed ^ (mixed >> 32);
    }
}

#[cfg(test)]
mod tests {
    use super::*;

    #[test]
    fn every_byte_but_zero_may_stand_in_a_name() {
        let well_formed = |field: &NameField| Name::of(*field).is_some();
        assert!(well_formed(b"A\\\"\xff\n\0\0\0\0\0\0\0\0\0\0\0"));
        assert!(well_formed(&[1; 16]));
        assert!(!well_formed(&[0; 16]));
        assert!(!well_formed(b"\0A\0\0\0\0\0\0\0\0\0\0\0\0\0\0"));
        assert!(!well_formed(b"A\0B\0\0\0\0\0\0\0\0\0\0\0\0\0"));
        assert!(!well_formed(b"A\0\0\0\0\0\0\0\0\0\0\0\0\0\0B"));
    }

    #[test]
    fn repeats_are_found_among_few_and_among_many() {
        let mut seen = NamesSeen::expecting(200);
        let name = |k: u8| Name::of([k; 16]).unwrap();
        assert!((1..=200).all(|k| seen.note(name(k))));
        assert!((1..=200).all(|k| !seen.note(name(k))));
        seen.clear();
        assert!(seen.note(name(7)));
    }
}
