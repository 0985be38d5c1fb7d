//! The factors that a sheet must have.

use crate::sheet::Subject;

/// The factors due, in their order: each is target, subject and index as they
/// stand in a factor's record.
pub struct Due {
    counts: [usize; 4],
    target: usize,
    subject: usize,
    index: usize,
}

impl Due {
    /// By how many units, zones, points and PARs there are.
    pub fn by(counts: [usize; 4]) -> Self {
        Due {
            counts,
            target: 0,
            subject: Subject::Unit as usize,
            index: 0,
        }
    }
}

impl Iterator for Due {
    type Item = [u8; 4];

    fn next(&mut self) -> Option<[u8; 4]> {
        let [.., pars] = self.counts;
        self.index += 1;
        while self.index > self.counts[self.subject - 1] {
            self.index = 1;
            self.subject += 1;
            // PARs have factors on the flowgate only.
            if self.subject > if self.target == 0 { 4 } else { 3 } {
                self.subject = 1;
                self.target += 1;
            }
            if self.target > pars {
                return None;
            }
        }
        let [high, low] = (self.index as u16).to_be_bytes();
        Some([self.target as u8, self.subject as u8, high, low])
    }
}
