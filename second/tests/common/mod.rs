//! Small sheets for the tests.

use second::draft::{factor, head, name, point, unit, zone};

/// A sheet with PJM as the Monitoring RTO, 300 s and prices 5000 and 2000.
pub struct Small {
    pub zone_loads: Vec<(u32, i16)>,
    pub output: (u32, i16),
    /// Type, place, schedules and factor.
    pub points: Vec<(u8, u8, [u32; 4], i16)>,
}

impl Small {
    pub fn bytes(&self) -> Vec<u8> {
        let mut sheet = head(name(b"F"), 2, 300, [5000, 2000]);
        for (k, (load, _)) in self.zone_loads.iter().enumerate() {
            sheet.extend(zone(name(&[b'Z', 1 + k as u8]), *load, 0));
        }
        sheet.extend(unit(name(b"U"), 1, self.output.0));
        for (k, (class, place, schedules, _)) in self.points.iter().enumerate() {
            let named = name(&[b'P', 1 + k as u8]);
            sheet.extend(point(named, *class, *place, *schedules));
        }
        sheet.extend(factor(0, 1, 1, self.output.1));
        for (k, (_, value)) in (1..).zip(&self.zone_loads) {
            sheet.extend(factor(0, 2, k, *value));
        }
        for (k, point) in (1..).zip(&self.points) {
            sheet.extend(factor(0, 3, k, point.3));
        }
        sheet
    }
}
