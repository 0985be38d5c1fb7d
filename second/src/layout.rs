//! The records of documents 01 and 02: kinds, body lengths, counts and ranges.

use std::ops::{Range, RangeInclusive};

/// The kind byte of a sheet's record.
#[derive(Clone, Copy, Debug, PartialEq, Eq, PartialOrd, Ord)]
#[repr(u8)]
pub enum Kind {
    Head = 1,
    Zone = 2,
    Unit = 3,
    Point = 4,
    Par = 5,
    Factor = 6,
    Path = 7,
    Circulation = 8,
}

impl Kind {
    pub fn of(byte: u8) -> Option<Kind> {
        Some(match byte {
            1 => Kind::Head,
            2 => Kind::Zone,
            3 => Kind::Unit,
            4 => Kind::Point,
            5 => Kind::Par,
            6 => Kind::Factor,
            7 => Kind::Path,
            8 => Kind::Circulation,
            _ => return None,
        })
    }

    /// How many bytes follow the kind byte.
    pub const fn body(self) -> usize {
        match self {
            Kind::Head => 27,
            Kind::Zone => 24,
            Kind::Unit => 21,
            Kind::Point => 34,
            Kind::Par => 25,
            Kind::Factor => 6,
            Kind::Path => 22,
            Kind::Circulation => 4,
        }
    }
}

/// Where the name stands in a record that has one, kind byte included.
pub const NAME: Range<usize> = 1..17;

pub const MOST_ZONES: usize = 32;
pub const MOST_UNITS: usize = 256;
pub const MOST_POINTS: usize = 32;
pub const MOST_PARS: usize = 8;
/// A sheet has all of them and a circulation, or neither.
pub const MOST_PATHS: usize = 4;
pub const MOST_CIRCULATIONS: usize = 1;
/// How many bytes a sheet has that has all of them.
pub const LONGEST_SHEET: usize = 28_101;

pub const SECONDS: RangeInclusive<i64> = 1..=900;
pub const PRICES: RangeInclusive<i64> = 0..=400_000;
/// Loads, losses and outputs.
pub const LOADS: RangeInclusive<i64> = 0..=2_000_000;
/// Imports, exports and wheels.
pub const SCHEDULES: RangeInclusive<i64> = 0..=200_000;
/// Flows over PARs, actual and target.
pub const PAR_FLOWS: RangeInclusive<i64> = -200_000..=200_000;
/// Flows on the paths between Michigan and Ontario, and around Lake Erie.
pub const LAKE_FLOWS: RangeInclusive<i64> = -200_000..=200_000;
pub const FACTORS: RangeInclusive<i64> = -10_000..=10_000;

/// The kind byte of an entitlement list's record.
pub const ENTITLEMENT: u8 = 0x10;
/// A record of the list, kind byte included.
pub const ENTITLEMENT_RECORD: usize = 1 + 20;
pub const MOST_ENTITLEMENTS: usize = 2_500;
pub const ENTITLEMENTS: RangeInclusive<i64> = -100_000..=100_000;

/// The fields of a body, taken in their order.
pub struct Fields<'a>(&'a [u8]);

impl<'a> Fields<'a> {
    pub fn of(body: &'a [u8]) -> Self {
        Fields(body)
    }

    pub fn bytes<const LENGTH: usize>(&mut self) -> [u8; LENGTH] {
        let field = self.0.split_first_chunk();
        let (field, rest) = field.expect("a body is as long as its fields");
        self.0 = rest;
        *field
    }

    pub fn byte(&mut self) -> u8 {
        let [byte] = self.bytes();
        byte
    }

    pub fn unsigned_2(&mut self) -> i64 {
        i64::from(u16::from_be_bytes(self.bytes()))
    }

    pub fn unsigned_4(&mut self) -> i64 {
        i64::from(u32::from_be_bytes(self.bytes()))
    }

    pub fn signed_2(&mut self) -> i64 {
        i64::from(i16::from_be_bytes(self.bytes()))
    }

    pub fn signed_4(&mut self) -> i64 {
        i64::from(i32::from_be_bytes(self.bytes()))
    }
}
