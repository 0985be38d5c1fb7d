//! The refusals by their numbers: those of document 01's table, and those that
//! requests add.

use std::fmt;

/// What each number means, from 1: the words of docs/REFUSALS.md.
pub const MEANINGS: [&str; 28] = [
    "the sheet is empty, or its first byte is not 1",
    "kind byte not 1..8",
    "the sheet ends within the body",
    "kind below the one before, or a second head",
    "33rd zone, 257th unit, 33rd point, 9th PAR, 5th path or 2nd circulation",
    "first byte zero, or a non-zero byte after a zero",
    "same name earlier in the same kind",
    "RTO, type or class neither 1 nor 2; a unit's zone 0 or above the count of zones; a place above that count",
    "a number of kinds 1 to 5, a path's flow or the circulation outside its range",
    "target, subject and index are not those due, or nothing is due any more",
    "factor below -10,000 or above 10,000, a path's too",
    "no zone, or no unit",
    "factors are still due",
    "a record of the list cut short, of another kind, badly named, out of range, with a repeated name, or after the 2,500th",
    "no entry bears the flowgate's name",
    "loads with losses, or outputs, sum above 2,000,000",
    "a zone load is below zero",
    "final load is zero or below",
    "a zone generation is below zero",
    "net generation is zero",
    "final generation is below zero",
    "settlement flow below -10,000,000,000 W or above 10,000,000,000 W",
    "the output buffer is shorter than the listing",
    "it has 60 intervals",
    "its seconds and the interval's sum above 3600",
    "it is not empty, and the interval has another flowgate name or Monitoring RTO",
    "the buffer is shorter than the sheet",
    "a path or a circulation is there, but fewer than four paths or no circulation",
];

#[derive(Clone, Copy, Debug, PartialEq, Eq, PartialOrd, Ord)]
#[repr(u8)]
pub enum Refusal {
    /// The sheet is empty, or its first byte is not 1.
    NoHead = 1,
    UnknownKind = 2,
    CutShort = 3,
    /// A kind below the one before, or a second head.
    OutOfOrder = 4,
    /// One more of kinds 2 to 5, 7 or 8 than allowed.
    Surplus = 5,
    IllFormedName = 6,
    RepeatedName = 7,
    UnlistedCode = 8,
    OutOfRange = 9,
    FactorNotDue = 10,
    FactorOutOfRange = 11,
    /// No zone, or no unit.
    NothingToSettle = 12,
    FactorsStillDue = 13,
    FaultyList = 14,
    NoEntitlement = 15,
    /// Loads with losses, or outputs, sum above 2,000,000.
    TooMuchPower = 16,
    ZoneLoadBelowZero = 17,
    NoFinalLoad = 18,
    ZoneGenerationBelowZero = 19,
    NoNetGeneration = 20,
    FinalGenerationBelowZero = 21,
    FlowOutOfRange = 22,
    BufferTooShort = 23,
    /// The hour has 60 intervals.
    FullHour = 24,
    /// The hour's seconds would pass 3600.
    PastTheHour = 25,
    /// Another flowgate name or Monitoring RTO than the hour's.
    OtherFlowgate = 26,
    /// The buffer is shorter than the sheet to be written.
    NoRoomForSheet = 27,
    /// Paths or a circulation, but fewer than four paths or no circulation.
    LakeIncomplete = 28,
}

impl Refusal {
    /// Those that an interval's statement can meet, in the order of their numbers.
    pub fn of_statement() -> impl Iterator<Item = u8> {
        let last = Refusal::BufferTooShort.number();
        (1..=last).chain([Refusal::LakeIncomplete.number()])
    }

    pub const fn number(self) -> u8 {
        self as u8
    }

    pub fn meaning(self) -> &'static str {
        MEANINGS[usize::from(self.number()) - 1]
    }
}

impl fmt::Display for Refusal {
    fn fmt(&self, f: &mut fmt::Formatter) -> fmt::Result {
        write!(f, "refused {}", self.number())
    }
}
