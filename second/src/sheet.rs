//! The content of an interval sheet that passes rows 1 to 13 and 28.

use crate::layout::{Fields, Kind};
use crate::names::Name;
use crate::units::{Factor, Power, Price, Seconds};

/// A grid operator, by its code.
#[derive(Clone, Copy, Debug, PartialEq, Eq)]
#[repr(u8)]
pub enum Rto {
    Nyiso = 1,
    Pjm = 2,
}

/// The type of a scheduling point, the class of a PAR, by its code.
#[derive(Clone, Copy, Debug, PartialEq, Eq)]
#[repr(u8)]
pub enum Class {
    Common = 1,
    NonCommon = 2,
}

/// A zone's number on its sheet, from 1.
#[derive(Clone, Copy, Debug, PartialEq, Eq)]
pub struct ZoneNumber(pub u8);

impl ZoneNumber {
    /// The zone's place among the zones, from 0.
    pub fn index(self) -> usize {
        usize::from(self.0) - 1
    }
}

/// Where a scheduling point lies.
#[derive(Clone, Copy, Debug, PartialEq, Eq)]
pub enum Place {
    Proxy,
    /// A scheduled line that ends in a zone.
    Line(ZoneNumber),
}

/// The Monitoring RTO owns the flowgate; every flow is the other RTO's.
#[derive(Clone, Copy, Debug)]
pub struct Head {
    pub name: Name,
    pub monitoring: Rto,
    pub seconds: Seconds,
    pub monitoring_price: Price,
    pub non_monitoring_price: Price,
}

#[derive(Clone, Copy, Debug)]
pub struct Zone {
    pub name: Name,
    pub load: Power,
    pub losses: Power,
}

#[derive(Clone, Copy, Debug)]
pub struct Unit {
    pub name: Name,
    pub zone: ZoneNumber,
    pub output: Power,
}

#[derive(Clone, Copy, Debug)]
pub struct Point {
    pub name: Name,
    pub class: Class,
    pub place: Place,
    pub import: Power,
    pub export: Power,
    pub wheel_in: Power,
    pub wheel_out: Power,
}

/// A phase angle regulator.
#[derive(Clone, Copy, Debug)]
pub struct Par {
    pub name: Name,
    pub class: Class,
    pub actual: Power,
    pub target: Power,
}

/// A path between Michigan and Ontario, its market flow, and the PARs' factor on the
/// flowgate.
#[derive(Clone, Copy, Debug)]
pub struct Path {
    pub name: Name,
    pub flow: Power,
    pub factor: Factor,
}

/// The four paths, and the circulation around Lake Erie.
#[derive(Clone, Debug)]
pub struct Lake {
    pub paths: Vec<Path>,
    pub circulation: Power,
}

/// What a factor multiplies.
#[derive(Clone, Copy, Debug, PartialEq, Eq)]
#[repr(u8)]
pub enum Subject {
    Unit = 1,
    Zone = 2,
    Point = 3,
    Par = 4,
}

/// What factors speak of: 0 for the flowgate, k for the k-th PAR.
pub type Target = usize;
pub const FLOWGATE: Target = 0;

/// A factor's record, kind byte included.
pub const FACTOR_RECORD: usize = 1 + Kind::Factor.body();

#[derive(Clone, Debug)]
pub struct Sheet<'a> {
    pub head: Head,
    pub zones: Vec<Zone>,
    pub units: Vec<Unit>,
    pub points: Vec<Point>,
    pub pars: Vec<Par>,
    /// As they are due.
    pub factor_records: &'a [[u8; FACTOR_RECORD]],
    pub lake: Option<Lake>,
}

impl<'a> Sheet<'a> {
    /// How many units, zones, points and PARs there are, in the order of subjects.
    pub fn counts(&self) -> [usize; 4] {
        [
            self.units.len(),
            self.zones.len(),
            self.points.len(),
            self.pars.len(),
        ]
    }

    /// The factors of all units, zones, points or PARs by index.
    pub fn factors(
        &self,
        target: Target,
        subject: Subject,
    ) -> impl Iterator<Item = Factor> + use<'a> {
        let [units, zones, points, pars] = self.counts();
        let on_par = units + zones + points;
        let block = match target {
            FLOWGATE => 0,
            par => on_par + pars + (par - 1) * on_par,
        };
        let (before, count) = match subject {
            Subject::Unit => (0, units),
            Subject::Zone => (units, zones),
            Subject::Point => (units + zones, points),
            Subject::Par => (on_par, pars),
        };
        self.factor_records[block + before..][..count]
            .iter()
            .map(factor)
    }
}

/// The value is a record's last field.
fn factor(record: &[u8; FACTOR_RECORD]) -> Factor {
    const VALUE: usize = FACTOR_RECORD - 2;
    Factor(Fields::of(&record[VALUE..]).signed_2())
}
