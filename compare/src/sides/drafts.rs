//! Drafts of sheets, as both sides read and write them.

mod by_second;
mod empty;
mod records;
mod shown;

use second::layout::{
    Kind, MOST_CIRCULATIONS, MOST_PARS, MOST_PATHS, MOST_POINTS, MOST_UNITS, MOST_ZONES,
};
use second::names::NameField;

use crate::sides::Printed;

/// The most factors that can be due.
pub const MOST_FACTORS: usize = 2888;

#[derive(Clone, Copy, Debug, PartialEq, Eq)]
#[repr(C)]
pub struct Head {
    pub name: NameField,
    pub monitoring_rto: u8,
    pub seconds: u16,
    pub monitoring_price: u32,
    pub nonmonitoring_price: u32,
}

#[derive(Clone, Copy, Debug, PartialEq, Eq)]
#[repr(C)]
pub struct Zone {
    pub name: NameField,
    pub load: u32,
    pub losses: u32,
}

#[derive(Clone, Copy, Debug, PartialEq, Eq)]
#[repr(C)]
pub struct Unit {
    pub name: NameField,
    pub zone: u8,
    pub output: u32,
}

#[derive(Clone, Copy, Debug, PartialEq, Eq)]
#[repr(C)]
pub struct Point {
    pub name: NameField,
    /// Its type.
    pub sort: u8,
    /// 0 is a proxy, anything else a scheduled line into the zone.
    pub line: u8,
    pub zone: u8,
    pub import: u32,
    pub export: u32,
    pub wheel_in: u32,
    pub wheel_out: u32,
}

#[derive(Clone, Copy, Debug, PartialEq, Eq)]
#[repr(C)]
pub struct Par {
    pub name: NameField,
    pub class: u8,
    pub actual: i32,
    pub target: i32,
}

#[derive(Clone, Copy, Debug, PartialEq, Eq)]
#[repr(C)]
pub struct Factor {
    pub target: u8,
    pub subject: u8,
    pub index: u16,
    pub factor: i16,
}

#[derive(Clone, Copy, Debug, PartialEq, Eq)]
#[repr(C)]
pub struct Path {
    pub name: NameField,
    pub flow: i32,
    pub factor: i16,
}

#[derive(Clone, Copy, Debug, PartialEq, Eq)]
#[repr(C)]
pub struct Circulation {
    pub flow: i32,
}

/// Records of each kind, one more than a sheet may have. It gives the first of them,
/// as many as its count says, and all where the count is above.
#[derive(Clone, Copy, PartialEq, Eq)]
#[repr(C)]
pub struct Draft {
    pub head: Head,
    pub zone_count: usize,
    pub zones: [Zone; 33],
    pub unit_count: usize,
    pub units: [Unit; 257],
    pub point_count: usize,
    pub points: [Point; 33],
    pub par_count: usize,
    pub pars: [Par; 9],
    pub factor_count: usize,
    pub factors: [Factor; 2889],
    pub path_count: usize,
    pub paths: [Path; 5],
    pub circulation_count: usize,
    pub circulations: [Circulation; 2],
}

const _: () = {
    assert!(Draft::EMPTY.zones.len() == MOST_ZONES + 1);
    assert!(Draft::EMPTY.units.len() == MOST_UNITS + 1);
    assert!(Draft::EMPTY.points.len() == MOST_POINTS + 1);
    assert!(Draft::EMPTY.pars.len() == MOST_PARS + 1);
    assert!(Draft::EMPTY.factors.len() == MOST_FACTORS + 1);
    assert!(Draft::EMPTY.paths.len() == MOST_PATHS + 1);
    assert!(Draft::EMPTY.circulations.len() == MOST_CIRCULATIONS + 1);
};

/// 0 and a sheet's records, or the refusal and a draft of zeros.
#[derive(Clone, Copy, Debug, PartialEq, Eq)]
#[repr(C)]
pub struct Drafted {
    pub refusal: u8,
    pub draft: Draft,
}

/// 0 and the length of the sheet that was written, or the refusal and 0.
#[derive(Clone, Copy, Debug, PartialEq, Eq)]
#[repr(C)]
pub struct Written {
    pub refusal: u8,
    pub length: usize,
}

pub trait Drafts {
    fn read_draft(&self, sheet: &[u8]) -> Drafted;
    fn write_draft(&self, draft: &Draft, out: &mut [u8]) -> Written;

    /// Reads an accepted sheet, gives its first point this import, writes it into the
    /// buffer and settles what was written, all in the side's own types.
    fn resettle(&self, sheet: &[u8], import: u32, list: &[u8], out: &mut [u8]) -> Printed;
}

impl Draft {
    pub fn zones(&self) -> &[Zone] {
        given(&self.zones, self.zone_count)
    }

    pub fn units(&self) -> &[Unit] {
        given(&self.units, self.unit_count)
    }

    pub fn points(&self) -> &[Point] {
        given(&self.points, self.point_count)
    }

    pub fn pars(&self) -> &[Par] {
        given(&self.pars, self.par_count)
    }

    pub fn factors(&self) -> &[Factor] {
        given(&self.factors, self.factor_count)
    }

    pub fn paths(&self) -> &[Path] {
        given(&self.paths, self.path_count)
    }

    pub fn circulations(&self) -> &[Circulation] {
        given(&self.circulations, self.circulation_count)
    }

    /// How many bytes its records have.
    pub fn length(&self) -> usize {
        let records = [
            (Kind::Head, 1),
            (Kind::Zone, self.zones().len()),
            (Kind::Unit, self.units().len()),
            (Kind::Point, self.points().len()),
            (Kind::Par, self.pars().len()),
            (Kind::Factor, self.factors().len()),
            (Kind::Path, self.paths().len()),
            (Kind::Circulation, self.circulations().len()),
        ];
        let lengths = records.map(|(kind, count)| (1 + kind.body()) * count);
        lengths.into_iter().sum()
    }
}

fn given<T>(cells: &[T], count: usize) -> &[T] {
    &cells[..count.min(cells.len())]
}

impl Point {
    pub fn is_line_into_zone_0(&self) -> bool {
        self.line != 0 && self.zone == 0
    }
}
