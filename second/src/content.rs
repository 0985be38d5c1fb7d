//! What a writer of sheets takes (request 3): records field by field, with every value
//! that fits a field, sound or faulty.

use crate::layout::{Fields, Kind};
use crate::names::NameField;
use crate::reader::{Refused, read};
use crate::sheet::{self, FACTOR_RECORD, Lake, Place, Sheet};

#[derive(Clone, Copy, Debug, PartialEq, Eq)]
pub struct Head {
    pub name: NameField,
    pub monitoring: u8,
    pub seconds: u16,
    pub monitoring_price: u32,
    pub non_monitoring_price: u32,
}

#[derive(Clone, Copy, Debug, PartialEq, Eq)]
pub struct Zone {
    pub name: NameField,
    pub load: u32,
    pub losses: u32,
}

#[derive(Clone, Copy, Debug, PartialEq, Eq)]
pub struct Unit {
    pub name: NameField,
    pub zone: u8,
    pub output: u32,
}

/// A scheduled line may be said to end in any zone, 0 too.
#[derive(Clone, Copy, Debug, PartialEq, Eq)]
pub struct Point {
    pub name: NameField,
    pub class: u8,
    pub place: Place,
    pub import: u32,
    pub export: u32,
    pub wheel_in: u32,
    pub wheel_out: u32,
}

#[derive(Clone, Copy, Debug, PartialEq, Eq)]
pub struct Par {
    pub name: NameField,
    pub class: u8,
    pub actual: i32,
    pub target: i32,
}

#[derive(Clone, Copy, Debug, PartialEq, Eq)]
pub struct Factor {
    pub target: u8,
    pub subject: u8,
    pub index: u16,
    pub value: i16,
}

#[derive(Clone, Copy, Debug, PartialEq, Eq)]
pub struct Path {
    pub name: NameField,
    pub flow: i32,
    pub factor: i16,
}

#[derive(Clone, Copy, Debug, PartialEq, Eq)]
pub struct Circulation {
    pub flow: i32,
}

#[derive(Clone, Debug, PartialEq, Eq)]
pub struct Content {
    pub head: Head,
    pub zones: Vec<Zone>,
    pub units: Vec<Unit>,
    pub points: Vec<Point>,
    pub pars: Vec<Par>,
    pub factors: Vec<Factor>,
    pub paths: Vec<Path>,
    pub circulations: Vec<Circulation>,
}

/// Reads a sheet for a writer.
pub fn content(sheet: &[u8]) -> Result<Content, Refused> {
    read(sheet).map(|sheet| Content::of(&sheet))
}

impl Content {
    fn of(sheet: &Sheet) -> Self {
        let lake = &sheet.lake;
        Content {
            head: head(&sheet.head),
            zones: sheet.zones.iter().map(zone).collect(),
            units: sheet.units.iter().map(unit).collect(),
            points: sheet.points.iter().map(point).collect(),
            pars: sheet.pars.iter().map(par).collect(),
            factors: sheet.factor_records.iter().map(factor).collect(),
            paths: lake.iter().flat_map(|it| &it.paths).map(path).collect(),
            circulations: lake.iter().map(circulation).collect(),
        }
    }

    /// How many units, zones, points and PARs there are, in the order of subjects.
    pub fn counts(&self) -> [usize; 4] {
        [
            self.units.len(),
            self.zones.len(),
            self.points.len(),
            self.pars.len(),
        ]
    }

    /// How many bytes its sheet has.
    pub fn length(&self) -> usize {
        let [units, zones, points, pars] = self.counts();
        let records = [
            (Kind::Head, 1),
            (Kind::Zone, zones),
            (Kind::Unit, units),
            (Kind::Point, points),
            (Kind::Par, pars),
            (Kind::Factor, self.factors.len()),
            (Kind::Path, self.paths.len()),
            (Kind::Circulation, self.circulations.len()),
        ];
        let lengths = records.map(|(kind, count)| (1 + kind.body()) * count);
        lengths.into_iter().sum()
    }
}

// What passed the rows fits its field.

fn head(head: &sheet::Head) -> Head {
    Head {
        name: head.name.field(),
        monitoring: head.monitoring as u8,
        seconds: head.seconds.0 as u16,
        monitoring_price: head.monitoring_price.0 as u32,
        non_monitoring_price: head.non_monitoring_price.0 as u32,
    }
}

fn zone(zone: &sheet::Zone) -> Zone {
    Zone {
        name: zone.name.field(),
        load: zone.load.0 as u32,
        losses: zone.losses.0 as u32,
    }
}

fn unit(unit: &sheet::Unit) -> Unit {
    Unit {
        name: unit.name.field(),
        zone: unit.zone.0,
        output: unit.output.0 as u32,
    }
}

fn point(point: &sheet::Point) -> Point {
    Point {
        name: point.name.field(),
        class: point.class as u8,
        place: point.place,
        import: point.import.0 as u32,
        export: point.export.0 as u32,
        wheel_in: point.wheel_in.0 as u32,
        wheel_out: point.wheel_out.0 as u32,
    }
}

fn par(par: &sheet::Par) -> Par {
    Par {
        name: par.name.field(),
        class: par.class as u8,
        actual: par.actual.0 as i32,
        target: par.target.0 as i32,
    }
}

fn factor(record: &[u8; FACTOR_RECORD]) -> Factor {
    let mut fields = Fields::of(&record[1..]);
    Factor {
        target: fields.byte(),
        subject: fields.byte(),
        index: fields.unsigned_2() as u16,
        value: fields.signed_2() as i16,
    }
}

fn path(path: &sheet::Path) -> Path {
    Path {
        name: path.name.field(),
        flow: path.flow.0 as i32,
        factor: path.factor.0 as i16,
    }
}

fn circulation(lake: &Lake) -> Circulation {
    Circulation {
        flow: lake.circulation.0 as i32,
    }
}
