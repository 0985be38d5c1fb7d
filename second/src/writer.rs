//! The writer of interval sheets (request 3), and row 27.

use std::mem::take;

use crate::content::{Circulation, Content, Factor, Head, Par, Path, Point, Unit, Zone};
use crate::content_rows::check;
use crate::layout::Kind;
use crate::refusal::Refusal;
use crate::sheet::Place;

/// Writes a sheet from the buffer's start: its length. Bytes past the sheet stay as
/// before, and on a refusal all do.
pub fn write(content: &Content, out: &mut [u8]) -> Result<usize, Refusal> {
    check(content)?;
    let length = content.length();
    let sheet = out.get_mut(..length).ok_or(Refusal::NoRoomForSheet)?;
    let mut rest = Rest(sheet);
    rest.head(&content.head);
    content.zones.iter().for_each(|it| rest.zone(it));
    content.units.iter().for_each(|it| rest.unit(it));
    content.points.iter().for_each(|it| rest.point(it));
    content.pars.iter().for_each(|it| rest.par(it));
    content.factors.iter().for_each(|it| rest.factor(it));
    content.paths.iter().for_each(|it| rest.path(it));
    let circulations = content.circulations.iter();
    circulations.for_each(|it| rest.circulation(it));
    Ok(length)
}

/// The unused end of the buffer.
struct Rest<'a>(&'a mut [u8]);

impl Rest<'_> {
    fn field<const LENGTH: usize>(&mut self, field: [u8; LENGTH]) {
        let front = take(&mut self.0).split_first_chunk_mut();
        let (front, rest) = front.expect("a sheet is as long as its fields");
        *front = field;
        self.0 = rest;
    }

    fn kind(&mut self, kind: Kind) {
        self.field([kind as u8]);
    }

    fn head(&mut self, head: &Head) {
        self.kind(Kind::Head);
        self.field(head.name);
        self.field([head.monitoring]);
        self.field(head.seconds.to_be_bytes());
        self.field(head.monitoring_price.to_be_bytes());
        self.field(head.non_monitoring_price.to_be_bytes());
    }

    fn zone(&mut self, zone: &Zone) {
        self.kind(Kind::Zone);
        self.field(zone.name);
        self.field(zone.load.to_be_bytes());
        self.field(zone.losses.to_be_bytes());
    }

    fn unit(&mut self, unit: &Unit) {
        self.kind(Kind::Unit);
        self.field(unit.name);
        self.field([unit.zone]);
        self.field(unit.output.to_be_bytes());
    }

    fn point(&mut self, point: &Point) {
        let place = match point.place {
            Place::Proxy => 0,
            Place::Line(zone) => zone.0,
        };
        self.kind(Kind::Point);
        self.field(point.name);
        self.field([point.class, place]);
        self.field(point.import.to_be_bytes());
        self.field(point.export.to_be_bytes());
        self.field(point.wheel_in.to_be_bytes());
        self.field(point.wheel_out.to_be_bytes());
    }

    fn par(&mut self, par: &Par) {
        self.kind(Kind::Par);
        self.field(par.name);
        self.field([par.class]);
        self.field(par.actual.to_be_bytes());
        self.field(par.target.to_be_bytes());
    }

    fn factor(&mut self, factor: &Factor) {
        self.kind(Kind::Factor);
        self.field([factor.target, factor.subject]);
        self.field(factor.index.to_be_bytes());
        self.field(factor.value.to_be_bytes());
    }

    fn path(&mut self, path: &Path) {
        self.kind(Kind::Path);
        self.field(path.name);
        self.field(path.flow.to_be_bytes());
        self.field(path.factor.to_be_bytes());
    }

    fn circulation(&mut self, circulation: &Circulation) {
        self.kind(Kind::Circulation);
        self.field(circulation.flow.to_be_bytes());
    }
}
