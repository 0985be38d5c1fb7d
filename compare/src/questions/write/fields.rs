//! Every field of a draft to its ends and past them.

use second::names::NameField;

use crate::sides::drafts::{Draft, Point};

type Alter = Box<dyn Fn(&mut Draft)>;

/// One field of a record with another value.
pub struct Alteration {
    pub what: String,
    /// The record's place on the sheet, counted from 0.
    pub record: usize,
    /// The row that the record then meets; 0 where it still passes.
    pub row: u8,
    alter: Alter,
}

impl Alteration {
    pub fn of(&self, base: &Draft) -> Draft {
        let mut draft = *base;
        self.make(&mut draft);
        draft
    }

    pub fn make(&self, draft: &mut Draft) {
        (self.alter)(draft);
    }
}

/// Values of a field, each with the row that it meets.
type Values<T> = [(T, u8)];

const CODES: [(u8, u8); 5] = [(0, 8), (1, 0), (2, 0), (3, 8), (255, 8)];
const SECONDS: [(u16, u8); 6] = [(0, 9), (1, 0), (255, 0), (900, 0), (901, 9), (u16::MAX, 9)];
const FACTORS: [(i16, u8); 8] = [
    (0, 0),
    (-1, 0),
    (10_000, 0),
    (-10_000, 0),
    (10_001, 11),
    (-10_001, 11),
    (i16::MAX, 11),
    (i16::MIN, 11),
];
/// Those of paths and circulations have the same range.
const PAR_FLOWS: [(i32, u8); 8] = [
    (0, 0),
    (-1, 0),
    (200_000, 0),
    (-200_000, 0),
    (200_001, 9),
    (-200_001, 9),
    (i32::MAX, 9),
    (i32::MIN, 9),
];

/// A number of a point.
type Schedule = fn(&mut Point) -> &mut u32;

const SCHEDULES: [(&str, Schedule); 4] = [
    ("import", |it| &mut it.import),
    ("export", |it| &mut it.export),
    ("wheel in", |it| &mut it.wheel_in),
    ("wheel out", |it| &mut it.wheel_out),
];

/// From 0 to the largest, and beyond.
fn up_to(largest: u32) -> [(u32, u8); 7] {
    [
        (0, 0),
        (1, 0),
        (largest - 1, 0),
        (largest, 0),
        (largest + 1, 9),
        (0x8000_0000, 9),
        (u32::MAX, 9),
    ]
}

/// Names that differ from all others here, and ill-formed ones.
fn names() -> [(NameField, u8); 8] {
    let mut names = [([b'~'; 16], 0); 8];
    names[1].0 = [0xff; 16];
    names[2].0[15] = 0;
    names[3].0[1..].fill(0);
    names[4] = ([0; 16], 6);
    for (name, zero) in [(5, 0), (6, 7), (7, 14)] {
        (names[name].0[zero], names[name].1) = (0, 6);
    }
    names
}

/// All alterations; of a kind with many records, those of some.
pub fn all(base: &Draft) -> Vec<Alteration> {
    let mut table = Table {
        base: *base,
        record: 0,
        kind: "head",
        all: Vec::new(),
    };
    table.head();
    table.each("zone", base.zone_count, Table::zone);
    table.each("unit", base.unit_count, Table::unit);
    table.each("point", base.point_count, Table::point);
    table.each("PAR", base.par_count, Table::par);
    table.each("factor", base.factor_count, Table::factor);
    table.each("path", base.path_count, Table::path);
    table.each("circulation", base.circulation_count, Table::circulation);
    table.all
}

struct Table {
    base: Draft,
    kind: &'static str,
    /// The place of the record at hand.
    record: usize,
    all: Vec<Alteration>,
}

impl Table {
    /// Behind the records before, so many of a kind.
    fn each(&mut self, kind: &'static str, count: usize, alter: fn(&mut Self, usize)) {
        let before = self.record + 1;
        self.kind = kind;
        for k in 0..count {
            self.record = before + k;
            if count <= 16 || [0, 1, count / 2, count - 2, count - 1].contains(&k) {
                alter(self, k);
            }
        }
        self.record = before + count - 1;
    }

    fn field<T: Copy + 'static>(
        &mut self,
        field: &str,
        values: &Values<T>,
        set: impl Fn(&mut Draft, T) + Copy + 'static,
    ) {
        for (value, row) in values {
            let value = *value;
            self.all.push(Alteration {
                what: format!("{field} of {} at record {}", self.kind, self.record),
                record: self.record,
                row: *row,
                alter: Box::new(move |draft| set(draft, value)),
            });
        }
    }

    fn head(&mut self) {
        self.field("name", &names(), |it, name| it.head.name = name);
        self.field("RTO", &CODES, |it, code| it.head.monitoring_rto = code);
        self.field("seconds", &SECONDS, |it, value| it.head.seconds = value);
        let prices = up_to(400_000);
        self.field("price", &prices, |it, value| {
            it.head.monitoring_price = value
        });
        self.field("other price", &prices, |it, value| {
            it.head.nonmonitoring_price = value
        });
    }

    fn zone(&mut self, k: usize) {
        self.field("name", &names(), move |it, name| it.zones[k].name = name);
        let earlier = earlier(&self.base.zones[..k], |it| it.name);
        self.field("name", &earlier, move |it, name| it.zones[k].name = name);
        let loads = up_to(2_000_000);
        self.field("load", &loads, move |it, value| it.zones[k].load = value);
        self.field("losses", &loads, move |it, value| {
            it.zones[k].losses = value
        });
    }

    fn unit(&mut self, k: usize) {
        self.field("name", &names(), move |it, name| it.units[k].name = name);
        let earlier = earlier(&self.base.units[..k], |it| it.name);
        self.field("name", &earlier, move |it, name| it.units[k].name = name);
        let last = self.base.zone_count as u8;
        let zones = [(0, 8), (1, 0), (last, 0), (last + 1, 8), (255, 8)];
        self.field("zone", &zones, move |it, zone| it.units[k].zone = zone);
        let outputs = up_to(2_000_000);
        self.field("output", &outputs, move |it, value| {
            it.units[k].output = value
        });
    }

    fn point(&mut self, k: usize) {
        self.field("name", &names(), move |it, name| it.points[k].name = name);
        let earlier = earlier(&self.base.points[..k], |it| it.name);
        self.field("name", &earlier, move |it, name| it.points[k].name = name);
        self.field("type", &CODES, move |it, code| it.points[k].sort = code);
        let places = places(self.base.zone_count as u8);
        self.field("place", &places, move |it, (line, zone)| {
            (it.points[k].line, it.points[k].zone) = (line, zone);
        });
        let values = up_to(200_000);
        for (schedule, of) in SCHEDULES {
            self.field(schedule, &values, move |it, value| {
                *of(&mut it.points[k]) = value
            });
        }
    }

    fn par(&mut self, k: usize) {
        self.field("name", &names(), move |it, name| it.pars[k].name = name);
        let earlier = earlier(&self.base.pars[..k], |it| it.name);
        self.field("name", &earlier, move |it, name| it.pars[k].name = name);
        self.field("class", &CODES, move |it, code| it.pars[k].class = code);
        self.field("actual", &PAR_FLOWS, move |it, value| {
            it.pars[k].actual = value
        });
        self.field("target", &PAR_FLOWS, move |it, value| {
            it.pars[k].target = value
        });
    }

    fn factor(&mut self, k: usize) {
        let due = self.base.factors[k];
        let other = |bits: &[u16]| -> Vec<(u16, u8)> { bits.iter().map(|it| (*it, 10)).collect() };
        let bytes = other(&[1, 2, 4, 8, 128, 255]);
        self.field("target", &bytes, move |it, bits| {
            it.factors[k].target = due.target ^ bits as u8
        });
        self.field("subject", &bytes, move |it, bits| {
            it.factors[k].subject = due.subject ^ bits as u8;
        });
        let words = other(&[1, 2, 8, 0x100, 0x8000]);
        self.field("index", &words, move |it, bits| {
            it.factors[k].index = due.index ^ bits
        });
        self.field("factor", &FACTORS, move |it, value| {
            it.factors[k].factor = value
        });
    }

    fn path(&mut self, k: usize) {
        self.field("name", &names(), move |it, name| it.paths[k].name = name);
        let earlier = earlier(&self.base.paths[..k], |it| it.name);
        self.field("name", &earlier, move |it, name| it.paths[k].name = name);
        self.field("flow", &PAR_FLOWS, move |it, value| {
            it.paths[k].flow = value
        });
        self.field("factor", &FACTORS, move |it, value| {
            it.paths[k].factor = value
        });
    }

    fn circulation(&mut self, k: usize) {
        self.field("flow", &PAR_FLOWS, move |it, value| {
            it.circulations[k].flow = value
        });
    }
}

/// The first and the last name of the records before, which may not be had again.
fn earlier<T>(before: &[T], name: fn(&T) -> NameField) -> Vec<(NameField, u8)> {
    let ends = before.first().into_iter().chain(before.last());
    ends.map(|it| (name(it), 7)).collect()
}

/// Line and zone, where so many zones are.
fn places(last: u8) -> [((u8, u8), u8); 11] {
    [
        ((0, 0), 0),
        ((0, last), 0),
        ((0, 255), 0),
        ((1, 0), 8),
        ((2, 0), 8),
        ((255, 0), 8),
        ((1, 1), 0),
        ((128, last), 0),
        ((255, 1), 0),
        ((1, last + 1), 8),
        ((1, 255), 8),
    ]
}
