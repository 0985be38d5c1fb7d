//! Intervals drawn by chance, field by field, so that any of them can be altered
//! before the bytes are made.

use std::collections::HashSet;

use second::draft;
use second::layout::{
    FACTORS, LAKE_FLOWS, LOADS, MOST_PARS, MOST_PATHS, MOST_POINTS, MOST_UNITS, MOST_ZONES, PRICES,
    SCHEDULES,
};
use second::names::NameField;

use crate::chance::Chance;

#[derive(Clone)]
pub struct Head {
    pub name: NameField,
    pub monitoring: u8,
    pub seconds: u16,
    pub prices: [u32; 2],
}

#[derive(Clone)]
pub struct Zone {
    pub name: NameField,
    pub load: u32,
    pub losses: u32,
}

#[derive(Clone)]
pub struct Unit {
    pub name: NameField,
    pub zone: u8,
    pub output: u32,
}

#[derive(Clone)]
pub struct Point {
    pub name: NameField,
    pub class: u8,
    pub place: u8,
    pub import: u32,
    pub export: u32,
    pub wheel_in: u32,
    pub wheel_out: u32,
}

impl Point {
    /// In their order on a sheet.
    pub fn schedules(&self) -> [u32; 4] {
        [self.import, self.export, self.wheel_in, self.wheel_out]
    }

    pub fn schedules_mut(&mut self) -> [&mut u32; 4] {
        let Point {
            import,
            export,
            wheel_in,
            wheel_out,
            ..
        } = self;
        [import, export, wheel_in, wheel_out]
    }
}

#[derive(Clone)]
pub struct Par {
    pub name: NameField,
    pub class: u8,
    pub actual: i32,
    pub target: i32,
}

#[derive(Clone)]
pub struct Factor {
    pub target: u8,
    pub subject: u8,
    pub index: u16,
    pub value: i16,
}

#[derive(Clone)]
pub struct Path {
    pub name: NameField,
    pub flow: i32,
    pub factor: i16,
}

#[derive(Clone)]
pub struct Circulation {
    pub flow: i32,
}

/// A record of a sheet, field by field, sound or faulty.
#[derive(Clone)]
pub enum Record {
    Head(Head),
    Zone(Zone),
    Unit(Unit),
    Point(Point),
    Par(Par),
    Factor(Factor),
    Path(Path),
    Circulation(Circulation),
}

impl Record {
    pub fn bytes(&self) -> Vec<u8> {
        match self {
            Record::Head(it) => draft::head(it.name, it.monitoring, it.seconds, it.prices),
            Record::Zone(it) => draft::zone(it.name, it.load, it.losses),
            Record::Unit(it) => draft::unit(it.name, it.zone, it.output),
            Record::Point(it) => draft::point(it.name, it.class, it.place, it.schedules()),
            Record::Par(it) => draft::par(it.name, it.class, it.actual, it.target),
            Record::Factor(it) => draft::factor(it.target, it.subject, it.index, it.value),
            Record::Path(it) => draft::path(it.name, it.flow, it.factor),
            Record::Circulation(it) => draft::circulation(it.flow),
        }
    }

    pub fn name_mut(&mut self) -> Option<&mut NameField> {
        match self {
            Record::Head(it) => Some(&mut it.name),
            Record::Zone(it) => Some(&mut it.name),
            Record::Unit(it) => Some(&mut it.name),
            Record::Point(it) => Some(&mut it.name),
            Record::Par(it) => Some(&mut it.name),
            Record::Path(it) => Some(&mut it.name),
            Record::Factor(_) | Record::Circulation(_) => None,
        }
    }
}

/// The factors of one target.
#[derive(Clone, Default)]
pub struct Factors {
    pub units: Vec<i16>,
    pub zones: Vec<i16>,
    pub points: Vec<i16>,
    pub pars: Vec<i16>,
}

impl Factors {
    fn by_subject(&self) -> [&Vec<i16>; 4] {
        [&self.units, &self.zones, &self.points, &self.pars]
    }

    pub fn by_subject_mut(&mut self) -> [&mut Vec<i16>; 4] {
        let Factors {
            units,
            zones,
            points,
            pars,
        } = self;
        [units, zones, points, pars]
    }

    /// Sets all factors to zero.
    pub fn clear(&mut self) {
        for values in self.by_subject_mut() {
            values.fill(0);
        }
    }
}

#[derive(Clone)]
pub struct Interval {
    pub head: Head,
    pub zones: Vec<Zone>,
    pub units: Vec<Unit>,
    pub points: Vec<Point>,
    pub pars: Vec<Par>,
    pub flowgate: Factors,
    pub on_pars: Vec<Factors>,
    pub paths: Vec<Path>,
    pub circulations: Vec<Circulation>,
}

impl Interval {
    pub fn content(&self) -> Vec<Record> {
        let mut records = vec![Record::Head(self.head.clone())];
        records.extend(self.zones.iter().cloned().map(Record::Zone));
        records.extend(self.units.iter().cloned().map(Record::Unit));
        records.extend(self.points.iter().cloned().map(Record::Point));
        records.extend(self.pars.iter().cloned().map(Record::Par));
        for (target, factors) in (0..).zip([&self.flowgate].into_iter().chain(&self.on_pars)) {
            for (subject, values) in (1..).zip(factors.by_subject()) {
                for (index, value) in (1..).zip(values) {
                    records.push(Record::Factor(Factor {
                        target,
                        subject,
                        index,
                        value: *value,
                    }));
                }
            }
        }
        records.extend(self.paths.iter().cloned().map(Record::Path));
        let circulations = self.circulations.iter().cloned();
        records.extend(circulations.map(Record::Circulation));
        records
    }

    pub fn records(&self) -> Vec<Vec<u8>> {
        self.content().iter().map(Record::bytes).collect()
    }

    /// Adds a unit without output and with factors of zero; its index.
    pub fn add_unit(&mut self, name: NameField, zone: u8) -> usize {
        self.units.push(Unit {
            name,
            zone,
            output: 0,
        });
        self.flowgate.units.push(0);
        for factors in &mut self.on_pars {
            factors.units.push(0);
        }
        self.units.len() - 1
    }

    /// Adds a proxy without schedules and with factors of zero; its index.
    pub fn add_point(&mut self, name: NameField) -> usize {
        self.points.push(Point {
            name,
            class: 1,
            place: 0,
            import: 0,
            export: 0,
            wheel_in: 0,
            wheel_out: 0,
        });
        self.flowgate.points.push(0);
        for factors in &mut self.on_pars {
            factors.points.push(0);
        }
        self.points.len() - 1
    }

    /// Adds a PAR on its target and with factors of zero; its index.
    pub fn add_par(&mut self, name: NameField) -> usize {
        self.pars.push(Par {
            name,
            class: 1,
            actual: 0,
            target: 0,
        });
        self.flowgate.pars.push(0);
        self.on_pars.push(Factors {
            units: vec![0; self.units.len()],
            zones: vec![0; self.zones.len()],
            points: vec![0; self.points.len()],
            pars: Vec::new(),
        });
        self.pars.len() - 1
    }

    /// Gives the k-th zone, unit, point, PAR and path the k-th name, from 0.
    pub fn rename(&mut self, name: impl Fn(usize) -> NameField) {
        let zones = self.zones.iter_mut().map(|zone| &mut zone.name);
        zones.enumerate().for_each(|(k, to)| *to = name(k));
        let units = self.units.iter_mut().map(|unit| &mut unit.name);
        units.enumerate().for_each(|(k, to)| *to = name(k));
        let points = self.points.iter_mut().map(|point| &mut point.name);
        points.enumerate().for_each(|(k, to)| *to = name(k));
        let pars = self.pars.iter_mut().map(|par| &mut par.name);
        pars.enumerate().for_each(|(k, to)| *to = name(k));
        let paths = self.paths.iter_mut().map(|path| &mut path.name);
        paths.enumerate().for_each(|(k, to)| *to = name(k));
    }

    /// Sets all factors of units and zones to zero, so that no flow is rounded.
    pub fn flatten(&mut self) {
        for factors in [&mut self.flowgate].into_iter().chain(&mut self.on_pars) {
            factors.units.fill(0);
            factors.zones.fill(0);
        }
    }
}

#[derive(Clone, Copy)]
pub struct Sizes {
    pub zones: usize,
    pub units: usize,
    pub points: usize,
    pub pars: usize,
}

impl Sizes {
    pub const LONGEST: Sizes = Sizes {
        zones: MOST_ZONES,
        units: MOST_UNITS,
        points: MOST_POINTS,
        pars: MOST_PARS,
    };

    /// Mostly small ones, now and then up to the longest.
    pub fn drawn(chance: &mut Chance) -> Self {
        let reach = chance.pick(&[2, 3, 4, 4, 8, 8, 16, 32]);
        let mut upto = |most: usize| chance.below(most.min(reach) + 1);
        let (zones, units) = (upto(MOST_ZONES - 1), upto(MOST_UNITS - 1));
        let (points, pars) = (upto(MOST_POINTS), upto(MOST_PARS));
        let units = if reach == 32 { units * 8 } else { units };
        Sizes {
            zones: zones + 1,
            units: units.min(MOST_UNITS - 1) + 1,
            points,
            pars,
        }
    }
}

/// The largest sum of powers and the largest factor that are drawn.
#[derive(Clone, Copy)]
pub struct Scale {
    pub power: i64,
    pub factor: i64,
}

impl Scale {
    pub const TINY: Scale = Scale {
        power: 12,
        factor: 3,
    };
    pub const FULL: Scale = Scale {
        power: *LOADS.end(),
        factor: *FACTORS.end(),
    };

    pub fn drawn(chance: &mut Chance) -> Self {
        Scale {
            power: chance.pick(&[12, 200, 5_000, 100_000, *LOADS.end()]),
            factor: chance.pick(&[1, 3, 50, 1_000, *FACTORS.end()]),
        }
    }
}

/// Something from 0 to the largest, with a liking for both ends.
pub fn value(chance: &mut Chance, largest: i64) -> i64 {
    match chance.below(12) {
        0 => 0,
        1 => largest,
        2 => (largest - 1).max(0),
        3 => largest.min(1),
        4 => largest / 2,
        _ => chance.within(0..=largest),
    }
}

/// Something within ± the largest, with a liking for both ends and zero.
pub fn signed_value(chance: &mut Chance, largest: i64) -> i64 {
    let value = value(chance, largest);
    if chance.one_in(2) { -value } else { value }
}

/// So many names that differ, in one of several styles.
pub fn names(chance: &mut Chance, count: usize) -> Vec<NameField> {
    let style = chance.below(5);
    let mut seen = HashSet::new();
    let mut names = Vec::with_capacity(count);
    while names.len() < count {
        let name = match style {
            0 => draft::name(format!("N{}", names.len() + 1).as_bytes()),
            1 => draft::name(format!("{:05}", names.len() + 1).as_bytes()),
            2 => bytes_name(chance, 14, 16),
            3 => bytes_name(chance, 0, 4),
            _ => bytes_name(chance, 0, 16),
        };
        if seen.insert(name) {
            names.push(name);
        }
    }
    match chance.below(4) {
        0 => names.sort(),
        1 => chance.shuffle(&mut names),
        _ => {}
    }
    names
}

/// A name whose first bytes are alike and whose others are any non-zero ones.
fn bytes_name(chance: &mut Chance, alike: usize, longest: usize) -> NameField {
    let shortest = alike.max(2) + 1;
    let length = shortest + chance.below(longest + 1 - shortest);
    let mut name = [0; 16];
    for (k, byte) in name[..length].iter_mut().enumerate() {
        *byte = if k < alike {
            b'x'
        } else {
            1 + chance.below(255) as u8
        };
    }
    name
}

/// Splits a power into parts: evenly, by greed, or all on one.
fn split(chance: &mut Chance, total: i64, count: usize) -> Vec<i64> {
    let mut parts = vec![0; count];
    let mut rest = total;
    let even = !chance.one_in(4);
    for (k, part) in parts.iter_mut().enumerate() {
        let reach = if even {
            (2 * rest / (count - k) as i64).min(rest)
        } else {
            rest
        };
        *part = value(chance, reach);
        rest -= *part;
    }
    let last = chance.below(count);
    parts[last] += rest;
    chance.shuffle(&mut parts);
    parts
}

/// Draws an interval that passes rows 1 to 21.
pub fn drawn(chance: &mut Chance, sizes: Sizes, scale: Scale) -> Interval {
    let mut interval = frame(chance, sizes);
    let loads = 1 + value(chance, scale.power - 1);
    for (zone, load) in interval
        .zones
        .iter_mut()
        .zip(split(chance, loads, sizes.zones))
    {
        let losses = value(chance, load) / chance.pick(&[1, 8, 100]);
        (zone.load, zone.losses) = ((load - losses) as u32, losses as u32);
    }
    let outputs = 1 + value(chance, scale.power - 1);
    for (unit, output) in interval
        .units
        .iter_mut()
        .zip(split(chance, outputs, sizes.units))
    {
        unit.output = output as u32;
        unit.zone = 1 + chance.below(sizes.zones) as u8;
    }
    schedule(chance, &mut interval);
    let reach = scale.power.min(*SCHEDULES.end());
    draw_wheels(chance, &mut interval, reach);
    for par in &mut interval.pars {
        par.actual = signed_value(chance, reach) as i32;
        par.target = signed_value(chance, reach) as i32;
    }
    draw_factors(chance, &mut interval, scale.factor);
    interval
}

/// Names, codes and prices; powers and factors are zero.
fn frame(chance: &mut Chance, sizes: Sizes) -> Interval {
    let named = |chance: &mut Chance, count| names(chance, count).into_iter();
    let zones = named(chance, sizes.zones).map(|name| Zone {
        name,
        load: 0,
        losses: 0,
    });
    let zones = zones.collect();
    let units = named(chance, sizes.units).map(|name| Unit {
        name,
        zone: 1,
        output: 0,
    });
    let mut interval = Interval {
        head: head(chance),
        zones,
        units: units.collect(),
        points: Vec::new(),
        pars: Vec::new(),
        flowgate: Factors::default(),
        on_pars: Vec::new(),
        paths: Vec::new(),
        circulations: Vec::new(),
    };
    interval.flowgate.units = vec![0; sizes.units];
    interval.flowgate.zones = vec![0; sizes.zones];
    for name in named(chance, sizes.points) {
        let point = interval.add_point(name);
        interval.points[point].class = chance.pick(&[1, 2]);
    }
    for name in named(chance, sizes.pars) {
        let par = interval.add_par(name);
        interval.pars[par].class = chance.pick(&[1, 2]);
    }
    interval
}

fn head(chance: &mut Chance) -> Head {
    Head {
        name: names(chance, 1)[0],
        monitoring: chance.pick(&[1, 2]),
        seconds: chance.pick(&[1, 300, 300, 600, 899, 900]),
        prices: [price(chance), price(chance)],
    }
}

/// 6000 with 300 s and 2000 with 900 s make ties of odd differences.
fn price(chance: &mut Chance) -> u32 {
    let dearest = *PRICES.end();
    let drawn = value(chance, dearest);
    chance.pick(&[6000, 2000, dearest, 1, drawn, drawn]) as u32
}

/// Takes one off the largest.
fn hold_back(powers: &mut [i64]) {
    if let Some(power) = powers.iter_mut().max() {
        *power -= 1;
    }
}

/// Draws imports and exports that leave loads and generation sound.
fn schedule(chance: &mut Chance, interval: &mut Interval) {
    let loads = interval.zones.iter().map(|z| i64::from(z.load + z.losses));
    let mut loads: Vec<i64> = loads.collect();
    let mut generation = vec![0; loads.len()];
    for unit in &interval.units {
        generation[usize::from(unit.zone) - 1] += i64::from(unit.output);
    }
    // One tenth of a MW stays, since final load and net generation must be above zero.
    hold_back(&mut loads);
    hold_back(&mut generation);
    for point in &mut interval.points {
        if chance.one_in(2) {
            continue;
        }
        let zone = chance.below(loads.len());
        point.place = zone as u8 + 1;
        point.import = take(chance, &mut loads[zone]);
        point.export = take(chance, &mut generation[zone]);
    }
    // Final generation may be zero.
    let (mut load, mut generation) = (loads.iter().sum(), generation.iter().sum::<i64>() + 1);
    for point in interval.points.iter_mut().filter(|point| point.place == 0) {
        point.import = take(chance, &mut load);
        point.export = take(chance, &mut generation);
    }
}

fn take(chance: &mut Chance, rest: &mut i64) -> u32 {
    let reach = (*rest / chance.pick(&[1, 3, 10])).clamp(0, *SCHEDULES.end());
    let taken = value(chance, reach);
    *rest -= taken;
    taken as u32
}

/// Draws wheels for two points of three, in, out or both. No load and no output bounds
/// them.
fn draw_wheels(chance: &mut Chance, interval: &mut Interval, largest: i64) {
    for point in &mut interval.points {
        let wheels = [0; 2].map(|_| value(chance, largest) as u32);
        let [wheel_in, wheel_out] = wheels;
        let some = [
            wheels,
            wheels,
            [wheel_in, 0],
            [0, wheel_out],
            [0; 2],
            [0; 2],
        ];
        [point.wheel_in, point.wheel_out] = chance.pick(&some);
    }
}

fn draw_factors(chance: &mut Chance, interval: &mut Interval, largest: i64) {
    let Interval {
        flowgate, on_pars, ..
    } = interval;
    for factors in [flowgate].into_iter().chain(on_pars) {
        for values in factors.by_subject_mut() {
            for value in values {
                *value = signed_value(chance, largest) as i16;
            }
        }
    }
    // Halves of odd flows make ties of what PARs carry.
    for value in &mut interval.flowgate.pars {
        if chance.one_in(4) {
            *value = chance.pick(&[5000, -5000, 2500, 10_000, -10_000]);
        }
    }
}

/// Adds four paths and a circulation. A factor of zero takes a path out of the impact,
/// and an odd circulation with factors of an odd sum makes a half of it.
pub fn add_lake(chance: &mut Chance, interval: &mut Interval, scale: Scale) {
    let reach = scale.power.min(*LAKE_FLOWS.end());
    let names = names(chance, MOST_PATHS);
    let paths = names.into_iter().map(|name| Path {
        name,
        flow: signed_value(chance, reach) as i32,
        factor: signed_value(chance, scale.factor) as i16,
    });
    interval.paths = paths.collect();
    let flow = signed_value(chance, reach) as i32;
    interval.circulations = vec![Circulation { flow }];
}

/// The same for one interval in so many.
pub fn add_lake_to_one_in(count: usize, chance: &mut Chance, it: &mut Interval, scale: Scale) {
    if chance.one_in(count) {
        add_lake(chance, it, scale);
    }
}

#[cfg(test)]
mod tests {
    use super::*;

    #[test]
    fn drawn_intervals_pass_the_reader() {
        for input in 0..300 {
            let chance = &mut Chance::of(3, input);
            let (sizes, scale) = (Sizes::drawn(chance), Scale::drawn(chance));
            let mut interval = drawn(chance, sizes, scale);
            add_lake_to_one_in(2, chance, &mut interval, scale);
            let sheet = interval.records().concat();
            assert!(second::reader::read(&sheet).is_ok());
        }
    }

    #[test]
    fn the_longest_sheet_has_its_length() {
        let chance = &mut Chance::of(4, 0);
        let mut longest = drawn(chance, Sizes::LONGEST, Scale::FULL);
        assert_eq!(longest.records().concat().len(), 28_004);
        add_lake(chance, &mut longest, Scale::FULL);
        assert_eq!(longest.records().concat().len(), 28_101);
    }
}
