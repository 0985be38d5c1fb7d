//! Sheets on which no figure of loads and generation equals another, and each row of the
//! loads beside each of the generation.

use crate::chance::Chance;
use crate::interval::{Interval, Scale, Sizes, drawn};
use crate::questions::settle::directed::{Directed, expecting};

/// How many are made for each landmark.
const ROUNDS: usize = 40;

pub fn all(chance: &mut Chance) -> Vec<Directed> {
    let mut all = Vec::new();
    for _ in 0..ROUNDS {
        let sound = all_differ(chance);
        all.push(expecting("no figure equals another", &sound, 0));
        all.push(altered(chance, &sound, &[18]));
        for of_loads in [17, 18] {
            for of_generation in [19, 20, 21] {
                all.push(altered(chance, &sound, &[of_loads, of_generation]));
            }
        }
        all.push(loads_above_the_sum(&sound));
        all.push(outputs_above_the_sum(&sound));
        all.push(outputs_all_exported(&sound));
    }
    all
}

/// Every zone has losses, a unit and a line; lines and two proxies import and export.
pub fn all_differ(chance: &mut Chance) -> Interval {
    let zones = 2 + chance.below(4);
    let sizes = Sizes {
        zones,
        units: zones + chance.below(4),
        points: zones + 2,
        pars: 1 + chance.below(3),
    };
    let scale = Scale {
        power: 100,
        factor: 3_000,
    };
    let mut interval = drawn(chance, sizes, scale);
    for zone in &mut interval.zones {
        zone.load = chance.within(400..=900) as u32;
        zone.losses = chance.within(1..=90) as u32;
    }
    for (k, unit) in interval.units.iter_mut().enumerate() {
        unit.zone = (k % zones) as u8 + 1;
        unit.output = chance.within(400..=900) as u32;
    }
    for (k, point) in interval.points.iter_mut().enumerate() {
        point.place = if k < zones { k as u8 + 1 } else { 0 };
        point.import = chance.within(1..=100) as u32;
        point.export = chance.within(1..=100) as u32;
    }
    interval.pars[0].class = 1;
    interval.flowgate.pars[0] = chance.within(1_000..=10_000) as i16;
    interval
}

fn total_load(interval: &Interval) -> u32 {
    interval.zones.iter().map(|it| it.load + it.losses).sum()
}

fn outputs(interval: &Interval) -> u32 {
    interval.units.iter().map(|it| it.output).sum()
}

fn outputs_in(interval: &Interval, zone: u8) -> u32 {
    let units = interval.units.iter().filter(|it| it.zone == zone);
    units.map(|it| it.output).sum()
}

/// Meets these rows; the first is expected.
fn altered(chance: &mut Chance, sound: &Interval, rows: &[u8]) -> Directed {
    let mut interval = sound.clone();
    for row in rows {
        meet(chance, &mut interval, *row);
    }
    let origin = format!("no figure equals another, rows {rows:?}");
    expecting(&origin, &interval, rows[0])
}

/// The zone's line and the last proxy are those of `all_differ`.
fn meet(chance: &mut Chance, interval: &mut Interval, row: u8) {
    let zone = chance.below(interval.zones.len());
    let proxy = interval.points.len() - 1;
    let more = chance.pick(&[1, 2, 50]);
    match row {
        17 => {
            let load = interval.zones[zone].load + interval.zones[zone].losses;
            interval.points[zone].import = load + more;
        }
        18 => {
            let others = interval.points[..proxy].iter().map(|it| it.import);
            let left = total_load(interval) - others.sum::<u32>();
            interval.points[proxy].import = left + more - 1;
        }
        19 => interval.points[zone].export = outputs_in(interval, zone as u8 + 1) + more,
        20 => {
            interval.units.iter_mut().for_each(|it| it.output = 0);
            interval.points.iter_mut().for_each(|it| it.export = 0);
        }
        _ => interval.points[proxy].export = outputs(interval) + more,
    }
}

/// Row 16 by one tenth; the lines' imports bring net load below the limit.
fn loads_above_the_sum(sound: &Interval) -> Directed {
    let mut interval = sound.clone();
    interval.zones[0].load += 2_000_001 - total_load(sound);
    expecting("total load above, net load below 2,000,000", &interval, 16)
}

/// Row 16 by one tenth; the lines' exports bring net generation below the limit.
fn outputs_above_the_sum(sound: &Interval) -> Directed {
    let mut interval = sound.clone();
    interval.units[0].output += 2_000_001 - outputs(sound);
    expecting("G above, net generation below 2,000,000", &interval, 16)
}

/// Row 20: each zone's line exports what its units put out.
fn outputs_all_exported(sound: &Interval) -> Directed {
    let mut interval = sound.clone();
    for zone in 0..interval.zones.len() {
        interval.points[zone].export = outputs_in(sound, zone as u8 + 1);
    }
    expecting("G above zero, net generation zero", &interval, 20)
}
