//! Inputs made for a landmark, with what document 01 says of them.

mod greatest;
pub mod lake;
pub mod lake_accuracy;
mod lake_rows;
mod parts;
mod rounding;
mod wheels;

use second::draft;
use second::layout::{Kind, LOADS, MOST_ENTITLEMENTS, MOST_UNITS, MOST_ZONES};

use crate::chance::Chance;
use crate::crafted::one_bucket;
use crate::interval::{Interval, Scale, Sizes, drawn};
use crate::questions::settle::check::records;
use crate::questions::settle::{Expected, Input};

pub use greatest::{LONGEST_REACHED, LONGEST_WITHOUT_PATHS};

pub type Directed = (Input, Vec<Expected>);

pub fn sheet_s() -> Input {
    Input::of("sheet S", draft::sheet_s().concat(), draft::list_s())
}

pub fn sheet_s_with_paths() -> Input {
    let sheet = draft::sheet_s_with_paths().concat();
    Input::of("sheet S with paths", sheet, draft::list_s())
}

/// All of them but the sweeps.
pub fn all(seed: u64) -> Vec<Directed> {
    let chance = &mut Chance::of(seed, u64::MAX - 2);
    let mut all = kind_bytes();
    all.extend(zone_numbers(chance));
    all.extend(last_zone(chance));
    all.extend(sums(chance));
    all.extend(greatest::all(chance));
    all.extend(rounding::all(chance));
    all.extend(buckets(chance));
    all.extend(parts::all(chance));
    all.extend(wheels::all(chance));
    all.extend(lake::all(chance));
    all.extend(lake_accuracy::all(chance));
    all.extend(lake_rows::all(chance));
    all
}

/// With a list of this entitlement.
fn with_entitlement(origin: &str, interval: &Interval, value: i32) -> Input {
    let list = draft::entitlement(interval.head.name, value);
    Input::of(origin, interval.records().concat(), list)
}

fn expecting(origin: &str, interval: &Interval, refusal: u8) -> Directed {
    let input = with_entitlement(origin, interval, 0);
    (input, vec![Expected::Refusal(refusal)])
}

/// Every beginning of an accepted sheet is refused: 1 where nothing is left, 3
/// within a record, else 12 before the first unit, 13 behind it and 28 behind the first
/// path. Between factors and paths it is a sheet without paths.
pub fn truncations(input: &Input) -> impl Iterator<Item = (Input, [Expected; 2])> + '_ {
    let mut begin = 0;
    let mut before = None;
    let cuts = records(&input.sheet).into_iter().flat_map(move |record| {
        let whole = match before.replace(record[0]) {
            None => 1,
            Some(kind) if kind < Kind::Unit as u8 => 12,
            Some(kind) if kind > Kind::Factor as u8 => 28,
            Some(_) if record[0] > Kind::Factor as u8 => 0,
            Some(_) => 13,
        };
        let place = begin;
        begin += record.len();
        (place..begin).map(move |length| (length, place, if length == place { whole } else { 3 }))
    });
    cuts.map(|(length, place, row)| {
        let mut cut = input.clone();
        cut.sheet.truncate(length);
        cut.origin = format!("{}, the first {length} bytes", input.origin);
        match row {
            0 => (cut, [Expected::Read, Expected::Place(0)]),
            _ => (cut, [Expected::Refusal(row), Expected::Place(place)]),
        }
    })
}

/// Every kind byte on the first record, and every unknown one on a later record.
fn kind_bytes() -> Vec<Directed> {
    let mut all = Vec::new();
    let sound = sheet_s();
    let zone = 1 + Kind::Head.body();
    for byte in 0..=255 {
        for (place, row) in [(0, 1), (zone, 2)] {
            let known = Kind::of(byte).is_some();
            if byte == Kind::Head as u8 || (known && place > 0) {
                continue;
            }
            let mut input = sound.clone();
            input.origin = format!("kind byte {byte} at {place}");
            input.sheet[place] = byte;
            all.push((input, vec![Expected::Refusal(row), Expected::Place(place)]));
        }
    }
    all
}

/// A unit in, and a line into, the last zone and the one behind it.
fn zone_numbers(chance: &mut Chance) -> Vec<Directed> {
    let mut all = Vec::new();
    for zones in 1..=MOST_ZONES {
        let sizes = Sizes {
            zones,
            units: 2,
            points: 1,
            pars: 0,
        };
        let mut sound = drawn(chance, sizes, Scale::TINY);
        (sound.points[0].import, sound.points[0].export) = (0, 0);
        for (number, refusal) in [(zones as u8, 0), (zones as u8 + 1, 8)] {
            let mut unit = sound.clone();
            unit.units[1].zone = number;
            all.push(expecting("a unit's zone", &unit, refusal));
            let mut line = sound.clone();
            line.points[0].place = number;
            all.push(expecting("a line's zone", &line, refusal));
        }
    }
    all
}

/// Rows 17 and 19 met by one of 32 zones, the last among them, by one tenth.
fn last_zone(chance: &mut Chance) -> Vec<Directed> {
    let mut all = Vec::new();
    for number in 1..=MOST_ZONES as u8 {
        let sizes = Sizes {
            zones: MOST_ZONES,
            units: MOST_ZONES,
            points: 1,
            pars: 0,
        };
        let mut sound = drawn(chance, sizes, Scale::TINY);
        for (zone, unit) in sound.zones.iter_mut().zip(&mut sound.units) {
            (zone.load, zone.losses, unit.output) = (7, 2, 9);
        }
        for (k, unit) in (1..).zip(&mut sound.units) {
            unit.zone = k;
        }
        let point = &mut sound.points[0];
        (point.place, point.import, point.export) = (number, 9, 9);
        all.push(expecting("a zone's last tenth", &sound, 0));
        let mut short = sound.clone();
        short.points[0].import = 10;
        all.push(expecting("a zone load below zero", &short, 17));
        let mut short = sound;
        short.points[0].export = 10;
        all.push(expecting("a zone generation below zero", &short, 19));
    }
    all
}

/// Sums and totals on and beyond the edges of rows 16, 18 and 21.
fn sums(chance: &mut Chance) -> Vec<Directed> {
    let most = *LOADS.end() as u32;
    let sizes = Sizes {
        zones: 2,
        units: 2,
        points: 1,
        pars: 0,
    };
    let mut sound = drawn(chance, sizes, Scale::TINY);
    sound.flowgate.clear();
    (sound.points[0].place, sound.points[0].import) = (0, 0);
    sound.points[0].export = 0;
    (sound.zones[0].load, sound.zones[0].losses) = (most - 5, 2);
    (sound.zones[1].load, sound.zones[1].losses) = (1, 2);
    (sound.units[0].output, sound.units[1].output) = (most - 1, 1);
    let mut all = vec![expecting("sums of 2,000,000", &sound, 0)];
    let altered = |origin: &str, refusal, alter: &dyn Fn(&mut Interval)| {
        let mut interval = sound.clone();
        alter(&mut interval);
        expecting(origin, &interval, refusal)
    };
    all.push(altered("loads of 2,000,001", 16, &|it| {
        it.zones[1].losses = 3
    }));
    all.push(altered("outputs of 2,000,001", 16, &|it| {
        it.units[1].output = 2
    }));
    let small = |it: &mut Interval, import, export| {
        (it.zones[0].load, it.units[0].output) = (7, 9);
        (it.points[0].import, it.points[0].export) = (import, export);
    };
    // Loads are 12 now and outputs 10.
    all.push(altered("final load 1", 0, &|it| small(it, 11, 10)));
    all.push(altered("final load 0", 18, &|it| small(it, 12, 10)));
    all.push(altered("final generation -1", 21, &|it| small(it, 11, 11)));
    all
}

/// Names that share a bucket of the hash, in one long chain, with and without a repeat.
fn buckets(chance: &mut Chance) -> Vec<Directed> {
    let names = one_bucket(chance, MOST_ENTITLEMENTS);
    let sizes = Sizes {
        zones: 2,
        units: MOST_UNITS,
        points: 2,
        pars: 2,
    };
    let mut sound = drawn(chance, sizes, Scale::TINY);
    sound.rename(|k| names[k]);
    sound.head.name = names[1];
    let entry = |k: usize| draft::entitlement(names[k], k as i32);
    let entries: Vec<Vec<u8>> = (0..names.len()).map(entry).collect();
    let sheet = sound.records().concat();
    let listed = |origin: &str, entries: &[Vec<u8>], refusal| {
        let input = Input::of(origin, sheet.clone(), entries.concat());
        (input, vec![Expected::Refusal(refusal)])
    };
    let mut all = vec![listed("entries in one bucket", &entries, 0)];
    let last = entries.len() - 1;
    let mut without = entries.clone();
    without.remove(1);
    all.push(listed("no entry in its bucket", &without, 15));
    for (one, other) in [(0, 1), (0, last), (last / 2, last), (last - 1, last)] {
        let mut repeated = entries.clone();
        repeated[other] = entries[one].clone();
        all.push(listed("a repeat in one bucket", &repeated, 14));
    }
    let last = sound.units.len() - 1;
    for (one, other) in [(0, 1), (0, last), (last / 2, last), (last - 1, last)] {
        let mut repeated = sound.clone();
        repeated.units[other].name = repeated.units[one].name;
        all.push(expecting("a repeat in one bucket", &repeated, 7));
    }
    all
}
