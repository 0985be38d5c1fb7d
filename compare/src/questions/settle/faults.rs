//! Inputs made to meet chosen rows anywhere: each refusal by itself, and in pairs.

use std::ops::{Range, RangeInclusive};

use second::layout::{
    ENTITLEMENTS, Kind, LOADS, MOST_ENTITLEMENTS, MOST_PATHS, NAME, PAR_FLOWS, PRICES, SCHEDULES,
};
use second::names::NameField;
use second::{Refusal, draft};

use crate::chance::Chance;
use crate::interval::{Interval, Record, Scale, add_lake, names};
use crate::questions::settle::inputs::{list_with, sound};
use crate::questions::settle::{Input, Room};

fn any_row(chance: &mut Chance) -> u8 {
    let rows: Vec<u8> = Refusal::of_statement().collect();
    chance.pick(&rows)
}

/// An input that is made to meet one row.
pub fn alone(chance: &mut Chance) -> Input {
    let row = any_row(chance);
    planted(chance, &[row])
}

/// An input that is made to meet two rows.
pub fn pair(chance: &mut Chance) -> Input {
    let rows = [any_row(chance), any_row(chance)];
    planted(chance, &rows)
}

/// Plants the faults from the fields outwards: fields, records, bytes.
pub fn planted(chance: &mut Chance, rows: &[u8]) -> Input {
    let mut interval = sound(chance);
    if rows.contains(&28) {
        add_lake(chance, &mut interval, Scale::TINY);
    }
    for row in rows {
        match row {
            6..=9 | 11 => in_field(chance, &mut interval, *row),
            16..=22 => in_balance(chance, &mut interval, *row),
            _ => {}
        }
    }
    let mut records = interval.records();
    // Later rows first, since they cut away what the earlier ones damage.
    for row in [13, 12, 28, 10, 5, 4, 2] {
        if rows.contains(&row) {
            in_records(chance, &interval, &mut records, row);
        }
    }
    let mut sheet = records.concat();
    if rows.contains(&3) {
        let last = records.last().map_or(1, Vec::len);
        sheet.truncate((sheet.len() + 1 + chance.below(last - 1)).saturating_sub(last));
    }
    if rows.contains(&1) {
        match chance.below(3) {
            0 => sheet.clear(),
            _ => sheet[0] = chance.pick(&[0, 2, 3, 4, 5, 6, 7, 8, 255]),
        }
    }
    let list = list(chance, interval.head.name, rows);
    let mut input = Input::of(&format!("made to meet {rows:?}"), sheet, list);
    if rows.contains(&23) {
        input.room = Room::Listing(-1 - chance.below(300) as i64);
    }
    input
}

pub fn bad_name(chance: &mut Chance) -> NameField {
    let mut name = [b'n'; 16];
    match chance.below(3) {
        0 => name = [0; 16],
        1 => name[0] = 0,
        _ => name[1 + chance.below(14)] = 0,
    }
    name
}

/// Rows 6 to 9 and 11: a field of one record.
fn in_field(chance: &mut Chance, interval: &mut Interval, row: u8) {
    match row {
        6 => {
            let name = bad_name(chance);
            *any_name(chance, interval) = name;
        }
        7 => doubled_name(chance, interval),
        8 => bad_code(chance, interval),
        9 => bad_number(chance, interval),
        _ if !interval.paths.is_empty() && chance.one_in(3) => {
            let at = chance.below(interval.paths.len());
            interval.paths[at].factor = beyond_factors(chance);
        }
        _ => {
            let targets = 1 + interval.on_pars.len();
            let target = match chance.below(targets) {
                0 => &mut interval.flowgate,
                par => &mut interval.on_pars[par - 1],
            };
            let units = &mut target.units;
            let at = chance.below(units.len());
            units[at] = beyond_factors(chance);
        }
    }
}

fn any_name<'a>(chance: &mut Chance, interval: &'a mut Interval) -> &'a mut NameField {
    let mut names: Vec<&mut NameField> = vec![&mut interval.head.name];
    names.extend(interval.zones.iter_mut().map(|zone| &mut zone.name));
    names.extend(interval.units.iter_mut().map(|unit| &mut unit.name));
    names.extend(interval.points.iter_mut().map(|point| &mut point.name));
    names.extend(interval.pars.iter_mut().map(|par| &mut par.name));
    names.extend(interval.paths.iter_mut().map(|path| &mut path.name));
    let at = chance.below(names.len());
    names.swap_remove(at)
}

fn doubled_name(chance: &mut Chance, interval: &mut Interval) {
    match chance.below(5) {
        4 if !interval.paths.is_empty() => {
            let at = chance.below(interval.paths.len() - 1);
            interval.paths[at + 1].name = interval.paths[at].name;
        }
        0 if interval.zones.len() > 1 => {
            interval.zones[0].name = interval.zones[interval.zones.len() - 1].name;
        }
        1 if interval.points.len() > 1 => {
            let at = chance.below(interval.points.len() - 1);
            interval.points[at + 1].name = interval.points[at].name;
        }
        2 if interval.pars.len() > 1 => interval.pars[1].name = interval.pars[0].name,
        _ if interval.units.len() > 1 => {
            let at = chance.below(interval.units.len() - 1);
            interval.units[at].name = interval.units[at + 1].name;
        }
        _ => {
            interval.add_unit(interval.units[0].name, interval.units[0].zone);
        }
    }
}

fn bad_code(chance: &mut Chance, interval: &mut Interval) {
    let above = interval.zones.len() as u8 + 1;
    let unlisted = chance.pick(&[0, 3, 255]);
    let (points, pars) = (interval.points.len(), interval.pars.len());
    match chance.below(5) {
        0 => interval.head.monitoring = unlisted,
        1 if points > 0 => interval.points[chance.below(points)].class = unlisted,
        2 if points > 0 => interval.points[chance.below(points)].place = chance.pick(&[above, 255]),
        3 if pars > 0 => interval.pars[chance.below(pars)].class = unlisted,
        _ => {
            let at = chance.below(interval.units.len());
            interval.units[at].zone = chance.pick(&[0, above, 255]);
        }
    }
}

fn bad_number(chance: &mut Chance, interval: &mut Interval) {
    let beyond = beyond_par_flows(chance);
    let zone = chance.below(interval.zones.len());
    let unit = chance.below(interval.units.len());
    let points = interval.points.len();
    match chance.below(14) {
        0 => interval.head.seconds = chance.pick(&[0, 901, u16::MAX]),
        1 => interval.head.prices[0] = above(chance, &PRICES),
        2 => interval.head.prices[1] = above(chance, &PRICES),
        3 => interval.zones[zone].load = above(chance, &LOADS),
        4 => interval.zones[zone].losses = above(chance, &LOADS),
        number @ 5..=8 if points > 0 => {
            let point = &mut interval.points[chance.below(points)];
            *point.schedules_mut()[number - 5] = above(chance, &SCHEDULES);
        }
        9 if !interval.pars.is_empty() => interval.pars[0].actual = beyond,
        10 if !interval.pars.is_empty() => interval.pars[0].target = beyond,
        12 if !interval.paths.is_empty() => {
            interval.paths[chance.below(MOST_PATHS)].flow = beyond;
        }
        13 if !interval.circulations.is_empty() => interval.circulations[0].flow = beyond,
        _ => interval.units[unit].output = above(chance, &LOADS),
    }
}

/// Above an unsigned field's range.
pub fn above(chance: &mut Chance, range: &RangeInclusive<i64>) -> u32 {
    chance.pick(&[*range.end() as u32 + 1, 0x8000_0000, u32::MAX])
}

/// Beyond a PAR's flows, and those of the lake, which have the same range.
pub fn beyond_par_flows(chance: &mut Chance) -> i32 {
    let (least, most) = (*PAR_FLOWS.start() as i32, *PAR_FLOWS.end() as i32);
    chance.pick(&[most + 1, least - 1, i32::MIN, i32::MAX])
}

pub fn beyond_factors(chance: &mut Chance) -> i16 {
    chance.pick(&[10_001, -10_001, i16::MAX, i16::MIN])
}

/// A point to be made faulty, a new one where there is none.
fn some_point(chance: &mut Chance, interval: &mut Interval) -> usize {
    match interval.points.len() {
        0 => interval.add_point([b'f'; 16]),
        count => chance.below(count),
    }
}

fn clear_schedules(interval: &mut Interval) {
    for point in &mut interval.points {
        (point.import, point.export) = (0, 0);
    }
}

/// Rows 16 to 22: powers that do not fit each other.
fn in_balance(chance: &mut Chance, interval: &mut Interval, row: u8) {
    let point = match row {
        17..=19 | 21 => some_point(chance, interval),
        _ => 0,
    };
    match row {
        16 => too_much(chance, interval),
        17..=18 => in_loads(chance, interval, row, point),
        22 => beyond_the_limit(chance, interval),
        _ => in_generation(chance, interval, row, point),
    }
}

/// Row 16: a little more than 2,000,000 of loads with losses, or of outputs.
fn too_much(chance: &mut Chance, interval: &mut Interval) {
    let little = chance.pick(&[1, 2, 100]);
    if chance.one_in(2) {
        let zone = chance.below(interval.zones.len());
        interval.zones[zone].load = 2_000_000;
        interval.zones[zone].losses = little;
        return;
    }
    if interval.units.len() == 1 {
        interval.add_unit([b'm'; 16], 1);
    }
    interval.units[0].output = 2_000_000;
    interval.units[1].output = little;
}

/// Rows 17 and 18.
fn in_loads(chance: &mut Chance, interval: &mut Interval, row: u8, point: usize) {
    let little = chance.pick(&[1, 2, 100]);
    if row == 17 {
        let zone = chance.below(interval.zones.len());
        (interval.zones[zone].load, interval.zones[zone].losses) = (little, 0);
        interval.points[point].place = zone as u8 + 1;
        interval.points[point].import = little + chance.pick(&[1, 50]);
        return;
    }
    clear_schedules(interval);
    for zone in &mut interval.zones {
        (zone.load, zone.losses) = (0, 0);
    }
    interval.zones[0].losses = little;
    interval.points[point].place = 0;
    interval.points[point].import = little + chance.pick(&[0, 1, 50]);
}

/// Rows 19 to 21.
fn in_generation(chance: &mut Chance, interval: &mut Interval, row: u8, point: usize) {
    let little = chance.pick(&[1, 2, 100]);
    let zone = interval.units[0].zone;
    for point in &mut interval.points {
        point.export = 0;
    }
    for unit in &mut interval.units {
        if row > 19 || unit.zone == zone {
            unit.output = 0;
        }
    }
    if row == 20 {
        return;
    }
    interval.units[0].output = little;
    interval.points[point].place = if row == 19 { zone } else { 0 };
    interval.points[point].export = little + chance.pick(&[1, 50]);
}

fn beyond_the_limit(chance: &mut Chance, interval: &mut Interval) {
    let par = match interval.pars.len() {
        0 => interval.add_par([b'f'; 16]),
        count => chance.below(count),
    };
    let sign = chance.pick(&[1, -1]);
    interval.pars[par].class = 1;
    interval.pars[par].actual = 200_000 * sign;
    interval.pars[par].target = -200_000 * sign;
    interval.flowgate.pars[par] = 10_000;
}

/// Rows 2, 4, 5, 10, 12, 13 and 28: whole records.
fn in_records(chance: &mut Chance, interval: &Interval, records: &mut Vec<Vec<u8>>, row: u8) {
    let factors = records
        .iter()
        .position(|record| record[0] == Kind::Factor as u8);
    let factors = factors.unwrap_or(records.len());
    let behind = records.iter().position(|it| it[0] > Kind::Factor as u8);
    let behind = behind.unwrap_or(records.len());
    match row {
        2 => {
            let at = 1 + chance.below(records.len().max(2) - 1);
            let kind = chance.pick(&[0, 9, 10, 16, 255]);
            match records.get_mut(at) {
                Some(record) => record[0] = kind,
                None => records.push(vec![kind]),
            }
        }
        4 => out_of_order(chance, records),
        5 => surplus(chance, records),
        10 if factors < behind => misplaced_factor(chance, records, factors..behind),
        12 => records.truncate(1 + chance.below(1 + interval.zones.len())),
        13 if factors < behind => {
            let left = factors + chance.below(behind - factors);
            records.drain(left..behind);
        }
        28 => {
            records.retain(|it| it[0] <= Kind::Factor as u8);
            records.extend(part_of_the_lake(chance, interval));
        }
        _ => {}
    }
}

/// Row 4: the head or the record behind it once more, or the last two kinds exchanged.
fn out_of_order(chance: &mut Chance, records: &mut Vec<Vec<u8>>) {
    let last = records.len() - 1;
    if records[last][0] == Kind::Circulation as u8 && chance.one_in(2) {
        records.swap(last, last - 1 - chance.below(6));
        return;
    }
    let at = 1 + chance.below(records.len());
    let record = if chance.one_in(2) || at < 3 {
        records[0].clone()
    } else {
        records[1].clone()
    };
    let behind = records[at - 1][0];
    let at = if behind > record[0] {
        at
    } else {
        records.len()
    };
    records.insert(at, if at < 3 { records[0].clone() } else { record });
}

/// Row 28: some of the paths and the circulation, neither none nor all of them.
fn part_of_the_lake(chance: &mut Chance, interval: &Interval) -> Vec<Vec<u8>> {
    let paths = interval.paths.iter().cloned().map(Record::Path);
    let circulations = interval.circulations.iter().cloned();
    let lake = paths.chain(circulations.map(Record::Circulation));
    let mut lake: Vec<Vec<u8>> = lake.map(|it| it.bytes()).collect();
    match chance.below(4) {
        0 => lake.truncate(MOST_PATHS),
        1 => lake = lake.split_off(MOST_PATHS),
        2 => lake.truncate(1 + chance.below(MOST_PATHS - 1)),
        _ => {
            lake.drain(..1 + chance.below(MOST_PATHS - 1));
        }
    }
    lake
}

/// Row 5: one more of a kind than allowed, behind the last of that kind.
fn surplus(chance: &mut Chance, records: &mut Vec<Vec<u8>>) {
    let (kind, most) = chance.pick(&[(2, 32), (3, 256), (4, 32), (5, 8), (7, 4), (8, 1)]);
    let end = records.iter().position(|record| record[0] > kind);
    let end = end.unwrap_or(records.len());
    let there = records[..end].iter().filter(|record| record[0] == kind);
    let missing = most + 1 - there.count();
    let more = names(chance, missing).into_iter().map(|mut name| {
        name[15] = b'~';
        name.iter_mut().for_each(|byte| *byte = (*byte).max(1));
        match kind {
            2 => draft::zone(name, 0, 0),
            3 => draft::unit(name, 1, 0),
            4 => draft::point(name, 1, 0, [0; 4]),
            5 => draft::par(name, 1, 0, 0),
            7 => draft::path(name, 0, 0),
            _ => draft::circulation(0),
        }
    });
    let more: Vec<Vec<u8>> = more.collect();
    records.splice(end..end, more);
}

/// Row 10: a factor that is not the one due.
fn misplaced_factor(chance: &mut Chance, records: &mut Vec<Vec<u8>>, factors: Range<usize>) {
    let at = factors.start + chance.below(factors.len());
    match chance.below(5) {
        0 => records[at][1] ^= chance.pick(&[1, 8, 128]),
        1 => records[at][2] ^= chance.pick(&[1, 7, 128]),
        2 => records[at][4] ^= chance.pick(&[1, 3, 128]),
        3 => records[at][3] ^= chance.pick(&[1, 128]),
        _ => {
            let again = records[at].clone();
            records.insert(at, again);
        }
    }
}

/// The list, with rows 14 and 15 planted where they are wanted.
fn list(chance: &mut Chance, flowgate: NameField, rows: &[u8]) -> Vec<u8> {
    let count = chance.pick(&[1, 3, 10]);
    let mut list = list_with(chance, flowgate, 5, count);
    if rows.contains(&15) {
        list.retain(|record| record[NAME] != flowgate);
    }
    if rows.contains(&14) {
        fault_in_list(chance, flowgate, &mut list);
    }
    list.concat()
}

fn fault_in_list(chance: &mut Chance, flowgate: NameField, list: &mut Vec<Vec<u8>>) {
    let at = chance.below(list.len() + 1);
    let bad = match chance.below(6) {
        0 => draft::entitlement(bad_name(chance), 0),
        1 => {
            let (least, most) = (*ENTITLEMENTS.start() as i32, *ENTITLEMENTS.end() as i32);
            draft::entitlement([b'v'; 16], chance.pick(&[most + 1, least - 1, i32::MIN]))
        }
        2 => {
            let mut record = draft::entitlement([b'k'; 16], 0);
            record[0] = chance.pick(&[0, 1, 0x11, 0x20]);
            record
        }
        3 => {
            let there = list
                .first()
                .map_or(flowgate.to_vec(), |record| record[NAME].to_vec());
            let name = draft::name(&there);
            list.insert(0, draft::entitlement(name, 1));
            draft::entitlement(name, 2)
        }
        4 => {
            for k in list.len()..=MOST_ENTITLEMENTS {
                list.push(draft::entitlement(
                    draft::name(format!("more {k}").as_bytes()),
                    0,
                ));
            }
            return;
        }
        _ => draft::entitlement([b'c'; 16], 0)[..1 + chance.below(20)].to_vec(),
    };
    list.insert(at, bad);
}

#[cfg(test)]
mod tests {
    use super::*;
    use crate::questions::settle::check::room;
    use second::report;

    /// A planted row is nearly always the one that is met.
    #[test]
    fn each_row_is_met_by_itself() {
        for row in Refusal::of_statement() {
            let met = (0..60).filter(|k| {
                let input = planted(&mut Chance::of(u64::from(row), *k), &[row]);
                let mut out = vec![0; room(&input, &input.answer())];
                let answer = report(&input.sheet, &input.list, &mut out);
                answer.is_err_and(|refusal| refusal.number() == row)
            });
            let met = met.count();
            assert!(met > 40, "row {row} was met {met} times of 60");
        }
    }
}
