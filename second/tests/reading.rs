//! Rows 1 to 15 on sheet S and its list, changed record by record.

#[path = "common/rows.rs"]
mod rows;

use rows::{place_of, refusal};
use second::draft::{self, factor, head, name, par, point, unit, zone};
use second::entitlement::entitlement;
use second::names::NameField;
use second::reader::read;
use second::units::Power;
use second::{Name, Refusal};

const S_HEAD: usize = 0;
const S_ZONE: usize = 1;
const S_UNIT: usize = 3;
const S_POINT: usize = 5;
const S_PAR: usize = 7;
const S_FACTOR: usize = 8;

/// Sheet S with one record replaced is refused by that record.
fn assert_refused(number: u8, at: usize, record: Vec<u8>) {
    rows::assert_refused(draft::sheet_s(), number, at, record);
}

#[test]
fn sheet_s_is_read() {
    let bytes = draft::sheet_s().concat();
    let sheet = read(&bytes).unwrap();
    assert_eq!((sheet.zones.len(), sheet.units.len()), (2, 2));
    assert_eq!((sheet.points.len(), sheet.pars.len()), (2, 1));
    assert_eq!(sheet.factor_records.len(), 13);
}

#[test]
fn every_truncation_is_refused() {
    let records = draft::sheet_s();
    let bytes = records.concat();
    let mut begins = vec![0];
    for record in &records {
        begins.push(begins[begins.len() - 1] + record.len());
    }
    for length in 0..bytes.len() {
        let refused = read(&bytes[..length]).unwrap_err();
        let whole = begins.partition_point(|begin| *begin <= length) - 1;
        let expected = match (begins[whole] == length, whole) {
            (true, 0) => (1, 0),
            (true, 1..=S_UNIT) => (12, length),
            (true, _) => (13, length),
            (false, _) => (3, begins[whole]),
        };
        assert_eq!((refused.refusal.number(), refused.place), expected);
    }
}

#[test]
fn kinds_are_checked() {
    assert_eq!(refusal(&[]), Some((1, 0)));
    assert_eq!(refusal(&[vec![9]]), Some((1, 0)));
    assert_eq!(refusal(&draft::sheet_s()[1..]), Some((1, 0)));
    assert_eq!(refusal(&[vec![1]]), Some((3, 0)));
    let mut records = draft::sheet_s();
    records.push(vec![0]);
    assert_eq!(refusal(&records), Some((2, place_of(&records, 21))));
    for unknown in [9, 16, 255] {
        records[21] = vec![unknown];
        assert_eq!(refusal(&records), Some((2, place_of(&records, 21))));
    }
    for cut in [7, 8] {
        records[21] = vec![cut];
        assert_eq!(refusal(&records), Some((3, place_of(&records, 21))));
    }
    let second_head = draft::sheet_s().swap_remove(S_HEAD);
    records[21] = second_head.clone();
    assert_eq!(refusal(&records), Some((4, place_of(&records, 21))));
    records[21] = second_head[..20].to_vec();
    assert_eq!(refusal(&records), Some((3, place_of(&records, 21))));
}

#[test]
fn surplus_records_are_refused_before_their_names() {
    let head = head(name(b"F"), 1, 1, [0, 0]);
    let mut records = vec![head];
    records.extend((1..=32).map(|k| zone(name(&[k]), 0, 0)));
    records.push(zone(name(b""), 0, 0));
    assert_eq!(refusal(&records), Some((5, place_of(&records, 33))));
    records.pop();
    for k in 0..=256u16 {
        let [high, low] = k.to_be_bytes();
        records.push(unit(name(&[1 + high, 1 + low / 2, 1 + low % 2]), 1, 0));
    }
    assert_eq!(refusal(&records), Some((5, place_of(&records, 289))));
    records.pop();
    assert_eq!(refusal(&records), Some((13, place_of(&records, 289))));
}

#[test]
fn names_codes_and_numbers_are_checked_in_that_order() {
    let z = |text: &[u8], load| zone(name(text), load, 0);
    assert_refused(6, S_ZONE + 1, z(b"", 2_000_001));
    assert_refused(6, S_ZONE + 1, z(b"A\0B", 0));
    assert_refused(7, S_ZONE + 1, z(b"Z1", 2_000_001));
    assert_refused(9, S_ZONE + 1, z(b"Z2", 2_000_001));
    assert_refused(9, S_ZONE + 1, zone(name(b"Z2"), 0, 0x8000_0000));
    assert_refused(7, S_UNIT + 1, unit(name(b"U1"), 0, 0));
    assert_refused(8, S_UNIT, unit(name(b"U1"), 0, 2_000_001));
    assert_refused(8, S_UNIT, unit(name(b"U1"), 3, 0));
    assert_refused(9, S_UNIT, unit(name(b"U1"), 2, 2_000_001));
    assert_refused(8, S_POINT, point(name(b"P1"), 2, 3, [0; 4]));
    assert_refused(8, S_POINT, point(name(b"P1"), 0, 0, [0; 4]));
    assert_refused(8, S_PAR, par(name(b"T1"), 3, 200_001, 0));
    assert_refused(9, S_PAR, par(name(b"T1"), 2, -200_001, 0));
    assert_refused(9, S_PAR, par(name(b"T1"), 2, 0, i32::MIN));
    assert_refused(8, S_HEAD, head(name(b"F"), 3, 901, [0, 0]));
    assert_refused(9, S_HEAD, head(name(b"F"), 1, 901, [0, 0]));
    assert_refused(9, S_HEAD, head(name(b"F"), 1, 0, [0, 0]));
    assert_refused(9, S_HEAD, head(name(b"F"), 1, 900, [0, 400_001]));
    let mut records = draft::sheet_s();
    records[S_HEAD] = head(name(b"\"\\\xff\n"), 1, 900, [400_000, 0]);
    assert_eq!(refusal(&records), None);
}

#[test]
fn each_schedule_has_its_range() {
    let with = |schedules| point(name(b"P1"), 2, 2, schedules);
    for k in 0..4 {
        let mut schedules = [0; 4];
        for beyond in [200_001, 0x8000_0000, u32::MAX] {
            schedules[k] = beyond;
            assert_refused(9, S_POINT, with(schedules));
            assert_refused(8, S_POINT, point(name(b"P1"), 2, 3, schedules));
        }
        schedules[k] = 200_000;
        let mut records = draft::sheet_s();
        records[S_POINT] = with(schedules);
        assert_eq!(refusal(&records), None);
    }
}

/// The kind of the next record stands where wheel in begins.
#[test]
fn points_without_wheels_are_refused() {
    let mut records = draft::sheet_s();
    for point in &mut records[S_POINT..S_PAR] {
        point.truncate(1 + 26);
    }
    let place = place_of(&records, S_POINT);
    assert_eq!(refusal(&records), Some((9, place)));
    // With nothing behind it the point is cut short.
    assert_eq!(refusal(&records[..=S_POINT]), Some((3, place)));
}

#[test]
fn factors_come_as_they_are_due() {
    assert_refused(10, S_FACTOR, factor(0, 1, 2, 10_001));
    assert_refused(10, S_FACTOR + 6, factor(1, 1, 1, 0));
    assert_refused(11, S_FACTOR, factor(0, 1, 1, 10_001));
    assert_refused(11, S_FACTOR, factor(0, 1, 1, i16::MIN));
    let mut records = draft::sheet_s();
    records.push(factor(1, 4, 1, 0));
    assert_eq!(refusal(&records), Some((10, place_of(&records, 21))));
    records.truncate(20);
    assert_eq!(refusal(&records), Some((13, place_of(&records, 20))));
}

#[test]
fn what_is_due_comes_from_what_is_there() {
    let (head, zone) = (head(name(b"F"), 1, 1, [0, 0]), zone(name(b"Z"), 0, 0));
    let records = [head.clone(), zone, factor(0, 2, 1, 0)];
    assert_eq!(refusal(&records[..1]), Some((12, 28)));
    assert_eq!(refusal(&records[..2]), Some((12, 53)));
    assert_eq!(refusal(&records), Some((12, 60)));
    assert_eq!(refusal(&[head, factor(0, 2, 1, 0)]), Some((10, 28)));
}

fn named(k: u16) -> NameField {
    name(format!("F{k}").as_bytes())
}

#[test]
fn the_whole_list_is_checked_before_its_search() {
    let mut records: Vec<Vec<u8>> = (0..2500)
        .map(|k| draft::entitlement(named(k), i32::from(k as i16) - 1000))
        .collect();
    let find = |records: &[Vec<u8>], k| entitlement(&records.concat(), Name::of(named(k)).unwrap());
    for k in [0, 1234, 2499] {
        assert_eq!(find(&records, k), Ok(Power(i64::from(k) - 1000)));
    }
    assert_eq!(find(&records, 2500), Err(Refusal::NoEntitlement));
    assert_eq!(find(&[], 0), Err(Refusal::NoEntitlement));
    for at in [0, 1234, 2499] {
        let sound = records[at].clone();
        let faulty = [
            draft::entitlement(name(b""), 0),
            draft::entitlement(named(at as u16), 100_001),
            draft::entitlement(named(at as u16), -100_001),
            draft::entitlement(named(7), 0),
            vec![0x11; 21],
        ];
        for record in faulty {
            records[at] = record;
            assert_eq!(find(&records, 7), Err(Refusal::FaultyList));
        }
        records[at] = sound;
    }
    records.push(draft::entitlement(named(2500), 0));
    assert_eq!(find(&records, 7), Err(Refusal::FaultyList));
    records[2500].truncate(1);
    assert_eq!(find(&records, 7), Err(Refusal::FaultyList));
}
