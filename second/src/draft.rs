//! Records as bytes, sound or faulty: every value that fits a field can be written.

use crate::layout::{ENTITLEMENT, Kind};
use crate::names::NameField;

/// The name filled to 16 bytes; what is longer is cut.
pub fn name(text: &[u8]) -> NameField {
    let mut name = [0; 16];
    for (to, from) in name.iter_mut().zip(text) {
        *to = *from;
    }
    name
}

fn record(kind: u8, fields: &[&[u8]]) -> Vec<u8> {
    let mut record = vec![kind];
    for field in fields {
        record.extend_from_slice(field);
    }
    record
}

/// The prices are the Monitoring and the Non-Monitoring one.
pub fn head(name: NameField, monitoring: u8, seconds: u16, prices: [u32; 2]) -> Vec<u8> {
    let [own, other] = prices.map(u32::to_be_bytes);
    record(
        Kind::Head as u8,
        &[&name, &[monitoring], &seconds.to_be_bytes(), &own, &other],
    )
}

pub fn zone(name: NameField, load: u32, losses: u32) -> Vec<u8> {
    record(
        Kind::Zone as u8,
        &[&name, &load.to_be_bytes(), &losses.to_be_bytes()],
    )
}

pub fn unit(name: NameField, zone: u8, output: u32) -> Vec<u8> {
    record(Kind::Unit as u8, &[&name, &[zone], &output.to_be_bytes()])
}

/// Place 0 is a proxy. The schedules are import, export, wheel in and wheel out.
pub fn point(name: NameField, class: u8, place: u8, schedules: [u32; 4]) -> Vec<u8> {
    let [import, export, wheel_in, wheel_out] = schedules.map(u32::to_be_bytes);
    record(
        Kind::Point as u8,
        &[
            &name,
            &[class, place],
            &import,
            &export,
            &wheel_in,
            &wheel_out,
        ],
    )
}

pub fn par(name: NameField, class: u8, actual: i32, target: i32) -> Vec<u8> {
    let (actual, target) = (actual.to_be_bytes(), target.to_be_bytes());
    record(Kind::Par as u8, &[&name, &[class], &actual, &target])
}

pub fn factor(target: u8, subject: u8, index: u16, factor: i16) -> Vec<u8> {
    let (index, factor) = (index.to_be_bytes(), factor.to_be_bytes());
    record(Kind::Factor as u8, &[&[target, subject], &index, &factor])
}

pub fn path(name: NameField, flow: i32, factor: i16) -> Vec<u8> {
    let (flow, factor) = (flow.to_be_bytes(), factor.to_be_bytes());
    record(Kind::Path as u8, &[&name, &flow, &factor])
}

pub fn circulation(flow: i32) -> Vec<u8> {
    record(Kind::Circulation as u8, &[&flow.to_be_bytes()])
}

pub fn entitlement(name: NameField, value: i32) -> Vec<u8> {
    record(ENTITLEMENT, &[&name, &value.to_be_bytes()])
}

/// Sheet S of document 01, record by record.
pub fn sheet_s() -> Vec<Vec<u8>> {
    let named = |text: &str| name(text.as_bytes());
    let mut records = vec![
        head(named("A\\B"), 2, 300, [5000, 2000]),
        zone(named("Z1"), 900, 100),
        zone(named("Z2"), 1950, 50),
        unit(named("U1"), 1, 1200),
        unit(named("U2"), 2, 2000),
        point(named("P1"), 2, 2, [500, 0, 0, 0]),
        point(named("P2"), 1, 0, [300, 200, 0, 0]),
        par(named("T1"), 1, 400, 380),
    ];
    let due = [(1, 1), (1, 2), (2, 1), (2, 2), (3, 1), (3, 2), (4, 1)];
    let flowgate = [3000, -1000, 500, -200, 1000, 400, 2500];
    let par = [1000, 0, 0, 0, 2000, 0];
    for ((subject, index), value) in due.into_iter().zip(flowgate) {
        records.push(factor(0, subject, index, value));
    }
    for ((subject, index), value) in due.into_iter().zip(par) {
        records.push(factor(1, subject, index, value));
    }
    records
}

/// Sheet S where P1 wheels in 70 and out 30, P2 in 20 and out 50.
pub fn sheet_s_with_wheels() -> Vec<Vec<u8>> {
    let mut records = sheet_s();
    records[5] = point(name(b"P1"), 2, 2, [500, 0, 70, 30]);
    records[6] = point(name(b"P2"), 1, 0, [300, 200, 20, 50]);
    records
}

/// Sheet S with paths L1 to L4 and a circulation of 201. Beyond its quarters the paths
/// carry 199, -601, 599 and -101 quarters of a tenth: the impact is -12,011,970 / 4 W.
pub fn sheet_s_with_paths() -> Vec<Vec<u8>> {
    let mut records = sheet_s();
    let flows = [100, -100, 200, 25];
    let factors = [-3000, 1000, -5, 2];
    for ((k, flow), factor) in (1..).zip(flows).zip(factors) {
        records.push(path(name(&[b'L', b'0' + k]), flow, factor));
    }
    records.push(circulation(201));
    records
}

/// The entitlement list that goes with sheet S.
pub fn list_s() -> Vec<u8> {
    entitlement(name(b"A\\B"), 100)
}
