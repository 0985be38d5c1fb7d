//! Sheets written from their content (request 3), mostly sheet S with something altered.

use second::content::{Content, Factor, Par, Point, Unit, Zone, content};
use second::draft::{self, name};
use second::due::Due;
use second::names::NameField;
use second::sheet::{Place, ZoneNumber};
use second::units::{Amount, Watts};
use second::{settle, write};

fn content_s() -> Content {
    content(&draft::sheet_s().concat()).unwrap()
}

fn line(zone: u8) -> Place {
    Place::Line(ZoneNumber(zone))
}

fn named(kind: char, k: usize) -> NameField {
    name(format!("{kind}{k}").as_bytes())
}

/// Sheet S with so many zones, units, points and PARs, and all factors then due.
fn sized(zones: usize, units: usize, points: usize, pars: usize) -> Content {
    let mut content = content_s();
    let (zone, unit) = (content.zones[0], content.units[0]);
    let (proxy, par) = (content.points[1], content.pars[0]);
    let zone = |name| Zone { name, ..zone };
    let unit = |name| Unit { name, ..unit };
    let point = |name| Point {
        name,
        wheel_in: 7,
        wheel_out: 200_000,
        ..proxy
    };
    let par = |name| Par { name, ..par };
    content.zones = (0..zones).map(|k| zone(named('Z', k))).collect();
    content.units = (0..units).map(|k| unit(named('U', k))).collect();
    content.points = (0..points).map(|k| point(named('P', k))).collect();
    content.pars = (0..pars).map(|k| par(named('T', k))).collect();
    for point in content.points.iter_mut().skip(1) {
        point.place = line(1);
    }
    let due = Due::by(content.counts());
    let factors = due.enumerate().map(|(k, due)| Factor {
        target: due[0],
        subject: due[1],
        index: u16::from_be_bytes([due[2], due[3]]),
        value: (k * 977 % 20_001) as i16 - 10_000,
    });
    content.factors = factors.collect();
    content
}

const FILLING: u8 = 0x5a;

/// What comes of writing into a buffer of this length, and the buffer.
fn written(content: &Content, length: usize) -> (Result<usize, u8>, Vec<u8>) {
    let mut out = vec![FILLING; length];
    let answer = write(content, &mut out);
    (answer.map_err(|refusal| refusal.number()), out)
}

/// Refused by this row in a buffer of any length, which stays as it was.
fn assert_refused(row: u8, content: &Content) {
    for length in [0, 1, content.length() - 1, 40_000] {
        let (answer, out) = written(content, length);
        assert_eq!(answer, Err(row));
        assert!(out.iter().all(|byte| *byte == FILLING));
    }
}

/// Sheet S altered so is refused by this row.
fn altered(row: u8, alter: impl Fn(&mut Content)) {
    let mut content = content_s();
    alter(&mut content);
    assert_refused(row, &content);
}

/// Sheet S altered so is written, and read again as the same.
fn passes(alter: impl Fn(&mut Content)) {
    let mut altered = content_s();
    alter(&mut altered);
    let (answer, out) = written(&altered, altered.length());
    assert_eq!(answer, Ok(altered.length()));
    assert_eq!(content(&out).unwrap(), altered);
}

#[test]
fn sheet_s_is_written_again() {
    let sheet = draft::sheet_s().concat();
    let content = content(&sheet).unwrap();
    assert_eq!(content.length(), sheet.len());
    assert_eq!(
        written(&content, sheet.len()),
        (Ok(sheet.len()), sheet.clone())
    );
    let (_, out) = written(&content, sheet.len() + 30);
    assert_eq!(out[..sheet.len()], sheet);
    assert_eq!(out[sheet.len()..], [FILLING; 30]);
}

#[test]
fn the_longest_sheet_is_written_again() {
    let mut longest = sized(32, 256, 32, 8);
    assert_eq!((longest.factors.len(), longest.length()), (2888, 28_004));
    let with_paths = content(&draft::sheet_s_with_paths().concat()).unwrap();
    longest.paths = with_paths.paths;
    longest.circulations = with_paths.circulations;
    let (answer, out) = written(&longest, 28_101);
    assert_eq!(answer, Ok(28_101));
    assert_eq!(content(&out).unwrap(), longest);
    assert_eq!(written(&longest, 28_100).0, Err(27));
}

#[test]
fn the_smallest_sheet_is_written() {
    let smallest = sized(1, 1, 0, 0);
    let (answer, out) = written(&smallest, smallest.length());
    assert_eq!(answer, Ok(28 + 25 + 22 + 2 * 7));
    assert_eq!(content(&out).unwrap(), smallest);
}

#[test]
fn a_schedule_is_altered_and_settled_again() {
    let mut content = content_s();
    content.points[0].import = 600;
    let (_, sheet) = written(&content, content.length());
    let mut records = draft::sheet_s();
    records[5] = draft::point(name(b"P1"), 2, 2, [600, 0, 0, 0]);
    assert_eq!(sheet, records.concat());
    let before = settle(&draft::sheet_s().concat(), &draft::list_s()).unwrap();
    let after = settle(&sheet, &draft::list_s()).unwrap();
    assert_eq!(before.payment.amount, Amount(1_328_125));
    assert_ne!(after.payment.amount, before.payment.amount);
}

/// P1 wheels in 5: 5 x 1000 x 10 W more are parallel flow, and T1 carries a quarter of
/// the 5 x 2000 x 10 W more on it.
#[test]
fn a_wheel_is_added_and_settled_again() {
    let mut content = content_s();
    content.points[0].wheel_in = 5;
    let (_, sheet) = written(&content, content.length());
    let mut records = draft::sheet_s();
    records[5] = draft::point(name(b"P1"), 2, 2, [500, 0, 5, 0]);
    assert_eq!(sheet, records.concat());
    let after = settle(&sheet, &draft::list_s()).unwrap();
    assert_eq!(after.flow.market, Watts(13_187_500 + 25_000));
}

#[test]
fn buffers_around_the_length() {
    let content = content_s();
    let length = content.length();
    for room in 0..length {
        let (answer, out) = written(&content, room);
        assert_eq!(answer, Err(27));
        assert!(out.iter().all(|byte| *byte == FILLING));
    }
    for room in length..length + 20 {
        let (answer, out) = written(&content, room);
        assert_eq!(answer, Ok(length));
        assert!(out[length..].iter().all(|byte| *byte == FILLING));
    }
}

#[test]
fn names_are_checked() {
    altered(6, |it| it.head.name = name(b""));
    altered(6, |it| it.zones[1].name = name(b"A\0B"));
    altered(6, |it| it.units[0].name = name(b"\0U"));
    altered(6, |it| it.points[1].name = name(b""));
    altered(6, |it| it.pars[0].name[15] = 1);
    altered(7, |it| it.zones[1].name = it.zones[0].name);
    altered(7, |it| it.units[1].name = it.units[0].name);
    altered(7, |it| it.points[0].name = it.points[1].name);
    altered(7, |it| it.pars.push(it.pars[0]));
    passes(|it| it.zones[0].name = it.units[0].name);
    passes(|it| it.head.name = [0xff; 16]);
}

#[test]
fn codes_are_checked() {
    for code in [0, 3, 255] {
        altered(8, |it| it.head.monitoring = code);
        altered(8, |it| it.points[1].class = code);
        altered(8, |it| it.pars[0].class = code);
        altered(8, |it| it.units[1].zone = code);
    }
    altered(8, |it| it.points[0].place = line(3));
    passes(|it| it.points[1].place = line(2));
    passes(|it| it.points[0].place = Place::Proxy);
}

#[test]
fn a_line_into_zone_0_is_no_proxy() {
    altered(8, |it| it.points[0].place = line(0));
    altered(8, |it| it.points[1].place = line(0));
    altered(8, |it| {
        (it.points[0].place, it.points[0].import) = (line(0), 200_001);
    });
    altered(7, |it| {
        it.points[1].name = it.points[0].name;
        it.points[1].place = line(0);
    });
    altered(9, |it| {
        it.points[0].import = 200_001;
        it.points[1].place = line(0);
    });
}

#[test]
fn numbers_are_checked() {
    altered(9, |it| it.head.seconds = 0);
    altered(9, |it| it.head.seconds = 901);
    altered(9, |it| it.head.monitoring_price = 400_001);
    altered(9, |it| it.head.non_monitoring_price = u32::MAX);
    altered(9, |it| it.zones[0].load = 2_000_001);
    altered(9, |it| it.zones[1].losses = 0x8000_0000);
    altered(9, |it| it.units[1].output = 2_000_001);
    altered(9, |it| it.points[0].import = 200_001);
    altered(9, |it| it.points[1].export = 200_001);
    altered(9, |it| it.points[0].wheel_in = 200_001);
    altered(9, |it| it.points[0].wheel_in = 0x8000_0000);
    altered(9, |it| it.points[1].wheel_out = 200_001);
    altered(9, |it| it.points[1].wheel_out = u32::MAX);
    altered(9, |it| it.pars[0].actual = -200_001);
    altered(9, |it| it.pars[0].target = i32::MIN);
    passes(|it| it.head.seconds = 900);
    passes(|it| (it.zones[0].load, it.zones[0].losses) = (2_000_000, 0));
    passes(|it| (it.points[0].import, it.points[0].export) = (0, 200_000));
    passes(|it| (it.points[1].wheel_in, it.points[1].wheel_out) = (200_000, 0));
    passes(|it| (it.points[0].wheel_in, it.points[0].wheel_out) = (0, 200_000));
    passes(|it| (it.pars[0].actual, it.pars[0].target) = (-200_000, 200_000));
}

#[test]
fn factors_are_those_due() {
    altered(10, |it| it.factors[0].target = 1);
    altered(10, |it| it.factors[3].subject = 1);
    altered(10, |it| it.factors[12].index = 258);
    altered(10, |it| it.factors.swap(4, 5));
    altered(10, |it| it.factors.insert(7, it.factors[6]));
    altered(10, |it| it.factors.push(it.factors[12]));
    altered(10, |it| it.factors = it.factors[1..].to_vec());
    altered(11, |it| it.factors[0].value = 10_001);
    altered(11, |it| it.factors[12].value = i16::MIN);
    altered(13, |it| it.factors.truncate(12));
    altered(13, |it| it.factors.clear());
    passes(|it| it.factors[0].value = -10_000);
}

#[test]
fn surplus_records_are_refused_where_they_stand() {
    assert_refused(5, &sized(33, 1, 0, 0));
    assert_refused(5, &sized(1, 257, 0, 0));
    assert_refused(5, &sized(1, 1, 33, 0));
    assert_refused(5, &sized(1, 1, 0, 9));
    assert_refused(5, &sized(1000, 1000, 1000, 1000));
    let mut many = sized(32, 256, 32, 8);
    many.factors.push(many.factors[2887]);
    assert_refused(10, &many);
    many.factors.resize(5000, many.factors[0]);
    assert_refused(10, &many);
    // Before the surplus record's own name, and behind the records before it.
    let mut content = sized(33, 1, 0, 0);
    content.zones[32].name = name(b"");
    assert_refused(5, &content);
    content.zones[31].name = name(b"");
    assert_refused(6, &content);
    let mut content = sized(1, 257, 33, 9);
    content.units[256].zone = 0;
    assert_refused(5, &content);
    content.units[255].zone = 0;
    assert_refused(8, &content);
}

#[test]
fn the_end_comes_behind_all_records() {
    altered(12, |it| {
        it.units.clear();
        it.factors.clear();
    });
    altered(12, |it| {
        (it.zones, it.units, it.points) = (vec![], vec![], vec![]);
        (it.pars, it.factors) = (vec![], vec![]);
    });
    // A unit's zone is above a count of none.
    altered(8, |it| it.zones.clear());
    altered(10, |it| it.units.clear());
    altered(11, |it| {
        it.factors.truncate(3);
        it.factors[2].value = 10_001;
    });
}

#[test]
fn the_first_faulty_record_refuses_by_its_first_row() {
    altered(9, |it| {
        it.head.seconds = 0;
        it.zones[0].name = name(b"");
    });
    altered(9, |it| {
        it.zones[1].load = u32::MAX;
        it.units[0].zone = 0;
    });
    altered(8, |it| {
        (it.units[0].zone, it.units[0].output) = (0, u32::MAX);
        it.units[1].name = name(b"");
    });
    altered(10, |it| {
        it.factors[0].value = i16::MAX;
        it.factors[0].index = 2;
    });
    altered(11, |it| {
        it.factors[0].value = i16::MAX;
        it.factors[1].index = 9;
    });
}
