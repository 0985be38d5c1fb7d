//! Request 7: the part that holds the offending record, the reason for the price, and
//! what the program prints of them.

use std::ops::Range;

use second::draft::{self, circulation, entitlement, factor, head, name, par, path, point};
use second::draft::{unit, zone};
use second::names::NameField;
use second::refusal::MEANINGS;
use second::{Reason, explain, explained, settle};

type Records = Vec<Vec<u8>>;

const S_ZONE: usize = 1;
const S_UNIT: usize = 3;
const S_POINT: usize = 5;
const S_PAR: usize = 7;
const S_FACTOR: usize = 8;
const S_PATH: usize = 21;
const S_CIRCULATION: usize = 25;

/// Of the record with this number from 0.
fn part_of(records: &Records, record: usize) -> Range<usize> {
    let from = records[..record].iter().map(Vec::len).sum();
    from..from + records[record].len()
}

fn assert_explained(sheet: &[u8], list: &[u8], refusal: u8, part: Range<usize>) {
    let explanation = explain(sheet, list);
    // A refusal has no reason.
    assert_eq!((explanation.refusal(), explanation.reason()), (refusal, 0));
    assert_eq!(explanation.part, part);
    assert_eq!(settle(sheet, list).unwrap_err().number(), refusal);
}

/// Sheet S with paths and one record replaced: that record is the part.
fn assert_record(refusal: u8, at: usize, record: Vec<u8>) {
    let mut records = draft::sheet_s_with_paths();
    records[at] = record;
    let part = part_of(&records, at);
    assert_explained(&records.concat(), &draft::list_s(), refusal, part);
}

/// The same with one record more.
fn assert_inserted(refusal: u8, at: usize, record: Vec<u8>) {
    let mut records = draft::sheet_s_with_paths();
    records.insert(at, record);
    let part = part_of(&records, at);
    assert_explained(&records.concat(), &draft::list_s(), refusal, part);
}

/// The empty part at the end.
fn assert_at_the_end(refusal: u8, records: &[Vec<u8>], list: &[u8]) {
    let sheet = records.concat();
    assert_explained(&sheet, list, refusal, sheet.len()..sheet.len());
}

#[test]
fn an_empty_sheet_has_the_empty_part() {
    assert_explained(&[], &draft::list_s(), 1, 0..0);
    assert_explained(&[], &[], 1, 0..0);
}

#[test]
fn rows_1_and_2_tell_the_kind_byte_alone() {
    let mut sheet = draft::sheet_s().concat();
    for byte in [0, 2, 6, 8, 9, 255] {
        sheet[0] = byte;
        assert_explained(&sheet, &draft::list_s(), 1, 0..1);
        assert_explained(&[byte], &draft::list_s(), 1, 0..1);
    }
    let mut records = draft::sheet_s();
    for at in [1, 8, 20, 21] {
        for behind in [0, 1, 40] {
            let sheet = [records[..at].concat(), vec![0; 1 + behind]].concat();
            let from = part_of(&records, at - 1).end;
            assert_explained(&sheet, &draft::list_s(), 2, from..from + 1);
        }
    }
    records.push(vec![9]);
    let end = records.concat().len();
    assert_explained(&records.concat(), &draft::list_s(), 2, end - 1..end);
}

/// At each byte of each kind of record.
#[test]
fn row_3_tells_what_is_there() {
    let records = draft::sheet_s_with_paths();
    let sheet = records.concat();
    for at in 0..records.len() {
        let Range { start, end } = part_of(&records, at);
        for length in start + 1..end {
            assert_explained(&sheet[..length], &draft::list_s(), 3, start..length);
        }
    }
    // A second head, a second circulation and a path behind it, all cut short.
    let end = sheet.len();
    for more in [
        head(name(b"F"), 1, 1, [0; 2]),
        circulation(0),
        records[S_PATH].clone(),
    ] {
        let longer = [&sheet[..], &more[..more.len() - 1]].concat();
        assert_explained(&longer, &draft::list_s(), 3, end..longer.len());
    }
}

#[test]
fn rows_4_and_5_tell_the_record_that_is_too_many() {
    let records = draft::sheet_s_with_paths();
    for at in 1..=records.len() {
        assert_inserted(4, at, records[0].clone());
    }
    assert_inserted(4, S_UNIT + 1, zone(name(b"Z3"), 0, 0));
    assert_inserted(4, S_POINT + 1, unit(name(b"U3"), 1, 0));
    assert_inserted(4, S_PAR + 1, point(name(b"P3"), 1, 0, [0; 4]));
    assert_inserted(4, S_FACTOR + 1, par(name(b"T2"), 1, 0, 0));
    assert_inserted(4, S_PATH + 1, factor(0, 1, 1, 0));
    assert_inserted(4, S_CIRCULATION + 1, path(name(b"L5"), 0, 0));
    assert_inserted(5, S_CIRCULATION, path(name(b"L5"), 0, 0));
    assert_inserted(5, S_CIRCULATION + 1, circulation(0));
    assert_surplus(S_UNIT, 30, |name| zone(name, 0, 0));
    assert_surplus(S_POINT, 254, |name| unit(name, 1, 0));
    assert_surplus(S_PAR, 30, |name| point(name, 1, 0, [0; 4]));
    assert_surplus(S_FACTOR, 7, |name| par(name, 1, 0, 0));
}

/// Room for so many, and one more.
fn assert_surplus(at: usize, room: usize, record: impl Fn(NameField) -> Vec<u8>) {
    let mut records = draft::sheet_s_with_paths();
    let more = (0..=room).map(|k| record(name(format!("{k}").as_bytes())));
    records.splice(at..at, more);
    let part = part_of(&records, at + room);
    assert_explained(&records.concat(), &draft::list_s(), 5, part);
}

#[test]
fn rows_6_to_11_tell_the_whole_record() {
    assert_record(6, 0, head(name(b""), 2, 300, [0; 2]));
    assert_record(6, S_CIRCULATION - 1, path(name(b"L\x004"), 0, 0));
    // The later of the two, next to the other or not.
    assert_record(7, S_ZONE + 1, zone(name(b"Z1"), 0, 0));
    assert_record(7, S_UNIT + 1, unit(name(b"U1"), 0, 0));
    assert_record(7, S_POINT + 1, point(name(b"P1"), 0, 0, [0; 4]));
    assert_record(7, S_PATH + 3, path(name(b"L1"), 0, 0));
    assert_record(8, 0, head(name(b"F"), 3, 300, [0; 2]));
    assert_record(8, S_UNIT, unit(name(b"U1"), 3, 0));
    assert_record(8, S_POINT, point(name(b"P1"), 2, 3, [0; 4]));
    assert_record(8, S_PAR, par(name(b"T1"), 0, 0, 0));
    assert_record(9, 0, head(name(b"F"), 1, 901, [0; 2]));
    assert_record(9, S_ZONE, zone(name(b"Z1"), 2_000_001, 0));
    assert_record(9, S_UNIT, unit(name(b"U1"), 1, 2_000_001));
    assert_record(9, S_POINT, point(name(b"P1"), 1, 0, [0, 0, 0, 200_001]));
    assert_record(9, S_PAR, par(name(b"T1"), 1, 0, i32::MIN));
    assert_record(9, S_PATH, path(name(b"L1"), 200_001, 0));
    assert_record(9, S_CIRCULATION, circulation(-200_001));
    assert_record(10, S_FACTOR, factor(0, 1, 2, 0));
    assert_inserted(10, S_PATH, factor(1, 3, 2, 0));
    assert_record(11, S_FACTOR, factor(0, 1, 1, 10_001));
    assert_record(11, S_PATH, path(name(b"L1"), 0, -10_001));
}

#[test]
fn the_first_faulty_record_is_told() {
    let mut records = draft::sheet_s_with_paths();
    records[S_FACTOR] = factor(0, 1, 1, 10_001);
    records[S_PATH] = vec![0; 23];
    let part = part_of(&records, S_FACTOR);
    assert_explained(&records.concat(), &[0], 11, part);
}

#[test]
fn rows_after_the_last_record_tell_the_sheets_end() {
    let list = &draft::list_s()[..];
    let whole = draft::sheet_s_with_paths();
    assert_at_the_end(12, &whole[..1], list);
    assert_at_the_end(12, &whole[..S_UNIT], list);
    for records in S_UNIT + 1..S_PATH {
        assert_at_the_end(13, &whole[..records], list);
    }
    for records in S_PATH + 1..=S_CIRCULATION {
        assert_at_the_end(28, &whole[..records], list);
    }
    assert_at_the_end(14, &whole, &[0x10]);
    assert_at_the_end(15, &whole, &[]);
    let with = |at: usize, record: Vec<u8>| {
        let mut records = whole.clone();
        records[at] = record;
        records
    };
    let z1 = |load| zone(name(b"Z1"), load, 0);
    let u1 = |output| unit(name(b"U1"), 1, output);
    let p1 = |place, import, export| point(name(b"P1"), 2, place, [import, export, 0, 0]);
    assert_at_the_end(16, &with(S_ZONE, z1(2_000_000)), list);
    assert_at_the_end(17, &with(S_POINT, p1(2, 2_001, 0)), list);
    assert_at_the_end(18, &with(S_POINT, p1(0, 3_000, 0)), list);
    assert_at_the_end(19, &with(S_POINT, p1(2, 0, 2_001)), list);
    let mut records = with(S_UNIT, u1(0));
    records[S_UNIT + 1] = unit(name(b"U2"), 2, 0);
    assert_at_the_end(20, &records, list);
    assert_at_the_end(21, &with(S_POINT, p1(0, 0, 3_200)), list);
    let mut records = with(S_POINT, point(name(b"P1"), 2, 2, [0, 0, 200_000, 0]));
    records[S_FACTOR + 4] = factor(0, 3, 1, 10_000);
    assert_at_the_end(22, &records, list);
}

/// The reason, and the price taken.
fn reason(records: &Records, value: i32) -> (Reason, i64) {
    let (sheet, list) = (records.concat(), entitlement(name(b"A\\B"), value));
    let explanation = explain(&sheet, &list);
    assert_eq!(explanation.refusal(), 0);
    assert_eq!(explanation.part, sheet.len()..sheet.len());
    let reason = explanation.answer.unwrap();
    assert_eq!(explanation.reason(), reason as u8);
    (reason, settle(&sheet, &list).unwrap().payment.price.0)
}

fn with_prices(mut records: Records, prices: [u32; 2]) -> Records {
    records[0] = head(name(b"A\\B"), 2, 300, prices);
    records
}

/// The market flow is 13,187,500 W.
#[test]
fn the_reason_goes_by_the_difference_alone() {
    let sheet = draft::sheet_s();
    assert_eq!(reason(&sheet, 131), (Reason::Above, 5000));
    assert_eq!(reason(&sheet, 132), (Reason::Below, 2000));
    for (prices, above, below) in [([0, 7], 0, 7), ([7, 0], 7, 0), ([0, 0], 0, 0)] {
        let sheet = with_prices(draft::sheet_s(), prices);
        assert_eq!(reason(&sheet, 131), (Reason::Above, above));
        assert_eq!(reason(&sheet, 132), (Reason::Below, below));
    }
}

/// All factors are 0 and so is the flow.
#[test]
fn a_flow_at_the_entitlement_has_price_0() {
    let mut sheet = draft::sheet_s();
    for record in &mut sheet[S_FACTOR..] {
        record[5..].fill(0);
    }
    assert_eq!(reason(&sheet, 0), (Reason::At, 0));
    assert_eq!(reason(&sheet, 1), (Reason::Below, 2000));
    assert_eq!(reason(&sheet, -1), (Reason::Above, 5000));
    let free = with_prices(sheet, [0, 0]);
    assert_eq!(reason(&free, 0), (Reason::At, 0));
}

/// Market flow 13,187,500 W, adjusted 10,184,508 W: between them the entitlement is paid
/// on, though the market flow is above it.
#[test]
fn with_paths_the_settlement_flow_decides() {
    let sheet = draft::sheet_s_with_paths();
    assert_eq!(reason(&sheet, 101), (Reason::Above, 5000));
    for value in [102, 110, 131] {
        assert_eq!(reason(&draft::sheet_s(), value), (Reason::Above, 5000));
        assert_eq!(reason(&sheet, value), (Reason::At, 0));
    }
    assert_eq!(reason(&sheet, 132), (Reason::Below, 2000));
    // The other way: the adjusted flow is the higher one.
    let mut sheet = sheet;
    for record in &mut sheet[S_PATH..S_CIRCULATION] {
        let flow = i32::from_be_bytes(record[17..21].try_into().unwrap());
        record[17..21].copy_from_slice(&(-flow).to_be_bytes());
    }
    sheet[S_CIRCULATION] = circulation(-201);
    assert_eq!(reason(&sheet, 131), (Reason::Above, 5000));
    for value in [132, 161] {
        assert_eq!(reason(&draft::sheet_s(), value), (Reason::Below, 2000));
        assert_eq!(reason(&sheet, value), (Reason::At, 0));
    }
    assert_eq!(reason(&sheet, 162), (Reason::Below, 2000));
}

fn text(records: &Records) -> String {
    explained(&records.concat(), &draft::list_s())
}

#[test]
fn accepted_sheets_print_their_reason() {
    let sheet = draft::sheet_s().concat();
    let above = "accepted\nreason the flow paid on is above the entitlement\n";
    assert_eq!(explained(&sheet, &draft::list_s()), above);
    let below = "accepted\nreason the flow paid on is below the entitlement\n";
    let list = entitlement(name(b"A\\B"), 200);
    assert_eq!(explained(&sheet, &list), below);
    let at = "accepted\nreason the flow paid on is at the entitlement\n";
    let sheet = draft::sheet_s_with_paths().concat();
    let list = entitlement(name(b"A\\B"), 110);
    assert_eq!(explained(&sheet, &list), at);
}

#[test]
fn refused_sheets_print_the_record() {
    let mut records = draft::sheet_s();
    records[S_POINT + 1] = point(name(b"P2"), 1, 0, [1, 1000, 0x8000_0000, 0]);
    let expected = "refused 9
meaning a number of kinds 1 to 5, a path's flow or the circulation outside its range
from 157
to 192
kind 4 scheduling point
record 2
name 5032
bytes 0450320000000000000000000000000000010000000001000003e88000000000000000
";
    assert_eq!(text(&records), expected);
    let mut records = draft::sheet_s();
    records[S_FACTOR + 1] = factor(1, 3, 0x200, 0);
    let expected = "refused 10
meaning target, subject and index are not those due, or nothing is due any more
from 225
to 232
kind 6 factor
record 2
bytes 06010302000000
";
    assert_eq!(text(&records), expected);
}

#[test]
fn what_is_left_of_a_record_is_printed() {
    let cut = |length: usize| explained(&draft::sheet_s().concat()[..length], &[]);
    let start = "refused 3\nmeaning the sheet ends within the body\nfrom 28\n";
    let filling = "00".repeat(14);
    let expected = format!("{start}to 44\nkind 2 zone\nrecord 1\nbytes 025a31{filling}\n");
    assert_eq!(cut(44), expected.replacen("00\n", "\n", 1));
    // All 16 bytes of the name are there.
    let expected =
        format!("{start}to 45\nkind 2 zone\nrecord 1\nname 5a31\nbytes 025a31{filling}\n");
    assert_eq!(cut(45), expected);
    let expected = format!("{start}to 29\nkind 2 zone\nrecord 1\nbytes 02\n");
    assert_eq!(cut(29), expected);
}

#[test]
fn names_are_printed_up_to_their_first_zero_byte() {
    let mut records = draft::sheet_s();
    for (field, shown) in [
        (*b"\0A\0\0\0\0\0\0\0\0\0\0\0\0\0\0", "name \n"),
        (*b"A\\\0\xff\0\0\0\0\0\0\0\0\0\0\0\0", "name 415c\n"),
    ] {
        records[S_ZONE + 1] = zone(field, 0, 0);
        let text = text(&records);
        assert!(text.contains("\nkind 2 zone\nrecord 2\nname "), "{text}");
        assert!(text.contains(shown), "{text}");
    }
}

#[test]
fn kind_bytes_are_printed_alone() {
    let printed = |byte: u8| explained(&[byte, 0, 0], &[]);
    let start = "refused 1\nmeaning the sheet is empty, or its first byte is not 1\nfrom 0\n";
    assert_eq!(explained(&[], &[]), format!("{start}to 0\n"));
    for (byte, word, hex) in [
        (0, "unknown", "00"),
        (2, "zone", "02"),
        (3, "unit", "03"),
        (4, "scheduling point", "04"),
        (5, "PAR", "05"),
        (6, "factor", "06"),
        (7, "path", "07"),
        (8, "circulation", "08"),
        (9, "unknown", "09"),
        (255, "unknown", "ff"),
    ] {
        let expected = format!("{start}to 1\nkind {byte} {word}\nrecord 1\nbytes {hex}\n");
        assert_eq!(printed(byte), expected);
    }
    let mut records = draft::sheet_s();
    records[S_ZONE + 1][0] = 0x10;
    let expected = "refused 2
meaning kind byte not 1..8
from 53
to 54
kind 16 unknown
record 1
bytes 10
";
    assert_eq!(text(&records), expected);
}

#[test]
fn a_second_head_is_the_second() {
    let mut records = draft::sheet_s();
    records.insert(S_UNIT, head(name(b"H"), 2, 300, [1, 2]));
    let text = text(&records);
    assert!(text.contains("\nkind 1 head\nrecord 2\nname 48\nbytes 0148"));
}

#[test]
fn refusals_behind_the_records_print_no_record() {
    let sheet = draft::sheet_s().concat();
    let end = sheet.len();
    let expected =
        format!("refused 15\nmeaning no entry bears the flowgate's name\nfrom {end}\nto {end}\n");
    assert_eq!(explained(&sheet, &[]), expected);
}

/// One source of the words: the table's third column.
#[test]
fn the_meanings_are_those_of_the_page() {
    let page = include_str!("../../docs/REFUSALS.md");
    let rows = page.lines().filter_map(|line| {
        let mut cells = line.strip_prefix("| ")?.strip_suffix(" |")?.split(" | ");
        let number: usize = cells.next()?.parse().ok()?;
        Some((number, cells.nth(1)?))
    });
    let table: Vec<(usize, &str)> = rows.collect();
    let held: Vec<(usize, &str)> = (1..).zip(MEANINGS).collect();
    assert_eq!(table, held);
    assert!(MEANINGS.iter().all(|words| words.is_ascii()));
}
