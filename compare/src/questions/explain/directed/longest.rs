//! Parts of the longest sheet, at its end and behind it.

use second::draft;
use second::layout::{Kind, LONGEST_SHEET};

use crate::chance::Chance;
use crate::interval::{Interval, Scale, Sizes, add_lake, drawn};
use crate::questions::explain::directed::{Directed, part_of, refused};
use crate::questions::settle::Input;
use crate::sides::Explanation;

pub fn all(chance: &mut Chance) -> Vec<Directed> {
    let mut longest = drawn(chance, Sizes::LONGEST, Scale::TINY);
    add_lake(chance, &mut longest, Scale::TINY);
    let mut all = last_of_each_kind(&longest);
    all.extend(cut_short(&longest));
    all.extend(behind(&longest));
    all.extend(at_the_end(&longest));
    all
}

fn last_of_each_kind(longest: &Interval) -> Vec<Directed> {
    let sound = longest.records();
    let mut all = Vec::new();
    for at in 0..sound.len() {
        let kind = sound[at][0];
        if sound.get(at + 1).is_some_and(|next| next[0] == kind) {
            continue;
        }
        let mut records = sound.clone();
        let row = match Kind::of(kind) {
            Some(Kind::Circulation) => 9,
            Some(Kind::Factor) => 10,
            _ => 6,
        };
        let byte = if row == 9 { 0x7f } else { 0 };
        records[at][1..].fill(byte);
        let part = part_of(&records, at);
        let origin = "the last of a kind on the longest sheet";
        all.push(refused(origin, records.concat(), row, part));
    }
    all
}

/// Within the circulation, which ends it.
fn cut_short(longest: &Interval) -> Vec<Directed> {
    let sheet = longest.records().concat();
    let last = LONGEST_SHEET - Kind::Circulation.body();
    let cut = |length| {
        let cut = sheet[..length].to_vec();
        refused("the longest sheet cut short", cut, 3, last - 1..length)
    };
    (last..LONGEST_SHEET).map(cut).collect()
}

/// Each kind byte alone, each record whole, and the longest record cut at each byte.
fn behind(longest: &Interval) -> Vec<Directed> {
    let mut records = longest.records();
    let sheet = records.concat();
    let mut all = Vec::new();
    let mut more = |more: &[u8], row: u8, length: usize| {
        let part = LONGEST_SHEET..LONGEST_SHEET + length;
        let longer = [&sheet[..], more].concat();
        all.push(refused("behind the longest sheet", longer, row, part));
    };
    for byte in 0..=255 {
        let row = if Kind::of(byte).is_some() { 3 } else { 2 };
        more(&[byte], row, 1);
    }
    records.dedup_by_key(|record| record[0]);
    for record in &records {
        let last = record[0] == Kind::Circulation as u8;
        more(record, if last { 5 } else { 4 }, record.len());
        let twice = [&record[..], &record[..]].concat();
        more(&twice, if last { 5 } else { 4 }, record.len());
        if record[0] == Kind::Point as u8 {
            for present in 1..record.len() {
                more(&record[..present], 3, present);
            }
        }
    }
    all
}

/// Rows of the list and of the balance, and the three reasons.
fn at_the_end(longest: &Interval) -> Vec<Directed> {
    let explained = |interval: &Interval, list: Vec<u8>, refusal, reason| {
        let sheet = interval.records().concat();
        let expected = Explanation {
            refusal,
            reason,
            from: LONGEST_SHEET,
            to: LONGEST_SHEET,
        };
        let input = Input::of("the longest sheet", sheet, list);
        (input, Some(expected))
    };
    let entry = |value| draft::entitlement(longest.head.name, value);
    let mut too_much = longest.clone();
    too_much.zones[31].load = 2_000_000;
    too_much.zones[31].losses = 2_000_000;
    let mut without_flow = longest.clone();
    without_flow.flowgate.clear();
    for path in &mut without_flow.paths {
        path.factor = 0;
    }
    vec![
        explained(longest, vec![0x10], 14, 0),
        explained(longest, Vec::new(), 15, 0),
        explained(&too_much, entry(0), 16, 0),
        explained(longest, entry(-100_000), 0, 1),
        explained(longest, entry(100_000), 0, 2),
        explained(&without_flow, entry(0), 0, 3),
    ]
}
