//! Rows 2 to 7, 9, 11 and 28 at paths and the circulation, and 28 beside the rows around
//! it.

use second::draft::{self, circulation, name, path};
use second::layout::LONGEST_SHEET;

use crate::chance::Chance;
use crate::interval::{Scale, Sizes, add_lake, drawn};
use crate::questions::settle::directed::{Directed, lake};
use crate::questions::settle::{Expected, Input};

/// Where records stand on sheet S with paths.
const UNIT: usize = 3;
const LAST_FACTOR: usize = 20;
const PATH: usize = 21;
const CIRCULATION: usize = 25;
const END: usize = 26;

pub fn all(chance: &mut Chance) -> Vec<Directed> {
    let mut all = incomplete();
    all.extend(beside_the_end());
    all.extend(beside_the_list());
    all.extend(beside_the_balance(chance));
    all.extend(out_of_order());
    all.extend(surplus());
    all.extend(ranges());
    all.extend(names());
    all.extend(dropped_and_doubled());
    all.extend(behind_the_longest(chance));
    all
}

type Records = Vec<Vec<u8>>;

fn sound() -> Records {
    draft::sheet_s_with_paths()
}

/// Refused by this record, the end where there are so many.
fn refused(what: &str, records: &Records, row: u8, at: usize) -> Directed {
    let place = records[..at].iter().map(Vec::len).sum();
    let expected = vec![Expected::Refusal(row), Expected::Place(place)];
    let origin = format!("sheet S with paths: {what}");
    (
        Input::of(&origin, records.concat(), draft::list_s()),
        expected,
    )
}

fn accepted(what: &str, records: &Records) -> Directed {
    let (input, _) = refused(what, records, 0, 0);
    (input, vec![Expected::Refusal(0)])
}

/// So many paths, with and without the circulation, that row 28 is met.
fn parts() -> Vec<(String, Records)> {
    let mut parts = Vec::new();
    for paths in 0..=4 {
        for circulations in 0..=1 {
            let mut records = sound()[..PATH + paths].to_vec();
            records.extend_from_slice(&sound()[CIRCULATION..CIRCULATION + circulations]);
            if ![(0, 0), (4, 1)].contains(&(paths, circulations)) {
                let what = format!("{paths} paths, {circulations} circulations");
                parts.push((what, records));
            }
        }
    }
    parts
}

fn incomplete() -> Vec<Directed> {
    let parts = parts().into_iter();
    let refused = |(what, records): (String, Records)| refused(&what, &records, 28, records.len());
    parts.map(refused).collect()
}

/// Rows 12 and 13 come first.
fn beside_the_end() -> Vec<Directed> {
    let mut all = Vec::new();
    for (what, records) in parts() {
        let mut short = records.clone();
        short.remove(LAST_FACTOR);
        all.push(refused(
            &format!("{what}, a factor missing"),
            &short,
            13,
            short.len(),
        ));
        let mut short = records;
        short.drain(UNIT..=LAST_FACTOR);
        all.push(refused(
            &format!("{what}, no unit"),
            &short,
            12,
            short.len(),
        ));
    }
    all
}

/// Rows 14 and 15 come later.
fn beside_the_list() -> Vec<Directed> {
    let mut all = Vec::new();
    for (what, records) in parts() {
        for (list, of_list) in [(vec![0], "a faulty list"), (Vec::new(), "no entry")] {
            let what = format!("{what}, {of_list}");
            let (mut input, expected) = refused(&what, &records, 28, records.len());
            input.list = list;
            all.push((input, expected));
        }
    }
    all
}

/// Rows 16 to 22 come later.
fn beside_the_balance(chance: &mut Chance) -> Vec<Directed> {
    let mut all = Vec::new();
    for (what, mut records) in parts() {
        records[1] = draft::zone(name(b"Z1"), 2_000_000, 1);
        let what = format!("{what}, loads above 2,000,000");
        all.push(refused(&what, &records, 28, records.len()));
    }
    for sign in [1, -1] {
        let mut beyond = lake::flat(chance, 150_000 * sign, 3);
        let whole = beyond.clone();
        beyond.paths.pop();
        for (interval, row) in [(whole, 22), (beyond, 28)] {
            let list = draft::entitlement(interval.head.name, 0);
            let sheet = interval.records().concat();
            let input = Input::of("beyond the limit, with paths", sheet, list);
            all.push((input, vec![Expected::Refusal(row)]));
        }
    }
    all
}

/// Row 4: a kind below the one before.
fn out_of_order() -> Vec<Directed> {
    let mut all = Vec::new();
    let moves = [
        ("a factor behind a path", LAST_FACTOR, PATH),
        ("a factor behind four paths", LAST_FACTOR, CIRCULATION - 1),
        ("a factor behind the circulation", LAST_FACTOR, CIRCULATION),
        ("a path behind the circulation", PATH, CIRCULATION),
        (
            "the last path behind the circulation",
            CIRCULATION - 1,
            CIRCULATION,
        ),
    ];
    for (what, from, to) in moves {
        let mut records = sound();
        let moved = records.remove(from);
        records.insert(to, moved);
        all.push(refused(what, &records, 4, to));
        let mut doubled = sound();
        doubled.insert(to + 1, sound()[from].clone());
        all.push(refused(&format!("{what}, once more"), &doubled, 4, to + 1));
    }
    let mut records = sound();
    records.insert(PATH - 5, sound()[PATH].clone());
    all.push(refused("a path among the factors", &records, 4, PATH - 4));
    all
}

/// Row 5: a fifth path, a second circulation; 3 and 2 go before it.
fn surplus() -> Vec<Directed> {
    let mut all = Vec::new();
    let beyond = i32::MAX;
    for more in [path(name(b"L5"), 0, 0), path(name(b"L1"), beyond, i16::MAX)] {
        let mut records = sound();
        records.insert(CIRCULATION, more);
        all.push(refused("a fifth path", &records, 5, CIRCULATION));
    }
    for more in [circulation(201), circulation(beyond)] {
        let mut records = sound();
        records.push(more);
        all.push(refused("a second circulation", &records, 5, END));
        records[END].pop();
        all.push(refused("a second circulation, cut short", &records, 3, END));
        records[END][0] = 9;
        all.push(refused("kind 9 behind the circulation", &records, 2, END));
    }
    all
}

/// Rows 9 and 11: each field at its ends and past them, by itself and with the other.
fn ranges() -> Vec<Directed> {
    let mut all = Vec::new();
    let mut with = |at: usize, record: Vec<u8>, row: u8| {
        let mut records = sound();
        records[at] = record;
        match row {
            0 => all.push(accepted("a field at its end", &records)),
            row => all.push(refused("a field past its end", &records, row, at)),
        }
    };
    let powers = [
        0,
        1,
        -1,
        200_000,
        -200_000,
        200_001,
        -200_001,
        i32::MAX,
        i32::MIN,
    ];
    let factors = [0, -1, 10_000, -10_000, 10_001, -10_001, i16::MAX, i16::MIN];
    for power in powers {
        let row = if power.unsigned_abs() > 200_000 { 9 } else { 0 };
        with(CIRCULATION, circulation(power), row);
        for factor in factors {
            let row = match (row, factor.unsigned_abs() > 10_000) {
                (0, true) => 11,
                (row, _) => row,
            };
            with(PATH + 3, path(name(b"L4"), power, factor), row);
        }
    }
    all
}

/// Rows 6 and 7, before 9 and 11; a path may bear the name of another kind's record.
fn names() -> Vec<Directed> {
    let mut all = Vec::new();
    for at in PATH..CIRCULATION {
        for (ill_formed, row) in [(name(b""), 6), (name(b"L\0x"), 6), (name(b"L1"), 7)] {
            let row = if (row, at) == (7, PATH) { 0 } else { row };
            for (power, factor) in [(5, 5), (200_001, 5), (5, 10_001)] {
                let mut records = sound();
                records[at] = path(ill_formed, power, factor);
                if row > 0 {
                    all.push(refused("a path's name", &records, row, at));
                }
            }
        }
        for there in ["A\\B", "Z1", "U1", "P1", "T1"] {
            let mut records = sound();
            records[at] = path(name(there.as_bytes()), 5, 5);
            all.push(accepted("a path named as another record", &records));
        }
    }
    all
}

/// Each record of the lake dropped, and doubled.
fn dropped_and_doubled() -> Vec<Directed> {
    let mut all = Vec::new();
    for at in PATH..END {
        let mut records = sound();
        let again = records.remove(at);
        all.push(refused("a record dropped", &records, 28, records.len()));
        let mut records = sound();
        records.insert(at, again);
        // Two of a name, until there are five.
        let (row, place) = match at {
            CIRCULATION => (5, END),
            at => (7, at + 1),
        };
        let (row, place) = if place == CIRCULATION {
            (5, place)
        } else {
            (row, place)
        };
        all.push(refused("a record doubled", &records, row, place));
    }
    all
}

/// Of 28,101 bytes; one record more is refused, whatever it is.
fn behind_the_longest(chance: &mut Chance) -> Vec<Directed> {
    let mut longest = drawn(chance, Sizes::LONGEST, Scale::TINY);
    add_lake(chance, &mut longest, Scale::TINY);
    let list = draft::entitlement(longest.head.name, 0);
    let sheet = longest.records().concat();
    let records = longest.records();
    let input = Input::of("the longest sheet", sheet.clone(), list.clone());
    let mut all = vec![(input, vec![Expected::Refusal(0)])];
    let count = records.len();
    for (record, row) in [
        (count - 1, 5),
        (count - 2, 4),
        (count - 6, 4),
        (0, 4),
        (1, 4),
    ] {
        let mut longer = sheet.clone();
        longer.extend_from_slice(&records[record]);
        let input = Input::of("a record behind the longest sheet", longer, list.clone());
        let expected = vec![Expected::Refusal(row), Expected::Place(LONGEST_SHEET)];
        all.push((input, expected));
    }
    all
}
