//! Inputs made for a part or a reason, with what the papers say of them.

mod longest;
mod reasons;

use std::iter::once;
use std::ops::Range;

use second::draft;
use second::layout::{Kind, NAME};

use crate::chance::Chance;
use crate::interval::{Scale, Sizes, add_lake, drawn};
use crate::questions::settle::directed as of_settle;
use crate::questions::settle::{Expected, Input};
use crate::sides::Explanation;

/// With the explanation, where it is worked out.
pub type Directed = (Input, Option<Explanation>);

type Records = Vec<Vec<u8>>;

/// All of them but the sweeps.
pub fn all(seed: u64) -> Vec<Directed> {
    let chance = &mut Chance::of(seed, u64::MAX - 3);
    let mut all = first_bytes();
    all.extend(unknown_kinds());
    all.extend(cut_short());
    all.extend(heads());
    all.extend(emptied());
    all.extend(repeated(chance));
    all.extend(longest::all(chance));
    all.extend(reasons::all(chance));
    all
}

fn refused(origin: &str, sheet: Vec<u8>, row: u8, part: Range<usize>) -> Directed {
    let expected = Explanation {
        refusal: row,
        reason: 0,
        from: part.start,
        to: part.end,
    };
    let input = Input::of(origin, sheet, draft::list_s());
    (input, Some(expected))
}

/// Every beginning of an accepted sheet, with what is left of its last record.
pub fn truncations(input: &Input) -> impl Iterator<Item = Directed> + '_ {
    of_settle::truncations(input).map(|(cut, expected)| {
        let [Expected::Refusal(refusal), Expected::Place(from)] = expected else {
            return (cut, None);
        };
        let expected = Explanation {
            refusal,
            reason: 0,
            from,
            to: cut.sheet.len(),
        };
        (cut, Some(expected))
    })
}

pub fn each_bit_turned(input: &Input) -> impl Iterator<Item = Input> + '_ {
    (0..8 * input.sheet.len()).map(|bit| {
        let mut turned = input.clone();
        turned.sheet[bit / 8] ^= 1 << (bit % 8);
        turned.origin = format!("{}, bit {bit} turned", input.origin);
        turned
    })
}

/// No byte, one byte, and other bytes behind it; a head's kind byte is a head cut short.
fn first_bytes() -> Vec<Directed> {
    let mut all = Vec::new();
    for list in [Vec::new(), vec![0], draft::list_s()] {
        let (mut empty, expected) = refused("an empty sheet", Vec::new(), 1, 0..0);
        empty.list = list;
        all.push((empty, expected));
    }
    for byte in 0..=255 {
        for more in [0, 1, 40] {
            let sheet = [vec![byte], vec![1; more]].concat();
            let origin = format!("a first byte {byte}");
            if byte != Kind::Head as u8 {
                all.push(refused(&origin, sheet, 1, 0..1));
            } else if more <= 1 {
                all.push(refused(&origin, sheet, 3, 0..1 + more));
            }
        }
    }
    all
}

/// Sheet S with paths up to each of its records, and where the next one begins.
fn beginnings() -> impl Iterator<Item = (Records, usize)> {
    let records = draft::sheet_s_with_paths();
    (1..=records.len()).map(move |count| {
        let before = records[..count].to_vec();
        let from = before.iter().map(Vec::len).sum();
        (before, from)
    })
}

fn unknown_kinds() -> Vec<Directed> {
    let mut all = Vec::new();
    for (before, from) in beginnings() {
        for byte in [0, 9, 16, 255] {
            for more in [0, 1, 40] {
                let sheet = [before.concat(), vec![byte; 1 + more]].concat();
                all.push(refused("an unknown kind", sheet, 2, from..from + 1));
            }
        }
    }
    all
}

/// A record of each kind.
fn one_of_each() -> impl Iterator<Item = Vec<u8>> {
    let mut records = draft::sheet_s_with_paths();
    records.dedup_by_key(|record| record[0]);
    records.into_iter()
}

/// Each kind of record behind each record, in order or not, cut at each of its bytes.
fn cut_short() -> Vec<Directed> {
    let mut all = Vec::new();
    for (before, from) in beginnings() {
        for record in one_of_each() {
            for present in 1..record.len() {
                let sheet = [before.concat(), record[..present].to_vec()].concat();
                all.push(refused(
                    "a record cut short",
                    sheet,
                    3,
                    from..from + present,
                ));
            }
        }
    }
    all
}

/// A second head behind each record, with others behind it or not.
fn heads() -> Vec<Directed> {
    let mut all = Vec::new();
    let head = &draft::sheet_s()[0];
    for (before, from) in beginnings() {
        for behind in [Vec::new(), vec![0], vec![2; 25], head.clone()] {
            let sheet = [before.concat(), head.clone(), behind].concat();
            let part = from..from + head.len();
            all.push(refused("a second head", sheet, 4, part));
        }
    }
    all
}

/// Every record but the circulation, with a body of zeros.
fn emptied() -> Vec<Directed> {
    let mut all = Vec::new();
    let sound = draft::sheet_s_with_paths();
    for at in 0..sound.len() - 1 {
        let mut records = sound.clone();
        records[at][1..].fill(0);
        let row = if records[at][0] == Kind::Factor as u8 {
            10
        } else {
            6
        };
        let part = part_of(&records, at);
        let origin = "a body of zeros";
        all.push(refused(origin, records.concat(), row, part.clone()));
        records.truncate(at + 1);
        all.push(refused(origin, records.concat(), row, part.clone()));
        // A later record with a lower row loses.
        records.push(vec![9]);
        all.push(refused(origin, records.concat(), row, part));
    }
    all
}

fn part_of(records: &Records, at: usize) -> Range<usize> {
    let from = records[..at].iter().map(Vec::len).sum();
    from..from + records[at].len()
}

/// Two and three of a name among some of a kind: the second of them is told.
fn repeated(chance: &mut Chance) -> Vec<Directed> {
    let sizes = Sizes {
        zones: 5,
        units: 5,
        points: 5,
        pars: 5,
    };
    let mut interval = drawn(chance, sizes, Scale::TINY);
    add_lake(chance, &mut interval, Scale::TINY);
    let sound = interval.records();
    let mut all = Vec::new();
    for kind in [Kind::Zone, Kind::Unit, Kind::Point, Kind::Par, Kind::Path] {
        let own = (0..sound.len()).filter(|at| sound[*at][0] == kind as u8);
        let own: Vec<usize> = own.collect();
        for (k, first) in own.iter().enumerate() {
            for (j, second) in own.iter().enumerate().skip(k + 1) {
                for third in once(None).chain(own[j + 1..].iter().map(Some)) {
                    let mut records = sound.clone();
                    let name = records[*first][NAME].to_vec();
                    for other in once(second).chain(third) {
                        records[*other][NAME].copy_from_slice(&name);
                    }
                    let part = part_of(&records, *second);
                    all.push(refused("names repeated", records.concat(), 7, part));
                }
            }
        }
    }
    all
}
