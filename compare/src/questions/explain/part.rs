//! What the papers say of a part: how long it is, and that its record meets its row.

use std::ops::RangeInclusive;

use second::Name;
use second::due::Due;
use second::layout::{
    FACTORS, Fields, Kind, LAKE_FLOWS, LOADS, MOST_CIRCULATIONS, MOST_PARS, MOST_PATHS,
    MOST_POINTS, MOST_UNITS, MOST_ZONES, NAME, PAR_FLOWS, PRICES, SCHEDULES, SECONDS,
};

use crate::questions::settle::check::records;
use crate::sides::Explanation;

pub fn holds(sheet: &[u8], explanation: &Explanation) -> bool {
    let (before, rest) = sheet.split_at(explanation.from);
    let (part, behind) = rest.split_at(explanation.to - explanation.from);
    let kind = part.first().and_then(|byte| Kind::of(*byte));
    match (explanation.refusal, kind) {
        (1, _) if sheet.is_empty() => true,
        (1, kind) => before.is_empty() && part.len() == 1 && kind != Some(Kind::Head),
        (2, kind) => !before.is_empty() && part.len() == 1 && kind.is_none(),
        (3, Some(kind)) => part.len() <= kind.body() && behind.is_empty(),
        (row @ 4..=11, Some(kind)) => {
            part.len() == 1 + kind.body() && meets(row, kind, &records(before), part)
        }
        (3..=11, None) => false,
        _ => part.is_empty() && behind.is_empty(),
    }
}

/// Whether a whole record behind these meets this row.
fn meets(row: u8, kind: Kind, before: &[&[u8]], record: &[u8]) -> bool {
    match row {
        4 => out_of_order(kind, before, record),
        5 => most(kind) == Some(count(kind, before)),
        6 => name(kind, record).is_some_and(|it| Name::of(it).is_none()),
        7 => is_repeated(kind, before, record),
        8 => is_unlisted(kind, count(Kind::Zone, before), record),
        9 => is_out_of_range(kind, record),
        10 => is_not_due(kind, before, record),
        _ => factor(kind, record).is_some_and(|it| !FACTORS.contains(&it)),
    }
}

fn of_kind<'a>(kind: Kind, records: &'a [&'a [u8]]) -> impl Iterator<Item = &'a [u8]> {
    let records = records.iter().copied();
    records.filter(move |record| record[0] == kind as u8)
}

fn count(kind: Kind, records: &[&[u8]]) -> usize {
    of_kind(kind, records).count()
}

fn out_of_order(kind: Kind, before: &[&[u8]], record: &[u8]) -> bool {
    let falls = |last: &&[u8]| record[0] < last[0];
    before.last().is_some_and(falls) || (kind == Kind::Head && !before.is_empty())
}

fn most(kind: Kind) -> Option<usize> {
    match kind {
        Kind::Zone => Some(MOST_ZONES),
        Kind::Unit => Some(MOST_UNITS),
        Kind::Point => Some(MOST_POINTS),
        Kind::Par => Some(MOST_PARS),
        Kind::Path => Some(MOST_PATHS),
        Kind::Circulation => Some(MOST_CIRCULATIONS),
        Kind::Head | Kind::Factor => None,
    }
}

fn name(kind: Kind, record: &[u8]) -> Option<[u8; 16]> {
    match kind {
        Kind::Factor | Kind::Circulation => None,
        _ => record.get(NAME)?.try_into().ok(),
    }
}

fn is_repeated(kind: Kind, before: &[&[u8]], record: &[u8]) -> bool {
    let own = name(kind, record);
    own.is_some() && of_kind(kind, before).any(|earlier| name(kind, earlier) == own)
}

fn is_unlisted(kind: Kind, zones: usize, record: &[u8]) -> bool {
    let codes = &record[NAME.end.min(record.len())..];
    let listed = |code: u8| code == 1 || code == 2;
    match (kind, codes) {
        (Kind::Head | Kind::Par, [code, ..]) => !listed(*code),
        (Kind::Unit, [zone, ..]) => *zone == 0 || usize::from(*zone) > zones,
        (Kind::Point, [class, place, ..]) => !listed(*class) || usize::from(*place) > zones,
        _ => false,
    }
}

fn is_out_of_range(kind: Kind, record: &[u8]) -> bool {
    let behind_name = name(kind, record).map_or(1, |_| NAME.end);
    let mut fields = Fields::of(&record[behind_name..]);
    let beyond = |values: &[i64], range: &RangeInclusive<i64>| {
        values.iter().any(|value| !range.contains(value))
    };
    match kind {
        Kind::Head => {
            fields.byte();
            let seconds = fields.unsigned_2();
            let prices = [fields.unsigned_4(), fields.unsigned_4()];
            beyond(&[seconds], &SECONDS) || beyond(&prices, &PRICES)
        }
        Kind::Zone => beyond(&[fields.unsigned_4(), fields.unsigned_4()], &LOADS),
        Kind::Unit => {
            fields.byte();
            beyond(&[fields.unsigned_4()], &LOADS)
        }
        Kind::Point => {
            fields.bytes::<2>();
            let schedules = [0; 4].map(|_| fields.unsigned_4());
            beyond(&schedules, &SCHEDULES)
        }
        Kind::Par => {
            fields.byte();
            beyond(&[fields.signed_4(), fields.signed_4()], &PAR_FLOWS)
        }
        Kind::Path | Kind::Circulation => beyond(&[fields.signed_4()], &LAKE_FLOWS),
        Kind::Factor => false,
    }
}

fn is_not_due(kind: Kind, before: &[&[u8]], record: &[u8]) -> bool {
    let subjects = [Kind::Unit, Kind::Zone, Kind::Point, Kind::Par];
    let mut due = Due::by(subjects.map(|subject| count(subject, before)));
    let due = due.nth(count(Kind::Factor, before));
    kind == Kind::Factor && due.is_none_or(|due| record[1..5] != due)
}

/// The factor of a record that has one ends it.
fn factor(kind: Kind, record: &[u8]) -> Option<i64> {
    match kind {
        Kind::Factor | Kind::Path => Some(Fields::of(&record[record.len() - 2..]).signed_2()),
        _ => None,
    }
}

#[cfg(test)]
mod tests {
    use super::*;
    use second::draft::{self, name, unit, zone};

    fn explanation(refusal: u8, from: usize, to: usize) -> Explanation {
        Explanation {
            refusal,
            reason: 0,
            from,
            to,
        }
    }

    /// Of all parts that begin with a record, and of the one at the end.
    #[test]
    fn no_other_part_and_no_other_row_holds() {
        let mut records = draft::sheet_s();
        records[2] = zone(name(b"Z1"), 1, 1);
        records[3] = unit(name(b"U1"), 3, 1);
        let sheet = records.concat();
        let begins = (0..=records.len()).map(|at| records[..at].concat().len());
        let begins: Vec<usize> = begins.collect();
        let met = |refusal| {
            let parts = begins.iter().flat_map(|from| {
                let ends = *from..=sheet.len();
                ends.map(|to| (*from, to))
            });
            let met = parts.filter(|(from, to)| holds(&sheet, &explanation(refusal, *from, *to)));
            met.collect::<Vec<_>>()
        };
        for row in (1..=22).chain([28]) {
            let expected = match row {
                7 => vec![(53, 78)],
                8 => vec![(78, 100)],
                1..=11 => vec![],
                _ => vec![(sheet.len(), sheet.len())],
            };
            assert_eq!(met(row), expected, "row {row}");
        }
    }

    #[test]
    fn kind_bytes_and_what_is_left_of_a_record() {
        let sheet = draft::sheet_s().concat();
        assert!(holds(&[], &explanation(1, 0, 0)));
        assert!(holds(&[2, 0], &explanation(1, 0, 1)));
        assert!(!holds(&[2, 0], &explanation(1, 0, 2)));
        assert!(!holds(&[1, 0], &explanation(1, 0, 1)));
        let unknown = [&sheet[..28], &[9, 9]].concat();
        assert!(holds(&unknown, &explanation(2, 28, 29)));
        assert!(!holds(&unknown, &explanation(2, 28, 30)));
        assert!(!holds(&unknown, &explanation(2, 28, 28)));
        assert!(holds(&sheet[..40], &explanation(3, 28, 40)));
        assert!(!holds(&sheet[..40], &explanation(3, 28, 39)));
        assert!(!holds(&sheet[..53], &explanation(3, 28, 53)));
    }
}
