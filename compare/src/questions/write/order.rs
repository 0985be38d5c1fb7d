//! Several faults at once, lines into zone 0 among them, and factors that are not in
//! their order.

use std::collections::BTreeMap;

use crate::questions::write::counts::Made;
use crate::questions::write::fields::{self, Alteration};
use crate::sides::drafts::{Draft, Factor};

/// A draft with two faults.
pub struct Pair {
    pub what: String,
    pub draft: Box<Draft>,
    /// The row of the first faulty record, the lowest that it meets.
    pub row: u8,
    /// Both rows where the faults stand on two records, the earlier one's first.
    pub rows: Option<[u8; 2]>,
}

/// Each row of each record with each row of each other record, and with each other row
/// of the same.
pub fn pairs(base: &Draft) -> Vec<Pair> {
    let mut faults: BTreeMap<(usize, u8), Vec<Alteration>> = BTreeMap::new();
    for fault in fields::all(base).into_iter().filter(|it| it.row != 0) {
        let alike = faults.entry((fault.record, fault.row)).or_default();
        alike.push(fault);
    }
    let faults: Vec<Vec<Alteration>> = faults.into_values().collect();
    let mut pairs = Vec::new();
    for (k, first) in faults.iter().enumerate() {
        for (turn, second) in faults[k + 1..].iter().enumerate() {
            let first = &first[turn % first.len()];
            let second = &second[(turn + k) % second.len()];
            if !exclude(first, second) {
                pairs.push(pair(base, first, second));
            }
        }
    }
    pairs
}

/// A name can't be ill-formed and one of those before.
fn exclude(first: &Alteration, second: &Alteration) -> bool {
    first.record == second.record && [first.row, second.row] == [6, 7]
}

/// The first fault comes first by record and row.
fn pair(base: &Draft, first: &Alteration, second: &Alteration) -> Pair {
    let mut draft = Box::new(*base);
    first.make(&mut draft);
    second.make(&mut draft);
    let apart = first.record != second.record;
    Pair {
        what: format!("{}, and {}", first.what, second.what),
        draft,
        row: first.row,
        rows: apart.then_some([first.row, second.row]),
    }
}

/// Factors exchanged, left out or doubled.
pub fn factors(base: &Draft) -> impl Iterator<Item = Made> {
    let count = base.factor_count;
    let some = [
        0,
        1,
        count / 3,
        count / 2,
        count.saturating_sub(3),
        count - 2,
    ];
    let mut all = Vec::new();
    for k in some.into_iter().filter(|k| k + 1 < count) {
        let mut add = |what: &str, draft: Draft, row: u8| {
            all.push((format!("factor {k} {what}"), Box::new(draft), row));
        };
        let mut draft = *base;
        draft.factors.swap(k, k + 1);
        add("and the next exchanged", draft, 10);
        let mut draft = *base;
        draft.factors.swap(k, count - 1);
        add("and the last exchanged", draft, 10);
        let mut draft = *base;
        draft.factors.copy_within(k + 1..count, k);
        draft.factors[count - 1] = Factor::NONE;
        draft.factor_count -= 1;
        add("left out", draft, 10);
        let mut draft = *base;
        draft.factors.copy_within(k..count, k + 1);
        draft.factor_count += 1;
        add("doubled", draft, 10);
    }
    all.into_iter()
}

/// Lines into zone 0 with another fault on the same point, before it and behind it.
pub fn into_zone_0(base: &Draft) -> impl Iterator<Item = Made> {
    let count = base.point_count;
    let mut all = Vec::new();
    for k in (0..count).filter(|k| [0, count / 2, count - 1].contains(k)) {
        let mut with = |row: u8, alter: &dyn Fn(&mut Draft)| {
            let mut draft = Box::new(*base);
            (draft.points[k].line, draft.points[k].zone) = (1, 0);
            alter(&mut draft);
            all.push((format!("point {k} into zone 0, row {row}"), draft, row));
        };
        with(8, &|_| {});
        with(8, &|it| it.points[k].import = 200_001);
        with(8, &|it| it.points[k].export = u32::MAX);
        with(8, &|it| it.points[k].wheel_in = 200_001);
        with(8, &|it| it.points[k].wheel_out = u32::MAX);
        with(8, &|it| it.points[k].sort = 3);
        with(6, &|it| it.points[k].name = [0; 16]);
        with(9, &|it| it.units[0].output = 2_000_001);
        with(8, &|it| it.factors[0].index = 0);
        with(8, &|it| it.factor_count = 0);
        if k > 0 {
            with(7, &|it| it.points[k].name = it.points[0].name);
            with(9, &|it| it.points[k - 1].import = 200_001);
            with(9, &|it| it.points[k - 1].wheel_out = 200_001);
        }
    }
    all.into_iter()
}
