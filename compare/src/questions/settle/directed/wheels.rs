//! Wheels on points of every place and type, at their ends and past them; points of the
//! earlier form; points behind the longest sheet.

use second::draft;
use second::layout::{Kind, LONGEST_SHEET, SCHEDULES};

use crate::chance::Chance;
use crate::interval::Interval;
use crate::questions::settle::check::records;
use crate::questions::settle::directed::{Directed, expecting, parts, sheet_s, with_entitlement};
use crate::questions::settle::inputs::point_behind_the_longest;
use crate::questions::settle::{Expected, Input, earlier};

const ROUNDS: usize = 20;

/// A point's wheels among its schedules.
const WHEELS: [usize; 2] = [2, 3];

/// More than all loads and outputs of `parts::all_differ`.
const MUCH: u32 = 10_000;

pub fn all(chance: &mut Chance) -> Vec<Directed> {
    let mut all = vec![sheet_s_with_wheels()];
    all.push(of_earlier_form(&sheet_s()));
    for _ in 0..ROUNDS {
        let sound = wheeling(chance);
        all.push(expecting("wheels on every point", &sound, 0));
        let sheet = with_entitlement("wheels on every point", &sound, 0);
        all.push(of_earlier_form(&sheet));
        // The first line and the last proxy.
        for at in [0, sound.points.len() - 1] {
            for wheel in WHEELS {
                let mut much = sound.clone();
                *much.points[at].schedules_mut()[wheel] = MUCH;
                all.push(expecting("more wheels than loads and outputs", &much, 0));
                all.extend(at_its_end(chance, &sound, at, wheel));
            }
        }
    }
    all.extend(behind_the_longest(chance));
    all
}

/// Net schedules are 540 and 70. T1 carries a quarter of 11,250,000 + 540 x 2000 x 10 and
/// controls 500,000.
fn sheet_s_with_wheels() -> Directed {
    let sheet = draft::sheet_s_with_wheels().concat();
    let input = Input::of("sheet S with wheels", sheet, draft::list_s());
    let lines = [
        "gtl 12600000 0 0",
        "parallel 5400000",
        "shadow 280000",
        "common 5012500",
        "market 13267500",
        "amount 1361458",
    ];
    let lines = lines.map(|line| Expected::Line(line.to_string()));
    (input, lines.into())
}

/// Every point wheels in and out, less than would bring a load or an output to zero.
fn wheeling(chance: &mut Chance) -> Interval {
    let mut interval = parts::all_differ(chance);
    for (k, point) in interval.points.iter_mut().enumerate() {
        point.class = 1 + (k % 2) as u8;
        point.wheel_in = chance.within(1..=100) as u32;
        point.wheel_out = chance.within(101..=200) as u32;
    }
    interval
}

/// One wheel at its largest, which passes, and past it, beside row 8 and by itself.
fn at_its_end(chance: &mut Chance, sound: &Interval, at: usize, wheel: usize) -> Vec<Directed> {
    let mut interval = sound.clone();
    let largest = *SCHEDULES.end() as u32;
    // The market flow stays in range.
    for factors in [&mut interval.flowgate]
        .into_iter()
        .chain(&mut interval.on_pars)
    {
        factors.points[at] = chance.within(1..=20) as i16;
    }
    let values = [
        (largest - 1, 0),
        (largest, 0),
        (largest + 1, 9),
        (0x8000_0000, 9),
        (0x8000_0000 | largest, 9),
        (u32::MAX, 9),
    ];
    let mut all = Vec::new();
    for (value, row) in values {
        *interval.points[at].schedules_mut()[wheel] = value;
        all.push(at_point(&interval, at, row));
        let mut unlisted = interval.clone();
        match chance.one_in(2) {
            true => unlisted.points[at].class = 3,
            false => unlisted.points[at].place = interval.zones.len() as u8 + 1,
        }
        all.push(at_point(&unlisted, at, 8));
    }
    all
}

/// With this point's place where it refuses.
fn at_point(interval: &Interval, at: usize, row: u8) -> Directed {
    let (input, mut expected) = expecting("a wheel at its end and past it", interval, row);
    if row != 0 {
        let before = 1 + interval.zones.len() + interval.units.len() + at;
        let before = interval.records()[..before].concat();
        expected.push(Expected::Place(before.len()));
    }
    (input, expected)
}

/// Row 9 at the first point: the next record's kind is the first byte of its wheel in.
fn of_earlier_form(input: &Input) -> Directed {
    let mut input = input.clone();
    input.origin += ", points of the earlier form";
    let records = records(&input.sheet).into_iter();
    let before = records.take_while(|it| it[0] < Kind::Point as u8);
    let place = before.map(<[u8]>::len).sum();
    input.sheet = earlier::with_points_of(earlier::BODY, &input.sheet);
    (input, vec![Expected::Refusal(9), Expected::Place(place)])
}

/// Row 3 up to the point's last byte, and 4 with it.
fn behind_the_longest(chance: &mut Chance) -> Vec<Directed> {
    let whole = 1 + Kind::Point.body();
    let lengths = [1, earlier::BODY, whole - 1, whole];
    let behind = lengths.map(|length| {
        let row = if length < whole { 3 } else { 4 };
        let expected = vec![Expected::Refusal(row), Expected::Place(LONGEST_SHEET)];
        (point_behind_the_longest(chance, length), expected)
    });
    behind.into()
}
