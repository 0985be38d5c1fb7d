//! Situations that a comparison of hours must not miss.

use second::exact;
use second::fraction::Fraction;
use second::generation_to_load::Balance;
use second::hour::{LARGEST_AMOUNT, MOST_INTERVALS, MOST_SECONDS};
use second::reader::read;
use second::sheet::Rto;
use second::units::Power;

use crate::questions::hour::check::{Step, taken};
use crate::questions::hour::{Input, own_rows};
use crate::questions::settle;
use crate::questions::settle::landmarks::wheels;
use crate::sides::Second;
use crate::sides::hours::{Hour, Hours};
use crate::tally::Tally;

const TAKEN: [&str; 8] = [
    "the 60th interval",
    "exactly 3600 s",
    "60 intervals of exactly 3600 s",
    "an interval over a cell that is not zero",
    "an interval in an hour of none that bears another name",
    "an interval whose market flow would be another without wheels",
    "an interval with paths, its market flow is not settled",
    "the 60th interval with paths",
];

const REFUSED: [&str; 8] = [
    "row 24 by itself",
    "row 24 where 25 and 26 are met too",
    "row 25 by one second",
    "row 25 where 26 is met too",
    "row 26 by the name's first byte alone",
    "row 26 by the name's last byte alone",
    "row 26 by the Monitoring RTO alone",
    "row 26 by name and Monitoring RTO",
];

const TOTALS: [&str; 12] = [
    "an empty hour's totals",
    "an hour's amount below zero, NYISO monitors",
    "an hour's amount below zero, PJM monitors",
    "an hour's amount above zero, NYISO monitors",
    "an hour's amount above zero, PJM monitors",
    "an hour's amount beyond any interval's",
    "a count above 60",
    "a count of 2^64 - 1",
    "a cell clamped from above",
    "a cell clamped from below",
    "60 intervals of 65,535 s",
    "neither RTO monitors, an amount that is not zero",
];

const GROWN: [&str; 3] = [
    "a full hour off by more than any of its intervals may be",
    "an hour off by more than p + 2 W of each interval allow",
    "an hour of intervals with and without paths",
];

/// The tally's groups.
const ANSWERS: usize = 0;
const LANDMARKS: usize = 1;
const OWN: usize = 2;

pub fn tally() -> Tally {
    let refused = answers().map(|row| format!("refused {row}"));
    let answers = [String::from("accepted")].into_iter().chain(refused);
    let landmarks = TAKEN.iter().chain(&REFUSED).chain(&TOTALS);
    let landmarks = landmarks.chain(&GROWN).map(|name| name.to_string());
    let hours = ["an empty hour", "an hour of some", "a full hour"];
    let own = hours
        .iter()
        .flat_map(|hour| own_rows().map(move |row| format!("row {row} in {hour}")));
    Tally::default()
        .with("answers", answers.collect(), true)
        .with("landmarks", landmarks.collect(), true)
        .with("an interval's own refusals", own.collect(), false)
}

/// Counts what an input showed.
pub fn mark(tally: &mut Tally, input: &Input, steps: &[Step]) {
    tally.count();
    for step in steps {
        let refusal = step.changed.refusal;
        tally.mark(ANSWERS, answer(refusal));
        match refusal {
            0 => shown(tally, 0, &accepted(step)),
            24..=26 => shown(tally, TAKEN.len(), &refused(step)),
            _ => tally.mark(OWN, own(step)),
        }
    }
    let before = TAKEN.len() + REFUSED.len();
    let first = input.before.unwrap_or(Hour::EMPTY);
    let last = steps.last().map_or(first, |step| step.changed.hour);
    for hour in [first, last] {
        shown(tally, before, &totals(&hour));
    }
    if input.before.is_none() {
        shown(tally, before + TOTALS.len(), &far_off(&last, steps));
    }
}

fn shown(tally: &mut Tally, before: usize, shown: &[bool]) {
    let places = shown.iter().enumerate().filter(|(_, shown)| **shown);
    places.for_each(|(k, _)| tally.mark(LANDMARKS, before + k));
}

/// Of intervals and of hours, in the order of their numbers.
fn answers() -> impl Iterator<Item = u8> {
    let mut rows: Vec<u8> = own_rows().chain(24..=26).collect();
    rows.sort();
    rows.into_iter()
}

/// The place among the answers, acceptance first.
fn answer(refusal: u8) -> usize {
    let place = answers().position(|row| row == refusal);
    place.map_or(0, |it| it + 1)
}

fn own(step: &Step) -> usize {
    let hour = match step.before.count {
        0 => 0,
        1..MOST_INTERVALS => 1,
        _ => 2,
    };
    let row = own_rows().position(|row| row == step.changed.refusal);
    hour * own_rows().count() + row.unwrap_or(0)
}

fn accepted(step: &Step) -> [bool; TAKEN.len()] {
    let Step {
        before, changed, ..
    } = step;
    let at = before.count;
    let sheet = read(&step.interval.sheet).expect("an accepted sheet is read");
    let whole = i64::from(Second.totals(&changed.hour).seconds) == MOST_SECONDS.0;
    let last = changed.hour.count == MOST_INTERVALS;
    let named = ![[0; 16], changed.hour.name].contains(&before.name);
    let with_paths = sheet.lake.is_some();
    let answer = step.interval.answer();
    [
        last,
        whole,
        last && whole,
        (before.amounts[at], before.seconds[at]) != (0, 0),
        at == 0 && named,
        wheels::show(&sheet, &Balance::of(&sheet)),
        with_paths && answer.is_ok_and(|it| it.settled != it.flow.market),
        last && with_paths,
    ]
}

fn refused(step: &Step) -> [bool; REFUSED.len()] {
    let sheet = read(&step.interval.sheet).expect("an interval that passes its own rows");
    let (head, before) = (sheet.head, &step.before);
    let seconds = i64::from(Second.totals(before).seconds) + head.seconds.0;
    let name = head.name.field();
    let differing: Vec<usize> = (0..name.len())
        .filter(|k| name[*k] != before.name[*k])
        .collect();
    let other_rto = before.monitoring_rto != head.monitoring as u8;
    let (late, other) = (seconds > MOST_SECONDS.0, other_rto || !differing.is_empty());
    let is = |row| step.changed.refusal == row;
    [
        is(24) && !late && !other,
        is(24) && late && other,
        is(25) && seconds == MOST_SECONDS.0 + 1 && !other,
        is(25) && other && before.count > 0,
        is(26) && differing == [0] && !other_rto,
        is(26) && differing == [name.len() - 1] && !other_rto,
        is(26) && differing.is_empty(),
        is(26) && !differing.is_empty() && other_rto,
    ]
}

fn totals(hour: &Hour) -> [bool; TOTALS.len()] {
    let totals = Second.totals(hour);
    let held = hour.count.min(MOST_INTERVALS);
    let cell = |holds: fn(i64) -> bool| hour.amounts[..held].iter().any(|it| holds(*it));
    let by = |rto: Rto, sign| hour.monitoring_rto == rto as u8 && totals.amount.signum() == sign;
    [
        *hour == Hour::EMPTY,
        by(Rto::Nyiso, -1),
        by(Rto::Pjm, -1),
        by(Rto::Nyiso, 1),
        by(Rto::Pjm, 1),
        totals.amount.abs() > LARGEST_AMOUNT.0,
        hour.count > MOST_INTERVALS,
        hour.count == usize::MAX,
        cell(|amount| amount > LARGEST_AMOUNT.0),
        cell(|amount| amount < -LARGEST_AMOUNT.0),
        totals.seconds == 60 * u32::from(u16::MAX),
        ![1, 2].contains(&hour.monitoring_rto) && totals.amount != 0,
    ]
}

/// What an hour's intervals show together: a full hour's amount that lies further from the
/// sum of the exact ones than the widest of their bounds, one that lies further than their
/// bounds of p + 2 W, and both sorts of sheets.
fn far_off(hour: &Hour, steps: &[Step]) -> [bool; GROWN.len()] {
    let full = hour.count == MOST_INTERVALS;
    let sheets = || taken(steps).map(|it| read(&it.sheet).expect("an accepted sheet is read"));
    let with_paths = sheets().filter(|it| it.lake.is_some()).count();
    if !full && with_paths == 0 {
        return [false; GROWN.len()];
    }
    let [mut exact, mut widest, mut narrow] = [0; 3].map(Fraction::whole);
    for interval in taken(steps) {
        let (amount, bound, less) = exact_amount(interval);
        exact = &exact + &amount;
        widest = widest.max(bound);
        narrow = &narrow + &less;
    }
    let error = (&Fraction::whole(Second.totals(hour).amount) - &exact).abs();
    [
        full && error > widest,
        error > narrow,
        with_paths > 0 && with_paths < sheets().count(),
    ]
}

/// An accepted interval's exact amount, its bound, and what p + 2 W alone would allow.
fn exact_amount(interval: &settle::Input) -> (Fraction, Fraction, Fraction) {
    let mut sheet = read(&interval.sheet).expect("an accepted sheet is read");
    let statement = interval.answer().expect("an accepted interval is settled");
    let entitlement = Power(statement.entitlement.0 / Power(1).watts().0);
    let flow = exact::settlement_flow(&sheet, entitlement);
    let amount = exact::amount(&sheet, &flow, entitlement);
    let bound = exact::amount_bound(&sheet);
    sheet.lake = None;
    (amount, bound, exact::amount_bound(&sheet))
}
