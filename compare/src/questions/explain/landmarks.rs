//! Situations that a comparison of explanations must not miss.

use second::entitlement::entitlement;
use second::exact;
use second::fraction::Fraction;
use second::lake::impact;
use second::layout::{Kind, LONGEST_SHEET, NAME};
use second::payment::LARGEST_FLOW;
use second::reader::read;
use second::sheet::Sheet;
use second::units::{Power, Watts};
use second::{Name, Refusal, Statement, settle};

use crate::questions::explain::check::LAST_OF_RECORDS;
use crate::questions::settle::check::records;
use crate::questions::settle::{Input, own_rows};
use crate::sides::{ANY_NAME, Explanation};
use crate::tally::Tally;

/// The tally's groups.
const ANSWERS: usize = 0;
const LANDMARKS: usize = 1;
const RECORDS: usize = 2;
const CUTS: usize = 3;

const REASONS: [&str; 3] = ["above", "below", "at"];
const PRICED: [&str; 2] = ["a price above 0", "price 0"];
const PATHS: [&str; 2] = ["without paths", "with paths"];

const ACCEPTED: [&str; 15] = [
    "above by one watt",
    "below by one watt",
    "above, a price above 0 and the amount 0",
    "below, a price above 0 and the amount 0",
    "at, the market flow above",
    "at, the market flow below",
    "at, the market flow too and the adjusted flow above",
    "at, the market flow too and the adjusted flow below",
    "above, the adjusted flow paid on",
    "below, the adjusted flow paid on",
    "above, the exact flow at or below",
    "below, the exact flow at or above",
    "at, the exact flow above or below",
    "above or below, a flow on the limit",
    "the longest sheet accepted",
];

const REFUSED: [&str; 24] = [
    "an empty sheet",
    "row 1 by the sheet's only byte",
    "row 1 by a known kind",
    "row 1 by an unknown kind",
    "row 2 by the sheet's last byte",
    "row 2, bytes behind it",
    "row 3 by a kind byte alone",
    "row 3 of the first head",
    "row 3 of a second head",
    "row 3 of another record out of order",
    "rows 4 to 11, the part ends the sheet",
    "rows 4 to 11, a known kind behind the part",
    "rows 4 to 11, an unknown kind behind the part",
    "rows 4 to 11, a faulty list too",
    "row 7, one name next to the other",
    "row 7, other names between",
    "the part ends a sheet of 28,101 bytes",
    "row 2 behind the longest sheet",
    "row 3 behind the longest sheet",
    "row 4 behind the longest sheet",
    "row 5 behind the longest sheet",
    "a row of the list at the longest sheet's end",
    "a row of the balance at the longest sheet's end",
    "row 12 behind the head alone",
];

const KINDS: [Kind; 8] = [
    Kind::Head,
    Kind::Zone,
    Kind::Unit,
    Kind::Point,
    Kind::Par,
    Kind::Factor,
    Kind::Path,
    Kind::Circulation,
];

/// The rows from 3 that a record of a kind can meet. No kind is above the circulation.
fn rows_of(kind: Kind) -> &'static [u8] {
    match kind {
        Kind::Head => &[3, 4, 6, 8, 9],
        Kind::Zone => &[3, 4, 5, 6, 7, 9],
        Kind::Unit | Kind::Point | Kind::Par => &[3, 4, 5, 6, 7, 8, 9],
        Kind::Factor => &[3, 4, 10, 11],
        Kind::Path => &[3, 4, 5, 6, 7, 9, 11],
        Kind::Circulation => &[3, 5, 9],
    }
}

/// Each kind with each row.
fn met_by_records() -> impl Iterator<Item = (Kind, u8)> {
    let rows = |kind| rows_of(kind).iter().map(move |row| (kind, *row));
    KINDS.into_iter().flat_map(rows)
}

/// Each kind with each number of bytes present of a record that is cut short.
fn cuts() -> impl Iterator<Item = (Kind, usize)> {
    let lengths = |kind: Kind| (1..=kind.body()).map(move |length| (kind, length));
    KINDS.into_iter().flat_map(lengths)
}

pub fn tally() -> Tally {
    let refused = own_rows().map(|row| format!("refused {row}"));
    let answers = [String::from("accepted")].into_iter().chain(refused);
    let mut landmarks = Vec::new();
    for reason in REASONS {
        for priced in PRICED {
            landmarks.extend(PATHS.map(|paths| format!("{reason}, {priced}, {paths}")));
        }
    }
    landmarks.extend(ACCEPTED.iter().chain(&REFUSED).map(|it| it.to_string()));
    let records = met_by_records().map(|(kind, row)| format!("{kind:?}: row {row}"));
    let cuts = cuts().map(|(kind, length)| format!("{kind:?}: {length} bytes of it"));
    Tally::default()
        .with("answers", answers.collect(), true)
        .with("landmarks", landmarks, true)
        .with("kinds of records by rows", records.collect(), false)
        .with("records cut short", cuts.collect(), false)
}

/// Counts what an input showed.
pub fn mark(tally: &mut Tally, input: &Input, explanation: &Explanation) {
    tally.count();
    let refusal = explanation.refusal;
    let answer = own_rows().position(|row| row == refusal);
    tally.mark(ANSWERS, answer.map_or(0, |it| it + 1));
    let of_reasons = REASONS.len() * PRICED.len() * PATHS.len();
    if refusal == 0 {
        let (reason, others) = accepted(input, explanation);
        tally.mark(LANDMARKS, reason);
        shown(tally, of_reasons, &others);
        return;
    }
    let others = refused(input, explanation);
    shown(tally, of_reasons + ACCEPTED.len(), &others);
    let part = &input.sheet[explanation.from..explanation.to];
    let Some(kind) = part.first().and_then(|byte| Kind::of(*byte)) else {
        return;
    };
    let met = met_by_records().position(|it| it == (kind, refusal));
    met.into_iter().for_each(|k| tally.mark(RECORDS, k));
    if refusal == 3 {
        let cut = cuts().position(|it| it == (kind, part.len()));
        cut.into_iter().for_each(|k| tally.mark(CUTS, k));
    }
}

fn shown(tally: &mut Tally, before: usize, shown: &[bool]) {
    let places = shown.iter().enumerate().filter(|(_, shown)| **shown);
    places.for_each(|(k, _)| tally.mark(LANDMARKS, before + k));
}

/// The place among reason, price and paths, and which of the others are shown.
fn accepted(input: &Input, explanation: &Explanation) -> (usize, [bool; ACCEPTED.len()]) {
    let statement = settle(&input.sheet, &input.list).expect("it is accepted");
    let sheet = read(&input.sheet).expect("an accepted sheet is read");
    let reason = usize::from(explanation.reason) - 1;
    let priced = is_priced(explanation.reason, &sheet);
    let paths = usize::from(statement.has_paths);
    let place = (reason * PRICED.len() + usize::from(!priced)) * PATHS.len() + paths;
    let longest = input.sheet.len() == LONGEST_SHEET;
    (
        place,
        sides(explanation.reason, &sheet, &statement, longest),
    )
}

/// Whether the price of that side is above 0; at the entitlement either of them.
fn is_priced(reason: u8, sheet: &Sheet) -> bool {
    let (above, below) = (sheet.head.monitoring_price, sheet.head.non_monitoring_price);
    match reason {
        1 => above.0 > 0,
        2 => below.0 > 0,
        _ => above.0 > 0 || below.0 > 0,
    }
}

fn sides(
    reason: u8,
    sheet: &Sheet,
    statement: &Statement,
    longest: bool,
) -> [bool; ACCEPTED.len()] {
    let (market, settled) = (statement.flow.market, statement.settled);
    let entitlement = statement.entitlement;
    let adjusted = market + sheet.lake.as_ref().map_or(Watts::ZERO, impact);
    let [above, below, at] = [1, 2, 3].map(|it| it == reason);
    let free = statement.payment.price.0 > 0 && statement.payment.amount.0 == 0;
    let exact = exact_side(sheet, statement);
    let by_adjusted = settled == adjusted && settled != market;
    [
        settled == entitlement + Watts(1),
        settled == entitlement - Watts(1),
        above && free,
        below && free,
        at && market > entitlement,
        at && market < entitlement,
        at && market == entitlement && adjusted > entitlement,
        at && market == entitlement && adjusted < entitlement,
        above && by_adjusted,
        below && by_adjusted,
        above && exact <= 0,
        below && exact >= 0,
        at && exact != 0,
        !at && settled.abs() == LARGEST_FLOW,
        longest,
    ]
}

/// The sign of the exact difference; the rounded one's where it is far away.
fn exact_side(sheet: &Sheet, statement: &Statement) -> i64 {
    let difference = statement.settled - statement.entitlement;
    if difference.abs() > Watts(exact::settled_bound(sheet)) {
        return difference.0.signum();
    }
    let entitlement = Power(statement.entitlement.0 / Power(1).watts().0);
    let flow = exact::settlement_flow(sheet, entitlement);
    (&flow - &Fraction::whole(statement.entitlement.0)).signum()
}

fn refused(input: &Input, explanation: &Explanation) -> [bool; REFUSED.len()] {
    let (sheet, row) = (&input.sheet[..], explanation.refusal);
    let (before, rest) = sheet.split_at(explanation.from);
    let (part, behind) = rest.split_at(explanation.to - explanation.from);
    let known = |bytes: &[u8]| bytes.first().is_some_and(|byte| Kind::of(*byte).is_some());
    let is = |number: u8| row == number;
    let whole = (4..=LAST_OF_RECORDS).contains(&row);
    let (cut, ends) = (cut_short(row, before, part), behind.is_empty());
    let names = repeated(row, before, part);
    let [at_end, behind_longest] = [explanation.to, explanation.from].map(|it| it == LONGEST_SHEET);
    let longest = sheet.len() == LONGEST_SHEET;
    [
        sheet.is_empty(),
        is(1) && sheet.len() == 1,
        is(1) && known(part),
        is(1) && !part.is_empty() && !known(part),
        is(2) && ends,
        is(2) && !ends,
        is(3) && part.len() == 1,
        cut[0],
        cut[1],
        cut[2],
        whole && ends,
        whole && known(behind),
        whole && !ends && !known(behind),
        whole && is_faulty(&input.list),
        names[0],
        names[1],
        whole && at_end && longest,
        is(2) && behind_longest,
        is(3) && behind_longest,
        is(4) && behind_longest,
        is(5) && behind_longest,
        (14..=15).contains(&row) && longest,
        (16..=22).contains(&row) && longest,
        is(12) && sheet.len() == 1 + Kind::Head.body(),
    ]
}

/// The first head, a second one, another record out of order.
fn cut_short(row: u8, before: &[u8], part: &[u8]) -> [bool; 3] {
    if row != 3 {
        return [false; 3];
    }
    let head = part[0] == Kind::Head as u8;
    let last = records(before).last().map_or(0, |record| record[0]);
    let first = before.is_empty();
    [first, !first && head, !head && part[0] < last]
}

/// Next to each other, or with others between.
fn repeated(row: u8, before: &[u8], part: &[u8]) -> [bool; 2] {
    if row != 7 {
        return [false; 2];
    }
    let last = records(before).last().map(|record| &record[NAME]);
    let next = last == Some(&part[NAME]);
    [next, !next]
}

fn is_faulty(list: &[u8]) -> bool {
    let any = Name::of(ANY_NAME).expect("it is a name");
    entitlement(list, any) == Err(Refusal::FaultyList)
}
