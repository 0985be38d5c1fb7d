//! Paths and the circulation: which of the three flows is settled, figures that would be
//! others by a wrong rule, and rows that are met at paths and the circulation.

use second::exact;
use second::fraction::Fraction;
use second::lake::{impact, unrounded_impact};
use second::layout::{Fields, Kind, LAKE_FLOWS, LONGEST_SHEET, NAME};
use second::payment::LARGEST_FLOW;
use second::reader::read;
use second::sheet::{Lake, Path, Sheet};
use second::units::{AMOUNT_DIVISOR, Power, QUARTERS, QuarterWatts, Watts};
use second::{Refusal, Statement, settle};

use crate::questions::settle::Input;
use crate::questions::settle::check::records;

pub const ACCEPTED: [&str; 36] = [
    "the market flow is settled, the entitlement above and the adjusted flow below",
    "the market flow is settled, the adjusted flow above and the entitlement below",
    "the adjusted flow is settled, the entitlement above and the market flow below",
    "the adjusted flow is settled, the market flow above and the entitlement below",
    "the entitlement is settled, the adjusted flow above and the market flow below",
    "the entitlement is settled, the market flow above and the adjusted flow below",
    "an impact of zero, paths that carry something",
    "a whole impact that is not zero",
    "an impact of 10^11 W",
    "an impact of -10^11 W",
    "path flow, circulation and factor each at both ends",
    "market flow above the limit, the entitlement is settled",
    "market flow below the limit, the entitlement is settled",
    "market flow above the limit, the adjusted flow is settled",
    "market flow below the limit, the adjusted flow is settled",
    "adjusted flow above the limit, the market flow is settled",
    "adjusted flow below the limit, the market flow is settled",
    "settlement flow on the upper limit, market flow above it",
    "settlement flow on the lower limit, market flow below it",
    "settlement flow within 9 W of a limit, market flow beyond it",
    "market flow beyond 10^11 W, accepted",
    "another settlement flow if the circulation were not divided",
    "another settlement flow if the circulation were left out",
    "another settlement flow if each path were rounded",
    "another settlement flow if the impact were subtracted",
    "settlement flow off by more than p + 2 W",
    "settlement flow off by more than 9 W",
    "amount off by more than p + 2 W allow",
    "at the entitlement, the exact settlement flow above it",
    "at the entitlement, the exact settlement flow below it",
    "off the entitlement, the exact settlement flow at it",
    "the exact settlement flow on the other side",
    "the longest sheet without paths, of 28,004 bytes",
    "the longest listing without paths",
    "a path with the name of another kind's record",
    "settled at zero, a line of its own",
];

pub const REFUSED: [&str; 36] = [
    "row 28 by one path alone",
    "row 28 by two paths alone",
    "row 28 by three paths alone",
    "row 28 by four paths alone",
    "row 28 by a circulation alone",
    "row 28 by one path and a circulation",
    "row 28 by two paths and a circulation",
    "row 28 by three paths and a circulation",
    "row 12 where 28 is met too",
    "row 13 where 28 is met too",
    "row 28 where 14 is met too",
    "row 28 where 15 is met too",
    "row 28 where 16 is met too",
    "row 28 where 22 is met too",
    "row 3 by a path cut short",
    "row 3 by a circulation cut short",
    "row 4 by a factor behind a path",
    "row 4 by a factor behind the circulation",
    "row 4 by a path behind the circulation",
    "row 5 by a fifth path",
    "row 5 by a second circulation",
    "row 6 by a path",
    "row 7 by a path",
    "row 9 by a path's flow of 200,001 alone",
    "row 9 by a path's flow of -200,001 alone",
    "row 9 by a path's flow where its factor meets 11",
    "row 9 by a circulation of 200,001",
    "row 9 by a circulation of -200,001",
    "row 11 by a path's factor of 10,001",
    "row 11 by a path's factor of -10,001",
    "row 22, market and adjusted flow above the limit",
    "row 22, market and adjusted flow below the limit",
    "row 22 by 9 W or less, the adjusted flow would be settled",
    "row 22 by 10 W or less, the market flow would be settled with paths",
    "row 5 by a second circulation behind the longest sheet",
    "row 4 by a path behind the longest sheet",
];

/// Places in ACCEPTED that speak of sheets without paths too.
const LONGEST: usize = 32;
/// The longest sheet without paths.
const WITHOUT_PATHS: usize = LONGEST_SHEET - 4 * 23 - 5;

pub fn accepted(
    input: &Input,
    sheet: &Sheet,
    statement: &Statement,
    longest_listing: bool,
) -> Vec<bool> {
    let mut shown = vec![false; ACCEPTED.len()];
    if let Some(lake) = &sheet.lake {
        let flows = Flows::of(lake, statement);
        let groups = [
            &flows.in_the_middle()[..],
            &of_impact(lake),
            &flows.at_the_limit(),
            &flows.by_other_rules(lake),
            &accuracy(sheet, statement),
        ];
        let groups = groups.concat();
        shown[..LONGEST].copy_from_slice(&groups);
        shown[LONGEST + 2] = shares_a_name(sheet, &lake.paths);
        shown[LONGEST + 3] = statement.settled == Watts::ZERO;
    }
    shown[LONGEST] = sheet.lake.is_none() && input.sheet.len() == WITHOUT_PATHS;
    shown[LONGEST + 1] = sheet.lake.is_none() && longest_listing;
    shown
}

/// The three flows of a sheet with paths, and the one that is settled.
struct Flows {
    market: Watts,
    adjusted: Watts,
    entitlement: Watts,
    settled: Watts,
}

impl Flows {
    fn of(lake: &Lake, statement: &Statement) -> Self {
        Flows {
            market: statement.flow.market,
            adjusted: statement.flow.market + impact(lake),
            entitlement: statement.entitlement,
            settled: statement.settled,
        }
    }

    /// Each strictly between the two others, in both orders.
    fn in_the_middle(&self) -> [bool; 6] {
        let rising = |flows: [Watts; 3]| flows[0] < flows[1] && flows[1] < flows[2];
        let Flows {
            market,
            adjusted,
            entitlement,
            ..
        } = *self;
        [
            rising([adjusted, market, entitlement]),
            rising([entitlement, market, adjusted]),
            rising([market, adjusted, entitlement]),
            rising([entitlement, adjusted, market]),
            rising([market, entitlement, adjusted]),
            rising([adjusted, entitlement, market]),
        ]
    }

    fn at_the_limit(&self) -> [bool; 10] {
        let Flows {
            market,
            adjusted,
            entitlement,
            settled,
        } = *self;
        let above = market > LARGEST_FLOW;
        let below = market < -LARGEST_FLOW;
        let left = LARGEST_FLOW - settled.abs();
        [
            above && settled == entitlement && settled != adjusted,
            below && settled == entitlement && settled != adjusted,
            above && settled == adjusted && settled != entitlement,
            below && settled == adjusted && settled != entitlement,
            adjusted > LARGEST_FLOW && settled == market && settled != entitlement,
            adjusted < -LARGEST_FLOW && settled == market && settled != entitlement,
            above && settled == LARGEST_FLOW,
            below && settled == -LARGEST_FLOW,
            (above || below) && (1..10).contains(&left.0),
            market.abs() > Watts(100_000_000_000),
        ]
    }

    /// Whether another impact would be told from this one.
    fn by_other_rules(&self, lake: &Lake) -> [bool; 4] {
        let other = |impact: Watts| {
            let flows = [self.market, self.market + impact, self.entitlement];
            second::lake::middle(flows) != self.settled
        };
        let mut without = lake.clone();
        without.circulation = Power::ZERO;
        let mut undivided = lake.clone();
        undivided.circulation = Power(QUARTERS * lake.circulation.0);
        let each = lake.paths.iter().map(|path| {
            let alone = Lake {
                paths: vec![*path],
                circulation: lake.circulation,
            };
            impact(&alone)
        });
        [
            other(impact(&undivided)),
            other(impact(&without)),
            other(each.sum()),
            other(-impact(lake)),
        ]
    }
}

/// Zero, whole, the greatest, and fields at their ends.
fn of_impact(lake: &Lake) -> [bool; 5] {
    let QuarterWatts(quarters) = unrounded_impact(lake);
    let carries = |path: &Path| path.factor.0 * path.flow.0 != 0;
    let flows = || lake.paths.iter().map(|path| path.flow.0);
    let factors = || lake.paths.iter().map(|path| path.factor.0);
    let (least, most) = LAKE_FLOWS.into_inner();
    let greatest = 400_000_000_000;
    [
        quarters == 0 && lake.paths.iter().any(carries),
        quarters != 0 && quarters % QUARTERS == 0,
        quarters == greatest,
        quarters == -greatest,
        flows().any(|it| it == least)
            && flows().any(|it| it == most)
            && factors().any(|it| it == 10_000)
            && factors().any(|it| it == -10_000)
            && lake.circulation.abs() == Power(most),
    ]
}

/// The settlement flow and the amount beside the exact ones.
fn accuracy(sheet: &Sheet, statement: &Statement) -> [bool; 7] {
    let entitlement = Power(statement.entitlement.0 / Power(1).watts().0);
    let exact = exact::settlement_flow(sheet, entitlement);
    let error = (&Fraction::whole(statement.settled.0) - &exact).abs();
    let bound = exact::flow_bound(sheet);
    let amount = exact::amount(sheet, &exact, entitlement);
    let amount_error = (&Fraction::whole(statement.payment.amount.0) - &amount).abs();
    let head = &sheet.head;
    let dearer = head.monitoring_price.max(head.non_monitoring_price);
    let worth = Fraction::of(bound * dearer.0 * head.seconds.0, AMOUNT_DIVISOR);
    let side = (statement.settled - statement.entitlement).0.signum();
    let exact_side = (&exact - &Fraction::whole(statement.entitlement.0)).signum();
    [
        error > Fraction::whole(bound),
        error > Fraction::whole(9),
        amount_error > &worth + &Fraction::of(1, 2),
        side == 0 && exact_side > 0,
        side == 0 && exact_side < 0,
        side != 0 && exact_side == 0,
        side * exact_side < 0,
    ]
}

fn shares_a_name(sheet: &Sheet, paths: &[Path]) -> bool {
    let zones = sheet.zones.iter().map(|it| it.name);
    let units = sheet.units.iter().map(|it| it.name);
    let mut names = zones.chain(units);
    names.any(|name| paths.iter().any(|path| path.name == name))
}

/// How many paths and circulations are among the whole records.
fn counted(sheet: &[u8]) -> (usize, usize) {
    let records = records(sheet);
    let count = |kind: Kind| records.iter().filter(|it| it[0] == kind as u8).count();
    (count(Kind::Path), count(Kind::Circulation))
}

fn incomplete(counted: (usize, usize)) -> bool {
    ![(0, 0), (4, 1)].contains(&counted)
}

pub fn refused(input: &Input, refusal: Refusal) -> Vec<bool> {
    let groups = [
        &by_counts(input, refusal)[..],
        &at_a_record(input, refusal),
        &beyond_the_limit(input, refusal),
        &behind_the_longest(input, refusal),
    ];
    let shown = groups.concat();
    assert_eq!(shown.len(), REFUSED.len());
    shown
}

/// Row 28 in its ways, and beside other rows.
fn by_counts(input: &Input, refusal: Refusal) -> [bool; 14] {
    let is = |row| refusal == row;
    let counted = match refusal {
        Refusal::LakeIncomplete | Refusal::NothingToSettle | Refusal::FactorsStillDue => {
            counted(&input.sheet)
        }
        _ => (0, 0),
    };
    let row_28 = is(Refusal::LakeIncomplete);
    // What the sheet without its paths would meet.
    let then = match row_28 {
        true => settle(&without_lake(&input.sheet), &input.list).err(),
        false => None,
    };
    let by = |paths, circulations| row_28 && counted == (paths, circulations);
    [
        by(1, 0),
        by(2, 0),
        by(3, 0),
        by(4, 0),
        by(0, 1),
        by(1, 1),
        by(2, 1),
        by(3, 1),
        is(Refusal::NothingToSettle) && incomplete(counted),
        is(Refusal::FactorsStillDue) && incomplete(counted),
        then == Some(Refusal::FaultyList),
        then == Some(Refusal::NoEntitlement),
        then == Some(Refusal::TooMuchPower),
        then == Some(Refusal::FlowOutOfRange),
    ]
}

fn without_lake(sheet: &[u8]) -> Vec<u8> {
    let mut kept = records(sheet);
    kept.retain(|record| record[0] <= Kind::Factor as u8);
    kept.concat()
}

/// Rows of the offending record, with the kind before it.
fn at_a_record(input: &Input, refusal: Refusal) -> [bool; 16] {
    let Some((kind, before, body)) = offending(&input.sheet) else {
        return [false; 16];
    };
    let is = |row, of: Kind| refusal == row && kind == of;
    let behind = |row, of, it| is(row, of) && before == it;
    let numbers = numbers(kind, body);
    let range = Refusal::OutOfRange;
    let flow = |value, factor_is_sound: bool| {
        is(range, Kind::Path)
            && numbers.is_some_and(|(flow, factor)| {
                value == Some(flow) && (factor.abs() <= 10_000) == factor_is_sound
            })
    };
    let beyond = numbers.map(|(flow, _)| flow);
    let factor = |value| {
        is(Refusal::FactorOutOfRange, Kind::Path) && numbers.is_some_and(|it| it.1 == value)
    };
    let around = |value| is(range, Kind::Circulation) && beyond == Some(value);
    [
        is(Refusal::CutShort, Kind::Path),
        is(Refusal::CutShort, Kind::Circulation),
        behind(Refusal::OutOfOrder, Kind::Factor, Kind::Path),
        behind(Refusal::OutOfOrder, Kind::Factor, Kind::Circulation),
        behind(Refusal::OutOfOrder, Kind::Path, Kind::Circulation),
        is(Refusal::Surplus, Kind::Path),
        is(Refusal::Surplus, Kind::Circulation),
        is(Refusal::IllFormedName, Kind::Path),
        is(Refusal::RepeatedName, Kind::Path),
        flow(Some(200_001), true),
        flow(Some(-200_001), true),
        flow(beyond, false),
        around(200_001),
        around(-200_001),
        factor(10_001),
        factor(-10_001),
    ]
}

/// Kind and body of the record that refuses a sheet, and the kind before it.
fn offending(sheet: &[u8]) -> Option<(Kind, Kind, &[u8])> {
    let place = read(sheet).err()?.place;
    let (kind, body) = sheet.get(place..)?.split_first()?;
    let records = records(&sheet[..place]);
    let before = Kind::of(records.last()?[0])?;
    Some((Kind::of(*kind)?, before, body))
}

/// Flow and factor of a path, or of a circulation, which has none.
fn numbers(kind: Kind, body: &[u8]) -> Option<(i64, i64)> {
    let body = body.get(..kind.body())?;
    match kind {
        Kind::Path => {
            let mut fields = Fields::of(&body[NAME.len()..]);
            Some((fields.signed_4(), fields.signed_2()))
        }
        Kind::Circulation => Some((Fields::of(body).signed_4(), 0)),
        _ => None,
    }
}

/// Row 22 with paths: both flows are beyond the limit, on one side.
fn beyond_the_limit(input: &Input, refusal: Refusal) -> [bool; 4] {
    let sheet = match refusal {
        Refusal::FlowOutOfRange => read(&input.sheet).ok(),
        _ => None,
    };
    let Some((sheet, lake)) = sheet.and_then(|it| it.lake.clone().map(|lake| (it, lake))) else {
        return [false; 4];
    };
    let balance = second::generation_to_load::Balance::of(&sheet);
    let market = second::flow::market_flow(&sheet, &balance).market;
    let adjusted = market + impact(&lake);
    let beyond = |flow: Watts| (flow.abs() - LARGEST_FLOW).0;
    let little = |flow: Watts| (1..10).contains(&beyond(flow));
    let nearer = adjusted.abs() < market.abs();
    [
        market.min(adjusted) > LARGEST_FLOW,
        market.max(adjusted) < -LARGEST_FLOW,
        nearer && little(adjusted),
        !nearer && adjusted != market && (little(market) || beyond(market) == 10),
    ]
}

fn behind_the_longest(input: &Input, refusal: Refusal) -> [bool; 2] {
    let is =
        |row, kind: Kind| refusal == row && input.sheet.get(LONGEST_SHEET) == Some(&(kind as u8));
    let at_the_end = read(&input.sheet).is_err_and(|it| it.place == LONGEST_SHEET);
    [
        at_the_end && is(Refusal::Surplus, Kind::Circulation),
        at_the_end && is(Refusal::OutOfOrder, Kind::Path),
    ]
}
