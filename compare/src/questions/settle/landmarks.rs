//! Situations that a comparison must not miss.

pub mod lake;
mod parts;
pub mod wheels;

use second::exact;
use second::flow::{carried, market_flow};
use second::fraction::Fraction;
use second::generation_to_load::Balance;
use second::lake::unrounded_impact;
use second::layout::{
    Fields, Kind, LOADS, LONGEST_SHEET, MOST_ENTITLEMENTS, MOST_UNITS, MOST_ZONES, NAME,
};
use second::names::NameField;
use second::payment::LARGEST_FLOW;
use second::reader::read;
use second::sheet::{Class, FLOWGATE, Place, Rto, Sheet};
use second::units::{AMOUNT_DIVISOR, Power, QUARTERS, WHOLE_FACTOR};
use second::{Refusal, Statement, draft, listing};

use crate::crafted::share_a_bucket;
use crate::questions::settle::Input;
use crate::questions::settle::check::{Answer, entries, name_of, records};
use crate::questions::settle::directed::{LONGEST_REACHED, LONGEST_WITHOUT_PATHS};

/// The rounded quotients of a statement.
const QUOTIENTS: [&str; 6] = [
    "first quotient",
    "second quotient",
    "what common PARs carry",
    "what non-common PARs carry",
    "amount",
    "impact",
];

const HALVES: [&str; 4] = [
    "a half above zero goes down to even",
    "a half above zero goes up to even",
    "a half below zero goes down to even",
    "a half below zero goes up to even",
];

const ACCEPTED: [&str; 29] = [
    "difference zero",
    "difference of one watt",
    "market flow on the upper limit",
    "market flow on the lower limit",
    "market flow within 9 W of a limit",
    "final generation zero",
    "final load of one tenth",
    "loads with losses of 2,000,000",
    "outputs of 2,000,000",
    "exact flow, remainders not zero",
    "exact flow on the other side",
    "market flow off by 3 W or more",
    "market flow off by more than common PARs alone allow",
    "amount off by more than the price taken allows",
    "non-common PARs, NYISO monitors",
    "non-common PARs, PJM monitors",
    "eight non-common PARs, NYISO monitors",
    "eight non-common PARs, PJM monitors",
    "PARs of each class carry more than 5.7 x 10^16",
    "a unit in zone 32 of 32",
    "a line into zone 32 of 32",
    "the longest sheet, of 28,101 bytes",
    "the longest listing",
    "256 units in one bucket",
    "2,500 entries in one bucket",
    "an entitlement of +-10,000 MW",
    "zones with losses and line imports, final load below net load",
    "G above net generation above final generation above zero",
    "a PAR's own flow, G, net and final generation differ",
];

const OF_ACCEPTED: usize =
    QUOTIENTS.len() * HALVES.len() + ACCEPTED.len() + wheels::ACCEPTED.len() + lake::ACCEPTED.len();

const REFUSED: [&str; 24] = [
    "row 7 by the last of 256 units in one bucket",
    "row 8 by a unit in zone 32 of 31",
    "row 8 by a line into zone 32 of 31",
    "row 14 by a repeat among 2,500 entries in one bucket",
    "row 15 in a bucket of its name",
    "row 16 by loads of 2,000,001",
    "row 16 by outputs of 2,000,001",
    "row 17 at the last of 32 zones alone",
    "row 18 by a final load of zero",
    "row 19 at the last of 32 zones alone",
    "row 21 by one tenth",
    "row 22 by 9 W or less above",
    "row 22 by 9 W or less below",
    "row 22, PARs carry more than 1.15 x 10^17",
    "row 16 by loads, net load of 2,000,000 or less",
    "row 16 by outputs, net generation of 2,000,000 or less",
    "row 17 where 19 is met too",
    "row 17 where 20 is met too",
    "row 17 where 21 is met too",
    "row 18 where 19 is met too",
    "row 18 where 20 is met too",
    "row 18 where 21 is met too",
    "row 18, net load above zero and no row met behind it",
    "row 20, G above zero",
];

/// The landmarks, in the order in which they are counted.
pub fn names() -> Vec<String> {
    let halved = QUOTIENTS
        .iter()
        .flat_map(|quotient| HALVES.map(|half| format!("{quotient}: {half}")));
    let accepted = ACCEPTED.iter().chain(&wheels::ACCEPTED);
    let accepted = accepted.chain(&lake::ACCEPTED);
    let refused = REFUSED.iter().chain(&wheels::BEYOND);
    let refused = refused.chain(&wheels::REFUSED).chain(&lake::REFUSED);
    let others = accepted.chain(refused);
    halved.chain(others.map(|name| name.to_string())).collect()
}

/// Which of the landmarks an input shows.
pub fn shown(input: &Input, answer: &Answer) -> Vec<usize> {
    let shown = |before: usize, shown: &[bool]| {
        let places = shown.iter().enumerate().filter(|(_, shown)| **shown);
        places.map(|(k, _)| before + k).collect()
    };
    match answer {
        Ok(statement) => shown(0, &accepted(input, statement)),
        Err(refusal) => {
            let rows = refused(input, *refusal);
            let (beyond, cut) = (wheels::beyond(&input.sheet), wheels::refused(&input.sheet));
            let lake = lake::refused(input, *refusal);
            shown(OF_ACCEPTED, &[&rows[..], &beyond, &cut, &lake].concat())
        }
    }
}

/// By the whole number below: a half goes up where that is odd.
fn halved(dividend: i64, divisor: i64) -> [bool; HALVES.len()] {
    let below = dividend.div_euclid(divisor);
    let half = dividend.rem_euclid(divisor) * 2 == divisor;
    let (above_zero, up) = (below >= 0, below % 2 != 0);
    [
        half && above_zero && !up,
        half && above_zero && up,
        half && !above_zero && !up,
        half && !above_zero && up,
    ]
}

/// The names of the list's entries.
fn entry_names(list: &[u8]) -> Vec<NameField> {
    entries(list).iter().map(name_of).collect()
}

fn full_bucket<'a>(names: impl Iterator<Item = &'a NameField> + Clone, count: usize) -> bool {
    names.clone().count() == count && share_a_bucket(names)
}

fn accepted(input: &Input, statement: &Statement) -> Vec<bool> {
    let sheet = &read(&input.sheet).expect("an accepted sheet is read");
    let balance = &Balance::of(sheet);
    let mut shown = halves(sheet, balance, statement);
    shown.extend(figures(statement));
    shown.extend(powers(balance));
    shown.extend(accuracy(sheet, statement));
    shown.extend(pars(sheet, balance));
    shown.extend(sizes(input, sheet, statement));
    shown.extend(parts::accepted(sheet, balance));
    shown.extend(wheels::accepted(sheet, balance, &statement.flow));
    let longest = listing(statement).len() == LONGEST_WITHOUT_PATHS;
    shown.extend(lake::accepted(input, sheet, statement, longest));
    assert_eq!(shown.len(), OF_ACCEPTED);
    shown
}

/// The halves of each quotient.
fn halves(sheet: &Sheet, balance: &Balance, statement: &Statement) -> Vec<bool> {
    let Balance { loads, generation } = balance;
    let gtl = statement.flow.generation_to_load;
    let first = gtl.weighted_loads.watts().0 * generation.outputs.0;
    let second = gtl.whole_flow.0 * generation.final_generation.0;
    // A redirect that does not count is not rounded.
    let noncommon = match sheet.head.monitoring {
        Rto::Nyiso => 0,
        Rto::Pjm => carried(sheet, balance, Class::NonCommon).0,
    };
    let difference = statement.settled.0 - statement.entitlement.0;
    let quarters = sheet.lake.as_ref().map_or(0, |it| unrounded_impact(it).0);
    let product = difference * statement.payment.price.0 * sheet.head.seconds.0;
    let quotients: [[bool; HALVES.len()]; QUOTIENTS.len()] = [
        halved(first, loads.net_load.0),
        halved(second, generation.net_generation.0),
        halved(carried(sheet, balance, Class::Common).0, WHOLE_FACTOR),
        halved(noncommon, WHOLE_FACTOR),
        halved(product, AMOUNT_DIVISOR),
        halved(quarters, QUARTERS),
    ];
    quotients.concat()
}

/// Differences and limits.
fn figures(statement: &Statement) -> [bool; 5] {
    let market = statement.flow.market.0;
    let difference = statement.settled.0 - statement.entitlement.0;
    let paid_on = !statement.has_paths;
    [
        difference == 0,
        difference.abs() == 1,
        paid_on && market == LARGEST_FLOW.0,
        paid_on && market == -LARGEST_FLOW.0,
        paid_on && (1..10).contains(&(LARGEST_FLOW.0 - market.abs())),
    ]
}

fn powers(balance: &Balance) -> [bool; 4] {
    let Balance { loads, generation } = balance;
    [
        generation.final_generation.0 == 0,
        loads.final_load.0 == 1,
        loads.total_load.0 == *LOADS.end(),
        generation.outputs.0 == *LOADS.end(),
    ]
}

/// Non-common PARs by the Monitoring RTO, any and eight, and what PARs carry.
fn pars(sheet: &Sheet, balance: &Balance) -> [bool; 5] {
    let pjm = sheet.head.monitoring == Rto::Pjm;
    let noncommon = count(sheet, Class::NonCommon);
    let carry = |class| carried(sheet, balance, class).0.abs();
    [
        noncommon > 0 && !pjm,
        noncommon > 0 && pjm,
        noncommon == 8 && !pjm,
        noncommon == 8 && pjm,
        carry(Class::Common).min(carry(Class::NonCommon)) > 57_000_000_000_000_000,
    ]
}

fn count(sheet: &Sheet, class: Class) -> usize {
    sheet.pars.iter().filter(|par| par.class == class).count()
}

/// The last zone, the longest sheet and listing, full buckets, the largest entitlement.
fn sizes(input: &Input, sheet: &Sheet, statement: &Statement) -> [bool; 7] {
    let units: Vec<NameField> = sheet.units.iter().map(|it| it.name.field()).collect();
    let last = |zone: usize| sheet.zones.len() == MOST_ZONES && zone == MOST_ZONES - 1;
    [
        sheet.units.iter().any(|unit| last(unit.zone.index())),
        sheet.points.iter().any(|point| match point.place {
            Place::Line(zone) => last(zone.index()),
            Place::Proxy => false,
        }),
        input.sheet.len() == LONGEST_SHEET,
        listing(statement).len() == LONGEST_REACHED,
        full_bucket(units.iter(), MOST_UNITS),
        full_bucket(entry_names(&input.list).iter(), MOST_ENTITLEMENTS),
        statement.entitlement.abs() == LARGEST_FLOW,
    ]
}

/// Exact with remainders, on the other side, 3 W off, off by more than common PARs
/// allow, and the amount by more than the price taken does.
fn accuracy(sheet: &Sheet, statement: &Statement) -> [bool; 5] {
    let gtl = statement.flow.generation_to_load;
    let remainders = (gtl.first_remainder.0, gtl.second_remainder.0);
    let is_exact = || exact::generation_to_load(sheet, FLOWGATE) == Fraction::whole(gtl.flow.0);
    let flow = exact::market_flow(sheet);
    let (market, settled) = (statement.flow.market.0, statement.settled.0);
    let error = (&Fraction::whole(market) - &flow).abs();
    let entitlement = Power(statement.entitlement.0 / Power(1).watts().0);
    let difference = settled - statement.entitlement.0;
    let paid_on = exact::settlement_flow(sheet, entitlement);
    let exact_side = (&paid_on - &Fraction::whole(statement.entitlement.0)).signum();
    let amount = exact::amount(sheet, &paid_on, entitlement);
    let amount_error = (&Fraction::whole(statement.payment.amount.0) - &amount).abs();
    let worth = exact::settled_bound(sheet) * statement.payment.price.0 * sheet.head.seconds.0;
    let by_taken = &Fraction::of(worth, AMOUNT_DIVISOR) + &Fraction::of(1, 2);
    [
        remainders != (0, 0) && is_exact(),
        exact_side * difference.signum() < 0,
        error >= Fraction::whole(3),
        error > Fraction::whole(count(sheet, Class::Common) as i64 + 2),
        amount_error > by_taken,
    ]
}

fn refused(input: &Input, refusal: Refusal) -> [bool; REFUSED.len()] {
    let mut shown = [false; REFUSED.len()];
    match refusal {
        Refusal::RepeatedName => shown[0] = in_a_full_bucket(&input.sheet),
        Refusal::UnlistedCode => {
            [shown[1], shown[2]] = in_zone_32_of_31(&input.sheet);
        }
        Refusal::FaultyList => {
            shown[3] = full_bucket(entry_names(&input.list).iter(), MOST_ENTITLEMENTS);
        }
        Refusal::NoEntitlement => {
            let mut names = entry_names(&input.list);
            names.push(draft::name(&input.sheet[NAME]));
            shown[4] = full_bucket(names.iter(), MOST_ENTITLEMENTS);
        }
        _ if refusal >= Refusal::TooMuchPower => {
            if let Ok(sheet) = read(&input.sheet) {
                shown[5..].copy_from_slice(&in_balance(&sheet, refusal));
            }
        }
        _ => {}
    }
    shown
}

/// Whether the first 256 units share a bucket.
fn in_a_full_bucket(sheet: &[u8]) -> bool {
    let units = records(sheet).into_iter();
    let units = units.filter(|record| record[0] == Kind::Unit as u8);
    let names: Vec<NameField> = units.map(|it| draft::name(&it[NAME])).collect();
    full_bucket(names.iter(), MOST_UNITS)
}

/// A unit, a line.
fn in_zone_32_of_31(sheet: &[u8]) -> [bool; 2] {
    let Err(refused) = read(sheet) else {
        return [false; 2];
    };
    let records = records(sheet);
    let zones = records
        .iter()
        .filter(|it| it[0] == Kind::Zone as u8)
        .count();
    let offending = records.into_iter().scan(0, |begin, record| {
        *begin += record.len();
        Some((*begin - record.len(), record))
    });
    let mut offending = offending.filter(|(place, _)| *place == refused.place);
    let Some((_, record)) = offending.next() else {
        return [false; 2];
    };
    // Behind the name stand a unit's zone, and a point's type and place.
    let mut behind_name = Fields::of(&record[NAME.end..]);
    let (first, second) = (behind_name.byte(), behind_name.byte());
    let at = |kind: Kind, byte| record[0] == kind as u8 && usize::from(byte) == MOST_ZONES;
    let of_31 = zones == MOST_ZONES - 1;
    [
        of_31 && at(Kind::Unit, first),
        of_31 && at(Kind::Point, second),
    ]
}

/// Whether the last of 32 zones is the only one below zero.
fn last_alone(zones: &[Power; MOST_ZONES]) -> bool {
    let mut below = (0..MOST_ZONES).filter(|k| zones[*k] < Power::ZERO);
    below.next() == Some(MOST_ZONES - 1)
}

fn in_balance(sheet: &Sheet, refusal: Refusal) -> [bool; REFUSED.len() - 5] {
    let balance = &Balance::of(sheet);
    let Balance { loads, generation } = balance;
    let is = |row| refusal == row;
    let beyond = match is(Refusal::FlowOutOfRange) {
        true => beyond(sheet, balance),
        false => [false; 3],
    };
    let shown = [
        is(Refusal::TooMuchPower) && loads.total_load.0 == LOADS.end() + 1,
        is(Refusal::TooMuchPower) && generation.outputs.0 == LOADS.end() + 1,
        is(Refusal::ZoneLoadBelowZero) && last_alone(&loads.zone_loads),
        is(Refusal::NoFinalLoad) && loads.final_load.0 == 0,
        is(Refusal::ZoneGenerationBelowZero) && last_alone(&generation.zone_generation),
        is(Refusal::FinalGenerationBelowZero) && generation.final_generation.0 == -1,
    ];
    let parts = parts::refused(balance, refusal);
    let shown = [&shown[..], &beyond, &parts].concat();
    shown.try_into().expect("one for each name")
}

/// Row 22 by 9 W or less above and below, and by much that PARs carry.
fn beyond(sheet: &Sheet, balance: &Balance) -> [bool; 3] {
    let market = market_flow(sheet, balance).market.0;
    let paid_on = sheet.lake.is_none();
    let carried = carried(sheet, balance, Class::Common).0.abs()
        + carried(sheet, balance, Class::NonCommon).0.abs();
    [
        paid_on && (1..10).contains(&(market - LARGEST_FLOW.0)),
        paid_on && (1..10).contains(&(-market - LARGEST_FLOW.0)),
        carried > 115_000_000_000_000_000,
    ]
}
