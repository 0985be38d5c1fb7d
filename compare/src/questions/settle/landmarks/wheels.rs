//! Wheels: sheets on which a wheel that is left out, taken the other way, or taken off a
//! load or an output would show, and rows that are met at a point's wheels.

use second::Refusal;
use second::flow::{Flow, market_flow};
use second::generation_to_load::Balance;
use second::layout::{Fields, Kind, LONGEST_SHEET, NAME, SCHEDULES};
use second::reader::{Refused, read};
use second::sheet::{Class, Place, Point, Sheet};
use second::units::{Power, Watts};

use crate::questions::settle::earlier;

pub const ACCEPTED: [&str; 18] = [
    "another market flow if wheel in were left out",
    "another market flow if wheel out were left out",
    "another market flow if wheel out were added",
    "another market flow without the wheels of common points",
    "another market flow without the wheels of non-common points",
    "another common redirect without wheels",
    "another non-common redirect without wheels",
    "another market flow if zone load were less what lines wheel in",
    "row 17 if zone load were less what lines wheel in",
    "another market flow if zone generation were less what lines wheel out",
    "row 19 if zone generation were less what lines wheel out",
    "row 18 if final load were less what proxies wheel in",
    "another market flow if final generation were less what proxies wheel out",
    "row 21 if final generation were less what proxies wheel out",
    "wheel in of 200,000",
    "wheel out of 200,000",
    "a parallel flow beyond 10^12 W",
    "a shadow flow beyond 10^12 W",
];

/// What drafts can show too.
pub const BEYOND: [&str; 6] = [
    "row 9 by wheel in of 200,001 alone",
    "row 9 by wheel in alone, its top bit set",
    "row 9 by wheel out of 200,001 alone",
    "row 9 by wheel out alone, its top bit set",
    "row 8 where wheel in alone meets 9",
    "row 8 where wheel out alone meets 9",
];

pub const REFUSED: [&str; 5] = [
    "row 3 by a point that ends behind export",
    "row 3 by a point that ends within its wheels",
    "row 9 by a sheet of the earlier form",
    "row 3 by a point cut short behind the longest sheet",
    "row 4 by a whole point behind the longest sheet",
];

fn altered<'a>(sheet: &Sheet<'a>, alter: fn(&mut Point)) -> Sheet<'a> {
    let mut altered = sheet.clone();
    altered.points.iter_mut().for_each(alter);
    altered
}

fn leave_out(point: &mut Point) {
    (point.wheel_in, point.wheel_out) = (Power::ZERO, Power::ZERO);
}

fn leave_out_of(class: Class, point: &mut Point) {
    if point.class == class {
        leave_out(point);
    }
}

/// Whether the market flow would be another without wheels.
pub fn show(sheet: &Sheet, balance: &Balance) -> bool {
    let without = market_flow(&altered(sheet, leave_out), balance);
    without.market != market_flow(sheet, balance).market
}

pub fn accepted(sheet: &Sheet, balance: &Balance, flow: &Flow) -> [bool; ACCEPTED.len()] {
    let most = Power(*SCHEDULES.end());
    let any = |wheel: fn(&Point) -> Power| sheet.points.iter().any(|it| wheel(it) == most);
    let beyond = |flow: Watts| flow.abs() > Watts(1_000_000_000_000);
    let shown = [
        &in_net_schedules(sheet, balance, flow)[..],
        &in_the_balance(sheet, flow),
        &[any(|it| it.wheel_in), any(|it| it.wheel_out)],
        &[beyond(flow.parallel), beyond(flow.shadow)],
    ];
    shown.concat().try_into().expect("one for each name")
}

/// Wheels left out or taken the other way: another market flow, or another redirect.
fn in_net_schedules(sheet: &Sheet, balance: &Balance, flow: &Flow) -> [bool; 7] {
    let by = |alter: fn(&mut Point)| market_flow(&altered(sheet, alter), balance);
    let shows = |alter| by(alter).market != flow.market;
    let without = by(leave_out);
    [
        shows(|it| it.wheel_in = Power::ZERO),
        shows(|it| it.wheel_out = Power::ZERO),
        shows(|it| (it.wheel_in, it.wheel_out) = (it.wheel_in + it.wheel_out, Power::ZERO)),
        shows(|it| leave_out_of(Class::Common, it)),
        shows(|it| leave_out_of(Class::NonCommon, it)),
        without.common_redirect != flow.common_redirect,
        without.non_common_redirect != flow.non_common_redirect,
    ]
}

/// Wheels taken for imports and exports of lines or proxies in the balance alone: another
/// market flow, or a row that is met.
fn in_the_balance(sheet: &Sheet, flow: &Flow) -> [bool; 7] {
    let by = |reduce: fn(&mut Point)| {
        let balance = Balance::of(&altered(sheet, reduce));
        let other = || market_flow(sheet, &balance).market != flow.market;
        balance.rows().map(|()| other())
    };
    let lines_in = by(|it| {
        if it.place != Place::Proxy {
            it.import += it.wheel_in;
        }
    });
    let lines_out = by(|it| {
        if it.place != Place::Proxy {
            it.export += it.wheel_out;
        }
    });
    let proxies_in = by(|it| {
        if it.place == Place::Proxy {
            it.import += it.wheel_in;
        }
    });
    let proxies_out = by(|it| {
        if it.place == Place::Proxy {
            it.export += it.wheel_out;
        }
    });
    [
        lines_in == Ok(true),
        lines_in == Err(Refusal::ZoneLoadBelowZero),
        lines_out == Ok(true),
        lines_out == Err(Refusal::ZoneGenerationBelowZero),
        proxies_in == Err(Refusal::NoFinalLoad),
        proxies_out == Ok(true),
        proxies_out == Err(Refusal::FinalGenerationBelowZero),
    ]
}

/// The body of the offending point, if it is a point that refuses a sheet.
fn offending(sheet: &[u8]) -> Option<(Refused, &[u8])> {
    let refused = read(sheet).err()?;
    let (kind, body) = sheet[refused.place..].split_first()?;
    (*kind == Kind::Point as u8).then_some((refused, body))
}

pub fn beyond(sheet: &[u8]) -> [bool; BEYOND.len()] {
    let Some((Refused { refusal, .. }, body)) = offending(sheet) else {
        return [false; BEYOND.len()];
    };
    let [wheel_in, wheel_out] = alone_beyond(body);
    let next = Some(*SCHEDULES.end() + 1);
    let top_bit_set = |wheel: Option<i64>| wheel.is_some_and(|it| it >= 1 << 31);
    let is = |row| refusal == row;
    [
        is(Refusal::OutOfRange) && wheel_in == next,
        is(Refusal::OutOfRange) && top_bit_set(wheel_in),
        is(Refusal::OutOfRange) && wheel_out == next,
        is(Refusal::OutOfRange) && top_bit_set(wheel_out),
        is(Refusal::UnlistedCode) && wheel_in.is_some(),
        is(Refusal::UnlistedCode) && wheel_out.is_some(),
    ]
}

pub fn refused(sheet: &[u8]) -> [bool; REFUSED.len()] {
    let Some((Refused { refusal, place }, body)) = offending(sheet) else {
        return [false; REFUSED.len()];
    };
    let is = |row| refusal == row;
    let behind = place == LONGEST_SHEET;
    [
        is(Refusal::CutShort) && body.len() == earlier::BODY,
        is(Refusal::CutShort) && body.len() > earlier::BODY,
        is(Refusal::OutOfRange) && earlier::is_form_of(sheet),
        is(Refusal::CutShort) && behind,
        is(Refusal::OutOfOrder) && behind,
    ]
}

/// Wheel in and wheel out of a point's body, each where it alone is out of range.
fn alone_beyond(body: &[u8]) -> [Option<i64>; 2] {
    if body.len() < Kind::Point.body() {
        return [None; 2];
    }
    // Behind the name stand type and place.
    let mut fields = Fields::of(&body[NAME.len() + 2..]);
    let schedules = [0; 4].map(|_: i64| fields.unsigned_4());
    let beyond = schedules.map(|it| !SCHEDULES.contains(&it));
    let alone = |k: usize| {
        let others = (0..4).filter(|it| *it != k).any(|it| beyond[it]);
        (beyond[k] && !others).then_some(schedules[k])
    };
    [alone(2), alone(3)]
}
