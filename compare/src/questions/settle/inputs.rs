//! Inputs drawn by chance: sound ones, extreme ones and damaged ones.

use second::flow::market_flow;
use second::generation_to_load::Balance;
use second::layout::{
    ENTITLEMENTS, FACTORS, Kind, LOADS, MOST_ENTITLEMENTS, MOST_PARS, NAME, PAR_FLOWS,
};
use second::names::NameField;
use second::payment::LARGEST_FLOW;
use second::units::Power;
use second::{draft, reader};

use crate::chance::Chance;
use crate::interval::{
    Interval, Record, Scale, Sizes, add_lake, add_lake_to_one_in, drawn, names, signed_value,
};
use crate::questions::settle::{Input, Room, earlier, faults};

/// The k-th input of a seed.
pub fn input(seed: u64, k: u64) -> Input {
    let chance = &mut Chance::of(seed, k);
    let mut input = match chance.below(100) {
        0..=21 => plain(chance),
        22..=35 => tiny(chance),
        36..=41 => extreme(chance),
        42..=49 => at_the_limit(chance),
        50..=57 => at_the_entitlement(chance),
        58..=59 => next_to_zero(chance),
        60..=66 => faults::alone(chance),
        67..=76 => faults::pair(chance),
        77..=81 => flipped(chance),
        82 => of_earlier_form(chance),
        83..=87 => rearranged(chance),
        88..=91 => truncated(chance),
        92..=94 => trailing(chance),
        95 => oversized(chance),
        96 => noise(chance),
        97..=98 => listed(chance),
        _ => longest(chance),
    };
    if chance.one_in(3) {
        input.room = Room::Listing(chance.within(-3..=3));
    } else if chance.one_in(30) {
        input.room = Room::Length(chance.below(300));
    }
    input
}

/// A list of some entries that holds the flowgate's, which has this value.
pub fn list_with(
    chance: &mut Chance,
    flowgate: NameField,
    value: i32,
    count: usize,
) -> Vec<Vec<u8>> {
    let mut entries: Vec<Vec<u8>> = names(chance, count)
        .into_iter()
        .filter(|name| *name != flowgate)
        .map(|name| draft::entitlement(name, signed_value(chance, *ENTITLEMENTS.end()) as i32))
        .collect();
    entries.truncate(MOST_ENTITLEMENTS - 1);
    let places = [0, entries.len() / 2, entries.len()];
    let place = chance.pick(&places);
    entries.insert(place, draft::entitlement(flowgate, value));
    entries
}

pub fn some_list(chance: &mut Chance, interval: &Interval) -> Vec<Vec<u8>> {
    let value = signed_value(chance, *ENTITLEMENTS.end()) as i32;
    let value = chance.pick(&[value, value, 0, value % 100]);
    let count = chance.pick(&[0, 0, 1, 2, 5, 30]);
    list_with(chance, interval.head.name, value, count)
}

/// An interval that is mostly accepted.
pub fn sound(chance: &mut Chance) -> Interval {
    let sizes = Sizes::drawn(chance);
    let scale = Scale {
        factor: chance.pick(&[1, 3, 50]),
        ..Scale::drawn(chance)
    };
    let mut interval = drawn(chance, sizes, scale);
    add_lake_to_one_in(4, chance, &mut interval, scale);
    interval
}

fn with_list(chance: &mut Chance, origin: &str, interval: &Interval) -> Input {
    let list = some_list(chance, interval).concat();
    Input::of(origin, interval.records().concat(), list)
}

fn plain(chance: &mut Chance) -> Input {
    let (sizes, scale) = (Sizes::drawn(chance), Scale::drawn(chance));
    let mut interval = drawn(chance, sizes, scale);
    add_lake_to_one_in(4, chance, &mut interval, scale);
    with_list(chance, "any sizes and values", &interval)
}

/// Small divisors make ties, and flows next to the entitlement of 0.
fn tiny(chance: &mut Chance) -> Input {
    let sizes = Sizes::drawn(chance);
    let mut interval = drawn(chance, sizes, Scale::TINY);
    add_lake_to_one_in(4, chance, &mut interval, Scale::TINY);
    if chance.one_in(2) {
        interval.head.seconds = 300;
        interval.head.prices = [6000, chance.pick(&[6000, 400_000, 1])];
    }
    let list = draft::entitlement(interval.head.name, 0);
    Input::of("tiny powers", interval.records().concat(), list)
}

fn extreme(chance: &mut Chance) -> Input {
    let sizes = Sizes::drawn(chance);
    let mut interval = drawn(chance, sizes, Scale::FULL);
    let factor = chance.pick(&[10_000, -10_000]);
    interval.flowgate.units.fill(factor);
    interval.flowgate.zones.fill(-factor);
    for (par, factors) in interval.pars.iter_mut().zip(&mut interval.on_pars) {
        par.actual = chance.pick(&[200_000, -200_000]);
        par.target = -par.actual;
        factors.units.fill(-factor);
        factors.zones.fill(factor);
        factors.points.fill(chance.pick(&[10_000, -10_000]));
    }
    if chance.one_in(4) {
        extreme_lake(chance, &mut interval);
    }
    with_list(chance, "extreme values", &interval)
}

/// Every field at an end.
fn extreme_lake(chance: &mut Chance, interval: &mut Interval) {
    add_lake(chance, interval, Scale::FULL);
    for path in &mut interval.paths {
        path.flow = chance.pick(&[200_000, -200_000]);
        path.factor = chance.pick(&[10_000, -10_000]);
    }
    interval.circulations[0].flow = chance.pick(&[200_000, -200_000]);
}

/// Adds a PAR whose control moves the market flow by tens of watts.
fn with_lever(chance: &mut Chance, interval: &mut Interval) -> usize {
    if interval.pars.len() == MOST_PARS {
        interval.pars.pop();
        interval.flowgate.pars.pop();
        interval.on_pars.pop();
    }
    let names = names(chance, 9);
    let mut taken = interval.pars.iter().map(|par| par.name);
    let taken: Vec<NameField> = taken.by_ref().collect();
    let name = names.into_iter().find(|name| !taken.contains(name));
    let lever = interval.add_par(name.unwrap_or([b'l'; 16]));
    interval.flowgate.pars[lever] = 1;
    lever
}

/// Moves the market flow to the wanted one, as near as tens of watts can.
pub fn steer(chance: &mut Chance, interval: &mut Interval, wanted: impl Fn(i64) -> i64) {
    let lever = with_lever(chance, interval);
    let market = market(&interval.records().concat());
    let steps = (wanted(market) - market) / 10 + chance.within(-1..=1);
    let (least, most) = PAR_FLOWS.into_inner();
    let actual = steps.clamp(least, most);
    interval.pars[lever].actual = actual as i32;
    interval.pars[lever].target = (actual - steps).clamp(least, most) as i32;
}

/// The market flow of a sheet that passes rows 1 to 13 and 16 to 21, in range or not;
/// 0 for another.
pub fn market(sheet: &[u8]) -> i64 {
    let flow = reader::read(sheet).ok().and_then(|sheet| {
        let balance = Balance::of(&sheet);
        balance.rows().ok()?;
        Some(market_flow(&sheet, &balance).market.0)
    });
    flow.unwrap_or(0)
}

/// Market flows on and next to ±10,000,000,000 W.
fn at_the_limit(chance: &mut Chance) -> Input {
    let mut sizes = Sizes::drawn(chance);
    sizes.points = sizes.points.min(31);
    sizes.pars = sizes.pars.min(7);
    let mut interval = drawn(chance, sizes, Scale::TINY);
    let sign = chance.pick(&[1, -1]);
    let point = interval.add_point([b'p'; 16]);
    // Just short of the limit: 99,980 × 10,000 × 10 W.
    interval.zones[0].load += 99_980;
    interval.points[point].import = 99_980;
    interval.points[point].class = chance.pick(&[1, 2]);
    interval.flowgate.points[point] = 10_000 * sign as i16;
    steer(chance, &mut interval, |_| sign * LARGEST_FLOW.0);
    if chance.one_in(3) {
        cross_the_limit(chance, &mut interval, point);
    }
    let value = chance.pick(&[0, 100_000, -100_000, 99_999, -99_999]);
    let list = draft::entitlement(interval.head.name, value);
    Input::of("next to the limit", interval.records().concat(), list)
}

/// Adds paths that bring some tenths of a MW and some watts. Half of the time this point,
/// which has a whole factor, takes the tenths away again, so that the adjusted flow is
/// next to the limit and not the market flow.
fn cross_the_limit(chance: &mut Chance, interval: &mut Interval, point: usize) {
    add_lake(chance, interval, Scale::TINY);
    let (far, near) = (signed_value(chance, 90_000), signed_value(chance, 9));
    let tenths = chance.pick(&[far, near, 0, 0]) as i32;
    (interval.paths[0].flow, interval.paths[0].factor) = (tenths, 10_000);
    interval.circulations[0].flow = chance.pick(&[0, 0, 4, -8]);
    if chance.one_in(2) {
        return;
    }
    let along = tenths.signum() == i32::from(interval.flowgate.points[point].signum());
    let point = &mut interval.points[point];
    match along {
        true => point.wheel_out += tenths.unsigned_abs(),
        false => point.wheel_in += tenths.unsigned_abs(),
    }
}

/// Market flows on and next to the entitlement.
fn at_the_entitlement(chance: &mut Chance) -> Input {
    let mut interval = sound(chance);
    if chance.one_in(3) {
        interval.flatten();
    }
    let mut entitlement = 0;
    let watts = Power(1).watts().0;
    steer(chance, &mut interval, |market| market / watts * watts);
    if chance.one_in(4) {
        add_lake(chance, &mut interval, Scale::TINY);
        small_impact(chance, &mut interval);
    }
    let sheet = interval.records().concat();
    let market = market(&sheet);
    if market.abs() <= LARGEST_FLOW.0 {
        entitlement = (market + watts / 2).div_euclid(watts) as i32;
    }
    let list = list_with(chance, interval.head.name, entitlement, 3).concat();
    Input::of("next to the entitlement", sheet, list)
}

/// Some watts, so that the adjusted flow stays next to the entitlement too.
pub fn small_impact(chance: &mut Chance, interval: &mut Interval) {
    for path in &mut interval.paths {
        path.flow = signed_value(chance, 3) as i32;
        path.factor = signed_value(chance, 1) as i16;
    }
    interval.circulations[0].flow = signed_value(chance, 4) as i32;
}

/// A market flow of one watt against the entitlement of 0, with as much rounding as
/// there can be: now and then the exact flow lies on the other side.
fn next_to_zero(chance: &mut Chance) -> Input {
    let mut input = tiny(chance);
    for _ in 0..30 {
        let interval = much_rounded(chance);
        input.sheet = interval.records().concat();
        input.list = draft::entitlement(interval.head.name, 0);
        input.origin = String::from("a watt or so");
        if market(&input.sheet).abs() == 1 {
            break;
        }
    }
    input
}

/// A market flow of a few watts, with seven PARs that carry all of their flows.
fn much_rounded(chance: &mut Chance) -> Interval {
    let sizes = Sizes {
        zones: 2 + chance.below(3),
        units: 1 + chance.below(3),
        points: chance.below(3),
        pars: MOST_PARS - 1,
    };
    let scale = Scale {
        power: 40,
        factor: 50,
    };
    let mut interval = drawn(chance, sizes, scale);
    interval.head.monitoring = 2;
    for (par, factor) in interval.pars.iter_mut().zip(&mut interval.flowgate.pars) {
        par.target = par.actual;
        *factor = chance.pick(&[9999, -9999, 10_000, -10_000]);
    }
    steer(chance, &mut interval, |_| 0);
    if chance.one_in(4) {
        add_lake(chance, &mut interval, Scale::TINY);
        small_impact(chance, &mut interval);
    }
    interval
}

/// The list once in so many times, else the sheet.
fn list_or_sheet<'a>(chance: &mut Chance, list: usize, input: &'a mut Input) -> &'a mut Vec<u8> {
    if chance.one_in(list) {
        &mut input.list
    } else {
        &mut input.sheet
    }
}

fn flipped(chance: &mut Chance) -> Input {
    let interval = sound(chance);
    let mut input = with_list(chance, "bytes flipped", &interval);
    for _ in 0..1 + chance.below(3) {
        let bytes = list_or_sheet(chance, 5, &mut input);
        let at = chance.below(bytes.len());
        bytes[at] = match chance.below(3) {
            0 => chance.draw() as u8,
            1 => bytes[at] ^ (1 << chance.below(8)),
            _ => chance.pick(&[0, 1, 2, 255]),
        };
    }
    input
}

/// Points that end behind export, or within their wheels.
fn of_earlier_form(chance: &mut Chance) -> Input {
    let interval = sound(chance);
    let mut input = with_list(chance, "points of the earlier form", &interval);
    let body = chance.within(earlier::BODY as i64..=Kind::Point.body() as i64);
    let body = chance.pick(&[earlier::BODY, body as usize]);
    input.sheet = earlier::with_points_of(body, &input.sheet);
    input
}

/// Records swapped, doubled, dropped or moved; half of the time among the last, where
/// paths may stand.
fn rearranged(chance: &mut Chance) -> Input {
    let interval = sound(chance);
    let mut sheet = interval.records();
    let mut list = some_list(chance, &interval);
    let records = if chance.one_in(5) {
        &mut list
    } else {
        &mut sheet
    };
    let some = if chance.one_in(2) { 7 } else { usize::MAX };
    let before = records.len().saturating_sub(some);
    let mut any = || before + chance.below(records.len() - before);
    let (one, other) = (any(), any());
    match chance.below(4) {
        0 => records.swap(one, other),
        1 => {
            let doubled = records[one].clone();
            records.insert(other, doubled);
        }
        2 => {
            records.remove(one);
        }
        _ => {
            let moved = records.remove(one);
            records.insert(other, moved);
        }
    }
    Input::of("records rearranged", sheet.concat(), list.concat())
}

fn truncated(chance: &mut Chance) -> Input {
    let interval = sound(chance);
    let mut input = with_list(chance, "cut short", &interval);
    let bytes = list_or_sheet(chance, 4, &mut input);
    bytes.truncate(chance.below(bytes.len()));
    input
}

fn trailing(chance: &mut Chance) -> Input {
    let interval = sound(chance);
    let mut input = with_list(chance, "bytes behind the end", &interval);
    let bytes = list_or_sheet(chance, 3, &mut input);
    let first = chance.pick(&[0, 1, 2, 5, 6, 7, 8, 9, 16, 255]);
    bytes.push(first);
    for _ in 0..chance.below(40) {
        bytes.push(chance.pick(&[0, 1, 6, 7, 8, 16, 255]));
    }
    input
}

/// Files longer than any sheet or list.
fn oversized(chance: &mut Chance) -> Input {
    let scale = Scale::drawn(chance);
    let mut interval = drawn(chance, Sizes::LONGEST, scale);
    add_lake_to_one_in(2, chance, &mut interval, scale);
    let count = chance.pick(&[1, MOST_ENTITLEMENTS]);
    let mut list = list_with(chance, interval.head.name, 0, count).concat();
    let mut sheet = interval.records().concat();
    let more = chance.pick(&[1, 6, 7, 27, 28, 29, 34, 35, 36, 5_000, 60_000]);
    let bytes = if chance.one_in(2) {
        &mut list
    } else {
        &mut sheet
    };
    let again = bytes[bytes.len() - 7..].to_vec();
    let behind = chance.pick(&[0, 1, 4, 6, 16]);
    for k in 0..more {
        bytes.push(if behind == 6 { again[k % 7] } else { behind });
    }
    Input::of("longer than the longest", sheet, list)
}

/// The longest sheet, and so many bytes of a point behind it, the longest record that can
/// stand there.
pub fn point_behind_the_longest(chance: &mut Chance, length: usize) -> Input {
    let mut longest = drawn(chance, Sizes::LONGEST, Scale::TINY);
    add_lake(chance, &mut longest, Scale::TINY);
    let mut sheet = longest.records().concat();
    let point = Record::Point(longest.points[0].clone()).bytes();
    sheet.extend_from_slice(&point[..length]);
    let origin = format!("{length} bytes of a point behind the longest sheet");
    Input::of(&origin, sheet, draft::entitlement(longest.head.name, 0))
}

fn noise(chance: &mut Chance) -> Input {
    let mut bytes = |first: u8| {
        let mut bytes = vec![first; chance.below(2)];
        for _ in 0..chance.pick(&[0, 0, 10, 100, 1000]) {
            bytes.push(chance.pick(&[0, 1, 2, 3, 4, 5, 6, 7, 8, 16, 65, 255]));
        }
        bytes
    };
    let (sheet, list) = (bytes(1), bytes(16));
    Input::of("any bytes", sheet, list)
}

/// Lists of all lengths up to one more than the longest, now and then faulty.
fn listed(chance: &mut Chance) -> Input {
    let interval = drawn(
        chance,
        Sizes {
            zones: 1,
            units: 1,
            points: 0,
            pars: 0,
        },
        Scale::TINY,
    );
    let any = chance.below(MOST_ENTITLEMENTS);
    let count = chance.pick(&[any, MOST_ENTITLEMENTS - 1, MOST_ENTITLEMENTS]);
    let mut list = list_with(chance, interval.head.name, 1, count);
    let (one, other) = (chance.below(list.len()), chance.below(list.len()));
    match chance.below(6) {
        0 => {
            let again = list[other].clone();
            list[one][NAME].copy_from_slice(&again[NAME]);
        }
        1 => list[one] = draft::entitlement([0; 16], 0),
        2 => list[one][17] ^= 0x40,
        3 => list.push(draft::entitlement([b'o'; 16], 0)),
        _ => {}
    }
    Input::of("long lists", interval.records().concat(), list.concat())
}

/// The longest sheet, half of the time without paths.
pub fn longest(chance: &mut Chance) -> Input {
    let paths = chance.one_in(2);
    sheet_of_most(chance, paths)
}

pub fn longest_with_paths(chance: &mut Chance) -> Input {
    sheet_of_most(chance, true)
}

/// With as many zones, units, points and PARs as there can be.
fn sheet_of_most(chance: &mut Chance, paths: bool) -> Input {
    let scale = Scale {
        factor: chance.pick(&[10, 100, *FACTORS.end()]),
        power: chance.pick(&[100_000, *LOADS.end()]),
    };
    let mut interval = drawn(chance, Sizes::LONGEST, scale);
    if paths {
        add_lake(chance, &mut interval, scale);
    }
    with_list(chance, "the longest sheet", &interval)
}
