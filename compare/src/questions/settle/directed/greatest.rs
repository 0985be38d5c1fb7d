//! Figures as large as they can be: the longest listing, flows of points, and what PARs
//! carry.

use second::layout::{ENTITLEMENTS, FACTORS, LOADS, MOST_PARS, MOST_POINTS, PAR_FLOWS, SCHEDULES};
use second::payment::LARGEST_FLOW;

use crate::chance::Chance;
use crate::interval::{Interval, Point, Scale, Sizes, add_lake, drawn};
use crate::questions::settle::check::listing_length;
use crate::questions::settle::directed::{Directed, with_entitlement};
use crate::questions::settle::inputs::market;
use crate::questions::settle::{Expected, Input};

/// The longest listing that can be reached. Nine bytes are missing to the sum of all
/// lines at their longest, 316. Two: with paths a market flow is settled, or adjusted by
/// 10^11 W at most, so that it has 12 digits and not 14. The others are missing without
/// paths too, where the longest has 285 bytes of 292. One: a first remainder of seven digits needs a G below
/// 2,000,000, a second one a net generation of 2,000,000. Two: loads and outputs bound
/// imports and exports, so that parallel and shadow flow have at most 1.04 x 10^12 W
/// together, which is 12 digits each or 13 and 11. Three: with a market flow in range
/// neither redirect has 14 digits, nor are both below -10^12. One: an amount of 13 digits
/// has settlement flow and entitlement on both sides of zero.
pub const LONGEST_REACHED: usize = 307;
pub const LONGEST_WITHOUT_PATHS: usize = 285;

pub fn all(chance: &mut Chance) -> Vec<Directed> {
    let mut all = vec![longest_listing(chance), longest_with_paths(chance)];
    for sign in [1, -1] {
        let aligned = carrying(chance, sign, sign);
        let input = with_entitlement("what PARs carry, all of it", &aligned, 0);
        all.push((input, vec![Expected::Refusal(22)]));
        let opposed = in_range(carrying(chance, sign, -sign), 0);
        let input = with_entitlement("what PARs carry, each class", &opposed, 0);
        all.push((input, vec![Expected::Refusal(0)]));
        for (class, line) in [(1, "shadow"), (2, "parallel")] {
            let interval = in_range(of_all_points(chance, class, sign), 0);
            let input = with_entitlement("all that points can schedule", &interval, 0);
            let line = format!("{line} {}", i64::from(sign) * 1_039_999_800_000);
            all.push((input, vec![Expected::Refusal(0), Expected::Line(line)]));
        }
    }
    all
}

/// Loads and outputs of 2,000,000 and no schedules, factors of zero.
fn full(chance: &mut Chance, points: usize) -> Interval {
    let sizes = Sizes {
        zones: 2,
        units: 2,
        points,
        pars: MOST_PARS,
    };
    let mut interval = drawn(chance, sizes, Scale::TINY);
    let most = *LOADS.end() as u32;
    interval.head.monitoring = 2;
    interval.zones[0].load = most - 100_000;
    interval.zones[1].load = 100_000;
    for zone in &mut interval.zones {
        zone.losses = 0;
    }
    interval.units[0].output = most;
    interval.units[1].output = 0;
    interval.units[0].zone = 1;
    for (k, par) in interval.pars.iter_mut().enumerate() {
        par.class = if k < MOST_PARS / 2 { 1 } else { 2 };
        (par.actual, par.target) = (0, 0);
    }
    for point in &mut interval.points {
        point.place = 0;
        for schedule in point.schedules_mut() {
            *schedule = 0;
        }
    }
    interval.flowgate.clear();
    for factors in &mut interval.on_pars {
        factors.clear();
    }
    interval
}

/// As much as points can schedule: ten proxies import, ten lines export, and all wheel
/// the same way, together 10,399,998. What lines export lowers net and final generation
/// alike.
fn all_schedules(chance: &mut Chance, class: u8) -> Interval {
    let mut interval = full(chance, MOST_POINTS);
    let most = *SCHEDULES.end() as u32;
    for (k, point) in interval.points.iter_mut().enumerate() {
        point.class = class;
        match k {
            0..10 => (point.import, point.wheel_in) = (most, most),
            10..20 => (point.place, point.export, point.wheel_out) = (1, most, most),
            _ => point.wheel_in = most,
        }
    }
    // Final load and net generation must be above zero.
    interval.points[0].import -= 1;
    interval.points[10].export -= 1;
    interval
}

/// Whole factors that all make a flow of one sign.
fn aligned(points: &[Point], sign: i16) -> Vec<i16> {
    let whole = sign * *FACTORS.end() as i16;
    let factor = |point: &Point| if point.export > 0 { -whole } else { whole };
    points.iter().map(factor).collect()
}

/// A flow of points that are all of a type; eight PARs carry 1.3 x 10^11 W each, which
/// is as much together.
fn of_all_points(chance: &mut Chance, class: u8, sign: i16) -> Interval {
    let mut interval = all_schedules(chance, class);
    interval.flowgate.points = aligned(&interval.points, sign);
    interval.flowgate.pars.fill(sign * *FACTORS.end() as i16);
    for factors in &mut interval.on_pars {
        factors.units.fill(3_250);
        factors.zones.fill(-3_250);
    }
    interval
}

/// Eight PARs that carry as much as they can, the classes in these directions.
fn carrying(chance: &mut Chance, common: i16, noncommon: i16) -> Interval {
    let mut interval = all_schedules(chance, 2);
    let whole = *FACTORS.end() as i16;
    for factors in &mut interval.on_pars {
        factors.units.fill(whole);
        factors.zones.fill(-whole);
        factors.points = aligned(&interval.points, 1);
    }
    for (par, factor) in interval.pars.iter().zip(&mut interval.flowgate.pars) {
        *factor = whole * if par.class == 1 { common } else { noncommon };
    }
    interval
}

/// Brings the market flow near to the wanted one by one PAR after the other.
fn in_range(mut interval: Interval, wanted: i64) -> Interval {
    let (least, most) = PAR_FLOWS.into_inner();
    for k in 0..interval.pars.len() {
        let missing = wanted - market(&interval.records().concat());
        let step = i64::from(interval.flowgate.pars[k]) * 10;
        if step != 0 {
            let there = i64::from(interval.pars[k].actual) - i64::from(interval.pars[k].target);
            let steps = there + missing / step;
            let actual = steps.clamp(least, most);
            interval.pars[k].actual = actual as i32;
            interval.pars[k].target = (actual - steps).clamp(least, most) as i32;
        }
    }
    interval
}

fn longest_listing(chance: &mut Chance) -> Directed {
    let long = (0..10_000).map(|_| {
        let interval = in_range(long_figures(chance), -LARGEST_FLOW.0);
        let value = *ENTITLEMENTS.end() as i32;
        with_entitlement("the longest listing", &interval, value)
    });
    let market = Expected::Line(format!("market {}", -LARGEST_FLOW.0));
    let expected = vec![Expected::Refusal(0), market];
    (first_of_length(long, LONGEST_WITHOUT_PATHS), expected)
}

/// Paths that carry 10^11 W beyond the circulation bring the market flow to the limit.
fn longest_with_paths(chance: &mut Chance) -> Directed {
    const IMPACT: i64 = 100_000_000_000;
    let long = (0..10_000).map(|_| {
        let mut interval = in_range(long_figures(chance), -LARGEST_FLOW.0 - IMPACT);
        add_lake(chance, &mut interval, Scale::TINY);
        for path in &mut interval.paths {
            (path.flow, path.factor) = (200_000, 10_000);
        }
        interval.circulations[0].flow = -200_000;
        let value = *ENTITLEMENTS.end() as i32;
        with_entitlement("the longest listing, with paths", &interval, value)
    });
    let lines = [
        format!("market {}", -LARGEST_FLOW.0 - IMPACT),
        format!("settled {}", -LARGEST_FLOW.0),
    ];
    let expected = lines.map(Expected::Line).into();
    (first_of_length(long, LONGEST_REACHED), expected)
}

fn first_of_length(inputs: impl Iterator<Item = Input>, length: usize) -> Input {
    let mut long = inputs.filter(|input| listing_length(&input.answer()) == length);
    long.next().expect("one of some dozens is the longest")
}

/// Net load 2,000,000 and G x N so that the first quotient is a tie; five wheels in that
/// are parallel flow and five exports that are shadow flow, each -10^11 W; seven PARs
/// with whole factors and one with a factor of one ten-thousandth.
fn long_figures(chance: &mut Chance) -> Interval {
    let mut interval = full(chance, 10);
    let whole = *FACTORS.end() as i16;
    let most = *SCHEDULES.end() as u32;
    interval.head.name = [0xff; 16];
    interval.head.seconds = 900;
    interval.head.prices = [400_000; 2];
    let other = chance.within(1..=1_000) as u32;
    interval.units[0].output -= other + 1;
    interval.units[1].output = other;
    for (k, point) in interval.points.iter_mut().enumerate() {
        let wheel = k % 2 == 0;
        point.class = if wheel { 2 } else { 1 };
        (point.wheel_in, point.export) = if wheel { (most, 0) } else { (0, most) };
        interval.flowgate.points[k] = if wheel { -whole } else { whole };
    }
    let zone = chance.within(9_000..=9_900) as i16 / 2 * 2;
    interval.flowgate.zones = vec![zone, zone + 1];
    interval.flowgate.units = vec![chance.within(-2_500..=-1_500) as i16, whole];
    for (k, factors) in interval.on_pars.iter_mut().enumerate() {
        factors.units.fill(whole - chance.below(3) as i16);
        factors.zones.fill(-whole + chance.below(3) as i16);
        for (point, factor) in interval.points.iter().zip(&mut factors.points) {
            *factor = if point.class == 2 { whole } else { 0 };
        }
        let common = interval.pars[k].class == 1;
        interval.flowgate.pars[k] = if common { -whole } else { whole };
        if !common {
            (interval.pars[k].actual, interval.pars[k].target) = (-200_000, 200_000);
        }
    }
    // The fine lever.
    let last = interval.pars.len() - 1;
    interval.flowgate.pars[last] = 1;
    interval
}
