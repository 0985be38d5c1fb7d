//! Paths and the circulation: the settlement flow in every order of the three flows, on
//! both sides of the limit, and with halves of the impact.

use second::draft;
use second::layout::{FACTORS, SCHEDULES};
use second::payment::LARGEST_FLOW;
use second::units::Power;

use crate::chance::Chance;
use crate::interval::{Interval, Scale, Sizes, add_lake, drawn};
use crate::questions::settle::Expected;
use crate::questions::settle::directed::{Directed, sheet_s_with_paths, with_entitlement};

pub fn all(chance: &mut Chance) -> Vec<Directed> {
    let mut all = sheet_s();
    all.extend(orders(chance));
    all.extend(limits(chance));
    all.extend(next_to_the_limit(chance));
    all.extend(market_next_to_the_limit(chance));
    all.extend(halves(chance));
    all.extend(impact_of_zero(chance));
    all.extend(greatest_impacts(chance));
    all
}

fn line(name: &str, value: i64) -> Expected {
    Expected::Line(format!("{name} {value}"))
}

/// Adjusted is 10,184,508. At 110 and 130 the entitlement is in the middle, at 200 the
/// market flow.
fn sheet_s() -> Vec<Directed> {
    let mut all = Vec::new();
    let listed = [
        (0, 10_184_508, 4_243_545),
        (100, 10_184_508, 76_878),
        (110, 11_000_000, 0),
        (130, 13_000_000, 0),
        (200, 13_187_500, -1_135_417),
    ];
    for (value, settled, amount) in listed {
        let mut input = sheet_s_with_paths();
        input.list = draft::entitlement(draft::name(b"A\\B"), value);
        let lines = vec![
            line("market", 13_187_500),
            line("settled", settled),
            line("amount", amount),
        ];
        all.push((input, lines));
    }
    all
}

/// A market flow and an impact of so many tenths of a MW, and nothing that is rounded.
pub fn flat(chance: &mut Chance, market: i64, impact: i64) -> Interval {
    let sizes = Sizes {
        zones: 1,
        units: 1,
        points: 10,
        pars: 0,
    };
    let mut interval = drawn(chance, sizes, Scale::TINY);
    interval.flowgate.clear();
    let whole = *FACTORS.end() as i16;
    let mut rest = market.abs();
    for (k, point) in interval.points.iter_mut().enumerate() {
        let wheel = rest.min(*SCHEDULES.end());
        rest -= wheel;
        point.wheel_out = 0;
        (point.import, point.export, point.wheel_in) = (0, 0, wheel as u32);
        interval.flowgate.points[k] = whole * market.signum() as i16;
    }
    add_lake(chance, &mut interval, Scale::TINY);
    interval.circulations[0].flow = 0;
    let mut rest = impact.abs();
    for path in &mut interval.paths {
        let flow = rest.min(200_000);
        rest -= flow;
        (path.flow, path.factor) = (flow as i32, whole * impact.signum() as i16);
    }
    interval
}

/// All three flows in tenths of a MW.
fn settled(chance: &mut Chance, origin: &str, flows: [i64; 3]) -> Directed {
    let [market, adjusted, entitlement] = flows;
    let mut sorted = flows;
    sorted.sort();
    let settled = Power(sorted[1]).watts().0;
    let interval = flat(chance, market, adjusted - market);
    let input = with_entitlement(origin, &interval, entitlement as i32);
    let expected = match settled.abs() > LARGEST_FLOW.0 {
        true => vec![Expected::Refusal(22)],
        false => vec![
            Expected::Refusal(0),
            line("market", Power(market).watts().0),
            line("settled", settled),
        ],
    };
    (input, expected)
}

/// Every order of three flows, and every tie.
fn orders(chance: &mut Chance) -> Vec<Directed> {
    let values = [-700, 0, 40];
    let mut all = Vec::new();
    for market in values {
        for adjusted in values {
            for entitlement in values {
                let flows = [market, adjusted, entitlement];
                all.push(settled(chance, "flows in any order", flows));
            }
        }
    }
    all
}

/// Market and adjusted flow within, on and beyond the limit.
fn limits(chance: &mut Chance) -> Vec<Directed> {
    let values = [
        -800_000i64,
        -100_001,
        -100_000,
        0,
        100_000,
        100_001,
        800_000,
    ];
    let mut all = Vec::new();
    for market in values {
        for adjusted in values {
            // Four paths have no more impact.
            if (adjusted - market).abs() > 800_000 {
                continue;
            }
            for entitlement in [-100_000, 7, 100_000] {
                let flows = [market, adjusted, entitlement];
                all.push(settled(chance, "flows around the limit", flows));
            }
        }
    }
    all
}

/// A market flow of half a MW beyond the limit, and paths that bring it back to some
/// watts before it or behind it.
fn next_to_the_limit(chance: &mut Chance) -> Vec<Directed> {
    let mut all = Vec::new();
    for sign in [1, -1] {
        for tens in -1..=2 {
            let mut interval = flat(chance, 100_005 * sign, -5 * sign);
            interval.paths[1].factor = 1;
            // 2,500 x 10 W make up for a quarter of the circulation on the first path.
            interval.paths[1].flow = 2_500 + tens;
            interval.paths[2].factor = 0;
            interval.paths[3].factor = 0;
            (interval.paths[0].flow, interval.paths[0].factor) = (-5 * sign as i32, 10_000);
            interval.circulations[0].flow = 1;
            let beyond = 10.0 * f64::from(tens) - 2.5;
            let settled = sign * LARGEST_FLOW.0 + beyond.round_ties_even() as i64;
            let expected = match settled.abs() > LARGEST_FLOW.0 {
                true => Expected::Refusal(22),
                false => line("settled", settled),
            };
            let input = with_entitlement("some watts from the limit", &interval, 0);
            all.push((input, vec![expected]));
        }
    }
    all
}

/// A market flow of 10 W before the limit or behind it, and paths that bring half a MW
/// more.
fn market_next_to_the_limit(chance: &mut Chance) -> Vec<Directed> {
    let mut all = Vec::new();
    for sign in [1, -1] {
        for (factor, row) in [(sign, 22), (-sign, 0)] {
            let mut interval = flat(chance, 100_000 * sign, 5 * sign);
            let last = interval.points.len() - 1;
            interval.points[last].wheel_in = 1;
            interval.flowgate.points[last] = factor as i16;
            let input = with_entitlement("10 W from the limit", &interval, 0);
            all.push((input, vec![Expected::Refusal(row)]));
        }
    }
    all
}

/// So many times 2.5 W, spread over the paths, beside a market flow of 0.
pub fn with_steps(chance: &mut Chance, steps: i64) -> Interval {
    let mut interval = flat(chance, 0, 0);
    let flow = (steps + 3).div_euclid(4);
    (interval.paths[2].flow, interval.paths[2].factor) = (flow as i32, 1);
    interval.circulations[0].flow = (4 * flow - steps) as i32;
    interval
}

/// The impact is settled, since the entitlement is beyond it.
fn halves(chance: &mut Chance) -> Vec<Directed> {
    let mut all = Vec::new();
    for steps in -12..=12 {
        let interval = with_steps(chance, steps);
        let value = if steps < 0 { -1 } else { 1 };
        let input = with_entitlement("halves of the impact", &interval, value);
        let rounded = (2.5 * steps as f64).round_ties_even() as i64;
        all.push((input, vec![line("market", 0), line("settled", rounded)]));
    }
    all
}

/// Paths whose impacts cancel, paths at the circulation, and factors of zero.
fn impact_of_zero(chance: &mut Chance) -> Vec<Directed> {
    let mut all = Vec::new();
    for [one, other] in [[5, -5], [0, 0], [10_000, -10_000]] {
        let mut interval = flat(chance, 30, 0);
        for (path, factor) in interval.paths.iter_mut().zip([one, one, other, other]) {
            (path.flow, path.factor) = (777, factor);
        }
        interval.circulations[0].flow = -31;
        let mut at_it = interval.clone();
        at_it.circulations[0].flow = 4 * 777;
        for interval in [interval, at_it] {
            let input = with_entitlement("an impact of zero", &interval, 20);
            all.push((input, vec![line("settled", 3_000_000)]));
        }
    }
    all
}

/// All fields at their ends; the entitlement is in the middle.
fn greatest_impacts(chance: &mut Chance) -> Vec<Directed> {
    let mut all = Vec::new();
    for sign in [1, -1] {
        let mut interval = flat(chance, -500_000 * sign, 800_000 * sign);
        interval.circulations[0].flow = -200_000;
        let value = 99_999 * sign as i32;
        let input = with_entitlement("the greatest impact", &interval, value);
        let settled = Power(99_999 * sign).watts().0;
        all.push((input, vec![Expected::Refusal(0), line("settled", settled)]));
    }
    all
}
