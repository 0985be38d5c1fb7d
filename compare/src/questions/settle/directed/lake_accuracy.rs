//! Sheets with paths whose settlement flow is next to the entitlement, or off the exact one
//! as far as it can be.

use second::exact;
use second::fraction::Fraction;
use second::reader::read;
use second::units::Power;

use crate::chance::Chance;
use crate::interval::{Interval, Scale, Sizes, add_lake, drawn};
use crate::questions::settle::directed::lake::with_steps;
use crate::questions::settle::directed::rounding::worst;
use crate::questions::settle::directed::{Directed, with_entitlement};
use crate::questions::settle::inputs::{market, small_impact};
use crate::questions::settle::{Expected, Input};

pub fn all(chance: &mut Chance) -> Vec<Directed> {
    let mut all = next_to_the_entitlement(chance);
    all.extend([2, 5, 8].map(|pars| far_off(chance, pars)));
    all
}

/// Settlement flows that are at the entitlement of 0 where the exact one is not, the
/// other way round, and on the other side of it.
fn next_to_the_entitlement(chance: &mut Chance) -> Vec<Directed> {
    let sides = [(0, 1), (0, -1), (1, 0), (-1, 0), (1, -1), (-1, 1)];
    let mut found = sides.map(|_| None);
    for _ in 0..200_000 {
        let interval = a_few_watts(chance);
        let input = with_entitlement("next to the entitlement, with paths", &interval, 0);
        let Ok(statement) = input.answer() else {
            continue;
        };
        if statement.settled.0.abs() > 3 {
            continue;
        }
        let sheet = read(&input.sheet).expect("an accepted sheet is read");
        let exact = exact::settlement_flow(&sheet, Power::ZERO).signum();
        let side = (statement.settled.0.signum(), exact);
        if let Some(k) = sides.iter().position(|it| *it == side) {
            found[k].get_or_insert((input, vec![Expected::Refusal(0)]));
        }
        if found.iter().all(Option::is_some) {
            break;
        }
    }
    found.into_iter().flatten().collect()
}

/// Market flow and impact of some watts, with PARs that carry all of their flows.
fn a_few_watts(chance: &mut Chance) -> Interval {
    let sizes = Sizes {
        zones: 2,
        units: 1,
        points: 0,
        pars: 3,
    };
    let scale = Scale {
        power: 30,
        factor: 2,
    };
    let mut interval = drawn(chance, sizes, scale);
    interval.head.monitoring = 2;
    for (par, factor) in interval.pars.iter_mut().zip(&mut interval.flowgate.pars) {
        par.target = par.actual;
        *factor = chance.pick(&[9999, -9999, 10_000, -10_000]);
    }
    add_lake(chance, &mut interval, Scale::TINY);
    small_impact(chance, &mut interval);
    interval
}

/// So many PARs of both classes, the last of them non-common: every rounding of the
/// market flow goes one way, nearly as far as it can, and the half of the impact too. The
/// adjusted flow is settled, more than p + 2 W off.
pub fn far_off(chance: &mut Chance, pars: usize) -> Directed {
    loop {
        let mut interval = much_rounded(chance, pars);
        let error = |interval: &Interval| {
            let bytes = interval.records().concat();
            let sheet = read(&bytes).expect("a drawn interval passes the reader");
            &Fraction::whole(market(&bytes)) - &exact::market_flow(&sheet)
        };
        let up = error(&interval).signum() > 0;
        add_lake(chance, &mut interval, Scale::TINY);
        // 2.5 is rounded down and 7.5 up.
        let lake = with_steps(chance, if up { 3 } else { 1 });
        (interval.paths, interval.circulations) = (lake.paths, lake.circulations);
        let input = above(&interval);
        if off_by_more_than(&input, pars as i64 + 2) {
            return (input, vec![Expected::Refusal(0)]);
        }
    }
}

/// With an entitlement well above the adjusted flow.
fn above(interval: &Interval) -> Input {
    let market = Power(1 + market(&interval.records().concat()) / Power(1).watts().0);
    let origin = format!("{} PARs and paths that round alike", interval.pars.len());
    with_entitlement(&origin, interval, market.0 as i32 + 1)
}

fn off_by_more_than(input: &Input, watts: i64) -> bool {
    let Ok(statement) = input.answer() else {
        return false;
    };
    let sheet = read(&input.sheet).expect("an accepted sheet is read");
    let entitlement = Power(statement.entitlement.0 / Power(1).watts().0);
    let exact = exact::settlement_flow(&sheet, entitlement);
    (&Fraction::whole(statement.settled.0) - &exact).abs() > Fraction::whole(watts)
}

/// Draws until the roundings of all targets are nearly 1 W; PARs have nearly whole
/// factors, so that what they carry is rounded by nearly a half.
fn much_rounded(chance: &mut Chance, pars: usize) -> Interval {
    let sizes = Sizes {
        zones: 3,
        units: 3,
        points: 1,
        pars,
    };
    let scale = Scale {
        power: 900,
        factor: 50,
    };
    let mut interval = drawn(chance, sizes, scale);
    interval.head.monitoring = 2;
    interval.head.prices = [400_000; 2];
    interval.head.seconds = 900;
    balance(chance, &mut interval);
    let common = pars - 1;
    for (k, par) in interval.pars.iter_mut().enumerate() {
        par.class = if k < common { 1 } else { 2 };
        (par.actual, par.target) = (0, 0);
    }
    // With two halves of PARs and one of the impact that is enough together.
    let count = pars as i64;
    let enough = Fraction::of(100 * count + 60, 100 * (count + 1));
    let own = worst(chance, &mut interval, 0, 20_000, &enough).signum();
    for target in 1..=pars {
        let error = worst(chance, &mut interval, target, 20_000, &enough).signum();
        // Only the first and the last of them leave something to round.
        let factor = if target == 1 || target == pars {
            9_999
        } else {
            10_000
        };
        interval.flowgate.pars[target - 1] = if error == own { -factor } else { factor };
    }
    for target in [1, pars] {
        tune(&mut interval, target, own);
    }
    interval
}

/// Loads and outputs of a prime number of tenths each, and a proxy's export of one.
fn balance(chance: &mut Chance, interval: &mut Interval) {
    for (zone, load) in interval.zones.iter_mut().zip([211, 223, 419]) {
        (zone.load, zone.losses) = (load, 0);
    }
    for (unit, output) in interval.units.iter_mut().zip([307, 233, 401]) {
        unit.output = output;
    }
    let point = &mut interval.points[0];
    (point.class, point.place) = (2, 0);
    (point.import, point.export) = (0, 1);
    (point.wheel_in, point.wheel_out) = (chance.below(2) as u32, 1);
}

/// Gives the point a factor on the PAR, which alone of its class leaves a rest, so that
/// what the class carries is rounded by nearly a half against the sign.
fn tune(interval: &mut Interval, target: usize, sign: i64) {
    let mut best = Fraction::whole(0);
    let mut taken = 0;
    for factor in 0..1_000 {
        interval.on_pars[target - 1].points[0] = factor;
        let bytes = interval.records().concat();
        let sheet = read(&bytes).expect("a drawn interval passes the reader");
        let error = &Fraction::whole(market(&bytes)) - &exact::market_flow(&sheet);
        if error.signum() == sign && error.abs() > best {
            (best, taken) = (error.abs(), factor);
        }
    }
    interval.on_pars[target - 1].points[0] = taken;
}
