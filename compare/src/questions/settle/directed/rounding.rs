//! Flows with as much rounding as there can be.

use second::exact;
use second::fraction::Fraction;
use second::generation_to_load::{Balance, flow};
use second::layout::{FACTORS, MOST_PARS};
use second::reader::read;
use second::sheet::FLOWGATE;

use crate::chance::Chance;
use crate::interval::{Interval, Scale, Sizes, drawn};
use crate::questions::settle::directed::{Directed, with_entitlement};
use crate::questions::settle::inputs::market;

/// The Monitoring and the Non-Monitoring price: the dearer one on either side.
const PRICES: [[u32; 2]; 6] = [
    [400_000, 0],
    [0, 400_000],
    [6000, 400_000],
    [400_000, 2000],
    [400_000, 400_000],
    [0, 0],
];

/// Sheets with eight PARs whose roundings add up, the flow next to the entitlement of
/// 0; PARs of one class or of both.
pub fn all(chance: &mut Chance) -> Vec<Directed> {
    let mut all = Vec::new();
    for common in [0, MOST_PARS / 2, MOST_PARS] {
        for monitoring in [1, 2] {
            for prices in PRICES {
                let mut interval = much_rounded(chance, common);
                interval.head.monitoring = monitoring;
                interval.head.prices = prices;
                interval.head.seconds = 900;
                let origin = format!("eight PARs, {common} common, that round alike");
                all.push((with_entitlement(&origin, &interval, 0), Vec::new()));
            }
        }
    }
    all
}

/// Rounded less exact generation-to-load flow of a target.
fn error(interval: &Interval, target: usize) -> Fraction {
    let bytes = interval.records().concat();
    let sheet = read(&bytes).expect("a drawn interval passes the reader");
    let rounded = flow(&sheet, &Balance::of(&sheet), target).flow;
    &Fraction::whole(rounded.0) - &exact::generation_to_load(&sheet, target)
}

fn much_rounded(chance: &mut Chance, common: usize) -> Interval {
    let sizes = Sizes {
        zones: 3,
        units: 3,
        points: 0,
        pars: MOST_PARS,
    };
    let scale = Scale {
        power: 400,
        factor: 50,
    };
    let mut interval = drawn(chance, sizes, scale);
    for (k, par) in interval.pars.iter_mut().enumerate() {
        par.class = if k < common { 1 } else { 2 };
        (par.actual, par.target) = (0, 0);
    }
    // The flowgate's own rounding goes one way, the PARs' the other.
    let most = Fraction::whole(1);
    let own = worst(chance, &mut interval, FLOWGATE, 40, &most).signum();
    let whole = *FACTORS.end() as i16;
    for target in 1..=MOST_PARS {
        let error = worst(chance, &mut interval, target, 40, &most);
        let alike = error.signum() == own;
        interval.flowgate.pars[target - 1] = if alike { -whole } else { whole };
    }
    let lever = interval.pars.len() - 1;
    interval.pars[lever].actual = 0;
    settle_near_zero(&mut interval);
    interval
}

/// Draws a target's factors until its rounding is the largest of so many, or is enough;
/// its error.
pub fn worst(
    chance: &mut Chance,
    interval: &mut Interval,
    target: usize,
    draws: usize,
    enough: &Fraction,
) -> Fraction {
    let mut worst = Fraction::whole(0);
    for _ in 0..draws {
        if worst.abs() >= *enough {
            break;
        }
        let before = interval.clone();
        let factors = match target {
            FLOWGATE => &mut interval.flowgate,
            par => &mut interval.on_pars[par - 1],
        };
        for value in factors.units.iter_mut().chain(&mut factors.zones) {
            *value = chance.within(-50..=50) as i16;
        }
        let error = error(interval, target);
        if error.abs() > worst.abs() {
            worst = error;
        } else {
            *interval = before;
        }
    }
    worst
}

/// Moves the market flow next to zero: a PAR with a whole factor controls 100,000 W a
/// tenth of a MW, its flow on the flowgate's own factors the rest.
fn settle_near_zero(interval: &mut Interval) {
    let flow = market(&interval.records().concat());
    let whole = i64::from(interval.flowgate.pars[0]) * 10;
    interval.pars[0].actual = (-flow / whole) as i32;
}
