//! Flows above, below and at the entitlement: with and without paths, at every price.

use second::draft;

use crate::chance::Chance;
use crate::interval::{Interval, Scale, Sizes, add_lake, drawn};
use crate::questions::explain::directed::Directed;
use crate::questions::settle::Input;
use crate::questions::settle::directed::lake::flat;
use crate::sides::Explanation;

pub fn all(chance: &mut Chance) -> Vec<Directed> {
    let mut all = orders(chance, [-700, 0, 40]);
    all.extend(orders(chance, [-100_000, 99_999, 100_000]));
    all.extend(one_watt(chance));
    all
}

const PRICES: [[u32; 2]; 4] = [[5000, 2000], [0, 2000], [5000, 0], [0, 0]];

/// Without paths, or with an impact.
fn accepted(interval: &Interval, entitlement: i64, difference: i64) -> Directed {
    let list = draft::entitlement(interval.head.name, entitlement as i32);
    let sheet = interval.records().concat();
    let expected = Explanation {
        refusal: 0,
        reason: match difference.signum() {
            1 => 1,
            -1 => 2,
            _ => 3,
        },
        from: sheet.len(),
        to: sheet.len(),
    };
    let input = Input::of("a flow beside the entitlement", sheet, list);
    (input, Some(expected))
}

/// Market flow, adjusted flow and entitlement in every order and tie, in tenths of a MW.
fn orders(chance: &mut Chance, values: [i64; 3]) -> Vec<Directed> {
    let mut all = Vec::new();
    for prices in PRICES {
        for market in values {
            for entitlement in values {
                for adjusted in values {
                    let mut interval = flat(chance, market, adjusted - market);
                    interval.head.prices = prices;
                    let mut flows = [market, adjusted, entitlement];
                    flows.sort();
                    let settled = flows[1];
                    all.push(accepted(&interval, entitlement, settled - entitlement));
                }
                let mut interval = flat(chance, market, 0);
                interval.head.prices = prices;
                interval.paths.clear();
                interval.circulations.clear();
                all.push(accepted(&interval, entitlement, market - entitlement));
            }
        }
    }
    all
}

/// A watt above and below the entitlement of 0: 10 x 1 x 1 less 10 x 1 x 9 / 10. Priced at
/// 1 for a second it costs nothing.
fn one_watt(chance: &mut Chance) -> Vec<Directed> {
    let sizes = Sizes {
        zones: 2,
        units: 1,
        points: 0,
        pars: 0,
    };
    let mut all = Vec::new();
    for (prices, seconds) in [([1, 1], 1), ([0, 0], 900), ([400_000, 400_000], 900)] {
        for sign in [1, -1] {
            let mut interval = drawn(chance, sizes, Scale::TINY);
            (interval.head.prices, interval.head.seconds) = (prices, seconds);
            for (zone, load) in interval.zones.iter_mut().zip([1, 9]) {
                (zone.load, zone.losses) = (load, 0);
            }
            (interval.units[0].zone, interval.units[0].output) = (1, 1);
            interval.flowgate.units[0] = sign;
            interval.flowgate.zones = vec![0, sign];
            all.push(accepted(&interval, 0, sign.into()));
            add_lake(chance, &mut interval, Scale::TINY);
            interval.circulations[0].flow = 0;
            for path in &mut interval.paths {
                (path.flow, path.factor) = (0, 1);
            }
            all.push(accepted(&interval, 0, sign.into()));
            // Further away, and to the other side.
            interval.paths[0].flow = i32::from(sign);
            all.push(accepted(&interval, 0, sign.into()));
            interval.paths[0].flow = -i32::from(sign);
            all.push(accepted(&interval, 0, 0));
        }
    }
    all
}
