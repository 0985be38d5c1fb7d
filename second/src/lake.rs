//! The settlement flow, which leaves out the lake's circulation (request 6, after source
//! document 002).

use crate::sheet::Lake;
use crate::units::{QuarterWatts, Watts};

/// The impact of the PARs between Michigan and Ontario, before it is rounded: what each
/// path carries beyond its quarter of the circulation.
pub fn unrounded_impact(lake: &Lake) -> QuarterWatts {
    let share = lake.circulation.quarter();
    let paths = lake.paths.iter();
    paths
        .map(|path| (path.flow.in_quarters() - share) * path.factor)
        .sum()
}

pub fn impact(lake: &Lake) -> Watts {
    unrounded_impact(lake).rounded()
}

/// The middle one of market flow, adjusted flow and entitlement; the market flow where
/// the sheet has no paths.
pub fn settlement_flow(lake: Option<&Lake>, market: Watts, entitlement: Watts) -> Watts {
    let Some(lake) = lake else {
        return market;
    };
    let adjusted = market + impact(lake);
    middle([market, adjusted, entitlement])
}

pub fn middle(mut flows: [Watts; 3]) -> Watts {
    flows.sort();
    let [_, middle, _] = flows;
    middle
}
