//! The exact flow and amount: the papers' steps with no rounding anywhere, from
//! the sheet's content alone, and the accuracy that is demanded of rounded figures.

use std::cmp::Ordering;

use crate::fraction::Fraction;
use crate::sheet::{Class, FLOWGATE, Place, Rto, Sheet, Subject, Target};
use crate::units::{AMOUNT_DIVISOR, Amount, Power, Remainder, Watts};

/// A rounded generation-to-load flow with what its quotients left.
#[derive(Clone, Copy, Debug, PartialEq, Eq)]
pub struct RoundedFlow {
    pub flow: Watts,
    pub first_remainder: Remainder,
    pub second_remainder: Remainder,
}

/// Rounded figures that are to be judged.
#[derive(Clone, Debug)]
pub struct Rounded {
    pub targets: Vec<(Target, RoundedFlow)>,
    pub market: Watts,
    pub settled: Watts,
    pub amount: Amount,
}

/// What the exact steps 1 and 2 give, in tenths of a MW.
struct Totals {
    net_load: i64,
    net_generation: i64,
    final_generation: i64,
    outputs: i64,
}

fn totals(sheet: &Sheet) -> Totals {
    let (mut net_load, mut outputs) = (0, 0);
    for zone in &sheet.zones {
        net_load += zone.load.0 + zone.losses.0;
    }
    for unit in &sheet.units {
        outputs += unit.output.0;
    }
    let (mut line_exports, mut proxy_exports) = (0, 0);
    for point in &sheet.points {
        if point.place == Place::Proxy {
            proxy_exports += point.export.0;
        } else {
            net_load -= point.import.0;
            line_exports += point.export.0;
        }
    }
    let net_generation = outputs - line_exports;
    Totals {
        net_load,
        net_generation,
        final_generation: net_generation - proxy_exports,
        outputs,
    }
}

/// The sum of zone load × zone factor, called N.
fn weighted_loads(sheet: &Sheet, target: Target) -> i64 {
    let factors: Vec<i64> = sheet.factors(target, Subject::Zone).map(|f| f.0).collect();
    let mut sum = 0;
    for (zone, factor) in sheet.zones.iter().zip(&factors) {
        sum += (zone.load.0 + zone.losses.0) * factor;
    }
    for point in &sheet.points {
        if let Place::Line(zone) = point.place {
            sum -= point.import.0 * factors[zone.index()];
        }
    }
    sum
}

/// The exact generation-to-load flow of a target: (10 × A − 10 × G × N / net load)
/// × final generation / net generation.
pub fn generation_to_load(sheet: &Sheet, target: Target) -> Fraction {
    let totals = totals(sheet);
    let mut weighted_outputs = 0;
    for (unit, factor) in sheet.units.iter().zip(sheet.factors(target, Subject::Unit)) {
        weighted_outputs += unit.output.0 * factor.0;
    }
    let generation = Fraction::whole(10 * weighted_outputs);
    let load = &Fraction::whole(10 * totals.outputs)
        * &Fraction::of(weighted_loads(sheet, target), totals.net_load);
    &(&generation - &load) * &Fraction::of(totals.final_generation, totals.net_generation)
}

fn points_flow(sheet: &Sheet, target: Target, class: Class) -> i64 {
    let factors = sheet.factors(target, Subject::Point);
    let mut flow = 0;
    for (point, factor) in sheet.points.iter().zip(factors) {
        if point.class == class {
            let net = point.import.0 + point.wheel_in.0 - point.export.0 - point.wheel_out.0;
            flow += net * factor.0 * 10;
        }
    }
    flow
}

fn redirect(sheet: &Sheet, class: Class) -> Fraction {
    let mut carried = Fraction::whole(0);
    let mut control = 0;
    for (k, factor) in sheet.factors(FLOWGATE, Subject::Par).enumerate() {
        let par = &sheet.pars[k];
        if par.class != class {
            continue;
        }
        control += (par.actual.0 - par.target.0) * factor.0 * 10;
        let parallel = Fraction::whole(points_flow(sheet, k + 1, Class::NonCommon));
        let on_par = &generation_to_load(sheet, k + 1) + &parallel;
        carried = &carried + &(&Fraction::whole(factor.0) * &on_par);
    }
    &(&carried * &Fraction::of(1, 10_000)) - &Fraction::whole(control)
}

/// The exact market flow in watts.
pub fn market_flow(sheet: &Sheet) -> Fraction {
    let scheduled = points_flow(sheet, FLOWGATE, Class::NonCommon)
        + points_flow(sheet, FLOWGATE, Class::Common);
    let flow = &generation_to_load(sheet, FLOWGATE) + &Fraction::whole(scheduled);
    let flow = &flow - &redirect(sheet, Class::Common);
    match sheet.head.monitoring {
        Rto::Nyiso => flow,
        Rto::Pjm => &flow - &redirect(sheet, Class::NonCommon),
    }
}

/// The exact impact in watts; 0 where the sheet has no paths.
pub fn impact(sheet: &Sheet) -> Fraction {
    let mut impact = Fraction::whole(0);
    if let Some(lake) = &sheet.lake {
        let share = Fraction::of(lake.circulation.0, 4);
        for path in &lake.paths {
            let beyond = &Fraction::whole(path.flow.0) - &share;
            impact = &impact + &(&beyond * &Fraction::whole(path.factor.0 * 10));
        }
    }
    impact
}

/// The exact settlement flow, by the formulas of source document 002. Without paths the
/// adjusted flow is the market flow.
pub fn settlement_flow(sheet: &Sheet, entitlement: Power) -> Fraction {
    let entitlement = Fraction::whole(entitlement.0 * 100_000);
    let unadjusted = market_flow(sheet);
    let adjusted = &unadjusted + &impact(sheet);
    match adjusted.cmp(&unadjusted) {
        Ordering::Equal => unadjusted,
        Ordering::Greater => adjusted.min(unadjusted.max(entitlement)),
        Ordering::Less => adjusted.max(unadjusted.min(entitlement)),
    }
}

/// The exact amount in thousandths of a cent for the exact flow that is paid on, by the price of its
/// own side of the entitlement.
pub fn amount(sheet: &Sheet, flow: &Fraction, entitlement: Power) -> Fraction {
    let difference = flow - &Fraction::whole(entitlement.0 * 100_000);
    let price = match difference.signum() {
        1 => sheet.head.monitoring_price.0,
        -1 => sheet.head.non_monitoring_price.0,
        _ => 0,
    };
    &difference * &Fraction::of(price * sheet.head.seconds.0, AMOUNT_DIVISOR)
}

/// How many watts the market flow may be off: p + 2.
pub fn flow_bound(sheet: &Sheet) -> i64 {
    sheet.pars.len() as i64 + 2
}

/// How many watts the settlement flow may be off: p + 2, and one more with paths.
pub fn settled_bound(sheet: &Sheet) -> i64 {
    flow_bound(sheet) + i64::from(sheet.lake.is_some())
}

/// How far the amount may be off: the settlement flow's bound at the dearer price, and a half.
pub fn amount_bound(sheet: &Sheet) -> Fraction {
    let head = &sheet.head;
    let dearer = head.monitoring_price.max(head.non_monitoring_price);
    let worth = settled_bound(sheet) * dearer.0 * head.seconds.0;
    &Fraction::of(worth, AMOUNT_DIVISOR) + &Fraction::of(1, 2)
}

/// Judges the accuracy of the rounded figures of an accepted interval; an error
/// tells what is broken.
pub fn judge(sheet: &Sheet, entitlement: Power, rounded: &Rounded) -> Result<(), String> {
    for (target, figures) in &rounded.targets {
        judge_target(sheet, *target, figures)?;
    }
    let flow = market_flow(sheet);
    let bound = Fraction::whole(flow_bound(sheet));
    within("market flow", rounded.market.0, &flow, &bound)?;
    let settled = settlement_flow(sheet, entitlement);
    let bound = Fraction::whole(settled_bound(sheet));
    within("settlement flow", rounded.settled.0, &settled, &bound)?;
    let amount = amount(sheet, &settled, entitlement);
    within("amount", rounded.amount.0, &amount, &amount_bound(sheet))
}

/// Judges an hour's amount by its accepted intervals, each with its entitlement: it is
/// no further from the sum of the exact amounts than their bounds together.
pub fn judge_hour(intervals: &[(Sheet, Power)], rounded: Amount) -> Result<(), String> {
    let (mut exact, mut bound) = (Fraction::whole(0), Fraction::whole(0));
    for (sheet, entitlement) in intervals {
        let settled = settlement_flow(sheet, *entitlement);
        exact = &exact + &amount(sheet, &settled, *entitlement);
        bound = &bound + &amount_bound(sheet);
    }
    within("amount of the hour", rounded.0, &exact, &bound)
}

/// The generation-to-load flow is the exact one exactly when net load × second
/// remainder = final generation × first remainder, and never more than 1 W off.
fn judge_target(sheet: &Sheet, target: Target, rounded: &RoundedFlow) -> Result<(), String> {
    let totals = totals(sheet);
    let exact = generation_to_load(sheet, target);
    let what = format!("generation-to-load flow of target {target}");
    within(&what, rounded.flow.0, &exact, &Fraction::whole(1))?;
    let told = i128::from(totals.net_load) * i128::from(rounded.second_remainder.0)
        == i128::from(totals.final_generation) * i128::from(rounded.first_remainder.0);
    if told == (Fraction::whole(rounded.flow.0) == exact) {
        return Ok(());
    }
    Err(format!(
        "{what} is {} and exact is {exact}, but the remainders {} and {} tell otherwise",
        rounded.flow, rounded.first_remainder, rounded.second_remainder
    ))
}

fn within(what: &str, rounded: i64, exact: &Fraction, bound: &Fraction) -> Result<(), String> {
    if (&Fraction::whole(rounded) - exact).abs() <= *bound {
        return Ok(());
    }
    Err(format!(
        "{what} is {rounded} and exact is {exact}, more than {bound} off"
    ))
}
