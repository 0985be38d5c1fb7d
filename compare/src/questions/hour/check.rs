//! One hour on both sides.

use second::units::Power;

use crate::mismatch::{Mismatch, Trouble, same};
use crate::questions::hour::Input;
use crate::questions::settle;
use crate::sides::Sides;
use crate::sides::hours::{Changed, Hour};

/// An interval that was added to an hour, and what both sides answered.
pub struct Step<'a> {
    pub before: Hour,
    pub interval: &'a settle::Input,
    pub changed: Changed,
}

/// Adds one interval after the other on both sides, each to the same hour.
pub fn check<'a>(sides: &Sides, input: &'a Input) -> Result<Vec<Step<'a>>, Box<Trouble>> {
    let opened = opened(sides);
    let opened = opened.map_err(|it| input.trouble(&Hour::EMPTY, 0..0, it))?;
    let mut hour = input.before.unwrap_or(opened);
    totals(sides, &hour).map_err(|it| input.trouble(&hour, 0..0, it))?;
    let mut steps = Vec::with_capacity(input.intervals.len());
    for (k, interval) in input.intervals.iter().enumerate() {
        let changed = add(sides, &hour, interval);
        let changed = changed.map_err(|it| input.trouble(&hour, k..k + 1, it))?;
        steps.push(Step {
            before: hour,
            interval,
            changed,
        });
        hour = changed.hour;
        totals(sides, &hour).map_err(|it| input.trouble(&hour, 0..0, it))?;
    }
    if input.before.is_none() {
        let met = accuracy(sides, &hour, taken(&steps));
        met.map_err(|it| input.trouble_of_all(it))?;
    }
    Ok(steps)
}

/// The intervals that an hour took.
pub fn taken<'a>(steps: &[Step<'a>]) -> impl Iterator<Item = &'a settle::Input> {
    let taken = steps.iter().filter(|step| step.changed.refusal == 0);
    taken.map(|step| step.interval)
}

fn opened(sides: &Sides) -> Result<Hour, Mismatch> {
    let hour = sides.second.open();
    same("an hour that is opened", hour, sides.tested.open())?;
    Ok(hour)
}

fn add(sides: &Sides, hour: &Hour, interval: &settle::Input) -> Result<Changed, Mismatch> {
    let (sheet, list) = (&interval.sheet[..], &interval.list[..]);
    let changed = sides.second.add(hour, sheet, list);
    let tested = sides.tested.add(hour, sheet, list);
    same("hour with an interval", changed, tested)?;
    if changed.refusal != 0 {
        same("hour of a refusal", *hour, changed.hour)?;
    }
    Ok(changed)
}

fn totals(sides: &Sides, hour: &Hour) -> Result<(), Mismatch> {
    let totals = sides.second.totals(hour);
    same("totals", totals, sides.tested.totals(hour))
}

/// The tested side's amount of an hour beside those of its intervals, each settled
/// alone, and beside the exact ones.
fn accuracy<'a>(
    sides: &Sides,
    hour: &Hour,
    taken: impl Iterator<Item = &'a settle::Input>,
) -> Result<(), Mismatch> {
    let amount = sides.tested.totals(hour).amount;
    let mut sum = 0;
    let mut intervals = Vec::new();
    for interval in taken {
        let alone = sides.tested.settle(&interval.sheet, &interval.list);
        sum += alone.amount;
        let entitlement = alone.entitlement / Power(1).watts().0;
        intervals.push((&interval.sheet[..], entitlement));
    }
    same("sum of amounts", sum, amount)?;
    let verdict = sides.second.judge_hour(&intervals, amount);
    verdict.map_err(|breach| Mismatch::of("accuracy", "as demanded", breach))
}
