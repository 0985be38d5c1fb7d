//! Rows 5 to 13 and 28 on what a writer is given: each record by its own rows, in the sheet's
//! order, then the end.

use crate::content::{Circulation, Content, Factor, Head, Par, Path, Point, Unit, Zone};
use crate::due::Due;
use crate::layout::{
    LAKE_FLOWS, LOADS, MOST_CIRCULATIONS, MOST_PARS, MOST_PATHS, MOST_POINTS, MOST_UNITS,
    MOST_ZONES, PAR_FLOWS, PRICES, SCHEDULES, SECONDS,
};
use crate::names::NamesSeen;
use crate::refusal::Refusal;
use crate::rows::{self, class, name, new_name, room, rto, whole_lake, within, zone_number};
use crate::sheet::Place;

type Verdict = Result<(), Refusal>;

/// The first row that is met.
pub fn check(content: &Content) -> Verdict {
    let zone_count = content.zones.len();
    head(&content.head)?;
    zones(&content.zones)?;
    units(&content.units, zone_count)?;
    points(&content.points, zone_count)?;
    pars(&content.pars)?;
    let mut due = Due::by(content.counts());
    factors(&content.factors, &mut due)?;
    paths(&content.paths)?;
    circulations(&content.circulations)?;
    if content.zones.is_empty() || content.units.is_empty() {
        return Err(Refusal::NothingToSettle);
    }
    if due.next().is_some() {
        return Err(Refusal::FactorsStillDue);
    }
    whole_lake(content.paths.len(), content.circulations.len())
}

fn head(head: &Head) -> Verdict {
    name(head.name)?;
    rto(head.monitoring)?;
    within(SECONDS, head.seconds.into())?;
    within(PRICES, head.monitoring_price.into())?;
    within(PRICES, head.non_monitoring_price.into())?;
    Ok(())
}

fn zones(zones: &[Zone]) -> Verdict {
    let mut names = NamesSeen::expecting(MOST_ZONES);
    for (before, zone) in zones.iter().enumerate() {
        room(before, MOST_ZONES)?;
        new_name(&mut names, zone.name)?;
        within(LOADS, zone.load.into())?;
        within(LOADS, zone.losses.into())?;
    }
    Ok(())
}

fn units(units: &[Unit], zones: usize) -> Verdict {
    let mut names = NamesSeen::expecting(MOST_UNITS);
    for (before, unit) in units.iter().enumerate() {
        room(before, MOST_UNITS)?;
        new_name(&mut names, unit.name)?;
        zone_number(unit.zone, zones)?;
        within(LOADS, unit.output.into())?;
    }
    Ok(())
}

fn points(points: &[Point], zones: usize) -> Verdict {
    let mut names = NamesSeen::expecting(MOST_POINTS);
    for (before, point) in points.iter().enumerate() {
        room(before, MOST_POINTS)?;
        new_name(&mut names, point.name)?;
        class(point.class)?;
        if let Place::Line(zone) = point.place {
            zone_number(zone.0, zones)?;
        }
        within(SCHEDULES, point.import.into())?;
        within(SCHEDULES, point.export.into())?;
        within(SCHEDULES, point.wheel_in.into())?;
        within(SCHEDULES, point.wheel_out.into())?;
    }
    Ok(())
}

fn pars(pars: &[Par]) -> Verdict {
    let mut names = NamesSeen::expecting(MOST_PARS);
    for (before, par) in pars.iter().enumerate() {
        room(before, MOST_PARS)?;
        new_name(&mut names, par.name)?;
        class(par.class)?;
        within(PAR_FLOWS, par.actual.into())?;
        within(PAR_FLOWS, par.target.into())?;
    }
    Ok(())
}

/// Takes from what is due.
fn factors(factors: &[Factor], due: &mut Due) -> Verdict {
    for factor in factors {
        let [high, low] = factor.index.to_be_bytes();
        if due.next() != Some([factor.target, factor.subject, high, low]) {
            return Err(Refusal::FactorNotDue);
        }
        rows::factor(factor.value.into())?;
    }
    Ok(())
}

fn paths(paths: &[Path]) -> Verdict {
    let mut names = NamesSeen::expecting(MOST_PATHS);
    for (before, path) in paths.iter().enumerate() {
        room(before, MOST_PATHS)?;
        new_name(&mut names, path.name)?;
        within(LAKE_FLOWS, path.flow.into())?;
        rows::factor(path.factor.into())?;
    }
    Ok(())
}

fn circulations(circulations: &[Circulation]) -> Verdict {
    for (before, circulation) in circulations.iter().enumerate() {
        room(before, MOST_CIRCULATIONS)?;
        within(LAKE_FLOWS, circulation.flow.into())?;
    }
    Ok(())
}
