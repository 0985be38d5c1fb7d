//! A draft in a short form: a line for each record, factors many to a line.

use std::fmt;

use second::names::NameField;

use super::{Circulation, Draft, Factor, Par, Path, Point, Unit, Zone};

/// Factors on a line.
const ABREAST: usize = 8;

impl fmt::Display for Draft {
    fn fmt(&self, f: &mut fmt::Formatter) -> fmt::Result {
        let head = &self.head;
        let (own, other) = (head.monitoring_price, head.nonmonitoring_price);
        write!(f, "head {} monitoring ", name(&head.name))?;
        write!(f, "{} seconds {} ", head.monitoring_rto, head.seconds)?;
        writeln!(f, "prices {own} {other}")?;
        writeln!(f, "zones {}", self.zone_count)?;
        lines(f, self.zones(), zone)?;
        writeln!(f, "units {}", self.unit_count)?;
        lines(f, self.units(), unit)?;
        writeln!(f, "points {}", self.point_count)?;
        lines(f, self.points(), point)?;
        writeln!(f, "PARs {}", self.par_count)?;
        lines(f, self.pars(), par)?;
        writeln!(f, "factors {}", self.factor_count)?;
        for abreast in self.factors().chunks(ABREAST) {
            let shown: Vec<String> = abreast.iter().map(factor).collect();
            writeln!(f, "  {}", shown.join("  "))?;
        }
        writeln!(f, "paths {}", self.path_count)?;
        lines(f, self.paths(), path)?;
        writeln!(f, "circulations {}", self.circulation_count)?;
        lines(f, self.circulations(), |it| it.flow.to_string())
    }
}

/// What stands behind the counts too, where it is not zero.
impl fmt::Debug for Draft {
    fn fmt(&self, f: &mut fmt::Formatter) -> fmt::Result {
        write!(f, "\n{self}")?;
        behind(f, &self.zones, self.zone_count, &Zone::NONE)?;
        behind(f, &self.units, self.unit_count, &Unit::NONE)?;
        behind(f, &self.points, self.point_count, &Point::NONE)?;
        behind(f, &self.pars, self.par_count, &Par::NONE)?;
        behind(f, &self.factors, self.factor_count, &Factor::NONE)?;
        behind(f, &self.paths, self.path_count, &Path::NONE)?;
        let (cells, count) = (&self.circulations, self.circulation_count);
        behind(f, cells, count, &Circulation::NONE)
    }
}

fn lines<T>(f: &mut fmt::Formatter, records: &[T], line: fn(&T) -> String) -> fmt::Result {
    let mut records = records.iter();
    records.try_for_each(|record| writeln!(f, "  {}", line(record)))
}

fn behind<T: fmt::Debug + PartialEq>(
    f: &mut fmt::Formatter,
    cells: &[T],
    count: usize,
    none: &T,
) -> fmt::Result {
    let cells = cells.iter().enumerate().skip(count);
    let mut cells = cells.filter(|(_, cell)| *cell != none);
    cells.try_for_each(|(k, cell)| writeln!(f, "behind the count, {k}: {cell:?}"))
}

fn name(field: &NameField) -> String {
    let used = field.iter().rposition(|byte| *byte != 0);
    let used = &field[..used.map_or(0, |last| last + 1)];
    format!("\"{}\"", used.escape_ascii())
}

fn zone(zone: &Zone) -> String {
    let Zone { load, losses, .. } = zone;
    format!("{} load {load} losses {losses}", name(&zone.name))
}

fn unit(unit: &Unit) -> String {
    let Unit { zone, output, .. } = unit;
    format!("{} zone {zone} output {output}", name(&unit.name))
}

fn point(point: &Point) -> String {
    let Point {
        sort, line, zone, ..
    } = point;
    let (import, export) = (point.import, point.export);
    let (wheel_in, wheel_out) = (point.wheel_in, point.wheel_out);
    let place = format!("{} type {sort} line {line} zone {zone}", name(&point.name));
    format!("{place} import {import} export {export} wheel in {wheel_in} out {wheel_out}")
}

fn par(par: &Par) -> String {
    let Par {
        class,
        actual,
        target,
        ..
    } = par;
    let name = name(&par.name);
    format!("{name} class {class} actual {actual} target {target}")
}

fn path(path: &Path) -> String {
    let Path { flow, factor, .. } = path;
    format!("{} flow {flow} factor {factor}", name(&path.name))
}

/// Target, subject and index, then the factor.
fn factor(factor: &Factor) -> String {
    let Factor {
        target,
        subject,
        index,
        factor,
    } = factor;
    format!("{target} {subject} {index}: {factor}")
}
