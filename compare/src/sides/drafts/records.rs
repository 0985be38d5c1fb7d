//! Drafts and records, from one to the other.

use super::{Circulation, Draft, Factor, Head, Par, Path, Point, Unit, Zone};
use crate::interval::{self, Interval, Record};

/// A place that no sheet has: it stands for the line into zone 0 that a draft can say
/// and a record can't.
const NO_PLACE: u8 = u8::MAX;

impl Draft {
    pub fn of(interval: &Interval) -> Self {
        let mut draft = Draft::EMPTY;
        for record in interval.content() {
            draft.push(&record);
        }
        draft
    }

    /// Adds a record behind those of its kind.
    pub fn push(&mut self, record: &Record) {
        match record {
            Record::Head(it) => self.head = Head::of(it),
            Record::Zone(it) => put(&mut self.zones, &mut self.zone_count, Zone::of(it)),
            Record::Unit(it) => put(&mut self.units, &mut self.unit_count, Unit::of(it)),
            Record::Point(it) => put(&mut self.points, &mut self.point_count, Point::of(it)),
            Record::Par(it) => put(&mut self.pars, &mut self.par_count, Par::of(it)),
            Record::Factor(it) => put(&mut self.factors, &mut self.factor_count, Factor::of(it)),
            Record::Path(it) => put(&mut self.paths, &mut self.path_count, Path::of(it)),
            Record::Circulation(it) => put(
                &mut self.circulations,
                &mut self.circulation_count,
                Circulation { flow: it.flow },
            ),
        }
    }

    /// Its records one behind the other, as the bytes of a sheet.
    pub fn sheet(&self) -> Vec<u8> {
        let records: Vec<Vec<u8>> = self.records().iter().map(Record::bytes).collect();
        records.concat()
    }

    /// Its records as they would stand on a sheet.
    fn records(&self) -> Vec<Record> {
        let mut records = vec![Record::Head(self.head.record())];
        records.extend(self.zones().iter().map(|it| Record::Zone(it.record())));
        records.extend(self.units().iter().map(|it| Record::Unit(it.record())));
        records.extend(self.points().iter().map(|it| Record::Point(it.record())));
        records.extend(self.pars().iter().map(|it| Record::Par(it.record())));
        records.extend(self.factors().iter().map(|it| Record::Factor(it.record())));
        records.extend(self.paths().iter().map(|it| Record::Path(it.record())));
        let circulations = self.circulations().iter();
        records.extend(circulations.map(|it| Record::Circulation(it.record())));
        records
    }
}

fn put<T>(cells: &mut [T], count: &mut usize, record: T) {
    cells[*count] = record;
    *count += 1;
}

impl Head {
    fn of(head: &interval::Head) -> Self {
        Head {
            name: head.name,
            monitoring_rto: head.monitoring,
            seconds: head.seconds,
            monitoring_price: head.prices[0],
            nonmonitoring_price: head.prices[1],
        }
    }

    fn record(&self) -> interval::Head {
        interval::Head {
            name: self.name,
            monitoring: self.monitoring_rto,
            seconds: self.seconds,
            prices: [self.monitoring_price, self.nonmonitoring_price],
        }
    }
}

impl Zone {
    fn of(zone: &interval::Zone) -> Self {
        Zone {
            name: zone.name,
            load: zone.load,
            losses: zone.losses,
        }
    }

    fn record(&self) -> interval::Zone {
        interval::Zone {
            name: self.name,
            load: self.load,
            losses: self.losses,
        }
    }
}

impl Unit {
    fn of(unit: &interval::Unit) -> Self {
        Unit {
            name: unit.name,
            zone: unit.zone,
            output: unit.output,
        }
    }

    fn record(&self) -> interval::Unit {
        interval::Unit {
            name: self.name,
            zone: self.zone,
            output: self.output,
        }
    }
}

impl Point {
    fn of(point: &interval::Point) -> Self {
        Point {
            name: point.name,
            sort: point.class,
            line: u8::from(point.place != 0),
            zone: point.place,
            import: point.import,
            export: point.export,
            wheel_in: point.wheel_in,
            wheel_out: point.wheel_out,
        }
    }

    fn record(&self) -> interval::Point {
        interval::Point {
            name: self.name,
            class: self.sort,
            place: match (self.line, self.zone) {
                (0, _) => 0,
                (_, 0) => NO_PLACE,
                (_, zone) => zone,
            },
            import: self.import,
            export: self.export,
            wheel_in: self.wheel_in,
            wheel_out: self.wheel_out,
        }
    }
}

impl Par {
    fn of(par: &interval::Par) -> Self {
        Par {
            name: par.name,
            class: par.class,
            actual: par.actual,
            target: par.target,
        }
    }

    fn record(&self) -> interval::Par {
        interval::Par {
            name: self.name,
            class: self.class,
            actual: self.actual,
            target: self.target,
        }
    }
}

impl Factor {
    fn of(factor: &interval::Factor) -> Self {
        Factor {
            target: factor.target,
            subject: factor.subject,
            index: factor.index,
            factor: factor.value,
        }
    }

    fn record(&self) -> interval::Factor {
        interval::Factor {
            target: self.target,
            subject: self.subject,
            index: self.index,
            value: self.factor,
        }
    }
}

impl Path {
    fn of(path: &interval::Path) -> Self {
        Path {
            name: path.name,
            flow: path.flow,
            factor: path.factor,
        }
    }

    fn record(&self) -> interval::Path {
        interval::Path {
            name: self.name,
            flow: self.flow,
            factor: self.factor,
        }
    }
}

impl Circulation {
    fn record(&self) -> interval::Circulation {
        interval::Circulation { flow: self.flow }
    }
}

#[cfg(test)]
mod tests {
    use super::*;
    use crate::chance::Chance;
    use crate::interval::{Scale, Sizes, add_lake, drawn};

    #[test]
    fn the_sheet_of_a_draft_is_the_interval_s() {
        for k in 0..50 {
            let chance = &mut Chance::of(8, k);
            let sizes = Sizes::drawn(chance);
            let mut interval = drawn(chance, sizes, Scale::FULL);
            add_lake(chance, &mut interval, Scale::FULL);
            let sheet = Draft::of(&interval).sheet();
            assert_eq!(sheet, interval.records().concat());
        }
    }

    #[test]
    fn a_count_above_the_cells_gives_them_all() {
        let mut draft = Draft::EMPTY;
        for (count, given) in [(0, 0), (8, 8), (9, 9), (10, 9), (usize::MAX, 9)] {
            draft.par_count = count;
            assert_eq!(draft.pars().len(), given);
            assert_eq!(draft.length(), 28 + 26 * given);
        }
    }
}
