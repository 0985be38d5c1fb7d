//! Every kind of record with every set of rows that it can meet at once: the lowest of
//! them refuses it.

use std::fmt;

use second::draft;
use second::layout::{
    Kind, LOADS, MOST_PARS, MOST_PATHS, MOST_POINTS, MOST_UNITS, MOST_ZONES, PRICES, SCHEDULES,
};
use second::names::NameField;

use crate::chance::Chance;
use crate::interval::{
    Circulation, Head, Interval, Par, Path, Point, Record, Scale, Sizes, Unit, Zone, add_lake,
    drawn,
};
use crate::questions::settle::faults::{above, bad_name, beyond_factors, beyond_par_flows};
use crate::questions::settle::{Expected, Input};

/// What is made faulty: the first record, or one behind sound ones.
#[derive(Clone, Copy, Debug, PartialEq, Eq)]
enum Site {
    First,
    Later(Kind),
}

impl Site {
    const ALL: [Site; 9] = [
        Site::First,
        Site::Later(Kind::Head),
        Site::Later(Kind::Zone),
        Site::Later(Kind::Unit),
        Site::Later(Kind::Point),
        Site::Later(Kind::Par),
        Site::Later(Kind::Factor),
        Site::Later(Kind::Path),
        Site::Later(Kind::Circulation),
    ];

    /// The rows that such a record can meet. A later head always meets 4, and no kind is
    /// above the circulation.
    fn rows(self) -> &'static [u8] {
        match self {
            Site::First => &[3, 6, 8, 9],
            Site::Later(Kind::Head) => &[3, 4, 6, 8, 9],
            Site::Later(Kind::Zone) => &[3, 4, 5, 6, 7, 9],
            Site::Later(Kind::Factor) => &[3, 4, 10, 11],
            Site::Later(Kind::Path) => &[3, 4, 5, 6, 7, 9, 11],
            Site::Later(Kind::Circulation) => &[3, 5, 9],
            Site::Later(_) => &[3, 4, 5, 6, 7, 8, 9],
        }
    }

    fn can_meet(self, rows: &[u8]) -> bool {
        let met = |row| rows.contains(&row);
        // An ill-formed name stands on no sound record before.
        let apart = !(met(6) && met(7));
        !rows.is_empty() && apart && (self != Site::Later(Kind::Head) || met(4))
    }
}

/// Two rows on one record.
pub struct Pair {
    site: Site,
    rows: [u8; 2],
}

impl fmt::Display for Pair {
    fn fmt(&self, f: &mut fmt::Formatter) -> fmt::Result {
        let [row, other] = self.rows;
        write!(f, "{:?}: rows {row} and {other}", self.site)
    }
}

pub fn pairs() -> Vec<Pair> {
    let mut pairs = Vec::new();
    for site in Site::ALL {
        for (k, row) in site.rows().iter().enumerate() {
            for other in &site.rows()[k + 1..] {
                let rows = [*row, *other];
                if site.can_meet(&rows) {
                    pairs.push(Pair { site, rows });
                }
            }
        }
    }
    pairs
}

/// A record that is to meet these rows and no other.
pub struct Faulty {
    site: Site,
    rows: Vec<u8>,
    /// Which of several code bytes or numbers is out of order.
    variant: usize,
}

/// Twelve take every code byte of a record with every number of it.
const VARIANTS: usize = 12;

pub fn all() -> Vec<Faulty> {
    let mut all = Vec::new();
    for site in Site::ALL {
        for set in 1..1 << site.rows().len() {
            let chosen = site.rows().iter().enumerate();
            let chosen = chosen.filter(|(k, _)| set & (1 << k) != 0);
            let rows: Vec<u8> = chosen.map(|(_, row)| *row).collect();
            if !site.can_meet(&rows) {
                continue;
            }
            let variants = if rows.len() <= 2 { VARIANTS } else { 2 };
            for variant in 0..variants {
                let rows = rows.clone();
                all.push(Faulty {
                    site,
                    rows,
                    variant,
                });
            }
        }
    }
    all
}

const EXTRA: NameField = *b"one more of them";

impl Faulty {
    fn meets(&self, row: u8) -> bool {
        self.rows.contains(&row)
    }

    /// The place among all pairs, if these are two rows.
    pub fn pair(&self) -> Option<usize> {
        pairs()
            .iter()
            .position(|pair| pair.site == self.site && pair.rows[..] == self.rows)
    }

    pub fn input(&self, chance: &mut Chance) -> (Input, [Expected; 2]) {
        let interval = self.interval(chance);
        let mut records = interval.content();
        let (at, mut record) = self.taken(chance, &interval, &mut records);
        for row in &self.rows {
            self.plant(chance, &interval, &mut record, *row);
        }
        records.insert(at, record);
        let bytes: Vec<Vec<u8>> = records.iter().map(Record::bytes).collect();
        let place = bytes[..at].iter().map(Vec::len).sum();
        let mut sheet = bytes.concat();
        if self.meets(3) {
            sheet.truncate(place + bytes[at].len() - 1);
        } else if self.variant % 2 == 1 {
            // A later record with a lower row loses.
            sheet.push(0);
        }
        let origin = format!("{:?} made to meet {:?}", self.site, self.rows);
        let list = draft::entitlement(interval.head.name, 0);
        let lowest = self.rows[0];
        let expected = [Expected::Refusal(lowest), Expected::Place(place)];
        (Input::of(&origin, sheet, list), expected)
    }

    /// A sound interval with several of each kind, and all of this one for row 5.
    fn interval(&self, chance: &mut Chance) -> Interval {
        let mut count = |kind, most| match self.site {
            Site::Later(site) if site == kind && self.meets(5) => most,
            _ => 2 + chance.below(3),
        };
        let sizes = Sizes {
            zones: count(Kind::Zone, MOST_ZONES),
            units: count(Kind::Unit, MOST_UNITS),
            points: count(Kind::Point, MOST_POINTS),
            pars: count(Kind::Par, MOST_PARS),
        };
        let mut interval = drawn(chance, sizes, Scale::TINY);
        self.add_lake(chance, &mut interval);
        interval
    }

    /// Four paths and a circulation, but for the record's own kind one less, or all of
    /// them for row 5.
    fn add_lake(&self, chance: &mut Chance, interval: &mut Interval) {
        add_lake(chance, interval, Scale::TINY);
        match self.site {
            _ if self.meets(5) => {}
            Site::Later(Kind::Path) => interval.paths.truncate(1 + chance.below(MOST_PATHS - 1)),
            Site::Later(Kind::Circulation) => interval.circulations.clear(),
            _ => {}
        }
    }

    /// The record that is to be made faulty, and where it goes: one that was there, or
    /// one more behind the last of its kind, or behind a later kind for row 4.
    fn taken(
        &self,
        chance: &mut Chance,
        interval: &Interval,
        records: &mut Vec<Record>,
    ) -> (usize, Record) {
        let Site::Later(site) = self.site else {
            return (0, records.remove(0));
        };
        let first = |above: u8, records: &[Record]| {
            let place = records.iter().position(|it| it.bytes()[0] > above);
            place.unwrap_or(records.len())
        };
        let (own, later) = (first(site as u8 - 1, records), first(site as u8, records));
        let behind =
            |chance: &mut Chance, from: usize| from + 1 + chance.below(records.len() - from);
        let (at, from) = match (site, self.meets(4)) {
            (Kind::Head, _) => (1 + chance.below(records.len()), None),
            // The last factor is still due behind the paths.
            (Kind::Factor, true) => (later + chance.below(records.len() - later), Some(later - 1)),
            (Kind::Factor, false) => {
                let at = own + chance.below(later - own);
                (at, Some(at))
            }
            (_, true) => (behind(chance, later), None),
            (_, false) => (later, None),
        };
        let record = from.map(|from| records.remove(from));
        (at, record.unwrap_or_else(|| extra(site, interval)))
    }

    fn plant(&self, chance: &mut Chance, interval: &Interval, record: &mut Record, row: u8) {
        match row {
            6 => {
                if let Some(name) = record.name_mut() {
                    *name = bad_name(chance);
                }
            }
            7 => {
                let earlier = earlier_name(chance, interval, record);
                if let Some(name) = record.name_mut() {
                    *name = earlier;
                }
            }
            8 => self.bad_code(chance, interval, record),
            9 => self.bad_number(chance, record),
            10 => self.not_due(chance, record),
            11 => match record {
                Record::Factor(it) => it.value = beyond_factors(chance),
                Record::Path(it) => it.factor = beyond_factors(chance),
                _ => {}
            },
            _ => {}
        }
    }

    fn bad_code(&self, chance: &mut Chance, interval: &Interval, record: &mut Record) {
        let above = interval.zones.len() as u8 + 1;
        let unlisted = chance.pick(&[0, 3, 255]);
        let first = self.variant.is_multiple_of(2);
        match record {
            Record::Head(it) => it.monitoring = unlisted,
            Record::Unit(it) => it.zone = if first { 0 } else { chance.pick(&[above, 255]) },
            Record::Point(it) if first => it.class = unlisted,
            Record::Point(it) => it.place = chance.pick(&[above, 255]),
            Record::Par(it) => it.class = unlisted,
            _ => {}
        }
    }

    fn bad_number(&self, chance: &mut Chance, record: &mut Record) {
        let number = self.variant / 2;
        let first = number.is_multiple_of(2);
        match record {
            Record::Head(it) => match number % 3 {
                0 => it.seconds = chance.pick(&[0, 901, u16::MAX]),
                price => it.prices[price - 1] = above(chance, &PRICES),
            },
            Record::Zone(it) if first => it.load = above(chance, &LOADS),
            Record::Zone(it) => it.losses = above(chance, &LOADS),
            Record::Unit(it) => it.output = above(chance, &LOADS),
            Record::Point(it) => *it.schedules_mut()[number % 4] = above(chance, &SCHEDULES),
            Record::Par(it) if first => it.actual = beyond_par_flows(chance),
            Record::Par(it) => it.target = beyond_par_flows(chance),
            Record::Path(it) => it.flow = beyond_par_flows(chance),
            Record::Circulation(it) => it.flow = beyond_par_flows(chance),
            Record::Factor(_) => {}
        }
    }

    fn not_due(&self, chance: &mut Chance, record: &mut Record) {
        let Record::Factor(it) = record else { return };
        match self.variant % 4 {
            0 => it.target ^= chance.pick(&[1, 8, 128]),
            1 => it.subject ^= chance.pick(&[1, 7, 128]),
            2 => it.index ^= chance.pick(&[1, 3, 128]),
            _ => it.index ^= chance.pick(&[0x100, 0x8000]),
        }
    }
}

/// A further record of a kind, sound by itself.
fn extra(kind: Kind, interval: &Interval) -> Record {
    let name = EXTRA;
    match kind {
        Kind::Head => Record::Head(Head {
            name,
            ..interval.head.clone()
        }),
        Kind::Zone => Record::Zone(Zone {
            name,
            load: 1,
            losses: 0,
        }),
        Kind::Unit => Record::Unit(Unit {
            name,
            zone: 1,
            output: 1,
        }),
        Kind::Point => Record::Point(Point {
            name,
            class: 1,
            place: 0,
            import: 0,
            export: 0,
            wheel_in: 0,
            wheel_out: 1,
        }),
        Kind::Path => Record::Path(Path {
            name,
            flow: 1,
            factor: 1,
        }),
        Kind::Circulation => Record::Circulation(Circulation { flow: 1 }),
        Kind::Par | Kind::Factor => Record::Par(Par {
            name,
            class: 2,
            actual: 1,
            target: 0,
        }),
    }
}

fn earlier_name(chance: &mut Chance, interval: &Interval, record: &Record) -> NameField {
    let names: Vec<NameField> = match record {
        Record::Zone(_) => interval.zones.iter().map(|it| it.name).collect(),
        Record::Unit(_) => interval.units.iter().map(|it| it.name).collect(),
        Record::Point(_) => interval.points.iter().map(|it| it.name).collect(),
        Record::Par(_) => interval.pars.iter().map(|it| it.name).collect(),
        Record::Path(_) => interval.paths.iter().map(|it| it.name).collect(),
        Record::Head(_) | Record::Factor(_) | Record::Circulation(_) => vec![EXTRA],
    };
    chance.pick(&names)
}

#[cfg(test)]
mod tests {
    use super::*;

    #[test]
    fn all_pairs_are_among_the_sets() {
        let all = all();
        for pair in 0..pairs().len() {
            assert!(all.iter().any(|faulty| faulty.pair() == Some(pair)));
        }
        let told: Vec<String> = pairs().iter().map(Pair::to_string).collect();
        assert!(told.contains(&String::from("Later(Point): rows 8 and 9")));
        assert!(!told.contains(&String::from("Later(Unit): rows 6 and 7")));
    }
}
