//! The reader of interval sheets: rows 1 to 13 and 28.

use crate::due::Due;
use crate::layout::{
    Fields, Kind, LAKE_FLOWS, LOADS, MOST_CIRCULATIONS, MOST_PARS, MOST_PATHS, MOST_POINTS,
    MOST_UNITS, MOST_ZONES, PAR_FLOWS, PRICES, SCHEDULES, SECONDS,
};
use crate::names::{Name, NameField, NamesSeen};
use crate::refusal::Refusal;
use crate::rows::{
    class, factor, name, new_name, power, room, rto, whole_lake, within, zone_number,
};
use crate::sheet::{
    FACTOR_RECORD, Head, Lake, Par, Path, Place, Point, Sheet, Unit, Zone, ZoneNumber,
};
use crate::units::{Power, Price, Seconds};

/// A refused sheet.
#[derive(Clone, Copy, Debug, PartialEq, Eq)]
pub struct Refused {
    pub refusal: Refusal,
    /// Where the offending record begins: the sheet's length for rows 12, 13
    /// and 28.
    pub place: usize,
}

impl From<Refused> for Refusal {
    fn from(refused: Refused) -> Refusal {
        refused.refusal
    }
}

/// Reads a sheet: its content, or the first faulty record's first row.
pub fn read(bytes: &[u8]) -> Result<Sheet<'_>, Refused> {
    let at = |place| move |refusal| Refused { refusal, place };
    let mut reader = Reader::open(bytes).map_err(at(0))?;
    while reader.place < bytes.len() {
        reader.record().map_err(at(reader.place))?;
    }
    reader.end().map_err(at(bytes.len()))
}

struct Reader<'a> {
    bytes: &'a [u8],
    /// Where the record at hand begins.
    place: usize,
    /// The kind of the record before.
    kind: Kind,
    names: NamesSeen,
    due: Option<Due>,
    paths: Vec<Path>,
    circulation: Option<Power>,
    sheet: Sheet<'a>,
}

impl<'a> Reader<'a> {
    /// Reads the first record.
    fn open(bytes: &'a [u8]) -> Result<Self, Refusal> {
        if bytes.first() != Some(&(Kind::Head as u8)) {
            return Err(Refusal::NoHead);
        }
        let body = body_of(Kind::Head, bytes)?;
        Ok(Reader {
            bytes,
            place: 1 + body.len(),
            kind: Kind::Head,
            names: NamesSeen::expecting(MOST_UNITS),
            due: None,
            paths: Vec::new(),
            circulation: None,
            sheet: Sheet {
                head: head(Fields::of(body))?,
                zones: Vec::new(),
                units: Vec::new(),
                points: Vec::new(),
                pars: Vec::new(),
                factor_records: &[],
                lake: None,
            },
        })
    }

    /// Reads one record after the first and moves on to the next.
    fn record(&mut self) -> Result<(), Refusal> {
        let rest = &self.bytes[self.place..];
        let kind = Kind::of(rest[0]).ok_or(Refusal::UnknownKind)?;
        let body = body_of(kind, rest)?;
        if kind < self.kind || kind == Kind::Head {
            return Err(Refusal::OutOfOrder);
        }
        if kind > self.kind {
            self.kind = kind;
            self.names.clear();
        }
        let fields = Fields::of(body);
        match kind {
            Kind::Zone => self.zone(fields)?,
            Kind::Unit => self.unit(fields)?,
            Kind::Point => self.point(fields)?,
            Kind::Par => self.par(fields)?,
            Kind::Path => self.path(fields)?,
            Kind::Circulation => self.circulation(fields)?,
            _ => self.factor(fields)?,
        }
        self.place += 1 + body.len();
        Ok(())
    }

    fn zone(&mut self, mut fields: Fields) -> Result<(), Refusal> {
        room(self.sheet.zones.len(), MOST_ZONES)?;
        let name = self.new_name(fields.bytes())?;
        let load = power(fields.unsigned_4(), LOADS)?;
        let losses = power(fields.unsigned_4(), LOADS)?;
        self.sheet.zones.push(Zone { name, load, losses });
        Ok(())
    }

    fn unit(&mut self, mut fields: Fields) -> Result<(), Refusal> {
        room(self.sheet.units.len(), MOST_UNITS)?;
        let name = self.new_name(fields.bytes())?;
        let zone = self.zone_number(fields.byte())?;
        let output = power(fields.unsigned_4(), LOADS)?;
        self.sheet.units.push(Unit { name, zone, output });
        Ok(())
    }

    fn point(&mut self, mut fields: Fields) -> Result<(), Refusal> {
        room(self.sheet.points.len(), MOST_POINTS)?;
        let name = self.new_name(fields.bytes())?;
        let class = class(fields.byte())?;
        let place = match fields.byte() {
            0 => Place::Proxy,
            zone => Place::Line(self.zone_number(zone)?),
        };
        let import = power(fields.unsigned_4(), SCHEDULES)?;
        let export = power(fields.unsigned_4(), SCHEDULES)?;
        let wheel_in = power(fields.unsigned_4(), SCHEDULES)?;
        let wheel_out = power(fields.unsigned_4(), SCHEDULES)?;
        self.sheet.points.push(Point {
            name,
            class,
            place,
            import,
            export,
            wheel_in,
            wheel_out,
        });
        Ok(())
    }

    fn par(&mut self, mut fields: Fields) -> Result<(), Refusal> {
        room(self.sheet.pars.len(), MOST_PARS)?;
        let name = self.new_name(fields.bytes())?;
        let class = class(fields.byte())?;
        let actual = power(fields.signed_4(), PAR_FLOWS)?;
        let target = power(fields.signed_4(), PAR_FLOWS)?;
        self.sheet.pars.push(Par {
            name,
            class,
            actual,
            target,
        });
        Ok(())
    }

    fn factor(&mut self, mut fields: Fields) -> Result<(), Refusal> {
        let due = self.due.get_or_insert_with(|| Due::by(self.sheet.counts()));
        if due.next().is_none_or(|due| due != fields.bytes()) {
            return Err(Refusal::FactorNotDue);
        }
        factor(fields.signed_2())?;
        // Kinds never fall, so the records of factors lie side by side.
        let first = self.place - self.sheet.factor_records.len() * FACTOR_RECORD;
        let records = &self.bytes[first..self.place + FACTOR_RECORD];
        self.sheet.factor_records = records.as_chunks().0;
        Ok(())
    }

    fn path(&mut self, mut fields: Fields) -> Result<(), Refusal> {
        room(self.paths.len(), MOST_PATHS)?;
        let name = self.new_name(fields.bytes())?;
        let flow = power(fields.signed_4(), LAKE_FLOWS)?;
        let factor = factor(fields.signed_2())?;
        self.paths.push(Path { name, flow, factor });
        Ok(())
    }

    fn circulation(&mut self, mut fields: Fields) -> Result<(), Refusal> {
        room(self.circulation.iter().count(), MOST_CIRCULATIONS)?;
        self.circulation = Some(power(fields.signed_4(), LAKE_FLOWS)?);
        Ok(())
    }

    /// Rows 6 and 7.
    fn new_name(&mut self, field: NameField) -> Result<Name, Refusal> {
        new_name(&mut self.names, field)
    }

    fn zone_number(&self, number: u8) -> Result<ZoneNumber, Refusal> {
        zone_number(number, self.sheet.zones.len())
    }

    /// Rows 12, 13 and 28.
    fn end(mut self) -> Result<Sheet<'a>, Refusal> {
        if self.sheet.zones.is_empty() || self.sheet.units.is_empty() {
            return Err(Refusal::NothingToSettle);
        }
        let mut due = self.due.unwrap_or_else(|| Due::by(self.sheet.counts()));
        if due.next().is_some() {
            return Err(Refusal::FactorsStillDue);
        }
        whole_lake(self.paths.len(), self.circulation.iter().count())?;
        let paths = self.paths;
        self.sheet.lake = self
            .circulation
            .map(|circulation| Lake { paths, circulation });
        Ok(self.sheet)
    }
}

/// The body of the record that opens these bytes.
fn body_of(kind: Kind, bytes: &[u8]) -> Result<&[u8], Refusal> {
    bytes.get(1..1 + kind.body()).ok_or(Refusal::CutShort)
}

fn head(mut fields: Fields) -> Result<Head, Refusal> {
    Ok(Head {
        name: name(fields.bytes())?,
        monitoring: rto(fields.byte())?,
        seconds: Seconds(within(SECONDS, fields.unsigned_2())?),
        monitoring_price: Price(within(PRICES, fields.unsigned_4())?),
        non_monitoring_price: Price(within(PRICES, fields.unsigned_4())?),
    })
}
