//! Which record refuses a sheet, and why an accepted one has its price (request 7).

use std::cmp::Ordering;
use std::fmt;
use std::ops::Range;

use crate::layout::{Kind, NAME};
use crate::names::bearing;
use crate::reader::{Refused, read};
use crate::refusal::Refusal;
use crate::settle::{Statement, statement};

/// The flow paid on beside the entitlement, by its number.
#[derive(Clone, Copy, Debug, PartialEq, Eq)]
#[repr(u8)]
pub enum Reason {
    Above = 1,
    Below = 2,
    At = 3,
}

impl Reason {
    /// By the difference's sign alone, whatever the price.
    fn of(statement: &Statement) -> Self {
        match statement.settled.cmp(&statement.entitlement) {
            Ordering::Greater => Reason::Above,
            Ordering::Less => Reason::Below,
            Ordering::Equal => Reason::At,
        }
    }
}

impl fmt::Display for Reason {
    fn fmt(&self, f: &mut fmt::Formatter) -> fmt::Result {
        f.write_str(match self {
            Reason::Above => "above",
            Reason::Below => "below",
            Reason::At => "at",
        })
    }
}

#[derive(Clone, Debug, PartialEq, Eq)]
pub struct Explanation {
    /// The reason for an accepted sheet's price, or the settlement's refusal.
    pub answer: Result<Reason, Refusal>,
    /// The part of the sheet that holds the offending record; empty at the sheet's end
    /// where there is none.
    pub part: Range<usize>,
}

impl Explanation {
    /// The refusal's number, 0 on an accepted sheet.
    pub fn refusal(&self) -> u8 {
        self.answer.map_or_else(Refusal::number, |_| 0)
    }

    /// The reason's number; a refusal has none, which is 0.
    pub fn reason(&self) -> u8 {
        self.answer.map_or(0, |reason| reason as u8)
    }
}

/// Explains what the settlement of a sheet answers.
pub fn explain(sheet: &[u8], list: &[u8]) -> Explanation {
    match read(sheet) {
        Ok(content) => Explanation {
            answer: statement(&content, list).map(|it| Reason::of(&it)),
            part: sheet.len()..sheet.len(),
        },
        Err(refused) => Explanation {
            answer: Err(refused.refusal),
            part: part(sheet, refused),
        },
    }
}

/// From the offending record's kind byte to its last byte present.
fn part(sheet: &[u8], Refused { refusal, place }: Refused) -> Range<usize> {
    let rest = &sheet[place..];
    let length = match refusal {
        Refusal::NoHead | Refusal::UnknownKind => rest.len().min(1),
        Refusal::CutShort => rest.len(),
        // Behind the last record there is no other.
        _ => record_length(rest),
    };
    place..place + length
}

/// How long the whole record is that opens these bytes, 0 where none does.
fn record_length(bytes: &[u8]) -> usize {
    kind_of(bytes).map_or(0, |kind| 1 + kind.body())
}

fn kind_of(record: &[u8]) -> Option<Kind> {
    record.first().and_then(|byte| Kind::of(*byte))
}

/// What the program prints for people.
pub fn explained(sheet: &[u8], list: &[u8]) -> String {
    let Explanation { answer, part } = explain(sheet, list);
    match answer {
        Ok(reason) => format!("accepted\nreason the flow paid on is {reason} the entitlement\n"),
        Err(refusal) => {
            let meaning = refusal.meaning();
            let Range { start, end } = part;
            let record = record_lines(&sheet[..start], &sheet[part]);
            format!("{refusal}\nmeaning {meaning}\nfrom {start}\nto {end}\n{record}")
        }
    }
}

/// The lines of the offending record, none where the part is empty.
fn record_lines(before: &[u8], part: &[u8]) -> String {
    let Some(byte) = part.first() else {
        return String::new();
    };
    let word = kind_of(part).map_or("unknown", word);
    let number = 1 + count_of(*byte, before);
    let name = name_of(part).map_or(String::new(), |name| format!("name {}\n", hex(name)));
    let bytes = hex(part);
    format!("kind {byte} {word}\nrecord {number}\n{name}bytes {bytes}\n")
}

fn word(kind: Kind) -> &'static str {
    match kind {
        Kind::Head => "head",
        Kind::Zone => "zone",
        Kind::Unit => "unit",
        Kind::Point => "scheduling point",
        Kind::Par => "PAR",
        Kind::Factor => "factor",
        Kind::Path => "path",
        Kind::Circulation => "circulation",
    }
}

/// How many of these records, which have passed, have this kind byte.
fn count_of(byte: u8, mut records: &[u8]) -> usize {
    let mut count = 0;
    while let Some(kind) = records.first() {
        count += usize::from(*kind == byte);
        records = &records[record_length(records)..];
    }
    count
}

/// The name without its filling, where the part holds it.
fn name_of(part: &[u8]) -> Option<&[u8]> {
    match kind_of(part)? {
        Kind::Factor | Kind::Circulation => None,
        _ => part.get(NAME)?.as_array().map(bearing),
    }
}

fn hex(bytes: &[u8]) -> String {
    bytes.iter().map(|byte| format!("{byte:02x}")).collect()
}
