//! What the papers say of an input.

use std::fmt;

use crate::mismatch::Mismatch;
use crate::questions::settle::{Input, Room};
use crate::sides::Side;

#[derive(Debug)]
pub enum Expected {
    /// 0 for an accepted input.
    Refusal(u8),
    /// The sheet passes rows 1 to 13 and 28.
    Read,
    /// Where the offending record begins.
    Place(usize),
    /// A line of the listing.
    Line(String),
}

impl Expected {
    /// Whether a side answers so.
    pub fn holds(&self, side: &dyn Side, name: &str, input: &Input) -> Result<(), Mismatch> {
        let (met, found) = match self {
            Expected::Refusal(number) => {
                let figures = match input.room {
                    Room::Length(length) => {
                        let out = &mut vec![0; length];
                        side.report(&input.sheet, &input.list, out).figures
                    }
                    Room::Listing(_) => side.settle(&input.sheet, &input.list),
                };
                (figures.refusal == *number, format!("{figures:?}"))
            }
            Expected::Read => {
                let answer = side.read(&input.sheet);
                (answer.refusal == 0, format!("{answer:?}"))
            }
            Expected::Place(wanted) => {
                let place = side.read(&input.sheet).place;
                (place == *wanted, format!("place {place}"))
            }
            Expected::Line(line) => {
                let mut out = [0; 1024];
                let length = side.report(&input.sheet, &input.list, &mut out).length;
                let listing = String::from_utf8_lossy(&out[..length]).into_owned();
                (listing.lines().any(|found| found == line), listing)
            }
        };
        match met {
            true => Ok(()),
            false => Err(Mismatch::unexpected(self, name, found)),
        }
    }
}

impl fmt::Display for Expected {
    fn fmt(&self, f: &mut fmt::Formatter) -> fmt::Result {
        match self {
            Expected::Refusal(0) => write!(f, "accepted"),
            Expected::Refusal(number) => write!(f, "refused {number}"),
            Expected::Read => write!(f, "a sheet that is read"),
            Expected::Place(place) => write!(f, "place {place}"),
            Expected::Line(line) => write!(f, "{line}"),
        }
    }
}
