//! Whole hours (request 1): the accepted intervals of one flowgate and one Monitoring
//! RTO with their seconds and amounts, and rows 24 to 26.

use std::fmt::Write;

use crate::names::NameField;
use crate::refusal::Refusal;
use crate::settle::{Interval, interval};
use crate::sheet::{Head, Rto};
use crate::units::{Amount, Seconds};

pub const MOST_INTERVALS: usize = 60;
pub const MOST_SECONDS: Seconds = Seconds(3600);
/// No interval's amount is beyond this: 20,000,000,000 W at 400,000 for 900 s.
pub const LARGEST_AMOUNT: Amount = Amount(2_000_000_000_000);

/// In an hour grown from an empty one the cells behind the count are zero.
#[derive(Clone, Copy, Debug, PartialEq, Eq)]
pub struct Hour {
    pub amounts: [Amount; MOST_INTERVALS],
    pub seconds: [Seconds; MOST_INTERVALS],
    pub count: usize,
    /// The flowgate's, and zero bytes in an empty hour.
    pub name: NameField,
    /// The Monitoring RTO's code, and 0 in an empty hour.
    pub monitoring: u8,
}

#[derive(Clone, Copy, Debug, PartialEq, Eq)]
pub struct Totals {
    pub seconds: Seconds,
    pub amount: Amount,
    pub nyiso: Amount,
    pub pjm: Amount,
}

impl Hour {
    pub fn open() -> Self {
        Hour {
            amounts: [Amount::ZERO; MOST_INTERVALS],
            seconds: [Seconds::ZERO; MOST_INTERVALS],
            count: 0,
            name: [0; 16],
            monitoring: 0,
        }
    }

    /// Settles an interval and adds it with its seconds and amount; the amount. A
    /// refused one changes nothing.
    pub fn add(&mut self, sheet: &[u8], list: &[u8]) -> Result<Amount, Refusal> {
        let Interval { head, statement } = interval(sheet, list)?;
        self.admit(&head)?;
        let amount = statement.payment.amount;
        self.amounts[self.count] = amount;
        self.seconds[self.count] = head.seconds;
        self.count += 1;
        self.name = head.name.field();
        self.monitoring = head.monitoring as u8;
        Ok(amount)
    }

    /// Rows 24 to 26.
    fn admit(&self, head: &Head) -> Result<(), Refusal> {
        if self.count >= MOST_INTERVALS {
            return Err(Refusal::FullHour);
        }
        if self.total_seconds() + head.seconds > MOST_SECONDS {
            return Err(Refusal::PastTheHour);
        }
        let same_name = self.name == head.name.field();
        let same_rto = self.monitoring == head.monitoring as u8;
        match self.count == 0 || (same_name && same_rto) {
            true => Ok(()),
            false => Err(Refusal::OtherFlowgate),
        }
    }

    /// Where an hour was not grown from an empty one, a count above 60 tells 60.
    fn held(&self) -> usize {
        self.count.min(MOST_INTERVALS)
    }

    fn total_seconds(&self) -> Seconds {
        self.seconds[..self.held()].iter().copied().sum()
    }

    /// Where an hour was not grown from an empty one, an amount beyond the largest
    /// counts as the largest, and a code that is not NYISO's as PJM's.
    pub fn totals(&self) -> Totals {
        let amounts = self.amounts[..self.held()].iter().copied();
        let amount: Amount = amounts
            .map(|amount| amount.clamp(-LARGEST_AMOUNT, LARGEST_AMOUNT))
            .sum();
        let nyiso = match self.monitoring == Rto::Nyiso as u8 {
            true => amount,
            false => -amount,
        };
        Totals {
            seconds: self.total_seconds(),
            amount,
            nyiso,
            pjm: -nyiso,
        }
    }
}

/// What the program prints: a line for each sheet, then the hour's totals.
pub fn printed_hour(list: &[u8], sheets: &[&[u8]]) -> String {
    let mut hour = Hour::open();
    let mut lines = String::new();
    for sheet in sheets {
        let _ = match hour.add(sheet, list) {
            Ok(amount) => writeln!(lines, "amount {amount}"),
            Err(refusal) => writeln!(lines, "{refusal}"),
        };
    }
    let Totals {
        seconds,
        amount,
        nyiso,
        pjm,
    } = hour.totals();
    lines + &format!("seconds {seconds}\namount {amount}\nNYISO {nyiso}\nPJM {pjm}\n")
}
